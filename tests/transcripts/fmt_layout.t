`kmap fmt` lays a text out, each way in which it does.

`laid` shows the layout of the text `given`, and nothing else where each form of the command agrees: what is printed is
laid out already, `--check` names a file that is not, and writes nothing, and without it a file is named that is
written, with nothing left beside it.
  $ laid() {
  >     kmap fmt --print given > wanted && cat wanted
  >     kmap fmt --print wanted | cmp - wanted
  >     cp given file
  >     if cmp -s given wanted; then
  >         kmap fmt --check file && kmap fmt file
  >     else
  >         [ "$(echo $(kmap fmt --check file; echo $?))" = 'file 1' ] && cmp given file &&
  >             [ "$(echo $(kmap fmt file; echo $?))" = 'file 0' ]
  >     fi && cmp wanted file && [ ! -e file.kmap-fmt ]
  > }

Columns: each token begins at its stop, or a blank behind the one before it.

A short number ends in the column of long ones:
  $ printf '1 2 3 4 5 6 7 8 9 O' > given
  $ laid
      1   2      3      4      5      6      7      8      9       O

A wide number, and one that reaches into the cells:
  $ printf '0x2b lshift backtab nop nop nop nop nop nop C\n' > given
  $ laid
    0x2b  lshift backtab nop   nop    nop    nop    nop    nop     C
  $ printf '0000000016 nop nop nop nop nop nop nop nop N\n' > given
  $ laid
    0000000016 nop nop  nop    nop    nop    nop    nop    nop     N

Wide cells move those behind them as far as they lack room:
  $ printf '105 0x1f600 0x1f600 nop nop nop nop nop 0x00000000000e4 B\n' > given
  $ laid
    105   0x1f600 0x1f600 nop  nop    nop    nop    nop    0x00000000000e4 B

A quoted character is three wide, also where it is none, which is shown as ~ here:
  $ printf "16 '\303\244' '\342\202\254' '\360\237\230\200' ' ' ''' '#' ')' '\344' O\n" > given
  $ laid > printed
  $ tr '\344' '~' < printed
     16   'ä'    '€'    '😀'    ' '    '''    '#'    ')'    '~'     O

Pairs have blanks around each token, also behind a wide character, and names in capitals stay:
  $ printf "dgra '\`'('a' 224)( 'A' 192 )\n" > given
  $ laid
    dgra  '`'  ( 'a' 224 ) ( 'A' 192 )
  $ printf "dcar 0x02c7 ( 'c' 0x010d ) DMAC 00000\n" > given
  $ laid
    dcar  0x02c7 ( 'c' 0x010d )
    DMAC  00000

Four pairs stand in a line:
  $ printf "dcar 711 ('a' 1)('b' 2)('c' 3)('d' 4)('e' 5)('f' 6)('g' 7)('h' 8)('i' 9)\n" > given
  $ laid
    dcar  711  ( 'a' 1 ) ( 'b' 2 ) ( 'c' 3 ) ( 'd' 4 )
               ( 'e' 5 ) ( 'f' 6 ) ( 'g' 7 ) ( 'h' 8 )
               ( 'i' 9 )

Lines: a definition begins one, a comment ends its own, and of empty lines one is kept before these.

A definition is one line, however it was broken:
  $ printf '4 nop\nnop nop\n\n nop nop nop nop nop\nO 5 nop nop nop nop nop nop nop nop O' > given
  $ laid
      4   nop    nop    nop    nop    nop    nop    nop    nop     O
      5   nop    nop    nop    nop    nop    nop    nop    nop     O

Runs of empty lines:
  $ printf '\n\n\n# one\n\n\n\n# two\n# three\n\n\n' > given
  $ printf '4 nop nop nop nop nop nop nop nop O\n\n\n5 nop nop nop nop nop nop nop nop O\n\n\n' >> given
  $ laid
  # one

  # two
  # three

      4   nop    nop    nop    nop    nop    nop    nop    nop     O

      5   nop    nop    nop    nop    nop    nop    nop    nop     O

Comments beside and below:
  $ cat > given << 'END'
  >    # moved to the front
  > 4 nop nop nop nop nop nop nop nop O# behind the letter
  >   # in the next line
  > END
  $ laid
  # moved to the front
      4   nop    nop    nop    nop    nop    nop    nop    nop     O  # behind the letter
  # in the next line

A definition that comments break goes on in its columns:
  $ printf '4 nop nop # left\n\nnop nop nop\n# alone\n\n\nnop # three\nnop nop # eight\nO\n' > given
  $ laid
      4   nop    nop  # left
                        nop    nop    nop
  # alone
                                             nop  # three
                                                    nop    nop  # eight
                                                                   O

Pairs are counted anew behind a comment:
  $ printf "dacu 180 ('a' 225)('e' 233)\n\n" > given
  $ printf "# upper case\n('A' 193)('E' 201)('I' 205)('O' 211)('U' 218) ( # within\n'Y' 221)\n" >> given
  $ laid
    dacu  180  ( 'a' 225 ) ( 'e' 233 )

  # upper case
               ( 'A' 193 ) ( 'E' 201 ) ( 'I' 205 ) ( 'O' 211 )
               ( 'U' 218 ) (  # within
               'Y' 221 )

Tabs and CR LF, of which a tab in a comment stays, shown as ~ here:
  $ printf '# tab\tinside \t \r\r\n#\t\r\n#\n' > given
  $ printf '4\tnop\tnop\tnop\tnop\tnop\tnop\tnop\tnop\tO\r\n5 nop nop nop nop nop nop nop nop O\r\n' >> given
  $ laid > printed
  $ tr '\t' '~' < printed
  # tab~inside
  #
  #
      4   nop    nop    nop    nop    nop    nop    nop    nop     O
      5   nop    nop    nop    nop    nop    nop    nop    nop     O

Other bytes of comments stay as they are:
  $ printf '# lone \r within, \377\376 no UTF-8, a NUL \000 and a form feed at the end \014' > given
  $ laid > printed
  $ { cat given; echo; } | cmp - printed

A text without a last line feed, one without a byte, and one of blanks alone:
  $ printf '4 nop nop nop nop nop nop nop nop O # no line feed' > given
  $ laid
      4   nop    nop    nop    nop    nop    nop    nop    nop     O  # no line feed
  $ : > given
  $ laid
  $ printf ' \r\n\t\n\n' > given
  $ laid

The examples are laid out:
  $ cp "$examples/us.kbd" given
  $ laid > printed
  $ cmp given printed
  $ kmap fmt --check "$examples/de.kbd" "$examples/trap.kbd" "$examples/us.kbd"

The keymap stays, and so do its tables:
  $ tr -s ' ' '\t' < "$examples/de.kbd" | sed 's/$/\r/' > german
  $ kmap compile german before
  $ kmap fmt german
  german
  $ kmap compile german behind
  $ cmp before behind
