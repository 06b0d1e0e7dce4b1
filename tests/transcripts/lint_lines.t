`kmap lint` shows the line of a fault and a caret below its place. The column counts bytes, the indent characters,
and a tab stands below a tab.

Characters of several bytes before the place:
  $ printf "30 '\303\244' '\342\202\254' '\344' zz\n" > t
  $ kmap lint --quiet t
  t:1:19: error: zz means nothing; a character is written as 'x' or 0xh, a cell that gives nothing as nop [BadWord]
    30 'ä' '€' '�' zz
                   ^
  [1]

Tabs, which are shown as ~ here:
  $ printf '\t30\tzz\t# \t\n' > t
  $ kmap lint --quiet t > printed
  [1]
  $ tr '\t' '~' < printed
  t:1:5: error: zz means nothing; a character is written as 'x' or 0xh, a cell that gives nothing as nop [BadWord]
    ~30~zz~# ~
    ~  ~^

A CR before the line feed is none of the line, but no other:
  $ printf '30 zz\r\n\r\n' > t
  $ kmap lint --quiet t
  t:1:4: error: zz means nothing; a character is written as 'x' or 0xh, a cell that gives nothing as nop [BadWord]
    30 zz
       ^
  [1]
  $ printf '30 zz\r\r\n' > t
  $ kmap lint --quiet t
  t:1:4: error: zz means nothing; a character is written as 'x' or 0xh, a cell that gives nothing as nop [BadWord]
    30 zz�
       ^
  [1]
  $ printf '30 \r\r\rzz' > t
  $ kmap lint --quiet t
  t:1:7: error: zz means nothing; a character is written as 'x' or 0xh, a cell that gives nothing as nop [BadWord]
    30 ���zz
          ^
  [1]

A CR at the end of the text:
  $ printf "30 'a'\r" > t
  $ kmap lint --quiet t
  t:1:8: error: the text ends where the cell of slot 30 in column 1 (shift) is wanted [EndInside]
    30 'a'
          ^
  [1]

What a terminal doesn't show, and pieces that are no character: an ESC, a soft hyphen, a mark that turns the
direction, two bytes of a character of three, a byte that begins none, and one alone. Nor does a message show it.
  $ printf "30 zz # \033[31m \302\255 \342\200\256 \342\202 \377 \200\n" > t
  $ kmap lint --quiet t
  t:1:4: error: zz means nothing; a character is written as 'x' or 0xh, a cell that gives nothing as nop [BadWord]
    30 zz # �[31m � � � � �
       ^
  [1]
  $ printf "30 'a' 'a' 'a' 'a' 'a' 'a' 'a' 'a' '\302\205'\n" > t
  $ kmap lint --quiet t
  t:1:36: error: '�' stands where the lock letter of slot 30 (O, C, N or B) is wanted; it has its 8 cells [Unexpected]
    30 'a' 'a' 'a' 'a' 'a' 'a' 'a' 'a' '�'
                                       ^
  [1]

Of a line 120 bytes before the place are shown, and 120 from it on. These have so many blanks, a word of two characters
and so many signs:
  $ line() {
  >     printf '%*szz%s\n' "$1" '' "$(printf '%*s' "$2" '' | tr ' ' '#')" > t
  >     kmap lint --quiet t
  > }
  $ line 0 118
  t:1:1: error: zz means nothing [BadWord]
    zz######################################################################################################################
    ^
  [1]
  $ line 0 119
  t:1:1: error: zz means nothing [BadWord]
    zz######################################################################################################################..
    ^
  [1]
  $ line 60 58
  t:1:61: error: zz means nothing [BadWord]
                                                                zz##########################################################
                                                                ^
  [1]
  $ line 60 59
  t:1:61: error: zz means nothing [BadWord]
                                                                zz###########################################################
                                                                ^
  [1]
  $ line 61 57
  t:1:62: error: zz means nothing [BadWord]
                                                                 zz#########################################################
                                                                 ^
  [1]
  $ line 61 58
  t:1:62: error: zz means nothing [BadWord]
                                                                 zz##########################################################
                                                                 ^
  [1]
  $ line 61 59
  t:1:62: error: zz means nothing [BadWord]
                                                                 zz###########################################################
                                                                 ^
  [1]
  $ line 100 100
  t:1:101: error: zz means nothing [BadWord]
                                                                                                        zz####################################################################################################
                                                                                                        ^
  [1]
  $ line 118 0
  t:1:119: error: zz means nothing [BadWord]
                                                                                                                          zz
                                                                                                                          ^
  [1]
  $ line 119 0
  t:1:120: error: zz means nothing [BadWord]
                                                                                                                           zz
                                                                                                                           ^
  [1]
  $ line 132 0
  t:1:133: error: zz means nothing [BadWord]
    ..                                                                                                                        zz
                                                                                                                              ^
  [1]
  $ line 132 57
  t:1:133: error: zz means nothing [BadWord]
    ..                                                                                                                        zz#########################################################
                                                                                                                              ^
  [1]
  $ line 2000 2000
  t:1:2001: error: zz means nothing [BadWord]
    ..                                                                                                                        zz######################################################################################################################..
                                                                                                                              ^
  [1]

What people hand in by mistake: a text that was cut off in a word, in a quoted character, or between lines.
  $ head -n 25 "$examples/us.kbd" > begun
  $ { cat begun; printf "  016   'q'    'Q'    dc"; } > t
  $ kmap lint --quiet t
  t:26:23: error: dc means nothing; a character is written as 'x' or 0xh, a cell that gives nothing as nop [BadWord]
      016   'q'    'Q'    dc
                          ^
  [1]
  $ { cat begun; printf "  016   'q'    '"; } > t
  $ kmap lint --quiet t
  t:26:17: error: the text ends in a quoted character [EndInside]
      016   'q'    '
                    ^
  [1]
  $ kmap lint --quiet begun
  begun:1:1: warning: no key is lshift or rshift [no-shift]
  begun:17:44: warning: the text defines no accent, so pressing dcir is an error [dead-key]
      007   '6'    '^'    rs     rs     '6'    dcir   rs     rs      O
                                               ^

A table file in place of a text, in either width:
  $ printf '030 nop nop nop nop nop nop nop nop O\n' > t
  $ kmap compile t tables
  $ kmap lint --quiet tables | grep -m 1 error
  tables:1:1: error: the byte 0x1f begins no word; this is a table file: kmap dump prints its text [BadByte]
  $ kmap compile --narrow t tables
  $ kmap lint --quiet tables | grep -m 1 error
  tables:1:1: error: the byte 0x1f begins no word; this is a table file: kmap dump prints its text [BadByte]

UTF-16 with and without its mark, and UTF-8 with one.
  $ printf '\377\376' > t
  $ printf '30 nop\n' | sed 's/./&@/g' | tr '@' '\000' >> t
  $ kmap lint --quiet t
  t:1:1: error: the text is UTF-16; save it as UTF-8 [BadByte]
    ��3�0� �n�o�p�
    ^
  [1]
  $ printf '\376\377\0003\0000\000 \000\n\000x' > t
  $ kmap lint --quiet t
  t:1:1: error: the text is UTF-16; save it as UTF-8 [BadByte]
    ���3�0� �
    ^
  [1]
  $ printf '\377' > t
  $ kmap lint --quiet t
  t:1:1: error: � begins no word; a character that is meant is quoted: '�' [BadByte]
    �
    ^
  [1]
  $ printf '42 lshift lshift lshift lshift lshift lshift lshift lshift O\n\377\376' > t
  $ kmap lint --quiet t
  t:2:1: error: � begins no word; a character that is meant is quoted: '�' [BadByte]
    ��
    ^
  [1]
  $ printf '30 nop\n' | sed 's/./&@/g' | tr '@' '\000' > u
  $ kmap lint --quiet u
  u:1:2: error: the byte 0x00 begins no word; this is no text [BadByte]
    3�0� �n�o�p�
     ^
  [1]
  $ printf '\357\273\27730 nop\n' > t
  $ kmap lint --quiet t
  t:1:1: error: a byte order mark begins no word; remove it [BadByte]
    �30 nop
    ^
  [1]

What ckbcomp writes, with characters as no keymap has them.
  $ cat > t << 'END'
  > #  code  base   shift  cntrl  shift  alt    shift  cntrl  shift  state
  >   029   lctrl  lctrl  lctrl  lctrl  lctrl  lctrl  lctrl  lctrl  O
  >   040   U+00e4 U+00c4 nop    nop    U+00e4 U+00c4 nop    nop    C
  > END
  $ kmap lint --quiet t
  t:3:9: error: U means nothing; for U+00e4 write 0x00e4 [BadWord]
      040   U+00e4 U+00c4 nop    nop    U+00e4 U+00c4 nop    nop    C
            ^
  [1]

JSON, a picture, PostScript, and a script:
  $ echo '{"keys": []}' > t
  $ kmap lint --quiet t
  t:1:1: error: { begins no word; a character that is meant is quoted: '{' [BadByte]
    {"keys": []}
    ^
  [1]
  $ echo '<svg xmlns="http://www.w3.org/2000/svg">' > t
  $ kmap lint --quiet t
  t:1:1: error: < begins no word; a character that is meant is quoted: '<' [BadByte]
    <svg xmlns="http://www.w3.org/2000/svg">
    ^
  [1]
  $ echo '%!PS # two' > t
  $ kmap lint --quiet t
  t:1:1: error: % begins no word; a character that is meant is quoted: '%' [BadByte]
    %!PS # two
    ^
  [1]
  $ printf 'down 42\nup 42\n' > t
  $ kmap lint --quiet t
  t:1:1: error: down means nothing [BadWord]
    down 42
    ^
  t:2:1: error: up means nothing [BadWord]
    up 42
    ^
  [1]

A program, and tables without a byte 0, of which a diagnostic for each line is printed, without controls but tabs:
  $ printf '\177ELF\002\001\001' > t
  $ kmap lint --quiet t
  t:1:1: error: the byte 0x7f begins no word [BadByte]
    �ELF���
    ^
  [1]
  $ kmap compile "$examples/us.kbd" tables && tr '\000' '\001' < tables > t
  $ kmap lint --quiet t > printed
  [1]
  $ tr -cd '\n' < t | wc -c
  13
  $ grep -c '^t:' printed
  14
  $ tr -d '\011\012\040-\176\200-\377' < printed | wc -c
  0

Every first line is in the form that compilers have: FILE:LINE:COLUMN: SEVERITY: MESSAGE, and no other is.
  $ cp "$examples/trap.kbd" .
  $ echo '30 zz' > bad
  $ kmap lint --quiet trap.kbd begun u bad > printed
  [1]
  $ grep -cE '^[^:]*:[0-9]+:[0-9]+: (error|warning|note): ' printed
  6
  $ grep -c '^[^ ]' printed
  6

The name of a file is shown as its text is, in one line, also that of a folder.
  $ name=$(printf 'a\033[31m\nb\342\200\256c')
  $ cp bad "$name"
  $ kmap lint --quiet "$name"
  a�[31m�b�c:1:4: error: zz means nothing; a character is written as 'x' or 0xh, a cell that gives nothing as nop [BadWord]
    30 zz
       ^
  [1]
  $ rm "$name"
  $ mkdir "$name"
  $ kmap lint --quiet "$name"
  ! kmap: a�[31m�b�c: text: read fault at offset 0
  [2]

A word, a number and a comment of almost 1 MiB: what is shown of them is cut.
  $ huge() {
  >     { printf "$1"; head -c 1000000 /dev/zero | tr '\000' "$2"; echo; } > t
  >     kmap lint --quiet t > printed
  >     echo "$?, $(grep -c ': error: ' printed) in $(wc -c < printed)" | sed 's/in [0-9]\{1,3\}$/in few bytes/'
  > }
  $ for front in '' '30 ' '30 0x' '30 U+' "30 'a" "30 '" '30 fkey' '30 scr' 'dacu ' '30 $' \
  >     "30 'a' 'A' nop nop 'a' 'A' nop nop " "dacu 'a' ( 'b' " "dacu 'a' ( "; do
  >     for byte in 0 a '\377' '\033'; do
  >         huge "$front" "$byte"
  >     done
  > done > all
  $ wc -l < all
  52
  $ sort -u all
  1, 1 in few bytes
