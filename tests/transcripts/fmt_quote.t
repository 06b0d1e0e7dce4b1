`kmap fmt --quote` writes characters between apostrophes where they are seen there, and lays the text out.

`quoted` shows what becomes of the text `given`, and nothing else where its keymap is the same, it is in the layout, and
a second time changes nothing.
  $ quoted() {
  >     kmap fmt --quote --print given > wanted && cat wanted
  >     kmap fmt --quote --print wanted | cmp - wanted
  >     kmap fmt --check wanted && kmap fmt --quote --check wanted
  >     kmap compile given one && kmap compile wanted other && cmp one other
  > }

Numbers of ASCII, but for controls; the number of the slot, names and the lock letter stay:
  $ echo '30 0x0061 65 97 nop nul 033 0x7f 1 C' > given
  $ quoted
     30   'a'    'A'    'a'    nop    nul    '!'    0x7f   1       C
  $ echo '0x21 0x21 33 lshift fkey01 dacu esc 127 0 O' > given
  $ quoted
    0x21  '!'    '!'    lshift fkey01 dacu   esc    127    0       O

Nothing is escaped, and a blank stands before the next token:
  $ echo "16 39 0x5c 35 32 40 41 39 39 O" > given
  $ quoted
     16   '''    '\'    '#'    ' '    '('    ')'    '''    '''     O

A number of 0x80 to 0xff stays, since an 8-bit text may mean another character:
  $ echo '16 0xe4 0x41 228 nop nop nop nop nop C' > given
  $ quoted
     16   0xe4   'A'    228    nop    nop    nop    nop    nop     C

But where the text is Unicode for sure, by a number above 0xff or a character of two bytes:
  $ echo '16 0xe4 0x20ac 228 nop nop nop nop nop C' > given
  $ quoted
     16   'ä'    '€'    'ä'    nop    nop    nop    nop    nop     C
  $ printf "16 0xe4 '\303\266' 246 nop nop nop nop nop C\n" > given
  $ quoted
     16   'ä'    'ö'    'ö'    nop    nop    nop    nop    nop     C

A byte that stands alone, shown as ~ here, stays, and makes the text one that is not Unicode for sure:
  $ printf "16 0xe4 '\344' 0x0457 nop nop nop nop nop C\n" > given
  $ quoted > printed
  $ tr '\344' '~' < printed
     16   0xe4   '~'    'ї'    nop    nop    nop    nop    nop     C

What isn't seen there is a number: a mark, right to left, other spaces, an invisible, a private and no character:
  $ echo '16 0x0301 0x05d0 0x0627 0x00a0 0x202f 0x200b 0xe000 0x0378 O' > given
  $ quoted
     16   0x0301 0x05d0 0x0627 0x00a0 0x202f 0x200b 0xe000 0x0378  O
  $ printf "16 '\314\201' '\327\220' '\302\240' '\342\200\213' '\356\200\200' nop nop nop O\n" > given
  $ quoted
     16   0x0301 0x05d0 0x00a0 0x200b 0xe000 nop    nop    nop     O

A control between apostrophes gets its name:
  $ printf "16 '\001' '\t' '\033' '\177' nop nop nop nop O\n" > given
  $ quoted
     16   soh    ht     esc    del    nop    nop    nop    nop     O

Accents: their own characters, bases and results, and a slot behind them:
  $ echo 'dacu 180 (97 225)(0x63 0x0107) DGRA 96 16 49 nop nop nop nop nop nop nop O' > given
  $ quoted
    dacu  '´'  ( 'a' 'á' ) ( 'c' 'ć' )
    DGRA  '`'
     16   '1'    nop    nop    nop    nop    nop    nop    nop     O

Comments and empty lines stay:
  $ printf '# 0x61\n\n16 0x61 nop nop nop # 97\nnop nop nop nop O\n' > given
  $ quoted
  # 0x61

     16   'a'    nop    nop    nop  # 97
                                      nop    nop    nop    nop     O

Files are compared and written as without it:
  $ echo '    4   0x61   nop    nop    nop    nop    nop    nop    nop     O' > file
  $ kmap fmt --check file
  $ kmap fmt --quote --check file
  file
  [1]
  $ kmap fmt --quote file
  file
  $ cat file
      4   'a'    nop    nop    nop    nop    nop    nop    nop     O
  $ kmap fmt --quote file
  $ echo '5 nop nop nop nop nop nop nop O' > faulty
  $ kmap fmt --quote --print faulty
  ! kmap: faulty: text line 1 offset 30: Unexpected
  [1]
