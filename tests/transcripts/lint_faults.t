`kmap lint` goes on behind the line of a fault, with a text of its own: what stands there begins a definition.

Five faults, the first of them the one that check tells. The pair in line 5 belongs to a definition that was dropped,
and the note of the last one shows where its definition begins:
  $ cat > t << 'END'
  > 030 'a' 'A' soh soh 'a' 'A' soh soh X
  > 031 's' 'S' dc3 dc3 's' 'S' dc3 dc3 C
  > 300 nop nop nop nop nop nop nop nop O
  > dgra '`' ( 'a' 0xe0 ) ( 'e' U+00e8 )
  >          ( 'u' 0xf9 )
  > 032 'd' 'D'
  >     eot eof 'd' 'D' eot eot C
  > END
  $ kmap lint --quiet t
  t:1:37: error: X means nothing; a lock letter is O, C, N or B [BadWord]
    030 'a' 'A' soh soh 'a' 'A' soh soh X
                                        ^
  t:3:1: error: 300 is no slot: slots are 0 to 255 [KeyTooLarge]
    300 nop nop nop nop nop nop nop nop O
    ^
  t:4:29: error: U means nothing; for U+00e8 write 0x00e8 [BadWord]
    dgra '`' ( 'a' 0xe0 ) ( 'e' U+00e8 )
                                ^
  t:5:10: error: ( stands where the number of a slot or the name of an accent is wanted [Unexpected]
             ( 'u' 0xf9 )
             ^
  t:7:9: error: eof means nothing; did you mean eot [BadWord]
        eot eof 'd' 'D' eot eot C
            ^
  t:6:1: note: slot 32 is defined from here on
    032 'd' 'D'
    ^
  [1]
  $ kmap check t
  ! kmap: text line 1 offset 36: BadWord
  [1]

A line has one fault at most, and what a text without faults is told of isn't told:
  $ printf "30 zz yy\n30 lshift 'A' nop nop 'a' 'A' nop nop O\n300 300\n" > t
  $ kmap lint --quiet t
  t:1:4: error: zz means nothing; a character is written as 'x' or 0xh, a cell that gives nothing as nop [BadWord]
    30 zz yy
       ^
  t:3:1: error: 300 is no slot: slots are 0 to 255 [KeyTooLarge]
    300 300
    ^
  [1]

A fault in the last line, which no line feed ends; a definition that the text breaks off there, a quoted character, and
an empty line:
  $ printf '300\n30 zz' > t
  $ kmap lint --quiet t
  t:1:1: error: 300 is no slot: slots are 0 to 255 [KeyTooLarge]
    300
    ^
  t:2:4: error: zz means nothing; a character is written as 'x' or 0xh, a cell that gives nothing as nop [BadWord]
    30 zz
       ^
  [1]
  $ printf "300\n30 'a'" > t
  $ kmap lint --quiet t
  t:1:1: error: 300 is no slot: slots are 0 to 255 [KeyTooLarge]
    300
    ^
  t:2:7: error: the text ends where the cell of slot 30 in column 1 (shift) is wanted [EndInside]
    30 'a'
          ^
  [1]
  $ printf "300\n30 '" > t
  $ kmap lint --quiet t
  t:1:1: error: 300 is no slot: slots are 0 to 255 [KeyTooLarge]
    300
    ^
  t:2:5: error: the text ends in a quoted character [EndInside]
    30 '
        ^
  [1]
  $ printf '300\n\n' > t
  $ kmap lint --quiet t
  t:1:1: error: 300 is no slot: slots are 0 to 255 [KeyTooLarge]
    300
    ^
  [1]

Of 20 faults all are told, and of more the first 20:
  $ many() {
  >     yes '30 zz' | head -n "$1" > t
  >     kmap lint --quiet t > printed
  >     grep -c ': error: ' printed
  >     tail -n 3 printed
  > }
  $ many 20
  20
  t:20:4: error: zz means nothing; a character is written as 'x' or 0xh, a cell that gives nothing as nop [BadWord]
    30 zz
       ^
  $ many 21
  20
    30 zz
       ^
  t:1:1: note: more faults follow
  $ many 100000
  20
    30 zz
       ^
  t:1:1: note: more faults follow
