`kmap lint` on a token that stands where another one is wanted, at each place of a definition, and where a text ends
inside of one.

Unexpected. A character as a definition, and a parenthesis as a cell:
  $ echo "'a'" > t
  $ kmap lint --quiet t
  t:1:1: error: 'a' stands where the number of a slot or the name of an accent is wanted [Unexpected]
    'a'
    ^
  [1]
  $ echo '30 (' > t
  $ kmap lint --quiet t
  t:1:4: error: ( stands where the cell of slot 30 in column 0 (base) is wanted [Unexpected]
    30 (
       ^
  [1]

A lock letter in each of the columns:
  $ echo '200 o' > t
  $ kmap lint --quiet t
  t:1:5: error: o stands where the cell of slot 200 in column 0 (base) is wanted; slot 200 has 0 of 8 cells [Unexpected]
    200 o
        ^
  [1]
  $ echo '200 nop o' > t
  $ kmap lint --quiet t
  t:1:9: error: o stands where the cell of slot 200 in column 1 (shift) is wanted; slot 200 has 1 of 8 cells [Unexpected]
    200 nop o
            ^
  [1]
  $ echo '200 nop nop o' > t
  $ kmap lint --quiet t
  t:1:13: error: o stands where the cell of slot 200 in column 2 (ctrl) is wanted; slot 200 has 2 of 8 cells [Unexpected]
    200 nop nop o
                ^
  [1]
  $ echo '200 nop nop nop o' > t
  $ kmap lint --quiet t
  t:1:17: error: o stands where the cell of slot 200 in column 3 (ctrl shift) is wanted; slot 200 has 3 of 8 cells [Unexpected]
    200 nop nop nop o
                    ^
  [1]
  $ echo '200 nop nop nop nop o' > t
  $ kmap lint --quiet t
  t:1:21: error: o stands where the cell of slot 200 in column 4 (alt) is wanted; slot 200 has 4 of 8 cells [Unexpected]
    200 nop nop nop nop o
                        ^
  [1]
  $ echo '200 nop nop nop nop nop o' > t
  $ kmap lint --quiet t
  t:1:25: error: o stands where the cell of slot 200 in column 5 (alt shift) is wanted; slot 200 has 5 of 8 cells [Unexpected]
    200 nop nop nop nop nop o
                            ^
  [1]
  $ echo '200 nop nop nop nop nop nop o' > t
  $ kmap lint --quiet t
  t:1:29: error: o stands where the cell of slot 200 in column 6 (alt ctrl) is wanted; slot 200 has 6 of 8 cells [Unexpected]
    200 nop nop nop nop nop nop o
                                ^
  [1]
  $ echo '200 nop nop nop nop nop nop nop o' > t
  $ kmap lint --quiet t
  t:1:33: error: o stands where the cell of slot 200 in column 7 (alt ctrl shift) is wanted; slot 200 has 7 of 8 cells [Unexpected]
    200 nop nop nop nop nop nop nop o
                                    ^
  [1]

A ninth cell:
  $ echo "30 'a' 'a' 'a' 'a' 'a' 'a' 'a' 'a' 'a'" > t
  $ kmap lint --quiet t
  t:1:36: error: 'a' stands where the lock letter of slot 30 (O, C, N or B) is wanted; it has its 8 cells [Unexpected]
    30 'a' 'a' 'a' 'a' 'a' 'a' 'a' 'a' 'a'
                                       ^
  [1]

An action as the character of an accent, and a character behind that:
  $ echo 'dacu lshift' > t
  $ kmap lint --quiet t
  t:1:6: error: lshift stands where the character of dacu is wanted [Unexpected]
    dacu lshift
         ^
  [1]
  $ echo "dacu 180 'a'" > t
  $ kmap lint --quiet t
  t:1:10: error: 'a' stands where a pair of dacu, the number of a slot or the name of an accent is wanted [Unexpected]
    dacu 180 'a'
             ^
  [1]

A pair without its base, its result, and its closing parenthesis:
  $ echo 'ddia 168 ( )' > t
  $ kmap lint --quiet t
  t:1:12: error: ) stands where the base of a pair of duml is wanted [Unexpected]
    ddia 168 ( )
               ^
  [1]
  $ echo "dacu 180 ( 'a' )" > t
  $ kmap lint --quiet t
  t:1:16: error: ) stands where the result of a pair of dacu is wanted [Unexpected]
    dacu 180 ( 'a' )
                   ^
  [1]
  $ echo "dacu 180 ( 'a' 0xe1 (" > t
  $ kmap lint --quiet t
  t:1:21: error: ( stands where the ')' of a pair of dacu is wanted [Unexpected]
    dacu 180 ( 'a' 0xe1 (
                        ^
  [1]

EndInside. The text ends in a slot, in a character and in a pair:
  $ printf "30 'a'" > t
  $ kmap lint --quiet t
  t:1:7: error: the text ends where the cell of slot 30 in column 1 (shift) is wanted [EndInside]
    30 'a'
          ^
  [1]
  $ printf "30 'a' '" > t
  $ kmap lint --quiet t
  t:1:9: error: the text ends in a quoted character [EndInside]
    30 'a' '
            ^
  [1]
  $ printf "dacu 180 ( 'a' 0xe1" > t
  $ kmap lint --quiet t
  t:1:20: error: the text ends where the ')' of a pair of dacu is wanted [EndInside]
    dacu 180 ( 'a' 0xe1
                       ^
  [1]

The beginning of the definition is shown where that is an earlier line, of a slot and of an accent:
  $ cat > t << 'END'
  > 42 lshift lshift lshift lshift lshift lshift lshift lshift O
  > 30 'a' 'A'
  >    nop O
  > END
  $ kmap lint --quiet t
  t:3:8: error: O stands where the cell of slot 30 in column 3 (ctrl shift) is wanted; slot 30 has 3 of 8 cells [Unexpected]
       nop O
           ^
  t:2:1: note: slot 30 is defined from here on
    30 'a' 'A'
    ^
  [1]
  $ cat > t << 'END'
  >  31 nop nop nop nop nop nop nop nop
  > 30 'a' 'A' nop nop 'a' 'A' nop nop C
  > END
  $ kmap lint --quiet t
  t:2:1: error: 30 stands where the lock letter of slot 31 (O, C, N or B) is wanted; it has its 8 cells [Unexpected]
    30 'a' 'A' nop nop 'a' 'A' nop nop C
    ^
  t:1:2: note: slot 31 is defined from here on
     31 nop nop nop nop nop nop nop nop
     ^
  [1]
  $ printf "dacu 180 ( 'a' 0xe1 )\n( 'b' zz )\n" > t
  $ kmap lint --quiet t
  t:2:7: error: zz means nothing [BadWord]
    ( 'b' zz )
          ^
  t:1:1: note: dacu is defined from here on
    dacu 180 ( 'a' 0xe1 )
    ^
  [1]

It is not shown where the line itself begins it, where it has ended, and behind another fault:
  $ cat > t << 'END'
  > 30 'a' 'A' nop nop 'a' 'A' nop nop C
  > 31 zz
  > END
  $ kmap lint --quiet t
  t:2:4: error: zz means nothing; a character is written as 'x' or 0xh, a cell that gives nothing as nop [BadWord]
    31 zz
       ^
  [1]
  $ cat > t << 'END'
  > 30 'a' 'A' nop nop 'a' 'A' nop nop C
  > zz
  > END
  $ kmap lint --quiet t
  t:2:1: error: zz means nothing [BadWord]
    zz
    ^
  [1]
  $ printf "30\nfkey97\n" > t
  $ kmap lint --quiet t
  t:2:1: error: fkey97 does not exist: there are fkey01 to fkey96 [BadFunction]
    fkey97
    ^
  [1]

The place is the end of the text also where no byte stands in its line, which is seen by the $ at the ends of lines:
  $ cat > t << 'END'
  > 42 lshift lshift lshift lshift lshift lshift lshift lshift O
  > 30 'a'
  > END
  $ kmap lint --quiet t > printed
  [1]
  $ sed 's/$/$/' printed
  t:3:1: error: the text ends where the cell of slot 30 in column 1 (shift) is wanted [EndInside]$
    $
    ^$
  t:2:1: note: slot 30 is defined from here on$
    30 'a'$
    ^$
