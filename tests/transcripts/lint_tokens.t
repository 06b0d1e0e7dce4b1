`kmap lint` on what is no token, or one that has no meaning: the texts as small as they can be, each with the place of
the fault, its line, and the caret below it.

BadByte. A character that begins no word, of one byte, of two and of four:
  $ echo '30 $' > t
  $ kmap lint --quiet t
  t:1:4: error: $ begins no word; a character that is meant is quoted: '$' [BadByte]
    30 $
       ^
  [1]
  $ printf '30 \302\243\n' > t
  $ kmap lint --quiet t
  t:1:4: error: £ begins no word; a character that is meant is quoted: '£' [BadByte]
    30 £
       ^
  [1]
  $ printf '30 \360\237\230\200\n' > t
  $ kmap lint --quiet t
  t:1:4: error: 😀 begins no word; a character that is meant is quoted: '😀' [BadByte]
    30 😀
       ^
  [1]

Bytes that are not shown: a form feed, the byte 127, and one that is no character:
  $ printf '30 \014\n' > t
  $ kmap lint --quiet t
  t:1:4: error: the byte 0x0c begins no word [BadByte]
    30 �
       ^
  [1]
  $ printf '30 \177\n' > t
  $ kmap lint --quiet t
  t:1:4: error: the byte 0x7f begins no word [BadByte]
    30 �
       ^
  [1]
  $ printf '30 \344\n' > t
  $ kmap lint --quiet t
  t:1:4: error: � begins no word; a character that is meant is quoted: '�' [BadByte]
    30 �
       ^
  [1]

BadLiteral. Two characters between apostrophes, an apostrophe that is missing, and a line feed between them:
  $ echo "30 'ab' 'b'" > t
  $ kmap lint --quiet t
  t:1:4: error: two characters stand between the apostrophes: U+0061 and U+0062; a quoted character is one [BadLiteral]
    30 'ab' 'b'
       ^
  [1]
  $ echo "30 'a 'b'" > t
  $ kmap lint --quiet t
  t:1:4: error: two characters stand between the apostrophes: U+0061 and U+0020; a quoted character is one [BadLiteral]
    30 'a 'b'
       ^
  [1]
  $ printf "30 'e\314\201' nop\n30 '\360\237\230\200\303\244'" > t
  $ kmap lint --quiet t
  t:1:4: error: two characters stand between the apostrophes: U+0065 and U+0301; a quoted character is one [BadLiteral]
    30 'é' nop
       ^
  t:2:4: error: two characters stand between the apostrophes: U+1f600 and U+00e4; a quoted character is one [BadLiteral]
    30 '😀ä'
       ^
  [1]

Three characters, two without an apostrophe behind them, bytes that are no UTF-8, and a line feed among the two:
  $ printf "30 'abc'\n30 'ab" > t
  $ kmap lint --quiet t
  t:1:4: error: no quoted character stands here: an apostrophe, one character other than a line feed, an apostrophe [BadLiteral]
    30 'abc'
       ^
  t:2:4: error: no quoted character stands here: an apostrophe, one character other than a line feed, an apostrophe [BadLiteral]
    30 'ab
       ^
  [1]
  $ printf "30 '\344\344'\n30 'a\n'" > t
  $ kmap lint --quiet t
  t:1:4: error: no quoted character stands here: an apostrophe, one character other than a line feed, an apostrophe [BadLiteral]
    30 '��'
       ^
  t:2:4: error: no quoted character stands here: an apostrophe, one character other than a line feed, an apostrophe [BadLiteral]
    30 'a
       ^
  t:3:2: error: the text ends in a quoted character [EndInside]
    '
     ^
  [1]
  $ printf "30 '\n" > t
  $ kmap lint --quiet t
  t:1:4: error: no quoted character stands here: an apostrophe, one character other than a line feed, an apostrophe [BadLiteral]
    30 '
       ^
  [1]

BadWord. A word without a meaning, where a cell is wanted and where the character of an accent is:
  $ echo '30 zz' > t
  $ kmap lint --quiet t
  t:1:4: error: zz means nothing; a character is written as 'x' or 0xh, a cell that gives nothing as nop [BadWord]
    30 zz
       ^
  [1]
  $ echo 'dacu zz' > t
  $ kmap lint --quiet t
  t:1:6: error: zz means nothing [BadWord]
    dacu zz
         ^
  [1]

A word that is one name but for one letter, which is left out, added, or another one, at the front, inside and at the
end; in capitals; also where no cell is wanted:
  $ printf '30 shif\n30 lshif\n30 lshft\n30 rctr\n30 lshiftt\n30 llshift\n30 lshuft\n30 mshift\n30 lshifd\n' > t
  $ kmap lint --quiet t | grep error
  t:1:4: error: shif means nothing; a character is written as 'x' or 0xh, a cell that gives nothing as nop [BadWord]
  t:2:4: error: lshif means nothing; did you mean lshift [BadWord]
  t:3:4: error: lshft means nothing; did you mean lshift [BadWord]
  t:4:4: error: rctr means nothing; did you mean rctrl [BadWord]
  t:5:4: error: lshiftt means nothing; did you mean lshift [BadWord]
  t:6:4: error: llshift means nothing; did you mean lshift [BadWord]
  t:7:4: error: lshuft means nothing; did you mean lshift [BadWord]
  t:8:4: error: mshift means nothing; a character is written as 'x' or 0xh, a cell that gives nothing as nop [BadWord]
  t:9:4: error: lshifd means nothing; did you mean lshift [BadWord]
  $ printf '30 LShif\n30 noop\ndacux 180\ndacu nux\n30 fkeyl0\n30 scro1\n30 altt\n30 delt\n30 backtap\n' > t
  $ kmap lint --quiet t | grep error
  t:1:4: error: LShif means nothing; did you mean lshift [BadWord]
  t:2:4: error: noop means nothing; did you mean nop [BadWord]
  t:3:1: error: dacux means nothing; did you mean dacu [BadWord]
  t:4:6: error: nux means nothing; did you mean nul [BadWord]
  t:5:4: error: fkeyl0 means nothing; a character is written as 'x' or 0xh, a cell that gives nothing as nop [BadWord]
  t:6:4: error: scro1 means nothing; a character is written as 'x' or 0xh, a cell that gives nothing as nop [BadWord]
  t:7:4: error: altt means nothing; did you mean alt [BadWord]
  t:8:4: error: delt means nothing; did you mean del [BadWord]
  t:9:4: error: backtap means nothing; did you mean backtab [BadWord]

Two letters that stand the other way round; what others call a key, an accent and a function key; and only names that
may stand where the word does, which are those of characters in an accent, those of accents at the beginning, and none
as a lock letter:
  $ printf '30 lshfit\n30 shift\n30 Caps\n30 acute\n30 F2\n30 f12\n30 f97\ndacu acute\nacute 180\nlshif 1\n' > t
  $ kmap lint --quiet t | grep error
  t:1:4: error: lshfit means nothing; did you mean lshift [BadWord]
  t:2:4: error: shift means nothing; did you mean lshift [BadWord]
  t:3:4: error: Caps means nothing; did you mean clock [BadWord]
  t:4:4: error: acute means nothing; did you mean dacu [BadWord]
  t:5:4: error: F2 means nothing; did you mean fkey02 [BadWord]
  t:6:4: error: f12 means nothing; did you mean fkey12 [BadWord]
  t:7:4: error: f97 means nothing; a character is written as 'x' or 0xh, a cell that gives nothing as nop [BadWord]
  t:8:6: error: acute means nothing [BadWord]
  t:9:1: error: acute means nothing; did you mean dacu [BadWord]
  t:10:1: error: lshif means nothing [BadWord]
  $ echo "30 'a' 'a' 'a' 'a' 'a' 'a' 'a' 'a' P" > t
  $ kmap lint --quiet t | grep error
  t:1:36: error: P means nothing; a lock letter is O, C, N or B [BadWord]

Each name of keymap(5) with one letter more; so and em have others near then, so their letter comes in front:
  $ names='nul soh stx etx eot enq ack bel bs ht nl vt ff cr si dle dc1 dc2 dc3 dc4 nak syn etb can sub esc fs gs rs ns del
  > lf np us nop lshift rshift clock nlock slock lalt btab lctrl nscr rctrl ralt alock ashift meta boot debug susp saver
  > stby pscr panic halt pdwn paste dgra dacu dcir dtil dmac dbre ddot duml dsla drin dced dapo ddac dogo dcar alt ctrl
  > backtab ddia'
  $ names="$names $(printf 'scr%02d ' $(seq 16)) $(printf 'fkey%02d ' $(seq 96))"
  $ printf '30 %sq\n' $names | split -l 20 - word.
  $ kmap lint --quiet word.* | sed -n 's/.*; did you mean \(.*\) \[BadWord\]$/\1/p' > meant
  $ printf '%s\n' $names | diff - meant
  $ wc -l < meant
  190
  $ printf '30 xso\n30 xem\n' > t
  $ kmap lint --quiet t | grep error
  t:1:4: error: xso means nothing; did you mean so [BadWord]
  t:2:4: error: xem means nothing; did you mean em [BadWord]

A letter without apostrophes, as a cell, as the character of an accent, as a base and as a result:
  $ echo '30 x' > t
  $ kmap lint --quiet t
  t:1:4: error: x means nothing; the character is 'x' [BadWord]
    30 x
       ^
  [1]
  $ echo 'dacu x' > t
  $ kmap lint --quiet t
  t:1:6: error: x means nothing; the character is 'x' [BadWord]
    dacu x
         ^
  [1]
  $ echo 'dacu 180 ( x' > t
  $ kmap lint --quiet t
  t:1:12: error: x means nothing; the character is 'x' [BadWord]
    dacu 180 ( x
               ^
  [1]
  $ echo "dacu 180 ( 'a' x" > t
  $ kmap lint --quiet t
  t:1:16: error: x means nothing; the character is 'x' [BadWord]
    dacu 180 ( 'a' x
                   ^
  [1]

A letter where no character can be meant: as a definition and as a lock letter:
  $ echo 'x' > t
  $ kmap lint --quiet t
  t:1:1: error: x means nothing [BadWord]
    x
    ^
  [1]
  $ echo "30 'a' 'a' 'a' 'a' 'a' 'a' 'a' 'a' x" > t
  $ kmap lint --quiet t
  t:1:36: error: x means nothing; a lock letter is O, C, N or B [BadWord]
    30 'a' 'a' 'a' 'a' 'a' 'a' 'a' 'a' x
                                       ^
  [1]

A character as others write it, of which so much is told as of a word, and U+ without a number:
  $ echo '30 U+00e4' > t
  $ kmap lint --quiet t
  t:1:4: error: U means nothing; for U+00e4 write 0x00e4 [BadWord]
    30 U+00e4
       ^
  [1]
  $ echo '30 U+1111111111222222222233333333334' > t
  $ kmap lint --quiet t
  t:1:4: error: U means nothing; for U+111111111122222222223333 write 0x111111111122222222223333 [BadWord]
    30 U+1111111111222222222233333333334
       ^
  [1]
  $ echo '30 u+00e4' > t
  $ kmap lint --quiet t | grep error
  t:1:4: error: u means nothing; for U+00e4 write 0x00e4 [BadWord]
  $ echo 'dacu U+b4, or so' > t
  $ kmap lint --quiet t
  t:1:6: error: U means nothing; for U+b4 write 0xb4 [BadWord]
    dacu U+b4, or so
         ^
  [1]
  $ echo '30 U+' > t
  $ kmap lint --quiet t
  t:1:4: error: U means nothing; the character is 'U' [BadWord]
    30 U+
       ^
  [1]

A word is told up to 24 characters, and has at most 32 bytes:
  $ echo '30 abcdefghijklmnopqrstuvwxyz012345' > t
  $ kmap lint --quiet t
  t:1:4: error: abcdefghijklmnopqrstuvwx means nothing; a character is written as 'x' or 0xh, a cell that gives nothing as nop [BadWord]
    30 abcdefghijklmnopqrstuvwxyz012345
       ^
  [1]
  $ echo '30 abcdefghijklmnopqrstuvwxyz0123456' > t
  $ kmap lint --quiet t
  t:1:4: error: a word has at most 32 bytes; this one has 33; a character is written as 'x' or 0xh, a cell that gives nothing as nop [BadWord]
    30 abcdefghijklmnopqrstuvwxyz0123456
       ^
  [1]
  $ echo 'abcdefghijklmnopqrstuvwxyz0123456' > t
  $ kmap lint --quiet t
  t:1:1: error: a word has at most 32 bytes; this one has 33 [BadWord]
    abcdefghijklmnopqrstuvwxyz0123456
    ^
  [1]

KeyTooLarge. A slot that is too large, in decimal and in hexadecimal, and told up to 24 characters:
  $ echo '256 nop' > t
  $ kmap lint --quiet t
  t:1:1: error: 256 is no slot: slots are 0 to 255 [KeyTooLarge]
    256 nop
    ^
  [1]
  $ echo '0x100 nop' > t
  $ kmap lint --quiet t
  t:1:1: error: 0x100 is no slot: slots are 0 to 255 [KeyTooLarge]
    0x100 nop
    ^
  [1]
  $ echo '1234567890123456789012345678 nop' > t
  $ kmap lint --quiet t
  t:1:1: error: 123456789012345678901234 is no slot: slots are 0 to 255 [KeyTooLarge]
    1234567890123456789012345678 nop
    ^
  [1]

BadChar. A surrogate, and a character that is too large:
  $ echo '30 0xD800' > t
  $ kmap lint --quiet t
  t:1:4: error: 0xD800 is no character: characters are 0 to 0xd7ff and 0xe000 to 0x10ffff [BadChar]
    30 0xD800
       ^
  [1]
  $ echo 'dacu 0x110000' > t
  $ kmap lint --quiet t
  t:1:6: error: 0x110000 is no character: characters are 0 to 0xd7ff and 0xe000 to 0x10ffff [BadChar]
    dacu 0x110000
         ^
  [1]

BadFunction. A function key that is too large, the function key 0, and a screen that is too large:
  $ echo '30 FKEY97' > t
  $ kmap lint --quiet t
  t:1:4: error: FKEY97 does not exist: there are fkey01 to fkey96 [BadFunction]
    30 FKEY97
       ^
  [1]
  $ echo '30 fkey0' > t
  $ kmap lint --quiet t
  t:1:4: error: fkey0 does not exist: there are fkey01 to fkey96 [BadFunction]
    30 fkey0
       ^
  [1]
  $ echo '30 Scr17' > t
  $ kmap lint --quiet t
  t:1:4: error: Scr17 does not exist: there are scr01 to scr16 [BadFunction]
    30 Scr17
       ^
  [1]

TooManyPairs. The pair 53 of an accent:
  $ {
  >     echo 'dacu 180'
  >     seq 33 85 | sed 's/.*/ ( & 300 )/'
  > } > t
  $ kmap lint --quiet t
  t:54:2: error: dacu has 52 pairs already, and room for no more [TooManyPairs]
     ( 85 300 )
     ^
  [1]

ZeroBase. The base 0, and its name:
  $ echo 'dacu 180 ( 0 0xe1 )' > t
  $ kmap lint --quiet t
  t:1:12: error: the base of a pair is a character other than 0 [ZeroBase]
    dacu 180 ( 0 0xe1 )
               ^
  [1]
  $ echo 'dacu 180 ( nul 0xe1 )' > t
  $ kmap lint --quiet t
  t:1:12: error: the base of a pair is a character other than 0 [ZeroBase]
    dacu 180 ( nul 0xe1 )
               ^
  [1]

Combined. Each modifier joined with alock:
  $ echo '30 lshifta' > t
  $ kmap lint --quiet t
  t:1:4: error: lshifta, a modifier joined with alock, is not supported; write lshift or alock [Combined]
    30 lshifta
       ^
  [1]
  $ echo '30 rshifta' > t
  $ kmap lint --quiet t
  t:1:4: error: rshifta, a modifier joined with alock, is not supported; write rshift or alock [Combined]
    30 rshifta
       ^
  [1]
  $ echo '30 lctrla' > t
  $ kmap lint --quiet t
  t:1:4: error: lctrla, a modifier joined with alock, is not supported; write lctrl or alock [Combined]
    30 lctrla
       ^
  [1]
  $ echo '30 rctrla' > t
  $ kmap lint --quiet t
  t:1:4: error: rctrla, a modifier joined with alock, is not supported; write rctrl or alock [Combined]
    30 rctrla
       ^
  [1]
  $ echo '30 lalta' > t
  $ kmap lint --quiet t
  t:1:4: error: lalta, a modifier joined with alock, is not supported; write lalt or alock [Combined]
    30 lalta
       ^
  [1]
  $ echo '30 ralta' > t
  $ kmap lint --quiet t
  t:1:4: error: ralta, a modifier joined with alock, is not supported; write ralt or alock [Combined]
    30 ralta
       ^
  [1]
