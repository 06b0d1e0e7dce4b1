`kmap lint` on what the keys of letters, digits and punctuation give.

gap. One slot of the main block, told at the first slot behind it:
  $ grep -v '^  043' "$examples/us.kbd" > t
  $ kmap lint --quiet t
  t:1:1: warning: no keys type '\' or '|' [cannot-type]
  t:53:3: warning: the text does not define slot 43, which gives nul [gap]
      044   'z'    'Z'    sub    sub    'z'    'Z'    sub    sub     C
      ^

Several; the last one is told at the greatest slot where no greater one is defined:
  $ grep -v '^  0\(21\|23\|24\|26\)' "$examples/us.kbd" > t
  $ kmap lint --quiet t
  t:1:1: warning: no keys type 'I', 'O', 'Y', '[', 'i', 'o', 'y' or '{' [cannot-type]
  t:31:3: warning: the text does not define slots 21, 23 to 24, 26, which give nul [gap]
      022   'u'    'U'    nak    nak    'u'    'U'    nak    nak     C
      ^
  $ awk '$1 + 0 < 57' "$examples/us.kbd" > t
  $ kmap lint --quiet t
  t:1:1: warning: no keys type ' ' [cannot-type]
  t:66:3: warning: the text does not define slot 57, which gives nul [gap]
      056   lalt   lalt   lalt   lalt   lalt   lalt   lalt   lalt    O
      ^

Eight are told, and nine are not: with fewer than 40 slots of the main block the text is a part of a keymap. Nor is a
slot beside the main block:
  $ grep -v '^  00[2-9]' "$examples/us.kbd" > t
  $ kmap lint --quiet t
  t:1:1: warning: no keys type '!', '#', '$', '%', '&', '@' or '^' [cannot-type]
  t:12:3: warning: the text does not define slots 2 to 9, which give nul [gap]
      010   '9'    '('    nop    nop    '9'    '('    nop    nop     O
      ^
  $ grep -v '^  0\(0[2-9]\|10\)' "$examples/us.kbd" > t
  $ kmap lint --quiet t
  t:1:1: warning: no keys type '!', '#', '$', '%', '&', '(', '@' or '^' [cannot-type]
  $ grep -v '^  086' "$examples/us.kbd" > t
  $ kmap lint --quiet t

exchanged. At the cell of column 0, of ASCII in any text:
  $ cat > t << 'END'
  > 42 lshift lshift lshift lshift lshift lshift lshift lshift O
  > 16 'Q' 'q' nop nop 'q' 'Q' nop nop C
  > 17 'w' 'W' nop nop 'w' 'W' nop nop C
  > 18 'E' 'E' nop nop 'e' 'E' nop nop C
  > END
  $ kmap lint --quiet t
  t:2:4: warning: slot 16 gives 'Q' without shift and 'q' with it [exchanged]
    16 'Q' 'q' nop nop 'q' 'Q' nop nop C
       ^

A number from 0x80 to 0xff may be of another set of characters than Latin-1. It is a letter where the text is Unicode
for sure:
  $ cat > t << 'END'
  > 42 lshift lshift lshift lshift lshift lshift lshift lshift O
  > 39 0xd6 0xf6 nop nop nop nop nop nop C
  > END
  $ kmap lint --quiet t
  $ echo '40 0x451 0x401 nop nop nop nop nop nop C' >> t
  $ kmap lint --quiet t
  t:2:4: warning: slot 39 gives 'Ö' without shift and 'ö' with it [exchanged]
    39 0xd6 0xf6 nop nop nop nop nop nop C
       ^

Not of slots that no key selects, nor of a definition without effect:
  $ cat > t << 'END'
  > 42 lshift lshift lshift lshift lshift lshift lshift lshift O
  > 16 'Q' 'q' nop nop 'q' 'Q' nop nop C
  > 16 'q' 'Q' nop nop 'q' 'Q' nop nop C
  > 145 'W' 'w' nop nop 'w' 'W' nop nop C
  > END
  $ kmap lint --quiet t | grep -c exchanged
  0
  [1]

no-caps. Of several slots one diagnostic, at the first lock letter; a key of two digits, and one with C, are as meant:
  $ cat > t << 'END'
  > 42 lshift lshift lshift lshift lshift lshift lshift lshift O
  > 58 clock clock clock clock clock clock clock clock O
  > 2 '1' '!' nop nop nop nop nop nop O
  > 16 'q' 'Q' nop nop nop nop nop nop C
  > 17 'w' 'W' nop nop nop nop nop nop B
  > 18 'e' 'E' nop nop nop nop nop nop
  >     N
  > 19 'r' 'R' nop nop nop nop nop nop O
  > 21 'y' 'Y' nop nop nop nop nop nop O
  > END
  $ kmap lint --quiet t
  t:7:5: warning: caps lock makes no capitals of the letters of slots 18 to 19, 21, whose lock letter is O or N; with C or B it does [no-caps]
        N
        ^

The first one in the text, not that of the least slot; one slot; and none where no key is caps lock:
  $ cat > t << 'END'
  > 42 lshift lshift lshift lshift lshift lshift lshift lshift O
  > 58 clock clock clock clock clock clock clock clock O
  > 19 'r' 'R' nop nop nop nop nop nop O
  > 18 'e' 'E' nop nop nop nop nop nop O
  > END
  $ kmap lint --quiet t
  t:3:36: warning: caps lock makes no capitals of the letters of slots 18 to 19, whose lock letter is O or N; with C or B it does [no-caps]
    19 'r' 'R' nop nop nop nop nop nop O
                                       ^
  $ grep -v '^19' t > one
  $ kmap lint --quiet one
  one:3:36: warning: caps lock makes no capital of the letter of slot 18, whose lock letter is O or N; with C or B it does [no-caps]
    18 'e' 'E' nop nop nop nop nop nop O
                                       ^
  $ grep -v '^58' t > none
  $ kmap lint none

The second alphabet of a keymap, where alock selects it:
  $ cat > t << 'END'
  > 42 lshift lshift lshift lshift lshift lshift lshift lshift O
  > 58 clock clock clock clock clock clock clock clock O
  > 56 alock alock alock alock alock alock alock alock O
  > 170 lshift lshift lshift lshift lshift lshift lshift lshift O
  > 186 clock clock clock clock clock clock clock clock O
  > 184 alock alock alock alock alock alock alock alock O
  > 30 'f' 'F' nop nop nop nop nop nop C
  > 158 0x444 0x424 nop nop nop nop nop nop O
  > END
  $ kmap lint --quiet t
  t:8:41: warning: caps lock makes no capital of the letter of slot 158, whose lock letter is O or N; with C or B it does [no-caps]
    158 0x444 0x424 nop nop nop nop nop nop O
                                            ^


twice. A letter in two slots and another one in none, at the cell of the later definition, in either column:
  $ sed "s/'q'    'Q'/'p'    'Q'/" "$examples/us.kbd" > t
  $ kmap lint --quiet t
  t:35:9: warning: slots 16 and 25 both give 'p' in column 0 (base), and none gives 'q' [twice]
      025   'p'    'P'    dle    dle    'p'    'P'    dle    dle     C
            ^
  $ sed "s/'p'    'P'    dle    dle    'p'    'P'/'p'    'Q'    dle    dle    'p'    'P'/" "$examples/us.kbd" > t
  $ kmap lint --quiet t
  t:35:16: warning: slots 16 and 25 both give 'Q' in column 1 (shift), and none gives 'P' [twice]
      025   'p'    'Q'    dle    dle    'p'    'P'    dle    dle     C
                   ^

The later one in the text, whatever its number; two letters twice are as meant, and so is one twice where none is gone;
nor is a part of a keymap judged:
  $ (grep -v '^  016' "$examples/us.kbd"; echo "16 'p' 'Q' dc1 dc1 'p' 'Q' dc1 dc1 C") > t
  $ kmap lint --quiet t | grep -v '^ '
  t:1:1: warning: no keys type 'q' [cannot-type]
  t:140:4: warning: slots 16 and 25 both give 'p' in column 0 (base), and none gives 'q' [twice]
  $ sed "s/'q'    'Q'/'p'    'Q'/; s/'w'    'W'/'e'    'W'/" "$examples/us.kbd" > t
  $ kmap lint --quiet t | grep -c twice
  0
  [1]
  $ sed "s/';'    ':'/'p'    ':'/" "$examples/us.kbd" > t
  $ kmap lint --quiet t | grep -c twice
  0
  [1]
  $ sed "s/'q'    'Q'/'p'    'Q'/" "$examples/us.kbd" | grep -v '^  0\(0[2-9]\|10\)' > t
  $ kmap lint --quiet t | grep -c twice
  0
  [1]

no-control. Up to three characters by their names, then the letters:
  $ sed 's/dc1/nop/g; s/sub/nop/g' "$examples/us.kbd" > t
  $ kmap lint --quiet t
  t:26:23: warning: control types no dc1 (ctrl-q) or sub (ctrl-z) [no-control]
      016   'q'    'Q'    nop    nop    'q'    'Q'    nop    nop     C
                          ^
  $ sed 's/dc1/nop/g; s/sub/nop/g; s/ack/nop/g; s/etb/nop/g' "$examples/us.kbd" > t
  $ kmap lint --quiet t
  t:26:23: warning: control types no control character of the letters f, q, w, z [no-control]
      016   'q'    'Q'    nop    nop    'q'    'Q'    nop    nop     C
                          ^

A second alphabet has a control character for d alone of those that the first one has:
  $ (sed 's/^  056.*/056 alock alock alock alock alock alock alock alock O/' "$examples/us.kbd"
  > echo '158 0x444 0x424 nop nop nop nop nop nop C'
  > echo '160 0x432 0x412 eot nop nop nop nop nop C') > t
  $ kmap lint --quiet t | grep no-control
  t:141:17: warning: control types no control character of the letters a, b, c, e, f, g, h, i, j, k, l, m, n, o, p, q, r, s, t, u, v, w, x, y, z while ashift or alock is on [no-control]

cannot-type. Of the whole text, before what has a place; a character may be typed by shift, alt or any other way:
  $ sed "s/';'    ':'    nop    nop    ';'/nop    ':'    nop    nop    nop/" "$examples/us.kbd" > t
  $ kmap lint --quiet t
  t:1:1: warning: no keys type ';' [cannot-type]
  $ sed "/^  [01]/ { s/'f' /nop /g; s/'^' /nop /g; s/'\`' /nop /g; s/dcir/nop /g; s/dgra/nop /g }" "$examples/us.kbd" > t
  $ kmap lint --quiet t
  t:1:1: warning: no keys type '^', '`' or 'f' [cannot-type]

By the dead key of an accent and the blank, or by alock and shift:
  $ sed "/^  0/s/'^' /nop /g" "$examples/us.kbd" > t
  $ kmap lint --quiet t
  $ sed "s/';'    ':'    nop    nop    ';'    ':'/nop    nop    nop    nop    nop    nop/" "$examples/us.kbd" > t
  $ kmap lint --quiet t
  t:1:1: warning: no keys type ':' or ';' [cannot-type]
  $ (grep -v '^  056' t
  > echo '56 alock alock alock alock alock alock alock alock O'
  > echo "167 ';' ':' nop nop nop nop nop nop O"
  > echo '170 lshift lshift lshift lshift lshift lshift lshift lshift O'
  > echo '184 alock alock alock alock alock alock alock alock O') > u
  $ kmap lint --quiet u | grep -c cannot-type
  0
  [1]

Twelve letters may be missing, and with thirteen the keymap is for another alphabet:
  $ sed "/^  0/s/'[a-l]' /nop /g" "$examples/us.kbd" > t
  $ kmap lint --quiet t | grep cannot-type
  t:1:1: warning: no keys type 'a', 'b', 'c', 'd', 'e', 'f', 'g', 'h', 'i', 'j', 'k' or 'l' [cannot-type]
  $ sed "/^  0/s/'[a-m]' /nop /g" "$examples/us.kbd" > t
  $ kmap lint --quiet t | grep -c cannot-type
  0
  [1]

octal-like. Two or more digits, the first of which is 0, in a cell or an accent; what they are as octal digits is told
where it is another number:
  $ cat > t << 'END'
  > 042 lshift lshift lshift lshift lshift lshift lshift lshift O
  > 002 033 007 09 0x21 00 32 nop 0173 O
  > dacu 0180 ( 097 0225 ) ( 0x62 012 )
  > END
  $ kmap lint --quiet t | grep -v '^ '
  t:2:5: warning: 033 is the decimal number 33, which is '!'; the octal one is 0x1b [octal-like]
  t:2:9: warning: 007 is the decimal number 7, which is bel [octal-like]
  t:2:13: warning: 09 is the decimal number 9, which is ht [octal-like]
  t:2:21: warning: 00 is the decimal number 0, which is nul [octal-like]
  t:2:31: warning: 0173 is the decimal number 173, which is 0x00ad; the octal one is 0x7b [octal-like]
  t:3:6: warning: 0180 is the decimal number 180, which is '´' [octal-like]
  t:3:13: warning: 097 is the decimal number 97, which is 'a' [octal-like]
  t:3:17: warning: 0225 is the decimal number 225, which is 'á'; the octal one is 0x95 [octal-like]
  t:3:31: warning: 012 is the decimal number 12, which is ff; the octal one is 0xa [octal-like]
