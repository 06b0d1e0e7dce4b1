`kmap lint` on definitions and cells of a text without a fault that have no effect or hardly the one that is meant.

defined-again. A slot, whose last definition counts:
  $ cat > t << 'END'
  > 42 lshift lshift lshift lshift lshift lshift lshift lshift O
  > 30 'a' 'A' nop nop 'a' 'A' nop nop C
  >   30 'b' 'B' nop nop 'b' 'B' nop nop C # this too
  > 30 'a' 'A' nop nop 'a' 'A' nop nop C
  > END
  $ kmap lint --quiet t
  t:2:1: warning: this definition of slot 30 has no effect: line 4 defines it again [defined-again]
    30 'a' 'A' nop nop 'a' 'A' nop nop C
    ^
  t:3:3: warning: this definition of slot 30 has no effect: line 4 defines it again [defined-again]
      30 'b' 'B' nop nop 'b' 'B' nop nop C # this too
      ^

An accent, in capitals too:
  $ cat > t << 'END'
  > 42 lshift lshift lshift lshift lshift lshift lshift lshift O
  > dacu 180 ( 'a' 0xe1 )
  > DACU 180 ( 'e' 0xe9 )
  > END
  $ kmap lint --quiet t
  t:2:1: warning: this definition of dacu has no effect: line 3 defines it again, and pairs are not joined [defined-again]
    dacu 180 ( 'a' 0xe1 )
    ^

Nothing else is told of definitions without effect: not the letter under shift, nor the digit, nor the pair.
  $ cat > t << 'END'
  > 42 lshift 'x' 1 nop nop nop nop nop O
  > 42 lshift lshift lshift lshift lshift lshift lshift lshift O
  > dacu 0 ( 'a' 1 ) ( 'a' 2 )
  > dacu 180
  > 40 dacu nop nop nop nop nop nop nop O
  > END
  $ kmap lint --quiet t
  t:1:1: warning: this definition of slot 42 has no effect: line 2 defines it again [defined-again]
    42 lshift 'x' 1 nop nop nop nop nop O
    ^
  t:3:1: warning: this definition of dacu has no effect: line 4 defines it again, and pairs are not joined [defined-again]
    dacu 0 ( 'a' 1 ) ( 'a' 2 )
    ^

dead-key. Not of one that is never looked at:
  $ cat > t << 'END'
  > 42 lshift lshift lshift lshift lshift lshift lshift lshift O
  > 169 dgra dgra dgra dgra dgra dgra dgra dgra O
  > END
  $ kmap lint --quiet t
  t:2:1: warning: no key is ashift or alock, so slot 169 is never looked at [unused-half]
    169 dgra dgra dgra dgra dgra dgra dgra dgra O
    ^

One dead key and no accent, and then several:
  $ cat > t << 'END'
  > 42 lshift lshift lshift lshift lshift lshift lshift lshift O
  > 40 dacu nop nop nop nop nop nop nop O
  > END
  $ kmap lint --quiet t
  t:2:4: warning: the text defines no accent, so pressing dacu is an error [dead-key]
    40 dacu nop nop nop nop nop nop nop O
       ^
  $ cat > t << 'END'
  > 42 lshift lshift lshift lshift lshift lshift lshift lshift O
  > 40 nop dcar dacu nop nop nop nop dgra O
  > END
  $ kmap lint --quiet t
  t:2:8: warning: the text defines no accent, so pressing dgra, dacu or dcar is an error [dead-key]
    40 nop dcar dacu nop nop nop nop dgra O
           ^

Several dead keys with another accent, and then one with others:
  $ echo 'dacu 180' >> t
  $ kmap lint --quiet t
  t:2:8: warning: the text does not define dgra or dcar, so pressing one is an error [dead-key]
    40 nop dcar dacu nop nop nop nop dgra O
           ^
  $ echo 'dcar 711' >> t
  $ kmap lint --quiet t
  t:2:34: warning: the text does not define dgra, so pressing it is an error [dead-key]
    40 nop dcar dacu nop nop nop nop dgra O
                                     ^

zero-accent. Of an accent with a dead key, not of one without:
  $ cat > t << 'END'
  > 42 lshift lshift lshift lshift lshift lshift lshift lshift O
  > 40 dacu nop nop nop nop nop nop nop O
  > dacu 0 ( 'a' 0xe1 )
  > dgra nul
  > END
  $ kmap lint --quiet t
  t:3:6: warning: with the character 0 dacu counts as not defined, so pressing it is an error and its pairs have no effect [zero-accent]
    dacu 0 ( 'a' 0xe1 )
         ^

pair-again. Pairs of one base, however it is written:
  $ cat > t << 'END'
  > 42 lshift lshift lshift lshift lshift lshift lshift lshift O
  > dacu 180 ( 'a' 0xe1 ) ( 'e' 0xe9 )
  > ( 97 0xe0 )
  > dgra '`' ( 'a' 0xe0 )( 'a' 0xe0 )
  > END
  $ kmap lint --quiet t
  t:3:1: warning: this pair has no effect: dacu has one with the base 'a' before it, in line 2 [pair-again]
    ( 97 0xe0 )
    ^
  t:4:22: warning: this pair has no effect: dgra has one with the base 'a' before it, in line 4 [pair-again]
    dgra '`' ( 'a' 0xe0 )( 'a' 0xe0 )
                         ^

The first one has an effect:
  $ cat > t << 'END'
  > 42 lshift lshift lshift lshift lshift lshift lshift lshift O
  > dacu 180
  > ( 0x3b1 0x3ac )
  > ( bel 0x3ac )
  > ( 0x3b1 0x3ad )
  > ( 0x7 0x3ac )
  > ( 0x3b1 0x3ae )
  > END
  $ kmap lint --quiet t
  t:5:1: warning: this pair has no effect: dacu has one with the base 'α' before it, in line 3 [pair-again]
    ( 0x3b1 0x3ad )
    ^
  t:6:1: warning: this pair has no effect: dacu has one with the base bel before it, in line 4 [pair-again]
    ( 0x7 0x3ac )
    ^
  t:7:1: warning: this pair has no effect: dacu has one with the base 'α' before it, in line 3 [pair-again]
    ( 0x3b1 0x3ae )
    ^

unused-half. An upper half that no key selects, or only it would:
  $ cat > t << 'END'
  > 42 lshift lshift lshift lshift lshift lshift lshift lshift O
  >   255 nop nop nop nop nop nop nop nop O
  > 170 nop nop nop nop nop nop nop nop O
  > 129 nop nop nop nop nop nop nop nop O 128 nop nop nop nop nop nop nop nop O
  > 130 nop nop nop nop nop nop nop nop O
  > END
  $ kmap lint --quiet t
  t:2:3: warning: no key is ashift or alock, so slots 128 to 130, 170, 255 are never looked at [unused-half]
      255 nop nop nop nop nop nop nop nop O
      ^
  $ cat > t << 'END'
  > 42 lshift lshift lshift lshift lshift lshift lshift lshift O
  > 170 ashift alock nop nop nop nop nop nop O
  > END
  $ kmap lint --quiet t
  t:2:1: warning: no key is ashift or alock, so slot 170 is never looked at [unused-half]
    170 ashift alock nop nop nop nop nop nop O
    ^

bare-digit. Of cells alone, and of one decimal digit:
  $ cat > t << 'END'
  > 42 lshift lshift lshift lshift lshift lshift lshift lshift O
  > 2 1 '2' 03 0x4 10 5 9 0 O
  > dacu 1 ( 2 3 )
  > END
  $ kmap lint --quiet t
  t:2:3: warning: 1 is the character number 1, which is soh; the digit is '1' [bare-digit]
    2 1 '2' 03 0x4 10 5 9 0 O
      ^
  t:2:9: warning: 03 is the decimal number 3, which is etx [octal-like]
    2 1 '2' 03 0x4 10 5 9 0 O
            ^
  t:2:19: warning: 5 is the character number 5, which is enq; the digit is '5' [bare-digit]
    2 1 '2' 03 0x4 10 5 9 0 O
                      ^
  t:2:21: warning: 9 is the character number 9, which is ht; the digit is '9' [bare-digit]
    2 1 '2' 03 0x4 10 5 9 0 O
                        ^
  t:2:23: warning: 0 is the character number 0, which is nul; the digit is '0' [bare-digit]
    2 1 '2' 03 0x4 10 5 9 0 O
                          ^

The order: first what is of the whole text, then by place.
  $ cat > t << 'END'
  > 2 1 dacu nop nop nop nop nop nop O
  > 30 'a' 'A' nop nop 'a' 'A' nop nop C
  > 129 nop nop nop nop nop nop nop nop O
  > dgra 96 ( 'a' 0xe0 ) ( 'a' 0xe1 )
  > 2 nop dacu nop nop nop nop nop 7 O
  > END
  $ kmap lint --quiet t
  t:1:1: warning: no key is lshift or rshift [no-shift]
  t:1:1: warning: this definition of slot 2 has no effect: line 5 defines it again [defined-again]
    2 1 dacu nop nop nop nop nop nop O
    ^
  t:3:1: warning: no key is ashift or alock, so slot 129 is never looked at [unused-half]
    129 nop nop nop nop nop nop nop nop O
    ^
  t:4:22: warning: this pair has no effect: dgra has one with the base 'a' before it, in line 4 [pair-again]
    dgra 96 ( 'a' 0xe0 ) ( 'a' 0xe1 )
                         ^
  t:5:7: warning: the text does not define dacu, so pressing it is an error [dead-key]
    2 nop dacu nop nop nop nop nop 7 O
          ^
  t:5:32: warning: 7 is the character number 7, which is bel; the digit is '7' [bare-digit]
    2 nop dacu nop nop nop nop nop 7 O
                                   ^

A fault is told alone:
  $ echo '31 zz' >> t
  $ kmap lint --quiet t
  t:6:4: error: zz means nothing; a character is written as 'x' or 0xh, a cell that gives nothing as nop [BadWord]
    31 zz
       ^
  [1]
