`kmap lint` on texts with directives: comments that keep warnings back.

Behind a token of its line, a directive is for the definition of that token:
  $ cat > t << 'END'
  > 42 lshift lshift lshift lshift lshift lshift lshift lshift O
  > 30 1 nop nop nop nop nop nop nop O # kmap: ignore bare-digit -- soh is meant
  > 31 1 nop nop nop nop nop nop nop O
  > END
  $ kmap lint --quiet t
  t:3:4: warning: 1 is the character number 1, which is soh; the digit is '1' [bare-digit]
    31 1 nop nop nop nop nop nop nop O
       ^

Alone in its line, it is for the definition of the next token, also inside of a definition over several lines:
  $ cat > t << 'END'
  > 42 lshift lshift lshift lshift lshift lshift lshift lshift O
  > 30 1 nop nop nop nop nop nop nop O
  > #kmap:ignore	bare-digit
  > 31 1 nop nop nop
  > nop nop nop nop O 32 1 nop nop nop
  >   # kmap: ignore bare-digit
  >   nop nop nop nop O
  > END
  $ kmap lint --quiet t
  t:2:4: warning: 1 is the character number 1, which is soh; the digit is '1' [bare-digit]
    30 1 nop nop nop nop nop nop nop O
       ^

Not for the line, but for the definition, and several of them stand in a line:
  $ cat > t << 'END'
  > 42 lshift lshift lshift lshift lshift lshift lshift lshift O
  > 30 1 nop nop nop nop nop nop nop O 31 1 nop nop nop nop nop nop nop O # kmap: ignore bare-digit
  > 32 1 nop # kmap: ignore bare-digit
  > nop nop 2 nop nop nop O
  > END
  $ kmap lint --quiet t
  t:2:4: warning: 1 is the character number 1, which is soh; the digit is '1' [bare-digit]
    30 1 nop nop nop nop nop nop nop O 31 1 nop nop nop nop nop nop nop O # kmap: ignore bare-digit
       ^

Several kinds, with blanks, tabs or commas between them, up to two hyphens; and CR at the ends of lines:
  $ cat > t << 'END'
  > 42 lshift lshift lshift lshift lshift lshift lshift lshift O
  > 30 1 nop nop nop nop nop nop nop O # kmap: ignore bare-digit,,defined-again--bare-digit
  > 30 nop nop nop nop nop nop nop nop O
  > dacu 180 ( 'a' 'b' ) ( 'a' 'c' ) # kmap: ignore , pair-again
  > END
  $ sed 's/$/\r/' t > u
  $ kmap lint --quiet t
  t:2:51: warning: no bare-digit is kept back here [unused-ignore]
    30 1 nop nop nop nop nop nop nop O # kmap: ignore bare-digit,,defined-again--bare-digit
                                                      ^
  $ kmap lint --quiet u
  u:2:51: warning: no bare-digit is kept back here [unused-ignore]
    30 1 nop nop nop nop nop nop nop O # kmap: ignore bare-digit,,defined-again--bare-digit
                                                      ^

ignore-text stands anywhere, and alone keeps back what has no place:
  $ cat > t << 'END'
  > 30 1 2 nop nop nop nop nop nop O
  > 31 1 nop nop nop nop nop nop nop O # kmap: ignore no-shift
  > # kmap: ignore-text bare-digit no-shift
  > END
  $ kmap lint --strict --quiet t
  t:2:51: warning: no no-shift is kept back here [unused-ignore]
    31 1 nop nop nop nop nop nop nop O # kmap: ignore no-shift
                                                      ^
  [1]

Each kind that may be a warning:
  $ cat > t << 'END'
  > # kmap: ignore-text no-shift, defined-again, dead-key, zero-accent, pair-again, unused-half, bare-digit
  > 30 dacu dgra nop nop nop nop nop nop O
  > 30 dacu dgra 1 nop nop nop nop nop O
  > 169 nop nop nop nop nop nop nop nop O
  > dacu 0 ( 'a' 'b' ) ( 'a' 'c' )
  > END
  $ kmap lint --strict --quiet t
  $ cat > t << 'END'
  > 42 lshift lshift lshift lshift lshift lshift lshift lshift O
  > 30 'a' 'A' nop nop nop nop nop nop C
  > 100 ashift ashift ashift ashift ashift ashift ashift ashift O # kmap: ignore half-defined
  > 170 lshift lshift lshift lshift lshift lshift lshift lshift O
  > 228 ashift ashift ashift ashift ashift ashift ashift ashift O
  > END
  $ kmap lint --strict --quiet t
  $ echo "42 0x20ac lshift nop nop nop nop nop nop O # kmap: ignore mixed-key" > t
  $ kmap lint --strict --quiet t

An error is told all the same, with its note, and the ignore is an unused one:
  $ cat > t << 'END'
  > 29 lctrl lctrl lctrl lctrl lctrl lctrl lctrl lctrl O
  > 42 lshift lshift 'x' 'x' lshift lshift lshift lshift O # kmap: ignore mixed-key
  > END
  $ kmap lint --quiet t
  t:2:4: error: key 42 is lshift here and the character 'x' in column 2 (ctrl); put lshift or nop for its characters [mixed-key]
    42 lshift lshift 'x' 'x' lshift lshift lshift lshift O # kmap: ignore mixed-key
       ^
  t:1:1: note: lshift stays on with no key pressed, after: down 42, down 29, down 42, up 29, up 42
  t:2:71: warning: no mixed-key is kept back here [unused-ignore]
    42 lshift lshift 'x' 'x' lshift lshift lshift lshift O # kmap: ignore mixed-key
                                                                          ^
  [1]

Where two would keep the same one back, the first in the text does, and one word tells one:
  $ cat > t << 'END'
  > # kmap: ignore-text bare-digit
  > 42 lshift lshift lshift lshift lshift lshift lshift lshift O
  > 30 1 nop nop nop nop nop nop nop O # kmap: ignore bare-digit
  > # kmap: ignore-text pair-again pair-again
  > END
  $ kmap lint --quiet t
  t:3:51: warning: no bare-digit is kept back here [unused-ignore]
    30 1 nop nop nop nop nop nop nop O # kmap: ignore bare-digit
                                                      ^
  t:4:21: warning: no pair-again is kept back here [unused-ignore]
    # kmap: ignore-text pair-again pair-again
                        ^
  t:4:32: warning: no pair-again is kept back here [unused-ignore]
    # kmap: ignore-text pair-again pair-again
                                   ^

Behind the last token a directive alone in its line is for no definition:
  $ cat > t << 'END'
  > 42 lshift lshift lshift lshift lshift lshift lshift lshift O
  > 30 1 nop nop nop nop nop nop nop O
  > # kmap: ignore bare-digit
  > END
  $ kmap lint --quiet t
  t:2:4: warning: 1 is the character number 1, which is soh; the digit is '1' [bare-digit]
    30 1 nop nop nop nop nop nop nop O
       ^
  t:3:16: warning: no bare-digit is kept back here [unused-ignore]
    # kmap: ignore bare-digit
                   ^

What is wrong is told, and the right words of the same directive hold:
  $ cat > t << 'END'
  > 42 lshift lshift lshift lshift lshift lshift lshift lshift O
  > 30 1 nop nop nop nop nop nop nop O # kmap: ignore bare-digits BadWord no-key bare-digit Bare-digit unused-ignore bad-ignore
  > # kmap: ignore
  > #	kmap:ignore-text , -- why
  > # kmap: ignored bare-digit
  > # kmap:
  > # kmap:, ignore bare-digit
  > END
  $ kmap lint --quiet t
  t:2:51: warning: bare-digits is no kind [bad-ignore]
    30 1 nop nop nop nop nop nop nop O # kmap: ignore bare-digits BadWord no-key bare-digit Bare-digit unused-ignore bad-ignore
                                                      ^
  t:2:63: warning: BadWord can not be ignored [bad-ignore]
    30 1 nop nop nop nop nop nop nop O # kmap: ignore bare-digits BadWord no-key bare-digit Bare-digit unused-ignore bad-ignore
                                                                  ^
  t:2:71: warning: no-key can not be ignored [bad-ignore]
    30 1 nop nop nop nop nop nop nop O # kmap: ignore bare-digits BadWord no-key bare-digit Bare-digit unused-ignore bad-ignore
                                                                          ^
  t:2:89: warning: Bare-digit is no kind [bad-ignore]
    30 1 nop nop nop nop nop nop nop O # kmap: ignore bare-digits BadWord no-key bare-digit Bare-digit unused-ignore bad-ignore
                                                                                            ^
  t:2:100: warning: unused-ignore can not be ignored [bad-ignore]
    30 1 nop nop nop nop nop nop nop O # kmap: ignore bare-digits BadWord no-key bare-digit Bare-digit unused-ignore bad-ignore
                                                                                                       ^
  t:2:114: warning: bad-ignore can not be ignored [bad-ignore]
    30 1 nop nop nop nop nop nop nop O # kmap: ignore bare-digits BadWord no-key bare-digit Bare-digit unused-ignore bad-ignore
                                                                                                                     ^
  t:3:1: warning: no kind stands behind ignore [bad-ignore]
    # kmap: ignore
    ^
  t:4:1: warning: no kind stands behind ignore [bad-ignore]
    #	kmap:ignore-text , -- why
    ^
  t:5:1: warning: behind kmap: stands ignore or ignore-text, and kinds [bad-ignore]
    # kmap: ignored bare-digit
    ^
  t:6:1: warning: behind kmap: stands ignore or ignore-text, and kinds [bad-ignore]
    # kmap:
    ^
  t:7:1: warning: behind kmap: stands ignore or ignore-text, and kinds [bad-ignore]
    # kmap:, ignore bare-digit
    ^

Other comments say nothing, nor does what stands in a comment or between apostrophes:
  $ cat > t << 'END'
  > 42 lshift lshift lshift lshift lshift lshift lshift lshift O
  > ## kmap: nonsense
  > # see # kmap: nonsense
  > # kmap : nonsense
  > # Kmap: nonsense
  > 30 '#' nop nop nop nop nop nop nop O
  > END
  $ kmap lint --quiet t

In a text with a fault directives do nothing, and nothing is said about them:
  $ cat > t << 'END'
  > # kmap: ignore-text nonsense BadWord
  > 42 lshift lshift lshift lshift lshift lshift lshift lshfit O # kmap: ignore BadWord
  > END
  $ kmap lint --quiet t
  t:2:53: error: lshfit means nothing; did you mean lshift [BadWord]
    42 lshift lshift lshift lshift lshift lshift lshift lshfit O # kmap: ignore BadWord
                                                        ^
  [1]

The layout changes nothing of what a directive is for:
  $ cat > t << 'END'
  > 42 lshift lshift lshift lshift lshift lshift lshift lshift O 30 1 nop nop nop nop nop nop nop O # kmap: ignore bare-digit
  > # kmap: ignore bare-digit
  > 31 nop 1 nop nop nop nop nop nop O 32 1 nop nop nop nop nop nop nop
  > O # kmap: ignore bare-digit
  > END
  $ kmap lint --strict --quiet t
  $ kmap fmt --print t | kmap lint --strict -
