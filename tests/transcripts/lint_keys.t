`kmap lint` on the keys of a text without a fault: those that it lacks, modifiers and locks that are characters too, and
the upper half, which alock and ashift select.

Nothing is said of one key and of the examples:
  $ echo '42 lshift lshift lshift lshift lshift lshift lshift lshift O' > t
  $ kmap lint --quiet t
  $ kmap lint --quiet "$examples/us.kbd"
  $ kmap lint --quiet "$examples/de.kbd"

no-key. An empty text, comments alone, and an accent alone:
  $ : > t
  $ kmap lint --quiet t
  t:1:1: error: the text defines no key [no-key]
  [1]
  $ printf '# nothing\n\n' > t
  $ kmap lint --quiet t
  t:1:1: error: the text defines no key [no-key]
  [1]
  $ echo "dacu 180 ( 'a' 0xe1 )" > t
  $ kmap lint --quiet t
  t:1:1: error: the text defines no key [no-key]
  [1]

A comment reaches to the end of a text whose lines end in CR alone, and not where an LF or no CR stands in it:
  $ printf '# mine\r42 lshift lshift lshift lshift lshift lshift lshift lshift O\r' > t
  $ kmap lint --quiet t
  t:1:1: error: the text defines no key: its lines end in CR alone, so a comment reaches to its end; end them in LF [no-key]
  [1]
  $ printf '# nothing\r\n' > t
  $ kmap lint --quiet t
  t:1:1: error: the text defines no key [no-key]
  [1]
  $ printf '# nothing' > t
  $ kmap lint --quiet t
  t:1:1: error: the text defines no key [no-key]
  [1]

no-shift. Either shift key will do, in any column, but not in a slot that no key selects:
  $ echo "30 'a' 'A' nop nop 'a' 'A' nop nop C" > t
  $ kmap lint --quiet t
  t:1:1: warning: no key is lshift or rshift [no-shift]
  $ echo '54 rshift rshift rshift rshift rshift rshift rshift rshift O' > t
  $ kmap lint --quiet t
  $ echo '54 nop nop nop nop nop nop nop rshift O' > t
  $ kmap lint --quiet t
  $ echo '170 lshift lshift lshift lshift lshift lshift lshift lshift O' > t
  $ kmap lint --quiet t
  t:1:1: warning: no key is lshift or rshift [no-shift]
  t:1:1: warning: no key is ashift or alock, so slot 170 is never looked at [unused-half]
    170 lshift lshift lshift lshift lshift lshift lshift lshift O
    ^

mixed-key. A modifier that is a character in another column, as in the example that is refused:
  $ cp "$examples/trap.kbd" trap.kbd
  $ kmap lint --quiet trap.kbd
  trap.kbd:6:9: error: key 42 is lshift here and the character 'x' in column 2 (ctrl); put lshift or nop for its characters [mixed-key]
      042   lshift lshift 'x'    'x'    lshift lshift lshift lshift  O
            ^
  trap.kbd:1:1: note: lshift stays on with no key pressed, after: down 42, down 29, down 42, up 29, up 42
  [1]

One that is a character in the other slot of its key:
  $ cat > t << 'END'
  > 42 lshift lshift lshift lshift lshift lshift lshift lshift O
  > 58 alock alock alock alock alock alock alock alock O
  > 170 'x' 'x' 'x' 'x' 'x' 'x' 'x' 'x' O
  > 186 alock alock alock alock alock alock alock alock O
  > END
  $ kmap lint --quiet t
  t:1:4: error: key 42 is lshift here and the character 'x' in column 0 (base) of slot 170; put lshift or nop for its characters [mixed-key]
    42 lshift lshift lshift lshift lshift lshift lshift lshift O
       ^
  t:1:1: note: lshift stays on with no key pressed, after: down 42, down 58, up 58, down 42, up 42
  [1]

A warning where it never sticks:
  $ echo "42 0x20ac lshift nop nop nop nop nop nop O" > t
  $ kmap lint --quiet t
  t:1:11: warning: key 42 is lshift here and the character '€' in column 0 (base); put lshift or nop for its characters, though no modifier ever stays on [mixed-key]
    42 0x20ac lshift nop nop nop nop nop nop O
              ^

A search for what sticks that gives up:
  $ awk 'BEGIN {
  >     split("lshift rshift lctrl rctrl lalt ralt", name, " ")
  >     for (key = 46; key < 94; key++) {
  >         cell = name[key % 6 + 1]
  >         print key, cell, cell, cell, cell, cell, cell, cell, cell, "O"
  >     }
  > }' > t
  $ echo "100 'x' lshift 'x' lshift 'x' lshift 'x' lshift O" >> t
  $ kmap lint --quiet t
  t:49:9: error: key 100 is lshift here and the character 'x' in column 0 (base); put lshift or nop for its characters [mixed-key]
    100 'x' lshift 'x' lshift 'x' lshift 'x' lshift O
            ^
  t:1:1: note: whether a modifier can stay on is undecided: more than 65536 states
  [1]

What the search found is told behind the greatest key, wherever that stands:
  $ cat > t << 'END'
  > 90 'x' meta nop nop nop nop nop nop O
  > 89 'y' meta nop nop nop nop nop nop O
  >   029   lctrl  lctrl  lctrl  lctrl  lctrl  lctrl  lctrl  lctrl   O
  >   042   lshift lshift 'x'    'x'    lshift lshift lshift lshift  O
  > END
  $ kmap lint --quiet t > printed
  [1]
  $ sed -n 's/^\(t:[0-9:]*\) .*key \([0-9]*\) is .*/\1 \2/p; s/^t:1:1: note: .*/note/p' printed
  t:1:8: 90
  note
  t:2:8: 89
  t:4:9: 42

half-defined. An upper slot that is left out:
  $ cat > t << 'END'
  > 42 lshift lshift lshift lshift lshift lshift lshift lshift O
  > 170 lshift lshift lshift lshift lshift lshift lshift lshift O
  > 30 'a' 'A' nop nop 'a' 'A' nop nop C
  > 58 alock alock alock alock alock alock alock alock O
  > 186 alock alock alock alock alock alock alock alock O
  > END
  $ kmap lint --quiet t
  t:4:4: warning: alock selects the slots from 128 on, but the text does not define slot 158, which gives nul [half-defined]
    58 alock alock alock alock alock alock alock alock O
       ^

The upper half that is left out, an error where a modifier sticks, and a warning where none does:
  $ cat > t << 'END'
  > 42 lshift lshift lshift lshift lshift lshift lshift lshift O
  > 58 alock alock alock alock alock alock alock alock O
  > END
  $ kmap lint --quiet t
  t:2:4: error: alock selects the slots from 128 on, but the text does not define slots 170, 186, which give nul; so keys 42, 58 are each a modifier or lock with a character [half-defined]
    58 alock alock alock alock alock alock alock alock O
       ^
  t:1:1: note: lshift stays on with no key pressed, after: down 42, down 58, up 58, down 42, up 42
  [1]
  $ cat > t << 'END'
  > 42 lshift lshift lshift lshift lshift lshift lshift lshift O
  > 58 clock nop nop nop nop nop nop nop O
  > 93 alock alock alock alock alock alock alock alock O
  > 170 lshift lshift lshift lshift lshift lshift lshift lshift O
  > END
  $ kmap lint --quiet t
  t:3:4: warning: alock selects the slots from 128 on, but the text does not define slots 186, 221, which give nul; so keys 58, 93 are each a modifier or lock with a character [half-defined]
    93 alock alock alock alock alock alock alock alock O
       ^

Slots that follow one another are told as ranges:
  $ cat > t << 'END'
  > 42 lshift lshift lshift lshift lshift lshift lshift lshift O
  > 170 lshift lshift lshift lshift lshift lshift lshift lshift O
  > 100 ashift ashift ashift ashift ashift ashift ashift ashift O
  > 228 ashift ashift ashift ashift ashift ashift ashift ashift O
  > 1 nop nop nop nop nop nop nop nop O
  > 2 nop nop nop nop nop nop nop nop O
  > 3 nop nop nop nop nop nop nop nop O
  > 5 nop nop nop nop nop nop nop nop O
  > 200 nop nop nop nop nop nop nop nop O
  > 255 nop nop nop nop nop nop nop nop O
  > END
  $ kmap lint --quiet t
  t:3:5: warning: ashift selects the slots from 128 on, but the text does not define slots 72, 127, 129 to 131, 133, which give nul [half-defined]
    100 ashift ashift ashift ashift ashift ashift ashift ashift O
        ^

Both at one cell: that no modifier stays on is told behind the mixed key.
  $ cat > t << 'END'
  > 42 lshift lshift lshift lshift lshift lshift lshift lshift O
  > 170 lshift lshift lshift lshift lshift lshift lshift lshift O
  > 58 alock 'x' nop nop nop nop nop nop O
  > END
  $ kmap lint --quiet t
  t:3:4: warning: key 58 is alock here and the character 'x' in column 1 (shift); put alock or nop for its characters, though no modifier ever stays on [mixed-key]
    58 alock 'x' nop nop nop nop nop nop O
       ^
  t:3:4: warning: alock selects the slots from 128 on, but the text does not define slot 186, which gives nul [half-defined]
    58 alock 'x' nop nop nop nop nop nop O
       ^

Both at two keys: what the search found is told once.
  $ cat > t << 'END'
  > 58 clock clock clock clock clock clock clock 'x' O
  > 93 ashift ashift ashift ashift ashift ashift ashift ashift O
  > END
  $ kmap lint --quiet t
  t:1:1: warning: no key is lshift or rshift [no-shift]
  t:1:4: error: key 58 is clock here and the character 'x' in column 7 (alt ctrl shift); put clock or nop for its characters [mixed-key]
    58 clock clock clock clock clock clock clock 'x' O
       ^
  t:1:1: note: ashift stays on with no key pressed, after: down 93, down 93, up 93
  t:2:4: error: ashift selects the slots from 128 on, but the text does not define slots 186, 221, which give nul; so key 93 is a modifier or lock with a character [half-defined]
    93 ashift ashift ashift ashift ashift ashift ashift ashift O
       ^
  [1]
