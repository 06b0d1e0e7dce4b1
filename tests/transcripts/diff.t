`kmap diff` tells what differs between the keymaps of two texts, and prints the shortest events that tell them apart.

`all` writes a definition with one cell in all columns, `base` one with nop in all others. `apart` plays what was printed
under both keymaps: the answers differ in the last line alone.
  $ all() {
  >     echo "$1 $2 $2 $2 $2 $2 $2 $2 $2 ${3:-O}"
  > }
  $ base() {
  >     echo "$1 $2 nop nop nop nop nop nop nop O"
  > }
  $ apart() {
  >     kmap diff "$1" "$2" > script
  >     kmap play "$1" script > old.lines && kmap play "$2" script > new.lines &&
  >         [ "$(wc -l < old.lines)" -eq "$(grep -vc '^#' script)" ] &&
  >         sed '$d' old.lines > before && sed '$d' new.lines | cmp - before && ! cmp -s old.lines new.lines
  > }

A key with plus on control too, and a tilde that waits for a letter:
  $ {
  >     sed "/^  027/s/.*/027 '+' '*' '+' gs dtil nop dtil gs O/" "$examples/de.kbd"
  >     echo "dtil '~' ( 'a' 'ã' ) ( 'n' 'ñ' ) ( 'o' 'õ' )"
  > } > de-new.kbd
  $ kmap diff "$examples/de.kbd" de-new.kbd
  # told apart: gs -> '+'
  # types now: ã ñ õ
  # more presses: gs ~
  # gives now: dtil
  # slot 27; ctrl: gs -> '+'; alt: '~' -> dtil; alt ctrl: gs -> dtil
  # dtil; own: none -> '~'; 'a': none -> 'ã'; 'n': none -> 'ñ'; 'o': none -> 'õ'
  down 29
  down 27
  [1]
  $ apart "$examples/de.kbd" de-new.kbd
  $ diff old.lines new.lines
  2c2
  < press 27: char 29; mods lctrl; locks none
  ---
  > press 27: char 43; mods lctrl; locks none
  [1]

The other way round:
  $ kmap diff de-new.kbd "$examples/de.kbd" | sed -n '1p;/^# dtil/p;/^[a-z]/p'
  # told apart: '+' -> gs
  # dtil; own: '~' -> none; 'a': 'ã' -> none; 'n': 'ñ' -> none; 'o': 'õ' -> none
  down 29
  down 27

A slot that no key selects, and pairs in another order:
  $ {
  >     cat "$examples/us.kbd"
  >     all 130 nop C
  >     sed -n '/^  dgra/,/^  dacu/p' "$examples/us.kbd" | sed '/dacu/d' |
  >         sed "s/\( *dgra *'.'\) *\(( 'a' 0x00e0 )\) \(( 'A' 0x00c0 )\)/\1 \3 \2/"
  > } > us-more.kbd
  $ kmap diff "$examples/us.kbd" us-more.kbd
  # never told apart
  # last slot: 108 -> 130
  # slot 130 (unseen); all columns: nul -> nop; lock: O -> C
  # dgra; listed otherwise
  [1]

What can't show, since the key holds shift where it looks the cell up:
  $ echo '042 lshift nop lshift lshift lshift lshift lshift lshift O' > old
  $ echo '042 lshift clock lshift lshift lshift lshift lshift lshift O' > new
  $ kmap diff old new
  # never told apart
  # clock: nobody -> 42
  # slot 42; shift: nop -> clock
  [1]

Keymaps that are the same: one text twice, and another spelling, order and layout, with a definition that the last one
replaces.
  $ kmap diff "$examples/us.kbd" "$examples/us.kbd"
  # same
  $ kmap diff "$examples/trap.kbd" "$examples/trap.kbd"
  # same
  $ : > empty
  $ kmap diff empty empty
  # same
  $ printf "030 'a' 'A' soh nop 'a' 'A' soh nop C\n040 dacu dacu dacu dacu dacu dacu dacu dacu O\n" > one
  $ echo "dacu 0xb4 ( 'a' 'á' ) ( 'A' 'Á' )" >> one
  $ cat > other << 'END'
  > # the accent
  > dacu 180 ('a' 0xe1) (0x41 0xc1)
  > 30 'b' 'B' 1 nop 'b' 'B' 1 nop O
  > 40 dacu dacu dacu dacu
  >    dacu dacu dacu dacu O   0x1e 97 65 1 nop 97 'A' 0x01 nop C
  > END
  $ kmap diff one other
  # same

Where only the number of slots differs, nobody can notice:
  $ all 030 "'a'" > one
  $ { cat one; all 060 nul; } > other
  $ kmap diff one other
  # never told apart
  # last slot: 30 -> 60
  [1]

An answer to a release tells them apart where those to the press are the same:
  $ { base 040 nop; echo 'dacu 180'; } > one
  $ { base 040 dacu; echo 'dacu 180'; } > other
  $ kmap diff one other
  # told apart: none -> released dacu
  # types now: ´
  # gives now: dacu
  # slot 40; base: nop -> dacu
  down 40
  up 40
  [1]
  $ kmap diff other one
  # told apart: released dacu -> none
  # types no longer: ´
  # gives no longer: dacu
  # slot 40; base: dacu -> nop
  down 40
  up 40
  [1]

Each answer is told in the words of `play`:
  $ base 040 dacu > one
  $ kmap diff one other
  # told apart: error -> none
  # types now: ´
  # gives now: dacu
  # last accent: none -> dacu
  # dacu; own: none -> '´'
  down 40
  [1]
  $ base 015 btab > one
  $ base 015 fkey07 > other
  $ kmap diff one other
  # told apart: btab -> fkey07
  # gives no longer: btab
  # gives now: fkey07
  # slot 15; base: btab -> fkey07
  down 15
  [1]
  $ base 015 "'''" > one
  $ kmap diff one other
  # told apart: ''' -> fkey07
  # types no longer: '
  # gives now: fkey07
  # slot 15; base: ''' -> fkey07
  down 15
  [1]
  $ base 015 lshift > one
  $ base 015 slock > other
  $ kmap diff one other
  # told apart: lshift -> slock
  # lshift: 15 -> nobody
  # slock: nobody -> 15
  # slot 15; base: lshift -> slock
  down 15
  [1]

A look-up of `nop` or `nul` tells too:
  $ { base 000 nop; base 001 "'b'"; } > other
  $ { base 000 nul; base 001 "'b'"; } > one
  $ kmap diff one other
  # told apart: nul -> none
  # slot 0; base: nul -> nop
  down 0
  [1]

But where another key tells in the same state that looks up neither in either keymap, that one is told; not where it
does so in another state.
  $ { base 000 nul; base 001 "'b'"; } > one
  $ { base 000 nop; base 001 "'c'"; } > other
  $ kmap diff one other
  # told apart: 'b' -> 'c'
  # types no longer: b
  # types now: c
  # slot 0; base: nul -> nop
  # slot 1; base: 'b' -> 'c'
  down 1
  [1]
  $ { echo "0 nop nop nop nop nop nop nop nop O"; echo "30 'a' 'A' nop nop nop nop nop nop O"; } > one
  $ { echo "0 nop nop nul nop nop nop nop nop O"; echo "30 'a' 'B' nop nop nop nop nop nop O"; } > other
  $ { all 29 lctrl; all 42 lshift; } | tee -a one >> other
  $ kmap diff one other
  # told apart: none -> nul
  # types no longer: A
  # types now: B
  # slot 0; ctrl: nop -> nul
  # slot 30; shift: 'A' -> 'B'
  down 29
  down 0
  [1]

A key that looks up one of them is told where fewer presses lead there:
  $ { base 000 nul; echo "30 'a' 'A' nop nop nop nop nop nop O"; all 42 lshift; } > one
  $ { base 000 nop; echo "30 'a' 'B' nop nop nop nop nop nop O"; all 42 lshift; } > other
  $ kmap diff one other
  # told apart: nul -> none
  # types no longer: A
  # types now: B
  # slot 0; base: nul -> nop
  # slot 30; shift: 'A' -> 'B'
  down 0
  [1]

Each change has a line of its own, by slots and then by columns:
  $ {
  >     for slot in 2 3 4 30; do echo "$slot 'a' 'A' 'a' 'A' nop nop nop nop O"; done
  >     echo "31 'a' 'a' 'a' 'A' nop nop nop nop O"
  >     all 42 lshift; all 29 lctrl
  > } > one
  $ {
  >     for slot in 2 3 4 30; do echo "$slot 'b' 'B' 'b' 'B' nop nop nop nop O"; done
  >     echo "31 'b' 'b' 'a' 'A' nop nop nop nul O"
  >     all 42 lshift; all 29 lctrl
  > } > other
  $ kmap diff one other
  # told apart: 'a' -> 'b'
  # types now: B b
  # more presses: A a
  # slot 2; base, ctrl: 'a' -> 'b'; shift, ctrl shift: 'A' -> 'B'
  # slot 3; base, ctrl: 'a' -> 'b'; shift, ctrl shift: 'A' -> 'B'
  # slot 4; base, ctrl: 'a' -> 'b'; shift, ctrl shift: 'A' -> 'B'
  # slot 30; base, ctrl: 'a' -> 'b'; shift, ctrl shift: 'A' -> 'B'
  # slot 31; base, shift: 'a' -> 'b'; alt ctrl shift: nop -> nul (unseen)
  down 2
  [1]
  $ { all 30 "'a'"; all 42 lshift; } > one
  $ { all 30 "'b'"; all 42 lshift; } > other
  $ kmap diff one other
  # told apart: 'a' -> 'b'
  # types no longer: a
  # types now: b
  # slot 30; base, shift: 'a' -> 'b'; ctrl, ctrl shift, alt, alt shift, alt ctrl, alt ctrl shift: 'a' -> 'b' (unseen)
  down 30
  [1]

Lock letters, where the lock is there, and where it isn't:
  $ letters() {
  >     for slot in 16 17 30; do echo "$slot 'a' 'A' 'a' 'A' 'a' 'A' 'a' 'A' $1"; done
  > }
  $ { letters O; all 58 clock; } > one
  $ { letters C; all 58 clock; } > other
  $ kmap diff one other
  # told apart: 'a' -> 'A'
  # types now: A
  # slot 16; lock: O -> C
  # slot 17; lock: O -> C
  # slot 30; lock: O -> C
  down 58
  up 58
  down 16
  [1]
  $ apart one other
  $ letters O > one
  $ letters C > other
  $ kmap diff one other
  # never told apart
  # slot 16 (unseen); lock: O -> C
  # slot 17 (unseen); lock: O -> C
  # slot 30 (unseen); lock: O -> C
  [1]
  $ { letters C; all 58 clock; } > one
  $ { letters B; all 58 clock; } > other
  $ kmap diff one other
  # never told apart
  # slot 16 (unseen); lock: C -> B
  # slot 17 (unseen); lock: C -> B
  # slot 30 (unseen); lock: C -> B
  [1]

The upper half, which a lock selects:
  $ { all 30 "'a'"; all 58 alock; all 158 "'b'"; all 186 alock; } > one
  $ { all 30 "'a'"; all 58 alock; all 158 "'c'"; all 186 alock; } > other
  $ kmap diff one other
  # told apart: 'b' -> 'c'
  # types no longer: b
  # types now: c
  # slot 158; base: 'b' -> 'c'; shift, ctrl, ctrl shift, alt, alt shift, alt ctrl, alt ctrl shift: 'b' -> 'c' (unseen)
  down 58
  up 58
  down 30
  [1]

What an accent makes of letters, on which keys give them and no key gives them:
  $ { all 30 "'a'"; all 31 "'e'"; all 40 dacu; } > keys
  $ { cat keys; echo "dacu 180 ( 'a' 225 ) ( 'e' 233 ) ( 'o' 243 )"; } > one
  $ { cat keys; echo "dacu 180 ( 'u' 250 ) ( 'o' 242 ) ( 'a' 226 ) ( 'i' 250 )"; } > other
  $ kmap diff one other
  # told apart: 'á' -> 'â'
  # types no longer: á é
  # types now: â
  # dacu; 'a': 'á' -> 'â'; 'e': 'é' -> none; 'o': 'ó' -> 'ò' (unseen); 'u': none -> 'ú' (unseen); 'i': none -> 'ú' (unseen)
  down 40
  up 40
  down 30
  [1]
  $ apart one other
  $ { cat keys; echo "dacu 180 ( 'a' 225 ) ( 'o' 243 )"; } > other
  $ kmap diff one other
  # told apart: 'é' -> error
  # types no longer: é
  # dacu; 'e': 'é' -> none
  down 40
  up 40
  down 31
  [1]

Its own character, by a repeat or a blank:
  $ { all 40 dacu; echo "dacu 180"; } > one
  $ { all 40 dacu; echo "dacu '~'"; } > other
  $ kmap diff one other | grep '^#'
  # told apart: '´' -> '~'
  # types no longer: ´
  # types now: ~
  # dacu; own: '´' -> '~'
  $ apart one other

Accents that no key has:
  $ echo "dgra '\`' ( 'a' 'b' ) dacu 180 ( 'a' 'b' )" > one
  $ echo "dgra nul ( 'a' 'c' ) ( 'b' 'c' ) dacu 180 ( 'a' 'b' ) dcir '^'" > other
  $ kmap diff one other
  # never told apart
  # last accent: dacu -> dcir
  # dgra (unseen); own: '`' -> none; 'a': 'b' -> 'c'; 'b': none -> 'c'
  # dcir (unseen); own: none -> '^'
  [1]

A pair behind another one with the same base:
  $ { cat keys; echo "dacu 180 ( 'a' 225 ) ( 'e' 233 )"; } > one
  $ { cat keys; echo "dacu 180 ( 'a' 225 ) ( 'e' 233 ) ( 'a' 226 )"; } > other
  $ kmap diff one other
  # never told apart
  # dacu; listed otherwise
  [1]

What shows by the fewest presses is told, of a cell or of any accent; and of as many presses a cell:
  $ { all 42 lshift; all 29 lctrl; all 40 dacu; echo "41 nop dgra nop nop nop nop nop nop O"; } > keys
  $ {
  >     cat keys
  >     echo "30 'a' 'a' 'a' 'a' nop nop nop nop O dgra '\`' ( 'a' 224 ) dacu 180 ( 'a' 225 )"
  > } > one
  $ {
  >     cat keys
  >     echo "30 'a' 'a' 'a' 'b' nop nop nop nop O dgra '\`' ( 'a' 226 ) dacu 180 ( 'a' 226 )"
  > } > other
  $ kmap diff one other | grep -v '^# [ts][yl]'
  # told apart: 'á' -> 'â'
  # dgra; 'a': 'à' -> 'â'
  # dacu; 'a': 'á' -> 'â'
  down 40
  up 40
  down 30
  $ sed "s/ 226 )$/ 225 )/" other > third
  $ kmap diff one third | grep -v '^# [ts][yl]'
  # told apart: 'a' -> 'b'
  # dgra; 'a': 'à' -> 'â'
  down 29
  down 42
  down 30

An old keymap in which shift can stick:
  $ { cat "$examples/trap.kbd"; all 130 nop; } > trap-more
  $ kmap diff "$examples/trap.kbd" trap-more | grep -v '^# last slot'
  # not told apart before a modifier sticks
  # slot 130 (unseen); all columns: nul -> nop
  $ kmap diff trap-more "$examples/trap.kbd" | head -n 1
  # not told apart before a modifier sticks
  $ { cat "$examples/trap.kbd"; all 100 "'y'"; } > trap-key
  $ kmap diff "$examples/trap.kbd" trap-key | sed -n '1p;/^[a-z]/p'
  # told apart: nul -> 'y'
  down 100

A key that is pressed again, where shift is a character under control; and a key that forgets in the new keymap alone:
  $ sed "s/'x'    'x'/'x' 'y'/" "$examples/trap.kbd" > trap-again
  $ kmap diff "$examples/trap.kbd" trap-again
  # told apart: 'x' -> 'y'
  # slot 42; ctrl shift: 'x' -> 'y'
  down 42
  down 29
  repeat 42
  [1]
  $ apart "$examples/trap.kbd" trap-again
  $ sed "s/'x'    'x'/lshift lshift/" "$examples/trap.kbd" > safe
  $ kmap diff safe "$examples/trap.kbd"
  # told apart: lshift -> 'x'
  # check: accepted -> refused
  # refused now: 42 (lshift, 'x')
  # types now: x
  # slot 42; ctrl, ctrl shift: lshift -> 'x'
  down 29
  down 42
  [1]

65,536 states, and more; the number of presses is shown as P:
  $ states() {
  >     awk -v each="$1" 'BEGIN {
  >         n = split("lshift rshift lctrl rctrl lalt ralt ashift meta", name, " ")
  >         for (key = 0; key < n * each; key++) {
  >             cell = name[key % n + 1]
  >             print key, cell, cell, cell, cell, cell, cell, cell, cell, "O"
  >             print key + 128, cell, cell, cell, cell, cell, cell, cell, cell, "O"
  >         }
  >     }'
  > }
  $ states 3 > one
  $ { cat one; echo "dacu 180 ( 'a' 'b' )"; } > other
  $ kmap diff one other
  # never told apart
  # last accent: none -> dacu
  # dacu (unseen); own: none -> '´'; 'a': none -> 'b'
  [1]
  $ states 10 > one
  $ { cat one; echo "dacu 180 ( 'a' 'b' )"; } > other
  $ kmap diff one other > found
  [1]
  $ sed 's/ [0-9][0-9]* presses/ P presses/' found
  # undecided: no list of up to P presses tells them apart
  # last accent: none -> dacu
  # dacu; own: none -> '´'; 'a': none -> 'b'

As many, where five presses tell them apart of which one makes key 42 forget that it holds shift. What is told is said
of all lists, so it goes no further than the two presses that lead there.
  $ sticking() {
  >     awk -v differs="$1" 'BEGIN {
  >         n = split("lalt ralt ashift meta", name, " "); m = split("clock nlock alock", lock, " ")
  >         for (upper = 0; upper < 256; upper += 128) {
  >             print 42 + upper, "lshift lctrl nop nop nop \047x\047 nop nop O"
  >             for (key = 0; key < 36 + m; key++) {
  >                 cell = key < 36 ? name[key % n + 1] : lock[key - 35]
  >                 print 50 + key + upper, cell, cell, cell, cell, cell, cell, cell, cell, "O"
  >             }
  >         }
  >         print 30, "nop nop nop", differs, "nop nop nop nop O"
  >     }'
  > }
  $ sticking "'d'" > one
  $ sticking "'D'" > other
  $ kmap diff one other
  # undecided: no list of up to 2 presses tells them apart
  # types: undecided
  # slot 30; ctrl shift: 'd' -> 'D'
  [1]
  $ printf 'down 42\ndown 50\nrepeat 42\nup 42\nup 50\ndown 42\ndown 30\n' > script
  $ kmap play one script | tail -n 1
  press 30: char 100; mods lshift lctrl; locks none
  $ kmap play other script | tail -n 1
  press 30: char 68; mods lshift lctrl; locks none

As many, where a press tells them apart at once:
  $ { cat one; all 90 "'a'"; all 218 "'a'"; } > other
  $ kmap diff one other | grep -v '^# last slot'
  # told apart: nul -> 'a'
  # types: undecided
  # slot 90; all columns: nul -> 'a'
  # slot 218; all columns: nul -> 'a'
  down 90

`-` is standard input, for one of both:
  $ base 30 "'a'" > one
  $ base 30 "'b'" > other
  $ kmap diff - other < one
  # told apart: 'a' -> 'b'
  # types no longer: a
  # types now: b
  # slot 30; base: 'a' -> 'b'
  down 30
  [1]
  $ kmap diff one - < one
  # same
  $ kmap diff - - < one 2> said
  [2]
  $ cp one ./-
  $ kmap diff ./- one
  # same

In brief the slots and accents that differ are counted, and there are no events:
  $ kmap diff --brief "$examples/de.kbd" de-new.kbd
  # told apart: gs -> '+'
  # types now: ã ñ õ
  # more presses: gs ~
  # gives now: dtil
  # differ: 1 slot, 1 accent
  [1]
  $ kmap diff --brief "$examples/us.kbd" us-more.kbd
  # never told apart
  # last slot: 108 -> 130
  # differ: 1 slot, 1 accent
  [1]
  $ kmap diff --brief "$examples/us.kbd" "$examples/de.kbd"
  # told apart: '-' -> 'ß'
  # types no longer: Ã Ñ Õ ã ñ õ
  # types now: § ° ² ³ µ Å ß å Ů ů ˚ ẞ €
  # more presses: ' ; = [ \ ] `
  # fewer presses: # + ´ Ä Ö Ü á â ä é ê í î ó ô ö ú û ü ý
  # gives no longer: dtil
  # gives now: drin
  # last accent: duml -> drin
  # differ: 51 slots, 2 accents
  [1]
  $ kmap diff --brief one one
  # same
  $ sed "s/( 'u' 'ů' )/& ( 'w' 'ẘ' )/" "$examples/de.kbd" > more.kbd
  $ kmap diff --brief "$examples/de.kbd" more.kbd
  # told apart: error -> 'ẘ'
  # types now: ẘ
  # differ: 1 accent
  [1]
  $ all 60 nul > longer
  $ kmap diff --brief empty longer
  # never told apart
  # last slot: none -> 60
  [1]

A character stands as a reader knows it: in quotes, a mark on a dotted circle; by its name or number where nobody sees
it, but for the blank.
  $ shown() {
  >     base 2 "$1" > one; base 2 nop > other; kmap diff one other | sed -n 's/^# told apart: \(.*\) -> none$/\1/p'
  > }
  $ for c in "'a'" "'''" "' '" 127 27 0xa0 0xe4 0xad 0x301 0x5d0 0x200e 0x2003 0xe000 0xffff 0x1f600 0x40000; do
  >     shown "$c"
  > done
  'a'
  '''
  ' '
  del
  esc
  0x00a0
  'ä'
  0x00ad
  '◌́'
  'א'
  0x200e
  0x2003
  0xe000
  0xffff
  '😀'
  0x40000
  $ base 30 "'a'" > one
  $ base 30 "'b'" > other

The verdict alone is asked for in a pipe:
  $ kmap diff "$examples/us.kbd" us-more.kbd | head -n 1 | grep -Eq '^# (same|never told apart)$'
  $ kmap diff one other | head -n 1 | grep -Eq '^# (same|never told apart)$'
  [1]

A fault of the old text, of the new one, and of both, with nothing printed:
  $ printf "1 '" > cut
  $ kmap diff cut one
  ! cut:1:4: error: the text ends in a quoted character [EndInside]
  !   1 '
  !      ^
  [2]
  $ kmap diff one cut
  ! cut:1:4: error: the text ends in a quoted character [EndInside]
  !   1 '
  !      ^
  [2]
  $ kmap diff cut cut
  ! cut:1:4: error: the text ends in a quoted character [EndInside]
  !   1 '
  !      ^
  [2]
  $ kmap diff one - < cut
  ! -:1:4: error: the text ends in a quoted character [EndInside]
  !   1 '
  !      ^
  [2]
  $ mkdir folder
  $ kmap diff folder one
  ! kmap: folder: text: read fault at offset 0
  [2]
  $ kmap diff one folder
  ! kmap: folder: text: read fault at offset 0
  [2]
  $ head -c 1048577 /dev/zero | tr '\000' ' ' > blanks
  $ kmap diff blanks one
  ! kmap: blanks: text: more than 1048576 bytes
  [2]
  $ kmap diff one blanks
  ! kmap: blanks: text: more than 1048576 bytes
  [2]

Both are opened before one is judged:
  $ kmap diff none1 none2
  ! kmap: cannot open none1: No such file or directory
  [2]
  $ kmap diff cut none2
  ! kmap: cannot open none2: No such file or directory
  [2]

A device that takes nothing:
  $ kmap diff one other > /dev/full
  ! kmap: write fault after 0 bytes
  [2]
  $ kmap diff one one > /dev/full
  ! kmap: write fault after 0 bytes
  [2]

Wrong words:
  $ kmap diff one 2> said
  [2]
  $ kmap diff 2> said
  [2]
  $ kmap diff one other one 2> said
  [2]
  $ kmap diff one other --next one 2> said
  [2]
