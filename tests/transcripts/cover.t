`kmap cover` prints a script that tests a console, behind comments on what it leaves out and what never comes.

`covers` makes the file `script`: it has a line of answers for each event, and at its end neither a modifier nor the
scroll lock is on. `begins` prints the comments before the events, and `parts` those that name a part.
  $ covers() {
  >     kmap cover "$1" > script && kmap play "$1" script > answers &&
  >         [ "$(wc -l < answers)" -eq "$(grep -vc '^#' script)" ] &&
  >         tail -n 1 answers | grep -q 'mods none; locks [^s]*$'
  > }
  $ begins() {
  >     sed '/^# cells$/,$d' script
  > }
  $ parts() {
  >     grep '^# [a-z-]*$' script
  > }

Only released keys are pressed, only pressed ones repeated and released, and at the end none is pressed:
  $ possible() {
  >     awk '
  >         $1 == "down" { if (down[$2]) bad++; down[$2] = 1 }
  >         $1 == "repeat" { if (!down[$2]) bad++ }
  >         $1 == "up" { if (!down[$2]) bad++; down[$2] = 0 }
  >         END { for (key in down) if (down[key]) bad++; exit bad > 0 }' script
  > }

Real keymaps: all that presses can reach is seen, and the upper half, which nothing selects, is never seen. There are at
most 4,000 events.
  $ covers "$examples/us.kbd"
  $ begins
  # for a console in a program: on a machine it restarts, stops or sleeps
  # cells: 1024, left out 0, never 1024
  # lock settings: 512, left out 0, never 512
  # pairs: 54, left out 0, never 0
  # never: slots 128 to 255; columns 0 1 2 3 4 5 6 7; locks none nlock clock clock+nlock
  $ parts
  # cells
  # pairs
  # trials
  $ possible
  $ [ "$(grep -vc '^#' script)" -le 4000 ]
  $ covers "$examples/de.kbd"
  $ begins
  # for a console in a program: on a machine it restarts, stops or sleeps
  # cells: 1024, left out 0, never 1024
  # lock settings: 512, left out 0, never 512
  # pairs: 52, left out 0, never 0
  # never: slots 128 to 255; columns 0 1 2 3 4 5 6 7; locks none nlock clock clock+nlock
  $ parts
  # cells
  # pairs
  # trials
  $ possible
  $ [ "$(grep -vc '^#' script)" -le 4000 ]

A keymap in which shift can stick: what only comes after that is not called never.
  $ covers "$examples/trap.kbd"
  $ begins
  # for a console in a program: on a machine it restarts, stops or sleeps
  # cells: 512, left out 0, not before a modifier sticks 1536
  # lock settings: 128, left out 0, not before a modifier sticks 896
  # pairs: 0, left out 0, not before a modifier sticks 0
  # not before a modifier sticks: slots 0 to 127; columns 4 5 6 7; locks nlock clock clock+nlock
  # not before a modifier sticks: slots 128 to 255; columns 0 1 2 3 4 5 6 7; locks none nlock clock clock+nlock

One key and no modifier: each of its slots is seen in one column, with no lock on, and each key is tapped once.
  $ echo "30 'a' 'A' nop nop 'a' 'A' nop nop C" > letter
  $ covers letter
  $ begins
  # for a console in a program: on a machine it restarts, stops or sleeps
  # cells: 128, left out 0, never 1920
  # lock settings: 128, left out 0, never 896
  # pairs: 0, left out 0, never 0
  # never: slots 0 to 127; columns 1 2 3 4 5 6 7; locks nlock clock clock+nlock
  # never: slots 128 to 255; columns 0 1 2 3 4 5 6 7; locks none nlock clock clock+nlock
  $ grep -c '^down' script
  128

A dead key whose accent is composed with a blank and a base that is there, and one that no key has.
  $ cat > accent << 'END'
  > 40 dacu dacu dacu dacu dacu dacu dacu dacu O
  > 57 ' ' ' ' ' ' ' ' ' ' ' ' ' ' ' ' O
  > 30 'a' 'a' 'a' 'a' 'a' 'a' 'a' 'a' O dacu 180 ( 'a' 225 ) ( 'e' 233 ) ( 'a' 261 ) dgra nul ( 'a' 'b' )
  > END
  $ covers accent
  $ grep -x -e '# pairs: .*' -e '# never: dacu .*' script
  # pairs: 2, left out 0, never 1
  # never: dacu with 'e'

alock turns on by a key of the lower half that is a letter in the upper one: its turn is one-way, and comes last.
  $ cat > oneway << 'END'
  > 58 alock alock alock alock alock alock alock alock O
  > 186 'z' 'z' 'z' 'z' 'z' 'z' 'z' 'z' O
  > END
  $ covers oneway
  $ parts
  # cells
  # one-way
  $ grep '^# cells:' script
  # cells: 256, left out 0, never 1792

The scroll lock is turned off behind the trials: at once, or with shift. What turns it on behind a one-way turn turns it
off there.
  $ echo '70 nop slock nop nop nop nop nop nop O 42 lshift lshift lshift lshift lshift lshift lshift lshift O' > scroll
  $ covers scroll
  $ covers "$examples/us.kbd"
  $ tail -n 3 script
  reset
  down 70
  up 70
  $ echo '198 slock slock slock slock slock slock slock slock O' | cat oneway - > behind
  $ covers behind
  $ sed '1,/^# one-way$/d' script | tail -n 5
  down 0
  up 0
  reset
  down 70
  up 70

A dead key that only a lock which stays on leads to, and a base that no key has behind it: each is looked up, and no list
of events composes them. Where a key has the base there too, they can be composed:
  $ cat > apart << 'END'
  > 2 alock alock alock alock alock alock alock alock O
  > 30 'a' 'a' 'a' 'a' 'a' 'a' 'a' 'a' O
  > 130 nop nop nop nop nop nop nop nop O
  > 158 nop nop nop nop nop nop nop nop O
  > 168 dacu dacu dacu dacu dacu dacu dacu dacu O
  > dacu 180 ( 'a' 0xe1 )
  > END
  $ covers apart
  $ begins
  # for a console in a program: on a machine it restarts, stops or sleeps
  # cells: 256, left out 0, never 1792
  # lock settings: 256, left out 0, never 768
  # pairs: 0, left out 0, never 2
  # never: slots 0 to 255; columns 1 2 3 4 5 6 7; locks nlock clock clock+nlock
  # never: dacu with ' ' 'a'
  $ sed "s/^158 .*/158 'a' 'a' 'a' 'a' 'a' 'a' 'a' 'a' O/" apart > together
  $ covers together
  $ grep ' dacu \|^# pairs' script
  # pairs: 0, left out 1, never 1
  # left out: dacu with 'a'
  # never: dacu with ' '

No file, a folder, a text that ends too early, and one that is too long:
  $ kmap cover nothing
  ! kmap: cannot open nothing: No such file or directory
  [1]
  $ kmap cover .
  ! kmap: .: text: read fault at offset 0
  [1]
  $ echo "30 'a'" > inside
  $ kmap cover inside
  ! inside:2:1: error: the text ends where the cell of slot 30 in column 1 (shift) is wanted [EndInside]
  !   
  !   ^
  ! inside:1:1: note: slot 30 is defined from here on
  !   30 'a'
  !   ^
  [1]
  $ head -c 1048577 /dev/zero | tr '\000' ' ' > long
  $ kmap cover long
  ! kmap: long: text: more than 1048576 bytes
  [1]

Eleven keys for each modifier: more states than the search goes over.
  $ awk 'BEGIN {
  >     n = split("lshift rshift lctrl rctrl lalt ralt ashift meta", name, " ")
  >     for (half = 0; half < 256; half += 128)
  >         for (key = 0; key < 11 * n; key++) {
  >             printf "%d", key + half
  >             for (column = 0; column < 8; column++) printf " %s", name[key % n + 1]
  >             print " O"
  >         }
  > }' > many
  $ kmap cover many
  ! kmap: more than 65536 states
  [1]
