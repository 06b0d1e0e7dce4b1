`kmap check` reports which keys hold each modifier and lock, and refuses a keymap in which one can stick.

  $ printf "030 'a' 'A' nop nop 'a' 'A' nop nop C\n" > letter
  $ printf "1 '" > cut
  $ cat > shift << 'END'
  > 030 'a' 'A' soh soh 'a' 'A' soh soh C
  > 042 lshift lshift lshift lshift lshift lshift lshift lshift O
  > END
  $ kmap check shift
  accepted
  lshift throughout 42
  rshift nobody
  lctrl nobody
  rctrl nobody
  lalt nobody
  ralt nobody
  ashift nobody
  meta nobody
  clock nobody
  nlock nobody
  slock nobody
  alock nobody

With --show it says by which events one sticks, where it finds some:
  $ kmap check shift --show
  accepted
  lshift throughout 42
  rshift nobody
  lctrl nobody
  rctrl nobody
  lalt nobody
  ralt nobody
  ashift nobody
  meta nobody
  clock nobody
  nlock nobody
  slock nobody
  alock nobody
  demonstration: none

  $ kmap check "$examples/trap.kbd"
  refused
  key 42: lshift at slot 42 column 0, character at slot 42 column 2
  lshift sole 42
  rshift nobody
  lctrl throughout 29
  rctrl nobody
  lalt nobody
  ralt nobody
  ashift nobody
  meta nobody
  clock nobody
  nlock nobody
  slock nobody
  alock nobody
  [1]
  $ kmap check --show "$examples/trap.kbd"
  refused
  key 42: lshift at slot 42 column 0, character at slot 42 column 2
  lshift sole 42
  rshift nobody
  lctrl throughout 29
  rctrl nobody
  lalt nobody
  ralt nobody
  ashift nobody
  meta nobody
  clock nobody
  nlock nobody
  slock nobody
  alock nobody
  demonstration:
  down 42
  down 29
  down 42
  up 42
  up 29
  [1]

Of several texts each report stands behind the name of its text:
  $ cp "$examples/trap.kbd" .
  $ kmap check shift trap.kbd
  shift
  accepted
  lshift throughout 42
  rshift nobody
  lctrl nobody
  rctrl nobody
  lalt nobody
  ralt nobody
  ashift nobody
  meta nobody
  clock nobody
  nlock nobody
  slock nobody
  alock nobody
  trap.kbd
  refused
  key 42: lshift at slot 42 column 0, character at slot 42 column 2
  lshift sole 42
  rshift nobody
  lctrl throughout 29
  rctrl nobody
  lalt nobody
  ralt nobody
  ashift nobody
  meta nobody
  clock nobody
  nlock nobody
  slock nobody
  alock nobody
  [1]
  $ kmap check shift --show shift
  shift
  accepted
  lshift throughout 42
  rshift nobody
  lctrl nobody
  rctrl nobody
  lalt nobody
  ralt nobody
  ashift nobody
  meta nobody
  clock nobody
  nlock nobody
  slock nobody
  alock nobody
  demonstration: none
  shift
  accepted
  lshift throughout 42
  rshift nobody
  lctrl nobody
  rctrl nobody
  lalt nobody
  ralt nobody
  ashift nobody
  meta nobody
  clock nobody
  nlock nobody
  slock nobody
  alock nobody
  demonstration: none

So does what is told of the others, of which one alone has no name:
  $ head -c 1048577 /dev/zero | tr '\000' ' ' > blanks
  $ mkdir folder
  $ kmap check shift cut none1 folder blanks letter
  shift
  accepted
  lshift throughout 42
  rshift nobody
  lctrl nobody
  rctrl nobody
  lalt nobody
  ralt nobody
  ashift nobody
  meta nobody
  clock nobody
  nlock nobody
  slock nobody
  alock nobody
  letter
  accepted
  lshift nobody
  rshift nobody
  lctrl nobody
  rctrl nobody
  lalt nobody
  ralt nobody
  ashift nobody
  meta nobody
  clock nobody
  nlock nobody
  slock nobody
  alock nobody
  ! kmap: cut: text line 1 offset 3: EndInside
  ! kmap: cannot open none1
  ! kmap: folder: text: read fault at offset 0
  ! kmap: blanks: text: more than 1048576 bytes
  [1]
  $ kmap check cut
  ! kmap: text line 1 offset 3: EndInside
  [1]

A name that a terminal does not show:
  $ cp shift "$(printf 'a\033[31mb')"
  $ kmap check "$(printf 'a\033[31mb')" shift
  a�[31mb
  accepted
  lshift throughout 42
  rshift nobody
  lctrl nobody
  rctrl nobody
  lalt nobody
  ralt nobody
  ashift nobody
  meta nobody
  clock nobody
  nlock nobody
  slock nobody
  alock nobody
  shift
  accepted
  lshift throughout 42
  rshift nobody
  lctrl nobody
  rctrl nobody
  lalt nobody
  ralt nobody
  ashift nobody
  meta nobody
  clock nobody
  nlock nobody
  slock nobody
  alock nobody

With --brief each text has one line, and faults are told as without it:
  $ kmap check --brief shift
  shift: accepted
  $ kmap check --brief trap.kbd
  trap.kbd: refused
  [1]
  $ kmap check shift trap.kbd cut none1 letter --brief
  shift: accepted
  trap.kbd: refused
  letter: accepted
  ! cut:1:4: error: the text ends in a quoted character [EndInside]
  !   1 '
  !      ^
  ! kmap: cannot open none1: No such file or directory
  [1]
  $ kmap check --brief letter shift
  letter: accepted
  shift: accepted
  $ kmap check --brief cut
  ! cut:1:4: error: the text ends in a quoted character [EndInside]
  !   1 '
  !      ^
  [1]
  $ kmap check --brief "$(printf 'a\033[31mb')"
  a�[31mb: accepted

The examples are accepted:
  $ kmap check "$examples/us.kbd" > report
  $ head -n 1 report
  accepted
  $ kmap check "$examples/de.kbd" > report
  $ head -n 1 report
  accepted

An upper half that alock selects and the text doesn't define: shift sticks, though none of the tried scripts shows it.
  $ cat > half << 'END'
  > 042 lshift lshift lshift lshift lshift lshift lshift lshift O
  > 058 alock alock alock alock alock alock alock alock O
  > END
  $ kmap check half --show
  refused
  key 42: lshift at slot 42 column 0, character at slot 170 column 0
  key 58: alock at slot 58 column 0, character at slot 186 column 0
  lshift sole 42
  rshift nobody
  lctrl nobody
  rctrl nobody
  lalt nobody
  ralt nobody
  ashift nobody
  meta nobody
  clock nobody
  nlock nobody
  slock nobody
  alock sole 58
  demonstration: none
  [1]

A lock beside an undefined slot is refused too, though it never sticks:
  $ cat > caps << 'END'
  > 042 lshift lshift lshift lshift lshift lshift lshift lshift O
  > 058 clock nop nop nop nop nop nop nop O
  > 093 alock alock alock alock alock alock alock alock O
  > 170 lshift lshift lshift lshift lshift lshift lshift lshift O
  > END
  $ kmap check caps
  refused
  key 58: clock at slot 58 column 0, character at slot 186 column 0
  key 93: alock at slot 93 column 0, character at slot 221 column 0
  lshift throughout 42
  rshift nobody
  lctrl nobody
  rctrl nobody
  lalt nobody
  ralt nobody
  ashift nobody
  meta nobody
  clock sole 58
  nlock nobody
  slock nobody
  alock sole 93
  [1]
  $ kmap search caps
  # never sticks

Each key has a finding and each modifier a key, but no press ever turns one on: all sets of each key are tried.
  $ awk 'BEGIN {
  >     split("lshift lctrl lalt ashift", name, " ")
  >     for (key = 0; key < 128; key++) {
  >         print key, "0x78 0x78 0x78 0x78 0x78 0x78 0x78", name[key % 4 + 1], "O"
  >     }
  > }' > traps
  $ timeout 10 kmap check traps --show > report
  [1]
  $ grep -c '^key ' report
  128
  $ tail -n 1 report
  demonstration: none

A lock on two keys has no bearer of its own, and one of which both halves of a key have nothing else is steady:
  $ awk 'BEGIN {
  >     for (key = 70; key <= 104; key += 34) {
  >         print key, "slock slock slock slock slock slock slock slock O"
  >     }
  > }' > two
  $ kmap check two | grep slock
  slock several
  $ awk 'BEGIN {
  >     for (key = 58; key <= 186; key += 128) {
  >         print key, "alock alock alock alock alock alock alock alock O"
  >     }
  > }' > halves
  $ kmap check halves | grep alock
  alock throughout 58 steady
