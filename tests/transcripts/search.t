`kmap search` looks for presses behind which a modifier stays on with no key pressed.

  $ kmap search "$examples/us.kbd"
  # never sticks
  $ kmap search "$examples/trap.kbd"
  # sticks: lshift
  down 42
  down 29
  down 42
  up 29
  up 42
  [1]

By an upper half that the text does not define:
  $ cat > half << 'END'
  > 042 lshift lshift lshift lshift lshift lshift lshift lshift O
  > 058 alock alock alock alock alock alock alock alock O
  > END
  $ kmap search half
  # sticks: lshift
  down 42
  down 58
  up 58
  down 42
  up 42
  [1]

What was found does stick:
  $ kmap search half > found
  [1]
  $ kmap play half found
  press 42: lshift; mods lshift; locks none
  press 58: alock; mods lshift; locks alock
  release 58: released alock; mods lshift; locks alock
  press 42: char 0; mods lshift; locks alock
  release 42: none; mods lshift; locks alock

Too many states to decide, of a keymap that `check` refuses; the number of presses is shown as P:
  $ awk 'BEGIN {
  >     split("lshift rshift lctrl rctrl lalt ralt", name, " ")
  >     for (key = 0; key < 90; key++) {
  >         cell = name[key % 6 + 1]
  >         print key, cell, cell, cell, cell, cell, cell, cell, cell, "O"
  >     }
  > }' > holders
  $ { cat holders; echo "100 'a' 'a' 'a' 'a' 'a' 'a' 'a' lshift O"; } > many
  $ kmap search many > found
  [1]
  $ sed 's/ [0-9][0-9]* / P /' found
  # undecided: no list of up to P presses sticks

As many states, of a keymap that `check` accepts:
  $ kmap check holders | head -n 1
  accepted
  $ kmap search holders
  # never sticks

A text with a fault, and none:
  $ printf "1 '" > cut
  $ kmap search cut
  ! cut:1:4: error: the text ends in a quoted character [EndInside]
  !   1 '
  !      ^
  [2]
  $ kmap search none1
  ! kmap: cannot open none1: No such file or directory
  [2]

Between two keymaps, which stick only together:
  $ echo '058 clock clock clock clock clock clock clock clock O' > lock
  $ cat > locked << 'END'
  > 042 'x' lshift 'x' lshift 'x' lshift 'x' lshift C
  > 059 nop clock nop clock nop clock nop clock O
  > END
  $ kmap search lock
  # never sticks
  $ kmap search locked
  # never sticks
  $ kmap search locked --next locked
  # never sticks
  $ kmap search lock --next locked
  # sticks: lshift
  down 58
  up 58
  load
  down 42
  down 42
  up 42
  [1]

What was found between two does stick:
  $ kmap search lock --next locked > found
  [1]
  $ kmap play lock found --next locked
  press 58: clock; mods none; locks clock
  release 58: released clock; mods none; locks clock
  load: none; mods none; locks clock
  press 42: lshift; mods lshift; locks clock
  press 42: char 120; mods lshift; locks clock
  release 42: none; mods lshift; locks clock

In the other order, with the option in front:
  $ kmap search --next lock locked
  # sticks: lshift
  load
  down 58
  up 58
  load
  down 42
  down 42
  up 42
  [1]

Too many states between two, of which `check` refuses one, and accepts both:
  $ kmap search many --next lock > found
  [1]
  $ sed 's/ [0-9][0-9]* / P /' found
  # undecided: no list of up to P presses sticks
  $ kmap search holders --next many > found
  [1]
  $ sed 's/ [0-9][0-9]* / P /' found
  # undecided: no list of up to P presses sticks
  $ kmap search holders --next lock
  # never sticks
  $ kmap search holders --next holders
  # never sticks

A fault of the first, of the next, a folder as next, and none:
  $ mkdir folder
  $ kmap search cut --next cut
  ! cut:1:4: error: the text ends in a quoted character [EndInside]
  !   1 '
  !      ^
  [2]
  $ kmap search lock --next cut
  ! cut:1:4: error: the text ends in a quoted character [EndInside]
  !   1 '
  !      ^
  [2]
  $ kmap search lock --next folder
  ! kmap: folder: text: read fault at offset 0
  [2]
  $ kmap search cut --next none2
  ! kmap: cannot open none2: No such file or directory
  [2]

Several texts, of which each answer stands behind the name; one that can't be read or has a fault gets its lines, and
the next one follows. The status is that of all:
  $ kmap search lock "$examples/us.kbd" | sed "s:$examples/::"
  lock
  # never sticks
  us.kbd
  # never sticks
  $ kmap search lock half cut none2 lock
  lock
  # never sticks
  half
  # sticks: lshift
  down 42
  down 58
  up 58
  down 42
  up 42
  lock
  # never sticks
  ! cut:1:4: error: the text ends in a quoted character [EndInside]
  !   1 '
  !      ^
  ! kmap: cannot open none2: No such file or directory
  [2]
  $ kmap search half lock > found
  [1]
  $ kmap search locked lock --next locked | sed -n '1,4p'
  locked
  # never sticks
  lock
  # sticks: lshift
  $ kmap search lock --next none2 lock
  ! kmap: cannot open none2: No such file or directory
  [2]
