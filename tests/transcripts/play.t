`kmap play` prints what a console answers to the events of a script, or with --typed the bytes that it types.

A key that is pressed and released:
  $ printf "030 'a' 'A' nop nop 'a' 'A' nop nop C\n" > letter
  $ printf 'down 30\nup 30\n' > tap
  $ kmap play letter tap
  press 30: char 97; mods none; locks none
  release 30: none; mods none; locks none
  $ kmap play letter tap --typed
  a (no-eol)

The option stands where it likes:
  $ kmap play --typed letter tap
  a (no-eol)
  $ kmap play letter --typed tap
  a (no-eol)

Another keymap is loaded between the events:
  $ cat > shift << 'END'
  > 030 'a' 'A' soh soh 'a' 'A' soh soh C
  > 042 lshift lshift lshift lshift lshift lshift lshift lshift O
  > END
  $ cat > caps << 'END'
  > 042 lshift lshift lshift lshift lshift lshift lshift lshift O
  > 058 clock clock clock clock clock clock clock clock O
  > END
  $ printf 'down 58\nup 58\ndown 42\nload\ndown 30\n' > load
  $ kmap play caps load --next shift
  press 58: clock; mods none; locks clock
  release 58: released clock; mods none; locks clock
  press 42: lshift; mods lshift; locks clock
  load: none; mods none; locks none
  press 30: char 97; mods none; locks none

A keymap that `kmap check` refuses, in which shift sticks:
  $ printf 'down 42\ndown 29\ndown 42\nup 42\nup 29\n' > stuck
  $ kmap play "$examples/trap.kbd" stuck
  press 42: lshift; mods lshift; locks none
  press 29: lctrl; mods lshift lctrl; locks none
  press 42: char 120; mods lshift lctrl; locks none
  release 42: none; mods lshift lctrl; locks none
  release 29: released lctrl; mods lshift; locks none

One in which shift sticks by an upper half that the text does not define:
  $ cat > half << 'END'
  > 042 lshift lshift lshift lshift lshift lshift lshift lshift O
  > 058 alock alock alock alock alock alock alock alock O
  > END
  $ printf 'down 42\ndown 58\nrepeat 42\nup 42\nup 58\n' > half.script
  $ kmap play half half.script
  press 42: lshift; mods lshift; locks none
  press 58: alock; mods lshift; locks alock
  press 42: char 0; mods lshift; locks alock
  release 42: none; mods lshift; locks alock
  release 58: released alock; mods lshift; locks alock

The examples:
  $ kmap play "$examples/de.kbd" "$examples/de.script" --typed
  Zürich, café: 5^€ÖY+
  $ kmap play "$examples/us.kbd" "$examples/line.script" --typed
  Hello, FREEBSD café!
