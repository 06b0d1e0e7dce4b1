`--as` prints the scripts of `type` and `cover` in the forms of other tools.

  $ cat > keys << 'END'
  > 001 esc esc esc esc esc esc esc esc O
  > 030 'a' 'A' soh soh 'b' 'B' soh soh C
  > 042 lshift lshift lshift lshift lshift lshift lshift lshift O
  > 075 '4' '4' '4' '4' '4' '4' '4' '4' O
  > 093 ralt ralt ralt ralt ralt ralt ralt ralt O
  > 104 'p' 'p' 'p' 'p' 'p' 'p' 'p' 'p' O
  > END
  $ kmap type --as script keys --text A
  # A
  down 42
  down 30
  up 30
  up 42

The events of an input device: a hundredth of a second for each.
  $ kmap type --as evdev keys --text B | head -n 9
  # B
  E: 0.010000 0001 002a 1
  E: 0.010000 0000 0000 0
  E: 0.020000 0001 0064 1
  E: 0.020000 0000 0000 0
  E: 0.030000 0001 001e 1
  E: 0.030000 0000 0000 0
  E: 0.040000 0001 001e 0
  E: 0.040000 0000 0000 0
  $ kmap type --as evdev keys --text "$(printf %050d 0 | tr 0 a)" | tail -n 1
  E: 1.000000 0000 0000 0

The bytes of a keyboard, also behind e0 and e1.
  $ kmap type --as set1 keys --text bp
  # bp
  e0
  38
  1e
  9e
  e0
  b8
  e1
  1d
  45
  e1
  9d
  c5

Commands of xdotool. Esc is 09, since 9 is the name of another key there.
  $ printf '\033' > escape
  $ kmap type --as x11 keys escape
  # U+001b
  keydown 09
  keyup 09
  $ kmap type --as x11 keys --text b
  # b
  keydown 108
  keydown 38
  keyup 38
  keyup 108

Commands of QEMU: the comment is the id of the event behind it.
  $ kmap type --as qmp keys --text 4
  {"execute": "input-send-event", "id": "4", "arguments": {"events": [{"type": "key", "data": {"down": true, "key": {"type": "qcode", "data": "kp_4"}}}]}}
  {"execute": "input-send-event", "arguments": {"events": [{"type": "key", "data": {"down": false, "key": {"type": "qcode", "data": "kp_4"}}}]}}
  $ kmap type --as qmp "$examples/us.kbd" --text '\"' | sed -n 's/"arguments".*data/.. data/p'
  {"execute": "input-send-event", "id": "\\\"", .. data": "backslash"}}}]}}
  {"execute": "input-send-event", .. data": "backslash"}}}]}}
  {"execute": "input-send-event", .. data": "shift"}}}]}}
  {"execute": "input-send-event", .. data": "apostrophe"}}}]}}
  {"execute": "input-send-event", .. data": "apostrophe"}}}]}}
  {"execute": "input-send-event", .. data": "shift"}}}]}}

What a form doesn't have is told, and nothing is printed: keys without a number there, and resets.
  $ printf "000 'z' 'z' 'z' 'z' 'z' 'z' 'z' 'z' O\n112 'k' 'k' 'k' 'k' 'k' 'k' 'k' 'k' O\n" > off
  $ kmap type --as evdev off --text z
  ! kmap: evdev has no key 0: line 2: down 0
  [1]
  $ kmap type --as qmp off --text k
  ! kmap: qmp has no key 112: line 2: down 112
  [1]
  $ kmap type --as evdev off --text k | sed -n 2p
  E: 0.010000 0001 005d 1
  $ kmap cover "$examples/us.kbd" > script
  $ kmap cover --as script "$examples/us.kbd" | cmp - script
  $ kmap cover --as set1 "$examples/us.kbd" 2>&1 | sed "s/line $(grep -n '^reset$' script | sed -n 's/:.*//p;q'):/the first line:/"
  kmap: set1 has no reset: the first line: reset

Another form is a wrong word.
  $ kmap type --as hid keys --text a
  ! kmap: no form hid: script evdev set1 qmp x11
  [2]
  $ kmap cover --as '' keys
  ! kmap: no form : script evdev set1 qmp x11
  [2]

What is wrong with a keymap or a sentence is told as for the script.
  $ kmap type --as x11 keys --text ab%
  ! kmap: sentence offset 2: no keys found for U+0025
  [1]
  $ echo 'nop' | kmap cover --as x11 - 2>&1 | sed -n 1p
  -:1:1: error: nop stands where the number of a slot or the name of an accent is wanted [Unexpected]
