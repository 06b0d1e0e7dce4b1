`kmap type --words` tells in words by which keys characters are typed.

  $ cat > keys << 'END'
  > 018 'e' 'E' soh soh 0x20ac 0x20ac soh soh C
  > 013 dacu dgra soh soh dacu dgra soh soh O
  > 042 lshift lshift lshift lshift lshift lshift lshift lshift O
  > 058 alock alock alock alock alock alock alock alock O
  > 093 ashift ashift ashift ashift ashift ashift ashift ashift O
  > 079 '1' '1' '1' '1' '1' '1' '1' '1' O
  > 146 0x3b5 0x395 soh soh 0x3b5 0x395 soh soh C
  > dacu 180 ( 'e' 0xe9 )
  > END
  $ kmap type --words keys --text 'eE1éé'
  U+0065 'e': E (18)
  U+0045 'E': left Shift+E (42+18)
  U+0031 '1': keypad 1 (79)
  U+00e9 'é': ´ then E (13 18)
  $ kmap type --words "$examples/de.kbd" --text 'é€'
  U+00e9 'é': ´ then E (13 18)
  U+20ac '€': AltGr+E (93+18)

What no keys type ends them.
  $ kmap type --words keys --text 'ez'
  U+0065 'e': E (18)
  ! kmap: sentence offset 1: no keys found for U+007a
  [1]

Each way starts where nothing is held and no lock is on, so a lock is turned for each letter behind it, and back. Without
a sentence all characters are told that keys of the board type, by their numbers. Undefined keys type the character 0.
  $ cat > two << 'END'
  > 030 'a' 'A' soh soh 'a' 'A' soh soh C
  > 058 alock alock alock alock alock alock alock alock O
  > 112 'z' 'z' 'z' 'z' 'z' 'z' 'z' 'z' O
  > 158 0x3b1 0x391 soh soh 0x3b1 0x391 soh soh C
  > 186 alock alock alock alock alock alock alock alock O
  > END
  $ kmap type --words two --text αα
  U+03b1 'α': Caps Lock then A then Caps Lock (58 30 58)
  $ kmap type --words two
  U+0000: Esc (1)
  U+0061 'a': A (30)
  U+03b1 'α': Caps Lock then A then Caps Lock (58 30 58)

A way of the board comes first, and each board has its keys.
  $ cat > accented << 'END'
  > 018 'e' 'E' soh soh 'e' 'E' soh soh C
  > 040 dacu dacu dacu dacu dacu dacu dacu dacu O
  > 086 0xe9 0xc9 soh soh 0xe9 0xc9 soh soh C
  > dacu 180 ( 'e' 0xe9 )
  > END
  $ kmap type --words accented --text é
  U+00e9 'é': É (86)
  $ kmap type --words --board 104 accented --text é
  U+00e9 'é': ´ then E (40 18)

With --all there is a line for each key that types the character: first by one tap of the main block, key 86 behind it, then
the pad, then a dead key, and keys that the board lacks last.
  $ cat > several << 'END'
  > 002 '1' '!' soh soh '1' '!' soh soh O
  > 013 dacu dacu dacu dacu dacu dacu dacu dacu O
  > 018 'e' 'E' soh soh 'e' 'E' soh soh C
  > 040 0xe9 0xc9 soh soh 0xe9 0xc9 soh soh C
  > 042 lshift lshift lshift lshift lshift lshift lshift lshift O
  > 079 '1' '1' '1' '1' '1' '1' '1' '1' O
  > 086 '!' '1' soh soh '!' '1' soh soh O
  > 126 '1' '1' '1' '1' '1' '1' '1' '1' O
  > dacu 180 ( 'e' 0xe9 )
  > END
  $ kmap type --words several --text '1é!'
  U+0031 '1': 1 (2)
  U+00e9 'é': É (40)
  U+0021 '!': left Shift+1 (42+2)
  $ kmap type --words --all several --text '1é!'
  U+0031 '1': 1 (2)
  U+0031 '1': left Shift+! (42+86)
  U+0031 '1': keypad 1 (79)
  U+0031 '1': 1 (126) off the board
  U+00e9 'é': É (40)
  U+00e9 'é': ´ then E (13 18)
  U+0021 '!': left Shift+1 (42+2)
  U+0021 '!': ! (86)
  $ kmap type --words --all several | grep "'1'"
  U+0031 '1': 1 (2)
  U+0031 '1': left Shift+! (42+86)
  U+0031 '1': keypad 1 (79)
  U+0031 '1': 1 (126) off the board
  $ kmap type --words --all "$examples/us.kbd" --text '*'
  U+002a '*': left Shift+8 (42+9)
  U+002a '*': keypad * (55)
  $ kmap type --words --all keys --text 'ez'
  U+0065 'e': E (18)
  ! kmap: sentence offset 1: no keys found for U+007a
  [1]

What only a key types that the board lacks is typed by it, and that is told; a sheet leaves it out.
  $ cat > lacking << 'END'
  > 030 'a' 'A' soh soh 'a' 'A' soh soh C
  > 115 '_' '_' soh soh '_' '_' soh soh O
  > END
  $ kmap type --words lacking --text 'a_'
  U+0061 'a': A (30)
  U+005f '_': _ (115) off the board
  $ kmap type --words lacking | grep -v U+0000
  U+0061 'a': A (30)

It prints no script, nor what is missing.
  $ kmap type --words --as evdev two --text a 2>&1 | head -n 1
  error: the argument '--words' cannot be used with '--as <FORM>'
  $ kmap type --words --missing two --text a 2>&1 | head -n 1
  error: the argument '--words' cannot be used with '--missing'
  $ kmap type two 2>&1 | grep Usage
  Usage: kmap type <TEXT> <SENTENCE>
