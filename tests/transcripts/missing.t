`kmap type --missing` tells each character of a sentence that no keys were found for, once, where it stands first.

  $ cat > shift << 'END'
  > 030 'a' 'A' soh soh 'a' 'A' soh soh C
  > 042 lshift lshift lshift lshift lshift lshift lshift lshift O
  > END
  $ printf 'aBéA\nbéB' > sentence
  $ kmap type --missing shift sentence
  sentence:1:2: U+0042 'B'
  sentence:1:3: U+00e9 'é'
  sentence:1:6: U+000a
  sentence:2:1: U+0062 'b'
  [1]

Where keys type all of it nothing is printed, as of no sentence:
  $ printf 'aAaA' > known
  $ kmap type --missing shift known
  $ kmap type shift --missing --text ''

The number has as many digits as it needs, at least four; a character that a terminal does not show is not shown:
  $ printf '😀\033\342\200\213\047\t' > shown
  $ kmap type --missing shift shown
  shown:1:1: U+1f600 '😀'
  shown:1:5: U+001b
  shown:1:6: U+200b
  shown:1:9: U+0027 '''
  shown:1:10: U+0009
  [1]

A string has no name of its own, and standard input is told by its word:
  $ kmap type shift --text 'ab' --missing
  sentence:1:2: U+0062 'b'
  [1]
  $ printf 'ab' | kmap type --missing shift -
  -:1:2: U+0062 'b'
  [1]
  $ kmap type --missing - --text 'ab' < shift
  sentence:1:2: U+0062 'b'
  [1]

The name of a file is shown as a text is:
  $ name=$(printf 'x\033')
  $ printf b > "$name"
  $ kmap type --missing shift "$name"
  x�:1:1: U+0062 'b'
  [1]

Dead keys, and layouts behind a lock:
  $ printf 'aäé€' > german
  $ kmap type --missing "$examples/de.kbd" german
  $ kmap type --missing "$tests/pictures/us-ru.kbd" --text 'Привет, мир! hi ß'
  sentence:1:26: U+00df 'ß'
  [1]

A sentence that is no UTF-8 has the fault that it has without `--missing`, and nothing is printed:
  $ printf 'bb\303(' > bad
  $ kmap type --missing shift bad
  ! kmap: sentence offset 2: not UTF-8
  [1]

So has a keymap with a fault, and a sentence that can't be read:
  $ printf "1 '" > cut
  $ kmap type --missing cut sentence
  ! cut:1:4: error: the text ends in a quoted character [EndInside]
  !   1 '
  !      ^
  [1]
  $ head -c 1048577 /dev/zero | tr '\000' ' ' > blanks
  $ kmap type --missing shift blanks
  ! kmap: sentence: more than 1048576 bytes
  [1]
  $ kmap type --missing shift none
  ! kmap: cannot open none: No such file or directory
  [1]

Where a few states look up all that a keymap has, it is told, however many there are; of more than 65,536 others it is
told what keys type among those that were met, and else that there are too many:
  $ awk 'BEGIN {
  >     split("lshift rshift lctrl rctrl lalt ralt", name, " ")
  >     for (key = 0; key < 48; key++) {
  >         cell = name[key % 6 + 1]
  >         print key, cell, cell, cell, cell, cell, cell, cell, cell, "O"
  >     }
  > }' > more
  $ echo "120 'a' 'A' soh soh 'a' 'A' soh soh C" >> more
  $ kmap type --missing more --text Aa
  $ kmap type --missing more --text ab
  sentence:1:2: U+0062 'b'
  [1]
  $ echo "121 nop alock nop nop nop alock nop nop O" >> more
  $ echo "248 0x3b1 0x391 soh soh 0x3b1 0x391 soh soh C" >> more
  $ echo "249 alock alock alock alock alock alock alock alock O" >> more
  $ kmap type --missing more --text Aaα
  $ kmap type --missing more --text ab
  ! kmap: more than 65536 states
  [1]

A long sentence of many characters is gone over once:
  $ awk 'BEGIN { for (n = 0; n < 20; n++) for (c = 2048; c < 20048; c++)
  >     printf "%c%c%c", 224 + int(c / 4096), 128 + int(c / 64) % 64, 128 + c % 64 }' | head -c 1048575 > long
  $ kmap type --missing shift long | wc -l
  18000
