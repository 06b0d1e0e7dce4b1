`kmap type` prints the events that type a sentence, behind a comment that shows it.

  $ cat > shift << 'END'
  > 030 'a' 'A' soh soh 'a' 'A' soh soh C
  > 042 lshift lshift lshift lshift lshift lshift lshift lshift O
  > END
  $ printf aA > sentence
  $ kmap type shift sentence
  # aA
  down 30
  up 30
  down 42
  down 30
  up 30
  up 42

In the comment nothing stands that a terminal does not show:
  $ echo '016 soh soh soh soh soh soh soh soh O' > controls
  $ printf '\001' > control
  $ kmap type controls control
  # U+0001
  down 16
  up 16

No sentence takes no event:
  $ : > nothing
  $ kmap type shift nothing
  $ kmap type shift --text ''

A sentence in place of a file, also one that begins with a dash or is one:
  $ kmap type shift --text A
  # A
  down 42
  down 30
  up 30
  up 42
  $ kmap type --text=aA shift > script
  $ printf aA > sentence
  $ kmap type shift sentence | cmp - script
  $ kmap type shift --text=-
  ! kmap: sentence offset 0: no keys found for U+002d
  [1]
  $ kmap type "$examples/de.kbd" --text 'Grüße, -x' > script
  $ kmap play --typed "$examples/de.kbd" script
  Grüße, -x (no-eol)
  $ kmap type - --text a < shift
  # a
  down 30
  up 30

What a script is printed for comes back from it, and stands in its comment:
  $ printf 'Hello, FREEBSD café! ~{|}\\' > sentence
  $ kmap type "$examples/us.kbd" sentence > script
  $ kmap play --typed "$examples/us.kbd" script
  Hello, FREEBSD café! ~{|}\ (no-eol)
  $ grep '^#' script
  # Hello, FREEBSD café! ~{|}\
  $ printf 'Grüße, café: 5^€ÖY+' > sentence
  $ kmap type "$examples/de.kbd" sentence > script
  $ kmap play --typed "$examples/de.kbd" script
  Grüße, café: 5^€ÖY+ (no-eol)
  $ grep '^#' script
  # Grüße, café: 5^€ÖY+

The way to an accented letter is one key of the board before a dead key and another one, and these before a key that
the board lacks. The full stop is typed in the main block and not on the pad.
  $ cat > ways << 'END'
  > 018 'e' 'E' soh soh 'e' 'E' soh soh C
  > 040 dacu dacu dacu dacu dacu dacu dacu dacu O
  > 052 nop '.' nop nop nop nop nop nop O
  > 083 '.' '.' '.' '.' '.' '.' '.' '.' O
  > 042 lshift lshift lshift lshift lshift lshift lshift lshift O
  > 086 0xe9 0xe9 0xe9 0xe9 0xe9 0xe9 0xe9 0xe9 O
  > dacu 180 ( 'e' 0xe9 )
  > END
  $ kmap type ways --text é.
  # é.
  down 86
  up 86
  down 42
  down 52
  up 52
  up 42
  $ kmap type --board 104 ways --text é
  # é
  down 40
  up 40
  down 18
  up 18
  $ kmap type --board 105 ways --text é | sed -n 2p
  down 86
  $ kmap type --board 103 ways --text é
  ! kmap: no board 103: 105 104
  [2]

Carriage returns, which are shown as ~ here:
  $ printf 'a\r\rb\r' > sentence
  $ kmap type "$examples/us.kbd" sentence > script
  $ kmap play --typed "$examples/us.kbd" script > typed
  $ tr '\r' '~' < typed
  a~~b~ (no-eol)

Each character comes back that a keymap types, of the first 400, U+03A9 and U+20AC:
  $ utf8() {
  >     awk -v c="$1" 'BEGIN {
  >         if (c < 128) printf "%c", c
  >         else if (c < 2048) printf "%c%c", 192 + int(c / 64), 128 + c % 64
  >         else printf "%c%c%c", 224 + int(c / 4096), 128 + int(c / 64) % 64, 128 + c % 64
  >     }'
  > }
  $ characters() {
  >     for number in $(seq 0 399) 937 8364; do
  >         utf8 "$number" > character
  >         kmap type "$1" character > script 2>&1 && cat character
  >     done
  > }
  $ come_back() {
  >     characters "$1" > sentence
  >     kmap type "$1" sentence > script && kmap play --typed "$1" script | cmp - sentence
  > }
  $ come_back "$examples/us.kbd"
  $ come_back "$examples/de.kbd"

Two dead keys, of which one stands under shift, and a third level under ashift:
  $ cat > levels << 'END'
  > 016 'q' 'Q' dc1 dc1 'q' 'Q' dc1 dc1 C
  > 029 lctrl lctrl lctrl lctrl lctrl lctrl lctrl lctrl O
  > 030 'a' 'A' soh soh 'a' 'A' soh soh C
  > 040 dacu dgra nop nop nop nop nop nop O
  > 042 lshift lshift lshift lshift lshift lshift lshift lshift O
  > 057 ' ' ' ' nul ' ' ' ' ' ' ' ' ' ' O
  > 100 ashift ashift ashift ashift ashift ashift ashift ashift O
  > 144 '@' '@' 0x3a9 0x3a9 '@' '@' 0x3a9 0x3a9 O
  > dacu 180 ( 'a' 0xe1 )
  > dgra '`' ( 'a' 0xe0 )
  > END
  $ come_back levels

The characters of two dead keys and two levels; a key that is not defined types the character 0:
  $ tr -d '\000' < sentence > typed
  $ printf '\001\021 @AQ`aq\302\264\303\240\303\241\316\251' | cmp - typed

The examples type all of ASCII:
  $ awk 'BEGIN { for (i = 32; i < 127; i++) printf "%c", i }' > sentence
  $ kmap type "$examples/us.kbd" sentence > script
  $ kmap type "$examples/de.kbd" sentence > script

A character that no keys type:
  $ printf 'ab' > sentence
  $ kmap type shift sentence
  ! kmap: sentence offset 1: no keys found for U+0062
  [1]
  $ printf '😀' > sentence
  $ kmap type shift sentence
  ! kmap: sentence offset 0: no keys found for U+1f600
  [1]

A sentence that is no UTF-8, which is told before a character that no keys type:
  $ printf 'a\303(' > sentence
  $ kmap type shift sentence
  ! kmap: sentence offset 1: not UTF-8
  [1]
  $ printf 'b\303' > sentence
  $ kmap type shift sentence
  ! kmap: sentence offset 1: not UTF-8
  [1]

A keymap with a fault types nothing:
  $ printf "1 '" > cut
  $ kmap type cut sentence
  ! cut:1:4: error: the text ends in a quoted character [EndInside]
  !   1 '
  !      ^
  [1]

A sentence that is too long, a folder, and no sentence:
  $ head -c 1048577 /dev/zero | tr '\000' ' ' > blanks
  $ mkdir folder
  $ kmap type shift blanks
  ! kmap: sentence: more than 1048576 bytes
  [1]
  $ kmap type shift folder
  ! kmap: sentence: read fault at offset 0
  [1]
  $ kmap type cut none1
  ! kmap: cannot open none1: No such file or directory
  [1]

Layouts behind a lock: the lock is turned where it must be, stays on for the next characters, and is off at the end.
What is printed is the sentence as it comes back, how often the lock is turned, and what is on at the end:
  $ cp "$tests/pictures/us-ru.kbd" russian
  $ cat > greek << 'END'
  > 030 'a' 'A' soh soh 'a' 'A' soh soh C
  > 042 lshift lshift lshift lshift lshift lshift lshift lshift O
  > 057 ' ' ' ' ' ' ' ' ' ' ' ' ' ' ' ' O
  > 058 alock alock alock alock alock alock alock alock O
  > 158 0x3b1 0x391 soh soh 0x3b1 0x391 soh soh C
  > 167 dacu duml nop nop nop nop nop nop O
  > 170 lshift lshift lshift lshift lshift lshift lshift lshift O
  > 185 ' ' ' ' ' ' ' ' ' ' ' ' ' ' ' ' O
  > 186 alock alock alock alock alock alock alock alock O
  > dacu 180 ( 0x3b1 0x3ac ) ( 0x391 0x386 )
  > duml 168
  > END
  $ cat > hebrew << 'END'
  > 022 'u' 'U' nop nop 'u' 'U' nop nop C
  > 024 'o' 'O' nop nop 'o' 'O' nop nop C
  > 030 'a' 'A' nop nop 'a' 'A' nop nop C
  > 037 'k' 'K' nop nop 'k' 'K' nop nop C
  > 054 rshift rshift rshift rshift rshift rshift rshift rshift O
  > 058 alock alock alock alock alock alock alock alock O
  > 150 0x5d5 'U' nop nop 0x5d5 'U' nop nop O
  > 152 0x5dd 'O' nop nop 0x5dd 'O' nop nop O
  > 158 0x5e9 'A' nop nop 0x5e9 'A' nop nop O
  > 165 0x5dc 'K' nop nop 0x5dc 'K' nop nop O
  > 182 rshift rshift rshift rshift rshift rshift rshift rshift O
  > 186 alock alock alock alock alock alock alock alock O
  > END
  $ typed() {
  >     printf %s "$2" > sentence
  >     kmap type "$1" sentence > script && kmap play --typed "$1" script && echo
  >     grep -c '^down 58$' script
  >     kmap play "$1" script | tail -n 1 | sed 's/^[^;]*; //'
  > }
  $ typed russian 'Привет, мир! hi'
  Привет, мир! hi
  2
  mods none; locks none
  $ typed russian hi
  hi
  0
  mods none; locks none
  $ typed greek 'aά´Ά ¨α'
  aά´Ά ¨α
  2
  mods none; locks none
  $ typed greek 'a´a'
  a´a
  2
  mods none; locks none
  $ typed hebrew 'שלום'
  שלום
  2
  mods none; locks none
  $ typed hebrew 'שAUaל'
  שAUaל
  4
  mods none; locks none

A character from which no keys lead back to where the lock is off:
  $ sed '/^186/d' greek > one_way
  $ echo '186 nop nop nop nop nop nop nop nop O' >> one_way
  $ printf 'aα' > sentence
  $ kmap type one_way sentence
  ! kmap: sentence offset 1: no keys found for U+03b1
  [1]

A character that only presses type by which the console forgets a modifier: they are not looked for.
  $ cat > forgets << 'END'
  > 29 lctrl lctrl lctrl lctrl lctrl lctrl lctrl lctrl O
  > 30 'a' 'a' 'a' 'a' 'a' 'a' 'a' 'a' O
  > 42 lshift 'x' nop lshift nop nop nop nop O
  > END
  $ printf x > sentence
  $ kmap type forgets sentence
  ! kmap: sentence offset 0: no keys found for U+0078
  [1]
  $ printf '%s\n' 'down 42' 'repeat 42' 'up 42' 'down 29' 'down 42' 'up 42' 'up 29' > script
  $ kmap play --typed forgets script
  x (no-eol)

Of more than 65,536 states what is found among those that were met is typed, and a character that stands in no cell is
told as one that no keys type:
  $ awk 'BEGIN {
  >     split("lshift rshift lctrl rctrl lalt ralt", name, " ")
  >     for (key = 0; key < 48; key++) {
  >         cell = name[key % 6 + 1]
  >         print key, cell, cell, cell, cell, cell, cell, cell, cell, "O"
  >     }
  > }' > more
  $ echo "120 'a' 'A' soh soh 'a' 'A' soh soh C" >> more
  $ printf Aa > sentence
  $ kmap type more sentence > script
  $ kmap play --typed more script
  Aa (no-eol)
  $ printf ab > sentence
  $ kmap type more sentence
  ! kmap: sentence offset 1: no keys found for U+0062
  [1]

Of a character that may be typed in a state that wasn't met it isn't said. Here up to three presses lead to more than
65,536 states, and four to where b is typed: control, alt, the caps lock and the alt lock.
  $ awk 'BEGIN {
  >     split("lctrl rctrl lalt ralt", name, " ")
  >     for (key = 0; key < 100; key++) {
  >         cell = name[key % 4 + 1]
  >         print key, cell, cell, cell, cell, cell, cell, cell, cell, "O"
  >     }
  > }' > far
  $ echo '120 nop nop nop nop nop nop clock nop O' >> far
  $ echo '121 nop alock nop nop nop nop nop nop C' >> far
  $ echo "250 'b' 'b' nop nop nop nop nop nop O" >> far
  $ kmap type far --text b
  ! kmap: more than 65536 states
  [1]
