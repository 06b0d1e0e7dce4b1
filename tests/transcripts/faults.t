What is told of files that are faulty, too long, folders or not there. Each line says which of the files it is, and the
exit status is 1.

  $ printf "030 'a' 'A' nop nop 'a' 'A' nop nop C\n" > letter
  $ printf 'down 30\nup 30\n' > tap
  $ printf "1 '" > cut
  $ cat > shift << 'END'
  > 030 'a' 'A' soh soh 'a' 'A' soh soh C
  > 042 lshift lshift lshift lshift lshift lshift lshift lshift O
  > END
  $ cat > caps << 'END'
  > 042 lshift lshift lshift lshift lshift lshift lshift lshift O
  > 058 clock clock clock clock clock clock clock clock O
  > END
  $ printf 'down 128\n' > bad.script
  $ head -c 1048577 /dev/zero | tr '\000' ' ' > blanks
  $ mkdir folder

A fault of the text, of the next text, of the script and of tables:
  $ kmap play cut bad.script
  ! kmap: text line 1 offset 3: EndInside
  [1]
  $ kmap play caps bad.script --next cut
  ! kmap: next line 1 offset 3: EndInside
  [1]
  $ kmap play letter bad.script
  ! kmap: script line 1: BadKey
  [1]
  $ { printf '\001'; head -c 36 /dev/zero; printf '\004'; head -c 15486 /dev/zero; } > flag
  $ kmap dump flag
  ! kmap: tables offset 37: BadFlag
  [1]

Tables without end, and a text and a script that are too long:
  $ kmap dump /dev/zero
  ! kmap: tables offset 15524: Long
  [1]
  $ kmap check blanks
  ! kmap: text: more than 1048576 bytes
  [1]
  $ kmap play letter blanks
  ! kmap: script: more than 1048576 bytes
  [1]

A folder as text, as next text, as script and as tables:
  $ kmap check folder
  ! kmap: text: read fault at offset 0
  [1]
  $ kmap play letter tap --next folder
  ! kmap: next: read fault at offset 0
  [1]
  $ kmap play letter folder
  ! kmap: script: read fault at offset 0
  [1]
  $ kmap dump folder
  ! kmap: tables: read fault at offset 0
  [1]

All files are opened before the first is read: TEXT, then TEXT2, then SCRIPT.
  $ kmap play none1 none3 --next none2
  ! kmap: cannot open none1
  [1]
  $ kmap play letter none3 --next none2
  ! kmap: cannot open none2
  [1]
  $ kmap play cut none3 --next cut
  ! kmap: cannot open none3
  [1]
  $ kmap check none1
  ! kmap: cannot open none1
  [1]
  $ kmap dump none1
  ! kmap: cannot open none1
  [1]
  $ kmap compile none1 made
  ! kmap: cannot open none1
  [1]
  $ [ ! -e made ]

The name of a file is shown as a text is: in one line, with U+FFFD in place of what a terminal does not show.
  $ name=$(printf 'a\033[31m\nb\342\200\256c\302\205\360\237\230\200')
  $ kmap check "$name"
  ! kmap: cannot open a�[31m�b�c�😀
  [1]
  $ kmap compile letter "none/$name"
  ! kmap: cannot create none/a�[31m�b�c�😀
  [1]
  $ mkdir "$name"
  $ kmap fmt "$name"
  ! kmap: a�[31m�b�c�😀: not a regular file
  [1]
  $ kmap fmt --print "$name"
  ! kmap: a�[31m�b�c�😀: text: read fault at offset 0
  [1]
