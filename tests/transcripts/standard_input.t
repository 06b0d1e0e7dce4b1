`-` is the standard input of the commands that are no promise, and `./-` a file of that name. Those that are one take
the name as it is given. What `kmap lint` and `kmap fmt` do is in lint_files.t and fmt_files.t.

  $ cat > shift << 'END'
  > 030 'a' 'A' soh soh 'a' 'A' soh soh C
  > 042 lshift lshift lshift lshift lshift lshift lshift lshift O
  > END
  $ echo '058 clock clock clock clock clock clock clock clock O' > lock
  $ cat > locked << 'END'
  > 042 'x' lshift 'x' lshift 'x' lshift 'x' lshift C
  > 059 nop clock nop clock nop clock nop clock O
  > END
  $ printf 'down 30\nup 30\n' > tap
  $ printf a > sentence

search, as a keymap and as the next one, and type, as a keymap and as the sentence:
  $ kmap search - < shift
  # never sticks
  $ kmap search lock --next - < locked
  # sticks: lshift
  down 58
  up 58
  load
  down 42
  down 42
  up 42
  [1]
  $ kmap type - sentence < shift
  # a
  down 30
  up 30
  $ kmap type shift - < sentence
  # a
  down 30
  up 30

cover and draw print what they do of a file:
  $ kmap cover shift > wanted
  $ kmap cover - < shift > printed
  $ cmp wanted printed
  $ kmap draw shift > wanted
  $ kmap draw - < shift > printed
  $ cmp wanted printed

A fault of standard input:
  $ printf "1 '" > cut
  $ kmap search - < cut
  ! -:1:4: error: the text ends in a quoted character [EndInside]
  !   1 '
  !      ^
  [2]

check, play, compile and dump do not read it:
  $ kmap check - < shift
  ! kmap: cannot open -
  [1]
  $ kmap play - tap < shift
  ! kmap: cannot open -
  [1]
  $ kmap play shift - < tap
  ! kmap: cannot open -
  [1]
  $ kmap compile - made < shift
  ! kmap: cannot open -
  [1]
  $ kmap compile shift tables
  $ kmap dump - < tables
  ! kmap: cannot open -
  [1]

A file of that name, searched, checked and compiled to:
  $ cp shift ./-
  $ kmap search ./-
  # never sticks
  $ kmap check -
  accepted
  lshift throughout 42
  rshift nobody
  lctrl nobody
  rctrl nobody
  lalt nobody
  ralt nobody
  ashift nobody
  meta nobody
  clock nobody
  nlock nobody
  slock nobody
  alock nobody
  $ kmap compile shift - < shift
  ! kmap: cannot create -
  [1]
  $ rm ./-
  $ kmap compile shift - < shift
  $ wc -c < ./-
  15524

It can be read only once, so more than one `-` is refused, status 2, where it is standard input; in the other commands
each is that file.
  $ twice() {
  >     kmap "$@" < shift 2> told
  >     set -- $?
  >     head -n 1 told
  >     return $1
  > }
  $ twice search - --next -
  error: '-' is standard input, which can be given only once
  [2]
  $ twice type - -
  error: '-' is standard input, which can be given only once
  [2]
  $ twice lint - shift -
  error: '-' is standard input, which can be given only once
  [2]
  $ twice fmt --check - -
  error: '-' is standard input, which can be given only once
  [2]
  $ twice fmt - -
  error: '-' is standard input, which can be given only once
  [2]
  $ cp shift ./-
  $ kmap check - - | grep -c '^accepted$'
  2
  $ kmap play - tap --next -
  press 30: char 97; mods none; locks none
  release 30: none; mods none; locks none
  $ twice search - shift -
  error: '-' is standard input, which can be given only once
  [2]
  $ twice search shift - --next -
  error: '-' is standard input, which can be given only once
  [2]
  $ twice draw - -
  error: '-' is standard input, which can be given only once
  [2]
  $ kmap search shift - --next shift < shift
  shift
  # never sticks
  -
  # never sticks
