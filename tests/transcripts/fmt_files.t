What becomes of the files that `kmap fmt` is given.

  $ echo '4 nop nop nop nop nop nop nop nop O' > odd
  $ echo '    4   nop    nop    nop    nop    nop    nop    nop    nop     O' > even
  $ echo '5 nop nop nop nop nop nop nop O' > faulty

A text with a fault is left as it is, and the next one follows:
  $ cp odd one
  $ cp odd two
  $ kmap fmt one faulty two
  one
  two
  ! kmap: faulty: text line 1 offset 30: Unexpected
  [1]
  $ cat faulty one two
  5 nop nop nop nop nop nop nop O
      4   nop    nop    nop    nop    nop    nop    nop    nop     O
      4   nop    nop    nop    nop    nop    nop    nop    nop     O
  $ kmap fmt --check even faulty odd
  odd
  ! kmap: faulty: text line 1 offset 30: Unexpected
  [1]
  $ kmap fmt --print even faulty odd
      4   nop    nop    nop    nop    nop    nop    nop    nop     O
      4   nop    nop    nop    nop    nop    nop    nop    nop     O
  ! kmap: faulty: text line 1 offset 30: Unexpected
  [1]
  $ kmap fmt --check even even

Files that are not there:
  $ kmap fmt none none/none
  ! kmap: cannot open none: No such file or directory
  ! kmap: cannot open none/none: No such file or directory
  [1]
  $ kmap fmt --check none even
  ! kmap: cannot open none: No such file or directory
  [1]

A text that is too long, one that would be, and one that is as long as it may be with its last line feed:
  $ head -c 1048577 /dev/zero | tr '\000' ' ' > long
  $ kmap fmt long
  ! kmap: long: text: more than 1048576 bytes
  [1]
  $ head -c 1048576 /dev/zero | tr '\000' '#' > full
  $ kmap fmt full
  ! kmap: full: text: more than 1048576 bytes when formatted
  [1]
  $ wc -c < full
  1048576
  $ head -c 1048575 /dev/zero | tr '\000' '#' > full
  $ kmap fmt full
  full
  $ wc -c < full
  1048576

Options stand where they like, before, between and behind the files:
  $ kmap fmt odd --check even odd
  odd
  odd
  [1]
  $ kmap fmt odd even --check
  odd
  [1]
  $ kmap fmt odd --print even
      4   nop    nop    nop    nop    nop    nop    nop    nop     O
      4   nop    nop    nop    nop    nop    nop    nop    nop     O

`-` is the standard input, so `kmap fmt -` is a filter, which writes no file:
  $ kmap fmt - < odd
      4   nop    nop    nop    nop    nop    nop    nop    nop     O
  $ cat odd
  4 nop nop nop nop nop nop nop nop O
  $ kmap fmt --print - < odd
      4   nop    nop    nop    nop    nop    nop    nop    nop     O
  $ kmap fmt --print even - < odd
      4   nop    nop    nop    nop    nop    nop    nop    nop     O
      4   nop    nop    nop    nop    nop    nop    nop    nop     O
  $ kmap fmt --check even - < odd
  -
  [1]
  $ kmap fmt - < even
      4   nop    nop    nop    nop    nop    nop    nop    nop     O
  $ kmap fmt --check - < even
  $ kmap fmt - < faulty
  ! kmap: -: text line 1 offset 30: Unexpected
  [1]

A filter goes on where others have read:
  $ { read -r first; kmap fmt -; } < "$examples/us.kbd" > printed
  $ tail -n +2 "$examples/us.kbd" | cmp - printed

A file of that name, and one whose name begins with a dash:
  $ mkdir dash
  $ cp odd dash/-
  $ cp odd dash/-x
  $ (cd dash && kmap fmt ./- && kmap fmt -- -x)
  ./-
  -x
  $ cmp even dash/-

A file in the layout is not touched, as the year of its time tells:
  $ touch -t 200001010000 even
  $ kmap fmt even
  $ ls -l --time-style=+%Y even | awk '{ print $6 }'
  2000

The rights of a file stay:
  $ for mode in 600 640 755; do
  >     cp odd file
  >     chmod $mode file
  >     kmap fmt file && stat -c %a file
  > done
  file
  600
  file
  640
  file
  755

Links stay, and the file that they lead to is written, also where its new file is there already:
  $ mkdir below
  $ cp odd below/real
  $ ln -s below/real link
  $ ln -s link again
  $ kmap fmt again
  again
  $ readlink again link
  link
  below/real
  $ cmp even below/real
  $ cp odd below/real
  $ : > below/real.kmap-fmt
  $ kmap fmt link
  link
  $ cmp even below/real
  $ ls below
  real
  real.kmap-fmt
  $ ln -s nowhere loose
  $ kmap fmt loose
  ! kmap: cannot open loose: No such file or directory
  [1]

A hard link keeps the old text:
  $ cp odd hard
  $ ln hard harder
  $ kmap fmt hard
  hard
  $ cmp odd harder

New files that were left behind stay, and where a thousand were, the text stays:
  $ cp odd file
  $ cp odd two
  $ echo old > file.kmap-fmt
  $ echo older > file.kmap-fmt-2
  $ kmap fmt file two
  file
  two
  $ cmp even file
  $ cat file.kmap-fmt file.kmap-fmt-2
  old
  older
  $ [ ! -e file.kmap-fmt-3 ]
  $ mkdir taken
  $ cp odd taken/file
  $ (cd taken && : > file.kmap-fmt && seq 2 1000 | sed 's/^/file.kmap-fmt-/' | xargs touch)
  $ kmap fmt taken/file
  ! kmap: cannot create taken/file.kmap-fmt-1000
  [1]
  $ cmp odd taken/file

A folder, a pipe and a device are not formatted. A pipe can be printed and checked.
  $ mkdir folder
  $ mkfifo pipe
  $ kmap fmt folder pipe /dev/null
  ! kmap: folder: not a regular file
  ! kmap: pipe: not a regular file
  ! kmap: /dev/null: not a regular file
  [1]
  $ kmap fmt --print folder
  ! kmap: folder: text: read fault at offset 0
  [1]
  $ cat odd > pipe &
  $ kmap fmt --print pipe
      4   nop    nop    nop    nop    nop    nop    nop    nop     O
  $ cat odd > pipe &
  $ kmap fmt --check pipe
  pipe
  [1]

The same file twice:
  $ cp odd twice
  $ kmap fmt twice twice
  twice
  $ kmap fmt --check odd odd
  odd
  odd
  [1]

A thousand files and one in the layout, with none left beside them:
  $ mkdir many
  $ cp even many/even.kbd
  $ (cd many && for i in $(seq 1000); do cp ../odd "$i.kbd"; done)
  $ (cd many && kmap fmt ./*.kbd) > names
  $ wc -l < names
  1000
  $ (cd many && kmap fmt --check ./*.kbd)
  $ ls many | wc -l
  1001
