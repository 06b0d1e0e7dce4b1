What becomes of the file into which `kmap compile` writes.

  $ printf "030 'a' 'A' nop nop 'a' 'A' nop nop C\n" > letter
  $ printf "1 '" > cut
  $ kmap compile letter tables

The text itself is no place for its tables, by whatever name; each status is 1.
  $ cp letter own
  $ ln -s own own.link
  $ ln own own.hard
  $ mkdir own.folder
  $ for out in own own.link own.hard ./own own.folder/../own; do
  >     kmap compile own "$out"
  >     echo $?
  >     kmap compile own --narrow "$out"
  >     echo $?
  > done 2>&1
  kmap: cannot create own
  1
  kmap: cannot create own
  1
  kmap: cannot create own.link
  1
  kmap: cannot create own.link
  1
  kmap: cannot create own.hard
  1
  kmap: cannot create own.hard
  1
  kmap: cannot create ./own
  1
  kmap: cannot create ./own
  1
  kmap: cannot create own.folder/../own
  1
  kmap: cannot create own.folder/../own
  1
  $ kmap compile own.link own
  ! kmap: cannot create own
  [1]
  $ cmp own letter
  $ readlink own.link
  own

Nor is it as standard output, and a fault of the text is told before:
  $ kmap compile own /dev/stdout >> own
  ! kmap: cannot create /dev/stdout
  [1]
  $ cmp own letter
  $ cp cut cut.own
  $ kmap compile cut.own cut.own
  ! kmap: text line 1 offset 3: EndInside
  [1]

Nor is any other keymap text, so a list of files that was meant for another command loses none, whatever its name is and
whether only an accent stands in it or a fault behind a definition. Each status is 1.
  $ mkdir two
  $ cp letter two/a.kbd
  $ cp "$examples/de.kbd" two/b.kbd
  $ (cd two && kmap compile *.kbd)
  ! kmap: cannot create b.kbd
  [1]
  $ cmp two/b.kbd "$examples/de.kbd"
  $ ls two
  a.kbd
  b.kbd
  $ ln -s two/b.kbd text.link
  $ echo 'dacu 180' > accent
  $ { cat letter; echo zz; } > begun
  $ for out in text.link accent begun; do
  >     cp "$out" before
  >     kmap compile letter "$out"
  >     echo $?
  >     kmap compile --narrow letter "$out"
  >     echo $?
  >     cmp before "$out"
  > done 2>&1
  kmap: cannot create text.link
  1
  kmap: cannot create text.link
  1
  kmap: cannot create accent
  1
  kmap: cannot create accent
  1
  kmap: cannot create begun
  1
  kmap: cannot create begun
  1
  $ kmap compile letter /dev/stdout >> two/b.kbd
  ! kmap: cannot create /dev/stdout
  [1]
  $ cmp two/b.kbd "$examples/de.kbd"

What defines nothing is no such text:
  $ : > empty
  $ echo '# a comment' > comment
  $ echo '30 zz' > faulty
  $ echo "30 'a' 'A' nop" > short
  $ for out in empty comment faulty short tables; do
  >     kmap compile letter $out && cmp tables $out
  > done

A device is no file of its own:
  $ kmap compile /dev/null /dev/null

What is written takes the place of the old file whole, whose rights stay. A new file has those of any new file.
  $ echo old > kept
  $ chmod 640 kept
  $ kmap compile letter kept
  $ cmp kept tables
  $ stat -c %a kept
  640
  $ (umask 027 && kmap compile letter masked)
  $ stat -c %a masked
  640

A link stays, also one to nothing:
  $ echo old > behind
  $ ln -s behind link
  $ kmap compile letter link
  $ readlink link
  behind
  $ cmp behind tables
  $ ln -s nowhere loose
  $ kmap compile letter loose
  $ cmp nowhere tables

New files that were left behind stay:
  $ echo old > kept
  $ echo left > kept.kmap-new
  $ echo behind > kept.kmap-new-2
  $ kmap compile letter kept
  $ cmp kept tables
  $ cat kept.kmap-new kept.kmap-new-2
  left
  behind
  $ [ ! -e kept.kmap-new-3 ]

Where a thousand were left behind, the old file stays:
  $ mkdir taken
  $ echo old > taken/out
  $ (cd taken && : > out.kmap-new && seq 2 1000 | sed 's/^/out.kmap-new-/' | xargs touch)
  $ kmap compile letter taken/out
  ! kmap: cannot create taken/out
  [1]
  $ cat taken/out
  old

Where the folder takes no new file, what may be written is written in place. A name of 255 bytes has room for none
behind it.
  $ long=$(printf '%0255d' 0)
  $ kmap compile letter "$long"
  $ cmp "$long" tables
  $ echo old > "$long"
  $ chmod 640 "$long"
  $ kmap compile letter "$long"
  $ cmp "$long" tables
  $ stat -c %a "$long"
  640
  $ kmap compile letter "${long}0" 2> told
  [1]
  $ sed "s/$long/LONG/" told
  kmap: cannot create LONG0

A file that is open as standard output, and a pipe:
  $ kmap compile letter /dev/stdout > piped
  $ cmp piped tables
  $ kmap compile letter /dev/stdout | cat > piped
  $ cmp piped tables

What cannot be created; a $ shows the end of the line without a name:
  $ kmap compile letter none/made
  ! kmap: cannot create none/made
  [1]
  $ kmap compile letter '' 2> told
  [1]
  $ sed 's/$/$/' told
  kmap: cannot create $
  $ mkdir folder
  $ kmap compile letter folder
  ! kmap: cannot create folder
  [1]
