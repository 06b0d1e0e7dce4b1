`kmap lint` on several files, options and standard input.

Each file is judged alone, in the order of the words, under the name that it has there:
  $ echo '42 lshift lshift lshift lshift lshift lshift lshift lshift O' > clean
  $ echo '30 zz' > bad
  $ echo "30 'a' 'A' nop nop 'a' 'A' nop nop C" > doubtful
  $ mkdir folder
  $ cp bad folder
  $ kmap lint --quiet clean ./bad doubtful folder/../folder/bad "$PWD/bad" bad bad > printed
  [1]
  $ sed "s,^$PWD/,HERE/," printed
  ./bad:1:4: error: zz means nothing; a character is written as 'x' or 0xh, a cell that gives nothing as nop [BadWord]
    30 zz
       ^
  doubtful:1:1: warning: no key is lshift or rshift [no-shift]
  folder/../folder/bad:1:4: error: zz means nothing; a character is written as 'x' or 0xh, a cell that gives nothing as nop [BadWord]
    30 zz
       ^
  HERE/bad:1:4: error: zz means nothing; a character is written as 'x' or 0xh, a cell that gives nothing as nop [BadWord]
    30 zz
       ^
  bad:1:4: error: zz means nothing; a character is written as 'x' or 0xh, a cell that gives nothing as nop [BadWord]
    30 zz
       ^
  bad:1:4: error: zz means nothing; a character is written as 'x' or 0xh, a cell that gives nothing as nop [BadWord]
    30 zz
       ^

The status where no file has an error, and where the first one has:
  $ kmap lint --quiet clean doubtful clean
  doubtful:1:1: warning: no key is lshift or rshift [no-shift]
  $ kmap lint --quiet bad clean
  bad:1:4: error: zz means nothing; a character is written as 'x' or 0xh, a cell that gives nothing as nop [BadWord]
    30 zz
       ^
  [1]

A name of several words, one of other characters, and two that begin with a dash:
  $ cp bad 'a name: of [words]'
  $ kmap lint --quiet 'a name: of [words]'
  a name: of [words]:1:4: error: zz means nothing; a character is written as 'x' or 0xh, a cell that gives nothing as nop [BadWord]
    30 zz
       ^
  [1]
  $ cp bad zürich.kbd
  $ kmap lint --quiet zürich.kbd
  zürich.kbd:1:4: error: zz means nothing; a character is written as 'x' or 0xh, a cell that gives nothing as nop [BadWord]
    30 zz
       ^
  [1]
  $ cp bad ./--bad
  $ kmap lint --quiet ./--bad -- --bad
  ./--bad:1:4: error: zz means nothing; a character is written as 'x' or 0xh, a cell that gives nothing as nop [BadWord]
    30 zz
       ^
  --bad:1:4: error: zz means nothing; a character is written as 'x' or 0xh, a cell that gives nothing as nop [BadWord]
    30 zz
       ^
  [1]

A file that is not there, alone and among others, and two:
  $ kmap lint --quiet none
  ! kmap: cannot open none: No such file or directory
  [2]
  $ kmap lint --quiet doubtful none bad clean
  doubtful:1:1: warning: no key is lshift or rshift [no-shift]
  bad:1:4: error: zz means nothing; a character is written as 'x' or 0xh, a cell that gives nothing as nop [BadWord]
    30 zz
       ^
  ! kmap: cannot open none: No such file or directory
  [2]
  $ kmap lint --quiet none1 clean none2
  ! kmap: cannot open none1: No such file or directory
  ! kmap: cannot open none2: No such file or directory
  [2]

Both outputs in one are in the order of the files:
  $ kmap lint --quiet bad none bad 2>&1
  bad:1:4: error: zz means nothing; a character is written as 'x' or 0xh, a cell that gives nothing as nop [BadWord]
    30 zz
       ^
  kmap: cannot open none: No such file or directory
  bad:1:4: error: zz means nothing; a character is written as 'x' or 0xh, a cell that gives nothing as nop [BadWord]
    30 zz
       ^
  [2]

A folder:
  $ kmap lint --quiet folder doubtful
  doubtful:1:1: warning: no key is lshift or rshift [no-shift]
  ! kmap: folder: text: read fault at offset 0
  [2]

The longest text, and one that is too long:
  $ { cat bad; head -c 1048570 /dev/zero | tr '\000' ' '; } > long
  $ wc -c < long
  1048576
  $ kmap lint --quiet long
  long:1:4: error: zz means nothing; a character is written as 'x' or 0xh, a cell that gives nothing as nop [BadWord]
    30 zz
       ^
  [1]
  $ echo >> long
  $ kmap lint --quiet long bad
  bad:1:4: error: zz means nothing; a character is written as 'x' or 0xh, a cell that gives nothing as nop [BadWord]
    30 zz
       ^
  ! kmap: long: text: more than 1048576 bytes
  [2]

A thousand files, of which each tenth has an error, also where few may be open at once:
  $ mkdir many
  $ for number in $(seq 1000 1999); do cp clean "many/$number.kbd"; done
  $ for number in $(seq 1000 10 1999); do cp bad "many/$number.kbd"; done
  $ for number in $(seq 1000 10 1999); do
  >     echo "many/$number.kbd:1:4: error: zz means nothing; a character is written as 'x' or 0xh, a cell that gives nothing as nop [BadWord]"
  >     printf '  30 zz\n     ^\n'
  > done > wanted
  $ kmap lint --quiet many/*.kbd > printed
  [1]
  $ cmp wanted printed
  $ (ulimit -n 16 && exec kmap lint --quiet many/*.kbd) > printed
  [1]
  $ cmp wanted printed

With --strict warnings count as errors, and what is printed stays. The option stands anywhere.
  $ cp "$examples/us.kbd" good
  $ head -n 25 good > begun
  $ kmap lint --quiet begun
  begun:1:1: warning: no key is lshift or rshift [no-shift]
  begun:17:44: warning: the text defines no accent, so pressing dcir is an error [dead-key]
      007   '6'    '^'    rs     rs     '6'    dcir   rs     rs      O
                                               ^
  $ kmap lint --quiet --strict begun
  begun:1:1: warning: no key is lshift or rshift [no-shift]
  begun:17:44: warning: the text defines no accent, so pressing dcir is an error [dead-key]
      007   '6'    '^'    rs     rs     '6'    dcir   rs     rs      O
                                               ^
  [1]
  $ kmap lint --quiet begun --strict
  begun:1:1: warning: no key is lshift or rshift [no-shift]
  begun:17:44: warning: the text defines no accent, so pressing dcir is an error [dead-key]
      007   '6'    '^'    rs     rs     '6'    dcir   rs     rs      O
                                               ^
  [1]
  $ kmap lint --quiet good --strict good
  $ kmap lint --quiet --strict good begun good
  begun:1:1: warning: no key is lshift or rshift [no-shift]
  begun:17:44: warning: the text defines no accent, so pressing dcir is an error [dead-key]
      007   '6'    '^'    rs     rs     '6'    dcir   rs     rs      O
                                               ^
  [1]
  $ kmap lint --quiet --strict good none
  ! kmap: cannot open none: No such file or directory
  [2]

Twice it is the same, as behind an alias that has it:
  $ kmap lint --quiet --strict begun --strict > twice
  [1]
  $ kmap lint --quiet --strict begun | cmp - twice
  $ kmap lint --quiet --strict --strict good

`-` is the standard input, under the name that --name gives it:
  $ cp "$examples/trap.kbd" .
  $ kmap lint --quiet - < trap.kbd
  -:6:9: error: key 42 is lshift here and the character 'x' in column 2 (ctrl); put lshift or nop for its characters [mixed-key]
      042   lshift lshift 'x'    'x'    lshift lshift lshift lshift  O
            ^
  -:1:1: note: lshift stays on with no key pressed, after: down 42, down 29, down 42, up 29, up 42
  [1]
  $ kmap lint --quiet --name 'a b.kbd' - < trap.kbd
  a b.kbd:6:9: error: key 42 is lshift here and the character 'x' in column 2 (ctrl); put lshift or nop for its characters [mixed-key]
      042   lshift lshift 'x'    'x'    lshift lshift lshift lshift  O
            ^
  a b.kbd:1:1: note: lshift stays on with no key pressed, after: down 42, down 29, down 42, up 29, up 42
  [1]
  $ kmap lint --quiet - --name 'a b.kbd' < trap.kbd
  a b.kbd:6:9: error: key 42 is lshift here and the character 'x' in column 2 (ctrl); put lshift or nop for its characters [mixed-key]
      042   lshift lshift 'x'    'x'    lshift lshift lshift lshift  O
            ^
  a b.kbd:1:1: note: lshift stays on with no key pressed, after: down 42, down 29, down 42, up 29, up 42
  [1]

A file keeps its own name:
  $ kmap lint --quiet --name 'a b.kbd' - trap.kbd < trap.kbd
  a b.kbd:6:9: error: key 42 is lshift here and the character 'x' in column 2 (ctrl); put lshift or nop for its characters [mixed-key]
      042   lshift lshift 'x'    'x'    lshift lshift lshift lshift  O
            ^
  a b.kbd:1:1: note: lshift stays on with no key pressed, after: down 42, down 29, down 42, up 29, up 42
  trap.kbd:6:9: error: key 42 is lshift here and the character 'x' in column 2 (ctrl); put lshift or nop for its characters [mixed-key]
      042   lshift lshift 'x'    'x'    lshift lshift lshift lshift  O
            ^
  trap.kbd:1:1: note: lshift stays on with no key pressed, after: down 42, down 29, down 42, up 29, up 42
  [1]

So a name without `-` names nothing, and nor does one without a character. Both are refused:
  $ refused() {
  >     kmap lint --quiet "$@" < trap.kbd 2> told
  >     set -- $?
  >     head -n 1 told
  >     return $1
  > }
  $ refused --name other trap.kbd
  error: '--name <FILE>' is a name for standard input, and no TEXT is '-'
  [2]
  $ refused trap.kbd --name other ./-
  error: '--name <FILE>' is a name for standard input, and no TEXT is '-'
  [2]
  $ refused --name= -
  error: a value is required for '--name <FILE>' but none was supplied
  [2]
  $ refused --name '' -
  error: a value is required for '--name <FILE>' but none was supplied
  [2]
  $ refused --name one --name two -
  error: the argument '--name <FILE>' cannot be used multiple times
  [2]

A name that a terminal does not show:
  $ kmap lint --quiet --name "$(printf 'a\033b')" - < trap.kbd
  a�b:6:9: error: key 42 is lshift here and the character 'x' in column 2 (ctrl); put lshift or nop for its characters [mixed-key]
      042   lshift lshift 'x'    'x'    lshift lshift lshift lshift  O
            ^
  a�b:1:1: note: lshift stays on with no key pressed, after: down 42, down 29, down 42, up 29, up 42
  [1]

A folder as standard input:
  $ kmap lint --quiet - < folder
  ! kmap: -: text: read fault at offset 0
  [2]
  $ kmap lint --quiet --name it - < folder
  ! kmap: it: text: read fault at offset 0
  [2]

A file whose name is that of standard input:
  $ mkdir dash
  $ cp trap.kbd dash/-
  $ (cd dash && kmap lint --quiet ./-)
  ./-:6:9: error: key 42 is lshift here and the character 'x' in column 2 (ctrl); put lshift or nop for its characters [mixed-key]
      042   lshift lshift 'x'    'x'    lshift lshift lshift lshift  O
            ^
  ./-:1:1: note: lshift stays on with no key pressed, after: down 42, down 29, down 42, up 29, up 42
  [1]
