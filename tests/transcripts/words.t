The words on the command line. What is told of wrong ones are the texts of clap.

The version and the help:
  $ kmap --version > version
  $ grep -cxE 'kmap [0-9]+\.[0-9]+\.[0-9]+' version
  1
  $ kmap --help > help
  $ grep -cF 'kmap(1), kmap(3) and kmap(5)' help
  1

The help of the program and of each command has an example and names a manual page, and -h prints it too:
  $ . "$tests/shared.sh"
  $ for command in '' $(commands_in help); do
  >     [ "$command" != help ] || continue
  >     kmap $command --help > long && grep -q "^Example: kmap .*$command " long && grep -qF 'kmap(' long &&
  >         kmap $command -h > short && cmp long short && echo "${command:-kmap}"
  > done
  kmap
  check
  search
  diff
  lint
  fmt
  play
  type
  cover
  compile
  dump
  draw
  $ kmap help help > long
  $ [ -s long ]
  $ kmap help --help > short
  $ cmp long short
  $ kmap help -h > short
  $ cmp long short

Wrong words end with status 2, and something is told of them:
  $ printf "030 'a' 'A' nop nop 'a' 'A' nop nop C\n" > letter
  $ printf 'down 30\nup 30\n' > tap
  $ wrong() {
  >     kmap "$@" 2> told
  >     set -- $?
  >     [ -s told ] || echo nothing is told
  >     return $1
  > }
  $ wrong help --loud
  [2]
  $ wrong
  [2]
  $ wrong jump
  [2]
  $ wrong play letter
  [2]
  $ wrong cover letter tap
  [2]
  $ wrong diff letter
  [2]
  $ wrong diff letter letter letter
  [2]
  $ wrong check letter --loud
  [2]
  $ wrong lint
  [2]
  $ wrong lint --loud letter
  [2]
  $ wrong lint letter --loud
  [2]
  $ wrong cover
  [2]
  $ wrong fmt
  [2]
  $ wrong fmt --check --print letter
  [2]
  $ grep -c "'--check' cannot be used with '--print'" told
  1
  $ wrong check --show --brief letter
  [2]
  $ grep -c "'--brief' cannot be used with '--show'\|'--show' cannot be used with '--brief'" told
  1
  $ wrong type letter
  [2]
  $ wrong type letter tap --text a
  [2]
  $ wrong type --text a
  [2]
  $ wrong type letter --text
  [2]

A slip is told with the name that is meant, of all subcommands or of the options of one, and with the usage of what was
understood:
  $ wrong chekc letter
  [2]
  $ grep -e 'tip: ' -e 'Usage: ' told
    tip: a similar subcommand exists: 'check'
  Usage: kmap <COMMAND>
  $ wrong check --brif letter
  [2]
  $ grep -e 'tip: ' -e 'Usage: ' told
    tip: a similar argument exists: '--brief'
  Usage: kmap check --brief <TEXT>...
  $ kmap help check > help
  $ kmap check --help | cmp - help

A flag that stands twice counts once; what takes a file is refused, and so are flags that exclude each other:
  $ kmap check --show letter --show > shown
  $ kmap check --show letter | cmp - shown
  $ kmap fmt --check --check letter
  letter
  [1]
  $ kmap compile --narrow letter --narrow small
  $ kmap dump --narrow small --narrow > printed
  $ kmap draw --ansi --ansi letter > drawn
  $ kmap play --typed letter tap --typed
  a (no-eol)
  $ wrong search letter --next letter --next letter
  [2]
  $ wrong fmt --check --print --check letter
  [2]

Words that are not UTF-8. It is told which, also of a long one:
  $ wrong check "$(printf '\377')"
  [2]
  $ wrong lint letter "$(printf '\377')"
  [2]
  $ wrong check letter "$(printf 'a\377\033b')" tap
  [2]
  $ head -n 1 told
  error: argument 3 is not valid UTF-8: a��b
  $ long=$(printf '%01000d' 0)
  $ wrong check "$long$(printf '\377')"
  [2]
  $ head -n 1 told | sed "s/$long/LONG/"
  error: argument 2 is not valid UTF-8: LONG�

What is repeated of wrong words is shown, with no control but line feeds:
  $ shown() {
  >     text=$1
  >     shift
  >     wrong "$@"
  >     set -- $?
  >     grep -qF -- "$text" told || echo "not shown: $text"
  >     tr -d '\012\040-\176\200-\377' < told
  >     return $1
  > }
  $ shown "'e�[31m.kbd'" cover letter "$(printf 'e\033[31m.kbd')"
  [2]
  $ shown "'e�[31m'" "$(printf 'e\033[31m')"
  [2]
  $ shown "'--e�[31m'" check "$(printf -- '--e\033[31m')" letter
  [2]
  $ shown "'a�b'" cover letter "$(printf 'a\nb')"
  [2]

A name that begins with a dash is told with a tip, which has the whole word, and which helps:
  $ wrong check -x.kbd
  [2]
  $ grep -e "'-- " told
    tip: to pass '-x.kbd' as a value, use '-- -x.kbd'
  $ wrong check --x=.kbd
  [2]
  $ grep -e "'-- " told
    tip: to pass '--x=.kbd' as a value, use '-- --x=.kbd'
  $ echo '42 lshift lshift lshift lshift lshift lshift lshift lshift O' > ./-x.kbd
  $ kmap check -- -x.kbd
  accepted
  lshift throughout 42
  rshift nobody
  lctrl nobody
  rctrl nobody
  lalt nobody
  ralt nobody
  ashift nobody
  meta nobody
  clock nobody
  nlock nobody
  slock nobody
  alock nobody
