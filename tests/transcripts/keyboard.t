`kmap cover --keyboard` prints a script that tests a console by its keyboard, in cases from rest to rest.

`covers` makes the file `script`: at each case and at its end no modifier and no lock is on. `begins` prints the comments
before the first case.
  $ covers() {
  >     kmap cover "$@" > script && eval "text=\${$#}" && kmap play "$text" script > answers &&
  >         awk 'NR == FNR { answers[NR] = $0; next }
  >             /^# case/ && n && answers[n] !~ /mods none; locks none$/ { bad++ }
  >             !/^#/ { n++ }
  >             END { exit bad || answers[n] !~ /mods none; locks none$/ }' answers script
  > }
  $ begins() {
  >     sed '/^# case/,$d' script
  > }

Only keys of the board are sent, and no resets; a key goes down only while it isn't, and is repeated and released only
while it is; key 104 is released right behind its press:
  $ possible() {
  >     awk -v ansi="$1" '
  >         /^#/ { next }
  >         $2 < 1 || $2 > 107 || $2 == 84 || $2 == 85 || ansi && $2 == 86 { bad++ }
  >         last == "down 104" && $0 != "up 104" { bad++ }
  >         $1 == "down" { if (down[$2]) bad++; down[$2] = 1 }
  >         $1 == "repeat" { if (!down[$2] || $2 == 104) bad++ }
  >         $1 == "up" { if (!down[$2]) bad++; down[$2] = 0 }
  >         $1 == "reset" { bad++ }
  >         { last = $0 }
  >         END { for (key in down) if (down[key]) bad++; exit bad > 0 }' script
  > }

Real keymaps: all that a keyboard can show is seen.
  $ covers --keyboard "$examples/us.kbd"
  $ begins
  # keyboard: 105 keys
  # not pressed: boot: slot 83 columns 6 7; slot 103 columns 6
  # not pressed: debug: slot 1 columns 6; slot 92 columns 2 3
  # not pressed: susp: slot 57 columns 6; slot 70 columns 4 6; slot 104 columns 4 6
  # not pressed: saver: slot 70 columns 1 3; slot 104 columns 1 3
  # not pressed: screens: slots 59 to 68 columns 4 5 6 7; slots 87 to 88 columns 4 5 6 7; slot 92 columns 0 1
  # not pressed: fkeys: slots 59 to 68 columns 0 1 2 3; slots 71 to 82 columns 0; slots 87 to 88 columns 0 1 2 3; slots 94 to 101 columns 0 1 2 3 4 5 6 7; slot 102 columns 0 2 3 4 5 6 7; slot 103 columns 0 1 2 3 4 5 7; slots 105 to 107 columns 0 1 2 3 4 5 6 7
  # not pressed: paste: slot 102 columns 1
  # cells: 608, left out 0, else 1440
  # lock settings: 318, left out 0, else 706
  # pairs: 54, left out 0, else 0
  $ possible
  $ [ "$(grep -vc '^#' script)" -le 5000 ]

Nothing that isn't pressed is looked up but function keys and paste behind a dead key, which are errors there:
  $ grep -c '^press .* \(boot\|debug\|susp\|saver\|stby\|nscr\|pscr\|panic\|halt\|pdwn\|scr[0-9]*\|fkey[0-9]*\|paste\);' answers
  0
  [1]
  $ covers --keyboard "$examples/de.kbd"
  $ begins | tail -n 3
  # cells: 607, left out 0, else 1441
  # lock settings: 318, left out 0, else 706
  # pairs: 52, left out 0, else 0
  $ possible
  $ covers --keyboard=104 "$examples/us.kbd"
  $ begins | sed -n '1p;/^# cells/p'
  # keyboard: 104 keys
  # cells: 600, left out 0, else 1448
  $ possible ansi

A keymap of three keys of which others are nop, whole: the letter and shift are tried, and last what the key with `boot`
looks up without. In the line of a case `+` is a press, `=` a repeat and `-` a release.
  $ nops() {
  >     for key in $(seq 1 83) $(seq 86 107); do
  >         grep -q "^$key " "$1" || echo "$key nop nop nop nop nop nop nop nop O"
  >     done | cat "$1" -
  > }
  $ cases() {
  >     sed -n '/^# case/,$s/^down /+/p; s/^repeat /=/p; s/^up /-/p; s/^# case \([0-9]*\): \(.*\)/case \1 \2:/p' |
  >         tr '\n' ' ' | sed 's/ case/\ncase/g; s/ $//' | awk 1
  > }
  $ cat > three << 'END'
  > 30 'a' 'A' nop nop 'a' 'A' nop nop C
  > 42 lshift lshift lshift lshift lshift lshift lshift lshift O
  > 83 '.' boot '.' boot '.' boot '.' boot O
  > END
  $ nops three > small
  $ covers --keyboard small
  $ begins
  # keyboard: 105 keys
  # not pressed: boot: slot 83 columns 1 3 5 7
  # cells: 209, left out 0, else 1839
  # lock settings: 105, left out 0, else 919
  # pairs: 0, left out 0, else 0
  $ cases < script | sed 's/ +\([0-9]*\) -\1//g'
  case 1 alone lshift: +42 -42 +42 =42 -42
  case 2 many: +42 -42
  case 3 repeats: +30 =30 =30 -30
  case 4 cells none:
  case 5 cells lshift: +42 -42
  case 6 risky cells none:

With `boot` pressed too the key is one as all others:
  $ covers --keyboard --press boot,saver small
  $ begins | sed -n 2p
  # cells: 210, left out 0, else 1838
  $ grep -c 'risky' script
  0
  [1]

Forms of other tools have the same events; one of them no repeats, so cases with a repeat are left out.
  $ kmap cover --keyboard --as set1 small | sed -n 6,10p
  # case 1: alone lshift
  2a
  1e
  9e
  aa
  $ kmap cover --keyboard --as x11 small | grep -e '^#' -e '^key[a-z]* 50'
  # keyboard: 105 keys
  # not pressed: boot: slot 83 columns 1 3 5 7
  # cells: 209, left out 0, else 1839
  # lock settings: 105, left out 0, else 919
  # pairs: 0, left out 0, else 0
  # case 1: alone lshift: not sent: repeat
  # case 2: many
  keydown 50
  keyup 50
  # case 3: repeats: not sent: repeat
  # case 4: cells none
  # case 5: cells lshift
  keydown 50
  keyup 50
  # case 6: risky cells none

Where no key of the board types, that is told; a key off the board types nothing.
  $ echo "126 '.' '.' '.' '.' '.' '.' '.' '.' O" > off
  $ nops off > silent
  $ kmap cover --keyboard silent
  ! kmap: no key of the board types
  [1]

What is no board or no action is told with those that are.
  $ kmap cover --keyboard=102 small
  ! kmap: no board 102: 105 104
  [2]
  $ kmap cover --keyboard --press boot,reboot small
  ! kmap: no action reboot: boot debug susp saver stby panic halt pdwn screens fkeys paste
  [2]
  $ kmap cover --keyboard= small
  ! kmap: no board : 105 104
  [2]
  $ kmap cover --press boot small 2>&1 | sed -n 1,2p
  error: the following required arguments were not provided:
    --keyboard[=<BOARD>]
