Edits of a keymap, and what `kmap diff --brief` tells of each to who reviews it. `edited OLD` takes the changed text, and
prints that and how many lines the whole answer has.
  $ cp "$examples/us.kbd" "$examples/de.kbd" .
  $ edited() {
  >     cat > new.kbd
  >     kmap diff --brief "$1.kbd" new.kbd
  >     set -- "$1" $?
  >     kmap diff "$1.kbd" new.kbd | wc -l
  >     return "$2"
  > }

A slip: key 16 gives p:
  $ sed "/^  016/s/'q'/'p'/" us.kbd | edited us
  # told apart: 'q' -> 'p'
  # more presses: q
  # differ: 1 slot
  4
  [1]

Base and shift of key 16 exchanged:
  $ sed "/^  016/s/'q'    'Q'/'Q'    'q'/g" us.kbd | edited us
  # told apart: 'q' -> 'Q'
  # more presses: q
  # fewer presses: Q
  # differ: 1 slot
  5
  [1]

Y and z exchanged:
  $ sed 's/^  021/  XXX/;s/^  044/  021/;s/^  XXX/  044/' us.kbd | edited us
  # told apart: 'y' -> 'z'
  # differ: 2 slots
  4
  [1]

A comment alone:
  $ sed 's/# The row of digits/# Digits/' de.kbd | edited de
  # same
  1

The definitions of slots in reverse order:
  $ { grep '^  [0-9]' us.kbd | sort -r; grep -v '^  [0-9]' us.kbd; } | edited us
  # same
  1

The accent drin removed:
  $ sed '/^  drin/d' de.kbd | edited de
  # told apart: none -> error
  # types no longer: Å å Ů ů ˚
  # gives no longer: drin
  # last accent: drin -> duml
  # differ: 1 accent
  8
  [1]

A pair removed:
  $ sed "s/( 'y' 'ÿ' )//" de.kbd | edited de
  # told apart: 'ÿ' -> error
  # types no longer: ÿ
  # differ: 1 accent
  8
  [1]

A pair changed:
  $ sed "s/( 'a' 'ä' )/( 'a' 'å' )/" de.kbd | edited de
  # told apart: 'ä' -> 'å'
  # differ: 1 accent
  7
  [1]

A pair added:
  $ sed "s/( 'u' 'ů' )/& ( 'w' 'ẘ' )/" de.kbd | edited de
  # told apart: error -> 'ẘ'
  # types now: ẘ
  # differ: 1 accent
  10
  [1]

Key 125 added:
  $ { cat us.kbd; echo "125 '¥' '|' nop nop nop nop nop nop O"; } | edited us
  # told apart: nul -> '¥'
  # types now: ¥
  # last slot: 108 -> 125
  # differ: 1 slot
  5
  [1]

The line of key 86 removed:
  $ sed '/^  086/d' de.kbd | edited de
  # told apart: '<' -> nul
  # types no longer: < > |
  # differ: 1 slot
  4
  [1]

Ü without caps lock:
  $ sed '/^  026/s/C$/O/' de.kbd | edited de
  # told apart: 'Ü' -> 'ü'
  # differ: 1 slot
  5
  [1]

Caps lock on ß:
  $ sed '/^  012/s/O$/C/' de.kbd | edited de
  # told apart: 'ß' -> '?'
  # differ: 1 slot
  5
  [1]

Caps lock is control:
  $ sed '/^  058/s/clock/lctrl/g' us.kbd | edited us
  # told apart: clock -> lctrl
  # lctrl: 29 -> 29, 58
  # clock: 58 -> nobody
  # differ: 1 slot
  5
  [1]

Caps lock and control exchanged:
  $ sed '/^  058/s/clock/lctrl/g;/^  029/s/lctrl/clock/g' us.kbd | edited us
  # told apart: lctrl -> clock
  # lctrl: 29 -> 58
  # clock: 58 -> 29
  # differ: 2 slots
  6
  [1]

Key 13 without dead keys:
  $ sed "/^  013/s/dacu   dgra/'´' 0x60/" de.kbd | edited de
  # told apart: none -> '´'
  # types no longer: À Á È É Ì Í Ò Ó Ù Ú Ý à á è é ì í ò ó ù ú ý
  # fewer presses: ` ´
  # gives no longer: dgra dacu
  # differ: 1 slot
  6
  [1]

A slip: x in the control columns of lshift:
  $ sed "/^  042/s/.*/042 lshift lshift 'x' 'x' lshift lshift lshift lshift O/" us.kbd | edited us
  # told apart: lshift -> 'x'
  # check: accepted -> refused
  # refused now: 42 (lshift, 'x')
  # differ: 1 slot
  6
  [1]

The euro from e to 5:
  $ sed "/^  018/s/'€'/nop/;/^  006/s/nop/'€'/3" de.kbd | edited de
  # told apart: none -> '€'
  # differ: 2 slots
  5
  [1]

Letters as numbers:
  $ sed "s/'a'/0x61/g;s/'q'/0x0071/g" us.kbd | edited us
  # same
  1

Another name of lalt:
  $ sed 's/lalt/alt/g' us.kbd | edited us
  # same
  1

Function keys off by one:
  $ perl -pe 's/fkey(\d\d)/sprintf "fkey%02d", $1 % 96 + 1/ge' us.kbd | edited us
  # told apart: fkey01 -> fkey02
  # gives no longer: fkey01
  # gives now: fkey65
  # differ: 37 slots
  41
  [1]

The control columns of letters emptied:
  $ awk '$1 ~ /^0(1[6-9]|2[0-5]|3[0-8]|4[4-9]|50)$/ { $4 = $5 = "nop" } 1' us.kbd | edited us
  # told apart: dc1 -> none
  # more presses: soh stx etx eot enq ack bel vt ff so si dle dc1 dc2 dc3 dc4 nak syn etb can em sub
  # differ: 26 slots
  30
  [1]

AltGr is lalt:
  $ sed 's/ralt/lalt/g' us.kbd | edited us
  # told apart: ralt -> lalt
  # lalt: 56 -> 56, 93
  # ralt: 93 -> nobody
  # differ: 1 slot
  5
  [1]

An upper half that no key selects:
  $ awk '{ print } $1 ~ /^[0-9]+$/ { sub($1, $1 + 128); print }' us.kbd | edited us
  # never told apart
  # last slot: 108 -> 236
  # differ: 109 slots
  111
  [1]

Alock in place of caps lock:
  $ sed '/^  058/s/clock/alock/g' us.kbd | edited us
  # told apart: clock -> alock
  # check: accepted -> refused
  # refused now: 29 (lctrl, nul), 42 (lshift, nul), 54 (rshift, nul), 56 (lalt, nul), 58 (alock, nul), 69 (nlock, nul), 70 (slock, nul), 90 (rctrl, nul), 93 (ralt, nul), 104 (slock, nul)
  # clock: 58 -> nobody
  # alock: nobody -> 58
  # differ: 1 slot
  7
  [1]

A second definition of slot 30:
  $ { cat us.kbd; echo "030 'ä' 'Ä' soh soh 'a' 'A' soh soh C"; } | edited us
  # told apart: 'a' -> 'ä'
  # more presses: A a
  # fewer presses: Ä ä
  # differ: 1 slot
  5
  [1]

Nop for nul with control:
  $ sed 's/nul    nul/nop    nop/g' us.kbd | edited us
  # told apart: nul -> none
  # differ: 1 slot
  4
  [1]

Pairs in another order:
  $ sed "s/( 'a' 'à' ) ( 'A' 'À' )/( 'A' 'À' ) ( 'a' 'à' )/" de.kbd | edited de
  # never told apart
  # differ: 1 accent
  2
  [1]

Another character of drin:
  $ sed "/^  drin/s/'˚'/'°'/" de.kbd | edited de
  # told apart: '˚' -> '°'
  # types no longer: ˚
  # differ: 1 accent
  8
  [1]

The German keymap in place of the US one:
  $ cat de.kbd | edited us
  # told apart: '-' -> 'ß'
  # types no longer: Ã Ñ Õ ã ñ õ
  # types now: § ° ² ³ µ Å ß å Ů ů ˚ ẞ €
  # more presses: ' ; = [ \ ] `
  # fewer presses: # + ´ Ä Ö Ü á â ä é ê í î ó ô ö ú û ü ý
  # gives no longer: dtil
  # gives now: drin
  # last accent: duml -> drin
  # differ: 51 slots, 2 accents
  62
  [1]

The last 40 lines missing:
  $ head -n -40 us.kbd | edited us
  # told apart: '<' -> nul
  # rctrl: 90 -> nobody
  # ralt: 93 -> nobody
  # slock: 70, 104 -> 70
  # types no longer: ¨ ´ À Á Â Ã Ä È É Ê Ë Ì Í Î Ï Ñ Ò Ó Ô Õ Ö Ù Ú Û Ü Ý à á â ã ä è é ê ë ì í î ï ñ ò ó ô õ ö ù ú û ü ý ÿ
  # more presses: <
  # gives no longer: nscr fkey11 fkey12 fkey23 fkey24 fkey35 fkey36 fkey47 fkey48 fkey61 fkey62 fkey63 fkey64 dgra dacu dcir dtil duml pscr paste
  # last slot: 108 -> 85
  # last accent: duml -> none
  # differ: 23 slots, 5 accents
  38
  [1]
A fault, and nothing on standard output:
  $ sed '0,/lshift/s//lshfit/' us.kbd > new.kbd
  $ kmap diff --brief us.kbd new.kbd
  ! new.kbd:52:9: error: lshfit means nothing; did you mean lshift [BadWord]
  !     042   lshfit lshift lshift lshift lshift lshift lshift lshift  O
  !           ^
  [2]

The whole answers of three of them:
  $ sed "/^  042/s/.*/042 lshift lshift 'x' 'x' lshift lshift lshift lshift O/" us.kbd > new.kbd
  $ kmap diff us.kbd new.kbd
  # told apart: lshift -> 'x'
  # check: accepted -> refused
  # refused now: 42 (lshift, 'x')
  # slot 42; ctrl, ctrl shift: lshift -> 'x'
  down 29
  down 42
  [1]
  $ sed '/^  086/d' de.kbd > new.kbd
  $ kmap diff de.kbd new.kbd
  # told apart: '<' -> nul
  # types no longer: < > |
  # slot 86; base: '<' -> nul; shift: '>' -> nul; ctrl, ctrl shift, alt shift, alt ctrl, alt ctrl shift: nop -> nul; alt: '|' -> nul
  down 86
  [1]
  $ awk '{ print } $1 ~ /^[0-9]+$/ { sub($1, $1 + 128); print }' us.kbd > new.kbd
  $ kmap diff us.kbd new.kbd | sed -n '1,3p;21,22p'
  # never told apart
  # last slot: 108 -> 236
  # slot 128 (unseen); all columns: nul -> nop
  # slot 146 (unseen); base, alt: nul -> 'e'; shift, alt shift: nul -> 'E'; ctrl, ctrl shift, alt ctrl, alt ctrl shift: nul -> enq; lock: O -> C
  # slot 147 (unseen); base, alt: nul -> 'r'; shift, alt shift: nul -> 'R'; ctrl, ctrl shift, alt ctrl, alt ctrl shift: nul -> dc2; lock: O -> C
