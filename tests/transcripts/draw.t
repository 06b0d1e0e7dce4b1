`kmap draw` draws a keymap.

`draws` draws into the file `picture`, in which every byte is a line feed or stands between blank and tilde, and which a
reader of XML takes; `has` tells which of some texts are not in it; `caps` prints the code, place and shape of each key
whose title is one line.
  $ reads_xml() {
  >     if command -v xmllint > reader; then
  >         xmllint --noout "$1"
  >     elif command -v python3 > reader; then
  >         python3 -c 'import sys, xml.etree.ElementTree as tree; tree.parse(sys.argv[1])' "$1"
  >     else
  >         echo there is neither xmllint nor python3
  >     fi
  > }
  $ draws() {
  >     kmap draw "$@" > picture && [ "$(tr -d '\012\040-\176' < picture | wc -c)" -eq 0 ] && reads_xml picture
  > }
  $ has() {
  >     for text in "$@"; do
  >         grep -qF -- "$text" picture || echo "$text"
  >     done
  > }
  $ caps() {
  >     place='transform="translate(\([0-9]*\) \([0-9]*\))"'
  >     code='<use href="#\([a-zA-Z]\)"\/><text x="[0-9]*" y="[0-9]*">\([0-9]*\)'
  >     sed -n "s/^<g role=\"img\"[^>]* $place><title>[^<]*<\/title>$code.*/\4 \1 \2 \3/p" picture
  > }

The four pictures, and the one that README shows:
  $ pictures=$tests/pictures
  $ draws "$pictures/us.kbd"
  $ cmp picture "$pictures/us.svg"
  $ draws "$pictures/de.kbd"
  $ cmp picture "$pictures/de.svg"
  $ draws "$pictures/us-ru.kbd"
  $ cmp picture "$pictures/us-ru.svg"
  $ draws "$pictures/fr-dvorak.kbd"
  $ cmp picture "$pictures/fr-dvorak.svg"
  $ draws "$examples/de.kbd"
  $ cmp picture "$tests/../docs/de.svg"
  $ grep -cF '](docs/de.svg)' "$tests/../README.md"
  1

The ISO board has 105 keys. The keys that a board doesn't have stand below it, from 514 on.
  $ draws "$examples/us.kbd"
  $ caps | awk '$3 < 500' | wc -l
  105

The ANSI board has those of ansi.places, whose lines are code, x and y on the board, and shape; key 86 stands below it.
  $ draws --ansi "$examples/us.kbd"
  $ caps | awk '$3 < 500 { print $1, $2 - 28, $3 - 68, $4 }' | diff "$pictures/ansi.places" -
  $ caps | awk '$3 >= 500 && $1 == 86' | wc -l
  1
  $ cp picture before
  $ draws "$examples/us.kbd" --ansi
  $ cmp picture before

The title of a key is its line of the printed form, but for a key past the last definition; and each line is a title,
but for one without cells and those of the upper half.
  $ titles() {
  >     draws "$1" || return
  >     sed -n 's/.*<title>\([0-9][^<]*\)<\/title>.*/\1/p' picture |
  >         sed 's/&#x003c;/</g; s/&#x003e;/>/g; s/&#x0026;/\&/g' | sort > titles
  >     kmap compile "$1" tables && kmap dump tables | grep '^[0-9]' | tr -s ' ' | sort > lines
  >     comm -13 lines titles | sed '/^[0-9]* nul nul nul nul nul nul nul nul O$/d'
  >     comm -23 lines titles |
  >         sed -E '/^[0-9]{3}( (nop|nul)){8} [OCNB]$/d; /^(12[89]|1[3-9][0-9]|2[0-9]{2}) /d'
  > }
  $ titles "$examples/us.kbd"
  $ titles "$examples/de.kbd"

A refused keymap says so, and why, and has a red cap for each finding of the check in each half:
  $ findings() {
  >     draws "$1" || return
  >     kmap check "$1" | grep '^key ' > findings
  >     has '<title id="title">Console keymap, refused</title>'
  >     while read -r finding; do
  >         has ">$finding</text>"
  >     done < findings
  >     halves=$(grep -c '>key code, locks<\|>slot, locks<' picture)
  >     [ "$(grep -c '^<g role="img" class="f"' picture)" -eq $(($(wc -l < findings) * halves)) ]
  > }
  $ findings "$examples/trap.kbd"
  $ sed '/^  058/s/clock/alock/g' "$examples/us.kbd" > caps.kbd
  $ findings caps.kbd

A keymap without keys, and one of all slots and pairs, on both boards; a surrogate is no character:
  $ : > empty
  $ draws empty
  $ has 'Console keymap, '
  $ awk 'BEGIN {
  >     for (slot = 0; slot < 256; slot++) {
  >         printf "%d", slot
  >         for (cell = 0; cell < 8; cell++)
  >             printf slot == 7 && cell == 3 ? " ashift" : " %d", 32 + (slot * 8 + cell) * 53
  >         print " B"
  >     }
  >     split("dgra dacu dcir dtil dmac dbre ddot duml dsla drin dced dapo ddac dogo dcar", name, " ")
  >     for (i = 1; i <= 15; i++) {
  >         printf "%s %d", name[i], 160 + i
  >         for (j = 0; j < 52; j++)
  >             printf " ( %d %d )", 33 + j + i, 1114111 - 20000 * i - j
  >         print ""
  >     }
  > }' | awk '{
  >     for (i = 1; i <= NF; i++)
  >         if ($i ~ /^[0-9]+$/ && $i > 55295 && $i < 57344)
  >             $i = $i + 2048
  >     print
  > }' > whole
  $ draws whole
  $ has 'Upper half: while ashift or alock is on' '>Accents</text>' '>255 B</text>'
  $ draws whole --ansi

`cells` makes a keymap with some characters, in hexadecimal, four a slot where they are drawn:
  $ cells() {
  >     printf '%s\n' "$@" | awk '
  >         { all[NR] = "0x" $1 }
  >         END {
  >             for (i = 1; i <= NR; i += 4) {
  >                 for (j = 0; j < 4; j++)
  >                     one[j] = i + j <= NR ? all[i + j] : "nop"
  >                 print (i - 1) / 4, one[0], one[1], "nop", "nop", one[2], one[3], "nop", "nop", "O"
  >             }
  >         }'
  > }

Characters that are drawn by their codes:
  $ coded='80 9f 115f 1160 1680 180b 180f 2000 200a 2028 2029 205f 206f 2800 3000 3164 e000 f8ff fdd0 fdef fe00 fe0f
  >     ffa0 fff0 fffb fffe ffff 1fffe 1ffff 2fffe 2ffff 3fffe 3ffff e0000 10ffff'
  $ cells $coded > t
  $ draws t
  $ for character in $coded; do
  >     case ${#character} in
  >     2) has ">U+00$character</text>" ;;
  >     *) has ">U+$character</text>" ;;
  >     esac
  > done

Characters that have short names:
  $ cells a0 ad 61c 200b 200c 200d 200e 200f 202a 202b 202c 202d 202e 202f 2060 2066 2067 2068 2069 feff > t
  $ draws t
  $ for word in nbsp shy alm zwsp zwnj zwj lrm rlm lre rle pdf lro rlo nnbsp wj lri rli fsi pdi bom; do
  >     has ">$word</text>"
  > done

Marks:
  $ marks='300 36f 483 489 591 5bd 5bf 5c1 5c2 5c4 5c5 5c7 610 61a 64b 65f 670 6d6 6dc 6df 6e4 6e7 6e8 6ea 6ed 711 730
  >     74a 7a6 7b0 7eb 7f3 e31 e34 e3a e47 e4e eb1 eb4 ebc ec8 ece 1ab0 1aff 1dc0 1dff 20d0 20f0 302a 302d 3099 309a
  >     fe20 fe2f'
  $ cells $marks > t
  $ draws t
  $ for character in $marks; do
  >     case ${#character} in
  >     3) has ">&#x25cc;&#x0$character;</text>" ;;
  >     *) has ">&#x25cc;&#x$character;</text>" ;;
  >     esac
  > done

The signs of XML, and a dead key without an accent:
  $ cat > signs << 'END'
  > 2 '<' '&' nop nop '>' '"' nop nop O
  > 3 ''' '<' '<' '<' '&' '>' '>' '>' C
  > 4 '<' '<' '<' '<' '<' '<' '<' '<' O
  > 5 ']' '>' '-' '-' '-' '>' '&' ';' O
  > 13 dacu dgra dacu dacu '&' '<' '"' ''' O
  > dacu '<' ( '&' '>' ) ( '"' ''' ) ( '<' '<' )
  > END
  $ draws signs
  $ has '>&#x003c;</text>' '>&#x0026;</text>' '>&#x003e;</text>' ">\"</text>" ">'</text>" \
  >     "<title>003 ''' '&#x003c;' '&#x003c;' '&#x003c;' '&#x0026;' '&#x003e;' '&#x003e;' '&#x003e;' C</title>"
  $ has "Dead keys without an accent"

A word that is wider than its place is shrunk to it: beside another one, alone, in a corner, and on a wider cap.
  $ cat > words << 'END'
  > 2 clock lalt nop nop slock lshift nop nop O
  > 3 'a' 0x2003 nop nop 'b' 0x2002 nop nop O
  > 4 0x2003 nop nop nop nop nop nop nop O
  > 5 ashift nop nop nop nop nop nop nop O
  > 6 'a' 0x10ffff nop nop nop nop nop nop O
  > 7 'a' ashift nop nop nop nop nop nop O
  > 15 0x10ffff 'a' nop nop 'b' nop nop nop O
  > 58 0x10ffff 'a' nop nop 'b' nop nop nop O
  > 14 0x10ffff 'a' nop nop 'b' nop nop nop O
  > END
  $ draws words
  $ grep -o '<text [^>]*textLength[^<]*' picture
  <text x="10" y="41" class="y m" textLength="18" lengthAdjust="spacingAndGlyphs">clock
  <text x="50" y="41" class="y r m" textLength="18" lengthAdjust="spacingAndGlyphs">slock
  <text x="10" y="20" class="b" textLength="18" lengthAdjust="spacingAndGlyphs">U+2003
  <text x="50" y="20" class="b r a" textLength="18" lengthAdjust="spacingAndGlyphs">U+2002
  <text x="30" y="30" class="x c" textLength="46" lengthAdjust="spacingAndGlyphs">U+2003
  <text x="10" y="20" class="t" textLength="38" lengthAdjust="spacingAndGlyphs">U+10ffff
  <text x="10" y="41" class="t" textLength="42" lengthAdjust="spacingAndGlyphs">U+10ffff

Signs of some scripts are smaller, from the first of their blocks to the last: beside others, in a corner, alone, and in
the table of an accent. Key 0 stands below the board.
  $ cells aff b00 dff e00 eff f00 109f 10a0 177f 1780 17ff 1800 19df 19e0 19ff 1a00 a97f a980 a9df a9e0 > t
  $ draws t
  $ grep -o '<text [^>]*class="[wo][ "][^<]*' picture | sed 's/.*class=//'
  "o">&#x0f00;
  "o r a">&#x109f;
  "o">&#x1780;
  "o r a">&#x17ff;
  "o">&#x19e0;
  "o r a">&#x19ff;
  "o">&#xa980;
  "o r a">&#xa9df;
  "o">&#x0b00;
  "o r a">&#x0dff;
  $ cat > large << 'END'
  > 2 0xf04 0xfb9 nop nop nop nop nop nop O
  > 3 0xf04 nop nop nop nop nop nop nop O
  > 4 0x905 nop nop nop nop nop nop nop O
  > dacu 0xf05 ( 0xf40 0xe01 )
  > END
  $ draws large
  $ grep -o '<text [^>]*>&#x0[ef9][^<]*' picture
  <text x="10" y="41" class="o">&#x0f04;
  <text x="10" y="20" class="o">&#x0fb9;
  <text x="30" y="33" class="w c">&#x0f04;
  <text x="30" y="33" class="z c">&#x0905;
  <text x="37" class="o">&#x0f40;
  <text x="12" class="o">&#x0f05;
  <text x="37">&#x0e01;

A name stands in the title of the whole and in the headline, as text, and an empty one is as none:
  $ draws "$examples/trap.kbd" --title 'Müller & <Söhne> ]]>'
  $ has '<title id="title">M&#x00fc;ller &#x0026; &#x003c;S&#x00f6;hne&#x003e; ]]&#x003e;, refused</title>' \
  >     '<text x="28" y="42" class="h">M&#x00fc;ller &#x0026; &#x003c;S&#x00f6;hne&#x003e; ]]&#x003e;</text>'
  $ grep -c 'Console keymap' picture
  0
  [1]
  $ draws whole --title ' a]'
  $ has '<title id="title"> a], refused</title>' '<text x="28" y="42" class="h"> a], lower half</text>' \
  >     'class="h">Upper half: while ashift or alock is on</text>'
  $ draws "$examples/us.kbd" --title ''
  $ cp picture before
  $ draws "$examples/us.kbd"
  $ cmp picture before

What a terminal doesn't show or XML forbids is U+FFFD, and a name has 48 characters at most:
  $ draws empty --title "$(printf 'a\tb\033c\302\205d\342\200\256e\357\277\276f\360\237\277\277')"
  $ has '>a&#xfffd;b&#xfffd;c&#xfffd;d&#xfffd;e&#xfffd;f&#x1ffff;</text>'
  $ draws empty --title "$(printf '%048d' 1)"
  $ has '>000000000000000000000000000000000000000000000001</text>'
  $ draws empty --title "$(printf '%049d' 1)"
  $ has '>00000000000000000000000000000000000000000000000&#x2026;</text>' \
  >     '>00000000000000000000000000000000000000000000000&#x2026;, accepted</title>'

A text with a fault, and none:
  $ printf "1 '" > cut
  $ kmap draw cut
  ! cut:1:4: error: the text ends in a quoted character [EndInside]
  !   1 '
  !      ^
  [1]
  $ kmap draw none
  ! kmap: cannot open none: No such file or directory
  [1]

Several texts, one picture behind the other, each with the name of its text unless another one is given:
  $ kmap draw empty "$examples/us.kbd" > pictures
  $ grep -c '^<svg' pictures
  2
  $ kmap draw --title empty empty > picture && kmap draw --title "$examples/us.kbd" "$examples/us.kbd" >> picture
  $ cmp picture pictures
  $ kmap draw --title one empty none cut empty > pictures
  ! kmap: cannot open none: No such file or directory
  ! cut:1:4: error: the text ends in a quoted character [EndInside]
  !   1 '
  !      ^
  [1]
  $ kmap draw --title one empty > picture
  $ cat picture picture | cmp - pictures

A change: `list` prints the headlines and lines below the board that tell it, with where they stand; `marked` the key or
slot of each line in a title, with the classes of its key.
  $ list() {
  >     sed -n 's/^<text x="28" y="\([0-9]*\)" class="\(h\|l\|h no\)"[^>]*>\(.*\)<\/text>$/\1 \3/p' picture |
  >         sed 's/&#x003c;/</g; s/&#x003e;/>/g; s/&#x0026;/\&/g' | sed '/^42 /d; / Accents$/d'
  > }
  $ marked() {
  >     awk '/^<g role="img"/ { class = ""; if (match($0, /class="[^"]*"/)) class = substr($0, RSTART + 7, RLENGTH - 8) }
  >         /^slot / { sub(";.*", ""); print $0, class }' picture
  > }
  $ sed '/^  058/s/clock/lctrl/g' "$examples/us.kbd" > caps.kbd
  $ cp "$examples/us.kbd" "$examples/de.kbd" .
  $ draws --old us.kbd --title caps.kbd caps.kbd
  $ list
  514 Changed from us.kbd: 1 key
  540 told apart: clock -> lctrl
  560 lctrl: 29 -> 29, 58
  580 clock: 58 -> nobody
  600 Amber: base or shift differs; pale amber: only other columns, or the lock letter. Below right on a changed key stands what it was, in the first of its four cells that differs.
  $ marked
  slot 58 m n
  $ has '<svg xmlns="http://www.w3.org/2000/svg" width="1492" height="1018" viewBox="0 0 1492 1018" ' \
  >     '<g role="img" class="m n" transform="translate(28 276)"><title>058 lctrl lctrl lctrl lctrl lctrl lctrl lctrl lctrl O' \
  >     'slot 58; all columns: clock -&#x003e; lctrl</title><use href="#d"/><text x="8" y="57">58</text><text x="54" y="30" class="x c m">lctrl</text><text class="s" x="100" y="57">clock</text></g>' \
  >     '.n use{color:#e08700}.q use{color:#f1c27d}.n use+text,.q use+text,.n>.s,.q>.s{fill:#2b1a00}.n>.s,.q>.s{font-size:10px;text-anchor:end}' \
  >     '.n use{color:#e09a35}.q use{color:#80591f}.n use+text,.n>.s{fill:#1c1000}.q use+text,.q>.s{fill:#ffe2b0}rect.n{fill:#4a3413}'

A slip that `check` finds: the line of the change stands below that of the slot.
  $ sed "/^  042/s/.*/042 lshift lshift 'x' 'x' lshift lshift lshift lshift O/" us.kbd > slip.kbd
  $ draws --old us.kbd slip.kbd
  $ list
  514 Changed from us.kbd: 1 key
  540 told apart: lshift -> 'x'
  560 check: accepted -> refused
  580 refused now: 42 (lshift, 'x')
  600 Amber: base or shift differs; pale amber: only other columns, or the lock letter. Below right on a changed key stands what it was, in the first of its four cells that differs.
  652 Findings
  $ has '<g role="img" class="f q" transform="translate(28 340)"><title>key 42: lshift at slot 42 column 0, character at slot 42 column 2' \
  >     "042 lshift lshift 'x' 'x' lshift lshift lshift lshift O" \
  >     "slot 42; ctrl, ctrl shift: lshift -&#x003e; 'x'</title><use href=\"#b\"/><text x=\"8\" y=\"57\">42</text><text x=\"38\" y=\"30\" class=\"x c m\">lshift</text></g>"

Another keymap: each slot that `diff` names has its line in a title, and no other one; so have accents, but for those that
are no more. The line of an accent that differs ends its title.
  $ draws --old us.kbd de.kbd
  $ list
  514 Changed from us.kbd: 51 keys, 2 accents
  540 told apart: '-' -> '&#x00df;'
  560 types no longer: &#x00c3; &#x00d1; &#x00d5; &#x00e3; &#x00f1; &#x00f5;
  580 types now: &#x00a7; &#x00b0; &#x00b2; &#x00b3; &#x00b5; &#x00c5; &#x00df; &#x00e5; &#x016e; &#x016f; &#x02da; &#x1e9e; &#x20ac;
  600 more presses: ' ; = [ \ ] `
  620 fewer presses: # + &#x00b4; &#x00c4; &#x00d6; &#x00dc; &#x00e1; &#x00e2; &#x00e4; &#x00e9; &#x00ea; &#x00ed; &#x00ee; &#x00f3; &#x00f4; &#x00f6; &#x00fa; &#x00fb; &#x00fc; &#x00fd;
  640 gives no longer: dtil
  660 gives now: drin
  680 last accent: duml -> drin
  700 dtil; own: '~' -> none; 'a': '&#x00e3;' -> none; 'A': '&#x00c3;' -> none; 'n': '&#x00f1;' -> none; 'N': '&#x00d1;' -> none; 'o': '&#x00f5;' -> none; 'O': '&#x00d5;' -> none
  720 Amber: base or shift differs; pale amber: only other columns, or the lock letter. Below right on a changed key stands what it was, in the first of its four cells that differs.
  $ kmap diff us.kbd de.kbd | sed -n 's/^# \(slot [0-9]*\);.*/\1/p' | sort > slots
  $ marked | sed 's/^\(slot [0-9]*\) .*/\1/' | sort | cmp - slots
  $ marked | grep -c ' n$'
  21
  $ has '<g role="img" class="q" transform="translate(1276 148)">' "slot 91; lock: N -&#x003e; O</title><use href=\"#a\"/><text x=\"8\" y=\"57\">91</text><text x=\"30\" y=\"33\" class=\"z c\">/</text></g>" \
  >     '<text x="10" y="20">"</text><text x="50" y="41" class="r a">&#x00b2;</text><text class="s" x="52" y="57">@</text></g>' \
  >     "'U': none -&#x003e; '&#x016e;'</title><rect class=\"row n\" width=\"1460\" height=\"48\" rx=\"8\"/>"

What was nothing, and of the four cells the first one that differs:
  $ printf '%s\n' "2 nop '!' nop nop nop nop nop nop O" "3 'a' 'A' 'x' nop '+' 'a' nop nop O" > old
  $ printf '%s\n' "2 'a' '!' nop nop nop nop nop nop O" "3 'a' 'A' nop nop '+' nul nop nop C" > new
  $ draws --old old new
  $ grep -o '<text class="s"[^<]*' picture
  <text class="s" x="52" y="57">&#x2205;
  <text class="s" x="52" y="57">a
  $ marked
  slot 2 n
  slot 3 (unseen) q

A key that the board doesn't have stands below what changed, also one that was removed:
  $ sed '/^  086/d' de.kbd > no-86.kbd
  $ draws --ansi --old de.kbd no-86.kbd
  $ grep -o '<text x="28" y="[0-9]*" class="l">Keys that' picture
  <text x="28" y="622" class="l">Keys that
  $ has '<g role="img" class="p n" transform="translate(28 632)"><title>086 nul nul nul nul nul nul nul nul O'

A slot of an upper half that no key selects stands in the list. A long line is broken at blanks:
  $ { cat us.kbd; echo "144 'a' 'b' 'c' 'd' 'e' 'f' 'g' 'h' C"; echo "145 'q' 'Q' nop nop 'q' 'Q' nop nop C"; } > longer.kbd
  $ draws --old us.kbd longer.kbd
  $ list
  514 Changed from us.kbd: 2 slots
  540 never told apart
  560 last slot: 108 -> 145
  580 slot 144 (unseen); base: nul -> 'a'; shift: nul -> 'b'; ctrl: nul -> 'c'; ctrl shift: nul -> 'd'; alt: nul -> 'e'; alt shift: nul -> 'f'; alt ctrl: nul -> 'g'; alt ctrl shift: nul ->
  600     'h'; lock: O -> C
  620 slot 145 (unseen); base, alt: nul -> 'q'; shift, alt shift: nul -> 'Q'; ctrl, ctrl shift, alt ctrl, alt ctrl shift: nul -> nop; lock: O -> C
  640 Amber: base or shift differs; pale amber: only other columns, or the lock letter. Below right on a changed key stands what it was, in the first of its four cells that differs.

The same keymap, and several texts; each is compared with the old one:
  $ draws --old us.kbd --title us us.kbd
  $ list
  514 Changed from us.kbd: nothing
  $ marked
  $ kmap draw --old us.kbd us.kbd caps.kbd | grep -o 'Changed from us.kbd: [^<]*'
  Changed from us.kbd: nothing
  Changed from us.kbd: 1 key
  $ kmap draw --old - caps.kbd < us.kbd | grep -o 'Changed from [^<]*'
  Changed from -: 1 key
  $ kmap draw --old - - < us.kbd
  ! error: '-' is standard input, which can be given only once
  ! 
  ! Usage: kmap <COMMAND>
  ! 
  ! For more information, try '--help'.
  [2]

The fault of the old text is told, and else that of the new one:
  $ kmap draw --old cut us.kbd
  ! cut:1:4: error: the text ends in a quoted character [EndInside]
  !   1 '
  !      ^
  [1]
  $ kmap draw --old us.kbd cut
  ! cut:1:4: error: the text ends in a quoted character [EndInside]
  !   1 '
  !      ^
  [1]
  $ kmap draw --old none us.kbd
  ! kmap: cannot open none: No such file or directory
  [1]
