#!/bin/sh
# Measures the program on large inputs: what a byte of text and an event of a script cost, how these costs grow from a
# tenth of the largest size to the whole, how many reads and writes a run makes, what lint and fmt cost, what the check of
# one keymap with the start of the program costs, what the longest search for a demonstration costs, what the search of a
# keymap and that between two cost, what the differences of two keymaps cost, what the script of a sentence costs, what
# the script that tests a console costs, what a picture costs, and what an event costs over a keymap in memory, over its
# tables and in a program in C. Where instructions are counted it compares what is measured with bench/limits, tells each
# limit that is passed, and fails then.
#
# usage: run.sh PROGRAM TESTS LIBRARY
# TESTS has the tests of crates/tests, of which one steps consoles, LIBRARY is that for C, LIMITS is another file of
# limits, and GUIDE
# another text whose table is written. Costs are instructions, counted by perf(1) or else by callgrind of valgrind(1), or
# else microseconds of processor time. Reads and writes are the system calls of these names, among them a few of the
# loader, counted by strace(1), or else by `valgrind --trace-syscalls=yes`.

program=${1:-crates/kmap/out/kmap}
tests=${2:-crates/tests/out/tests_tests}
library=${3:-crates/kmap_c/out/libkmap_c.a}
case $program in
/*) ;;
*) program=$PWD/$program ;;
esac
case $library in
/*) ;;
*) library=$PWD/$library ;;
esac
case $tests in
/*) ;;
*) tests=$PWD/$tests ;;
esac
examples=$(cd "$(dirname "$0")/../examples" && pwd)
here=$(cd "$(dirname "$0")" && pwd)
case ${LIMITS:=$here/limits} in
/*) ;;
*) LIMITS=$PWD/$LIMITS ;;
esac
case ${GUIDE:=$here/../docs/GUIDE.md} in
/*) ;;
*) GUIDE=$PWD/$GUIDE ;;
esac
keymap=$examples/us.kbd
folder=$(mktemp -d) || exit 1
trap 'rm -rf "$folder"' EXIT
cd "$folder" || exit 1

# The largest text and script that the program reads.
limit=1048576

# wide: the lines of the keymap, in columns
wide() {
    grep -v '^#' "$keymap"
}

# tight: the same with one blank between words, and numbers in place of quoted characters
tight() {
    wide | awk '
        BEGIN {
            for (i = 32; i < 127; i++)
                number[sprintf("%c", i)] = sprintf("0x%04x", i)
        }
        {
            while (match($0, /\047.\047/))
                $0 = substr($0, 1, RSTART - 1) number[substr($0, RSTART + 1, 1)] substr($0, RSTART + 3)
            $1 = $1
            print
        }'
}

# repeated SIZE: the lines of the input over and over, as long as they fit
repeated() {
    awk -v size="$1" '
        { line[NR] = $0 }
        END {
            for (i = 0; (used += length(line[i % NR + 1]) + 1) <= size; i++)
                print line[i % NR + 1]
        }'
}

# make_script SIZE: keys typed in turn, some with shift, a few lost releases and resets
make_script() {
    awk -v size="$1" '
        function put(line) {
            if (used + length(line) + 1 <= size) {
                print line
                used += length(line) + 1
            } else
                full = 1
        }
        BEGIN {
            for (i = 0; !full; i++) {
                key = 16 + i * 7 % 35
                if (i % 5 == 0) put("down 42")
                put("down " key)
                if (i % 3 == 0) put("repeat " key)
                put(i % 97 == 0 ? "lost up " key : "up " key)
                if (i % 5 == 0) put("up 42")
                if (i % 997 == 0) put("reset")
            }
        }'
}

# make_refused: each key has a trap and each bit of a set a key, but no press ever turns a modifier on
make_refused() {
    awk 'BEGIN {
        split("lshift lctrl lalt ashift", name, " ")
        for (key = 0; key < 128; key++)
            print key, "\047x\047 \047x\047 \047x\047 \047x\047 \047x\047 \047x\047 \047x\047", name[key % 4 + 1], "O"
    }'
}

. "$here/costs.sh"

# names ARGS..: the names of the system calls of a run, one a line
if command -v strace > /dev/null; then
    names() {
        strace -f -o names.out "$program" "$@" > /dev/null
        sed -n 's/^[0-9]* *\([a-z0-9_]*\)(.*/\1/p' names.out
    }
elif command -v valgrind > /dev/null; then
    names() {
        valgrind --trace-syscalls=yes "$program" "$@" 2>&1 > /dev/null |
            sed -n 's/.*SYSCALL\[[^ ]* *[^ ]* *sys_\([a-z0-9_]*\) .*/\1/p'
    }
else
    echo "reads and writes are not counted: there is neither strace nor valgrind"
    names() {
        :
    }
fi

# transfers ARGS..: how often a run reads and writes
transfers() {
    names "$@" | awk '
        { count[$1]++ }
        END {
            if (NR)
                printf "reads %d, writes %d", count["read"], count["write"]
            else
                printf "reads and writes unknown"
        }'
}

# measured NAME VALUE: what is to be within the limit of that name
: > measured
measured() {
    echo "$1 $2" >> measured
}

# grown TENTH WHOLE FIXED TENTH_COUNT WHOLE_COUNT: how costs grow, divided by how sizes do, is to be within its limit
grown() {
    measured growth "$(awk -v a="$1" -v b="$2" -v f="$3" -v m="$4" -v n="$5" \
        'BEGIN { printf "%.3f", (b - f) / (a - f) * m / n }')"
}

# ratio A B: how many times B is A
ratio() {
    awk -v a="$1" -v b="$2" 'BEGIN { printf "%.2f", a / b }'
}

# reads ARGS..: how often a run reads
reads() {
    names "$@" | grep -cx read
}

# per TOTAL FIXED COUNT: the cost of one
per() {
    awk -v total="$1" -v fixed="$2" -v count="$3" 'BEGIN { printf "%.1f", (total - fixed) / count }'
}

# growth TENTH WHOLE FIXED TENTH_COUNT WHOLE_COUNT: how the costs grow, and how the sizes do
growth() {
    awk -v a="$1" -v b="$2" -v f="$3" -v m="$4" -v n="$5" \
        'BEGIN { printf "cost times %.2f where the size is times %.2f", (b - f) / (a - f), n / m }'
}

make_script $((limit / 10)) > script.tenth
make_script $limit > script.whole
: > empty

events_tenth=$(wc -l < script.tenth)
events_whole=$(wc -l < script.whole)

fixed=$(cost check empty)
for text in wide tight; do
    $text | repeated $((limit / 10)) > text.tenth
    $text | repeated $limit > text.whole
    bytes_tenth=$(wc -c < text.tenth)
    bytes_whole=$(wc -c < text.whole)
    tenth=$(cost check text.tenth)
    whole=$(cost check text.whole)
    echo "$text text of $bytes_tenth and of $bytes_whole bytes, checked:"
    echo "  $(per "$tenth" "$fixed" "$bytes_tenth") and $(per "$whole" "$fixed" "$bytes_whole") $unit a byte;" \
        "$(growth "$tenth" "$whole" "$fixed" "$bytes_tenth" "$bytes_whole")"
    echo "  $(transfers check text.tenth), and $(transfers check text.whole);" \
        "$(transfers check empty) on an empty text"
    measured $text-text-a-byte "$(per "$whole" "$fixed" "$bytes_whole")"
    grown "$tenth" "$whole" "$fixed" "$bytes_tenth" "$bytes_whole"
    measured text-reads $(($(reads check text.whole) - $(reads check empty)))
done

# few: the keymap and comments, so that there is nothing to tell
few() {
    cat "$keymap"
    while :; do
        echo '# Comments take the place of what would be defined once more, in lines like those of slots above them.'
    done
}

few | head -c $((limit / 10)) > few.tenth
few | head -c $limit > few.whole
# the tight text once more, all of it in one line
tr '\n' ' ' < text.tenth > line.tenth
tr '\n' ' ' < text.whole > line.whole
for text in few text line; do
    tenth=$(cost lint $text.tenth)
    whole=$(cost lint $text.whole)
    bytes_tenth=$(wc -c < $text.tenth)
    bytes_whole=$(wc -c < $text.whole)
    echo "text of $bytes_tenth and of $bytes_whole bytes with" \
        "$("$program" lint $text.whole | grep -c ': warning: ') warnings, told by lint:"
    echo "  $(per "$tenth" "$fixed" "$bytes_tenth") and $(per "$whole" "$fixed" "$bytes_whole") $unit a byte;" \
        "$(growth "$tenth" "$whole" "$fixed" "$bytes_tenth" "$bytes_whole")"
    echo "  $(transfers lint $text.tenth), and $(transfers lint $text.whole)"
    case $text in
    few) measured lint-nothing-a-byte "$(per "$whole" "$fixed" "$bytes_whole")" ;;
    text)
        many=$((whole - fixed))
        measured lint-warnings-a-byte "$(per "$whole" "$fixed" "$bytes_whole")"
        ;;
    line) measured lint-line-to-lines "$(ratio $((whole - fixed)) "$many")" ;;
    esac
    grown "$tenth" "$whole" "$fixed" "$bytes_tenth" "$bytes_whole"
done

# The text written tight gets twice as long, so half of what a text may have.
fixed=$(cost fmt --print empty)
for text in wide tight; do
    $text | repeated $((limit / 20)) > laid.tenth
    $text | repeated $((limit / 2)) > laid.whole
    bytes_tenth=$(wc -c < laid.tenth)
    bytes_whole=$(wc -c < laid.whole)
    tenth=$(cost fmt --print laid.tenth)
    whole=$(cost fmt --print laid.whole)
    echo "$text text of $bytes_tenth and of $bytes_whole bytes, laid out:"
    echo "  $(per "$tenth" "$fixed" "$bytes_tenth") and $(per "$whole" "$fixed" "$bytes_whole") $unit a byte;" \
        "$(growth "$tenth" "$whole" "$fixed" "$bytes_tenth" "$bytes_whole")"
    echo "  $(transfers fmt --print laid.tenth), and $(transfers fmt --print laid.whole)"
    measured fmt-$text-a-byte "$(per "$whole" "$fixed" "$bytes_whole")"
    grown "$tenth" "$whole" "$fixed" "$bytes_tenth" "$bytes_whole"
done

checked=$(cost check "$keymap")
linted=$(cost lint "$keymap")
echo "us.kbd, checked: $checked $unit; told by lint: $linted $unit, times $(per "$linted" 0 "$checked")"
measured check "$checked"

# the keymap without its key for f: what keys type is looked for
grep -v '^  033' "$keymap" > lacking
lacking=$(cost lint lacking)
echo "us.kbd without a key for f, told by lint: $lacking $unit"
measured lint-cannot-type "$lacking"

for show in '' --typed; do
    # The flag is left out where it is empty.
    fixed=$(cost play $show "$keymap" empty)
    tenth=$(cost play $show "$keymap" script.tenth)
    whole=$(cost play $show "$keymap" script.whole)
    echo "script of $events_tenth and of $events_whole events, played${show:+ with $show}:"
    echo "  $(per "$tenth" "$fixed" "$events_tenth") and $(per "$whole" "$fixed" "$events_whole") $unit an event;" \
        "$(growth "$tenth" "$whole" "$fixed" "$events_tenth" "$events_whole")"
    echo "  $(transfers play $show "$keymap" script.tenth), and $(transfers play $show "$keymap" script.whole);" \
        "$(transfers play $show "$keymap" empty) on an empty script"
    measured "play${show:+-typed}-an-event" "$(per "$whole" "$fixed" "$events_whole")"
    grown "$tenth" "$whole" "$fixed" "$events_tenth" "$events_whole"
done

"$program" compile "$keymap" tables || exit 1
echo "dump of the tables of us.kbd: $(cost dump tables) $unit"
echo "  $(transfers dump tables)"

make_refused > refused
plain=$(cost check refused)
shown=$(cost check --show refused)
echo "map of $("$program" check refused | grep -c '^key ') findings, checked: $plain $unit; with --show: $shown $unit," \
    "times $(per "$shown" 0 "$plain"); $("$program" check --show refused | tail -n 1)"
echo "  $(transfers check refused); with --show: $(transfers check --show refused)"
measured check-show "$shown"

# Their lock key is a character in one column, for which `check` refuses them: so the search goes over their states.
for name in us de; do
    sed "/^  058/s/clock /'x'   /8" "$examples/$name.kbd" > $name.refused
done
one=$(cost search us.refused)
other=$(cost search de.refused)
both=$(cost search us.refused --next de.refused)
echo "search of us.kbd, refused: $one $unit, of de.kbd: $other $unit; between them: $both $unit, times" \
    "$(awk -v a="$one" -v b="$other" -v c="$both" 'BEGIN { printf "%.2f", c / (a > b ? a : b) }')"
echo "  $(transfers search us.refused --next de.refused)"
measured search "$one"
measured search-between-to-one "$(ratio "$both" "$([ "$one" -gt "$other" ] && echo "$one" || echo "$other")")"

same=$(cost diff "$keymap" "$keymap")
differing=$(cost diff "$keymap" "$examples/de.kbd")
echo "differences of us.kbd and itself: $same $unit; of us.kbd and de.kbd: $differing $unit, times" \
    "$(per "$differing" 0 "$same")"
echo "  $(transfers diff "$keymap" "$examples/de.kbd")"
measured diff-same "$same"
measured diff "$differing"
sed "s/( 'a' 'á' )/( 'a' 'x' )/" "$examples/de.kbd" > de.pair
paired=$(cost diff "$examples/de.kbd" de.pair)
echo "differences of de.kbd and itself with one pair changed: $paired $unit;" \
    "$("$program" diff "$examples/de.kbd" de.pair | head -n 1)"
measured diff-pair "$paired"
# as many states as the search goes over, and an accent that no key has
make_states 8 > states
{ cat states; echo "dacu 180 ( 'a' 0xe1 )"; } > states.accent
differing=$(cost diff states states.accent)
echo "the same of a keymap of 65,536 states: $differing $unit;" \
    "$("$program" diff states states.accent | head -n 1)"
measured diff-most-states "$differing"

tr -dc '\012a-zA-Z0-9 ,.;:!?' < text.whole | tr '\012' ' ' | head -c 32768 > sentence
"$program" type "$keymap" sentence > typing.script || exit 1
typing=$(cost type "$keymap" sentence)
playing=$(cost play "$keymap" typing.script)
typed=$(cost play --typed "$keymap" typing.script)
echo "sentence of $(wc -c < sentence) bytes: $typing $unit for its script of $(wc -c < typing.script) bytes, which is" \
    "$(per "$typing" 0 "$playing") times what playing that costs, and $(per "$typing" 0 "$typed") times with --typed"
echo "  $(transfers type "$keymap" sentence)"
measured type-to-play "$(ratio "$typing" "$playing")"
measured type-to-play-typed "$(ratio "$typing" "$typed")"

covered=$(cost cover "$keymap")
echo "script that tests a console, of us.kbd: $covered $unit; $("$program" cover "$keymap" | grep -vc '^#') events"
echo "  $(transfers cover "$keymap")"
measured cover "$covered"
covered=$(cost cover states)
echo "the same of a keymap of 65,536 states: $covered $unit; $("$program" cover states | grep -vc '^#') events"
measured cover-most-states "$covered"

picture=$(cost draw "$keymap")
echo "picture of us.kbd: $picture $unit; $("$program" draw "$keymap" | wc -c) bytes"
echo "  $(transfers draw "$keymap")"
measured picture "$picture"

# Ten thousand rounds of eight events, without one round.
program=$tests
over_map=$(per "$(cost calls::answers steps map 10000)" "$(cost calls::answers steps map 1)" 79992)
over_tables=$(per "$(cost calls::answers steps tables 10000)" "$(cost calls::answers steps tables 1)" 79992)
echo "an event over a keymap: $over_map $unit; over its tables: $over_tables $unit, times" \
    "$(ratio "$over_tables" "$over_map")"
measured keymap-an-event "$over_map"
measured tables-an-event "$over_tables"
measured tables-to-keymap "$(ratio "$over_tables" "$over_map")"

# The same rounds in C.
${CC:-cc} -O2 -I "$here/../include" "$here/steps.c" "$library" -o steps || exit 1
program=$folder/steps
in_c=$(per "$(cost 10000)" "$(cost 1)" 79992)
echo "an event by kmap_step in a program in C: $in_c $unit"
measured c-an-event "$in_c"

if [ $unit != instructions ]; then
    echo 'limits are not looked at: nothing here counts instructions'
    exit 0
fi
# The table of the guide has what was measured of each limit that has words.
awk -v limits="$LIMITS" '
    function grouped(n,    behind) {
        if (n ~ /[^0-9]/) return n
        for (; length(n) > 3; n = substr(n, 1, length(n) - 3)) behind = "," substr(n, length(n) - 2) behind
        return n behind
    }
    FILENAME == limits && /^[a-z]/ && NF > 2 {
        names[++count] = $1
        words[count] = substr($0, length($1) + length($2) + 3)
    }
    FILENAME == limits { next }
    FILENAME == "measured" { value[$1] = $2; next }
    /^\| what \| instructions \|$/ { inside = 1; print; next }
    inside && /^\|---/ {
        print
        for (i = 1; i <= count; i++) print "| " words[i] " | " grouped(value[names[i]]) " |"
        next
    }
    inside && /^\|/ { next }
    { inside = 0; print }' "$LIMITS" measured "$GUIDE" > guide && cp guide "$GUIDE" || exit 1
# Each limit is of something that was measured, and each measure has a limit.
awk '
    FNR == NR && /^[a-z]/ { limit[$1] = $2; next }
    FNR == NR { next }
    { seen[$1] = 1 }
    $2 !~ /^[0-9]+(\.[0-9]+)?$/ || $2 + 0 == 0 { print "no number: " $1 " " $2; failed++; next }
    !($1 in limit) { print "no limit: " $1 " " $2; failed++; next }
    $2 > limit[$1] + 0 { print "past its limit of " limit[$1] ": " $1 " " $2; failed++; next }
    { passed++ }
    END {
        for (name in limit) if (!(name in seen)) { print "not measured: " name; failed++ }
        print passed + 0 " passed, " failed + 0 " failed"
        exit failed > 0
    }' "$LIMITS" measured
