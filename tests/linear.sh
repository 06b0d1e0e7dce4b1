#!/bin/sh
# Counts the instructions of runs of the built program over an input and over one four times as large. What grows as its
# input does costs four times as much there, what grows as the square of it sixteen times; more than five times as much
# is a failure. Looked at is what once grew so, or easily could: diagnostics of one long line and of many lines, the
# search for sticking modifiers, and the script that tests a console.
#
# usage: linear.sh PROGRAM
# The last line is 'N passed, M failed'; the status is 0 where none failed. It takes half a minute. Where nothing counts
# instructions it is skipped, and says so.

program=${1:-crates/kmap/out/kmap}
case $program in
/*) ;;
*) program=$PWD/$program ;;
esac
top=$(cd "$(dirname "$0")/.." && pwd)
. "$top/tests/shared.sh"
folder=$(mktemp -d) || exit 1
trap 'rm -rf "$folder"' EXIT
cd "$folder" || exit 1
. "$top/bench/costs.sh"
if [ $unit != instructions ]; then
    skip 'there is neither perf nor valgrind, so nothing counts instructions'
    holds 'the program runs' "$program" --version > /dev/null
    counted
    exit
fi

# grows NAME COMMAND FIXED SMALL LARGE: a run of the command over the large file costs at most five times what one over
# the small file does; what a run over an empty text costs doesn't count
grows() {
    small=$(cost "$2" "$4")
    large=$(cost "$2" "$5")
    times=$(awk -v a="$small" -v b="$large" -v f="$3" 'BEGIN {
        if (a - f < 1000000 || b - f < 1000000)
            print "unknown"
        else
            printf "%.2f", (b - f) / (a - f)
    }')
    echo "$1: times $times"
    holds "$1, four times as large, costs at most five times as much: $times times" \
        awk -v times="$times" 'BEGIN { exit !(times ~ /^[0-9.]+$/ && times <= 5) }'
}

# lines SIZE: definitions of one slot, of which all but the last have no effect, so that each is told
lines() {
    awk -v size="$1" 'BEGIN { line = "1 1 1 1 1 1 1 1 1 O"; for (i = 0; i < size / 20; i++) print line }'
}

: > empty
fixed=$(cost lint empty)
lines 65536 > lines.small
lines 262144 > lines.large
for size in small large; do
    tr '\n' ' ' < lines.$size > line.$size
done
grows 'lint of many lines' lint "$fixed" lines.small lines.large
grows 'lint of one line' lint "$fixed" line.small line.large

# One key more, for which `check` refuses the keymap, has the search go over the states.
for size in small large; do
    make_states $([ $size = small ] && echo 6 || echo 7) > states.$size
    for slot in 127 255; do
        echo "$slot 'x' lshift 'x' lshift 'x' lshift 'x' lshift O"
    done | cat states.$size - > refused.$size
done
grows 'search of many states' search "$(cost search empty)" refused.small refused.large
grows 'cover of many states' cover "$(cost cover empty)" states.small states.large

counted
