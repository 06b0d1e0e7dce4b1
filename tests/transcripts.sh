#!/bin/sh
# Runs the commands of the transcripts in tests/transcripts/ and compares what they print and how they end.
#
# A transcript is a text whose indented lines are what a shell shows, in the form of cram: behind `  $ ` stands a
# command, which goes on behind `  > `. Below it, indented by two blanks, stand the lines that it prints, then those that
# it writes to standard error, each behind `! `, and `[N]` where its status N is not 0. A last line that no line feed
# ends has ` (no-eol)` behind it, and an empty line between two lines of output is one of them. All other lines say what
# is asked. The commands of a transcript run in one shell, in an empty folder, with nothing on standard input; $examples
# and $tests are those folders of the repository. A line is compared byte for byte, so what a terminal doesn't show, and
# a blank at the end of a line, are shown as something else, as by `tr` or `sed`.
#
# usage: transcripts.sh PROGRAM [FILE..]
# The last line is 'N passed, M failed', of commands; the status is 0 where none failed.

program=${1:-crates/kmap/out/kmap}
case $program in
/*) ;;
*) program=$PWD/$program ;;
esac
[ $# -eq 0 ] || shift
top=$(cd "$(dirname "$0")/.." && pwd)
. "$top/tests/shared.sh"
folder=$(mktemp -d) || exit 1
trap 'rm -rf "$folder"' EXIT
[ $# -gt 0 ] || set -- "$top"/tests/transcripts/*.t
mkdir "$folder/bin"
ln -s "$program" "$folder/bin/kmap"

PATH=$folder/bin:$PATH examples=$top/examples tests=$top/tests LC_ALL=C
export PATH examples tests LC_ALL

# commands FILE: its commands, and behind each a line that marks in both outputs where they end
commands() {
    cat << 'END'
ended() {
    set -- $?
    echo "=ended= $1"
    echo "=ended= $1" >&2
}
END
    awk '
        /^  \$ / { if (begun) print "ended"; begun = goes_on = 1; print substr($0, 5); next }
        /^  >( |$)/ && goes_on { print substr($0, 5); next }
        { goes_on = 0 }
        END { if (begun) print "ended" }' "$1"
}

# compared FILE: a line for each command whether it passed; `shown` is the file as it would be with what was printed
compared() {
    awk -v name="${1##*/}" -v shown="$folder/shown" '
        function indented(text, all, i, n) {
            n = split(text, all, "\n")
            text = ""
            for (i = 1; i < n; i++) text = text (all[i] == "" ? "" : "  " all[i]) "\n"
            return text
        }
        part == "file" { line[FNR] = $0; lines = FNR }
        part == "file" && /^  \$ / { at[++count] = last[count] = FNR; empty = 0; next }
        part == "file" && /^  >( |$)/ && last[count] == FNR - 1 { last[count] = FNR; next }
        part == "file" && /^  / {
            for (; empty; empty--) { want[count] = want[count] "\n"; delete line[FNR - empty] }
            want[count] = want[count] substr($0, 3) "\n"
            delete line[FNR]
            next
        }
        part == "file" { empty = $0 == "" ? empty + 1 : 0; next }
        FNR == 1 { i = 1 }
        (place = index($0, "=ended= ")) {
            if (place > 1) got[part, i] = got[part, i] told substr($0, 1, place - 1) " (no-eol)\n"
            status[i++] = substr($0, place + 8)
            next
        }
        { got[part, i] = got[part, i] told $0 "\n" }
        END {
            if (!count) print "failed: " name ": there is no command"
            for (i = 0; i <= count; i++) {
                said[i] = got["printed", i] got["told", i]
                if (i && !(i in status)) said[i] = said[i] "(it does not end)\n"
                else if (status[i] != 0) said[i] = said[i] "[" status[i] "]\n"
                if (said[i] != want[i]) print "failed: " name ":" at[i] + 0 ": " substr(line[at[i]], 5)
                else if (i) print "passed"
                shows[last[i]] = said[i]
            }
            for (i = 1; i <= lines; i++) {
                if (i in line) print line[i] > shown
                if (i in shows) printf "%s", indented(shows[i]) > shown
            }
        }' part=file "$1" part=printed told= "$folder/printed" part=told told='! ' "$folder/told"
}

for file in "$@"; do
    case $file in
    /*) ;;
    *) file=$PWD/$file ;;
    esac
    if [ ! -f "$file" ]; then
        holds "there is no $file" false
        continue
    fi
    mkdir "$folder/work"
    commands "$file" > "$folder/commands"
    (cd "$folder/work" && exec sh "$folder/commands") < /dev/null >> "$folder/printed" 2>> "$folder/told"
    compared "$file" > "$folder/compared"
    passed=$((passed + $(grep -c '^passed$' "$folder/compared")))
    if grep '^failed: ' "$folder/compared"; then
        failed=$((failed + $(grep -c '^failed: ' "$folder/compared")))
        diff -U 2 "$file" "$folder/shown" | tail -n +3
    fi
    rm -rf "$folder/work" "$folder/printed" "$folder/told" "$folder/shown"
done
counted
