#!/bin/sh
# Runs two builds of the program on the same words and inputs: that of LLVM and that of Rattle's own compiler, of which
# each `rt ci` makes one. Both end in time and with the same status, which is the one that the input must have where its
# size tells that, and write the same bytes to both outputs and to the file that they make. The inputs are as long as a
# read or a buffer, and a byte less and more, and come from a file and from a pipe, since a fault of a compiler that was
# seen shows only where a read gives no byte.
#
# usage: both_builds.sh PROGRAM OTHER
# SIZES are the sizes of the inputs, a dozen and more unless it is set. The last line is 'N passed, M failed'; the
# status is 0 where none failed.

absolute() {
    case $1 in
    /*) echo "$1" ;;
    *) echo "$PWD/$1" ;;
    esac
}
program=$(absolute "${1:-crates/kmap/out/kmap}")
other=$(absolute "${2:-crates/kmap/out/kmap.by-rattle}")
top=$(cd "$(dirname "$0")/.." && pwd)
. "$top/tests/shared.sh"
folder=$(mktemp -d) || exit 1
trap 'rm -rf "$folder"' EXIT
cd "$folder" || exit 1
cp "$top/examples/us.kbd" "$top/examples/de.kbd" "$top/examples/line.script" .

# How many seconds a run has. The longest takes one or two.
seconds=60

# answers BUILD FOLDER WAY INPUT WORDS..: runs the build in the folder, with the input as its standard input, and leaves
# there the status, both outputs and the file that was made
answers() {
    build=$1 place=$2 way=$3 input=$4
    shift 4
    rm -rf "$place"
    mkdir "$place"
    (
        cd "$place" || exit 1
        case $way in
        file) timeout $seconds "$build" "$@" < "../$input" > out 2> err ;;
        pipe) cat "../$input" 2> cat.err | timeout $seconds "$build" "$@" > out 2> err ;;
        esac
        echo $? > status
        rm -f cat.err
    )
}

# ended WANTED: the first build ended in time and with that status, and with 0 told no fault; `any` wants 0 or 1, and
# `answered` also the 2 of a command that couldn't answer
ended() {
    status=$(cat first/status)
    case $1 in
    any) [ "$status" -le 1 ] ;;
    answered) [ "$status" -le 2 ] ;;
    *) [ "$status" -eq "$1" ] ;;
    esac && { [ "$status" -ne 0 ] || [ ! -s first/err ]; }
}

alike() {
    diff -r first second > differences 2>&1
}

# same WANTED WORDS..: both builds answer alike to the input, from a file and from a pipe, with the wanted status
same() {
    wanted=$1
    shift
    for way in file pipe; do
        answers "$program" first $way input "$@"
        answers "$other" second $way input "$@"
        holds "kmap $* ends with $wanted, with a $way of $what" ended "$wanted"
        holds "both builds answer alike to kmap $*, with a $way of $what" alike
    done
}

# repeated SIZE FILE: the lines of the file over and over, cut at the size
repeated() {
    yes "$(cat "$2")" | head -c "$1"
}

# in_one_line SIZE FILE: the same without the ends of the lines
in_one_line() {
    yes "$(cat "$2")" | tr -d '\n' | head -c "$1"
}

# filled SIZE FILE BYTE: the file and then that byte, cut at the size
filled() {
    { cat "$2"; head -c "$1" /dev/zero | tr '\000' "$3"; } | head -c "$1"
}

# within LEAST SIZE: the status of an input of that size: 0 from the least size on that is whole, 1 past the limit of
# the program, and any below
within() {
    if [ "$2" -gt 1048576 ]; then
        echo 1
    elif [ "$2" -ge "$1" ]; then
        echo 0
    else
        echo any
    fi
}

# answer_of WANTED: the same for a command that tells by 1 what it found
answer_of() {
    case $1 in
    1) echo 2 ;;
    any) echo answered ;;
    *) echo "$1" ;;
    esac
}

# texts WANTED: what is done with an input that is a keymap text; in its layout it may be too long, or differ
texts() {
    answer=$(answer_of "$1")
    same "$1" check /dev/stdin
    same "$1" check --show /dev/stdin
    same "$answer" search /dev/stdin
    same "$answer" search /dev/stdin --next ../us.kbd
    same "$answer" diff /dev/stdin ../us.kbd
    same "$answer" lint /dev/stdin
    same any fmt --print /dev/stdin
    same any fmt --check /dev/stdin
    same "$1" draw /dev/stdin
    same "$1" draw --ansi /dev/stdin
    same "$1" compile /dev/stdin made
    same "$1" compile --narrow /dev/stdin made
    same "$1" play /dev/stdin ../line.script
    same "$1" play --typed --next /dev/stdin ../us.kbd ../line.script
}

# scripts WANTED: what is done with an input that is a script
scripts() {
    same "$1" play ../us.kbd /dev/stdin
    same "$1" play --typed ../us.kbd /dev/stdin
    same "$1" play --next ../de.kbd ../us.kbd /dev/stdin
}

"$program" compile us.kbd wide || exit 1
"$program" compile --narrow us.kbd narrow || exit 1
printf 'Gr\303\274\303\237e, caf\303\251. ' > german
printf 'Hello, ' > english
printf 'down 30\nrepeat 30\nlost up 30\nload\ndown 42\nreset\n' > events
never=1048577
keymap=$(wc -c < us.kbd)
script=$(wc -c < line.script)

# Repeated lines may be cut within a word, a keymap or script and what is blank only where it is shorter.
for size in ${SIZES:-0 1 511 512 513 4095 4096 4097 65535 65536 65537 1048575 1048576 1048577}; do
    what="$size bytes of repeated lines"
    repeated "$size" us.kbd > input
    texts "$(within $never "$size")"
    what="$size bytes of a keymap and blanks"
    filled "$size" us.kbd ' ' > input
    texts "$(within "$keymap" "$size")"
    what="$size bytes of repeated events"
    repeated "$size" events > input
    scripts "$(within $never "$size")"
    what="$size bytes of a script and empty lines"
    filled "$size" line.script '\n' > input
    scripts "$(within "$script" "$size")"
    what="$size bytes of a sentence in German"
    in_one_line "$size" german > input
    same "$(within $never "$size")" type ../de.kbd /dev/stdin
    what="$size bytes of a sentence in English"
    in_one_line "$size" english > input
    same "$(within 0 "$size")" type ../de.kbd /dev/stdin
done

# The sizes of both table files, too: only one of that very size is a table file.
for size in ${SIZES:-0 1 511 512 513 4095 4096 4097 4138 4139 4140 15523 15524 15525 \
    65535 65536 65537 1048575 1048576 1048577}; do
    what="$size bytes of tables and zeros"
    filled "$size" wide '\000' > input
    same "$([ "$size" -eq 15524 ]; echo $?)" dump /dev/stdin
    what="$size bytes of a narrow file and zeros"
    filled "$size" narrow '\000' > input
    same "$([ "$size" -eq 4139 ]; echo $?)" dump --narrow /dev/stdin
done

counted
