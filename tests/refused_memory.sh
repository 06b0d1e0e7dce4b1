#!/bin/sh
# Runs the built program once for each of its allocations, with that one refused: it says that it is out of memory and
# has written nothing. Before it opens a file it may also do without, and end as it does with ample memory. Where all
# later ones are refused too, it always says so.
#
# usage: refused_memory.sh PROGRAM
# The last line is 'N passed, M failed'; the status is 0 where none failed. It needs the C compiler that CC names, cc
# unless it is set.

program=${1:-crates/kmap/out/kmap}
case $program in
/*) ;;
*) program=$PWD/$program ;;
esac
source=$(cd "$(dirname "$0")" && pwd)/refuse.c
examples=$(cd "$(dirname "$0")/../examples" && pwd)
folder=$(mktemp -d) || exit 1
trap 'rm -rf "$folder"' EXIT
cd "$folder" || exit 1

if ! command -v "${CC:-cc}" > /dev/null; then
    echo "failed: there is no C compiler ${CC:-cc}, so no allocation can be refused; set CC"
    echo "0 passed, 1 failed"
    exit 1
fi
"${CC:-cc}" -shared -fPIC -O1 -o refuse.so "$source" -ldl || exit 1

printf "030 'a' 'A' nop nop 'a' 'A' nop nop C\n" > letter
printf "042 lshift lshift lshift lshift lshift lshift lshift lshift O\ndacu 180 ( 'e' 0xe9 )\n" > shift
printf '058 clock clock clock clock clock clock clock clock O\n' > caps
# the shift is a character unless the caps lock is on, which only a key under shift turns on
printf "042 'x' lshift 'x' lshift 'x' lshift 'x' lshift C\n059 nop clock nop clock nop clock nop clock O\n" > locked
cp "$examples/trap.kbd" trap
echo ')' > faulty
mkdir none
# Longer than what is read at once, so that the bytes outgrow their memory as the events do.
yes 'down 30
lost up 30
repeat 30
load
down 42' | head -n 1000 > script
printf 'aaa' > sentence
: > empty
{
    yes "$(cat letter)" | head -n 25000
    head -c 1048576 /dev/zero | tr '\000' ' '
} | head -c 1048576 > large
"$program" compile letter tables || exit 1
"$program" compile letter small --narrow || exit 1
said='kmap: out of memory'

passed=0
failed=0
# Where it isn't empty, a refusal may be told or have no effect.
goes_on=
# Where it isn't empty, all later allocations are refused too.
rest=

# same_file: the file that was made, if any, is the one that ample memory makes
same_file() {
    if [ -e good ]; then
        cmp -s good made
    else
        [ ! -e made ]
    fi
}

# before ARGS..: how often the program allocates up to where it opens a file: as often as where there is none to open
before() {
    (
        cd none || exit 1
        ALLOCATIONS=count LD_PRELOAD=../refuse.so "$program" "$@" > /dev/null 2>&1
        cat count
    )
}

# says_so: standard error is the one line on memory. The shell reads it by itself, as each of thousands of processes
# that compare files would take as long as the program.
says_so() {
    { IFS= read -r line && [ "$line" = "$said" ] && ! IFS= read -r line && [ -z "$line" ]; } < stderr
}

# is_told: the program ended as it must where it is out of memory, with 1 where the command line was still read
is_told() {
    { [ "$got" -eq 1 ] || [ "$got" -eq "$trouble" ]; } && [ ! -s stdout ] && [ ! -e made ] && says_so
}

# is_same: the program ended as it does with ample memory, where it may
is_same() {
    { [ $number -le "$before" ] || [ -n "$goes_on" ]; } &&
        [ "$got" -eq "$status" ] && cmp -s wanted stdout && cmp -s faults stderr && same_file
}

# refuses STATUS ARGS..: the program ends so with ample memory, and each refusal is told
refuses() {
    status=$1
    shift
    case $1 in
    lint | search | diff) trouble=2 ;;
    *) trouble=1 ;;
    esac
    rm -f made good
    ALLOCATIONS=count LD_PRELOAD=./refuse.so "$program" "$@" > wanted 2> faults
    got=$?
    if [ $got -ne "$status" ] || [ ! -s count ]; then
        failed=$((failed + 1))
        echo "failed: $* (status $got)"
        return
    fi
    [ ! -e made ] || mv made good
    all=$(cat count)
    before=$(before "$@")
    told=0
    number=1
    while [ $number -le "$all" ]; do
        [ ! -e made ] || rm made
        REFUSE=$number LD_PRELOAD=./refuse.so "$program" "$@" > stdout 2> stderr
        got=$?
        if is_told; then
            told=$((told + 1))
            passed=$((passed + 1))
        elif [ -z "$rest" ] && is_same; then
            passed=$((passed + 1))
        else
            failed=$((failed + 1))
            echo "failed: $* with allocation $number refused${rest:+ and all later ones} (status $got)"
        fi
        number=$((number + 1))
    done
    if [ $told -eq 0 ]; then
        failed=$((failed + 1))
        echo "failed: $* never ran out of memory"
    fi
}

refuses 0 check letter
refuses 1 check trap --show
refuses 0 play letter script
refuses 0 play letter script --typed --next shift
refuses 0 search letter
refuses 1 search trap
refuses 0 search letter --next shift
refuses 1 search caps --next locked
# A hash map that is refused room to grow asks for what it needs now, so this may go on and write the same.
goes_on=yes
refuses 0 type letter sentence
refuses 1 type letter shift --missing
# So does a vector.
refuses 0 diff letter letter
refuses 1 diff letter shift
refuses 0 check letter --brief
refuses 0 lint letter
refuses 1 lint trap
refuses 0 fmt --print letter
refuses 1 fmt --check letter
refuses 1 fmt --print faulty
goes_on=
refuses 0 dump tables
refuses 0 dump small --narrow
refuses 0 draw shift
refuses 0 draw trap --ansi
refuses 0 compile shift made
refuses 0 compile shift made --narrow
# What asks for less after a refusal gets none then.
rest=yes
export REFUSE_REST=1
refuses 0 diff letter letter
refuses 1 diff letter shift
refuses 0 cover letter
refuses 0 type letter sentence
refuses 0 lint letter
refuses 1 lint trap
refuses 1 lint faulty
refuses 0 fmt --print letter
refuses 1 fmt --check letter
refuses 1 fmt --print faulty
refuses 0 draw shift
rest=
unset REFUSE_REST

# Written in place, a text is either as it was or in the layout, and nothing lies beside it.
cp letter made
ALLOCATIONS=count LD_PRELOAD=./refuse.so "$program" fmt made > wanted
cp made good
number=1
told=0
while [ $number -le "$(cat count)" ]; do
    cp letter made
    REFUSE=$number LD_PRELOAD=./refuse.so "$program" fmt made > stdout 2> stderr
    got=$?
    if [ $got -eq 1 ] && [ ! -s stdout ] && cmp -s letter made && says_so && [ ! -e made.kmap-fmt ]; then
        told=$((told + 1))
        passed=$((passed + 1))
    elif [ $got -eq 0 ] && cmp -s wanted stdout && cmp -s good made && [ ! -e made.kmap-fmt ]; then
        passed=$((passed + 1))
    else
        failed=$((failed + 1))
        echo "failed: fmt made with allocation $number refused (status $got)"
    fi
    number=$((number + 1))
done
if [ $told -eq 0 ]; then
    failed=$((failed + 1))
    echo "failed: fmt made never ran out of memory"
fi

# allocations ARGS..: how often the program allocates
allocations() {
    rm -f count
    ALLOCATIONS=count LD_PRELOAD=./refuse.so "$program" "$@" > /dev/null && cat count
}

# A text takes no memory but that of its map and of the file's buffer, which are the same for all.
few=$(allocations check empty)
many=$(allocations check large)
if [ -n "$few" ] && [ "$few" = "$many" ]; then
    passed=$((passed + 1))
else
    failed=$((failed + 1))
    echo "failed: $few allocations for an empty text, $many for one of 1048576 bytes"
fi

echo "$passed passed, $failed failed"
[ $failed -eq 0 ]
