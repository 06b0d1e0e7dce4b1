#!/bin/sh
# Prints the scripts that test consoles with the built program, while memory is refused, and looks how many wrong
# consoles the scripts find. What the scripts are is asked by tests/transcripts/cover.t.
#
# usage: cover.sh PROGRAM
# The last line is 'N passed, M failed'; the status is 0 where none failed. It needs python3.

program=${1:-crates/kmap/out/kmap}
case $program in
/*) ;;
*) program=$PWD/$program ;;
esac
top=$(cd "$(dirname "$0")/.." && pwd)
. "$top/tests/shared.sh"
folder=$(mktemp -d) || exit 1
trap 'rm -rf "$folder"' EXIT
cd "$folder" || exit 1
LC_ALL=C
export LC_ALL

# A dead key whose accent is composed with a blank and a base that is there, and one that no key has.
cat > accent << 'END'
40 dacu dacu dacu dacu dacu dacu dacu dacu O
57 ' ' ' ' ' ' ' ' ' ' ' ' ' ' ' ' O
30 'a' 'a' 'a' 'a' 'a' 'a' 'a' 'a' O dacu 180 ( 'a' 225 ) ( 'e' 233 ) ( 'a' 261 ) dgra nul ( 'a' 'b' )
END

# Memory that is refused, one allocation a run: of the later ones not each is tried. What is refused room to grow may do
# with less, and then prints the same.
refuses() {
    ALLOCATIONS=count LD_PRELOAD=./refuse.so "$program" cover "$@" > wanted
    number=1
    told=0
    while [ $number -le "$(cat count)" ]; do
        REFUSE=$number LD_PRELOAD=./refuse.so "$program" cover "$@" > stdout 2> stderr
        status=$?
        if [ $status -eq 1 ] && [ ! -s stdout ] && cmp -s said stderr; then
            told=$((told + 1))
        else
            holds "cover $*: allocation $number is refused: status $status" [ $status -eq 0 ]
            holds "cover $*: allocation $number is refused: what is printed" cmp -s wanted stdout
            holds "cover $*: allocation $number is refused: nothing is told" [ ! -s stderr ]
        fi
        number=$((number + 1 + number / 20))
    done
    holds "cover $*: memory is refused" [ $told -gt 0 ]
}

if is_there "${CC:-cc}"; then
    "${CC:-cc}" -shared -fPIC -O1 -o refuse.so "$top/tests/refuse.c" -ldl || exit 1
    echo 'kmap: out of memory' > said
    refuses accent
    refuses --keyboard accent
fi

# Consoles with mistakes.
if is_there python3; then
    holds 'wrong consoles' python3 -B "$top/tests/wrong_consoles.py" "$program"
fi

counted
