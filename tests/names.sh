#!/bin/sh
# Checks that keymap_text finds each name by the constant and the table that bench/find_spread.py prints for its names,
# and that the program finds others where a name is added.
#
# usage: names.sh [SOURCE]
# The last line is 'N passed, M failed'; the status is 0 where none failed.

top=$(cd "$(dirname "$0")/.." && pwd)
. "$top/tests/shared.sh"
source=${1:-$top/crates/keymap_text/src/names.rt}
folder=$(mktemp -d) || exit 1
trap 'rm -rf "$folder"' EXIT

# spread ARGUMENT..: runs the program, which leaves no compiled file beside it
spread() {
    python3 -B "$top/bench/find_spread.py" "$@"
}

differs() {
    ! spread --check "$1"
}

prints_others() {
    spread "$folder/names.rt" > "$folder/printed"
}

if is_there python3; then
    holds 'SPREAD and PLACES are those that the program prints' spread --check "$source"
    awk '{ print } /^static NAMES: / { print "    Name(*b\"added   \", Sense::Nop)," }' "$source" > "$folder/names.rt"
    holds 'they are not where a name is added' differs "$folder/names.rt"
    holds 'others are found for these names' prints_others
    holds 'what is printed has SPREAD' grep -q '^const SPREAD: u64 = ' "$folder/printed"
    holds 'what is printed has PLACES' grep -q '^static PLACES: \[u8; 256\] = ' "$folder/printed"
fi
counted
