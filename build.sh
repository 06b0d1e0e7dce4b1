#!/bin/sh
# Proves and builds what a crate makes, where it is missing or a source is newer. Tells each crate as its proof begins,
# as far as the files tell which have to be proved, and as it ends, and all that the kit said where it fails.
#
# usage: build.sh CRATE RESULT COMMAND..
# RESULT is the file that is made, in the crate's folder, and COMMAND what the kit is asked for. RT names the kit.
set -eu
crate=$1 result=$2
shift 2
cd "$(dirname "$0")/crates"

# A source of any crate counts, and so does another kit.
: "${RT:=rt}"
kit=$(command -v "$RT" || true)
case $kit in
*/*) ;;
*) kit= ;;
esac
if [ -f "$crate/$result" ] &&
    [ -z "$(find ../crates.txt ./*/src ./*/specs ./*/proofs ${kit:+"$kit"} -newer "$crate/$result" | head -n 1)" ]; then
    exit 0
fi

command -v "$RT" > /dev/null || {
    echo "there is no $RT: install Rattle's kit and put its folder bin on the path, or name its rt by RT=" >&2
    exit 1
}

# below CRATE: adds to the order the crates of the repository that it uses, as the kit proves them, and then the crate
order=
below() {
    for used in $(sed -n "s/^$1\( staticlib\)*: //p" ../crates.txt); do
        case " $order " in
        *" $used "*) ;;
        *) [ ! -d "$used" ] || below "$used" ;;
        esac
    done
    order="$order $1"
}

# is_due CRATE: no library was built since its last change, or it uses a crate that was proved just now
proved='-'
is_due() {
    library=$1/out/rlib/stamp
    [ ! -f "$library" ] ||
        [ -n "$(find ../crates.txt ${kit:+"$kit"} "$1"/[ps]*/ -newer "$library" | head -n 1)" ] ||
        grep -qE "^$1( staticlib)?:.* ($proved)( |\$)" ../crates.txt
}

# tell_next [CRATE]: tells the crate that is proved next, behind this one
tell_next() {
    number=0 behind=${1:+no}
    for it in $order; do
        number=$((number + 1))
        if [ "$behind" != no ] && is_due "$it"; then
            echo "proving $it ($number of $(($(echo "$order" | wc -w))))"
            return
        fi
        [ "$it" != "${1:-}" ] || behind=yes
    done
}

# What the kit tells of a crate ends with how many functions were proved.
tell_proved() {
    while IFS= read -r line; do
        case $line in
        "fn "*::*)
            name=${line#fn }
            ;;
        logic=proved*)
            functions=${line#*functions=}
            name=${name%%::*}
            echo "$name: ${functions%% *} functions proved"
            proved="$proved|$name"
            tell_next "$name"
            ;;
        esac
    done
}

said=$(mktemp -d)
trap 'rm -rf "$said"' EXIT
below "$crate"
tell_next
{
    status=0
    (cd "$crate" && "$RT" "$@") 2>&1 || status=$?
    echo $status > "$said/status"
} | tee "$said/all" | tell_proved
status=$(cat "$said/status")
if [ "$status" -ne 0 ]; then
    cat "$said/all"
    exit "$status"
fi
touch "$crate/$result"
