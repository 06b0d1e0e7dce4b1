#!/bin/sh
# Runs the commands of README.md, docs/GUIDE.md and docs/TOUR.md and compares what they print: in a block `console` each line
# behind `$ ` is a command, and what follows is its output, where a line `..` stands for any lines. Of the blocks `sh`
# those of the guide are run, and must succeed; those of README build and install, which other scripts do. The program
# is installed as README says, below HOME/.local, and the shell knows no more of it than the lines of README tell. The
# guide begins by copying the examples into a folder, where its other commands are run; those of the tour are run in a
# copy of the repository, and those of them that prove or build something only where PROVER is set.
#
# usage: guide.sh, with the program and the C library already built
# The last line is 'N passed, M failed'; the status is 0 where none failed.

top=$(cd "$(dirname "$0")/.." && pwd)
. "$top/tests/shared.sh"
folder=$(mktemp -d) || exit 1
trap 'rm -rf "$folder"' EXIT
cd "$top" || exit 1
unset MAKEFLAGS MFLAGS MAKELEVEL
unset PKG_CONFIG_PATH LD_LIBRARY_PATH KMAP_LIBRARY PYTHONPATH
HOME=$folder/home
export HOME
mkdir "$HOME"
make RT=true PREFIX="$HOME/.local" install > "$folder/said" 2>&1 || cat "$folder/said"
eval "$(exports_of README.md)"

# blocks FILE: takes the blocks of a document apart, into run.N with want.N or script.N, in their order
blocks() {
    awk '
        BEGIN { at = 100 }
        /^ *```/ && kind { kind = ""; next }
        /^ *```console$/ { kind = "console"; indent = index($0, "`") - 1; next }
        /^ *```sh$/ { kind = "sh"; indent = 0; at++; next }
        /^ *```/ { kind = "other"; next }
        kind == "sh" { print > ("script." at) }
        kind == "console" {
            $0 = substr($0, indent + 1)
            if (/^\$ /) {
                at++
                print substr($0, 3) > ("run." at)
                printf "" > ("want." at)
            } else
                print > ("want." at)
        }' "$1"
}

# prints WANT GOT: what was got is what is wanted, but for lines that `..` stands for
prints() {
    grep -qxF .. "$1" || {
        cmp -s "$1" "$2"
        return
    }
    sed '/^\.\.$/,$d' "$1" > before
    sed '1,/^\.\.$/d' "$1" > behind
    head -n "$(wc -l < before)" "$2" | cmp -s - before && tail -n "$(wc -l < behind)" "$2" | cmp -s - behind
}

# missing FILE: the programs that a command names and this machine lacks, and the files that skipped ones would have made
missing() {
    for tool in ckbcomp pkg-config cc python3 git; do
        if grep -qw -e "$tool" "$1" && ! command -v "$tool" > /dev/null; then
            echo "$tool"
        fi
    done
    for made in $unmade; do
        if grep -qF -e "$made" "$1"; then
            echo "$made"
        fi
    done
}

# is_left DOCUMENT FILE: the command of the tour proves or builds something, and isn't asked for
is_left() {
    [ "$1" = docs/TOUR.md ] && [ -z "${PROVER:-}" ] && grep -qE 'rt check|make quick' "$2"
}

# follows DOCUMENT: its commands do what it says
follows() {
    unmade=
    rm -rf "$folder/work"
    mkdir "$folder/work" "$folder/work/blocks"
    (cd "$folder/work/blocks" && blocks "$top/$1")
    cd "$folder/work" || exit 1
    case $1 in
    README.md) mkdir keymaps && cp "$HOME"/.local/share/examples/kmap/* keymaps && cd keymaps || exit 1 ;;
    docs/TOUR.md)
        mkdir keymaps && (cd "$top" && tar -cf - --exclude=out --exclude=.git .) | tar -xf - -C keymaps &&
            cd keymaps || exit 1
        ;;
    esac
    for number in $(find "$folder/work/blocks" -name 'run.*' -o -name 'script.*' | sed 's/.*\.//' | sort -n); do
        run=$folder/work/blocks/run.$number
        [ -f "$run" ] || run=$folder/work/blocks/script.$number
        want=$folder/work/blocks/want.$number
        lacks=$(missing "$run")
        if is_left "$1" "$run"; then
            skip 'PROVER is not set'
        elif [ -n "$lacks" ]; then
            skip "there is no $(echo $lacks)"
            unmade="$unmade $(grep -oE '> *[a-z][a-z0-9.-]*' "$run" | tr -d '> ' | tr '\n' ' ')"
        elif [ "${run##*/}" = "run.$number" ]; then
            sh "$run" 2>&1 | awk 1 > "$folder/work/got"
            holds "$1: $(cat "$run")" prints "$want" "$folder/work/got"
            prints "$want" "$folder/work/got" || diff "$want" "$folder/work/got"
        elif [ "$1" != README.md ]; then
            holds "$1: $(head -n 1 "$run")" sh "$run"
        fi
        [ "${PWD##*/}" = keymaps ] || cd keymaps || exit 1
    done
    cd "$top" || exit 1
}

follows README.md
follows docs/GUIDE.md
follows docs/TOUR.md
counted
