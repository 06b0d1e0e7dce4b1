#!/bin/sh
# Kills `fmt` and `compile` before each of their system calls in turn. Behind each, a file is whole as it was or as it is
# to be, under its name or beside it, and the same command run again ends well and leaves it as it is to be.
#
# usage: stopped.sh PROGRAM
# The last line is 'N passed, M failed'; the status is 0 where none failed. It needs the C compiler that CC names, cc
# unless it is set, and the right to trace what it runs. Files of another owner are tried only by the superuser.

program=${1:-crates/kmap/out/kmap}
case $program in
/*) ;;
*) program=$PWD/$program ;;
esac
tests=$(cd "$(dirname "$0")" && pwd)
. "$tests/shared.sh"
folder=$(mktemp -d) || exit 1
trap 'rm -rf "$folder"' EXIT
cd "$folder" || exit 1
LC_ALL=C
export LC_ALL

holds 'the program runs' "$program" --version > stdout
if ! command -v "${CC:-cc}" > /dev/null; then
    skip "there is no C compiler ${CC:-cc}, so nothing is killed; set CC"
    counted
    exit
fi
"${CC:-cc}" -O1 -o stop "$tests/stop.c" || exit 1
if ./stop 1000000 true 2> stderr; [ $? -ne 0 ]; then
    skip 'no program may be traced here, so none is killed'
    counted
    exit
fi

# same_file ONE OTHER: two files have the same bytes, or neither is there
same_file() {
    cmp -s "$1" "$2" || { [ ! -e "$1" ] && [ ! -e "$2" ]; }
}

# is_whole FILE: it is as it was or as it is to be, or what it is to be stands beside it
is_whole() {
    same_file "old/$1" "home/$1" || cmp -s "new/$1" "home/$1" || cmp -s "new/$1" "home/$1.kmap-fmt" ||
        cmp -s "new/$1" "home/$1.kmap-new"
}

# is_done FILE: it is as it is to be, with the owner and the rights that it is to have
is_done() {
    cmp -s "new/$1" "home/$1" && [ "$(stat -c '%u %g %a' "new/$1")" = "$(stat -c '%u %g %a' "home/$1")" ]
}

# begun: the files are as they were at first
begun() {
    rm -f home/*
    cp -p old/* home
}

# all_are JUDGED: each file that the command writes is so
all_are() {
    for file in $files; do
        "$1" "$file" || return
    done
}

# looked_at: what was killed has left the files whole, and the command goes on from there
looked_at() {
    holds "$label, killed before its call $number: the old or the new one is whole" all_are is_whole
    # shellcheck disable=SC2086 # they are words
    $as_user "$program" "$@" > stdout 2> stderr
    holds "$label, killed before its call $number: goes on" [ $? -eq 0 ]
    holds "$label, killed before its call $number: the new one is whole" all_are is_done
}

# kills NAME FILES ARGS..: the program is killed before each of its calls, up to the first fault; these files of `home`
# are to be those of `new`
kills() {
    label=$1 files=$2 number=0 before=$failed
    shift 2
    while begun && {
        # shellcheck disable=SC2086
        $as_user ./stop $number "$program" "$@" > stdout 2> stderr
        got=$?
        [ $got -eq 200 ]
    }; do
        looked_at "$@"
        [ "$failed" -eq "$before" ] || return
        number=$((number + 1))
    done
    holds "$label ends by itself" [ $got -eq 0 ]
    holds "$label is killed before some calls" [ $number -gt 20 ]
    holds "$label ends with what it is to make" all_are is_done
    holds "$label leaves nothing beside it" [ -z "$(ls home | grep kmap-)" ]
}

# kinds WAY: texts, and tables that are there, which are written in this way
kinds() {
    kills "fmt $1" less.kbd fmt home/less.kbd
    kills "fmt of two texts $1" 'less.kbd more.kbd' fmt home/less.kbd home/more.kbd
    kills "compile $1" wide compile letter home/wide
    kills "compile --narrow $1" narrow compile --narrow letter home/narrow
}

# The layout of one text has fewer bytes than it, and what that leaves of it spells something; that of the other has more.
# A narrow table file takes the place of a wide one.
mkdir home old new
printf '%-90s\n' "30 'a' 'A' nop nop 'a' 'A' nop nop C" "31 's' 'S' nop nop 's' 'S' nop nop C" '# two' \
    "32 'd' 'D' nop nop 'd' 'D' nop nop C" "33 'f' 'F' nop nop 'f' 'F' nop nop C # four" > old/less.kbd
printf '4 nop nop nop nop nop nop nop nop O\n5 nop nop nop nop nop nop nop nop O\n' > old/more.kbd
echo "30 'a' 'A' nop nop 'a' 'A' nop nop C" > letter
"$program" compile old/more.kbd old/narrow
echo old > old/wide
cp old/*.kbd new
"$program" fmt new/less.kbd new/more.kbd > stdout
holds 'the layouts are laid out' "$program" fmt --check new/less.kbd new/more.kbd
holds 'one has fewer bytes' [ "$(wc -c < new/less.kbd)" -lt "$(wc -c < old/less.kbd)" ]
holds 'the other has more' [ "$(wc -c < new/more.kbd)" -gt "$(wc -c < old/more.kbd)" ]
"$program" compile letter new/wide
"$program" compile --narrow letter new/narrow

as_user=
kinds 'by a new file'
mv old/wide old/narrow .
kills 'compile of a new file' wide compile letter home/wide
kills 'compile --narrow of a new file' narrow compile --narrow letter home/narrow
mv wide narrow old

# A file of another user, who may write it, is written in place, with the new one beside it.
if [ "$(id -u)" -ne 0 ]; then
    skip 'only the superuser has files of several owners'
elif is_there setpriv; then
    as_user='setpriv --reuid=65534 --regid=65534 --clear-groups'
    chown 65534:65534 home
    chmod 755 . home
    chmod 666 old/* new/*
    # shellcheck disable=SC2086
    if $as_user ./stop 1000000 "$program" --version > stdout 2> stderr; then
        kinds 'in place'
    else
        skip 'nobody may not run and trace the program'
    fi
fi

counted
