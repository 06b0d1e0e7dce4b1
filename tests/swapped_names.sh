#!/bin/sh
# Replaces files of folders that others may write to, who put links into the place of names meanwhile: whatever they do,
# no other file changes its owner, its rights or its bytes. What they save meanwhile stays, and a signal that ends a run
# leaves the old file.
#
# usage: swapped_names.sh PROGRAM
# The last line is 'N passed, M failed'; the status is 0 where none failed. It needs the C compiler that CC names, cc
# unless it is set. What is of another owner is tried only by the superuser.

program=${1:-crates/kmap/out/kmap}
case $program in
/*) ;;
*) program=$PWD/$program ;;
esac
source=$(cd "$(dirname "$0")" && pwd)/swap.c
. "${source%/*}/shared.sh"
folder=$(mktemp -d) || exit 1
trap 'rm -rf "$folder"' EXIT
cd "$folder" || exit 1

if ! command -v "${CC:-cc}" > /dev/null; then
    skip "there is no C compiler ${CC:-cc}, so no name can be swapped; set CC"
    holds 'the program runs' "$program" --version > /dev/null
    counted
    exit
fi
"${CC:-cc}" -shared -fPIC -O1 -o swap.so "$source" -ldl || exit 1
"${CC:-cc}" -DRACER -O1 -o racer "$source" || exit 1

nobody=65534
echo '4 nop nop nop nop nop nop nop nop O' > odd
mkdir home
[ "$(id -u)" -ne 0 ] || chown $nobody:$nobody home
chmod 755 . home
echo secret > victim
chmod 600 victim
victim=$(stat -c '%u %g %a' victim)

# begin: the files of the folder are as they were at first
begin() {
    rm -f home/*
    cp odd home/k.kbd
    echo old > home/out
    chmod 644 home/k.kbd home/out
    [ "$(id -u)" -ne 0 ] || chown $nobody:$nobody home/k.kbd home/out
}

# unharmed NAME: the other file is as it was
unharmed() {
    holds "$1: owner and rights of another file" [ "$(stat -c '%u %g %a' victim)" = "$victim" ]
    holds "$1: bytes of another file" [ "$(cat victim)" = secret ]
}

# swapping CALL NAME ARGS..: runs the program, which finds a link to the other file in the place of the name at the call
swapping() {
    call=$1 place=$2
    shift 2
    begin
    LD_PRELOAD=$folder/swap.so SWAP_AT=$call SWAP_NAME=$place SWAP_TARGET=$folder/victim \
        "$program" "$@" > stdout 2> stderr
    got=$?
    unharmed "$1, swapped at $call"
}

# Where the owner is the same, it isn't set.
calls='fchmod fsync'
[ "$(id -u)" -ne 0 ] || calls="fchown $calls"
for call in $calls; do
    swapping "$call" home/k.kbd.kmap-fmt fmt home/k.kbd
    holds "fmt, swapped at $call: status" [ $got -eq 1 ]
    holds "fmt, swapped at $call: line" [ "$(cat stderr)" = 'kmap: cannot replace home/k.kbd' ]
    holds "fmt, swapped at $call: no name" [ ! -s stdout ]
    holds "fmt, swapped at $call: the text stays" cmp -s odd home/k.kbd
    holds "fmt, swapped at $call: what others made stays" [ -L home/k.kbd.kmap-fmt ]
    swapping "$call" home/out.kmap-new compile odd home/out
    holds "compile, swapped at $call: status" [ $got -eq 1 ]
    holds "compile, swapped at $call: line" [ "$(cat stderr)" = 'kmap: cannot replace home/out' ]
    holds "compile, swapped at $call: the file stays" [ "$(cat home/out)" = old ]
done
# At last nothing but the link itself can get the name.
swapping rename home/k.kbd.kmap-fmt fmt home/k.kbd
swapping rename home/out.kmap-new compile odd home/out

if [ "$(id -u)" -eq 0 ]; then
    # A text that becomes a link to another one while it is read doesn't lend its owner to that.
    cp odd other
    chmod 600 other
    other=$(stat -c '%u %g %a' other)
    begin
    LD_PRELOAD=$folder/swap.so SWAP_AT=read SWAP_NAME=home/k.kbd SWAP_TARGET=$folder/other \
        "$program" fmt home/k.kbd > stdout 2> stderr
    got=$?
    if [ -L home/k.kbd ]; then
        holds 'a text becomes a link: status' [ $got -eq 1 ]
        holds 'a text becomes a link: line' [ "$(cat stderr)" = 'kmap: home/k.kbd: changed meanwhile' ]
        holds 'a text becomes a link: owner and rights of the other' [ "$(stat -c '%u %g %a' other)" = "$other" ]
        holds 'a text becomes a link: the other text stays' cmp -s odd other
        holds 'a text becomes a link: nothing beside it' [ ! -e other.kmap-fmt ]
    else
        skip 'the program does not read by the C library'
    fi

    # What is undisturbed has the owner of the old file.
    begin
    chmod 640 home/k.kbd home/out
    "$program" fmt home/k.kbd > stdout
    "$program" compile odd home/out
    holds 'a text keeps its owner and rights' [ "$(stat -c '%u %g %a' home/k.kbd)" = "$nobody $nobody 640" ]
    holds 'a table file keeps its owner and rights' [ "$(stat -c '%u %g %a' home/out)" = "$nobody $nobody 640" ]
fi

# What is saved while `fmt` runs stays, and it is told: more bytes, another file of the same bytes, as many bytes with
# the time set back, and that there is no file any more.
sed s/4/5/ odd > five
for call in fchmod fsync; do
    for change in "echo '# mine' >> home/k.kbd" 'cp home/k.kbd home/new && mv home/new home/k.kbd' \
        'sleep 0.1 && cat five > home/k.kbd && touch -d @0 home/k.kbd' 'rm home/k.kbd'; do
        begin
        sh -c "$change"
        rm -f saved
        [ ! -e home/k.kbd ] || cp home/k.kbd saved
        begin
        RUN_AT=$call RUN=$change LD_PRELOAD=$folder/swap.so "$program" fmt home/k.kbd > stdout 2> stderr
        holds "changed at $call, $change: status" [ $? -eq 1 ]
        holds "changed at $call, $change: line" [ "$(cat stderr)" = 'kmap: home/k.kbd: changed meanwhile' ]
        holds "changed at $call, $change: no name" [ ! -s stdout ]
        if [ -e saved ]; then
            holds "changed at $call, $change: it stays" cmp -s saved home/k.kbd
        else
            holds "changed at $call, $change: it is not made again" [ ! -e home/k.kbd ]
        fi
        holds "changed at $call, $change: nothing beside it" [ ! -e home/k.kbd.kmap-fmt ]
    done
    # What another run has written meanwhile is what this one would have written.
    begin
    RUN_AT=$call RUN="'$program' fmt home/k.kbd > other.run" LD_PRELOAD=$folder/swap.so \
        "$program" fmt home/k.kbd > stdout 2> stderr
    holds "formatted meanwhile at $call: status" [ $? -eq 0 ]
    holds "formatted meanwhile at $call: no name" [ ! -s stdout ]
    holds "formatted meanwhile at $call: no line" [ ! -s stderr ]
    holds "formatted meanwhile at $call: it is written" "$program" fmt --check home/k.kbd
done

# A race with whoever owns the folder, sixty times: he only needs to be fast.
if [ "$(id -u)" -eq 0 ] && is_there setpriv; then
    as_nobody="setpriv --reuid=$nobody --regid=$nobody --clear-groups"
    # shellcheck disable=SC2086 # they are words
    if $as_nobody ./racer; [ $? -eq 2 ]; then
        begin
        $as_nobody ./racer home/k.kbd.kmap-fmt "$folder/victim" &
        racer=$!
        run=0
        lost=0
        while [ $run -lt 60 ]; do
            rm -f home/k.kbd
            cp odd home/k.kbd
            chown $nobody:$nobody home/k.kbd
            "$program" fmt home/k.kbd > stdout 2> stderr
            [ "$(stat -c '%u %g %a' victim)" = "$victim" ] && [ "$(cat victim)" = secret ] && lost=$((lost + 1))
            run=$((run + 1))
        done
        kill $racer
        wait $racer 2> /dev/null
        holds "a race is lost 60 times of 60 ($lost)" [ $lost -eq 60 ]
    else
        skip 'nobody may not run the racer'
    fi
fi

# A signal between two calls leaves one new file at most, which hinders no later run.
for signal in 1 2 15; do
    for call in fchmod fsync rename; do
        begin
        LD_PRELOAD=$folder/swap.so END_AT=$call END_BY=$signal "$program" fmt home/k.kbd > stdout 2> stderr
        holds "fmt, ended at $call by $signal: the text stays" cmp -s odd home/k.kbd
        holds "fmt, ended at $call by $signal: one new file" [ "$(ls home)" = "k.kbd
k.kbd.kmap-fmt
out" ]
        holds "fmt, ended at $call by $signal: goes on" "$program" fmt home/k.kbd > stdout
        holds "fmt, ended at $call by $signal: is written" "$program" fmt --check home/k.kbd
        LD_PRELOAD=$folder/swap.so END_AT=$call END_BY=$signal "$program" compile odd home/out
        holds "compile, ended at $call by $signal: the file stays" [ "$(cat home/out)" = old ]
        holds "compile, ended at $call by $signal: one new file" [ "$(ls home)" = "k.kbd
k.kbd.kmap-fmt
out
out.kmap-new" ]
        holds "compile, ended at $call by $signal: goes on" "$program" compile odd home/out
        holds "compile, ended at $call by $signal: is written" [ "$(wc -c < home/out)" -eq 15524 ]
    done
done

counted
