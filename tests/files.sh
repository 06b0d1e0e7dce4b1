#!/bin/sh
# Runs the built program where a transcript can't: with pipes that stay open, readers that go away, devices and disks
# that are full, as a user without rights, at once on one file, and against the clock.
#
# usage: files.sh PROGRAM
# The last line is 'N passed, M failed'; the status is 0 where none failed.

program=${1:-crates/kmap/out/kmap}
case $program in
/*) ;;
*) program=$PWD/$program ;;
esac
top=$(cd "$(dirname "$0")/.." && pwd)
. "$top/tests/shared.sh"
examples=$top/examples
folder=$(mktemp -d) || exit 1
trap 'rm -rf "$folder"' EXIT
cd "$folder" || exit 1
LC_ALL=C
export LC_ALL

# ran NAME STATUS STDOUT STDERR COMMAND..: the command ends so, and writes exactly these lines, or none
ran() {
    label=$1 wanted=$2 out=$3 err=$4
    shift 4
    "$@" > stdout 2> stderr
    holds "$label: status" [ $? -eq "$wanted" ]
    printf %s "${out:+$out
}" > wanted
    same_text "$label: output" wanted stdout
    printf %s "${err:+$err
}" > wanted
    same_text "$label: standard error" wanted stderr
}

# same_line FILE LINE: the file is this line
same_line() {
    echo "$2" | cmp -s - "$1"
}

echo "030 'a' 'A' nop nop 'a' 'A' nop nop C" > letter
echo '042 lshift lshift lshift lshift lshift lshift lshift lshift O' > shift
echo '058 clock clock clock clock clock clock clock clock O' > lock
printf "042 'x' lshift 'x' lshift 'x' lshift 'x' lshift C\n059 nop clock nop clock nop clock nop clock O\n" > locked
printf 'down 30\nup 30\n' > tap
printf 'down 58\nup 58\nload\n' > load
echo '30 zz' > bad
echo '4 nop nop nop nop nop nop nop nop O' > odd
echo '    4   nop    nop    nop    nop    nop    nop    nop    nop     O' > even
echo '5 nop nop nop nop nop nop nop O' > faulty
printf a > sentence
"$program" compile letter tables
bad_word=": error: zz means nothing; a character is written as 'x' or 0xh, a cell that gives nothing as nop [BadWord]
  30 zz
     ^"

# What comes by a pipe is answered once its fault has come: the pipe stays open, so there is no end to wait for.
mkfifo pipe
exec 3<> pipe
printf "030 'a' zz " >&3
ran 'a fault in an open pipe' 1 '' 'kmap: text line 1 offset 8: BadWord' timeout 10 "$program" check pipe
exec 3>&-
if [ -e /dev/stdin ]; then
    cat bad | "$program" lint --quiet /dev/stdin > stdout
    printf '/dev/stdin:1:4%s\n' "$bad_word" > wanted
    same_text 'a text that comes by a pipe' wanted stdout
fi
if [ -e /dev/zero ]; then
    ran 'a text without end' 2 '' 'kmap: /dev/zero: text: more than 1048576 bytes' "$program" lint /dev/zero
fi

# trouble_of COMMAND: the status where it can't do its work
trouble_of() {
    case $1 in
    lint | search | diff) echo 2 ;;
    *) echo 1 ;;
    esac
}

# fails_to_write NAME ARGS..: on a full device and on a closed standard output the fault is told
fails_to_write() {
    label=$1
    shift
    trouble=$(trouble_of "$1")
    if [ -e /dev/full ]; then
        "$program" "$@" > /dev/full 2> stderr
        holds "$label to a full device: status" [ $? -eq "$trouble" ]
        holds "$label to a full device: line" same_line stderr 'kmap: write fault after 0 bytes'
    fi
    "$program" "$@" >&- 2> stderr
    holds "$label to a closed output: status" [ $? -eq "$trouble" ]
    holds "$label to a closed output: line" same_line stderr 'kmap: write fault after 0 bytes'
}
fails_to_write 'checks' check shift
fails_to_write 'checks two' check shift letter
fails_to_write 'shows' check --show "$examples/trap.kbd"
fails_to_write 'searches' search shift
fails_to_write 'searches two' search lock --next locked
fails_to_write 'compares' diff shift letter
fails_to_write 'lints' lint "$examples/trap.kbd"
fails_to_write 'lints a fault' lint bad
fails_to_write 'lays out' fmt --print letter
fails_to_write 'lays out before a fault' fmt --print even faulty
fails_to_write 'tells what is not laid out' fmt --check letter
fails_to_write 'types a sentence' type letter sentence
fails_to_write 'dumps' dump tables
fails_to_write 'draws' draw letter
fails_to_write 'draws an example' draw "$examples/us.kbd"
fails_to_write 'covers' cover letter
fails_to_write 'plays' play letter tap
fails_to_write 'plays two' play lock load --next shift
fails_to_write 'types' play letter tap --typed
fails_to_write 'helps' --help
fails_to_write 'helps on a command' check --help
fails_to_write 'tells its version' --version
if [ -e /dev/full ]; then
    ran 'compiles to a full device' 1 '' 'kmap: write fault after 0 bytes' "$program" compile letter /dev/full
    "$program" lint shift > /dev/full 2> stderr
    holds 'nothing for a full device: status' [ $? -eq 0 ]
    "$program" lint none > stdout 2> /dev/full
    holds 'a fault line for a full device: status' [ $? -eq 2 ]
    "$program" check none 2> /dev/full
    holds 'the status stays where the line cannot be written' [ $? -eq 1 ]
fi
"$program" check none 2>&-
holds 'the status stays where there is no place for the line' [ $? -eq 1 ]

# leaves NAME ARGS..: what the program writes has no reader, which ends it without a word
leaves() {
    label=$1
    shift
    mkfifo left
    exec 4<> left 5> left
    exec 4<&-
    (exec "$program" "$@" >&5 5>&-) 2> stderr
    got=$?
    exec 5>&-
    rm left
    holds "$label without a reader: status $got" [ $got -eq 1 ]
    holds "$label without a reader: no line" [ ! -s stderr ]
}
leaves 'checks' check shift
leaves 'checks two' check shift letter
leaves 'searches' search shift
leaves 'compares' diff shift letter
leaves 'lints' lint "$examples/trap.kbd"
leaves 'lays out' fmt --print letter
leaves 'tells what is not laid out' fmt --check letter letter
leaves 'types a sentence' type letter sentence
leaves 'covers' cover shift
leaves 'dumps' dump tables
leaves 'draws' draw letter
leaves 'plays' play letter tap
leaves 'helps' --help

# The names of texts that are written have no reader: all of them are written, and what is wrong with one is told.
cp odd one
cp odd two
cp faulty three
cp odd four
mkfifo left
exec 4<> left 5> left
exec 4<&-
(exec "$program" fmt one two three four >&5 5>&-) 2> stderr
holds 'names without a reader: status' [ $? -eq 1 ]
exec 5>&-
rm left
holds 'names without a reader: line' same_line stderr 'kmap: three: text line 1 offset 30: Unexpected'
for file in one two four; do
    holds "names without a reader: $file is written" cmp -s even $file
done

# A name and its line feed are written at once, and so is a line on standard error: here each write is a message.
if is_there python3; then
    cat > writes.py << 'END'
import socket
import subprocess
import sys

for stream in "stdout", "stderr":
    ours, theirs = socket.socketpair(socket.AF_UNIX, socket.SOCK_DGRAM)
    with ours, theirs:
        subprocess.run(sys.argv[1:], **{"stdout": subprocess.DEVNULL, "stderr": subprocess.DEVNULL, stream: theirs})
        ours.setblocking(False)
        while True:
            try:
                print(stream, ours.recv(65536).decode().replace("\n", "$"))
            except BlockingIOError:
                break
END
    # writes WANTED ARGS..: the program makes these writes, and none else
    writes() {
        echo "$1" > wanted
        shift
        python3 -B writes.py "$program" "$@" > got
        same_text "the writes of $*" wanted got
    }
    writes 'stdout letter$
stdout odd$
stderr kmap: cannot open none: No such file or directory$
stderr kmap: faulty: text line 1 offset 30: Unexpected$' fmt --check letter none faulty odd
    writes 'stderr kmap: /dev/null: not a regular file$' fmt /dev/null
    writes 'stderr kmap: cannot create none/made$' compile letter none/made
    cp odd one
    writes 'stdout one$' fmt one
fi

# A log of SARIF has what the standard and code scanning need, and a test of it sees what is missing.
if is_there python3; then
    "$program" lint --quiet --format sarif "$examples/us.kbd" > log
    holds 'a log without results' python3 -B "$top/tests/sarif.py" 0 < log
    "$program" lint --quiet --format sarif none "$examples/trap.kbd" faulty bad > log 2> stderr
    holds 'a log of three texts' python3 -B "$top/tests/sarif.py" 3 < log
    for word in ruleId text startLine uri; do
        sed "s/\"$word\"/\"other\"/" log > other
        holds "a log without $word" [ "$(python3 -B "$top/tests/sarif.py" 3 < other 2>&1 | wc -l)" -gt 0 ]
    done
fi

# A terminal gets colours, unless it is a dumb one or NO_COLOR has a value.
if is_there script; then
    # coloured [NAME=VALUE..]: how many lines of the error the program colours there
    coloured() {
        script -qec "env TERM=vt100 NO_COLOR= $* '$program' lint --quiet bad" /dev/null < /dev/null | grep -c '\[1;31m'
    }
    holds 'a terminal gets colours' [ "$(coloured)" -eq 1 ]
    holds 'NO_COLOR has a value' [ "$(coloured NO_COLOR=1)" -eq 0 ]
    holds 'a dumb terminal' [ "$(coloured TERM=dumb)" -eq 0 ]
fi

# The hooks of pre-commit, where it is installed: they are what it takes, and find what is wrong.
if is_there pre-commit && is_there git; then
    holds 'the hooks are valid' pre-commit validate-manifest "$top/.pre-commit-hooks.yaml"
fi

# A disk is full after some bytes, as far as the program sees it: the old file stays, and nothing lies beside it.
# full ARGS..: the program, where no file may have more than 4,096 bytes or 8,192
full() {
    (trap '' XFSZ; ulimit -f 8; exec "$program" "$@")
}
echo old > kept
for file in kept part; do
    full compile letter $file > stdout 2> stderr
    holds 'a full disk: status' [ $? -eq 1 ]
    holds 'a full disk: line' grep -qxE 'kmap: write fault after (4096|8192) bytes' stderr
    holds 'a full disk leaves no new file' [ ! -e $file.kmap-new ]
done
holds 'a full disk leaves the old file' same_line kept old
holds 'a full disk leaves no part' [ ! -e part ]
yes '# a comment ' | head -n 1000 > big
cp big kept
full fmt big > stdout 2> stderr
holds 'a full disk for fmt: status' [ $? -eq 1 ]
holds 'a full disk for fmt: line' grep -qxE 'kmap: big: write fault after (4096|8192) bytes' stderr
holds 'a full disk for fmt: no name' [ ! -s stdout ]
holds 'a full disk for fmt: the text stays' cmp -s big kept
holds 'a full disk for fmt: no new file' [ ! -e big.kmap-fmt ]

# The name of a file that is written, for which there is no room: the file counts as replaced.
if [ -e /dev/full ]; then
    cp odd one
    cp odd two
    "$program" fmt even one two > /dev/full 2> stderr
    holds 'a full output: status' [ $? -eq 1 ]
    printf 'kmap: one: write fault after 0 bytes\nkmap: one: replaced\n' > wanted
    same_text 'a full output: lines' wanted stderr
    holds 'a full output: the text is written' cmp -s even one
    holds 'a full output: nothing follows' cmp -s odd two
    # An output that has room for one name: what was told before counts as replaced too.
    (trap '' XFSZ; ulimit -f 8; exec head -c 20000 /dev/zero) > some 2> stderr
    room=$(wc -c < some)
    head -c $((room - 4)) /dev/zero > some
    cp odd one
    full fmt one two >> some 2> stderr
    holds 'room for one name: status' [ $? -eq 1 ]
    printf 'kmap: two: write fault after 0 bytes\nkmap: one: replaced\nkmap: two: replaced\n' > wanted
    same_text 'room for one name: lines' wanted stderr
fi

# Runs at once on one file: all end well, and nothing is left. Those of fmt that come late find it in the layout.
# at_once NAME OUTPUT ARGS..: eight runs, of which some print this and the others nothing
at_once() {
    label=$1 output=$2
    shift 2
    for number in 1 2 3 4 5 6 7 8; do
        { "$program" "$@" > once.out.$number 2>&1; echo $? > once.status.$number; } &
    done
    wait
    holds "$label: statuses" [ "$(cat once.status.* | sort -u)" = 0 ]
    holds "$label: what is told" [ "$(cat once.out.* | sort -u)" = "$output" ]
    holds "$label: nothing beside it" [ "$(ls once)" = file ]
}
mkdir once
for run in 1 2 3 4 5; do
    at_once "eight runs of compile, $run" '' compile letter once/file
    holds "eight runs of compile, $run: the tables" cmp -s once/file tables
done
for run in 1 2 3 4 5 6 7 8 9 10; do
    cp odd once/file
    at_once "eight runs of fmt, $run" once/file fmt once/file
    holds "eight runs of fmt, $run: the text" cmp -s even once/file
done

# Rights that are lacking, which the superuser never lacks: so as nobody, where that can be.
as_nobody=
if [ "$(id -u)" -eq 0 ]; then
    chmod 755 .
    as_nobody='setpriv --reuid=65534 --regid=65534 --clear-groups'
    # shellcheck disable=SC2086 # they are words
    if ! $as_nobody "$program" --version > stdout 2>&1; then
        as_nobody=none
        skip 'nobody may not run the program, or there is no setpriv, and the superuser has all rights'
    fi
fi
if [ "$as_nobody" != none ]; then
    mkdir bare closed
    echo old > bare/mine
    echo old > bare/kept
    cp odd odd.write
    cp odd closed/odd
    cp odd unread
    [ -z "$as_nobody" ] || chown 65534:65534 bare/mine bare/kept odd.write closed/odd unread
    chmod 644 letter bare/mine closed/odd
    chmod 444 bare/kept odd.write
    chmod 000 unread
    chmod 555 bare closed
    # shellcheck disable=SC2086 # they are words
    ran 'a folder without rights' 0 '' '' $as_nobody "$program" compile letter bare/mine
    holds 'a folder without rights: written in place' cmp -s bare/mine tables
    # shellcheck disable=SC2086 # they are words
    ran 'a file without rights' 1 '' 'kmap: cannot create bare/kept' $as_nobody "$program" compile letter bare/kept
    holds 'a file without rights stays' same_line bare/kept old
    # shellcheck disable=SC2086 # they are words
    ran 'no file in such a folder' 1 '' 'kmap: cannot create bare/none' $as_nobody "$program" compile letter bare/none
    holds 'none is made in such a folder' [ "$(ls bare)" = "kept
mine" ]
    # shellcheck disable=SC2086 # they are words
    ran 'no rights to format' 1 '' 'kmap: cannot replace odd.write
kmap: cannot create closed/odd.kmap-fmt
kmap: cannot open unread: Permission denied' $as_nobody "$program" fmt odd.write closed/odd unread
    holds 'no rights to format: a text stays' cmp -s odd odd.write
    holds 'no rights to format: the other stays' cmp -s odd closed/odd
    holds 'no rights to format: no new file' [ ! -e odd.write.kmap-fmt ]
    if [ -n "$as_nobody" ]; then
        # What belongs to another user is written in place, where it may be: in a folder that anybody may write, in a
        # sticky one, and in one that a group shares.
        echo "030 0x100 nop nop nop nop nop nop nop O" > wide
        chmod 644 wide
        for kind in any sticky shared; do
            mkdir $kind
            for file in fmt compile narrow kept; do
                cp odd $kind/$file
            done
            echo old > $kind/compile
            echo old > $kind/narrow
            case $kind in
            any) chmod 777 $kind ;;
            sticky) chmod 1777 $kind ;;
            shared)
                chown 0:65534 $kind $kind/*
                chmod 2775 $kind
                ;;
            esac
            chmod 666 $kind/fmt $kind/compile $kind/narrow
            [ $kind != shared ] || chmod 664 $kind/fmt $kind/compile $kind/narrow
            chmod 644 $kind/kept
            stat -c '%n %i %u %g %a' $kind/* > before
            # shellcheck disable=SC2086 # they are words
            ran "a text of another user, $kind" 0 $kind/fmt '' $as_nobody "$program" fmt $kind/fmt
            holds "a text of another user, $kind: it is written" cmp -s even $kind/fmt
            # shellcheck disable=SC2086 # they are words
            ran "a table file of another user, $kind" 0 '' '' $as_nobody "$program" compile letter $kind/compile
            holds "a table file of another user, $kind: it is written" cmp -s tables $kind/compile
            # shellcheck disable=SC2086 # they are words
            ran "too wide for the file of another user, $kind" 1 '' 'kmap: cell too wide at slot 30 column 0' \
                $as_nobody "$program" compile --narrow wide $kind/narrow
            holds "too wide for the file of another user, $kind: it is empty" [ ! -s $kind/narrow ]
            # shellcheck disable=SC2086 # they are words
            ran "a text that only its user may write, $kind" 1 '' "kmap: cannot replace $kind/kept" \
                $as_nobody "$program" fmt $kind/kept
            holds "a text that only its user may write, $kind: it stays" cmp -s odd $kind/kept
            stat -c '%n %i %u %g %a' $kind/* > after
            same_text "files of another user, $kind: the same files, and none beside them" before after
        done
        # A name that is a link to such a file.
        cp odd any/behind
        chmod 666 any/behind
        ln -s any/behind linked
        # shellcheck disable=SC2086 # they are words
        ran 'a link to a text of another user' 0 linked '' $as_nobody "$program" fmt linked
        holds 'a link to a text of another user: it is written' cmp -s even any/behind
        holds 'a link to a text of another user: the link stays' [ -L linked ]
    fi
    chmod 755 bare closed
fi

# A text of 1 MiB in which each line but the last has no effect: all of it is told, in some seconds.
awk -v line='1 1 1 1 1 1 1 1 1 O' 'BEGIN { for (i = 0; i < 52428; i++) print line }' > t
start=$(date +%s)
timeout 60 "$program" lint t > got 2> stderr
holds 'a warning in each line: status' [ $? -eq 0 ]
holds 'a warning in each line: within ten seconds' [ $(($(date +%s) - start)) -le 10 ]
holds 'a warning in each line: their count' same_line stderr '52436 warnings'
holds 'a warning in each line: lines' [ "$(wc -l < got)" -eq $((1 + 3 * (52427 + 8))) ]
echo 't:52427:1: warning: this definition of slot 1 has no effect: line 52428 defines it again [defined-again]' > want
sed -n "$((1 + 3 * 52426 + 1))p" got > last
same_text 'a warning in each line: the last one' want last

# An editor reads the places of diagnostics, and of the note of the whole text.
if is_there vim; then
    cp "$examples/trap.kbd" .
    ln -s "$program" kmap
    PATH=$folder:$PATH vim -es -u NONE -i NONE -c 'set makeprg=kmap\ lint\ %:S' -c 'edit trap.kbd' -c 'make!' \
        -c 'call writefile(map(getqflist(), {_, q -> printf("%d %d %d", q.valid, q.lnum, q.col)}), "places")' \
        -c 'qa!' > vim.said 2>&1
    grep '^1 ' places > got
    printf '%s\n' '1 6 9' '1 1 1' > want
    same_text 'the places that vim reads' want got
fi

counted
