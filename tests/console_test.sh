#!/bin/sh
# Tests consoles by examples/console_test.py: the C library's console (tests/console.c) as a program, and behind a
# machine in QEMU, whose boot sector sends on what its keyboard controller gives; right ones, and ones with a mistake,
# each of which is to be found, told and shortened. Where there are a kernel of Linux and a busybox without shared
# libraries, also the console of Linux in QEMU, which has the US keymap that the kernel is built with; and xterm in an X
# server, where they are installed, by the lines that docs/GUIDE.md prints.
#
# usage: console_test.sh PROGRAM LIBRARY
# LINUX names the kernel, without it the newest /boot/vmlinuz-*-amd64, and BUSYBOX the other program.
# The last line is 'N passed, M failed'; the status is 0 where none failed. It needs python3 and a C compiler.

program=${1:-crates/kmap/out/kmap}
library=${2:-crates/kmap_c/out/libkmap_c.a}
case $program in
/*) ;;
*) program=$PWD/$program ;;
esac
case $library in
/*) ;;
*) library=$PWD/$library ;;
esac
top=$(cd "$(dirname "$0")/.." && pwd)
. "$top/tests/shared.sh"
folder=$(mktemp -d) || exit 1
machine=
relay=
trap 'end_machine; rm -rf "$folder"' EXIT
cd "$folder" || exit 1
mkdir bin
ln -s "$program" bin/kmap
PATH=$folder/bin:$PATH LC_ALL=C
export PATH LC_ALL
keymap=$top/examples/de.kbd

# tests OPTIONS.. SCRIPT [-- PROGRAM ..]: a console is tested, with time enough where the machine is busy
tests() {
    python3 -B "$top/examples/console_test.py" --wait 3 "$keymap" "$@" > got 2> said
}

# ends STATUS COMMAND..
ends() {
    status=$1
    shift
    "$@"
    [ $? -eq "$status" ]
}

# says LINE ARGUMENTS..: it can't be tested, and the last line on standard error tells why
says() {
    line=$1
    shift
    holds "$line" ends 2 tests "$@"
    tail -n 1 said > last
    echo "console_test: $line" > wanted
    same_text "told: $line" wanted last
}

# bad WHY LINE..: a script of these lines can't be used, and the last one is told
bad() {
    why=$1
    shift
    printf '%s\n' "$@" > bad
    for line in "$@"; do :; done
    says "bad:$#: $why: $line" bad -- ./console script "$keymap"
}

# begin_machine OPTIONS..: a machine in QEMU, which takes keys at the socket `qmp`
begin_machine() {
    rm -f qmp
    qemu-system-x86_64 -display none -nic none -parallel none -monitor none -qmp unix:qmp,server,nowait "$@" \
        > told 2>&1 &
    machine=$!
    tries=0
    while [ ! -S qmp ] && [ $tries -lt 100 ]; do
        sleep 0.1
        tries=$((tries + 1))
    done
}

# begin_console FAULT: a machine that sends the bytes of its keyboard to a console, which writes to `typed`
begin_console() {
    rm -f wire typed
    mkfifo wire typed
    begin_machine -m 4 -serial file:wire -drive file=boot,format=raw,if=floppy
    ./console set1 "$keymap" "$1" < wire > typed &
    relay=$!
}

end_machine() {
    # shellcheck disable=SC2086 # two numbers, or one
    [ -z "$machine" ] || kill $machine $relay 2> told
    # shellcheck disable=SC2086
    [ -z "$machine" ] || wait $machine $relay 2> told
    machine=
    relay=
}

# linux: the console of Linux types the characters of ASCII, sends them to a serial line, and has no German keymap
linux() {
    kernel=${LINUX:-$(find /boot -name 'vmlinuz-*-amd64' 2> told | sort -V | tail -n 1)}
    busybox=${BUSYBOX:-$(command -v busybox)}
    if [ ! -f "$kernel" ] || [ ! -f "$busybox" ] || ldd "$busybox" > told 2>&1; then
        skip 'there is no kernel of Linux, or no busybox without shared libraries'
        return
    fi
    python3 - "$busybox" << 'END'
import sys

INIT = b"""#!/bin/busybox sh
/bin/busybox mount -t devtmpfs none /dev
/bin/busybox stty -F /dev/tty1 raw -echo
/bin/busybox stty -F /dev/ttyS0 raw -echo
/bin/busybox echo ready > /dev/ttyS0
/bin/busybox cat /dev/tty1 > /dev/ttyS0
"""

def padded(bytes):
    return bytes + b"\0" * (-len(bytes) % 4)

def entry(name, mode, bytes=b""):
    numbers = [0, mode, 0, 0, 1, 0, len(bytes), 0, 0, 0, 0, len(name) + 1, 0]
    return padded(f"070701{''.join(f'{number:08x}' for number in numbers)}{name}\0".encode()) + padded(bytes)

with open(sys.argv[1], "rb") as file:
    busybox = file.read()
with open("initrd", "wb") as file:
    file.write(entry("bin", 0o40755) + entry("dev", 0o40755) + entry("bin/busybox", 0o100755, busybox))
    file.write(entry("init", 0o100755, INIT) + entry("TRAILER!!!", 0))
END
    begin_machine -m 256 -serial unix:serial,server,nowait -kernel "$kernel" -initrd initrd -append 'quiet console=tty1'
    keymap=$top/examples/us.kbd
    kmap type "$keymap" ascii > script
    holds 'the console of Linux' ends 0 tests --qmp qmp --line serial --ready ready script
    keymap=$top/examples/de.kbd
    printf 'down 21\nup 21\n' > script
    holds 'it differs from a German one' ends 1 tests --qmp qmp --line serial --ready ready script
    told german
    end_machine
}

# x: a window of xterm types the characters of ASCII, and has no German keymap
x() {
    Xvfb -noreset -displayfd 3 -screen 0 800x600x24 -nolisten tcp 3> display > told 2>&1 &
    machine=$!
    tries=0
    while [ ! -s display ] && [ $tries -lt 100 ]; do
        sleep 0.1
        tries=$((tries + 1))
    done
    DISPLAY=:$(cat display)
    export DISPLAY
    # shellcheck disable=SC2016 # the lines about a block
    sed -n '/^```text$/,/^```$/p' "$top/docs/GUIDE.md" | sed '1d;$d' > window
    rm -f typed
    mkfifo typed
    keymap=$top/examples/us.kbd
    kmap type "$keymap" ascii > script
    holds 'the console of xterm' ends 0 tests --as x11 --ready ready --pause 0.02 script -- sh window
    keymap=$top/examples/de.kbd
    printf 'down 21\nup 21\n' > script
    holds 'it differs from a German one' ends 1 tests --as x11 --ready ready --pause 0.02 script -- sh window
    told german
    end_machine
}

cat > cases << 'END'
# keyboard: 105 keys
# case 1: characters, of the pad and behind e0 too
down 30
repeat 30
up 30
down 55
up 55
down 89
up 89
down 91
up 91
# case 2: together lshift rshift
down 31
up 31
down 42
down 54
down 30
up 30
up 42
down 30
up 30
up 54
down 30
up 30
# case 3: alone clock
down 32
up 32
down 58
up 58
down 30
up 30
down 31
up 31
down 58
up 58
down 30
up 30
# case 4: alone ralt
down 30
up 30
down 93
down 18
up 18
up 93
down 18
up 18
# case 5: between dacu and nop
down 30
up 30
down 13
up 13
down 29
down 13
up 13
up 29
down 18
up 18
# case 6: Print Screen and Pause
down 92
up 92
down 104
up 104
down 104
up 104
down 15
up 15
END

# What is told of each mistake: the case, its events up to the difference, and the fewest that differ.
cat > drops-release << 'END'
# case 2: together lshift rshift: it differs behind its event 11
# events: down 31, up 31, down 42, down 54, down 30, up 30, up 42, down 30, up 30, up 54, down 30
# typed: 'sAAA'
# due: 'sAAa'
# fewest events that were found to differ: 6, in N tries
# typed: 'A'
# due: 'a'
down 42
down 54
up 42
up 54
down 30
up 30
END
cat > forgets-caps << 'END'
# case 3: alone clock: it differs behind its event 5
# events: down 32, up 32, down 58, up 58, down 30
# typed: 'da'
# due: 'dA'
# fewest events that were found to differ: 4, in N tries
# typed: 'a'
# due: 'A'
down 58
up 58
down 30
up 30
END
cat > ignores-alt << 'END'
# case 4: alone ralt: it differs behind its event 4
# events: down 30, up 30, down 93, down 18
# typed: 'ae'
# due: 'a€'
# fewest events that were found to differ: 4, in N tries
# typed: 'e'
# due: '€'
down 93
down 18
up 18
up 93
END
cat > nop-drops-accent << 'END'
# case 5: between dacu and nop: it differs behind its event 9
# events: down 30, up 30, down 13, up 13, down 29, down 13, up 13, up 29, down 18
# typed: 'ae'
# due: 'aé'
# fewest events that were found to differ: 8, in N tries
# typed: 'e'
# due: 'é'
down 13
up 13
down 29
down 13
up 13
up 29
down 18
up 18
END
cat > stops << 'END'
# case 6: Print Screen and Pause: it differs behind its event 7
# events: down 92, up 92, down 104, up 104, down 104, up 104, down 15
# typed: '', and it ended
# due: '\t'
# fewest events that were found to differ: 2, in N tries
# typed: '', and it ended
# due: '\t'
down 15
up 15
END

cat > german << 'END'
# the script: it differs behind its event 1
# events: down 21
# typed: 'y'
# due: 'z'
# fewest events that were found to differ: 2, in N tries
# typed: 'y'
# due: 'z'
down 21
up 21
END

# told NAME: what was told is what stands in the file of this name, in any number of tries
told() {
    sed 's/ in [0-9]* tries$/ in N tries/' got > counted
    same_text "$1 is found, told and shortened" "$1" counted
}

if is_there python3 && is_there "${CC:-cc}"; then
    holds 'the console compiles' "${CC:-cc}" -std=c99 -Wall -Wextra -Werror -pedantic -I "$top/include" \
        "$top/tests/console.c" "$library" -o console
    echo '6 cases, 59 events, all the same' > same

    # A program, in each form that it may take; and one that answers nothing, of which X11 has no repeats.
    for form in script set1; do
        holds "a right console that reads $form" ends 0 tests --as $form cases -- ./console $form "$keymap"
        same_text "it is told as right in $form" same got
    done
    if [ "$(uname -s)" = Linux ]; then
        holds 'the console of a device compiles' "${CC:-cc}" -I "$top/include" "$top/examples/live.c" "$library" -o live
        holds 'it is right' ends 0 tests --as evdev cases -- ./live "$keymap"
        same_text 'it is told as right' same got
    fi
    for fault in drops-release forgets-caps ignores-alt nop-drops-accent stops; do
        holds "$fault" ends 1 tests cases -- ./console script "$keymap" $fault
        told $fault
    done
    cp got script
    holds 'what is told is a script, which a right console passes' ends 0 tests script -- ./console script "$keymap"
    holds 'and the wrong one does not' ends 1 tests script -- ./console script "$keymap" stops
    printf '# case 1: one\ndown 30\nrepeat 30\nup 30\n# case 2: two\ndown 1\nup 1\n' > two
    holds 'a form without repeats' ends 1 tests --wait 1 --as x11 two -- sh -c 'cat > keys'
    printf 'keydown 09\nkeyup 09\n' > wanted
    same_text 'the case with a repeat is left out, and the key of the other one is let go of' wanted keys

    # The wrong consoles of another test, all found ones shortened.
    holds 'wrong consoles' python3 -B "$top/tests/wrong_ends.py" "$program" "$keymap" cases 26
    for name in us:81 de:82; do
        kmap cover --keyboard "$top/examples/${name%:*}.kbd" > keyboard
        holds "wrong consoles under ${name%:*}.kbd" python3 -B "$top/tests/wrong_ends.py" "$program" \
            "$top/examples/${name%:*}.kbd" keyboard "${name#*:}"
    done

    # What only many cases show is shortened over all of them.
    holds 'a console that tires' ends 1 tests cases -- ./console script "$keymap" tires
    holds 'it is found in the second case' grep -q '^# case 2: ' got
    holds 'its fewest events are as many presses as it bears' [ "$(grep -cE '^(down|repeat)' got)" -eq 8 ]

    # Words and scripts that can't be used.
    bad 'no event' '# case 1' 'down x'
    bad 'no event' 'press 30'
    bad 'no event' 'down 30' 'up 30 30'
    bad 'no keyboard sends reset' 'down 30' 'up 30' reset
    bad 'no keyboard sends lost' 'lost up 30'
    bad 'key 30 is down already' 'down 30' 'down 30'
    bad 'key 30 is not down' 'repeat 30'
    bad 'key 31 is not down' 'down 30' 'up 31'
    bad 'script has no key 128' 'down 128'
    bad 'key 30 is still down' 'down 30' '# case 2: more'
    printf 'down 30\n' > bad
    says 'bad:2: key 30 is still down: # case: the end' bad -- ./console script "$keymap"
    printf 'down 120\nup 120\n' > bad
    says 'bad:1: set1 has no key 120: down 120' --as set1 bad -- ./console set1 "$keymap"
    : > bad
    says 'bad: no case' bad -- ./console script "$keymap"
    says "[Errno 2] No such file or directory: 'none'" none -- ./console script "$keymap"
    says "[Errno 2] No such file or directory: './none'" cases -- ./none
    says "it doesn't say b'ready', but b''" --wait 1 --ready ready cases -- sh -c 'sleep 60 &'
    says "[Errno 2] No such file or directory" --qmp none --line none cases
    for words in '' '--qmp qmp' '--line typed' '--uinput' '--qmp qmp --line typed --as set1' \
        '--uinput --line typed -- cat' '--restart true -- ./console'; do
        # shellcheck disable=SC2086 # words
        holds "bad use: $words" ends 2 tests cases $words
        holds "it is told: $words" grep -q 'error: ' said
    done

    # A machine: all bytes of its keyboard, also those about Print Screen and Pause.
    if is_there qemu-system-x86_64; then
        # It says that it begins by a byte that no key sends. Then it sends each byte that the keyboard controller has,
        # once the line is free.
        python3 -c 'begin = "fa baf803 30c0 ee"
loop = "e464 a801 74fa e460 88c4 bafd03 ec a820 74fb baf803 88e0 ee ebe6"
open("boot", "wb").write(bytes.fromhex(begin + loop).ljust(510, b"\0") + b"\x55\xaa")'
        begin_console ''
        holds 'a right console in QEMU' ends 0 tests --qmp qmp --line typed --ready ready cases
        same_text 'it is told as right in QEMU' same got
        end_machine
        begin_console drops-release
        holds 'drops-release in QEMU' ends 1 tests --qmp qmp --line typed --ready ready cases
        told drops-release
        holds 'it is not shortened where nothing brings it to rest' ends 1 tests --qmp qmp --line typed cases
        holds 'that is told' grep -qx '# not shortened: nothing brings it to rest' got
        says "Command 'false' returned non-zero exit status 1." --qmp qmp --line typed --restart false cases
        end_machine
    fi

    # Other consoles.
    python3 -c 'print("".join(map(chr, range(32, 127))), end="")' > ascii
    if is_there qemu-system-x86_64; then
        linux
    fi
    if is_there Xvfb && is_there xdotool && is_there xterm; then
        x
    fi
fi
counted
