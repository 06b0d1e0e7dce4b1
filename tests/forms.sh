#!/bin/sh
# Gives the scripts that the built program prints in other forms to the tools that take them, where these are installed:
# QEMU, whose keyboard controller has to send the bytes of set 1; libevemu; and xdotool, whose keys xev shows.
#
# usage: forms.sh PROGRAM
# The last line is 'N passed, M failed'; the status is 0 where none failed. It needs python3. What is printed is asked
# by tests/transcripts/forms.t.

program=${1:-crates/kmap/out/kmap}
case $program in
/*) ;;
*) program=$PWD/$program ;;
esac
top=$(cd "$(dirname "$0")/.." && pwd)
. "$top/tests/shared.sh"
folder=$(mktemp -d) || exit 1
server=
trap '[ -z "$server" ] || kill "$server" 2> /dev/null; rm -rf "$folder"' EXIT
cd "$folder" || exit 1
LC_ALL=C
export LC_ALL

# A keymap with a character of its own on each key that the boards have, and a sentence of them all: each key is pressed
# and released once. Behind it one with a dead key and modifiers.
python3 - << 'END'
keys = [*range(1, 84), *range(86, 108)]
with open("each.kbd", "w") as keymap:
    for key in keys:
        keymap.write(f"{key:03d}{f' {0x400 + key:#06x}' * 8} O\n")
with open("sentence", "w", encoding="utf-8") as sentence:
    sentence.write("".join(chr(0x400 + key) for key in keys))
END
printf 'Gr\303\274\303\237e, caf\303\251 5\342\202\254 @{}' > german
for form in script evdev set1 qmp x11; do
    "$program" type --as $form each.kbd sentence > "$form" || exit 1
    "$program" type --as $form "$top/examples/de.kbd" german > "$form.german" || exit 1
done
holds 'each key of the board of 105 is pressed' [ "$(grep -c '^down' script)" -eq 105 ]

# The bytes and the numbers of keys behind e0 and e1 that kmap(5) has.
awk '/^down/ { print $2 }' script > codes
awk '/^#/ { next }
    { bytes = bytes " " $1; rest = rest ? rest - 1 : $1 == "e1" ? 2 : $1 == "e0" }
    !rest { if (++events % 2) print substr(bytes, 2); bytes = "" }' set1 > presses
awk '$3 == "0001" && $5 == 1 { print $4 }' evdev | while read -r number; do echo $((0x$number)); done > numbers
paste -d '|' codes presses numbers | sed -n '/^89/,$p' > told
sed -n 's/^\.It \([0-9]*\) Ta \(e[01] [0-9a-f ]*\) Ta \([0-9]*\) Ta .*/\1|\2|\3/p' "$top/man/kmap.5" > page
same_text 'kmap(5) has the bytes and numbers of these keys' page told

# A boot sector that sends each byte of the keyboard controller on, behind a point. QEMU gets an event once those before
# it have come out, and is asked for a repeat too.
cat > machine.py << 'END'
import json, subprocess, sys, time

loop = b"\xe4\x64\xa8\x01\x74\xfa\xe4\x60\xe6\xe9\xeb\xf4"
with open("boot", "wb") as boot:
    boot.write((b"\xfa\xb0\x2e\xe6\xe9" + loop).ljust(510, b"\0") + b"\x55\xaa")
machine = subprocess.Popen(
    [sys.argv[1], "-display", "none", "-m", "4", "-nic", "none", "-serial", "none", "-parallel", "none", "-debugcon",
     "file:got", "-drive", "file=boot,format=raw,if=floppy", "-qmp", "stdio"],
    stdin=subprocess.PIPE, stdout=subprocess.PIPE, text=True)

def answer():
    """The next line of QEMU that is none of its own accord."""
    for line in machine.stdout:
        if "return" in (told := json.loads(line)) or "error" in told:
            return told

def got(count):
    """What came out, once there are so many bytes, or none came for a while."""
    end = time.monotonic() + 20
    while time.monotonic() < end:
        with open("got", "rb") as file:
            if len(bytes := file.read()) >= count:
                break
        time.sleep(0.002)
    return bytes[bytes.find(b".") + 1:]

def lines(name):
    with open(name, encoding="utf-8") as file:
        return [line.rstrip("\n") for line in file]

def sent(bytes):
    """The bytes of a script, with those that stand about Print Screen alone."""
    text = " ".join(line for line in bytes if not line.startswith("#"))
    text = text.replace("e0 37", "e0 2a e0 37").replace("e0 b7", "e0 b7 e0 aa")
    return text.split()

failed = None
try:
    machine.stdin.write('{"execute": "qmp_capabilities"}\n'); machine.stdin.flush(); answer()
    got(1)
    wanted = []
    for name in ["", ".german"]:
        bytes, place = lines("set1" + name), 0
        for line in lines("qmp" + name):
            machine.stdin.write(line + "\n"); machine.stdin.flush()
            told = answer()
            if told.get("return") != {} or told.get("id") != json.loads(line).get("id"):
                failed = failed or f"{line}: {told}"
            time.sleep(0.004)
        wanted += sent(bytes)
        seen = [f"{byte:02x}" for byte in got(1 + len(wanted))]
        if seen != wanted:
            at = next((i for i, (a, b) in enumerate(zip(seen, wanted)) if a != b), min(len(seen), len(wanted)))
            failed = failed or f"at byte {at} of {len(wanted)}: {seen[at:at + 6]}, not {wanted[at:at + 6]}"
finally:
    machine.kill()
    machine.wait()
if failed:
    sys.exit(failed)
END
if is_there qemu-system-x86_64; then
    holds 'QEMU sends the bytes of set1' python3 machine.py qemu-system-x86_64
fi

# What libevemu reads: the events of the script, with their times.
cat > reader.py << 'END'
import ctypes, ctypes.util, sys

class Event(ctypes.Structure):
    _fields_ = [("seconds", ctypes.c_long), ("micros", ctypes.c_long), ("type", ctypes.c_ushort),
                ("code", ctypes.c_ushort), ("value", ctypes.c_int)]

evemu, libc = ctypes.CDLL("libevemu.so.3"), ctypes.CDLL(None)
libc.fopen.restype = ctypes.c_void_p
evemu.evemu_read_event.argtypes = [ctypes.c_void_p, ctypes.POINTER(Event)]
wanted, others = [], {89: 96, 90: 97, 91: 98, 92: 99, 93: 100, 104: 119, 105: 125, 106: 126, 107: 127}
for line in open("script"):
    if not line.startswith("#"):
        word, key = line.split()
        code = others.get(int(key), int(key) + (8 if 93 < int(key) < 104 else 0))
        time = 10_000 * (len(wanted) // 2 + 1)
        wanted += [(time, 1, code, {"up": 0, "down": 1, "repeat": 2}[word]), (time, 0, 0, 0)]
got, event, file = [], Event(), libc.fopen(b"evdev", b"r")
while evemu.evemu_read_event(file, event) > 0:
    got.append((event.seconds * 1_000_000 + event.micros, event.type, event.code, event.value))
sys.exit(got != wanted and f"{len(got)} events, {got[:3]}")
END
if python3 -c 'import ctypes; ctypes.CDLL("libevemu.so.3")' 2> /dev/null; then
    holds 'libevemu reads the events of evdev' python3 reader.py
else
    skip 'there is no libevemu'
fi

# What xev shows of the keys that xdotool presses.
events() {
    awk '/^Key(Press|Release) event/ { way = $1 == "KeyPress" ? "keydown" : "keyup" }
        way && match($0, /keycode [0-9]+/) { printf "%s %02d\n", way, substr($0, RSTART + 8, RLENGTH - 8); way = "" }' "$1"
}
if is_there Xvfb && is_there xdotool && is_there xev; then
    Xvfb -displayfd 3 -screen 0 800x600x24 -nolisten tcp 3> display > /dev/null 2>&1 &
    server=$!
    tries=0
    while [ ! -s display ] && [ $tries -lt 100 ]; do
        sleep 0.1
        tries=$((tries + 1))
    done
    DISPLAY=:$(cat display)
    export DISPLAY
    : > shown
    xev -geometry 800x600+0+0 -event keyboard > shown 2>&1 &
    tries=0
    while ! grep -q 'Outer window' shown && [ $tries -lt 100 ]; do
        sleep 0.1
        tries=$((tries + 1))
    done
    sleep 1
    # Locks that X turns itself stay as they are in this script, which has none.
    xdotool - < x11.german > /dev/null 2>&1
    sleep 1
    grep -v '^#' x11.german > wanted
    events shown > got
    same_text 'X gets the keys of x11' wanted got
fi
counted
