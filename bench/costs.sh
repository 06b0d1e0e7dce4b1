# For run.sh beside it and for tests/linear.sh, which read it: what a run of the program `program` costs, by `cost`, and
# in which `unit`; and a keymap of many states. Instructions are counted by perf(1), or else by callgrind of
# valgrind(1); where neither is there, the cost is in microseconds of processor time. It makes files in the folder that
# it is read in.

if perf stat -x, -e instructions:u true 2> perf.out && grep -q '^[0-9]' perf.out; then
    unit=instructions
    cost() {
        perf stat -x, -e instructions:u -o cost.out "$program" "$@" > /dev/null
        awk -F, '/instructions/ { print $1 }' cost.out
    }
elif command -v valgrind > /dev/null; then
    unit=instructions
    cost() {
        valgrind --tool=callgrind --callgrind-out-file=/dev/null "$program" "$@" 2>&1 > /dev/null |
            awk '/Collected/ { print $NF }'
    }
else
    unit=microseconds
    cost() {
        { time -p "$program" "$@" > /dev/null; } 2>&1 | awk '/user|sys/ { t += $2 } END { print t * 1000000 }'
    }
fi

# make_states COUNT: three keys for each of so many modifiers, at most 8, so four to the power of COUNT states
make_states() {
    awk -v count="$1" '
        function slot(key, cell, letter) {
            printf "%d", key
            for (column = 0; column < 8; column++) printf " %s", cell
            print " " letter
        }
        BEGIN {
            split("lshift rshift lctrl rctrl lalt ralt ashift meta", name, " ")
            for (half = 0; half < 256; half += 128)
                for (key = 0; key < 3 * count; key++) slot(key + half, name[key % count + 1], "O")
        }'
}
