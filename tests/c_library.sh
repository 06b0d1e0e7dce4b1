#!/bin/sh
# Compiles and runs C and Python programs with the C library: the examples, which type what the program types, ones that
# call each function, under the sanitizers and valgrind too, and one that compares all answers with the program's on
# mutated texts and tables and random events. The header has to be good C99 and good C++, and says how much stack each
# call takes. The library, the shared one too, exports its calls alone and may want nothing but three functions that
# copy and fill memory, and who only steps a console pays for no more.
#
# usage: c_library.sh PROGRAM LIBRARY [COUNT]
# The shared library, libkmap.so, lies beside LIBRARY. COUNT is how many mutated texts are compared with the program, 60
# without it.
# The last line is 'N passed, M failed'; the status is 0 where none failed.

program=${1:-crates/kmap/out/kmap}
library=${2:-crates/kmap_c/out/libkmap_c.a}
count=${3:-60}
case $program in
/*) ;;
*) program=$PWD/$program ;;
esac
case $library in
/*) ;;
*) library=$PWD/$library ;;
esac
top=$(cd "$(dirname "$0")/.." && pwd)
. "$top/tests/shared.sh"
folder=$(mktemp -d) || exit 1
trap 'rm -rf "$folder"' EXIT
cd "$folder" || exit 1
examples=$top/examples
cc=${CC:-cc}

# numbers SCRIPT: the numbers of the events of a script, without those that are lost
numbers() {
    sed 's/#.*//' "$1" | awk '
        $1 == "down" || $1 == "repeat" { print $2 }
        $1 == "up" { print 128 + $2 }
        $1 == "reset" { print 256 }
        $1 == "load" { print 257 }'
}

# compiled FLAGS.. SOURCE: a C program with the library, left as a.out
compiled() {
    $cc -std=c99 -Wall -Wextra -Werror -pedantic -I "$top/include" "$@" "$library"
}

# made_for TARGET EMULATOR COMPILER..: the library for another target answers as this one, where there are a compiler and
# an emulator
made_for() {
    target=$1 emulator=$2
    shift 2
    holds "the library is made for $target" sh "$top/library.sh" "$target" "${library%.a}.ll" "$target.a"
    if is_there "$emulator" && is_there "$1"; then
        holds "the calls compile for $target" "$@" -std=c99 -static -I "$top/include" "$top/tests/c_library.c" "$target.a" \
            -o "c_library.$target"
        said=$("$emulator" "./c_library.$target" "$examples/us.kbd")
        holds "the calls on $target: $said" [ "${said##*, }" = '0 failed' ]
    fi
}

# silent COMMAND..: the command, whose output isn't shown
silent() {
    "$@" > /dev/null
}

# says STATUS LINE INPUT COMMAND..: with this file as its input the command writes this line on standard error, and ends
# with this status
says() {
    status=$1 line=$2 input=$3
    shift 3
    "$@" < "$input" > got 2> said
    [ $? -eq "$status" ] && [ "$(cat said)" = "$line" ]
}

# within NUMBER LIMIT: the number was measured, and is no greater than the limit
within() {
    [ "$1" -gt 0 ] && [ "$1" -le "$2" ]
}

# names_of FILE OPTION..: the library exports what the header declares, and wants nothing but three functions. What a
# compiler puts around a shared library wants names weakly, so they may be missing.
names_of() {
    file=$1
    shift
    nm "$@" --undefined-only "$file" | awk '$1 == "U" { sub("@.*", "", $2); print $2 }' | sort -u > wanted_by_library
    wanted=$(grep -vxE 'memcpy|memmove|memset' wanted_by_library)
    holds "${file##*/} wants nothing more: $wanted" [ -z "$wanted" ]
    nm "$@" --defined-only --extern-only "$file" | awk 'NF == 3 { print $3 }' | sort > exported
    same_text "${file##*/} exports what the header declares" declared exported
}

# no_red_zone NAME FILE: no function of it keeps anything below the stack pointer. An index may lead up again from there,
# where the function has reserved what it leads to.
no_red_zone() {
    objdump -d "$2" > disassembled
    holds "$1 has code" grep -q '(%rsp)' disassembled
    red=$(awk '/^[0-9a-f]+ <.*>:$/ { name = $2; reserved = 0 } /sub +\$0x[0-9a-f]+,%rsp/ { reserved = 1 }
        /-0x[0-9a-f]+\(%rsp\)/ || /-0x[0-9a-f]+\(%rsp,/ && !reserved { print name, $0 }' disassembled)
    holds "nothing of $1 is kept below the stack pointer: $red" [ -z "$red" ]
}

if is_there nm; then
    sed -n 's/^[a-z0-9_]* \(kmap_[a-z_]*\)(.*/\1/p' "$top/include/kmap.h" | sort > declared
    names_of "$library"
    names_of "${library%/*}/libkmap.so" -D
fi

if is_there objdump; then
    no_red_zone 'the library' "$library"
    kept=$(objdump -h "$library" | awk '$2 ~ /^\.(data|bss|tdata|tbss)/ && $2 !~ /^\.data\.rel\.ro/ && $3 !~ /^0+$/')
    holds "the library has no memory of its own: $kept" [ -z "$kept" ]
fi

if is_there "$cc"; then
    holds 'the example compiles' compiled "$examples/type.c" -o type
    tr ' ' '\n' < "$examples/line.numbers" | grep . > got
    numbers "$examples/line.script" > wanted
    same_text 'line.numbers are the events of line.script' wanted got
    for name in us:line de:de; do
        keymap=$examples/${name%:*}.kbd
        script=$examples/${name#*:}.script
        "$program" compile "$keymap" tables
        "$program" play --typed "$keymap" "$script" > wanted
        numbers "$script" | ./type tables > got
        same_text "the example types ${script##*/} as the program does" wanted got
    done
    : > empty
    echo 258 > no_event
    printf '2 x30 3' > no_number
    holds 'the example refuses a number that is no event' says 1 'type: no event: 258' no_event ./type tables
    holds 'the example refuses a word that is no number' says 1 'type: no number: x30' no_number ./type tables
    holds 'the example refuses an empty file' says 1 'type: empty: offset 0: the file is too short' empty ./type empty
    holds 'the example tells that there is no file' says 1 'type: none: cannot be opened' empty ./type none
    holds 'the example tells how it is used' says 2 'usage: type TABLES < NUMBERS' empty ./type
    [ ! -e /dev/full ] || holds 'the example tells that it cannot write' \
        [ "$(echo 30 | ./type tables 2>&1 > /dev/full)" = 'type: cannot write' ]

    holds 'the loader compiles' compiled "$examples/load.c" -o load
    for name in us:line de:de; do
        "$program" play --typed "$examples/${name%:*}.kbd" "$examples/${name#*:}.script" > wanted
        numbers "$examples/${name#*:}.script" | ./load "$examples/${name%:*}.kbd" > got
        same_text "the loader types ${name#*:}.script as the program does" wanted got
    done
    finding=$("$program" check "$examples/trap.kbd" | sed -n 2p)
    holds 'the loader refuses an unsafe keymap' [ "$(./load "$examples/trap.kbd" 2>&1 < /dev/null)" = \
        "load: $examples/trap.kbd: not safe: $finding" ]
    printf '030 "a"\n' > faulty.kbd
    holds 'the loader refuses a faulty text' \
        says 1 'load: faulty.kbd: line 1, offset 4: a byte that begins no token' empty ./load faulty.kbd
    cp "$examples/us.kbd" good.kbd
    holds 'the loader refuses a number that is no event' says 1 'load: no event: 258' no_event ./load good.kbd
    holds 'the loader refuses a word that is no number' says 1 'load: no number: x30' no_number ./load good.kbd
    holds 'the loader tells that there is no file' says 1 'load: none: cannot be opened' empty ./load none
    holds 'the loader tells that it is given a folder' says 1 'load: .: cannot be read' empty ./load .
    holds 'the loader tells how it is used' says 2 'usage: load TEXT < NUMBERS' empty ./load

    if [ "$(uname -s)" = Linux ] && is_there python3; then
        holds 'the console of a device compiles' compiled "$examples/live.c" -o live
        python3 -c 'import struct, sys
for line in sys.stdin:
    if line.startswith("E: "):
        at, kind, code, value = line.split()[1:]
        second, micro = at.split(".")
        sys.stdout.buffer.write(struct.pack("@llHHi", int(second), int(micro), int(kind, 16), int(code, 16), int(value)))
' < "$top/tests/live.events" > recorded
        ./live "$examples/de.kbd" < recorded > got
        printf 'A€bbc' > wanted
        same_text 'the console of a device types what was recorded' wanted got
        holds 'it refuses an unsafe keymap' says 1 "live: $examples/trap.kbd: not safe: $finding" recorded \
            ./live "$examples/trap.kbd"
        holds 'it refuses a faulty text' \
            says 1 'live: faulty.kbd: line 1, offset 4: a byte that begins no token' recorded ./live faulty.kbd
        holds 'it tells that there is no file' says 1 'live: none: cannot be opened' recorded ./live none
        holds 'it tells how it is used' says 2 'usage: live TEXT < DEVICE' recorded ./live
    fi

    # The example of README, in a function that is given a text.
    program_of "$top/README.md" > readme.c
    holds 'the example of README compiles' compiled readme.c -o readme
    holds 'it types' [ "$(./readme < "$examples/us.kbd")" = a ]
    ./readme < "$examples/trap.kbd" > got
    holds 'it refuses an unsafe keymap' [ "$?" = "$(echo "$finding" | sed 's/^key \([0-9]*\):.*/\1/')" ]
    ./readme < faulty.kbd > got
    holds 'it refuses a faulty text' [ "$?" = 11 ]

    holds 'the library can be shared' "$cc" -shared -Wl,--whole-archive "$library" -Wl,--no-whole-archive -o libkmap.so
    if is_there python3; then
        export PYTHONPATH="$top/python"
        for name in us:line de:de; do
            keymap=$examples/${name%:*}.kbd
            script=$examples/${name#*:}.script
            "$program" compile "$keymap" tables
            "$program" play --typed "$keymap" "$script" > wanted
            numbers "$script" | KMAP_LIBRARY=./libkmap.so python3 -B "$examples/type.py" tables > got
            same_text "the example for Python types ${script##*/} as the program does" wanted got
        done
        # as those in C do, in one line; what the system says of a file is Python's
        typist="env KMAP_LIBRARY=./libkmap.so python3 -B $examples/type.py"
        # shellcheck disable=SC2086 # a command and its words
        {
            holds 'the example for Python refuses a number that is no event' \
                says 1 'type: no event: 258' no_event $typist tables
            holds 'the example for Python refuses a word that is no number' \
                says 1 'type: no number: x30' no_number $typist tables
            holds 'the example for Python refuses an empty file' \
                says 1 'type: empty: offset 0: the file is too short' empty $typist empty
            holds 'the example for Python tells that there is no file' \
                says 1 "type: [Errno 2] No such file or directory: 'none'" empty $typist none
            holds 'the example for Python tells how it is used' says 2 'usage: type.py TABLES < NUMBERS' empty $typist
            [ ! -e /dev/full ] || holds 'the example for Python tells that it cannot write' \
                [ "$(echo 30 | $typist tables 2>&1 > /dev/full)" = 'type: [Errno 28] No space left on device' ]
        }
        KMAP_LIBRARY=./none.so python3 -B "$examples/type.py" tables < empty > got 2> said
        holds 'it tells in one line that there is no library' [ "$?, $(sed 's/: .*;/: ..;/' said)" = \
            '1, type: ..; name the library by KMAP_LIBRARY or its folder by LD_LIBRARY_PATH' ]
        holds 'the library for Python tells cells and actions' env KMAP_LIBRARY=./libkmap.so \
            python3 -B -c 'import sys
from kmap import Action, Console, Keymap, key_of_evdev
keymap = Keymap.from_file(sys.argv[1])
assert keymap[30][:3] == ("a", "A", "\x01") and keymap[255] == ("\0",) * 8
assert keymap[59][2] == 51 and str(keymap[59][2]) == "fkey25" and isinstance(keymap[59][2], Action)
assert [str(cell) for cell in keymap[15][:3]] == ["\t", "btab", "nop"] and str(keymap[41][4]) == "dgra"
assert len(list(keymap)) == 256
assert str(Console(keymap).press(42).action) == "lshift" and Console(keymap).press(30).action is None
assert str(Action(1)) == "" and repr(Action(2)) == "<Action 2 lshift>"
assert key_of_evdev(30) == 30 and key_of_evdev(97) == 90 and key_of_evdev(84) is None' "$examples/us.kbd"
        KMAP_LIBRARY=./libkmap.so python3 -B "$examples/test_keymap.py" > got
        printf 'test_no_modifier_sticks passed\ntest_shift passed\n' > wanted
        same_text 'the tests of a keymap in Python pass' wanted got
        holds 'they fail for another keymap' sh -c \
            '! KMAP_LIBRARY=./libkmap.so KEYMAP="$1" python3 -B "$2" > got 2>&1 &&
                grep -q "^AssertionError: key " got' \
            - "$examples/trap.kbd" "$examples/test_keymap.py"
        # by pip, from a copy of the tree, where what it takes is there
        if python3 -c 'import setuptools, pip, wheel' 2> /dev/null; then
            cp -R "$top/python" python
            holds 'pip installs the package' silent env PIP_ROOT_USER_ACTION=ignore python3 -m pip install -q --no-index \
                --no-deps --no-build-isolation --target site ./python
            holds 'it is typed' [ -f site/kmap/py.typed ]
            KMAP_LIBRARY=./libkmap.so PYTHONPATH=site python3 -B "$examples/test_keymap.py" > got
            same_text 'the tests of a keymap in Python pass with it' wanted got
        else
            skip 'there is no pip, setuptools or wheel'
        fi
        said=$(KMAP_LIBRARY=./libkmap.so python3 -B "$top/tests/c_fuzz.py" "$program" "$count" 2>&1)
        holds "the library and the program: $said" [ "${said##* }" = agree ]
    fi

    holds 'the calls compile' compiled "$top/tests/c_library.c" -o c_library
    said=$(./c_library "$examples/us.kbd")
    holds "the calls: $said" [ "${said##*, }" = '0 failed' ]
    # All calls at once over one table, in threads and in a handler that interrupts them.
    holds 'the calls in threads compile' compiled "$top/tests/c_threads.c" -pthread -o c_threads
    said=$(./c_threads "$examples/us.kbd" 40 20)
    holds "calls at once: $said" [ "$said" = '0 wrong in threads, 0 wrong in interrupts' ]
    if is_there valgrind; then
        holds 'valgrind finds nothing' silent valgrind -q --error-exitcode=3 ./c_library "$examples/us.kbd"
    fi
    # The library isn't made for the sanitizers, but its caller's memory is: what it copies past that is found there.
    echo 'int main(void) { return 0; }' > none.c
    if $cc -fsanitize=address,undefined none.c -o none 2> /dev/null; then
        holds 'the calls compile for the sanitizers' compiled -fsanitize=address,undefined \
            -fno-sanitize-recover=undefined "$top/tests/c_library.c" -o c_library
        holds 'the sanitizers find nothing' silent ./c_library "$examples/us.kbd"
    else
        skip 'there are no sanitizers'
    fi
    # Of the library's own loads and stores this one sees those that copy and fill memory, and all of its caller's.
    if $cc -fsanitize=thread none.c -o none 2> /dev/null && ./none; then
        holds 'the calls in threads compile for the sanitizer' compiled -fsanitize=thread "$top/tests/c_threads.c" \
            -pthread -o c_threads
        said=$(TSAN_OPTIONS=exitcode=3 ./c_threads "$examples/us.kbd" 20 0 2>&1)
        holds "no thread waits for or races with another: $said" \
            [ "$said" = '0 wrong in threads, 0 wrong in interrupts' ]
    else
        skip 'there is no sanitizer for threads'
    fi

    # Without a C library, and for FreeBSD.
    if [ "$(uname -s)" = Linux ]; then
        holds 'a program without a C library links' \
            compiled -ffreestanding -nostdlib -static "$top/tests/c_alone.c" -o c_alone
        holds 'it runs' ./c_alone
    fi
    if is_there clang && is_there ld.lld; then
        for as in -static '-fpie -pie' '-static -mcmodel=kernel -Wl,-Ttext=0xffffffff80200000'; do
            # shellcheck disable=SC2086 # some options
            holds "it links for FreeBSD by $as" clang --target=x86_64-unknown-freebsd14 -std=c99 -Wall -Wextra \
                -Werror -ffreestanding -nostdlib -fuse-ld=lld $as -I "$top/include" "$top/tests/c_alone.c" "$library" \
                -o for_freebsd
            ! is_there readelf || holds "that is a file of FreeBSD by $as" \
                [ "$(readelf -h for_freebsd | grep -c 'OS/ABI: .*FreeBSD')" -eq 1 ]
        done
    fi

    # For other targets, as `make lib TARGET=..` makes it from the same text.
    if [ -f "${library%.a}.ll" ]; then
        made_for aarch64-linux-gnu qemu-aarch64 aarch64-linux-gnu-gcc
        made_for riscv64-linux-gnu qemu-riscv64 riscv64-linux-gnu-gcc
        made_for x86_64-kernel env "$cc" -no-pie
        if is_there objdump; then
            no_red_zone 'that for a kernel' x86_64-kernel.a
            holds 'that for a kernel has no vectors' sh -c '! grep -E "%([xyz]?mm|st\()" disassembled'
        fi
        if is_there clang && is_there ld.lld; then
            holds 'it links at the addresses of a kernel of FreeBSD, with the flags of one' clang \
                --target=x86_64-unknown-freebsd14 -std=c99 -ffreestanding -nostdlib -fuse-ld=lld -static \
                -mcmodel=kernel -mno-red-zone -mno-mmx -mno-sse -msoft-float -Wl,-Ttext=0xffffffff80200000 \
                -I "$top/include" "$top/tests/c_alone.c" x86_64-kernel.a -o for_kernel
            holds 'it links into one object, as a module' ld.lld -r -m elf_x86_64_fbsd --whole-archive x86_64-kernel.a \
                -o module.o
            ! is_there nm || names_of module.o
        fi
    else
        skip 'there is no LLVM text of the library'
    fi
    holds 'a target that there is not is refused' \
        says 2 'no target: vax: there are aarch64-linux-gnu, riscv64-linux-gnu and x86_64-kernel' empty \
        sh "$top/library.sh" vax text archive

    # The stack that each call takes, by its comment in the header, and by a run.
    holds 'the calls on a painted stack compile' compiled "$top/tests/c_stack.c" -o c_stack
    ./c_stack "$examples/us.kbd" "$examples/de.kbd" "$examples/trap.kbd" faulty.kbd empty > took
    stacks_of "$top/include/kmap.h" > told
    awk '{ print $1 }' told | sort > wanted
    awk '{ print $1 }' took | sort > got
    same_text 'each call is made on a painted stack' wanted got
    # Checks that take stack as well stay in what is built without a proof (tests/unproved).
    [ -z "${UNPROVED:-}" ] || skip 'the stack of a library that is built without a proof'
    while read -r name bytes; do
        most=$(awk -v name="$name" '$1 == name { print $2 }' told)
        [ -n "${UNPROVED:-}" ] || holds "$name takes $bytes bytes of stack, and at most $most" within "$bytes" "$most"
    done < took

    # Resets and loads are stepped by a copy of the step, which keys so need not wait for.
    if is_there size; then
        printf '%s\n' '#include <kmap.h>' 'int main(int argc, char **argv)' '{' 'struct kmap_console console;' \
            'uint32_t answer;' 'kmap_start(&console);' \
            'return kmap_step((uint8_t *)argv[0], (size_t)argc, &console, KMAP_PRESS(30), &answer);' '}' > step.c
        holds 'a program that only steps compiles' compiled -O2 -Wl,--gc-sections step.c -o step
        $cc -O2 none.c -o none
        took=$(($(size step | awk 'NR == 2 { print $1 + $2 }') - $(size none | awk 'NR == 2 { print $1 + $2 }')))
        holds "a program that only steps pays $took bytes" within "$took" 7300
    fi
fi

# A processor that the library can't be made for is told so, once.
if is_there clang; then
    for other in i386-linux-gnu armv7-linux-gnueabi powerpc64-linux-gnu aarch64_be-linux-gnu; do
        clang --target="$other" -std=c11 -ffreestanding -fsyntax-only "$top/include/kmap.h" 2> said
        holds "$other is refused in one line" [ "$(sed -n 's/.* error: //p' said)" = \
            'kmap: only for processors of 64 bits that are little endian' ]
    done
fi

# In C++ the header is clean, and each call and struct of it is used.
calls_of "$top/include/kmap.h" > named
sed -n 's/^struct \(kmap_[a-z_]*\) {$/\1/p' "$top/include/kmap.h" >> named
cat "$top/tests/calls.h" "$top/tests/c_plus_plus.cc" > used
unused=$(while read -r name; do grep -qw "$name" used || echo "$name"; done < named)
holds "the program in C++ uses all that the header declares, but: $unused" [ -z "$unused" ]
for compiler in g++ clang++; do
    if is_there "$compiler"; then
        holds "the header is clean C++ for $compiler" "$compiler" -std=c++17 -Wall -Wextra -Wpedantic -Wconversion \
            -Wshadow -Werror -I "$top/include" "$top/tests/c_plus_plus.cc" "$library" -o "by_$compiler"
        "./by_$compiler"
        holds "what $compiler made gets the answers, but for that of number: $?" [ $? -eq 0 ]
    fi
done

counted
