# For the scripts beside it, which read it: counts what held and what failed, and takes the program's help apart.
# A script ends by `counted`, so its last line is 'N passed, M failed', with what was skipped and why, and its status is
# 0 where something was looked at and none failed.

passed=0
failed=0
skips=

# holds NAME COMMAND..: the command succeeds
holds() {
    name=$1
    shift
    if "$@"; then
        passed=$((passed + 1))
    else
        failed=$((failed + 1))
        echo "failed: $name"
    fi
}

# same_text NAME WANTED GOT: the two files are the same; if not, their difference is shown
same_text() {
    holds "$1" cmp -s "$2" "$3" || true
    cmp -s "$2" "$3" || diff "$2" "$3"
}

# skip WHY: tests are left out; the last line tells it too, once
skip() {
    echo "skipped: $1"
    case "; $skips; " in
    *"; $1; "*) ;;
    *) skips=${skips:+$skips; }$1 ;;
    esac
}

# is_there COMMAND: the command is installed; if not, its tests are skipped
is_there() {
    command -v "$1" > /dev/null && return
    skip "there is no $1"
    return 1
}

# commands_in FILE: the commands that a help lists, one a line
commands_in() {
    sed -n '/^Commands:$/,/^$/s/^  \([a-z]*\) .*/\1/p' "$1"
}

# options_in FILE: the options that a help lists, short ones and long ones, one a line
options_in() {
    sed -n '/^Options:$/,/^$/s/   *[A-Z].*//p' "$1" | grep -oE -e '--?[A-Za-z][A-Za-z-]*'
}

# commands_of_source TOP: the commands that the source of the command line makes, and `help`, one a line
commands_of_source() {
    sed -n 's/^        name: "\([a-z]*\)",$/\1/p' "$1/crates/kmap/src/command_line.rt"
    echo help
}

# options_of_source TOP: the long options that this source gives its commands, and those of each program, one a line
options_of_source() {
    tr -d ' \n' < "$1/crates/kmap/src/command_line.rt" |
        grep -oE '(Flag(Without|Alone|Beside)?|FileOption|TextOption|OptionalValue|OptionBeside|Choice)\("[a-z]+"' |
        sed 's/.*"\([a-z]*\)"/--\1/'
    echo --help
    echo --version
}

# variants FILE ENUM: the variants of a public enum, one a line
variants() {
    sed -n "/^pub enum $2 {/,/^}/s/^    \([A-Z][A-Za-z]*\).*/\1/p" "$1"
}

# calls_of HEADER: the functions that a header declares, and those that stand in it, one a line
calls_of() {
    sed -n 's/^[a-z0-9_ ]* \(kmap_[a-z_]*\)(.*/\1/p' "$1"
}

# stacks_of HEADER: the functions that a header declares, each with how much stack its comment says that it takes
stacks_of() {
    awk '/Stack: [0-9,]+ bytes\.$/ { bytes = $(NF - 1); gsub(",", "", bytes) }
        /^[a-z0-9_]+ kmap_[a-z_]+\(/ { sub("\\(.*", "", $2); print $2, bytes; bytes = "untold" }' "$1"
}

# exports_of README: the lines by which README tells a shell where an installation below $HOME/.local is
exports_of() {
    sed -n '/^```sh$/,/^```$/s/^export /export /p' "$1"
}

# program_of README: a program in C with the example of README in a function that is given a text; its status tells why
# the text is refused
program_of() {
    cat << 'END'
#include <kmap.h>
#include <stdio.h>
static int refuse_text(const struct kmap_text_fault *fault) { return 10 + (int)fault->line; }
static int refuse_keymap(const struct kmap_finding *finding) { return finding->key; }
static int typed(const uint8_t *text, size_t length)
{
END
    awk '/^```/ { inside = $0 == "```c"; next } inside' "$1"
    cat << 'END'
return 0;
}
int main(void)
{
    static uint8_t text[65536];
    return typed(text, fread(text, 1, sizeof text, stdin));
}
END
}

counted() {
    echo "$passed passed, $failed failed${skips:+ (skipped: $skips)}"
    [ $failed -eq 0 ] && [ $passed -gt 0 ]
}
