#!/bin/sh
# Tries the scripts beside it: each fails, and says why, where what it looks at is broken.
#
# usage: checks.sh PROGRAM
# The last line is 'N passed, M failed'; the status is 0 where none failed.

program=${1:-crates/kmap/out/kmap}
case $program in
/*) ;;
*) program=$PWD/$program ;;
esac
top=$(cd "$(dirname "$0")/.." && pwd)
. "$top/tests/shared.sh"
folder=$(mktemp -d) || exit 1
trap 'rm -rf "$folder"' EXIT
cd "$folder" || exit 1

# refuses LINE COMMAND..: the command fails and says a line that begins so
refuses() {
    line=$1
    shift
    "$@" > said 2>&1
    holds "it succeeds: $*" [ $? -ne 0 ]
    holds "it does not say: $line" grep -q "^$line" said
}

# A script that looked at nothing.
printf '. "%s/tests/shared.sh"\ncounted\n' "$top" > nothing.sh
refuses '0 passed, 0 failed' sh nothing.sh

# A copy of what the scripts read, without what is built.
mkdir -p copy/crates
parts="Makefile README.md CHANGELOG.md CONTRIBUTING.md crates.txt docs include man completions examples python tests bench"
for part in $parts; do
    cp -R "$top/$part" copy
done
for crate in "$top"/crates/*/; do
    mkdir "copy/crates/$(basename "$crate")"
    for part in src specs proofs must-fail; do
        [ ! -d "$crate$part" ] || cp -R "$crate$part" "copy/crates/$(basename "$crate")"
    done
done

# breaks FILE EXPRESSION: a file of the copy is changed by sed
breaks() {
    sed "$2" "$top/$1" > "copy/$1"
    holds "nothing of $1 is broken by $2" differ "$top/$1" "copy/$1"
}

differ() {
    ! cmp -s "$1" "$2"
}

# mended FILE: it is as before
mended() {
    cp "$top/$1" "copy/$1"
}

# broken FILE EXPRESSION LINE COMMAND..: where the file is changed so, the command fails and says a line that begins so
broken() {
    file=$1 expression=$2 line=$3
    shift 3
    breaks "$file" "$expression"
    refuses "$line" "$@"
    mended "$file"
}

broken include/kmap.pc 's/^Version: .*/Version: 0.0.9/' 'failed: include/kmap.pc: Version: ' sh copy/tests/version.sh
broken docs/FORMATS.md '/^| BadWord |/d' 'failed: the formats have the kinds of faults of the sources' \
    sh copy/tests/manual.sh "$program"
broken completions/kmap.bash 's/ansi/color/' 'failed: the words for bash' sh copy/tests/completions.sh "$program"
broken crates/keymap_lint/src/spelled.rt '1s,//!,//,' \
    'failed: crates/keymap_lint/src/spelled.rt begins with a comment on what it has' sh copy/tests/modules.sh
broken crates/messages/src/lib.rt 's/^mod /  mod /;s/^pub use/  pub use/' 'failed: messages is as `rt fmt` writes it' \
    python3 copy/tests/layout messages
broken docs/FORMATS.md 's/no key is defined/no key is there/;s/defines no key/has no key/' \
    'bad NO_KEY' sh copy/tests/words.sh
broken crates/keymap_core/src/unseen.rt 's/c == 0x3164/c == 0x3165/' \
    'keymap_core/src/unseen.rt: missing of Default_Ignorable_Code_Point: 3164' python3 -B copy/bench/unseen.py --check
file=tests/transcripts/check.t
number=$(grep -n '^  \$ kmap check shift$' "$top/$file" | cut -d: -f1)
broken $file 's/^  accepted$/  refused/' "failed: check.t:$number: kmap check shift" \
    sh copy/tests/transcripts.sh "$program" copy/$file

# An edit that must fail, by a kit that only tells what a prover said: it is refused where its file says, and elsewhere.
file=crates/keymap_check/must-fail/promises.edit
rm -r copy/crates/*/must-fail
mkdir -p "copy/${file%/*}" kit/bin
cat > "copy/$file" << 'EDIT'
# A lock is called steady whose key has a nop.
# refused: is_acting returns
file: src/bearer.rt
old: !survey.has(map, key, Kind::CharacterOrNop)
new: !survey.has(map, key, Kind::Character)
EDIT
cat > kit/bin/rt << 'PY'
import os, types
class Crate:
    def ci(self, flags, tests): return 0
    def call(self, *words): return 0
def say(text, out=None): print("rt:", text)
rtlib = types.SimpleNamespace(Crate=Crate, text_of=lambda path: open(path).read(), PARTS=("src", "specs", "proofs"))
def read_edit(edit, folder): return {}, None
def checked(crate=None, *given):
    is_before = crate and crate.folder.endswith("/before")
    return types.SimpleNamespace(stdout="" if is_before else open(os.environ["TOLD"]).read())
def must_fail(crate, edit, flags, kept=None):
    return True, f"must-fail {crate.name}/{os.path.basename(edit)}: {checked().stdout}"
def main(words):
    crate = types.SimpleNamespace(name="keymap_check", folder="crates/keymap_check")
    say(must_fail(crate, "crates/keymap_check/must-fail/promises.edit", [])[1])
    return 0
PY
printf '#!/bin/sh\necho "%s/kit/START-HERE.md"\n' "$folder" > rt
chmod +x rt
TOLD=$folder/told
export TOLD
at=$(grep -n '^fn is_acting' copy/crates/keymap_check/src/bearer.rt | cut -d: -f1)
echo "note: src/bearer.rt:$((at + 4)):5: it is not proved (\`returns\`)" > told
holds 'an edit is refused where its file says' env RT="$folder/rt" python3 copy/tests/refused > said
holds 'the edit is counted' grep -qx '1 edits refused where they say, 0 not' said
echo "note: src/bearer.rt:$((at - 8)):5: it is not proved (\`returns\`)" > told
refuses "$file: the file says is_acting returns, the kit tells bearer_of returns" \
    env RT="$folder/rt" python3 copy/tests/refused
# Beside a proof it is refused only where values are told.
mkdir -p copy/crates/keymap_check/proofs/bearer/is_acting
: > copy/crates/keymap_check/proofs/bearer/is_acting/Answers.antt
echo "note: src/bearer.rt:$((at + 4)):5: it is not proved (\`returns\`)" > told
refuses "$file: is_acting returns may only not fit its old proof" env RT="$folder/rt" python3 copy/tests/refused
sed -i '1s/$/; the facts known there allow values at which this goal is false/' told
holds 'values that the prover tells count' env RT="$folder/rt" python3 copy/tests/refused > said
unset TOLD

# Functions that stand alone: the one that is named stays as it is, and so do a law and a `const fn`; the others lose their
# bodies, and each line that is left stays where it is.
cat > functions.rt << 'RT'
pub fn named(n: u8) -> u8
    ensures { result ≡ n }
{
    n
}

impl Text {
    #[tactic(auto, using(crate::proofs::Some::lemma))]
    fn other(&self) -> u8 {
        let one = 1;
        one
    }

    const fn counted() -> u8 {
        1
    }
}

pub fn law()
    ensures { Law }
{}

fn last<T>(
    of: &[T],
) -> usize
    ensures { result ≡ length of.now }
{
    of.len()
}
RT
sed -e '/#\[tactic/s/.*//' -e 's/^    fn other/#[tactic(none)] &/' -e 's/^fn last/#[tactic(none)] &/' \
    -e 's/.*let one = 1;/unreachable!()/' -e 's/^        one$//' -e 's/.*of.len()/unreachable!()/' functions.rt > wanted
PYTHONPATH=$top/tests python3 -B -c "import alone
print(alone.without_bodies(alone.text_of('functions.rt'), {'named'}), end='')" > alone.rt
holds 'the other functions lose their bodies' cmp alone.rt wanted

# What is measured against limits, by the end of the script that measures: one of them is passed.
sed -n "/^awk '\$/,\$p" "$top/bench/run.sh" > judges.sh
printf 'reads 17\nevent 1.5\n' > limits
printf 'reads 17\nevent 1.51\n' > measured
refuses 'past its limit of 1.5: event 1.51' env LIMITS=limits sh judges.sh

# A program that costs as the square of the bytes of a text.
if is_there valgrind; then
    cat > squares << SH
#!$(command -v awk) -f
BEGIN { ARGV[1] = "" }
{ bytes += length(\$0) + 1 }
END {
    size = bytes / 512
    for (i = 0; i < size; i++)
        for (j = 0; j < size; j++)
            count++
}
SH
    chmod +x squares
    refuses 'failed: lint of one line, four times as large, costs' sh "$top/tests/linear.sh" ./squares
fi

# What README and the guide print, with what is built beside the copy.
for file in crates/kmap/out/kmap crates/kmap_c/out/libkmap_c.a crates/kmap_c/out/libkmap.so; do
    mkdir -p "copy/${file%/*}"
    cp "$top/$file" "copy/$file"
done
cp "$top/build.sh" "$top/library.sh" "$top/LICENSE" copy
broken README.md 's/^down 16$/down 17/' 'failed: README.md: sed' sh copy/tests/guide.sh

# What is installed where README leaves a line out that a shell has to know.
broken README.md '/^export PKG_CONFIG_PATH=/d' 'failed: the example of README types' sh copy/tests/install.sh

# A C library with a call that its header doesn't have.
cc=${CC:-cc}
if is_there "$cc" && is_there nm; then
    broken include/kmap.h '/^uint8_t kmap_locks(/d' 'failed: libkmap_c.a exports what the header declares' \
        sh copy/tests/c_library.sh "$program" copy/crates/kmap_c/out/libkmap_c.a 0
fi

# A program that empties a file before it writes it: where it is killed behind that, nothing is whole.
if is_there "$cc"; then
    cat > empties << SH
#!/bin/sh
case "\$1 \$2" in
compile\ *)
    for file do :; done
    "$program" "\$@"
    cp "\$file" "$folder/made"
    : > "\$file"
    cp "$folder/made" "\$file"
    ;;
*)
    exec "$program" "\$@"
    ;;
esac
SH
    chmod +x empties
    sh "$top/tests/stopped.sh" ./empties > said 2>&1
    grep -q '^skipped: no program may be traced' said || holds 'a file that is emptied is called whole' \
        grep -q '^failed: compile by a new file, killed before its call [0-9]*: the old or the new one is whole' said
fi

# A program from which no memory is refused.
printf '#!/bin/sh\nexit 0\n' > silent
chmod +x silent
refuses 'failed: compile shift made --narrow' sh "$top/tests/refused_memory.sh" "$folder/silent"

# A call that is never refused.
printf '#!/bin/sh\necho ok\n' > ok
chmod +x ok
refuses 'failed: KeyMap::new takes no memory' sh copy/tests/refused_calls.sh ./ok

# Two builds that both fail.
cat > fails << 'SH'
#!/bin/sh
case $PWD in
*/first | */second) exit 1 ;;
*) eval ": > \${$#}" ;;
esac
SH
chmod +x fails
refuses 'failed: kmap check /dev/stdin ends with 0' env SIZES=65536 sh "$top/tests/both_builds.sh" ./fails ./fails

# A public clause that names an inner machine.
mkdir -p small/crates/c/src small/crates/c/specs/Inner
cat > small/crates/c/src/lib.rt << 'RT'
ghost use Rattle.c.specs.Inner.Machine.{machine};

pub fn answer(part: u8) -> u8
    ensures { result ≡ machine part }
{
    part
}
RT
echo 'use Rattle.std.specs.Prelude.{ℕ}' > small/crates/c/specs/Told.antt
refuses 'failed: crates/c/src/lib.rt: answer cites machine' sh "$top/tests/statements.sh" small

counted
