#!/bin/sh
# Checks that docs/FORMATS.md has each message word for word: of `kmap lint`, the constants of keymap_lint_text's
# words.rt and the names of columns in keymap_names' lists.rt, in the section "Diagnostics"; of the report and of scripts,
# those of kmap_runs' and script_text's words.rt, in "The report of check", "What the search found", "What differs
# between two keymaps", "The script that types a sentence" and "The script that tests a console". And that it has the
# line of `kmap check` on a key, which stands in pictures and in the C library too: the constant FINDING of
# keymap_check's words.rt; the fault lines of kmap_runs' fault_line.rt, in "Fault lines"; and the sentences of the C
# library, those of kmap_c's words.rt, in their order.
#
# A message has `{}` where something is told. The page has it in backquotes, with a letter, a word in capitals or `..`
# at such a place, or another message, or nothing; or it has it at such a place alone. Names of columns stand in one
# sentence.
#
# usage: words.sh
# The last line is 'N passed, M failed'; the status is 0 where none failed.

top=$(cd "$(dirname "$0")/.." && pwd)
. "$top/tests/shared.sh"
folder=$(mktemp -d) || exit 1
trap 'rm -rf "$folder"' EXIT
lint=$folder/lint.rt
{
    cat "$top/crates/keymap_lint_text/src/words.rt"
    sed -n 's/^const COLUMN_NAMES/pub(crate) &/; /COLUMN_NAMES/,/^];/p' "$top/crates/keymap_names/src/lists.rt"
} > "$lint"
runs=$folder/runs.rt
cat "$top/crates/kmap_runs/src/words.rt" "$top/crates/script_text/src/words.rt" > "$runs"

cat > "$folder/words.py" << 'PYTHON'
import re
import sys

source = open(sys.argv[1], encoding="utf-8").read()
page = open(sys.argv[2], encoding="utf-8").read()
section = "".join(page.split(f"\n## {it}\n")[1].split("\n## ")[0] for it in sys.argv[3:])
# a comment of a script stands in the source without its number sign
told = {span.removeprefix("#") for span in re.findall(r"`([^`]+)`", section)}
text = r'b"((?:[^"\\]|\\.)*)"'
messages = dict(re.findall(r"const (\w+): &\[u8\] =\s*" + text, source))
lists = re.findall(r"const (\w+): \[&\[u8\]; \d+\] = \[(.*?)\];", source, re.S)
names = [name for _, items in lists for name in re.findall(text, items)]


# A place is filled by a letter of the page or by one of these patterns, or by nothing.
def pattern(words, fillers):
    place = "(?:" + "|".join(["[A-Z]+", "[0-9]", "hh?", "soh", r"\.\."] + fillers) + ")?"
    return place.join(re.escape(part) for part in words.removesuffix("\\n").split("{}"))


plain = {words: pattern(words, []) for words in messages.values() if words.strip("{}: []\\n")}
plain.update((name, re.escape(name)) for name in names)


# Whether the words stand in the span, with something at their places.
def may_be(words, span):
    return all(part in span for part in words.removesuffix("\\n").split("{}"))


# The patterns of what may stand in the span: one of all messages would take longer to make than to match.
def fillers_of(span):
    return [it for words, it in plain.items() if may_be(words, span)]


# The message with one of its places filled by these words, and theirs by words in capitals.
def filled(message, words, fillers):
    inner = "[A-Z]+".join(map(re.escape, words.split("{}")))
    parts = message.split("{}")
    halves = [("{}".join(parts[:at]), "{}".join(parts[at:])) for at in range(1, len(parts))]
    return [pattern(before, fillers) + inner + pattern(behind, fillers) for before, behind in halves]


def is_told(words):
    spans = [span for span in told if may_be(words, span)]
    if any(re.fullmatch(pattern(words, fillers_of(span)), span) for span in spans):
        return True
    pairs = ((it, span) for span in spans for it in messages.values() if may_be(it, span))
    return any(re.fullmatch(it, span) for message, span in pairs for it in filled(message, words, fillers_of(span)))


found = {name: is_told(words) for name, words in messages.items()}
for name, _ in lists:
    found[name] = ", ".join(names[:-1]) + " and " + names[-1] in " ".join(section.split())
for name, is_found in found.items():
    print("good" if is_found else "bad", name)
PYTHON

cat > "$folder/line.py" << 'PYTHON'
import re
import sys

source = open(sys.argv[1], encoding="utf-8").read()
words = re.search(r'const ' + sys.argv[2] + r': &\[u8\] =\s*b"([^"]*)"', source).group(1)
line = "[A-Z]+".join(re.escape(part) for part in words.split("{}"))
spans = re.findall(r"`([^`]+)`", open(sys.argv[3], encoding="utf-8").read())
sys.exit(not any(re.fullmatch(line, span) for span in spans))
PYTHON

cat > "$folder/rows.py" << 'PYTHON'
import re
import sys

source = open(sys.argv[1], encoding="utf-8").read()
section = open(sys.argv[2], encoding="utf-8").read().split("\n## Sentences of the C library\n")[1].split("\n## ")[0]
words = dict(re.findall(r'const (\w+): &\[u8\] =\s*b"([^"]*)"', source))
columns = re.findall(r"^\| (\d+) \| `?(.*?)`? ?\| `(.*)` \|$", section, re.M)
files, texts = ([words[name] for name in names.split()] for names in sys.argv[3:])
wanted = [(str(n), files[n - 1] if n <= len(files) else "", it) for n, it in enumerate(texts, 1)]
sys.exit(columns != wanted or set(words.values()) != {*files, *texts})
PYTHON

cat > "$folder/faults.py" << 'PYTHON'
import re
import sys

source = open(sys.argv[1], encoding="utf-8").read()
section = open(sys.argv[2], encoding="utf-8").read().split("\n## Fault lines\n")[1].split("\n## ")[0]
spans = re.findall(r"`([^`]+)`", section)
lines = [it.removesuffix("\\n") for it in re.findall(r'const \w+: &\[u8\] =\s*b"kmap: ([^"]*)"', source)]
place = r"(?:[A-Z]+|U\+hhhh|text)"
patterns = ["(?:NAME: )?" + place.join(map(re.escape, it.split("{}"))) for it in lines if it.strip("{}: ")]
sys.exit(not patterns or not all(any(re.fullmatch(it, span) for span in spans) for it in patterns))
PYTHON

# has_faults FILE: the page has each fault line of this file
has_faults() {
    python3 -B "$folder/faults.py" "$1" "$top/docs/FORMATS.md"
}

# lacks_faults FILE FROM TO: it doesn't where the words are others
lacks_faults() {
    sed "s/$2/$3/" "$1" > "$folder/faults.rt"
    ! cmp -s "$1" "$folder/faults.rt" && ! has_faults "$folder/faults.rt"
}

# has_rows FILE: the page has the sentences of this file, of table files and of texts, by their numbers
has_rows() {
    python3 -B "$folder/rows.py" "$1" "$top/docs/FORMATS.md" \
        'TOO_SHORT TOO_LONG BAD_COUNT BAD_PAD BAD_FLAG BAD_ACTION COMBINED BAD_NUMBER NOT_EMPTY' \
        'BAD_BYTE BAD_LITERAL BAD_WORD UNEXPECTED KEY_TOO_LARGE BAD_CHARACTER BAD_FUNCTION TOO_MANY_PAIRS
        ZERO_BASE COMBINED END_INSIDE'
}

# lacks_rows FILE FROM TO: it doesn't where the words are others
lacks_rows() {
    sed "s/$2/$3/" "$1" > "$folder/rows.rt"
    ! cmp -s "$1" "$folder/rows.rt" && ! has_rows "$folder/rows.rt"
}

# has_line FILE NAME: the page has the words of this constant as a line, with words in capitals at their places
has_line() {
    python3 -B "$folder/line.py" "$1" "$2" "$top/docs/FORMATS.md"
}

# lacks_line FILE NAME FROM TO: it doesn't where the words are others
lacks_line() {
    sed "s/$3/$4/" "$1" > "$folder/checked.rt"
    ! cmp -s "$1" "$folder/checked.rt" && ! has_line "$folder/checked.rt" "$2"
}

# tells FILE: reads a file of words, and has a line for each constant of it that says whether the page has it; the file
# is $words with or without a change, and the page's sections are those of $words
tells() {
    case $words in
        "$lint") set -- "$1" Diagnostics ;;
        *) set -- "$1" 'The report of check' 'What the search found' 'What differs between two keymaps' \
            'The script that types a sentence' 'The script that tests a console' \
            'The script that tests a console by its keyboard' ;;
    esac
    file=$1
    shift
    python3 -B "$folder/words.py" "$file" "$top/docs/FORMATS.md" "$@" > "$folder/told"
}

# has_all WORDS: the page has each constant, and each was looked for
has_all() {
    words=$1
    tells "$words" && ! grep '^bad ' "$folder/told" &&
        [ "$(grep -c '^good ' "$folder/told")" -eq "$(grep -c '^pub(crate) const ' "$words")" ]
}

# misses WORDS NAME FROM TO: the page doesn't have this constant, and has all others, where its words are others
misses() {
    words=$1
    sed "s/$3/$4/" "$words" > "$folder/words.rt"
    ! cmp -s "$words" "$folder/words.rt" && tells "$folder/words.rt" && [ "$(grep '^bad ' "$folder/told")" = "bad $2" ]
}

# Words that are changed here are told only over a page that has all.
if is_there python3; then
    checked=$top/crates/keymap_check/src/words.rt
    faults=$top/crates/kmap_runs/src/fault_line.rt
    library=$top/crates/kmap_c/src/words.rt
    holds 'the page has each message of lint' has_all "$lint"
    holds 'the page has each line of the report and of scripts' has_all "$runs"
    holds 'the page has the line of the check on a key' has_line "$checked" FINDING
    holds 'the page has each fault line' has_faults "$faults"
    holds 'the page has the sentences of the C library' has_rows "$library"
fi
if [ "$passed" -gt 0 ] && [ "$failed" -eq 0 ]; then
    holds 'another word is seen' misses "$lint" NO_KEY 'defines no key' 'has no key'
    holds 'a place more is seen' misses "$lint" BAD_LITERAL 'no quoted character stands here' \
        'no quoted {} character stands here'
    holds 'another end is seen' misses "$lint" NOT_JOINED 'are not joined' 'are not joined.'
    holds 'another name of a column is seen' misses "$lint" COLUMN_NAMES 'b"alt ctrl"' 'b"ctrl alt"'
    holds 'another word of a comment is seen' misses "$runs" UNDECIDED 'presses sticks' 'presses stick'
    holds 'another word of a verdict is seen' misses "$runs" NOT_TOLD 'not told apart' 'never told apart'
    holds 'another word of what differs is seen' misses "$runs" LISTED_OTHERWISE '; listed' ', listed'
    holds 'another word at a place is seen' misses "$runs" LOCK_SETTINGS '"lock settings"' '"settings"'
    holds 'another word of a list is seen' misses "$runs" BOTH_LOCKS 'clock+nlock' 'clock nlock'
    holds 'another word of a run of slots is seen' misses "$runs" SLOTS ': slots {} to {}' ': slots {} - {}'
    holds 'another name of a part is seen' misses "$runs" ONE_WAY_PART 'one-way' 'oneway'
    holds 'another word in that line is seen' lacks_line "$checked" FINDING 'character at slot' 'character in slot'
    holds 'another word of a fault line is seen' lacks_faults "$faults" 'read fault at' 'fault at'
    holds 'a place more in a fault line is seen' lacks_faults "$faults" 'script line {}' 'script {} line {}'
    holds 'another word of a sentence is seen' lacks_rows "$library" 'a slot above 255' 'a slot above 256'
    holds 'a sentence in place of another is seen' lacks_rows "$library" 'a lock flag above 3' 'a pad that is not 0'
    holds 'a place less in that line is seen' lacks_line "$checked" FINDING ' at slot {} column {}, char' ' at slot {}, char'
fi
counted
