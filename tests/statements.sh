#!/bin/sh
# Checks that statements stand apart from inner machines: no clause of a public function, and no ghost member of a
# public type or of an implementation of a public trait, names what its file imports from a `specs.Inner` module; and no
# file of `specs` outside of `Inner` imports from one. So what a public contract says is read without `specs/Inner`.
#
# The view, the invariant and the inverse of a `Model` and what a `Hash` feeds tell of private fields, and may name
# anything. So may two files of keymap_text: what a `MapReader` keeps is a place in the machine that reads a text.
#
# And that `make promises` prints each law with the first sentence of its comment, and that each name by which a row of
# docs/PROOFS.md tells what carries it is printed there or defined in `specs`.
#
# usage: statements.sh [FOLDER]
# The last line is 'N passed, M failed'; the status is 0 where none failed.

top=$(cd "$(dirname "$0")/.." && pwd)
. "$top/tests/shared.sh"
folder=$(mktemp -d) || exit 1
trap 'rm -rf "$folder"' EXIT
cd "${1:-$top}" || exit 1
between='crates/keymap_text/specs/Progress.antt crates/keymap_text/specs/Standing.antt'

names_inner() {
    grep -qE 'specs(\.|::)Inner' "$1"
}

imports_no_inner() {
    ! names_inner "$1"
}

# Lines `bad` or `good`, then the file, the public item, and the names from Inner that it cites. The names that a crate
# exports are read first, from its lib.rt; then each file is read line by line, as `rt fmt` lays it out.
cat > "$folder/cited.awk" << 'AWK'
function words(text, into,    n, parts, i) {
    gsub(/[^A-Za-z0-9_'-]+/, " ", text)
    split("", into)
    n = split(text, parts, " ")
    for (i = 1; i <= n; i++) into[parts[i]] = 1
    return n
}

function without_comment(text) {
    sub(/[ \t]*\/\/.*/, "", text)
    return text
}

# how often a character stands in a text
function count_of(text, what,    n) {
    n = 0
    while (match(text, what)) {
        n++
        text = substr(text, RSTART + 1)
    }
    return n
}

# `use Rattle.C.specs.Inner.M.{a, b as c};` gives a and c; `use Rattle.C.specs.Inner.M as m;` gives m.
function import(text,    list, n, parts, i, word) {
    if (text !~ /specs\.Inner/) return
    sub(/;.*/, "", text)
    if (text ~ /\{/) {
        list = text
        sub(/^[^{]*\{/, "", list)
        sub(/\}.*/, "", list)
    } else {
        list = text
        sub(/.*use /, "", list)
        if (list !~ / as /) sub(/.*\./, "", list)
    }
    n = split(list, parts, ",")
    for (i = 1; i <= n; i++) {
        word = parts[i]
        sub(/.* as /, "", word)
        gsub(/[ \t]/, "", word)
        if (word != "") inner[word] = 1
    }
}

# The items of a file are judged at its end, since a name may be imported below where it is cited.
function judge_file(    i, cited, word, found) {
    for (i = 1; i <= count; i++) {
        found = ""
        words(texts[i], cited)
        for (word in cited) if (word in inner) found = found " " word
        if (texts[i] ~ /specs(\.|::)Inner/) found = found " specs.Inner"
        print (found == "" ? "good" : "bad") " " file ": " items[i] (found == "" ? "" : " cites" found)
    }
    count = 0
    split("", inner)
}

# the item that was gathered ends
function close_item() {
    if (item != "" && public) {
        count++
        items[count] = item
        texts[count] = text
    }
    item = ""
    text = ""
    in_clauses = 0
}

# the exported names: each `pub use m::{A, B}`, and the files of each `pub mod`
FILENAME == lib && FNR == NR {
    line = without_comment($0)
    if (line ~ /^pub use /) reexport = 1
    if (reexport) {
        gone = line
        sub(/^pub use [a-z_0-9]*::/, "", gone)
        words(gone, some)
        for (word in some) exported[word] = 1
    }
    if (line ~ /;/) reexport = 0
    if (line ~ /^pub mod /) {
        sub(/^pub mod /, "", line)
        sub(/;.*/, "", line)
        open_file[line] = 1
    }
    next
}

FNR == 1 {
    close_item()
    judge_file()
    block = owner = trait = using = ""
    file = stem = FILENAME
    sub(/.*\//, "", stem)
    sub(/\.rt$/, "", stem)
    is_open = stem in open_file || stem == "lib"
}

{
    line = without_comment($0)
}

# what is imported, which may go over several lines
using != "" || line ~ /^[ \t]*ghost use / {
    using = using " " line
    if (line ~ /;/) {
        import(using)
        using = ""
    }
    next
}

# what a block belongs to
line ~ /^(unsafe )?impl[ <]/ {
    head = line
    sub(/^(unsafe )?impl/, "", head)
    while (head ~ /^<[^<>]*(<[^<>]*>[^<>]*)*>/) sub(/^<[^<>]*(<[^<>]*>[^<>]*)*>/, "", head)
    trait = ""
    if (head ~ / for /) {
        trait = head
        sub(/ for .*/, "", trait)
        sub(/<.*/, "", trait)
        gsub(/[ \t]/, "", trait)
        sub(/.*::/, "", trait)
        sub(/.* for /, "", head)
    }
    owner = head
    sub(/^[ \t&]*('[a-z]+ )?(mut )?/, "", owner)
    sub(/[^A-Za-z0-9_].*/, "", owner)
    block = "impl"
}
line ~ /^(pub(\([a-z]+\))? )?(trait|struct|enum) / {
    owner = line
    block = line ~ /trait / ? "trait" : "type"
    sub(/^(pub(\([a-z]+\))? )?(trait|struct|enum) /, "", owner)
    sub(/[^A-Za-z0-9_].*/, "", owner)
    trait = ""
}
line ~ /^\}/ {
    close_item()
    block = owner = trait = ""
    next
}

# a ghost member, up to the brace that closes it
line ~ /^[ \t]+ghost [A-Za-z_]+( =|:)/ && line !~ /ghost use / {
    close_item()
    member = line
    sub(/^[ \t]+ghost /, "", member)
    sub(/[ :=].*/, "", member)
    public = owner in exported || trait in exported
    if (trait == "Model" && (member == "view" || member == "invariant" || member == "inverse")) public = 0
    if (trait == "Hash" && (member == "hash_input" || member == "respects_eq")) public = 0
    item = owner " ghost " member
    in_ghost = 1
    text = line
    sub(/^[ \t]+ghost [A-Za-z_]+/, "", text)
    if (count_of(text, "{") && count_of(text, "{") == count_of(text, "}")) {
        in_ghost = 0
        close_item()
    }
    next
}
in_ghost {
    text = text " " line
    if (count_of(text, "{") && count_of(text, "{") == count_of(text, "}")) {
        in_ghost = 0
        close_item()
    }
    next
}

# a function, whose clauses end where its body begins
line ~ /^[ \t]*(pub(\([a-z]+\))? )?(const )?(unsafe )?(extern "C" )?fn [A-Za-z_0-9]+/ {
    close_item()
    name = line
    sub(/.*fn /, "", name)
    sub(/[^A-Za-z0-9_].*/, "", name)
    is_pub = line ~ /^[ \t]*pub (const |unsafe |extern )*("C" )?fn/
    if (block == "trait") public = owner in exported
    else if (trait != "") public = owner in exported || trait in exported
    else if (block == "impl") public = is_pub && (owner in exported || is_open)
    else public = is_pub && (name in exported || is_open)
    item = (owner == "" ? "" : owner "::") name
    margin = line
    sub(/[^ \t].*/, "", margin)
    text = ""
    if (line ~ /\{[ \t]*$/ && line !~ /(ensures|requires)/) {
        item = ""
    } else if (line ~ /[ \t)](ensures|requires) /) {
        in_clauses = 1
        text = line
        sub(/^.*fn [A-Za-z_0-9]*/, "", text)
    }
    next
}
item != "" && !in_ghost {
    if (line == margin "{" || line == margin "{}") {
        if (in_clauses) close_item()
        item = ""
        next
    }
    if (line ~ /^[ \t]*(ensures|requires) /) in_clauses = 1
    if (in_clauses) text = text " " line
    else if (line ~ /\{[ \t]*$/ || line ~ /;[ \t]*$/) item = ""
    if (in_clauses && block == "trait" && line ~ /;[ \t]*$/) close_item()
}
END {
    close_item()
    judge_file()
}
AWK

for file in crates/*/specs/*.antt; do
    case " $between " in
    *" $file "*) holds "$file is named in between, and imports from Inner" names_inner "$file" ;;
    *) [ "${file##*/}" = Inner.antt ] || holds "$file imports nothing from specs/Inner" imports_no_inner "$file" ;;
    esac
done

for lib in crates/*/src/lib.rt; do
    # A crate without specs has nothing to cite.
    [ -d "${lib%/src/lib.rt}/specs" ] || continue
    find "${lib%/lib.rt}" -name '*.rt' ! -path '*/tests/*' ! -name tests.rt | sort > "$folder/files"
    # shellcheck disable=SC2046 # no path has a blank
    awk -v lib="$lib" -f "$folder/cited.awk" "$lib" $(cat "$folder/files") > "$folder/items"
    holds "$lib exports something" [ -s "$folder/items" ]
    while read -r judgement item; do
        holds "$item" [ "$judgement" = good ]
    done < "$folder/items"
done

if [ -f tests/promises ]; then
    python3 -B tests/promises > "$folder/promises"
    for law in $(sed -n 's/^pub fn \([a-z_0-9]*\).*/\1/p' crates/*/src/laws.rt); do
        holds "make promises prints the law $law with a comment" grep -q "^law $law: " "$folder/promises"
    done
    find crates/*/specs -name '*.antt' -exec sed -n 's/^[a-z ]*pub \(record \)*\([^ ]*\).*/\2/p' {} + >> "$folder/promises"
    carriers=$(sed -n 's/^| .* | \(.*\) |$/\1/p' docs/PROOFS.md | grep -o '`[A-Za-z_:]*`' | tr -d '`' | sort -u)
    holds 'docs/PROOFS.md has rows' [ -n "$carriers" ]
    for name in $carriers; do
        holds "docs/PROOFS.md names $name, which is promised or defined" grep -qw "$name" "$folder/promises"
    done
fi

counted
