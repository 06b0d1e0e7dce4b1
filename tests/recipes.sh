#!/bin/sh
# Runs the recipes of git in docs/GUIDE.md ("What git shows of a change" and "A change that takes something away is
# stopped") in a repository of nine commits: keymaps, a slip, a fault, its mending, a comment alone, a keymap that is
# renamed and changed, a new one, its removal, and a key that is removed, with a file that is no keymap. The scripts and
# settings are those that are printed there.
#
# usage: recipes.sh PROGRAM
# The last line is 'N passed, M failed'; the status is 0 where none failed.

program=${1:-crates/kmap/out/kmap}
case $program in
/*) ;;
*) program=$PWD/$program ;;
esac
top=$(cd "$(dirname "$0")/.." && pwd)
. "$top/tests/shared.sh"
folder=$(mktemp -d) || exit 1
trap 'rm -rf "$folder"' EXIT
mkdir "$folder/bin" "$folder/work"
ln -s "$program" "$folder/bin/kmap"
unset GIT_DIR GIT_WORK_TREE GIT_INDEX_FILE KEYMAP_DIFF
HOME=$folder GIT_CONFIG_NOSYSTEM=1 PATH=$folder/bin:$PATH LC_ALL=C
export HOME GIT_CONFIG_NOSYSTEM PATH LC_ALL
guide=$top/docs/GUIDE.md

# script NAME: puts the script that the guide prints on the path
script() {
    sed -n "/^cat > $1 << 'END'\$/,/^END\$/p" "$guide" | sed '1d;$d' > "$folder/bin/$1"
    chmod +x "$folder/bin/$1"
    holds "the guide prints $1" test -s "$folder/bin/$1"
}

# commit NAME: what is there, under a name that is a tag too
commit() {
    git add -A && git -c user.name=tests -c user.email=tests@localhost commit -qm "$1" && git tag "$1"
}

# prints WHAT: what standard input wants is in `got`
prints() {
    cat > "$folder/wanted"
    if cmp -s "$folder/wanted" "$folder/got"; then
        passed=$((passed + 1))
    else
        echo "failed: $1"
        diff "$folder/wanted" "$folder/got"
        failed=$((failed + 1))
    fi
}

script keymap-diff
script review-keymaps
cd "$folder/work" && git init -q . && git symbolic-ref HEAD refs/heads/main || exit 1
echo '*.kbd diff=keymap' > .gitattributes
cp "$top/examples/us.kbd" "$top/examples/de.kbd" .
echo one > notes
commit begin
sed '/^  058/s/clock/lctrl/g' us.kbd > new && mv new us.kbd
commit control
sed '/^  042/s/lshift/lshfit/' us.kbd > new && mv new us.kbd
commit fault
git show control:us.kbd > us.kbd
commit mended
sed 's/# The row of digits/# Digits/' de.kbd > new && mv new de.kbd
commit comment
git mv us.kbd english.kbd
sed "/^  016/s/'q'/'p'/" english.kbd > new && mv new english.kbd
commit renamed
cp "$top/examples/trap.kbd" .
commit new
git rm -q trap.kbd
commit removed
sed '/^  086/d' de.kbd > new && mv new de.kbd
echo two >> notes
commit last

# Without a setting.
git difftool -y -x 'kmap diff --brief' begin control -- '*.kbd' > "$folder/got"
prints 'difftool' << 'END'
# told apart: clock -> lctrl
# lctrl: 29 -> 29, 58
# clock: 58 -> nobody
# differ: 1 slot
END
git difftool -y -x 'kmap diff --brief' control fault -- '*.kbd' > "$folder/got" 2> "$folder/said"
holds 'a fault ends no difftool' test $? -eq 0
holds 'it is told' grep -q 'error: lshfit means nothing; did you mean lshift \[BadWord\]$' "$folder/said"

# The tables as lines.
eval "$(sed -n '/^print=/p;/^git config diff.keymap.textconv /p' "$guide")"
holds 'the guide sets textconv' test -n "$(git config diff.keymap.textconv)"
git log -p -U0 --reverse --format='commit %s' > "$folder/log"
holds 'log with textconv' test $? -eq 0
grep -E '^(commit|diff|rename|new file|deleted)' "$folder/log" > "$folder/got"
prints 'each file of each commit' << 'END'
commit begin
diff --git a/.gitattributes b/.gitattributes
new file mode 100644
diff --git a/de.kbd b/de.kbd
new file mode 100644
diff --git a/notes b/notes
new file mode 100644
diff --git a/us.kbd b/us.kbd
new file mode 100644
commit control
diff --git a/us.kbd b/us.kbd
commit fault
diff --git a/us.kbd b/us.kbd
commit mended
diff --git a/us.kbd b/us.kbd
commit comment
commit renamed
diff --git a/us.kbd b/english.kbd
rename from us.kbd
rename to english.kbd
commit new
diff --git a/trap.kbd b/trap.kbd
new file mode 100644
commit removed
diff --git a/trap.kbd b/trap.kbd
deleted file mode 100644
commit last
diff --git a/de.kbd b/de.kbd
diff --git a/notes b/notes
END
git diff -U0 mended renamed -- us.kbd english.kbd | grep '^[-+][0-9]' | cut -c 1-16 > "$folder/got"
prints 'a slot before and behind' << 'END'
-016 'q'    'Q' 
+016 'p'    'Q' 
END
git diff mended comment > "$folder/got"
prints 'nothing of a comment' < /dev/null

# What kmap diff says.
git config diff.keymap.command keymap-diff
git log -p --ext-diff --reverse --format='commit %s' begin.. 2> "$folder/said" > "$folder/log"
holds 'log with the script' test $? -eq 0
grep -E '^(commit|keymap|# |down|[-+][^-+])' "$folder/log" | sed 's/   */ /g' > "$folder/got"
prints 'a log of what changed' << 'END'
commit control
keymap us.kbd
# told apart: clock -> lctrl
# lctrl: 29 -> 29, 58
# clock: 58 -> nobody
# slot 58; all columns: clock -> lctrl
down 58
commit fault
keymap us.kbd
- 042 lshift lshift lshift lshift lshift lshift lshift lshift O
+ 042 lshfit lshift lshift lshift lshift lshift lshift lshift O
commit mended
keymap us.kbd
- 042 lshfit lshift lshift lshift lshift lshift lshift lshift O
+ 042 lshift lshift lshift lshift lshift lshift lshift lshift O
commit comment
keymap de.kbd
# same
commit renamed
keymap us.kbd -> english.kbd
# told apart: 'q' -> 'p'
# more presses: q
# slot 16; base: 'q' -> 'p'
down 16
commit new
keymap trap.kbd
# new keymap
commit removed
keymap trap.kbd
# no keymap any more
commit last
keymap de.kbd
# told apart: '<' -> nul
# types no longer: < > |
# slot 86; base: '<' -> nul; shift: '>' -> nul; ctrl, ctrl shift, alt shift, alt ctrl, alt ctrl shift: nop -> nul; alt: '|' -> nul
down 86
+two
END
grep -c 'error: lshfit means nothing; did you mean lshift \[BadWord\]$' "$folder/said" > "$folder/got"
prints 'its faults' << 'END'
2
END
KEYMAP_DIFF=--brief git diff begin control > "$folder/got"
prints 'in brief' << 'END'
keymap us.kbd
# told apart: clock -> lctrl
# lctrl: 29 -> 29, 58
# clock: 58 -> nobody
# differ: 1 slot
END
git diff --no-ext-diff begin control | grep -c '^[-+]058' > "$folder/got"
prints 'the text' << 'END'
2
END

# A change that takes something away, one that doesn't, and a fault.
review-keymaps removed > "$folder/got"
holds 'a key taken away is stopped' test $? -eq 123
prints 'what it takes away' << 'END'
de.kbd
# told apart: '<' -> nul
# types no longer: < > |
# differ: 1 slot
END
git checkout -q -b other removed
sed "s/( 'a' 'ä' )/( 'a' 'å' )/" de.kbd > new && mv new de.kbd
commit pair
review-keymaps removed > "$folder/got"
holds 'a pair that is another one passes' test $? -eq 0
prints 'what it does' << 'END'
de.kbd
# told apart: 'ä' -> 'å'
# differ: 1 accent
END
git checkout -q fault
review-keymaps control > "$folder/got" 2> "$folder/said"
holds 'a fault is stopped' test $? -eq 123
prints 'of which keymap' << 'END'
us.kbd
END
holds 'the fault is told' grep -q '^us.kbd:[0-9]*:[0-9]*: error: lshfit' "$folder/said"
review-keymaps nothing > "$folder/got" 2> "$folder/said"
holds 'no base' test $? -eq 2

# Revisions, and a picture.
git checkout -q control
git show begin:us.kbd | kmap diff --brief - us.kbd > "$folder/got"
prints 'a revision and the file' << 'END'
# told apart: clock -> lctrl
# lctrl: 29 -> 29, 58
# clock: 58 -> nobody
# differ: 1 slot
END
git show begin:us.kbd | kmap draw --old - us.kbd > change.svg
holds 'a picture' test $? -eq 0
grep -c '^<g role="img" class="m n"' change.svg > "$folder/got"
prints 'of one key that has changed' << 'END'
1
END
counted
