#!/bin/sh
# Compares the completions for bash, zsh and fish with the help of the built program: each file offers every command and
# every option of the help, each after the command that takes it, and nothing else.
#
# usage: completions.sh PROGRAM
# The last line is 'N passed, M failed'; the status is 0 where none failed. Where bash or fish is installed, its
# completions are also tried.

program=${1:-crates/kmap/out/kmap}
case $program in
/*) ;;
*) program=$PWD/$program ;;
esac
top=$(cd "$(dirname "$0")/.." && pwd)
. "$top/tests/shared.sh"
completions=$top/completions
folder=$(mktemp -d) || exit 1
trap 'rm -rf "$folder"' EXIT
cd "$folder" || exit 1

# What the help says. `help` itself has no help of its own, and takes the name of a command.
"$program" --help > help
cp help helps
commands=$(commands_in help)
{
    echo "$commands" | sed 's/^/kmap /'
    options_in help | sed 's/^/kmap /'
    echo "$commands" | sed 's/^/help /'
    for command in $commands; do
        if [ "$command" != help ]; then
            "$program" "$command" --help > help.one
            cat help.one >> helps
            options_in help.one | sed "s/^/$command /"
        fi
    done
} | sort > wanted
holds 'the help lists the commands of the source' \
    [ "$(echo "$commands" | sort)" = "$(commands_of_source "$top" | sort)" ]
holds 'the help lists the options of the source' \
    [ "$(sed -n 's/.* --/--/p' wanted | sort -u)" = "$(options_of_source "$top" | sort -u)" ]
for command in kmap $commands; do
    [ "$command" = help ] || holds "the help of $command lists -h and --help" \
        [ "$(grep -cxE "$command (-h|--help)" wanted)" -eq 2 ]
done

# What the files say, from their own words. In the one for bash the words of a command stand behind its name.
sed -n "s/^    \(.*\)) echo '\(.*\)' ;;\$/\1 \2/p" "$completions/kmap.bash" | sed "s/^''/kmap/" |
    awk '{ for (i = 2; i <= NF; i++) print $1, $i }' | sort > bash.words
same_text 'the words for bash' wanted bash.words

awk -F "'" '/^complete / {
    command = $2 == "__kmap_after" ? "kmap" : substr($2, index($2, " ") + 1)
    n = split($3, words, " ")
    for (i = 1; i < n; i++) {
        if (words[i] == "-a") print command, words[i + 1]
        if (words[i] == "-s") print command, "-" words[i + 1]
        if (words[i] == "-l") print command, "--" words[i + 1]
    }
}' "$completions/kmap.fish" | sort > fish.words
same_text 'the words for fish' wanted fish.words

# In the one for zsh the list of commands serves twice, after the program and after `help`.
awk -F "'" 'BEGIN { command = "kmap" }
/^ *[a-z]+\)$/ { command = $1; gsub(/[ )]/, "", command) }
/^    .[a-z]+:/ { split($2, parts, ":"); print "kmap", parts[1]; print "help", parts[1] }
/^ *.(\([^)]*\))?-.*\[/ { word = $2; sub(/^\([^)]*\)/, "", word); sub(/\[.*/, "", word); print command, word }
' "$completions/_kmap" | grep -v "^kmap [0-9]" | sort > zsh.words
same_text 'the words for zsh' wanted zsh.words

# The explanations are those of the help.
{
    sed -n "s/.* -d '\(.*\)'\$/\1/p" "$completions/kmap.fish"
    sed -n "s/.*\[\(.*\)\].*/\1/p; s/^    '[a-z]*:\(.*\)'\$/\1/p" "$completions/_kmap"
} | sort -u > explanations
holds 'there are explanations' [ -s explanations ]
while read -r text; do
    holds "an explanation of the help: $text" grep -qF -- "$text" helps
done < explanations

# Trying them. Where bash is offered no word, it offers files.
# tried NAME WORDS: the file tried.got has these words, one a line in any order
tried() {
    echo "$2" | tr ' ' '\n' | sed '/^$/d' | sort > tried.wanted
    sort tried.got > tried.sorted
    same_text "$1" tried.wanted tried.sorted
}

# in_bash WANTED WORD..: what bash offers for the last of the words
in_bash() {
    words=$1
    shift
    label="bash offers for: $*"
    bash -c 'source "$0"; COMP_WORDS=("$@"); COMP_CWORD=$(($# - 1)); _kmap; printf "%s\n" "${COMPREPLY[@]}"' \
        "$completions/kmap.bash" "$@" | sed '/^$/d' > tried.got
    tried "$label" "$words"
}
if is_there bash; then
    in_bash 'check cover compile' kmap c
    in_bash '--show --brief --help -h' kmap check -
    in_bash '--next' kmap play letter --n
    in_bash '' kmap play le
    in_bash 'lint' kmap l
    in_bash '--strict --name --format --quiet --color --help -h' kmap lint letter -
    in_bash '' kmap lint letter le
    in_bash 'fmt' kmap f
    in_bash '--check' kmap fmt --c
    in_bash '--quote' kmap fmt --check --q
    in_bash '--text --missing --words --all --as --board --help -h' kmap type letter -
    in_bash 'compile check cover' kmap help c
    in_bash '--help --version' kmap --
fi

# in_fish WANTED LINE: what fish offers for the end of the line
in_fish() {
    fish --no-config -c "source '$completions/kmap.fish'; complete -C '$2'" | cut -f 1 > tried.got
    tried "fish offers for: $2" "$1"
}
: > letter
: > line
if is_there fish; then
    in_fish 'check cover compile' 'kmap c'
    in_fish '--show --brief --help -h' 'kmap check -'
    in_fish '--next' 'kmap play letter --n'
    in_fish 'letter' 'kmap play le'
    in_fish 'letter' 'kmap play --next le'
    in_fish 'lint' 'kmap l'
    in_fish '--strict --name --format --quiet --color --help -h' 'kmap lint letter -'
    in_fish 'letter' 'kmap lint --name le'
    in_fish 'letter line' 'kmap lint letter l'
    in_fish 'fmt' 'kmap f'
    in_fish '--check' 'kmap fmt --c'
    in_fish '--quote' 'kmap fmt --check --q'
    in_fish '--text --missing --words --all --as --board --help -h' 'kmap type letter -'
    in_fish 'evdev' 'kmap cover --as e'
    in_fish '' 'kmap type letter --text le'
    in_fish 'compile check cover' 'kmap help c'
    in_fish '--help --version' 'kmap --'
fi
if is_there zsh; then
    holds 'zsh reads its completions' zsh -n "$completions/_kmap"
fi

counted
