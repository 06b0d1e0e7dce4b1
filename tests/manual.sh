#!/bin/sh
# Compares the manual pages and the table of README with the built program and the sources: both name every command and
# option of the help, and the SYNOPSIS its words; the pages every kind of fault and of diagnostic, and every function of the header, of which the
# sources have the same ones, with the stack that its comment tells; and mandoc has nothing to say about them.
#
# usage: manual.sh PROGRAM
# The last line is 'N passed, M failed'; the status is 0 where none failed.

program=${1:-crates/kmap/out/kmap}
case $program in
/*) ;;
*) program=$PWD/$program ;;
esac
top=$(cd "$(dirname "$0")/.." && pwd)
. "$top/tests/shared.sh"
folder=$(mktemp -d) || exit 1
trap 'rm -rf "$folder"' EXIT
cd "$top" || exit 1

# words_in_help FILE: the arguments and long options that a help explains, one a line
words_in_help() {
    sed -n -e 's/^  [[<]\([A-Z0-9]*\)[]>]\(\.*\) .*/\1\2/p' -e 's/^  [[<]\([A-Z0-9]*\)[]>]\(\.*\)$/\1\2/p' \
        -e 's/^  .*\(--[a-z]*\) <\([A-Z0-9]*\)>.*/\1 \2/p' -e 's/^  .*\(--[a-z]*\)\[=<\([A-Z]*\)>\] .*/\1 \2/p' \
        -e 's/^  .*\(--[a-z]*\)  .*/\1/p' "$1" | grep -vx -e --help
}

# words_in_synopsis COMMAND PAGE: those of the command in the SYNOPSIS of the page, likewise
words_in_synopsis() {
    sed -n '/^\.Sh SYNOPSIS/,/^\.Sh DESCRIPTION/p' "$2" |
        awk -v command="$1" '
            /^\.Nm/ { inside = 0 }
            /^\.Cm / { inside = $2 == command; next }
            inside {
                for (i = 1; i <= NF; i++) {
                    if ($i == "Fl" && $(i + 3) == "Ns")
                        print "--" $(i + 2) " " toupper($(i += 8))
                    else if ($i == "Fl" && $(i + 1) == "Fl")
                        print "--" $(i += 2) ($(i + 1) == "Ar" ? " " toupper($(i += 2)) : "")
                    else if ($i ~ /^[a-z0-9]+$/)
                        print toupper($i) ($(i + 1) == "..." ? "..." : "")
                }
            }'
}

# Options are written in a page as `Fl h` and `Fl Fl show`.
"$program" --help > "$folder/help"
commands=$(commands_in "$folder/help")
holds 'the help lists the commands of the source' \
    [ "$(echo "$commands" | sort)" = "$(commands_of_source "$top" | sort)" ]
holds 'the help lists the options of the source' [ "$(
    for command in '' $commands; do
        [ "$command" = help ] || "$program" ${command:+"$command"} --help > "$folder/help" && options_in "$folder/help"
    done | grep '^--' | sort -u
)" = "$(options_of_source "$top" | sort -u)" ]
for command in '' $commands; do
    [ -z "$command" ] || holds "kmap(1) has the command $command" grep -q "^\.It Cm $command " man/kmap.1
    [ "$command" != help ] || continue
    "$program" ${command:+"$command"} --help > "$folder/help"
    for option in $(options_in "$folder/help"); do
        macros=$(echo "$option" | sed 's/^--/Fl Fl /; s/^-/Fl /')
        holds "kmap(1) has the option $option of: $command" grep -qE "^\.(It )?$macros( |\$)" man/kmap.1
    done
    [ -n "$command" ] || continue
    # The words that follow the command in the SYNOPSIS are those that the help explains, as `TEXT...` or `--next TEXT2`.
    holds "kmap(1) has the words of $command in its SYNOPSIS" \
        [ "$(words_in_synopsis "$command" man/kmap.1 | sort)" = "$(words_in_help "$folder/help" | sort)" ]
    # In the table of README the words of a command stand in one pair of backquotes, with its options.
    grep -o "\`kmap $command [^\`]*\`" README.md > "$folder/words"
    holds "README has the command $command" [ -s "$folder/words" ]
    for option in $(options_in "$folder/help" | grep '^--' | grep -vxE -e '--help|--version'); do
        holds "README has the option $option of: $command" grep -q -e "[[ (]${option}[][ )]" "$folder/words"
    done
done

# Kinds of faults stand in the document of the formats as the first words of tables, but for those of whole files and of
# scripts.
kinds=$(variants crates/keymap_text/src/fault.rt TextFaultKind
    variants crates/keymap_tables/src/fault.rt TableFaultKind)
told=$(sed -n 's/^| \([A-Z][A-Za-z]*\) |.*/\1/p' docs/FORMATS.md)
holds 'the formats have the kinds of faults of the sources' \
    [ "$(echo "$kinds" | grep -vxE 'Short|Long' | sort -u)" = "$(echo "$told" | sort -u)" ]
for kind in $kinds $(variants crates/play_core/src/script.rt ScriptFault); do
    holds "kmap(1) tells of $kind" grep -qw "$kind" man/kmap.1
done

# Kinds of diagnostics stand there likewise, each with its severity.
kinds=$(variants crates/keymap_lint/src/diagnostic.rt Kind | grep -vx Fault | sed 's/\([a-z]\)\([A-Z]\)/\1-\2/g' |
    tr 'A-Z' 'a-z')
told=$(sed -n 's/^| \([a-z-]*\) | error |.*/\1/p; s/^| \([a-z-]*\) | warning |.*/\1/p' docs/FORMATS.md)
holds 'the formats have the kinds of diagnostics of the sources' \
    [ "$(echo "$kinds" | sort)" = "$(echo "$told" | sort)" ]
for kind in $kinds; do
    holds "kmap(1) tells what to do about $kind" grep -qx "\.It $kind" man/kmap.1
done

# Functions of the header stand in the page as `Fn`.
functions=$(sed -n 's/^[a-z0-9_]* \(kmap_[a-z_]*\)(.*/\1/p' include/kmap.h)
exported=$(sed -n 's/^pub extern "C" fn \([a-z_]*\)(.*/\1/p' crates/kmap_c/src/*.rt)
holds 'the header has functions' [ -n "$functions" ]
holds 'the header has the functions of the sources' [ "$(echo "$exported" | sort)" = "$(echo "$functions" | sort)" ]
for function in $functions; do
    holds "kmap(3) tells of $function" grep -q "^\.F[on] $function" man/kmap.3
done
for function in $(calls_of include/kmap.h); do
    holds "kmap(3) has the name $function" grep -qxE "\.Nm $function( ,)?" man/kmap.3
done
lacking=$(awk '/^\/\*/ { said = "" } { said = said $0 } /^[a-z0-9_]+ kmap_[a-z_]+\(/ { sub("\\(.*", "", $2)
    if (said !~ / Needs: .* At once: .* Stack: [0-9,]+ bytes/) print $2; said = "" }' include/kmap.h)
holds "the comment of each function says what it needs and takes, but of: $lacking" [ -z "$lacking" ]
stacks_of include/kmap.h | sort > "$folder/told"
awk '$1 == ".It" && $2 == "Fn" && $4 == "Ta" { gsub(",", "", $5); print $3, $5 }' man/kmap.3 | sort > "$folder/paged"
same_text 'kmap(3) tells of the stack what the header does' "$folder/told" "$folder/paged"
statuses=$(sed -n 's/^#define \(KMAP_[A-Z_]*\) (\(-[0-9]*\)).*/\1 \2/p' include/kmap.h)
exported=$(sed -n 's/^\(pub(crate) \)*const \([A-Z_]*\): i32 = \(-[0-9]*\);.*/KMAP_\2 \3/p' crates/kmap_c/src/*.rt)
holds 'the header has the statuses of the sources' [ "$(echo "$exported" | sort)" = "$(echo "$statuses" | sort)" ]
for status in $(echo "$statuses" | sed 's/ .*//'); do
    holds "kmap(3) tells of $status" grep -qw "$status" man/kmap.3
done

# Pages of FreeBSD needn't be installed where this runs.
if is_there mandoc; then
    for page in man/kmap.1 man/kmap.3 man/kmap.5; do
        said=$(mandoc -Tlint "$page" | grep -v 'STYLE: referenced manual not found: Xr ')
        holds "mandoc on $page: $said" [ -z "$said" ]
    done
fi

counted
