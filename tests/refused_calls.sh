#!/bin/sh
# Makes each call of the module `calls` of crates/tests with each of its own allocations refused in turn, alone and
# together with all later ones: it answers that memory was refused, and leaves alone what it must. With ample memory it
# never answers so.
#
# It also looks whether each exported function of the libraries that takes an allocator is called there, itself: that
# it can be called through another one shows nothing of what it answers.
#
# usage: refused_calls.sh PROGRAM
# PROGRAM has the tests of that crate, of which one makes the call that is named behind it, and tells of what that left
# alone. The last line is 'N passed, M failed'; the status is 0 where none failed. It needs the C compiler that CC names,
# cc unless it is set.

program=${1:-crates/tests/out/tests_tests}
tests=$(dirname "$0")
. "$tests/shared.sh"
folder=$(mktemp -d) || exit 1
trap 'rm -rf "$folder"' EXIT

if ! command -v "${CC:-cc}" > /dev/null; then
    holds "there is no C compiler ${CC:-cc}, so no allocation can be refused; set CC" false
    counted
    exit 1
fi
"${CC:-cc}" -shared -fPIC -O1 -o "$folder/refuse.so" "$tests/refuse.c" -ldl || exit 1

# the test that makes calls, and what a test that ended well prints behind its own lines
test=$("$program" --list | sed -n 's/^\(.*calls::answers\): test$/\1/p')
ends='

test result: ok'

# Where it isn't empty, all later allocations are refused too.
rest=

# lines: how many lines standard input has. The shell counts them by itself, as each of thousands of processes that count
# would take as long as a call.
lines() {
    number_of_lines=0
    while IFS= read -r line; do
        number_of_lines=$((number_of_lines + 1))
    done
}

# answered CALL NUMBER: what the call answers with this one of its own allocations refused, where it has that many, and
# how many it has; unless it ends well, its status is told behind the answer
answered() {
    : > "$folder/count"
    if [ -n "$rest" ]; then export REFUSE_REST=1; else unset REFUSE_REST; fi
    got=$(ALLOCATIONS="$folder/count" MARKED=1 REFUSE="$2" LD_PRELOAD="$folder/refuse.so" \
        "$program" "$test" "$1" 2> "$folder/marks") || got="$got, status $?"
    got=${got%"$ends"}
    lines < "$folder/marks"
    [ $number_of_lines -eq 2 ] || got="$got, $number_of_lines marks"
    IFS= read -r count < "$folder/count" || count=
}

# answers CALL NUMBER WANTED [OTHER]: it answers so, or as the other
answers() {
    answered "$1" "$2"
    holds "$1 with allocation $2 refused${rest:+ and all later ones}: '$got' in place of '$3'" \
        test "$got" = "$3" -o "$got" = "${4:-$3}"
}

# refuses CALL [ANSWER [OTHER]]: the call answers so with ample memory, ok unless it is given; and memory where it is
# refused, or else, where that is alone, the other
refuses() {
    rest=
    answers "$1" 0 "${2:-ok}"
    all=${count:-0}
    holds "$1 takes no memory" test "$all" -gt 0
    number=1
    while [ $number -le "$all" ]; do
        rest=
        answers "$1" $number memory "${3:-memory}"
        rest=yes
        answers "$1" $number memory
        number=$((number + 1))
    done
}

# yields CALL [ANSWER]: the same of a call that may do with less where a vector or a hash map would have grown
yields() {
    refuses "$1" "${2:-ok}" "${2:-ok}"
}

# takes_none CALL ANSWER: the call answers so, and takes no memory that could be refused
takes_none() {
    rest=
    answers "$1" 1 "$2"
    holds "$1 takes memory" test "$count" = 0
}

refuses KeyMap::new
refuses KeyMap::try_clone
refuses read_up_to
refuses read_map
refuses read_map-faulty fault
refuses MapReader::new
refuses read_from
refuses read_from-faulty fault
refuses definitions
refuses TextLines::new
refuses read_tables
refuses read_tables-faulty fault
takes_none read_tables-short fault
takes_none read_tables-long fault
refuses read_tables_from
refuses read_narrow
refuses read_narrow-faulty fault
takes_none read_narrow-long fault
refuses read_narrow_from
refuses replay-plain
refuses replay-word
refuses sticking
refuses sticking_between
refuses has_few_states
yields few_states
refuses sights_of
yields some_sights
refuses meet_all
refuses sights_in
refuses go_out
refuses Explorer::new
refuses Explorer::sights
refuses Explorer::visit
refuses Explorer::events_to
refuses Explorer::events_home
refuses find_onward
refuses scroll_off
yields type_characters
yields ways_of
refuses Typist::new
yields yield_of
yields cover_of
refuses Seen::new
refuses cells
refuses lock_settings
refuses allowed_sights
yields keyboard_cover_of
yields differences
refuses telling_apart
yields consequences_of
yields diagnostics
refuses diagnostics-faulty fault
yields remarks
yields remarks_text
yields push_remark
yields rows-text
yields rows-coloured
yields rows-github
yields rows-json
yields rows-sarif
yields end-sarif
yields ranges
yields accents
yields shown_name
yields word
yields first_shown
yields all_chars
yields same_text
yields cover_text
yields keyboard_text
yields diff_text
yields brief_text
yields verdict_words
yields consequence_lines
yields change_lines
refuses format
yields picture
yields picture_of_change
yields ChangeLine::new
refuses filled
refuses read_script
refuses read_whole
yields in_form
refuses play-lines
refuses play-typed
refuses play_next-lines
refuses play_next-typed
yields type_sentence
refuses check_run
refuses check_run-shown
yields check_brief_run
refuses search_run
refuses search_run-next
yields diff_run
refuses dump_run
refuses dump_narrow_run
refuses compile_run
refuses compile_narrow_run
yields draw_run
yields draw_change_run
yields lint_run
refuses fmt_run
refuses fmt_print_run
yields type_run
yields type_words_run
yields type_sheet_run
yields missing_run
yields cover_run
yields keyboard_cover_run
yields file_error_line

# The calls that the module knows are those above; between its marks it calls what they are named by, and that is each
# exported function that takes memory.
calls=$tests/../crates/tests/src/calls
sed -n 's/^        "\([A-Za-z_:-]*\)" => .*/\1/p' "$calls"/*.rt | sort > "$folder/known"
sed -n 's/^\(refuses\|yields\|takes_none\) \([A-Za-z_:-]*\).*/\2/p' "$0" | sort > "$folder/made"
same_text 'each call of the module is made here' "$folder/known" "$folder/made"
sed 's/-.*//' "$folder/known" | sort -u > "$folder/called"
python3 "$tests/takes_memory.py" | sort > "$folder/exported"
same_text 'each exported function that takes memory is called' "$folder/exported" "$folder/called"
# a method is called on a value
sed -n '/mark(marks);/{n;s/^ *let given = \([A-Za-z_:.]*\)(.*/\1/p;}' "$calls"/*.rt |
    sed 's/.*[.:]//' | sort -u > "$folder/between"
sed 's/.*://' "$folder/called" | sort -u > "$folder/names"
same_text 'what is called between the marks is what the calls are named by' "$folder/names" "$folder/between"

counted
