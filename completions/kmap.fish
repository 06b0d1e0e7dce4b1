# Completions of kmap for fish: the words of each command as its help lists them, and files in all other places.

# __kmap_after COMMAND: the words so far begin with this command; with no COMMAND, there is none so far
function __kmap_after
    set -l words (commandline -opc)
    if set -q argv[1]
        test (count $words) -ge 2; and test "$words[2]" = $argv[1]
    else
        test (count $words) -eq 1
    end
end

complete -c kmap -n '__kmap_after' -f
complete -c kmap -n '__kmap_after' -a check -d 'Accepts a keymap only if no key can leave a modifier on'
complete -c kmap -n '__kmap_after' -a search -d 'Decides whether key presses can leave a modifier on'
complete -c kmap -n '__kmap_after' -a diff -d 'Tells what differs between two keymaps, and whether anybody can notice'
complete -c kmap -n '__kmap_after' -a lint -d 'Tells what is wrong or doubtful in keymap texts, and where'
complete -c kmap -n '__kmap_after' -a fmt -d 'Writes keymap texts in one layout, and changes nothing else'
complete -c kmap -n '__kmap_after' -a play -d 'Prints what the console answers to a script of key presses'
complete -c kmap -n '__kmap_after' -a type -d 'Prints a script of key presses that types a sentence'
complete -c kmap -n '__kmap_after' -a cover -d 'Prints a script that tests a console with a keymap'
complete -c kmap -n '__kmap_after' -a compile -d 'Writes the table file of a keymap text'
complete -c kmap -n '__kmap_after' -a dump -d 'Prints a table file as keymap text'
complete -c kmap -n '__kmap_after' -a draw -d 'Draws keymaps as SVG pictures'
complete -c kmap -n '__kmap_after' -a help -d 'Print this message or the help of the given subcommand(s)'
complete -c kmap -n '__kmap_after' -s h -l help -d 'Print help'
complete -c kmap -n '__kmap_after' -s V -l version -d 'Print version'

complete -c kmap -n '__kmap_after check' -l show -d 'Also prints key presses that leave a modifier on, if found'
complete -c kmap -n '__kmap_after check' -l brief -d 'Prints one line a text, its name and the verdict'
complete -c kmap -n '__kmap_after check' -s h -l help -d 'Print help'

complete -c kmap -n '__kmap_after search' -l next -r -F -d 'The keymap text that a load puts in force'
complete -c kmap -n '__kmap_after search' -s h -l help -d 'Print help'

complete -c kmap -n '__kmap_after diff' -l brief -d 'Counts the slots and accents that differ, and prints no events'
complete -c kmap -n '__kmap_after diff' -s h -l help -d 'Print help'

complete -c kmap -n '__kmap_after lint' -l strict -d 'Counts warnings as errors'
complete -c kmap -n '__kmap_after lint' -l name -r -F -d 'The name that standard input is told under'
complete -c kmap -n '__kmap_after lint' -l format -x -a 'text github json sarif' -d 'How to print what is found'
complete -c kmap -n '__kmap_after lint' -l quiet -d 'Leaves the count of errors and warnings out'
complete -c kmap -n '__kmap_after lint' -l color -x -a 'auto always never' -d 'When to print in colours'
complete -c kmap -n '__kmap_after lint' -s h -l help -d 'Print help'

complete -c kmap -n '__kmap_after fmt' -l check -d 'Writes nothing, and fails where a text is not in the layout'
complete -c kmap -n '__kmap_after fmt' -l print -d 'Prints the texts in the layout instead'
complete -c kmap -n '__kmap_after fmt' -l quote -d 'Writes characters between apostrophes, where they are seen there'
complete -c kmap -n '__kmap_after fmt' -s h -l help -d 'Print help'

complete -c kmap -n '__kmap_after play' -l typed -d 'Prints the typed bytes instead'
complete -c kmap -n '__kmap_after play' -l next -r -F -d 'The keymap text that a load puts in force'
complete -c kmap -n '__kmap_after play' -s h -l help -d 'Print help'

complete -c kmap -n '__kmap_after type' -l text -x -d 'The sentence itself'
complete -c kmap -n '__kmap_after type' -l missing -d 'Prints the characters that no keys were found for instead'
complete -c kmap -n '__kmap_after type' -l words -d 'Prints in words by which keys each character is typed instead'
complete -c kmap -n '__kmap_after type' -l all -d 'Prints a way by each key that types it, not only the one taken'
complete -c kmap -n '__kmap_after type' -l as -x -a 'script evdev set1 qmp x11' -d 'The form of the script: script, evdev, set1, qmp or x11'
complete -c kmap -n '__kmap_after type' -l board -x -a '105 104' -d 'The board whose keys are taken: 105 or 104'
complete -c kmap -n '__kmap_after type' -s h -l help -d 'Print help'

complete -c kmap -n '__kmap_after cover' -l keyboard -d 'Tests by a board of 105 or 104 keys, in cases from rest to rest'
complete -c kmap -n '__kmap_after cover' -l press -x -d 'Actions that are pressed too, as boot,screens'
complete -c kmap -n '__kmap_after cover' -l as -x -a 'script evdev set1 qmp x11' -d 'The form of the script: script, evdev, set1, qmp or x11'
complete -c kmap -n '__kmap_after cover' -s h -l help -d 'Print help'

complete -c kmap -n '__kmap_after compile' -l narrow -d 'Writes a narrow file, one byte a character'
complete -c kmap -n '__kmap_after compile' -s h -l help -d 'Print help'

complete -c kmap -n '__kmap_after dump' -l narrow -d 'Reads a narrow file'
complete -c kmap -n '__kmap_after dump' -s h -l help -d 'Print help'

complete -c kmap -n '__kmap_after draw' -l ansi -d 'Draws a board of 104 keys in place of 105'
complete -c kmap -n '__kmap_after draw' -l title -x -d 'The name in the headline'
complete -c kmap -n '__kmap_after draw' -l old -r -F -d 'The keymap text, or -, since which changes are marked'
complete -c kmap -n '__kmap_after draw' -s h -l help -d 'Print help'

complete -c kmap -n '__kmap_after help' -f
complete -c kmap -n '__kmap_after help' -a check
complete -c kmap -n '__kmap_after help' -a search
complete -c kmap -n '__kmap_after help' -a diff
complete -c kmap -n '__kmap_after help' -a lint
complete -c kmap -n '__kmap_after help' -a fmt
complete -c kmap -n '__kmap_after help' -a play
complete -c kmap -n '__kmap_after help' -a type
complete -c kmap -n '__kmap_after help' -a cover
complete -c kmap -n '__kmap_after help' -a compile
complete -c kmap -n '__kmap_after help' -a dump
complete -c kmap -n '__kmap_after help' -a draw
complete -c kmap -n '__kmap_after help' -a help
