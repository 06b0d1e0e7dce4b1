# Completions of kmap for bash: the words of each command as its help lists them, and files in all other places.

# _kmap_words COMMAND: the words that stand after a command, or after the name of the program where it is empty
_kmap_words() {
    case $1 in
    '') echo 'check search diff lint fmt play type cover compile dump draw help -h --help -V --version' ;;
    check) echo '--show --brief -h --help' ;;
    search) echo '--next -h --help' ;;
    diff) echo '--brief -h --help' ;;
    lint) echo '--strict --name --format --quiet --color -h --help' ;;
    fmt) echo '--check --print --quote -h --help' ;;
    play) echo '--typed --next -h --help' ;;
    type) echo '--text --missing --words --all --as --board -h --help' ;;
    cover) echo '--keyboard --press --as -h --help' ;;
    compile) echo '--narrow -h --help' ;;
    dump) echo '--narrow -h --help' ;;
    draw) echo '--ansi --title --old -h --help' ;;
    help) echo 'check search diff lint fmt play type cover compile dump draw help' ;;
    esac
}

_kmap() {
    local word=${COMP_WORDS[COMP_CWORD]} command=
    if ((COMP_CWORD > 1)); then
        command=${COMP_WORDS[1]}
    fi
    COMPREPLY=()
    if [[ $word == -* || -z $command || $command == help ]]; then
        COMPREPLY=($(compgen -W "$(_kmap_words "$command")" -- "$word"))
    fi
    # Where no file can stand, none is offered.
    if [[ -z $command || $command == help ]]; then
        compopt +o default 2> /dev/null
    fi
}

complete -o default -F _kmap kmap
