# Completion of florumeja for bash. Read it with: . completion/florumeja.bash
# shellcheck shell=bash

_florumeja_files() {
    mapfile -t COMPREPLY < <(compgen -f -- "$1")
    compopt -o filenames 2>/dev/null
}

_florumeja() {
    local word=${COMP_WORDS[COMP_CWORD]} before=${COMP_WORDS[COMP_CWORD - 1]}
    local commands='ask report find check build silence mend convert open' options
    COMPREPLY=()

    # The script of a checkout installs as well.
    case ${COMP_WORDS[0]} in */*) commands+=' install' ;; esac
    if ((COMP_CWORD == 1)); then
        mapfile -t COMPREPLY < <(compgen -W "$commands help --help --version" -- "$word")
        return
    fi
    # Bash takes --weights=FILE for three words.
    if [ "$word" = '=' ]; then
        word=''
    elif [ "$before" = '=' ]; then
        before=${COMP_WORDS[COMP_CWORD - 2]}
    fi
    case $before in
    --progress)
        mapfile -t COMPREPLY < <(compgen -W 'auto always never' -- "$word")
        return
        ;;
    -o | --output | --weights | --task | --to)
        _florumeja_files "$word"
        return
        ;;
    # Nobody but the one who asks knows the marks, or the shape.
    --marks | --bay) return ;;
    esac
    case ${COMP_WORDS[1]} in
    ask) options='--weights --task --progress --json --help' ;;
    report) options='--output --progress --json --help' ;;
    find | open) options='--output --partial --lean --progress --json --help' ;;
    build) options='--output --partial --lean --json --help' ;;
    check) options='--new --partial --lean --json --help' ;;
    silence) options='--marks --output --json --help' ;;
    mend) options='--bay --output --json --help' ;;
    convert) options='--output --weights --to --old --new --json --help' ;;
    install)
        _florumeja_files "$word"
        return
        ;;
    help)
        mapfile -t COMPREPLY < <(compgen -W "$commands" -- "$word")
        return
        ;;
    *) return ;;
    esac
    case $word in
    -*) mapfile -t COMPREPLY < <(compgen -W "$options" -- "$word") ;;
    *) _florumeja_files "$word" ;;
    esac
}

complete -F _florumeja florumeja ./florumeja
