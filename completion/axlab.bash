# Completion of the words of axlab, for bash.

_axlab() {
    local word=${COMP_WORDS[COMP_CWORD]}
    COMPREPLY=()
    case $COMP_CWORD in
        1)
            mapfile -t COMPREPLY < <(compgen -W 'match tournament drill' -- "$word")
            ;;
        2)
            case ${COMP_WORDS[1]} in
                match | tournament)
                    # Folders, and the labs in them.
                    compopt -o filenames 2>/dev/null
                    mapfile -t COMPREPLY < <(compgen -d -- "$word"; compgen -f -X '!*.toml' -- "$word")
                    ;;
            esac
            ;;
    esac
}

complete -F _axlab axlab
