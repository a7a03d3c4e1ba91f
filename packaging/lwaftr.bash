# Completion of lwaftr for bash.
_lwaftr() {
    local word=${COMP_WORDS[COMP_CWORD]} before=${COMP_WORDS[COMP_CWORD - 1]}
    COMPREPLY=()
    if [ "$COMP_CWORD" -eq 1 ]; then
        mapfile -t COMPREPLY < <(compgen -W 'run check who demo migrate help --help --version' -- "$word")
        return
    fi
    case ${COMP_WORDS[1]} in
    run)
        case $before in
        --workers)
            mapfile -t COMPREPLY < <(compgen -W '1 2 4 8 16' -- "$word")
            return
            ;;
        --errors) return ;;
        esac
        if [[ $word == -* ]]; then
            mapfile -t COMPREPLY < <(compgen -W '--workers --errors' -- "$word")
        else
            mapfile -t COMPREPLY < <(compgen -f -- "$word")
        fi
        ;;
    check | migrate)
        mapfile -t COMPREPLY < <(compgen -f -- "$word")
        ;;
    who)
        if [ "$COMP_CWORD" -eq 2 ]; then
            mapfile -t COMPREPLY < <(compgen -f -- "$word")
        fi
        ;;
    esac
}
complete -o filenames -F _lwaftr lwaftr
