# Completions of bash for council: source this file, or put it into
# ~/.local/share/bash-completion/completions/ under the name council.
_council() {
    local word=${COMP_WORDS[COMP_CWORD]}
    case ${COMP_WORDS[COMP_CWORD - 1]} in
    --workers)
        mapfile -t COMPREPLY < <(compgen -W "$(echo {1..16})" -- "$word")
        return
        ;;
    --bits)
        mapfile -t COMPREPLY < <(compgen -W "$(echo {0..10})" -- "$word")
        return
        ;;
    --most | --room)
        return
        ;;
    esac
    if [[ $word == -* ]]; then
        mapfile -t COMPREPLY < <(compgen -W "--workers --bits --most --room --list --sizes --notation --tally --swings --only-swings --explain --help --version -h -V" -- "$word")
    else
        compopt -o filenames 2>/dev/null
        mapfile -t COMPREPLY < <(compgen -f -- "$word")
    fi
}
complete -F _council council ./council
