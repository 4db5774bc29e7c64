# Completions of bash for council-tools: source this file, or put it into
# ~/.local/share/bash-completion/completions/ under the name council-tools.
# Made by tools/tool_pages.py.
_council_tools() {
    local word=${COMP_WORDS[COMP_CWORD]} words=
    if [[ $COMP_CWORD -eq 1 ]]; then
        mapfile -t COMPREPLY < <(compgen -W "from-table table export page bars sweep compare --help --version" -- "$word")
        return
    fi
    case ${COMP_WORDS[1]}:${COMP_WORDS[COMP_CWORD - 1]} in
    from-table:--title) return ;;
    from-table:--source) return ;;
    from-table:--name) return ;;
    from-table:--weight) return ;;
    from-table:--ways) return ;;
    from-table:--heading) return ;;
    from-table:--rows) return ;;
    from-table:--drop) return ;;
    from-table:--member) return ;;
    from-table:--only) return ;;
    from-table:--of) return ;;
    from-table:--round) words="0 1 2 3 4 5 6 7 8 9 10 11 12" ;;
    from-table:--blank) words="0" ;;
    from-table:--decimal) words=". ," ;;
    from-table:--encoding) return ;;
    table:--index) words="deegan-packel public-good banzhaf penrose shapley-shubik power-to-prevent power-to-initiate" ;;
    export:--index) words="deegan-packel public-good banzhaf penrose shapley-shubik power-to-prevent power-to-initiate" ;;
    export:--columns) return ;;
    export:--decimals) words="1 2 3 4 5 6 7 8 9 10 11 12 13 14 15 16 17 18 19 20 21 22 23 24 25 26 27 28 29 30" ;;
    export:--decimal) words=". ," ;;
    export:export) words="csv json latex markdown" ;;
    page:--index) words="deegan-packel public-good banzhaf penrose shapley-shubik power-to-prevent power-to-initiate" ;;
    page:--source) return ;;
    bars:--index) words="deegan-packel public-good banzhaf penrose shapley-shubik power-to-prevent power-to-initiate" ;;
    bars:--decimals) words="1 2 3 4 5 6 7 8 9 10 11 12" ;;
    sweep:--rule) return ;;
    sweep:--from) return ;;
    sweep:--to) return ;;
    sweep:--step) return ;;
    sweep:--index) words="deegan-packel public-good banzhaf penrose shapley-shubik power-to-prevent power-to-initiate" ;;
    sweep:--format) words="tsv csv latex" ;;
    compare:--same) return ;;
    compare:--index) words="deegan-packel public-good banzhaf penrose shapley-shubik power-to-prevent power-to-initiate" ;;
    compare:--format) words="text csv latex" ;;
    esac
    if [[ -z $words && $word == -* ]]; then
        case ${COMP_WORDS[1]} in
        from-table) words="--help --title --source --name --weight --ways --heading --no-heading --rows --drop --member --only --strict --all-rows --sum --of --round --blank --decimal --encoding --quiet" ;;
        table) words="--help --index" ;;
        export) words="--help --index --columns --decimals --decimal --game --mark" ;;
        page) words="--help --game --index --source --program" ;;
        bars) words="--help --index --decimals --game" ;;
        sweep) words="--help --rule --from --to --step --picture --index --all --format --program" ;;
        compare) words="--help --same --game --index --format" ;;
        esac
    fi
    if [[ -n $words ]]; then
        mapfile -t COMPREPLY < <(compgen -W "$words" -- "$word")
    else
        compopt -o filenames 2>/dev/null
        mapfile -t COMPREPLY < <(compgen -f -- "$word")
    fi
}
complete -F _council_tools council-tools
