# Completion of the arguments of psat, psat_ask and the scripts for bash. To use it: source this file, or install it by scripts/install.

# Offers the options that don't stand on the line yet.
_psat_options() {
    local option word
    COMPREPLY=()
    for option in "$@"; do
        [[ $option == "${COMP_WORDS[COMP_CWORD]}"* ]] || continue
        for word in "${COMP_WORDS[@]:1:COMP_CWORD-1}"; do [ "$word" = "$option" ] && continue 2; done
        COMPREPLY+=("$option")
    done
}

_psat() {
    local command=${COMP_WORDS[1]} before=${COMP_WORDS[COMP_CWORD-1]} now=${COMP_WORDS[COMP_CWORD]}
    COMPREPLY=()
    if [ "$COMP_CWORD" -eq 1 ]; then
        mapfile -t COMPREPLY < <(compgen -W 'solve explain check upgrade maxsat check-maxsat make' -- "$now")
    elif [ "$before" = --pivots ]; then
        [ "$command" = make ] || mapfile -t COMPREPLY < <(compgen -W enough -- "$now")
    elif [ "$before" = --conflicts ] || [ "$before" = --bytes ]; then
        :
    else
        case $command in
        solve | explain) _psat_options --pivots --conflicts ;;
        maxsat) _psat_options --conflicts ;;
        check | check-maxsat) _psat_options --bytes ;;
        make) [ "$COMP_CWORD" -eq 2 ] || _psat_options --pivots --conflicts ;;
        esac
    fi
}
complete -o default -F _psat psat

# Offers kinds of warnings behind those that the word names, with commas between them.
_psat_kinds() {
    local front=
    case $1 in *,*) front=${1%,*}, ;; esac
    mapfile -t COMPREPLY < <(compgen -P "$front" -W 'or interval twice name unstated condition' -- "${1##*,}")
}

# Offers the values of an option that stand behind its `=`.
_psat_behind() {
    case $1 in
    --no-warnings) _psat_kinds "$2" ;;
    --quiet) mapfile -t COMPREPLY < <(compgen -W exact -- "$2") ;;
    esac
}

_psat_ask() {
    local before=${COMP_WORDS[COMP_CWORD-1]} now=${COMP_WORDS[COMP_CWORD]}
    COMPREPLY=()
    if [ "$now" = = ]; then
        _psat_behind "$before" ''
        return
    fi
    case $before in
    =) _psat_behind "${COMP_WORDS[COMP_CWORD-2]}" "$now" ;;
    --report) [ -n "$now" ] || COMPREPLY=(-) ;;
    --digits | --pivots | --conflicts | --time-limit) ;;
    *)
        case $now in
        -*)
            _psat_options --digits --quiet --json --why --example --report --pivots --conflicts --time-limit --no-warnings --no-progress --help --version
            ;;
        esac
        ;;
    esac
}
complete -o default -F _psat_ask psat_ask

_psat_table() {
    COMPREPLY=()
    case ${COMP_WORDS[COMP_CWORD]} in -*) _psat_options --csv --help ;; esac
}
complete -o default -F _psat_table psat-table

_psat_page() {
    COMPREPLY=()
    case ${COMP_WORDS[COMP_CWORD]} in -*) _psat_options --answer --report --help ;; esac
}
complete -o default -F _psat_page psat-page

_psat_solve_all() {
    local before=${COMP_WORDS[COMP_CWORD-1]} now=${COMP_WORDS[COMP_CWORD]}
    COMPREPLY=()
    case $before in
    -j | -t) ;;
    -o) mapfile -t COMPREPLY < <(compgen -d -- "$now") ;;
    *) case $now in -*) _psat_options -a -j -o -p -t -c --help ;; esac ;;
    esac
}
complete -o default -F _psat_solve_all psat-solve-all
