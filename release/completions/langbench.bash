# The words of langbench, for bash.

_langbench_files() {
    compopt -o filenames 2>/dev/null
    mapfile -t COMPREPLY < <(compgen "$@" -- "$current")
}

_langbench() {
    local commands='check make serve' options='--lookahead' depths='1 2 3'
    local current=${COMP_WORDS[COMP_CWORD]} before=${COMP_WORDS[COMP_CWORD - 1]}
    local command=${COMP_WORDS[1]} operands=0 ended='' word
    COMPREPLY=()

    # bash cuts --lookahead=K into three words
    if [[ $before == "=" && ${COMP_WORDS[COMP_CWORD - 2]} == --lookahead ]]; then before=--lookahead; fi
    if [[ $current == "=" && $before == --lookahead ]]; then current=; fi

    if ((COMP_CWORD == 1)); then
        mapfile -t COMPREPLY < <(compgen -W "$commands" -- "$current")
        return
    fi
    for word in "${COMP_WORDS[@]:2:COMP_CWORD-2}"; do
        case $ended$word in
            --) ended=yes ;;
            --lookahead | = | [123]) ;;
            *) operands=$((operands + 1)) ;;
        esac
    done
    if [[ -z $ended && $before == --lookahead ]]; then
        mapfile -t COMPREPLY < <(compgen -W "$depths" -- "$current")
    elif [[ -z $ended && $current == -* ]]; then
        mapfile -t COMPREPLY < <(compgen -W "$options" -- "$current")
    elif ((operands == 0)); then
        _langbench_files -o plusdirs -f -X '!*.langium'
    elif [[ $command == serve && $current == /* ]]; then
        _langbench_files -f
    elif [[ $command == serve && -z $current ]]; then
        # files are named by their whole paths
        COMPREPLY=("$PWD/")
        compopt -o nospace 2>/dev/null
    fi
}

complete -F _langbench langbench
