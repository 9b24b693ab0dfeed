# Completions of the commands beside cmr for bash, made by scripts/tests/command_pages.py of their parsers.
# Where nothing is offered, names of files are.

_cmr_command_options()
{
    case $1 in
        cmr-classify) printf '%s\n' -h --help --version --classes --format --jobs --output --resume --part --evidence --minors --lines --pivots --tries --support --time-limit --infer --picture --tables --dask --worker-program --block --program --no-batch ;;
        cmr-model) printf '%s\n' -h --help --version --html --relaxed --write-kept --write-relaxed --json --format --data --lines --pivots --questions --time-limit --clock-limit --no-solve --program ;;
        cmr-from-model) printf '%s\n' -h --help --version --format --rows --without --without-names --without-columns --unit-rows --scale --reduce --parts --data ;;
        cmr-names) printf '%s\n' -h --help --version --tree ;;
        cmr-graph-to-dot) printf '%s\n' -h --help --version --names --undirected --tree --rows-as-nodes --limit ;;
        cmr-tree-to-dot) printf '%s\n' -h --help --version --names --small --limit ;;
        cmr-named) printf '%s\n' -h --help --version --ternary --names ;;
        cmr-minor) printf '%s\n' -h --help --version -i -M --names --sage --lines --pivots --time-limit --program ;;
        cmr-edges-to-graph) printf '%s\n' -h --help --version --names ;;
    esac
}

_cmr_command_values()
{
    case "$1 $2" in
        "cmr-classify --format") echo dense sparse ;;
        "cmr-model --format") echo mps mathprog lp ;;
        "cmr-from-model --format") echo mps mathprog lp ;;
        "cmr-minor -i") echo dense sparse ;;
        "cmr-minor 1") echo tu regular graphic cographic network conetwork series-parallel binary-series-parallel check ;;
    esac
}

_cmr_command()
{
    local command=${COMP_WORDS[0]##*/} word=${COMP_WORDS[COMP_CWORD]} offered
    if [[ $word == -* ]]; then
        offered=$(_cmr_command_options "$command")
    else
        offered="$(_cmr_command_values "$command" "${COMP_WORDS[COMP_CWORD - 1]}")"
        [[ $offered ]] || offered=$(_cmr_command_values "$command" "$COMP_CWORD")
    fi
    mapfile -t COMPREPLY < <(compgen -W "$offered" -- "$word")
}

complete -o bashdefault -o default -F _cmr_command cmr-classify cmr-model cmr-from-model cmr-names cmr-graph-to-dot cmr-tree-to-dot cmr-named cmr-minor cmr-edges-to-graph
