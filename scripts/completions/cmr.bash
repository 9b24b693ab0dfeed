# Completions of cmr and cmr-large for bash: the tools, their options that are not on the line yet, and the value of an option.
# If nothing else is offered, names of files are. The file is made by scripts/tests/command_pages.py of the table of arguments.

_cmr_options()
{
    case $1 in
        large) printf '%s\n' -i --lines --pivots -w -E ;;
        tu) printf '%s\n' -i --lines --pivots -w -D -E ;;
        regular) printf '%s\n' -i --lines --pivots -w -D -E -M -C ;;
        series-parallel) printf '%s\n' -i -b -N -S -R ;;
        graphic | network) printf '%s\n' -i -t -N -G -c ;;
        generate) printf '%s\n' --lines --pivots -w -M ;;
        check | sign) printf '%s\n' -i ;;
        upgrade) printf '%s\n' -D ;;
        camion) printf '%s\n' -i -E ;;
        balanced) printf '%s\n' -i --lines --pivots -w -E ;;
        parts) printf '%s\n' -i -A -B ;;
        compose) printf '%s\n' -i -M ;;
    esac
}

_cmr_words()
{
    local word=${COMP_WORDS[COMP_CWORD]} before=${COMP_WORDS[COMP_CWORD - 1]} tool=${COMP_WORDS[1]} it
    [[ ${COMP_WORDS[0]} == *-large && $COMP_CWORD != 1 ]] && tool=large
    case "$COMP_CWORD $before" in
        "1 "*-large) echo tu ;;
        "1 "*) echo tu regular series-parallel graphic network generate check upgrade camion sign balanced parts compose ;;
        *" -i") echo dense sparse ;;
        *" --lines") echo {0..24} ;;
        *" --pivots") echo {0..100} ;;
        *" -w") echo {1..64} ;;
        *" -"[ABCDEGMNRS]) ;;
        *)
            if [[ $word == -* ]]; then
                for it in $(_cmr_options "$tool"); do
                    [[ " ${COMP_WORDS[*]:1:COMP_CWORD-1} " == *" $it "* ]] || printf '%s\n' "$it"
                done
            elif [[ "$COMP_CWORD $before" == "2 generate" ]]; then
                echo network twosum
            elif [[ "$COMP_CWORD $before" == "2 compose" ]]; then
                echo one two delta y mixed concentrated
            fi
            ;;
    esac
}

_cmr()
{
    mapfile -t COMPREPLY < <(compgen -W "$(_cmr_words)" -- "${COMP_WORDS[COMP_CWORD]}")
}

complete -o bashdefault -o default -F _cmr cmr cmr-explain cmr-large
