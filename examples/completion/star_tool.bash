# Completion of star_tool for bash: source this file, or put it into a folder of bash-completion.

# The names of the options of a verb, each a word.
_star_tool_options() {
    case $1 in
        reveal | openbook) echo "--epoch --workers" ;;
        make) echo "--epoch --thresholds --seed --version" ;;
        gen) echo "--number --reports --liars --workers" ;;
        expect) echo "--epoch --thresholds --seed" ;;
        book | merge | certify) echo "--epoch" ;;
        epochs) echo "--workers" ;;
    esac
}

_star_tool() {
    local word=${COMP_WORDS[COMP_CWORD]} last=${COMP_WORDS[COMP_CWORD - 1]} option words=
    COMPREPLY=()
    # bash splits --name=value at the =, which is then a word of its own
    if [ "$word" = "=" ]; then
        word=
    elif [ "$last" = "=" ]; then
        last=${COMP_WORDS[COMP_CWORD - 2]}
    fi
    if [ "$COMP_CWORD" -eq 1 ]; then
        mapfile -t COMPREPLY < <(compgen -W "check reveal make gen selftest expect book merge openbook certify audit epochs" -- "$word")
        return
    fi
    case $last in
        --version) words="1 2" ;;
        --workers) words="1 2 4 8 16 32 64" ;;
        --*) return ;;
        *)
            # an option comes once
            for option in $(_star_tool_options "${COMP_WORDS[1]}"); do
                case " ${COMP_WORDS[*]} " in
                    *" $option "* | *" $option="*) [ "$option" = "$word" ] && words+=" $option" ;;
                    *) words+=" $option" ;;
                esac
            done
            ;;
    esac
    mapfile -t COMPREPLY < <(compgen -W "$words" -- "$word")
}

complete -F _star_tool star_tool
