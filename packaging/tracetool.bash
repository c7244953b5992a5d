# Completion of tracetool's words in bash: commands, the options of each, and files, which bash completes by itself.
_tracetool() {
    local word=${COMP_WORDS[COMP_CWORD]} command=${COMP_WORDS[1]} options='' option before='' given=' ' i
    COMPREPLY=()
    if [ "$COMP_CWORD" -eq 1 ]; then
        mapfile -t COMPREPLY < <(compgen -W 'verdict serial moves draw equal explain line help --help --version' -- "$word")
        return
    fi
    case $command in
        verdict | serial | moves | explain) options='--guards --help' ;;
        draw) options='--guards --from --to --help' ;;
        equal | line) options='--help' ;;
    esac
    # Bash takes --guards=LIST for three words, of which = is one.
    for ((i = 2; i < COMP_CWORD; i++)); do
        case ${COMP_WORDS[i]} in
            =) ;;
            --) options='' before='' ;;
            *) before=${COMP_WORDS[i]} given+="$before " ;;
        esac
    done
    [ "$word" != = ] || word=''
    case " $options $before" in
        *' --guards '*' --guards') return ;;
        *' --from '*' --from' | *' --to '*' --to') command=number ;;
    esac
    case $command in
        verdict | serial | moves | explain | draw | equal) ;;
        *) compopt +o default 2>/dev/null ;; # No file stands here.
    esac
    if [[ $word == -* && $command != number ]]; then
        for option in $options; do
            [[ $given == *" $option "* ]] || COMPREPLY+=("$option")
        done
        mapfile -t COMPREPLY < <(compgen -W "${COMPREPLY[*]}" -- "$word")
    fi
}
complete -o default -F _tracetool tracetool
