# Completion of jlsrec's words in bash.
_jlsrec() {
    local word=${COMP_WORDS[COMP_CWORD]} before=${COMP_WORDS[COMP_CWORD - 1]} command=
    ((COMP_CWORD < 2)) || command=${COMP_WORDS[1]}
    local options='--reasons --help'
    case $command in
    '')
        mapfile -t COMPREPLY < <(compgen -W 'record play code list index check verify replay help --help --version' -- "$word")
        return
        ;;
    help)
        mapfile -t COMPREPLY < <(compgen -W 'record play code list index check verify replay' -- "$word")
        return
        ;;
    record)
        options+=' --workers --queue --window --preset --into --replace --progress --report --index --times'
        options+=' --pieces --count --for --keep-open --sync'
        ;;
    play) options+=' --into --frames --salvage --index --workers' ;;
    verify) options+=' --frames --workers --strict' ;;
    list) options+=' --json' ;;
    index) options+=' --beside --no-sums --json' ;;
    code) options+=' --index' ;;
    check) options+=' --index --beside --frames --workers --strict --json' ;;
    replay) options+=' --sources --capacity' ;;
    esac
    case $before in
    --workers | --queue | --window | --sources | --capacity | --preset | --frames | --pieces | --count | --for | --sync) COMPREPLY=() ;;
    --into) mapfile -t COMPREPLY < <(compgen -d -- "$word") ;;
    *)
        if [[ $word == -* ]]; then
            mapfile -t COMPREPLY < <(compgen -W "$options" -- "$word")
        else
            mapfile -t COMPREPLY < <(compgen -f -- "$word")
        fi
        ;;
    esac
}
complete -o filenames -F _jlsrec jlsrec
