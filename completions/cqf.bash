# Completes the words of cqf in bash.
# Made by build/completions.py from the program's table of commands; changes here are lost.

_cqf() {
    local IFS=$' \t\n' word=${COMP_WORDS[COMP_CWORD]} before='' own='' choices='' index option
    COMPREPLY=()
    ((COMP_CWORD > 0)) && before=${COMP_WORDS[COMP_CWORD - 1]}
    # --format=tc is three words here
    if [[ $word == '=' ]]; then
        word=''
    elif [[ $before == '=' ]]; then
        before=${COMP_WORDS[COMP_CWORD - 2]}
    fi
    if ((COMP_CWORD == 1)); then
        mapfile -t COMPREPLY < <(compgen -W 'plan load latency compile diff offers check run summary report hops deliveries port line help --help --version' -- "$word")
        return
    fi
    case ${COMP_WORDS[1]} in
    help)
        ((COMP_CWORD > 2)) || mapfile -t COMPREPLY < <(compgen -W 'plan load latency compile diff offers check run summary report hops deliveries port line' -- "$word")
        return
        ;;
    plan) own='--table --cycle --tries --best --without --verbose --large --help' ;;
    load) own='--streams --large --help' ;;
    latency) own='--strict --large --help' ;;
    compile) own='--format --bridge --software --edge-gates --large --help' ;;
    diff) own='-q --quiet --large --help' ;;
    offers) own='--cycles --seed --large --help' ;;
    check) own='--cycles --large --help' ;;
    run) own='--cycles --threads --large --help' ;;
    summary) own='--cycles --large --help' ;;
    report) own='--cycles --large --help' ;;
    hops) own='--cycles --stream --frame --large --help' ;;
    deliveries) own='--cycles --large --help' ;;
    port) own='--until --rate --help' ;;
    line) own='--cycles --help' ;;
    *) return ;;
    esac
    for ((index = 2; index < COMP_CWORD; index++)); do
        # all words after this one are files
        if [[ ${COMP_WORDS[index]} == -- ]]; then
            compopt -o default
            return
        fi
    done
    case $before in
    --format) choices='list tc env json' ;;
    --rate) choices='10 100 1000 2500 5000 10000 25000 40000 100000' ;;
    --cycle|--tries|--without|--bridge|--cycles|--seed|--stream|--frame|--until) return ;;
    esac
    if [[ $choices ]]; then
        mapfile -t COMPREPLY < <(compgen -W "$choices" -- "$word")
    elif [[ $word == -* ]]; then
        # each option is given once, unless it may be given again
        for option in $own; do
            [[ " ${COMP_WORDS[*]:2:COMP_CWORD-2} " == *" $option "* && ' --without ' != *" $option "* ]] || choices+=" $option"
        done
        mapfile -t COMPREPLY < <(compgen -W "$choices" -- "$word")
    else
        compopt -o default
    fi
}

complete -F _cqf cqf
