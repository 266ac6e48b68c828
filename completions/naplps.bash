# Completion of naplps for bash.
_naplps() {
    local word=${COMP_WORDS[COMP_CWORD]} before=${COMP_WORDS[COMP_CWORD - 1]} command='' words='' index
    for ((index = 1; index < COMP_CWORD; index++)); do
        case ${COMP_WORDS[index]} in
            list | check | canon | make | batch | help)
                command=${COMP_WORDS[index]}
                break
                ;;
        esac
    done
    case $command in
        '') words='list check canon make batch help --help --version' ;;
        help) words='list check canon make batch' ;;
        make) words='--stream --help' ;;
        batch) words='--help' ;;
        *)
            # (the number after --budget is for the user to say)
            if [[ $before != --budget && $before != = ]]; then words='--hex --budget --help'; fi
            if [[ $words && $command = canon ]]; then words="$words --stream"; fi
            ;;
    esac
    COMPREPLY=($(compgen -W "$words" -- "$word"))
}

complete -F _naplps naplps
