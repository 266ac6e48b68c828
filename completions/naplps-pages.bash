# Completion of naplps-pages for bash. python3 -m dev.completions makes it of the commands.
_naplps_pages() {
    local word=${COMP_WORDS[COMP_CWORD]} before=${COMP_WORDS[COMP_CWORD - 1]} command='' words='' index
    local commands='box scan files find equal report check show fix list canon diff make'
    for ((index = 1; index < COMP_CWORD; index++)); do
        if [[ " $commands help " = *" ${COMP_WORDS[index]} "* ]]; then
            command=${COMP_WORDS[index]}
            break
        fi
    done
    case "$command $before" in
        # (what these are is for the user to say)
        *' -j' | *' --jobs' | *' --budget' | *' --timeout' | *' --max-size' | *' --shard' | *' --reason' | *' --kind' | *' --port' | *' --max-pictures' | *' --scale' | *' --baud' | *' --min-entries') return ;;
        'box --skip') mapfile -t COMPREPLY < <(compgen -W 'words repair carve' -- "$word") && return ;;
        'scan --skip') mapfile -t COMPREPLY < <(compgen -W 'words repair' -- "$word") && return ;;
        'equal --include') mapfile -t COMPREPLY < <(compgen -W 'treated guesses' -- "$word") && return ;;
        'equal --skip') mapfile -t COMPREPLY < <(compgen -W 'copies' -- "$word") && return ;;
        'show --format') mapfile -t COMPREPLY < <(compgen -W 'svg png apng html text words' -- "$word") && return ;;
        'fix --only') mapfile -t COMPREPLY < <(compgen -W 'repair split carve' -- "$word") && return ;;
        'diff --format') mapfile -t COMPREPLY < <(compgen -W 'text html' -- "$word") && return ;;
        'make --format') mapfile -t COMPREPLY < <(compgen -W 'page svg' -- "$word") && return ;;
        *' -o' | *' --output' | *' --dask' | *' --previous')
            compopt -o filenames
            mapfile -t COMPREPLY < <(compgen -f -- "$word")
            return
            ;;
    esac
    case $command in
        '') words="$commands help --help --version" ;;
        help) words=$commands ;;
        box) words='--output --skip --jobs --budget --timeout --help' ;;
        scan) words='--output --merge --force --jobs --dask --max-size --shard --rescan --skip --near --pictures --budget --timeout --help' ;;
        files) words='--refused --reason --kind --census --json --csv --print0 --help' ;;
        find) words='--json --csv --print0 --help' ;;
        equal) words='--nearly --pictures --include --skip --verify --json --csv --print0 --jobs --timeout --help' ;;
        report) words='--output --serve --force --port --max-pictures --jobs --timeout --help' ;;
        check) words='--explain --json --previous --budget --timeout --help' ;;
        show) words='--output --format --guess --scale --baud --json --previous --budget --timeout --help' ;;
        fix) words='--output --only --min-entries --json --budget --timeout --help' ;;
        list) words='--json --previous --budget --timeout --help' ;;
        canon) words='--output --json --csv --budget --timeout --help' ;;
        diff) words='--output --format --json --budget --timeout --help' ;;
        make) words='--output --from --format --budget --timeout --help' ;;
    esac
    if [[ -z $command || $command = help || $word = -* ]]; then
        mapfile -t COMPREPLY < <(compgen -W "$words" -- "$word")
    fi
    # (a file may stand in place of a command)
    if [[ $command != help && $word != -* && ${#COMPREPLY[@]} = 0 ]]; then
        compopt -o filenames
        mapfile -t COMPREPLY < <(compgen -f -- "$word")
    fi
}

complete -F _naplps_pages naplps-pages
