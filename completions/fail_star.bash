# bash completion for fail_star: commands, files, options, and their fixed words.

_fail_star() {
    local word=${COMP_WORDS[COMP_CWORD]} before=${COMP_WORDS[COMP_CWORD - 1]} command=${COMP_WORDS[1]:-}
    local files=0 options='' formats='' map='--rom --ram --limit' flags='--pc --ram-code'
    COMPREPLY=()
    case $command in
        run) files=2 options="$map --workers --page --stop-after --shard --fresh $flags --format" formats='text json' ;;
        report) files=2 options="$map $flags --format" formats='text json csv' ;;
        merge) files=3 options="$map --page $flags --format" formats='text json' ;;
        audit | symbols) files=2 options="$map $flags" ;;
        brute) files=1 options="$map $flags --format" formats='text json' ;;
        plan) files=1 options="$map $flags --format" formats='text csv' ;;
        trace) files=1 options="$map --ram-code" ;;
        sample) files=1 options="$map --count --seed --live $flags" ;;
        demo) options='--seed --blocks' ;;
    esac
    if [ "$COMP_CWORD" -eq 1 ]; then
        mapfile -t COMPREPLY < <(compgen -W 'run report audit brute plan trace sample merge symbols demo' -- "$word")
    elif [ -z "$options" ]; then
        return
    elif [ "$COMP_CWORD" -le $((1 + files)) ]; then
        compopt -o filenames 2>/dev/null
        mapfile -t COMPREPLY < <(compgen -f -- "$word")
    elif [ "$before" = --format ]; then
        mapfile -t COMPREPLY < <(compgen -W "$formats" -- "$word")
    elif [[ $before != --?* || " --fresh --live $flags " = *" $before "* || $COMP_CWORD -eq $((2 + files)) ]]; then
        mapfile -t COMPREPLY < <(compgen -W "$options" -- "$word")
    fi
}
complete -F _fail_star fail_star
