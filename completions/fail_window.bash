# bash completion for fail_window: files, options, and their fixed words.

_fail_window() {
    local word=${COMP_WORDS[COMP_CWORD]} before=${COMP_WORDS[COMP_CWORD - 1]}
    local part='--cycles --code --function' more='--rom --ram --limit --workers --page --stop-after --pc --ram-code --format'
    COMPREPLY=()
    if [ "$COMP_CWORD" -le 2 ]; then
        compopt -o filenames 2>/dev/null
        mapfile -t COMPREPLY < <(compgen -f -- "$word")
    elif [ "$before" = --format ]; then
        mapfile -t COMPREPLY < <(compgen -W 'text json' -- "$word")
    elif [[ $before != --?* || ' --pc --ram-code ' = *" $before "* || $COMP_CWORD -eq 3 ]]; then
        mapfile -t COMPREPLY < <(compgen -W "$part $more" -- "$word")
    fi
}
complete -F _fail_window fail_window
