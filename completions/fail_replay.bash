# bash completion for fail_replay: views, the image and options.

_fail_replay() {
    local word=${COMP_WORDS[COMP_CWORD]} before=${COMP_WORDS[COMP_CWORD - 1]} image=1
    COMPREPLY=()
    [[ $COMP_CWORD -gt 1 && ' --whole --brief ' = *" ${COMP_WORDS[1]} "* ]] && image=2
    if [[ $COMP_CWORD -eq 1 && $word = -* ]]; then
        mapfile -t COMPREPLY < <(compgen -W '--whole --brief' -- "$word")
    elif [ "$COMP_CWORD" -eq "$image" ]; then
        compopt -o filenames 2>/dev/null
        mapfile -t COMPREPLY < <(compgen -f -- "$word")
    elif [[ $COMP_CWORD -gt $((image + 3)) && ($before != --?* || ' --pc --ram-code ' = *" $before "*) ]]; then
        # Behind the three numbers of a site.
        mapfile -t COMPREPLY < <(compgen -W '--rom --ram --limit --pc --ram-code' -- "$word")
    fi
}
complete -F _fail_replay fail_replay
