# bash completion for fail_debug: the image and options.

_fail_debug() {
    local word=${COMP_WORDS[COMP_CWORD]} before=${COMP_WORDS[COMP_CWORD - 1]}
    COMPREPLY=()
    if [ "$COMP_CWORD" -eq 1 ]; then
        compopt -o filenames 2>/dev/null
        mapfile -t COMPREPLY < <(compgen -f -- "$word")
    elif [[ $COMP_CWORD -gt 4 && ($before != --?* || ' --pc --ram-code ' = *" $before "*) ]]; then
        # After the three numbers of the site.
        mapfile -t COMPREPLY < <(compgen -W '--rom --ram --limit --pc --ram-code' -- "$word")
    fi
}
complete -F _fail_debug fail_debug
