# bash completion for fail_export: files and options.

_fail_export() {
    local word=${COMP_WORDS[COMP_CWORD]} before=${COMP_WORDS[COMP_CWORD - 1]}
    COMPREPLY=()
    if [ "$COMP_CWORD" -le 3 ]; then
        compopt -o filenames 2>/dev/null
        mapfile -t COMPREPLY < <(compgen -f -- "$word")
    elif [[ $before != --?* || ' --pc --ram-code ' = *" $before "* || $COMP_CWORD -eq 4 ]]; then
        mapfile -t COMPREPLY < <(compgen -W '--rom --ram --limit --pc --ram-code' -- "$word")
    fi
}
complete -F _fail_export fail_export
