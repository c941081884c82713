# bash completion for fail_answers: files, options, and their fixed words.

_fail_answers() {
    local word=${COMP_WORDS[COMP_CWORD]} before=${COMP_WORDS[COMP_CWORD - 1]}
    local first
    COMPREPLY=()
    if [ "$COMP_CWORD" -le 2 ]; then
        compopt -o filenames 2>/dev/null
        mapfile -t COMPREPLY < <(compgen -f -- "$word")
    elif [ "$before" = --outcome ]; then
        # The words before the last comma stay.
        first=${word%"${word##*,}"}
        mapfile -t COMPREPLY < <(compgen -P "$first" -W 'silent detected illegal address misaligned timeout no-effect' -- "${word##*,}")
    elif [[ $before != --?* || ' --pc --ram-code ' = *" $before "* || $COMP_CWORD -eq 3 ]]; then
        mapfile -t COMPREPLY < <(compgen -W '--outcome --workers --rom --ram --limit --pc --ram-code' -- "$word")
    fi
}
complete -F _fail_answers fail_answers
