# Sourced by the scripts that run a page's commands and compare all that each prints with what the page says.
# A block that begins with ```console holds commands, each in a line that begins with `$ `, with its output below. Of a block that
# begins with ```sh only lines `cd FOLDER` are carried out: the folder is that of the commands behind it.
# A script that sources this may have a function `unable`: whether $command needs what is not there, so that it is skipped.

passed=0
failed=0
command=
wanted=

unable() { false; }

# check: runs the command that was read and compares what it printed.
check() {
    [ -n "$command" ] || return
    if ! unable; then
        local got
        got=$(timeout 300 bash -c "$command" 2>&1 </dev/null)
        compare "$command" "${wanted%$'\n'}" "$got"
    fi
    command=
    wanted=
}

# compare WHAT WANTED GOT
compare() {
    if [ "$2" = "$3" ]; then
        passed=$((passed + 1))
    else
        failed=$((failed + 1))
        printf 'differs: %s\nwanted:\n%s\ngot:\n%s\n' "$1" "$2" "$3"
    fi
}

# run_page PAGE: all its commands, from the current folder.
run_page() {
    local block= line before=$((passed + failed))
    while IFS= read -r line; do
        case $block:$line in
        :'```console' | :'```sh') block=${line#'```'} ;;
        console:'```')
            check
            block=
            ;;
        sh:'```') block= ;;
        sh:'cd '*) cd "${line#cd }" || exit 2 ;;
        console:'$ '*)
            check
            command=${line#'$ '}
            ;;
        console:*) wanted+=$line$'\n' ;;
        esac
    done <"$1"
    [ $((passed + failed)) -gt "$before" ] || { failed=$((failed + 1)); echo "failed: no command in $1"; }
}

# finish: the last line, and the script's status.
finish() {
    echo "$passed passed, $failed failed"
    [ "$failed" -eq 0 ]
}
