# Sourced by the scripts of the folders here: where they are, and what counts their checks.

. "$(dirname "${BASH_SOURCE[0]}")/only_given.sh"

# The folder of the script, and the top folder of the repository.
tests=$(cd "$(dirname "$0")" && pwd) || exit 2
top=$(dirname "$(dirname "$tests")")
# What Python is told by the caller's environment changes how it ends where its output is full.
unset PYTHONUNBUFFERED
# Python code of any folder imports the second readings, and the programs that were counted by hand.
export PYTHONPATH=$top/tests/definitions:$top/tests/program

passed=0
failed=0

# check NAME HOLDS: counts a check, whose second word is 'yes' where it passed.
check() {
    if [ "$2" = yes ]; then
        passed=$((passed + 1))
    else
        failed=$((failed + 1))
        echo "failed: $1: $2"
    fi
}

# same NAME WANTED GOT: counts one comparison.
same() {
    [ "$3" = "$2" ] && set -- "$1" "$2" yes
    check "$1" "$3"
}

# shown FILE: what is compared of a text for errors. A script whose texts have more than it can know says it otherwise.
shown() { cat "$1"; }

# gives NAME STATUS OUT ERR WORD..: runs a command and compares its status and all that it wrote, in out.txt and err.txt.
gives() {
    local name=$1 wanted="status $2, out $3, err $4" got=0
    shift 4
    "$@" >out.txt 2>err.txt || got=$?
    same "$name" "$wanted" "status $got, out $(cat out.txt), err $(shown err.txt)"
}
