#!/usr/bin/env bash
# What fail_debug shows, by a client that was written from the GDB manual alone (debug_client.py): registers and memory at 500
# places of 50 sites, and the stops of 150 watchpoints, beside the second reading of the machine (debug_places.py), and streams of
# packets that a seed draws, whose answers must be those that the manual allows (debug_streams.py).
# usage: debug_places.sh PROGRAM DEBUG [SEED [STREAMS [SECONDS]]]
set -u
[ $# -ge 2 ] && [ -n "$2" ] || { echo "skipped: registers and memory in a debugger need fail_debug"; exit 0; }
debug=$(realpath "$2") || exit 2
. "$(dirname "$0")/../checks.sh"
command -v python3 >/dev/null || { echo "skipped: registers and memory in a debugger need python3"; exit 0; }
folder=$(mktemp -d) || exit 2
trap 'rm -rf "$folder"' EXIT
cd "$folder" || exit 2

# tried NAME LAST SCRIPT WORD..: a script's last line must match, and what it says before is shown.
tried() {
    local name=$1 last=$2
    shift 2
    python3 -B "$tests/$1" "$debug" "${@:2}" >out.txt 2>&1
    sed '$d' out.txt
    check "$name, $(tail -n 1 out.txt)" "$([[ $(tail -n 1 out.txt) =~ $last ]] && echo yes)"
}
tried 'registers, memory and watchpoints' '^50 sites, 500 places, 150 watchpoints and [1-9][0-9]* at the end of a run, 0 sites that differ$' debug_places.py "${@:3:1}"
tried 'streams of packets' ': 0 streams that differ$' debug_streams.py "${@:3}"

echo "$passed passed, $failed failed"
[ "$failed" -eq 0 ]
