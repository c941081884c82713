#!/usr/bin/env bash
# Campaigns of generated programs that run through hundreds of cycles, so that injected runs meet: by 1, 2, 4 and 16 workers, stopped and
# killed, each beside an audit, which runs every job by itself, and some beside `brute`.
# usage: meeting.sh PROGRAM [BEFORE]
# BEFORE is another build of the program, whose files and outputs must be the same.
set -u
. "$(dirname "$0")/../checks.sh"
program=$(realpath "$1") || exit 2
before=${2:+$(realpath "$2")} || exit 2
command -v python3 >/dev/null || { echo "skipped: meeting needs python3"; exit 0; }
exec timeout 600 python3 -B "$tests/meeting.py" "$program" ${before:+"$before"}
