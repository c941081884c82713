#!/usr/bin/env bash
# Campaigns of generated loops that a flip makes long: by 1, 2 and 4 workers, each beside an audit, which runs every job by itself.
# usage: loops.sh PROGRAM [COUNT [BEFORE]]
# COUNT is the number of programs, and BEFORE another build of the program, whose files and outputs must be the same.
set -u
. "$(dirname "$0")/../checks.sh"
program=$(realpath "$1") || exit 2
before=${3:+$(realpath "$3")} || exit 2
command -v python3 >/dev/null || { echo "skipped: loops needs python3"; exit 0; }
exec timeout 3600 python3 -B "$tests/loops.py" "$program" ${2:+"$2"} ${before:+"$before"}
