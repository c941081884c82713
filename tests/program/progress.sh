#!/usr/bin/env bash
# The line of progress on a terminal, which is a pseudo-terminal here: what it says, that it is erased, and that there is none elsewhere.
# usage: progress.sh PROGRAM
set -u
. "$(dirname "$0")/../checks.sh"
program=$(realpath "$1") || exit 2
command -v python3 >/dev/null || { echo "skipped: progress needs python3"; exit 0; }
exec python3 -B "$tests/progress.py" "$program"
