#!/usr/bin/env bash
# Words and reports that were worked out by hand, against the assembler, the reference and the program.
# usage: known.sh PROGRAM
set -u
. "$(dirname "$0")/../checks.sh"
program=$(realpath "$1") || exit 2
command -v python3 >/dev/null || { echo "skipped: known needs python3"; exit 0; }
exec python3 -B "$tests/known.py" "$program"
