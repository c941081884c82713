#!/usr/bin/env bash
# Generated programs, changed headers and lines of words: the program and the reference must write and end alike.
# usage: against_reference.sh PROGRAM
set -u
. "$(dirname "$0")/../checks.sh"
program=$(realpath "$1") || exit 2
command -v python3 >/dev/null || { echo "skipped: against_reference needs python3"; exit 0; }
exec python3 -B "$tests/against_reference.py" "$program"
