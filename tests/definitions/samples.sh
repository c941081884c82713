#!/usr/bin/env bash
# Samples of small programs: the program must write every line as a second reading of the draws and of the machine does.
# usage: samples.sh PROGRAM
set -u
. "$(dirname "$0")/../checks.sh"
program=$(realpath "$1") || exit 2
command -v python3 >/dev/null || { echo "skipped: samples needs python3"; exit 0; }
exec python3 -B "$tests/samples.py" "$program"
