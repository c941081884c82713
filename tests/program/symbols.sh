#!/usr/bin/env bash
# Generated symbol tables, hostile ones among them: the program and a second reading must write and end alike.
# usage: symbols.sh PROGRAM
set -u
. "$(dirname "$0")/../checks.sh"
program=$(realpath "$1") || exit 2
command -v python3 >/dev/null || { echo "skipped: symbols needs python3"; exit 0; }
exec python3 -B "$tests/symbols.py" "$program"
