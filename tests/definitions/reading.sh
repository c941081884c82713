#!/usr/bin/env bash
# How many lines of definitions one reads to believe the main clauses, and that docs/READING.md lists them.
# usage: reading.sh
set -u
. "$(dirname "$0")/../checks.sh"
command -v python3 >/dev/null || { echo "skipped: the reading list needs python3"; exit 0; }
exec python3 -B "$tests/reading.py"
