#!/usr/bin/env bash
# Two builds of the program beside each other, before and after a change: times, memory and machine instructions, in ratios.
# usage: compare.sh BEFORE AFTER [ROUNDS [NAME]]
exec python3 -B "$(dirname "$0")/compare.py" "$@"
