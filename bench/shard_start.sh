#!/usr/bin/env bash
# What a shard costs before its first job, and what merging costs: tables of FIGURES.md.
# usage: shard_start.sh PROGRAM [MOST]
exec python3 -B "$(dirname "$0")/shard_start.py" "$@"
