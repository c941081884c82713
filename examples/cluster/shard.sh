#!/usr/bin/env bash
# Runs part I of N, or goes on with it: in FOLDER/cycles-I-of-N.part, which becomes FOLDER/cycles-I-of-N.keep once all its jobs are kept.
# With SPLIT=shards it is shard I of N, in FOLDER/I-of-N.part and FOLDER/I-of-N.keep.
# I counts from 1; or, with FIRST=0, from 0, as Kubernetes and AWS Batch count the parts of a job.
# usage: [FIRST=0] shard.sh I IMAGE N FOLDER [OPTION..]
set -eu
. "$(dirname "$0")/campaign.sh"
[ $# -gt 0 ] || refuse "expected a shard's number"
first=${FIRST:-1}
[[ $first =~ ^[01]$ ]] || refuse "FIRST=$first: expected 0 or 1"
index=$1
campaign "${@:2}"
last=$((first + shards - 1))
[[ $index =~ ^(0|[1-9][0-9]{0,4})$ ]] && [ "$index" -ge "$first" ] && [ "$index" -le "$last" ] \
    || refuse "$index: expected a shard's number, $first to $last"
number=$((index - first + 1))
part=$(part_file "$number")
kept=$(done_file "$number")

# fails FILE: the end, for a file that the program refused.
fails() {
    echo "$(called "$number"): $1: status $status: $said" >&2
    case $said in
    *OtherCase*) echo "The image or an option is another one than that of this file: use another FOLDER." >&2 ;;
    esac
    exit $status
}

if [ "$split" = cycles ]; then
    counted
    cycles_of "$number"
    [ "$start" -lt "$end" ] || exit 0
fi

# Status 7 says that only jobs of other parts are missing.
if [ -e "$kept" ]; then
    try report "$image" "$kept" "${asking[@]}"
    case $status in 0 | 7) exit 0 ;; *) fails "$kept" ;; esac
fi
if [ "$split" = cycles ]; then
    try_on "$part" window "$image" "$part" "--cycles=$start..$end" "${running[@]}"
    [ $status -ne 7 ] || fails "$part"
else
    try_on "$part" run "$image" "$part" "--shard=$number/$shards" "${running[@]}"
fi
case $status in 0 | 7) mv -- "$part" "$kept" ;; *) fails "$part" ;; esac
