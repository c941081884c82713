#!/usr/bin/env bash
# Merges the parts that are there, done or not, into FOLDER/whole.keep. Once that has all jobs, it prints the report; until then it says
# which parts are missing, and ends with status 7. Give it again whenever there is more; what is merged is not merged again.
# usage: merge.sh IMAGE N FOLDER [OPTION..]
set -eu
. "$(dirname "$0")/campaign.sh"
campaign "$@"

# ends: the end, but where jobs are missing yet.
ends() {
    case $status in
    0) printf '%s\n' "$said" ;;
    7) return ;;
    *) echo "$whole: status $status: $said" >&2 ;;
    esac
    exit $status
}

# file_of I: the file of a shard, or nothing.
file_of() {
    local file
    for file in "$(done_file "$1")" "$(part_file "$1")"; do
        [ ! -e "$file" ] || { echo "$file"; return; }
    done
}

try_on "$whole" report "$image" "$whole" "${asking[@]}"
ends
refused=()
for ((number = 1; number <= shards; number++)); do
    file=$(file_of "$number")
    [ -n "$file" ] || continue
    try merge "$image" "$whole" "$file" "${merging[@]}"
    case $status in
    10 | 11) refused[number]=$said ;;
    *) ends ;;
    esac
done

try report "$image" "$whole" "${asking[@]}"
ends
stopped=$said
jobs=$(sed -n 's/^stopped: [0-9]* of \([0-9]*\) jobs kept$/\1/p' <<<"$stopped")

# kept_in FILE: how many jobs it has, or the status of a file that is refused.
kept_in() {
    try report "$image" "$1" "${asking[@]}"
    kept=$(sed -n 's/^stopped: \([0-9]*\) of [0-9]* jobs kept$/\1/p' <<<"$said")
}

# left_of_shard: what is missing of a shard, whose jobs have a known number; left_of_cycles: of a range of cycles.
left_of_shard() {
    local share=$(((jobs + shards - number) / shards))
    if [ -z "$file" ]; then
        [ "$share" -eq 0 ] || echo "$(called "$number"): missing"
    else
        kept_in "$file"
        [ "${kept:-0}" -ge "$share" ] || echo "$(called "$number"): $file: ${kept:-status $status, none} of its $share jobs"
    fi
}
left_of_cycles() {
    if [ -z "$file" ]; then
        [ "$start" -eq "$end" ] || echo "$(called "$number"): missing"
    elif [ "$file" = "$(part_file "$number")" ]; then
        kept_in "$file"
        echo "$(called "$number"): $file: ${kept:-status $status, none} of its jobs, and not all"
    fi
}
[ "$split" = shards ] || counted
for ((number = 1; number <= shards; number++)); do
    file=$(file_of "$number")
    [ "$split" = shards ] || cycles_of "$number"
    if [ -n "${refused[number]:-}" ]; then
        echo "$(called "$number"): $file: ${refused[number]}"
    elif [ "$split" = shards ]; then
        left_of_shard
    else
        left_of_cycles
    fi
done >&2
echo "$stopped" >&2
exit 7
