#!/usr/bin/env bash
# Gives Slurm a job array of the parts that are not done, and a merge that waits for their end, whatever that is. FOLDER is one that all
# nodes share. Its merge.log then has the report, or what is missing; give the same command again, and only that runs.
# With AT_ONCE=K at most K parts run at the same time.
# usage: [AT_ONCE=K] submit.sh IMAGE N FOLDER [OPTION..]
set -eu
here=$(dirname "$(realpath "$0")")
. "$here/campaign.sh"
campaign "$@"
at_once=${AT_ONCE:-}
[ -z "$at_once" ] || [[ $at_once =~ ^[1-9][0-9]{0,4}$ ]] || refuse "AT_ONCE=$at_once: expected a number of shards"
export FAIL_STAR=$program FAIL_WINDOW=$window SPLIT=$split
words=("$image" "$shards" "$folder" "${running[@]}")

# ranges: of ascending numbers, one a line, as --array takes them: 1-3,7.
ranges() {
    awk 'function put() { printf "%s%s%s", comma, first, (last > first ? "-" last : ""); comma = "," }
        NR > 1 && $1 == last + 1 { last = $1; next }
        NR > 1 { put() }
        { first = last = $1 }
        END { if (NR > 0) put() }'
}

# In names of logs a % of FOLDER's own is written twice.
logs=${folder//%/%%}
after=()
open=$(open_shards | ranges)
if [ -n "$open" ]; then
    array=$(sbatch --parsable --array="$open${at_once:+%$at_once}" --cpus-per-task="$workers" \
        --output="$logs/%a-of-$shards.log" "$here/job.sbatch" "$here/shard.sh" "${words[@]}")
    array=${array%%;*}
    [ "$split" = shards ] && echo "array $array: shards $open" || echo "array $array: parts $open"
    after=(--dependency="afterany:$array")
fi
merge=$(sbatch --parsable "${after[@]}" --output="$logs/merge.log" "$here/job.sbatch" "$here/merge.sh" "${words[@]}")
echo "merge ${merge%%;*}: $folder/merge.log"
