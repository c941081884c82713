#!/usr/bin/env bash
# Runs the parts that are not done by GNU parallel, and merges what is there then: on the processors of this machine, or, where HOSTS is a file
# for `parallel --sshloginfile`, on those hosts, where image, FOLDER, program and scripts have the same names as here.
# A shard that ends by an error, or whose host does not answer, is given again twice, to another host where there is one.
# usage: [HOSTS=FILE] parallel.sh IMAGE N FOLDER [OPTION..]
set -eu
here=$(dirname "$(realpath "$0")")
. "$here/campaign.sh"
campaign "$@"
export FAIL_STAR=$program FAIL_WINDOW=$window SPLIT=$split
hosts=()
[ -z "${HOSTS:-}" ] || hosts=(--sshloginfile "$(realpath -- "$HOSTS")" --env FAIL_STAR --env FAIL_WINDOW --env SPLIT)

# As many shards at once as have processors for all their workers.
open_shards | parallel --quote "${hosts[@]}" --jobs "$((100 / workers))%" --retries 3 \
    bash "$here/shard.sh" {} "$image" "$shards" "$folder" "${running[@]}" || echo "not all shards are done" >&2
exec bash "$here/merge.sh" "$image" "$shards" "$folder" "${running[@]}"
