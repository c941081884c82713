#!/usr/bin/env bash
# A campaign in sixteen shards: merged in ten random orders, with repeats, they are the whole each time; and what is missing is told.
# usage: shards.sh PROGRAM [SEED]
set -u
. "$(dirname "$0")/../checks.sh"
program=$(realpath "$1") || exit 2
seed=${2:-$RANDOM}
image=$top/examples/built/checksum.elf
folder=$(mktemp -d) || exit 2
trap 'rm -rf "$folder"' EXIT
cd "$folder" || exit 2
RANDOM=$seed
echo "seed $seed"

shards=16
orders=10
regions=(--rom 0x20000000:2048 --ram 0x80000000:64)

# star COMMAND WORD..: the program on the image, whose texts are in out.txt and err.txt.
star() { timeout 120 "$program" "$1" "$image" "${@:2}" "${regions[@]}" >out.txt 2>err.txt; }

star run whole.keep
check "the campaign in one" "$([ $? -eq 0 ] && [ ! -s err.txt ] && echo yes)"
cp out.txt whole.txt
star report whole.keep --format csv
cp out.txt whole.csv
jobs=$(($(wc -l <whole.csv) - 1))

# Each shard stops behind its own jobs, whose numbers leave its number over sixteen, and its file has no other.
sum=0
for i in $(seq $shards); do
    star run "$i.keep" --shard "$i/$shards" --workers $((i % 3 + 1))
    status=$?
    share=$(((jobs + shards - i) / shards))
    sum=$((sum + share))
    check "shard $i" "$([ $status -eq 7 ] && [ "$(cat err.txt)" = "stopped: $share of $jobs jobs kept" ] && echo yes)"
done
check "all shards together" "$([ $sum -eq "$jobs" ] && echo yes)"

# in_order NUMBER..: the shards' files merged into a new one in this order, each of which is then in it.
in_order() {
    local number status kept=0 here last
    declare -A seen=()
    rm -f merged.keep
    for number in "$@"; do
        star merge merged.keep "$number.keep"
        status=$?
        [ -n "${seen[$number]:-}" ] || kept=$((kept + (jobs + shards - number) / shards))
        seen[$number]=yes
        if [ $kept -lt "$jobs" ]; then
            [ $status -eq 7 ] && [ "$(cat err.txt)" = "stopped: $kept of $jobs jobs kept" ] || { echo "behind $number: $status, $(cat err.txt)"; return; }
        else
            [ $status -eq 0 ] && cmp -s out.txt whole.txt || { echo "behind the last, $number: $status, $(cat out.txt err.txt)"; return; }
        fi
    done
    star report merged.keep --format csv
    cmp -s out.txt whole.csv || { echo 'other outcomes'; return; }
    here=$(md5sum <merged.keep)
    star merge merged.keep merged.keep
    [ $? -eq 0 ] && cmp -s out.txt whole.txt || { echo 'merged with itself'; return; }
    last=$(md5sum <merged.keep)
    [ "$here" = "$last" ] && echo yes
}

for round in $(seq $orders); do
    order=($(for i in $(seq $shards); do echo "$RANDOM $i"; [ $((RANDOM % 3)) -gt 0 ] || echo "$RANDOM $i"; done | sort -n | cut -d ' ' -f 2))
    check "order $round: ${order[*]}" "$(in_order "${order[@]}")"
done

# A file of another case is refused as it is when opened, and changes nothing; and so does one that disagrees.
cp 1.keep kept.keep
timeout 120 "$program" run "$image" other.keep "${regions[@]}" --limit 5000 --shard 2/16 >/dev/null 2>&1
star merge kept.keep other.keep
check "a file of another case" "$([ $? -eq 10 ] && grep -q '^other campaign file refused: 6 OtherCase at ' err.txt && cmp -s kept.keep 1.keep && echo yes)"
star merge kept.keep none.keep
check "no such file" "$([ $? -eq 11 ] && [ "$(cat err.txt)" = 'other campaign file could not be read' ] && cmp -s kept.keep 1.keep && echo yes)"
star merge kept.keep kept.keep.part
check "nor such a part" "$([ $? -eq 11 ] && cmp -s kept.keep 1.keep && echo yes)"

echo "$passed passed, $failed failed"
[ "$failed" -eq 0 ]
