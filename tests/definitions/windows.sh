#!/usr/bin/env bash
# Parts of a run, by fail_window: of 300 generated programs the counts, rows, stops and refusals of random parts beside a second reading,
# and windows that tile the run, merged; and a part of an example that is killed at twenty random moments and continued.
# usage: windows.sh PROGRAM [WINDOW [SEED]]
# The seed makes the lengths of the runs; it is printed, so that a failure can be tried again.
set -u
. "$(dirname "$0")/../checks.sh"
program=$(realpath "$1") || exit 2
[ -n "${2:-}" ] || { echo "skipped: windows needs fail_window"; exit 0; }
window=$(realpath "$2") || exit 2
command -v python3 >/dev/null || { echo "skipped: windows needs python3"; exit 0; }
seed=${3:-$((RANDOM * 32768 + RANDOM))}
image=$top/examples/built/checksum.elf
options=(--rom 0x20000000:512 --ram 0x80000000:64 --limit 100000)
part=(--cycles 100..400 --page 100)
kills=20
most_runs=60
folder=$(mktemp -d) || exit 2
trap 'rm -rf "$folder"' EXIT
cd "$folder" || exit 2

# part KEEP OPTION..: the jobs of the part, for out.txt, err.txt and the status.
part() { timeout 60 "$window" "$image" "$1" "${options[@]}" "${part[@]}" "${@:2}" >out.txt 2>err.txt; }

start=$(date +%s%N)
part whole.keep
check 'an undisturbed call' "$([ $? -eq 0 ] && [ ! -s err.txt ] && [ "$(wc -l <out.txt)" -eq 10 ] && echo yes || cat err.txt)"
took=$((($(date +%s%N) - start) / 1000))
cp out.txt whole.txt
timeout 60 "$program" report "$image" whole.keep "${options[@]}" >out.txt 2>err.txt
[[ $(cat err.txt) =~ ^stopped:\ ([0-9]+)\ of\ ([0-9]+)\ jobs\ kept$ ]]
due=${BASH_REMATCH[1]:-0} jobs=${BASH_REMATCH[2]:-0}
check 'some jobs, and not all' "$([ "$due" -gt 0 ] && [ "$due" -lt "$jobs" ] && echo yes || cat err.txt)"

longest=$((took + 1000))
RANDOM=$seed
echo "seed $seed; an undisturbed call takes $((took / 1000)) ms"
killed=0 advanced=0 kept=0 strange=
for ((runs = 0; runs < most_runs && killed < kills; runs++)); do
    delay=$((RANDOM * longest / 32767 + 500))
    timeout --foreground --preserve-status -s KILL "$(printf '%d.%06d' $((delay / 1000000)) $((delay % 1000000)))" \
        "$window" "$image" killed.keep "${options[@]}" "${part[@]}" >out.txt 2>err.txt
    status=$?
    if [ $status -eq 0 ]; then
        cmp -s out.txt whole.txt || strange+=" other totals at run $runs;"
        rm killed.keep
        longest=$((longest * 3 / 4 + 1000))
        kept=0
        continue
    elif [ $status -ne 137 ]; then
        strange+=" status $status of run $runs, $(head -c 100 err.txt);"
        break
    fi
    killed=$((killed + 1))
    timeout 60 "$program" report "$image" killed.keep "${options[@]}" >out.txt 2>err.txt
    status=$?
    now=$(sed -n "s/^stopped: \([0-9]*\) of $jobs jobs kept$/\1/p" err.txt)
    if [ $status -eq 6 ] && [ "$kept" -eq 0 ] && [ "$(cat err.txt)" = 'campaign file refused: 1 NotACampaign' ]; then
        # The kill came while the file was begun.
        rm killed.keep
    elif [ $status -ne 7 ] || [ -z "$now" ] || [ "$now" -lt "$kept" ] || [ "$now" -gt "$due" ]; then
        strange+=" report's status $status after run $runs, ${now:-none} after $kept;"
        break
    else
        [ "$now" -gt "$kept" ] && advanced=$((advanced + 1))
        kept=$now
    fi
    longest=$((longest * 9 / 8))
done
echo "$killed killed: $advanced had kept jobs"
check 'kills' "$([ $killed -eq $kills ] && echo yes || echo "$killed kills")"
check 'some of them in the midst of the part' "$([ $advanced -gt 0 ] && echo yes)"
check 'each answer is one that a kill can cause' "$([ -z "$strange" ] && echo yes || echo "seed $seed:$strange")"
part killed.keep
check 'the part continued to its end' "$([ $? -eq 0 ] && cmp -s out.txt whole.txt && echo yes || cat err.txt)"
check 'its file' "$(cmp killed.keep whole.keep && echo yes)"
before=$(stat -c '%i %s %y %z' killed.keep)
part killed.keep
check 'once more, and nothing is written' "$([ $? -eq 0 ] && cmp -s out.txt whole.txt && [ "$(stat -c '%i %s %y %z' killed.keep)" = "$before" ] && echo yes)"
timeout 60 "$program" audit "$image" killed.keep "${options[@]}" >out.txt 2>err.txt
check 'an audit' "$([ $? -eq 0 ] && [ "$(cat out.txt)" = "kept $due wrong 0" ] && echo yes || cat out.txt err.txt)"

timeout 600 python3 -B "$tests/windows.py" "$window" "$program" >log.txt || failed=$((failed + 1))
grep -v '^[0-9]* passed' log.txt | head -n 60
read -r more _ less _ <<<"$(tail -n 1 log.txt | tr -d ,)"
passed=$((passed + ${more:-0})) failed=$((failed + ${less:-0}))
echo "$passed passed, $failed failed"
[ "$failed" -eq 0 ]
