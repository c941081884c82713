#!/usr/bin/env bash
# A campaign that is killed at fifty random moments and taken up again ends as one that nothing disturbed; and so does one whose file an
# older version wrote, with 3 for a trap of any kind.
# usage: kills.sh PROGRAM [SEED]
# The seed makes the lengths of the runs; it is printed, so that a failure can be tried again.
set -u
. "$(dirname "$0")/../checks.sh"
program=$(realpath "$1") || exit 2
seed=${2:-$((RANDOM * 32768 + RANDOM))}
image=$top/examples/built/checksum.elf
# Small regions make a short head of the file, and small pages many writes. A timeout costs the limit.
options=(--rom 0x20000000:512 --ram 0x80000000:64 --limit 100000)
paged=("${options[@]}" --page 100)
kills=50
most_runs=120
folder=$(mktemp -d) || exit 2
trap 'rm -rf "$folder"' EXIT
cd "$folder" || exit 2

# run KEEP OPTION..: a whole campaign, for out.txt, err.txt and its status.
run() { timeout 60 "$program" run "$image" "$1" "${paged[@]}" "${@:2}" >out.txt 2>err.txt; }

# ends NAME STATUS OUT ERR: compares the last command's status and all that it wrote, by the files of these names.
ends() {
    local got=$?
    cmp -s out.txt "$3" || got="$got, other standard output"
    cmp -s err.txt "$4" || got="$got, other standard error"
    [ "$got" = "$2" ] && got=yes
    check "$1" "$got"
}

# traces FILE: what a write to a file changes.
traces() { stat -c '%i %s %y %z' "$1" && cksum <"$1"; }

: >nothing.txt
start=$(date +%s%N)
run whole.keep
status=$?
took=$((($(date +%s%N) - start) / 1000))
check 'an undisturbed run' "$([ $status -eq 0 ] && cmp -s err.txt nothing.txt && [ "$(wc -l <out.txt)" -eq 9 ] && echo yes || cat err.txt)"
cp out.txt whole.txt

timeout 60 "$program" report "$image" killed.keep "${options[@]}" >out.txt 2>err.txt
status=$?
jobs=$(sed -n 's/^stopped: 0 of \([0-9]*\) jobs kept$/\1/p' err.txt)
check 'a report without a file' "$([ $status -eq 7 ] && [ -n "$jobs" ] && [ ! -e killed.keep ] && echo yes || echo "$status")"

# In microseconds, the longest time that a run has until it is killed. It grows where a run came to nothing, on a busy machine,
# and shrinks where one came to its end, so that most kills are in the midst of a campaign.
longest=$((took * 2 / 25 + 1000))
[ $longest -gt 400000 ] && longest=400000
RANDOM=$seed
echo "seed $seed; an undisturbed run takes $((took / 1000)) ms; each is killed within $((longest / 1000)) ms at first"

killed=0    # runs that were killed
ended=0     # runs that ended first; after each another campaign is begun
unbegun=0   # kills that left a file that was not begun yet
advanced=0  # runs that kept jobs and were killed
kept=0      # jobs that the file keeps
fell=       # kept counts that were less than one before
strange=    # answers that no kill can cause
fresh=()
for ((runs = 0; runs < most_runs && killed < kills; runs++)); do
    delay=$((RANDOM * longest / 32767 + 500))
    # A run that ends just as its time is over was not killed: its own status is wanted, not timeout's.
    timeout --foreground --preserve-status -s KILL "$(printf '%d.%06d' $((delay / 1000000)) $((delay % 1000000)))" \
        "$program" run "$image" killed.keep "${paged[@]}" "${fresh[@]}" >out.txt 2>err.txt
    status=$?
    fresh=()
    if [ $status -eq 0 ]; then
        cmp -s out.txt whole.txt || strange+=" other totals at run $runs;"
        ended=$((ended + 1))
        longest=$((longest * 3 / 4 + 1000))
        kept=0
        rm killed.keep
        continue
    elif [ $status -ne 137 ]; then
        strange+=" status $status of run $runs, $(head -c 100 err.txt);"
        break
    fi
    killed=$((killed + 1))
    timeout 60 "$program" report "$image" killed.keep "${options[@]}" >out.txt 2>err.txt
    status=$?
    if [ $status -eq 7 ] && [[ $(cat err.txt) =~ ^stopped:\ ([0-9]+)\ of\ $jobs\ jobs\ kept$ ]]; then
        now=${BASH_REMATCH[1]}
    elif [ $status -eq 0 ] && cmp -s out.txt whole.txt; then
        now=$jobs
    elif [ $status -eq 6 ] && [ "$kept" -eq 0 ] && [ "$(cat err.txt)" = 'campaign file refused: 1 NotACampaign' ]; then
        # The kill came while the file was begun. Such a file is taken up by --fresh alone.
        unbegun=$((unbegun + 1))
        fresh=(--fresh)
        now=0
    else
        strange+=" report's status $status after run $runs, $(head -c 100 err.txt);"
        break
    fi
    if [ "$now" -gt "$kept" ]; then
        advanced=$((advanced + 1))
    elif [ "$now" -eq "$kept" ] && [ $longest -lt 800000 ]; then
        longest=$((longest * 5 / 4))
    elif [ "$now" -lt "$kept" ]; then
        fell+=" $now after $kept at run $runs;"
    fi
    kept=$now
done
echo "$killed killed: $advanced had kept jobs, $unbegun had not begun the file; $ended ended first; within $((longest / 1000)) ms at last"
check 'fifty kills' "$([ $killed -eq $kills ] && echo yes || echo "$killed kills")"
check 'some of them in the midst of a campaign' "$([ $advanced -gt 0 ] && echo yes || echo 'no killed run kept a job')"
check 'what is kept stays' "$([ -z "$fell" ] && echo yes || echo "seed $seed:$fell")"
check 'each answer is one that a kill can cause' "$([ -z "$strange" ] && echo yes || echo "seed $seed:$strange")"

run killed.keep "${fresh[@]}"
ends 'the campaign taken up to its end' 0 whole.txt nothing.txt
check 'its file' "$(cmp killed.keep whole.keep && echo yes)"

# Where all jobs are kept nothing is written.
touch -d '2001-02-03 04:05:06' killed.keep
before=$(traces killed.keep)
run killed.keep
ends 'a run on a complete file' 0 whole.txt nothing.txt
timeout 60 "$program" report "$image" killed.keep "${options[@]}" >out.txt 2>err.txt
ends 'a report on a complete file' 0 whole.txt nothing.txt
check 'neither writes' "$([ "$(traces killed.keep)" = "$before" ] && echo yes || echo 'the file was written to')"

# older FILE FILE: the first one as an older version wrote it.
older() {
    python3 - "$1" "$2" <<'PYTHON'
import sys

content = bytearray(open(sys.argv[1], "rb").read())
gate = 13 + int.from_bytes(content[9:13], "little")
while content[gate] == 0xA5:
    rows = int.from_bytes(content[gate + 1 : gate + 3], "little")
    for outcome in range(gate + 12, gate + 3 + 10 * rows, 10):
        content[outcome] = min(content[outcome], 3) if content[outcome] != 4 else 4
    gate += 3 + 10 * rows
open(sys.argv[2], "wb").write(content)
PYTHON
}

# stays: whether all that the older version wrote stands in the file still, but for the gate behind it, which may be open.
stays() {
    [ "$(stat -c %s older.keep)" -ge "$size" ] && cmp -s -n $((size - 1)) older.keep first.keep
}

if command -v python3 >/dev/null; then
    older whole.keep first.keep
    cp first.keep older.keep
    size=$(stat -c %s first.keep)
    timeout 60 "$program" report "$image" older.keep "${options[@]}" >out.txt 2>err.txt
    status=$?
    kept=$(sed -n "s/^stopped: \([0-9]*\) of $jobs jobs kept$/\1/p" err.txt)
    check 'a report of an older version'"'"'s file' "$([ $status -eq 7 ] && [ ! -s out.txt ] && [ "${kept:-0}" -gt 0 ] && echo yes || echo "$status")"
    strange=
    for ((runs = 0; runs < 20; runs++)); do
        delay=$((RANDOM * took / 32767 / 8 + 500))
        timeout --foreground --preserve-status -s KILL "$(printf '%d.%06d' $((delay / 1000000)) $((delay % 1000000)))" \
            "$program" run "$image" older.keep "${paged[@]}" >/dev/null 2>&1
        timeout 60 "$program" report "$image" older.keep "${options[@]}" >out.txt 2>err.txt
        status=$?
        now=$(sed -n "s/^stopped: \([0-9]*\) of $jobs jobs kept$/\1/p" err.txt)
        [ $status -eq 0 ] && cmp -s out.txt whole.txt && now=$jobs
        [ "${now:-0}" -ge "$kept" ] && stays || strange+=" run $runs: status $status, ${now:-none} after $kept;"
        kept=${now:-0}
    done
    check 'twenty kills of runs that go on with it' "$([ -z "$strange" ] && echo yes || echo "seed $seed:$strange")"
    run older.keep
    ends 'that campaign taken up to its end' 0 whole.txt nothing.txt
    check 'its old rows' "$(stays && echo yes)"
    run older.keep
    ends 'a run on it once more' 0 whole.txt nothing.txt
else
    echo 'skipped: a file of an older version needs python3 to be made'
fi

echo "$passed passed, $failed failed"
[ "$failed" -eq 0 ]
