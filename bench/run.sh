#!/usr/bin/env bash
# Times `trace`, `run` and `brute` of the built program on the files of examples/built, and prints one table:
#   trace s, run s, brute s   processor seconds, best of three, of `run` by one worker; `brute` once, and only on the examples that are
#                             named below with the word brute: it takes seconds to a minute on them
#   run us/job                microseconds that `run` takes for a job; the jobs are those of `plan`
#   brute/run                 how many times as long `brute` takes
#   2/1, 4/1                  the time of 2 workers beside one worker's, and of as many as there are processors: by the clock, best of three
# and then, of two other programs, the time of whole campaigns beside the bare machine for as many steps (campaigns.sh).
# Processor time is disturbed little by other programs on the machine; the clock's needs a machine where nothing else runs (workers.sh
# measures the same more closely). Each time holds the start of the process, the reading of the image and the golden run: some
# milliseconds. Each `run` begins a campaign file of its own; what it waits for the disk is no processor time, but the clock's.
# usage: run.sh [PROGRAM [CAMPAIGNS]]
# Without a program it takes what the last build left in crates/fail_star/out. CAMPAIGNS is the program of bench/campaigns where it was
# built before.
set -eu
cd "$(dirname "$0")/.."
program=$(realpath "${1:-crates/fail_star/out/fail_star}")
campaigns=${2:+$(realpath "$2")}
most=$(nproc)
cd examples/built
ram=0x80000000:64
rounds=3
folder=$(mktemp -d)
trap 'rm -rf "$folder"' EXIT
keep=$folder/fresh.keep

processor='%U %S'
clock='%R'

# microseconds TIME ROUNDS WORD..: the least such time of the command in so many rounds, each without a campaign file before it.
microseconds() {
    local TIMEFORMAT=$1 rounds=$2 least= taken
    shift 2
    for ((round = 0; round < rounds; round++)); do
        rm -f "$keep"
        taken=$({ time "$@" >/dev/null; } 2>&1 | awk '{ printf "%d", ($1 + $2) * 1000000 }')
        if [ -z "$least" ] || [ "$taken" -lt "$least" ]; then least=$taken; fi
    done
    echo "$least"
}

printf '%-22s %12s %8s %9s %9s %9s %12s %10s %6s %6s\n' \
    example instructions jobs 'trace s' 'run s' 'brute s' 'run us/job' brute/run 2/1 "$most/1"
while read -r name limit brute; do
    options=(--ram "$ram" --limit "$limit")
    plan=$("$program" plan "$name.elf" "${options[@]}")
    instructions=$(awk '$1 == "instructions" { print $2 }' <<<"$plan")
    jobs=$(awk '$1 == "jobs" { print $2 }' <<<"$plan")
    trace=$(microseconds "$processor" $rounds "$program" trace "$name.elf" "${options[@]}")
    run=("$program" run "$name.elf" "$keep" "${options[@]}" --workers)
    alone=$(microseconds "$processor" $rounds "${run[@]}" 1)
    one=$(microseconds "$clock" $rounds "${run[@]}" 1)
    two=$(microseconds "$clock" $rounds "${run[@]}" 2)
    all=$(microseconds "$clock" $rounds "${run[@]}" "$most")
    exhaustive=0
    if [ -n "$brute" ]; then exhaustive=$(microseconds "$processor" 1 "$program" brute "$name.elf" "${options[@]}"); fi
    awk -v name="$name" -v n="$instructions" -v j="$jobs" -v t="$trace" -v r="$alone" -v b="$exhaustive" \
        -v one="$one" -v two="$two" -v all="$all" 'BEGIN {
        printf "%-22s %12d %8d %9.3f %9.3f %9s %12.2f %10s %6.2f %6.2f\n", name, n, j, t / 1e6, r / 1e6,
            b ? sprintf("%.2f", b / 1e6) : "-", r / j, b ? sprintf("%.1f", b / r) : "-", two / one, all / one
    }'
done <<'EXAMPLES'
checksum 6000 brute
checksum_twice 6000 brute
checksum_vote 6000 brute
checksum_vote_shared 6000
sort 1500 brute
control 2500 brute
cipher 2500 brute
EXAMPLES

echo
if [ -n "$campaigns" ]; then "$campaigns" | grep 'ns a step'; else bash ../../bench/campaigns.sh; fi
