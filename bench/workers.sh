#!/usr/bin/env bash
# Times campaigns by workers in threads, and prints tables of ratios. Times are those of a clock, so nothing else is to run on the machine.
# The processors of a virtual machine may be others' too, for moments, and what others do only makes a run longer. So a round runs what it
# compares five times, in turns, and takes the least time of each; a ratio in the first table is the median of nine rounds, with the least and the
# most behind it. In the second table it is the median of all single turns, so that it tells what the machine gave.
#   run     the built program's `run` of an example with a campaign file begun anew, on a tmpfs, on a disk, and on a tmpfs in one
#           page, so that threads begin once: each time holds the start of the process, the golden run and the jobs' list
#   crc     the same of two of the compiled programs of bench/steps, on a tmpfs
#   qsort
#   crc10   the same of a CRC-32 of 10,000 and of 100,000 instructions; the longer one takes minutes, so it is run once in each of the first three rounds
#   crc100
#   start   the same with a budget of no job: the start of the process, the golden run, the jobs' list and the file's beginning. What is over when it is
#           taken away is the time of the campaign itself
#   copies  as many processes at once as there are processors, each the whole campaign by one worker with a file of its own on the tmpfs: what the
#           machine itself gives, where its processors are not cores of their own
# The last lines are of campaigns in one process, with a file in memory, which keeps a record of all its calls (campaigns.sh).
# usage: workers.sh [PROGRAM [TMPFS [DISK [CAMPAIGNS]]]]
# Without a program it takes what the last build left in crates/fail_star/out; TMPFS and DISK are folders on the two, where it makes one
# of its own. CAMPAIGNS is the program of bench/campaigns where it was built before.
. "$(dirname "$0")/in_copy.sh"
program=$(realpath "${1:-$top/crates/fail_star/out/fail_star}")
tmpfs=$(mktemp -d "${2:-/dev/shm}/workers.XXXX")
disk=$(mktemp -d "${3:-$top}/workers.XXXX")
trap 'rm -rf "$copy" "$tmpfs" "$disk"' EXIT
campaigns=${4:-}
processors=$(nproc)
rounds=9
turns=5
long_rounds=3

# All lines are CASE ROUND WHAT TIME.
lines=$copy/lines

python3 "$top/bench/image.py" CRC "$copy/crc.elf"
python3 "$top/bench/image.py" QSORT "$copy/qsort.elf"
example=("$top/examples/built/checksum_twice.elf" --ram 0x80000000:64 --limit 3000)
compiled=(--rom 0x20000000:4096 --ram 0x80000000:4096)
crc=("$copy/crc.elf" "${compiled[@]}" --limit 2432)
qsort=("$copy/qsort.elf" "${compiled[@]}" --limit 1980)
crc10=("$copy/crc10.elf" "${compiled[@]}" --limit 20284)
crc100=("$copy/crc100.elf" "${compiled[@]}" --limit 203284)
for length in 10 100; do
    python3 -c 'import sys; sys.path[:0] = [sys.argv[1]]; import curve; open(sys.argv[2], "wb").write(curve.crc(int(sys.argv[3])))' \
        "$top/bench" "$copy/crc$length.elf" "${length}000"
done

# campaign KEEP WORKERS PAGE IMAGE OPTION..
campaign() {
    "$program" run "$4" "$1" "${@:5}" --workers "$2" --page "$3" --fresh >/dev/null
}

# start KEEP WORKERS PAGE IMAGE OPTION..: a run that stops before its first job, and says so by its status.
start() {
    campaign "$@" --stop-after 0 2>/dev/null || true
}

# copies PAGE IMAGE OPTION..: so many processes at once, each with one worker.
copies() {
    for ((number = 0; number < processors; number++)); do
        campaign "$tmpfs/keep.$number" 1 "$@" &
    done
    wait
}

# timed WHAT WORD..: one line, for the command. Nothing is started to read the clock, since that would take as long as a small part of a run.
timed() {
    local what=$1 start end
    shift
    start=$EPOCHREALTIME
    "$@"
    end=$EPOCHREALTIME
    echo "$case $round $what $((${end/[.,]/} - ${start/[.,]/}))" >>"$lines"
}

# compared CASE FOLDER PAGE IMAGE OPTION..
compared() {
    local case=$1 keep=$2/keep
    shift 2
    for ((turn = 0; turn < turns; turn++)); do
        for count in $counts; do
            timed "workers-$count" campaign "$keep" "$count" "$@"
            timed "start-$count" start "$keep" "$count" "$@"
        done
        timed copies copies "$@"
    done
}

counts=$(printf '%s\n' 1 2 4 8 16 32 | awk -v most="$processors" '$1 < most'; echo "$processors")
for ((round = 0; round < rounds; round++)); do
    compared tmpfs "$tmpfs" 4096 "${example[@]}"
    compared disk "$disk" 4096 "${example[@]}"
    compared page "$tmpfs" 65535 "${example[@]}"
    compared crc "$tmpfs" 4096 "${crc[@]}"
    compared qsort "$tmpfs" 4096 "${qsort[@]}"
    compared crc10 "$tmpfs" 4096 "${crc10[@]}"
    if ((round < long_rounds)); then
        turns=1 compared crc100 "$tmpfs" 4096 "${crc100[@]}"
    fi
done
pattern='^[a-z]+ (experiments|alone|workers-1) [0-9]+$'
if [ -n "$campaigns" ]; then
    memory=$("$campaigns" | grep -E "$pattern")
else
    memory=$(time_program campaigns "$pattern" fs_model fs_outside test_programs test_cases rv_machine golden_trace snapshot_store experiment def_use result_keeper campaign)
fi
awk '{ print $1 "-in-memory", 0, $2, $3 }' <<<"$memory" >>"$lines"

echo "$processors processors; pages of 4096 jobs; load $(cut -d' ' -f1 /proc/loadavg)"
for words in "run ${example[*]}" "crc ${crc[*]}" "qsort ${qsort[*]}" "crc10 ${crc10[*]}" "crc100 ${crc100[*]}"; do
    read -r name file options <<<"$words"
    "$program" plan "$file" $options | awk -v name="$name" '{ n[$1] = $2 } END { print name ": " n["instructions"] " instructions, " n["jobs"] " jobs" }'
done
awk -v counts="$(echo $counts)" '
    # told X N: the median of the first N numbers of X, with the least and the most.
    function told(x, n,   i, j, y) {
        for (i = 2; i <= n; i++) {
            y = x[i]
            for (j = i - 1; j > 0 && x[j] > y; j--) x[j + 1] = x[j]
            x[j + 1] = y
        }
        return n ? sprintf("%.3f (%.3f to %.3f)", x[int((n + 1) / 2)], x[1], x[n]) : "-"
    }
    # campaign NAME ROUND WORKERS: the least time of the campaign itself.
    function campaign(name, r, workers) { return least[name, r, "workers-" workers] - least[name, r, "start-" workers] }
    function campaigns(name, workers,   r, n, x) {
        for (r = 0; r < rounds; r++)
            if ((name, r, "workers-1") in least) x[++n] = campaign(name, r, workers) / campaign(name, r, 1)
        return told(x, n)
    }
    # ratios NAME WHAT BESIDE FACTOR: of the least times of the rounds, or of the single turns.
    function ratios(name, what, beside, factor,   r, k, n, x) {
        n = 0
        for (r = 0; r < rounds; r++)
            if (!((name, r, beside) in least))
                continue
            else if (single || name ~ /memory/)
                for (k = 1; k <= times[name, r, what]; k++) x[++n] = factor * at[name, r, what, k] / at[name, r, beside, k]
            else
                x[++n] = factor * least[name, r, what] / least[name, r, beside]
        return told(x, n)
    }
    function row(text, wanted, first, second, third, fourth, fifth, sixth, seventh) {
        printf "%-42s %8s %24s %24s %24s %24s %24s %24s %24s\n", text, wanted, first, second, third, fourth, fifth, sixth, seventh
    }
    function each(text, wanted, what, beside, factor) {
        row(text, wanted, ratios("tmpfs", what, beside, factor), ratios("disk", what, beside, factor), ratios("page", what, beside, factor),
            ratios("crc", what, beside, factor), ratios("qsort", what, beside, factor), ratios("crc10", what, beside, factor), ratios("crc100", what, beside, factor))
    }
    function table(   c) {
        row("the time of", "wanted", "run, tmpfs", "run, disk", "run, one page", "crc", "qsort", "crc10", "crc100")
        for (c = 2; c <= many; c++)
            each(count[c] " workers beside one", sprintf("%.4f", 1.25 / count[c]), "workers-" count[c], "workers-1", 1)
        each(count[many] " copies beside one", "-", "copies", "workers-1", 1)
        each(count[many] " campaigns by " count[many] " workers beside copies", "1.2500", "workers-" count[many], "copies", count[many])
    }
    {
        if ($2 >= rounds) rounds = $2 + 1
        at[$1, $2, $3, ++times[$1, $2, $3]] = $4
        if (!(($1, $2, $3) in least) || $4 < least[$1, $2, $3]) least[$1, $2, $3] = $4
    }
    END {
        many = split(counts, count, " ")
        print "\nthe least of five, and the median of the rounds"
        table()
        print "\nthe same without the start: the campaign itself"
        for (c = 2; c <= many; c++)
            row(count[c] " workers beside one", sprintf("%.4f", 1.25 / count[c]), campaigns("tmpfs", count[c]), campaigns("disk", count[c]),
                campaigns("page", count[c]), campaigns("crc", count[c]), campaigns("qsort", count[c]), campaigns("crc10", count[c]), campaigns("crc100", count[c]))
        print "\nsingle turns"
        single = 1
        table()
        print "\nin one process, with a file in memory"
        row("the time of", "", "", "", "", "crc", "qsort")
        row("one worker beside the jobs", "-", "", "", "", ratios("crc-in-memory", "workers-1", "experiments", 1), ratios("qsort-in-memory", "workers-1", "experiments", 1))
        row("one worker beside the caller", "-", "", "", "", ratios("crc-in-memory", "workers-1", "alone", 1), ratios("qsort-in-memory", "workers-1", "alone", 1))
        row("the caller beside the jobs", "-", "", "", "", ratios("crc-in-memory", "alone", "experiments", 1), ratios("qsort-in-memory", "alone", "experiments", 1))
    }' "$lines"
