#!/usr/bin/env bash
# Parts of a run in the tools: where.py, compare.py, check.py, report.py and fault_map.py with --cycles, --code and --function, beside sums of
# the table by awk; campaign files that keep only the jobs of a part; rules of a part; what is refused; the errors of fail_window in
# explain.py; again.py with it; and, where it is named, plan.py.
# usage: parts.sh PROGRAM [WINDOW]
set -u
. "$(dirname "$0")/../checks.sh"
[ $# -gt 0 ] || { echo "skipped: parts needs fail_star"; exit 0; }
program=$(realpath "$1") || exit 2
window=${2:+$(realpath "$2")}
command -v python3 >/dev/null || { echo "skipped: parts needs python3"; exit 0; }
folder=$(mktemp -d) || exit 2
trap 'rm -rf "$folder"' EXIT
cd "$folder" || exit 2
tool() { timeout 120 python3 -B "$top/tools/$1.py" "${@:2}"; }
image=$top/examples/built/boot.elf
ram=(--ram 0x80000000:64)
"$program" run "$image" whole.keep "${ram[@]}" >whole.txt 2>err.txt || exit 2
"$program" report "$image" whole.keep "${ram[@]}" --format csv >whole.csv
"$program" trace "$image" "${ram[@]}" | grep -E '^[0-9]+ [0-9a-f]{8} ' >trace.txt
instructions=$(wc -l <trace.txt)

# The instructions of main, whose addresses stand in the symbol table, and those at some addresses and in a range.
read -r low high <<<"$(python3 -B - "$image" <<'END'
import sys
import symbol_reader
found = [symbol for symbol in symbol_reader.symbols(open(sys.argv[1], "rb").read()) if symbol.name == "main"]
print(found[0].value, found[0].value + found[0].size)
END
)"
# cycles LOW HIGH FIRST END: the numbers of the instructions at these addresses, of those from FIRST to below END.
cycles() { awk -v low="$1" -v high="$2" -v first="$3" -v end="$4" '{ pc = 0; for (i = 1; i <= 8; i++) pc = pc * 16 + index("0123456789abcdef", substr($2, i, 1)) - 1 } pc >= low && pc < high && $1 >= first && $1 < end { print $1 }' trace.txt; }
cycles "$low" "$high" 0 "$instructions" >main.txt
seq 10 39 >range.txt
cycles 536870912 536870960 10 40 >both.txt
# sites FILE OUTCOME: the sites before these instructions with an outcome, by the table of all jobs.
sites() { awk -F, -v outcome="$2" 'NR == FNR { is[$1]; next } $5 == outcome { for (t = $1 - $4 + 1; t <= $1; t++) sum += t in is } END { print sum + 0 }' "$1" whole.csv; }
# A campaign file with the rows of the jobs that have a site before these instructions.
part_of() {
    awk -F, 'NR == FNR { is[$1]; next } FNR > 1 { for (t = $1 - $4 + 1; t <= $1; t++) if (t in is) { print $1, $2, $3, $5; next } }' "$1" whole.csv >due.txt
    python3 -B - "$2" <<'END'
import sys
import keep_file
import reference
content = open("whole.keep", "rb").read()
gate = 13 + int.from_bytes(content[9:13], "little")
rows = [line.split() for line in open("due.txt")]
rows = [(*map(int, row[:3]), reference.OUTCOMES[row[3]]) for row in rows if row[0].isdecimal()]
open(sys.argv[1], "wb").write(content[:gate] + keep_file.batch(rows))
END
}
bits=$((31 * 32 + 8 * 64))

# looks NAME FILE WORD..: what the tools say of a part, whose instructions a file has; by the whole campaign file, and by one of the part only.
looks() {
    local name=$1 file=$2 silent count keep
    shift 2
    silent=$(sites "$file" silent) count=$(wc -l <"$file")
    part_of "$file" part.keep
    for keep in whole.keep part.keep; do
        tool where "$image" $keep --program "$program" --disassembler none --format json "$@" >where.json 2>err.txt
        same "$name, where, $keep" "$silent $((count * bits)) $instructions $count" "$(python3 -c 'import json, sys
found = json.load(open("where.json")); print(*(found[key] for key in ("chosen", "sites", "instructions", "window")))' 2>&1)$(cat err.txt)"
        same "$name, functions, $keep" "$silent" "$(python3 -c 'import json
print(sum(row["sites"] for row in json.load(open("where.json"))["by"]["function"]))')"
        tool compare "$image,$keep" --program "$program" --format json "$@" >compare.json 2>err.txt
        same "$name, compare, $keep" "$instructions $count $((count * bits)) $silent $(sites "$file" address) $((count * bits))" "$(python3 -c 'import json
one = json.load(open("compare.json"))["campaigns"][0]
kinds = ("no_effect", "silent", "detected", "illegal", "address", "misaligned", "timeout")
print(*(one[key] for key in ("instructions", "window", "sites", "silent", "address")), sum(one[key] for key in kinds))' 2>&1)$(cat err.txt)"
        printf 'silent = %s\nwindow = %s\naddress = %s\n' "$silent" "$count" "$(sites "$file" address)" >budget
        tool check budget "$image,$keep" --program "$program" "$@" >out.txt 2>err.txt
        same "$name, check, $keep" 'status 0, ' "status $?, $(cat err.txt)"
        tool report "$keep" --image "$image" -o "${keep%.keep}.html" --program "$program" "$@" 2>err.txt
        same "$name, report, $keep" 'status 0, ' "status $?, $(cat err.txt)"
        check "$name, the counts of its page, $keep" "$(tr '\n' ' ' <"${keep%.keep}.html" | grep -q "in the part</th><td[^>]*>$count<" && echo yes)"
        check "$name, the silent sites of its page, $keep" "$(tr '\n' ' ' <"${keep%.keep}.html" | grep -q "silent</th><td[^>]*>$silent<" && echo yes)"
        tool fault_map "$keep" --image "$image" --name boot -o "${keep%.keep}.svg" --program "$program" "$@" 2>err.txt
        same "$name, fault_map, $keep" 'status 0, ' "status $?, $(cat err.txt)"
        check "$name, its sites, $keep" "$(grep -q "$(printf "%'d" $((count * bits))) sites: silent $silent," "${keep%.keep}.svg" 2>/dev/null || grep -q "sites: silent $silent," "${keep%.keep}.svg" && echo yes)"
    done
    same "$name, one picture" '' "$(cmp whole.svg part.svg 2>&1)"
}
looks 'a function' main.txt --function main
looks 'a range' range.txt --cycles 10..40
looks 'addresses in a range' both.txt --cycles 10..40 --code 0x20000000..0x20000030
seq 0 $((instructions - 1)) >all.txt
looks 'the whole run' all.txt --cycles "0..$instructions"

# The cycles of a picture: the axis has the numbers of the run.
tool fault_map whole.keep --cycles 10..40 --program "$program" >map.svg
check 'the axis of a part' "$(grep -q '>10</text>' map.svg && grep -q '>35</text>' map.svg && ! grep -q 'middle">0</text>' map.svg && echo yes)"
check 'the heading of a part' "$(grep -q '30 cycles' map.svg && echo yes)"

# --- Rules of a part ------------------------------------------------------------------------------

part_of main.txt part.keep
printf '%s\n' "silent during function main = $(sites main.txt silent)" "timeout + address during cycles 10..40 = $(($(sites range.txt timeout) + $(sites range.txt address)))" \
    "one: silent during cycles 10..40 and code 536870912..536870960 = $(sites both.txt silent)" "silent = $(sed -n 's/^silent //p' whole.txt)" >budget
tool check budget "one=$image,whole.keep" --program "$program" --receipt receipt.json >out.txt 2>err.txt
same 'rules of several parts' 'status 0, 4' "status $?, $(grep -c holds out.txt)$(cat err.txt)"
same 'the receipt has the parts' '[["--function", "main"], ["--cycles", "10..40"], ["--cycles", "10..40", "--code", "0x20000000..0x20000030"], null]' \
    "$(python3 -c 'import json; print(json.dumps([table["part"] for table in json.load(open("receipt.json"))["tables"]]))')"
echo "silent during function main <= $(sites main.txt silent)" >budget
tool check budget "$image,part.keep" --program "$program" >out.txt 2>err.txt
same 'a file that keeps only the jobs of the part' 'status 0, ' "status $?, $(cat err.txt)"
echo 'silent during cycles 10..40 = 0' >budget
tool check budget "$image,part.keep" --program "$program" >out.txt 2>err.txt
check 'jobs of the part that are not kept' "$([ $? -eq 2 ] && grep -q 'of the part --cycles 10\.\.40, [0-9,]* of [0-9,]* jobs are kept' err.txt && echo yes || cat err.txt)"
for rule in 'silent during = 0' 'silent during cycles 5..5 = 0' 'silent during cycles 1..2 and cycles 3..4 = 0' 'silent during lines 1..2 = 0' 'silent during cycles 1-2 = 0'; do
    echo "$rule" >budget
    tool check budget "$image,whole.keep" --program "$program" >out.txt 2>err.txt
    check "no rule: $rule" "$([ $? -eq 2 ] && grep -q '^check.py: budget: line 1: ' err.txt && echo yes || cat err.txt)"
done
"$program" report "$image" whole.keep "${ram[@]}" >report.txt
echo 'silent during function main = 0' >budget
gives 'a report has no jobs' 2 '' 'check.py: report.txt: a report does not have jobs: a part of the run needs a campaign file or a table of jobs' \
    tool check budget report.txt --program "$program"

# --- What is refused ------------------------------------------------------------------------------

refused() {
    gives "refused: $1" 1 '' "where.py: whole.keep: $1" tool where "$image" whole.keep --program "$program" "${@:2}"
}
refused '--function nain: the image has no function of this name' --function nain
refused "--cycles $instructions..1000: the run without a fault has $instructions instructions" --cycles "$instructions..1000"
refused 'the run without a fault executes no instruction of --code 0x00000000..0x00000010' --code 0..16
refused 'the run without a fault executes no instruction of --cycles 0..3 --function main' --cycles 0..3 --function main
for word in 5..5 9..3 1 1.. ..2 1...2 0x..1 0..4294967297 -1..2; do
    tool where "$image" whole.keep "--cycles=$word" >out.txt 2>err.txt
    check "no range: $word" "$([ $? -eq 2 ] && grep -q 'expected START..END' err.txt && echo yes || cat err.txt)"
done
gives 'compare, a report' 1 '' 'compare.py: report.txt: a report does not have jobs: a part of the run needs a campaign file' tool compare report.txt --cycles 1..2
gives 'fault_map, a function without an image' 1 '' 'fault_map.py: whole.keep: --function main: the image is needed' tool fault_map whole.keep --function main --program "$program"
gives 'fault_map, a table without a trace' 1 '' 'fault_map.py: whole.csv: --code 0x20000000..0x20000010: the run without a fault is needed: --trace FILE, or fail_star by --program FILE' \
    tool fault_map whole.csv --code 0x20000000..0x20000010
# A report of a part is a report, and is not compared with one of a whole run.
printf 'instructions 90\nwindow 8\nsites 12032\nno-effect 11806\nsilent 42\ndetected 2\nillegal 0\naddress 170\nmisaligned 12\ntimeout 0\n' >part.txt
same 'a report of fail_window' 'part 64 90 8 12032' "$(tool compare part.txt | awk 'NR == 2 { print $1, $3, $5, $6, $7 }')"
check 'a part and a whole run' "$(tool compare part.txt report.txt | grep -q 'other part' && echo yes)"

# --- fail_window in explain.py and again.py -------------------------------------------------------

explains() { same "explained: $1" "$2" "$(tool explain "$1" "${@:3}" 2>&1)"; }
explains 'no instruction in the part: the golden run has 90 instructions' '--cycles begins after the end: the instructions of the run are numbered from 0 to 89.'
explains 'no instruction in the part: the image has no functions' 'the symbol table of the image has no functions: link without -s and do not strip, or use --cycles or --code.'
explains 'no instruction in the part: no function nain' 'the image has no function nain: the compiler may have moved it into its callers, or named it otherwise. Did you mean main?' \
    fail_window "$image" whole.keep --function nain
explains 'no instruction in the part: none that fulfils its conditions is executed' \
    'the run without a fault executes no such instruction: `fail_star trace` shows the number and the address of each.'
wrong() { explains 'usage: fail_window IMAGE KEEP ..' "$1" fail_window "$image" whole.keep "${@:2}"; }
wrong 'the part of the run is missing: expected at least one of --cycles, --code, --function'
wrong '--cycles 5..5: START is not below END, so nothing is in the range' --cycles 5..5
wrong '--cycles 1: expected START..END, such as 100..200' --cycles=1
wrong '--code 0..5000000000: END is past 2^32' --code 0..5000000000
wrong '--shard: no option of fail_window, which has --cycles, --code, --function, --rom, --ram, --limit, --workers, --page, --stop-after, --pc, --ram-code, --format' \
    --function main --shard 1/2
printf '#!/bin/sh\necho "$@"\n' >stand-in && chmod +x stand-in
same 'again' "$image whole.keep --function main --rom 0x20000000:65536 --ram 0x80000000:64 --limit 1000000" \
    "$(tool again window "$image" whole.keep --function main --window ./stand-in)"

# --- With the program -----------------------------------------------------------------------------

if [ -n "$window" ]; then
    "$window" "$image" real.keep "${ram[@]}" --function main >real.txt 2>err.txt
    same 'fail_window' 'status 0, ' "status $?, $(cat err.txt)"
    for word in silent address no-effect; do same "its $word" "$(tool compare "$image,real.keep" --function main --program "$program" --format json |
        python3 -c 'import json, sys; print(json.load(sys.stdin)["campaigns"][0][sys.argv[1].replace("-", "_")])' "$word")" "$(sed -n "s/^$word //p" real.txt)"; done
    tool plan "$image" "${ram[@]}" --program "$program" --window "$window" --function main >plan.txt 2>err.txt
    same 'plan of a part' "status 0, $(wc -l <due.txt) jobs" "status $?, $(sed -n 's/^jobs  *\([0-9,]*\)$/\1/p' plan.txt | tr -d ,) jobs$(cat err.txt)"
    check 'its time' "$(grep -q '^time  *about .*, by all [0-9,]* jobs$' plan.txt && grep -q '^in the part  *8 instructions of --function main$' plan.txt && echo yes || cat plan.txt)"
    tool plan "$image" "${ram[@]}" --program "$program" --window "$window" >plan.txt 2>err.txt
    check 'plan of the whole run' "$([ $? -eq 0 ] && grep -q '^within an hour  *1 part on as many machines' plan.txt && echo yes || cat err.txt plan.txt)"
else
    echo 'skipped: plan of a part needs fail_window'
fi
echo "$passed passed, $failed failed"
[ "$failed" -eq 0 ]
