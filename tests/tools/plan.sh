#!/usr/bin/env bash
# Before, during and after a campaign: what plan.py says of an image, watch.py of a campaign that is under way, and again.py of one that has
# its options in its file; and the warning of a RAM that an image was not linked for.
# usage: plan.sh [PROGRAM [EXPORT [REPLAY [DEBUG [WINDOW]]]]]
set -u
. "$(dirname "$0")/../checks.sh"
[ $# -gt 0 ] || { echo "skipped: plan needs fail_star"; exit 0; }
program=$(realpath "$1") || exit 2
export=${2:+$(realpath "$2")}
replay=${3:+$(realpath "$3")}
command -v python3 >/dev/null || { echo "skipped: tools needs python3"; exit 0; }
folder=$(mktemp -d) || exit 2
trap 'rm -rf "$folder"' EXIT
cd "$folder" || exit 2
tool() { timeout 120 python3 -B "$top/tools/$1.py" "${@:2}"; }
built=$top/examples/built
ram=(--ram 0x80000000:64)

# --- plan -----------------------------------------------------------------------------------------

tool plan "$built/pin.elf" "${ram[@]}" --program "$program" >plan.txt 2>err.txt
same 'a plan' 'status 0, ' "status $?, $(cat err.txt)"
"$program" plan "$built/pin.elf" "${ram[@]}" >numbers.txt
number() { sed -n "s/^$1  *\([0-9,]*\).*/\1/p" plan.txt | tr -d ,; }
for word in instructions sites jobs live; do
    name=${word/live/live sites}
    same "the plan has $word" "$(sed -n "s/^$word //p" numbers.txt)" "$(number "$name")"
done
same 'its bound of steps' "$(($(number jobs) * 1000000))" "$(number 'steps at most')"
for word in 'time  *about .* of processor time), by all 592 jobs$' 'memory  *about [2-6] MB$' 'campaign file  *about' 'limit  *[0-9n]' \
    'within an hour  *1 [a-z]* on .*, or a sample of [0-9,]* sites, or of [0-9,]* live sites$'; do
    check "it has $word" "$(grep -q "^$word" plan.txt && echo yes)"
done
# Of this PIN check the silent jobs do not depend on the limit, so twice the run is enough: each doubling has as many.
same 'its limit' "$((2 * $(number instructions)))" "$(number limit)"
same 'as many silent jobs under each limit' 1 "$(awk '/^limit .*silent/ { rows = 1; next } rows && NF == 3 { print $2 }' plan.txt | sort -u | wc -l)"
check 'no warning' "$(grep -q 'linked for' plan.txt || echo yes)"
tool plan "$built/pin.elf" "${ram[@]}" --program "$program" --workers 1 >plan.txt 2>err.txt
check 'one worker' "$(grep -q '^time .* with 1 worker (' plan.txt && echo yes)"
# Windows of neighbouring jobs, of a campaign of some seconds, beside the whole campaign.
same 'what windows say' '' "$(timeout 300 python3 -B "$tests/plan_windows.py" "$program" "$built/cipher.elf" "${ram[1]}" 100000 2>&1)"
printf '#!/bin/sh\necho cycle,cell,bit,weight\necho 1,2\n' >stand-in && chmod +x stand-in
same 'a table of jobs that is none' 'fail_star plan: expected cycle, cell, bit and weight' "$(PYTHONPATH=$top/tools python3 -B -c 'from fail_star_tools.run import windows
with windows.planned("./stand-in", []) as rows:
    try: next(rows)
    except Exception as error: print(error)')"
tool plan "$built/checksum.elf" "${ram[@]}" --program "$program" --limit 100000 >plan.txt 2>err.txt
same 'a limit that never stands still' 'status 0, none below is large enough: use the time of the watchdog' \
    "status $?, $(sed -n 's/^limit  *\(none.*\)/\1/p' plan.txt)"
gives 'no image' 1 '' 'plan.py: fail_star plan: image could not be read
  none.elf: The image could not be read: is its name right?' tool plan none.elf --program "$program"
# The line of the program, and at most two lines of what it means: those that are about this image.
mkdir path && ln -s "$program" path/fail_star
gives 'an image with code in RAM' 1 '' 'plan.py: fail_star plan: golden run trapped at cycle 121
  The program jumped to 0x80000000, which is in RAM, by the instruction fb4080e7 at 0x20000050.
  The image has code that runs from RAM: use --ram-code, which allows that.' \
    env PATH="$folder/path:$PATH" timeout 120 python3 -B "$top/tools/plan.py" "$built/checksum_ram.elf"
gives 'a RAM that is too small' 1 '' 'plan.py: fail_star plan: golden run trapped at cycle 8
  instruction 8 (counted from 0) is not one of RV32IM, or accesses an address without ROM, RAM or a port.
  The last instruction, at 0x20000054, has the word 00112623: a store to 0x8000003c, where there is no memory, past the end of --ram: use the size that the image was linked with.' \
    env PATH="$folder/path:$PATH" timeout 120 python3 -B "$top/tools/plan.py" "$built/pin.elf" --ram 0x80000000:16

# --- watch ----------------------------------------------------------------------------------------

jobs=$(sed -n 's/^jobs //p' numbers.txt)
watched() { tool watch pin.keep --program "$program" "$@" | sed -u 's/^[0-9-]* [0-9:]* //'; }
"$program" run "$built/pin.elf" pin.keep "${ram[@]}" --stop-after 40 >/dev/null 2>&1
same 'a campaign that was stopped' "40 of $jobs jobs" "$(watched --times 1)"
same 'no job between two lines' "40 of $jobs jobs
40 of $jobs jobs, 0 a second, no job since the line before" "$(watched --times 2 --every 0.05)"
watched --every 0.2 >watch.txt 2>&1 &
for _ in $(seq 300); do [ -s watch.txt ] && break; sleep 0.1; done
"$program" run "$built/pin.elf" pin.keep "${ram[@]}" >/dev/null 2>&1
wait
same 'its end' "40 of $jobs jobs
$jobs of $jobs jobs, all" "$(sed -n '1p;$p' watch.txt)"
# interrupted COMMAND..: the status and the lines of a tool that gets SIGINT, as Ctrl-C gives it, after its first line.
cat >interrupted.py <<'END'
import signal, subprocess, sys
signal.signal(signal.SIGINT, signal.default_int_handler)  # also where this script runs in the background, without it
tool = subprocess.Popen(sys.argv[1:], stdout=subprocess.PIPE, stderr=subprocess.PIPE, text=True)
first = tool.stdout.readline().split(" ", 2)[2]
tool.send_signal(signal.SIGINT)
out, err = tool.communicate(timeout=60)
print(f"status {tool.returncode}, {first}{out}{err}", end="")
END
"$program" run "$built/pin.elf" stopped.keep "${ram[@]}" --stop-after 40 >/dev/null 2>&1
same 'Ctrl-C' "status 130, 40 of $jobs jobs
watch.py: interrupted; continue by: python3 $top/tools/watch.py stopped.keep --program $program" \
    "$(python3 -B interrupted.py python3 -B "$top/tools/watch.py" stopped.keep --program "$program")"
same 'the same command' "40 of $jobs jobs" "$(tool watch stopped.keep --program "$program" --times 1 | cut -d ' ' -f 3-)"
gives 'no campaign file' 1 '' 'watch.py: none.keep: No such file or directory' tool watch none.keep --program "$program"

# --- again ----------------------------------------------------------------------------------------

again() { tool again "$@" --program "$program"; }
"$program" run "$built/pin.elf" other.keep "${ram[@]}" --limit 777 --pc >report.txt 2>&1
same 'a report again' "$(cat report.txt)" "$(again report other.keep)"
same 'the same with the image' "$(cat report.txt)" "$(again report "$built/pin.elf" other.keep)"
same 'its own words' "$("$program" report "$built/pin.elf" other.keep "${ram[@]}" --limit 777 --pc --format csv | sha256sum)" \
    "$(again report other.keep --format csv | sha256sum)"
same 'an audit again' "$("$program" audit "$built/pin.elf" other.keep "${ram[@]}" --limit 777 --pc)" "$(again audit other.keep)"
same 'symbols again' "$("$program" symbols "$built/pin.elf" other.keep "${ram[@]}" --limit 777 --pc)" "$(again symbols "$built/pin.elf" other.keep)"
again report "$built/checksum.elf" other.keep >out.txt 2>err.txt
check 'the status and the line of the program' "$([ $? -eq 6 ] && grep -q '^campaign file refused: 6 OtherCase' err.txt && echo yes)"
gives 'a command that is none' 1 '' 'again.py: brute: expected one of run, report, symbols, audit, merge, export, replay, window, answers' again brute other.keep
gives 'a campaign file that is none' 1 '' "again.py: expected a campaign file, found 'none.keep'" again report none.keep
if [ -n "$replay" ]; then
    same 'a replay again' "$("$replay" --brief "$built/pin.elf" 3 2 1 "${ram[@]}" --limit 777 --pc)" "$(again replay --brief other.keep 3 2 1 --replay "$replay")"
fi
# A program in place of fail_answers, which says its words.
printf '#!/bin/sh\necho "$@"\n' >answers && chmod +x answers
same 'answers again' "$built/pin.elf other.keep --outcome detected --rom 0x20000000:65536 --ram 0x80000000:64 --limit 777 --pc" \
    "$(again answers "$built/pin.elf" other.keep --outcome detected --answers ./answers)"
if [ -n "$export" ]; then
    again export other.keep jobs.db --export "$export" >out.txt 2>&1
    same 'an export again' 'status 0, yes' "status $?, $([ -s jobs.db ] && echo yes)"
fi

# --- Another RAM than the linked one --------------------------------------------------------------

"$program" run "$built/pin.elf" large.keep >/dev/null 2>&1
warning='RAM has 16384 bytes here, and the image was linked for 64 (ram_size): sites of bytes that the program does not have are counted'
same 'where' "$warning" "$(tool where "$built/pin.elf" large.keep --program "$program" --disassembler none | grep 'linked for')"
same 'compare' "large: $warning." "$(tool compare "$built/pin.elf,large.keep" --program "$program" | grep 'linked for')"
same 'plan' "$warning" "$(tool plan "$built/pin.elf" --program "$program" | grep 'linked for')"
tool report large.keep --image "$built/pin.elf" --program "$program" -o page.html >out.txt 2>&1
check 'the page' "$(grep -qF "$warning." page.html && echo yes)"
"$program" report "$built/pin.elf" large.keep --format csv >large.csv
# warned TOOL NAME OUT WORD..: a tool that warns on the error output, ends with status 0, and writes what it does without.
warned() { gives "$1 warns" 0 "$3" "$1.py: $2$warning" tool "$1" "${@:4}"; }
echo 'silent <= 0' >silent.budget
verdict='rule         found  verdict
silent <= 0      0    holds'
warned check 'large: ' "$verdict" silent.budget "$built/pin.elf,large.keep" --program "$program"
warned check 'large: ' "$verdict" silent.budget "$built/pin.elf,large.csv" --ram 0x80000000:16384 --program "$program"
# with_image KEEP: what keep_info says with the image, whose SHA-256 is in the line before the last.
with_image() { tool keep_info "$1" | sed "\$i image $(sha256sum "$built/pin.elf" | cut -d ' ' -f 1)"; }
warned keep_info '' "$(with_image large.keep)" large.keep --image "$built/pin.elf"
tool fault_map large.keep --program "$program" >map.svg
warned fault_map '' "$(cat map.svg)" large.keep --image "$built/pin.elf" --program "$program"
tool fault_map large.csv --ram 0x80000000:16384 >map.svg
warned fault_map '' "$(cat map.svg)" large.csv --image "$built/pin.elf" --ram 0x80000000:16384
warned sql '' "stored large: $("$program" plan "$built/pin.elf" | sed -n 's/^jobs //p') jobs" large.keep large.db "$built/pin.elf" --program "$program"
gives 'a rule that does not hold, with the warning' 1 'rule         found  verdict
silent >= 1      0   broken' "check.py: large: $warning" tool check <(echo 'silent >= 1') "$built/pin.elf,large.keep" --program "$program"
gives 'the file of another image' 1 '' "keep_info.py: $built/pin_twice.elf: large.keep is a campaign of another image" \
    tool keep_info large.keep --image "$built/pin_twice.elf"
"$program" run "$built/pin.elf" linked.keep "${ram[@]}" >/dev/null 2>&1
gives 'no warning by keep_info' 0 "$(with_image linked.keep)" '' tool keep_info linked.keep --image "$built/pin.elf"
gives 'no warning by check' 0 "$verdict" '' tool check silent.budget "$built/pin.elf,linked.keep" --program "$program"
tool fault_map linked.keep --program "$program" >map.svg
gives 'no warning by fault_map' 0 "$(cat map.svg)" '' tool fault_map linked.keep --image "$built/pin.elf" --program "$program"
same 'no warning of the linked one' '' "$(tool where "$built/pin.elf" linked.keep --program "$program" --disassembler none | grep 'linked for')"

# --- A campaign that is not finished --------------------------------------------------------------

# What is kept are the first jobs of the whole table, in its order.
"$program" run "$built/checksum.elf" whole.keep "${ram[@]}" --limit 1500 >/dev/null 2>&1
"$program" run "$built/checksum.elf" part.keep "${ram[@]}" --limit 1500 --stop-after 9000 >/dev/null 2>&1
"$program" report "$built/checksum.elf" whole.keep "${ram[@]}" --limit 1500 --format csv | head -n 9001 >first.csv
tool where "$built/checksum.elf" part.keep --program "$program" --disassembler none --format json >part.json 2>&1
same 'where the silent sites of a part are' "$(awk -F, '$5 == "silent" { sites += $4 } END { print sites }' first.csv) 9000 23304" \
    "$(python3 -c 'import json; found = json.load(open("part.json")); print(found["chosen"], found["jobs_kept"], found["jobs"])')"
same 'the registers of a part' "$(awk -F, '$5 == "silent" && $2 < 32 { sites[$2] += $4 } END { for (cell in sites) print "x" cell, sites[cell] }' first.csv | sort)" \
    "$(python3 -c 'import json
for row in json.load(open("part.json"))["by"]["register"]: print(row["name"].split()[0], row["sites"])' | sort)"
same 'the share in the heading' '9,000 of 23,304 jobs are kept, 38.6 %' \
    "$(tool where "$built/checksum.elf" part.keep --program "$program" --disassembler none | sed -n '1s/.*; //p')"
tool report part.keep --image "$built/checksum.elf" --program "$program" -o page.html >out.txt 2>&1
same 'the share in the headings of a page' 3 "$(grep -c '<[hp][^>]*>[^<]*9,000 of 23,304 jobs are kept, 38.6 %' page.html)"
gives 'a budget wants all jobs' 2 '' 'check.py: part.keep: fail_star report: stopped: 9000 of 23304 jobs kept
  14304 jobs are missing: repeat `run`.' \
    tool check <(echo 'silent < 9') part.keep --program "$program"

echo "$passed passed, $failed failed"
[ "$failed" -eq 0 ]
