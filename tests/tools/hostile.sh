#!/usr/bin/env bash
# The tools on hostile input: a thousand mutated files by hostile.py, and files made by hand that cost unbounded memory or time, or wrote
# control bytes and HTML where a terminal, a log or a page shows them. Each call has at most 2 GB and 60 seconds.
# usage: hostile.sh
set -u
. "$(dirname "$0")/../checks.sh"
command -v python3 >/dev/null || { echo "skipped: tools needs python3"; exit 0; }
folder=$(mktemp -d) || exit 2
trap 'rm -rf "$folder"' EXIT
mkdir "$folder/seeds" && cd "$folder/seeds" || exit 2

# --- Seeds ----------------------------------------------------------------------------------------

python3 -B "$tests/tables.py" overwrite >table.csv
python3 -B "$tests/tables.py" pc >pc.csv
sed 's/address\|misaligned/trap/' table.csv >old.csv
python3 -B "$tests/named_image.py" image.elf names lines5
python3 -B "$tests/named_image.py" two.elf names lines2
python3 -B "$tests/named_image.py" zipped.elf lines5 names zipped
words=(800001b7 04100113 0021a023 000180a3 0001a203 f00000b7 00408023 0040a423)
{
    for at in 0 1 2 3 4 5 6 7; do printf '%d %08x %s\n' $at $((0x20000000 + 4 * at)) "${words[at]}"; done
    printf 'output 41\nend halted 65\n'
} >trace.txt
printf '%s\n' 'instructions 8' 'sites 8960' 'no-effect 8596' 'silent 181' 'detected 1' 'illegal 0' 'address 172' 'misaligned 10' 'timeout 0' >report.txt
echo '{"address":172,"detected":1,"illegal":0,"instructions":8,"misaligned":10,"no_effect":8596,"silent":181,"sites":8960,"timeout":0}' >report.json
printf '%s\n' 'instructions 8' 'population 8960' 'samples 100' 'no-effect 90' 'silent 4' 'address 6' >sample.txt
printf '%s\n' '# a budget' 'silent <= 181' 'silent + timeout < 200' 'detected >= 1' >plain.budget
printf '%s\n' 'silent in load <= 300' 't: silent + address in store = 26' 'misaligned = 10' >functions.budget
echo '6 OtherCase at 21' >line.txt
printf '%s\n' '# classes' 'opened: output ~ /^B$/ and halt = 0x2a' 'other: output != golden' 'of silent + detected' rest >some.classes
python3 -B -c 'import sys, keep_file, keep_files
for name, case in (("good", keep_files.case_of()), ("both", keep_files.case_of(pc_cell=True, ram_code=True))):
    rows = [(2, 2, bit, 1) for bit in range(9)] + [(3, 1, bit, 6) for bit in range(3)]
    with open(f"{sys.argv[1]}/{name}.keep", "wb") as file:
        file.write(keep_file.header(case) + keep_file.batch(rows[:9]) + keep_file.batch(rows[9:]) + b"\0")' "$folder/seeds"
# Programs that answer as fail_star does, and one whose answers are what was changed.
printf '#!/bin/sh\ncase "$1 $*" in\n"trace "*) cat trace.txt ;;\n*json*) cat report.json ;;\n*) cat table.csv ;;\nesac\n' >program
printf '#!/bin/sh\ncat changed\n' >answers
chmod +x program answers
# What fail_answers says of the table. Nothing can be kept beside the campaign file, so that each call asks.
awk -F, '/silent|detected/ { print $1, $2, $3, $4, $5, $2 == 4 ? "42" : "410a", $5 == "silent" ? "halted 65" : "detected" }' table.csv >answers.txt
mkdir good.keep.answers
tool() { timeout 60 python3 -B "$tests/hostile.py" "$top/tools" one "$@"; }
gives 'the seeds are sound' 0 "$(cat report.txt | sed -n '4s/silent/found/p')" '' sh -c "python3 -B '$top/tools/check.py' plain.budget good.keep --program ./program | sed -n 's/silent <= 181 *\([0-9]*\) .*/found \1/p'"

cp answers.txt changed
gives 'the answers are sound' 0 181 '' sh -c "python3 -B '$top/tools/where.py' image.elf good.keep --program ./program --answers ./answers --classes some.classes --format json |
    python3 -c 'import json, sys; print(sum(one[\"sites\"] for one in json.load(sys.stdin)[\"classes\"].values()) - 1)'"

# --- A thousand mutated files ---------------------------------------------------------------------

cd "$folder" || exit 2
start=$SECONDS
timeout 170 python3 -B "$tests/hostile.py" "$top/tools" seeds >out.txt 2>&1
same 'mutated files' 'status 0, 1240 inputs, 0 complaints' "status $?, $(head -n 20 out.txt)"
check 'in less than three minutes' "$([ $((SECONDS - start)) -lt 180 ] && echo yes)"

# --- By hand --------------------------------------------------------------------------------------

cd seeds || exit 2
where() { tool where "$1" table.csv --trace trace.txt --ram 0x80000000:16 --disassembler none "${@:2}"; }
# last NAME WANTED WORD..: the last line of the answer, or of the refusal.
last() { same "$1" "$2" "$("${@:3}" 2>&1 | tail -n 1)"; }
made() { python3 -B "$tests/hostile_files.py" "$1" "$2"; }
made inflated image.elf
last 'a line table that inflates to 12 GB' 'no lines: a compressed section that is cut, or has more than 67108864 bytes' where image.elf
made segments image.elf
last '65,534 segments over one range' 'where.py: image.elf: 65533 segments that are loaded; these tools take 1024' where image.elf
made name image.elf
last 'a name of 8 MB' 'where.py: image.elf: a symbol whose name has more than 65536 bytes' where image.elf
made names image.elf
last 'names of 60 GB together' 'where.py: image.elf: symbols whose names have more than 67108864 letters together' where image.elf
made nested image.elf
check 'half a million symbols, one in the other' "$(where image.elf | grep -q '^all  *181 ' && echo yes)"
made leb image.elf
last 'a number of a million bytes' 'no lines: a line table with a number of more than 64 bits' where image.elf
made form image.elf
last 'a folder that is a text' 'no lines: a line table with a path that is not a text, or a folder that is not a number' where image.elf
made files image.elf
last 'four billion files' 'no lines: a line table with more than 65536 files or folders in a unit' where image.elf
python3 -B "$tests/named_image.py" image.elf names lines5

truncate -s 1T huge.bin
last 'an image of a terabyte' 'where.py: huge.bin: an image of more than 16777216 bytes' where huge.bin
last 'a campaign file of a terabyte that is none' 'keep_info.py: huge.bin: 1 NotACampaign: it does not begin as a campaign file' tool keep_info huge.bin
cp good.keep hole.keep && truncate -s 1T hole.keep
same 'a hole of a terabyte behind the last gate' "$(tool keep_info good.keep)" "$(tool keep_info hole.keep 2>&1)"
last 'a report without an end' 'compare.py: /dev/zero: line 1: expected instructions and a number, found '"'$(printf '\\x00%.0s' {1..60})'" tool compare /dev/zero
last 'a table without an end' "fault_map.py: /dev/zero: line 1: expected cycle,cell,bit,weight,outcome, found '$(printf '\\x00%.0s' {1..31})'" tool fault_map /dev/zero
last 'a budget without an end' 'check.py: /dev/zero: a budget of more than 1000000 bytes' tool check /dev/zero table.csv
last 'a trace without an end' 'where.py: /dev/zero: line 1: expected an instruction: its number, its address and its word, found '"'$(printf '\\x00%.0s' {1..60})'" \
    where image.elf --trace /dev/zero
sed 's/^7,/90000000,/' table.csv >late.csv
last 'a cycle that no run has' "fault_map.py: late.csv: line 226: expected a cycle of 0 to 16777215, found '90000000,1,0,1,misaligned'" tool fault_map late.csv
printf 'cycle,cell,bit,weight,outcome\n' >zeros.csv && for bit in $(seq 0 31); do echo "16777215,1,$bit,16777216,silent"; done >>zeros.csv
check 'the longest run' "$(tool report zeros.csv -o page.html >out.txt 2>&1 && echo yes || cat out.txt)"

# Programs that are others.
for name in true false; do ln -sf "$(command -v $name)" "other_$name"; done
printf '#!/bin/sh\nexec yes\n' >other_yes && printf '#!/bin/sh\nyes >&2\n' >other_errors && printf '#!/bin/sh\nhead -c 300 /dev/urandom\n' >other_random && chmod +x other_yes other_errors other_random
for name in yes true false errors random; do
    for words in 'compare good.keep' 'fault_map good.keep' 'report good.keep -o page.html' 'where image.elf good.keep' 'check plain.budget good.keep'; do
        # shellcheck disable=SC2086
        tool $words --program "./other_$name" >out.txt 2>err.txt
        got="status $?, lines $(wc -l <err.txt)"
        [[ $words == check* ]] && wanted=2 || wanted=1
        same "other_$name as the program of $words" "status $wanted, lines 1" "$got"
    done
done
last 'a disassembler without an end' 'where.py: ./other_yes: it wrote more than 67108864 bytes' where image.elf --disassembler ./other_yes

# Control bytes and HTML.
name=$(printf 'a\033[31mb\001')
cp table.csv "$name.csv"
for words in "check plain.budget $name.csv" "compare $name.csv" "keep_info $name.csv" "where image.elf $name.none" "estimate $name.csv" \
    "fault_map $name.none" "report $name.none -o page.html" "explain $name"; do
    # shellcheck disable=SC2086
    tool $words >out.txt 2>&1
    same "control bytes of a name: ${words%% *}" '' "$(tr -d '\n' <out.txt | LC_ALL=C grep -a '[[:cntrl:]]')"
done
printf 'a\033[31m: silent <= 3\n' >control.budget
tool check control.budget "$(printf 'a\033[31m')=table.csv" other=table.csv >out.txt 2>&1
same 'control bytes of a budget' '' "$(tr -d '\n' <out.txt | LC_ALL=C grep -a '[[:cntrl:]]')"
same 'HTML and --markdown' '| &lt;img onerror&gt;&amp;\| | ? | 16 | ? | 8 | 8960 | 8596 | 181 | 1 | 0 | 172 | 10 | 0 | 1 |' \
    "$(tool compare --markdown '<img onerror>&|=report.txt' | sed -n 3p)"
cp report.txt "$(printf '\377').txt" && cp table.csv "$(printf '\377').csv"
check 'a name that is no UTF-8' "$(tool compare "$(printf '\377').txt" >out.txt 2>err.txt && [ ! -s err.txt ] && echo yes || cat err.txt)"
check 'the same in a page' "$(tool report "$(printf '\377').csv" -o page.html >out.txt 2>err.txt && [ ! -s err.txt ] && echo yes || cat err.txt)"
printf 'silent <= 3\n' >"$(printf '\377').budget"
tool check "$(printf '\377').budget" table.csv --sarif sarif --junit junit --receipt receipt >out.txt 2>err.txt
same 'the same of a budget' 'status 1, ' "status $?, $(cat err.txt)"

echo "$passed passed, $failed failed"
[ "$failed" -eq 0 ]
