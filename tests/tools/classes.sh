#!/usr/bin/env bash
# Answer classes in all tools that take them: files of classes, right and wrong ones; a table counted by hand whose replays are made by
# hand; what is kept beside a campaign file; and the examples that have classes, beside awk over their replays.
# usage: classes.sh [PROGRAM [REPLAY]]
set -u
command -v python3 >/dev/null || { echo "skipped: tools needs python3"; exit 0; }
real_replay=
[ -z "${2:-}" ] || real_replay=$(realpath "$2") || exit 2
. "$(dirname "$0")/hand_made.sh" "${@:1:1}"
asked=(image.elf before.csv --trace trace.txt --ram $ram --disassembler none)
sarif() { python3 -c 'import json, sys; print(*(result["message"]["text"] for result in json.load(open(sys.argv[1]))["runs"][0]["results"]), sep="\n")' "$1"; }

# A replay that says of a flip of x4 that it sends B, of x2 two bytes, and of others what is right; behind the first byte of RAM it halts
# with 1, and else with 0. Without a fault the run sends A and halts with 65. Of the 181 silent sites 96 are of x4, 24 of x2, 40 of bytes
# behind the first, which the load reads, and 21 of others.
fake_replay

# --- Files of classes -----------------------------------------------------------------------------

printf '%s\n' '# a comment' 'opened: output ~ /B/' '  longer :output~/^A\x0a$/and end = halted' 'value: halt = 0x1 and output = 41' rest >some.classes
# The sites of x4 with the greatest weight, 2, are read at cycle 6.
gives 'all classes' 0 'silent: 181 of 8960 sites, 2.02 %

class   sites    share
opened     96   1.07 %
longer     24  0.268 %
value      40  0.446 %
rest       21  0.234 %

opened         sites   share
"B", halted 0     96  1.07 %

longer          sites    share
410a, halted 0     24  0.268 %

value          sites    share
"A", halted 1     40  0.446 %

rest           sites    share
"A", halted 0     21  0.234 %

'"$places_of_x4

opened, in GDB: gdb-multiarch image.elf -ex 'target remote | fail_debug image.elf 6 4 0 --ram $ram'" '' where "${asked[@]}" --classes some.classes
gives 'the places of another class' 0 'function  sites    share
load         40  0.446 %' '' sed -n '/^function/,/^$/{/^$/d;p}' <(where "${asked[@]}" --classes some.classes --class value)
# counted NAME COUNTS LINE..: the sites of each class of a file with these lines.
counted() {
    local name=$1 wanted=$2
    shift 2
    printf '%s\n' "$@" >one.classes
    same "$name" "$wanted" "$(where "${asked[@]}" --classes one.classes --format json 2>&1 |
        python3 -c 'import json, sys
for name, each in json.load(sys.stdin)["classes"].items(): print(name, each["sites"], end=" ")' | sed 's/ $//')"
}
counted 'the first class that holds counts' 'one 141 rest 0 two 40' 'one: halt = 0' 'two: output ~ /A/'
counted 'what does not match' 'one 61 rest 120' 'one: output !~ /B/ and output != 410a'
counted 'the right output' 'one 61 rest 120' 'one: output = golden'
counted 'another output' 'one 120 rest 61' 'one: output != golden'
counted 'the right value' 'one 0 rest 181' 'one: halt = golden'
counted 'another value' 'one 181 rest 0' 'one: halt != golden'
counted 'a slash in a pattern' 'one 0 rest 181' 'one: output ~ /\/B/'
counted 'an outcome' 'one 181 rest 0' 'one: outcome = silent'
counted 'an end' 'one 0 rest 181' 'one: end = trapped'
# Numbers: the byte that is sent first is 65 or 66, the two of x2 are 410a, and the runs halt with 0 or 1 instead of 65.
counted 'a byte' 'one 96 rest 85' 'one: output as u8 > 65'
counted 'a byte near the right one' 'one 181 rest 0' 'one: output[0:1] as u8 within 1 of golden'
counted 'a byte within a part of the right one' 'one 85 rest 96' 'one: output as u8 within 1.5% of golden'
counted 'a byte within a larger part' 'one 181 rest 0' 'one: output as u8 within 1.54% of golden'
counted 'a byte far from the right one' 'one 96 rest 85' 'one: output as u8 not within 1% of golden'
counted 'two bytes, the lowest first' 'one 24 rest 157' 'one: output[0:2] as u16 = 0x0a41'
counted 'two bytes, named so' 'one 24 rest 157' 'one: output[0:2] as u16le = 0x0a41'
counted 'two bytes, the highest first' 'one 24 rest 157' 'one: output[0:2] as u16be = 0x410a'
counted 'a byte that most do not send' 'one 24 rest 157' 'one: output[1:2] as i8 >= -128'
counted 'nor is it not within' 'one 0 rest 181' 'one: output[1:2] as i8 not within 5 of 10'
counted 'a value near the right one' 'one 40 rest 141' 'one: halt within 64 of golden'
counted 'a signed value' 'one 141 rest 40' 'one: halt as i32 < 1 and halt as i32 > -1'
counted 'the right number' 'one 0 rest 181' 'one: halt as u32 = golden'
printf '%s\n' 'one: output[0:2] as u16 within 1 of golden' >one.classes
gives 'a number that the right output does not have' 1 '' 'where.py: output[0:2]: the run without a fault sends 1 bytes' \
    where "${asked[@]}" --classes one.classes
# Dead sites too have no effect: 8596 sites, which send A and halt with 65 as the run without a fault does.
counted 'sites of no effect' 'b 96 rest 85 right 8596' 'right: output = golden and halt = golden' 'b: output ~ /B/' 'of silent + no-effect'

# refused LINE COMPLAINT: a file of classes with this line.
refused() { printf '%s\n' "$1" >bad.classes && gives "classes: $1" 1 '' "where.py: bad.classes: line 1: $2" where "${asked[@]}" --classes bad.classes; }
manner='NAME: CONDITION [and CONDITION ..], `of OUTCOME [+ OUTCOME ..]` or `rest`'
refused 'Opened: output ~ /B/' "expected $manner, found 'Opened: output ~ /B/'"
refused 'opened' "expected $manner, found 'opened'"
refused 'opened:' "expected a condition such as output ~ /BAD/ or halt = 45063, found ''"
refused 'opened: output ~ B' "expected a condition such as output ~ /BAD/ or halt = 45063, found 'output ~ B'"
refused 'opened: output ~ /B/ or halt = 1' "expected \`and\` or the end of the line, found 'or halt = 1'"
refused 'opened: output ~ /(/' '/(/: missing ), unterminated subpattern at position 0'
refused 'opened: output = 4' "expected golden or bytes in lower-case hexadecimal digits, found '4'"
refused 'opened: halt = one' "expected golden or a number, decimal or hexadecimal, found 'one'"
types='u8, i8, u16, i16, u32 or i32, with le (which may be left out) or be at the end'
refused 'opened: output > 5' "expected a type after output, such as output[0:2] as i16: $types"
refused 'opened: output as u24 > 5' "expected $types, found 'u24'"
refused 'opened: output[0:3] as u16 > 5' 'output[0:3] as u16: expected a range of 2 bytes'
refused 'opened: output[2:1] as u8 > 5' 'output[2:1] as u8: expected a range of 1 bytes'
refused 'opened: output as i8 > 128' '128 is no number of the type: no answer can have it'
refused 'opened: output as u8 > -1' '-1 is no number of the type: no answer can have it'
refused 'opened: output as u8 > 0y1' "expected golden or a number, decimal or hexadecimal, found '0y1'"
refused 'opened: halt[0:4] as u32 > 5' 'expected halt without a range: it is one number of four bytes'
refused 'opened: halt as u16 > 5' "expected halt as u32 or i32, found 'u16'"
refused 'opened: halt within 3' "expected a condition such as output ~ /BAD/ or halt = 45063, found 'halt within 3'"
refused 'opened: end = stopped' "expected one of halted, detected, trapped, limit, found 'stopped'"
refused 'opened: outcome = bad' "expected one of no-effect, silent, detected, illegal, address, misaligned, timeout, found 'bad'"
refused 'silent: halt = 1' "expected a name that no other class and no outcome has, found 'silent'"
refused 'rest: halt = 1' "expected a name that no other class and no outcome has, found 'rest'"
refused 'of silent + sites' "expected outcomes, each once, of no-effect, silent, detected, illegal, address, misaligned, timeout, found 'sites'"
printf 'rest\nopened: halt = 1\n' >bad.classes
gives 'a class behind the rest' 1 '' "where.py: bad.classes: line 2: expected nothing after \`rest\`, found 'opened: halt = 1'" where "${asked[@]}" --classes bad.classes
echo '# none' >bad.classes
gives 'no class' 1 '' "where.py: bad.classes: expected $manner, found no class" where "${asked[@]}" --classes bad.classes
gives 'a file that is missing' 1 '' 'where.py: none: No such file or directory' where "${asked[@]}" --classes none
gives 'a class that is none' 1 '' "where.py: no class is called 'shut'; there are opened, longer, value, rest" where "${asked[@]}" --classes some.classes --class shut
where "${asked[@]}" --classes some.classes --open B >out.txt 2>err.txt
same 'both forms' 'status 2, where.py: error: --open and --end cannot be combined with --classes' "status $?, $(tail -n 1 err.txt)"

# --- The short form -------------------------------------------------------------------------------

short() { sed -n '/^opened .*%/p' <(where "${asked[@]}" "$@" | head -n 6); }
same 'an output and a value' 'opened           21  0.234 %' "$(short --open 'A\Z' --end 0)"
same 'a value alone' 'opened           40  0.446 %' "$(short --end 1)"
same 'a value in hexadecimal' 'opened           40  0.446 %' "$(short --end 0x1 --open .)"

# --- Budgets and receipts -------------------------------------------------------------------------

printf '%s\n' 'opened = 96' 'opened in finish <= 95' 'value in load = 40' 'opened + longer <= 120' 'silent = 181' >answers.budget
gives 'a budget of classes' 1 'rule                    found  verdict
opened = 96                96    holds
opened in finish <= 95     96   broken
value in load = 40         40    holds
opened + longer <= 120    120    holds
silent = 181              181    holds' '' \
    budget answers.budget t=image.elf,before.csv --trace trace.txt --ram $ram --classes some.classes --receipt receipt.json --sarif sarif.json
same 'the receipt has the classes' "some.classes $(sha256sum some.classes | cut -d' ' -f1) 96 24 40 21" "$(python3 -c 'import json
found = json.load(open("receipt.json"))
print(*found["classes"].values(), *found["tables"][0]["classes"].values())')"
same 'what does not hold' 't: opened in finish is 96, and the budget says opened in finish <= 95; 64 sites at this line' "$(sarif sarif.json)"
gives 'a class without classes' 2 '' 'check.py: answers.budget: line 1: the table has no count of opened; it has instructions, sites, no-effect, silent, detected, illegal, address, misaligned, timeout' \
    budget answers.budget t=image.elf,before.csv --trace trace.txt --ram $ram
printf '%s\n' 'instructions 8' 'sites 8960' 'no-effect 8596' 'silent 181' 'detected 1' 'illegal 0' 'address 172' 'misaligned 10' 'timeout 0' >report.txt
gives 'classes of a report' 2 '' 'check.py: report.txt: a report does not have answers: --classes needs a campaign file or a table of jobs' \
    budget answers.budget report.txt --classes some.classes

# --- Beside a campaign file -----------------------------------------------------------------------

# A program that writes the table, the trace and the report of any campaign file, and says each call.
cat >judge <<END
#!/bin/sh
PATH=$everything
cd "$folder"
case "\$1 \$*" in "trace "*) cat trace.txt ;; *json*) echo '{"address":172,"detected":1,"illegal":0,"instructions":8,"misaligned":10,"no_effect":8596,"silent":181,"sites":8960,"timeout":0}' ;; *) cat before.csv ;; esac
END
mv bin/fail_replay counted_replay
cat >bin/fail_replay <<END
#!/bin/sh
echo called >>"$folder/calls"
exec "$folder/counted_replay" "\$@"
END
chmod +x judge bin/fail_replay
python3 -B -c 'import sys, keep_file, keep_files
case = keep_files.case_of()
with open(f"{sys.argv[1]}/some.keep", "wb") as file:
    file.write(keep_file.header(case) + keep_file.batch([(2, 2, bit, 1) for bit in range(9)]) + b"\0")' "$folder"
# One worker calls fail_replay once for all jobs.
compared() { tool compare some.keep --program ./judge --classes some.classes --workers 1 "$@"; }
table='campaign  limit  RAM  exit  instructions  sites  no-effect  silent  detected  illegal  address  misaligned  timeout  opened  longer  value  rest  silent ratio  opened ratio
some         60   16    65             8   8960       8596     181         1        0      172          10        0      96      24     40    21             1             1'
gives 'a comparison' 0 "$table" '' compared
same 'replays are made' called "$(cat calls)"
check 'they are kept' "$([ -s some.keep.answers ] && echo yes)"
gives 'the same again' 0 "$table" '' compared --replay ./none
same 'without a replay' called "$(cat calls)"
# Several workers give the same answers in the same order, each by calls for a part of the jobs.
cp some.keep.answers by_one.answers
rm some.keep.answers && : >calls
gives 'four workers' 0 "$table" '' compared --workers 4
same 'their answers' "$(cat by_one.answers)" "$(cat some.keep.answers)"
check 'their calls' "$([ "$(nproc)" -eq 1 ] || [ "$(wc -l <calls)" -gt 1 ] && echo yes)"
# If a call fails, its line is the tool's, and the others are ended; so they are by an interrupt. Each call here says its number and waits.
mv bin/fail_replay asked_replay && rm some.keep.answers
cat >bin/fail_replay <<END
#!/bin/sh
case "\$*" in *" 7 "*" --rom"*) [ -e interrupted ] || { echo 'memory ran out' >&2; exit 9; } ;; esac
echo \$\$ >>"$folder/waiting"
exec "$(command -v sleep)" 60
END
chmod +x bin/fail_replay
# at_work: how many of the calls go on.
at_work() { local number left=0; while read -r number; do kill -0 "$number" 2>/dev/null && left=$((left + 1)); done <waiting; echo "$left"; }
: >waiting
gives 'a call that fails' 1 '' 'compare.py: some.keep: fail_replay: memory ran out' compared --workers 4
same 'no call goes on' 0 "$(at_work)"
touch interrupted && : >waiting
# On a busy machine the first interrupt may come before the calls.
for seconds in 3 30; do
    PATH=$few timeout --preserve-status -s INT $seconds "$python" -S tools/compare.py some.keep --program ./judge --classes some.classes --workers 4 >out.txt 2>err.txt
    status=$?
    [ ! -s waiting ] || break
done
same 'an interrupt' '130 yes 0' "$status $([ -s waiting ] && echo yes) $(at_work)"
mv asked_replay bin/fail_replay && rm interrupted && echo called >calls && cp by_one.answers some.keep.answers
printf '\0' >>some.keep
gives 'another campaign file' 0 "$table" '' compared
same 'replays are made anew' $'called\ncalled' "$(cat calls)"
for change in 's/^end.*//' 's/^answer 42/answer 43/;s/^end 1/end 2/' '1s/.$/x/' '/^answer/d' '2s/$/ x/'; do
    sed -i "$change" some.keep.answers
    gives "answers that were changed by $change" 0 "$table" '' compared
done
same 'made anew each time' 7 "$(wc -l <calls)"
# What is damaged and what an older version wrote, whose lines are otherwise as they must be; the last two have a right sum.
summed() { sed -i '/^sum /d' some.keep.answers && echo "sum $(sha256sum some.keep.answers | cut -d' ' -f1)" >>some.keep.answers; }
again() { : >calls && compared >out.txt 2>err.txt; same "$1" "$table, called, " "$(cat out.txt), $(cat calls), $(cat err.txt)"; }
cp some.keep.answers right.answers
same 'the last lines' "end 125 sum $(sed '/^sum /d' right.answers | sha256sum | cut -d' ' -f1)" "$(tail -n 2 right.answers | paste -sd' ')"
same 'rows are in job order' "$(grep '^[0-9]' right.answers | sort -n -k1,1 -k2,2 -k3,3)" "$(grep '^[0-9]' right.answers)"
sed -i 's/^answer 42/answer 43/' some.keep.answers && again 'a bit of an answer'
sed -i '0,/^6 4 0 /s/^\(6 4 0\) .*/\1 0/' some.keep.answers && again 'a row with the number of another answer'
sed -i '/^sum /d; 1s/answers 2/answers 1/' some.keep.answers && again 'a file of an older version'
sed -i '/^sum /d' some.keep.answers && again 'a file without its sum'
echo more >>some.keep.answers && again 'text behind the end'
printf '\0' >>some.keep.answers && again 'a byte behind the end'
sed -i '/^6 4 0 /{p;s/ [0-9]*$/ 0/};s/^end .*/end 182/' some.keep.answers && summed && again 'a row twice, with two answers'
sed -i '/^6 4 0 /{h;d};/^6 4 1 /G' some.keep.answers && summed && again 'rows in another order'
: >calls
gives 'a sound file' 0 "$table" '' compared
same 'it is not made again' '' "$(cat calls)"
check 'it is the same file' "$(cmp -s right.answers some.keep.answers && echo yes)"
# A rule that does not hold must not hold by a bit of that file.
echo 'opened = 0' >opened.budget
verdict() { tool check opened.budget some.keep --program ./judge --classes some.classes 2>err.txt | tail -n 1; }
same 'a broken rule' 'opened = 0     96   broken' "$(verdict)"
sed -i 's/^answer 42/answer 43/' some.keep.answers
same 'the same with a damaged file' 'opened = 0     96   broken' "$(verdict)"
# No link is followed, and no pipe is waited for.
echo mine >victim && cp victim other.txt
rm some.keep.answers && ln -s victim some.keep.answers && again 'a link'
check 'what the link points to is as it was' "$(cmp -s victim other.txt && echo yes)"
check 'the link is replaced' "$([ -f some.keep.answers ] && [ ! -L some.keep.answers ] && cmp -s right.answers some.keep.answers && echo yes)"
cp right.answers elsewhere && rm some.keep.answers && ln -s elsewhere some.keep.answers && again 'a link to answers'
rm some.keep.answers && mkfifo some.keep.answers && again 'a pipe'
check 'the pipe is replaced' "$(cmp -s right.answers some.keep.answers && echo yes)"
same 'nothing else is left beside it' 'some.keep some.keep.answers' "$(find . -maxdepth 1 -name '*some.keep*' -printf '%f\n' | sort | paste -sd' ')"
rm some.keep.answers && mkdir some.keep.answers
gives 'a folder that takes no file' 0 "$table" '' compared
rm -r some.keep.answers
gives 'a report' 1 '' 'compare.py: report.txt: a report does not have answers: --classes needs a campaign file' tool compare report.txt --classes some.classes
gives 'the page' 0 '' '' tool report some.keep --program ./judge --classes some.classes -o page.html
# Of x2 the bits 0 to 7 and 16 to 31; three bytes; and 21 sites of x3, of the first byte and of x1.
same 'the areas of the page by class' 'class-longer 2 class-opened 96 class-rest 3 class-value 3' "$(python3 -B - <<'END'
import collections, re
text = open("page.html", encoding="utf-8").read()
marks = re.findall(r'<title>[^<]*bits? ([0-9to, ]+), cycles? (\d+)(?: to (\d+))?: (longer|opened|rest|value)</title>', text)
sites = collections.Counter()
for ranges, start, end, name in marks:
    assert f'<g class="class-{name}">' in text
    for bits in ranges.split(", "):
        first, _, last = bits.partition(" to ")
        sites[name] += (int(last or first) + 1 - int(first)) * (int(end or start) + 1 - int(start)) if name == "opened" else 1
print(*(f"class-{name} {count}" for name, count in sorted(sites.items())))
END
)"
same 'the bars of the page' '96 24 40 21' "$(python3 -B -c 'import re
print(*re.findall(r"class=\"class-[a-z]+ bar\" data-sites=\"(\d+)\"", open("page.html", encoding="utf-8").read()))')"
same 'silent is no colour of its map' 0 "$(grep -c '<g class="silent">' page.html)"
gives 'a page without a campaign file' 1 '' 'report.py: before.csv: --classes needs a campaign file as the table, or --keep with --trace' \
    tool report before.csv --classes some.classes -o page.html

# --- Examples -------------------------------------------------------------------------------------

if [ -n "$program" ] && [ -n "$real_replay" ]; then
    built=$top/examples/built
    PATH=$everything
    for pair in boot:64 boot_twice:64 boot_wide:64 boot_both:64 boot_steps:64 frame:64 frame_detect:64; do
        name=${pair%:*}
        region=0x80000000:${pair#*:}
        classes=$top/examples/${name%%_*}.classes
        "$program" run "$built/$name.elf" $name.keep --ram $region >$name.txt && "$program" report "$built/$name.elf" $name.keep --ram $region --format csv >$name.csv
        python3 -B tools/where.py "$built/$name.elf" $name.keep --classes "$classes" --program "$program" --replay "$real_replay" --format json >$name.json
        first=$(grep -o '^[a-z]*:' "$classes" | head -n 1)
        [[ $name == boot* ]] && pattern='^([0-9a-f][0-9a-f])*42' || pattern='^[0-9a-f][0-9a-f][0-9a-f][0-9a-f]$'
        right=$("$program" trace "$built/$name.elf" --ram $region | sed -n 's/^output //p')
        awk -F, 'NR > 1 && ($5 == "silent" || $5 == "detected") { print $4, $1, $2, $3, $5 }' $name.csv >jobs.txt
        cut -d' ' -f2-4 jobs.txt | xargs -n 1500 echo | while read -r sites; do
            # shellcheck disable=SC2086
            "$real_replay" --brief "$built/$name.elf" $sites --ram $region
        done | sed -n 's/^output //p' >said.txt
        only=silent
        grep -q '^of .*detected' "$classes" && only='silent|detected'
        wanted=$(paste -d' ' jobs.txt said.txt | awk -v pattern="$pattern" -v right="$right" -v only="^($only)$" \
            '$5 ~ only && $6 ~ pattern && $6 != right { sites += $1 } END { print sites + 0 }')
        same "$name: ${first%:} beside awk" "$wanted" "$(python3 -c 'import json, sys; found = json.load(open(sys.argv[1])); print(found["classes"][found["class"]]["sites"])' $name.json)"
    done

    # A sweep with classes that have the names of styles of a page: each has bars with a colour of its own.
    printf '%s\n' 'over: output ~ /O/' 'dead: halt = 0' 'rest' >styles.classes
    # shellcheck disable=SC2016
    python3 -B tools/sweep.py --into styled --variant pin_open --build "cp '$built'/\$VARIANT.elf \"\$IMAGE\"" --classes styles.classes \
        --page styled.html --program "$program" --replay "$real_replay" -- --ram 0x80000000:64 >out.txt 2>err.txt
    same 'a sweep with classes' 'status 0, ' "status $?, $(cat err.txt)"
    same 'the colours of its bars' 'silent #b9460a #f8b47a plain
class-over #d55e00 #d55e00 plain
class-dead #cc79a7 #cc79a7 hatch-slant
class-rest #009e73 #009e73 hatch-upright' "$(python3 -B "$tests/page_colours.py" styled.html 2>&1 | grep -E '^(silent|class)')"
else
    echo "skipped: the examples with classes need fail_star and fail_replay"
fi

echo "$passed passed, $failed failed"
[ "$failed" -eq 0 ]
