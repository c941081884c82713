#!/usr/bin/env bash
# The answers of a whole campaign by one call of fail_answers: which call the tools make, and when they replay instead; that
# both ways give the same; programs that fail, are cut off or say something else; memory; and the examples, both ways.
# usage: answers.sh [PROGRAM [REPLAY [ANSWERS]]]
# Without ANSWERS a stand-in that replays runs the examples.
set -u
command -v python3 >/dev/null || { echo "skipped: tools needs python3"; exit 0; }
real_replay=${2:+$(realpath "$2")}
real_answers=${3:+$(realpath "$3")}
. "$(dirname "$0")/hand_made.sh" "${@:1:1}"

# A program that writes the table, the trace and the report of any campaign file.
cat >judge <<END
#!/bin/sh
PATH=$everything
cd "$folder"
case "\$1 \$*" in "trace "*) cat trace.txt ;; *json*) echo '{"address":172,"detected":1,"illegal":0,"instructions":8,"misaligned":10,"no_effect":8596,"silent":181,"sites":8960,"timeout":0}' ;; *) cat before.csv ;; esac
END
# The programs say each call and its words.
fake_replay
fake_answers
for name in fail_replay fail_answers; do
    mv bin/$name real_$name
    printf '#!/bin/sh\necho "%s $*" >>"%s/calls"\nexec "%s/real_%s" "$@"\n' $name "$folder" "$folder" $name >bin/$name
done
chmod +x judge bin/*
python3 -B -c 'import keep_file, keep_files
with open("some.keep", "wb") as file:
    file.write(keep_file.header(keep_files.case_of()) + keep_file.batch([(2, 2, bit, 1) for bit in range(9)]) + b"\0")'
case='--rom 0x20000000:64 --ram 0x80000000:16 --limit 60'
printf '%s\n' 'opened: output ~ /B/' 'longer: output ~ /^A\x0a$/' 'value: halt = 1' >some.classes
cp some.classes more.classes && echo 'of silent + detected' >>more.classes
# called: which programs were called since the last time, and how often. A call of fail_answers is shown with its words.
called() { sed 's/^\(fail_replay\) .*/\1/; s/ [^ ]*\.elf / IMAGE /' calls 2>/dev/null | uniq | paste -sd ';'; rm -f calls; }
compared() { tool compare some.keep --program ./judge --classes "${classes:-some.classes}" --workers 1 "$@"; }
one="IMAGE some.keep --outcome silent --workers 1 $case"

# --- Which program is called ----------------------------------------------------------------------

compared --replay bin/fail_replay >replayed.txt 2>err.txt
same 'with --replay alone, replays' "fail_replay" "$(called)"
mv some.keep.answers replayed.answers
gives 'in one call' 0 "$(cat replayed.txt)" '' compared
same 'its words' "fail_answers ${one/IMAGE/$(sed -n 's/.* \(\/[^ ]*\) some.keep .*/\1/p' calls 2>/dev/null | head -n 1)}" "$(cat calls 2>/dev/null)"
called >/dev/null
check 'the same file beside the campaign file' "$(cmp replayed.answers some.keep.answers && echo yes)"
gives 'from the file' 0 "$(cat replayed.txt)" '' compared --answers ./none --replay ./none
same 'without a call' '' "$(called)"
classes=more.classes compared >with_detected.txt 2>err.txt
same 'only the outcome that is missing' "fail_answers ${one/silent/detected}" "$(called | sed 's/fail_answers [^ ]*/fail_answers IMAGE/')"
mv some.keep.answers both.answers
classes=more.classes compared >out.txt 2>err.txt
same 'both outcomes' "fail_answers ${one/silent/silent,detected}" "$(called | sed 's/fail_answers [^ ]*/fail_answers IMAGE/')"
check 'the same file as in two calls' "$(diff <(sed '/^answer/d;/^sum/d' both.answers | cut -d' ' -f1-3) <(sed '/^answer/d;/^sum/d' some.keep.answers | cut -d' ' -f1-3) && cmp with_detected.txt out.txt && echo yes)"
rm -f some.keep.answers calls
gives 'another program of this name' 0 "$(cat replayed.txt)" '' compared --answers ./real_fail_answers --replay ./none
same 'and no other' '' "$(called)"
rm some.keep.answers
gives 'a program that is missing' 1 '' 'compare.py: some.keep: ./none: No such file or directory' compared --answers ./none
mv bin/fail_answers hidden
gives 'a release without the program' 0 "$(cat replayed.txt)" '' compared
same 'replays instead' 'fail_replay' "$(called)"
mv hidden bin/fail_answers && rm some.keep.answers
# A part of the run, and a table without its campaign file, are replayed.
compared --cycles 0..7 >part.txt 2>err.txt
same 'a part' 'fail_replay' "$(called)"
rm some.keep.answers
where image.elf before.csv --trace trace.txt --ram $ram --disassembler none --classes some.classes >table.txt 2>err.txt
same 'a table' 'fail_replay' "$(called)"

# --- All tools ------------------------------------------------------------------------------------

export SOURCE_DATE_EPOCH=0
printf '%s\n' 'opened = 96' 'opened in finish <= 95' 'value in load = 40' 'opened + longer <= 120' >answers.budget
database() { python3 -c 'import sqlite3
rows = sqlite3.connect("all.db").execute("select * from classes order by cycle, cell, bit").fetchall()
print(len(rows), hash(tuple(map(str, rows))))'; }
# sent TOOL: the output of a tool for this campaign, by the options that follow.
sent() {
    case $1 in
    where) where image.elf some.keep --program ./judge --classes some.classes --disassembler none "${@:2}" ;;
    open) where image.elf some.keep --program ./judge --open B --disassembler none "${@:2}" ;;
    compare) compared "${@:2}" ;;
    check) tool check answers.budget image.elf,some.keep --program ./judge --classes some.classes "${@:2}" ;;
    report) tool report some.keep --program ./judge --classes some.classes -o page.html "${@:2}" && cat page.html ;;
    sql) rm -f all.db && tool sql some.keep all.db image.elf --program ./judge --classes some.classes "${@:2}" && PYTHONHASHSEED=0 database ;;
    esac
}
for tool in where open compare check report sql; do
    rm -f some.keep.answers calls
    sent $tool --replay bin/fail_replay >by_replays.txt 2>err.txt
    status="$? $(cat err.txt)" && mv some.keep.answers by_replays.answers
    same "$tool by replays" 'fail_replay' "$(called)"
    sent $tool >by_one.txt 2>err.txt
    same "$tool, the status" "$status" "$? $(cat err.txt)"
    same "$tool in one call" 1,0 "$(grep -c '^fail_answers .* --outcome silent ' calls),$(grep -c fail_replay calls)"
    check "$tool, the same output" "$([ -s by_one.txt ] && diff by_replays.txt by_one.txt >diff.txt && echo yes || head -n 5 diff.txt)"
    check "$tool, the same file beside it" "$(cmp by_replays.answers some.keep.answers && echo yes)"
done

# --- Programs that cannot be taken ----------------------------------------------------------------

# The file that is there belongs to another campaign file, so it is not read, and it must stay.
sed '1s/ [0-9a-f]*$/ 00/' replayed.answers >some.keep.answers && cp some.keep.answers before.answers
./real_fail_answers i k --outcome silent >right.txt
first=$(head -n 1 right.txt)
# refused NAME LINE SCRIPT: a program that does this instead, whose complaint is this one.
refused() {
    printf '#!/bin/sh\nPATH=%s\ncd "%s"\n%s\n' "$everything" "$folder" "$3" >bin/fail_answers
    gives "$1" 1 '' "compare.py: some.keep: $2" compared
    check "$1: the file stays" "$(cmp some.keep.answers before.answers && echo yes)"
}
expected='fail_answers: expected the answer of cycle'
another="fail_answers: it wrote more than was expected: $folder/bin/fail_answers is another program"
meaning='There was not enough memory.'
refused 'one that fails' "fail_answers: out of memory
  $meaning" 'echo "out of memory" >&2; exit 9'
refused 'one that fails in the middle' "fail_answers: out of memory
  $meaning" 'head -n 50 right.txt; echo "out of memory" >&2; exit 9'
refused 'one that fails within a line' "fail_answers: out of memory
  $meaning" 'head -c 1000 right.txt; echo "out of memory" >&2; exit 9'
refused 'one that fails at the end' "fail_answers: out of memory
  $meaning" 'cat right.txt; echo "out of memory" >&2; exit 9'
refused 'one that is killed' 'fail_answers: no line, status -9' 'head -n 50 right.txt; kill -9 $$'
refused 'one that ends without a line' 'fail_answers: no line, status 3' 'exit 3'
refused 'words that it does not know' "fail_answers: usage: fail_answers IMAGE KEEP [options]
  The words are not a valid command: its files come directly after it, then the options, each at most once.
  These words are a valid command: the line came from another one." 'echo "usage: fail_answers IMAGE KEEP [options]" >&2; exit 1'
refused 'one that says nothing' "$expected 2 cell 2 bit 0, found the end" 'exit 0'
refused 'one that is cut off' "$expected $(sed -n '51s/^\([0-9]*\) \([0-9]*\) \([0-9]*\) .*/\1 cell \2 bit \3/p' right.txt), found the end" 'head -n 50 right.txt'
refused 'one that is cut off within a line' "$expected 2 cell 2 bit 0, found '${first% *}'" "printf '${first% *}'"
refused 'an end of a line that is missing' "$expected 2 cell 2 bit 0, found '$first'" "printf '$first'"
refused 'one that says too much' "$another" "cat right.txt; echo '$first'"
refused 'one that says a job twice' "$expected 2 cell 2 bit 1, found '$first'" 'sed "1p" right.txt'
refused 'one that omits a job' "$expected 2 cell 2 bit 0, found '$(sed -n 2p right.txt)'" 'sed 1d right.txt'
refused 'the table itself' "$expected 2 cell 2 bit 0, found 'cycle,cell,bit,weight,outcome'" 'cat before.csv'
refused 'another outcome' 'the table says silent of cycle 2 cell 2 bit 0, and its replay timeout: they belong to different campaigns' "sed 's/silent/timeout/' right.txt"
# line NAME CHANGE: a first line that is changed so.
line() { refused "$1" "$expected 2 cell 2 bit 0, found '$(sed "$2" <<<"$first")'" "sed '1$2' right.txt"; }
line 'another cycle' 's/^2/3/'
line 'another bit' 's/^2 2 0/2 2 1/'
line 'another weight' 's/^2 2 0 [0-9]*/2 2 0 9/'
line 'a number with a zero before it' 's/^2/02/'
line 'half a byte' 's/410a/410/'
line 'upper-case digits' 's/410a/410A/'
line 'no output' 's/410a//'
line 'another end' 's/halted 0/stopped/'
line 'a value with a zero before it' 's/halted 0/halted 00/'
line 'a word more' 's/$/ 1/'
line 'two blanks' 's/ / /;s/ /  /2'
printf '#!/bin/sh\nexec yes\n' >bin/fail_answers && sed -i "1a PATH=$everything" bin/fail_answers
gives 'one that never ends' 1 '' "compare.py: some.keep: $expected 2 cell 2 bit 0, found 'y'" compared
check 'the file stays there too' "$(cmp some.keep.answers before.answers && echo yes)"
printf '#!/bin/sh\necho $$ >"%s/waiting"\nexec "%s" 60\n' "$folder" "$(command -v sleep)" >bin/fail_answers
# On a busy machine the first interrupt may come before the call.
for seconds in 3 30; do
    PATH=$few timeout --preserve-status -s INT $seconds "$python" -S tools/compare.py some.keep --program ./judge --classes some.classes >out.txt 2>err.txt
    status=$?
    [ ! -s waiting ] || break
done
same 'an interrupt' '130 called ended' "$status $([ -s waiting ] && echo called) $(kill -0 "$(cat waiting)" 2>err.txt || echo ended)"
check 'the file stays after it' "$(cmp some.keep.answers before.answers && echo yes)"
same 'nothing else is left beside it' 'some.keep some.keep.answers' "$(find . -maxdepth 1 -name '*some.keep*' -printf '%f\n' | sort | paste -sd' ')"

# --- The line of progress -------------------------------------------------------------------------

printf '#!/bin/sh\nPATH=%s\ncd "%s"\nhead -n 100 right.txt; sleep 4; tail -n +101 right.txt\n' "$everything" "$folder" >bin/fail_answers
shown=$(PATH=$everything python3 -B - "$python" <<'END'
import os, pty, sys
said = bytearray()
def read(handle):
    found = os.read(handle, 1024)
    said.extend(found)
    return b""
os.environ["PATH"] = os.path.abspath("bin")
stdout = os.dup(1)
os.dup2(os.open(os.devnull, os.O_WRONLY), 1)
pty.spawn([sys.argv[1], "-S", "tools/compare.py", "some.keep", "--program", "./judge", "--classes", "some.classes"], read, lambda handle: b"")
os.dup2(stdout, 1)
print(*[word for word in said.decode().replace("\x1b[K", "\r").split("\r") if "answered" in word][:1])
END
)
check 'a line of progress' "$([[ $shown =~ ^1[0-9][0-9]\ of\ 125\ runs\ answered$ ]] && echo yes || echo "$shown")"

# --- Memory ---------------------------------------------------------------------------------------

# The tools take little more for many jobs than for few.
printf '#!/bin/sh\ncd "$(dirname "$0")"\n[ "$1" = trace ] && exec cat trace.txt\nexec cat table.csv\n' >star
printf '#!/bin/sh\nexec cat "$(dirname "$0")"/answers.txt\n' >answers
for jobs in 3200 96000; do
    mkdir $jobs && cp star answers $jobs && chmod +x $jobs/star $jobs/answers && PATH=$everything python3 -B "$tests/made_up.py" $jobs $jobs
done
# taken JOBS TOOL WORD..: the status, and the memory in MiB.
taken() { (cd "$1" && PATH=$everything timeout 300 python3 -B "$tests/made_up.py" run "$2" "${@:3}" --program ./star --answers ./answers 2>&1) && rm -f "$1"/made.keep.answers; }
for call in 'where made.elf made.keep --open A' 'where made.elf made.keep --classes ../some.classes' 'sql made.keep made.db made.elf --classes ../some.classes'; do
    # shellcheck disable=SC2086
    few_jobs=$(taken 3200 $call) many_jobs=$(taken 96000 $call)
    check "the memory of $call" "$([[ $few_jobs == '0 '* && $many_jobs == '0 '* ]] && [ $((${many_jobs#* } - ${few_jobs#* })) -lt 8 ] && echo yes || echo "$few_jobs and $many_jobs")"
done

# --- Examples -------------------------------------------------------------------------------------

if [ -n "$program" ] && [ -n "$real_replay" ]; then
    built=$top/examples/built
    PATH=$everything
    if [ -z "$real_answers" ]; then
        real_answers=$folder/answered
        printf '#!/bin/sh\nexec python3 -B "%s/answer_lines.py" "%s" "%s" "$@"\n' "$tests" "$program" "$real_replay" >"$real_answers" && chmod +x "$real_answers"
    fi
    printf '%s\n' 'changed: output != golden' 'value: halt != golden' 'of no-effect + silent + detected + illegal + address + misaligned + timeout' >every.classes
    for pair in boot:64 boot_both:64 frame:64 frame_detect:64; do
        name=${pair%:*} region=0x80000000:${pair#*:}
        "$program" run "$built/$name.elf" $name.keep --ram $region >$name.txt
        for classes in "$top/examples/${name%%_*}.classes" every.classes; do
            for way in answers:$real_answers replay:$real_replay; do
                rm -f $name.keep.answers
                python3 -B tools/where.py "$built/$name.elf" $name.keep --classes "$classes" --program "$program" --${way%%:*} "${way#*:}" --format json >${way%%:*}.json 2>err.txt
                same "$name by ${way%%:*}" '0 ' "$? $(cat err.txt)"
                mv $name.keep.answers ${way%%:*}.answers
            done
            check "$name, ${classes##*/}, the same both ways" "$(cmp answers.json replay.json && cmp answers.answers replay.answers && echo yes)"
        done
        # A campaign that is not finished has the jobs that are kept.
        "$program" run "$built/$name.elf" some_of_$name.keep --ram $region --stop-after 1 --page 500 >$name.txt 2>err.txt
        for way in answers:$real_answers replay:$real_replay; do
            rm -f some_of_$name.keep.answers
            python3 -B tools/where.py "$built/$name.elf" some_of_$name.keep --open . --program "$program" --${way%%:*} "${way#*:}" >${way%%:*}.txt 2>err.txt
            same "an unfinished $name by ${way%%:*}" '0 ' "$? $(cat err.txt)"
        done
        check "an unfinished $name, the same both ways" "$(cmp answers.txt replay.txt && echo yes)"
    done
    for way in answers:$real_answers replay:$real_replay; do
        # shellcheck disable=SC2016
        python3 -B tools/sweep.py --into by_${way%%:*} --variant pin --variant pin_open --build "cp '$built'/\$VARIANT.elf \"\$IMAGE\"" --classes every.classes \
            --program "$program" --${way%%:*} "${way#*:}" -- --ram 0x80000000:64 >${way%%:*}.txt 2>err.txt
        same "a sweep by ${way%%:*}" '0 ' "$? $(cat err.txt)"
    done
    check 'a sweep, the same both ways' "$([ -s answers.txt ] && cmp answers.txt replay.txt && echo yes)"
else
    echo "skipped: the examples need fail_star and fail_replay"
fi

echo "$passed passed, $failed failed"
[ "$failed" -eq 0 ]
