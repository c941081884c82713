#!/usr/bin/env bash
# Where silent sites are, by where.py: a table that was worked out by hand, with images, line tables and a trace made by hand; broken
# ones; what silent runs sent; the line tables of a compiler beside llvm-symbolizer's; and where programs are named the PIN check and other
# examples, beside awk and readelf.
# usage: where.sh [PROGRAM [REPLAY]]
set -u
[ $# -eq 0 ] || set -- "$(realpath "$1")" ${2:+"$(realpath "$2")"}
command -v python3 >/dev/null || { echo "skipped: where needs python3"; exit 0; }
. "$(dirname "$0")/hand_made.sh"
replay=${2:-}

places='silent: 181 of 8960 sites, 2.02 %

function  sites    share
finish       97   1.08 %
load         58  0.647 %
store        26  0.290 %

line       sites    share
a.c:9         65  0.725 %
inc/b.h:7     60  0.670 %
(no line)     32  0.357 %
a.c:3         24  0.268 %

instruction         sites     share
20000018  00408023     65   0.725 %
20000010  0001a203     58   0.647 %
2000001c  0040a423     32   0.357 %
20000008  0021a023     24   0.268 %
2000000c  000180a3      2  0.0223 %

register  sites     share
x4 tp        96    1.07 %
x2 sp        24   0.268 %
x3 gp         4  0.0446 %
x1 ra         1  0.0112 %

variable    sites    share
0x80000000     32  0.357 %
low            24  0.268 %'
no_words='instructions are shown as machine words: no riscv64-unknown-elf-objdump or llvm-objdump was found (--disassembler)'
for image in image two zipped; do
    gives "where it hurts, by $image.elf" 0 "$places

$no_words" '' where $image.elf before.csv --trace trace.txt --ram $ram
done
image twins.elf names twins
gives 'two variables of one name' 0 'a.c:low 24
0x80000000 16
b.c:low 16' '' awk '/^variable/ { on = 1; next } /^$/ { on = 0 } on { print $1, $2 }' <(where twins.elf before.csv --trace trace.txt)
gives 'a table on standard input' 0 "$places

$no_words" '' where image.elf - --trace trace.txt --ram 0x80000000:0x10 <before.csv
gives 'a trace on standard input' 0 "$places

$no_words" '' where image.elf before.csv --trace - --ram 2147483648:16 <trace.txt
gives 'other outcomes, the first rows alone' 0 'detected + address + misaligned: 183 of 8960 sites, 2.04 %

function  sites   share
store        90  1.00 %
(2 more)

line   sites    share
a.c:3     60  0.670 %
(3 more)

instruction         sites    share
20000008  0021a023     60  0.670 %
(4 more)

register  sites   share
x3 gp       120  1.34 %
(1 more)

'"$no_words" '' where image.elf before.csv --trace trace.txt --ram $ram --outcome misaligned --outcome detected --outcome address --outcome detected --top 1
gives 'no trace and no program' 0 'silent: 181 of 376 live sites, 48.1 %

register  sites    share
x4 tp        96   25.5 %
x2 sp        24   6.38 %
x3 gp         4   1.06 %
x1 ra         1  0.266 %

variable    sites   share
0x80000000     32  8.51 %
low            24  6.38 %

no functions, lines, instructions: the run without a fault is needed: --trace FILE, or fail_star by --program FILE
shares are of the live sites only: give the size of RAM by --ram BASE:SIZE' '' where image.elf before.csv
gives 'an image without names' 0 'silent: 181 of 8960 sites, 2.02 %

instruction         sites    share
20000018  00408023     65  0.725 %
(4 more)

register  sites   share
x4 tp        96  1.07 %
(3 more)

variable    sites    share
0x80000000     56  0.625 %

no functions: the image has no symbol table
no lines: the image has no line table: build it with -g
'"$no_words" '' where bare.elf before.csv --trace trace.txt --ram $ram --top 1
gives 'no site at all' 0 "timeout: 0 of 8960 sites, 0 %

$no_words" '' where image.elf before.csv --trace trace.txt --ram $ram --outcome timeout
gives 'JSON' 0 '{"by":{"function":[{"name":"finish","share":0.010825893,"sites":97}],"instruction":[{"function":"finish","line":"a.c:9","name":"20000018  00408023","pc":"20000018","share":0.007254464,"sites":65,"text":"00408023"}],"line":[{"name":"a.c:9","share":0.007254464,"sites":65}],"register":[{"name":"x4 tp","share":0.010714286,"sites":96}],"variable":[{"name":"0x80000000","share":0.003571429,"sites":32}]},"chosen":181,"notes":["'"$no_words"'"],"outcomes":["silent"],"share":0.020200893,"sites":8960}' '' \
    where image.elf before.csv --trace trace.txt --ram $ram --format json --top 1
all=$(where image.elf before.csv --trace trace.txt --ram $ram --format json)
same 'JSON has all rows' '3 4 5 4 2' "$(python3 -c 'import json, sys; by = json.load(sys.stdin)["by"]; print(*(len(by[kind]) for kind in "function line instruction register variable".split()))' <<<"$all")"

# A disassembler, as GNU's writes.
printf '#!/bin/sh\nprintf "\\n20000018 <finish+0x4>:\\n20000018:\\tsb\\ttp,0(ra) # f0000000 <low+0x70000000>\\n"\n' >bin/objdump && chmod +x bin/objdump
gives 'instructions in words' 0 '20000018  sb tp,0(ra) # f0000000 <low+0x70000000>     65   0.725 %' '' \
    grep 20000018 <(where image.elf before.csv --trace trace.txt --ram $ram --disassembler objdump)
printf '#!/bin/sh\necho "not me" >&2; exit 3\n' >bin/objdump
gives 'no words, as it was said' 0 "$places" '' where image.elf before.csv --trace trace.txt --ram $ram --disassembler none
gives 'a disassembler that fails' 1 '' 'where.py: objdump: not me' where image.elf before.csv --trace trace.txt --disassembler objdump
gives 'a disassembler that is missing' 1 '' 'where.py: ./missing: No such file or directory' \
    where image.elf before.csv --trace trace.txt --disassembler ./missing

# Before and after: 24 sites of x2 become detected.
sed 's/^2,2,\(.*\)silent/2,2,\1detected/' before.csv >after.csv
gives 'before and after' 0 'silent: 181 sites before, 157 after, -24

function  before  after  change
store         26      2     -24
finish        97     97      +0
load          58     58      +0

line       before  after  change
a.c:3          24      0     -24
(no line)      32     32      +0
a.c:9          65     65      +0
inc/b.h:7      60     60      +0

register  before  after  change
x2 sp         24      0     -24
x1 ra          1      1      +0
x3 gp          4      4      +0
x4 tp         96     96      +0

variable    before  after  change
0x80000000      32     32      +0
low             24     24      +0' '' where image.elf before.csv --trace trace.txt --diff two.elf after.csv --other-trace trace.txt
gives 'after and before, in JSON' 0 '{"after":181,"before":157,"by":{"register":[{"after":24,"before":0,"change":24,"name":"x2 sp"}],"variable":[{"after":56,"before":32,"change":24,"name":"0x80000000"}]},"change":24,"notes":["before: no functions, lines: the run without a fault is needed: --trace FILE, or fail_star by --program FILE","after: no functions: the image has no symbol table","after: no lines: the image has no line table: build it with -g"],"outcomes":["silent"]}' '' \
    where image.elf after.csv --diff bare.elf before.csv --other-trace trace.txt --top 1 --format json

# An older version, which knew no kinds of traps.
gives 'traps of an older version' 0 'trap: 182 of 376 live sites, 48.4 %' '' sed -n 1p <(where image.elf old.csv --outcome trap)
gives 'two kinds of traps' 0 'address + misaligned: 182 of 376 live sites, 48.4 %' '' \
    sed -n 1p <(where image.elf before.csv --outcome misaligned --outcome address)
gives 'trap, where there are kinds of it' 1 '' 'where.py: the table has illegal, address, misaligned in the place of trap' \
    where image.elf before.csv --outcome trap
gives 'a kind, where there is trap' 1 '' 'where.py: the table has trap in the place of illegal, address, misaligned' \
    where image.elf old.csv --outcome illegal
gives 'an outcome that is none' 1 '' \
    "where.py: no outcome is called 'silnt'; the table has no-effect, silent, detected, illegal, address, misaligned, timeout" \
    where image.elf before.csv --outcome silnt

# The pc: of its 64 flips 53 end as address and 4 as misaligned, and of x1's 30 and 2. There are 2 * (32 + 992 + 8 * 16) sites.
python3 -B "$tests/tables.py" pc >pc.csv
gives 'the pc among the registers' 0 'address + misaligned: 89 of 2304 sites, 3.86 %

register  sites   share
pc           57  2.47 %
x1 ra        32  1.39 %

no functions, lines, instructions: the run without a fault is needed: --trace FILE, or fail_star by --program FILE' '' \
    where image.elf pc.csv --ram $ram --outcome address --outcome misaligned

# Bad input of where.py.
bad() { gives "$1" 1 '' "where.py: $2" where "${@:3}"; }
header='cycle,cell,bit,weight,outcome'
bad 'an empty table' "standard input: line 1: expected $header, found the end" image.elf - </dev/null
bad 'the table of a plan' "standard input: line 1: expected $header, found 'cycle,cell,bit,weight'" image.elf - <<<$'cycle,cell,bit,weight\n1,1,0,1'
bad 'a table without jobs' 'standard input: line 2: expected a job, found the end' image.elf - <<<"$header"
bad 'a table that was cut within a cell' 'standard input: line 50: expected 2,3,16,2,, found the end' image.elf - < <(head -n 49 before.csv)
bad 'a missing bit' "standard input: line 4: expected 2,2,2,1, and an outcome, the next bit of this cell, found '2,2,3,1,silent'" \
    image.elf - < <(sed 4d before.csv)
bad 'a word that is none' "standard input: line 2: expected $header: four numbers and one of silent, timeout, illegal, address, misaligned, detected, no-effect, found '2,2,0,1,Silent'" \
    image.elf - < <(sed 's/silent/Silent/' before.csv)
bad 'an interval that begins too early' \
    "standard input: line 2: expected a weight of 1 to 3, since the sites before belong to an earlier job or are before cycle 0, found '2,2,0,4,silent'" \
    image.elf - < <(sed 's/^2,2,\(.*\),1,/2,2,\1,4,/' before.csv)
bad 'traps of two versions' "standard input: line 35: expected either trap, as an older version has it, or its kinds, found '2,3,1,2,trap'" \
    image.elf - < <(sed '/^2,3,1,/s/misaligned/trap/' before.csv)
bad 'a table that was cut between two reads' \
    'standard input: the last job reads at cycle 6, but the trace has 8 instructions: they belong to different campaigns, or the table was cut' \
    image.elf - --trace trace.txt < <(grep -v '^7,' before.csv)
bad 'a trace that is too short' 'before.csv: a job reads at cycle 7, but the trace has 7 instructions: they belong to different campaigns' \
    image.elf before.csv --trace <(sed '/^7 /d' trace.txt)
bad 'a trace without its end' '/dev/stdin: line 9: expected the lines of a trace, and then output, found the end' \
    image.elf before.csv --trace /dev/stdin < <(head -n 8 trace.txt)
bad 'a trace of a trap' "/dev/stdin: line 10: expected end halted and a value, since a table is of a run that halts, found 'end trapped'" \
    image.elf before.csv --trace /dev/stdin < <(sed 's/end.*/end trapped/' trace.txt)
bad 'a trace that skips' "/dev/stdin: line 4: expected instruction 3, found '4 20000010 0001a203'" \
    image.elf before.csv --trace /dev/stdin < <(sed 4d trace.txt)
bad 'no trace' "/dev/stdin: line 1: expected an instruction: its number, its address and its word, found 'instructions 8'" \
    image.elf before.csv --trace /dev/stdin <<<'instructions 8'
bad 'a trace of another program' 'the trace has the word 04200113 at 20000004 and the image 04100113: they belong to different programs' \
    image.elf before.csv --trace <(sed 's/04100113/04200113/' trace.txt)
bad 'a RAM that is too small' 'standard input: a job reads byte 4 of RAM, counted from 0, but --ram has 4 bytes' image.elf - --ram 0x80000000:4 \
    < <(sed 's/^4,35,/4,36,/' before.csv)
bad 'an image that is missing' 'missing.elf: No such file or directory' missing.elf before.csv
bad 'a table that is missing' 'missing.csv: No such file or directory' image.elf missing.csv
bad 'a table for an image' 'before.csv: it is not an ELF file' before.csv before.csv
head -c 400 image.elf >cut.elf
bad 'an image that was cut' 'cut.elf: its headers go past its end' cut.elf before.csv
bad 'an image for another processor' 'other.elf: it is not a 32-bit ELF file for RISC-V' \
    other.elf before.csv < <(sed 's/\xf3/\x3e/' image.elf >other.elf)
bad 'a program that is missing' 'the trace of image.elf: ./missing: No such file or directory' image.elf before.csv --program ./missing
sed 's/\x05\x00\x04\x00/\x06\x00\x04\x00/' image.elf >six.elf
gives 'a line table of a later version' 0 'no lines: a line table of DWARF version 6; this reader knows 2 to 5' '' \
    grep lines: <(where six.elf before.csv --trace trace.txt)
for option in '--top 0' '--top x' '--ram 4' '--ram x:4' '--ram 0x80000000:65540' '--ram 0x80000000:0' '--ram 0xfffffff0:32' '--ram 2:4' '--limit -1' '--format xml' '--diff image.elf'; do
    # shellcheck disable=SC2086
    where image.elf before.csv $option >out.txt 2>err.txt
    same "$option" 'status 2, out ' "status $?, out $(cat out.txt)"
done
where image.elf - --trace - </dev/null >out.txt 2>err.txt
same 'standard input twice' 'status 2, where.py: error: only one of the files can be standard input' "status $?, $(tail -n 1 err.txt)"
if [ -c /dev/full ]; then
    where image.elf before.csv >/dev/full 2>err.txt
    same 'a full device for the places' 'status 1, where.py: [Errno 28] No space left on device' "status $?, $(cat err.txt)"
fi

# What silent runs sent: by a replay that says of a flip of x4 that it sends B, of x2 two bytes, and of others what is right. Of x4 64 sites
# are read by the store to the port, and 32 by the one that halts; 61 sites are neither of x4 nor of x2, and 40 of bytes behind the first.
fake_replay
opened='silent: 181 of 8960 sites, 2.02 %

class         sites    share
opened           96   1.07 %
other output     24  0.268 %
same output      61  0.681 %

opened         sites   share
"B", halted 0     96  1.07 %

other output    sites    share
410a, halted 0     24  0.268 %

same output    sites    share
"A", halted 1     40  0.446 %
"A", halted 0     21  0.234 %

'"$places_of_x4"'

opened, in GDB: gdb-multiarch image.elf -ex '"'target remote | fail_debug image.elf 6 4 0 --ram $ram'"
asked=(image.elf before.csv --trace trace.txt --ram $ram --disassembler none)
gives 'what was sent' 0 "$opened" '' where "${asked[@]}" --open B
gives 'the same by the replay that is named' 0 "$opened" '' env PATH= "$python" -S tools/where.py "${asked[@]}" --open '[B-Z]' --replay bin/fail_replay
gives 'a pattern of bytes, in JSON' 0 '24 96 61 410a halted 0 x2 sp 24 24' '' python3 -c 'import json, sys
found = json.load(sys.stdin)
classes = found["classes"]
one = classes["opened"]["outputs"]
[row] = found["by"]["register"]
print(*(each["sites"] for each in classes.values()), one[0]["output"], one[0]["end"], row["name"], row["sites"], one[0]["sites"])' \
    < <(where "${asked[@]}" --open '\x0a$|A.$' --format json)
gives 'a pattern that the right output matches' 0 'opened           85  0.949 %
the run without a fault is in the class opened too: choose conditions that it does not meet' '' \
    grep -E '^opened   .*%$|without' <(where "${asked[@]}" --open '^A' --top 1 | grep -v '"')
gives 'all classes, where the first rows alone are asked for' 0 "$(sed -n 3,6p <<<"$opened")" '' sed -n 3,6p <(where "${asked[@]}" --open B --top 1)
# unsent NAME LINE REPLAY WORD..: a replay that cannot be taken.
unsent() {
    printf '#!/bin/sh\n%s\n' "$3" >bin/fail_replay
    gives "$1" 1 '' "where.py: $2" where "${asked[@]}" --open B "${@:4}"
}
record='printf "site 2 1 3\ndiffers pc - registers 2 output -\noutput 41\nend halted 0\noutcome silent\n"'
unsent 'a replay that fails' 'fail_replay: no such site: cycle 2 cell 1 bit 3
  the run without a fault has no instruction 2, counted from 0: `fail_star trace` shows all that it has.' 'echo "no such site: cycle 2 cell 1 bit 3" >&2; exit 13'
unsent 'a replay without a line' 'fail_replay: no line, status 3' 'exit 3'
unsent 'a replay of nothing' 'fail_replay: expected the replay of cycle 2 cell 2 bit 0' 'exit 0'
unsent 'a replay of another site' 'fail_replay: expected the replay of cycle 2 cell 2 bit 0' "$record"
unsent 'a replay that was cut' 'fail_replay: expected the replay of cycle 2 cell 2 bit 1' "${record/2 1 3/2 2 0}"
record=${record/2 1 3/2 2 0}
unsent 'another outcome' 'the table says silent of cycle 2 cell 2 bit 0, and its replay timeout: they belong to different campaigns' "${record/silent/timeout}"
unsent 'a replay that is missing' './missing: No such file or directory' 'exit 0' --replay ./missing
# A table of an older version says trap for each kind.
printf '#!/bin/sh\nshift 2\nwhile [ $# -gt 2 ] && [ "$1" != --ram ]; do
    printf "site %%s %%s %%s\\ndiffers pc - registers - output -\\noutput -\\nend trapped\\noutcome address\\n" $1 $2 $3; shift 3
done\n' >bin/fail_replay
gives 'traps of an older table' 0 'opened          182  2.03 %' '' \
    grep '^opened .*%' <(where image.elf old.csv --trace trace.txt --ram $ram --outcome trap --open '^$' --top 1 --disassembler none | grep -v nothing)
rm bin/fail_replay
bad 'no replay' 'fail_replay, which runs jobs again, is not on the path: name it with --replay' "${asked[@]}" --open B
bad 'no trace for what was sent' 'to know what a run answers, the run without a fault is needed: --trace FILE, or fail_star by --program FILE' image.elf before.csv --open B
for option in '--open (' '--open *' '--open B --diff two.elf after.csv'; do
    # shellcheck disable=SC2086
    where image.elf before.csv $option >out.txt 2>err.txt
    same "$option" 'status 2, out ' "status $?, out $(cat out.txt)"
done

check 'help' "$(where --help | grep -q -e '--trace' && echo yes)"

# Line tables of other versions, as a compiler writes them.
PATH=$everything
if command -v clang >/dev/null && command -v ld.lld >/dev/null && command -v llvm-symbolizer >/dev/null && clang --print-targets 2>/dev/null | grep -q riscv32; then
    printf 'static int twice(int n) {\n    return n\n        * 2;\n}\nint count;\nvoid _start(void) {\n    for (int i = 0; i < 9; i++)\n        count += twice(i);\n}\n' >c.c
    for version in 3 4 5; do
        clang --target=riscv32 -march=rv32im -mabi=ilp32 -O1 -gdwarf-$version -ffreestanding -c c.c -o c.o 2>err.txt &&
            ld.lld -Ttext=0x20000000 c.o -o c.elf 2>>err.txt
        got=$(PYTHONPATH=tools python3 -B -c '
from fail_star_tools.read import elf_image, line_table
image = elf_image.read("c.elf")
table, text = line_table.lines_of(image), image.functions.of(0x20000000)
for pc in range(text.value, text.value + text.size, 4): print(table.of(pc))' 2>&1)
        count=$(wc -l <<<"$got")
        wanted=$(for ((at = 0; at < count; at++)); do printf '0x%x\n' $((0x20000000 + 4 * at)); done |
            llvm-symbolizer --obj=c.elf --functions=none --no-inlines --relativenames | sed '/^$/d; s/:[0-9]*$//; s/.*:0$/None/')
        same "the lines of DWARF $version" "$wanted" "$got"
        check "DWARF $version has lines" "$([ "$(sort -u <<<"$got" | wc -l)" -ge 3 ] && echo yes)"
    done
else
    echo "skipped: line tables of clang are compared with llvm-symbolizer's"
fi

# The PIN check, beside awk: the sites by the address that the trace has at a job's cycle, and by cells.
if [ -n "$program" ]; then
    built=$top/examples/built
    # known NAME OPTION..: files of a campaign that are NAME.keep, NAME.csv and NAME.trace; --pc is no option of trace.
    known() {
        local name=$1
        "$program" run "$built/$name.elf" $name.keep "${@:2}" >out.txt
        "$program" report "$built/$name.elf" $name.keep "${@:2}" --format csv >$name.csv
        # shellcheck disable=SC2046
        "$program" trace "$built/$name.elf" $(printf '%s\n' "${@:2}" | grep -vx -e --pc) >$name.trace
    }
    # rows KIND FIELD: what the tool says, the first word of a field with the sites.
    rows() { python3 -c 'import json, sys; [print(row[sys.argv[3]].split()[0], row["sites"]) for row in json.load(open(sys.argv[1]))["by"][sys.argv[2]]]' $name.json "$@" | sort; }
    join='NR == FNR { pc[$1] = $2; next } FNR > 1 { split($0, job, ","); if (job[5] == "address" || job[5] == "detected") sites[KEY] += job[4] }
        END { for (key in sites) print key, sites[key] }'
    both=(--outcome address --outcome detected --format json)
    # Only of a campaign file is it known which flips turn the address of one port into another's.
    without_flips() { sed -E 's/"port_flips":[0-9]+,//; s/"[0-9]+ of these sites turn[^"]*",?//; s/,\]/]/'; }
    for name in pin pin_twice; do
        known $name --ram 0x80000000:64
        PATH=$few "$python" -S tools/where.py "$built/$name.elf" $name.csv --trace $name.trace --ram 0x80000000:64 "${both[@]}" >$name.json
        same "$name by instructions" "$(awk "${join/KEY/pc[job[1]]}" $name.trace $name.csv | sort)" "$(rows instruction pc)"
        same "$name by registers" "$(awk "${join/KEY/\"x\" job[2]}" $name.trace $name.csv | sort | awk 'substr($1, 2) + 0 < 32')" "$(rows register name)"
        if command -v readelf >/dev/null; then
            # A function is the last symbol of the text before an address; these have no gap between them.
            readelf -sW "$built/$name.elf" | awk '$2 ~ /^2000/ && $8 !~ /^\$/ && $8 != "" && $4 != "SECTION" { print $2, $8 }' | sort >$name.symbols
            awk "${join/KEY/pc[job[1]]}" $name.trace $name.csv | sort | awk 'NR == FNR { at[++count] = $1; name[count] = $2; next }
                { for (n = count; at[n] > $1; n--); sites[name[n]] += $2 } END { for (key in sites) print key, sites[key] }' $name.symbols - | sort >wanted.txt
            same "$name by functions" "$(cat wanted.txt)" "$(rows function name)"
        fi
        same "the same of the campaign file of $name" "$(cat $name.json)" "$(PATH=$few "$python" -S tools/where.py "$built/$name.elf" $name.keep \
            --program "$program" "${both[@]}" | without_flips)"
        same "the same with a trace by the program, of $name" "$(cat $name.json)" "$(PATH=$few "$python" -S tools/where.py "$built/$name.elf" - \
            --program "$program" "${both[@]}" --ram 0x80000000:64 <$name.csv)"
    done
    # Flips that turn the address of one port into another's, beside the second machine.
    flips() { where "$built/$1.elf" $1.keep --program "$program" --outcome "$2" --format json | grep -oE '"port_flips":[0-9]+' | cut -d : -f 2; }
    # on_page NAME: the same of the silent and of the detected sites, as the page says them.
    on_page() {
        tool report $1.keep --program "$program" -o $1.html 2>err.txt
        for word in silent detected; do grep -oE "[0-9,]+ of the $word sites" $1.html | tr -d , | grep -oE '^[0-9]+' || echo 0; done
        cat err.txt
    }
    for pair in checksum_twice:64 siphash_vote:256 boot_wide:64 sort:64; do
        name=${pair%:*}
        known $name --ram 0x80000000:${pair#*:}
        same "flips of port addresses in $name" "$(python3 -B "$tests/port_flips.py" "$built/$name.elf" ${pair#*:} $name.csv)" "$(echo $(flips $name silent) $(flips $name detected))"
        same "the same on the page of $name" "$(echo $(flips $name silent) $(flips $name detected))" "$(echo $(on_page $name))"
    done
    gives 'a line about them' 0 '10 of these sites turn the address of one port into that of another: keep it out of registers that live long' '' \
        grep 'one port' <(where "$built/checksum_twice.elf" checksum_twice.keep --program "$program")
    same 'compared without them' 'checksum_twice 258 10 248 1 1' "$(python3 -B "$top/tools/compare.py" checksum_twice.keep --port-flips --program "$program" |
        awk 'NR == 2 { print $1, $9, $(NF - 3), $(NF - 2), $(NF - 1), $NF }')"
    "$program" report "$built/checksum_twice.elf" checksum_twice.keep --ram 0x80000000:64 >report.txt
    gives 'a report has no jobs' 1 '' 'compare.py: report.txt: a report does not have the jobs: --port-flips needs a campaign file' \
        python3 -B "$top/tools/compare.py" report.txt --port-flips
    gives 'another limit than that of the campaign file' 1 '' 'where.py: pin.keep: it was made with --limit 1000000, and you gave 5' \
        where "$built/pin.elf" pin.keep --limit 5 --program "$program"
    gives 'a flag that the campaign file has not' 1 '' 'where.py: pin.keep: it was made without --ram-code, and you gave that flag' \
        where "$built/pin.elf" pin.keep --ram-code --program "$program"
    "$program" run "$built/pin.elf" short.keep --ram 0x80000000:64 --limit 2000 --pc >out.txt
    gives 'two campaigns of other questions' 0 'after: not the same limit and flags as before, so the counts cannot be compared' '' \
        grep 'not the same' <(where "$built/pin.elf" pin.keep --diff "$built/pin.elf" short.keep --program "$program")
    # Both flags, of code that runs in RAM: its 72 bytes are crc32's, and 9 are the message behind them.
    name=checksum_ram
    known $name --ram 0x80000000:128 --ram-code --pc --limit 1000
    where "$built/$name.elf" $name.keep --program "$program" "${both[@]}" >$name.json
    same 'code in RAM by instructions' "$(awk "${join/KEY/pc[job[1]]}" $name.trace $name.csv | sort)" "$(rows instruction pc)"
    same 'code in RAM by what stands there' \
        "$(awk "${join/KEY/job[2] < 32 ? \"no\" : job[2] < 104 ? \"crc32\" : job[2] < 113 ? \"message\" : \"other\"}" $name.trace $name.csv | grep -v no | sort)" \
        "$(rows variable name | awk '{ sites[$1 ~ /^0x/ ? "other" : $1] += $2 } END { for (key in sites) print key, sites[key] }' | sort)"
    same 'the pc of a campaign' "$(awk "${join/KEY/job[2]}" $name.trace $name.csv | awk '$1 == 0 { print "pc", $2 }')" "$(rows register name | grep pc)"
    same 'the same of its table' "$(without_flips <$name.json)" "$(where "$built/$name.elf" $name.csv --ram 0x80000000:128 --ram-code --limit 1000 --program "$program" "${both[@]}")"
fi

# What flips make a lock and other programs send, beside awk: the sites of a table that have the lines of a replay.
if [ -n "$program" ] && [ -n "$replay" ]; then
    # sent NAME OPTION..: files of a campaign, and NAME.sent with the weight of each silent job, what it sent and how it ended.
    sent() {
        rm -f "$1.keep"
        known "$@"
        awk -F , '$5 == "silent" { print $1, $2, $3 }' "$1.csv" >jobs.txt
        # shellcheck disable=SC2046
        "$replay" --brief "$built/$1.elf" $(cat jobs.txt) "${@:2}" >replayed.txt
        awk 'NR == FNR { split($0, job, ","); weight[job[1] " " job[2] " " job[3]] = job[4]; next }
            $1 == "site" { sites = weight[$2 " " $3 " " $4] } $1 == "output" { output = $2 } $1 == "end" { $1 = ""; print sites, output $0 }' \
            "$1.csv" replayed.txt >"$1.sent"
    }
    # classes NAME TABLE WORD..: the sites of the classes by the tool, and in NAME.said those by what was sent.
    classes() {
        PATH=$few timeout 120 "$python" -S tools/where.py "$built/$1.elf" "${@:2}" --program "$program" --replay "$replay" --format json >"$1.json" &&
            python3 -c 'import json, sys
by = json.load(open(sys.argv[1]))["classes"]
print(*(each["sites"] for each in by.values()))
for each in by.values():
    for row in each["outputs"]: print(row["sites"], row["output"] or "-", row["end"], file=sys.stderr)' "$1.json" 2>"$1.said"
    }
    # same_sent NAME: whether the tool said what the replays sent.
    same_sent() {
        awk '{ sites = $1; $1 = ""; all[$0] += sites } END { for (key in all) print all[key] key }' "$1.sent" | sort >wanted.txt
        check "$2" "$(sort "$1.said" | diff wanted.txt - >diff.txt && echo yes || sed -n 1,6p diff.txt)"
    }
    # matching NAME REGEX: the sites whose lines match.
    matching() { awk -v pattern="$2" '$0 ~ pattern { sites += $1 } END { print sites + 0 }' "$1.sent"; }

    # The lock sends O where it opens, and halts with 1. Without --pc nothing else is silent in it.
    sent pin_open --ram 0x80000000:64
    same 'where the lock opens' '111 0 0' "$(classes pin_open pin_open.keep --open '^O$')"
    same 'what it sends' '111 4f halted 1' "$(cat pin_open.said)"
    same_sent pin_open 'what it sends, beside awk'
    same 'the registers that open it' "$(printf 'x10 101\nx11 10')" \
        "$(python3 -c 'import json; [print(row["name"].split()[0], row["sites"]) for row in json.load(open("pin_open.json"))["by"]["register"]]')"
    same 'the same of its table' '111 0 0' "$(classes pin_open pin_open.csv --open O --ram 0x80000000:64)"
    same 'a byte that it never sends' '0 111 0' "$(classes pin_open pin_open.keep --open P)"
    same 'the lock that is measured sends nothing' '0 0 111' "$(classes pin pin.keep --open O --outcome detected)"
    sent pin_open --ram 0x80000000:64 --pc
    all=$(matching pin_open .) opens=$(matching pin_open ' 4f halted 1$') shut=$(matching pin_open ' - ')
    same 'the lock with --pc' "$opens $((all - opens - shut)) $shut" "$(classes pin_open pin_open.csv --open '^O$' --ram 0x80000000:64)"
    same_sent pin_open 'the lock with --pc, what it sends'
    # More jobs than one call takes; ten bytes are sent.
    sent sort --ram 0x80000000:64 --limit 6000
    golden=$(sed -n 's/^output //p' sort.trace)
    all=$(matching sort .) zero=$(matching sort '^[0-9]+ 00') right=$(matching sort " $golden ")
    same 'numbers that begin with 0' "$zero $((all - zero - right)) $right" "$(classes sort sort.keep --open '^\x00')"
    same_sent sort 'what sort sends'
    check 'it has thousands of jobs' "$([ "$(wc -l <sort.sent)" -gt 4000 ] && echo yes || wc -l sort.sent)"
fi

echo "$passed passed, $failed failed"
[ "$failed" -eq 0 ]
