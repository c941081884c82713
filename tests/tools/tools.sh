#!/usr/bin/env bash
# The tools that draw and compare what the program writes, on tables worked out by hand, on broken and on large ones, and on
# campaign files; and on the program's own reports and tables, where a program is named.
# usage: tools.sh [PROGRAM]
set -u
. "$(dirname "$0")/../checks.sh"
program=
[ $# -eq 0 ] || program=$(realpath "$1") || exit 2
command -v python3 >/dev/null || { echo "skipped: tools needs python3"; exit 0; }
# The interpreter itself, where python3 is a script that looks for it each time.
python=$(python3 -c 'import sys; print(sys.executable)')
PATH=$(dirname "$python"):$PATH
folder=$(mktemp -d) || exit 2
trap 'rm -rf "$folder"' EXIT
cd "$folder" || exit 2

map() { timeout 60 python3 -B "$top/tools/fault_map.py" "$@"; }
compare() { timeout 60 python3 -B "$top/tools/compare.py" "$@"; }
table() { python3 -B "$tests/tables.py" "$1" >"$1.csv"; }

# draws NAME TITLE POINTS WORD..: draws a table and compares the picture's title and how many points have each colour.
draws() {
    local name=$1 title=$2 points=$3
    shift 3
    map "$@" >"$name.svg" 2>err.txt
    same "the picture of $name" "$title"$'\n'"$points" "$(python3 -B "$tests/picture.py" "$name.svg" 2>&1; cat err.txt)"
}

# shows NAME TIP: whether a picture has an area with this tooltip.
shows() { check "$1 shows $2" "$(grep -qF "<title>$2</title>" "$1.svg" && echo yes)"; }

# Pictures of short programs: each site has a point of its own, so the points are the sites. A region of RAM with its size says how
# many sites have no effect in all.
table send && table load && table overwrite
ram=0x80000000:16
draws send 'Fault space of send: 4 cycles, 96 jobs; 4,480 sites: silent 10, timeout 0, illegal 0, address 90, misaligned 2, detected 2, no-effect 4,376' \
    'address 90, detected 2, misaligned 2, no-effect 24, silent 10' send.csv --ram $ram
shows send 'x1 ra, bit 2, cycles 1 to 2: detected'
shows send 'x1 ra, bit 3, cycles 1 to 2: silent'
shows send 'x2 sp, bits 0 to 7, cycle 2: silent'
shows send 'x1 ra, live sites: silent 2, timeout 0, illegal 0, address 90, misaligned 2, detected 2, no-effect 0'
unread='Never read, so dead and without a row: x3 to x31, 16 of 16 bytes of RAM'
check 'its cells that are never read' "$(grep -qF ">$unread<" send.svg && echo yes)"
draws load 'Fault space of load: 5 cycles, 136 jobs; 5,600 sites: silent 37, timeout 0, illegal 0, address 88, misaligned 2, detected 1, no-effect 5,472' \
    'address 88, detected 1, misaligned 2, no-effect 48, silent 37' load.csv --ram $ram
shows load '0x80000000, bits 0 to 7, cycles 0 to 1: silent'
title='8 cycles, 288 jobs; 8,960 sites: silent 181, timeout 0, illegal 0, address 172, misaligned 10, detected 1, no-effect 8,596'
points='address 172, detected 1, misaligned 10, no-effect 12, silent 181'
draws overwrite "Fault space of overwrite: $title" "$points" overwrite.csv --ram=2147483648:0X10
shows overwrite '0x80000001, bits 0 to 7, cycle 4: silent'
shows overwrite '0x80000002, bits 0 to 7, cycles 3 to 4: silent'
# Live are 376 of its sites: 12 without effect beside 181, 172, 10 and 1.
live='Fault space of <b> & c: 8 cycles, 288 jobs; 376 live sites: silent 181, timeout 0, illegal 0, address 172, misaligned 10, detected 1, no-effect 12'
draws 'a name' "$live" "$points" overwrite.csv --name '<b> & c'
shows 'a name' 'RAM+2, bits 0 to 7, cycles 3 to 4: silent'
draws 'a pipe' "Fault space of a campaign: $title" "$points" --ram $ram < <(cat overwrite.csv)
gives 'a file for the picture' 0 '' '' map overwrite.csv --ram $ram -o overwrite.again
check 'the same picture in it' "$(cmp -s overwrite.svg overwrite.again && echo yes)"
# Two campaigns side by side: the points of both, and one width of a cycle. Of send 4,376 sites have no effect, and of overwrite 8,596.
draws both 'send: 4 cycles, 10 silent sites; overwrite: 8 cycles, 181 silent sites' \
    'address 262, detected 3, misaligned 12, no-effect 36, silent 191' send.csv overwrite.csv --ram $ram
same 'one width of a cycle, and one height of a bit' 1 "$(grep -o 'scale([^)]*)' both.svg | sort -u | wc -l)"
shows both 'send, x1 ra'
shows both 'overwrite, 0x80000002'
draws three 'overwrite: 8 cycles, 181 silent sites; send: 4 cycles, 10 silent sites; load: 5 cycles, 37 silent sites' \
    'address 350, detected 4, misaligned 14, no-effect 84, silent 228' overwrite.csv send.csv load.csv
gives 'the second of two tables is missing' 1 '' "fault_map.py: [Errno 2] No such file or directory: 'missing.csv'" map send.csv missing.csv
for word in --name=both --image=image.elf; do
    map send.csv overwrite.csv $word >out.txt 2>err.txt
    same "$word for two tables" 'status 2, out , fault_map.py: error: --name and --image are for one table' "status $?, out $(cat out.txt), $(tail -n 1 err.txt)"
done
# The table of an older version, which knew no kinds of traps.
sed 's/address$/trap/; s/misaligned$/trap/' send.csv >old.csv
counts='4,480 sites: silent 10, timeout 0, trap 92, detected 2, no-effect 4,376; by an older version, which did not distinguish traps'
draws old "Fault space of old: 4 cycles, 96 jobs; $counts" 'detected 2, no-effect 24, silent 10, trap 92' old.csv --ram $ram
shows old 'x1 ra, live sites: silent 2, timeout 0, trap 92, detected 2, no-effect 0'
gives 'the last line without its end' 0 "$(cat send.svg)" '' map --name send --ram $ram < <(head -c -1 send.csv)

# Three cycles to a column: a silent interval of two fills its column in full, one of a single cycle in part, also beside a trap of
# two; and it fills the last column, which has two. An interval of five has one cycle in the columns at either end. The interval of
# 1000 covers column 333 in part and all up to 666.
table long
title='2,000 cycles, 256 jobs; 2,240,000 sites: silent 320, timeout 0, illegal 64, address 32,000, misaligned 0, detected 32, no-effect 2,207,584'
draws long "Fault space of long: $title" 'address 10688, detected 32, partly-silent 128, silent 96' long.csv --ram $ram
shows long 'x5 t0, bits 0 to 31, cycles 999 to 1999: address'

# Half a million jobs.
table large
SECONDS=0
map large.csv --ram 0x80000000 >large.svg 2>err.txt
echo "$(($(wc -l <large.csv) - 1)) jobs: $SECONDS s, $(stat -c %s large.svg) bytes"
check 'the time of a large table' "$([ "$SECONDS" -le 30 ] && echo yes)"
check 'the size of its picture' "$([ "$(stat -c %s large.svg)" -le 2000000 ] && echo yes)"
map large.csv long.csv --ram 0x80000000 >beside.svg 2>err.txt
check 'the size of the picture of two' "$([ -s beside.svg ] && [ "$(stat -c %s beside.svg)" -le 2000000 ] && echo yes)"
same 'one number of cycles in a column' 1 "$(grep -o 'scale([^ ]* ' beside.svg | sort -u | wc -l)"
wanted=$(awk -F, 'NR > 1 { sites[$5] += $4 } END {
    count = split("silent timeout illegal address misaligned detected no-effect", names, " ")
    for (at = 1; at <= count; at++) printf "%s%s %d", (at == 1 ? "" : ", "), names[at], sites[names[at]]
}' large.csv)
got=$(python3 -B "$tests/picture.py" large.svg 2>&1 | sed -n 1p)
same 'the counts of a large table' "$wanted" "$(sed 's/.*sites: //; s/\([0-9]\),\([0-9]\)/\1\2/g' <<<"$got")"

# refused NAME ERR: a table on standard input that is none.
refused() { gives "$1" 1 '' "fault_map.py: standard input: $2" map; }
header='cycle,cell,bit,weight,outcome'
fields="expected $header: four numbers and one of silent, timeout, illegal, address, misaligned, detected, no-effect"
refused 'an empty table' "line 1: expected $header, found the end" </dev/null
refused 'the table of a plan' "line 1: expected $header, found 'cycle,cell,bit,weight'" <<<$'cycle,cell,bit,weight\n1,1,0,1'
refused 'bytes without lines' "line 1: expected $header, found '$(printf '\\x00%.0s' {1..31})'" < <(head -c 1000000 /dev/zero)
refused 'a table without jobs' 'line 2: expected a job, found the end' <<<"$header"
refused 'another outcome' "line 3: $fields, found '2,1,1,2,quiet'" < <(sed '3s/address/quiet/' send.csv)
refused 'a word of an older version among others' "line 3: expected either trap, as an older version has it, or its kinds, found '2,1,1,2,trap'" \
    < <(sed '3s/address/trap/' send.csv)
refused 'a field too few' "line 40: $fields, found '2,2,6,silent'" < <(sed '40s/,1,/,/' send.csv)
refused 'a number with a sign' "line 5: $fields, found '+2,1,3,2,silent'" < <(sed '5s/^/+/' send.csv)
refused 'a number with a zero in front' "line 5: $fields, found '02,1,3,2,silent'" < <(sed '5s/^/0/' send.csv)
refused 'no weight' "line 5: $fields, found '2,1,3,0,silent'" < <(sed '5s/,2,/,0,/' send.csv)
refused 'an empty line' "line 5: $fields, found ''" < <(sed '5s/.*//' send.csv)
refused 'a letter that is not ASCII' "line 5: $fields, found '2,1,3,2,sil\\\\xffnt'" < <(sed '5s/silent/sil\xffnt/' send.csv)
refused 'a cell with a zero in front' "line 2: $fields, found '2,01,0,2,address'" < <(sed '2s/,1,/,01,/' send.csv)
refused 'a read of the pc that stands for two cycles' \
    "line 2: expected a weight of 1, since each instruction reads the pc, found '2,0,0,2,address'" < <(sed '2s/,1,/,0,/' send.csv)
refused 'a byte behind the largest RAM' "line 2: expected a cell of 0 to 65567, found '2,65568,0,2,address'" \
    < <(sed '2s/,1,/,65568,/' send.csv)
due='expected 2,1,2,2, and an outcome, the next bit of this cell'
order='in the order cycle, cell, bit'
before='since the sites before belong to an earlier job or are before cycle 0'
refused 'a missing bit' "line 4: $due, found '2,1,3,2,silent'" < <(sed 4d send.csv)
refused 'a bit with a weight of its own' "line 4: $due, found '2,1,2,1,detected'" < <(sed '4s/,2,d/,1,d/' send.csv)
refused 'a missing first bit' "line 34: expected bit 0: an instruction reads a cell with all its bits, found '2,2,1,1,silent'" \
    < <(sed 34d send.csv)
refused 'a bit too many' "line 10: expected a job after cycle 1, cell 32, $order, found '1,32,8,2,address'" \
    < <(echo "$header"; sed '1,33d; 41s/$/\n1,32,8,2,address/' load.csv)
refused 'a job twice' "line 34: expected a job after cycle 2, cell 1, $order, found '2,1,0,2,address'" \
    < <(head -n 33 send.csv; tail -n +2 send.csv)
refused 'an interval that begins too early' "line 2: expected a weight of 1 to 3, $before, found '2,1,0,4,address'" \
    < <(sed 's/^2,1,\(.*\),2,/2,1,\1,4,/' send.csv)
refused 'two jobs of a site' "line 66: expected a weight of 1 to 1, $before, found '3,1,0,2,misaligned'" \
    < <(sed 's/^3,1,\(.*\),1,/3,1,\1,2,/' send.csv)
refused 'a table that was cut off' 'line 51: expected 2,2,17,1,, found the end' < <(head -n 50 send.csv)
refused 'a line that was cut off' "line 50: $fields, found '2,2,16,1,no-eff'" < <(head -n 50 send.csv | head -c -4)
gives 'a RAM that is too small' 1 '' 'fault_map.py: overwrite.csv: a job reads byte 3 of RAM, counted from 0, but --ram has 2 bytes' \
    map overwrite.csv --ram 0x80000000:2
gives 'a missing table' 1 '' "fault_map.py: [Errno 2] No such file or directory: 'missing.csv'" map missing.csv
gives 'a folder for the picture' 1 '' 'fault_map.py: .: Is a directory' map send.csv -o .
for word in 0x80000000:16:16 RAM -4 0x80000000:0 0x80000000:65537 0xfffffff0:32; do
    map send.csv --ram "$word" >out.txt 2>err.txt
    same "--ram $word" 'status 2, out ' "status $?, out $(cat out.txt)"
done
if [ -c /dev/full ]; then
    map send.csv >/dev/full 2>err.txt
    same 'a full device for the picture' 'status 1, fault_map.py: [Errno 28] No space left on device' "status $?, $(cat err.txt)"
fi
check 'help with pictures' "$(map --help | grep -q -e '--ram BASE' && echo yes)"

# The table of campaigns. Their numbers are those of the three programs above and of another that has no silent corruptions. A report
# does not name its limit, and the number of sites says how many bytes of RAM there are.
lines='instructions %s\nsites %s\nno-effect %s\nsilent %s\ndetected %s\nillegal %s\naddress %s\nmisaligned %s\ntimeout %s\n'
report() { printf "$lines" "$@"; }
report 4 4480 4376 10 2 0 90 2 0 >send.txt
object='"instructions":5,"misaligned":2,"no_effect":5472,"silent":37,"sites":5600,"timeout":0}'
echo "{\"address\":88,\"detected\":1,\"illegal\":0,$object" >load.json
report 8 8960 8596 181 1 0 172 10 0 >overwrite.txt
report 2 2240 2208 0 0 0 30 2 0 >halt.txt
unnamed='a report does not name its limit; a ratio holds only if all limits are the same.'
gives 'a table of campaigns' 0 "campaign   limit  RAM  exit  instructions  sites  no-effect  silent  detected  illegal  address  misaligned  timeout  silent ratio
plain          ?   16     ?             4   4480       4376      10         2        0       90           2        0             1
load           ?   16     ?             5   5600       5472      37         1        0       88           2        0           3.7
overwrite      ?   16     ?             8   8960       8596     181         1        0      172          10        0          18.1
halt           ?   16     ?             2   2240       2208       0         0        0       30           2        0             0

plain, load, overwrite, halt: $unnamed" '' compare plain=send.txt load.json overwrite.txt halt.txt
gives 'a table in Markdown' 0 "| campaign | limit | RAM | exit | instructions | sites | no-effect | silent | detected | illegal | address | misaligned | timeout | silent ratio |
| --- | ---: | ---: | ---: | ---: | ---: | ---: | ---: | ---: | ---: | ---: | ---: | ---: | ---: |
| a\\|b | ? | 16 | ? | 8 | 8960 | 8596 | 181 | 1 | 0 | 172 | 10 | 0 | 1 |
| send | ? | 16 | ? | 4 | 4480 | 4376 | 10 | 2 | 0 | 90 | 2 | 0 | 0.0552 |

a|b, send: $unnamed" '' compare --markdown 'a|b=overwrite.txt' send.txt
gives 'a table in JSON' 0 '{"campaigns":[{"address":172,"code":null,"detected":1,"differs":[],"exit":null,"flags":null,"illegal":0,"instructions":8,"limit":null,"misaligned":10,"name":"a|b","no_effect":8596,"output":null,"ram_size":16,"silent":181,"silent_ratio":1.0,"sites":8960,"stack":null,"timeout":0},{"address":90,"code":null,"detected":2,"differs":[],"exit":null,"flags":null,"illegal":0,"instructions":4,"limit":null,"misaligned":2,"name":"send","no_effect":4376,"output":null,"ram_size":16,"silent":10,"silent_ratio":0.055248618785,"sites":4480,"stack":null,"timeout":0}],"notes":["a|b, send: '"${unnamed%.}"'."]}' '' \
    compare --format json 'a|b=overwrite.txt' send.txt
gives 'nothing to compare with' 0 "campaign  limit  RAM  exit  instructions  sites  no-effect  silent  detected  illegal  address  misaligned  timeout  silent ratio
halt          ?   16     ?             2   2240       2208       0         0        0       30           2        0             -
send          ?   16     ?             4   4480       4376      10         2        0       90           2        0             -

halt, send: $unnamed" '' compare halt.txt send.txt
gives 'one report alone' 0 "campaign  limit  RAM  exit  instructions  sites  no-effect  silent  detected  illegal  address  misaligned  timeout  silent ratio
send          ?   16     ?             4   4480       4376      10         2        0       90           2        0             1" '' compare send.txt

# Reports of an older version, which knew no kinds of traps, alone and beside one that has them.
sed -n '/illegal/d; /misaligned/d; s/address 90/trap 92/; p' send.txt >old.txt
echo '{"detected":1,"instructions":5,"no_effect":5472,"silent":37,"sites":5600,"timeout":0,"trap":90}' >old.json
older='written by an older version, which did not distinguish traps.'
gives 'reports of an older version' 0 "campaign  limit  RAM  exit  instructions  sites  no-effect  silent  detected  trap  timeout  silent ratio
old           ?   16     ?             4   4480       4376      10         2    92        0             1
load          ?   16     ?             5   5600       5472      37         1    90        0           3.7

old, load: $older

old, load: $unnamed" '' compare old.txt load=old.json
gives 'a report of an older version beside another' 0 "campaign  limit  RAM  exit  instructions  sites  no-effect  silent  detected  illegal  address  misaligned  trap  timeout  silent ratio
old           ?   16     ?             4   4480       4376      10         2        ?        ?           ?    92        0             1
load          ?   16     ?             5   5600       5472      37         1        0       88           2    90        0           3.7

old: $older

old, load: $unnamed" '' compare old.txt load.json

# Reports of other sizes of RAM. With 32 bytes the same program has 4992 sites, and 512 more without effect.
report 4 4992 4888 10 2 0 90 2 0 >wide.txt
heading='campaign  limit  RAM  exit  instructions  sites  no-effect  silent  detected  illegal  address  misaligned  timeout  silent ratio'
gives 'no ratio between other sizes of RAM' 0 "$heading
send          ?   16     ?             4   4480       4376      10         2        0       90           2        0             1
wide          ?   32     ?             4   4992       4888      10         2        0       90           2        0     other RAM

wide: not the same limit or size of RAM as send, so no ratio is given (--anyway gives one).

send, wide: $unnamed" '' compare send.txt wide.txt
gives 'a ratio between other sizes of RAM all the same' 0 "$heading
send          ?   16     ?             4   4480       4376      10         2        0       90           2        0             1
wide          ?   32     ?             4   4992       4888      10         2        0       90           2        0             1

wide: not the same limit or size of RAM as send, so the ratio means little.

send, wide: $unnamed" '' compare send.txt wide.txt --anyway

# incomparable NAME ERR: a report on standard input that is none.
incomparable() { gives "$1" 1 '' "compare.py: /dev/stdin: $2" compare send.txt other=/dev/stdin; }
incomparable 'counts that miss a site' 'the outcomes add up to 4479, but there are 4480 sites' < <(sed 's/10/9/' send.txt)
incomparable 'the same in JSON' 'the outcomes add up to 5601, but there are 5600 sites' < <(sed 's/37/38/' load.json)
incomparable 'no report' 'expected the 9 lines of a report, found 0' </dev/null
incomparable 'the text of a plan' "line 3: expected no-effect and a number, found 'jobs 96'" \
    < <(printf 'instructions 4\nsites 4480\njobs 96\nlive 128\ndead 4352\n')
incomparable 'a line too few' 'expected the 9 lines of a report, found 8' < <(head -n 8 send.txt)
incomparable 'a line too few of an older version' 'expected the 7 lines of a report, found 6' < <(head -n 6 old.txt)
incomparable 'a line of an older version among others' "line 6: expected trap and a number, found 'illegal 0'" < <(sed 's/^address/trap/' send.txt)
incomparable 'a number below 0' "line 4: expected silent and a number, found 'silent -10'" < <(sed 's/10/-10/' send.txt)
keys='instructions, misaligned, no_effect, silent, sites, timeout'
incomparable 'a key too few' "expected the keys address, detected, illegal, $keys, found address, detected, $keys" \
    < <(sed 's/"illegal":0,//' load.json)
incomparable 'a text in JSON for a number' "silent: expected a whole number, found '37'" < <(sed 's/37/"37"/' load.json)
incomparable 'bytes that are no text' 'expected a report or a campaign file, found bytes that are not text' < <(printf '\xff')
gives 'a missing report' 1 '' 'compare.py: missing.txt: No such file or directory' compare a=missing.txt
if [ -c /dev/full ]; then
    compare send.txt >/dev/full 2>err.txt
    same 'a full device for the table' 'status 1, compare.py: [Errno 28] No space left on device' "status $?, $(cat err.txt)"
fi

# Campaign files. Where no program is named, the reference stands for it.
judge=$program
if [ -z "$judge" ]; then
    printf '#!/bin/sh\nexec python3 -B "%s/reference.py" "$@"\n' "$top/tests/definitions" >judge && chmod +x judge
    judge=$folder/judge
fi
info() { timeout 60 python3 -B "$top/tools/keep_info.py" "$@"; }
images="import known; images = dict(send=known.image(known.SEND), loop=known.image(known.LOOP))
images |= dict(halt=known.image(known.HALT), code=known.in_ram(known.HALT))
for name, content in images.items(): open(name + '.elf', 'wb').write(content)"
python3 -B -c "$images"
region=(--rom 0x20000000:64 --ram "$ram")
judged() { timeout 100 "$judge" run "$1.elf" "$2.keep" "${region[@]}" --limit "$3" "${@:4}" >out.txt 2>err.txt; }
judged send send 100
judged send short 50
judged loop loop 71
judged loop loop70 70
judged send part 100 --stop-after 40
# The code of send.elf is four words; without an image its size is not known. No instruction sets sp to an address of RAM.
gives 'a table of campaign files' 0 "${heading/exit  /exit  code  }
send        100   16     0     ?             4   4480       4376      10         2        0       90           2        0             1
again       100   16     0    16             4   4480       4376      10         2        0       90           2        0             1
loop         71   16     0     ?             7   7840       7702       0         0        0       30           2      106   other limit

loop: not the same limit or size of RAM as send, so no ratio is given (--anyway gives one).

loop: without a fault it sends other bytes or halts with another value than send, so it is a program with another answer." '' \
    compare send.keep again=send.elf,send.keep loop.keep --program "$judge"
gives 'the same in JSON' 0 "[('send', 100, 0, None, 10, 1.0, []), ('again', 100, 0, 16, 10, 1.0, []), ('loop', 71, 0, None, 0, None, ['limit'])] 2" '' \
    python3 -c 'import json, sys
found, keys = json.load(sys.stdin), ("name", "limit", "exit", "code", "silent", "silent_ratio", "differs")
print([tuple(one[key] for key in keys) for one in found["campaigns"]], len(found["notes"]))' \
    < <(compare send.keep again=send.elf,send.keep loop.keep --program "$judge" --format json)
# The counts have the keys of the program's own JSON.
keys='import json, sys
whole, named, here = (json.load(open(name)) for name in ("whole.json", "named.json", "here.json"))
other = [key for key in whole if whole[key] != named["campaigns"][0][key]]
print(other, sorted(set(whole) - set(here)), here["jobs"])'
"$judge" report send.elf send.keep "${region[@]}" --limit 100 --format json >whole.json
compare send.keep --program "$judge" --format json >named.json
info send.keep --format json >here.json
gives 'the keys of JSON' 0 "[] ['instructions', 'sites'] 96" '' python3 -c "$keys"
gives 'no ratio between other limits of one image' 0 "$heading
send        100   16     0             4   4480       4376      10         2        0       90           2        0             1
short        50   16     0             4   4480       4376      10         2        0       90           2        0   other limit

short: not the same limit or size of RAM as send, so no ratio is given (--anyway gives one)." '' \
    compare send.keep short.keep --program "$judge"
gives 'a ratio between other limits all the same' 0 "$heading
send        100   16     0             4   4480       4376      10         2        0       90           2        0             1
short        50   16     0             4   4480       4376      10         2        0       90           2        0             1

short: not the same limit or size of RAM as send, so the ratio means little." '' \
    compare --anyway send.keep short.keep --program "$judge"
gives 'a campaign file and a report' 0 "$heading
send        100   16     0             4   4480       4376      10         2        0       90           2        0             1
halt          ?   16     ?             2   2240       2208       0         0        0       30           2        0             0

halt: $unnamed" '' compare send.keep halt.txt --program "$judge"
# The pc as a cell, and code in RAM. A report does not say its flags: with the pc RAM looks four bytes larger.
judged halt halt 100
judged halt pc 100 --pc && cp out.txt pc.txt
judged code code 100 --ram-code
judged code both 100 --pc --ram-code
flags='campaign  limit  RAM            flags  exit  instructions  sites  no-effect  silent  detected  illegal  address  misaligned  timeout  silent ratio'
gives 'a table of all kinds of case' 0 "$flags
code        100   16       --ram-code     0             2   2240       2122       2         0       24       86           6        0             1
pc          100   16             --pc     0             2   2304       2209       0         0        6       83           6        0   other flags
both        100   16  --pc --ram-code     0             2   2304       2123       2         0       26      143          10        0   other flags
halt        100   16                -     0             2   2240       2208       0         0        0       30           2        0   other flags

pc, both, halt: not the same limit, size of RAM or flags as code, so no ratio is given (--anyway gives one)." '' \
    compare code.keep pc.keep both.keep halt.keep --program "$judge"
gives 'a report with the pc as a cell' 0 "${flags/            flags/  flags}
pc          100   16   --pc     0             2   2304       2209       0         0        6       83           6        0             -
text          ?   20      ?     ?             2   2304       2209       0         0        6       83           6        0     other RAM

text: not the same limit or size of RAM as pc, so no ratio is given (--anyway gives one).

text: a report does not name its limit; a ratio holds only if all limits are the same." '' compare pc.keep text=pc.txt --program "$judge"
while read -r kind image flag; do
    table "$kind"
    same "the table of $kind" "$(cat "$kind.csv")" "$("$judge" report "$image.elf" "$kind.keep" "${region[@]}" --limit 100 "$flag" --format csv)"
done <<<$'pc halt --pc\ncode code --ram-code'
draws 'pc.keep' 'Fault space of pc: 2 cycles, 96 jobs; 2,304 sites: silent 0, timeout 0, illegal 6, address 83, misaligned 6, detected 0, no-effect 2,209' \
    'address 83, illegal 6, misaligned 6, no-effect 1' pc.keep --program "$judge"
shows pc.keep 'pc, bits 0 to 1, cycles 0 to 1: misaligned'
shows pc.keep 'pc, bit 2, cycle 1: no-effect'
shows pc.keep 'pc, live sites: silent 0, timeout 0, illegal 6, address 53, misaligned 4, detected 0, no-effect 1'
check 'the heading of its rows' "$(grep -qF '>The pc and registers, a row is 1 bit, bit 0 at the top<' pc.keep.svg && echo yes)"
draws 'code.keep' 'Fault space of code: 2 cycles, 96 jobs; 2,240 sites: silent 2, timeout 0, illegal 24, address 86, misaligned 6, detected 0, no-effect 2,122' \
    'address 86, illegal 24, misaligned 6, no-effect 10, silent 2' code.keep --program "$judge"
shows code.keep '0x80000006, bit 4, cycles 0 to 1: silent'
for kind in pc code; do
    gives "the picture of the table $kind" 0 "$(cat $kind.keep.svg)" '' map $kind.csv --ram $ram
done
gives 'a campaign that was stopped' 1 '' 'compare.py: part.keep: fail_star report: stopped: 40 of 96 jobs kept
  56 jobs are missing: repeat `run`.' \
    compare part.keep --program "$judge"
gives 'a campaign file of another image' 1 '' 'compare.py: send.keep: fail_star report: campaign file refused: 6 OtherCase at 25
  the image has another byte at 0x20000000 (ROM) than KEEP.
  The program was rebuilt, or this is another image: the old outcomes say nothing about it. Use another name for KEEP.' \
    compare loop.elf,send.keep --program "$judge"
gives 'an image that is missing' 1 '' 'compare.py: send.keep: fail_star report: image could not be read
  missing.elf: The image could not be read: is its name right?' \
    compare missing.elf,send.keep --program "$judge"
gives 'a program that is missing' 1 '' 'compare.py: send.keep: ./missing: No such file or directory' compare send.keep --program ./missing
mkdir alone && cp -r "$top"/tools/. alone
gives 'no program at all' 1 '' \
    'compare.py: send.keep: fail_star, which counts campaign files, is not on the path: name it with --program' \
    env PATH= "$python" -B alone/compare.py send.keep
gives 'reports need no program' 0 "$(compare send.txt)" '' env PATH= "$python" -B alone/compare.py send.txt
cp send.keep 'a=b,c.keep'
gives 'a name with = and ,' 0 "$(compare a=send.keep --program "$judge")" '' compare a='a=b,c.keep' --program "$judge"

# The picture of a campaign file is that of its table.
draws 'send.keep' "$(python3 -B "$tests/picture.py" send.svg | sed -n 1p)" 'address 90, detected 2, misaligned 2, no-effect 24, silent 10' \
    send.keep --program "$judge"
cp send.keep cut.keep && truncate -s 130 cut.keep
gives 'a picture of a campaign file that was cut' 1 '' \
    'fault_map.py: cut.keep: 3 Cut: it ends at byte 130, within a batch that goes to 1081' map cut.keep --program "$judge"
# Of the 96 jobs the first 40 are kept: those of x1 at cycle 2, with a weight of 2, and 8 bits of x2, which are silent.
draws part 'Fault space of part: 4 cycles, 96 jobs; 40 of 96 jobs are kept, 41.7 %; 4,480 sites: silent 10, timeout 0, illegal 0, address 60, misaligned 0, detected 2, no-effect 4,352, unknown 56' \
    'address 60, detected 2, silent 10, unknown 56' part.keep --program "$judge"

# What a campaign file keeps. Of the 96 jobs of `send`, 24 have no effect, 9 are silent, one is detected, 60 trap by their
# address and 2 misaligned.
card="entry 0x20000000
rom 0x20000000:64
ram 0x80000000:16
limit 100"
# ends KEEP: the last lines about a file. The card's length is in the four bytes before it.
ends() {
    echo "card $(tail -c +14 "$1" | head -c "$(od -An -tu4 -j9 -N4 "$1")" | sha256sum | cut -d ' ' -f 1)"
    echo 'options --rom 0x20000000:64 --ram 0x80000000:16 --limit 100'
}
gives 'a whole campaign file' 0 "$card
batches 1
jobs 96
no-effect 24
silent 9
detected 1
illegal 0
address 60
misaligned 2
timeout 0
$(ends send.keep)" '' info send.keep
gives 'a stopped campaign file' 0 "$card
batches 1
jobs 40
no-effect 0
silent 9
detected 1
illegal 0
address 30
misaligned 0
timeout 0
$(ends part.keep)" '' info part.keep
judged send part 100 --page 20
gives 'a campaign file in several batches' 0 "$(info send.keep | sed 's/batches 1/batches 4/')" '' info part.keep
gives 'a campaign file with the pc as a cell' 0 'limit 100
pc yes
batches 1
jobs 96
options --rom 0x20000000:64 --ram 0x80000000:16 --limit 100 --pc' '' \
    sh -c "python3 -B '$top/tools/keep_info.py' pc.keep | grep -E 'limit|yes|batches|jobs'"
gives 'a campaign file with both flags' 0 'pc yes
ram-code yes
options --rom 0x20000000:64 --ram 0x80000000:16 --limit 100 --pc --ram-code' '' \
    sh -c "python3 -B '$top/tools/keep_info.py' both.keep | grep -E 'pc|ram-code'"
gives 'the stored campaign file' 0 "$card
batches 1
jobs 32
no-effect 0
silent 0
detected 0
illegal 0
address 30
misaligned 2
timeout 0
$(ends "$top/crates/fail_star/data/row1.keep")" '' info "$top/crates/fail_star/data/row1.keep"

# As an older version wrote it. The jobs that trap run again, so its picture is that of a campaign that was stopped.
outcomes="import sys; b = bytearray(open('send.keep', 'rb').read()); b[130:1081:10] = bytes(3 if o > 4 else o for o in b[130:1081:10])"
python3 -B -c "$outcomes; open('old.keep', 'wb').write(b)"
gives 'a campaign file of an older version' 0 "$card
batches 1
jobs 34
no-effect 24
silent 9
detected 1
illegal 0
address 0
misaligned 0
timeout 0
trap-without-kind 62
$(ends old.keep)" '' info old.keep
# The 62 jobs that trapped run again: 30 of x1 with a weight of 2, and 32.
draws old 'Fault space of old: 4 cycles, 96 jobs; 34 of 96 jobs are kept, 35.4 %; 4,480 sites: silent 10, timeout 0, illegal 0, address 0, misaligned 0, detected 2, no-effect 4,376, unknown 92' \
    'detected 2, no-effect 24, silent 10, unknown 92' old.keep --program "$judge"

# bytes AT BYTES: the campaign file with these bytes, as printf takes them, in another place of it.
bytes() { cp send.keep bad.keep && printf '%b' "$2" | dd of=bad.keep bs=1 seek="$1" conv=notrunc status=none; }
# bad NAME REASON: the file bad.keep is refused by each tool in one line.
bad() {
    gives "$1" 1 '' "keep_info.py: bad.keep: $2" info bad.keep
    gives "$1, to compare" 1 '' "compare.py: bad.keep: ${3:-$2}" compare send.txt bad.keep --program "$judge"
}
report_lines='expected the 9 lines of a report, found 0'
: >bad.keep && bad 'an empty campaign file' 'an empty file, which keeps nothing yet' "$report_lines"
bytes 1 G && bad 'another name in front' '1 NotACampaign: it does not begin as a campaign file' \
    'expected a report or a campaign file, found bytes that are not text'
bytes 0 '\0' && bad 'a closed gate in front' '1 NotACampaign: its creation was interrupted; `run --fresh` starts it again'
bytes 8 '\2' && bad 'another version' '2 Version: it has version 2, and this reader knows 1'
bytes 13 '\5' && bad 'another kind of card' 'its card is of kind 5, and this reader knows 1 to 4'
bytes 13 '\0' && bad 'no kind of card' 'its card is of kind 0, and this reader knows 1 to 4'
bytes 22 '\104' && bad 'a card that is too short for its ROM' 'its card has 105 bytes, but says that ROM has 68 and RAM 16'
bytes 9 '\10' && bad 'a short card' 'its card has 8 bytes, and the numbers alone take 25'
bytes 130 '\10' && bad 'an outcome of a later program' '4 BadRow at 121: it has outcome 8, and this reader knows 0 to 7'
bytes 1080 '\377' && bad 'the last outcome' '4 BadRow at 1071: it has outcome 255, and this reader knows 0 to 7'
for length in 8 12 13 118; do
    head -c $length send.keep >bad.keep
    bad "a file of $length bytes" "3 Cut: it ends at byte $length, before the first batch"
done
for length in 119 120 121 500 1081; do
    head -c $length send.keep >bad.keep
    [ $length -gt 120 ] && end=1081 || end=121
    got=$(info bad.keep 2>&1)
    check "a file of $length bytes is cut" "$([[ $got == "keep_info.py: bad.keep: 3 Cut: it ends at byte $length, within a batch that goes to "* ]] && echo yes)"
done
# The second row becomes the first one's site with another outcome; then with the same, and with a trap of an older version.
bytes 139 '\0\1' && gives 'rows that disagree' 1 '' \
    'keep_info.py: bad.keep: 5 Conflict at 121 and 131: two rows say another outcome of the same site' info bad.keep
for outcome in 6 3; do
    bytes 139 "\0\\$outcome" && gives "a row that comes again, $outcome" 0 'jobs 95' '' \
        sh -c "python3 -B '$top/tools/keep_info.py' bad.keep | grep jobs"
done
gives 'a campaign file that is missing' 1 '' 'keep_info.py: missing.keep: No such file or directory' info missing.keep
gives 'a folder for a campaign file' 1 '' 'keep_info.py: .: Is a directory' info .

# Whole, stopped, cut, changed and odd files, beside the reference's reader.
check 'the reader of campaign files' "$(python3 -B "$tests/keep_reader.py" "$top/tools" >out.txt 2>&1 && echo yes || cat out.txt)"

if [ -n "$program" ]; then
    image=$top/crates/fail_star/data/row1.elf
    options=(--rom 0x20000000:64 --ram $ram --limit 100)
    "$program" run "$image" halt.keep "${options[@]}" >text.txt
    "$program" run "$image" halt.keep "${options[@]}" --format json >object.txt
    same "the program's own reports" "$(compare halt=halt.txt halt=halt.txt)" "$(compare halt=text.txt halt=object.txt 2>&1)"
    "$program" report "$image" halt.keep "${options[@]}" --format csv >halt.csv
    draws halt 'Fault space of halt: 2 cycles, 32 jobs; 2,240 sites: silent 0, timeout 0, illegal 0, address 30, misaligned 2, detected 0, no-effect 2,208' \
        'address 30, misaligned 2' halt.csv --ram $ram
fi

echo "$passed passed, $failed failed"
[ "$failed" -eq 0 ]
