#!/usr/bin/env bash
# The page that tools/report.py writes, read as XML: its bars, marks and tables for programs worked out by hand, beside awk's counts
# and objdump's text for an example, for both generations of words for a trap, with hostile names, and what it refuses.
# usage: page.sh [PROGRAM]
set -u
. "$(dirname "$0")/../checks.sh"
program=
[ $# -eq 0 ] || program=$(realpath "$1") || exit 2
command -v python3 >/dev/null || { echo "skipped: page needs python3"; exit 0; }
# The interpreter itself, where python3 is a script that looks for it each time.
python=$(python3 -c 'import sys; print(sys.executable)')
PATH=$(dirname "$python"):$PATH
folder=$(mktemp -d) || exit 2
trap 'rm -rf "$folder"' EXIT
cd "$folder" || exit 2
export SOURCE_DATE_EPOCH=1000000000
export PYTHONPYCACHEPREFIX=$folder/cache

report() { timeout 600 python3 "$top/tools/report.py" "$@"; }
table() { python3 -B "$tests/tables.py" "$1" >"$1.csv"; }

# makes NAME WORD..: the page NAME.html of a campaign, with nothing said, and what it shows as files of the folder NAME.
makes() {
    local name=$1
    shift
    same "the page of $name" 'status 0, ' "$(report "$@" -o "$name.html" 2>&1; echo "status $?, $(python3 "$tests/page.py" "$name.html" "$name" 2>&1)")"
    same "each link of $name leads to one place" '' "$(cat "$name/anchors")"
}

# has NAME WORDS: whether an element of a page has just this text.
has() { check "$1 has: $2" "$(grep -qxF "$2" "$1/words" && echo yes)"; }

# refuses NAME ANSWER WORD..: these words are refused; all are tried in one process at the end, by `try_refusals`.
refusals=()
refuses() {
    refusals+=("$1" "$2, nothing")
    shift 2
    (IFS=$'\t'; echo "-o"$'\t'"no.html"$'\t'"$*") >>words.txt
}
# refuses_file NAME ERR WORD..: status 1 and one line.
refuses_file() { refuses "$1" "status 1, report.py: $2" "${@:3}"; }
try_refusals() {
    local at=0 answer
    python3 "$tests/page_refusals.py" "$top/tools" <words.txt >answers.txt 2>&1
    while IFS= read -r answer; do
        same "${refusals[at]}" "${refusals[at + 1]}" "$answer"
        at=$((at + 2))
    done <answers.txt
    same 'all refusals were tried' ${#refusals[@]} $at
    refusals=()
    rm -f words.txt
}

# A short program worked out by hand: its flips, its reads and its words are those of tables.py. Four cycles are 240 pixels wide
# each, and a bit is 8 high, so ten silent sites are 19,200 square pixels; 90 are the longest bar, 800 pixels.
table send && table overwrite && table long && table pc
ram=0x80000000:16
cat >send.trace <<'TRACE'
0 20000000 f00000b7
1 20000004 04100113
2 20000008 00208023
3 2000000c 0000a423
output 41
end halted 0
TRACE
makes send send.csv --ram $ram --trace send.trace
same 'its bars' 'silent 10 88.89
detected 2 17.78
illegal 0 0.00
address 90 800.00
misaligned 2 17.78
timeout 0 0.00' "$(cat send/bars)"
same 'its marks' '19200, least 240.00 by 8.00' "$(cat send/marks)"
same 'its cells' '2 8' "$(cat send/beside)"
same 'its counts' ' | send
instructions | 4
jobs | 96
sites | 4,480
no-effect | 4,376
silent | 10
detected | 2
illegal | 0
address | 90
misaligned | 2
timeout | 0' "$(cat send/counts)"
# Bit 3 of x1 flips in cycles 1 and 2, and the low bits of x2 in cycle 2; all are read in cycle 2.
same 'its instructions' 'address | place | instruction | instructions run | silent sites read here | flipped just before | mostly through
0x20000008 |  | 00208023 | 1 | 10 | 9 | x2 sp 8, x1 ra 2
0x20000004 |  | 04100113 | 1 | 0 | 1 | 
2 others |  |  | 2 | 0 | 0 | ' "$(cat send/instructions)"
same 'its worst cells' 'cell | byte of | silent sites
x2 sp |  | 8
x1 ra |  | 2' "$(cat send/cells)"
same 'its groups' 'cell | bits | flipped before | read by | silent sites | commands
x2 sp | 0 to 7 | 2 | 0x20000008 00208023 | 8 | fail_replay IMAGE 2 2 0 OPTIONS gdb-multiarch IMAGE -ex '\''target remote | fail_debug IMAGE 2 2 0 OPTIONS'\''
x1 ra | 3 | 1 to 2 | 0x20000008 00208023 | 2 | fail_replay IMAGE 2 1 3 OPTIONS gdb-multiarch IMAGE -ex '\''target remote | fail_debug IMAGE 2 1 3 OPTIONS'\''' "$(cat send/groups)"
has send 'A group is the silent bits of one read. The first command shows the run with a flip of its first bit, at the last of its cycles; the second shows that run in GDB. IMAGE is the ELF file and OPTIONS are the options of the campaign, which this page was not given.'
same 'its links' 'Sites by outcome -> Sites by outcome
Fault map -> Fault map
Fault map of send -> Fault map of send
Worst of send -> Worst of send
Instructions -> Instructions
Cells -> Cells
Silent groups -> Silent groups
Settings -> Settings
Case of send -> Case of send
x2 sp -> x2 sp: 8 silent sites
x1 ra -> x1 ra: 2 silent sites
x2 sp -> x2 sp: 8 silent sites
x1 ra -> x1 ra: 2 silent sites
x2 sp -> x2 sp: 8 silent sites
0x20000008 00208023 -> 0x20000008 |  | 00208023 | 1 | 10 | 9 | x2 sp 8, x1 ra 2
x1 ra -> x1 ra: 2 silent sites
0x20000008 00208023 -> 0x20000008 |  | 00208023 | 1 | 10 | 9 | x2 sp 8, x1 ra 2' "$(cat send/links)"
has send 'The rest of send: 4,376 of 4,480 sites have no effect.'
has send "fail_star $(cat "$top/VERSION"), 2001-09-09 01:46 UTC"
has send 'x1 ra, bit 3, cycles 1 to 2: silent'
has send 'x1 ra, bit 2, cycles 1 to 2: detected'
same 'it stands alone' '' "$(cat send/demands)"
same 'its colours on a screen and on a print without colours' 'light: silent at least 1.5 True, texts at least 4.5 True
dark: silent at least 1.5 True, texts at least 4.5 True' "$(python3 -B "$tests/page_colours.py" send.html 2>&1 | tail -n 2)"
same 'its lines on a print without colours' 'detected hatch-slant, illegal hatch-upright, misaligned hatch-grid, timeout hatch-flat, ' \
    "$(python3 -B "$tests/page_colours.py" send.html | sed -n 's/ .* \(hatch-[a-z]*\)$/ \1, /p' | sort | tr -d '\n')"
makes again send.csv --ram $ram --trace send.trace --title 'Faults of send'
check 'the same page, byte for byte' "$(cmp -s send.html again.html && echo yes)"

# Without anything beside the table: live sites alone, and what is missing is said.
makes bare overwrite.csv
has bare 'The rest of overwrite: 12 of 376 live sites have no effect.'
has bare 'Functions and instructions need a trace (--trace), or a campaign file as the table.'
same 'bytes of RAM without a base' 'RAM+0 |  | 16' "$(grep 'RAM+0 ' bare/cells)"

# An older version, which knew no kinds of traps.
sed 's/address\|misaligned/trap/' send.csv >old.csv
makes old old.csv --ram $ram
same 'the bars of an older version' 'silent 10 86.96
detected 2 17.39
trap 92 800.00
timeout 0 0.00' "$(cat old/bars)"
same 'the marks of an older version' "$(cat send/marks)" "$(cat old/marks)"

# The pc is a cell beside the registers: 2 * (32 + 992 + 8 * 16) sites, of which 6 + 83 + 6 have an effect.
makes pc pc.csv --ram $ram
has pc 'The rest of pc: 2,209 of 2,304 sites have no effect.'
has pc 'pc: 0 silent sites'

# Two campaigns at one scale: eight cycles are 120 pixels wide each, and a bit of 160 rows is 5 high.
makes both send.csv --ram $ram --compare overwrite.csv --ram2 $ram
same 'bars at one scale' 'silent 10 44.20
silent 181 800.00
detected 2 8.84
detected 1 4.42
illegal 0 0.00
illegal 0 0.00
address 90 397.79
address 172 760.22
misaligned 2 8.84
misaligned 10 44.20
timeout 0 0.00
timeout 0 0.00' "$(cat both/bars)"
same 'marks at one scale' $'6000\n108600' "$(sed 's/,.*//' both/marks)"
same 'a ratio' 'silent | 10 | 181 | 18.1' "$(grep silent both/counts)"
has both 'A table does not name its limit: the two are comparable only if all limits are the same.'
makes other send.csv --ram $ram --compare overwrite.csv --ram2 0x80000000:32
has other 'The two campaigns do not have the same size of RAM, so no ratio is given.'
same 'no ratio' 'silent | 10 | 181' "$(grep silent other/counts)"

# Columns that are 1.4 pixels wide: no silent mark is narrower than two.
makes long long.csv --ram $ram
same 'the least mark' 'yes by 2' "$(awk '{ print ($3 >= 2 ? "yes" : "narrow"), "by", ($5 >= 2 ? 2 : $5) }' long/marks)"
same 'the silent sites of its cells' '32 64 32 32 160' "$(cat long/beside)"

# Source lines of an image with a line table made by hand (named_image.py). As in where.sh 24 silent sites are read by the three
# instructions of a.c:3, 60 by the two of inc/b.h:7, and 65 by the two of a.c:9.
python3 -B "$tests/named_image.py" image.elf names lines5
words=(800001b7 04100113 0021a023 000180a3 0001a203 f00000b7 00408023 0040a423)
{
    for at in 0 1 2 3 4 5 6 7; do printf '%d %08x %s\n' $at $((0x20000000 + 4 * at)) "${words[at]}"; done
    printf 'output 41\nend halted 65\n'
} >lines.trace
mkdir -p inner/inc beside
for at in $(seq 12); do printf '\ta%d <&>\n' "$at"; done >inner/a.c
for at in $(seq 30); do echo "b$at"; done >inner/inc/b.h
cp inner/inc/b.h beside/b.h
lined=(overwrite.csv --ram $ram --trace lines.trace --objdump none)
makes lined "${lined[@]}" --image image.elf --sources inner
same 'lines of the source, with their functions' '3 | 3 | 24 |     a3 <&> | store
9 | 2 | 65 |     a9 <&> | finish
7 | 2 | 60 | b7 | store, load' "$(grep -E '[|] [0-9]+ [|] [0-9]+ [|]' lined/source)"
same 'lines around them' '1 2 3 4 5 6 7 8 9 10 11 12 4 5 6 7 8 9 10' "$(awk '$1 ~ /^[0-9]/ { print $1 }' lined/source | tr '\n' ' ' | sed 's/ $//')"
same 'no line without its text' '' "$(cat lined/lines)"
# The trace has the addresses 0x20000000 to 0x2000001c: store has the first four, load the next, and finish the rest.
same 'an instruction, its function, its line and the map lead to each other' '0x20000010 0001a203 -> 0x20000010 | load+0
a.c:3 -> 3 | 3 | 24 |     a3 <&> | store
finish -> finish | 0x20000014 | 3 | 97
finish -> finish, cycles 5 to 7
finish+4 -> finish | 0x20000014 | 3 | 97
inc/b.h:7 -> 7 | 2 | 60 | b7 | store, load
load -> load | 0x20000010 | 1 | 58
load -> load, cycle 4
low+1 -> low, 0x80000000 to 0x80000001
store -> store | 0x20000000 | 4 | 26
store -> store, cycles 0 to 3
x4 tp -> x4 tp: 96 silent sites' "$(LC_ALL=C sort -u lined/links | sed -nE '
    s/^(0x20000010 .*load[+]0) .*/\1/p; /^(a.c:3|inc.b.h:7|low[+]1|x4 tp) /p; s/^((finish|finish[+]4|load|store) -> [a-z]* [|]( [^|]* [|]){2} [0-9]*) .*/\1/p
    /^(finish|load|store) -> [a-z]*,/p')"
makes unlined "${lined[@]}" --image image.elf
same 'lines without their text' 'line | instructions run | silent sites read here | function
a.c:9 | 2 | 65 | finish
inc/b.h:7 | 2 | 60 | store, load
a.c:3 | 3 | 24 | store' "$(cat unlined/lines)"
same 'no text' '' "$(cat unlined/source)"
has unlined 'Lines whose text is not shown: --sources FOLDER says where the source files are.'
# No page shows a file outside of the folders, by a link, by .. or by its whole name; nor one that is too short, or too large.
mv inner/a.c beside/a.c && ln -s ../beside/a.c inner/a.c
sed 's/inc/..\//' image.elf >upper.elf
makes outside "${lined[@]}" --image upper.elf --sources inner/inc --sources inner
same 'files outside of the folders' 'a.c:9 ..//b.h:7 a.c:3' "$(awk 'NR > 1 { print $1 }' outside/lines | tr '\n' ' ' | sed 's/ $//')"
same 'none of their text' '' "$(cat outside/source)"
rm inner/a.c && head -n 8 beside/a.c >inner/a.c && head -c 1000001 /dev/zero >inner/inc/b.h
makes other "${lined[@]}" --image image.elf --sources inner
same 'files that are not those of the image' 'a.c:9 inc/b.h:7 a.c:3' "$(awk 'NR > 1 { print $1 }' other/lines | tr '\n' ' ' | sed 's/ $//')"
sed 's/\x05\x00\x04\x00/\x06\x00\x04\x00/' image.elf >six.elf
makes six "${lined[@]}" --image six.elf
has six 'No lines: a line table of DWARF version 6; this reader knows 2 to 5.'

# Many jobs: the map is binned.
python3 -B "$tests/tables.py" large | awk -F, 'NR == 1 || $1 < 15000' >large.csv
makes large large.csv --ram 0x80000000:4096
size=$(stat -c %s large.html)
echo "$(($(wc -l <large.csv) - 1)) jobs: $size bytes"
check 'the size of a large page' "$([ "$size" -le 2500000 ] && echo yes)"
same 'the counts of a large page' "$(awk -F, 'NR > 1 { sites[$5] += $4 } END {
    split("silent detected illegal address misaligned timeout", words, " ")
    for (n = 1; n <= 6; n++) print words[n], sites[words[n]]
}' large.csv)" "$(cut -d ' ' -f 1,2 large/bars)"

# Tables, traces and images that are none, or not of one campaign.
header='cycle,cell,bit,weight,outcome'
refuses_file 'an empty table' "/dev/null: line 1: expected $header, found the end" /dev/null
refuses_file 'a missing table' "[Errno 2] No such file or directory: 'missing.csv'" missing.csv
refuses_file 'a missing second table' "[Errno 2] No such file or directory: 'missing.csv'" send.csv --compare missing.csv
words='silent, timeout, illegal, address, misaligned, detected, no-effect'
sed '3s/address/quiet/' send.csv >quiet.csv
refuses_file 'another outcome' "quiet.csv: line 3: expected $header: four numbers and one of $words, found '2,1,1,2,quiet'" quiet.csv
sed '3s/address/trap/' send.csv >mixed.csv
refuses_file 'traps of two versions' "mixed.csv: line 3: expected either trap, as an older version has it, or its kinds, found '2,1,1,2,trap'" mixed.csv
refuses_file 'a RAM that is too small' 'overwrite.csv: a job reads byte 3 of RAM, counted from 0, but --ram has 2 bytes' overwrite.csv --ram $ram --ram 1:2
refuses_file 'a missing trace' 'missing.trace: No such file or directory' send.csv --trace missing.trace
refuses_file 'a trace of another run' \
    'send.trace: the last job reads at cycle 7, but the trace has 4 instructions: they belong to different campaigns, or the table was cut' overwrite.csv --trace send.trace
sed 's/halted 0/limit/' send.trace >limit.trace
refuses_file 'a trace that does not halt' \
    "limit.trace: line 6: expected end halted and a value, since a table is of a run that halts, found 'end limit'" send.csv --trace limit.trace
head -n 3 send.trace >cut.trace
refuses_file 'a trace that was cut off' 'cut.trace: line 4: expected the lines of a trace, and then output, found the end' send.csv --trace cut.trace
sed 2d send.trace >gap.trace
refuses_file 'a trace with a line too few' "gap.trace: line 2: expected instruction 1, found '2 20000008 00208023'" send.csv --trace gap.trace
refuses_file 'an image that is none' 'send.csv: it is not an ELF file' send.csv --image send.csv
refuses_file 'a missing image' 'missing.elf: No such file or directory' send.csv --image missing.elf
refuses_file 'a campaign file that is none' 'send.csv: 1 NotACampaign: it does not begin as a campaign file' send.csv --keep send.csv
kept=$top/crates/fail_star/data/row1.keep
refuses_file 'a campaign file of other jobs' \
    "$kept: the table has the jobs no-effect 24, silent 9, detected 1, address 60, misaligned 2, and the campaign file address 30, misaligned 2: of another campaign" \
    send.csv --keep "$kept"
elf=$top/examples/built/checksum.elf
refuses_file 'a trace of another image' \
    "the trace has the word f00000b7 at 20000000 and the image $(od -An -tx4 -j 148 -N 4 "$elf" | tr -d ' '): they belong to different programs" \
    send.csv --trace send.trace --image "$elf" --objdump none
head -c 100 "$elf" >cut.elf
refuses_file 'an image that was cut off' 'cut.elf: its headers go past its end' send.csv --image cut.elf
head -c 52 "$elf" >header.elf
refuses_file 'an image without its tables' 'header.elf: its headers go past its end' send.csv --image header.elf
same 'a date that is none' "report.py: SOURCE_DATE_EPOCH: expected seconds since 1970, found 'now', nothing" \
    "$(SOURCE_DATE_EPOCH=now report send.csv -o no.html 2>&1), $(ls no.html 2>/dev/null || echo nothing)"
refuses_file 'a missing folder for the page' 'missing/page.html: No such file or directory' send.csv -o missing/page.html
cp send.csv send.again
refuses_file 'a page in the place of the table' 'send.again: it is read, so the page cannot be written to it' send.again -o send.again
cp send.html kept.html
report quiet.csv -o kept.html 2>err.txt
check 'a page is as it was where the next one is refused' "$(cmp -s send.html kept.html && echo yes)"
if [ -c /dev/full ]; then
    refuses_file 'a full device for the page' '/dev/full: No space left on device' send.csv -o /dev/full
fi
for words in 'send.csv --image2 x' 'send.csv --ram 1:2:3' 'send.csv --other' ''; do
    # shellcheck disable=SC2086
    refuses "the words $words" 'status 2, usage' $words
done
report send.csv >out.txt 2>err.txt
same 'no name for the page' 'status 2, out ' "status $?, out $(cat out.txt)"
check 'help' "$(report --help | grep -q -e '--compare TABLE2' && echo yes)"

# An image whose names are markup: as many letters in the place of two names.
python3 - "$elf" named.elf <<'PYTHON'
import sys
content = open(sys.argv[1], "rb").read()
assert b"\0crc32\0" in content and b"\0message\0" in content
open(sys.argv[2], "wb").write(content.replace(b"\0crc32\0", b"\0<b>&\"\0").replace(b"\0message\0", b"\0</svg>\x01\0"))
PYTHON
if [ -n "$program" ]; then
    ram=0x80000000:64
    "$program" run "$elf" checksum.keep --ram $ram --limit 2000 >checksum.txt
    "$program" report "$elf" checksum.keep --ram $ram --limit 2000 --format csv >checksum.csv
    "$program" trace "$elf" --ram $ram >checksum.trace
    more=(--keep checksum.keep --trace checksum.trace --objdump none)
    makes checksum checksum.csv "${more[@]}" --image "$elf"
    makes named checksum.csv "${more[@]}" --image named.elf --title '<i>&amp;"'
    same 'a title that is markup' '<i>&amp;"' "$(head -n 1 named/words)"
    same 'a function that is markup' '<b>&"' "$(sed -n '2s/ |.*//p' named/functions)"
    has named '</svg>?, 0x80000000 to 0x80000008'
    same 'nothing became an element' "$(tr -cd '<' <checksum.html | wc -c)" "$(tr -cd '<' <named.html | wc -c)"

    # The same counts as the program's own, and by functions and instructions as awk has them.
    for word in silent detected illegal address misaligned timeout; do
        same "the bar of $word" "$(grep "^$word " checksum.txt)" "$(grep "^$word " checksum/bars | cut -d ' ' -f 1,2)"
    done
    read_at='FNR == NR { at[$1] = $2; next } FNR > 1 && $5 == "silent" { sites[at[$1]] += $4 } END { for (a in sites) print sites[a], "0x" a }'
    flipped_at='FNR == NR { at[$1] = $2; next } FNR > 1 && $5 == "silent" { for (c = $1 - $4 + 1; c <= $1; c++) sites[at[c]]++ }
        END { for (a in sites) print "0x" a, sites[a] }'
    sed -n 's/^\([0-9]\+\) \([0-9a-f]\{8\}\) .*/\1,\2/p' checksum.trace >steps.csv
    tail -n +2 checksum/instructions | tr -d , | awk -F ' [|] ' '/^0x/ && $5 { print $5, $1 >"read.txt" } /^0x/ && $6 { print $1, $6 >"flips.txt" }'
    same 'silent sites by the instruction that reads them' \
        "$(awk -F, "$read_at" steps.csv checksum.csv | sort -k1,1nr -k2,2)" "$(cat read.txt)"
    same 'silent sites by the instruction behind the flip' \
        "$(awk -F, "$flipped_at" steps.csv checksum.csv | sort)" "$(sort flips.txt)"
    # crc32 is 0x2000000c to 0x20000053, main from 0x20000054 on, as objdump has it too.
    by_function='{ name = $2 < "0x2000000c" ? "_start" : $2 < "0x20000054" ? "crc32" : "main"; sites[name] += $1 }
        END { print "crc32", sites["crc32"]; print "main", sites["main"]; print "_start", sites["_start"] + 0 }'
    same 'silent sites by function' "$(awk -F, "$read_at" steps.csv checksum.csv | awk "$by_function")" \
        "$(tail -n +2 checksum/functions | tr -d , | awk -F ' [|] ' '{ print $1, $4 }')"
    same 'a byte of a variable' "0x80000008 | message+8 | $(awk -F, '$2 == 40 && $5 == "silent" { sites += $4 } END { print sites }' checksum.csv)" "$(tr -d , <checksum/cells | grep message+8)"
    has checksum 'crc32, cycles 8 to 562'
    has checksum "$(sha256sum "$elf" | cut -d ' ' -f 1)"
    has checksum '0x20000000:65536'
    has checksum '2,000 instructions'

    # A campaign file as the table, without a word beside it, is the same but for its name and the program; another image is refused.
    makes kept checksum.keep --program "$program" --image "$elf" --objdump none
    digest=$(sha256sum "$program" | cut -d ' ' -f 1)
    same 'the page of a campaign file' \
        "$(sed "s/checksum.csv/checksum.keep/; s/\(SHA-256 of fail_star<.*>\)not said/\1$digest/" checksum.html | sha256sum)" "$(sha256sum <kept.html)"
    refuses_file 'a campaign file of another image' \
        "$top/examples/built/sort.elf: it has other bytes from 0x20000000 on than the campaign file: another image" \
        checksum.keep --program "$program" --image "$top/examples/built/sort.elf"
    refuses_file 'an objdump that is missing' './missing: No such file or directory' checksum.csv "${more[@]}" --image "$elf" --objdump ./missing
    if command -v llvm-objdump >/dev/null; then
        makes disassembled checksum.csv "${more[@]}" --image "$elf" --objdump llvm-objdump
        awk -F ' [|] ' '/^0x/ { print $1, $3 }' disassembled/instructions | sort >texts.txt
        same 'the instructions as objdump has them' \
            "$(llvm-objdump -d --mattr=+m --no-show-raw-insn "$elf" | sed -n 's/^ *\(2[0-9a-f]\{7\}\):[[:space:]]*/0x\1 /p' | sed 's/[[:space:]]\+/ /g' | grep -F -f <(cut -d ' ' -f 1 texts.txt))" \
            "$(cat texts.txt)"
    else
        echo "skipped: a disassembly on the page needs llvm-objdump"
    fi
    # Another limit: no ratio.
    "$program" run "$elf" short.keep --ram $ram --limit 1500 >short.txt
    makes limits checksum.keep --compare short.keep --program "$program"
    has limits 'The two campaigns do not have the same limit, so no ratio is given.'
    same 'both limits' $'limit | 2,000 instructions\nlimit | 1,500 instructions' "$(grep limit limits/facts)"
fi

try_refusals
check 'the table is as it was' "$(cmp -s send.csv send.again && echo yes)"
echo "$passed passed, $failed failed"
[ "$failed" -eq 0 ]
