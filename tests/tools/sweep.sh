#!/usr/bin/env bash
# Sweeps of variants and flags, by sweep.py, over files of examples/built that a build command copies: the tables and the page beside the
# guide's counts, sweeps that are interrupted and taken up, images and options that change, builds and campaigns that fail, names that a
# shell could carry out; and one sweep with a compiler, where there is the one that made examples/built.
# usage: sweep.sh PROGRAM
set -u
. "$(dirname "$0")/../checks.sh"
program=$(realpath "$1") || exit 2
command -v python3 >/dev/null || { echo "skipped: sweep needs python3"; exit 0; }
# The interpreter itself, where python3 is a script that looks for it each time.
python=$(python3 -c 'import sys; print(sys.executable)')
PATH=$(dirname "$python"):$PATH
built=$top/examples/built
folder=$(mktemp -d) || exit 2
trap 'rm -rf "$folder"' EXIT
cd "$folder" || exit 2
export SOURCE_DATE_EPOCH=1000000000
export PYTHONPYCACHEPREFIX=$folder/cache
built_by=12.2.0

# Digests in names of files are left out.
shown() { sed 's/-[0-9a-f]\{12\}\././g' "$1"; }

tool=$top/tools/sweep.py
sweep() { timeout 300 python3 "$tool" --program "$program" "$@"; }
# Each combination is the copy of a file that is called after it.
export SRC=$folder/src
# shellcheck disable=SC2016
copy='cp "$SRC/$VARIANT$FLAGS.elf" "$IMAGE"'
copied() { sweep --build "$copy" "$@"; }
ram=(--ram 0x80000000:64)
# files STEM SUFFIX: the file of a combination, whose digest is not known here.
files() { echo sweep/"$1"-????????????"$2"; }
# written FILE..: what a write to a file, or another file in its place, would change.
written() { stat -c '%n %i %s %y %z' "$@"; }

mkdir src
source_of() { cp "$built/$1.elf" "src/$2.elf"; }
source_of checksum plain-O2 && source_of pin plain-Os && source_of checksum_twice twice-O2 && source_of pin_twice twice-Os

# --- The table ------------------------------------------------------------------------------------

# The rows of the table in docs/GUIDE.md ("Two hardened variants"), and of the campaigns in docs/HOWTO.md ("Include faults in the pc").
four=(--variant plain --variant twice --flags -O2 --flags -Os)
table='variant  flags  instructions    sites  silent  no-effect  detected  illegal  address  misaligned  timeout  silent ratio
plain      -O2           575   864800   75696     732929        10     4995    42655         589     7926             1
plain      -Os            23    34592       0      33201       111      100     1150          30        0             0
twice      -O2          1136  1708544     258    1387803    209778     9990    83717        1146    15852       0.00341
twice      -Os           108   162432       0     147255        43     2871    12157         106        0             0'
notes='

Fewest silent sites: plain -Os, twice -Os, with 0.

plain -Os, twice -Os: without a fault it sends other bytes or halts with another value than plain -O2, so it is a program with another answer.'
gives 'a sweep' 0 "$table$notes" '' copied "${four[@]}" -- "${ram[@]}"
before=$(written sweep/*.keep)
same 'a campaign file for each' 4 "$(wc -l <<<"$before")"
gives 'the same sweep again' 0 "$table$notes" '' copied "${four[@]}" -- "${ram[@]}" --workers 1
same 'no campaign file was written to' "$before" "$(written sweep/*.keep)"
"$program" report "$built/checksum.elf" "$(files plain_-O2 .keep)" "${ram[@]}" >report.txt 2>&1
same 'a campaign file as the program has it' 'silent 75696' "$(grep silent report.txt)"
gives 'the table in Markdown' 0 "| variant | flags | instructions | sites | silent | no-effect | detected | illegal | address | misaligned | timeout | silent ratio |
| --- | ---: | ---: | ---: | ---: | ---: | ---: | ---: | ---: | ---: | ---: | ---: |
| twice | -O2 | 1136 | 1708544 | 258 | 1387803 | 209778 | 9990 | 83717 | 1146 | 15852 | 1 |
| plain | -O2 | 575 | 864800 | 75696 | 732929 | 10 | 4995 | 42655 | 589 | 7926 | 293 |

Fewest silent sites: twice -O2, with 258." '' copied --variant twice --variant plain --flags -O2 --markdown -- "${ram[@]}"
gives 'the table as comma-separated values' 1 'variant,flags,came to,instructions,sites,silent,no-effect,detected,illegal,address,misaligned,timeout
plain,-O2,counted,575,864800,75696,732929,10,4995,42655,589,7926
none,-O2,build failed,,,,,,,,,' "sweep.py: none -O2: build failed: cp: cannot stat '$SRC/none-O2.elf': No such file or directory (none_-O2.log)" \
    copied --variant plain --variant none --flags -O2 --format csv -- "${ram[@]}"
copied "${four[@]}" --format json -- "${ram[@]}" >table.json
same 'the table as an object' "made by $(cat "$top/VERSION") $(sha256sum "$program" | cut -d ' ' -f 1)
asked 0x20000000:65536 0x80000000:64 1000000 []
best [1, 3]
counted plain -O2 575 864800 75696 732929 0 2639f4cb
counted plain -Os 23 34592 0 33201 0 -
counted twice -O2 1136 1708544 258 1387803 0 2639f4cb
counted twice -Os 108 162432 0 147255 0 -
$(sha256sum "$built"/{checksum,pin,checksum_twice,pin_twice}.elf | cut -d ' ' -f 1)" "$(python3 - <<'END'
import json
whole = json.load(open("table.json"))
print("made by", whole["made_by"]["version"], whole["made_by"]["program"])
print("asked", *(whole["asked"][key] for key in ("rom", "ram", "limit", "options")))
print("best", whole["best"])
for row in whole["rows"]:
    print(*(row[key] for key in ("came_to", "variant", "flags", "instructions", "sites", "silent", "no_effect", "exit", "output")))
for row in whole["rows"]:
    print(row["sha256"])
END
)"

# --- The page -------------------------------------------------------------------------------------

pages() { copied "${four[@]}" --page page.html -- "${ram[@]}" >/dev/null 2>err.txt; }
pages
same 'the page' 'status 0, ' "status $?, $(cat err.txt; python3 "$tests/page.py" page.html page 2>&1)"
# Bars are 800 pixels wide at most, and one pixel at least: 258 of 75,696, and of 209,778 what the others are.
same 'its bars' 'silent 75696 800.00
silent 0 0.00
silent 258 2.73
silent 0 0.00
detected 10 1.00
detected 111 1.00
detected 209778 800.00
detected 43 1.00
illegal 4995 19.05
illegal 100 1.00
illegal 9990 38.10
illegal 2871 10.95
address 42655 162.67
address 1150 4.39
address 83717 319.26
address 12157 46.36' "$(head -n 16 page/bars)"
same 'its table' 'plain | -O2 | 575 | 864,800 | 75,696 | 732,929 | 10 | 4,995 | 42,655 | 589 | 7,926 | 1
plain | -Os | 23 | 34,592 | 0 | 33,201 | 111 | 100 | 1,150 | 30 | 0 | 0
twice | -O2 | 1,136 | 1,708,544 | 258 | 1,387,803 | 209,778 | 9,990 | 83,717 | 1,146 | 15,852 | 0.00341
twice | -Os | 108 | 162,432 | 0 | 147,255 | 43 | 2,871 | 12,157 | 106 | 0 | 0' "$(tail -n +2 page/counts)"
same 'its version and date' "fail_star $(cat "$top/VERSION"), 2001-09-09 01:46 UTC" "$(grep '^fail_star ' page/words)"
same 'its command' yes "$(grep -qF -- '--variant plain --variant twice --flags -O2 --flags -Os --page page.html -- --ram 0x80000000:64' page/words && echo yes)"
same 'its build command' yes "$(grep -qxF -- "$copy" page/words && echo yes)"
same 'an image' yes "$(grep -qxF "$(sha256sum <"$built/pin.elf" | cut -d ' ' -f 1)" page/words && echo yes)"
same 'it stands alone' '' "$(cat page/demands)"
cp page.html first.html
pages
check 'the same page, byte for byte' "$(cmp -s page.html first.html && echo yes)"

# --- Builds and campaigns that fail ---------------------------------------------------------------

echo 'no image' >src/text-O2.elf
failing=(--variant text --variant twice --flags -O2 --flags -Os)
copied "${failing[@]}" --page failing.html -- "${ram[@]}" >out.txt 2>err.txt
same 'a build and a campaign that fail' "status 1
sweep.py: text -Os: build failed: cp: cannot stat '$SRC/text-Os.elf': No such file or directory (text_-Os.log)
sweep.py: text -O2: campaign failed: image refused: 1 Short
text -O2 - - - - - - - - - campaign failed
text -Os - - - - - - - - - build failed
twice -O2 1136 1708544 258 1387803 209778 9990 83717 1146 15852 1
twice -Os 108 162432 0 147255 43 2871 12157 106 0 0" \
    "status $?
$(sed 's/-[0-9a-f]\{12\}\././g' err.txt)
$(sed -n '2,5s/  */ /gp' out.txt)"
python3 "$tests/page.py" failing.html failing
same 'a row of the page without numbers' 'text | -Os | - | - | - | - | - | - | - | - | - | build failed' "$(sed -n 3p failing/counts)"
has() { check "$1 has: $2" "$(grep -qxF "$2" "$1/words" && echo yes)"; }
has failing 'campaign failed: image refused: 1 Short'
gives 'no combination with counts' 1 'variant  flags  instructions  sites  silent  no-effect  detected  illegal  address  misaligned  timeout  silent ratio
text       -Os             -      -       -          -         -        -        -           -        -  build failed' \
    "sweep.py: text -Os: build failed: cp: cannot stat '$SRC/text-Os.elf': No such file or directory (text_-Os.log)" \
    copied --variant text --flags -Os --page none.html -- "${ram[@]}"
python3 "$tests/page.py" none.html none
same 'a page without bars' '' "$(cat none/bars)"
# shellcheck disable=SC2016
gives 'a build that makes nothing: no image of an earlier command is taken' 1 "$(sed -n 1,2p out.txt | sed 's/text /plain/; s/-Os/-O2/')" \
    'sweep.py: plain -O2: build failed: it ended with status 0, and made no file $IMAGE (plain_-O2.log)' sweep --build : --variant plain --flags -O2 -- "${ram[@]}"
gives 'a build that says nothing' 1 "$(cat out.txt)" \
    'sweep.py: plain -O2: build failed: no line, status 3 (plain_-O2.log)' sweep --build 'exit 3' --variant plain --flags -O2 -- "${ram[@]}"
gives 'a build with warnings in front of its error' 1 "$(cat out.txt)" 'sweep.py: plain -O2: build failed: a.c:2: error: here (plain_-O2.log)' \
    sweep --build 'printf "a.c:1: warning: there\na.c:2: error: here\nError 1\n" >&2; exit 1' --variant plain --flags -O2 -- "${ram[@]}"
# fails_by NAME LINE TEXT..: which line of what a build wrote the sweep shows. The texts are those of gcc, GNU as and ld, and of clang and lld.
fails_by() {
    printf '%s\n' "${@:3}" >errors.txt
    gives "$1" 1 "$(cat out.txt)" "sweep.py: plain -O2: build failed: $2 (plain_-O2.log)" \
        sweep --build 'cat errors.txt >&2; exit 1' --variant plain --flags -O2 -- "${ram[@]}"
}
returned='collect2: error: ld returned 1 exit status'
fails_by 'a function that is missing' "a.c:3: undefined reference to \`memcpy'" \
    "/usr/bin/ld: /tmp/cc.o: in function \`main':" "a.c:3: undefined reference to \`memcpy'" "$returned" 'make: *** [Makefile:9: a.elf] Error 1'
fails_by 'an error on the line of ld' "/usr/bin/ld: /tmp/cc.o: a.c:3: undefined reference to \`memset'" \
    '/usr/bin/ld: warning: cannot find entry symbol _start; not setting start address' "/usr/bin/ld: /tmp/cc.o: in function \`main':" \
    "/usr/bin/ld: /tmp/cc.o: a.c:3: undefined reference to \`memset'" "$returned"
fails_by 'a region that is too small' "/usr/bin/ld: a.elf section \`.data' will not fit in region \`ram'" \
    "a.c:5: warning: variable 'errors' is not used" "/usr/bin/ld: a.elf section \`.data' will not fit in region \`ram'" \
    "/usr/bin/ld: region \`ram' overflowed by 7 bytes" "$returned"
fails_by 'a linker that says nothing' "$returned" "$returned"
fails_by 'an error of lld' 'ld.lld: error: undefined symbol: memcpy' 'ld.lld: warning: cannot find entry symbol _start; not setting start address' \
    'ld.lld: error: undefined symbol: memcpy' '>>> referenced by a.c:3' 'clang: error: linker command failed with exit code 1 (use -v to see invocation)'
fails_by 'an error of GNU as' "a.S:4: Error: unrecognized opcode \`moov a0,a1'" 'a.S: Assembler messages:' "a.S:4: Error: unrecognized opcode \`moov a0,a1'"
# shellcheck disable=SC2016
sweep --into here --build 'ls -A "$OUT" >>seen.txt; echo "$VARIANT, $FLAGS, $OUT, $IMAGE, $PWD" >>seen.txt; touch "$OUT/rest"; cp "$SRC/plain-Os.elf" "$IMAGE"; echo said; echo warned >&2' \
    --variant a/b --flags '-O1  -g' --flags '' -- "${ram[@]}" >out.txt 2>err.txt
sed -i 's/-[0-9a-f]\{12\}//g' seen.txt
same 'what a build is told' "a/b, -O1  -g, $folder/here/a_b_-O1_-g, $folder/here/a_b_-O1_-g/a_b.elf, $folder
a/b, , $folder/here/a_b, $folder/here/a_b/a_b.elf, $folder" "$(cat seen.txt)"
same 'what a build wrote is kept' $'said\nwarned' "$(cat here/a_b_-O1_-g-*.log)"
same 'two builds of one image' 'status 0, a/b: the same image as a/b -O1  -g, byte for byte, and run once.' \
    "status $(sweep --into here --build "cp '$SRC/plain-Os.elf' \"\$IMAGE\"" --variant a/b --flags '-O1  -g' --flags '' -- "${ram[@]}" >out.txt 2>err.txt; echo $?), $(tail -n 1 out.txt)"
same 'run once' 1 "$(find here -name '*.keep' | wc -l)"
same 'both rows' $'a/b -O1 -g 23 34592 0 33201 111 100 1150 30 0 -\na/b - 23 34592 0 33201 111 100 1150 30 0 -' "$(sed -n '2,3s/  */ /gp' out.txt)"

# --- What changed since ---------------------------------------------------------------------------

pins=(--variant plain --variant twice --flags -Os)
row_of() { grep "^$1 " out.txt | sed 's/  */ /g'; }
before=$(written sweep/twice*.keep)
old=$(sha256sum <"$(files plain_-Os .keep)")
source_of pin_checked plain-Os
copied "${pins[@]}" -- "${ram[@]}" >out.txt 2>err.txt
same 'an image that changed' "status 0, plain -Os 118 177472 0 162052 0 3066 12240 114 0 -, $old" \
    "status $?, $(row_of plain), $(sha256sum <"$(files plain_-Os .keep.old)")"
# shellcheck disable=SC2015
check 'the error output says so' "$(grep -qx 'sweep.py: plain -Os: started again, because the image or an option changed (campaign file refused: 6 OtherCase at [0-9]*); the old file is now plain_-Os-[0-9a-f]*.keep.old' err.txt && [ "$(wc -l <err.txt)" -eq 1 ] && echo yes || cat err.txt)"
same 'the other files are as they were' "$before" "$(written sweep/twice*.keep)"
copied --variant plain --flags -O2 -- "${ram[@]}" --limit 1500 >out.txt 2>err.txt
same 'another limit' "status 0, plain -O2 575 864800 69464 732929 10 4995 26068 589 30745 1, 6 OtherCase at 21" \
    "status $?, $(row_of plain), $(grep -o '6 OtherCase at [0-9]*' err.txt)"
one=(--variant plain --flags -Os)
keep=$(files plain_-Os .keep)
printf '\0' >"$keep"
copied "${one[@]}" -- "${ram[@]}" >out.txt 2>err.txt
same 'a file that was not begun to the end' "status 0, plain -Os 118 177472 0 162052 0 3066 12240 114 0 -
sweep.py: plain -Os: started again, because the creation of its campaign file was interrupted" "status $?, $(row_of plain)
$(cat err.txt)"
cp "$keep" whole.keep
truncate -s -100 "$keep" && cp "$keep" cut.keep
copied "${one[@]}" -- "${ram[@]}" >out.txt 2>err.txt
same 'a file that was cut is left as it is' 'status 1, sweep.py: plain -Os: campaign failed: campaign file refused: 3 Cut, same' \
    "status $?, $(cat err.txt), $(cmp "$keep" cut.keep && echo same)"
echo text >"$keep"
copied "${one[@]}" -- "${ram[@]}" >out.txt 2>err.txt
same 'a file that is none is left as it is' 'status 1, sweep.py: plain -Os: campaign failed: campaign file refused: 1 NotACampaign, text' \
    "status $?, $(cat err.txt), $(cat "$keep")"

# --- Interrupted ----------------------------------------------------------------------------------

# kept FILE: the rows of a campaign file, as text.
kept() {
    PYTHONPATH=$top/tools python3 -c 'import sys; from fail_star_tools.read import campaign_file
for row in campaign_file.read(sys.argv[1]).rows(): print(*row)' "$1"
}
rm "$keep"
jobs=$("$program" plan "$built/pin_checked.elf" "${ram[@]}" | sed -n 's/^jobs //p')
gives 'a campaign that is stopped' 1 "$(printf '%s\n' 'variant  flags  instructions  sites  silent  no-effect  detected  illegal  address  misaligned  timeout  silent ratio' \
    'plain      -Os             -      -       -          -         -        -        -           -        -       stopped')" \
    "sweep.py: plain -Os: stopped: 40 of $jobs jobs kept" copied "${one[@]}" -- "${ram[@]}" --stop-after 40
kept "$keep" >kept.txt
copied "${one[@]}" -- "${ram[@]}" >out.txt 2>err.txt
same 'the same taken up' "status 0, plain -Os 118 177472 0 162052 0 3066 12240 114 0 -, 40, same" \
    "status $?, $(row_of plain), $(wc -l <kept.txt), $(kept "$keep" >whole.txt; head -n 40 whole.txt | cmp - kept.txt && echo same)"

# interruptible WORD..: a command that takes SIGINT, also where this script runs in the background, and so without it.
interruptible() {
    exec python3 -c 'import os, signal, sys
signal.signal(signal.SIGINT, signal.SIG_DFL)
os.execvp(sys.argv[1], sys.argv[1:])' "$@"
}

# quoted WORD..: the words as a shell takes them, by Python's own rules.
quoted() { python3 -c 'import shlex, sys; print(*map(shlex.quote, sys.argv[1:]))' "$@"; }

in_place() { (interruptible "$@"); }

# Ctrl-C, which a terminal gives to all processes of the sweep: the second of three campaigns is under way.
three=(--into cut --build "$copy" --variant twice-Os --variant plain-O2 --variant plain-Os)
set -m
interruptible python3 "$tool" --program "$program" "${three[@]}" -- "${ram[@]}" --page 16 --workers 1 >out.txt 2>err.txt &
pid=$!
set +m
second=
for ((n = 0; n < 3000; n++)); do
    second=$(echo cut/plain-O2-*.keep) # which begins with the 65,600 bytes of ROM and RAM
    [ -f "$second" ] && [ "$(stat -c %s "$second")" -gt 70000 ] && break
    sleep 0.02
done
kill -INT -- "-$pid"
wait "$pid"
status=$?
same 'Ctrl-C' "status 130, , sweep.py: interrupted; continue by: python3 $(quoted "$tool" --program "$program" "${three[@]}" -- "${ram[@]}" --page 16 --workers 1)" \
    "status $status, $(cat out.txt), $(cat err.txt)"
first=$(echo cut/twice-Os-*.keep)
before=$(written "$first")
"$program" report "$built/checksum.elf" "$second" "${ram[@]}" >report.txt 2>&1
same 'some jobs are kept' 7 $?
kept "$second" >kept.txt
check 'more than none' "$([ "$(wc -l <kept.txt)" -gt 0 ] && echo yes)"
same 'the third was not begun' 0 "$(find cut -name 'plain-Os-*.keep' | wc -l)"
gives 'the sweep taken up' 0 'variant   flags  instructions   sites  silent  no-effect  detected  illegal  address  misaligned  timeout  silent ratio
twice-Os      -           108  162432       0     147255        43     2871    12157         106        0             -
plain-O2      -           575  864800   75696     732929        10     4995    42655         589     7926             -
plain-Os      -           118  177472       0     162052         0     3066    12240         114        0             -

Fewest silent sites: twice-Os, plain-Os, with 0.

plain-O2: without a fault it sends other bytes or halts with another value than twice-Os, so it is a program with another answer.' '' \
    sweep "${three[@]}" -- "${ram[@]}"
same 'the first was not written to' "$before" "$(written "$first")"
kept "$second" >whole.txt
check 'the second went on' "$(head -n "$(wc -l <kept.txt)" whole.txt | cmp -s - kept.txt && echo yes)"

# shellcheck disable=SC2016
for signal in INT TERM; do
    gives "SIG$signal for the sweep alone, while it builds" 130 '' \
        "sweep.py: interrupted; continue by: python3 $(quoted "$tool" --program "$program" --build "kill -$signal \$PPID; exec sleep 60" "${one[@]}" -- "${ram[@]}")" \
        in_place python3 "$tool" --program "$program" --build "kill -$signal \$PPID; exec sleep 60" "${one[@]}" -- "${ram[@]}"
done

# --- Names that a shell or a page could take for more ---------------------------------------------

# shellcheck disable=SC2016
odd='; touch pwned; $(touch pwned) `touch pwned` "<b>&'\'' | x'
cp "$built/pin.elf" "src/$odd-Os.elf"
mkdir odd && cd odd || exit 2
copied --variant "$odd" --flags -Os --page odd.html -- "${ram[@]}" >../out.txt 2>../err.txt
same 'an odd name' "status 0, , $odd -Os 23 34592 0 33201 111 100 1150 30 0 -" "status $?, $(cat ../err.txt), $(sed -n '2s/  */ /gp' ../out.txt)"
same 'nothing was carried out' 'odd.html sweep, ' "$(echo *), $(find .. -name pwned)"
cd .. || exit 2
python3 "$tests/page.py" odd/odd.html oddly
same 'an odd name on the page' "$odd | -Os | 23 | 34,592 | 0 | 33,201 | 111 | 100 | 1,150 | 30 | 0 | -" "$(sed -n 2p oddly/counts)"
same 'the files of an odd name' '_touch_pwned_touch_pwned_touch_pwned_b_x_-Os.keep' "$(basename odd/sweep/*.keep | sed 's/-[0-9a-f]\{12\}\././')"
LONG=$(printf 'x%.0s' {1..150})
cp "$built/pin.elf" "src/$LONG-Os.elf"
copied --into long --variant "$LONG" --flags -Os -- "${ram[@]}" >out.txt 2>err.txt
same 'a long name' 'status 0, ' "status $?, $(cat err.txt)"

# --- What is refused ------------------------------------------------------------------------------

# refused NAME ERR WORD..: status 2, nothing written to the output, and one line.
refused() { gives "$1" 2 '' "sweep.py: $2" "${@:3}"; }
refused 'options that the program refuses' 'fail_star run takes no such options: --limits 5' copied --into no "${one[@]}" -- --limits 5
refused 'a map that is none' 'fail_star run takes no such options: --ram 1:2' copied --into no "${one[@]}" -- --ram 1:2
check 'nothing was begun' "$([ ! -e no ] && echo yes)"
refused 'a folder that cannot be made' "/dev/null/sweep: Not a directory" copied --into /dev/null/sweep "${one[@]}" -- "${ram[@]}"
touch file
refused 'a file in the place of the folder' "$folder/file: File exists" copied --into file "${one[@]}" -- "${ram[@]}"
refused 'no program' "./missing: No such file or directory" python3 "$tool" --program ./missing --build "$copy" "${one[@]}"
refused 'a folder for the page that is missing' 'no/page.html: No such file or directory' copied "${one[@]}" --page no/page.html
copied --into inside "${one[@]}" --page inside/page.html -- "${ram[@]}" >out.txt 2>err.txt
same 'a page in the folder of the sweep' 'status 0, , yes' "status $?, $(cat err.txt), $([ -s inside/page.html ] && echo yes)"
refused 'a folder in the place of the page' 'src: Is a directory' copied "${one[@]}" --page src
SOURCE_DATE_EPOCH=now refused 'a date that is none' "SOURCE_DATE_EPOCH: expected seconds since 1970, found 'now'" copied "${one[@]}" --page now.html
if command -v flock >/dev/null; then
    exec 9>>sweep/lock && flock 9
    refused 'two sweeps in one folder' "$folder/sweep: another sweep works in it" copied "${one[@]}" -- "${ram[@]}"
    exec 9>&-
fi
usage() {
    local got=0
    "${@:3}" >out.txt 2>err.txt || got=$?
    same "$1" "status 2, out , sweep.py: error: $2" "status $got, out $(cat out.txt), $(tail -n 1 err.txt)"
}
usage 'no variant' 'the following arguments are required: --variant' sweep --build :
usage 'no command' 'the following arguments are required: --build' sweep --variant plain
usage 'an empty variant' '--variant: expected a name, found none' sweep --variant '' --build :
usage 'a variant twice' 'a variant, or a choice of flags, is repeated' sweep --variant a --variant a --build :
usage 'a word that is none' 'unrecognized arguments: --other' sweep --variant a --build : --other
for word in --fresh --shard=1/2 --format; do
    usage "the option $word" "$word: not an option for a sweep, which counts whole campaigns and starts again what changed" \
        sweep --variant a --build : -- $word
done
if [ -c /dev/full ]; then
    copied "${one[@]}" --page /dev/full -- "${ram[@]}" >out.txt 2>err.txt
    same 'a page that cannot be written' 'status 2, plain -Os 118 177472 0 162052 0 3066 12240 114 0 -, sweep.py: /dev/full: No space left on device' \
        "status $?, $(row_of plain), $(cat err.txt)"
fi
cp "$program" here/fail_star && chmod -x here/fail_star
refused 'a program that may not run' 'here/fail_star: Permission denied' python3 "$tool" --program here/fail_star --build "$copy" "${one[@]}"
check 'help' "$(sweep --help | grep -q -e '--into FOLDER' && echo yes)"

# --- A compiler -----------------------------------------------------------------------------------

if command -v make >/dev/null && [ "$(riscv64-unknown-elf-gcc -dumpfullversion 2>&1)" = "$built_by" ]; then
    # Under -O2 the files of examples/built come; under -Os what make and the program give by themselves.
    # shellcheck disable=SC2016
    sweep --into "$folder/compiled" --variant pin --variant pin_twice --flags '-O2 -g' --flags -Os --format csv \
        --build "make -s -C '$top/examples'"' BUILD="$OUT" CFLAGS="$FLAGS" "$OUT/$VARIANT.elf"' -- "${ram[@]}" >out.txt 2>err.txt
    same 'a sweep with a compiler' "status $?, pin,-O2 -g,counted,23,34592,0,33201,111,100,1150,30,0
pin_twice,-O2 -g,counted,108,162432,0,147255,43,2871,12157,106,0, " "status 0, $(grep -e -O2 out.txt), $(cat err.txt)"
    for name in pin pin_twice; do
        make -s -C "$top/examples" BUILD="$folder/made" CFLAGS=-Os "$folder/made/$name.elf" >report.txt 2>&1
        "$program" run "made/$name.elf" "$name.keep" "${ram[@]}" >report.txt 2>&1
        same "$name under -Os" "$(sed 's/.* //' report.txt | sort)" "$(grep "^$name,-Os,counted," out.txt | cut -d , -f 4- | tr , '\n' | sort)"
    done
else
    echo "skipped: a sweep with a compiler needs make and riscv64-unknown-elf-gcc $built_by"
fi

echo "$passed passed, $failed failed"
[ "$failed" -eq 0 ]
