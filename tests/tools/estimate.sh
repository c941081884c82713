#!/usr/bin/env bash
# Estimates from samples: intervals beside what defines them and published ones, samples worked by hand, broken ones, samples that the
# second reading draws of tables worked out by hand; and the program's own, where a program is named that draws some.
# usage: estimate.sh [PROGRAM]
set -u
. "$(dirname "$0")/../checks.sh"
program=
[ $# -eq 0 ] || program=$(realpath "$1") || exit 2
command -v python3 >/dev/null || { echo "skipped: estimates need python3"; exit 0; }
# The interpreter itself, where python3 is a script that looks for it each time.
python=$(python3 -c 'import sys; print(sys.executable)')
PATH=$(dirname "$python"):$PATH
folder=$(mktemp -d) || exit 2
trap 'rm -rf "$folder"' EXIT
cd "$folder" || exit 2

# By the standard library alone: -S leaves out what is installed beside it.
estimate() { timeout 60 python3 -S -B "$top/tools/estimate.py" "$@"; }
# rows WORD..: the rows of the table alone, with a space between two words.
rows() { estimate "$@" | sed '1,6d; s/  */ /g'; }

check 'the intervals' "$(python3 -B "$tests/intervals.py" "$top/tools" >out.txt 2>&1 && echo yes || cat out.txt)"
grep '^skipped' out.txt

# Ten draws from a thousand sites. By tables the exact interval of 5 of 10 is 0.1871 to 0.8129 and that of none 0 to 0.3085, so in sites
# 187 to 813 and 0 to 309. Wilson's are 0.2366 to 0.7634, and for none 0 to z^2 / (n + z^2), 3.8415 / 13.8415.
head='instructions 3
population 1000
samples 10'
half="$head
no-effect 5
silent 5
detected 0
trap 0
timeout 0"
heading='outcome    method  draws  fraction    from      to  sites  from   to'
gives 'half and none of ten draws' 0 "$head
level 0.95

$heading
no-effect  wilson      5    0.5000  0.2366  0.7634    500   236  764
no-effect   exact      5    0.5000  0.1871  0.8129    500   187  813
silent     wilson      5    0.5000  0.2366  0.7634    500   236  764
silent      exact      5    0.5000  0.1871  0.8129    500   187  813
detected   wilson      0    0.0000  0.0000  0.2775      0     0  278
detected    exact      0    0.0000  0.0000  0.3085      0     0  309
trap       wilson      0    0.0000  0.0000  0.2775      0     0  278
trap        exact      0    0.0000  0.0000  0.3085      0     0  309
timeout    wilson      0    0.0000  0.0000  0.2775      0     0  278
timeout     exact      0    0.0000  0.0000  0.3085      0     0  309" '' estimate <<<"$half"
gives 'all three kinds of trap, in another order' 0 "$head
level 0.95

outcome     method  draws  fraction    from      to  sites  from    to
no-effect    exact     10    1.0000  0.6915  1.0000   1000   691  1000
silent       exact      0    0.0000  0.0000  0.3085      0     0   309
detected     exact      0    0.0000  0.0000  0.3085      0     0   309
illegal      exact      0    0.0000  0.0000  0.3085      0     0   309
address      exact      0    0.0000  0.0000  0.3085      0     0   309
misaligned   exact      0    0.0000  0.0000  0.3085      0     0   309
timeout      exact      0    0.0000  0.0000  0.3085      0     0   309" '' estimate --method exact - \
    < <(echo "$head"; printf '%s 0\n' timeout misaligned address illegal detected silent; echo 'no-effect 10')

# Of 263 draws 81 are silent, an interval that is published to four places. The population is the largest that there can be, and the last
# line has no end.
printf 'instructions 16777216\npopulation 17592186044415\nsamples 263\nno-effect 182\nsilent 81' >sample.txt
same 'a published interval' 'silent wilson 81 0.3080 0.2553 0.3662' "$(rows --method wilson sample.txt | sed -n 2p | cut -d ' ' -f 1-6)"
# The fraction of the population, by bc's whole numbers.
if command -v bc >/dev/null; then
    wanted=$(bc <<<'(81 * 17592186044415 + 131) / 263')
    same 'a large number of sites' "$wanted" "$(rows --method exact sample.txt | sed -n 2p | cut -d ' ' -f 7)"
else
    echo 'skipped: a large number of sites needs bc'
fi

# JSON at another level, beside awk's numbers of the closed forms: none of n draws have 0 to 1 - t^(1/n), with t half of what the level
# leaves, or to z^2 / (n + z^2), and all of them have the rest. Tables have 2.575829303548901 for z.
printf '%s\nsilent 10\ntimeout 0\n' "$head" >all.txt
wanted=$(awk 'BEGIN {
    square = 2.575829303548901 ^ 2; wilson = square / (10 + square); exact = 1 - 0.005 ^ (1 / 10)
    all = sprintf("{\"draws\":10,\"exact\":{\"fraction\":[%.12f,1.0],\"sites\":[%d,1000]},\"fraction\":1.0,\"outcome\":\"silent\",\"sites\":1000," \
        "\"wilson\":{\"fraction\":[%.12f,1.0],\"sites\":[%d,1000]}}", 1 - exact, 1000 * (1 - exact), 1 - wilson, 1000 * (1 - wilson))
    none = sprintf("{\"draws\":0,\"exact\":{\"fraction\":[0.0,%.12f],\"sites\":[0,%d]},\"fraction\":0.0,\"outcome\":\"timeout\",\"sites\":0," \
        "\"wilson\":{\"fraction\":[0.0,%.12f],\"sites\":[0,%d]}}", exact, 1000 * exact + 1, wilson, 1000 * wilson + 1)
    printf "{\"estimates\":[%s,%s],\"instructions\":3,\"level\":0.99,\"population\":1000,\"samples\":10}", all, none }')
gives 'JSON at another level' 0 "$wanted" '' estimate --level .99 --format json all.txt

# More draws than sites, and one draw alone: 0.025 and 0.975 are its exact bounds. Fractions have as many places as so many draws need.
same 'a single draw' 'silent exact 1 1.0000 0.0250 1.0000 8 0 8' \
    "$(printf 'instructions 1\npopulation 8\nsamples 1\nsilent 1\n' | rows --method exact)"
same 'all sites of more than a double can count' '999999999999999999 999999999999999999' \
    "$(printf 'instructions 1\npopulation 999999999999999999\nsamples 1\nsilent 1\n' | rows --method exact | cut -d ' ' -f 7,9)"
same 'a million draws' 'silent exact 0 0.00000000 0.00000000 0.00000369 0 0 1' \
    "$(printf 'instructions 1\npopulation 8\nsamples 1000000\nno-effect 1000000\nsilent 0\n' | rows --method exact | tail -n 1)"

# What is no sample.
refused() { gives "$1" 1 '' "estimate.py: standard input: $2" estimate; }
outcomes='one of no-effect, silent, detected, trap, illegal, address, misaligned, timeout and a number'
refused 'an empty sample' 'line 1: expected instructions and a number, found the end' </dev/null
refused 'a report for a sample' "line 2: expected population and a number, found 'sites 1000'" < <(sed 's/population/sites/; /samples/d' <<<"$half")
refused 'a sample without its number' 'line 3: expected samples and a number, found the end' < <(head -n 2 <<<"$half")
refused 'the first lines in another order' "line 2: expected population and a number, found 'samples 10'" < <(sed '2d; 3a population 1000' <<<"$half")
refused 'no sites' "line 2: expected population and a number of 1 or more, found 'population 0'" < <(sed 's/1000/0/' <<<"$half")
refused 'no draws' "line 3: expected samples and a number of 1 or more, found 'samples 0'" < <(sed 's/samples 10/samples 0/; s/5/0/' <<<"$half")
refused 'no instruction' "line 1: expected instructions and a number of 1 or more, found 'instructions 0'" < <(sed 's/3/0/' <<<"$half")
refused 'too many draws' "line 3: expected samples and at most 1000000000, found 'samples 1000000001'" \
    < <(sed 's/samples 10/samples 1000000001/' <<<"$half")
refused 'a draw that is missing' 'the outcomes add up to 9, but there are 10 draws' < <(sed 's/silent 5/silent 4/' <<<"$half")
refused 'a draw too many' 'the outcomes add up to 11, but there are 10 draws' < <(sed 's/timeout 0/timeout 1/' <<<"$half")
refused 'no outcome' 'the outcomes add up to 0, but there are 10 draws' <<<"$head"
refused 'another outcome' "line 5: expected $outcomes, found 'quiet 5'" < <(sed 's/silent/quiet/' <<<"$half")
refused 'a line of another kind' "line 4: expected $outcomes, found 'jobs 7'" < <(sed '4i jobs 7' <<<"$half")
refused 'both words for traps' 'expected either trap or its kinds, found both' < <(echo "$half"; echo 'address 0')
refused 'an outcome twice' "line 6: expected each outcome once, found 'silent 0'" < <(sed 's/detected/silent/' <<<"$half")
refused 'an empty line' "line 9: expected $outcomes, found ''" < <(echo "$half"; echo)
refused 'a count below 0' "line 6: expected $outcomes, found 'detected -1'" < <(sed 's/detected 0/detected -1/' <<<"$half")
refused 'a count with a point' "line 5: expected $outcomes, found 'silent 5.0'" < <(sed 's/silent 5/silent 5.0/' <<<"$half")
refused 'a count with a zero in front' "line 5: expected $outcomes, found 'silent 05'" < <(sed 's/silent 5/silent 05/' <<<"$half")
refused 'a count without an end' "line 5: expected $outcomes, found 'silent 5000000000000000000'" \
    < <(sed 's/silent 5/&000000000000000000/' <<<"$half")
refused 'a number and another' "line 5: expected $outcomes, found 'silent 5 5'" < <(sed 's/silent 5/& 5/' <<<"$half")
refused 'a digit that is not ASCII' "line 5: expected $outcomes, found 'silent \\\\xd9\\\\xa5'" < <(sed 's/silent 5/silent \xd9\xa5/' <<<"$half")
refused 'bytes without lines' "line 1: expected instructions and a number, found '$(printf '\\x00%.0s' {1..60})'" \
    < <(head -c 3000000 /dev/zero)
gives 'a sample that is missing' 1 '' 'estimate.py: missing.txt: No such file or directory' estimate missing.txt
gives 'a folder for a sample' 1 '' 'estimate.py: .: Is a directory' estimate .
if [ -c /dev/full ]; then
    estimate all.txt >/dev/full 2>err.txt
    same 'a full device for the estimates' 'status 1, estimate.py: [Errno 28] No space left on device' "status $?, $(cat err.txt)"
fi
for words in '--level 0' '--level 0.0' '--level 1' '--level 1.5' '--level 95' '--level nan' '--level=-0.5' '--level 0.9999999999999999' \
    '--method bayes' '--format csv' 'all.txt all.txt'; do
    # shellcheck disable=SC2086
    estimate $words <all.txt >out.txt 2>err.txt
    same "the words $words" 'status 2, out ' "status $?, out $(cat out.txt)"
done
check 'help with its rule of thumb' "$(estimate --help | grep -qF 'n = z^2 p (1-p) / w^2' && echo yes)"

# Where scipy is installed the exact bounds are by its function: here one that answers 0.25 for 5 of 10 and 0.125 for all other counts.
# One that cannot be loaded is none.
mkdir -p found/scipy broken/scipy && : >found/scipy/__init__.py
echo 'betaincinv = lambda a, b, y: 0.25 if (a, b, round(y, 9)) == (5, 6, 0.025) else 0.125' >found/scipy/special.py
echo 'raise ValueError("made for another version")' >broken/scipy/__init__.py
same 'the function of scipy' 'silent exact 5 0.5000 0.2500 0.7500 500 250 750' \
    "$(PYTHONPATH=found rows --method exact <<<"$half" | sed -n 2p)"
same 'a scipy that cannot be loaded' "$(rows <<<"$half")" "$(PYTHONPATH=broken rows <<<"$half" 2>&1)"

# holds NAME SAMPLE SITES: whether in each interval of a sample are as many sites as a file says, which has a word and a number in a line.
# Of ten thousand intervals of this level one may fail; the draws are the same each time.
holds() {
    local odd
    odd=$(estimate --level 0.9999 --method exact "$2" 2>&1 | awk 'NR == FNR { sites[$1] = $2; next }
        $2 == "exact" { rows++; if (!($1 in sites) || sites[$1] < $8 || sites[$1] > $9) print }
        END { if (rows < 3) print rows + 0, "rows" }' "$3" -)
    same "$1" '' "$odd"
}
# of NAME CYCLES: the sites of a table by outcome, whose RAM has 16 bytes; what no job stands for has no effect.
of() {
    awk -F, -v all=$(($2 * 1120)) 'NR > 1 { sites[$5] += $4; live += $4 }
        END { sites["no-effect"] += all - live; for (outcome in sites) print outcome, sites[outcome] }' "$1.csv"
}
for row in send:4 load:5 overwrite:8; do
    name=${row%:*} cycles=${row#*:}
    python3 -B "$tests/tables.py" "$name" >"$name.csv" && of "$name" "$cycles" >"$name.sites"
    python3 -B "$tests/drawn.py" "$cycles" 16 42 3000 <"$name.csv" >"$name.txt"
    holds "what a sample of $name says of all its sites" "$name.txt" "$name.sites"
done

image=$top/crates/fail_star/data/row1.elf
options=(--rom 0x20000000:64 --ram 0x80000000:16 --limit 100)
if [ -n "$program" ] && "$program" sample "$image" "${options[@]}" --count 1000 --seed 42 >row1.txt 2>err.txt; then
    "$program" report "$image" "${image%.elf}.keep" "${options[@]}" >row1.sites
    holds "the program's own sample" row1.txt row1.sites
else
    echo 'skipped: a sample by the program, which is not named or draws none'
fi

echo "$passed passed, $failed failed"
[ "$failed" -eq 0 ]
