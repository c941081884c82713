#!/usr/bin/env bash
# The metrics of compare.py and estimate.py: of a report and of a sample, worked out by hand from the formulas of docs/METRICS.md; reports
# and samples of an older version; what is not known; the words; and the metrics of a whole sample beside those of its campaign.
# usage: metrics.sh [PROGRAM]
set -u
. "$(dirname "$0")/../checks.sh"
program=
[ $# -eq 0 ] || program=$(realpath "$1") || exit 2
command -v python3 >/dev/null || { echo "skipped: metrics need python3"; exit 0; }
folder=$(mktemp -d) || exit 2
trap 'rm -rf "$folder"' EXIT
cd "$folder" || exit 2

compare() { timeout 60 python3 -B "$top/tools/compare.py" "$@"; }
estimate() { timeout 60 python3 -S -B "$top/tools/estimate.py" "$@"; }
# metrics WORD..: what follows the table of counts, with a space between two words.
metrics() { "$@" | sed '1,/^metric/{/^metric/!d}; s/  */ /g'; }
every='detected, illegal, address, misaligned, timeout'
note='Compare variants by silent sites or expected failures, and never by AVF, FIT or coverage.'

# --- Reports --------------------------------------------------------------------------------------

# Ten instructions and a thousand sites, of which 400 have an effect, 100 of them silent.
printf '%s\n' 'instructions 10' 'sites 1000' 'no-effect 600' 'silent 100' 'detected 200' 'illegal 30' 'address 20' 'misaligned 10' 'timeout 40' >half.txt
# Half of the sites in as many instructions, and no flip has an effect.
printf '%s\n' 'instructions 10' 'sites 500' 'no-effect 500' 'silent 0' 'detected 0' 'illegal 0' 'address 0' 'misaligned 0' 'timeout 0' >none.txt
same 'metrics of two reports' "metric half none
expected failures per run = flip rate * silent 0.1 0
SDC AVF = silent / sites 0.1 0
DUE AVF = noticed / sites 0.3 0
SDC FIT = FIT per bit * silent / instructions 5 0
DUE FIT = FIT per bit * noticed / instructions 15 0
diagnostic coverage = noticed / all with an effect 0.75 -

half, none: a report does not name its limit; a ratio holds only if all limits are the same.

noticed: $every. $note" "$(metrics compare half.txt none.txt --metrics --flip-rate 1e-3 --fit-per-bit 0.5)"
same 'only the detector notices' "metric half
SDC AVF = silent / sites 0.1
DUE AVF = noticed / sites 0.2
diagnostic coverage = noticed / all with an effect 0.5

noticed: detected. $note" "$(metrics compare half.txt --metrics --noticed detected)"
same 'a watchdog and a detector, in another order' 'diagnostic coverage = noticed / all with an effect 0.6' \
    "$(metrics compare half.txt --metrics --noticed timeout,detected | grep '^diagnostic')"
same 'a large number' 'expected failures per run = flip rate * silent 1050' "$(metrics compare half.txt --metrics --flip-rate 10.5 | sed -n 2p)"
gives 'metrics in Markdown' 0 '| metric | half |
| --- | ---: |
| SDC AVF = silent / sites | 0.1 |' '' bash -c "python3 -B '$top/tools/compare.py' half.txt --metrics --markdown | sed -n '5,7p'"
same 'metrics in JSON' '{"diagnostic_coverage":0.75,"due_avf":0.3,"failures_per_run":1e-13,"sdc_avf":0.1} {"diagnostic_coverage":null,"due_avf":0.0,"failures_per_run":0.0,"sdc_avf":0.0} detected,illegal,address,misaligned,timeout' \
    "$(compare half.txt none.txt --metrics --flip-rate 1e-15 --format json | python3 -c '
import json, sys
found = json.load(sys.stdin)
print(*(json.dumps(one["metrics"], separators=(",", ":")) for one in found["campaigns"]), ",".join(found["noticed"]))')"
same 'JSON without metrics' no "$(compare half.txt --format json | grep -qE 'metrics|noticed' && echo yes || echo no)"
# An older version had one number for all traps.
printf '%s\n' 'instructions 10' 'sites 1000' 'no-effect 600' 'silent 100' 'detected 200' 'trap 60' 'timeout 40' >old.txt
same 'a report of an older version' 'diagnostic coverage = noticed / all with an effect 0.75' \
    "$(metrics compare old.txt --metrics | grep '^diagnostic')"
same 'its detector' 'diagnostic coverage = noticed / all with an effect 0.5' \
    "$(metrics compare old.txt --metrics --noticed detected | grep '^diagnostic')"
gives 'a kind of its traps' 1 '' 'compare.py: an older version did not distinguish traps, so --noticed needs all of their kinds or none' \
    compare old.txt --metrics --noticed detected,illegal

# --- Samples --------------------------------------------------------------------------------------

# Ten draws from a thousand sites, five of them silent. The exact interval of 5 of 10 is by tables 0.1871 to 0.8129, more exactly 0.187086
# to 0.812914; Wilson's is 0.236593 to 0.763407. Five of the ten draws with an effect are noticed.
printf '%s\n' 'instructions 4' 'population 1000' 'samples 10' 'no-effect 0' 'silent 5' 'detected 3' 'illegal 1' 'address 0' 'misaligned 1' 'timeout 0' >sample.txt
same 'metrics of a sample' "metric method value from to
EAFC, silent = population * silent draws / samples exact 500 187.1 812.9
EAFC, noticed = population * noticed draws / samples exact 500 187.1 812.9
expected failures per run = flip rate * silent exact 1000 374.2 1626
SDC AVF = silent / sites exact 0.25 0.09354 0.4065
DUE AVF = noticed / sites exact 0.25 0.09354 0.4065
SDC FIT = FIT per bit * silent / instructions exact 12.5 4.677 20.32
DUE FIT = FIT per bit * noticed / instructions exact 12.5 4.677 20.32
diagnostic coverage = noticed / all with an effect exact 0.5 0.1871 0.8129

noticed: $every. $note" "$(metrics estimate sample.txt --metrics --method exact --sites 2000 --flip-rate 2 --fit-per-bit 0.1)"
same 'by both methods, without the number of sites' "metric method value from to
EAFC, silent = population * silent draws / samples wilson 500 236.6 763.4
EAFC, silent = population * silent draws / samples exact 500 187.1 812.9" "$(metrics estimate sample.txt --metrics | head -n 3)"
same 'no AVF without the number of sites' no "$(estimate sample.txt --metrics | grep -q AVF\ = && echo yes || echo no)"
# The interval of the coverage is that of the draws with an effect: here of 5 of 10 among twenty.
sed 's/samples 10/samples 20/; s/no-effect 0/no-effect 10/' sample.txt >twenty.txt
same 'the coverage of fewer draws' 'diagnostic coverage = noticed / all with an effect exact 0.5 0.1871 0.8129' \
    "$(metrics estimate twenty.txt --metrics --method exact | grep '^diagnostic')"
same 'coverage without an effect' 'diagnostic coverage = noticed / all with an effect wilson - - -' \
    "$(printf '%s\n' 'instructions 4' 'population 1000' 'samples 10' 'no-effect 10' | metrics estimate --metrics --method wilson | grep '^diagnostic')"
same 'a sample of an older version' 'EAFC, noticed = population * noticed draws / samples exact 500 187.1 812.9' \
    "$(sed 's/illegal 1/trap 2/; /address/d; /misaligned/d' sample.txt | metrics estimate --metrics --method exact | grep noticed\ =)"
same 'JSON of a sample' '500.0 [187.1, 812.9] None detected' "$(estimate sample.txt --metrics --noticed detected --format json --method exact | python3 -c '
import json, sys
found = json.load(sys.stdin)
one = found["metrics"]["eafc_silent"]
print(one["value"], [round(bound, 1) for bound in one["exact"]], found["metrics"].get("sdc_avf"), *found["noticed"])')"
gives 'fewer sites than the population' 1 '' 'estimate.py: --sites 999: the population alone has 1000' estimate sample.txt --metrics --sites 999

# --- Words ----------------------------------------------------------------------------------------

for words in '--flip-rate 1' '--fit-per-bit 1' '--noticed detected' '--metrics --flip-rate 0' '--metrics --flip-rate=-1' '--metrics --flip-rate nan' \
    '--metrics --fit-per-bit 1e999' '--metrics --fit-per-bit 0.0' '--metrics --noticed silent' '--metrics --noticed detected,detected' '--metrics --noticed trap'; do
    for tool in compare estimate; do
        # shellcheck disable=SC2086
        case $tool in compare) compare half.txt $words ;; *) estimate sample.txt $words ;; esac >out.txt 2>err.txt
        same "$tool with the words $words" 'status 2, out ' "status $?, out $(cat out.txt)"
    done
done
for words in '--sites 1000' '--metrics --sites 0' '--metrics --sites many'; do
    # shellcheck disable=SC2086
    estimate sample.txt $words >out.txt 2>err.txt
    same "the words $words" 'status 2, out ' "status $?, out $(cat out.txt)"
done

# --- A campaign and its sample --------------------------------------------------------------------

# value KEY: a metric of the campaign, and whether the interval of the sample has it. The draws are the same each time.
if [ -n "$program" ]; then
    image=$top/examples/built/checksum.elf
    "$program" run "$image" whole.keep --ram 0x80000000:64 >whole.txt
    "$program" sample "$image" --ram 0x80000000:64 --live --count 10000 >live.txt
    all=$(sed -n 's/^sites //p' whole.txt)
    compare whole.txt --metrics --flip-rate 1e-9 --fit-per-bit 0.01 --format json >whole.json
    estimate live.txt --metrics --flip-rate 1e-9 --fit-per-bit 0.01 --sites "$all" --level 0.9999 --format json >live.json
    same 'a sample has the metrics of its campaign' 'failures_per_run sdc_avf due_avf sdc_fit due_fit diagnostic_coverage' "$(python3 - <<'PYTHON'
import json
whole = json.load(open("whole.json"))["campaigns"][0]["metrics"]
live = json.load(open("live.json"))["metrics"]
names = ("failures_per_run", "sdc_avf", "due_avf", "sdc_fit", "due_fit", "diagnostic_coverage")
print(*(name for name in names if live[name]["wilson"][0] <= whole[name] <= live[name]["wilson"][1] and live[name]["exact"][0] <= whole[name]))
PYTHON
)"
    same 'the failures of the campaign' "$(awk '$1 == "silent" { printf "%.12g", $2 * 1e-9 }' whole.txt)" \
        "$(python3 -c 'import json; print("%.12g" % json.load(open("whole.json"))["campaigns"][0]["metrics"]["failures_per_run"])')"
else
    echo "skipped: a sample and its campaign need fail_star"
fi

echo "$passed passed, $failed failed"
[ "$failed" -eq 0 ]
