#!/usr/bin/env bash
# The questions in pandas of docs/HOWTO.md: its blocks of Python are run as they stand there, and their answers
# compared with what fail_star says: the report, the plan, the table of jobs, and symbols.
# usage: questions.sh PROGRAM
set -u
. "$(dirname "$0")/../checks.sh"
[ $# -gt 0 ] || { echo "skipped: questions need fail_star"; exit 0; }
program=$(realpath "$1") || exit 2
page=$top/docs/HOWTO.md
# A Python that has pandas; another one than the first may be Debian's.
for one in python3 /usr/bin/python3; do "$one" -c 'import pandas' 2>/dev/null && { asker=$one; break; }; done
[ -n "${asker:-}" ] || { echo "skipped: the questions in pandas need pandas"; exit 0; }
folder=$(mktemp -d) || exit 2
trap 'rm -rf "$folder"' EXIT
mkdir "$folder/bin" && ln -s "$program" "$folder/bin/fail_star" && cp -r "$top/examples" "$folder" && cd "$folder/examples" || exit 2
PATH=$folder/bin:$PATH
same 'only this page has such blocks' "$page" "$(grep -l '^```python' "$top"/docs/*.md "$top"/docs/dev/*.md "$top"/README.md)"

# --- The answers ----------------------------------------------------------------------------------

image=built/frame.elf
ram=(--ram 0x80000000:64)
fail_star run $image frame.keep "${ram[@]}" >report.txt
PYTHONPATH=$top/tools timeout 120 "$asker" -B "$tests/questions.py" "$page" >answers.txt 2>err.txt
same 'the blocks run' 'status 0, ' "status $?, $(cat err.txt)"
same 'three questions' 'answer 1,answer 2,answer 3' "$(grep '^answer' answers.txt | paste -sd ,)"
# answer N: its rows.
answer() { awk -v wanted="answer $1" '/^answer [0-9]*$/ { here = $0 == wanted; next } here' answers.txt; }

# --- What fail_star says --------------------------------------------------------------------------

fail_star report $image frame.keep "${ram[@]}" --format csv | sed 1d >jobs.csv
fail_star symbols $image frame.keep "${ram[@]}" >symbols.txt
dead=$(fail_star plan $image "${ram[@]}" | sed -n 's/^dead //p')
# The report has the dead sites among those of no effect.
same 'the counts of the report, but for the dead sites' \
    "$(awk -v OFS='\t' -v dead="$dead" 'NR > 2 { if ($1 == "no-effect") $2 -= dead; if ($2) print $1, $2 }' report.txt | sort)" \
    "$(answer 1 | sort)"
# sums FIELDS: the silent sites by fields of the table of jobs.
sums() { awk -F, "\$5 == \"silent\" { sites[$1] += \$4 } END { for (one in sites) print one \"\\t\" sites[one] }" jobs.csv; }
# The worst registers and variables: registers of the table, and variables of `symbols`, here without the names of the ABI.
{
    sums '$2' | awk -v OFS='\t' '$1 < 32 { print "x" $1, $2 }'
    awk -v OFS='\t' '$1 == "object" && $2 !~ /^\(/ && $4 { print $2, $4 }' symbols.txt
} | sort -t $'\t' -k 2,2nr >names.txt
same 'the worst registers and variables' "$(head -n 5 names.txt)" "$(answer 2 | sed 's/ [a-z0-9]*\t/\t/')"
same 'which bits of the registers' "$(sums '"x" $2 "\t" $3' | awk -F '\t' 'substr($1, 2) + 0 < 32' | LC_ALL=C sort)" \
    "$(answer 3 | sed -n 's/^\(x[0-9]*\) [a-z0-9]*\t/\1\t/p' | LC_ALL=C sort)"
same 'which bits of RAM' \
    "$(awk -F, '$5 == "silent" && $2 >= 32 { sites[$3] += $4 } END { for (bit in sites) print bit, sites[bit] }' jobs.csv | sort -n)" \
    "$(answer 3 | awk -F '\t' '$1 !~ /^x[0-9]* / { sites[$2] += $3 } END { for (bit in sites) print bit, sites[bit] }' | sort -n)"
same 'the bits of the variable' "$(awk '$2 == "frame" { print $4 }' symbols.txt)" \
    "$(answer 3 | awk -F '\t' '$1 == "frame" { sites += $3 } END { print sites }')"

echo "$passed passed, $failed failed"
[ "$failed" -eq 0 ]
