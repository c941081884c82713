#!/usr/bin/env bash
# What check.py writes for pipelines about rules that do not hold: alerts at source lines in SARIF and for GitLab's Code Quality, and a summary
# in Markdown. The table, image and trace are made by hand (hand_made.sh). Readers that are not ours check the form, if they are installed.
# usage: alerts.sh
set -u
set --
command -v python3 >/dev/null || { echo "skipped: alerts needs python3"; exit 0; }
. "$(dirname "$0")/hand_made.sh"
unset GITHUB_SERVER_URL GITHUB_REPOSITORY GITHUB_SHA CI_PROJECT_URL CI_COMMIT_SHA
# Debian's Python sees Debian's packages.
for reader in python3 /usr/bin/python3; do "$reader" -c 'import sarif_om, jsonschema' 2>/dev/null && break; done
"$reader" -c 'import sarif_om' 2>/dev/null || echo 'skipped: SARIF is read by sarif_om (python3-sarif-python-om)'
"$reader" -c 'import jsonschema' 2>/dev/null || echo 'skipped: Code Quality is checked by jsonschema (python3-jsonschema)'
alerts() { "$reader" -B "$tests/alerts.py" "$@" 2>&1; }
with=(image.elf,before.csv --trace trace.txt --ram $ram)

# --- Where an alert is ----------------------------------------------------------------------------

# Of the 181 silent sites 65 are read in a.c:9, 60 in inc/b.h:7, 24 in a.c:3, and 32 where there is no line; of x4 64 in a.c:9, and of `low`
# 24 in inc/b.h:7. The store reads 24 in a.c:3 and 2 in inc/b.h:7.
cat >alerts.budget <<'END'
silent <= 180
silent in store <= 25
detected >= 2
silent in register x4 = 0
silent in variable low < 24
silent in line a.c:3 < 20
silent in load <= 58
silent <= 100
END
tool check alerts.budget "${with[@]}" --sarif a.sarif --code-quality a.json --markdown a.md >out.txt 2>err.txt
same 'a budget that does not hold' 'status 1, ' "status $?, $(cat err.txt)"
says() { echo "before: $1 is $2, and the budget says $3"; }
same 'SARIF: the worst source line comes first' "a.c:9, alerts.budget:1 (the rule), inc/b.h:7 (60 sites), a.c:3 (24 sites) | silent-at-most | $(says silent 181 'silent <= 180'); 65 sites at this line
a.c:3, alerts.budget:2 (the rule), inc/b.h:7 (2 sites) | silent-in-store-at-most | $(says 'silent in store' 26 'silent in store <= 25'); 24 sites at this line
alerts.budget:3 | detected-at-least | $(says detected 1 'detected >= 2')
a.c:9, alerts.budget:4 (the rule) | silent-in-register-x4-is | $(says 'silent in register x4' 96 'silent in register x4 = 0'); 64 sites at this line
inc/b.h:7, alerts.budget:5 (the rule) | silent-in-variable-low-below | $(says 'silent in variable low' 24 'silent in variable low < 24'); 24 sites at this line
a.c:3, alerts.budget:6 (the rule) | silent-in-line-a.c:3-below | $(says 'silent in line a.c:3' 24 'silent in line a.c:3 < 20'); 24 sites at this line
a.c:9, alerts.budget:8 (the rule), inc/b.h:7 (60 sites), a.c:3 (24 sites) | silent-at-most | $(says silent 181 'silent <= 100'); 65 sites at this line" "$(alerts sarif a.sarif)"
same 'Code Quality: the same lines' "a.c:9 silent-at-most major | $(says silent 181 'silent <= 180'); 65 sites at this line
a.c:3 silent-in-store-at-most major | $(says 'silent in store' 26 'silent in store <= 25'); 24 sites at this line
alerts.budget:3 detected-at-least major | $(says detected 1 'detected >= 2')" "$(alerts quality a.json | head -n 3)"
printf '%s\n' 'instructions 8' 'sites 8960' 'no-effect 8596' 'silent 181' 'detected 1' 'illegal 0' 'address 172' 'misaligned 10' 'timeout 0' >report.txt
sed '/ in /d' alerts.budget >counts.budget
tool check counts.budget report.txt --sarif b.sarif >/dev/null 2>&1
same 'a table without lines: the line of the budget' 'counts.budget:1 counts.budget:2 counts.budget:3' "$(alerts sarif b.sarif | cut -d ' ' -f 1 | tr '\n' ' ' | sed 's/ $//')"
tool check <(echo 'silent <= 181') "${with[@]}" --sarif b.sarif --code-quality b.json >/dev/null 2>&1
same 'a budget that holds has no alert' '[]' "$(alerts sarif b.sarif)$(cat b.json)"

# --- The rest of SARIF ----------------------------------------------------------------------------

# of FILE EXPRESSION: a value of the run of a SARIF file.
of() { python3 -c 'import json, sys; run = json.load(open(sys.argv[1]))["runs"][0]; print(eval(sys.argv[2]))' "$@"; }
fingerprints() { of "$1" '"\n".join(result["partialFingerprints"]["primaryLocationLineHash"] for result in run["results"])'; }
same 'a fingerprint for each alert' '7 7' "$(fingerprints a.sarif | wc -l) $(fingerprints a.sarif | sort -u | wc -l)"
same 'Code Quality has the same' "$(fingerprints a.sarif)" "$(python3 -c 'import json; print(*(one["fingerprint"] for one in json.load(open("a.json"))), sep="\n")')"
# Numbers and lines change, and the rule is the same.
{ echo '# moved'; sed 's/180/170/; s/25/20/; s/>= 2/>= 3/; s/ 100/ 90/' alerts.budget; } >moved.budget
tool check moved.budget "${with[@]}" --sarif moved.sarif >/dev/null 2>&1
same 'a fingerprint stays' "$(fingerprints a.sarif)" "$(fingerprints moved.sarif)"
tool check alerts.budget "other=${with[0]}" "${with[@]:1}" --sarif other.sarif >/dev/null 2>&1
same 'another campaign has others' 14 "$({ fingerprints a.sarif; fingerprints other.sarif; } | sort -u | wc -l)"
same 'the tool' 'man:fail_star-check(1)' "$(of a.sarif 'run["tool"]["driver"]["informationUri"]')"
help='run["tool"]["driver"]["rules"][1]["helpUri"]'
same 'help on a rule' 'man:fail_star-check(1)' "$(of a.sarif "$help")"
# in_pipeline NAME=VALUE..: where help is, by what a pipeline has in its environment.
in_pipeline() {
    (export "$@" && tool check alerts.budget "${with[@]}" --sarif c.sarif >/dev/null 2>&1)
    of c.sarif "$help"
}
same 'in a pipeline of GitHub' 'https://github.example/me/firmware/blob/abc/alerts.budget#L2' \
    "$(in_pipeline GITHUB_SERVER_URL=https://github.example GITHUB_REPOSITORY=me/firmware GITHUB_SHA=abc)"
same 'in a pipeline of GitLab' 'https://gitlab.example/me/firmware/-/blob/abc/alerts.budget#L2' \
    "$(in_pipeline CI_PROJECT_URL=https://gitlab.example/me/firmware CI_COMMIT_SHA=abc)"

# --- Paths relative to the repository -------------------------------------------------------------

mkdir -p repository/{.git,ci,build,src/inc} elsewhere && touch repository/src/{a.c,inc/b.h} elsewhere/a.c
cp image.elf before.csv trace.txt repository/build && cp alerts.budget repository/ci
# paths FOLDER WORD..: the files of the second alert, for a call in a folder of the repository.
paths() {
    (cd "repository/$1" && PATH=$few timeout 60 "$python" -S "$folder/tools/check.py" "${@:2}" --ram $ram --sarif "$folder/d.sarif" --code-quality "$folder/d.json" >/dev/null 2>&1)
    echo "$(alerts sarif d.sarif | sed -n 2p | grep -oE '[^ ,]+:[0-9]+( |,)' | tr -d ' ,' | tr '\n' ' ')$(alerts quality d.json | sed -n '2s/ .*//p')"
}
files=(build/image.elf,build/before.csv --trace build/trace.txt)
same 'sources in a folder of their own' 'src/a.c:3 ci/alerts.budget:2 src/inc/b.h:7 src/a.c:3' "$(paths . ci/alerts.budget "${files[@]}" --sources src)"
same 'a call in another folder' 'src/a.c:3 ci/alerts.budget:2 src/inc/b.h:7 src/a.c:3' \
    "$(paths ci alerts.budget ../build/image.elf,../build/before.csv --trace ../build/trace.txt --sources ../src)"
same 'sources that are not found' 'a.c:3 ci/alerts.budget:2 inc/b.h:7 a.c:3' "$(paths . ci/alerts.budget "${files[@]}")"
same 'a folder outside of the repository' 'a.c:3 ci/alerts.budget:2 inc/b.h:7 a.c:3' "$(paths . ci/alerts.budget "${files[@]}" --sources ../elsewhere)"
cp repository/build/* repository/src
same 'sources beside the image' 'src/a.c:3 ci/alerts.budget:2 src/inc/b.h:7 src/a.c:3' \
    "$(paths . ci/alerts.budget src/image.elf,build/before.csv --trace build/trace.txt)"
same 'sources in the current folder' 'src/a.c:3 ci/alerts.budget:2 src/inc/b.h:7 src/a.c:3' \
    "$(paths src ../ci/alerts.budget ../build/image.elf,../build/before.csv --trace ../build/trace.txt)"

# --- The summary ----------------------------------------------------------------------------------

head -n 3 alerts.budget >three.budget
tool check three.budget "a|b=${with[0]}" "${with[@]:1}" --markdown three.md >/dev/null 2>&1
same 'the summary' '### three.budget: 3 of 3 rules are broken

| rule | campaign | found | verdict |
| --- | ---: | ---: | ---: |
| silent &lt;= 180 | a\|b | 181 | **broken** |
| silent in store &lt;= 25 | a\|b | 26 | **broken** |
| detected &gt;= 2 | a\|b | 1 | **broken** |

Most sites of the broken rules:

- silent &lt;= 180: a.c:9, 65 sites
- silent &lt;= 180: inc/b.h:7, 60 sites
- silent &lt;= 180: a.c:3, 24 sites
- silent in store &lt;= 25: a.c:3, 24 sites
- silent in store &lt;= 25: inc/b.h:7, 2 sites

| campaign | instructions | sites | no-effect | silent | detected | illegal | address | misaligned | timeout |
| --- | ---: | ---: | ---: | ---: | ---: | ---: | ---: | ---: | ---: |
| a\|b | 8 | 8,960 | 8,596 | 181 | 1 | 0 | 172 | 10 | 0 |' "$(cat three.md)"
tool check <(echo 'silent <= 181') report.txt --markdown holds.md >/dev/null 2>&1
same 'a budget that holds' 'the rule holds' "$(sed -n '1s/.*: //p' holds.md)"
tool check <(printf 'silent <= 181\ndetected < 1\nsites > 3\n') report.txt --markdown one.md >/dev/null 2>&1
same 'one rule of three' '1 of 3 rules is broken' "$(sed -n '1s/.*: //p' one.md)"
for option in --code-quality --markdown; do
    tool check alerts.budget "${with[@]}" --sarif same $option same >out.txt 2>err.txt
    same "two texts in one file: $option" 'status 2, check.py: error: --junit, --sarif, --code-quality, --markdown and --receipt need different files' \
        "status $?, $(tail -n 1 err.txt)"
done

echo "$passed passed, $failed failed"
[ "$failed" -eq 0 ]
