#!/usr/bin/env bash
# Budgets, by check.py: a table that was worked out by hand, its report and its files for others; broken budgets and tables; and where
# a program is named the PIN check.
# usage: budget.sh [PROGRAM]
set -u
[ $# -eq 0 ] || set -- "$(realpath "$1")"
command -v python3 >/dev/null || { echo "skipped: budget needs python3"; exit 0; }
. "$(dirname "$0")/hand_made.sh"

# The report of the same program, with 172 and 10 traps, and that of an older version.
printf '%s\n' 'instructions 8' 'sites 8960' 'no-effect 8596' 'silent 181' 'detected 1' 'illegal 0' 'address 172' 'misaligned 10' 'timeout 0' >report.txt
sed 's/address 172/trap 182/; /illegal\|misaligned/d' report.txt >old.txt
echo '{"address":172,"detected":1,"illegal":0,"instructions":8,"misaligned":10,"no_effect":8596,"silent":181,"sites":8960,"timeout":0}' >report.json
cat >budget.txt <<'END'
# What this program may do.
silent <= 181
silent+timeout < 182   # both
detected >= 1

address + misaligned = 182
no-effect > 8595
sites = 8960
instructions <= 8
END
holding='rule                        found  verdict
silent <= 181                 181    holds
silent+timeout < 182          181    holds
detected >= 1                   1    holds
address + misaligned = 182    182    holds
no-effect > 8595             8596    holds
sites = 8960                 8960    holds
instructions <= 8               8    holds'
for table in report.txt report.json 'before.csv --ram 0x80000000:16'; do
    # shellcheck disable=SC2086
    gives "a budget that holds for $table" 0 "$holding" '' budget budget.txt $table
done
gives 'a table on standard input for a budget' 0 "$holding" '' budget budget.txt - <report.json
gives 'a budget on standard input' 0 "$holding" '' budget - report.txt <budget.txt
sed 's/181/180/; s/182 /181 /; s/> 8595/> 8596/; s/>= 1/>= 2/; s/= 182/= 181/; s/= 8960/< 8960/; s/= 8$/= 7/' budget.txt >tight.txt
gives 'a budget of which no rule holds' 1 'rule                        found  verdict
silent <= 180                 181   broken
silent+timeout < 181          181   broken
detected >= 2                   1   broken
address + misaligned = 181    182   broken
no-effect > 8596             8596   broken
sites < 8960                 8960   broken
instructions <= 7               8   broken' '' budget tight.txt report.txt
gives 'a csv of which RAM is not said' 2 '' \
    'check.py: budget.txt: line 7: counting no-effect needs --ram BASE:SIZE or --keep FILE, because dead sites have no line in a csv' \
    budget budget.txt before.csv
# Functions: `again` is another name of `load`, and `idle` is none.
printf 'silent in %s\n' 'load = 58' 'again = 58' 'finish = 97' 'store <= 25' >functions.txt
echo 'detected + address in store = 84' >>functions.txt
with=(before=image.elf,before.csv --trace trace.txt)
gives 'a budget by functions' 1 'rule                              found  verdict
silent in load = 58                  58    holds
silent in again = 58                 58    holds
silent in finish = 97                97    holds
silent in store <= 25                26   broken
detected + address in store = 84     84    holds' '' budget functions.txt "${with[@]}" --junit a.xml --sarif a.sarif --receipt a.json --ram $ram
same 'JUnit' "fail_star check 5 1 0 0
before 5 1 0 0
before: silent in load = 58: holds
before: silent in again = 58: holds
before: silent in finish = 97: holds
before: silent in store <= 25: before: silent in store is 26, and the budget says silent in store <= 25
before: detected + address in store = 84: holds" "$(python3 - <<'END'
import xml.etree.ElementTree as tree
root = tree.parse("a.xml").getroot()
for suite in root.iter():
    if suite.tag.startswith("testsuite"):
        print(*(suite.get(key) for key in ("name", "tests", "failures", "errors", "skipped")))
for case in root.iter("testcase"):
    failure = case.find("failure")
    print(f"{case.get('classname')}: {case.get('name')}: {'holds' if failure is None else failure.get('message')}")
END
)"
# Of the store's 26 sites 24 are of a.c:3, and 2 of inc/b.h:7.
version=$(cat "$top/VERSION")
same 'SARIF' "2.1.0 https://json.schemastore.org/sarif-2.1.0.json
fail_star check $version
silent-in-store-at-most error silent in store <= 25
before: silent in store is 26, and the budget says silent in store <= 25; 24 sites at this line
a.c:3
functions.txt:4 the rule
inc/b.h:7 2 sites" "$(python3 - <<'END'
import json
log = json.load(open("a.sarif"))
print(log["version"], log["$schema"])
[run] = log["runs"]
driver = run["tool"]["driver"]
print(driver["name"], driver["version"])
for result in run["results"]:
    rule = driver["rules"][result["ruleIndex"]]
    assert rule["id"] == result["ruleId"]
    print(rule["id"], result["level"], rule["shortDescription"]["text"])
    print(result["message"]["text"])
    for place in result["locations"] + result["relatedLocations"]:
        at = place["physicalLocation"]
        print(f"{at['artifactLocation']['uri']}:{at['region']['startLine']}", *([place["message"]["text"]] if "message" in place else []))
END
)"
digest() { sha256sum "$1" | cut -d ' ' -f 1; }
same 'the receipt' "$version
functions.txt $(digest functions.txt)
None
{'rom': None, 'ram': '0x80000000:16', 'limit': None, 'ram-code': None}
before csv
before.csv $(digest before.csv)
image.elf $(digest image.elf)
trace.txt $(digest trace.txt)
None None
{'instructions': 8, 'sites': 8960, 'no-effect': 8596, 'silent': 181, 'detected': 1, 'illegal': 0, 'address': 172, 'misaligned': 10, 'timeout': 0}
1 silent in load = 58 before 58 True
2 silent in again = 58 before 58 True
3 silent in finish = 97 before 97 True
4 silent in store <= 25 before 26 False
5 detected + address in store = 84 before 84 True
False" "$(python3 - <<'END'
import json
whole = json.load(open("a.json"))
print(whole["version"])
print(*whole["budget"].values())
print(whole["program"])
print(whole["said"])
for table in whole["tables"]:
    print(table["name"], table["kind"])
    print(*table["table"].values())
    print(*table["image"].values())
    print(*table["trace"].values())
    print(table["keep"], table["campaign"])
    print(table["counts"])
for rule in whole["rules"]:
    print(*rule.values())
print(whole["holds"])
END
)"
# Several tables: a rule with a name is for one of them.
sed 's/silent 181/silent 157/; s/detected 1/detected 25/' report.txt >after.txt
printf 'silent < 181\nafter: silent <= 157\nold: trap = 182\nafter: address = 172\n' >both.txt
gives 'several tables' 1 'rule                  table  found  verdict
silent < 181            old    181   broken
silent < 181          after    157    holds
after: silent <= 157  after    157    holds
old: trap = 182         old    182    holds
after: address = 172  after    172    holds' '' budget both.txt old.txt after.txt

# Bad input of check.py: status 2, one line, and no file is written.
unchecked() { gives "$1" 2 '' "check.py: $2" budget "${@:3}" --junit never.xml --sarif never.sarif --receipt never.json --code-quality never.quality --markdown never.md; }
manner='a rule such as silent <= 258 or silent + timeout in check = 0'
for rule in 'silent' 'silent <= -1' 'silent == 1' 'silent <= 1.5' 'silent < many' 'silent - timeout < 1' 'silent in = 0' '<= 1' 'Silent < 1' 'silent <= 1 2' 'silent <= 1,000'; do
    unchecked "the rule $rule" "/dev/stdin: line 1: expected $manner, found '$rule'" /dev/stdin report.txt <<<"$rule"
done
unchecked 'an empty budget' "/dev/stdin: expected $manner, found none" /dev/stdin report.txt <<<'# silent <= 1'
unchecked 'a word twice' "/dev/stdin: line 2: a word is repeated: 'silent + silent < 1'" /dev/stdin report.txt < <(printf '\nsilent + silent < 1\n')
unchecked 'bytes for a budget' "/dev/stdin: expected $manner, found bytes that are not text" /dev/stdin report.txt < <(printf '\xff')
unchecked 'a missing budget' 'missing.txt: No such file or directory' missing.txt report.txt
unchecked 'a word that the report has not' \
    '/dev/stdin: line 1: the table has no count of illegl; it has instructions, sites, no-effect, silent, detected, illegal, address, misaligned, timeout' \
    /dev/stdin report.txt <<<'illegl < 1'
unchecked 'a kind of traps that the report has not' '/dev/stdin: line 1: the table has trap in the place of illegal, address, misaligned' \
    /dev/stdin old.txt <<<'illegal < 1'
unchecked 'trap, where the csv has kinds' '/dev/stdin: line 1: the table has illegal, address, misaligned in the place of trap' \
    /dev/stdin before.csv <<<'trap = 0'
unchecked 'a kind of traps that the csv has not' '/dev/stdin: line 1: the table has trap in the place of illegal, address, misaligned' \
    /dev/stdin old.csv <<<'misaligned = 0'
unchecked 'a function that is none' '/dev/stdin: line 1: the image has no function idle' /dev/stdin "${with[@]}" <<<'silent in idle = 0'
unchecked 'a function without a trace' \
    '/dev/stdin: line 1: counting in load: the run without a fault is needed: --trace FILE, or fail_star by --program FILE' \
    /dev/stdin image.elf,before.csv <<<'silent in load = 0'
unchecked 'a function without an image' '/dev/stdin: line 1: counting in load: the image is needed' /dev/stdin before.csv --trace trace.txt <<<'silent in load = 0'
unchecked 'a function of a report' '/dev/stdin: line 1: counting in load needs a table of jobs: report --format csv, or a campaign file' \
    /dev/stdin image.elf,report.txt <<<'silent in load = 0'
unchecked 'dead sites of a function' '/dev/stdin: line 1: no-effect is not counted by functions' /dev/stdin "${with[@]}" <<<'no-effect in load > 0'
unchecked 'a table of no name' '/dev/stdin: line 1: no table is called other' /dev/stdin report.txt <<<'other: silent < 1000'
unchecked 'two tables of one name' 'two tables are called report; NAME=TABLE gives another name' both.txt report.txt report.json
unchecked 'a trace of no table' '--trace trace.txt: expected NAME=FILE with the name of a table: report, after' both.txt report.txt after.txt --trace trace.txt
unchecked 'counts that miss a site' 'bad.txt: the outcomes add up to 8959, but there are 8960 sites' budget.txt bad.txt < <(sed 's/181/180/' report.txt >bad.txt)
unchecked 'the text of a plan' "plan.txt: line 3: expected no-effect and a number, found 'jobs 96'" budget.txt plan.txt \
    < <(printf 'instructions 4\nsites 4480\njobs 96\nlive 128\ndead 4352\n' >plan.txt)
unchecked 'a line twice' 'bad.txt: expected the 9 lines of a report, found 10' budget.txt bad.txt \
    < <({ cat report.txt; echo silent 181; } >bad.txt)
unchecked 'an empty report' 'bad.txt: expected the 9 lines of a report, found 0' budget.txt bad.txt < <(: >bad.txt)
unchecked 'half an object' 'bad.txt: expected a JSON object: Expecting property name enclosed in double quotes: line 1 column 2 (char 1)' \
    budget.txt bad.txt < <(printf '{' >bad.txt)
unchecked 'a text in JSON for a number' "bad.txt: silent: expected a whole number, found '181'" budget.txt bad.txt \
    < <(sed 's/:181/:"181"/' report.json >bad.txt)
unchecked 'a csv that was cut' 'bad.txt: line 50: expected 2,3,16,2,, found the end' budget.txt bad.txt < <(head -n 49 before.csv >bad.txt)
check 'no file of a budget that was not checked' "$([ -z "$(ls never.* 2>/dev/null)" ] && echo yes)"
gives 'a folder for the receipt' 2 '' 'check.py: .: Is a directory' budget budget.txt report.txt --receipt .
gives 'a folder that is missing' 2 '' 'check.py: no/a.xml: No such file or directory' budget budget.txt report.txt --junit no/a.xml
same 'nothing is left beside a file' 'a.json a.sarif a.xml' "$(echo a.json* a.sarif* a.xml* .[a-z]*.xml* | sed 's/ \.\[.*//')"
budget budget.txt report.txt --junit same --sarif same >out.txt 2>err.txt
same 'two texts in one file' 'status 2, check.py: error: --junit, --sarif, --code-quality, --markdown and --receipt need different files' "status $?, $(tail -n 1 err.txt)"
check 'help' "$(budget --help | grep -q -e '--trace' && echo yes)"

# The PIN check, beside its report.
# --- Lines, registers and variables, and names with commas ----------------------------------------

# Of the 181 silent sites 65 are read in a.c:9, 60 in inc/b.h:7, 96 are of x4 and 24 of the two bytes of `low`.
cat >places.budget <<'END'
silent in line a.c:9 = 65
silent in line inc/b.h:7 <= 60
silent in register x4 = 96
silent in register tp = 96
silent in variable low = 24
silent + address in register x1 < 63
silent in function load = 58
END
gives 'rules on places' 0 'rule                                  found  verdict
silent in line a.c:9 = 65                65    holds
silent in line inc/b.h:7 <= 60           60    holds
silent in register x4 = 96               96    holds
silent in register tp = 96               96    holds
silent in variable low = 24              24    holds
silent + address in register x1 < 63     61    holds
silent in function load = 58             58    holds' '' budget places.budget t=image.elf,before.csv --trace trace.txt --ram $ram
cp image.elf 'a,b.elf' && cp before.csv 'c,d.csv'
same 'names with commas' "$(cat out.txt)" "$(budget places.budget 't=a,b.elf,c,d.csv' --trace trace.txt --ram $ram)"
for pair in 'register x32:there is no register x32' 'variable high:the image has no variable high' 'line a.c:1:the image has no line a.c:1'; do
    complaint=${pair##*:the}
    [[ $pair == register* ]] && complaint=${pair#*:} || complaint="the$complaint"
    place=${pair%":$complaint"}
    echo "silent in $place = 0" >bad.budget
    gives "no ${place}" 2 '' "check.py: bad.budget: line 1: $complaint" budget bad.budget t=image.elf,before.csv --trace trace.txt --ram $ram
done
echo 'silent in line = 0' >bad.budget
gives 'a function that is called line' 2 '' 'check.py: bad.budget: line 1: the image has no function line' \
    budget bad.budget t=image.elf,before.csv --trace trace.txt --ram $ram

if [ -n "$program" ]; then
    built=$top/examples/built
    for name in pin pin_twice; do "$program" run "$built/$name.elf" $name.keep --ram 0x80000000:64 >$name.txt; done
    "$program" report "$built/pin.elf" pin.keep --ram 0x80000000:64 --format csv >pin.csv
    # 111 and 43 sites open the lock, as docs/HOWTO.md says.
    printf 'detected <= 43\npin: detected = 111\n' >pins.txt
    gives 'a budget of campaign files' 1 'rule                     table  found  verdict
detected <= 43             pin    111   broken
detected <= 43       pin_twice     43    holds
pin: detected = 111        pin    111    holds' '' budget pins.txt pin.keep pin_twice.keep --program "$program" --receipt pins.json
    # card KEEP: the SHA-256 of a campaign file's card, whose length is before it. It says which code ran if no image is named.
    card() { tail -c +14 "$1" | head -c "$(od -An -tu4 -j9 -N4 "$1")" | sha256sum | cut -d ' ' -f 1; }
    same 'their receipt' "pin.keep $(digest pin.keep) {'rom': '0x20000000:65536', 'ram': '0x80000000:64', 'limit': 1000000, 'flags': []} 34592
None {'sha256': '$(card pin.keep)'}
pin_twice.keep $(digest pin_twice.keep) {'rom': '0x20000000:65536', 'ram': '0x80000000:64', 'limit': 1000000, 'flags': []} 162432
None {'sha256': '$(card pin_twice.keep)'}
$(digest "$program")" "$(python3 -c '
import json
whole = json.load(open("pins.json"))
for table in whole["tables"]:
    print(*table["keep"].values(), table["campaign"], table["counts"]["sites"])
    print(table["image"], table["card"])
print(whole["program"]["sha256"])')"
    mkdir path && ln -s "$program" path/fail_star
    gives 'a program as the path finds it' 0 'rule            found  verdict
detected = 111    111    holds' '' env PATH="$folder/path:$PATH" python3 -B "$top/tools/check.py" /dev/stdin pin.keep --program fail_star --receipt path.json <<<'detected = 111'
    same 'its hash' "$(digest "$program")" "$(python3 -c 'import json; print(json.load(open("path.json"))["program"]["sha256"])')"
    "$program" run "$built/pin.elf" part.keep --ram 0x80000000:64 --stop-after 40 >out.txt 2>&1
    gives 'a campaign that was stopped' 2 '' "check.py: part.keep: fail_star report: stopped: 40 of $(($(wc -l <pin.csv) - 1)) jobs kept
  $(($(wc -l <pin.csv) - 41)) jobs are missing: repeat \`run\`." \
        budget pins.txt part.keep --program "$program"
    gives 'another RAM than that of the campaign file' 2 '' 'check.py: pin.keep: it was made with --ram 0x80000000:64, and you gave 0x80000000:16' \
        budget pins.txt pin.csv --keep pin.keep --ram 0x80000000:16
    gives 'a csv beside its campaign file' 0 'rule               found  verdict
no-effect = 33201  33201    holds' '' budget /dev/stdin pin.csv --keep pin.keep <<<'no-effect = 33201'
    # A campaign file that is missing, empty, not complete or without a row, in which an audit finds nothing wrong.
    unchecked 'a missing campaign file' 'none.keep: No such file or directory' pins.txt none.keep
    : >empty.keep
    unchecked 'an empty campaign file' 'empty.keep: expected the 9 lines of a report, found 0' pins.txt empty.keep
    unchecked 'an empty campaign file with its image' 'empty.keep: expected the 9 lines of a report, found 0' pins.txt "$built/pin.elf,empty.keep"
    unchecked 'an empty campaign file of a table' 'empty.keep: an empty file, which keeps nothing yet' pins.txt pin.csv --keep empty.keep
    for kept in 0 40; do
        rm -f part.keep
        "$program" run "$built/pin.elf" part.keep --ram 0x80000000:64 --stop-after $kept >/dev/null 2>&1
        budget pins.txt part.keep --program "$program" >out.txt 2>err.txt
        same "a campaign file with $kept jobs" "status 2, check.py: part.keep: fail_star report: stopped: $kept of 592 jobs kept" \
            "status $?, $(head -n 1 err.txt)$(cat out.txt)"
        unchecked "a campaign file with $kept jobs of a table" \
            "part.keep: it keeps $kept jobs, and the table has 592: the table was not written from it" pins.txt pin.csv --keep part.keep
    done
fi

echo "$passed passed, $failed failed"
[ "$failed" -eq 0 ]
