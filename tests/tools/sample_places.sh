#!/usr/bin/env bash
# Where sites are by a sample, by sample_places.py: the draws beside the vector of FORMATS.md and a second reading (draws.py), the places of
# drawn sites of a table counted by hand, by programs that answer from it, and where programs are named the counts of `fail_star sample` for
# the same seeds, what estimate.py makes of them, and the functions of a campaign.
# usage: sample_places.sh [PROGRAM]
set -u
[ $# -eq 0 ] || set -- "$(realpath "$1")"
command -v python3 >/dev/null || { echo "skipped: sample_places needs python3"; exit 0; }
. "$(dirname "$0")/hand_made.sh"

places() { tool sample_places "$@"; }
drawn() { PYTHONPATH=tools:$PYTHONPATH python3 -B -c "
import itertools
from fail_star_tools.count import draws
$1"; }

# The vector of docs/FORMATS.md.
same 'the words of seed 42' 'a15c02b7 7b47f409 ba1d3330 83d2f293 bfa4784b cbed606e' \
    "$(drawn 'print(*(f"{word:08x}" for word in itertools.islice(draws.words(42), 6)))')"
same 'its indices, and the first site' '545092 628716 647392 647843 (362, 21, 4)' \
    "$(drawn 'drawn = list(draws.indices(42, 864800, 4)); print(*drawn, draws.site_of(drawn[0], 64, False))')"
for seed in 0 1 18446744073709551615; do
    same "the indices of seed $seed, by a second reading" "$(python3 -B "$top/tests/definitions/draws.py" $seed 1000003 300)" \
        "$(drawn "print(*draws.indices($seed, 1000003, 300))")"
done
same 'all sites in their order' 'True True' "$(PYTHONPATH=tools:$PYTHONPATH python3 -B -c '
import draws as second
from fail_star_tools.count import draws
for pc in (False, True):
    sites = list(second.sites(3, 4, pc))
    print(sites == [draws.site_of(index, 4, pc) for index in range(len(sites))], end=" " if not pc else "\n")')"

# A program that answers as a campaign of the table `overwrite` does: its plan has the jobs without their outcomes, and an
# audit of a campaign file says the outcomes that the table has.
cut -d , -f 1-4 before.csv >plan.csv
live=$(awk -F , 'NR > 1 { sites += $4 } END { print sites }' before.csv)
cat >bin/fail_star <<END
#!/bin/sh
case "\$1 \$*" in
"trace "*) cat trace.txt ;;
*csv*) cat plan.csv ;;
"plan "*) printf 'instructions 8\nsites 8960\njobs 192\nlive $live\ndead 1\n' ;;
"run "*) printf 'card\0' >"\$3" && exit 7 ;;
"audit "*) exec audited "\$3" ;;
esac
END
cat >bin/audited <<END
#!$python
import struct, sys
outcomes = {tuple(map(int, row[:3])): row[4].strip() for row in (line.split(",") for line in list(open("before.csv"))[1:])}
content, at, rows = open(sys.argv[1], "rb").read(), 4, []
while content[at] == 0xA5:
    end = at + 3 + 10 * int.from_bytes(content[at + 1 : at + 3], "little")
    rows += struct.iter_unpack("<IIBB", content[at + 3 : end])
    at = end
assert content[:4] == b"card" and content[at:] == b"\0" and rows == sorted(set(rows)) and not any(row[3] for row in rows)
wrong = [row[:3] for row in rows if outcomes[row[:3]] != "no-effect"]
for row in wrong:
    print("wrong", *row, "no-effect", outcomes[row])
print("kept", len(rows), "wrong", len(wrong))
END
chmod +x bin/fail_star bin/audited
ln -s "$(command -v cat)" bin
for asked in '1000 0 0' '300 42 0' '500 7 1' '1 3 1'; do
    read -r count seed is_live <<<"$asked"
    words=(--count "$count" --seed "$seed")
    [ "$is_live" = 0 ] || words+=(--live)
    same "places of $count draws of seed $seed, live $is_live" "$(python3 -B "$tests/sample_wanted.py" "$count" "$seed" "$is_live" before.csv)" \
        "$(places image.elf --ram $ram --disassembler none --format json "${words[@]}" | python3 -B "$tests/sample_wanted.py")"
done
# The same as drawn.py counts of all sites.
same 'the counts of drawn.py' "$(python3 -B "$tests/drawn.py" 8 16 5 2000 <before.csv | awk '$2 > 0' | sort)" \
    "$(places image.elf --ram $ram --seed 5 --count 2000 --format json | python3 -c 'import json, sys
found = json.load(sys.stdin)
for word in ("instructions", "population", "samples"): print(word, found[word])
for word, row in found["counts"].items(): row["draws"] and print(word.replace("_", "-"), row["draws"])' | sort)"
# Of 376 live sites 181 are silent. A text: rows, the most of them, and lines that are left out.
gives 'a text' 0 'function  draws   share    from      to  sites  from   to' '' \
    grep '^function' <(places image.elf --ram $ram --live --top 1 --disassembler none)
gives 'one row of each kind' 0 '(2 more)
(3 more)
(4 more)
(3 more)
(1 more)' '' grep ' more)' <(places image.elf --ram $ram --live --top 1 --disassembler none --count 5000)
gives 'two outcomes' 0 'detected + misaligned' '' sed -n 's/^\(detected + misaligned\): .*/\1/p' \
    <(places image.elf --ram $ram --live --outcome misaligned --outcome detected)

# What is refused.
bad() { gives "$1" 1 '' "sample_places.py: $2" places "${@:3}"; }
ours=(image.elf --ram "$ram" --disassembler none)
bad 'an image that is missing' 'missing.elf: No such file or directory' missing.elf
bad 'a program that is missing' './missing: No such file or directory' "${ours[@]}" --program ./missing
cp plan.csv good.csv
sed 's/^4,3,0,1/4,3,0,x/' good.csv >plan.csv
bad 'a plan that is none' "fail_star plan: expected cycle,cell,bit,weight, found '4,3,0,x\\n'" "${ours[@]}"
sed 's/^4,3,1,1/4,3,1,12/' good.csv >plan.csv
bad 'a read whose lines differ in more than the bit' "fail_star plan: expected cycle,cell,bit,weight, found '\\n'" "${ours[@]}"
head -n 3 good.csv >plan.csv
bad 'a plan that was cut within a read' 'fail_star plan: it ends within the jobs of a read' "${ours[@]}" --live
head -n 33 good.csv >plan.csv
bad 'a plan that was cut' "fail_star plan: its jobs have 32 live sites, and it said $live" "${ours[@]}" --live
cp before.csv plan.csv
bad 'a table with outcomes' "fail_star plan: expected cycle,cell,bit,weight, found 'cycle,cell,bit,weight,outcome\\n'" "${ours[@]}"
cp good.csv plan.csv
said='fail_star audit: expected an outcome of a job, and at the end their numbers, found'
cp bin/audited bin/right
for edit in 's/outcomes\[row\])/"loud")/' 's/, len(rows)/, 1 + len(rows)/' 's/^for row in wrong:/for row in wrong[1:]:/' 's/"wrong", \*row/"wrong", 9, *row[1:]/'; do
    sed "$edit" bin/right >bin/audited
    places "${ours[@]}" --live >out.txt 2>err.txt
    same "an audit of another campaign, $edit" "status 1, out , err sample_places.py: $said" "status $?, out $(cat out.txt), err $(sed "s/ found .*/ found/" err.txt)"
done
cat >bin/audited <<'END'
#!/bin/sh
echo 'memory ran out' >&2
exit 9
END
bad 'an audit that ends early' 'fail_star audit: memory ran out' "${ours[@]}" --live
sed -i 's/exit 7/exit 3/' bin/fail_star
bad 'a campaign file that cannot be begun' 'fail_star run: no line, status 3' "${ours[@]}" --live
rm bin/fail_star
bad 'no program' 'fail_star, which counts campaign files, is not on the path: name it with --program' "${ours[@]}"
for option in '--count 0' '--count 1000001' '--seed -1' '--seed 18446744073709551616' '--level 1' '--method both' '--outcome sdc' '--top 0'; do
    # shellcheck disable=SC2086
    places image.elf $option >out.txt 2>err.txt
    same "$option" 'status 2, out ' "status $?, out $(cat out.txt)"
done

# The programs themselves.
PATH=$everything
if [ -n "$program" ]; then
    built=$top/examples/built
    # alike NAME IMAGE WORD..: the counts of the sample, and what estimate.py makes of them, are the head of the answer.
    alike() {
        PATH=$few timeout 300 "$python" -S tools/sample_places.py "$built/$2.elf" "${@:3}" --program "$program" \
            --disassembler none >places.txt 2>err.txt
        same "$1" "$("$program" sample "$built/$2.elf" "${@:3}" | tool estimate --method wilson)" "$(sed '/^silent: /,$d' places.txt; cat err.txt)"
    }
    alike 'all sites of checksum' checksum --ram 0x80000000:64
    alike 'live sites of checksum' checksum --ram 0x80000000:64 --live --seed 11 --count 2000
    alike 'with the pc' pin --ram 0x80000000:64 --pc --seed 3 --count 400
    alike 'code in RAM, and the pc' checksum_ram --ram 0x80000000:128 --ram-code --pc --limit 2000 --live --seed 18446744073709551615 --count 500
    alike 'a RAM of the default size' checksum --seed 9 --count 200
    # As many draws of live sites as make the intervals narrow: each function, line and register has its number of the campaign in its
    # interval of a level at which one row in 10,000 has it not.
    "$program" run "$built/checksum.elf" checksum.keep --ram 0x80000000:64 >out.txt
    PATH=$few "$python" -S tools/where.py "$built/checksum.elf" checksum.keep --program "$program" --format json --disassembler none >where.json
    PATH=$few "$python" -S tools/sample_places.py "$built/checksum.elf" --ram 0x80000000:64 --live --count 5000 --level 0.9999 --method exact \
        --program "$program" --format json --disassembler none >places.json
    same 'the intervals have the numbers of the campaign' 'True 0' "$(python3 -c 'import json
real, found = json.load(open("where.json"))["by"], json.load(open("places.json"))["by"]
rows = wrong = 0
for kind, group in found.items():
    sites = {row["name"]: row["sites"] for row in real[kind]}
    for row in group:
        low, high = row["interval"]["sites"]
        rows, wrong = rows + 1, wrong + (not low <= sites.get(row["name"], -1) <= high)
print(rows > 20, wrong)')"
fi

echo "$passed passed, $failed failed"
[ "$failed" -eq 0 ]
