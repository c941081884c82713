#!/usr/bin/env bash
# The pages of report.py, sweep.py and replay.py in Chromium: on screens of three widths, in light, in dark and where the browser forces a
# dark style, with the keyboard, for a screen reader, without the script, and on paper; and by tidy, if it is there.
# usage: page_seen.sh PROGRAM [REPLAY]
set -u
. "$(dirname "$0")/../checks.sh"
program=$(realpath "$1") || exit 2
replay=
[ -z "${2:-}" ] || replay=$(realpath "$2") || exit 2
[ "$(timeout 150 python3 -B "$tests/browser.py" 2>/dev/null)" = works ] || { echo "skipped: how a browser shows pages needs chromium, and that it starts here"; exit 0; }
[ -n "$replay" ] || { echo "skipped: how a browser shows pages needs fail_replay"; exit 0; }
folder=$(mktemp -d) || exit 2
trap 'rm -rf "$folder"' EXIT
cd "$folder" || exit 2
built=$top/examples/built
ram=0x80000000:64
for name in checksum checksum_twice; do "$program" run "$built/$name.elf" "$name.keep" --ram $ram --limit 100000 >"$name.txt" || exit 2; done

gives 'the page of two campaigns' 0 '' '' python3 -B "$top/tools/report.py" checksum.keep --image "$built/checksum.elf" --compare checksum_twice.keep \
    --image2 "$built/checksum_twice.elf" --sources "$top/examples" --program "$program" -o report.html
gives 'the page of a run' 0 '' '' python3 -B "$top/tools/replay.py" checksum.keep 100 13 31 --image "$built/checksum.elf" --replay "$replay" --html replay.html
long=a_variant_with_a_long_name_of_more_than_thirty_letters
python3 -B "$top/tools/sweep.py" --variant checksum --variant $long --flags -O2 --flags '-Os -g -fno-inline -fno-builtin' --program "$program" \
    --build "cp '$built/checksum.elf' \"\$IMAGE\"" --page sweep.html -- --ram $ram >/dev/null 2>&1
check 'the page of a sweep' "$([ -s sweep.html ] && echo yes)"
seen=$(timeout 600 python3 -B "$tests/page_seen.py" report.html sweep.html replay.html 2>&1)
same 'what a browser shows' '' "$(grep -v '^[0-9]* looked at$' <<<"$seen")"
check 'all was looked at' "$([[ $seen =~ ([0-9]+)\ looked\ at$ ]] && [ "${BASH_REMATCH[1]}" -ge 80 ] && echo yes)"
if command -v tidy >/dev/null; then
    for name in report sweep replay; do
        # tidy does not know nested pictures, and knows rules for summaries of tables that HTML no longer has.
        same "tidy on the page of $name" '' "$(tidy -q -e "$name.html" 2>&1 | grep -v '<svg> proprietary attribute')"
    done
else
    echo "skipped: the HTML of pages is read by tidy"
fi

# No page of an example is larger than 400,000 bytes.
for image in "$built"/*.elf; do
    name=$(basename "$image" .elf)
    flags=(--ram 0x80000000:256)
    [ "$name" != checksum_ram ] || flags=(--ram 0x80000000:1024 --ram-code)
    [[ $name != control_twice && $name != loader* ]] || continue # they have millions of jobs
    "$program" run "$image" "$name.keep" "${flags[@]}" --limit 100000 --fresh >"$name.txt" 2>&1 || { check "$name: $(cat "$name.txt")" no; continue; }
    python3 -B "$top/tools/report.py" "$name.keep" --image "$image" --sources "$top/examples" --program "$program" -o example.html >err.txt 2>&1
    size=$(stat -c %s example.html)
    check "the page of $name, $size bytes" "$([ "$size" -le 400000 ] && echo yes)"
    rm -f example.html
done
size=$(stat -c %s report.html)
check "the page of two campaigns, $size bytes" "$([ "$size" -le 400000 ] && echo yes)"

echo "$passed passed, $failed failed"
[ "$failed" -eq 0 ]
