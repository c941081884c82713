#!/usr/bin/env bash
# What fail_replay writes: by replay.py beside a second reading, beside the campaigns of the examples and beside texts that were worked out
# by hand; and how it ends where there is no such text.
# usage: replay.sh PROGRAM [REPLAY]
set -u
. "$(dirname "$0")/../checks.sh"
program=$(realpath "$1") || exit 2
[ $# -gt 1 ] || { echo "skipped: replay needs fail_replay"; exit 0; }
given=$(realpath "$2") || exit 2
command -v python3 >/dev/null || { echo "skipped: replay needs python3"; exit 0; }
folder=$(mktemp -d) || exit 2
trap 'rm -rf "$folder"' EXIT
cp "$given" "$folder/fail_replay" && cp "$top/examples/built/pin.elf" "$folder" || exit 2
replay=$folder/fail_replay

python3 -B "$tests/replay.py" "$program" "$replay" >"$folder/log.txt" 2>&1
counts=$(tail -n 1 "$folder/log.txt")
if [[ $counts =~ ^([0-9]+)\ passed,\ ([0-9]+)\ failed$ ]]; then
    sed '$d' "$folder/log.txt"
    passed=${BASH_REMATCH[1]}
    failed=${BASH_REMATCH[2]}
else
    check 'replay.py' "$(cat "$folder/log.txt")"
fi

# How it ends where there is no text. The case is the first one that is worked out by hand: two instructions, in 64 and 16 bytes.
cd "$folder" || exit 2
case=(--rom 0x20000000:64 --ram 0x80000000:16 --limit 100)
usage='usage: fail_replay [--whole | --brief] IMAGE CYCLE CELL BIT .. [options]'
# ends NAME STATUS ERR WORD..
ends() { gives "$1" "$2" '' "$3" timeout 60 "$replay" "${@:4}"; }
# no_line WORD..: words that are no line.
no_line() { ends "the words $*" 1 "$usage" "$@"; }
# both STATUS ERR WORD..: the same by the second reading.
both() {
    ends "$*" "${@:1:2}" "${@:3}"
    same "$*, by the second reading" "$1 $2" "$(python3 -B -c 'import replayed, sys
status, text, line = replayed.judge(sys.argv[1:])
print(status, text + line.rstrip("\n"))' "${@:3}")"
}
python3 -B -c 'import known, sys
sys.stdout.buffer.write(known.image(known.HALT))' >halt.elf

no_line
no_line halt.elf
no_line halt.elf "${case[@]}"
no_line halt.elf 1 "${case[@]}"
no_line halt.elf 1 1 "${case[@]}"
no_line halt.elf 1 1 0 1 "${case[@]}"
no_line halt.elf 1 1 0 1 1 "${case[@]}"
no_line 1 1 0 "${case[@]}"
for number in 4294967296 0x100000000 18446744073709551616 '' x 1x 0x -1 +1 ' 1' 1. 000000000000000000001; do
    no_line halt.elf "$number" 1 0 "${case[@]}"
    no_line halt.elf 1 "$number" 0 "${case[@]}"
done
for number in 256 0x100 4294967296 '' x -0; do
    no_line halt.elf 1 1 "$number" "${case[@]}"
    no_line halt.elf 1 1 0 1 1 "$number" "${case[@]}"
done
no_line -halt.elf 1 1 0 "${case[@]}"
no_line - 1 1 0 "${case[@]}"
for view in --whole --brief; do
    no_line $view
    no_line $view halt.elf
    no_line $view halt.elf 1 1 "${case[@]}"
    no_line $view --whole halt.elf 1 1 0 "${case[@]}"
    no_line $view --brief halt.elf 1 1 0 "${case[@]}"
    no_line halt.elf $view 1 1 0 "${case[@]}"
    no_line halt.elf 1 1 $view 0 "${case[@]}"
    no_line halt.elf 1 1 0 $view "${case[@]}"
    no_line halt.elf 1 1 0 "${case[@]}" $view
    no_line "${case[@]}" $view halt.elf 1 1 0
    no_line $view=1 halt.elf 1 1 0 "${case[@]}"
done
no_line "${case[@]}" halt.elf 1 1 0
no_line --pc halt.elf 1 1 0 "${case[@]}"
no_line halt.elf 1 1 0 --pc 1 1 1 "${case[@]}"
no_line --Whole halt.elf 1 1 0 "${case[@]}"
no_line -- halt.elf 1 1 0 "${case[@]}"
no_line replay halt.elf 1 1 0 "${case[@]}"
for more in '--format text' --format=csv --fresh '--page 7' '--workers 1' '--seed 0' '--count 1' --live more --limit '--limit 7' '--pc --pc' --pc=1 --nonsense --help -h --version '-- --pc'; do
    # The words hold no spaces.
    # shellcheck disable=SC2086
    no_line halt.elf 1 1 0 "${case[@]}" $more
done
for more in '--limit 0' '--limit 16777217' '--rom 4' '--rom 0x20000000:2' '--ram 0x80000000:65540' '--ram 0x20000000:16'; do
    # shellcheck disable=SC2086
    no_line halt.elf 1 1 0 $more
done
no_line halt.elf 1 1 $'\xff' "${case[@]}"
no_line $'\xff.elf' 1 1 0 "${case[@]}"

# Of an image that is none nothing is looked at beside it: the site is none either.
both 2 'image could not be read' missing.elf 9 99 99 "${case[@]}"
both 2 'image could not be read' . 1 1 0 "${case[@]}"
both 2 'image could not be read' '' 1 1 0 "${case[@]}"
printf 'no image' >text.elf
head -c 400 /dev/zero >zeros.elf
both 3 'image refused: 1 Short' text.elf 9 99 99 "${case[@]}"
both 3 'image refused: 2 NotElf' --whole zeros.elf 1 1 0 "${case[@]}"
both 3 'image refused: 11 SegmentOutsideMap' halt.elf 1 1 0 --rom 0x10000000:64 --ram 0x80000000:16
both 4 'golden run did not halt within 1 instructions' --brief halt.elf 9 99 99 "${case[@]:0:4}" --limit 1
both 4 'golden run trapped at cycle 8' pin.elf 9 99 99 --ram 0x80000000:8
python3 -B -c 'import known, sys
sys.stdout.buffer.write(known.image("lui x1,0xF0000; sw x0,4(x1)"))' >detects.elf
both 4 'golden run detected at cycle 1' detects.elf 0 1 0 "${case[@]}"

# Each kind of site that is none; the first of several is named, in the order of the words.
none() { both 13 "no such site: cycle $1 cell $2 bit $3" "${@:4}"; }
none 2 1 0 halt.elf 2 1 0 "${case[@]}"
none 4294967295 4294967295 255 halt.elf 0xffffffff 4294967295 0xff "${case[@]}"
none 0 0 0 halt.elf 0 0 0 "${case[@]}"
none 0 1 32 --whole halt.elf 0 1 32 "${case[@]}"
none 0 31 255 halt.elf 0 31 255 "${case[@]}"
none 0 0 32 --brief halt.elf 0 0 32 "${case[@]}" --pc
none 0 32 8 halt.elf 0 32 8 "${case[@]}"
none 1 47 31 halt.elf 1 47 31 "${case[@]}" --ram-code
none 1 48 0 halt.elf 1 48 0 "${case[@]}"
none 2 1 0 --brief halt.elf 1 1 0 1 2 31 2 1 0 0 0 0 "${case[@]}"
none 0 0 0 halt.elf 0 0 0 2 1 0 "${case[@]}"
none 1 48 7 --whole halt.elf 1 1 0 1 47 7 1 48 7 "${case[@]}" --pc --ram-code
# The last sites that there are.
gives 'the last byte of RAM' 0 "$(printf 'site 1 47 7\ndiffers pc - registers - output -\noutput -\nend halted 0\noutcome no-effect')" '' \
    "$replay" --brief halt.elf 1 47 7 "${case[@]}"
gives 'the pc' 0 "$(printf 'site 1 0 31\ndiffers pc 1 registers - output -\noutput -\nend trapped\noutcome address')" '' \
    "$replay" --brief halt.elf 1 0 31 "${case[@]}" --pc

# All instructions, before a flip of what nothing reads and behind it, are those of the program's trace.
# traced IMAGE CYCLE CELL OPTION..
traced() {
    "$program" trace "$1" "${@:4}" >trace.txt
    "$replay" --whole "$1" "$2" "$3" 0 "${@:4}" >whole.txt
    check "the whole run of $*" "$(sed '1d; /^differs /d; /^outcome /d' whole.txt | cmp trace.txt - 2>&1 && echo yes)"
    same "the lines beside them of $*" "site $2 $3 0, outcome no-effect" "$(sed -n '1s/$/, /p; $p' whole.txt | tr -d '\n')"
}
built=$top/examples/built
traced "$built/pin.elf" 22 5 --ram 0x80000000:64
traced "$built/checksum.elf" 0 31 --ram 0x80000000:64
traced "$built/sort.elf" 440 40 --ram 0x80000000:64
traced "$built/checksum_ram.elf" 400 31 --ram 0x80000000:128 --ram-code

# The output fails.
broken='output could not be written'
for view in --brief --whole ''; do
    if [ -c /dev/full ]; then
        # shellcheck disable=SC2086
        "$replay" $view halt.elf 1 1 0 "${case[@]}" >/dev/full 2>err.txt
        same "a full device $view" "status 8, $broken" "status $?, $(cat err.txt)"
    fi
    # shellcheck disable=SC2086
    "$replay" $view halt.elf 1 1 0 1 2 3 "${case[@]}" >&- 2>err.txt
    same "a closed output $view" "status 8, $broken" "status $?, $(cat err.txt)"
done
"$replay" halt.elf 1 1 0 "${case[@]}" <&- >&- 2>&-
same 'no stream' 8 $?
"$replay" halt.elf 2 1 0 "${case[@]}" >&- 2>err.txt
same 'no site, and a closed output' 'status 13, no such site: cycle 2 cell 1 bit 0' "status $?, $(cat err.txt)"
# It writes no file.
same 'the files' "$(printf '%s\n' detects.elf err.txt fail_replay halt.elf log.txt out.txt pin.elf text.elf trace.txt whole.txt zeros.elf)" "$(LC_ALL=C ls -A)"

echo "$passed passed, $failed failed"
[ "$failed" -eq 0 ]
