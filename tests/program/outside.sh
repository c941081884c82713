#!/usr/bin/env bash
# Real files and streams: images that cannot be read or come in pieces, outputs that are closed or full, odd words.
# usage: outside.sh PROGRAM
set -u
. "$(dirname "$0")/../checks.sh"
program=$(realpath "$1") || exit 2
image=$top/crates/fail_star/data/row1.elf
options=(--rom 0x20000000:64 --ram 0x80000000:16 --limit 100)
folder=$(mktemp -d) || exit 2
trap 'rm -rf "$folder"' EXIT
cd "$folder" || exit 2

# The image holds `lui x1,0xF0000` and `sw x0,8(x1)`: a flip of any bit of x1 before the store makes it trap.
report=$'instructions 2\nsites 2240\nno-effect 2208\nsilent 0\ndetected 0\nillegal 0\naddress 30\nmisaligned 2\ntimeout 0'
usage='usage: fail_star run IMAGE KEEP [options]
usage: fail_star brute IMAGE [options]
usage: fail_star trace IMAGE [options]
usage: fail_star plan IMAGE [options]
usage: fail_star report IMAGE KEEP [options]
usage: fail_star audit IMAGE KEEP [options]
usage: fail_star sample IMAGE [options]
usage: fail_star merge IMAGE KEEP OTHER [options]
usage: fail_star symbols IMAGE KEEP [options]
usage: fail_star demo [--seed S] [--blocks K]'
unread='image could not be read'
unwritten='output could not be written'
too_long='image refused: 12 TooLong'

# expect NAME STATUS OUT ERR WORD..: runs a command and compares its status and all that it wrote, byte by byte. There is no
# campaign file before, and afterwards one where the campaign was carried out.
expect() {
    local name=$1 status=$2 out=$3 err=$4 got=0 made=no
    shift 4
    rm -f some.keep
    [[ " $* " == *' some.keep '* && $status =~ ^[08]$ ]] && made=yes
    timeout 30 "$@" >out.txt 2>err.txt || got=$?
    printf '%s' "$out${out:+$'\n'}" | cmp -s - out.txt || got="$got, other standard output"
    printf '%s' "$err${err:+$'\n'}" | cmp -s - err.txt || got="$got, other standard error"
    [ "$made" = "$([ -e some.keep ] && echo yes || echo no)" ] || got="$got, not $made to a campaign file"
    [ "$got" = "$status" ] && got=yes
    check "$name" "$got"
}

# status NAME WANTED GOT: for commands whose streams are no files of ours.
status() {
    [ "$3" = "$2" ] && set -- "$1" "$2" yes
    check "$1" "$3"
}

run() { rm -f some.keep && timeout 30 "$program" run "$1" some.keep "${options[@]}"; }

# Images.
expect 'a good image' 0 "$report" '' "$program" run "$image" some.keep "${options[@]}"
expect 'a missing image' 2 '' "$unread" "$program" run missing.elf some.keep "${options[@]}"
expect 'an image in a missing folder' 2 '' "$unread" "$program" run missing/image.elf some.keep "${options[@]}"
expect 'a file in place of a folder' 2 '' "$unread" "$program" run "$image/image.elf" some.keep "${options[@]}"
expect 'an empty name' 2 '' "$unread" "$program" run '' some.keep "${options[@]}"
expect 'a folder' 2 '' "$unread" "$program" run . some.keep "${options[@]}"
: >empty.elf
expect 'an empty image' 3 '' 'image refused: 1 Short' "$program" run empty.elf some.keep "${options[@]}"
cp "$image" longest.elf && truncate -s 16777216 longest.elf
expect 'the longest image' 0 "$report" '' "$program" run longest.elf some.keep "${options[@]}"
truncate -s 16777217 longest.elf
expect 'an image one byte too long' 3 '' "$too_long" "$program" run longest.elf some.keep "${options[@]}"
expect 'an image without end' 3 '' "$too_long" "$program" run /dev/zero some.keep "${options[@]}"
cp "$image" 'ä 片.elf'
expect 'a name in UTF-8' 0 "$report" '' "$program" run 'ä 片.elf' some.keep "${options[@]}"
ln -s "$image" link.elf
expect 'a link' 0 "$report" '' "$program" run link.elf some.keep "${options[@]}"
ln -s circle.elf circle.elf
expect 'a link to itself' 2 '' "$unread" "$program" run circle.elf some.keep "${options[@]}"
if [ "$(id -u)" -ne 0 ]; then
    cp "$image" locked.elf && chmod 000 locked.elf
    expect 'an image without permission' 2 '' "$unread" "$program" run locked.elf some.keep "${options[@]}"
fi

# Images that come in pieces. A read of a pipe gives what is there, mostly less than was asked for.
in_pieces() {
    local at=0
    while [ "$at" -lt 92 ]; do
        tail -c +$((at + 1)) "$image" | head -c 7
        at=$((at + 7))
        sleep 0.01
    done
}
export image
export -f in_pieces
mkfifo pieces
# later COMMAND: writes to the named pipe beside the program; it gives up where nobody reads.
later() { timeout 10 bash -c "$1 >pieces" 2>/dev/null & }
later in_pieces
expect 'a named pipe in pieces of 7 bytes' 0 "$report" '' "$program" run pieces some.keep "${options[@]}"
wait
later 'cat longest.elf'
expect 'a named pipe that is one byte too long' 3 '' "$too_long" "$program" run pieces some.keep "${options[@]}"
wait
later :
expect 'a named pipe that is closed at once' 3 '' 'image refused: 1 Short' "$program" run pieces some.keep "${options[@]}"
wait
expect 'standard input as the image' 0 "$report" '' "$program" run /dev/stdin some.keep "${options[@]}" <"$image"
expect 'a pipe as standard input' 0 "$report" '' "$program" run /dev/stdin some.keep "${options[@]}" < <(in_pieces)
expect 'a closed standard input' 0 "$report" '' "$program" run "$image" some.keep "${options[@]}" <&-
expect 'a closed standard input as the image' 2 '' "$unread" "$program" run /dev/stdin some.keep "${options[@]}" <&-

# Outputs.
if [ -c /dev/full ]; then
    run "$image" >/dev/full 2>err.txt
    status 'a full device' 8 $?
    status 'a full device, its line' "$unwritten" "$(cat err.txt)"
    run missing.elf 2>/dev/full
    status 'no place for the line of a refusal' 2 $?
    run "$image" >/dev/full 2>/dev/full
    status 'both outputs full' 8 $?
fi
run "$image" >&- 2>err.txt
status 'a closed standard output' 8 $?
status 'a closed standard output, its line' "$unwritten" "$(cat err.txt)"
run missing.elf >&- 2>/dev/null
status 'a refusal with a closed standard output' 2 $?
run "$image" >out.txt 2>&-
status 'a closed standard error' 0 $?
status 'a closed standard error, its report' "$report" "$(cat out.txt)"
run missing.elf 2>&-
status 'a refusal with a closed standard error' 2 $?
run "$image" <&- >&- 2>&-
status 'all three closed' 8 $?
# The program ignores SIGPIPE, so a reader that is gone is an output that cannot be written: status 8.
{ sleep 0.3; run "$image" 2>err.txt; echo $? >status.txt; } | true
status 'a pipe whose reader is gone' 8 "$(cat status.txt)"
status 'a pipe whose reader is gone, its line' "$unwritten" "$(cat err.txt)"
status 'a pipe that is read' "$report" "$(run "$image" | cat)"

# Words.
expect 'no words' 1 '' "$usage" "$program"
expect 'no words and an empty name of the program' 1 '' "$usage" bash -c 'exec -a "" "$0"' "$program"
expect 'a command that is not UTF-8' 1 '' "$usage" "$program" $'\xff' "$image" some.keep "${options[@]}"
expect 'a value that is not UTF-8' 1 '' "$usage" "$program" run "$image" some.keep "${options[@]:0:5}" $'100\xff'
cp "$image" $'a\xff.elf' 2>/dev/null && expect 'an image whose name is not UTF-8' 1 '' "$usage" "$program" run $'a\xff.elf' some.keep "${options[@]}"
expect 'a campaign file whose name is not UTF-8' 1 '' "$usage" "$program" run "$image" $'\xc3(.keep' "${options[@]}"
for command in report symbols; do
    expect "a campaign file for $command whose name is not UTF-8" 1 '' "$usage" "$program" $command "$image" $'\xc3(.keep' "${options[@]}"
done
for command in brute trace plan; do
    expect "$command of an image whose name is not UTF-8" 1 '' "$usage" "$program" $command $'a\xff.elf' "${options[@]}"
    expect "$command with an option that is not UTF-8" 1 '' "$usage" "$program" $command "$image" "${options[@]}" $'--form\xff'
    expect "$command with a value that is not UTF-8" 1 '' "$usage" "$program" $command "$image" "${options[@]:0:5}" $'\xff'
    expect "$command with a word too much that is not UTF-8" 1 '' "$usage" "$program" $command "$image" "${options[@]}" $'\xff'
done
expect 'a word of 100,000 bytes' 1 '' "$usage" "$program" run "$image" some.keep "${options[@]:0:5}" "$(printf '%0100000d' 1)"

# A small stack, of 128 KiB, is enough for each command.
small=(bash -c 'ulimit -s 128 && exec "$@"' -)
long=$top/examples/built/checksum.elf
expect 'a small stack, a run' 0 "$report" '' "${small[@]}" "$program" run "$image" some.keep "${options[@]}"
for words in "run $long long.txt --workers 1" "run $long long.txt --fresh --workers 64" "report $long long.txt --format csv" "audit $long long.txt" "symbols $long long.txt" "plan $long --format csv" "trace $long" "sample $long" 'demo --seed 1'; do
    more=()
    [ "${words%% *}" = demo ] || more=(--ram 0x80000000:64 --limit 6000)
    # The words hold no spaces.
    timeout 60 "${small[@]}" "$program" $words "${more[@]}" >out.txt 2>err.txt
    status "a small stack, ${words%% *}" 0 $?
done

# A file that is no campaign file is refused, and stays as it is.
printf 'kept content' >kept.keep
touch -d '2001-02-03 04:05:06' kept.keep
before=$(stat -c '%i %s %Y' kept.keep)
expect 'a campaign file with other content' 6 '' 'campaign file refused: 1 NotACampaign' "$program" run "$image" kept.keep "${options[@]}"
run_kept() { timeout 30 "$program" run "$1" kept.keep "${options[@]}"; }
# An opened file may take the number of a stream that is closed: no text may go into it.
run_kept "$image" <&- >&- 2>&-
run_kept "$image" >&- 2>&-
run_kept empty.elf 2>&-
run_kept "$image" >/dev/null 2>&-
status 'its content' 'kept content' "$(cat kept.keep)"
status 'its number, size and time' "$before" "$(stat -c '%i %s %Y' kept.keep)"

# The front of a long file tells that it is none: 64 GiB of zeros, more than there is memory for.
truncate -s 64G zeros.txt
for command in run report audit symbols; do
    expect "a long file, $command" 6 '' 'campaign file refused: 1 NotACampaign' bash -c 'ulimit -v 4000000 && exec "$@"' - "$program" $command "$image" zeros.txt "${options[@]}"
done
expect 'a long file, begun anew' 0 "$report" '' bash -c 'ulimit -v 4000000 && exec "$@"' - "$program" run "$image" zeros.txt "${options[@]}" --fresh
rm zeros.txt

# Nothing else was made.
others=$(LC_ALL=C find . -mindepth 1 ! -name '*.elf' ! -name '*.txt' ! -name pieces ! -name some.keep ! -name kept.keep)
status 'the files that are there' '' "$others"

echo "$passed passed, $failed failed"
[ "$failed" -eq 0 ]
