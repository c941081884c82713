#!/usr/bin/env bash
# What fail_answers writes: for each silent job of the examples, and for all jobs of two of them, the words of fail_replay of the same
# site; campaigns that are incomplete or wrong; and how it ends where there are no answers.
# usage: answers.sh PROGRAM [REPLAY [ANSWERS]]
set -u
. "$(dirname "$0")/../checks.sh"
program=$(realpath "$1") || exit 2
[ -n "${3:-}" ] || { echo "skipped: answers needs fail_answers"; exit 0; }
[ -n "$2" ] || { echo "skipped: answers needs fail_replay"; exit 0; }
replay=$(realpath "$2") && answers=$(realpath "$3") || exit 2
built=$top/examples/built
data=$top/crates/fail_star/data
folder=$(mktemp -d) || exit 2
trap 'rm -rf "$folder"' EXIT
cd "$folder" || exit 2
every=no-effect,silent,detected,illegal,address,misaligned,timeout
# options_of NAME: those under which a campaign of an example is short.
options_of() {
    options=(--ram 0x80000000:64 --limit 6000)
    case $1 in
    checksum_ram) options=(--ram 0x80000000:128 --limit 6000 --ram-code) ;;
    siphash*) options=(--ram 0x80000000:256 --limit 6000) ;;
    pin_checked) options+=(--pc) ;;
    esac
}
# expect NAME STATUS OUT ERR WORD..: the same of a command that has two minutes.
expect() { gives "${@:1:4}" timeout 120 "${@:5}"; }

# replayed IMAGE TABLE OUTCOMES: the answers to the jobs of a table that have one of the outcomes, by the replays of their sites.
replayed() {
    local words at
    mapfile -t words < <(awk -F, -v list=",$3," 'NR > 1 && index(list, "," $5 ",") { print $1; print $2; print $3 }' "$2")
    for ((at = 0; at < ${#words[@]}; at += 3000)); do
        timeout 300 "$replay" --brief "$1" "${words[@]:at:3000}" "${options[@]}" || return
    done | awk -v table="$2" '
        BEGIN { FS = ","; while ((getline <table) > 0) weight[$1 " " $2 " " $3] = $4; FS = " " }
        $1 == "site" { site = $2 " " $3 " " $4 }
        $1 == "output" { output = $2 }
        $1 == "end" { end = substr($0, 5) }
        $1 == "outcome" { print site, weight[site], $2, output, end }'
}

# --- The examples -----------------------------------------------------------------------------------

# control_twice and the boot loaders have millions of jobs, and what is compared here does not depend on their number.
for image in "$built"/*.elf; do
    name=$(basename "$image" .elf)
    [[ $name = control_twice || $name = loader* ]] && continue
    options_of "$name"
    timeout 300 "$program" run "$image" "$name.keep" "${options[@]}" >"$name.txt" 2>&1
    timeout 60 "$program" report "$image" "$name.keep" "${options[@]}" --format csv >"$name.csv"
    replayed "$image" "$name.csv" silent >wanted.txt
    timeout 300 "$answers" "$image" "$name.keep" "${options[@]}" >found.txt 2>err.txt
    same "the answers of $name" 'status 0, ' "status $?, $(cat err.txt)"
    check "the answers of $name, by replays" "$(cmp wanted.txt found.txt 2>&1 && echo yes)"
    same "the silent sites of $name" "$(sed -n 's/^silent //p' "$name.txt")" "$(awk '{ n += $4 } END { print n + 0 }' found.txt)"
    timeout 300 "$answers" "$image" "$name.keep" "${options[@]}" --workers 1 >one.txt 2>err.txt
    check "the answers of $name by one worker" "$(cmp found.txt one.txt 2>&1 && echo yes)"
done

# --- All outcomes -----------------------------------------------------------------------------------

# all NAME IMAGE: all jobs of a case, and those of each outcome.
all() {
    replayed "$2" "$1.csv" $every >wanted.txt
    timeout 300 "$answers" "$2" "$1.keep" "${options[@]}" --outcome=$every >found.txt 2>err.txt
    same "all answers of $1" "status 0, $(($(wc -l <"$1.csv") - 1)) lines" "status $?, $(wc -l <found.txt) lines$(cat err.txt)"
    check "all answers of $1, by replays" "$(cmp wanted.txt found.txt 2>&1 && echo yes)"
    for word in ${every//,/ }; do
        timeout 300 "$answers" "$2" "$1.keep" --outcome $word "${options[@]}" >some.txt 2>err.txt
        check "the jobs of $1 that are $word" "$(awk -v word=$word '$5 == word' wanted.txt | cmp - some.txt 2>&1 && echo yes)"
    done
    for workers in 1 2 3 4 64 0x40; do
        timeout 300 "$answers" "$2" "$1.keep" --workers $workers --outcome $every "${options[@]}" >some.txt 2>err.txt
        check "all answers of $1 by $workers workers" "$(cmp wanted.txt some.txt 2>&1 && echo yes)"
    done
    for list in silent,detected detected,silent silent,silent,detected,silent; do
        timeout 300 "$answers" "$2" "$1.keep" --outcome $list "${options[@]}" >some.txt 2>err.txt
        check "the jobs of $1 that are $list" "$(awk '$5 == "silent" || $5 == "detected"' wanted.txt | cmp - some.txt 2>&1 && echo yes)"
    done
}
options_of pin
all pin "$built/pin.elf"
options_of pin_checked
all pin_checked "$built/pin_checked.elf"
options_of checksum_ram
all checksum_ram "$built/checksum_ram.elf"

# By hand: two instructions, `lui x1,0xF0000` and `sw x0,8(x1)`, the second of which halts with the value 0.
case=(--rom 0x20000000:64 --ram 0x80000000:16 --limit 100)
options=("${case[@]}")
cp "$data/row1.elf" "$data/row1.keep" . && "$program" report row1.elf row1.keep "${case[@]}" --format csv >row1.csv || exit 2
expect 'no silent job' 0 '' '' "$answers" row1.elf row1.keep "${case[@]}"
# A flip of the lowest two bits of x1 before the second instruction makes its address misaligned. The first one writes x1, so a job
# represents its own site only.
expect 'the first lines' 0 "$(printf '1 1 %d 1 misaligned - trapped\n' 0 1)" '' \
    bash -c '"$@" | head -n 2' - "$answers" row1.elf row1.keep "${case[@]}" --outcome misaligned
all row1 row1.elf
cp wanted.txt row1.all

# --- Campaigns that are incomplete or wrong ------------------------------------------------------------

options_of pin
image=$built/pin.elf
replayed "$image" pin.csv $every >pin.all
cp pin.keep before.keep
for jobs in 0 1 700; do
    rm -f part.keep
    timeout 60 "$program" run "$image" part.keep "${options[@]}" --stop-after $jobs >out.txt 2>&1
    timeout 60 "$answers" "$image" part.keep "${options[@]}" --outcome $every >some.txt 2>err.txt
    same "$jobs jobs" 'status 0, ' "status $?, $(cat err.txt)"
    check "the answers of $jobs jobs" "$(head -n $jobs pin.all | cmp - some.txt 2>&1 && echo yes)"
done
# A part of the run, whose jobs are not the first ones.
rm -f part.keep
timeout 60 "$program" run "$image" part.keep "${options[@]}" --shard 2/3 >out.txt 2>&1
timeout 60 "$answers" "$image" part.keep "${options[@]}" --outcome $every >some.txt 2>err.txt
check 'the answers of a shard' "$(awk 'NR % 3 == 2' pin.all | cmp - some.txt 2>&1 && echo yes)"
: >empty.keep
expect 'an empty file' 0 '' '' "$answers" "$image" empty.keep "${options[@]}"
expect 'no file' 0 '' '' "$answers" "$image" none.keep "${options[@]}" --outcome $every
check 'no file is made' "$([ ! -e none.keep ] && echo yes)"
same 'the empty file stays empty' 0 "$(wc -c <empty.keep)"
check 'the campaign file is only read' "$(cmp before.keep pin.keep && echo yes)"
# The file says of each job without an effect that it is silent: the jobs are chosen by that, and the lines say what their runs do.
if command -v python3 >/dev/null; then
    python3 -B - pin.keep wrong.keep <<'END'
import sys
data = bytearray(open(sys.argv[1], "rb").read())
at = 13 + int.from_bytes(data[9:13], "little")
while data[at] == 0xA5:
    count = int.from_bytes(data[at + 1:at + 3], "little")
    for row in range(at + 3, at + 3 + 10 * count, 10):
        data[row + 9] = {0: 1, 1: 0}.get(data[row + 9], data[row + 9])
    at += 3 + 10 * count
open(sys.argv[2], "wb").write(data)
END
    timeout 60 "$answers" "$image" wrong.keep "${options[@]}" >some.txt 2>err.txt
    check 'a file with wrong outcomes' "$(awk '$5 == "no-effect"' pin.all | cmp - some.txt 2>&1 && echo yes)"
else
    echo 'skipped: a file with wrong outcomes needs python3'
fi

# --- How it ends otherwise --------------------------------------------------------------------------

usage='usage: fail_answers IMAGE KEEP [options]'
# ends NAME STATUS ERR WORD..: nothing is written to the output.
ends() { expect "$1" "$2" '' "$3" "$answers" "${@:4}"; }
ends 'no words' 1 "$usage"
ends 'one word' 1 "$usage" row1.elf
ends 'three files' 1 "$usage" row1.elf row1.keep row1.keep "${case[@]}"
ends 'a command' 1 "$usage" answers row1.elf row1.keep "${case[@]}"
ends 'options in front' 1 "$usage" "${case[@]}" row1.elf row1.keep
ends 'an option between the files' 1 "$usage" row1.elf --limit 100 row1.keep
ends 'a hyphen before IMAGE' 1 "$usage" -row1.elf row1.keep "${case[@]}"
ends 'a hyphen before KEEP' 1 "$usage" row1.elf - "${case[@]}"
for more in '--format csv' --fresh '--page 7' '--stop-after 1' '--cycles 0..1' more --limit '--limit 7' '--pc --pc' --pc=1 --help -h --version --out=silent \
    --outcome --outcome= '--outcome ,' '--outcome silent,' '--outcome ,silent' '--outcome silent,,detected' '--outcome Silent' '--outcome trap' \
    '--outcome all' '--outcome silent --outcome silent' '--outcome no_effect' '--outcome silent;detected' --outcome=silent=1 \
    --workers --workers= '--workers 0' '--workers 65' '--workers -1' '--workers x' '--workers 1 --workers 1' '-- --pc'; do
    # The words hold no spaces.
    # shellcheck disable=SC2086
    ends "the words $more" 1 "$usage" row1.elf row1.keep "${case[@]}" $more
done
ends 'a space in a list' 1 "$usage" row1.elf row1.keep "${case[@]}" --outcome 'silent, detected'
ends 'a name that is not UTF-8' 1 "$usage" row1.elf $'\xff.keep' "${case[@]}"
ends 'no map' 1 "$usage" row1.elf row1.keep --rom 0x20000000:2
expect 'options in another order' 0 '' '' "$answers" row1.elf row1.keep --outcome=silent --limit=0x64 --workers=0x1 --ram 0x80000000:16 --rom 0x20000000:64 --
ends 'no image' 2 'image could not be read' missing.elf row1.keep "${case[@]}"
ends 'a folder for the image' 2 'image could not be read' . row1.keep "${case[@]}"
head -c 400 /dev/zero >zeros.elf
ends 'another image' 3 'image refused: 2 NotElf' zeros.elf row1.keep "${case[@]}"
ends 'another map' 3 'image refused: 11 SegmentOutsideMap' row1.elf row1.keep --rom 0x10000000:64 --ram 0x80000000:16
ends 'no golden run' 4 'golden run did not halt within 1 instructions' row1.elf row1.keep "${case[@]:0:4}" --limit 1
ends 'a folder for the campaign file' 5 'campaign file could not be read or written' row1.elf . "${case[@]}"
ends 'no campaign file' 6 'campaign file refused: 1 NotACampaign' row1.elf zeros.elf "${case[@]}"
ends 'another limit' 6 'campaign file refused: 6 OtherCase at 21' row1.elf row1.keep "${case[@]:0:4}" --limit 99
ends 'another kind' 6 'campaign file refused: 6 OtherCase at 0' row1.elf row1.keep "${case[@]}" --ram-code

# The output fails: status 8 behind a first part of the text.
options_of pin
full='status 8, output could not be written'
if [ -c /dev/full ]; then
    timeout 60 "$answers" "$image" pin.keep "${options[@]}" --outcome $every >/dev/full 2>err.txt
    same 'a full device' "$full" "status $?, $(cat err.txt)"
fi
timeout 60 "$answers" "$image" pin.keep "${options[@]}" --outcome $every >&- 2>err.txt
same 'a closed output' "$full" "status $?, $(cat err.txt)"
timeout 60 "$answers" "$image" pin.keep "${options[@]}" --outcome $every <&- >&- 2>&-
same 'no stream' 8 $?
# The system takes what fits, and refuses the rest: of 8 KiB here.
bash -c "trap '' XFSZ; ulimit -f 8 && exec \"\$@\"" - timeout 60 "$answers" "$image" pin.keep "${options[@]}" --outcome $every >grown.txt 2>err.txt
same 'a file that must not grow' "$full" "status $?, $(cat err.txt)"
check 'a file that must not grow, its first part' "$([ "$(wc -c <grown.txt)" -gt 4096 ] && cmp grown.txt <(head -c "$(wc -c <grown.txt)" pin.all) 2>&1 && echo yes)"
# A reader that goes away.
timeout 60 "$answers" "$image" pin.keep "${options[@]}" --outcome $every 2>err.txt | head -n 1 >some.txt
same 'a reader of one line' "$(head -n 1 pin.all)" "$(cat some.txt)"

# Each allocation is refused in turn: the status is 9, and the output has nothing or a first part of the text. With one worker no thread
# is started.
if command -v gcc >/dev/null && gcc -O1 -shared -fPIC -o refuse.so "$tests/refused_memory/refuse.c" 2>gcc.txt; then
    refused=0
    wrong=
    for ((number = 1; number <= 2000; number++)); do
        rm -f note
        REFUSE=$number NOTE=$folder/note LD_PRELOAD=$folder/refuse.so "$answers" row1.elf row1.keep "${case[@]}" --outcome $every --workers 1 >some.txt 2>err.txt
        status=$?
        [ -e note ] || break
        refused=$((refused + 1))
        [ "$status, $(cat err.txt)" = '9, out of memory' ] && cmp -s some.txt <(head -c "$(wc -c <some.txt)" row1.all) || wrong+=" $number"
    done
    same 'the refused allocations that end in another way' '' "$wrong"
    check 'allocations were refused' "$([ $refused -gt 20 ] && [ $number -le 2000 ] && echo yes || echo "$refused")"
    same 'the call of which none is refused' 'status 0, ' "status $status, $(cat err.txt)$(cmp row1.all some.txt 2>&1)"
else
    echo 'skipped: refused allocations need gcc, and a C library whose allocator has a second name'
fi

echo "$passed passed, $failed failed"
[ "$failed" -eq 0 ]
