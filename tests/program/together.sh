#!/usr/bin/env bash
# Two commands at once on one campaign file: no wrong count, no row lost, no sound file refused, whichever comes first.
# usage: together.sh PROGRAM [ROUNDS [SEED]]
# Each pair of commands is started ROUNDS times (10 by default), the second one up to 40 milliseconds after the first.
set -u
. "$(dirname "$0")/../checks.sh"
script=$(realpath "$0")
program=$(realpath "$1") || exit 2
rounds=${2:-10}
seed=${3:-$RANDOM}
examples=$top/examples/built
folder=$(mktemp -d) || exit 2
trap 'rm -rf "$folder"' EXIT
cd "$folder" || exit 2
cp "$examples/checksum.elf" "$examples/checksum_twice.elf" . || exit 2
RANDOM=$seed
echo "seed $seed, $rounds rounds"

regions=(--rom 0x20000000:2048 --ram 0x80000000:64)
busy='campaign file could not be read or written'

# What an undisturbed campaign says, a file for each image and limit.
# whole IMAGE LIMIT: the name of that file.
whole() { echo "whole.$1.$2.txt"; }
for image in checksum checksum_twice; do
    for limit in 60000 90000; do
        timeout 60 "$program" run $image.elf whole.keep --fresh "${regions[@]}" --limit $limit >"$(whole $image $limit)" 2>err.txt
        check "an undisturbed campaign of $image within $limit" "$([ $? -eq 0 ] && [ ! -s err.txt ] && echo yes)"
    done
done
jobs=$("$program" plan checksum.elf "${regions[@]}" | sed -n 's/^jobs //p')

# start NUMBER IMAGE LIMIT WORD..: a run on the file that both share, whose status and texts are in files of that number.
start() {
    (
        # A signal that ends the program ends no more than that.
        timeout 60 "$program" run "$2.elf" shared.keep "${regions[@]}" --limit "$3" --workers 2 "${@:4}" >"out.$1" 2>"err.$1"
        echo $? >"status.$1"
        date +%s%N >"ended.$1"
    ) &
}

# answers NUMBER IMAGE LIMIT STATUS..: whether a run gave its counts, or another of these statuses with its line.
answers() {
    local status
    status=$(cat "status.$1")
    case $status in
        0) cmp -s "out.$1" "$(whole "$2" "$3")" && [ ! -s "err.$1" ] || { echo "other counts of $1"; return 1; } ;;
        5) [ "$(cat "err.$1")" = "$busy" ] && [ ! -s "out.$1" ] || { echo "texts of $1"; return 1; } ;;
        6) [[ $(cat "err.$1") == 'campaign file refused: 6 OtherCase at '* ]] && [ ! -s "out.$1" ] || { echo "$(cat "err.$1") of $1"; return 1; } ;;
    esac
    [[ " ${*:4} " == *" $status "* ]] || { echo "status $status of $1: $(cat "err.$1")"; return 1; }
}

# ends IMAGE LIMIT: whether the file has a whole campaign now, or one that the same command ends.
ends() {
    timeout 60 "$program" run "$1.elf" shared.keep "${regions[@]}" --limit "$2" >out.end 2>err.end || { echo "at the end: $(cat err.end)"; return 1; }
    cmp -s out.end "$(whole "$1" "$2")" || { echo 'other counts at the end'; return 1; }
    timeout 60 "$program" report "$1.elf" shared.keep "${regions[@]}" --limit "$2" >out.end 2>err.end || { echo "a report at the end: $(cat err.end)"; return 1; }
    cmp -s out.end "$(whole "$1" "$2")" || { echo 'other counts of the report'; return 1; }
}

pause() { sleep "$(printf '0.%03d' $((RANDOM % 40)))"; }

# pair NAME IMAGE LIMIT IMAGE LIMIT WORD.. -- WORD..: rounds of two runs at once, with words for each; one of them at least must come to its end.
pair() {
    local name=$1 one=("$2" "$3") two=("$4" "$5") first=() second=() round wrong='' both=0 refused=0
    shift 5
    while [ "$1" != -- ]; do first+=("$1"); shift; done
    shift
    second=("$@")
    # With another case the later one is refused by the file's content.
    local may=(0 5)
    [ "${one[*]}" = "${two[*]}" ] || may+=(6)
    for ((round = 0; round < rounds; round++)); do
        rm -f shared.keep
        start 1 "${one[@]}" "${first[@]}"
        pause
        start 2 "${two[@]}" "${second[@]}"
        wait
        local winner=''
        wrong+=$(answers 1 "${one[@]}" "${may[@]}")
        wrong+=$(answers 2 "${two[@]}" "${may[@]}")
        [ "$(cat status.1)" -eq 0 ] && winner=1
        # Where both came to their end, the file is of the one that ended last: on a busy machine that need not be the one that was started last.
        [ "$(cat status.2)" -eq 0 ] && { [ -z "$winner" ] && winner=2 || { both=$((both + 1)); [ "$(cat ended.2)" -gt "$(cat ended.1)" ] && winner=2; }; }
        [ "$(cat status.2)" -eq 5 ] && refused=$((refused + 1))
        [ "$(cat status.1)" -eq 5 ] && refused=$((refused + 1))
        case $winner in
            1) wrong+=$(ends "${one[@]}") ;;
            2) wrong+=$(ends "${two[@]}") ;;
            *) wrong+=' neither came to its end;' ;;
        esac
        [ -z "$wrong" ] || break
    done
    echo "$name: $refused were refused, $both times both came to their end"
    check "$name" "$([ -z "$wrong" ] && echo yes || echo "round $round: $wrong")"
}

pair 'two limits' checksum 60000 checksum 90000 --page 300 -- --page 300
pair 'a run, and one that begins the file anew' checksum 60000 checksum 60000 --page 300 -- --page 300 --fresh
pair 'two that begin the file anew' checksum 60000 checksum 90000 --page 300 --fresh -- --page 300 --fresh
pair 'two sizes of pages' checksum 60000 checksum 60000 --page 300 -- --page 170
pair 'two images' checksum 60000 checksum_twice 60000 --page 300 -- --page 300

# One of two is killed, or both; then the campaign goes on.
wrong=''
for ((round = 0; round < rounds && ${#wrong} == 0; round++)); do
    rm -f shared.keep
    for number in 1 2; do
        timeout --foreground -s KILL "0.$((RANDOM % 300 + 100))" "$program" run checksum.elf shared.keep "${regions[@]}" --limit 60000 --page 100 >out.$number 2>err.$number &
        pause
    done
    wait
    timeout 60 "$program" report checksum.elf shared.keep "${regions[@]}" --limit 60000 >out.end 2>err.end
    status=$?
    words=()
    # A kill while a file is begun leaves one that --fresh takes up.
    [ $status -eq 6 ] && [ "$(cat err.end)" = 'campaign file refused: 1 NotACampaign' ] && { words=(--fresh); status=7; }
    [ $status -eq 7 ] || [ $status -eq 0 ] || wrong+=" report: $(cat err.end);"
    timeout 60 "$program" run checksum.elf shared.keep "${regions[@]}" --limit 60000 "${words[@]}" >out.end 2>err.end || wrong+=" then: $(cat err.end);"
    wrong+=$(ends checksum 60000)
done
check 'one of two is killed' "$([ -z "$wrong" ] && echo yes || echo "round $round: $wrong")"

# Reports beside a run: what was kept at some moment, and never less than before.
wrong=''
reports=0
between=0
for ((round = 0; round < rounds && ${#wrong} == 0; round++)); do
    rm -f shared.keep
    start 1 checksum 60000 --page 50
    most=0
    rm -f status.1
    while [ ! -e status.1 ]; do
        timeout 60 "$program" report checksum.elf shared.keep "${regions[@]}" --limit 60000 >out.2 2>err.2
        status=$?
        reports=$((reports + 1))
        if [ $status -eq 7 ] && [[ $(cat err.2) =~ ^stopped:\ ([0-9]+)\ of\ $jobs\ jobs\ kept$ ]]; then
            kept=${BASH_REMATCH[1]}
            [ "$kept" -gt 0 ] && between=$((between + 1))
            [ "$kept" -ge "$most" ] || wrong+=" $kept after $most;"
            most=$kept
        elif [ $status -eq 0 ]; then
            cmp -s out.2 "$(whole checksum 60000)" || wrong+=' other counts of a report;'
        else
            [ $status -eq 5 ] && [ "$(cat err.2)" = "$busy" ] || wrong+=" status $status of a report: $(cat err.2);"
        fi
    done
    wait
    wrong+=$(answers 1 checksum 60000 0)
    wrong+=$(ends checksum 60000)
done
echo "$reports reports beside runs, $between of them in the midst"
check 'reports beside a run' "$([ -z "$wrong" ] && echo yes || echo "round $round: $wrong")"
check 'some of them in the midst' "$([ "$between" -gt 0 ] && echo yes)"

# The file is taken away, or another comes to its name, while it is written.
# moved NAME COMMAND..: a run whose file meets the command once it has rows.
moved() {
    rm -f shared.keep away.keep
    start 1 checksum 90000 --page 20
    for ((i = 0; i < 500; i++)); do
        [ -s shared.keep ] && [ "$(stat -c %s shared.keep)" -gt 3000 ] && break
        sleep 0.01
    done
    "${@:2}"
    wait
    check "$1" "$(answers 1 checksum 90000 5 && echo yes)"
}
moved 'a file that is moved away' mv shared.keep away.keep
timeout 60 "$program" run checksum.elf away.keep "${regions[@]}" --limit 90000 >out.end 2>err.end
check 'a file that is moved away, ended there' "$([ $? -eq 0 ] && cmp -s out.end "$(whole checksum 90000)" && echo yes || cat err.end)"
moved 'a file that is removed' rm shared.keep
another() { cp shared.keep away.keep && mv away.keep shared.keep; }
moved 'another file at its name' another
timeout 60 "$program" run checksum.elf shared.keep "${regions[@]}" --limit 90000 >out.end 2>err.end
check 'another file at its name, ended' "$([ $? -eq 0 ] && cmp -s out.end "$(whole checksum 90000)" && echo yes || cat err.end)"

# The image as the campaign file, by its own name and by another.
ln checksum.elf linked.keep
ln -s checksum.elf link.keep
sum=$(cksum <checksum.elf)
for name in checksum.elf linked.keep link.keep; do
    timeout 60 "$program" run checksum.elf $name "${regions[@]}" >out.1 2>err.1
    check "the image as $name" "$([ $? -eq 6 ] && [ "$(cksum <checksum.elf)" = "$sum" ] && echo yes || cat err.1)"
    timeout 60 "$program" run checksum.elf $name "${regions[@]}" --fresh >out.1 2>err.1
    check "the image as $name, begun anew" "$([ $? -eq 5 ] && [ "$(cksum <checksum.elf)" = "$sum" ] && echo yes || cat err.1)"
done

# A file that is cut, or written over in place, by a program that asks for no lock: the run ends at its next write.
cp checksum_twice.elf whole.other
# held WORD..: a run with rows that is stopped, its number in `pid`. The words stand in front of its command.
held() {
    rm -f shared.keep pid
    "$@" sh -c 'echo $$ >pid; exec "$@"' - timeout --foreground 60 "$program" run checksum.elf shared.keep "${regions[@]}" \
        --limit 90000 --page 20 --workers 1 >out.1 2>err.1 &
    job=$!
    for ((i = 0; i < 500; i++)); do
        [ -s shared.keep ] && [ "$(stat -c %s shared.keep)" -gt 3000 ] && break
        sleep 0.01
    done
    pid=$(pgrep -P "$(cat pid)")
    kill -STOP "$pid"
}
# goes_on: continues it to its end.
goes_on() {
    kill -CONT "$pid"
    wait $job
    echo $? >status.1
}
# changes NAME COMMAND..: a stopped run whose file meets the command. It must end with 5.
changes() {
    held env
    "${@:2}"
    goes_on
    check "$1" "$(answers 1 checksum 90000 5 && echo yes)"
}
changes 'a file that is cut' truncate -s 2500 shared.keep
changes 'a file that is emptied' truncate -s 0 shared.keep
changes 'a file that grows' truncate -s 1M shared.keep
changes 'another file copied over it' cp whole.other shared.keep
# over BYTES PLACE: writes zeros over a part of the file, whose length stays.
over() { dd if=/dev/zero of=shared.keep bs=1 count="$1" seek="$2" conv=notrunc 2>/dev/null; }
changes 'zeros over the header' over 13 0
changes 'zeros over the end of the card' over 64 2073
# opened: an open gate, with nothing behind it, where the last gate is closed.
opened() { printf '\245' | dd of=shared.keep bs=1 seek=$(($(stat -c %s shared.keep) - 1)) conv=notrunc 2>/dev/null; }
changes 'a gate that another opens' opened
held env
goes_on
check 'a file that nobody changes' "$(answers 1 checksum 90000 0 && echo yes)"

# A file with a hole of a terabyte after its last gate is read up to that gate, and goes on.
rm -f shared.keep
timeout 60 "$program" run checksum.elf shared.keep "${regions[@]}" --limit 60000 --stop-after 5000 >out.1 2>err.1
if truncate -s 1T shared.keep 2>/dev/null; then
    # bounded COMMAND WORD..: a command that has two gigabytes of memory.
    bounded() { (ulimit -v 2000000 && timeout 60 "$program" "$1" checksum.elf shared.keep "${regions[@]}" --limit 60000 >out.1 2>err.1); }
    bounded report
    same 'a hole, a report' 'status 7, stopped: 5000 of '"$jobs"' jobs kept' "status $?, $(cat err.1)"
    bounded run
    check 'a hole, a run' "$([ $? -eq 0 ] && cmp -s out.1 "$(whole checksum 60000)" && echo yes || cat err.1)"
    bounded report
    check 'a hole, a report at the end' "$([ $? -eq 0 ] && cmp -s out.1 "$(whole checksum 60000)" && echo yes || cat err.1)"
    same 'a hole, its length' "$((1 << 40))" "$(stat -c %s shared.keep)"
else
    echo 'skipped: a hole of a terabyte needs a file system that has one'
fi
rm -f shared.keep

# A file system that has no locks.
if strace -o calls.txt -e trace=flock -e inject=flock:error=ENOLCK true 2>/dev/null; then
    . "$(dirname "$script")/stopped.sh"
else
    echo 'skipped: stopped commands and file systems without locks need strace'
fi

echo "$passed passed, $failed failed"
[ "$failed" -eq 0 ]
