# Sourced by together.sh, in its folder: commands that strace stops amid their reads, and file systems without locks.

here=$(pwd -P)
unlocked=(-e inject=flock:error=ENOLCK)

# shortly COMMAND..: a command that has a minute, under strace with the words of the array `traced`.
shortly() { timeout 60 strace -f -o calls.txt -e trace=flock,read,pread64 "${traced[@]}" "$@"; }

# stopped FILE READ FOLLOWS COMMAND..: runs a command that is stopped at this read of the file, lets another command go ahead, and continues it.
stopped() {
    local file=$1 read=$2 follows=$3 tracer pid=
    shift 3
    strace -f -o calls.txt -P "$here/$file" -e trace=flock,read,pread64 "${traced[@]}" \
        -e inject=read,pread64:signal=STOP:when="$read" timeout --foreground 60 "$@" >out.1 2>err.1 &
    tracer=$!
    for ((i = 0; i < 200; i++)); do
        kill -0 $tracer 2>/dev/null || break
        grep -q 'stopped by SIGSTOP' calls.txt 2>/dev/null && pid=$(sed -n 's/^\([0-9]*\) .*stopped by SIGSTOP.*/\1/p' calls.txt | head -1) && break
        sleep 0.005
    done
    $follows >out.2 2>err.2 &
    local second=$!
    # Time for the other command, which may wait for a lock that the stopped one has.
    for ((i = 0; i < 20; i++)); do
        kill -0 $second 2>/dev/null || break
        sleep 0.005
    done
    [ -z "$pid" ] || { kill -CONT "$pid"; between=$((between + 1)); }
    wait $tracer
    status_1=$?
    wait $second
    status_2=$?
}

# OTHER is begun anew, with another limit, while a merge reads it.
case=(--ram 0x80000000:64)
"$program" run "$examples/pin.elf" whole.keep --fresh "${case[@]}" --limit 6000 >whole.pin
begin_anew() { timeout 60 "$program" run "$examples/pin.elf" other.keep --fresh "${case[@]}" --limit 25; }
# merge_pair NAME WORD..: rounds of a merge that is stopped, with these words for strace.
merge_pair() {
    local name=$1 wrong='' round right=0
    traced=("${@:2}")
    between=0
    for ((round = 0; round < 10 * rounds && ${#wrong} == 0; round++)); do
        cp whole.keep other.keep
        rm -f merged.keep calls.txt
        stopped other.keep $((RANDOM % 14 + 1)) begin_anew "$program" merge "$examples/pin.elf" merged.keep other.keep "${case[@]}" --limit 6000
        case $status_1 in
            0) cmp -s out.1 whole.pin && right=$((right + 1)) || wrong+=' other counts of the merge;' ;;
            10) [[ $(cat err.1) == 'other campaign file refused: '* ]] || wrong+=" $(cat err.1);" ;;
            11) [ "$(cat err.1)" = 'other campaign file could not be read' ] || wrong+=" $(cat err.1);" ;;
            *) wrong+=" status $status_1 of the merge: $(cat err.1);" ;;
        esac
        [ $status_2 -eq 0 ] || [ $status_2 -eq 5 ] || wrong+=" status $status_2 of the run: $(cat err.2);"
        [ ! -e merged.keep ] || [[ $("$program" audit "$examples/pin.elf" merged.keep "${case[@]}" --limit 6000) == 'kept '*' wrong 0' ]] || wrong+=' wrong rows;'
    done
    echo "$name: $round rounds, $between stopped amid the reads, $right merged"
    check "$name" "$([ -z "$wrong" ] && echo yes || echo "round $round: $wrong")"
    check "$name, some stopped" "$([ "$between" -gt 0 ] && echo yes)"
}
merge_pair 'OTHER begun anew while it is merged' -e inject=flock:delay_exit=0
merge_pair 'OTHER begun anew where there are no locks' "${unlocked[@]}"

# A pipe has no second look, and gives its bytes as they come.
mkfifo other.pipe
rm -f merged.keep
cat whole.keep >other.pipe &
timeout 60 "$program" merge "$examples/pin.elf" merged.keep other.pipe "${case[@]}" --limit 6000 >out.1 2>err.1
check 'OTHER is a pipe' "$([ $? -eq 0 ] && cmp -s out.1 whole.pin && echo yes || cat err.1)"
wait
timeout 60 "$program" merge "$examples/pin.elf" merged.keep merged.keep "${case[@]}" --limit 6000 >out.1 2>err.1
check 'OTHER is the campaign file itself' "$([ $? -eq 0 ] && cmp -s out.1 whole.pin && echo yes || cat err.1)"

# No locks: a report beside a run of another image whose code begins alike, and runs that are seen at the next page.
traced=("${unlocked[@]}")
rm -f shared.keep
shortly "$program" run checksum.elf shared.keep "${regions[@]}" --limit 60000 >out.1 2>err.1
check 'no locks, a run' "$([ $? -eq 0 ] && cmp -s out.1 "$(whole checksum 60000)" && echo yes || cat err.1)"
shortly "$program" report checksum.elf shared.keep "${regions[@]}" --limit 60000 >out.1 2>err.1
check 'no locks, a report' "$([ $? -eq 0 ] && cmp -s out.1 "$(whole checksum 60000)" && echo yes || cat err.1)"

# The two images have the same jobs, and differ in a late word of their code alone, as variants do.
variant_anew() { timeout 60 "$program" run "$examples/pin_open.elf" shared.keep --fresh "${case[@]}" --limit 6000; }
wrong=''
between=0
for ((round = 0; round < 3 * rounds && ${#wrong} == 0; round++)); do
    cp whole.keep shared.keep
    rm -f calls.txt
    stopped shared.keep $((RANDOM % 14 + 1)) variant_anew "$program" report "$examples/pin.elf" shared.keep "${case[@]}" --limit 6000
    case $status_1 in
        0) cmp -s out.1 whole.pin || wrong+=' other counts;' ;;
        5) [ "$(cat err.1)" = "$busy" ] || wrong+=" $(cat err.1);" ;;
        6) [[ $(cat err.1) == 'campaign file refused: 6 OtherCase at '* ]] || wrong+=" $(cat err.1);" ;;
        *) wrong+=" status $status_1: $(cat err.1);" ;;
    esac
done
echo "no locks, a report beside another image: $round rounds, $between stopped amid the reads"
check 'no locks, a report beside another image' "$([ -z "$wrong" ] && echo yes || echo "round $round: $wrong")"

# overtakes WORD..: a run without locks that is stopped, and another run of its file with these words meanwhile.
overtakes() {
    held strace -f -o calls.txt -e trace=flock "${unlocked[@]}"
    timeout 60 "$program" run checksum.elf shared.keep "${regions[@]}" "$@" >out.2 2>err.2
    echo $? >status.2
    goes_on
}
overtakes --limit 60000 --fresh
check 'no locks, a run whose file is begun anew' "$(answers 1 checksum 90000 5 && echo yes)"
check 'no locks, the run that began it' "$(answers 2 checksum 60000 0 && echo yes)"
overtakes --limit 90000 --fresh
check 'no locks, a run whose file is begun anew by the same' "$(answers 1 checksum 90000 5 && echo yes)"
check 'no locks, the same that began it' "$(answers 2 checksum 90000 0 && echo yes)"
overtakes --limit 90000
check 'no locks, a run whose file another run ends' "$(answers 1 checksum 90000 5 && echo yes)"
check 'no locks, the run that ends it' "$(answers 2 checksum 90000 0 && echo yes)"
check 'no locks, the file at the end' "$(ends checksum 90000 && echo yes)"
