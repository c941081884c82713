#!/usr/bin/env bash
# Real campaign files: the order of writes and syncs, a disk that is full, names of what is no file, files that may only be read,
# streams that are closed.
# usage: full_disk.sh PROGRAM
set -u
. "$(dirname "$0")/../checks.sh"
folder=$(mktemp -d) || exit 2
trap 'rm -rf "$folder"' EXIT
# Other users may read what lies here.
chmod 755 "$folder" || exit 2
cp "$1" "$folder/fail_star" && chmod 755 "$folder/fail_star" || exit 2
cp "$top/examples/built/checksum.elf" "$top/crates/fail_star/data/"row1.* "$folder" || exit 2
cp "$top/crates/fail_star/stdout" "$folder/row1.txt" || exit 2
cd "$folder" || exit 2
program=$folder/fail_star
image=checksum.elf

failed_file='campaign file could not be read or written'
unwritten='output could not be written'
# The head of a file has 14 bytes, the 25 of the card's numbers, and both regions: with these 615.
options=(--rom 0x20000000:512 --ram 0x80000000:64 --limit 2000)
paged=("${options[@]}" --page 100)

# expect NAME STATUS OUT ERR WORD..: runs a command and compares its status and all that it wrote, byte by byte.
expect() {
    local name=$1 status=$2 out=$3 err=$4 got=0
    shift 4
    timeout 60 "$@" >out.txt 2>err.txt || got=$?
    printf '%s' "$out${out:+$'\n'}" | cmp -s - out.txt || got="$got, other standard output"
    printf '%s' "$err${err:+$'\n'}" | cmp -s - err.txt || got="$got, other standard error"
    [ "$got" = "$status" ] && got=yes
    check "$name" "$got"
}

# holds NAME COMMAND..: a check that passes where the command does.
holds() { check "$1" "$("${@:2}" && echo yes || echo no)"; }

# traces FILE: what a write to a file changes.
traces() { stat -c '%i %s %y %z' "$1" && cksum <"$1"; }

run() { timeout 60 "$program" run "$image" "$@" "${paged[@]}"; }

run whole.keep >whole.txt 2>err.txt
check 'an undisturbed run' "$([ $? -eq 0 ] && [ ! -s err.txt ] && [ "$(wc -l <whole.txt)" -eq 9 ] && echo yes)"
report=$(cat whole.txt)
run half.keep --stop-after 200 >out.txt 2>err.txt
check 'a stopped run' "$([ $? -eq 7 ] && [ ! -s out.txt ] && echo yes)"
stopped=$(cat err.txt)
jobs=$(sed -n 's/^stopped: 200 of \([0-9]*\) jobs kept$/\1/p' err.txt)
check 'its line' "$([ -n "$jobs" ] && echo yes || echo "$stopped")"

# The stored file was made by hand from the format, for the stored image of two instructions.
two=(--rom 0x20000000:64 --ram 0x80000000:16 --limit 100)
touch -d '2001-02-03 04:05:06' row1.keep
before=$(traces row1.keep)
expect 'a run on the stored file' 0 "$(cat row1.txt)" '' "$program" run row1.elf row1.keep "${two[@]}"
expect 'a report of the stored file' 0 "$(cat row1.txt)" '' "$program" report row1.elf row1.keep "${two[@]}"
check 'the stored file, untouched' "$([ "$(traces row1.keep)" = "$before" ] && echo yes)"
expect 'the stored file, made again' 0 "$(cat row1.txt)" '' "$program" run row1.elf made.keep "${two[@]}"
holds 'the stored file, made again, its bytes' cmp -s made.keep row1.keep

# The calls to the system, each with the bytes that it writes and their place. The head has 118 bytes and the gate behind it; a page
# of k rows is written behind its gate, with a count before it and the next gate behind it. Each write is synced before the next.
if strace -o calls.txt true 2>/dev/null; then
    expect 'a traced run' 0 "$(cat row1.txt)" '' strace -e trace=pwrite64,fdatasync,fsync,ftruncate -o calls.txt \
        "$program" run row1.elf traced.keep "${two[@]}" --page 20
    calls=$(sed -En 's/^pwrite64\(.*, ([0-9]+), ([0-9]+)\) += .*$/\1 at \2/p; s/^(f[a-z]+)\([0-9, ]*\) += 0$/\1/p' calls.txt | tr '\n' ';')
    wanted='fdatasync;fsync;1 at 0;fdatasync;118 at 1;fdatasync;1 at 0;fdatasync;203 at 119;fdatasync;1 at 118;fdatasync;'
    wanted+='123 at 322;fdatasync;1 at 321;fdatasync;'
    check 'its writes and syncs' "$([ "$calls" = "$wanted" ] && echo yes || echo "$calls")"
else
    echo 'skipped: the order of writes and syncs needs strace'
fi

# goes_on NAME KEEP OPTION..: a run with the options ends what another left, in the file that an undisturbed run leaves.
goes_on() {
    expect "$1, ended" 0 "$report" '' "$program" run "$image" "$2" "${paged[@]}" "${@:3}"
    holds "$1, its file" cmp -s "$2" whole.keep
}

# Files that must not grow: the most KiB that a file of the command may have comes after these words, and then the command.
# The error output is a file too, whose length the system limits by a signal; this shell has it ignored.
ignoring=(bash -c "trap '' XFSZ; ulimit -f \"\$1\" && exec \"\${@:2}\"" -)
expect 'no room at all' 5 '' '' "${ignoring[@]}" 0 "$program" run "$image" none.keep "${paged[@]}"
goes_on 'no room at all' none.keep
# Of the campaign file the program asks for the limit before it writes, so that no signal comes.
limited=(bash -c 'ulimit -f "$1" && exec "${@:2}"' -)
expect 'room for the head' 5 '' "$failed_file" "${limited[@]}" 1 "$program" run "$image" head.keep "${paged[@]}"
expect 'room for the head, what it keeps' 7 '' "stopped: 0 of $jobs jobs kept" "$program" report "$image" head.keep "${options[@]}"
goes_on 'room for the head' head.keep
expect 'room for three pages' 5 '' "$failed_file" "${limited[@]}" 4 "$program" run "$image" three.keep "${paged[@]}"
expect 'room for three pages, what it keeps' 7 '' "stopped: 300 of $jobs jobs kept" "$program" report "$image" three.keep "${options[@]}"
goes_on 'room for three pages' three.keep
expect 'room for three pages, a merge' 5 '' "$failed_file" "${limited[@]}" 4 "$program" merge "$image" merged.keep whole.keep "${paged[@]}"
expect 'room for three pages, what the merge keeps' 7 '' "stopped: 300 of $jobs jobs kept" "$program" report "$image" merged.keep "${options[@]}"
goes_on 'room for three pages, the merge' merged.keep
# A card longer than the room: the file is cut off while it is begun, which --fresh alone takes up.
long=(--rom 0x20000000:4096 "${options[@]:2}")
expect 'room for half a head' 5 '' "$failed_file" "${limited[@]}" 1 "$program" run "$image" cut.keep "${long[@]}"
expect 'room for half a head, again' 6 '' 'campaign file refused: 1 NotACampaign' "$program" run "$image" cut.keep "${long[@]}"
"$program" run "$image" long.keep "${long[@]}" >long.txt 2>err.txt
expect 'room for half a head, begun anew' 0 "$(cat long.txt)" '' "$program" run "$image" cut.keep "${long[@]}" --fresh
holds 'room for half a head, begun anew, its file' cmp -s cut.keep long.keep

# A disk that is full.
apart=(unshare --mount)
[ "$(id -u)" -ne 0 ] && apart=(unshare --user --map-root-user --mount)
mkdir small
if "${apart[@]}" mount -t tmpfs -o size=64k none small 2>/dev/null; then
    # Behind these words stand the name of a file that is taken from the small disk at the end, and a command.
    on_small=("${apart[@]}" bash -c 'mount -t tmpfs -o size=64k none small; "${@:2}"; status=$?; cp "small/$1" .; exit $status' -)
    expect 'a full disk' 5 '' "$failed_file" "${on_small[@]}" full.keep "$program" run "$image" small/full.keep "${paged[@]}"
    "$program" report "$image" full.keep "${options[@]}" >out.txt 2>err.txt
    check 'a full disk, what it keeps' "$([ $? -eq 7 ] && grep -Eq "^stopped: [1-9][0-9]{3} of $jobs jobs kept$" err.txt && echo yes || cat err.txt)"
    goes_on 'a full disk' full.keep
else
    echo 'skipped: a full disk needs unshare and mount'
fi

# Names of what is no file. Nothing waits, and nothing is made.
mkdir folder.keep
mkfifo pipe.keep
ln -s link.keep link.keep
: >plain
for name in folder.keep . pipe.keep link.keep missing/some.keep plain/some.keep '' /dev/null /dev/full; do
    for command in run report; do
        [ $command = run ] && words=("${paged[@]}") || words=("${options[@]}")
        expect "$command, the name '$name'" 5 '' "$failed_file" "$program" $command "$image" "$name" "${words[@]}"
    done
done
ln -s missing/some.keep lost.keep
for command in run report audit symbols; do
    [ $command = run ] && words=("${paged[@]}") || words=("${options[@]}")
    expect "$command, a link into a folder that is missing" 5 '' "$failed_file" "$program" $command "$image" lost.keep "${words[@]}"
done
holds 'no folder is made' test ! -e missing
expect 'a report without a file' 7 '' "stopped: 0 of $jobs jobs kept" "$program" report "$image" unmade.keep "${options[@]}"
expect 'a run with a bad image' 2 '' 'image could not be read' "$program" run missing.elf unmade.keep "${paged[@]}"
expect 'a run with a bad word' 1 '' "$("$program" 2>&1)" "$program" run "$image" unmade.keep "${paged[@]}" --limit
holds 'no file is made' test ! -e unmade.keep
ln -s target.keep dangling.keep
expect 'a link to a file that is missing' 0 "$report" '' "$program" run "$image" dangling.keep "${paged[@]}"
holds 'a link to a file that is missing, its file' cmp -s target.keep whole.keep
expect 'the image as the campaign file' 6 '' 'campaign file refused: 1 NotACampaign' "$program" run "$image" "$image" "${paged[@]}"

# Files that may only be read.
# expect_readable NAME FOLDER WORD..: commands on the files of a folder, behind the words.
expect_readable() {
    local before
    before=$(traces "$2/whole.keep")
    expect "$1, a report" 0 "$report" '' "${@:3}" "$program" report "$image" "$2/whole.keep" "${options[@]}"
    expect "$1, a run" 0 "$report" '' "${@:3}" "$program" run "$image" "$2/whole.keep" "${paged[@]}"
    expect "$1, a report of a half" 7 '' "$stopped" "${@:3}" "$program" report "$image" "$2/half.keep" "${options[@]}"
    expect "$1, a run from a half" 5 '' "$failed_file" "${@:3}" "$program" run "$image" "$2/half.keep" "${paged[@]}"
    check "$1, untouched" "$([ "$(traces "$2/whole.keep")" = "$before" ] && cmp -s "$2/half.keep" half.keep && echo yes)"
}
mkdir read closed
cp whole.keep half.keep read
cp whole.keep locked.keep
chmod 444 read/*
chmod 000 locked.keep
chmod 555 closed
# Permissions say nothing to root, who takes another user's place.
user=(env)
[ "$(id -u)" -eq 0 ] && user=(setpriv --reuid 65534 --regid 65534 --clear-groups)
if "${user[@]}" test -x "$program" -a -r "$image" -a ! -r locked.keep 2>/dev/null; then
    expect_readable 'a file without leave to write' read "${user[@]}"
    for command in run report; do
        expect "a file without leave to read, $command" 5 '' "$failed_file" "${user[@]}" "$program" $command "$image" locked.keep "${options[@]}"
    done
    expect 'a folder without leave to write' 5 '' "$failed_file" "${user[@]}" "$program" run "$image" closed/some.keep "${paged[@]}"
else
    echo 'skipped: permissions need a user other than root, or setpriv'
fi
if "${apart[@]}" mount --bind -o ro read read 2>/dev/null; then
    read_only=("${apart[@]}" bash -c 'mount --bind read read && mount -o remount,bind,ro read && exec "$@"' -)
    expect_readable 'a disk that may only be read' read "${read_only[@]}"
else
    echo 'skipped: a disk that may only be read needs unshare and mount'
fi

# Closed streams. A file that is opened may take the number of such a stream: no text may go into it.
# closed NAME WANTED STATUS KEEP..: after a command without some of its streams, its status and the files.
closed() {
    check "$1" "$([ "$3" -eq "$2" ] && echo yes || echo "$3")"
    holds "$1, its file" cmp -s "$4" "$5"
}
run a.keep >&- 2>err.txt
closed 'no standard output' 8 $? a.keep whole.keep
check 'no standard output, its line' "$([ "$(cat err.txt)" = "$unwritten" ] && echo yes)"
run b.keep <&- >&- 2>&-
closed 'no stream' 8 $? b.keep whole.keep
run b.keep <&- >&- 2>&-
closed 'no stream, on a complete file' 8 $? b.keep whole.keep
run c.keep >out.txt 2>&-
closed 'no standard error' 0 $? c.keep whole.keep
run d.keep --stop-after 200 >out.txt 2>&-
closed 'no standard error, stopped' 7 $? d.keep half.keep
run e.keep --stop-after 200 <&- >out.txt 2>&-
closed 'no standard input and error, stopped' 7 $? e.keep half.keep
run e.keep --stop-after 0 <&- >out.txt 2>&-
closed 'no standard input and error, nothing done' 7 $? e.keep half.keep
run e.keep >&- 2>&-
closed 'no standard output and error, taken up' 8 $? e.keep whole.keep
timeout 60 "$program" report "$image" d.keep "${options[@]}" >&- 2>&-
closed 'no standard output and error, a report' 7 $? d.keep half.keep

echo "$passed passed, $failed failed"
[ "$failed" -eq 0 ]
