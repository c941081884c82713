#!/usr/bin/env bash
# What all tools have in common: outputs that are full, closed or not read; each option with the words that parsers
# confuse; pipes in the place of files, for which no tool waits; links; control bytes; and what --version and --help
# say. `manners.py` makes the calls.
# usage: manners.sh [PROGRAM [REPLAY]]
set -u
. "$(dirname "$0")/../checks.sh"
command -v python3 >/dev/null || { echo "skipped: tools needs python3"; exit 0; }
[ $# -gt 1 ] || { echo "skipped: manners needs fail_star and fail_replay"; exit 0; }
program=$(realpath "$1") && replay=$(realpath "$2") || exit 2
folder=$(mktemp -d) || exit 2
trap 'rm -rf "$folder"' EXIT
cd "$folder" || exit 2

# A campaign, and everything that a tool reads.
cp "$top/examples/built/pin.elf" . && "$program" run pin.elf pin.keep --ram 0x80000000:64 >report.txt || exit 2
"$program" report pin.elf pin.keep --ram 0x80000000:64 --format csv >pin.csv || exit 2
"$program" trace pin.elf --ram 0x80000000:64 >trace.txt || exit 2
"$program" sample pin.elf --ram 0x80000000:64 --count 10 >sample.txt || exit 2
echo 'silent >= 0' >some.budget && echo 'other: output != golden' >some.classes && mkfifo pipe || exit 2

# Each row is the name of a check, and yes or what was found.
calls() { timeout 850 python3 -B "$tests/manners.py" "$top" "$program" "$replay" || printf 'all calls\tstatus %d\n' $?; }
while IFS=$'\t' read -r name got; do check "$name" "$got"; done < <(calls)
check 'all calls were made' "$([ "$passed" -gt 300 ] && echo yes)"

# Links: the one that the user named is followed, and no other.
map() { timeout 60 python3 -B "$top/tools/fault_map.py" pin.csv "$@"; }
echo before >target.svg && ln -s target.svg link.svg && map -o link.svg
check 'a link that the user named is still there' "$([ -L link.svg ] && echo yes)"
check 'what it points to has the picture' "$(map | cmp -s - target.svg && echo yes)"
map -o /dev/stdout >out.svg
check 'a device is written to' "$(cmp -s out.svg target.svg && echo yes)"
sweep() {
    timeout 60 python3 -B "$top/tools/sweep.py" --variant pin --build 'cp pin.elf "$IMAGE"' --program "$program" \
        --into some -- --ram 0x80000000:64
}
sweep >first.txt && echo mine >victim && cp victim victim.copy && log=$(echo some/pin-*.log) || exit 2
rm "$log" && ln -s "$folder/victim" "$log"
sweep >again.txt
same 'a sweep whose log is a link' "status 0, $(cat first.txt)" "status $?, $(cat again.txt)"
check 'what the link points to is as it was' "$(cmp -s victim victim.copy && [ ! -L "$log" ] && echo yes)"
rm some/lock && ln -s "$folder/missing" some/lock
gives 'a lock that is a link' 2 '' "sweep.py: $folder/some: Too many levels of symbolic links" sweep
check 'no file is made there' "$([ ! -e missing ] && echo yes)"
rm some/lock && mkfifo some/lock
gives 'a lock that is a pipe' 2 '' "sweep.py: $folder/some: Not a regular file" sweep

echo "$passed passed, $failed failed"
[ "$failed" -eq 0 ]
