#!/usr/bin/env bash
# A trace is written while it is made: one of a million instructions takes no more memory than one of a thousand.
# usage: memory.sh PROGRAM
set -u
. "$(dirname "$0")/../checks.sh"
program=$(realpath "$1") || exit 2
image=$top/crates/fail_star/data/row1.elf
folder=$(mktemp -d) || exit 2
trap 'rm -rf "$folder"' EXIT
cd "$folder" || exit 2

# put NAME OFFSET TEXT: writes bytes, as printf takes them, into a file.
put() { printf '%b' "$3" | dd of="$1" bs=1 seek="$2" conv=notrunc status=none; }

# with_words NAME WORD..: the stored image with these words in place of its two, and with their number in its header.
with_words() {
    local name=$1 size
    shift
    size=$(printf '\\x%02x' $((4 * $#)))
    cp "$image" "$name"
    put "$name" 68 "$size"
    put "$name" 72 "$size"
    put "$name" 84 "$(printf '%s' "$@")"
}

# peak IMAGE LIMIT: the most memory that a trace held, in KiB. Python's figure is at least that of Python itself.
peak() {
    local words=("$program" trace "$1" --rom 0x20000000:64 --ram 0x80000000:16 --limit "$2")
    if [ -x /usr/bin/time ]; then
        timeout 120 /usr/bin/time -f %M -o peak.txt "${words[@]}" >/dev/null && cat peak.txt
    else
        timeout 120 python3 -c '
import resource, subprocess, sys
subprocess.run(sys.argv[1:], stdout=subprocess.DEVNULL, check=True)
print(resource.getrusage(resource.RUSAGE_CHILDREN).ru_maxrss)' "${words[@]}"
    fi
}

# grows NAME IMAGE LIMIT: the peak of that trace against that of a thousand instructions.
grows() {
    local few many
    few=$(peak "$2" 1000)
    many=$(peak "$2" "$3")
    echo "$1: $few KiB for 1000 instructions, $many KiB for $3"
    if [[ $few =~ ^[0-9]+$ && $many =~ ^[0-9]+$ ]] && [ $((many - few)) -le 4096 ]; then
        check "$1" yes
    else
        check "$1" "$few KiB, then $many KiB"
    fi
}

[ -x /usr/bin/time ] || command -v python3 >/dev/null || { echo "skipped: memory needs time or python3"; exit 0; }

# Both have no end. The first is `jal x0,0`; the second sends a byte in every second instruction.
with_words silent.elf '\x6f\x00\x00\x00'
# lui x1,0xF0000; sb x0,0(x1); jal x0,-4
with_words sends.elf '\xb7\x00\x00\xf0' '\x23\x80\x00\x00' '\x6f\xf0\xdf\xff'
grows 'a loop' silent.elf 1000000
grows 'a loop that sends five million bytes' sends.elf 10000000

timeout 120 "$program" trace silent.elf --limit 1000000 >trace.txt
check 'the number of its lines' "$([ "$(wc -l <trace.txt)" -eq 1000002 ] && echo yes)"
check 'its last lines' "$(tail -n 3 trace.txt | cmp -s - <(printf '999999 20000000 0000006f\noutput -\nend limit\n') && echo yes)"

echo "$passed passed, $failed failed"
[ "$failed" -eq 0 ]
