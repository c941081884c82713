#!/usr/bin/env bash
# How many machine instructions a whole `run` takes with several workers, relative to one worker: the more of what other workers
# learned a worker knows, the fewer runs it takes to their ends. Counted exactly by callgrind, whatever else the machine does.
#   crc     a CRC-32 of 10,000 instructions (curve.py)
#   qsort   a quicksort of about as many
#   sha1, aes, dot   the C programs of the folder meeting, built by Debian's gcc-riscv64-unknown-elf
# usage: [NAMES="crc aes .."] meeting.sh PROGRAM [PROGRAM ..]    each program is a build; some twenty minutes for each
set -u
here=$(cd "$(dirname "$0")" && pwd)
folder=$(mktemp -d) || exit 2
trap 'rm -rf "$folder"' EXIT
for tool in valgrind python3 riscv64-unknown-elf-gcc; do
    command -v $tool >/dev/null || { echo "meeting needs $tool" >&2; exit 2; }
done
# The RAM of each program: the quicksort has its stack at the end of 64 KiB.
ram_of() { [ "$1" = qsort ] && echo 0x80000000:65536 || echo 0x80000000:4096; }
python3 -B - "$here" "$folder" <<'END' || exit 2
import sys
from pathlib import Path
sys.path[:0] = [sys.argv[1]]
import curve
Path(sys.argv[2], "crc.elf").write_bytes(curve.crc(10000))
Path(sys.argv[2], "qsort.elf").write_bytes(curve.sort(10000))
END
for name in sha1 aes dot; do
    (cd "$here/../examples" && riscv64-unknown-elf-gcc -march=rv32im -mabi=ilp32 -ffreestanding -O2 -w -I. -nostdlib -Wl,-n \
        -Wl,-z,noexecstack -Wl,--defsym=ram_size=4096 -T memory.ld -o "$folder/$name.elf" start.S "$here/meeting/$name.c") || exit 2
done

# counted PROGRAM NAME LIMIT WORKERS: the machine instructions of one `run`.
counted() {
    valgrind --tool=callgrind --callgrind-out-file=/dev/null "$1" run "$folder/$2.elf" "$folder/keep" --fresh \
        --rom 0x20000000:65536 --ram "$(ram_of "$2")" --limit "$3" --workers "$4" 2>&1 >/dev/null | sed -n 's/.*Collected : //p'
}

printf '%-8s %12s %16s %10s %10s\n' program instructions 'one worker' '4 workers' '16 workers'
for program in "$@"; do
    echo "$program"
    for name in ${NAMES:-crc qsort sha1 aes dot}; do
        length=$("$program" plan "$folder/$name.elf" --rom 0x20000000:65536 --ram "$(ram_of $name)" | sed -n 's/^instructions //p')
        counts=()
        for workers in 1 4 16; do counts+=("$(counted "$program" $name $((2 * length)) $workers)"); done
        awk -v name="$name" -v length_of="$length" -v one="${counts[0]}" -v four="${counts[1]}" -v many="${counts[2]}" \
            'BEGIN { printf "%-8s %12d %16.0f %10.3f %10.3f\n", name, length_of, one, four / one, many / one }'
    done
done
