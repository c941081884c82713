#!/usr/bin/env bash
# `symbols` on images as real compilers and linkers make them: those of examples/built, and inputs/named.c and named.S by gcc and clang,
# linked by GNU ld and lld, whole and stripped. What it writes is that of the second reading, its names are readelf's, and its lines
# add up to the report.
# usage: real_symbols.sh PROGRAM
set -u
. "$(dirname "$0")/../checks.sh"
program=$(realpath "$1") || exit 2
command -v python3 >/dev/null || { echo "skipped: real_symbols needs python3"; exit 0; }
examples=$top/examples
# Where the system has a disk in memory nothing waits for what is written.
memory=/dev/shm
[ -w $memory ] || memory=${TMPDIR:-/tmp}
folder=$(mktemp -d -p "$memory") || exit 2
trap 'rm -rf "$folder"' EXIT
cd "$folder" || exit 2
command -v readelf >/dev/null || echo "skipped: names are compared with readelf's"

# sums WORD: the seven sums of the lines that begin with the word, as the report has them.
sums() {
    awk -v word="$1" '$1 == word { for (at = 0; at < 7; at++) sum[at] += $(NF - 6 + at) }
        END { split("no-effect silent detected illegal address misaligned timeout", names, " ")
              for (at = 0; at < 7; at++) print names[at + 1], sum[at] + 0 }' lines.txt
}

# tried NAME IMAGE RAM OPTION..: the campaign of an image, and its symbols.
tried() {
    local name=$1 image=$2 ram=$3 pc=
    local options=(--ram "$ram" --limit 6000 "${@:4}")
    local places=("${options[@]}")
    [[ " $* " == *' --pc '* ]] && pc=pc && places=("${options[@]/--pc/--}")
    timeout 300 "$program" run "$image" "$name.keep" "${options[@]}" >report.txt 2>&1
    same "$name, its campaign" 0 $?
    timeout 60 "$program" trace "$image" "${places[@]}" >trace.txt
    timeout 60 "$program" report "$image" "$name.keep" "${options[@]}" --format csv >jobs.csv
    timeout 60 "$program" symbols "$image" "$name.keep" "${options[@]}" >lines.txt 2>&1
    same "$name, its symbols" 0 $?
    check "$name, by the second reading" "$(python3 -B "$top/tests/definitions/symbol_reader.py" "$image" trace.txt jobs.csv "$ram" $pc 2>&1 | cmp - lines.txt && echo yes)"
    same "$name, the report behind them" "$(cat report.txt)" "$(tail -n 9 lines.txt)"
    same "$name, the sums of its functions" "$(tail -n 7 report.txt)" "$(sums function)"
    same "$name, the sums of its objects" "$(tail -n 7 report.txt)" "$(sums object)"
    if command -v readelf >/dev/null; then
        # Of readelf's columns: the size, the type, the section and the name, which may hold spaces.
        readelf -sW "$image" | sed -nE 's/^ *[0-9]+: [0-9a-f]+ +(0x[0-9a-f]+|[0-9]+) (FUNC|OBJECT) +[A-Z]+ +[A-Z]+ +([A-Z0-9]+) (.*)$/\1 \2 \3 \4/p' |
            awk '$1 != "0" && $3 != "UND" { kind = $2 == "FUNC" ? "function" : "object"; sub(/^[^ ]+ [^ ]+ [^ ]+ /, ""); gsub(/ /, "?"); print kind, $0 }' |
            LC_ALL=C sort -s -k1,1 >names.txt
        same "$name, the names" "$(cat names.txt)" "$(head -n -9 lines.txt | grep -v '(' | cut -d ' ' -f 1,2)"
    fi
}

# counted PATTERN: whether a line of these symbols has a site that a job stands for.
counted() { check "$1 is counted" "$(grep -E "^$1 " lines.txt | grep -qvE ' [0-9]+ 0 0 0 0 0 0$' && echo yes)"; }

for file in "$examples"/built/*.elf; do
    name=$(basename "$file" .elf)
    check "$name keeps its symbols" "$(python3 -B -c 'import sys, symbol_reader
names = [symbol.name for symbol in symbol_reader.symbols(open(sys.argv[1], "rb").read())]
print("yes" if "main" in names else names)' "$file")"
    case $name in
    control_twice | loader*) continue ;; # they have millions of jobs
    checksum_ram) tried "$name" "$file" 0x80000000:128 --ram-code ;;
    pin*) tried "$name" "$file" 0x80000000:64 --pc ;;
    siphash*) tried "$name" "$file" 0x80000000:256 ;;
    *) tried "$name" "$file" 0x80000000:64 ;;
    esac
done

# built COMPILER: the objects of the program, or a line on why there are none.
flags=(-march=rv32im -mabi=ilp32 -O1 -g -ffreestanding)
built() {
    local compiler=$1
    shift
    "$@" "${flags[@]}" -c "$examples/start.S" -o "$compiler.start.o" &&
        "$@" "${flags[@]}" -c "$tests/inputs/named.S" -o "$compiler.odd.o" &&
        "$@" "${flags[@]}" -c "$tests/inputs/named.c" -o "$compiler.named.o"
}
# linked NAME COMPILER LINKER..: the same, by a linker, and its symbols, then without any.
linked() {
    local name=$1 objects=("$2.start.o" "$2.odd.o" "$2.named.o") strip
    shift 2
    if "$@" --defsym=ram_size=64 -T "$examples/memory.ld" "${objects[@]}" -o "$name.elf" >log.txt 2>&1; then
        tried "$name" "$name.elf" 0x80000000:64
        for symbol in 'function mixed' 'function within' 'function half' 'function replaced' 'function local' 'function main' 'object bytes' 'object shared'; do
            counted "$symbol"
        done
        check "$name, a replaced function is one" "$([ "$(grep -c '^function replaced ' lines.txt)" -eq 1 ] && echo yes)"
        LC_ALL=C sort lines.txt >whole.txt
        "$@" --strip-all --defsym=ram_size=64 -T "$examples/memory.ld" "${objects[@]}" -o "$name.bare.elf" >log.txt 2>&1
        tried "$name.bare" "$name.bare.elf" 0x80000000:64
        same "$name, no names" 4 "$(grep -c '(' lines.txt)"
        same "$name, no names, the lines" 13 "$(wc -l <lines.txt)"
        for strip in riscv64-unknown-elf-strip llvm-strip; do
            command -v "$strip" >/dev/null || continue
            # Debugging sections alone, then all symbols.
            "$strip" --strip-debug -o some.elf "$name.elf" && "$strip" -o none.elf "$name.elf"
            timeout 60 "$program" symbols some.elf "$name.keep" --ram 0x80000000:64 --limit 6000 >some.txt 2>&1
            # It may write the symbols in another order.
            same "$name, its names after $strip --strip-debug" "$(cat whole.txt)" "$(LC_ALL=C sort some.txt)"
            timeout 60 "$program" symbols none.elf "$name.keep" --ram 0x80000000:64 --limit 6000 >none.txt 2>&1
            same "$name, no names after $strip" "$(cat lines.txt)" "$(cat none.txt)"
        done
    else
        check "$name is linked" "$(cat log.txt)"
    fi
}

gnu=(riscv64-unknown-elf-ld -m elf32lriscv -n -z noexecstack)
lld=(ld.lld -n)
if command -v riscv64-unknown-elf-gcc >/dev/null && built gcc riscv64-unknown-elf-gcc; then
    linked gcc-ld gcc "${gnu[@]}"
    if command -v ld.lld >/dev/null; then linked gcc-lld gcc "${lld[@]}"; else echo "skipped: what lld links"; fi
else
    echo "skipped: what gcc compiles needs riscv64-unknown-elf-gcc"
fi
if command -v clang >/dev/null && clang --print-targets 2>/dev/null | grep -q riscv32 && built clang clang --target=riscv32-unknown-elf; then
    if command -v ld.lld >/dev/null; then linked clang-lld clang "${lld[@]}"; else echo "skipped: what lld links"; fi
    if command -v riscv64-unknown-elf-ld >/dev/null; then linked clang-ld clang "${gnu[@]}"; else echo "skipped: what GNU ld links of clang's"; fi
else
    echo "skipped: what clang compiles needs clang with riscv32"
fi

echo "$passed passed, $failed failed"
[ "$failed" -eq 0 ]
