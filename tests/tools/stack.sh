#!/usr/bin/env bash
# Names of bytes on the stack in where.py and check.py, and whom the compiler's routines that save registers work for: a program with frames
# and debugging information of DWARF 4 and 5 that were made by hand; the same changed at random; and where a compiler is there, programs
# that say the addresses of their variables themselves, by flags and versions of DWARF.
# usage: stack.sh [PROGRAM]
set -u
[ $# -eq 0 ] || set -- "$(realpath "$1")"
command -v python3 >/dev/null || { echo "skipped: stack needs python3"; exit 0; }
. "$(dirname "$0")/hand_made.sh"

python3 -B "$tests/stack_image.py" . || exit 1
[ -z "$program" ] || same 'the trace that was made by hand' "$(cat stack.trace)" "$("$program" trace stack.elf --ram 0x80000000:64)"

# RAM has 64 bytes, and 24 instructions have 24 * (992 + 512) = 36096 sites. Sites of 3 cycles of sp and of ra, 2 * 3 * 32, and of 14
# cycles of four bytes, 448, are read by the routines that f calls; g reads four bytes of f that were stored 3 cycles before, 96, and four
# of its own, 32; the last store reads a register of _start, 32. ra is at 28(sp) in the frame of f, and `kept` at 12(sp).
tables='silent: 800 of 36096 sites, 2.22 %

function  sites     share
f           640    1.77 %
g           128   0.355 %
_start       32  0.0887 %

instruction         sites     share
20000054  00c12083    448    1.24 %
20000030  00052583     96   0.266 %
20000048  ff010113     96   0.266 %
2000004c  00112623     96   0.266 %
20000010  0001a423     32  0.0887 %
2000003c  00412603     32  0.0887 %

register  sites     share
x1 ra        96   0.266 %
x2 sp        96   0.266 %
x3 gp        32  0.0887 %
'
by_frames='variable     sites     share
f: stack+28    448    1.24 %
f: stack+12     96   0.266 %
g: stack+4      32  0.0887 %'
named=${by_frames/f: stack+12/f:kept     }
note='no lines: the image has no line table: build it with -g'
asked=(stack.csv --trace stack.trace --ram 0x80000000:64 --disassembler none)
gives 'frames without debugging information' 0 "$tables
$by_frames

$note" '' where stack.elf "${asked[@]}"
for image in info4 info5 lists5 indexed5; do
    gives "a variable by $image.elf" 0 "$tables
$named

$note" '' where $image.elf "${asked[@]}"
done
gives 'an object that is the memory of the stack' 0 "$tables
$by_frames

$note" '' where memory.elf "${asked[@]}"
gives 'the function of an instruction is that of its address' 0 '__riscv_restore_0 f' '' python3 -c 'import json, sys
by = json.load(sys.stdin)["by"]
print(by["instruction"][0]["function"], by["function"][0]["name"])' < <(where stack.elf "${asked[@]}" --format json)
# No trace, no frames: the words have their addresses, and g reads four bytes at 0x8000002c.
gives 'a table without a trace' 0 'variable    sites  share
0x8000003c    448   56 %
0x8000002c     96   12 %
0x80000014     32    4 %' '' sed -n '/^variable/,/^$/p' <(where info5.elf stack.csv)
# A second frame of the same function elsewhere, in the campaign after a change: the names are the same.
gives 'before and after' 0 'f:kept           96     96      +0' '' grep kept <(where info5.elf stack.csv --trace stack.trace --diff info4.elf stack.csv --other-trace stack.trace)
printf '%s\n' 'silent in variable f:kept = 96' 'silent in f = 640' 'silent in __riscv_restore_0 = 448' >stack.budget
budget stack.budget info5.elf,stack.csv --trace stack.trace >out.txt 2>err.txt
same "a budget of a variable on the stack" "status 0, 3 of 3" "status $?, $(grep -c holds out.txt) of 3"

# The frame of g ends at 0x80000010, and 24 words of code are 96 bytes.
same 'the lowest address of the stack, and the code' '0x80000010 96' "$(PYTHONPATH=tools python3 -B -c '
from fail_star_tools.read import call_frames, elf_image, traces
from fail_star_tools.read.campaign_file import Region
image = elf_image.read("stack.elf")
frames = call_frames.CallFrames(traces.trace_in("stack.trace"), image)
print(hex(frames.lowest_in(Region(0x80000000, 64))), image.code_size(Region(0x20000000, 65536)))')"

# Broken debugging information: a later version, an abbreviation that is missing, a unit that goes past its end.
sed 's/\x05\x00\x01\x04\x00\x00\x00\x00\x01/\x06\x00\x01\x04\x00\x00\x00\x00\x01/' info5.elf >six.elf
gives 'debugging information of a later version' 0 \
    'no names of variables on the stack: debugging information of DWARF version 6; this reader knows 2 to 5' '' \
    grep 'on the stack' <(where six.elf "${asked[@]}")
sed 's/\x05\x00\x01\x04\x00\x00\x00\x00\x01/\x05\x00\x01\x04\x00\x00\x00\x00\x63/' info5.elf >missing.elf
gives 'an entry without an abbreviation' 0 \
    'no names of variables on the stack: debugging information with an entry of an abbreviation that is missing' '' \
    grep 'on the stack' <(where missing.elf "${asked[@]}")
# A thousand images in which some bytes of the debugging information are others: each is read or refused, and none takes long.
start=$SECONDS
same 'a thousand broken images' 'yes' "$(timeout 100 python3 -B "$tests/stack_broken.py" tools info4.elf info5.elf lists5.elf indexed5.elf 2>&1 | tail -n 1)"
check 'in less than a minute' "$([ $((SECONDS - start)) -lt 60 ] && echo yes)"

# Programs of a compiler, which say the addresses of their variables. Of 11 bytes no compiler says where they are: the size of the array
# is known only when the program runs.
PATH=$everything
if [ -n "$program" ] && command -v riscv64-unknown-elf-gcc >/dev/null; then
    examples=$top/examples
    for flags in '-O0' '-Og' '-O2' '-Os -msave-restore' '-O1 -gdwarf-4' '-O2 -gdwarf-3' '-O2 -gdwarf-2'; do
        # shellcheck disable=SC2086
        riscv64-unknown-elf-gcc -march=rv32im -mabi=ilp32 -ffreestanding -fno-asynchronous-unwind-tables -g -Wno-main $flags -nostdlib \
            -Wl,-n -Wl,--defsym=ram_size=512 -T "$examples/memory.ld" -o frames.elf "$examples/start.S" "$top/tests/program/inputs/frames.c" -lgcc 2>err.txt &&
            "$program" trace frames.elf --ram 0x80000000:512 >frames.trace
        "$program" plan frames.elf --ram 0x80000000:512 --format csv |
            python3 -B "$tests/stack_cells.py" tools frames.elf frames.trace >cells.txt 2>&1
        same "all bytes are of their functions, by $flags" 1 "$(wc -l <cells.txt)"
        check "most have the names of their variables, by $flags" "$(awk '$1 > 60 && $1 + 11 >= $3 { print "yes" } { exit }' cells.txt)"
    done
    riscv64-unknown-elf-gcc -march=rv32im -mabi=ilp32 -ffreestanding -fno-asynchronous-unwind-tables -g -Wno-main -Os -msave-restore -nostdlib \
        -Wl,-n -Wl,--defsym=ram_size=512 -T "$examples/memory.ld" -o saved.elf "$examples/start.S" "$top/tests/program/inputs/frames.c" -lgcc
    "$program" run saved.elf saved.keep --ram 0x80000000:512 >out.txt
    where saved.elf saved.keep --program "$program" --disassembler none --format json >saved.json
    # What compare.py says of both: gcc's own size of the text, and the lowest address that the trace of sp has by a machine of the tools.
    tool compare saved.elf,saved.keep --program "$program" >compared.txt
    same 'the code and the stack in a table' "$(riscv64-unknown-elf-size -A saved.elf | awk '$1 == ".text" { print $2 }') $(PYTHONPATH=tools python3 -B -c '
from fail_star_tools.read import campaign_file
from fail_star_tools.run import machine
card = campaign_file.read("saved.keep").card
run, lowest = machine.at_start(card), 1 << 32
while not run.ended:
    run.step()
    lowest = min(lowest, run.registers[2] if run.registers[2] > 0x80000000 else lowest)
print(f"{lowest:#010x}")')" "$(awk 'NR == 1 { for (n = 1; n <= NF; n++) at[$n] = n } NR == 2 { print $at["code"], $at["stack"] }' compared.txt)"
    # The sites that the program itself counts for the routines are counted for other functions, and none is lost.
    "$program" symbols saved.elf saved.keep --ram 0x80000000:512 >symbols.txt
    same 'the routines of the compiler have no sites' '0 yes' "$(python3 -c 'import json
found = json.load(open("saved.json"))
rows = [line.split() for line in open("symbols.txt")]
silent = {name: int(counts[1]) for kind, name, *counts in rows if kind == "function"}
ours = {row["name"]: row["sites"] for row in found["by"]["function"]}
routines = sum(count for name, count in silent.items() if name.startswith("__riscv"))
print(sum(name.startswith("__riscv") for name in ours), "yes" if routines > 0 and sum(ours.values()) == sum(silent.values()) == found["chosen"] else (ours, silent))')"
else
    echo "skipped: names on the stack of compiled programs need riscv64-unknown-elf-gcc and a program"
fi

echo "$passed passed, $failed failed"
[ "$failed" -eq 0 ]
