#!/usr/bin/env bash
# A real gdb-multiarch with fail_debug over a pipe, on the PIN examples: source lines, steps, variables, breakpoints and
# watchpoints, forwards and backwards to the flip, the monitor commands, and each way a run ends. What is expected is from
# the campaign's table, the trace, fail_replay's text in the guide, and the sources.
# usage: debug.sh PROGRAM [DEBUG]
set -u
. "$(dirname "$0")/../checks.sh"
program=$(realpath "$1") || exit 2
[ $# -gt 1 ] && [ -n "$2" ] || { echo "skipped: a debugger needs fail_debug"; exit 0; }
debug=$(realpath "$2") || exit 2
command -v gdb-multiarch >/dev/null || { echo "skipped: a debugger needs gdb-multiarch"; exit 0; }
folder=$(mktemp -d) || exit 2
trap 'rm -rf "$folder"' EXIT
cp "$top"/examples/built/{pin,pin_open,checksum}.elf "$folder" && cd "$folder" || exit 2
ram=0x80000000:64
flush='maintenance flush register-cache'

# session IMAGE SITE COMMAND..: what GDB writes. A site may have options.
session() {
    local words=() command
    for command in "${@:3}"; do words+=(-ex "$command"); done
    timeout 60 gdb-multiarch -batch -nx "$1" -ex 'set confirm off' \
        -ex "target remote | $debug $1 $2 --ram $ram" "${words[@]}" 2>&1
}
# shows NAME PATTERN IMAGE SITE COMMAND..: GDB writes a line with this pattern.
shows() {
    local got
    got=$(session "${@:3}")
    check "$1" "$(grep -q -e "$2" <<<"$got" && echo yes || tail -n 3 <<<"$got")"
}

# Before instruction 5 a bit of x14 flips, which is written before it is read; before instruction 8 a bit of the PIN in RAM, which
# is 06 there and read by instruction 15; before instruction 20 the answer of the comparison, in x10, which opens the lock.
dead='5 14 2' pin='8 32 3' opens='20 10 0'
shows 'it begins at the flip' '^pc  *0x20000048' pin.elf "$dead" 'info registers pc'
shows 'the bit is flipped' '^x14 00000004 golden 00000000' pin.elf "$dead" 'monitor diff'
shows 'a dead site' '^site cycle 5 cell 14 bit 2 dead outcome no-effect, here after 6 instructions' \
    pin.elf "$dead" stepi stepi reverse-stepi 'monitor site'
shows 'the weight of a job' '^site cycle 8 cell 32 bit 3 weight 16 outcome no-effect, here after 8 ' pin.elf "$pin" 'monitor site'

# Source lines and variables.
# The first instruction of line 6 has a part of line 5 before it in the line table, so GDB calls the place line 5.
shows 'a breakpoint at a line' '^Breakpoint 1, is_right .* at ./pin.c:5' pin.elf "$pin" 'break pin.c:6' continue
shows 'its place' '^pc  *0x20000014' pin.elf "$pin" 'break pin.c:6' continue 'info registers pc'
shows 'a variable' '^\$1 = 0$' pin.elf "$pin" 'break pin.c:6' continue 'print i'
shows 'a step to the next line' '^5	' pin.elf "$pin" 'break pin.c:6' continue step
shows 'who called' '^#1 .* in main () at ./pin.c:14' pin.elf "$pin" 'break pin.c:6' continue backtrace
shows 'the PIN with the flip' '^\$1 = {0xe, ' pin.elf "$pin" 'break pin.c:6' continue 'print/x kept'
shows 'the PIN before the flip' '^\$1 = {0x6, ' pin.elf "$pin" reverse-continue 'print/x kept'
shows 'the PIN without the flip' '^\$1 = {0x6, ' pin.elf "$pin" 'monitor golden' "$flush" 'print/x kept'
shows 'and with it again' '^\$1 = {0xe, ' pin.elf "$pin" 'monitor golden' 'monitor injected' "$flush" 'print/x kept'

# Backwards.
shows 'back to the flip' '^site cycle 8 .* here after 8 instructions' pin.elf "$pin" 'break pin.c:6' continue delete reverse-continue 'monitor site'
shows 'back to the first instruction' '^pc  *0x20000000' pin.elf "$dead" reverse-continue 'info registers pc'
shows 'there is nothing before it' '^No more reverse-execution history' pin.elf "$dead" reverse-continue
shows 'a breakpoint before the flip' '^Breakpoint 1, main' pin.elf "$dead" 'break main' reverse-continue
shows 'back from the end to a breakpoint' '^Breakpoint 1, is_right .* at ./pin.c:5' pin.elf "$pin" continue 'break pin.c:6' reverse-continue
# GDB looks at the register after each step: x10 is 1 with the flip, and 0 before it.
shows 'back to a change of a register' '^Old value = 1' pin.elf "$opens" 'set can-use-hw-watchpoints 0' 'watch $a0' reverse-continue

# Watchpoints. Instruction 8 stores x1 on the stack, and before instruction 3 a bit of x1 flips. Instruction 14 loads the first digit
# that is entered, and 15 the first that is kept. The comparison has answered before instruction 20.
saves='3 1 4' saved='*(int *) 0x8000003c'
shows 'a write' '^New value = 16' pin.elf "$saves" "watch $saved" continue
shows 'its place' ', here after 9 instructions' pin.elf "$saves" "watch $saved" continue 'monitor site'
shows 'a write that changes nothing' '^No more reverse-execution history' pin.elf "$pin" "watch $saved" continue
shows 'back to the write' '^New value = 0' pin.elf "$saves" continue "watch $saved" reverse-continue
shows 'its place' ', here after 8 instructions' pin.elf "$saves" continue "watch $saved" reverse-continue 'monitor site'
shows 'a single step over it' '^New value = 16' pin.elf "$saves" 'monitor goto 8' "watch $saved" stepi
shows 'a read' "^Value = 14 " pin.elf "$pin" 'rwatch kept[0]' continue
shows 'its place' ', here after 16 instructions' pin.elf "$pin" 'rwatch kept[0]' continue 'monitor site'
shows 'back to the read' "^Value = 14 " pin.elf "$pin" continue 'rwatch kept[0]' reverse-continue
shows 'its place' ', here after 15 instructions' pin.elf "$pin" continue 'rwatch kept[0]' reverse-continue 'monitor site'
shows 'an access' ', here after 15 instructions' pin.elf "$pin" 'awatch entered[0]' continue 'monitor site'
shows 'no other access' ', here after 20 instructions' pin.elf "$pin" 'awatch entered[0]' continue 'break *0x2000005c' continue 'monitor site'
shows 'back past no access' ', here after 8 instructions' pin.elf "$pin" continue 'awatch entered[1]' reverse-continue 'monitor site'

# The two runs.
shows 'where they differ first' '^the runs differ after 22 instructions' pin.elf "$opens" 'monitor first'
shows 'its pc' '^pc  *0x20000064' pin.elf "$opens" 'monitor first' "$flush" 'info registers pc'
shows 'no difference' '^the runs do not differ in the pc or the output' pin.elf "$pin" 'monitor first'
shows 'a byte of RAM that differs at the end' '^ram 80000000 0e golden 06' pin.elf "$pin" continue 'monitor diff'
shows 'the place of another one' 'here after 3 instructions' pin.elf "$dead" 'monitor goto 3' 'monitor site'
shows 'what was sent' '^injected 4f' pin_open.elf '22 0 4 --pc' continue 'monitor output'
shows 'a byte that is sent' 'O' pin_open.elf '22 0 4 --pc' continue
shows 'the commands' '^monitor last-write xK ' pin.elf "$dead" 'monitor help'
shows 'an unknown command' '^there is no such command: monitor help lists them' pin.elf "$dead" 'monitor nothing'
shows 'a place that is no number' '^monitor goto takes a number of instructions' pin.elf "$dead" 'monitor goto main'
shows 'no register' '^monitor last-write takes a register' pin.elf "$dead" 'monitor last-write $a0'
# Before instruction 20 the comparison has answered 0 in x10, and the flip made that 1.
shows 'who wrote a register' '^injected x10 is 00000001, written by instruction ' pin.elf "$opens" 'monitor last-write x10'
shows 'in the golden run too' '^golden   x10 is 00000000, written by instruction ' pin.elf "$opens" 'monitor last-write x10'
writer=$(session pin.elf "$opens" 'monitor last-write x10' | sed -n 's/^golden .* instruction \([0-9]*\) at \(.*\)/\1 0x\2/p')
shows 'its address' "^pc  *${writer#* }" pin.elf "$opens" "monitor goto ${writer% *}" "$flush" 'info registers pc'
shows 'it is 0 after it' "^golden   x10 is 00000000, written by instruction ${writer% *} " pin.elf "$opens" "monitor goto $((${writer% *} + 1))" 'monitor last-write x10'
check 'it was not 0 before it, or this one wrote it again' "$(session pin.elf "$opens" "monitor goto ${writer% *}" 'monitor last-write x10' | grep -q "^golden   x10 .* instruction ${writer% *} " || echo yes)"

# Nothing can be written.
shows 'a register' 'fail_debug shows the two runs and changes neither' pin.elf "$dead" 'print $x1=5'
shows 'a byte of RAM' 'Cannot access memory' pin.elf "$dead" 'set var kept[0]=1' 'print/x kept[0]'

# `starti` begins again at the flip, and `run` goes on from there. A site that does not exist is named whether or not GDB wrote
# before the program ended.
extended() {
    timeout 60 gdb-multiarch -batch -nx pin.elf -ex 'set confirm off' \
        -ex "target extended-remote | $debug pin.elf $dead --ram $ram" "$@" 2>&1
}
check 'starti begins again' "$(extended -ex 'stepi 3' -ex starti -ex 'monitor site' | grep -q ', here after 5 instructions' && echo yes)"
check 'starti after the end' "$(extended -ex continue -ex continue -ex starti -ex 'monitor site' | grep -q ', here after 5 instructions' && echo yes)"
check 'run goes on to a breakpoint' "$(extended -ex 'break pin.c:6' -ex continue -ex delete -ex 'break pin.c:6' -ex run -ex 'info registers pc' | grep -q '^pc  *0x20000014' && echo yes)"
named=0
for _ in 1 2 3 4 5 6 7 8 9 10; do session pin.elf '9000 1 1' | grep -q '^no such site: cycle 9000 cell 1 bit 1' && named=$((named + 1)); done
same 'a site that does not exist' 10 "$named"

# A TCP port, as editors want it.
if command -v socat >/dev/null; then
    port=$(python3 -c 'import socket; s = socket.socket(); s.bind(("127.0.0.1", 0)); print(s.getsockname()[1])')
    # A colon would separate the words of socat's own address.
    socat "TCP-LISTEN:$port,reuseaddr,bind=127.0.0.1" EXEC:"$debug pin.elf $dead --ram ${ram/:/\\:}" 2>socat.txt &
    # GDB tries again for some seconds while nobody listens.
    check 'over TCP' "$(timeout 60 gdb-multiarch -batch -nx pin.elf -ex "target remote 127.0.0.1:$port" -ex 'monitor site' 2>&1 </dev/null | grep -q '^site cycle 5 cell 14' && echo yes)"
    kill $! 2>/dev/null
    wait
else
    echo 'skipped: a TCP port needs socat'
fi

# How runs end: a job of each outcome, from the table; from an end that is a signal the way leads back to the flip.
# job IMAGE OUTCOME: the first job with it.
job() { "$program" report "$1" "$1.keep" --ram $ram "${flags[@]}" --format csv | awk -F, -v word="$2" '$5 == word { print $1, $2, $3; exit }'; }
# ends OUTCOME PATTERN IMAGE: how a run is told to end.
ends() {
    local site
    site=$(job "$3" "$1")
    shows "$1, $site" "$2" "$3" "$site ${flags[*]}" continue continue
    [[ $2 == *SIG* ]] || return
    shows "$1, $site, back" "^site cycle ${site%% *} .* outcome $1, here after ${site%% *} " "$3" "$site ${flags[*]}" continue reverse-continue 'monitor site'
}
flags=(--pc)
"$program" run pin.elf pin.elf.keep --ram $ram "${flags[@]}" >out.txt || exit 2
ends no-effect 'exited normally' pin.elf
ends detected 'signal SIGABRT' pin.elf
ends illegal 'signal SIGILL' pin.elf
ends address 'signal SIGSEGV' pin.elf
ends misaligned 'signal SIGBUS' pin.elf
flags=(--limit 2000)
"$program" run checksum.elf checksum.elf.keep --ram $ram "${flags[@]}" >out.txt || exit 2
ends timeout 'signal SIGXCPU' checksum.elf
ends silent 'exited normally' checksum.elf
shows 'a silent run' 'exited with code 01' pin_open.elf '22 0 4 --pc' continue continue
shows 'it stops before it halts' '^No more reverse-execution history' pin.elf "$dead" continue
echo "$passed passed, $failed failed"
[ "$failed" -eq 0 ]
