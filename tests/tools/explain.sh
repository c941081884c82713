#!/usr/bin/env bash
# The tool that says what a line of the programs means, on the lines of each status, with and without the words of the command.
# usage: explain.sh [PROGRAM]
set -u
. "$(dirname "$0")/../checks.sh"
program=
[ $# -eq 0 ] || program=$(realpath "$1") || exit 2
command -v python3 >/dev/null || { echo "skipped: explain needs python3"; exit 0; }
folder=$(mktemp -d) || exit 2
trap 'rm -rf "$folder"' EXIT
cd "$folder" || exit 2

# A copy of the tools beside which no build is: so the program is the one on the path alone.
cp -R "$top/tools" tools || exit 2
explain() { timeout 60 python3 -B "$folder/tools/explain.py" "$@"; }
images="import known; images = dict(send=known.image(known.SEND), loop=known.image(known.LOOP))
images |= dict(halt=known.image(known.HALT), code=known.in_ram(known.HALT))
for name, content in images.items(): open(name + '.elf', 'wb').write(content)"
python3 -B -c "$images"
ram=0x80000000:16
# begun KEEP IMAGE WORD..: a campaign file, which no job was run for. Where no program is named, the reference writes it.
begun() {
    if [ -n "$program" ]; then
        timeout 60 "$program" run "$2.elf" "$1.keep" --rom 0x20000000:64 --ram $ram --limit 100 --stop-after 0 "${@:3}" >/dev/null 2>&1
    else
        timeout 60 python3 -B "$top/tests/definitions/reference.py" run "$2.elf" "$1.keep" --rom 0x20000000:64 --ram $ram --limit 100 --stop-after 0 "${@:3}" >/dev/null 2>&1
    fi
}
begun send send
begun halt halt
begun pc halt --pc
begun both code --pc --ram-code

goes='KEEP continues with: --rom 0x20000000:64 --ram 0x80000000:16 --limit 100'
line='campaign file refused: 6 OtherCase at'
gives 'other sizes of ROM' 0 "--rom's size: KEEP has 64 and without --rom it is 65536
$goes" '' explain "$line 9" fail_star run send.elf send.keep
gives 'other sizes of RAM' 0 "--ram's size: KEEP has 16 and you gave 16384
$goes" '' explain '6 OtherCase at 17' run send.elf send.keep --rom 0x20000000:64 --ram=0x80000000:16384
gives 'other bases of RAM' 0 "--ram's base: KEEP has 0x80000000 and you gave 0x00000080
$goes" '' explain "$line 13" report send.elf send.keep --ram 0x80:64
gives 'another limit' 0 "--limit: KEEP has 100 and you gave 1500
$goes" '' explain '6 OtherCase at 22' run send.elf send.keep --limit 1500
gives 'another program' 0 'the image has another byte at 0x20000000 (ROM) than KEEP.
The program was rebuilt, or this is another image: the old outcomes say nothing about it. Use another name for KEEP.' '' \
    explain '6 OtherCase at 25' run loop.elf send.keep
gives 'another limit, without a file' 0 "--limit: KEEP was made with another one.
Use the options with which KEEP was made, or another name for the new campaign." '' explain '6 OtherCase at 21'
gives 'other flags' 0 "--pc: KEEP was made without it, and you gave it.
$goes" '' explain '6 OtherCase at 0' run send.elf send.keep --rom 0x20000000:64 --pc --ram $ram
gives 'flags that were not said' 0 "--ram-code: KEEP was made with it, and you did not give it.
$goes --pc --ram-code" '' explain "$line 0" report code.elf both.keep --pc
gives 'one flag in place of the other' 0 "--pc: KEEP was made with it, and you did not give it.
--ram-code: KEEP was made without it, and you gave it.
$goes --pc" '' explain "$line 0" report halt.elf pc.keep --ram-code
gives 'the same flags' 0 "The flags are the same: the line came from another command.
$goes" '' explain "$line 0" report halt.elf halt.keep
gives 'other flags, without a file' 0 "--pc or --ram-code: KEEP was made with one of them that is missing now, or without one that you gave.
Use the options with which KEEP was made, or another name for the new campaign." '' explain '6 OtherCase at 0'
reaches='instruction 0 (counted from 0) is not one of RV32IM, or accesses an address without ROM, RAM or a port.'
gives 'code in RAM without the flag' 0 "$reaches
The image has code that runs from RAM: use --ram-code, which allows that." '' \
    explain 'golden run trapped at cycle 0' run code.elf new.keep --ram $ram
gives 'a trap of code in RAM' 0 "$reaches" '' sh -c "python3 -B '$folder/tools/explain.py' 'golden run trapped at cycle 0' run code.elf new.keep --ram $ram --ram-code | sed -n 1p"
gives 'a stopped campaign' 0 '56 jobs are missing: repeat `run`.' '' explain 'stopped: 40 of 96 jobs kept'
gives 'a bad campaign file in an explanation' 1 '' 'explain.py: bad.keep: 3 Cut: it ends at byte 8, before the first batch' \
    sh -c "head -c 8 send.keep >bad.keep; python3 -B '$folder/tools/explain.py' '6 OtherCase at 9' run send.elf bad.keep"
gives 'another line' 1 '' "explain.py: 'all is well' is not a line of fail_star, fail_window, fail_answers, fail_export, fail_replay or fail_debug, and not an exit status" explain 'all is well'
gives 'no line' 2 '' 'usage: explain.py STATUS-LINE [the words of the command ..]' explain
gives 'another limit of the other file' 0 "--limit: OTHER has 100 and you gave 1500
${goes/KEEP/OTHER}" '' explain 'other campaign file refused: 6 OtherCase at 22' merge send.elf new.keep send.keep --limit 1500
disagree='OTHER has another outcome than KEEP for cell 1, bit 0 at cycle 2: one of the two is wrong, and `audit` of each says which.'
gives 'files that disagree' 0 "$disagree" '' explain 'other campaign file refused: 8 Disagree at cycle 2 cell 1 bit 0' merge send.elf send.keep other.keep
gives 'another limit of an export' 0 "--limit: KEEP has 100 and you gave 1500
$goes" '' explain "$line 22" fail_export send.elf send.keep send.db --limit 1500
gives 'no reason against the other file' 1 '' "explain.py: 'all is well' is not a reason to refuse a campaign file" explain 'other campaign file refused: all is well'
gives 'a number that is no status' 1 '' "explain.py: '15' is not a line of fail_star, fail_window, fail_answers, fail_export, fail_replay or fail_debug, and not an exit status" explain 15
site='no such site: cycle 4 cell'
gives 'no pc' 0 'cell 0 is the pc, which is a cell only with --pc.' '' explain "$site 0 bit 3" fail_replay send.elf 4 0 3 --ram $ram
gives 'no byte' 0 'cell 48 is byte 16 of RAM, counted from 0, and you gave 0x80000000:16.' '' \
    explain "$site 48 bit 0" fail_replay --brief send.elf 4 48 0 --ram $ram
gives 'no byte of 16384' 0 'cell 16416 is byte 16384 of RAM, counted from 0, and without --ram it is 0x80000000:16384.' '' explain "$site 16416 bit 0"
gives 'no bit' 0 'cell 32 has no bit 8: a register and the pc have bits 0 to 31, and a byte of RAM, from cell 32 on, 0 to 7.' '' explain "$site 32 bit 8"
gives 'no instruction' 0 'the run without a fault has no instruction 4, counted from 0: `fail_star trace` shows all that it has.' '' \
    explain "$site 0 bit 31" ./fail_replay --whole send.elf 4 0 31 --pc
echo journal >hot.db-journal
gives 'a journal beside a database' 0 'hot.db-journal: a program stopped in the middle of a transaction, and fail_export does not undo it.
Read something once, as by `sqlite3 hot.db .tables`: that undoes it. Then repeat the command.' '' \
    explain 'export could not be stored' fail_export send.elf send.keep hot.db --limit 100
: >hot.db-journal
stored='The jobs could not be stored: DB is no database, has a table `jobs` that no export made, cannot be written, or is in a folder that does not exist.'
gives 'an empty journal' 0 "$stored" '' explain 12 fail_export send.elf send.keep hot.db --limit 100
# Each line that docs/FORMATS.md has for the error output is explained.
while IFS= read -r text; do
    explain "$text" >out.txt 2>err.txt
    same "the line: $text" 'status 0, err ' "status $?, err $(cat err.txt)"
done < <(
    printf '%s\n' {0..14} 'usage: fail_export IMAGE KEEP DB [options]' 'usage: fail_answers IMAGE KEEP [options]' 'usage: fail_debug IMAGE CYCLE CELL BIT [options]' 'input could not be read' 'usage: fail_replay [--whole | --brief] IMAGE CYCLE CELL BIT .. [options]' \
        'no such site: cycle 1 cell 1 bit 32' 'other campaign file could not be read' 'export could not be stored' 'image could not be read' 'campaign file could not be read or written' 'output could not be written' \
        'out of memory' 'golden run trapped at cycle 7' 'golden run detected at cycle 7' 'golden run did not halt within 7 instructions'
    faults=(Short NotElf NotClass32 NotLittle Version NotExec NotRiscv BadHeaders FilePastMemory SegmentPastFile SegmentOutsideMap TooLong BadSections BadName)
    for at in "${!faults[@]}"; do echo "image refused: $((at + 1)) ${faults[at]}"; done
    for other in '' 'other '; do
        printf "${other}campaign file refused: %s\n" '1 NotACampaign' '2 Version' '3 Cut' '4 BadRow at 7' '5 Conflict at 7 and 17'
        for at in 0 1 5 9 13 17 21 25 65561; do echo "${other}campaign file refused: 6 OtherCase at $at"; done
    done
    echo 'other campaign file refused: 7 TooLong'
)

# --- The first wrong word -------------------------------------------------------------------------

# wrong ANSWER WORD..: what is said of a command whose words are none.
wrong() {
    local wanted=$1
    shift
    gives "the words: $*" 0 "$wanted" '' explain 'usage: fail_star run IMAGE KEEP' "$@"
}
digits='expected decimal digits, or 0x and hexadecimal ones: no sign, no point, no exponent, no space, no underscore'
wrong '--worker: no such option; did you mean --workers?' fail_star run send.elf send.keep --worker 3
wrong '--ram 0x80000000:65: SIZE is 65, which is not a multiple of 4' run send.elf send.keep --ram 0x80000000:65
wrong '--ram 0x80000002:64: BASE is 2147483650, which is not a multiple of 4' run send.elf send.keep --ram 0x80000002:64
wrong '--ram 0x80000000:65540: SIZE is 65540, and RAM has 4 to 65536 bytes' run send.elf send.keep --ram 0x80000000:65540
wrong '--rom 0:262148: SIZE is 262148, and ROM has 4 to 262144 bytes' run send.elf send.keep --rom 0:262148
wrong '--ram 0x20000000:1024 overlaps the default --rom 0x20000000:65536: say --rom too' run send.elf send.keep --ram 0x20000000:1024
wrong '--ram 0x00000010:64 overlaps --rom 0x00000000:64' run send.elf send.keep --ram 0x10:64 --rom 0x00:64
wrong '--ram 0xf0000ff0:64 overlaps the ports at 0xf0000000 to 0xf0000fff' run send.elf send.keep --ram 0xf0000ff0:64
wrong '--ram 0xfffffff0:64: it ends at 0x100000030, past 2^32' run send.elf send.keep --ram 0xfffffff0:64
wrong "--ram 8000000g:64: 8000000g: $digits" run send.elf send.keep --ram 8000000g:64
wrong "--limit 1e6: $digits" run send.elf send.keep --limit 1e6
wrong "--limit 1_000: $digits" run send.elf send.keep --limit 1_000
wrong '--limit 1f: hexadecimal digits need 0x in front' run send.elf send.keep --limit 1f
wrong '--limit 0: expected 1 to 16777216' run send.elf send.keep --limit=0
wrong '--ram 0x80000000: expected BASE:SIZE, such as 0x80000000:16384' run send.elf send.keep --ram 0x80000000
wrong 'KEEP is missing: expected its file after IMAGE, before all options' run send.elf --limit 5
wrong 'IMAGE is missing: expected its file after the command, before all options' trace --limit 5
wrong 'DB is missing: expected its file after KEEP, before all options' fail_export send.elf send.keep
wrong 'BIT is missing: expected its number after CELL, before all options' fail_replay --brief send.elf 1 2
wrong 'CYCLE is missing: expected its number after IMAGE, before all options' fail_debug send.elf --ram 0x80000000:64
wrong 'KEEP is missing: expected its file after IMAGE, before all options' fail_answers send.elf --outcome silent
wrong '--outcome silent,silnt: silnt: expected outcomes, with commas between them: no-effect, silent, detected, illegal, address, misaligned, timeout' \
    fail_answers send.elf send.keep --outcome silent,silnt
wrong '--page: no option of fail_answers, which has --rom, --ram, --limit, --pc, --ram-code, --outcome, --workers' fail_answers send.elf send.keep --page 3
wrong '--fresh: no option of fail_debug, which has --rom, --ram, --limit, --pc, --ram-code' fail_debug send.elf 1 2 3 --fresh
wrong '4: a word that belongs to no option; files come directly after the command' fail_debug send.elf 1 2 3 4
wrong '--workers: no option of report, which has --rom, --ram, --limit, --pc, --ram-code, --format' report send.elf send.keep --workers 3
wrong '--limit: it is repeated' run send.elf send.keep --limit 5 --limit 6
wrong '--limit: its value is missing' run send.elf send.keep --limit
wrong '--fresh: a flag, which takes no value' run send.elf send.keep --fresh=yes
wrong '--format csv: expected text or json' run send.elf send.keep --format csv
wrong '--shard 0/4: expected i/n with 1 <= i <= n <= 65535, such as 3/16' run send.elf send.keep --shard 0/4
wrong '4: a word that belongs to no option; files come directly after the command' run send.elf send.keep 4
wrong 'rum: no such command; did you mean run?; there are run, report, audit, brute, trace, plan, sample, merge, symbols, demo' rum send.elf send.keep
gives 'words that are right' 0 'The words are not a valid command: its files come directly after it, then the options, each at most once.
These words are a valid command: the line came from another one.' '' explain 1 run send.elf send.keep --ram $ram --pc --workers 4 --format=json

# --- The last instruction -------------------------------------------------------------------------

# A program on the path for the tool to call: the one that is named, or else the reference.
printf '#!/bin/sh\nexec python3 -B "%s" "$@"\n' "$top/tests/definitions/reference.py" >reference && chmod +x reference
mkdir bin && judge=${program:-"$folder/reference"} && ln -s "$judge" bin/fail_star
# traps NAME ANSWER WORDS: the second line of the answer for an image of these words, whose run is done by the program.
traps() {
    python3 -B -c 'import sys; sys.path.insert(0, sys.argv[1])
import assembler as a
open("trap.elf", "wb").write(a.image([(a.ROM, a.code([int(word, 16) for word in sys.argv[2].split()]))]))' "$tests" "$3"
    local line
    line=$("$judge" run trap.elf trap.keep --ram $ram --limit 100 2>&1)
    same "$1" "$2" "$(PATH=$folder/bin:$PATH explain "$line" run trap.elf trap.keep --ram $ram --limit 100 2>&1 | sed -n 2p)"
}
last='The last instruction, at 0x20000000, has the word'
traps 'ECALL' "$last 00000073: ECALL, which this machine does not have: there is no system below the program to call." '00000073'
traps 'a CSR instruction' "$last 30529073: a CSR instruction on mtvec, which this machine does not have." '30529073'
traps 'a compressed instruction' "$last 80824501: a compressed instruction: build with -march=rv32im, and use libraries that were built in the same way." '80824501'
traps 'an atomic instruction' "$last 1005252f: an atomic instruction: build with -march=rv32im." '1005252f'
traps 'a floating-point instruction' "$last 00052007: a floating-point instruction: build with -march=rv32im -mabi=ilp32." '00052007'
traps 'a word of zeros' "$last 00000000: zeros, which no code has: the run left its code, or the image lacks a part." '00000000'
traps 'a jump to itself' "$last 0000006f: a jump to itself: end the program by a store to 0xF0000008, the halt port." '0000006f'
# lui a5,0x10000; sb a0,0(a5)
traps 'a store to no port' "The last instruction, at 0x20000004, has the word 00a78023: a store to 0x10000000, where there is no memory: the ports are at 0xF0000000, see examples/port.h." \
    '100007b7 00a78023'
# auipc a5,0; sw a0,8(a5)
traps 'a store to ROM' "The last instruction, at 0x20000004, has the word 00a7a423: a store to 0x20000008, which is in ROM." '00000797 00a7a423'
# lui a5,0x80000; lw a0,2(a5)
traps 'a misaligned load' "The last instruction, at 0x20000004, has the word 0027a503: a load of 4 bytes at 0x80000002, which is not a multiple of 4." '800007b7 0027a503'
# ret, where ra is 0
traps 'main returned' 'The program jumped to 0x00000000, where there is no memory, by the return at 0x20000000: main returned, and the start code gave it no address to return to.' \
    '00008067'
# lui a5,0x30000; jr a5
# A first address without code that runs.
line=$("$judge" run code.elf new.keep --ram $ram 2>&1)
same 'code in RAM without the flag, with a program' "$reaches
The program starts at 0x80000000, which is in RAM.
The image has code that runs from RAM: use --ram-code, which allows that." "$(PATH=$folder/bin:$PATH explain "$line" run code.elf new.keep --ram $ram 2>&1)"
traps 'a jump to nowhere' 'The program jumped to 0x30000000, where there is no memory, by the instruction 00078067 at 0x20000004.' '300007b7 00078067'

# --- Images ---------------------------------------------------------------------------------------

# Images that a linker makes without a linker script begin at 0x10000: GNU ld's with the -n of examples/Makefile a little later.
python3 -B -c 'import sys; sys.path.insert(0, sys.argv[1])
import assembler as a
for name, at in (("unscripted", 0x10000), ("packed", 0x10094), ("beside", 0x20010000)):
    open(name + ".elf", "wb").write(a.image([(at, a.code([0x6F]))]))' "$tests"
scripted='Link with -T memory.ld, which is in examples: it puts code into ROM and data into RAM.'
outside='a segment is outside of ROM and RAM: compare its physical address (readelf -l) with --rom and --ram.'
gives 'no linker script' 0 "$outside
A segment is at 0x00010000, where the linker puts a program that has no linker script.
$scripted" '' explain 'image refused: 11 SegmentOutsideMap' run unscripted.elf new.keep
gives 'no linker script, and -n' 0 "$outside
A segment is at 0x00010094, where the linker puts a program that has no linker script.
$scripted" '' explain 'image refused: 11 SegmentOutsideMap' trace packed.elf
gives 'another segment outside' 0 "$outside
The segment at 0x20010000 has 4 bytes.
The map is --rom 0x20000000:65536 --ram 0x80000000:16384. Is there a 0x missing in front of a base?" '' \
    explain 'image refused: 11 SegmentOutsideMap' trace beside.elf
# The code of code.elf is two instructions.
gives 'a base without 0x' 0 "$outside
The segment at 0x80000000 has 8 bytes.
The map is --rom 0x20000000:65536 --ram 80000000:64. Is there a 0x missing in front of a base?" '' \
    explain 'image refused: 11 SegmentOutsideMap' trace code.elf --ram 80000000:64
built='IMAGE is what compiler and linker make of a source, as `make out/NAME.elf` in examples does.'
not_elf='the file is not an ELF file; .bin and .hex files are not.'
gives 'a C file as IMAGE' 0 "$not_elf
$top/examples/pin.c is a text that begins with '$(head -n 1 "$top/examples/pin.c" | cut -c 1-40)'. $built" '' \
    explain 'image refused: 2 NotElf' run "$top/examples/pin.c" new.keep
gives 'the same by the status' 0 "The image is not an ELF file that can be loaded; the line says why.
$top/examples/pin.c is a text that begins with '$(head -n 1 "$top/examples/pin.c" | cut -c 1-40)'. $built" '' \
    explain 3 run "$top/examples/pin.c" new.keep
gives 'a campaign file as IMAGE' 0 "$not_elf
send.keep is a campaign file: IMAGE is the program's ELF file, and comes first." '' explain 'image refused: 2 NotElf' run send.keep send.elf
: >empty.elf
gives 'an empty image' 0 'the file is shorter than an ELF header.
empty.elf is empty: did its build fail?' '' explain 'image refused: 1 Short' run empty.elf new.keep
head -c 20 send.elf >cut.elf
gives 'an image that was cut' 0 'the file is shorter than an ELF header.' '' explain 'image refused: 1 Short' run cut.elf new.keep
# unread NAME ANSWER WORD..: what is said of an image that could not be read.
unread() { gives "$1" 0 "$2" '' explain 'image could not be read' run "$3" new.keep; }
mkdir images && mkfifo pipe.elf
unread 'an image that is missing' 'none.elf: The image could not be read: is its name right?' none.elf
unread 'a folder as IMAGE' 'images is a folder.' images
unread 'a pipe as IMAGE' 'pipe.elf: reading it failed: Not a regular file.' pipe.elf
unread 'an empty name of an image' 'IMAGE is an empty name.' ''
unread 'an image that can be read' 'send.elf can be read now: repeat the command.' send.elf
gives 'the same by the status' 0 'images is a folder.' '' explain 2 run images new.keep
# The memory of a process cannot be read from its beginning.
[ ! -r /proc/self/mem ] || unread 'an image whose read fails' '/proc/self/mem: reading it failed: Input/output error.' /proc/self/mem
if [ "$(id -u)" -ne 0 ]; then
    cp send.elf closed.elf && chmod 0 closed.elf
    unread 'an image without leave' 'closed.elf may not be read by you (its mode is ----------).' closed.elf
fi

# --- Campaign files -------------------------------------------------------------------------------

cause() { gives "$1" 0 "$2" '' explain 'campaign file could not be read or written' run "${@:3}"; }
mkdir folder
cause 'a folder' 'folder is a folder.' send.elf folder
cause 'a folder that is missing' 'the folder none does not exist: make it, or take another name.' send.elf none/send.keep
cause 'the image as KEEP' './send.elf is the image itself: give the campaign file another name.' send.elf ./send.elf
cause 'an empty name' 'KEEP is an empty name.' send.elf ''
cause 'a device' '/dev/null is not a regular file.' send.elf /dev/null
if command -v flock >/dev/null; then
    # The descriptor holds the lock until the check is through, however slow the machine is.
    exec 9<>send.keep && flock 9
    cause 'a lock' 'another command works on send.keep: wait for its end, or stop it.' send.elf send.keep 9>&-
    exec 9>&-
fi
if [ "$(id -u)" -ne 0 ]; then
    cp send.keep closed.keep && chmod 0 closed.keep
    cause 'no leave' 'closed.keep may not be read and written by you (its mode is ----------).' send.elf closed.keep
fi
if mkdir small && mount -t tmpfs -o size=64k none small 2>/dev/null; then
    head -c 65536 /dev/zero >small/zeros 2>/dev/null
    cause 'a full disk' 'the disk of small is full: 0 bytes are left.' send.elf small/new.keep
    umount small
else
    echo 'skipped: a full disk needs leave to mount one'
fi
gives 'no cause' 0 'The campaign file could not be read or written: a full disk, no permission, a folder, a missing folder, or another command uses it.
None of these causes holds now: repeat the command.' '' explain 5 run send.elf send.keep
gives 'no such campaign file' 0 'no such campaign file: none.keep. `run` makes it.' '' explain 'stopped: 0 of 192 jobs kept' report send.elf none.keep
gives 'a campaign file that is there' 0 '192 jobs are missing: repeat `run`.' '' explain 'stopped: 0 of 192 jobs kept' report send.elf send.keep
printf 'dear diary\nall is well\n' >diary
gives 'a text as KEEP' 0 "diary is a text that begins with 'dear diary', of 23 bytes. \`run --fresh\` overwrites it: its content is lost." '' \
    explain 'campaign file refused: 1 NotACampaign' run send.elf diary
gives 'an image as KEEP' 0 "halt.elf is an ELF file, of $(stat -c %s halt.elf) bytes. \`run --fresh\` overwrites it: its content is lost." '' \
    explain '1 NotACampaign' run send.elf halt.elf

if [ -n "$program" ]; then
    same 'the line of usage' 'The words are not a vali' "$(explain "$("$program" 2>&1 | sed -n 1p)" | sed -n 1p | cut -c 1-24)"
fi

echo "$passed passed, $failed failed"
[ "$failed" -eq 0 ]
