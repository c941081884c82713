"""Words, reports and campaign files that were worked out by hand: the assembler, the reference and the program must
all give them. The words are encodings of the RISC-V Instruction Set Manual, Volume I; the reports and files follow
docs/MODEL.md and docs/FORMATS.md.

known.py PROGRAM
"""

from __future__ import annotations

import itertools
import os
import pathlib
import subprocess
import sys
import tempfile
from collections.abc import Callable, Iterator, Sequence

import assembler as a
import code_in_ram
import command_words
import draws
import keep_file
import kinds
import reference

FILE = pathlib.Path("case.keep")
# A version of fail_star that knew no kinds of traps wrote it, of the first of the campaigns below.
OLDER = pathlib.Path(__file__).resolve().parent / "inputs/older.keep"
REGIONS = ["--rom", "0x20000000:64", "--ram", "0x80000000:16", "--limit"]

# The instructions of the reports below, each with its word.
WORDS = {
    "lui x1,0xF0000": (a.upper("lui", 1, 0xF0000), 0xF00000B7),
    "sw x0,8(x1)": (a.store("sw", 0, 1, 8), 0x0000A423),
    "addi x2,x0,65": (a.immediate("addi", 2, 0, 65), 0x04100113),
    "sb x2,0(x1)": (a.store("sb", 2, 1, 0), 0x00208023),
    "addi x2,x0,2": (a.immediate("addi", 2, 0, 2), 0x00200113),
    "addi x2,x2,-1": (a.immediate("addi", 2, 2, -1), 0xFFF10113),
    "bne x2,x0,-4": (a.branch("bne", 2, 0, -4), 0xFE011EE3),
    "lui x3,0x80000": (a.upper("lui", 3, 0x80000), 0x800001B7),
    "lb x2,0(x3)": (a.immediate("lb", 2, 3, 0), 0x00018103),
    "sw x2,0(x3)": (a.store("sw", 2, 3, 0), 0x0021A023),
    "sb x0,1(x3)": (a.store("sb", 0, 3, 1), 0x000180A3),
    "lw x4,0(x3)": (a.immediate("lw", 4, 3, 0), 0x0001A203),
    "sb x4,0(x1)": (a.store("sb", 4, 1, 0), 0x00408023),
    "sw x4,8(x1)": (a.store("sw", 4, 1, 8), 0x0040A423),
    "addi x2,x0,66": (a.immediate("addi", 2, 0, 66), 0x04200113),
    "sw x0,4(x1)": (a.store("sw", 0, 1, 4), 0x0000A223),
    "addi x2,x0,7": (a.immediate("addi", 2, 0, 7), 0x00700113),
    "div x4,x2,x0": (a.register("div", 4, 2, 0), 0x02014233),
    "rem x4,x2,x0": (a.register("rem", 4, 2, 0), 0x02016233),
    "lui x5,0x80000": (a.upper("lui", 5, 0x80000), 0x800002B7),
    "addi x6,x0,-1": (a.immediate("addi", 6, 0, -1), 0xFFF00313),
    "div x7,x5,x6": (a.register("div", 7, 5, 6), 0x0262C3B3),
    "srli x8,x7,24": (a.shift("srli", 8, 7, 24), 0x0183D413),
    "sb x8,0(x1)": (a.store("sb", 8, 1, 0), 0x00808023),
    "rem x9,x5,x6": (a.register("rem", 9, 5, 6), 0x0262E4B3),
    "sw x9,8(x1)": (a.store("sw", 9, 1, 8), 0x0090A423),
    "lbu x2,5(x3)": (a.immediate("lbu", 2, 3, 5), 0x0051C103),
    "sw x2,8(x1)": (a.store("sw", 2, 1, 8), 0x0020A423),
    "addi x2,x0,1": (a.immediate("addi", 2, 0, 1), 0x00100113),
    "andi x2,x2,1": (a.immediate("andi", 2, 2, 1), 0x00117113),
    "addi x1,x1,8": (a.immediate("addi", 1, 1, 8), 0x00808093),
    "sw x0,0(x1)": (a.store("sw", 0, 1, 0), 0x0000A023),
    "sw x0,8(x3)": (a.store("sw", 0, 3, 8), 0x0001A423),
    "fence": (a.fence(), 0x0FF0000F),
}

HALT = "lui x1,0xF0000; sw x0,8(x1)"
SEND = "lui x1,0xF0000; addi x2,x0,65; sb x2,0(x1); sw x0,8(x1)"
LOOP = "addi x2,x0,2; addi x2,x2,-1; bne x2,x0,-4; lui x1,0xF0000; sw x0,8(x1)"
LOAD = "lui x3,0x80000; lb x2,0(x3); lui x1,0xF0000; sb x2,0(x1); sw x0,8(x1)"
KEEP = "lui x3,0x80000; addi x2,x0,65; sw x2,0(x3); sb x0,1(x3); lw x4,0(x3); lui x1,0xF0000; sb x4,0(x1); sw x4,8(x1)"
BYTE = "lui x1,0xF0000; lui x3,0x80000; lbu x2,5(x3); sw x2,8(x1)"
MASK = "lui x1,0xF0000; addi x2,x0,1; andi x2,x2,1; sw x2,8(x1)"
ADDED = "lui x1,0xF0000; addi x1,x1,8; sw x0,0(x1)"

OUTCOMES = ("no-effect", "silent", "detected", "illegal", "address", "misaligned", "timeout")

Counts = tuple[int, ...]  # the number of sites of each outcome
Told = tuple[int, str, str]  # a status and the texts on standard output and standard error
# A command, its options, what it answers, and the campaign file that it leaves.
Call = tuple[str, list[str], Told, "bytes | None"]
Judge = Callable[[list[str]], Told]


def program(text: str) -> bytes:
    return a.code([WORDS[line][1] for line in text.split("; ")])


def image(text: str, *more: tuple[int, bytes], entry: int = a.ROM) -> bytes:
    return a.image([(a.ROM, program(text)), *more], entry)


def put(content: bytes, offset: int, size: int, value: int) -> bytes:
    return content[:offset] + value.to_bytes(size, "little") + content[offset + size :]


def reports() -> Iterator[tuple[bytes, int, int, Counts]]:
    """An image, a limit, the number of instructions and the totals in the order of the report."""
    # Every flip of x1 between the two instructions makes the store miss HALT, and those of two bits misalign it.
    yield image(HALT), 100, 2, (2208, 0, 0, 0, 30, 2, 0)
    # Bit 2 of x1 hits DETECT, bit 3 hits HALT with no output; 8 bits of x2 change the output.
    yield image(SEND), 100, 4, (4376, 10, 2, 0, 90, 2, 0)
    # Bit 5 of x2 gives runs that halt at instruction 71 exactly, so one step less makes four of them time out.
    yield image(LOOP), 71, 7, (7702, 0, 0, 0, 30, 2, 106)
    yield image(LOOP), 70, 7, (7698, 0, 0, 0, 30, 2, 110)
    yield image(LOOP), 7, 7, (7681, 0, 0, 0, 30, 2, 127)
    # Four flips of x3 load another byte of RAM.
    yield image(LOAD, (a.RAM, b"A")), 100, 5, (5472, 37, 1, 0, 88, 2, 0)
    yield image(KEEP), 100, 8, (8596, 181, 1, 0, 172, 10, 0)
    yield image(BYTE), 100, 4, (4300, 56, 0, 0, 118, 6, 0)
    yield image(MASK), 100, 4, (4351, 33, 0, 0, 90, 6, 0)
    # Bit 3 of x1 at the store sends a byte in place of the end, and the run goes on to a word of zeros.
    yield image(ADDED), 100, 3, (3296, 0, 0, 1, 59, 4, 0)
    # A second segment over the first, and a header of another type that points past the file.
    yield image(SEND, (a.ROM + 4, program("addi x2,x0,66"))), 100, 4, (4376, 10, 2, 0, 90, 2, 0)
    more = put(put(image(HALT, (a.RAM, b"")), 84, 4, 0x70000003), 100, 4, 0xFFFFFFFF)
    yield put(more, 104, 4, 0xFFFFFFFF), 100, 2, (2208, 0, 0, 0, 30, 2, 0)


def in_ram(text: str) -> bytes:
    """The same where RAM holds the program and ROM nothing."""
    return a.image([(a.RAM, program(text))], a.RAM)


def flagged() -> Iterator[tuple[bytes, list[str], int, Counts, int, int]]:
    """An image, the options that say the kind of case, the sites of an instruction, the totals, and the numbers of jobs and of live
    sites; each program has two instructions."""
    # In either cycle bits 0 and 1 of the pc misalign it, bits 3 to 5 lead to a word of zeros, and those above out of ROM. Bit 2 leads at
    # cycle 0 to the store, which lacks its address, and at cycle 1 back to the first word, which runs again.
    yield image(HALT), ["--pc"], 1152, (2209, 0, 0, 6, 83, 6, 0), 96, 96
    # Beside x1 the bytes of both words. Six bits of the first make it none, nine of the second, which stand for two cycles each; with
    # bit 20 of that it stores x1 in place of 0 to HALT, and with 13 and 21 to 24 a byte, or another register that holds 0.
    yield in_ram(HALT), ["--ram-code"], 1120, (2122, 2, 0, 24, 86, 6, 0), 96, 128
    # Beside those the pc, as in ROM; but RAM has 16 bytes, so that bit 3 alone leads to a word of zeros.
    yield in_ram(HALT), ["--pc", "--ram-code"], 1152, (2123, 2, 0, 26, 143, 10, 0), 160, 192
    yield image(HALT), ["--ram-code"], 1120, (2208, 0, 0, 0, 30, 2, 0), 32, 32


def plans() -> Iterator[tuple[bytes, int, int, int]]:
    """An image, the number of instructions, of jobs, and of the sites that belong to one."""
    yield image(HALT), 2, 32, 32
    # x1 at the first store stands for two cycles.
    yield image(SEND), 4, 96, 128
    yield image(LOOP), 7, 160, 160
    # The byte of RAM and x2 stand for two cycles each.
    yield image(LOAD, (a.RAM, b"A")), 5, 136, 176
    # Of the loaded word one byte was overwritten, so three stand for two cycles.
    yield image(KEEP), 8, 288, 376
    # The byte of RAM and x1 stand for three cycles each.
    yield image(BYTE), 4, 104, 184
    yield image(MASK), 4, 96, 160
    yield image(ADDED), 3, 64, 64


def samples() -> Iterator[tuple[bytes, list[str], int, int, Counts]]:
    """An image, options, the number of instructions, the population, and what three draws by seed 42 give in the order of the report."""
    # The words of this seed, which `main` has below, are 0.630, 0.727 and 0.748 of the population: here the indices 80, 93 and 95.
    yield in_ram(HALT), ["--ram-code", "--live"], 2, 128, (0, 0, 0, 1, 1, 1, 0)
    # Bit 7 of x19, a bit of the byte 3 and one of the byte 15 of RAM, which nothing reads.
    yield image(SEND), [], 4, 4480, (3, 0, 0, 0, 0, 0, 0)
    # Bit 20 of x1, and bit 23 twice.
    yield image(HALT), ["--live"], 2, 32, (0, 0, 0, 0, 3, 0, 0)


def texts() -> Iterator[tuple[bytes, tuple[str, ...], str]]:
    """An image, a command with its options behind the limit, and what it writes."""
    columns = "".join(f"1,1,{bit},1\n" for bit in range(32))
    yield image(HALT), ("plan", "--format", "csv"), "cycle,cell,bit,weight\n" + columns
    yield image(HALT), ("trace",), "0 20000000 f00000b7\n1 20000004 0000a423\noutput -\nend halted 0\n"
    yield image(HALT, entry=0), ("trace",), "0 00000000 --------\noutput -\nend trapped\n"
    yield in_ram(HALT), ("trace",), "0 80000000 --------\noutput -\nend trapped\n"
    yield in_ram(HALT), ("trace", "--ram-code"), "0 80000000 f00000b7\n1 80000004 0000a423\noutput -\nend halted 0\n"
    # After the store the next word is one of zeros.
    spoiled = "0 80000000 800001b7\n1 80000004 0001a423\n2 80000008 00000000\noutput -\nend trapped\n"
    yield in_ram("lui x3,0x80000; sw x0,8(x3); fence"), ("trace", "--ram-code"), spoiled
    detected = "0 20000000 f00000b7\n1 20000004 0000a223\noutput -\nend detected\n"
    yield image("lui x1,0xF0000; sw x0,4(x1)"), ("trace",), detected
    later = image(SEND, (a.ROM + 4, program("addi x2,x0,66")))
    sent = "0 20000000 f00000b7\n1 20000004 04200113\n2 20000008 00208023\n3 2000000c 0000a423\noutput 42\nend halted 0\n"
    yield later, ("trace",), sent
    numbers = '{"address":90,"detected":2,"illegal":0,"instructions":4,"misaligned":2,'
    numbers += '"no_effect":4376,"silent":10,"sites":4480,"timeout":0}\n'
    yield image(SEND), ("run", "--format", "json"), numbers
    yield image(SEND), ("brute", "--format", "json"), numbers


def refusals() -> Iterator[tuple[bytes, int, int, str]]:
    """An image, a limit, the status and the line on standard error."""
    good, runs = image(HALT), "golden run"
    yield image(HALT, entry=0), 100, 4, f"{runs} trapped at cycle 0"
    yield in_ram(HALT), 100, 4, f"{runs} trapped at cycle 0"
    yield image("lui x1,0xF0000; sw x0,4(x1)"), 100, 4, f"{runs} detected at cycle 1"
    yield image(LOOP), 6, 4, f"{runs} did not halt within 6 instructions"
    yield put(put(put(good, 64, 4, 0), 68, 4, 0), 72, 4, 0), 100, 4, f"{runs} trapped at cycle 0"
    for length in range(92):
        reason = "1 Short" if length < 52 else "8 BadHeaders" if length < 84 else "10 SegmentPastFile"
        yield good[:length], 100, 3, f"image refused: {reason}"
    for offset, size, value, reason in (
        (0, 1, 0x7E, "2 NotElf"), (4, 1, 2, "3 NotClass32"), (5, 1, 2, "4 NotLittle"), (6, 1, 0, "5 Version"),
        (16, 2, 3, "6 NotExec"), (18, 2, 62, "7 NotRiscv"), (44, 2, 65535, "8 BadHeaders"), (28, 4, 0xFFFFFFFF, "8 BadHeaders"),
        (68, 4, 9, "9 FilePastMemory"), (56, 4, 85, "10 SegmentPastFile"), (56, 4, 0xFFFFFFFF, "10 SegmentPastFile"),
        (64, 4, 0x20000039, "11 SegmentOutsideMap"), (64, 4, 0xFFFFFFFC, "11 SegmentOutsideMap"),
    ):
        yield put(good, offset, size, value), 100, 3, f"image refused: {reason}"


def cases() -> Iterator[tuple[bytes, str, list[str], Told]]:
    """An image, the command, the words behind its files and regions, and the status and both texts."""
    for content, limit, count, totals in reports():
        lines = [f"instructions {count}", f"sites {1120 * count}"]
        lines += [f"{name} {total}" for name, total in zip(OUTCOMES, totals)]
        text = "".join(line + "\n" for line in lines)
        yield content, "run", [str(limit)], (0, text, "")
        yield content, "brute", [str(limit)], (0, text, "")
    for content, count, jobs, live in plans():
        sites = 1120 * count
        text = f"instructions {count}\nsites {sites}\njobs {jobs}\nlive {live}\ndead {sites - live}\n"
        yield content, "plan", ["100"], (0, text, "")
    for content, flags, each, totals, jobs, live in flagged():
        lines = ["instructions 2", f"sites {2 * each}"]
        text = "".join(line + "\n" for line in [*lines, *(f"{name} {total}" for name, total in zip(OUTCOMES, totals))])
        yield content, "run", ["100", *flags], (0, text, "")
        yield content, "brute", ["100", *flags], (0, text, "")
        text = "".join(line + "\n" for line in [*lines, f"jobs {jobs}", f"live {live}", f"dead {2 * each - live}"])
        yield content, "plan", ["100", *flags], (0, text, "")
    for content, flags, count, population, totals in samples():
        lines = [f"instructions {count}", f"population {population}", "samples 3"]
        text = "".join(line + "\n" for line in [*lines, *(f"{name} {total}" for name, total in zip(OUTCOMES, totals))])
        yield content, "sample", ["100", "--seed", "42", "--count", "3", *flags], (0, text, "")
    yield image(HALT), "trace", ["100", "--pc"], (1, "", command_words.USAGE + "\n")
    for content, (command, *more), text in texts():
        yield content, command, ["100", *more], (0, text, "")
    for content, limit, status, text in refusals():
        yield content, "run", [str(limit)], (status, "", text + "\n")


def campaigns() -> Iterator[tuple[bytes, list[Call]]]:
    """An image, and calls of `run` or `report` one after the other: options, the status, both texts, and the file's bytes."""
    numbers = "01 00000020 00000020 40000000 00000080 10000000 64000000"
    report = "instructions 2\nsites 2240\nno-effect 2208\nsilent 0\ndetected 0\nillegal 0\naddress 30\nmisaligned 2\ntimeout 0\n"
    # Each flip of x1 traps: those of bits 0 and 1 misalign the store of a word.
    head = bytes.fromhex(f"a5 4641494c434d50 01 69000000 {numbers} b70000f0 23a40000") + bytes(56 + 16)
    rows = b"".join(bytes.fromhex(f"01000000 01000000 {bit:02x} {7 if bit < 2 else 6:02x}") for bit in range(32))
    whole = head + bytes.fromhex("a5 2000") + rows + bytes(1)
    table = "cycle,cell,bit,weight,outcome\n" + "".join(f"1,1,{bit},1,{'misaligned' if bit < 2 else 'address'}\n" for bit in range(32))
    pages = head + b"".join(
        bytes.fromhex("a5") + (len(part) // 10).to_bytes(2, "little") + part for part in (rows[:150], rows[150:300], rows[300:])
    )
    yield image(HALT), [
        ("run", [], (0, report, ""), whole),
        ("run", ["--page", "1"], (0, report, ""), whole),
        ("run", ["--stop-after", "0"], (0, report, ""), whole),
        ("report", ["--format", "csv"], (0, table, ""), whole),
        ("audit", [], (0, "kept 32 wrong 0\n", ""), whole),
        ("run", ["--fresh", "--stop-after", "0"], (7, "", "stopped: 0 of 32 jobs kept\n"), head + bytes(1) + whole[119:]),
    ]
    yield image(HALT), [("run", ["--page", "15"], (0, report, ""), pages + bytes(1))]
    # Forty jobs: of x1 at the first store, where bit 2 detects and bit 3 halts too early, and eight bits of x2, all of them silent.
    code = bytes.fromhex("b70000f0 13011004 23802000 23a40000")
    head = bytes.fromhex(f"a5 4641494c434d50 01 69000000 {numbers}") + code + bytes(48 + 16)
    first = b"".join(bytes.fromhex(f"02000000 01000000 {bit:02x} {({2: 2, 3: 1}.get(bit, 6)):02x}") for bit in range(32))
    first += b"".join(bytes.fromhex(f"02000000 02000000 {bit:02x} 01") for bit in range(8))
    # The others: the rest of x2 is not sent, and each flip of x1 at the second store, of a word, traps.
    second = b"".join(bytes.fromhex(f"02000000 02000000 {bit:02x} 00") for bit in range(8, 32))
    second += b"".join(bytes.fromhex(f"03000000 01000000 {bit:02x} {7 if bit < 2 else 6:02x}") for bit in range(32))
    stopped = head + bytes.fromhex("a5 2800") + first
    report = "instructions 4\nsites 4480\nno-effect 4376\nsilent 10\ndetected 2\nillegal 0\naddress 90\nmisaligned 2\ntimeout 0\n"
    yield image(SEND), [
        ("report", [], (7, "", "stopped: 0 of 96 jobs kept\n"), None),
        ("audit", [], (0, "kept 0 wrong 0\n", ""), None),
        ("run", ["--stop-after", "40"], (7, "", "stopped: 40 of 96 jobs kept\n"), stopped + bytes(1)),
        ("report", [], (7, "", "stopped: 40 of 96 jobs kept\n"), stopped + bytes(1)),
        ("audit", [], (0, "kept 40 wrong 0\n", ""), stopped + bytes(1)),
        ("run", [], (0, report, ""), stopped + bytes.fromhex("a5 3800") + second + bytes(1)),
        ("report", [], (0, report, ""), stopped + bytes.fromhex("a5 3800") + second + bytes(1)),
    ]


def as_old(file: bytes) -> bytes:
    """A campaign file of these programs as older versions wrote it, with 3 for a trap of any kind. Rows begin at 121; those of a second
    batch go on at their ten bytes behind its three."""
    at, content = 121, bytearray(file)
    while at + 10 < len(content):
        batch = int.from_bytes(content[at - 2 : at], "little")
        for place in range(at + 9, at + 10 * batch, 10):
            content[place] = 3 if content[place] > 4 else content[place]
        at += 10 * batch + 3
    return bytes(content)


def old_files() -> Iterator[tuple[bytes, str, list[str], bytes, Told, bytes]]:
    """An image, a campaign file of an older version, and a call: its options, status and both texts, and the bytes of the file then."""
    (halt, [(_, _, (_, report, _), whole), *_]), _, (send, calls) = campaigns()
    stopped, sent = calls[2][3], calls[5][3]
    assert whole and stopped and sent
    old = as_old(whole)
    # All its jobs run again, and their rows come behind the old ones.
    again = old[:441] + bytes.fromhex("a5 2000") + whole[121:441] + bytes(1)
    assert len(again) == 765
    yield halt, "report", [], old, (7, "", "stopped: 0 of 32 jobs kept\n"), old
    yield halt, "audit", [], old, (0, "kept 0 wrong 0\n", ""), old
    yield halt, "run", [], old, (0, report, ""), again
    yield halt, "run", [], again, (0, report, ""), again
    yield halt, "report", [], again, (0, report, ""), again
    yield halt, "audit", [], again, (0, "kept 32 wrong 0\n", ""), again
    yield send, "report", [], as_old(stopped), (7, "", "stopped: 10 of 96 jobs kept\n"), as_old(stopped)
    yield send, "audit", [], as_old(sent), (0, "kept 34 wrong 0\n", ""), as_old(sent)
    # Beside an old row one of another kind than a trap is a conflict, and each kind of trap is none.
    for outcome, said in (0, "5 Conflict at 121 and 444"), (4, "5 Conflict at 121 and 444"), (8, "4 BadRow at 444"), (6, None), (3, None):
        file = old[:441] + bytes.fromhex(f"a5 0100 01000000 01000000 00 {outcome:02x} 00")
        kept = "stopped: %d of 32 jobs kept\n" % (outcome == 6)
        yield halt, "report", [], file, (6, "", f"campaign file refused: {said}\n") if said else (7, "", kept), file
    # A row that disagrees with the second one before it, and not with the first.
    file = old[:441] + bytes.fromhex("a5 0200 01000000 01000000 00 06  01000000 01000000 00 07 00")
    yield halt, "report", [], file, (6, "", "campaign file refused: 5 Conflict at 444 and 454\n"), file
    # An old row of a job that has no effect is not sound: it is run, and then the two disagree.
    file = sent[:118] + bytes.fromhex("a5 0100 02000000 02000000 08 03 00")
    after = file[:-1] + bytes.fromhex("a5 6000") + sent[121:521] + sent[524:]
    yield send, "run", [], file, calls[5][2], after
    yield send, "report", [], after, (6, "", "campaign file refused: 5 Conflict at 121 and 534\n"), after
    # No job has the name of an old row.
    yield halt, "report", [], put(old, 121, 1, 0), (6, "", "campaign file refused: 4 BadRow at 121\n"), put(old, 121, 1, 0)


def further() -> Iterator[tuple[bytes, list[str]]]:
    """Images with their options: `run` and `brute` write the same of them, and so does the reference."""
    segments: dict[str, list[tuple[int, bytes]]] = {SEND: [], LOOP: [], LOAD: [(a.RAM, b"A")], KEEP: [], ADDED: []}
    for text, more in segments.items():
        yield from ((image(text, *more), [*REGIONS, "71", *flags]) for flags in kinds.KINDS[1:])
    for number, one in enumerate(code_in_ram.programs()):
        if number % 2 == 0 or number > 20:
            yield one.image, ["--rom", one.rom, "--ram", one.ram, "--limit", str(one.limit), *one.flags]


def other_kinds() -> Iterator[tuple[Sequence[str], bytes]]:
    """Options, and a campaign file of the first report's image for other ones: it keeps nothing."""
    for flags, others in itertools.permutations(kinds.KINDS, 2):
        content = keep_file.header(kinds.case_of(image(HALT), others))
        assert content[13] == 1 + kinds.KINDS.index(others)
        yield flags, content


def refused_files() -> Iterator[tuple[bytes, str | None]]:
    """A campaign file of the first report's image, and the reason against it; where there is none it keeps nothing."""
    good = next(campaigns())[1][0][3]
    assert good
    yield b"", None
    for length in range(1, 8):
        yield good[:length], "1 NotACampaign"
    for length in (8, 9, 12, 13, 14, 117, 118, 119, 120, 121, 130, 131, 440, 441):
        yield good[:length], "3 Cut"
    yield b"\0" + good[1:], "1 NotACampaign"
    yield put(good, 7, 1, 0x51), "1 NotACampaign"
    yield put(good, 8, 1, 2), "2 Version"
    yield put(good, 8, 1, 2)[:9], "2 Version"
    # The kind stands at 0 of the card, the limit at 21, and the last byte of RAM at 104.
    yield from ((put(good, 13, 1, kind), "6 OtherCase at 0") for kind in (0, 2, 3, 4, 5))
    yield put(good, 13 + 21, 1, 101), "6 OtherCase at 21"
    yield put(good, 13 + 104, 1, 1), "6 OtherCase at 104"
    yield put(good, 9, 4, 104), "6 OtherCase at 104"
    yield put(good, 9, 4, 106), "6 OtherCase at 105"
    yield put(put(good, 9, 4, 1000), 8, 1, 1), "3 Cut"
    # Rows begin at 121 and take ten bytes each.
    yield put(good, 121 + 9, 1, 8), "4 BadRow at 121"
    yield put(good, 131 + 8, 1, 32), "4 BadRow at 131"
    yield put(put(good, 131 + 8, 1, 32), 141 + 9, 1, 0xFF), "4 BadRow at 141"
    yield put(put(good, 141 + 8, 1, 0), 141 + 9, 1, 1), "5 Conflict at 121 and 141"
    yield put(put(put(good, 141 + 8, 1, 0), 141 + 9, 1, 1), 131 + 8, 1, 32), "5 Conflict at 121 and 141"
    yield put(good, 119, 2, 33), "3 Cut"
    yield put(good, 118, 1, 0), None


def refused_by_other_kinds(judged: Callable[..., None], case: pathlib.Path) -> None:
    """A file of one kind to the commands of each other kind."""
    said = (6, "", "campaign file refused: 6 OtherCase at 0\n")
    for flags, content in other_kinds():
        for command in "run", "report", "audit":
            words = [command, case.name, FILE.name, *REGIONS, "100", *flags]
            judged(f"a file of kind {content[13]}, {command} {flags}", words, content, said, content)


def alike(
    name: str, check: Callable[[str, object, object], None], by_program: Judge, files: list[str], options: list[str]
) -> None:
    """One program by `brute` and `run`, of the program and of the reference, whose campaign files have the same bytes."""
    wanted, kept = reference.judge(["brute", *files, *options]), []
    check(f"{name}, brute", wanted, by_program(["brute", *files, *options]))
    for judge in (by_program, reference.judge):
        FILE.unlink(missing_ok=True)
        check(f"{name}, run, {judge.__name__}", wanted, judge(["run", *files, FILE.name, *options]))
        kept.append(FILE.read_bytes() if FILE.exists() else None)
    check(f"{name}, its files", kept[1], kept[0])
    FILE.unlink(missing_ok=True)


def main() -> int:
    path = os.path.abspath(sys.argv[1])
    passed, failed = 0, 0

    def check(name: str, wanted: object, got: object) -> None:
        nonlocal passed, failed
        if wanted == got:
            passed += 1
        else:
            failed += 1
            print(f"failed: {name}\n  wanted {wanted}\n  got    {got}", flush=True)

    for name, (assembled, word) in WORDS.items():
        check(name, f"{word:08x}", f"{assembled:08x}")
    # PCG's own demonstration takes seed 42 and stream 54. Of 128, and of the sites of four instructions with 16 bytes of RAM:
    demonstration = "a15c02b7 7b47f409 ba1d3330 83d2f293 bfa4784b cbed606e"
    check("the words of seed 42", demonstration, " ".join(f"{word:08x}" for word in itertools.islice(draws.words(42), 6)))
    sites = list(draws.sites(4, 16))
    check("draws of 128", [80, 93, 95], list(itertools.islice(draws.indices(42, 128), 3)))
    drawn = list(itertools.islice(draws.indices(42, len(sites)), 3))
    check("draws of all sites", [2823, 3256, 3353], drawn)
    check("the sites that are drawn", [(2, 19, 7), (2, 35, 0), (2, 47, 1)], [sites[index] for index in drawn])
    # Division by zero, and the one quotient that does not fit: the output is what each gave.
    edge = "lui x1,0xF0000; addi x2,x0,7; div x4,x2,x0; sb x4,0(x1); rem x4,x2,x0; sb x4,0(x1); lui x5,0x80000; "
    edge += "addi x6,x0,-1; div x7,x5,x6; srli x8,x7,24; sb x8,0(x1); rem x9,x5,x6; sw x9,8(x1)"
    edges = reference.Case(range(a.ROM, a.ROM + 64), range(a.RAM, a.RAM + 16), 100)
    reference.load(image(edge), edges)
    machine = reference.Machine(edges)
    check("the end of the edges of division", ("halted", 0), machine.finish())
    check("the output of the edges of division", "ff0780", machine.output.hex())
    whole = next(campaigns())[1][0][3]
    assert whole
    check("a file of an older version", OLDER.read_bytes(), as_old(whole))
    for name, wanted, got in kinds.checks():
        check(name, wanted, got)

    def judged(name: str, words: list[str], before: bytes | None, wanted: Told, after: bytes | None) -> None:
        """One line of words to both, over a campaign file of these bytes, or none; their answers, and the file that they leave."""
        for judge in (by_program, reference.judge):
            FILE.unlink(missing_ok=True)
            if before is not None:
                FILE.write_bytes(before)
            got = judge(words)
            left = FILE.read_bytes() if FILE.exists() else None
            check(f"{name}, {judge.__name__}", (wanted, after), (got, left))
            check(f"{name}, {judge.__name__}, its files", {"case.elf", FILE.name}, {*os.listdir(), FILE.name})

    def by_program(words: list[str]) -> Told:
        done = subprocess.run([path, *words], stdin=subprocess.DEVNULL, capture_output=True, timeout=100)
        return done.returncode, done.stdout.decode("ascii", "replace"), done.stderr.decode("ascii", "replace")

    with tempfile.TemporaryDirectory() as folder:
        os.chdir(folder)
        case = pathlib.Path("case.elf")
        for number, (content, command, more, wanted) in enumerate(cases()):
            case.write_bytes(content)
            words = [command, case.name, *([FILE.name] if command == "run" else []), *REGIONS, *more]
            check(f"case {number} by the reference", wanted, reference.judge(words))
            # What a good run leaves in the file is compared below.
            after = FILE.read_bytes() if FILE.exists() else None
            check(f"case {number}, its file", command == "run" and wanted[0] == 0, after is not None)
            judged(f"case {number}", words, None, wanted, after)
            FILE.unlink(missing_ok=True)
        for number, (content, calls) in enumerate(campaigns()):
            case.write_bytes(content)
            before = None
            for command, more, wanted, after in calls:
                words = [command, case.name, FILE.name, *REGIONS, "100", *more]
                judged(f"campaign {number}, {command} {more}", words, before, wanted, after)
                before = after
        for number, (content, command, more, before, wanted, after) in enumerate(old_files()):
            case.write_bytes(content)
            judged(f"old file {number}, {command}", [command, case.name, FILE.name, *REGIONS, "100", *more], before, wanted, after)
        # The last campaign's file, in which the first row, a trap, says no effect.
        *_, (content, [*_, (_, _, _, before)]) = campaigns()
        case.write_bytes(content)
        assert before
        changed = before[:130] + bytes(1) + before[131:]
        wrong = (0, "wrong 2 1 0 no-effect address\nkept 96 wrong 1\n", "")
        judged("a wrong outcome", ["audit", case.name, FILE.name, *REGIONS, "100"], changed, wrong, changed)
        case.write_bytes(image(HALT))
        refused_by_other_kinds(judged, case)
        for number, (content, options) in enumerate(further()):
            case.write_bytes(content)
            alike(f"further program {number}", check, by_program, [case.name], options)
        case.write_bytes(image(HALT))
        for number, (content, reason) in enumerate(refused_files()):
            said = (6, "", f"campaign file refused: {reason}\n") if reason else (7, "", "stopped: 0 of 32 jobs kept\n")
            judged(f"file {number}", ["report", case.name, FILE.name, *REGIONS, "100"], content, said, content)
            if reason:
                judged(f"file {number}, run", ["run", case.name, FILE.name, *REGIONS, "100"], content, said, content)
    print(f"{passed} passed, {failed} failed")
    return 1 if failed else 0


if __name__ == "__main__":
    sys.exit(main())
