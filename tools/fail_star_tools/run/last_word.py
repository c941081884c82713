"""The last instruction of a run without a fault that did not halt: for explain.py."""

from __future__ import annotations

import re
from collections import deque
from dataclasses import dataclass

from fail_star_tools.read.campaign_file import Refusal, Region
from fail_star_tools.read.cells import MOST_RAM
from fail_star_tools.run import program

STEP = re.compile("([0-9]{1,8}) ([0-9a-f]{8}) ([0-9a-f]{8}|-{8})\n")
RETURN = 0x00008067
LOOKED_AT = 400  # instructions before the last one, from which its address register follows
LONGEST_LINE = 40_000_000
LOAD, STORE, JALR, JAL, BRANCH, SYSTEM, ATOMIC, LUI, AUIPC, IMMEDIATE = (
    0x03,
    0x23,
    0x67,
    0x6F,
    0x63,
    0x73,
    0x2F,
    0x37,
    0x17,
    0x13,
)
FLOATING = (0x07, 0x27, 0x43, 0x47, 0x4B, 0x4F, 0x53)
CALLS = {0x00000073: "ECALL", 0x00100073: "EBREAK", 0x30200073: "MRET", 0x10500073: "WFI"}
REGISTERS = {
    0x300: "mstatus",
    0x304: "mie",
    0x305: "mtvec",
    0x340: "mscratch",
    0xB00: "mcycle",
    0xC00: "cycle",
    0xF14: "mhartid",
}
PORTS = {0xF0000000: "output", 0xF0000004: "detect", 0xF0000008: "halt"}


@dataclass(frozen=True)
class Step:
    """An instruction of the run: its number, its address, and its word, if one could be fetched."""

    number: int
    pc: int
    word: int | None


def steps_of(image: str, options: list[str]) -> list[Step]:
    """The last instructions of the run, as the program writes them; empty if the program is missing or refuses the
    image."""
    steps: deque[Step] = deque(maxlen=LOOKED_AT)
    try:
        program.look_at_image(image)
        with program.lines(program.found(None), ["trace", image, *options], "fail_star trace") as lines:
            while line := lines.readline(LONGEST_LINE):
                found = STEP.fullmatch(line)
                if found:
                    steps.append(
                        Step(int(found[1]), int(found[2], 16), None if found[3][0] == "-" else int(found[3], 16))
                    )
    except Refusal:
        return []
    return list(steps)


def signed(value: int, bits: int) -> int:
    """A number of this size in bits, of which the highest is the sign."""
    return value - (1 << bits) if value >> (bits - 1) & 1 else value


def known_registers(steps: list[Step]) -> dict[int, int]:
    """The registers whose last value was computed only from constants."""
    known = {0: 0}
    for step in steps:
        word = step.word
        if word is None:
            continue
        opcode, rd, rs1 = word & 0x7F, word >> 7 & 31, word >> 15 & 31
        value = None
        if opcode == LUI:
            value = word & 0xFFFFF000
        elif opcode == AUIPC:
            value = step.pc + (word & 0xFFFFF000) & 0xFFFFFFFF
        elif opcode == IMMEDIATE and word >> 12 & 7 == 0 and rs1 in known:
            value = known[rs1] + signed(word >> 20, 12) & 0xFFFFFFFF
        elif opcode in (JAL, JALR):
            value = step.pc + 4
        elif opcode in (STORE, BRANCH):
            continue
        known.pop(rd, None)
        if value is not None:
            known[rd] = value
        known[0] = 0
    return known


def lines_of(steps: list[Step], rom: Region, ram: Region) -> list[str]:
    """The text about the last instruction, and about what it may mean."""
    if not steps:
        return []
    last, known = steps[-1], known_registers(steps[:-1])
    if last.word is None:
        what = "starts at" if last.number == 0 else "jumped to"
        return [f"The program {what} {last.pc:#010x}, {place_of(last.pc, rom, ram)}{jumped(steps, last.pc)}."]
    what = f"The last instruction, at {last.pc:#010x}, has the word {last.word:08x}"
    reason = reason_of(last, known, rom, ram)
    return [f"{what}: {reason}." if reason else f"{what}."]


def place_of(address: int, rom: Region, ram: Region) -> str:
    """The text about the memory at an address."""
    for name, region in (("ROM", rom), ("RAM", ram)):
        if region.base <= address < region.base + region.size:
            return f"which is in {name}"
    return "where there is no memory"


def jumped(steps: list[Step], pc: int) -> str:
    """The text about how the run came there, if the instruction before it shows that."""
    if len(steps) < 2 or steps[-2].word is None:
        return ""
    before = steps[-2]
    if before.word == RETURN:
        hint = ": main returned, and the start code gave it no address to return to" if pc == 0 else ""
        return f", by the return at {before.pc:#010x}{hint}"
    return f", by the instruction {before.word:08x} at {before.pc:#010x}"


def reason_of(step: Step, known: dict[int, int], rom: Region, ram: Region) -> str | None:
    """The text about an instruction that may be the reason."""
    word = step.word or 0
    opcode = word & 0x7F
    if word == 0:
        return "zeros, which no code has: the run left its code, or the image lacks a part"
    if word & 3 != 3:
        return "a compressed instruction: build with -march=rv32im, and use libraries that were built in the same way"
    if word in CALLS:
        return f"{CALLS[word]}, which this machine does not have: there is no system below the program to call"
    if opcode == SYSTEM:
        number = word >> 20
        return f"a CSR instruction on {REGISTERS.get(number, f'{number:#x}')}, which this machine does not have"
    if opcode == ATOMIC:
        return "an atomic instruction: build with -march=rv32im"
    if opcode in FLOATING:
        return "a floating-point instruction: build with -march=rv32im -mabi=ilp32"
    if word == 0x0000006F or opcode == BRANCH and target_of(word) == 0:
        return "a jump to itself: end the program by a store to 0xF0000008, the halt port"
    if opcode in (LOAD, STORE):
        return reason_of_access(word, known, rom, ram)
    return None


def target_of(word: int) -> int:
    """The distance of a branch."""
    bits = word >> 31 << 12 | (word >> 7 & 1) << 11 | (word >> 25 & 63) << 5 | (word >> 8 & 15) << 1
    return signed(bits, 13)


def reason_of_access(word: int, known: dict[int, int], rom: Region, ram: Region) -> str | None:
    """The text about the address of a load or a store, if its register is known."""
    stores, rs1 = word & 0x7F == STORE, word >> 15 & 31
    what = "a store" if stores else "a load"
    if rs1 not in known:
        return f"{what} by x{rs1}"
    offset = signed((word >> 25 << 5 | word >> 7 & 31) if stores else word >> 20, 12)
    address = known[rs1] + offset & 0xFFFFFFFF
    width = 1 << (word >> 12 & 3)
    if address in PORTS:
        return f"{what} to the {PORTS[address]} port" + ("" if stores else ", which can only be written")
    where = place_of(address, rom, ram)
    if where == "which is in ROM" and stores:
        return f"a store to {address:#010x}, which is in ROM"
    if address % width:
        return f"{what} of {width} bytes at {address:#010x}, which is not a multiple of {width}"
    hint = ""
    if ram.base + ram.size <= address < ram.base + MOST_RAM:
        hint = ", past the end of --ram: use the size that the image was linked with"
    elif where == "where there is no memory" and stores:
        hint = ": the ports are at 0xF0000000, see examples/port.h"
    return f"{what} {'to' if stores else 'from'} {address:#010x}, {where}{hint}"
