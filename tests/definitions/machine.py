"""A second implementation of the machine: the instructions of RV32IM, the case that a run starts from, and one step.

It follows the RISC-V Instruction Set Manual, Volume I (the unprivileged ISA): the chapters on the base integer
instruction set RV32I and on the "M" extension, and the listings of the instruction set. What the machine of fail_star
adds, its regions, ports and traps, is in docs/MODEL.md and restated at the functions below. It shares no code with the
program.
"""

from __future__ import annotations

import functools
from typing import Any

MASK = 0xFFFFFFFF
OUT, DETECT, HALT = 0xF0000000, 0xF0000004, 0xF0000008
PORT_PAGE = range(0xF0000000, 0xF0001000)

Site = tuple[int, int, int]  # a cycle, a cell and a bit
Key = tuple[Any, ...]  # all of a case
End = tuple[Any, ...]  # "halted" with the exit value, "detected", or "trapped" with the kind of the trap
Instruction = tuple[str, Any, int, int, int, int]  # the kind, its detail, rd, rs1, rs2 and the immediate


# --- Instructions ---------------------------------------------------------------------------------


def signed(value: int, bits: int = 32) -> int:
    """The two's complement number that the low bits of a value stand for."""
    value &= (1 << bits) - 1
    return value - (1 << bits) if value >> (bits - 1) else value


def quotient(a: int, b: int) -> int:
    """The signed quotient, rounded towards zero; -1 where the divisor is zero."""
    a, b = signed(a), signed(b)
    if b == 0:
        return -1
    return abs(a) // abs(b) * (1 if (a < 0) == (b < 0) else -1)


def remainder(a: int, b: int) -> int:
    """The signed remainder, with the sign of the dividend; the dividend where the divisor is zero."""
    if b == 0:
        return a
    return signed(a) - signed(b) * quotient(a, b)


# What stands in rd, modulo 2^32, by (funct7, funct3) of opcode OP.
REGISTER_OPERATIONS = {
    (0x00, 0): lambda a, b: a + b,
    (0x20, 0): lambda a, b: a - b,
    (0x00, 1): lambda a, b: a << (b & 31),
    (0x00, 2): lambda a, b: int(signed(a) < signed(b)),
    (0x00, 3): lambda a, b: int(a < b),
    (0x00, 4): lambda a, b: a ^ b,
    (0x00, 5): lambda a, b: a >> (b & 31),
    (0x20, 5): lambda a, b: signed(a) >> (b & 31),
    (0x00, 6): lambda a, b: a | b,
    (0x00, 7): lambda a, b: a & b,
    (0x01, 0): lambda a, b: a * b,
    (0x01, 1): lambda a, b: (signed(a) * signed(b)) >> 32,
    (0x01, 2): lambda a, b: (signed(a) * b) >> 32,
    (0x01, 3): lambda a, b: (a * b) >> 32,
    (0x01, 4): quotient,
    (0x01, 5): lambda a, b: a // b if b else MASK,
    (0x01, 6): remainder,
    (0x01, 7): lambda a, b: a % b if b else a,
}
CONDITIONS = {
    0: lambda a, b: a == b,
    1: lambda a, b: a != b,
    4: lambda a, b: signed(a) < signed(b),
    5: lambda a, b: signed(a) >= signed(b),
    6: lambda a, b: a < b,
    7: lambda a, b: a >= b,
}
LOADS = {0: (1, True), 1: (2, True), 2: (4, True), 4: (1, False), 5: (2, False)}
STORES = {0: 1, 1: 2, 2: 4}


@functools.lru_cache(maxsize=None)
def decode(word: int) -> Instruction | None:
    """The kind, detail, rd, rs1, rs2 and immediate of a word; None outside RV32IM."""
    opcode, rd, funct3 = word & 0x7F, word >> 7 & 31, word >> 12 & 7
    rs1, rs2, funct7 = word >> 15 & 31, word >> 20 & 31, word >> 25
    immediate_i = signed(word >> 20, 12)
    if opcode == 0b0110111:
        return "lui", None, rd, 0, 0, word & 0xFFFFF000
    if opcode == 0b0010111:
        return "auipc", None, rd, 0, 0, word & 0xFFFFF000
    if opcode == 0b1101111:
        bits = (word >> 31) << 20 | (word >> 12 & 0xFF) << 12 | (word >> 20 & 1) << 11 | (word >> 21 & 0x3FF) << 1
        return "jal", None, rd, 0, 0, signed(bits, 21)
    if opcode == 0b1100111 and funct3 == 0:
        return "jalr", None, rd, rs1, 0, immediate_i
    if opcode == 0b1100011 and funct3 in CONDITIONS:
        bits = (word >> 31) << 12 | (word >> 7 & 1) << 11 | (word >> 25 & 0x3F) << 5 | (word >> 8 & 15) << 1
        return "branch", CONDITIONS[funct3], 0, rs1, rs2, signed(bits, 13)
    if opcode == 0b0000011 and funct3 in LOADS:
        return "load", LOADS[funct3], rd, rs1, 0, immediate_i
    if opcode == 0b0100011 and funct3 in STORES:
        return "store", STORES[funct3], 0, rs1, rs2, signed(funct7 << 5 | rd, 12)
    if opcode == 0b0010011 and funct3 not in (1, 5):
        return "immediate", REGISTER_OPERATIONS[0, funct3], rd, rs1, 0, immediate_i & MASK
    if opcode == 0b0010011 and (funct7 == 0 or (funct7, funct3) == (0x20, 5)):
        return "immediate", REGISTER_OPERATIONS[funct7, funct3], rd, rs1, 0, rs2
    if opcode == 0b0110011 and (funct7, funct3) in REGISTER_OPERATIONS:
        return "register", REGISTER_OPERATIONS[funct7, funct3], rd, rs1, rs2, 0
    if opcode == 0b0001111 and funct3 == 0:
        return "fence", None, 0, 0, 0, 0
    return None


# --- The machine ----------------------------------------------------------------------------------


class Case:
    """What a run starts from: an entry address, two regions with their bytes, the limit of steps, and whether the pc is a cell and
    whether code may stand in RAM."""

    def __init__(self, rom: range, ram: range, limit: int, pc_cell: bool = False, ram_code: bool = False) -> None:
        self.rom, self.ram, self.limit, self.entry = rom, ram, limit, 0
        self.pc_cell, self.ram_code = pc_cell, ram_code
        self.rom_bytes, self.ram_bytes = bytearray(len(rom)), bytearray(len(ram))

    def poke(self, address: int, byte: int) -> None:
        if address in self.rom:
            self.rom_bytes[address - self.rom.start] = byte
        else:
            self.ram_bytes[address - self.ram.start] = byte

    def key(self) -> Key:
        """All of the case, as a value that does not change."""
        numbers = self.rom, self.ram, self.limit, self.pc_cell, self.ram_code
        return *numbers, self.entry, bytes(self.rom_bytes), bytes(self.ram_bytes)

    @classmethod
    def of(cls, key: Key) -> Case:
        *numbers, entry, rom_bytes, ram_bytes = key
        case = cls(*numbers)
        case.entry, case.rom_bytes, case.ram_bytes = entry, bytearray(rom_bytes), bytearray(ram_bytes)
        return case

    def cells(self) -> list[tuple[int, int]]:
        """Each cell with its width in bits: where it is one the pc, which is 0, the registers 1 to 31, the bytes of RAM from 32 on."""
        registers = range(0 if self.pc_cell else 1, 32)
        return [(cell, 32) for cell in registers] + [(32 + at, 8) for at in range(len(self.ram))]


class Machine:
    """pc, registers, RAM, output and the number of instructions that were executed."""

    def __init__(self, case: Case) -> None:
        self.case, self.pc, self.taken = case, case.entry, 0
        self.x, self.memory, self.output = [0] * 32, bytearray(case.ram_bytes), bytearray()

    def copy(self) -> Machine:
        other = Machine.__new__(Machine)
        other.case, other.pc, other.taken = self.case, self.pc, self.taken
        other.x, other.memory, other.output = self.x[:], self.memory[:], self.output[:]
        return other

    def flip(self, cell: int, bit: int) -> None:
        if cell == 0:
            self.pc ^= 1 << bit
        elif cell < 32:
            self.x[cell] ^= 1 << bit
        else:
            self.memory[cell - 32] ^= 1 << bit

    def read(self, address: int, size: int) -> int | None:
        """The little-endian number at an address of RAM or ROM; None where the load traps."""
        if address % size:
            return None
        if address in self.case.ram:
            at = address - self.case.ram.start
            return int.from_bytes(self.memory[at : at + size], "little")
        if address in self.case.rom:
            at = address - self.case.rom.start
            return int.from_bytes(self.case.rom_bytes[at : at + size], "little")
        return None

    def write(self, address: int, size: int, value: int) -> End | None:
        """A store: None where the run goes on, else how it ended."""
        value &= (1 << 8 * size) - 1
        if address % size:
            return ("trapped", "misaligned")
        if address in self.case.ram:
            at = address - self.case.ram.start
            self.memory[at : at + size] = value.to_bytes(size, "little")
        elif address == OUT:
            self.output.append(value & 0xFF)
        elif address == DETECT:
            return ("detected",)
        elif address == HALT:
            return ("halted", value)
        else:
            return ("trapped", "address")
        return None

    def word(self) -> int | None:
        """The word at pc, of ROM or, where code may stand there, of RAM; None where nothing can be fetched."""
        fetched = self.pc in self.case.rom or (self.case.ram_code and self.pc in self.case.ram)
        return self.read(self.pc, 4) if fetched else None

    def own(self) -> set[int]:
        """The cells of RAM whose bytes are the word at pc; none where that stands in ROM, or nothing can be fetched."""
        in_ram = self.pc in self.case.ram and self.word() is not None
        return set(self.bytes_at(self.pc, 4)) if in_ram else set()

    def bytes_at(self, address: int, size: int) -> range:
        """The cells of so many bytes of RAM from an address on."""
        at = 32 + address - self.case.ram.start
        return range(at, at + size)

    def touches(self) -> dict[int, bool]:
        """The cells that the instruction at pc touches, each with whether it reads it. A cell that it reads and writes counts as
        read, and x0 is never touched. Where the pc is a cell each instruction reads it, whatever becomes of it. The bytes of a word
        that is fetched from RAM are read, also where it is no instruction."""
        reads, writes = self.own(), set()
        word = self.word()
        instruction = None if word is None else decode(word)
        if instruction is not None:
            kind, detail, rd, rs1, rs2, immediate = instruction
            reads |= {rs1, rs2} - {0}
            writes |= {rd} - {0}
            if kind in ("load", "store"):
                address, size = (self.x[rs1] + immediate) & MASK, detail[0] if kind == "load" else detail
                # Nothing is touched by an access that traps.
                if address in self.case.ram and address % size == 0:
                    (reads if kind == "load" else writes).update(self.bytes_at(address, size))
        if self.case.pc_cell:
            reads.add(0)
        return {cell: cell in reads for cell in reads | writes}

    def step(self) -> End | None:
        """Executes one instruction: None where the run goes on, else how it ended, of a trap with its kind."""
        self.taken += 1
        word = self.word()
        if word is None:
            return ("trapped", "misaligned" if self.pc % 4 else "address")
        instruction = decode(word)
        if instruction is None:
            return ("trapped", "illegal")
        kind, detail, rd, rs1, rs2, immediate = instruction
        a, b, target, result = self.x[rs1], self.x[rs2], self.pc + 4, None
        if kind == "register":
            result = detail(a, b)
        elif kind == "immediate":
            result = detail(a, immediate)
        elif kind == "branch":
            target = self.pc + immediate if detail(a, b) else target
        elif kind == "load":
            size, extends = detail
            address = (a + immediate) & MASK
            result = self.read(address, size)
            if result is None:
                return ("trapped", "misaligned" if address % size else "address")
            result = signed(result, 8 * size) if extends else result
        elif kind == "store":
            end = self.write((a + immediate) & MASK, detail, b)
            if end:
                return end
        elif kind == "lui":
            result = immediate
        elif kind == "auipc":
            result = self.pc + immediate
        elif kind == "jal":
            result, target = self.pc + 4, self.pc + immediate
        elif kind == "jalr":
            result, target = self.pc + 4, (a + immediate) & ~1
        if target % 4:
            return ("trapped", "misaligned")
        if result is not None and rd:
            self.x[rd] = result & MASK
        self.pc = target & MASK
        return None

    def finish(self) -> End | None:
        """Goes on until an end, or until the limit of steps in all; None stands for the limit."""
        while self.taken < self.case.limit:
            end = self.step()
            if end:
                return end
        return None
