"""A small machine of RV32IM, used only by replay.py: it gives the registers and the memory during a replay. No count
depends on it, and a replay is refused if its instructions are not those that fail_replay wrote.

The words are those of the RISC-V unprivileged specification, and the ports and regions those of docs/MODEL.md.
"""

from __future__ import annotations

from collections.abc import Callable

from fail_star_tools.read.campaign_file import Card
from fail_star_tools.read.cells import REGISTERS, byte_cell, is_byte, offset_of

WORD, SIGN = 0xFFFFFFFF, 0x80000000
OUTPUT, DETECT, HALT = 0xF0000000, 0xF0000004, 0xF0000008
WIDTHS = {0: 1, 1: 2, 2: 4, 4: 1, 5: 2}  # of loads and stores, by funct3


def signed(value: int, bits: int = 32) -> int:
    """The signed number that the lowest bits represent."""
    value &= (1 << bits) - 1
    return value - (1 << bits) if value >> (bits - 1) else value


def divided(one: int, other: int) -> int:
    """The signed quotient, towards zero."""
    if other == 0:
        return WORD
    size = abs(signed(one)) // abs(signed(other))
    return size if (signed(one) < 0) == (signed(other) < 0) else -size


def left_over(one: int, other: int) -> int:
    """The signed remainder."""
    return one if other == 0 else signed(one) - signed(other) * divided(one, other)


Operation = Callable[[int, int], int]
PLAIN: list[Operation] = [
    lambda a, b: a + b, lambda a, b: a << (b & 31), lambda a, b: int(signed(a) < signed(b)), lambda a, b: int(a < b),
    lambda a, b: a ^ b, lambda a, b: a >> (b & 31), lambda a, b: a | b, lambda a, b: a & b,
]  # fmt: skip
OTHER: dict[int, Operation] = {0: lambda a, b: a - b, 5: lambda a, b: signed(a) >> (b & 31)}
PRODUCTS: list[Operation] = [
    lambda a, b: a * b, lambda a, b: signed(a) * signed(b) >> 32, lambda a, b: signed(a) * b >> 32,
    lambda a, b: a * b >> 32,
    divided, lambda a, b: a // b if b else WORD, left_over, lambda a, b: a % b if b else a,
]  # fmt: skip
BRANCHES: dict[int, Callable[[int, int], bool]] = {
    0: lambda a, b: a == b, 1: lambda a, b: a != b, 4: lambda a, b: signed(a) < signed(b),
    5: lambda a, b: signed(a) >= signed(b), 6: lambda a, b: a < b, 7: lambda a, b: a >= b,
}  # fmt: skip


class Machine:
    """The state of a run. After the end nothing changes."""

    def __init__(self, card: Card) -> None:
        self.card, self.pc, self.base = card, card.entry, card.ram.base
        self.registers, self.ram = [0] * REGISTERS, bytearray(card.ram_bytes)
        self.ended = False

    def copy(self) -> Machine:
        """Another machine in the same state."""
        other = Machine(self.card)
        other.pc, other.ended, other.registers, other.ram = self.pc, self.ended, self.registers[:], self.ram[:]
        return other

    def value(self, cell: int) -> int:
        """The value of a cell."""
        return self.ram[offset_of(cell)] if is_byte(cell) else self.registers[cell]

    def loaded(self, address: int, width: int) -> int | None:
        """The number at an address, or None if a load traps."""
        for region, content in ((self.card.ram, self.ram), (self.card.rom, self.card.rom_bytes)):
            if address % width == 0 and region.base <= address < region.base + region.size:
                at = address - region.base
                return int.from_bytes(content[at : at + width], "little")
        return None

    def fetched(self) -> int | None:
        """The word at the pc, or None if no word can be fetched."""
        ram = self.card.ram
        if ram.base <= self.pc < ram.base + ram.size and not self.card.ram_code:
            return None
        return self.loaded(self.pc, 4)

    def written_next(self) -> list[int]:
        """The cells that the next instruction writes, if it does not trap."""
        word = self.fetched()
        if word is None or self.ended:
            return []
        opcode, rd, funct3 = word & 0x7F, word >> 7 & 31, word >> 12 & 7
        if opcode == 0x23:
            offset = self.target_of_store(word) - self.base
            width = WIDTHS.get(funct3, 0)
            return [byte_cell(offset + at) for at in range(width)] if 0 <= offset <= len(self.ram) - width else []
        return [rd] if rd and opcode != 0x63 else []

    def target_of_store(self, word: int) -> int:
        """The address of a store."""
        return self.registers[word >> 15 & 31] + signed(word >> 25 << 5 | word >> 7 & 31, 12) & WORD

    def step(self) -> None:
        """Executes an instruction. A trap and the ports for detections and halts end the run."""
        word = self.fetched()
        if self.ended or word is None:
            self.ended = True
            return
        opcode, rd, funct3 = word & 0x7F, word >> 7 & 31, word >> 12 & 7
        first, second = self.registers[word >> 15 & 31], self.registers[word >> 20 & 31]
        target, result = self.pc + 4, None
        if opcode == 0x37:
            result = word & 0xFFFFF000
        elif opcode == 0x17:
            result = self.pc + (word & 0xFFFFF000)
        elif opcode == 0x6F:
            bits = word >> 31 << 20 | (word >> 12 & 0xFF) << 12 | (word >> 20 & 1) << 11 | (word >> 21 & 0x3FF) << 1
            target, result = self.pc + signed(bits, 21), self.pc + 4
        elif opcode == 0x67 and funct3 == 0:
            target, result = first + signed(word >> 20, 12) & WORD & ~1, self.pc + 4
        elif opcode == 0x63 and funct3 in BRANCHES:
            bits = word >> 31 << 12 | (word >> 7 & 1) << 11 | (word >> 25 & 63) << 5 | (word >> 8 & 15) << 1
            target = self.pc + signed(bits, 13) if BRANCHES[funct3](first, second) else target
        elif opcode == 0x03 and funct3 in WIDTHS:
            width = WIDTHS[funct3]
            result = self.loaded(first + signed(word >> 20, 12) & WORD, width)
            self.ended = result is None
            result = signed(result, 8 * width) if result is not None and funct3 < 4 else result
        elif opcode == 0x23 and funct3 in (0, 1, 2):
            self.store(self.target_of_store(word), WIDTHS[funct3], second)
        elif opcode in (0x13, 0x33):
            result = self.computed(word, first, second)
            self.ended = result is None
        elif opcode != 0x0F or funct3:
            self.ended = True
        self.ended = self.ended or target % 4 != 0
        if self.ended:
            return
        if rd and result is not None:
            self.registers[rd] = result & WORD
        self.pc = target & WORD

    def computed(self, word: int, first: int, second: int) -> int | None:
        """The result of an instruction that computes, or None for other instructions."""
        funct3, funct7 = word >> 12 & 7, word >> 25
        if word & 0x7F == 0x13:
            if funct3 not in (1, 5):
                return PLAIN[funct3](first, signed(word >> 20, 12) & WORD)
            second = word >> 20 & 31
            if funct7 == 0x20 and funct3 == 5:
                return OTHER[5](first, second)
            return PLAIN[funct3](first, second) if funct7 == 0 else None
        if funct7 == 1:
            return PRODUCTS[funct3](first, second)
        if funct7 == 0x20 and funct3 in OTHER:
            return OTHER[funct3](first, second)
        return PLAIN[funct3](first, second) if funct7 == 0 else None

    def store(self, address: int, width: int, value: int) -> None:
        """Stores a number in RAM or at the output port, or otherwise ends the run."""
        at = address - self.base
        if address % width == 0 and 0 <= at < len(self.ram):
            self.ram[at : at + width] = (value & (1 << 8 * width) - 1).to_bytes(width, "little")
        elif address % width or address != OUTPUT:
            self.ended = True


def at_start(card: Card) -> Machine:
    """A machine in the initial state of a case."""
    return Machine(card)


def run(machine: Machine, steps: int) -> None:
    """Executes this number of instructions."""
    for _ in range(steps):
        machine.step()
