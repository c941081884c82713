"""An assembler for tests: words of RV32IM from mnemonics, and small ELF executables that contain them.

The encodings follow the listings of the instruction set in the RISC-V Instruction Set Manual, Volume I, and the
headers the chapters "ELF Header" and "Program Header" of the ELF specification.
"""

from __future__ import annotations

import struct
from collections.abc import Sequence

ROM, RAM = 0x20000000, 0x80000000

# Mnemonic: (opcode, funct3, funct7), by the tables of the RISC-V unprivileged specification.
REGISTER = {
    "add": (0x33, 0, 0x00), "sub": (0x33, 0, 0x20), "sll": (0x33, 1, 0x00), "slt": (0x33, 2, 0x00),
    "sltu": (0x33, 3, 0x00), "xor": (0x33, 4, 0x00), "srl": (0x33, 5, 0x00), "sra": (0x33, 5, 0x20),
    "or": (0x33, 6, 0x00), "and": (0x33, 7, 0x00), "mul": (0x33, 0, 0x01), "mulh": (0x33, 1, 0x01),
    "mulhsu": (0x33, 2, 0x01), "mulhu": (0x33, 3, 0x01), "div": (0x33, 4, 0x01), "divu": (0x33, 5, 0x01),
    "rem": (0x33, 6, 0x01), "remu": (0x33, 7, 0x01),
}
IMMEDIATE = {
    "addi": (0x13, 0), "slti": (0x13, 2), "sltiu": (0x13, 3), "xori": (0x13, 4), "ori": (0x13, 6), "andi": (0x13, 7),
    "lb": (0x03, 0), "lh": (0x03, 1), "lw": (0x03, 2), "lbu": (0x03, 4), "lhu": (0x03, 5), "jalr": (0x67, 0),
}
SHIFT = {"slli": (0x13, 1, 0x00), "srli": (0x13, 5, 0x00), "srai": (0x13, 5, 0x20)}
STORE = {"sb": 0, "sh": 1, "sw": 2}
BRANCH = {"beq": 0, "bne": 1, "blt": 4, "bge": 5, "bltu": 6, "bgeu": 7}
UPPER = {"lui": 0x37, "auipc": 0x17}
LOADS = ("lb", "lh", "lw", "lbu", "lhu")
MNEMONICS = [*REGISTER, *IMMEDIATE, *SHIFT, *STORE, *BRANCH, *UPPER, "jal", "fence"]


def register(name: str, rd: int, rs1: int, rs2: int) -> int:
    opcode, funct3, funct7 = REGISTER[name]
    return funct7 << 25 | rs2 << 20 | rs1 << 15 | funct3 << 12 | rd << 7 | opcode


def immediate(name: str, rd: int, rs1: int, value: int) -> int:
    """OP-IMM without the shifts, loads and JALR; the value is -2048 to 2047."""
    opcode, funct3 = IMMEDIATE[name]
    return (value & 0xFFF) << 20 | rs1 << 15 | funct3 << 12 | rd << 7 | opcode


def shift(name: str, rd: int, rs1: int, amount: int) -> int:
    opcode, funct3, funct7 = SHIFT[name]
    return funct7 << 25 | amount << 20 | rs1 << 15 | funct3 << 12 | rd << 7 | opcode


def store(name: str, rs2: int, rs1: int, value: int) -> int:
    """rs2 to the address rs1 + value."""
    high, low = (value & 0xFFF) >> 5, value & 31
    return high << 25 | rs2 << 20 | rs1 << 15 | STORE[name] << 12 | low << 7 | 0x23


def branch(name: str, rs1: int, rs2: int, value: int) -> int:
    """To pc + value; the value is even, -4096 to 4094."""
    bits = value & 0x1FFF
    high = (bits >> 12) << 6 | (bits >> 5 & 0x3F)
    low = (bits >> 1 & 15) << 1 | (bits >> 11 & 1)
    return high << 25 | rs2 << 20 | rs1 << 15 | BRANCH[name] << 12 | low << 7 | 0x63


def upper(name: str, rd: int, value: int) -> int:
    """The upper 20 bits of rd, or of what is added to pc."""
    return (value & 0xFFFFF) << 12 | rd << 7 | UPPER[name]


def jal(rd: int, value: int) -> int:
    """To pc + value; the value is even, -1048576 to 1048574."""
    bits = value & 0x1FFFFF
    placed = (bits >> 20) << 19 | (bits >> 1 & 0x3FF) << 9 | (bits >> 11 & 1) << 8 | (bits >> 12 & 0xFF)
    return placed << 12 | rd << 7 | 0x6F


def fence(fields: int = 0x0FF) -> int:
    """FENCE with any bits 31 to 15 and rd 0."""
    return fields << 20 & 0xFFFFFFFF | 0x0F


def constant(rd: int, value: int) -> list[int]:
    """One or two words that put a value into rd."""
    low = (value & 0xFFF) - (0x1000 if value & 0x800 else 0)
    high = (value - low) >> 12 & 0xFFFFF
    if high == 0:
        return [immediate("addi", rd, 0, low)]
    return [upper("lui", rd, high)] + ([immediate("addi", rd, rd, low)] if low else [])


def code(words: Sequence[int]) -> bytes:
    return struct.pack(f"<{len(words)}I", *words)


def image(segments: Sequence[tuple[int, bytes]], entry: int = ROM) -> bytes:
    """An executable of loadable segments, each an address and its bytes: headers first, then the bytes in order."""
    at = 52 + 32 * len(segments)
    identification = b"\x7fELF\x01\x01\x01" + bytes(9)
    headers = [struct.pack("<16sHHIIIIIHHHHHH", identification, 2, 243, 1, entry, 52, 0, 0, 52, 32, len(segments), 0, 0, 0)]
    for address, content in segments:
        headers.append(struct.pack("<8I", 1, at, address, address, len(content), len(content), 5, 4))
        at += len(content)
    return b"".join(headers + [content for _, content in segments])
