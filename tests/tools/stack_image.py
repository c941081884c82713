"""Writes a program whose functions have call frames, with what tools read of it: made by hand, without a compiler.

stack_image.py FOLDER writes into a folder
  stack.elf    the program, with a symbol table
  info4.elf, info5.elf, lists5.elf, indexed5.elf    the same with debugging information of DWARF version 4 or 5, with
  a list of locations, or with numbers of strings and of addresses
  memory.elf   the same with an object that is the memory of the stack
  stack.csv    a table of jobs, all silent, and stack.trace, the run without a fault

`f` calls `g`, and saves and restores its registers by the compiler's routines. RAM has 64 bytes, and the stack begins
at its end. So the frame of `f` reaches from 0x80000020 to 0x80000040: it has `ra` at 0x8000003c, and the variable
`kept` at 0x8000002c, which is at CFA - 20. The frame of `g` reaches from 0x80000010 to 0x80000020, and has a word at
0x80000014.
"""

from __future__ import annotations

import pathlib
import struct
import sys

import assembler as a
import named_image

F, G, SAVE, RESTORE = a.ROM + 0x14, a.ROM + 0x30, a.ROM + 0x48, a.ROM + 0x54
RA, SP, GP, T0, A0, A1, A2 = 1, 2, 3, 5, 10, 11, 12


def addi(rd: int, rs1: int, value: int) -> int:
    return a.immediate("addi", rd, rs1, value)


def lw(rd: int, rs1: int, value: int) -> int:
    return a.immediate("lw", rd, rs1, value)


def back(link: int) -> int:
    return a.immediate("jalr", 0, link, 0)


WORDS = [
    # _start
    a.upper("lui", SP, 0x80000), addi(SP, SP, 64), a.jal(RA, F - a.ROM - 0x08),
    a.upper("lui", GP, 0xF0000), a.store("sw", 0, GP, 8),
    # f
    a.jal(T0, SAVE - F), addi(SP, SP, -16), a.store("sw", A0, SP, 12), addi(A0, SP, 12), a.jal(RA, G - F - 0x10),
    addi(SP, SP, 16), a.jal(0, RESTORE - F - 0x18),
    # g
    lw(A1, A0, 0), addi(SP, SP, -16), a.store("sw", A1, SP, 4), lw(A2, SP, 4), addi(SP, SP, 16), back(RA),
    # __riscv_save_0
    addi(SP, SP, -16), a.store("sw", RA, SP, 12), back(T0),
    # __riscv_restore_0
    lw(RA, SP, 12), addi(SP, SP, 16), back(RA),
]  # fmt: skip
SYMBOLS = [
    ("_start", a.ROM, 0x14, 2, False),
    ("f", F, 0x1C, 2, False),
    ("g", G, 0x18, 2, False),
    ("__riscv_save_0", SAVE, 0x0C, 2, False),
    ("__riscv_restore_0", RESTORE, 0x0C, 2, False),
]
MEMORY = ("memory_of_stack", 0x80000000, 64, 1, False)
# The instructions in the order in which they run, by their places from the start of ROM.
ORDER = [0, 1, 2, 5, 18, 19, 20, 6, 7, 8, 9, 12, 13, 14, 15, 16, 17, 10, 11, 21, 22, 23, 3, 4]
# A read of a cell: its cycle, the cell, and how many cycles its interval has since the last access to it.
BYTE = 32
READS = [
    (4, SP, 3),  # the save routine
    (5, RA, 3),
    *((11, BYTE + 0x2C + at, 3) for at in range(4)),  # g reads `kept` of f
    *((14, BYTE + 0x14 + at, 1) for at in range(4)),  # g reads its own word
    *((19, BYTE + 0x3C + at, 14) for at in range(4)),  # the restore routine
    (23, GP, 1),
]


def text(word: str) -> bytes:
    return word.encode() + b"\0"


def information(version: int, lists: bool = False, indexed: bool = False) -> list:
    """The sections .debug_abbrev, .debug_info and others: `f` with the variable `kept` of four bytes."""
    # The forms strx1, addrx1 and exprloc, or string, addr and exprloc or sec_offset.
    name, address, location = (0x25, 0x29, 0x18) if indexed else (0x08, 0x01, 0x17 if lists else 0x18)
    unit_attributes = [(0x72, 0x17), (0x73, 0x17)] if indexed else []  # DW_AT_str_offsets_base, DW_AT_addr_base
    abbreviations = [
        (1, 0x11, 1, unit_attributes),  # DW_TAG_compile_unit, with children
        # DW_TAG_subprogram: name, low_pc, high_pc, frame_base
        (2, 0x2E, 1, [(0x03, name), (0x11, address), (0x12, 0x06), (0x40, 0x18)]),
        (3, 0x34, 0, [(0x03, name), (0x49, 0x13), (0x02, location)]),  # DW_TAG_variable: name, type, location
        (4, 0x24, 0, [(0x0B, 0x0B)]),  # DW_TAG_base_type: byte_size
        (5, 0x26, 0, [(0x49, 0x13)]),  # DW_TAG_const_type: type
    ]
    rows = [bytes([*head, *(byte for pair in forms for byte in pair), 0, 0]) for *head, forms in abbreviations]
    abbreviation = b"".join(rows) + b"\0"
    head = 12 if version == 5 else 11
    entries = b"\1" + (struct.pack("<II", 8, 8) if indexed else b"")
    integer = head + len(entries)
    entries += b"\4\4"  # a type of four bytes
    constant = head + len(entries)
    entries += b"\5" + struct.pack("<I", integer)
    entries += b"\2" + (b"\0\0" if indexed else text("f") + struct.pack("<I", F)) + struct.pack("<I", G - F) + b"\1\x9c"
    entries += b"\3" + (b"\1" if indexed else text("kept")) + struct.pack("<I", constant)
    entries += struct.pack("<I", 12) if lists else b"\2\x91\x6c"  # DW_OP_fbreg -20
    entries += b"\0\0"
    sizes = struct.pack("<HBBI", 5, 1, 4, 0) if version == 5 else struct.pack("<HIB", 4, 0, 4)
    unit = struct.pack("<I", len(sizes + entries)) + sizes + entries
    sections = [(".debug_abbrev", 1, 0, abbreviation, 0), (".debug_info", 1, 0, unit, 0)]
    if lists:
        # A head, and a list of one row: the offsets of the whole of f, and what is left is the location.
        places = b"\6" + struct.pack("<I", F) + b"\4" + bytes([0, G - F, 2]) + b"\x91\x6c" + b"\0"
        sections.append((".debug_loclists", 1, 0, struct.pack("<IHBBI", len(places) + 8, 5, 4, 0, 0) + places, 0))
    if indexed:
        sections.append((".debug_str", 1, 0, text("f") + text("kept"), 0))
        sections.append((".debug_str_offsets", 1, 0, struct.pack("<IHHII", 12, 5, 0, 0, 2), 0))
        sections.append((".debug_addr", 1, 0, struct.pack("<IHBBI", 8, 5, 4, 0, F), 0))
    return sections


def image(more: list, symbols: tuple = ()) -> bytes:
    """The bytes of the file with further sections and symbols."""
    entries, names = named_image.symbol_table([*SYMBOLS, *symbols])
    sections = [("", 0, 0, b"", 0), (".text", 1, 6, a.code(WORDS), 0)]
    sections += [(".symtab", 2, 0, entries, 3), (".strtab", 3, 0, names, 0), *more]
    return named_image.linked(sections)


def table() -> str:
    """The lines of the table."""
    bits = ((read, bit) for read in READS for bit in range(32 if read[1] < BYTE else 8))
    rows = [f"{cycle},{cell},{bit},{weight},silent" for (cycle, cell, weight), bit in bits]
    return "\n".join(["cycle,cell,bit,weight,outcome", *rows]) + "\n"


def trace() -> str:
    """The lines of the run."""
    rows = [f"{number} {a.ROM + 4 * at:08x} {WORDS[at]:08x}" for number, at in enumerate(ORDER)]
    return "\n".join([*rows, "output -", "end halted 0"]) + "\n"


if __name__ == "__main__":
    folder = pathlib.Path(sys.argv[1])
    (folder / "stack.elf").write_bytes(image([]))
    (folder / "info4.elf").write_bytes(image(information(4)))
    (folder / "info5.elf").write_bytes(image(information(5)))
    (folder / "lists5.elf").write_bytes(image(information(5, lists=True)))
    (folder / "indexed5.elf").write_bytes(image(information(5, indexed=True)))
    (folder / "memory.elf").write_bytes(image([], (MEMORY,)))
    (folder / "stack.csv").write_text(table())
    (folder / "stack.trace").write_text(trace())
