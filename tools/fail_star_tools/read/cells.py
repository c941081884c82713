"""The cells of a case: which numbers they have, and how many bits. The other modules ask here.

The pc is cell 0, and a cell only in campaigns with --pc, where each instruction reads it. The registers x1 to x31 are
cells 1 to 31, and byte n of RAM, counted from 0, is cell 32 + n.
"""
from typing import Iterable

PC = 0
REGISTERS = 32  # x0, which is no cell, and x1 to x31, which have the numbers of their cells
FIRST_BYTE = 32  # the cells below are the pc and registers, and those from here on bytes of RAM
REGISTER_WIDTH, BYTE_WIDTH = 32, 8
MOST_RAM = 65536
ABI_NAMES = "zero ra sp gp tp t0 t1 t2 s0 s1 a0 a1 a2 a3 a4 a5 a6 a7 s2 s3 s4 s5 s6 s7 s8 s9 s10 s11 t3 t4 t5 t6".split()


def first_cell(pc: bool) -> int:
    """The least number of a cell, with the pc as a cell or without it."""
    return PC if pc else PC + 1


def end_of_cells(ram_size: int) -> int:
    """The number after that of the last cell."""
    return FIRST_BYTE + ram_size


def byte_cell(offset: int) -> int:
    """The number of the cell of a byte of RAM, counted from 0."""
    return FIRST_BYTE + offset


def is_byte(cell: int) -> bool:
    """Whether a cell is a byte of RAM, and not the pc or a register."""
    return cell >= FIRST_BYTE


def offset_of(cell: int) -> int:
    """The place of a byte in RAM, counted from 0."""
    return cell - FIRST_BYTE


def width_of(cell: int) -> int:
    """The number of bits of a cell."""
    return BYTE_WIDTH if is_byte(cell) else REGISTER_WIDTH


def register_name(cell: int) -> str:
    """The name of the pc or of a register."""
    return "pc" if cell == PC else f"x{cell} {ABI_NAMES[cell]}"


def bits_of(pc: bool, ram_size: int) -> int:
    """How many bits can be flipped before one instruction, with the pc as a cell or without it."""
    return (FIRST_BYTE - first_cell(pc)) * REGISTER_WIDTH + BYTE_WIDTH * ram_size


def bit_at(place: int, pc: bool) -> tuple[int, int]:
    """The cell and the bit with a number among those that can be flipped before one instruction."""
    of_registers = bits_of(pc, 0)
    if place < of_registers:
        return first_cell(pc) + place // REGISTER_WIDTH, place % REGISTER_WIDTH
    offset, bit = divmod(place - of_registers, BYTE_WIDTH)
    return byte_cell(offset), bit


def all_sites(cycles: int, cells: Iterable[int], ram_size: int) -> int:
    """All sites of a campaign whose jobs name these cells, also those that no job represents."""
    return cycles * bits_of(PC in cells, ram_size)
