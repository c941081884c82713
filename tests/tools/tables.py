"""Tables of jobs with their outcomes, as `report --format csv` writes them (RFC 4180): of short programs, worked out
by hand, and a large one.

tables.py NAME
"""

from __future__ import annotations

import random
import sys
from collections.abc import Iterable, Iterator, Mapping

# A read of a cell: its cycle, the cell, the weight of its jobs, and for each outcome the bits that have it. Cell 32 is the first
# byte of RAM, of which there are 16.
TABLES: dict[str, list[tuple[int, int, int, dict[str, Iterable[int]]]]] = {
    # lui x1,0xF0000; addi x2,x0,65; sb x2,0(x1); sw x0,8(x1)
    "send": [
        # The store to OUT: bit 2 of its address gives DETECT, bit 3 gives HALT before anything was sent, and nothing else is near.
        (2, 1, 2, {"detected": [2], "silent": [3], "address": [0, 1, *range(4, 32)]}),
        (2, 2, 1, {"silent": range(8), "no-effect": range(8, 32)}),
        # A word is stored, so the two lowest bits misalign it.
        (3, 1, 1, {"misaligned": [0, 1], "address": range(2, 32)}),
    ],
    # The first byte of RAM is 65: lui x3,0x80000; lb x2,0(x3); lui x1,0xF0000; sb x2,0(x1); sw x0,8(x1)
    "load": [
        # Four bits of the load's address lead to bytes of RAM that are 0, the others out of RAM.
        (1, 3, 1, {"silent": range(4), "address": range(4, 32)}),
        (1, 32, 2, {"silent": range(8)}),
        (3, 1, 1, {"detected": [2], "silent": [3], "address": [0, 1, *range(4, 32)]}),
        (3, 2, 2, {"silent": range(8), "no-effect": range(8, 32)}),
        (4, 1, 1, {"misaligned": [0, 1], "address": range(2, 32)}),
    ],
    # lui x3,0x80000; addi x2,x0,65; sw x2,0(x3); sb x0,1(x3); lw x4,0(x3); lui x1,0xF0000; sb x4,0(x1); sw x4,8(x1)
    "overwrite": [
        # Bits 8 to 15 of x2 go to the byte that the next store overwrites; with bit 2 or 3 of x3 all three accesses go elsewhere,
        # and with bit 0 or 1 one of a word is misaligned.
        (2, 2, 1, {"silent": [*range(8), *range(16, 32)], "no-effect": range(8, 16)}),
        (2, 3, 2, {"no-effect": [2, 3], "misaligned": [0, 1], "address": range(4, 32)}),
        (3, 3, 1, {"silent": [2, 3], "misaligned": [0, 1], "address": range(4, 32)}),
        (4, 3, 1, {"silent": [2, 3], "misaligned": [0, 1], "address": range(4, 32)}),
        # The word was stored at cycle 2, and its second byte anew at cycle 3.
        (4, 32, 2, {"silent": range(8)}),
        (4, 33, 1, {"silent": range(8)}),
        (4, 34, 2, {"silent": range(8)}),
        (4, 35, 2, {"silent": range(8)}),
        (6, 1, 1, {"detected": [2], "silent": [3], "address": [0, 1, *range(4, 32)]}),
        (6, 4, 2, {"silent": range(32)}),
        (7, 1, 1, {"misaligned": [0, 1], "address": range(2, 32)}),
        (7, 4, 1, {"silent": range(32)}),
    ],
    # With --pc, of lui x1,0xF0000; sw x0,8(x1) in 64 bytes of ROM: each instruction reads the pc, which is cell 0.
    "pc": [
        # Words of zeros stand behind the two. Bit 2 leads to the store, which lacks its address.
        (0, 0, 1, {"misaligned": [0, 1], "illegal": [3, 4, 5], "address": [2, *range(6, 32)]}),
        # Bit 2 leads to the first word once more.
        (1, 0, 1, {"no-effect": [2], "misaligned": [0, 1], "illegal": [3, 4, 5], "address": range(6, 32)}),
        (1, 1, 1, {"misaligned": [0, 1], "address": range(2, 32)}),
    ],
    # With --ram-code, of the same two words at the base of RAM, whose bytes are read where they are fetched.
    "code": [
        # Bit 5 makes it an auipc, bit 7 and those above another register or address.
        (0, 32, 1, {"illegal": [0, 1, 2, 3, 4, 6], "address": [5, 7]}),
        (0, 33, 1, {"address": range(8)}),
        (0, 34, 1, {"address": range(8)}),
        (0, 35, 1, {"address": range(8)}),
        (1, 1, 1, {"misaligned": [0, 1], "address": range(2, 32)}),
        # Bit 5 makes it a load; bits 7 and 8 of the word are the two lowest of its offset.
        (1, 36, 2, {"illegal": [0, 1, 2, 3, 4, 6], "address": [5], "misaligned": [7]}),
        # Bits 9 and 11 lead to no port, and bit 10 to OUT, behind which there is a word of zeros; by bits 12 and 14 it has no width, and
        # by bit 13 it stores a byte; bit 15 takes another address.
        (1, 37, 2, {"no-effect": [5], "illegal": [2, 4, 6], "address": [1, 3, 7], "misaligned": [0]}),
        # Other registers for its address; then for its value, of which x1 alone is not 0.
        (1, 38, 2, {"silent": [4], "no-effect": [5, 6, 7], "address": range(4)}),
        (1, 39, 2, {"no-effect": [0], "address": range(1, 8)}),
    ],
    # No program: 2000 cycles, of which three make a column of the picture, and two the last.
    "long": [
        (10, 6, 1, {"silent": range(32)}),
        (11, 7, 2, {"silent": range(32)}),
        (13, 8, 2, {"illegal": range(32)}),
        (14, 8, 1, {"silent": range(32)}),
        (17, 8, 1, {"detected": range(32)}),
        (24, 10, 5, {"silent": range(32)}),
        (1999, 5, 1000, {"address": range(32)}),
        (1999, 9, 1, {"silent": range(32)}),
    ],
}


def lines_of(cycle: int, cell: int, weight: int, outcomes: Mapping[str, Iterable[int]]) -> list[str]:
    """The jobs of a read, in the order of their bits."""
    of_bit = {bit: outcome for outcome, bits in outcomes.items() for bit in bits}
    return [f"{cycle},{cell},{bit},{weight},{of_bit[bit]}" for bit in sorted(of_bit)]


def large() -> Iterator[str]:
    """Half a million jobs at random, in 100,000 cycles, of all registers and 4000 bytes of RAM: few neighbours are alike."""
    chance = random.Random(1)
    ends: dict[int, int] = {}
    outcomes = ("no-effect", "silent", "detected", "illegal", "address", "misaligned", "timeout")
    for cycle in range(0, 100_000, 7):
        cells = {chance.randrange(1, 32) if chance.random() < 0.4 else chance.randrange(32, 4032) for _ in range(2)}
        for cell in sorted(cells):
            weight = min(cycle + 1 - ends.get(cell, 0), chance.randrange(1, 3000))
            ends[cell] = cycle + 1
            for bit in range(32 if cell < 32 else 8):
                yield f"{cycle},{cell},{bit},{weight},{chance.choice(outcomes)}"


if __name__ == "__main__":
    name = sys.argv[1]
    print("cycle,cell,bit,weight,outcome")
    for line in large() if name == "large" else [line for read in TABLES[name] for line in lines_of(*read)]:
        print(line)
