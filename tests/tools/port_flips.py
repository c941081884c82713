"""Counts the silent and the detected sites of a table whose flip turns the address of one port into that of another, by
the second machine: before the instruction that reads the flipped register, the address of its store is one port's, and
with the flip another's.

port_flips.py IMAGE RAM_SIZE CSV
"""

from __future__ import annotations

import csv
import sys
from pathlib import Path

import machine
import reference

PORTS = (machine.OUT, machine.DETECT, machine.HALT)


def address_of_store(state: machine.Machine) -> int | None:
    """The address that the next instruction stores to; None for another instruction."""
    decoded = machine.decode(state.word())
    return state.x[decoded[3]] + decoded[5] & machine.MASK if decoded and decoded[0] == "store" else None


def main(image: str, ram_size: str, table: str) -> None:
    case = machine.Case(range(0x20000000, 0x20010000), range(0x80000000, 0x80000000 + int(ram_size)), 1 << 24)
    reference.load(Path(image).read_bytes(), case)
    state, counts = machine.Machine(case), {"silent": 0, "detected": 0}
    with open(table, newline="") as file:
        for row in csv.DictReader(file):
            while state.taken < int(row["cycle"]):
                state.step()
            if row["outcome"] in counts and int(row["cell"]) < 32:
                flipped = state.copy()
                flipped.flip(int(row["cell"]), int(row["bit"]))
                before, after = address_of_store(state), address_of_store(flipped)
                if before in PORTS and after in PORTS and before != after:
                    counts[row["outcome"]] += int(row["weight"])
    print(*counts.values())


main(*sys.argv[1:])
