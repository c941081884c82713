"""Compares what tools/replay.py says of registers and bytes with the reference's machine.

replay_eyes.py FOLDER-OF-TOOLS IMAGE KEEP REPLAY RAM COUNT

It draws COUNT sites by a fixed seed, runs each next to the run without a fault on the machine of machine.py, and
compares the notes of each instruction: where the two runs are, and which of the cells that the instruction wrote
differ.
"""

from __future__ import annotations

import contextlib
import io
import random
import re
import sys

import machine

sys.path.insert(0, sys.argv[1])
from fail_star_tools.page import replay  # noqa: E402
from fail_star_tools.read import campaign_file  # noqa: E402

NOTE = re.compile(r" {12}(?:(x\d+) \S+|byte (0x[0-9a-f]{8})) = ([0-9a-f]+), without the fault ([0-9a-f]+)")
LINE = re.compile(r" *(\d+) ([0-9a-f]{8})  ")

Note = tuple["int | None", str, int, int]  # the number of an instruction, a cell, its value and the right value


def case_of(card: campaign_file.Card) -> machine.Case:
    """The reference's case of a campaign file."""
    rom, ram = (range(region.base, region.base + region.size) for region in (card.rom, card.ram))
    case = machine.Case(rom, ram, card.limit, card.pc_cell, card.ram_code)
    case.entry, case.rom_bytes, case.ram_bytes = card.entry, bytearray(card.rom_bytes), bytearray(card.ram_bytes)
    return case


def written(run: machine.Machine) -> list[int]:
    """The cells that the next instruction writes."""
    word = run.word()
    found = None if word is None else machine.decode(word)
    if found is None:
        return []
    kind, detail, rd, rs1, _, immediate = found
    if kind == "store":
        address = run.x[rs1] + immediate & machine.MASK
        return list(run.bytes_at(address, detail)) if address in run.case.ram and address % detail == 0 else []
    return [rd] if rd else []


def expected(case: machine.Case, site: tuple[int, int, int]) -> list[Note]:
    """The notes about cells, as (instruction, name, value, right value)."""
    cycle, cell, bit = site
    right = machine.Machine(case)
    for _ in range(cycle):
        right.step()
    other, ended = right.copy(), False
    notes: list[Note] = []
    other.flip(cell, bit)
    while other.taken < case.limit:
        number, cells = other.taken, written(other)
        end = other.step()
        if not ended:
            ended = bool(right.step())
        for one in cells:
            now, wanted = ((run.x[one] if one < 32 else run.memory[one - 32]) for run in (other, right))
            if now != wanted:
                notes.append((number, f"x{one}" if one < 32 else f"{case.ram.start + one - 32:#010x}", now, wanted))
        if end:
            break
    return notes


def found(text: str) -> list[Note]:
    """The same of a text of the tool."""
    notes, number = [], None
    for line in text.splitlines():
        if head := LINE.match(line):
            number = int(head[1])
        elif note := NOTE.fullmatch(line):
            notes.append((number, note[1] or note[2], int(note[3], 16), int(note[4], 16)))
    return notes


def main() -> int:
    image, keep, called, ram, count = sys.argv[2:]
    del ram
    card = campaign_file.read(keep).card
    case, rng, wrong = case_of(card), random.Random(7), 0
    length = machine.Machine(case)
    while length.step() is None:
        pass
    replay.MOST_SHOWN = 1 << 30
    for _ in range(int(count)):
        cell, width = rng.choice([(rng.randrange(1, 32), 32), (rng.randrange(32, 32 + len(case.ram)), 8)])
        site = (rng.randrange(length.taken), cell, rng.randrange(width))
        out = io.StringIO()
        with contextlib.redirect_stdout(out):
            status = replay.main(
                [keep, *map(str, site), "--image", image, "--replay", called, "--disassembler", "none"]
            )
        if status or found(out.getvalue()) != expected(case, site):
            wrong += 1
            print(f"site {site}: {out.getvalue()[:300]}")
    print(f"{count} sites, {wrong} wrong")
    return 1 if wrong else 0


if __name__ == "__main__":
    sys.exit(main())
