"""A made-up campaign of many silent jobs, and what a tool takes for it.

made_up.py JOBS FOLDER        writes made.elf, made.keep, and the texts of two programs: table.csv, trace.txt and
                              answers.txt
made_up.py run TOOL WORD ..   calls a tool, whose output goes nowhere, and prints its status and the most MiB that it
                              had
"""

from __future__ import annotations

import contextlib
import io
import random
import resource
import struct
import sys
from importlib import import_module
from pathlib import Path

sys.path.insert(0, str(Path(__file__).resolve().parents[2] / "tools"))

from fail_star_tools.read.campaign_file import BYTES, NAME, NUMBERS, ROW, Card, Region  # noqa: E402

BASE, NOP, CODE, WIDTH = 0x20000000, 0x13, 64, 32  # of ROM; the only word, how many, and the bits of a register
ANSWERS, PAGE = 1000, 60_000  # different outputs, and rows of a batch


def make(jobs: int, folder: Path) -> None:
    """Writes the files of a campaign: each instruction reads one of x1 to x3, and all jobs are silent."""
    rom, ram = Region(BASE, 4 * CODE), Region(0x80000000, 64)
    card = Card(False, False, BASE, rom, ram, 1_000_000, struct.pack("<I", NOP) * CODE, bytes(ram.size))
    drawn = random.Random(1)
    (folder / "made.elf").write_bytes(card.image())
    cycles = jobs // WIDTH
    lines = (f"{cycle} {BASE + 4 * (cycle % CODE):08x} {NOP:08x}\n" for cycle in range(cycles))
    (folder / "trace.txt").write_text("".join(lines) + "output 41\nend halted 0\n")
    rows = bytearray()
    with open(folder / "table.csv", "w") as table, open(folder / "answers.txt", "w") as answers:
        table.write("cycle,cell,bit,weight,outcome\n")
        for cycle in range(cycles):
            cell, weight = 1 + cycle % 3, min(3, cycle + 1)
            for bit in range(WIDTH):
                rows += ROW.pack(cycle, cell, bit, BYTES["silent"])
                table.write(f"{cycle},{cell},{bit},{weight},silent\n")
                sent, value = drawn.randrange(ANSWERS), drawn.randrange(3)
                answers.write(f"{cycle} {cell} {bit} {weight} silent {sent:08x} halted {value}\n")
    body = NUMBERS.pack(1, BASE, rom.base, rom.size, ram.base, ram.size, card.limit) + card.rom_bytes + card.ram_bytes
    with open(folder / "made.keep", "wb") as keep:
        keep.write(b"\xa5" + NAME + b"\x01" + struct.pack("<I", len(body)) + body)
        for at in range(0, len(rows), PAGE * ROW.size):
            page = rows[at : at + PAGE * ROW.size]
            keep.write(b"\xa5" + struct.pack("<H", len(page) // ROW.size) + page)
        keep.write(b"\0")


def run(tool: str, words: list[str]) -> None:
    """Calls a tool in this process, and measures it."""
    sys.argv[0] = f"{tool}.py"
    module = import_module(f"fail_star_tools.{'page' if tool == 'report' else 'count'}.{tool}")
    with contextlib.redirect_stdout(io.StringIO()):
        status = module.main(words)
    print(status, resource.getrusage(resource.RUSAGE_SELF).ru_maxrss // 1024)


if __name__ == "__main__":
    if sys.argv[1] == "run":
        run(sys.argv[2], sys.argv[3:])
    else:
        make(int(sys.argv[1]), Path(sys.argv[2]))
