"""The table of a page of report.py with the silent groups that have the most sites, each with the commands that replay
one of its runs."""

from __future__ import annotations

import itertools
import shlex
from collections.abc import Sequence

from fail_star_tools.page import page_links
from fail_star_tools.page.page_table import Group, Shown
from fail_star_tools.page.page_text import Cell, element, heading, table
from fail_star_tools.run import program

HEADING = [
    Cell("cell", "words"), Cell("bits", "words"), Cell("flipped before", "words"), Cell("read by", "words"),
    Cell("silent sites"), Cell("commands", "words"),
]  # fmt: skip
NOTE = (
    "A group is the silent bits of one read. The first command shows the run with a flip of its first bit, at the last "
    "of its cycles; the second shows that run in GDB."
)
UNNAMED, UNKNOWN = "IMAGE", ["OPTIONS"]  # in a command, if the page was not told


def group_parts(shown: Shown, image: str | None) -> list[str]:
    """The silent groups with the most sites, the worst first."""
    groups = sorted(shown.counts.groups, reverse=True)
    if not groups:
        return []
    rows = [line_of(shown, group, image or UNNAMED) for group in groups]
    note = NOTE if image and shown.kept else f"{NOTE} {missing(shown, image)}"
    title = heading(3, "Silent groups", shown.anchor("groups"))
    return [title, element("p", note, "note"), table(HEADING, rows, "groups", f"Silent groups of {shown.name}")]


def missing(shown: Shown, image: str | None) -> str:
    """What a reader has to write into the commands."""
    parts = [] if image else [f"{UNNAMED} is the ELF file"]
    parts += [] if shown.kept else [f"{UNKNOWN[0]} are the options of the campaign"]
    return f"{' and '.join(parts)}, which this page was not given."


def line_of(shown: Shown, group: Group, image: str) -> list[Cell]:
    """The line of a group."""
    cycles = f"{group.first:,} to {group.last:,}" if group.first < group.last else f"{group.last:,}"
    if group.weight <= group.last - group.first:
        cycles = f"{group.weight:,} of {cycles}"
    site = (group.last, group.cell, group.bits[0])
    options = shown.kept.card.options() if shown.kept else UNKNOWN
    replay = shlex.join(["fail_replay", image, *map(str, site), *options])
    return [
        Cell(shown.ram.name([group.cell]), "words", goal=shown.anchor(page_links.of_cell(group.cell))),
        Cell(ranges_of(group.bits), "words"),
        Cell(cycles, "words"),
        reader_of(shown, group.cycle),
        Cell(f"{group.sites:,}", "worst"),
        Cell("", "words", commands=(replay, program.in_gdb(image, site, options))),
    ]


def reader_of(shown: Shown, cycle: int) -> Cell:
    """The instruction that reads the bits: its place and its text, as far as they are known."""
    if shown.trace is None:
        return Cell(f"instruction {cycle:,}", "code")
    address = shown.trace.pcs[cycle]
    text = shown.lines.get(address, f"{shown.trace.words[address]:08x}")
    return Cell(f"{address:#010x} {text}", "code", goal=shown.anchor(page_links.of_instruction(address)))


def ranges_of(numbers: Sequence[int]) -> str:
    """Ascending numbers, with consecutive ones as a range."""
    runs = (list(run) for _, run in itertools.groupby(enumerate(numbers), key=lambda pair: pair[1] - pair[0]))
    return ", ".join(f"{run[0][1]} to {run[-1][1]}" if len(run) > 1 else f"{run[0][1]}" for run in runs)
