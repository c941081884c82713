"""The fault space of a campaign in rows and columns, for the pictures: the rows, the kinds of their points, and areas
of one colour."""

from __future__ import annotations

import functools
import itertools
import operator
import re
from array import array
from collections.abc import Callable, Iterable
from dataclasses import dataclass

from fail_star_tools.read.cells import BYTE_WIDTH, REGISTER_WIDTH, is_byte, width_of
from fail_star_tools.read.job_table import OUTCOMES, Read

# Bounds of the picture.
MOST_COLUMNS = 960
MOST_REGISTER_ROWS = 512
MOST_ROWS = 960
MOST_AREAS = 60_000

# What a point of the picture can be, the worst first: each with its colour and its words in the legend. A point with several sites
# is what the worst of them is, so that no silent site is lost; but one of many says little, so silent has two shades. As readers
# see the colours who have three kinds of cones or lack one (simulated after Machado, Oliveira and Fernandes, 2009), each two
# are 22 apart in CIELAB or more, and the two greys 15. No picture has both `trap` and one of its kinds.
KINDS = {
    "silent": ("#d55e00", "silent"),
    "partly-silent": ("#f4a582", "silent in part, less than half"),
    "timeout": ("#e8d617", "timeout"),
    "illegal": ("#a020f0", "illegal"),
    "address": ("#56b4e9", "address"),
    "misaligned": ("#5a3c1e", "misaligned"),
    "trap": ("#56b4e9", "trap"),
    "detected": ("#005a94", "detected"),
    "no-effect": ("#c9c9c9", "no-effect though read"),
    "unknown": ("#ffffff", "not run yet"),
    "dead": ("#f5f5f5", "dead: overwritten or never read, no-effect"),
}


# Colours of answer classes, in the order of their file: after Okabe and Ito (2008), as above told apart by readers who lack one kind of cones.
CLASS_COLOURS = ("#d55e00", "#cc79a7", "#009e73", "#0072b2", "#e69f00", "#7f3c8d", "#666666")


class Palette:
    """The kinds of points in a picture: `places` has the kind for each place of an outcome, the worst first, and
    `kinds` has the colour and the legend of each kind."""

    def __init__(self, places: tuple[str, ...], kinds: dict[str, tuple[str, str]], unused: tuple[str, ...] = ()) -> None:
        self.kinds = kinds
        self.unused = unused  # kinds that no point can have
        self.names = tuple(kinds)
        self.dead, self.partly = self.names.index("dead"), self.names.index("partly-silent")
        self.of_place = [self.names.index(name) for name in places]
        self.silent = places.index("silent")
        self.full = set(range(len(KINDS), len(kinds))) | {self.names.index("silent"), self.partly}
        self.kind_of = functools.lru_cache(maxsize=65536)(self.worst_of)

    def worst_of(self, size: int, *counts: int) -> int:
        """The kind of a point, as a place among the kinds, given the number of its sites, dead ones included, and the
        numbers by outcome."""
        for outcome, count in enumerate(counts):
            if count:
                return self.partly if outcome == self.silent and 2 * count < size else self.of_place[outcome]
        return self.dead

    def words(self, kind: int) -> str:
        """The text for a kind in a tooltip."""
        return self.names[kind].removeprefix(OF_CLASS)


OF_CLASS = "class-"  # before the name of a class, which may be any word of a style
PLAIN = Palette(OUTCOMES, KINDS)


def class_colours(names: list[str]) -> dict[str, str]:
    """The colour of each answer class."""
    return dict(zip(names, itertools.chain(CLASS_COLOURS, itertools.repeat(CLASS_COLOURS[-1]))))


def with_classes(names: list[str], outcomes: tuple[str, ...]) -> Palette:
    """The palette of a picture whose sites of these outcomes are in answer classes: the classes come before all other
    outcomes."""
    classes = {OF_CLASS + name: (colour, name) for name, colour in class_colours(names).items()}
    unused = (*outcomes, "partly-silent") if "silent" in outcomes else outcomes
    return Palette((*classes, *OUTCOMES), {**KINDS, **classes}, unused)


# --- Rows and columns -----------------------------------------------------------------------------


@dataclass
class Band:
    """One cell, or neighbouring bytes of RAM that share one row. `bits` is the number of bits in a row."""

    cells: list[int]
    bits: int

    @property
    def rows(self) -> int:
        """The number of rows of the band."""
        return len(self.cells) * width_of(self.cells[0]) // self.bits


def bands_of(cells: Iterable[int]) -> list[Band]:
    """The bands of all cells that a job names, in order, with the fewest bits per row that the bounds on rows
    allow."""
    registers = sorted(cell for cell in cells if not is_byte(cell))
    memory = sorted(cell for cell in cells if is_byte(cell))
    bits = next(bits for bits in (1, 2, 4, 8, 16, 32) if len(registers) * REGISTER_WIDTH // bits <= MOST_REGISTER_ROWS)
    bands = [Band([cell], bits) for cell in registers]
    room = MOST_ROWS - sum(band.rows for band in bands)
    for bits in (1, 2, 4, 8):
        if len(memory) * BYTE_WIDTH // bits <= room:
            return bands + [Band([cell], bits) for cell in memory]
    together = -(-len(memory) // room)
    groups = (memory[at : at + together] for at in range(0, len(memory), together))
    return bands + [Band(group, BYTE_WIDTH * len(group)) for group in groups]


class Grid:
    """For each row, outcome and column the number of sites; a row without any site of an outcome is missing."""

    def __init__(
        self, bands: list[Band], cycles: int, palette: Palette = PLAIN, cycle_at: Callable[[int], int] = int
    ) -> None:
        self.cycles, self.palette = cycles, palette
        self.cycle_at = cycle_at  # from a place in the picture, which differs from the cycle in a part of a run
        self.step = -(-cycles // MOST_COLUMNS)  # the cycles in a column
        self.bits = [band.bits for band in bands for _ in range(band.rows)]  # of each row
        self.rows: list[list[array[int] | None]] = [[None] * len(palette.of_place) for _ in self.bits]
        firsts = itertools.accumulate((band.rows for band in bands), initial=0)
        self.first_row = {cell: first for band, first in zip(bands, firsts) for cell in band.cells}

    @property
    def columns(self) -> int:
        """The number of columns, of which the last may be incomplete."""
        return -(-self.cycles // self.step)

    def fill(self, reads: Iterable[Read]) -> None:
        """Adds the sites of all jobs: first as differences between neighbouring columns, so that a job costs the same however
        long its interval is, and then these are summed up."""
        for read in reads:
            self.change(read, changes_of(read.end - read.weight, read.end, self.step))
        for row in self.rows:
            row[:] = [counts and array("i", itertools.accumulate(counts[:-1])) for counts in row]

    def change(self, read: Read, changes: list[tuple[int, int]]) -> None:
        """Makes these changes once for each bit of a read."""
        row = self.first_row[read.cell]
        for at in range(0, len(read.outcomes), self.bits[row]):
            here = read.outcomes[at : at + self.bits[row]]
            for place in set(here):
                counts = self.rows[row][place]
                if counts is None:
                    counts = self.rows[row][place] = array("i", bytes(4 * (self.columns + 1)))
                for column, change in changes:
                    counts[column] += here.count(place) * change
            row += 1

    def halve(self) -> None:
        """Joins each two columns into one."""
        for row in self.rows:
            for place, counts in enumerate(row):
                if counts is not None:
                    pairs = itertools.zip_longest(counts[::2], counts[1::2], fillvalue=0)
                    row[place] = array("i", itertools.starmap(operator.add, pairs))
        self.step *= 2

    def kinds(self, row: int) -> bytes:
        """The kinds of the points of a row. The last column may have fewer cycles than the others."""
        if not any(self.rows[row]):
            return bytes([self.palette.dead]) * self.columns
        blank = itertools.repeat(0)
        counts = (blank if outcome is None else outcome for outcome in self.rows[row])
        sizes = (self.bits[row] * min(self.step, self.cycles - cycle) for cycle in range(0, self.cycles, self.step))
        return bytes(map(self.palette.kind_of, sizes, *counts))


def changes_of(start: int, stop: int, step: int) -> list[tuple[int, int]]:
    """The differences between neighbouring columns of `step` cycles in the number of their cycles that are from
    `start` to below `stop`: (column, difference)."""
    first, last = start // step, (stop - 1) // step
    if first == last:
        return [(first, stop - start), (first + 1, start - stop)]
    head, tail = (first + 1) * step - start, stop - last * step
    return [(first, head), (first + 1, step - head), (last, tail - step), (last + 1, -tail)]


# --- Areas of one colour --------------------------------------------------------------------------

RUN = re.compile(rb"(.)\1*", re.DOTALL)


@dataclass(frozen=True)
class Area:
    """A rectangle of one colour in a band: from a row and a column on, to below others."""

    top: int
    bottom: int
    left: int
    right: int
    kind: int


def areas_of(rows: list[bytes], dead: int) -> list[Area]:
    """The areas of a band, given the kinds of its points: equal neighbouring columns make a run, and equal runs of
    neighbouring rows make an area."""
    areas = []
    since: dict[tuple[int, int, int], int] = {}
    above = b""
    for row, kinds in enumerate([*rows, b""]):
        if kinds == above:
            continue
        above = kinds
        runs = {(*run.span(), run[1][0]): row for run in RUN.finditer(kinds) if run[1][0] != dead}
        areas += [Area(top, row, *run) for run, top in since.items() if run not in runs]
        since = {run: since.get(run, row) for run in runs}
    return areas


def fitting_areas(grid: Grid, bands: list[Band]) -> list[list[Area]]:
    """The areas of each band, after halving the grid's columns until a picture has room for all. With one column
    there is room, because there are fewer rows than areas."""
    while True:
        areas: list[list[Area]] = []
        room = MOST_AREAS
        for band in bands:
            first = grid.first_row[band.cells[0]]
            areas.append(areas_of([grid.kinds(row) for row in range(first, first + band.rows)], grid.palette.dead))
            room -= len(areas[-1])
            if room < 0:
                break
        else:
            return areas
        grid.halve()
