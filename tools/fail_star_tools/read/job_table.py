"""Reads tables of jobs with their outcomes, for the tools.

Such a table is what `fail_star report IMAGE KEEP --format csv` writes: the line `cycle,cell,bit,weight,outcome`, then
a line for each job in job order. A job represents the sites of its cell and bit at the cycles `cycle - weight + 1` to
`cycle`, the interval that ends with the read at `cycle`. A text that is not such a table is refused at its first line
that the program would not write. The words for outcomes are those of today's program, or those of an older version,
which had `trap` for all kinds of traps.
"""

from __future__ import annotations

import argparse
import functools
import itertools
import re
import struct
from collections.abc import Iterable, Iterator
from contextlib import ExitStack, contextmanager
from dataclasses import dataclass, field
from functools import cached_property
from pathlib import Path
from typing import IO, TYPE_CHECKING, Protocol, TextIO

from fail_star_tools.read import campaign_file, regular
from fail_star_tools.read.campaign_file import CampaignFile, Refusal, number_of
from fail_star_tools.read.cells import MOST_RAM, PC, end_of_cells, is_byte, offset_of, register_name, width_of
from fail_star_tools.run import program

if TYPE_CHECKING:
    from fail_star_tools.read.parts import Window

HEADER, PLAN_HEADER = "cycle,cell,bit,weight,outcome", "cycle,cell,bit,weight"
OLD_TRAP, TRAP_KINDS = "trap", ("illegal", "address", "misaligned")  # of an older version, and now
UNKNOWN = "unknown"  # of a job that an unfinished campaign does not keep yet
OUTCOMES = ("silent", "timeout", *TRAP_KINDS, OLD_TRAP, "detected", "no-effect", UNKNOWN)  # the worst first
NEW_OUTCOMES = tuple(outcome for outcome in OUTCOMES if outcome not in (OLD_TRAP, UNKNOWN))
OLD_OUTCOMES = tuple(outcome for outcome in OUTCOMES if outcome not in (*TRAP_KINDS, UNKNOWN))
LINE = re.compile(f"(0|[1-9][0-9]{{0,7}}),(0|[1-9][0-9]{{0,4}}),(0|[1-9][0-9]?),([1-9][0-9]{{0,7}}),({'|'.join(OUTCOMES)})\n?")
MOST_CYCLES = 1 << 24  # of a run without a fault
END = end_of_cells(MOST_RAM)  # no case has a cell with this number
LONGEST_LINE = 200
BLOCK = 1 << 20  # letters of a plan that are read at once


@dataclass
class Read:
    """One read of a cell in the run without a fault: the jobs of its bits, with the place of each one's outcome in
    OUTCOMES. Their sites are at the `weight` cycles before `end`; in a part of a run these are places in the part, and
    otherwise `end` is the cycle after the read."""

    cycle: int
    cell: int
    weight: int
    outcomes: bytes
    end: int


class Lines(Protocol):
    """The source from which a table is read."""

    def readline(self, size: int = -1, /) -> str:
        """The next line, with at most this number of letters, or nothing at the end."""


class Spool:
    """Keeps reads in a temporary file: their places in the picture are known only after the whole table was read, and
    a table may be larger than memory and come through a pipe."""

    RECORD = struct.Struct("<IIII")

    def __init__(self, file: IO[bytes]) -> None:
        self.file = file

    def add(self, read: Read) -> None:
        """Adds a read after the earlier ones."""
        self.file.write(self.RECORD.pack(read.cycle, read.cell, read.weight, read.end) + read.outcomes)

    def __iter__(self) -> Iterator[Read]:
        self.file.seek(0)
        while record := self.file.read(self.RECORD.size):
            cycle, cell, weight, end = self.RECORD.unpack(record)
            yield Read(cycle, cell, weight, self.file.read(width_of(cell)), end)


@dataclass
class Campaign:
    """The content of a table, or of a part of the run: the reads, and for each cell the live sites by the places of
    OUTCOMES. The halting store is the last instruction and reads a register, so the last job gives the number of
    instructions."""

    reads: Spool
    instructions: int = 0
    window: Window | None = None  # the cycles that are in the part
    jobs: int = 0
    unknown: int = 0  # jobs that an unfinished campaign does not keep
    cells: dict[int, list[int]] = field(default_factory=dict)

    @property
    def cycles(self) -> int:
        """The number of cycles: those of the part, or all."""
        return self.instructions if self.window is None else len(self.window)

    def cycle_at(self, place: int) -> int:
        """The cycle at a place among these."""
        return place if self.window is None else self.window.cycle_at(place)

    @cached_property
    def outcomes(self) -> tuple[str, ...]:
        """The outcomes of the version that wrote the table. They are known after all of it was read."""
        totals = self.totals(self.cells)
        words = OLD_OUTCOMES if totals[OUTCOMES.index(OLD_TRAP)] else NEW_OUTCOMES
        return (*words, UNKNOWN) if totals[OUTCOMES.index(UNKNOWN)] else words

    def totals(self, cells: Iterable[int]) -> list[int]:
        """The live sites of these cells by the places of OUTCOMES."""
        return [sum(column) for column in zip(*(self.cells[cell] for cell in cells))]

    def counts(self, cells: Iterable[int]) -> dict[str, int]:
        """The same by the outcomes of its version."""
        found = dict(zip(OUTCOMES, self.totals(cells)))
        return {outcome: found[outcome] for outcome in self.outcomes}

    @property
    def share(self) -> str:
        """The number of jobs with a known outcome, if not all have one."""
        return share_of(self.jobs - self.unknown, self.jobs) if self.unknown else ""

    def add(self, read: Read) -> None:
        """Takes the jobs of a read."""
        self.reads.add(read)
        self.unknown += read.outcomes.count(OUTCOMES.index(UNKNOWN))
        self.jobs += len(read.outcomes)
        totals = self.cells.setdefault(read.cell, [0] * len(OUTCOMES))
        for place in set(read.outcomes):
            totals[place] += read.weight * read.outcomes.count(place)


def share_of(kept: int, jobs: int) -> str:
    """The text that says how many jobs an unfinished campaign keeps."""
    return f"{kept:,} of {jobs:,} jobs are kept, {100 * kept / jobs:.3g} %"


def read_campaign(lines: Lines, spool: Spool, window: Window | None = None) -> Campaign:
    """Reads a whole table, and takes the jobs that have sites in the part."""
    campaign = Campaign(spool)
    for read in reads_of(lines):
        campaign.instructions = read.cycle + 1
        inside = read if window is None else window.clipped(read)
        if inside is not None:
            campaign.add(inside)
    campaign.window = None if window is None else window.until(campaign.instructions)
    return campaign


# --- Lines ----------------------------------------------------------------------------------------


def mixes(outcome: str, traps: set[str]) -> str | None:
    """The complaint if an outcome does not fit the earlier words for traps, to which it is added: no version has both
    `trap` and its kinds."""
    if outcome == OLD_TRAP or outcome in TRAP_KINDS:
        traps.add(outcome)
    if OLD_TRAP in traps and len(traps) > 1:
        return f"expected either {OLD_TRAP}, as an older version has it, or its kinds"
    return None


def begins_badly(row: tuple[int, ...], last: tuple[int, ...], ends: dict[int, int]) -> str | None:
    """The complaint about the first line of a read, or nothing if it may follow the read of `last`. For each cell,
    `ends` has the first cycle after its jobs so far."""
    cycle, cell, bit, weight = row
    if cycle >= MOST_CYCLES:
        return f"expected a cycle of 0 to {MOST_CYCLES - 1}"
    if cell >= END:
        return f"expected a cell of 0 to {END - 1}"
    if (cycle, cell) <= last[:2]:
        return f"expected a job after cycle {last[0]}, cell {last[1]}, in the order cycle, cell, bit"
    if bit != 0:
        return "expected bit 0: an instruction reads a cell with all its bits"
    if cell == PC and weight != 1:
        return "expected a weight of 1, since each instruction reads the pc"
    longest = cycle + 1 - ends.get(cell, 0)
    if weight > longest:
        return f"expected a weight of 1 to {longest}, since the sites before belong to an earlier job or are before cycle 0"
    return None


def reads_of(lines: Lines) -> Iterator[Read]:
    """The reads of a whole table, each after all its bits were read, or the refusal of the first invalid line."""
    places = {outcome: place for place, outcome in enumerate(OUTCOMES)}
    ends: dict[int, int] = {}
    last: tuple[int, ...] = (-1, 0, 0, 0)
    due: tuple[int, ...] | None = None  # the next line without its outcome, within the bits of a cell
    outcomes = bytearray()
    traps: set[str] = set()  # the words for traps so far
    header = lines.readline(len(HEADER) + 2)
    if header.rstrip("\n") != HEADER:
        raise refused(1, f"expected {HEADER}", header or None)
    number = 1
    for number, line in enumerate(iter(functools.partial(lines.readline, LONGEST_LINE), ""), 2):
        match = LINE.fullmatch(line)
        if match is None:
            raise refused(number, f"expected {HEADER}: four numbers and one of {', '.join(NEW_OUTCOMES)}", line)
        complaint = mixes(match[5], traps)
        if complaint is not None:
            raise refused(number, complaint, line)
        row = tuple(map(int, match.group(1, 2, 3, 4)))
        if due is None:
            complaint = begins_badly(row, last, ends)
            if complaint is not None:
                raise refused(number, complaint, line)
            outcomes.clear()
        elif row != due:
            raise refused(number, f"expected {written(due)} and an outcome, the next bit of this cell", line)
        outcomes.append(places[match[5]])
        last, due = row, (*row[:2], row[2] + 1, row[3])
        if due[2] == width_of(row[1]):
            ends[row[1]] = row[0] + 1
            yield Read(row[0], row[1], row[3], bytes(outcomes), row[0] + 1)
            due = None
    if due is not None or not ends:
        raise refused(number + 1, f"expected {written(due) if due else 'a job'}", None)


def written(row: tuple[int, ...]) -> str:
    """A line of the table up to its outcome."""
    return ",".join(map(str, row)) + ","


def refused(number: int, expected: str, line: str | None) -> Refusal:
    """The refusal of a text at a line. The line is missing if the text ends too early."""
    found = "the end" if line is None else repr(line.rstrip("\n")[:60])
    return Refusal(f"line {number}: {expected}, found {found}")


# --- RAM ------------------------------------------------------------------------------------------


@dataclass
class Ram:
    """The base and the size of RAM, as far as they are given."""

    base: int | None = None
    size: int | None = None

    def address(self, cell: int) -> str:
        """The address of a byte of RAM, or its offset if no base is given."""
        offset = offset_of(cell)
        return f"RAM+{offset}" if self.base is None else f"0x{self.base + offset:08x}"

    def name(self, cells: list[int]) -> str:
        """The name of a cell, or of neighbouring bytes."""
        if not is_byte(cells[0]):
            return register_name(cells[0])
        if len(cells) == 1:
            return self.address(cells[0])
        return f"{self.address(cells[0])} to {self.address(cells[-1])}, {len(cells)} bytes that are read"

    def look_at(self, cells: Iterable[int]) -> None:
        """Refuses a size that is too small for the cells of a table."""
        highest = offset_of(max(cells))
        if self.size is not None and highest >= self.size:
            raise Refusal(f"a job reads byte {highest} of RAM, counted from 0, but --ram has {self.size} bytes")


def ram_of(word: str) -> Ram:
    """BASE or BASE:SIZE, decimal or hexadecimal as in fail_star."""
    try:
        base, *size = map(number_of, word.split(":", 1))
    except Refusal:
        raise argparse.ArgumentTypeError(f"expected BASE or BASE:SIZE, found {word!r}") from None
    if size and not 0 < size[0] <= MOST_RAM or base + (size[0] if size else 0) > 1 << 32:
        raise argparse.ArgumentTypeError(f"expected at most {MOST_RAM} bytes that end within 32 bits, found {word!r}")
    return Ram(base, size[0] if size else None)


# --- Campaign files -------------------------------------------------------------------------------


def is_campaign(table: str) -> bool:
    """Whether a table's name is that of a campaign file."""
    if not Path(table).is_file():
        return False
    with regular.opened(table) as file:
        return campaign_file.is_campaign(file.read(8))


@contextmanager
def table_of(
    kept: CampaignFile,
    keep: str,
    called: str,
    image: str | None,
    unfinished: bool = False,
    window: Window | None = None,
) -> Iterator[Lines]:
    """The table of a campaign file, as the program writes it, for the given image or for one that is made of the
    file's own case. If it may be unfinished, jobs that are not kept have the outcome `unknown`. For a part, jobs that
    read before its first cycle may be missing."""
    with program.image_of(kept.card, image) as name, ExitStack() as stack:
        options = kept.card.options()
        try:
            words = ["report", name, keep, *options, "--format", "csv"]
            lines: Lines = stack.enter_context(program.lines(called, words, "fail_star report"))
        except Refusal as refusal:
            may_stop = unfinished or window is not None
            if not may_stop or not str(refusal).startswith("fail_star report: stopped: "):
                raise
            plan = stack.enter_context(program.lines(called, ["plan", name, *options, "--format", "csv"], "fail_star plan"))
            lines = Unfinished(kept, plan, 0 if window is None else window.first)
        yield lines


class Unfinished:
    """The table of a campaign that is not finished: all jobs by `plan` from a cycle on, with the outcomes that are
    kept."""

    def __init__(self, kept: CampaignFile, plan: TextIO, first: int = 0) -> None:
        self.lines = self.joined(kept, plan, first)

    def readline(self, size: int = -1, /) -> str:
        """The next line, or nothing at the end."""
        return next(self.lines, "")

    def joined(self, kept: CampaignFile, plan: TextIO, first: int) -> Iterator[str]:
        """The lines: both are in the order cycle, cell, bit."""
        head = plan.readline(LONGEST_LINE)
        if head.rstrip("\n") != PLAN_HEADER:
            raise Refusal(f"fail_star plan: expected {PLAN_HEADER}, found {head[:60]!r}")
        yield HEADER + "\n"
        rows = kept.ordered()
        row = next(rows, None)
        for line in lines_from(plan, first):
            numbers = line.rstrip("\n").split(",")
            if len(numbers) != 4 or not all(number.isdecimal() for number in numbers):
                raise Refusal(f"fail_star plan: expected {PLAN_HEADER}, found {line[:60]!r}")
            site = (int(numbers[0]), int(numbers[1]), int(numbers[2]))
            while row is not None and row[:3] < site:
                row = next(rows, None)
            byte = row[3] if row is not None and row[:3] == site else campaign_file.OLD_TRAP_BYTE
            word = UNKNOWN if byte == campaign_file.OLD_TRAP_BYTE else campaign_file.NAMES[byte]
            yield f"{line.rstrip()},{word}\n"


def lines_from(plan: TextIO, first: int) -> Iterator[str]:
    """The lines of a plan from the jobs of a cycle on. Blocks of earlier jobs are not split into lines, because a plan
    may have hundreds of millions."""
    block = ""
    while first > 0 and (more := plan.read(BLOCK)):
        block += more
        last = block.rfind("\n", 0, block.rfind("\n") if "\n" in block else 0) + 1
        if not block[last:].partition(",")[0].isdecimal() or int(block[last:].partition(",")[0]) >= first:
            break
        block = block[last:]
    yield from itertools.dropwhile(lambda line: is_before(line, first), whole_lines(block, plan))


def whole_lines(block: str, plan: TextIO) -> Iterator[str]:
    """The lines of a block, and then those that are left."""
    lines = block.splitlines(keepends=True)
    if lines and not lines[-1].endswith("\n"):
        lines[-1] += plan.readline(LONGEST_LINE)
    yield from lines
    while line := plan.readline(LONGEST_LINE):
        yield line


def is_before(line: str, first: int) -> bool:
    """Whether a line is that of a job which reads before a cycle."""
    cycle = line.partition(",")[0]
    return cycle.isdecimal() and int(cycle) < first
