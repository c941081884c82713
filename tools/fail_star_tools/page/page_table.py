"""Counts for a page of report.py: the sites of a table of jobs by outcome, cell, cycle, instruction and function.

All counts are of sites, so each job counts with its weight. A silent site has two instructions: one before which its
bit flips, and one that reads the bit, which ends the interval of the job. Both ways of counting give each site to one
instruction.
"""

from __future__ import annotations

import heapq
import itertools
from array import array
from collections import Counter
from dataclasses import dataclass, field

from fail_star_tools.count.places import RAM_BASE
from fail_star_tools.read.call_frames import CallFrames
from fail_star_tools.read.campaign_file import CampaignFile, Refusal, Region
from fail_star_tools.count.classed import Classed
from fail_star_tools.page.fault_grid import PLAIN, Palette
from fail_star_tools.read.campaign_file import OUTCOMES as IN_ORDER
from fail_star_tools.read.cells import FIRST_BYTE, MOST_RAM, all_sites, is_byte, offset_of
from fail_star_tools.read.elf_image import Image, Symbol
from fail_star_tools.read.job_table import OLD_TRAP, OUTCOMES, UNKNOWN, Campaign, Ram, Spool
from fail_star_tools.read.line_table import LineTable
from fail_star_tools.read.traces import Trace

SILENT = OUTCOMES.index("silent")
MEMORY = FIRST_BYTE  # represents all bytes of RAM, in addition to the cells of the pc and of registers
MOST_GROUPS = 20


@dataclass(frozen=True, order=True)
class Group:
    """The silent jobs of one read, ordered by their sites, and of equal ones by the later and higher of the two."""

    sites: int
    before: int  # minus the cycle of the read
    below: int  # minus the cell
    first: int  # cycle before which these bits flip
    last: int
    bits: tuple[int, ...]

    @property
    def weight(self) -> int:
        """The number of cycles before which each bit flips."""
        return self.sites // len(self.bits)

    @property
    def cycle(self) -> int:
        """The cycle of the read."""
        return -self.before

    @property
    def cell(self) -> int:
        """The cell that is read."""
        return -self.below


@dataclass
class Counts:
    """The silent sites of a campaign: for each cycle of the flip, which in a part of the run is a place in the part, for
    each cycle of the read, and for each cell that is read there."""

    flipped: array[int]
    read: array[int]
    through: Counter[tuple[int, int]] = field(default_factory=Counter)  # of a cycle and a register, or MEMORY
    jobs: list[int] = field(default_factory=lambda: [0] * len(OUTCOMES))  # by the places of OUTCOMES, without their weights
    groups: list[Group] = field(default_factory=list)  # those with the most silent sites, as a heap

    def take(self, group: Group) -> None:
        """Keeps the group if it is among those with the most sites."""
        if len(self.groups) < MOST_GROUPS:
            heapq.heappush(self.groups, group)
        elif self.groups[0] < group:
            heapq.heapreplace(self.groups, group)


def counts_of(campaign: Campaign) -> Counts:
    """One pass over all reads. An interval adds its sites at its first cycle and subtracts them after its last one,
    and the sums come at the end."""
    flips, read = array("q", bytes(8 * (campaign.cycles + 1))), array("q", bytes(8 * campaign.instructions))
    counts = Counts(flips, read)
    for here in campaign.reads:
        for place in set(here.outcomes):
            counts.jobs[place] += here.outcomes.count(place)
        silent = here.outcomes.count(SILENT)
        if silent:
            flips[here.end - here.weight] += silent
            flips[here.end] -= silent
            read[here.cycle] += silent * here.weight
            counts.through[here.cycle, MEMORY if is_byte(here.cell) else here.cell] += silent * here.weight
            bits = tuple(bit for bit, place in enumerate(here.outcomes) if place == SILENT)
            first, last = (campaign.cycle_at(place) for place in (here.end - here.weight, here.end - 1))
            counts.take(Group(silent * here.weight, -here.cycle, -here.cell, first, last, bits))
    counts.flipped = array("q", itertools.accumulate(flips[:-1]))
    return counts


def outcomes_of(campaign: Campaign, ram: Ram) -> dict[str, int]:
    """The sites by outcome, in the order of a report. Sites without a job have no effect, and their number is known
    if the size of RAM is."""
    totals = campaign.counts(campaign.cells)
    if ram.size is not None:
        totals["no-effect"] += all_sites(campaign.cycles, campaign.cells, ram.size) - sum(totals.values())
    return {word: totals[word] for word in words_of(campaign)}


def words_of(campaign: Campaign) -> list[str]:
    """The outcomes of the version that wrote the table, in the order of a report."""
    order = (*IN_ORDER[:-1], OLD_TRAP, IN_ORDER[-1], UNKNOWN)
    return sorted(campaign.outcomes, key=order.index)


def look_at_jobs(counts: Counts, kept: CampaignFile) -> None:
    """Refuses a campaign file that keeps other jobs than the table has."""
    found = dict(zip(OUTCOMES, counts.jobs))
    here = {word: found[word] for word in (*IN_ORDER, OLD_TRAP) if found[word]}
    there = {word: count for word, count in kept.kept().items() if count}
    if here != there:
        texts = [", ".join(f"{word} {count}" for word, count in jobs.items()) or "none" for jobs in (here, there)]
        raise Refusal(f"the table has the jobs {texts[0]}, and the campaign file {texts[1]}: of another campaign")


@dataclass
class Shown:
    """A campaign as a page shows it, with everything that is known besides its table."""

    name: str
    campaign: Campaign
    ram: Ram
    counts: Counts
    outcomes: dict[str, int]
    kept: CampaignFile | None = None
    trace: Trace | None = None
    image: Image | None = None
    digest: str | None = None  # SHA-256 of the image
    program: str | None = None  # SHA-256 of the fail_star that wrote the table
    lines: dict[int, str] = field(default_factory=dict)  # of the disassembly, by address
    classed: Classed | None = None  # the sites by answer classes
    reads: Spool | None = None  # the reads with classes instead of outcomes
    palette: Palette = PLAIN
    prefix: str = ""  # of the anchors of this campaign
    source: LineTable | None = None
    no_source: str = ""  # why there is no line table

    def anchor(self, name: str) -> str:
        """An anchor of this campaign."""
        return self.prefix + name

    def function_of(self, address: int) -> Symbol | None:
        """The function to which an instruction belongs."""
        return self.image.function_at(address) if self.image else None

    def place_of(self, address: int) -> str:
        """The source line of an instruction, as `FILE:LINE`; nothing if it is not known."""
        return (self.source.of(address) if self.source else None) or ""

    def code_size(self) -> int | None:
        """The bytes of executable segments in ROM, if the image and its ROM are known."""
        return self.image.code_size(self.kept.card.rom) if self.image is not None and self.kept is not None else None

    def lowest_stack(self) -> int | None:
        """The lowest address of the stack that the run without a fault uses, if it is known."""
        if self.trace is None:
            return None
        base, size = self.ram.base, self.ram.size
        return CallFrames(self.trace, self.image).lowest_in(Region(RAM_BASE if base is None else base, size or MOST_RAM))

    def variable_of(self, cell: int) -> Symbol | None:
        """The variable to which a cell, a byte of RAM, belongs."""
        if self.image is None or not is_byte(cell) or self.ram.base is None:
            return None
        return self.image.variables.of(self.ram.base + offset_of(cell))


# --- The worst ------------------------------------------------------------------------------------


@dataclass
class Row:
    """An instruction or a function: how many instructions of the run it executed, and its silent sites by both ways
    of counting."""

    times: int = 0
    read: int = 0
    flipped: int = 0
    through: Counter[int] = field(default_factory=Counter)

    def rank(self) -> tuple[int, int]:
        """The worst rows have the least rank."""
        return -self.read, -self.flipped


def of_instructions(trace: Trace, shown: Shown) -> dict[int, Row]:
    """The rows of all instructions of a run, or of a part, by their addresses."""
    counts = shown.counts
    rows: dict[int, Row] = {address: Row() for address in trace.words}
    for address, read in zip(trace.pcs, counts.read):
        rows[address].read += read
    for place, flipped in enumerate(counts.flipped):
        row = rows[trace.pcs[shown.campaign.cycle_at(place)]]
        row.times += 1
        row.flipped += flipped
    for (cycle, cell), sites in counts.through.items():
        rows[trace.pcs[cycle]].through[cell] += sites
    return rows


def of_functions(instructions: dict[int, Row], shown: Shown) -> dict[Symbol | None, Row]:
    """The rows of all functions of a run; None has the instructions that belong to no function."""
    rows: dict[Symbol | None, Row] = {}
    for address, one in instructions.items():
        row = rows.setdefault(shown.function_of(address), Row())
        row.times += one.times
        row.read += one.read
        row.flipped += one.flipped
        row.through.update(one.through)
    return rows
