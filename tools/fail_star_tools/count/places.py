"""Where the sites of a table of jobs are, for the tools: functions, source lines, instructions, registers, variables.

A job represents the sites of a bit up to the read of its cell. Its place in the code is the instruction that reads
the flipped value: the trace of the run without a fault says which instruction runs at the job's cycle, and the image
says to which function and line it belongs. Its place in the data is the cell: a register, the pc, or the variable
that the image has at a byte of RAM. A byte of the stack is named by the frame in which it is at that cycle.
"""

from __future__ import annotations

import argparse
from collections import Counter
from collections.abc import Iterable, Iterator
from dataclasses import dataclass, field
from functools import cached_property
from typing import NamedTuple, TextIO

from fail_star_tools.count import port_flips
from fail_star_tools.count.job_list import Job, JobList
from fail_star_tools.count.reports import OLD_OUTCOMES, WINDOW
from fail_star_tools.known import known
from fail_star_tools.read import campaign_file, elf_image, job_table, line_table, regular
from fail_star_tools.count.stack_names import StackNames
from fail_star_tools.read.campaign_file import CampaignFile, Card, Refusal, Region
from fail_star_tools.read.cells import MOST_RAM, REGISTERS, all_sites, is_byte, offset_of, register_name
from fail_star_tools.read.elf_image import Image
from fail_star_tools.read.job_table import OLD_TRAP, TRAP_KINDS, UNKNOWN, Lines, Ram, is_campaign, reads_of, share_of, table_of
from fail_star_tools.read.parts import Part, Window
from fail_star_tools.read.traces import Trace, trace_by, trace_in
from fail_star_tools.run import program
from fail_star_tools.run.progress import counted

RAM_BASE = 0x80000000  # where RAM is if no option says it
KINDS = ("function", "line", "instruction", "register", "variable")
IN_CODE = KINDS[:3]
IN_ORDER = ("no-effect", "silent", "detected", OLD_TRAP, *TRAP_KINDS, "timeout", UNKNOWN)  # of a report of an older version or of today's


# --- What was asked -------------------------------------------------------------------------------


@dataclass
class Asked:
    """The settings besides the image and the table: the files of a trace and of the program; map, limit and a flag of
    the campaign; the outcomes whose jobs are listed one by one; and the part of the run that is asked for, or None for
    the whole run."""

    trace: str | None = None
    program: str | None = None
    rom: Region | None = None
    ram: Region | None = None
    limit: int | None = None
    ram_code: bool = False
    listed: tuple[str, ...] = ()
    unfinished: bool = False  # whether a campaign may be unfinished
    part: Part | None = None

    def options(self) -> list[str]:
        """The options for `trace` with the same settings."""
        said = {"--rom": self.rom, "--ram": self.ram, "--limit": self.limit}
        return [word for name, value in said.items() if value is not None for word in (name, str(value))] + ["--ram-code"] * self.ram_code

    def look_at(self, card: Card, keep: str) -> None:
        """Refuses settings that differ from those in the campaign file."""
        for name, said, kept in (("--rom", self.rom, card.rom), ("--ram", self.ram, card.ram), ("--limit", self.limit, card.limit)):
            if said is not None and said != kept:
                raise Refusal(f"{keep}: it was made with {name} {kept}, and you gave {said}")
        if self.ram_code and not card.ram_code:
            raise Refusal(f"{keep}: it was made without --ram-code, and you gave that flag")


def mixed_up(word: str, found: Iterable[str]) -> str | None:
    """The reason why a word for traps does not fit a table with these outcomes: the version that wrote the table has
    other words."""
    if word == OLD_TRAP and TRAP_KINDS[0] in found:
        return f"the table has {', '.join(TRAP_KINDS)} in the place of {OLD_TRAP}"
    if word in TRAP_KINDS and OLD_TRAP in found:
        return f"the table has {OLD_TRAP} in the place of {', '.join(TRAP_KINDS)}"
    return None


def look_at_word(word: str, campaign: Campaign) -> None:
    """Refuses a word for an outcome that does not fit a table."""
    found = campaign.jobs.counts()
    complaint = mixed_up(word, found)
    if complaint is not None:
        raise Refusal(complaint)
    if word not in found:
        raise Refusal(f"no outcome is called {word[:60]!r}; the table has {', '.join(found)}")


# --- Jobs and their places ------------------------------------------------------------------------


class Spot(NamedTuple):
    """Where a flipped value is read: the address of the instruction, the cell, the address of the instruction for
    whose function it works (another one in routines of the compiler), and the name of a byte of the stack. Without a
    trace, addresses are -1."""

    pc: int
    cell: int
    owner: int
    slot: str


@dataclass
class Jobs:
    """The content of a table of jobs, or of a part of the run: the sites by the place where the flipped value is read,
    and by outcome. The halting store is the last instruction and reads a register, so the last job gives the number of
    instructions. Jobs of some outcomes are also listed one by one, and those that may turn the address of a port into
    another's."""

    instructions: int = 0
    window: Window | None = None  # the cycles that are in the part
    sites: dict[Spot, Counter[str]] = field(default_factory=dict)
    listed: JobList = field(default_factory=JobList)
    at_stores: list[Job] = field(default_factory=list)
    number: int = 0
    unknown: int = 0  # the number of jobs that an unfinished campaign does not keep

    def counts(self) -> dict[str, int]:
        """The live sites by the outcomes of the version that wrote the table, in the order of a report."""
        counts: Counter[str] = Counter()
        for sites in self.sites.values():
            counts.update(sites)
        words = OLD_OUTCOMES if counts[OLD_TRAP] else campaign_file.OUTCOMES
        return {word: counts[word] for word in ((*words, UNKNOWN) if self.unknown else words)}

    @property
    def cycles(self) -> int:
        """The number of cycles: those of the part, or all."""
        return self.instructions if self.window is None else len(self.window)

    @property
    def share(self) -> str:
        """The number of jobs with a known outcome."""
        return share_of(self.number - self.unknown, self.number)

    def cells(self) -> set[int]:
        """The cells that a job names."""
        return {spot.cell for spot in self.sites}


def spot_of(cycle: int, cell: int, trace: Trace | None, names: StackNames | None) -> Spot:
    """Where the instruction of a cycle reads a cell."""
    pc = trace.at(cycle) if trace else -1
    if names is None:
        return Spot(pc, cell, pc, "")
    return Spot(pc, cell, names.owner_at(cycle), names.slot_at(cycle, cell))


def read_jobs(
    lines: Lines,
    trace: Trace | None,
    names: StackNames | None,
    listed: tuple[str, ...] = (),
    window: Window | None = None,
) -> Jobs:
    """The jobs of a whole table that have sites in the part. Each read of a cell is at the address that the trace
    gives."""
    jobs = Jobs()
    bases = port_flips.bases_of(trace) if trace else {}
    for whole in counted(reads_of(lines), "reads of cells in the table so far"):
        jobs.instructions = whole.cycle + 1
        read = whole if window is None else window.clipped(whole)
        if read is None:
            continue
        spot = spot_of(read.cycle, read.cell, trace, names)
        sites = jobs.sites.setdefault(spot, Counter())
        if read.cell and bases.get(spot.pc) == read.cell:
            jobs.at_stores += jobs_at_store(read)
        for bit, place in enumerate(read.outcomes):
            outcome = job_table.OUTCOMES[place]
            sites[outcome] += read.weight
            if outcome in listed:
                jobs.listed.append(Job(read.cycle, read.cell, bit, read.weight, outcome))
        jobs.number += len(read.outcomes)
        jobs.unknown += read.outcomes.count(job_table.OUTCOMES.index(UNKNOWN))
    if trace is not None:
        trace.look_at_last(jobs.instructions - 1)
    jobs.window = None if window is None else window.until(jobs.instructions)
    return jobs


def jobs_at_store(read: job_table.Read) -> Iterator[Job]:
    """The jobs of a read of a store's address that may turn the address of a port into that of another."""
    for bit in port_flips.BITS:
        outcome = job_table.OUTCOMES[read.outcomes[bit]]
        if outcome in port_flips.OUTCOMES:
            yield Job(read.cycle, read.cell, bit, read.weight, outcome)


@dataclass
class Campaign:
    """A table with everything else that is known of its campaign. `lacking` has the kinds of rows that cannot be
    given, each with the reason."""

    jobs: Jobs
    ram: Ram
    card: Card | None = None
    image: Image | None = None
    lines: line_table.LineTable | None = None
    trace: Trace | None = None
    lacking: dict[str, str] = field(default_factory=dict)
    keep: str | None = None  # the campaign file
    names: StackNames | None = None

    def chosen(self, outcomes: Iterable[str]) -> int:
        """The live sites that have one of these outcomes."""
        counts = self.jobs.counts()
        return sum(counts[word] for word in outcomes)

    @cached_property
    def port_flips(self) -> Counter[str]:
        """The sites by outcome whose flip turns the address of one port into that of another. Without a campaign file it is not known."""
        return port_flips.sites_of(self.card, self.jobs.at_stores) if self.card else Counter()

    def all_sites(self) -> int:
        """The number of all sites, or, if the size of RAM is not known, only of the live ones."""
        if self.ram.size is None:
            return sum(self.jobs.counts().values())
        return all_sites(self.jobs.cycles, self.jobs.cells(), self.ram.size)

    def sites_in(self, kind: str, name: str, outcomes: Iterable[str]) -> int:
        """The live sites that have one of these outcomes, at one place: a line, a register by either of its names, or a variable."""
        found = self.sites_by(kind, outcomes)
        if kind == "register":
            return sum(sites for place, sites in found.items() if name in str(place).split())
        return found.get(name, 0)

    def has_place(self, kind: str, name: str) -> bool:
        """Whether there is such a place, with sites or without."""
        if kind == "register":
            return any(name in register_name(cell).split() for cell in range(REGISTERS))
        if kind == "line":
            return any(f"{row.file}:{row.line}" == name for row in known(self.lines).rows)
        is_slot = any(spot.slot == name for spot in self.jobs.sites)
        return is_slot or any(symbol.name == name for symbol in known(self.image).variables.symbols)

    def sites_by(self, kind: str, outcomes: Iterable[str], function: str | None = None) -> dict[int | str, int]:
        """The live sites that have one of these outcomes, by a kind of place: instructions by their addresses, others
        by name. If a function is named, only those that its instructions read."""
        found: Counter[int | str] = Counter()
        is_here = (lambda pc: True) if function is None else known(self.image).has_name(function)
        for spot, sites in self.jobs.sites.items():
            count = sum(sites[word] for word in outcomes)
            here = count and (is_here(spot.pc) or (spot.owner != spot.pc and is_here(spot.owner)))
            if here and (kind in IN_CODE or is_byte(spot.cell) != (kind == "register")):
                found[self.place(kind, spot)] += count
        return found

    def lines_at(self, kind: str, name: str, outcomes: Iterable[str]) -> dict[int | str, int]:
        """The same sites as in sites_in, by the lines of the instructions that read them."""
        found: Counter[int | str] = Counter()
        for spot, sites in self.jobs.sites.items():
            if kind in IN_CODE or is_byte(spot.cell) != (kind == "register"):
                place = str(self.place(kind, spot))
                if name in place.split() if kind == "register" else place == name:
                    found[self.line_at(spot.owner)] += sum(sites[word] for word in outcomes)
        return +found

    def spot(self, cycle: int, cell: int) -> Spot:
        """Where the instruction of a cycle reads a cell."""
        return spot_of(cycle, cell, self.trace, self.names)

    def place(self, kind: str, spot: Spot) -> int | str:
        """The place of a kind for which a read of a cell by an instruction counts."""
        if kind == "function":
            return self.function_at(spot.owner)
        if kind == "line":
            return self.line_at(spot.owner)
        if kind == "instruction":
            return spot.pc
        if kind == "register":
            return register_name(spot.cell)
        return spot.slot or self.variable_at(known(self.ram.base) + offset_of(spot.cell))

    def line_at(self, pc: int) -> str:
        """The file and the line of an instruction."""
        return known(self.lines).of(pc) or "(no line)"

    def function_at(self, pc: int) -> str:
        """The name of the function that has an instruction."""
        owner = known(self.image).function_at(pc)
        return owner.name if owner else "(no function)"

    def variable_at(self, address: int) -> str:
        """The name of the variable that has a byte, or of the function if the byte is code, and otherwise the address
        of its word."""
        owner = self.image.variables.of(address) if self.image else None
        code = self.image.functions.of(address) if self.image else None
        return owner.name if owner else f"{code.name} (code)" if code else f"{address & ~3:#010x}"


def counts_of(campaign: Campaign) -> dict[str, int]:
    """The counts of a table of jobs, with the dead sites if the size of RAM is known; otherwise the number of no-effect is not known."""
    without = {word: count for word, count in campaign.jobs.counts().items() if word != "no-effect"}
    counts = {"instructions": campaign.jobs.instructions}
    if campaign.jobs.window is not None:
        counts[WINDOW] = campaign.jobs.cycles
    if campaign.ram.size is not None:
        sites = campaign.all_sites()
        counts |= {"sites": sites, "no-effect": sites - sum(without.values())}
    return counts | without


# --- Reading --------------------------------------------------------------------------------------


def read(image: str | None, table: str, asked: Asked) -> Campaign:
    """A table, or the table of a campaign file, with its image and its trace if there are any."""
    try:
        if is_campaign(table):
            return read_kept(image, table, asked)
        with regular.opened_or_input(table) as file:
            return read_table(image, table, regular.lines_of(file), asked)
    except OSError as error:
        raise Refusal(f"{table}: {error.strerror}") from None


def read_table(image: str | None, table: str, lines: TextIO, asked: Asked) -> Campaign:
    """The output of `report --format csv`, with the settings of the words."""
    shown = elf_image.read(image) if image else None
    trace = None
    if asked.trace is not None:
        trace = trace_in(asked.trace)
    elif image and (asked.program or program.is_there()):
        trace = trace_by(program.found(asked.program), image, asked.options())
    ram = Ram(RAM_BASE) if asked.ram is None else Ram(asked.ram.base, asked.ram.size)
    names = StackNames.of(shown, trace, known(ram.base))
    try:
        window = None if asked.part is None else asked.part.window(trace, shown)
        jobs = read_jobs(lines, trace, names, asked.listed, window)
        look_at_jobs(jobs, asked)
        campaign = Campaign(jobs, ram, image=shown, trace=trace, names=names)
        ram.look_at(campaign.jobs.cells())
    except Refusal as refusal:
        raise Refusal(f"{'standard input' if table == '-' else table}: {refusal}") from None
    if trace is None:
        campaign.lacking = dict.fromkeys(IN_CODE, "the run without a fault is needed: --trace FILE, or fail_star by --program FILE")
    look_for_lacking(campaign)
    return campaign


def read_kept(image: str | None, keep: str, asked: Asked) -> Campaign:
    """The table of a campaign file, as the program writes it. The file says its map, its limit and its flags."""
    kept = campaign_file.read(keep)
    asked.look_at(kept.card, keep)
    program.found(asked.program)
    shown = elf_image.read(image) if image else None
    try:
        return kept_of(kept, image, keep, asked, shown)
    except Refusal as refusal:
        raise Refusal(f"{keep}: {refusal}") from None


def kept_of(kept: CampaignFile, image: str | None, keep: str, asked: Asked, shown: Image | None) -> Campaign:
    """The same of a file and an image that were read, with refusals that do not name the file."""
    called = program.found(asked.program)

    def trace_of(name: str) -> Trace:
        return trace_in(asked.trace) if asked.trace else trace_by(called, name, kept.card.trace_options())

    with program.image_of(kept.card, image) as name:
        trace = None if asked.part is None else trace_of(name)
        window = None if asked.part is None else asked.part.window(trace, shown)
        with table_of(kept, keep, called, name, asked.unfinished, window) as lines:
            trace = trace_of(name) if trace is None else trace
            names = StackNames.of(shown, trace, kept.card.ram.base)
            jobs = read_jobs(lines, trace, names, asked.listed, window)
    look_at_jobs(jobs, asked)
    ram = Ram(kept.card.ram.base, kept.card.ram.size)
    campaign = Campaign(jobs, ram, kept.card, shown, trace=trace, keep=keep, names=names)
    look_for_lacking(campaign)
    return campaign


def look_at_jobs(jobs: Jobs, asked: Asked) -> None:
    """Refuses a part that begins after the end of the run, and one of which not all jobs are kept, if the answer needs
    all."""
    if asked.part is None:
        return
    asked.part.look_at_end(jobs.instructions)
    if jobs.unknown and not asked.unfinished:
        raise Refusal(f"of the part {asked.part}, {jobs.share}: fail_window with this part runs the others")


def look_for_lacking(campaign: Campaign) -> None:
    """Finds out which kinds of places an image lacks, and refuses an image that is not that of the trace."""
    image = campaign.image
    if image is None:
        campaign.lacking = dict.fromkeys(IN_CODE, "the image is needed") | campaign.lacking
        return
    if campaign.trace is not None:
        campaign.trace.look_at(image, Region(known(campaign.ram.base), campaign.ram.size or MOST_RAM))
    if not image.has_symbols:
        campaign.lacking.setdefault("function", "the image has no symbol table")
    try:
        campaign.lines = line_table.lines_of(image)
    except Refusal as refusal:
        campaign.lacking.setdefault("line", str(refusal))


DEFAULTS = ("0x20000000:65536", "0x80000000:16384", "1000000")  # of --rom, --ram and --limit


# --- The command line -----------------------------------------------------------------------------


def region_of(word: str) -> Region:
    """A region as an option has it."""
    try:
        return Region.of(word)
    except Refusal as refusal:
        raise argparse.ArgumentTypeError(str(refusal)) from None


def ram_of(word: str) -> Region:
    """RAM as the program takes it."""
    region = region_of(word)
    if not 0 < region.size <= MOST_RAM or region.size % 4 or region.base % 4 or region.base + region.size > 1 << 32:
        raise argparse.ArgumentTypeError(f"expected 4 to {MOST_RAM} bytes within 32 bits, both numbers divisible by 4, found {word!r}")
    return region


def number_of(word: str) -> int:
    """A number as an option has it."""
    try:
        return campaign_file.number_of(word)
    except Refusal as refusal:
        raise argparse.ArgumentTypeError(str(refusal)) from None


def add_options(parser: argparse.ArgumentParser, of_file: bool = True) -> None:
    """The options that name the program, and those for the settings of a campaign: as they are without them, or as a
    campaign file says them, for a tool that takes one."""
    without = ", if no campaign file says it"
    rom, ram, limit = (without,) * 3 if of_file else (f" (default: {word})" for word in DEFAULTS)
    ending = without if of_file else ": code may run from RAM"
    parser.add_argument("--program", metavar="FILE", help="the program fail_star, if it is not on the path")
    parser.add_argument("--rom", type=region_of, metavar="BASE:SIZE", help=f"ROM of the campaign{rom}")
    parser.add_argument("--ram", type=ram_of, metavar="BASE:SIZE", help=f"RAM of the campaign{ram}")
    parser.add_argument("--limit", type=number_of, metavar="N", help=f"the limit of the campaign{limit}")
    parser.add_argument("--ram-code", action="store_true", help=f"the flag of the campaign{ending}")
