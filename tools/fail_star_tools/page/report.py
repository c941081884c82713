"""Writes a campaign as one HTML page: its counts as bars, its fault map, and its worst functions and instructions.

The page is one file that needs no network. Bars show the counts of sites, except
those without effect. In the map the silent sites are the darkest; lines tell the other kinds apart on a print
without colours. Instructions, source lines, functions and rows of the map link to each other. A script within the
page sorts and filters tables, copies commands, and shows the words of the map for the pointer and the arrow keys;
without it the page has the same content. With --compare the page shows a second campaign beside the first, as before
and after, at the same scale.

TABLE is a campaign file, for which the program writes the table and the trace, or
what `fail_star report IMAGE KEEP --format csv` wrote. The page shows more if it
is given more: a campaign file (--keep) has the map and the limit, so that dead
sites are counted; a trace (what `fail_star trace` wrote) has the instruction of
each cycle; an image has the names of functions and variables, and is
disassembled if an objdump that knows RISC-V is installed
(riscv64-unknown-elf-objdump, riscv32-unknown-elf-objdump,
riscv64-linux-gnu-objdump or llvm-objdump); otherwise the page has the words of
the trace. Files that do not belong together are refused.

For an image that was built with -g the page has the source lines that ran, with
their counts. Source files are read only in the folders of --sources, or without
it in the current folder and the image's. If a text is not found, the page has the
file, the line number and the counts.

With --cycles, --code and --function the page is about a part of the run: the sites
before its instructions, as `fail_window` counts them.

For a campaign file the page says how many silent and detected sites turn the address
of one port into that of another: bit 2 or 3 of the register from which a store takes it.

The page has the date, or that of SOURCE_DATE_EPOCH in the environment: then the
same files and the same objdump give the same page, byte for byte.
"""

from __future__ import annotations

import argparse
import hashlib
import os
import tempfile
from collections import Counter
from collections.abc import Callable, Iterator
from contextlib import ExitStack
from dataclasses import dataclass, field
from pathlib import Path
from typing import Optional, TypeVar

from fail_star_tools.command_line import Parser
from fail_star_tools.count import classed, port_flips
from fail_star_tools.count.classed import NO_EFFECT, Classed
from fail_star_tools.count.job_list import Job, Repeated
from fail_star_tools.count.text_table import ratio
from fail_star_tools.count.places import IN_ORDER, RAM_BASE, jobs_at_store
from fail_star_tools.known import known
from fail_star_tools.page import fault_grid, fault_map, page_links, page_style, page_table, page_text
from fail_star_tools.page.page_date import date_of
from fail_star_tools.page.page_groups import group_parts
from fail_star_tools.page.page_map import maps_of
from fail_star_tools.page.page_source import source_parts
from fail_star_tools.page.page_table import Shown
from fail_star_tools.page.page_text import Cell, element, facts, heading, scrolling, table
from fail_star_tools.page.page_worst import worst_parts
from fail_star_tools.read import campaign_file, disassembly, elf_image, job_table, line_table, linked_ram, parts, regular
from fail_star_tools.read.campaign_file import Card, CampaignFile, Refusal, Region
from fail_star_tools.read.cells import MOST_RAM
from fail_star_tools.read.elf_image import Image
from fail_star_tools.read.job_table import Ram
from fail_star_tools.read.parts import Window
from fail_star_tools.read.traces import Trace, trace_by, trace_in
from fail_star_tools.release import MADE_BY
from fail_star_tools.run import answers, program, whole_file
from fail_star_tools.run.answer_runs import Case
from fail_star_tools.words import complain, printable

Answer = TypeVar("Answer")
WindowOf = Callable[[Optional[Trace]], Optional[Window]]  # from the run without a fault to the cycles of the part
MOST_ANSWERS = 3
MEANING = (
    "A site is a flip of one bit of a register, of a byte of RAM or, with --pc, of the pc, before one instruction of the run. Each job "
    "that was run counts for all sites that it represents. Faults hit each bit and cycle at some rate, so compare the counts, silent "
    "ones first, and not percentages: unused RAM and idle instructions would make them smaller."
)


@dataclass
class Said:
    """The options of one campaign."""

    table: str
    keep: str | None
    trace: str | None
    image: str | None
    ram: Ram
    sources: list[str] = field(default_factory=list)  # folders

    def files(self) -> list[str]:
        """All files that are read."""
        return [path for path in (self.table, self.keep, self.trace, self.image) if path is not None]


# --- Reading --------------------------------------------------------------------------------------


def read_kept(
    keep: str, kept: CampaignFile, spool: job_table.Spool, said: str | None, window_of: WindowOf
) -> tuple[job_table.Campaign, Trace]:
    """The table and the trace of a campaign file, as the program writes them."""
    called = program.found(said)
    with program.image_of(kept.card, None) as image:
        trace = trace_by(called, image, kept.card.trace_options())
        window = window_of(trace)
        with job_table.table_of(kept, keep, called, image, True, window) as lines:
            return job_table.read_campaign(lines, spool, window), trace


def read(said: Said, line: argparse.Namespace, stack: ExitStack) -> Shown:
    """A campaign with everything that the options give, or the refusal that names a file."""
    kept, trace, part = None, None, parts.asked_in(line)
    image = elf_image.read(said.image) if part is not None and said.image is not None else None

    def window_of(run: Trace | None) -> Window | None:
        return None if part is None else part.window(run, image)

    spool = job_table.Spool(stack.enter_context(tempfile.TemporaryFile()))
    if job_table.is_campaign(said.table):
        own = kept = campaign_file.read(said.table)
        campaign, trace = of_file(said.table, lambda: read_kept(said.table, own, spool, line.program, window_of))
    else:
        trace = None if said.trace is None else trace_in(said.trace)
        lines = regular.lines_of(stack.enter_context(regular.opened(said.table)))
        campaign = of_file(said.table, lambda: job_table.read_campaign(lines, spool, window_of(trace)))
    if part is not None:
        of_file(said.table, lambda: known(part).look_at_end(campaign.instructions))
    counts = page_table.counts_of(campaign)
    if said.keep is not None:
        other = kept = campaign_file.read(said.keep)
        if part is None:
            of_file(said.keep, lambda: page_table.look_at_jobs(counts, other))
    ram = Ram(kept.card.ram.base, kept.card.ram.size) if kept else said.ram
    of_file(said.table, lambda: ram.look_at(campaign.cells))
    name = Path(said.table).stem if part is None else f"{Path(said.table).stem}, {part}"
    shown = Shown(printable(name), campaign, ram, counts, page_table.outcomes_of(campaign, ram), kept)
    if job_table.is_campaign(said.table):
        shown.program = program.sum_of(program.found(line.program))
    is_read = said.trace is None or not job_table.is_campaign(said.table)
    shown.trace = trace if is_read else trace_in(known(said.trace))
    if shown.trace is not None:
        of_file(said.trace or said.table, lambda: known(shown.trace).look_at_last(campaign.instructions - 1))
    if said.image is not None:
        take_image(shown, said.image, line.objdump)
    if line.classes is not None:
        of_file(said.table, lambda: take_classes(shown, said, line, stack))
    return shown


def of_file(path: str, answer: Callable[[], Answer]) -> Answer:
    """An answer, or its refusal with a file's name in front."""
    try:
        return answer()
    except Refusal as refusal:
        raise Refusal(f"{path}: {refusal}") from None


def take_image(shown: Shown, path: str, objdump: str | None) -> None:
    """Adds what an image says, if it is that of the campaign."""
    image = shown.image = elf_image.read(path)
    shown.digest = hashlib.sha256(image.content).hexdigest()
    if shown.kept is not None:
        card = shown.kept.card
        of_file(path, lambda: look_at_card(image, card))
    if shown.trace is not None:
        ram = Region(RAM_BASE if shown.ram.base is None else shown.ram.base, shown.ram.size or MOST_RAM)
        shown.trace.look_at(image, ram)
        shown.lines = {} if objdump == "none" else disassembly.instructions_of(path, objdump)
        try:
            shown.source = line_table.lines_of(image)
        except Refusal as refusal:
            shown.no_source = str(refusal)


def take_classes(shown: Shown, said: Said, line: argparse.Namespace, stack: ExitStack) -> None:
    """Adds the sites by answer classes, and the reads with the class of each bit instead of its outcome."""
    keep = said.table if job_table.is_campaign(said.table) else said.keep
    if shown.kept is None or keep is None or shown.trace is None:
        raise Refusal("--classes needs a campaign file as the table, or --keep with --trace")
    wanted = known(classed.asked_in(line))
    found = shown.classed = classed.begun(wanted, shown.trace)
    card, reads = shown.kept.card, shown.campaign.reads
    outcomes = [word for word in wanted.outcomes if word != NO_EFFECT]
    jobs = Repeated(lambda: (job for read in reads for job in jobs_of(read) if job.outcome in outcomes))
    with program.image_of(card, said.image) as image:
        whole = shown.campaign.window is None
        given = answers.of_jobs(jobs, Case(image, card.options(), keep), classed.replays_in(line), whole)
    spool = shown.reads = job_table.Spool(stack.enter_context(tempfile.TemporaryFile()))
    for read in shown.campaign.reads:
        places = bytearray(place + len(wanted.names) for place in read.outcomes)
        for job in jobs_of(read):
            if job.outcome in wanted.outcomes:
                name = found.of_golden() if job.outcome == NO_EFFECT else found.take(job, given[job])
                places[job.bit] = wanted.names.index(name)
        spool.add(job_table.Read(read.cycle, read.cell, read.weight, bytes(places), read.end))
    if NO_EFFECT in wanted.outcomes:
        found.sent[found.of_golden()][found.golden] += shown.outcomes[NO_EFFECT]
    shown.palette = fault_grid.with_classes(wanted.names, wanted.outcomes)


def jobs_of(read: job_table.Read) -> Iterator[Job]:
    """The jobs of a read."""
    for bit, place in enumerate(read.outcomes):
        yield Job(read.cycle, read.cell, bit, read.weight, job_table.OUTCOMES[place])


def look_at_card(image: Image, card: Card) -> None:
    """Refuses an image that is not that of the case."""
    for start, content in image.segments:
        for region, kept in ((card.rom, card.rom_bytes), (card.ram, card.ram_bytes)):
            offset = start - region.base
            if 0 <= offset < region.size and kept[offset : offset + len(content)] != content:
                raise Refusal(f"it has other bytes from {start:#010x} on than the campaign file: another image")


# --- The parts of a page --------------------------------------------------------------------------


def words_of(all_shown: list[Shown]) -> list[str]:
    """The outcomes that any of the campaigns has, in the order of a report."""
    return [word for word in IN_ORDER if any(word in shown.outcomes for shown in all_shown)]


def outcome_parts(all_shown: list[Shown]) -> list[str]:
    """The bars, the sites that they omit, and all numbers in a table."""
    words = words_of(all_shown)
    names, counts = [shown.name for shown in all_shown], [shown.outcomes for shown in all_shown]
    title = "Sites by outcome, without those of no effect"
    parts = [heading(2, "Sites by outcome", "outcomes"), page_text.bars(names, counts, words[1:], title)]
    for shown in all_shown:
        kind = "sites" if shown.ram.size is not None else "live sites"
        total, rest = sum(shown.outcomes.values()), shown.outcomes["no-effect"]
        parts.append(element("p", f"The rest of {shown.name}: {rest:,} of {total:,} {kind} have no effect.", "note"))
        if shown.campaign.unknown:
            parts.append(element("p", f"The campaign of {shown.name} is not finished: {shown.campaign.share}.", "worst"))
    return [*parts, counts_table(all_shown, words), *notes_of(all_shown), *class_parts(all_shown)]


def class_parts(all_shown: list[Shown]) -> list[str]:
    """The sites by answer classes, and what the runs of each class answered."""
    found = [shown.classed for shown in all_shown if shown.classed is not None]
    if len(found) < len(all_shown):
        return []
    names, counts = [shown.name for shown in all_shown], [one.counts() for one in found]
    classes = found[0].classes.names
    parts = [heading(2, "Sites by answer", "answers")]
    parts.append(page_text.bars(names, counts, classes, "Sites by answer", fault_grid.OF_CLASS))
    parts.append(element("p", f"Of the {found[0].classes.title} sites, by what the run sends and the value that it halts with.", "note"))
    for shown, one in zip(all_shown, found):
        rows = [[Cell(name, "words"), Cell(f"{sites:,}", "worst"), Cell(most_of(one, name), "words")] for name, sites in one.counts().items()]
        columns = [Cell("class", "words"), Cell("sites"), Cell("what is sent mostly, and how the run ends", "words")]
        title = f"Answers of {shown.name}"
        parts += [heading(3, title, shown.anchor("answers-of")), table(columns, rows, "answers", title)]
    return parts


def most_of(found: Classed, name: str) -> str:
    """The most frequent answer of the runs of a class."""
    rows = found.outputs(name)
    texts = [f"{answer.text}, {answer.end}: {sites:,}" for answer, sites in rows[:MOST_ANSWERS]]
    return "; ".join(texts) + (f"; {len(rows) - MOST_ANSWERS:,} others" if len(rows) > MOST_ANSWERS else "")


def counts_table(all_shown: list[Shown], words: list[str]) -> str:
    """All numbers, and for a second campaign its ratio to the first."""
    rows = [("instructions", [shown.campaign.instructions for shown in all_shown]), ("jobs", [shown.campaign.jobs for shown in all_shown])]
    if any(shown.campaign.window is not None for shown in all_shown):
        rows.insert(1, ("in the part", [shown.campaign.cycles for shown in all_shown]))
    code = [shown.code_size() for shown in all_shown]
    if None not in code:
        rows.insert(1, ("bytes of code", [size or 0 for size in code]))
    kind = "sites" if any(shown.ram.size is not None for shown in all_shown) else "live sites"
    rows.append((kind, [sum(shown.outcomes.values()) for shown in all_shown]))
    rows += [(word, [shown.outcomes.get(word, 0) for shown in all_shown]) for word in words]
    compared = len(all_shown) > 1 and not differences(all_shown)
    columns = [Cell("", "words"), *(Cell(shown.name) for shown in all_shown), *([Cell("ratio")] if compared else [])]
    lines = []
    for word, numbers in rows:
        more = [Cell(ratio(numbers[1], numbers[0]))] if compared else []
        lines.append([Cell(word, "words"), *(Cell(f"{number:,}", "worst" if word == "silent" else "") for number in numbers), *more])
    stacks = [shown.lowest_stack() for shown in all_shown]
    if any(stack is not None for stack in stacks):
        cells = [Cell("?" if stack is None else f"{stack:#010x}") for stack in stacks]
        lines.insert(1, [Cell("lowest stack address", "words"), *cells, *([Cell("")] if compared else [])])
    return table(columns, lines, "counts", "All counts")


def differences(all_shown: list[Shown]) -> list[str]:
    """The settings of the second campaign that differ, as far as both are known."""
    if len(all_shown) == 1:
        return []
    first, second = all_shown
    if first.kept and second.kept:
        return first.kept.card.differences(second.kept.card)
    sizes = [shown.ram.size for shown in all_shown]
    return ["size of RAM"] if None not in sizes and sizes[0] != sizes[1] else []


def notes_of(all_shown: list[Shown]) -> list[str]:
    """The notes on a comparison, and on flips of the ports' addresses."""
    notes: list[str] = []
    if len(all_shown) > 1:
        if differences(all_shown):
            what = " and ".join(differences(all_shown))
            notes.append(f"The two campaigns do not have the same {what}, so no ratio is given.")
        if any(shown.kept is None for shown in all_shown):
            notes.append("A table does not name its limit: the two are comparable only if all limits are the same.")
        if len({shown.ram.size is None for shown in all_shown}) > 1:
            notes.append("The size of RAM is known only for one of the two campaigns, so the sites of the other one do not include dead sites.")
    flips = (port_flips.sentence_of(port_flips_of(shown), shown.name) for shown in all_shown)
    return [element("p", note, "note") for note in (*notes, *flips) if note is not None]


def port_flips_of(shown: Shown) -> Counter[str]:
    """The sites by outcome whose flip turns the address of one port into that of another, if the case and the run
    without a fault are known."""
    trace = shown.trace
    if shown.kept is None or trace is None:
        return Counter()
    bases = port_flips.bases_of(trace)
    reads = (read for read in shown.campaign.reads if read.cell and bases.get(trace.at(read.cycle)) == read.cell)
    return port_flips.sites_of(shown.kept.card, (job for read in reads for job in jobs_at_store(read)))


def map_parts(all_shown: list[Shown]) -> list[str]:
    """The maps, and the cells that they omit."""
    parts = [heading(2, "Fault map", "map")]
    if len(all_shown) > 1:
        same = "Both maps have the same rows and the same width of a cycle: equal areas are equally many sites."
        parts.append(element("p", same, "note"))
    titles = [f"Fault map of {shown.name}" + (f"; {shown.campaign.share}" if shown.campaign.unknown else "") for shown in all_shown]
    for shown, title, text in zip(all_shown, titles, maps_of(all_shown, titles)):
        parts += [heading(3, title, shown.anchor("map-of")), scrolling(text, title)]
        unread = fault_map.unread_of(shown.campaign.cells, shown.ram)
        parts += [element("p", unread, "note")] if unread else []
    return parts


def case_parts(shown: Shown, said: Said) -> list[str]:
    """The map, the limit and the image of a campaign."""
    card = shown.kept.card if shown.kept else None
    unknown = "not said"
    base, size = shown.ram.base, shown.ram.size
    ram = str(card.ram) if card else unknown if base is None else f"{base:#010x}" + (f":{size}" if size is not None else "")
    pairs = [
        ("table", Path(said.table).name),
        ("ROM", str(card.rom) if card else unknown),
        ("RAM", ram),
        ("entry", f"{card.entry:#010x}" if card else unknown),
        ("limit", f"{card.limit:,} instructions" if card else unknown),
        ("flags", (" ".join(card.flags()) or "none") if card else unknown),
        ("image", Path(said.image).name if said.image else unknown),
        ("SHA-256 of the image", shown.digest or unknown),
        ("SHA-256 of fail_star", shown.program or unknown),
    ]
    warning = linked_ram.warning_of(shown.image, card.ram) if card else None
    title = f"Case of {shown.name}"
    parts = [heading(3, title, shown.anchor("case")), facts(pairs, title)]
    return [*parts, *([element("p", f"{warning}.", "worst")] if warning else [])]


def page_of(all_shown: list[Shown], all_said: list[Said], title: str | None) -> str:
    """The whole page."""
    name = title or "Faults of " + ", then of ".join(shown.name for shown in all_shown)
    if len(all_shown) > 1:
        for shown, word, prefix in zip(all_shown, ("before", "after"), ("", page_links.AFTER)):
            shown.name, shown.prefix = f"{shown.name}, {word}", prefix
    parts = [*outcome_parts(all_shown), *map_parts(all_shown)]
    for shown, said in zip(all_shown, all_said):
        part = f"; {shown.campaign.share}" if shown.campaign.unknown else ""
        parts += [heading(2, f"Worst of {shown.name}{part}", shown.anchor("worst")), *worst_parts(shown)]
        parts += [*source_parts(shown, said.image, said.sources), *group_parts(shown, said.image)]
    parts.append(heading(2, "Settings", "settings"))
    for shown, said in zip(all_shown, all_said):
        parts += case_parts(shown, said)
    palette = all_shown[0].palette.kinds
    classes = {kind: colour for kind, (colour, _) in palette.items() if kind not in fault_grid.KINDS}
    first = [element("p", f"{MADE_BY}, {date_of()}", "note"), page_text.contents(parts), element("p", MEANING)]
    return page_text.page(name, [*first, *parts], page_style.of_classes(classes))


# --- The command line -----------------------------------------------------------------------------


def parser_of() -> Parser:
    """The parser of the command line."""
    example = "report.py plain.keep --image plain.elf -o page.html --compare voted.keep --image2 voted.elf"
    parser = Parser("report", __doc__, epilog=example)
    parser.add_argument("table", metavar="TABLE", help="a campaign file, or what fail_star report --format csv wrote")
    parser.add_argument("-o", "--output", metavar="PAGE", required=True, help="the page's file, which is written whole or not at all")
    parser.add_argument("--title", help="the heading of the page (default: the names of the tables' files)")
    parser.add_argument("--compare", metavar="TABLE2", help="a second campaign, the one after a change")
    for number, whose in (("", "TABLE"), ("2", "TABLE2")):
        parser.add_argument(f"--image{number}", metavar="IMAGE",
                            help=f"{whose}'s ELF file, for names, a disassembly and its SHA-256")
        parser.add_argument(f"--trace{number}", metavar="FILE", help=f"what fail_star trace wrote for {whose}'s image")
        parser.add_argument(f"--keep{number}", metavar="FILE",
                            help=f"{whose}'s campaign file, for its map and limit, if {whose} is a csv")
        parser.add_argument(f"--ram{number}", metavar="BASE[:SIZE]", type=job_table.ram_of, default=Ram(),
                            help=f"RAM of {whose}, if no campaign file says it")
    parser.add_argument("--sources", metavar="FOLDER", action="append", default=[],
                        help="a folder of source files (default: the current one and that of the image); may be repeated")
    classed.add_options(parser)
    parser.add_argument("--objdump", metavar="FILE", help="the objdump that disassembles; with none the page has the words of the trace")
    parser.add_argument("--program", metavar="FILE", help="the program fail_star, if it is not on the path")
    parts.add_options(parser)
    return parser


def line_of(words: list[str]) -> tuple[argparse.Namespace, list[Said]]:
    """The options of the page, and those of each campaign."""
    parser = parser_of()
    line = parser.parse_args(words)
    all_said = [Said(line.table, line.keep, line.trace, line.image, line.ram, line.sources)]
    second = Said(line.compare, line.keep2, line.trace2, line.image2, line.ram2, line.sources)
    if line.compare is not None:
        all_said.append(second)
    elif second.files() or second.ram != Ram():
        parser.error("options for a second campaign need --compare")
    return line, all_said


def main(words: list[str]) -> int:
    """The exit status: 0 if the page was written, 1 if it was not, and 2 (argparse's) for invalid words."""
    line, all_said = line_of(words)
    try:
        for path in (path for said in all_said for path in said.files()):
            if os.path.exists(line.output) and os.path.exists(path) and os.path.samefile(line.output, path):
                raise Refusal(f"{path}: it is read, so the page cannot be written to it")
        with ExitStack() as stack:
            text = page_of([read(said, line, stack) for said in all_said], all_said, line.title)
        whole_file.write(line.output, text)
    except (Refusal, OSError) as error:
        complain("report", error)
        return 1
    return 0
