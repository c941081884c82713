"""Estimates where sites are from a sample: by function, line, instruction, register and variable, with intervals.

It makes the draws that `fail_star sample IMAGE --count N --seed S` makes, so its
counts by outcome are the same, and `fail_star audit` runs each job that was drawn.
A draw counts for the place where `where.py` counts the site: the instruction
that reads the flipped value, and the register, the pc or the variable whose bit
flips. Draws of dead sites, which nothing reads, have no effect and no place.

The tables of places count silent draws, or those with the outcomes of --outcome.
A row has its draws, their share, the sites that this share of the population is,
and an interval of both. The level holds for each row separately: in a table of
twenty rows, on average one interval of 0.95 does not contain the true number.

--live draws from the sites of jobs, as `sample --live` does: shares are then
shares of live sites.
"""

from __future__ import annotations

import argparse
import re
from collections import Counter
from collections.abc import Callable
from dataclasses import dataclass
from decimal import Context, Decimal
from typing import Any

from fail_star_tools.command_line import Parser
from fail_star_tools.count import draws, estimate, places, where
from fail_star_tools.count.draws import Hits
from fail_star_tools.count.estimate import METHODS, Interval, Sample
from fail_star_tools.count.json_text import JSON_PLACES, json_key, json_line
from fail_star_tools.count.places import Asked, Campaign, Jobs, spot_of
from fail_star_tools.count.stack_names import StackNames
from fail_star_tools.count.text_table import aligned
from fail_star_tools.count.where import Row
from fail_star_tools.read import elf_image
from fail_star_tools.read.campaign_file import OUTCOMES, Refusal, Region
from fail_star_tools.read.cells import bits_of
from fail_star_tools.read.job_table import Ram
from fail_star_tools.read.traces import trace_by
from fail_star_tools.run import at_once, audits, program
from fail_star_tools.words import say

NO_EFFECT = "no-effect"
MOST_COUNT, MOST_SEED = 1_000_000, (1 << 64) - 1
DEFAULT_RAM = Region(places.RAM_BASE, 16384)  # the program's
COLUMNS = ("draws", "share", "from", "to", "sites", "from", "to")


@dataclass(frozen=True)
class Drawn:
    """A sample with its draws at their places."""

    sample: Sample
    campaign: Campaign
    hits: Hits


# --- Drawing --------------------------------------------------------------------------------------


def drawn(line: argparse.Namespace) -> Drawn:
    """Draws the sites, and runs their jobs."""
    called = program.found(line.program)
    ram = line.ram or DEFAULT_RAM
    asked = Asked(None, line.program, line.rom, line.ram, line.limit, line.ram_code)
    options = asked.options() + ["--pc"] * line.pc
    image = elf_image.read(line.image)
    # The plan of a long program takes a while, in which the trace is read.
    with program.Running(called, ["plan", line.image, *options, "--format", "csv"]) as planning:
        trace = trace_by(called, line.image, asked.options())
        population = len(trace.pcs) * bits_of(line.pc, ram.size)
        if line.live:
            population = live_sites(called, line.image, options)
        names = StackNames.of(image, trace, ram.base)
        numbers = draws.indices(line.seed, population, line.count)
        with program.lines_of(planning, "fail_star plan") as lines:
            if line.live:
                hits = draws.hits_of_live(lines.buffer, numbers, population)
            else:
                hits = draws.hits_of_all(lines.buffer, numbers, ram.size, line.pc)
    jobs = Jobs(instructions=len(trace.pcs), number=len(hits.jobs))
    counts = Counter({NO_EFFECT: hits.dead})
    outcomes = audits.outcomes_of(called, line.image, [job[:3] for job in hits.jobs], options, line.workers)
    for (job, drawn_times), outcome in zip(hits.jobs.items(), outcomes):
        spot = spot_of(job.cycle, job.cell, trace, names)
        jobs.sites.setdefault(spot, Counter())[outcome] += drawn_times
        counts[outcome] += drawn_times
    campaign = Campaign(jobs, Ram(ram.base, ram.size), image=image, trace=trace, names=names)
    places.look_for_lacking(campaign)
    sample = Sample(len(trace.pcs), population, line.count, {word: counts[word] for word in OUTCOMES})
    return Drawn(sample, campaign, hits)


def live_sites(called: str, image: str, options: list[str]) -> int:
    """The number of sites that belong to jobs, by `plan`."""
    text = program.answer(called, ["plan", image, *options])
    found = re.search("^live ([1-9][0-9]{0,17})$", text, re.MULTILINE)
    if found is None:
        raise Refusal("fail_star plan: expected a line with live and a number of 1 or more")
    return int(found[1])


# --- What is written ------------------------------------------------------------------------------


@dataclass(frozen=True)
class Shown:
    """The settings by which a sample is shown."""

    found: Drawn
    line: argparse.Namespace
    outcomes: list[str]
    words: dict[int, str] | None

    def interval(self, count: int) -> Interval:
        """The interval for the share of this number of draws."""
        tail = float((1 - self.line.level) / 2)
        return METHODS[self.line.method](count, self.found.sample.draws, tail)

    def sites(self, count: int) -> int:
        """The number of sites that this number of draws represents."""
        sample = self.found.sample
        return (2 * count * sample.population + sample.draws) // (2 * sample.draws)

    def rows(self) -> dict[str, list[Row]]:
        """The rows of each kind of place, in which draws are counted."""
        return where.rows_of(self.found.campaign, self.outcomes, self.words)

    def notes(self) -> list[str]:
        """The notes below the tables."""
        return where.notes_of(self.found.campaign, self.words)


def text_of(shown: Shown) -> str:
    """The counts by outcome, and the tables of places."""
    sample, line = shown.found.sample, shown.line
    estimates = list(estimate.estimates_of(sample, line.level, [line.method]))
    chosen = sum(sample.counts[word] for word in shown.outcomes)
    kind = "live sites" if line.live else "sites"
    head = f"{' + '.join(shown.outcomes)}: {chosen} of {sample.draws} draws, {said(shown, chosen, kind)}\n"
    pieces = [estimate.table_of(sample, line.level, estimates), head]
    for name, rows in shown.rows().items():
        if rows:
            cells = [(row.name, *numbers_of(shown, row.sites)) for row in where.shortened(rows, line.top)]
            pieces.append(aligned([(name, *COLUMNS), *cells]) + where.left_out(rows, line.top))
    return "\n".join(pieces) + where.noted(shown.notes())


def said(shown: Shown, count: int, kind: str) -> str:
    """The text about the number of sites that this number of draws represents."""
    low, high = shown.interval(count).sites(shown.found.sample.population)
    return f"which are about {shown.sites(count)} of {shown.found.sample.population} {kind}, {low} to {high}"


def numbers_of(shown: Shown, count: int) -> tuple[str, ...]:
    """The cells of a row."""
    sample, interval = shown.found.sample, shown.interval(count)
    shares = (percent(value) for value in (count / sample.draws, interval.low, interval.high))
    return str(count), *shares, *map(str, (shown.sites(count), *interval.sites(sample.population)))


def percent(value: float) -> str:
    """A share in percent, to three digits."""
    return f"{Context(prec=3).create_decimal(Decimal(100 * value)):f} %"


def object_of(shown: Shown) -> dict[str, Any]:
    """The same as an object. It has all rows of each kind, unless --top limits them."""
    sample, line = shown.found.sample, shown.line
    by = {
        kind: [{"name": row.name, **row.more, **object_of_row(shown, row.sites)} for row in rows[: line.top]]
        for kind, rows in shown.rows().items()
    }
    head = {"instructions": sample.instructions, "population": sample.population, "samples": sample.draws}
    asked = {"seed": line.seed, "live": line.live, "level": float(line.level), "method": line.method}
    counts = {json_key(word): object_of_row(shown, count) for word, count in sample.counts.items()}
    dead = {"dead": shown.found.hits.dead}
    return {**head, **asked, **dead, "counts": counts, "outcomes": shown.outcomes, "by": by, "notes": shown.notes()}


def object_of_row(shown: Shown, count: int) -> dict[str, Any]:
    """The numbers of a row."""
    interval, sample = shown.interval(count), shown.found.sample
    fractions = [round(value, JSON_PLACES) for value in (interval.low, interval.high)]
    of_interval = {"fraction": fractions, "sites": list(interval.sites(sample.population))}
    share = round(count / sample.draws, JSON_PLACES)
    return {"draws": count, "fraction": share, "sites": shown.sites(count), "interval": of_interval}


# --- The command line -----------------------------------------------------------------------------


def within(lowest: int, highest: int) -> Callable[[str], int]:
    """A function that reads a number within bounds."""

    def number_of(word: str) -> int:
        number = places.number_of(word)
        if not lowest <= number <= highest:
            raise argparse.ArgumentTypeError(f"{word[:60]!r}: expected {lowest} to {highest}")
        return number

    return number_of


def line_of(words: list[str]) -> argparse.Namespace:
    """The options and files that the words name."""
    parser = Parser("sample_places", __doc__)
    add = parser.add_argument
    add("image", metavar="IMAGE", help="the program's ELF file")
    add("--count", type=within(1, MOST_COUNT), default=1000, metavar="N", help="the number of draws (default: 1000)")
    add("--seed", type=within(0, MOST_SEED), default=0, metavar="S", help="the seed of the draws (default: 0)")
    add("--live", action="store_true", help="draws only from the sites of jobs")
    add("--outcome", action="append", choices=OUTCOMES, metavar="WORD", help="an outcome instead of silent; may be repeated")
    add("--level", type=estimate.level_of, default=Decimal("0.95"), metavar="L", help="the level of the intervals (default: 0.95)")
    add("--method", choices=[*METHODS], default="wilson", help="the method of the intervals, as in estimate.py (default: wilson)")
    add("--top", type=where.count_of, metavar="N", help=f"the most rows of each kind (default: {where.ROWS}; in JSON all)")
    add("--format", choices=("text", "json"), default="text", help="tables, or one line of JSON (default: text)")
    add("--disassembler", metavar="COMMAND", help="a disassembler that takes objdump's options; none shows bytes")
    add("--replay", metavar="FILE", help=argparse.SUPPRESS)  # of an earlier version, which replayed the jobs
    at_once.add_option(parser)
    add("--pc", action="store_true", help="the flag of sample: the pc is a cell")
    places.add_options(parser, of_file=False)
    line: argparse.Namespace = parser.parse_args(words)
    return line


def answer(line: argparse.Namespace) -> str:
    """The whole output."""
    found = drawn(line)
    outcomes = [word for word in OUTCOMES if word in (line.outcome or ["silent"])]
    shown = Shown(found, line, outcomes, where.words_of(found.campaign, line))
    return text_of(shown) if line.format == "text" else json_line(object_of(shown))


def main(words: list[str]) -> int:
    """The exit status: 0 if the answer was written, 1 if it was not, and 2 (argparse's) for invalid words."""
    line = line_of(words)
    return say("sample_places", lambda: answer(line))
