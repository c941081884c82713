"""Says before a campaign is run what it needs: jobs, time, memory, a limit, and what fits into an hour.

    plan.py program.elf --ram 0x80000000:64 --workers 8

It runs a short campaign whole. Of a longer one it runs some windows of
neighbouring instructions, spread over the run, by fail_window, and computes the
time from the processor seconds that they take: that of a machine that does
nothing else. This takes some seconds, and up to a minute for a long program. It
also runs some jobs with limits that double, beginning at twice the run without
a fault: the limit is large enough if two more doublings change none of their
silent jobs. Samples of all sites and of live ones (--live) by `fail_star
sample` show how many draws fit into an hour.

With --cycles, --code and --function it says the same of the part of the run
that fail_window would run with these options.
"""

from __future__ import annotations

import argparse
import os
import tempfile
from collections.abc import Callable
from dataclasses import dataclass
from pathlib import Path
from typing import Tuple

from fail_star_tools.command_line import Parser
from fail_star_tools.count import places
from fail_star_tools.count.text_table import aligned
from fail_star_tools.read import campaign_file, elf_image, linked_ram, parts
from fail_star_tools.read.campaign_file import Refusal, Region
from fail_star_tools.read.parts import Part, Span, Window
from fail_star_tools.read.traces import trace_by
from fail_star_tools.run import part_costs, program
from fail_star_tools.run.watch import left
from fail_star_tools.run.windows import Cost, Runs, Windows, per_job, processor_seconds
from fail_star_tools.words import printable, say

DEFAULT_RAM, DEFAULT_LIMIT, MOST_LIMIT = Region(places.RAM_BASE, 16_384), 1_000_000, 1 << 24
MOST_SHARDS, JOBS_LEFT = 65_535, 7
FIRST_JOBS, MOST_JOBS = 500, 50_000  # of a shard that is measured
# Seconds of the processor.
WHOLE_SECONDS = 30.0  # all jobs are run if they take at most this, each job alone
SHORT_SECONDS = 10.0  # the same among neighbours, by windows
WINDOW_SECONDS = 15.0  # for all windows together, each job alone
SHARD_SECONDS = 1.0  # the least for a shard that is measured
WINDOWS, LEAST_EACH, MOST_EACH = 16, 600, 10_000  # the number of windows, and the jobs of each
MOST_REACHED = 8_000_000  # jobs of a campaign of which windows are run
DRAWS, HOUR = 2_000, 3600
# Bytes of memory at the start, for an instruction and for eight jobs, if no call was seen, and of the file for a job
# (docs/dev/PERFORMANCE.md).
BYTES_AT_START, BYTES_OF_INSTRUCTION, BYTES_OF_EIGHT_JOBS, BYTES_OF_ROW = 5_000_000, 58, 3, 10
SAME_DOUBLINGS = 2
MOST_DRAWS = 1_000_000  # of a sample
EXACTLY = "by all "  # how an estimate begins for which all jobs were run
Row = Tuple[int, int, int]  # a limit, silent jobs and timeouts
NO_LIMIT = "none below is large enough: use the time of the watchdog"


def numbers_of(text: str) -> dict[str, int]:
    """The numbers in the lines of a command, each of which has a word and a number."""
    pairs = (line.split(" ") for line in text.splitlines())
    return {pair[0]: int(pair[1]) for pair in pairs if len(pair) == 2 and pair[1].isdigit()}


def kept_of(called: str, line: argparse.Namespace, limit: int, every: int) -> dict[str, int]:
    """The jobs by outcome of a run of every n-th job, with a temporary campaign file."""
    with tempfile.TemporaryDirectory() as folder:
        keep = str(Path(folder) / "part.keep")
        words = [line.image, keep, *options_of(line, limit), "--workers", str(line.workers)]
        done = program.call(called, ["run", *words, "--shard", f"1/{every}", "--format", "json"])
        if done.returncode not in (0, JOBS_LEFT):
            raise Refusal(f"fail_star run: {done.line}")
        return campaign_file.read(keep).kept()


def options_of(line: argparse.Namespace, limit: int) -> list[str]:
    """The options of the case with a limit."""
    said = {"--rom": line.rom, "--ram": line.ram}
    words = [word for name, value in said.items() if value is not None for word in (name, str(value))]
    return [*words, "--limit", str(limit), *(["--pc"] * line.pc), *(["--ram-code"] * line.ram_code)]


# --- Time and memory ------------------------------------------------------------------------------


@dataclass(frozen=True)
class Estimate:
    """What all jobs take: seconds of all processors together and bytes of memory, and how that was found."""

    processor: float
    memory: int
    how: str


def estimate(runs: Runs, instructions: int, jobs: int) -> Estimate:
    """What a campaign takes. Every n-th job first shows whether all can be run, and how long windows may be."""
    begun = runs.fresh("--stop-after", "0")
    every = min(MOST_SHARDS, max(1, jobs // FIRST_JOBS))
    shard = max(0.0, runs.fresh("--shard", f"1/{every}").processor - begun.processor)
    alone = shard * every  # more than among neighbours
    each = min(MOST_EACH, max(LEAST_EACH, int(WINDOW_SECONDS * jobs / max(alone, 1e-9) / WINDOWS)))
    if alone <= WHOLE_SECONDS:
        return whole_of(runs, instructions, jobs)
    memory = runs.fresh("--stop-after", str(each)).memory or memory_of(instructions, jobs)
    if not 2 * WINDOWS * each <= jobs <= MOST_REACHED:
        return separate(runs, begun, jobs, every, memory)
    windows = Windows(WINDOWS, each // 10, each - 2 * (each // 10))
    found, _ = per_job(runs, jobs, windows)
    if found * jobs <= SHORT_SECONDS:
        return whole_of(runs, instructions, jobs)
    how = f"by {WINDOWS} windows of {each:,} neighbouring jobs"
    return Estimate(begun.processor + found * jobs, memory, how)


def whole_of(runs: Runs, instructions: int, jobs: int) -> Estimate:
    """The same of a short campaign, of which all jobs are run."""
    whole = runs.fresh()
    return Estimate(whole.processor, whole.memory or memory_of(instructions, jobs), f"by all {jobs:,} jobs")


def separate(runs: Runs, begun: Cost, jobs: int, every: int, memory: int) -> Estimate:
    """The same by every n-th job, which shares less with its neighbours than in the campaign: if that is too long for
    windows, or has few jobs that take long."""
    while True:
        found = max(0.0, runs.fresh("--shard", f"1/{every}").processor - begun.processor)
        if every == 1 or found >= SHARD_SECONDS or jobs // every >= MOST_JOBS:
            how = f"at most, by {jobs // every:,} separate jobs: neighbouring ones take less"
            return Estimate(begun.processor + found * every, memory, how)
        every = max(1, every // 4)


def memory_of(instructions: int, jobs: int) -> int:
    """The memory of a campaign that was not seen while it ran."""
    return BYTES_AT_START + BYTES_OF_INSTRUCTION * instructions + BYTES_OF_EIGHT_JOBS * jobs // 8


def draws_of(called: str, line: argparse.Namespace, *words: str) -> int:
    """How many draws of a sample fit into an hour, by the processor seconds of some."""
    before = processor_seconds()
    program.answer(called, ["sample", line.image, *options_of(line, line.limit), "--count", str(DRAWS), *words])
    return min(MOST_DRAWS, int(HOUR * DRAWS / max(processor_seconds() - before, 1e-3)))


# --- The limit ------------------------------------------------------------------------------------


def limits_of(
    line: argparse.Namespace, instructions: int, kept_at: Callable[[int], dict[str, int]]
) -> tuple[list[Row], int | None]:
    """Limits that double, each with the silent jobs and the timeouts of some jobs; and the limit that is large
    enough. `kept_at` runs the jobs with a limit."""
    rows: list[Row] = []
    limit = 2 * instructions
    while limit <= min(MOST_LIMIT, max(line.limit, 8 * instructions)):
        kept = kept_at(limit)
        rows.append((limit, kept["silent"], kept["timeout"]))
        last = rows[-SAME_DOUBLINGS - 1 :]
        if len(last) > SAME_DOUBLINGS and len({silent for _, silent, _ in last}) == 1:
            return rows, last[0][0]
        limit *= 2
    return rows, None


def counted(number: int, word: str) -> str:
    """A number with its word."""
    return f"{number} {word}" + ("s" if number != 1 else "")


# --- The answer -----------------------------------------------------------------------------------

Fact = Tuple[str, str]


def answer(line: argparse.Namespace) -> str:
    """The whole output."""
    called = program.found(line.program)
    program.look_at_image(line.image)
    plan = numbers_of(program.answer(called, ["plan", line.image, *options_of(line, line.limit)]))
    if not {"instructions", "jobs", "sites", "live"} <= set(plan):
        raise Refusal("fail_star plan: expected instructions, sites, jobs and live")
    part = parts.asked_in(line)
    facts, rows, limit = of_whole(called, line, plan) if part is None else of_part(called, line, plan, part)
    facts.append(("limit", f"{limit:,} is large enough by the jobs below" if limit else NO_LIMIT))
    width = max(len(word) for word, _ in facts)
    text = "".join(f"{word.ljust(width)}  {value}\n" for word, value in facts)
    table = aligned([("limit", "silent jobs", "timeouts"), *(tuple(map(str, row)) for row in rows)])
    warning = linked_ram.warning_of(elf_image.read(line.image), line.ram or DEFAULT_RAM)
    return f"{text}\n{table}" + (f"\n{warning}\n" if warning else "")


def of_whole(called: str, line: argparse.Namespace, plan: dict[str, int]) -> tuple[list[Fact], list[Row], int | None]:
    """The facts about all jobs, and those about limits."""
    instructions, jobs = plan["instructions"], plan["jobs"]
    by_window = program.unnamed("fail_window") if line.window is None else line.window
    if by_window is None:
        runs = Runs(called, line.image, options_of(line, line.limit), ["--workers", str(line.workers)])
        found, split = estimate(runs, instructions, jobs), "shard"
    else:
        whole = window_runs(by_window, line, line.limit, Part(Span(0, instructions)), Window([Span(0, instructions)]))
        total = part_costs.total_of(whole, jobs, SHORT_SECONDS)
        found, split = Estimate(total.processor, total.memory, total.how), "part"
    every = min(MOST_SHARDS, max(1, jobs // FIRST_JOBS))
    rows, limit = limits_of(line, instructions, lambda limit: kept_of(called, line, limit, every))
    draws, live = draws_of(called, line), draws_of(called, line, "--live")
    shards = counted(max(1, -(-int(seconds_of(line, found.processor)) // HOUR)), split)
    facts = [
        ("instructions", f"{instructions:,}"),
        ("sites", f"{plan['sites']:,}"),
        ("live sites", f"{plan['live']:,}"),
        ("jobs", f"{jobs:,}"),
        *costs_of(line, jobs, found),
        ("within an hour", f"{shards} on as many machines, or a sample of {draws:,} sites, or of {live:,} live sites"),
    ]  # fmt: skip
    return facts, rows, limit


def of_part(
    called: str, line: argparse.Namespace, plan: dict[str, int], part: Part
) -> tuple[list[Fact], list[Row], int | None]:
    """The facts about the jobs of a part, and those about limits."""
    by_window = program.window_found(line.window)
    options = [word for word in options_of(line, line.limit) if word != "--pc"]
    window = part.window(trace_by(called, line.image, options), elf_image.read(line.image))
    total = part_costs.total_of(window_runs(by_window, line, line.limit, part, window), None, SHORT_SECONDS)
    few = min(len(window), part_costs.FEW)

    def kept_at(limit: int) -> dict[str, int]:
        return window_runs(by_window, line, limit, part, window).kept((len(window) - few) // 2, few)

    rows, limit = limits_of(line, plan["instructions"], kept_at)
    pieces = counted(max(1, -(-int(seconds_of(line, total.processor)) // HOUR)), "part")
    facts = [
        ("instructions", f"{plan['instructions']:,}"),
        ("in the part", f"{len(window):,} instructions of {printable(str(part))}"),
        ("sites", f"{plan['sites'] // plan['instructions'] * len(window):,}"),
        ("jobs", f"{'' if total.how.startswith(EXACTLY) else 'about '}{total.jobs:,}"),
        *costs_of(line, total.jobs, Estimate(total.processor, total.memory, total.how)),
        ("within an hour", f"{pieces} on as many machines"),
    ]
    return facts, rows, limit


def window_runs(called: str, line: argparse.Namespace, limit: int, part: Part, window: Window) -> part_costs.Runs:
    """Calls of fail_window for a part."""
    more = ["--workers", str(line.workers)]
    return part_costs.Runs(called, line.image, options_of(line, limit), more, part, window)


def costs_of(line: argparse.Namespace, jobs: int, found: Estimate) -> list[Fact]:
    """The facts about steps, time, memory and the campaign file."""
    workers = f"with {counted(line.workers, 'worker')} ({left(found.processor)} of processor time)"
    return [
        ("steps at most", f"{jobs * line.limit:,}, if each job took the limit of {line.limit:,}"),
        ("time", f"about {left(seconds_of(line, found.processor))} {workers}, {found.how}"),
        ("memory", f"about {found.memory / 1e6:,.0f} MB"),
        ("campaign file", f"about {BYTES_OF_ROW * jobs / 1e6:,.1f} MB"),
    ]


def seconds_of(line: argparse.Namespace, processor: float) -> float:
    """The time that all workers take together."""
    workers: int = line.workers
    return processor / min(workers, os.cpu_count() or 1)


def main(words: list[str]) -> int:
    """The exit status: 0 if all was written, 1 if it was not, and 2 (argparse's) for invalid words."""
    parser = Parser("plan", __doc__)
    parser.add_argument("image", metavar="IMAGE", help="the program's ELF file")
    parser.add_argument(
        "--workers",
        type=places.number_of,
        default=min(64, os.cpu_count() or 4),
        metavar="K",
        help="the number of workers (default: one for each processor)",
    )
    parser.add_argument("--pc", action="store_true", help="the flag of the campaign")
    parser.add_argument("--window", metavar="FILE", help="the program fail_window, if it is not on the path")
    places.add_options(parser, of_file=False)
    parts.add_options(parser, "is about the jobs of instructions")
    line = parser.parse_args(words)
    line.limit = line.limit or DEFAULT_LIMIT
    return say("plan", lambda: answer(line))
