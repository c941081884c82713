"""Runs jobs again, for the tools: what each run sends, and how it ends.

fail_answers gives the answers of all jobs of a campaign file that have some outcomes, by one call. Where it does not
apply (a table without its campaign file, a part of the run, a release without the program), fail_replay replays the
jobs. Either way the answers come in job order, and the outcome of each run must be that of the table.
"""

from __future__ import annotations

import re
from collections.abc import Iterable, Iterator
from dataclasses import dataclass
from typing import TextIO

from fail_star_tools.count.job_list import Job, JobList
from fail_star_tools.known import known
from fail_star_tools.read.campaign_file import Refusal
from fail_star_tools.read.classes import Answer
from fail_star_tools.read.job_table import OLD_TRAP, TRAP_KINDS
from fail_star_tools.read.traces import LONGEST_LINE, sent_by
from fail_star_tools.run import program
from fail_star_tools.run.at_once import Calls, mapped, portions
from fail_star_tools.run.program import Running
from fail_star_tools.run.progress import Progress

ANSWERS, REPLAY = "fail_answers", "fail_replay"
OUTPUT, END = "-|(?:[0-9a-f]{2})+", "halted (?:0|[1-9][0-9]{0,9})|detected|trapped|limit"  # as both programs write them
LINE = re.compile(f"([a-z-]+) ({OUTPUT}) ({END})\n")  # of fail_answers, after the job's numbers
LEAST_SITES, MOST_SITES = 16, 1000  # of one call: each runs the program without a fault, and has some ten words a site
RECORD = re.compile(
    f"site ([0-9]+) ([0-9]+) ([0-9]+)\ndiffers [^\n]*\noutput ({OUTPUT})\n"
    "end (halted [0-9]+|detected|trapped|limit)\noutcome ([a-z-]+)\n"
)
RECORD_LINES = 5


@dataclass(frozen=True)
class Replays:
    """How jobs are run again: the programs fail_answers and fail_replay, if they are named, and the most workers of
    the first, or calls of the second, at once."""

    answers: str | None
    replay: str | None
    workers: int


@dataclass(frozen=True)
class Case:
    """The image, the options and, if there is one, the campaign file of jobs that are run again."""

    image: str
    options: list[str]
    keep: str | None


# --- One call for a whole campaign ----------------------------------------------------------------


def answered(
    called: str, case: Case, numbers: dict[str, int], jobs: Iterable[Job], workers: int
) -> Iterator[tuple[Job, Answer]]:
    """The answers of all jobs of a campaign file that have one of these outcomes, by one call of fail_answers. `jobs`
    has these jobs in job order, and `numbers` the number of those with each outcome."""
    words = [case.image, known(case.keep), "--outcome", ",".join(numbers), "--workers", str(workers), *case.options]
    with Progress("runs answered", sum(numbers.values())) as progress, Running(called, words) as running:
        with program.lines_of(running, ANSWERS) as lines:
            for done, job in enumerate(jobs, 1):
                yield job, answer_of(job, lines.readline(LONGEST_LINE), running)
                progress.note(done)


def answer_of(job: Job, line: str, running: Running) -> Answer:
    """The answer in the next line of fail_answers, which must be that of a job."""
    numbers = f"{job.cycle} {job.cell} {job.bit} {job.weight} "
    found = LINE.fullmatch(line, len(numbers)) if line.startswith(numbers) else None
    if found is None:
        if not line.endswith("\n") and len(line) < LONGEST_LINE:
            program.look_at_end(running, ANSWERS)  # its line says why this one is cut or missing
        said = repr(line.rstrip("\n")[:60]) if line else "the end"
        raise Refusal(f"{ANSWERS}: expected the answer of {named(job)}, found {said}")
    look_at_outcome(job, found[1])
    return Answer(sent_by(found[2]), found[3])


# --- Replays --------------------------------------------------------------------------------------


def replayed(called: str, case: Case, jobs: JobList, workers: int) -> Iterator[tuple[Job, Answer]]:
    """The answer of each job by calls of fail_replay, of which several run at once."""

    def of_part(part: list[Job], calls: Calls) -> list[tuple[Job, Answer]]:
        words = [str(number) for job in part for number in (job.cycle, job.cell, job.bit)]
        with calls.begin(called, ["--brief", case.image, *words, *case.options]) as running:
            with program.lines_of(running, REPLAY) as lines:
                return [(job, replay_of(job, lines)) for job in part]

    done = 0
    with Progress("runs replayed", len(jobs)) as progress:
        for found in mapped(of_part, portions(jobs, len(jobs), workers, LEAST_SITES, MOST_SITES), workers):
            yield from found
            done += len(found)
            progress.note(done)


def replay_of(job: Job, lines: TextIO) -> Answer:
    """The record of the next replay, which must be that of a job."""
    text = "".join(lines.readline(LONGEST_LINE) for _ in range(RECORD_LINES))
    record = RECORD.fullmatch(text)
    if record is None or tuple(map(int, record.group(1, 2, 3))) != (job.cycle, job.cell, job.bit):
        raise Refusal(f"{REPLAY}: expected the replay of {named(job)}")
    look_at_outcome(job, record[6])
    return Answer(sent_by(record[4]), record[5])


# --- Both -----------------------------------------------------------------------------------------


def named(job: Job) -> str:
    """A job in a refusal."""
    return f"cycle {job.cycle} cell {job.cell} bit {job.bit}"


def look_at_outcome(job: Job, outcome: str) -> None:
    """Refuses a run whose outcome is not that in the table."""
    if not has_outcome(job, outcome):
        said = f"the table says {job.outcome} of {named(job)}, and its replay {outcome}"
        raise Refusal(f"{said}: they belong to different campaigns")


def has_outcome(job: Job, outcome: str) -> bool:
    """Whether the outcome in a table fits that of a replay. An older version had one word for all traps."""
    return outcome == job.outcome or (job.outcome == OLD_TRAP and outcome in TRAP_KINDS)
