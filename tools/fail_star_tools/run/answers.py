"""The answers of the runs of jobs, by one pass that runs them again: what each run sent, and how it ended.

The pass leaves the file KEEP.answers next to a campaign file KEEP, so that it is needed only once. KEEP.answers has
the SHA-256 of KEEP, and one of its own lines. It is made again if one of the two differs, and if anything in it is
not as it is written here: each answer once, each row once and in job order, and nothing after the end. It can be
removed at any time. `fail_star-classes(5)` has its lines.
"""

from __future__ import annotations

import hashlib
import heapq
import re
from array import array
from bisect import bisect_left
from collections import Counter
from collections.abc import Iterable, Iterator
from typing import IO

from fail_star_tools.count.job_list import Job, JobList
from fail_star_tools.known import known
from fail_star_tools.read import regular
from fail_star_tools.read.campaign_file import OUTCOMES as KEPT
from fail_star_tools.read.campaign_file import Refusal
from fail_star_tools.read.classes import Answer
from fail_star_tools.read.digest import sha256_of
from fail_star_tools.read.job_table import OUTCOMES
from fail_star_tools.read.traces import LONGEST_LINE, sent_by
from fail_star_tools.run import program, whole_file
from fail_star_tools.run.answer_runs import END, OUTPUT, Case, Replays, answered, replayed

MOST_OUTPUT = 268_435_456  # bytes of all different outputs
CELL_BITS, BIT_BITS = 17, 6  # of a site as one number
SUFFIX, FIRST = ".answers", "fail_star answers 2"
ANSWER = re.compile(f"answer ({OUTPUT}) ({END})\n")
ROW = re.compile("{0} {0} {0} {0}\n".format("(0|[1-9][0-9]{0,9})"))


class Answers:
    """The answers of jobs by their sites, in job order. Equal answers are kept once, and a job takes twelve bytes."""

    def __init__(self) -> None:
        self.all: list[Answer] = []
        self.places: dict[Answer, int] = {}
        self.sites, self.of_site = array("Q"), array("I")  # the jobs' sites as numbers, and the places of their answers
        self.room = MOST_OUTPUT

    def place_of(self, answer: Answer) -> int:
        """The place of an answer in the list of answers."""
        place = self.places.get(answer)
        if place is None:
            self.room -= len(answer.output)
            if self.room < 0:
                raise Refusal(f"the runs send outputs that differ, of more than {MOST_OUTPUT} bytes together")
            place = self.places[answer] = len(self.all)
            self.all.append(answer)
        return place

    def __len__(self) -> int:
        return len(self.sites)

    def row_of(self, job: Job) -> int | None:
        """The number of a job's row, if there is one."""
        site = site_of(job.cycle, job.cell, job.bit)
        at = bisect_left(self.sites, site)
        return at if at < len(self.sites) and self.sites[at] == site else None

    def __contains__(self, job: Job) -> bool:
        return self.row_of(job) is not None

    def __getitem__(self, job: Job) -> Answer:
        return self.all[self.of_site[known(self.row_of(job))]]

    def rows(self) -> Iterator[tuple[int, int]]:
        """Each site with the place of its answer."""
        return zip(self.sites, self.of_site)

    def add(self, rows: Iterable[tuple[int, int]]) -> None:
        """Adds rows in job order after the earlier ones."""
        for site, place in rows:
            self.sites.append(site)
            self.of_site.append(place)

    def take(self, found: Iterable[tuple[Job, Answer]]) -> None:
        """Takes the answers of jobs that are not here yet, of jobs in job order."""
        rows = Answers()
        others = ((job, answer) for job, answer in found if job not in self)
        rows.add((site_of(job.cycle, job.cell, job.bit), self.place_of(answer)) for job, answer in others)
        if self.sites:
            new, rows = rows, Answers()
            rows.add(heapq.merge(self.rows(), new.rows()))
        self.sites, self.of_site = rows.sites, rows.of_site


def site_of(cycle: int, cell: int, bit: int) -> int:
    """A site as one number."""
    return (cycle << CELL_BITS | cell) << BIT_BITS | bit


def of_jobs(jobs: Iterable[Job], case: Case, by: Replays, whole: bool) -> Answers:
    """The answers of these jobs, which can be gone through several times: those that are kept next to the campaign
    file, if there is one, and all others by running the jobs again. `whole` says whether they are all jobs of the
    campaign that have their outcomes."""
    digest = sha256_of(case.keep) if case.keep is not None else ""
    answers = kept_beside(case.keep, digest) if case.keep is not None else Answers()
    numbers = lacking(jobs, answers)
    if numbers:
        answers.take(run_again(jobs, numbers, answers, case, by, whole))
        if case.keep is not None:
            keep_beside(case.keep, digest, answers)
    return answers


def lacking(jobs: Iterable[Job], answers: Answers) -> dict[str, int]:
    """The number of jobs with each outcome of which an answer is missing."""
    numbers: Counter[str] = Counter()
    missing: set[str] = set()
    for job in jobs:
        numbers[job.outcome] += 1
        if job.outcome not in missing and job not in answers:
            missing.add(job.outcome)
    return {outcome: numbers[outcome] for outcome in OUTCOMES if outcome in missing}


def run_again(
    jobs: Iterable[Job], numbers: dict[str, int], answers: Answers, case: Case, by: Replays, whole: bool
) -> Iterator[tuple[Job, Answer]]:
    """The answers of those jobs that have an outcome of `numbers`, or only the missing ones, in job order. fail_answers
    runs all jobs that a campaign file keeps with an outcome: so the jobs of a part of the run, which may be few, are
    replayed one by one. So are those of a table without a campaign file, and those with a word for the outcome that no
    campaign file has."""
    kept = whole and case.keep is not None and all(outcome in KEPT for outcome in numbers)
    called = program.answers_found(by.answers, by.replay) if kept else None
    if called is not None:
        return answered(called, case, numbers, (job for job in jobs if job.outcome in numbers), by.workers)
    missing = JobList(job for job in jobs if job not in answers)
    return replayed(program.replay_found(by.replay), case, missing, by.workers)


# --- The file beside the campaign file ------------------------------------------------------------


def kept_beside(keep: str, digest: str) -> Answers:
    """The answers that are kept for this campaign file. They are empty if the file is missing, is not a regular one,
    was damaged, or belongs to another campaign file."""
    try:
        with regular.opened(f"{keep}{SUFFIX}", named=False) as file:
            return answers_in(Summed(file), digest)
    except (OSError, Refusal):
        return Answers()


class Damaged(Refusal):
    """A file of answers is not as it was written."""


class Summed:
    """The lines of a file, and the SHA-256 of all lines but the last one."""

    def __init__(self, file: IO[bytes]) -> None:
        self.file, self.digest, self.last = file, hashlib.sha256(), b""

    def next(self) -> str:
        """The next line, or nothing at the end."""
        self.digest.update(self.last)
        self.last = self.file.readline(LONGEST_LINE)
        return self.last.decode("ascii", "backslashreplace")


def answers_in(lines: Summed, digest: str) -> Answers:
    """The answers of such a file, which must be exactly what `texts_of` gives for them."""
    answers, before = Answers(), -1
    if lines.next() != f"{FIRST} {digest}\n":
        raise Damaged
    line = lines.next()
    while found := ANSWER.fullmatch(line):
        if answers.place_of(Answer(sent_by(found[1]), found[2])) + 1 < len(answers.all):
            raise Damaged  # an answer is repeated
        line = lines.next()
    while found := ROW.fullmatch(line):
        cycle, cell, bit, place = map(int, found.groups())
        site = site_of(cycle, cell, bit)
        if site <= before or cell >> CELL_BITS or bit >> BIT_BITS or place >= len(answers.all):
            raise Damaged
        answers.add([(site, place)])
        before, line = site, lines.next()
    if line != f"end {len(answers)}\n":
        raise Damaged
    if lines.next() != f"sum {lines.digest.hexdigest()}\n" or lines.next():
        raise Damaged
    return answers


def keep_beside(keep: str, digest: str, answers: Answers) -> None:
    """Keeps the answers. If no file can be made in the folder, they are computed again the next time."""
    try:
        whole_file.replace(f"{keep}{SUFFIX}", summed(texts_of(digest, answers)))
    except Refusal:
        pass


def summed(texts: Iterable[str]) -> Iterator[str]:
    """Lines, and after them the one that has their sum."""
    digest = hashlib.sha256()
    for text in texts:
        digest.update(text.encode())
        yield text
    yield f"sum {digest.hexdigest()}\n"


def texts_of(digest: str, answers: Answers) -> Iterator[str]:
    """The lines of the file, without the last one, which has their sum."""
    yield f"{FIRST} {digest}\n"
    for answer in answers.all:
        yield f"answer {answer.output.hex() or '-'} {answer.end}\n"
    for site, place in answers.rows():
        cell, bit = site >> BIT_BITS & (1 << CELL_BITS) - 1, site & (1 << BIT_BITS) - 1
        yield f"{site >> BIT_BITS + CELL_BITS} {cell} {bit} {place}\n"
    yield f"end {len(answers)}\n"
