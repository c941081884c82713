"""Runs windows of neighbouring jobs of a campaign that was not run, so that a few thousand jobs show what all cost.

`run` ends a job early if its run meets that of a neighbour, so every n-th job alone costs more than it does among all.
A window begins in the middle of a campaign: a campaign file is made that has a row for each job before, with an outcome
that nobody looked at, and `run` continues it. The file is in a temporary folder, and is removed.
"""

from __future__ import annotations

import io
import os
import resource
import struct
import subprocess
import tempfile
import time
from collections.abc import Iterator
from contextlib import contextmanager
from dataclasses import dataclass
from pathlib import Path
from typing import IO

from fail_star_tools.read.campaign_file import OPEN, ROW, Refusal
from fail_star_tools.run import program

BATCH = 65_535  # rows that are written at once
CLOSED = b"\0"  # the gate behind the last batch
MADE_UP = 0  # the outcome of a job before a window
HEADING = b"cycle,cell,bit,weight\n"
PAUSE = 0.002  # between two looks at the memory of a program
DONE, JOBS_LEFT = 0, 7


@dataclass(frozen=True)
class Cost:
    """What calls of the program took: seconds of all its processors, and the most bytes of memory."""

    processor: float = 0.0
    memory: int = 0

    def __add__(self, other: Cost) -> Cost:
        return Cost(self.processor + other.processor, max(self.memory, other.memory))


# --- Calls ----------------------------------------------------------------------------------------


@dataclass(frozen=True)
class Runs:
    """Calls of `fail_star run`: the program, the image, the options of the case, and those that only `run` has."""

    called: str
    image: str
    options: list[str]
    more: list[str]

    def run(self, keep: str, *words: str) -> Cost:
        """What a call takes that runs all jobs, or as many as the words say."""
        return cost_of(self.called, ["run", self.image, keep, *self.options, *self.more, *words], "fail_star run")

    def fresh(self, *words: str) -> Cost:
        """The same with a campaign file of its own."""
        with tempfile.TemporaryDirectory() as folder:
            return self.run(str(Path(folder) / "part.keep"), *words)


def cost_of(called: str, words: list[str], said: str) -> Cost:
    """What a call takes that ends with or without jobs left; `said` comes before its line if it is refused."""
    before = processor_seconds()
    running = program.Running(called, words)
    try:
        memory = peak_of(running.process)
        done = running.ended()
    finally:
        running.close()
    if done.returncode not in (DONE, JOBS_LEFT):
        raise Refusal(f"{said}: {done.line}")
    return Cost(processor_seconds() - before, memory)


def processor_seconds() -> float:
    """The processor time of all programs that were called and have ended."""
    used = resource.getrusage(resource.RUSAGE_CHILDREN)
    return used.ru_utime + used.ru_stime


def peak_of(process: subprocess.Popen[bytes]) -> int:
    """The most memory of a process until it ends, by what the system says of it while it runs."""
    most, status = 0, Path(f"/proc/{process.pid}/status")
    while process.poll() is None:
        try:
            words = status.read_text(encoding="ascii", errors="replace").split()
            most = max(most, int(words[words.index("VmHWM:") + 1]) * 1024)
        except (OSError, ValueError):  # it has ended, or there is no /proc
            pass
        time.sleep(PAUSE)
    return most


# --- Windows --------------------------------------------------------------------------------------


class Prefix:
    """A campaign file whose rows are made up as far as the next window."""

    def __init__(self, keep: str, rows: Iterator[bytes]) -> None:
        self.keep, self.rows, self.at = keep, rows, 0

    def reach(self, job: int) -> None:
        """Makes up the rows of all jobs before this one that have none."""
        with open(self.keep, "r+b") as file:
            file.seek(-len(CLOSED), os.SEEK_END)
            while self.at < job:
                rows = [next(self.rows) for _ in range(min(BATCH, job - self.at))]
                file.write(bytes([OPEN]) + len(rows).to_bytes(2, "little") + b"".join(rows))
                self.at += len(rows)
            file.write(CLOSED)

    def skip(self, jobs: int) -> None:
        """Leaves out jobs that were run."""
        for _ in range(jobs):
            next(self.rows)
        self.at += jobs


def rows_of(lines: IO[bytes]) -> Iterator[bytes]:
    """A row for each job of `plan --format csv`, whose outcome is made up."""
    if lines.readline(len(HEADING)) != HEADING:
        raise Refusal("fail_star plan: expected a table of jobs")
    for line in lines:
        try:
            cycle, cell, bit, _ = line.split(b",")
            yield ROW.pack(int(cycle), int(cell), int(bit), MADE_UP)
        except (ValueError, struct.error):
            raise Refusal("fail_star plan: expected cycle, cell, bit and weight") from None
    raise Refusal("fail_star plan: expected more jobs")


@contextmanager
def planned(called: str, words: list[str]) -> Iterator[Iterator[bytes]]:
    """The rows of the jobs that the program plans. Those that nobody asks for are not read."""
    running = program.Running(called, ["plan", *words, "--format", "csv"])
    try:
        yield rows_of(io.BufferedReader(running.output))  # type: ignore[arg-type]
    finally:
        running.close()


def middles(jobs: int, windows: int, each: int) -> list[int]:
    """Where windows of this length begin that are in the middle of equal parts of all jobs."""
    return [(2 * number + 1) * jobs // (2 * windows) - each // 2 for number in range(windows)]


@dataclass(frozen=True)
class Windows:
    """How many windows of how many jobs are run: of each some first, which begin without known states, and then as many
    and the rest behind them. The second call takes longer because of the rest."""

    number: int
    first: int
    rest: int

    @property
    def each(self) -> int:
        """The jobs of a window."""
        return 2 * self.first + self.rest


def per_job(runs: Runs, jobs: int, windows: Windows) -> tuple[float, Cost]:
    """The processor seconds of a job among its neighbours, and what it took to find that out."""
    shorter = longer = Cost()
    with tempfile.TemporaryDirectory() as folder, planned(runs.called, [runs.image, *runs.options]) as rows:
        keep = str(Path(folder) / "windows.keep")
        begun = runs.run(keep, "--stop-after", "0")
        prefix = Prefix(keep, rows)
        for start in middles(jobs, windows.number, windows.each):
            prefix.reach(start)
            shorter += runs.run(keep, "--stop-after", str(windows.first))
            longer += runs.run(keep, "--stop-after", str(windows.first + windows.rest))
            prefix.skip(windows.each)
    found = max(0.0, longer.processor - shorter.processor) / (windows.number * windows.rest)
    return found, begun + shorter + longer
