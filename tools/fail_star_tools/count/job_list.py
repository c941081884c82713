"""Jobs of a table in little memory, for the tools: there may be millions."""

from __future__ import annotations

from array import array
from collections.abc import Callable, Iterable, Iterator
from typing import NamedTuple

from fail_star_tools.read.job_table import OUTCOMES


class Job(NamedTuple):
    """One job of the table, with the number of sites that it represents."""

    cycle: int
    cell: int
    bit: int
    weight: int
    outcome: str


class JobList:
    """Jobs in job order. Each takes fourteen bytes."""

    def __init__(self, jobs: Iterable[Job] = ()) -> None:
        self.cycles, self.cells, self.weights = array("I"), array("I"), array("I")
        self.bits, self.outcomes = array("B"), array("B")  # an outcome by its place in OUTCOMES
        for job in jobs:
            self.append(job)

    def append(self, job: Job) -> None:
        """Adds the next job."""
        self.cycles.append(job.cycle)
        self.cells.append(job.cell)
        self.bits.append(job.bit)
        self.weights.append(job.weight)
        self.outcomes.append(OUTCOMES.index(job.outcome))

    def __len__(self) -> int:
        return len(self.cycles)

    def __iter__(self) -> Iterator[Job]:
        return map(Job, self.cycles, self.cells, self.bits, self.weights, map(OUTCOMES.__getitem__, self.outcomes))


class Repeated:
    """Jobs that are found again each time they are asked for, and not kept."""

    def __init__(self, begin: Callable[[], Iterator[Job]]) -> None:
        self.begin = begin

    def __iter__(self) -> Iterator[Job]:
        return self.begin()
