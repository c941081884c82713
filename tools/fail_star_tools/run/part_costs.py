"""What the jobs of a part of a run cost, by a few short windows of neighbouring instructions that fail_window runs.

A job that is run among its neighbours ends early if its run meets one of theirs, so a window shows what a job costs in
the campaign. A window also runs the jobs whose interval begins in it and ends after it. These are few in a long part
and many in a short window, so the jobs that read in a window are counted separately from those that read after it.
"""

from __future__ import annotations

import tempfile
from dataclasses import dataclass, replace
from pathlib import Path

from fail_star_tools.read import campaign_file
from fail_star_tools.read.parts import Part, Span, Window
from fail_star_tools.run.windows import Cost, cost_of, middles

WINDOWS, FEW = 6, 4  # the number of windows, and the instructions of the first one
MOST_EACH = 20_000  # instructions of a window
WINDOW_SECONDS = 15.0  # of the processor, for all windows together
LEAST_SECONDS = 0.02  # of the processor, for one window; less cannot be measured


@dataclass(frozen=True)
class Seen:
    """What a window took: its cost without that of the start, the number of its instructions, the jobs that read in it,
    and those that read after it."""

    processor: float
    memory: int
    instructions: int
    inside: int
    after: int

    @property
    def jobs(self) -> int:
        """All jobs that were run."""
        return self.inside + self.after


@dataclass(frozen=True)
class Runs:
    """Calls of fail_window: the program, the image, the options of the case, those that only such a call has, and the
    part of the run with its cycles."""

    called: str
    image: str
    options: list[str]
    more: list[str]
    part: Part
    window: Window

    def some(self, place: int, each: int) -> Part:
        """So many instructions of the part from a place on."""
        last = min(place + each, len(self.window)) - 1
        return replace(self.part, cycles=Span(self.window.cycle_at(place), self.window.cycle_at(last) + 1))

    def run(self, keep: str, part: Part, *words: str) -> Cost:
        """What a call takes that runs the jobs of a part, or as many as the words say."""
        said = [self.image, keep, *part.options, *self.options, *self.more, *words]
        return cost_of(self.called, said, "fail_window")

    def begun(self) -> Cost:
        """What a call takes before its first job."""
        with tempfile.TemporaryDirectory() as folder:
            return self.run(str(Path(folder) / "part.keep"), self.some(0, 1), "--stop-after", "0")

    def seen(self, place: int, each: int, begun: Cost) -> Seen:
        """What a window takes that begins at a place of the part."""
        part = self.some(place, each)
        with tempfile.TemporaryDirectory() as folder:
            keep = str(Path(folder) / "part.keep")
            cost = self.run(keep, part)
            rows = campaign_file.read(keep).rows()
            after = [part.cycles is not None and row[0] >= part.cycles.end for row in rows]
        processor = max(0.0, cost.processor - begun.processor)
        return Seen(processor, cost.memory, min(each, len(self.window) - place), after.count(False), after.count(True))

    def kept(self, place: int, each: int) -> dict[str, int]:
        """The jobs of a window by outcome."""
        with tempfile.TemporaryDirectory() as folder:
            keep = str(Path(folder) / "part.keep")
            self.run(keep, self.some(place, each))
            return campaign_file.read(keep).kept()


@dataclass(frozen=True)
class Total:
    """What all jobs of a part take: their number, seconds of all processors, bytes of memory, and how that was found."""

    jobs: int
    processor: float
    memory: int
    how: str


def total_of(runs: Runs, jobs: int | None, short: float) -> Total:
    """What the jobs of a part take; their number is given if it is known. A part that takes at most `short` processor
    seconds is run whole."""
    begun = runs.begun()
    cycles = len(runs.window)
    first = runs.seen((cycles - FEW) // 2 if cycles > FEW else 0, FEW, begun)
    per_instruction = max(first.processor, LEAST_SECONDS) / max(1, first.instructions)
    each = max(FEW, min(MOST_EACH, int(WINDOW_SECONDS / WINDOWS / per_instruction)))
    if cycles <= WINDOWS * each:
        return whole_of(runs, begun)
    windows = [runs.seen(place, each, begun) for place in middles(cycles, WINDOWS, each)]
    seconds, ran = sum(one.processor for one in windows), sum(one.jobs for one in windows)
    inside = sum(one.inside for one in windows) / (WINDOWS * each)
    expected = round(inside * cycles + sum(one.after for one in windows) / WINDOWS) if jobs is None else jobs
    found = begun.processor + seconds / max(1, ran) * expected
    if found <= short:
        return whole_of(runs, begun)
    how = f"by {WINDOWS} windows of {each:,} neighbouring instructions"
    return Total(expected, found, max(one.memory for one in windows), how)


def whole_of(runs: Runs, begun: Cost) -> Total:
    """The same of a part that is run whole."""
    whole = runs.seen(0, len(runs.window), begun)
    return Total(whole.jobs, begun.processor + whole.processor, whole.memory, f"by all {whole.jobs:,} jobs")
