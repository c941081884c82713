"""Parts of the run without a fault, for the tools: which of its instructions --cycles, --code and --function name, and
how many sites of a job are before these.

The words mean the same as in `fail_window`. A site (cycle, cell, bit) is in a part exactly if the instruction of its
cycle is. So a job counts in a part with the cycles of its interval that are in the part, and a job without such a cycle
is not asked for.
"""

from __future__ import annotations

import argparse
import bisect
import itertools
from collections.abc import Iterable, Iterator
from dataclasses import dataclass, replace
from typing import TYPE_CHECKING

from fail_star_tools.read.campaign_file import Refusal, number_of
from fail_star_tools.words import printable

if TYPE_CHECKING:
    from fail_star_tools.read.elf_image import Image
    from fail_star_tools.read.job_table import Read
    from fail_star_tools.read.traces import Trace

MOST_END = 1 << 32  # of a range: the number of addresses
OPTIONS = ("--cycles", "--code", "--function")


@dataclass(frozen=True)
class Span:
    """The numbers from `start` to below `end`, of which there is at least one."""

    start: int
    end: int

    def __contains__(self, number: int) -> bool:
        return self.start <= number < self.end

    def __str__(self) -> str:
        return f"{self.start}..{self.end}"

    @property
    def of_addresses(self) -> str:
        """The same of addresses."""
        return f"{self.start:#010x}..{self.end:#010x}"

    @classmethod
    def of(cls, word: str) -> Span:
        """The range that a word has as START..END."""
        start, dots, end = word.partition("..")
        try:
            span = cls(number_of(start), number_of(end))
        except Refusal:
            span = cls(0, 0)
        if not dots or not span.start < span.end <= MOST_END:
            raise Refusal(f"{word[:60]!r}: expected START..END with START below END, and END at most {MOST_END}")
        return span


class Window:
    """The cycles that are in a part, as ranges in ascending order that do not touch. The place of a cycle of the part
    is the number of its cycles before."""

    def __init__(self, spans: Iterable[Span]) -> None:
        self.spans = list(spans)
        self.starts = [span.start for span in self.spans]
        self.places = list(itertools.accumulate((span.end - span.start for span in self.spans), initial=0))

    def __len__(self) -> int:
        return self.places[-1]

    @property
    def first(self) -> int:
        """The first cycle."""
        return self.starts[0]

    def before(self, cycle: int) -> int:
        """How many cycles of the part are before this one."""
        at = bisect.bisect_right(self.starts, cycle) - 1
        return 0 if at < 0 else self.places[at] + min(cycle, self.spans[at].end) - self.spans[at].start

    def cycle_at(self, place: int) -> int:
        """The cycle at a place. Places after the end are those of the cycles after the last one."""
        at = min(bisect.bisect_right(self.places, place), len(self.spans)) - 1
        return self.starts[at] + place - self.places[at]

    def until(self, cycles: int) -> Window:
        """The same without the cycles after the end of a run."""
        return Window(Span(span.start, min(span.end, cycles)) for span in self.spans if span.start < cycles)

    def clipped(self, read: Read) -> Read | None:
        """A read with the cycles of its interval that are in the part, or None without such a cycle."""
        start, end = self.before(read.cycle + 1 - read.weight), self.before(read.cycle + 1)
        return replace(read, weight=end - start, end=end) if start < end else None


# --- Parts ----------------------------------------------------------------------------------------


@dataclass(frozen=True)
class Part:
    """The instructions of a run that fulfil each condition that is given: their numbers are in a range, their
    addresses are in a range, and they are in a function of this name."""

    cycles: Span | None = None
    code: Span | None = None
    function: str | None = None

    @property
    def options(self) -> list[str]:
        """The same as options."""
        cycles = None if self.cycles is None else str(self.cycles)
        code = None if self.code is None else self.code.of_addresses
        given = zip(OPTIONS, (cycles, code, self.function))
        return [word for name, value in given if value is not None for word in (name, value)]

    def __str__(self) -> str:
        return " ".join(self.options)

    @property
    def needs_trace(self) -> bool:
        """Whether the addresses of instructions are needed."""
        return self.code is not None or self.function is not None

    def window(self, trace: Trace | None, image: Image | None) -> Window:
        """The cycles of a run that are in the part, or the refusal with the reason why there is none. Without a trace
        cycles after the end of the run are not known, and `look_at_end` has to be called."""
        if self.function is not None:
            self.look_at_function(image)
        if trace is None:
            if self.needs_trace or self.cycles is None:
                raise Refusal(f"{self}: the run without a fault is needed: --trace FILE, or fail_star by --program FILE")
            return Window([self.cycles])
        self.look_at_end(len(trace.pcs))
        window = Window(self.spans_in(trace, image))
        if not len(window):
            raise Refusal(f"the run without a fault executes no instruction of {self}")
        return window

    def look_at_end(self, cycles: int) -> None:
        """Refuses a range that begins after the end of a run."""
        if self.cycles is not None and cycles <= self.cycles.start:
            raise Refusal(f"--cycles {self.cycles}: the run without a fault has {cycles} instructions")

    def look_at_function(self, image: Image | None) -> None:
        """Refuses a function that the image does not have."""
        if image is None:
            raise Refusal(f"--function {self.function}: the image is needed")
        if not image.function_ranges:
            raise Refusal(f"--function {self.function}: the image has no functions with names")
        if not self.ranges_in(image):
            raise Refusal(f"--function {self.function}: the image has no function of this name")

    def spans_in(self, trace: Trace, image: Image | None) -> Iterator[Span]:
        """The cycles, as ranges."""
        all_cycles = self.cycles or Span(0, len(trace.pcs))
        start, end = all_cycles.start, min(all_cycles.end, len(trace.pcs))
        if not self.needs_trace:
            yield Span(start, end)
            return
        addresses = self.addresses_in(trace.words, image)
        begin = None
        for cycle in range(start, end):
            if trace.pcs[cycle] in addresses:
                begin = cycle if begin is None else begin
            elif begin is not None:
                yield Span(begin, cycle)
                begin = None
        if begin is not None:
            yield Span(begin, end)

    def addresses_in(self, addresses: Iterable[int], image: Image | None) -> set[int]:
        """Those of the addresses that fulfil the conditions on addresses."""
        found = {address for address in addresses if self.code is None or address in self.code}
        if self.function is None:
            return found
        ranges = self.ranges_in(image)
        return {address for address in found if any(start <= address < end for start, end in ranges)}

    def ranges_in(self, image: Image | None) -> list[tuple[int, int]]:
        """The addresses of all functions of an image that have the name."""
        return [] if image is None else image.function_ranges.get(printable(self.function or ""), [])


# --- The command line -----------------------------------------------------------------------------


def span_of(word: str) -> Span:
    """A range as an option has it."""
    try:
        return Span.of(word)
    except Refusal as refusal:
        raise argparse.ArgumentTypeError(str(refusal)) from None


def add_options(parser: argparse.ArgumentParser, of_part: str = "counts only the sites before instructions") -> None:
    """The options that name a part of the run, with what a tool does for the part."""
    parser.add_argument("--cycles", type=span_of, metavar="A..B", help=f"{of_part} number A to B - 1 of the run")
    parser.add_argument("--code", type=span_of, metavar="LOW..HIGH", help=f"{of_part} at the addresses LOW to HIGH - 1")
    parser.add_argument("--function", metavar="NAME", help=f"{of_part} of this function, in each of its calls")


def asked_in(line: argparse.Namespace) -> Part | None:
    """The part that a command line names, or None for the whole run."""
    part = Part(line.cycles, line.code, line.function)
    return part if part.options else None
