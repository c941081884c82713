"""Reads the run without a fault, for the tools: what `fail_star trace` writes."""

from __future__ import annotations

import functools
import io
import itertools
import re
from array import array
from collections.abc import Iterator
from dataclasses import dataclass, field
from typing import TextIO

from fail_star_tools.known import known
from fail_star_tools.read import regular
from fail_star_tools.read.campaign_file import Refusal, Region
from fail_star_tools.read.elf_image import Image
from fail_star_tools.read.job_table import refused
from fail_star_tools.run import program
from fail_star_tools.run.progress import Progress

STEPS = re.compile("(?:[0-9]{1,8} [0-9a-f]{8} [0-9a-f]{8}\n)*")
CHUNK = 1 << 20  # the letters of a trace that are read at once
STEP = re.compile("(0|[1-9][0-9]{0,7}) ([0-9a-f]{8}) ([0-9a-f]{8})\n?")
OUTPUT = re.compile("output (-|(?:[0-9a-f]{2})+)\n?")
END = re.compile("end halted ([0-9]{1,10})\n?")
LONGEST_LINE = 40_000_000  # each instruction of the longest run may send a byte, which takes two digits


@dataclass
class Trace:
    """The address of each instruction of the run by its number, the word that ran first at each address, and the
    bytes that were sent, if the trace has that line."""

    pcs: array[int] = field(default_factory=lambda: array("I"))
    words: dict[int, int] = field(default_factory=dict)
    output: bytes | None = None
    exit: int = 0  # the value that the run halts with

    def look_at(self, image: Image, ram: Region) -> None:
        """Refuses an image that is not that of the trace. Code in RAM is not compared, because it may have been
        copied or changed."""
        for pc, word in self.words.items():
            stands = image.word_at(pc)
            if stands != word and not ram.base <= pc < ram.base + ram.size:
                at = "nothing" if stands is None else f"{stands:08x}"
                raise Refusal(f"the trace has the word {word:08x} at {pc:08x} and the image {at}: they belong to different programs")

    def at(self, cycle: int) -> int:
        """The address of the instruction of a cycle in which a job reads."""
        if cycle >= len(self.pcs):
            raise Refusal(f"a job reads at cycle {cycle}, but the trace has {len(self.pcs)} instructions: they belong to different campaigns")
        return self.pcs[cycle]

    def look_at_last(self, cycle: int) -> None:
        """Refuses a table whose last job does not read in the last cycle, in which the halting instruction reads."""
        if cycle + 1 != len(self.pcs):
            found = f"the last job reads at cycle {cycle}, but the trace has {len(self.pcs)} instructions"
            raise Refusal(f"{found}: they belong to different campaigns, or the table was cut")


def sent_by(word: str) -> bytes:
    """The bytes of an output line."""
    return b"" if word == "-" else bytes.fromhex(word)


def take_steps(lines: TextIO, trace: Trace) -> Iterator[str]:
    """Takes the instructions of a trace in large pieces, as long as these have nothing else. The lines that are left."""
    numbers: dict[str, int] = {}  # of addresses
    with Progress("instructions of the run without a fault") as progress:
        while text := lines.read(CHUNK) + lines.readline(LONGEST_LINE):
            steps = known(STEPS.match(text)).group()
            words, done = steps.split(), len(trace.pcs)
            if words[::3] != [str(number) for number in range(done, done + len(words) // 3)]:
                steps, words = "", []
            pcs = words[1::3]
            if not numbers.keys() >= set(pcs):
                for pc, word in zip(pcs, words[2::3]):
                    trace.words.setdefault(numbers.setdefault(pc, int(pc, 16)), int(word, 16))
            trace.pcs.extend(map(numbers.__getitem__, pcs))
            progress.note(len(trace.pcs))
            if len(steps) < len(text):
                rest = io.StringIO(text[len(steps) :])
                return itertools.chain(rest, iter(functools.partial(lines.readline, LONGEST_LINE), ""))
    return iter(())


def read_trace(lines: TextIO) -> Trace:
    """The trace of a run that halts."""
    trace = Trace()
    left = take_steps(lines, trace)
    number = len(trace.pcs)
    for number, line in enumerate(left, number + 1):
        match = STEP.fullmatch(line)
        if match is None:
            break
        if int(match[1]) != number - 1:
            raise refused(number, f"expected instruction {number - 1}", line)
        trace.pcs.append(int(match[2], 16))
        trace.words.setdefault(trace.pcs[-1], int(match[3], 16))
    else:
        raise refused(number + 1, "expected the lines of a trace, and then output", None)
    if not line.startswith("output ") or not trace.pcs:
        raise refused(number, "expected an instruction: its number, its address and its word", line)
    sent = OUTPUT.fullmatch(line)
    trace.output = sent_by(sent[1]) if sent else None
    last = next(left, "")
    end = END.fullmatch(last)
    if end is None:
        raise refused(number + 1, "expected end halted and a value, since a table is of a run that halts", last or None)
    trace.exit = int(end[1])
    return trace


def trace_in(path: str) -> Trace:
    """The trace that a file has, or standard input."""
    try:
        with regular.opened_or_input(path) as file:
            return read_trace(regular.lines_of(file))
    except OSError as error:
        raise Refusal(f"{path}: {error.strerror}") from None
    except Refusal as refusal:
        raise Refusal(f"{'standard input' if path == '-' else path}: {refusal}") from None


def trace_by(called: str, image: str, options: list[str]) -> Trace:
    """The trace that the program writes of an image."""
    try:
        with program.lines(called, ["trace", image, *options], "fail_star trace") as lines:
            return read_trace(lines)
    except Refusal as refusal:
        raise Refusal(f"the trace of {image}: {refusal}") from None


def ending_by(called: str, image: str, options: list[str]) -> tuple[str, int, Trace]:
    """The output of the run without a fault, as `trace` writes it, its exit value, and its instructions."""
    before, last, trace = "", "", Trace()
    with program.lines(called, ["trace", image, *options], "fail_star trace") as lines:
        for line in take_steps(lines, trace):
            before, last = last, line
            step = STEP.fullmatch(line)
            if step is not None:
                trace.pcs.append(int(step[2], 16))
                trace.words.setdefault(trace.pcs[-1], int(step[3], 16))
            elif not (OUTPUT.fullmatch(line) or END.fullmatch(line)):
                raise Refusal(f"fail_star trace: expected a line of a trace, found {line[:60]!r}")
    sent, end = OUTPUT.fullmatch(before), END.fullmatch(last)
    if sent is None or end is None:
        raise Refusal("fail_star trace: expected output and end halted as its last lines")
    return sent[1], int(end[1]), trace
