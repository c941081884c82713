"""The draws of `fail_star sample`, repeated from their seed: which jobs they hit, and how often.

The rule is in `docs/FORMATS.md`, under "Which sites `sample` draws". A site belongs to the job that reads the flipped
bit. That is the first job of its cell and bit at its cycle or later, if the interval of the job contains the cycle.
Otherwise the site is dead.
"""

from __future__ import annotations

from collections import Counter
from collections.abc import Iterator
from dataclasses import dataclass, field
from itertools import islice
from typing import IO, NamedTuple, Tuple

from fail_star_tools.read.campaign_file import Refusal
from fail_star_tools.read.cells import BYTE_WIDTH, FIRST_BYTE, REGISTER_WIDTH, bit_at, bits_of
from fail_star_tools.read.job_table import LONGEST_LINE, PLAN_HEADER
from fail_star_tools.run.progress import Progress

MULTIPLIER, INCREMENT, STATE_MASK = 6364136223846793005, 109, (1 << 64) - 1
WORD_BITS = 32
NEVER = 1 << 64  # more than any index
BLOCK = 1 << 20  # bytes of a plan that are read at once
TWO_DIGITS = 22  # the bits of a register from 10 on, whose number is one byte longer than that of bit 0
LONGEST_READ = REGISTER_WIDTH * LONGEST_LINE
Read = Tuple[int, int, int]  # of a cell: its cycle, its cell and the weight of its jobs, of which there is one for each bit


class PlannedJob(NamedTuple):
    """A job without its outcome: the cycle of the read, the cell, the bit, and the number of cycles in its
    interval."""

    cycle: int
    cell: int
    bit: int
    weight: int


@dataclass
class Hits:
    """How often each job was hit, in the order of the jobs, and how many draws hit dead sites."""

    jobs: dict[PlannedJob, int] = field(default_factory=dict)
    dead: int = 0


def words(seed: int) -> Iterator[int]:
    """The words of PCG-XSH-RR 64/32 for a seed."""
    state = (INCREMENT + seed) * MULTIPLIER + INCREMENT & STATE_MASK
    while True:
        mixed, turn = (state >> 18 ^ state) >> 27 & 0xFFFFFFFF, state >> 59
        yield (mixed >> turn | mixed << WORD_BITS - turn) & 0xFFFFFFFF
        state = state * MULTIPLIER + INCREMENT & STATE_MASK


def indices(seed: int, population: int, count: int) -> Iterator[int]:
    """The indices of this number of draws."""
    drawn = words(seed)
    pairs = zip(drawn, drawn)
    return (((high << WORD_BITS | low) * population) >> 2 * WORD_BITS for high, low in islice(pairs, count))


def site_of(index: int, ram_size: int, pc: bool) -> tuple[int, int, int]:
    """The cycle, the cell and the bit of the site with a number. In each cycle the sites begin with the pc or with
    x1."""
    cycle, place = divmod(index, bits_of(pc, ram_size))
    return (cycle, *bit_at(place, pc))


def reads_in(lines: IO[bytes]) -> Iterator[Read]:
    """The reads of cells in what `fail_star plan` writes as csv, in the order cycle, cell. There may be hundreds of
    millions of lines."""
    head = lines.readline(LONGEST_LINE)
    if head != PLAN_HEADER.encode() + b"\n":
        raise no_job(head)
    rest, more, number = b"", head, 0
    with Progress("reads of cells in the plan so far") as progress:
        while more:
            more = lines.read(BLOCK)
            block = rest + more
            reads, end = reads_of(block, len(block) - (LONGEST_READ if more else 0))
            yield from reads
            rest = block[end:]
            number += len(reads)
            progress.note(number)
    if end > len(block):
        raise Refusal("fail_star plan: it ends within the jobs of a read")


def reads_of(block: bytes, last: int) -> tuple[list[Read], int]:
    """The reads that begin in a block before a position, and where the next one begins. Only the first line of a read
    is looked at: the others differ from it in the bit, and are skipped."""
    found: list[Read] = []
    at = 0
    while at < last:
        line = block[at : block.find(b"\n", at) + 1]
        try:
            cycle, cell, bit, weight = line.split(b",")
            read = int(cycle), int(cell), int(weight)
        except ValueError:
            raise no_job(block[at:]) from None
        if bit != b"0":
            raise no_job(line)
        found.append(read)
        at += len(line) * REGISTER_WIDTH + TWO_DIGITS if read[1] < FIRST_BYTE else len(line) * BYTE_WIDTH
    return found, at


def no_job(content: bytes) -> Refusal:
    """The refusal of a plan for its line that is not that of a job."""
    line = content[: content.find(b"\n", 0, LONGEST_LINE) + 1 or LONGEST_LINE].decode("ascii", "backslashreplace")
    return Refusal(f"fail_star plan: expected {PLAN_HEADER}, found {line[:60]!r}")


def hits_of_all(lines: IO[bytes], drawn: Iterator[int], ram_size: int, pc: bool) -> Hits:
    """The jobs that draws from all sites hit."""
    waiting: dict[int, list[tuple[int, int]]] = {}  # the cycles and bits of draws by cell, the last one first
    total = 0
    for index in sorted(drawn, reverse=True):
        cycle, cell, bit = site_of(index, ram_size, pc)
        waiting.setdefault(cell, []).append((cycle, bit))
        total += 1
    found: Counter[PlannedJob] = Counter()
    for cycle, cell, weight in reads_in(lines):
        sites = waiting.get(cell)
        while sites and sites[-1][0] <= cycle:
            begun, bit = sites.pop()
            if begun > cycle - weight:
                found[PlannedJob(cycle, cell, bit, weight)] += 1
    return Hits(dict(sorted(found.items())), total - sum(found.values()))


def hits_of_live(lines: IO[bytes], drawn: Iterator[int], population: int) -> Hits:
    """The jobs that draws from live sites hit: each job has as many indices as its weight."""
    waiting = [NEVER, *sorted(drawn, reverse=True)]
    found: Counter[PlannedJob] = Counter()
    end, drawn_next = 0, waiting[-1]
    for cycle, cell, weight in reads_in(lines):
        begin = end
        end += weight * (REGISTER_WIDTH if cell < FIRST_BYTE else BYTE_WIDTH)
        while drawn_next < end:
            found[PlannedJob(cycle, cell, (waiting.pop() - begin) // weight, weight)] += 1
            drawn_next = waiting[-1]
    if end != population:
        raise Refusal(f"fail_star plan: its jobs have {end} live sites, and it said {population}")
    return Hits(dict(sorted(found.items())))
