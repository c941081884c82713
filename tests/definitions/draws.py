"""A second reading of which sites a sample draws: the generator PCG, and the order of sites.

It follows M. O'Neill, "PCG: A Family of Simple Fast Space-Efficient Statistically Good Algorithms for Random Number
Generation" (the generator is PCG-XSH-RR 64/32, started as its reference code starts it), and docs/FORMATS.md, "Which
sites `sample` draws". Two words are a number below 2^64, the first word its upper half, and the index is that part of
the population, rounded down.

draws.py SEED POPULATION COUNT prints the first indices.
"""

from __future__ import annotations

import itertools
import sys
from collections.abc import Iterator

WORD, STATE = 32, 64
STREAM = 54


def words(seed: int, stream: int = STREAM) -> Iterator[int]:
    """The words of a seed, one after the other, without an end."""
    increment = 2 * stream + 1

    def step(state: int) -> int:
        return (state * 6364136223846793005 + increment) % 2**STATE

    state = step((step(0) + seed) % 2**STATE)
    while True:
        mixed, turn = (state >> 18 ^ state) >> 27 & 2**WORD - 1, state >> 59
        yield (mixed >> turn | mixed << WORD - turn) & 2**WORD - 1
        state = step(state)


def indices(seed: int, population: int) -> Iterator[int]:
    """The indices of a seed, one after the other, without an end."""
    drawn = words(seed)
    while True:
        yield (next(drawn) * 2**WORD + next(drawn)) * population >> 2 * WORD


def sites(cycles: int, ram: int, pc: bool = False) -> Iterator[tuple[int, int, int]]:
    """All sites of so many cycles, in order, with the pc as a cell or not."""
    for cycle in range(cycles):
        for cell in range(0 if pc else 1, 32 + ram):
            for bit in range(32 if cell < 32 else 8):
                yield cycle, cell, bit


if __name__ == "__main__":
    seed, population, count = map(int, sys.argv[1:])
    print(*itertools.islice(indices(seed, population), count))
