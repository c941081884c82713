"""What a sample of all sites gives, computed from a table of jobs (RFC 4180): draws.py draws the sites of a seed, and
the table has the outcome of each. A site that no job represents has no effect.

drawn.py CYCLES RAM SEED COUNT < TABLE
"""

from __future__ import annotations

import collections
import csv
import itertools
import sys
from collections.abc import Iterable

import draws


def outcomes_of(lines: Iterable[str]) -> dict[tuple[int, int, int], str]:
    """The outcome of each site that a job stands for: those of its cell and bit at the `weight` cycles up to its own."""
    known = {}
    for row in csv.DictReader(lines):
        cycle, cell, bit, weight = (int(row[name]) for name in ("cycle", "cell", "bit", "weight"))
        for earlier in range(weight):
            known[cycle - earlier, cell, bit] = row["outcome"]
    return known


def main() -> None:
    cycles, ram, seed, count = map(int, sys.argv[1:])
    known = outcomes_of(sys.stdin)
    population = list(draws.sites(cycles, ram))
    drawn = itertools.islice(draws.indices(seed, len(population)), count)
    counts = collections.Counter(known.get(population[index], "no-effect") for index in drawn)
    print(f"instructions {cycles}\npopulation {len(population)}\nsamples {count}")
    for outcome in dict.fromkeys(["no-effect", *known.values()]):
        print(outcome, counts[outcome])


if __name__ == "__main__":
    main()
