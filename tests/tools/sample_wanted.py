"""Where drawn sites of the table `overwrite` of tables.py are, by a second reading, and what sample_places.py says of
them, in one form: the population, the draws by outcome, and the silent ones by register or variable and by the
address of the instruction that reads them.

sample_wanted.py COUNT SEED LIVE TABLE, or sample_wanted.py < JSON
"""

from __future__ import annotations

import collections
import csv
import itertools
import json
import sys

import draws

Counts = tuple[int, dict[str, int], dict[str, int], dict[int, int]]

CYCLES, RAM, ROM = 8, 16, 0x20000000


def name_of(cell: int) -> str:
    """The register, or the variable: `low` has the first two bytes of RAM, and the word of the others has no name."""
    return f"x{cell}" if cell < 32 else "low" if cell < 34 else "0x80000000"


def wanted(count: int, seed: int, live: int, table: str) -> Counts:
    """By draws.py and the table."""
    with open(table) as lines:
        rows = [(int(row[0]), int(row[1]), int(row[2]), int(row[3]), row[4]) for row in list(csv.reader(lines))[1:]]
    sites_of = ((row, back) for row in rows for back in range(row[3]))
    known = {(cycle - back, cell, bit): (cycle, word) for (cycle, cell, bit, _, word), back in sites_of}
    of_live = [(cycle, cell, bit) for cycle, cell, bit, weight, _ in rows for _ in range(weight)]
    sites = of_live if live else list(draws.sites(CYCLES, RAM))
    by: collections.Counter[str] = collections.Counter()
    names: collections.Counter[str] = collections.Counter()
    places: collections.Counter[int] = collections.Counter()
    for index in itertools.islice(draws.indices(seed, len(sites)), count):
        cycle, outcome = known.get(sites[index], (0, "no-effect"))
        by[outcome] += 1
        if outcome == "silent":
            names[name_of(sites[index][1])] += 1
            places[ROM + 4 * cycle] += 1
    return len(sites), by, names, places


def got(found: dict) -> Counts:
    """By the tool."""
    by = {word.replace("_", "-"): row["draws"] for word, row in found["counts"].items() if row["draws"]}
    rows = found["by"]["register"] + found["by"]["variable"]
    names = {row["name"].split()[0]: row["draws"] for row in rows}
    return found["population"], by, names, {int(row["pc"], 16): row["draws"] for row in found["by"]["instruction"]}


if sys.argv[1:]:
    count, seed, live = map(int, sys.argv[1:4])
    found = wanted(count, seed, live, sys.argv[4])
else:
    found = got(json.load(sys.stdin))
print(found[0], sorted(found[1].items()), sorted(found[2].items()), sorted(found[3].items()))
