"""Compares what the program samples with a second reading, line by line: two hundred seeds over small programs of each
of the four kinds of case, with and without `--live`.

Indices are those of draws.py, sites are in its order, and outcomes are those of a run of each site by the reference;
with `--live` each job has as many indices as its weight.

samples.py PROGRAM
"""

from __future__ import annotations

import collections
import concurrent.futures
import dataclasses
import itertools
import os
import pathlib
import random
import subprocess
import sys
import tempfile
from collections.abc import Iterator, Sequence

import code_in_ram
import draws
import reference
import short_programs
from kinds import KINDS

SEEDS, COUNTS, MOST = 200, (1, 2, 7, 100, 1000), 1_000_000
# For each kind three programs that halt, by their names: short ones, and ones that run from RAM.
IN_ROM = ("sum of a loop", "stores of all widths over each other", "a value and its complement")
IN_RAM = ("two words in RAM", "sw over the next word 0", "sb over its own word")


@dataclasses.dataclass
class Sampled:
    """A program: the words of its samples, the number of its instructions, and the outcome of each index, by whether `--live` is said."""

    words: list[str]
    instructions: int
    outcomes: dict[bool, list[str]]

    def wanted(self, live: bool, seed: int, samples: int) -> tuple[int, str, str]:
        """The status and both texts of a sample."""
        population = self.outcomes[live]
        drawn = collections.Counter(population[index] for index in itertools.islice(draws.indices(seed, len(population)), samples))
        head = f"instructions {self.instructions}\npopulation {len(population)}\nsamples {samples}\n"
        return 0, head + "".join(f"{outcome} {drawn[outcome]}\n" for outcome in reference.OUTCOMES), ""

    def written(self, program: str, live: bool, seed: int, samples: int) -> tuple[int, str, str]:
        """What the program answers."""
        asked = [program, *self.words, *(["--live"] if live else []), "--seed", str(seed), "--count", str(samples)]
        done = subprocess.run(asked, stdin=subprocess.DEVNULL, capture_output=True, text=True, timeout=100)
        return done.returncode, done.stdout, done.stderr


def programs(flags: Sequence[str], folder: str) -> Iterator[Sampled]:
    """The programs of one kind of case, whose images it writes into a folder."""
    source, names = (code_in_ram.programs(), IN_RAM) if "--ram-code" in flags else (short_programs.images(), IN_ROM)
    for one in source:
        if one.name in names:
            path = pathlib.Path(folder, f"{one.name}.elf")
            path.write_bytes(one.image)
            words = dataclasses.replace(one, flags=tuple(flags)).words(str(path), "sample")
            case = reference.line_of(words).case
            reference.load(one.image, case)
            instructions, jobs, _ = reference.jobs_of(case)
            found = dict(reference.of_all_sites(case))
            sites = [found[site] for site in draws.sites(instructions, len(case.ram), case.pc_cell)]
            live = [found[job] for job, weight in jobs.items() for _ in range(weight)]
            yield Sampled(words, instructions, {False: sites, True: live})


def samples_of(number_of_programs: int) -> Iterator[tuple[int, int, int]]:
    """The number of a program, a seed and a number of draws, for each seed."""
    dice = random.Random(26)
    seeds = [0, 1, 42, 2**63, 2**64 - 1]
    seeds += [dice.getrandbits(64) for _ in range(SEEDS - len(seeds))]
    for number, seed in enumerate(seeds):
        turn, place = divmod(number, number_of_programs)
        yield place, seed, COUNTS[turn % len(COUNTS)]


def judged(program: str, flags: Sequence[str]) -> tuple[int, list[str]]:
    """How many samples of one kind of case were as they have to be, and what is to be said of the others."""
    right, wrong = 0, []
    with tempfile.TemporaryDirectory() as folder:
        tried = list(programs(flags, folder))
        # Python takes seconds for the longest one, so one kind alone has it.
        asked = [*samples_of(len(tried)), *([] if flags else [(0, 26, MOST)])]
        for (place, seed, samples), live in itertools.product(asked, (False, True)):
            one = tried[place]
            wanted, got = one.wanted(live, seed, samples), one.written(program, live, seed, samples)
            right += got == wanted
            if got != wanted:
                wrong.append(f"{one.words}, live {live}, seed {seed}, {samples} draws\n  wanted {wanted}\n  got    {got}")
    return right, wrong


def main() -> int:
    program = os.path.abspath(sys.argv[1])
    with concurrent.futures.ProcessPoolExecutor() as pool:
        kinds = [pool.submit(judged, program, flags) for flags in KINDS]
        found = [kind.result() for kind in kinds]
    failures = [failure for _, wrong in found for failure in wrong]
    for failure in failures:
        print(f"failed: {failure}")
    print(f"{sum(right for right, _ in found)} passed, {len(failures)} failed")
    return 1 if failures else 0


if __name__ == "__main__":
    sys.exit(main())
