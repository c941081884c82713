#!/usr/bin/env python3
"""What a shard costs before its first job, and what merging costs: three tables of FIGURES.md.

usage: shard_start.py PROGRAM [MOST]     no program of more instructions than MOST (1,000,000 where none is said)

The first table is of loops of 1,000 to 1,000,000 instructions, with 4096 bytes of RAM: `run --shard 1/1001 --stop-after 0` into a
file that is begun anew. The second is of examples/built/control_twice.elf: its campaign by four shards, which are merged one after the
other, and then reported. The third is of the same campaign by more shards. Times are processor time, user and system, of the first table the
least of five; memory is the most that was held.
"""
import os
import sys
import tempfile
from pathlib import Path

from compare import HERE, loop, measure

ROUNDS, SHARDS = 5, 4
MORE_SHARDS = (16, 41, 64, 65)
CONTROL_INSTRUCTIONS = 100_038
CONTROL = HERE.parent / "examples/built/control_twice.elf"


def row(*cells):
    print(f"| {' | '.join(cells)} |", flush=True)


def jobs_of(program, options):
    """How many jobs a plan has."""
    return int(dict(line.split() for line in measure([program, "plan", "case.elf", *options])[2].decode().splitlines())["jobs"])


def start(program, instructions):
    """A row of the first table."""
    Path("case.elf").write_bytes(loop(instructions // 8))
    options = ["--rom", "0x20000000:8192", "--ram", "0x80000000:4096", "--limit", str(2 * instructions)]
    words = [program, "run", "case.elf", "start.keep", *options, "--shard", "1/1001", "--stop-after", "0", "--workers", "1"]
    taken = []
    for _ in range(ROUNDS):
        Path("start.keep").unlink(missing_ok=True)
        taken.append(measure(words)[:2])
    row(f"{instructions:,}", f"{jobs_of(program, options):,}", f"{min(taken)[0]:.3f}", f"{max(held for _, held in taken):.0f}")


def run_shards(program, options, count):
    """Runs a campaign by so many shards, each into a file of its number."""
    for number in range(1, count + 1):
        measure([program, "run", "case.elf", f"{number}.keep", *options, "--shard", f"{number}/{count}", "--page", "65535", "--fresh"])


def merge(program, options, number):
    """Seconds and megabytes of a merge of this shard into the whole."""
    return measure([program, "merge", "case.elf", "whole.keep", f"{number}.keep", *options, "--page", "65535"])[:2]


def merges(program, options):
    """The rows of the second table."""
    jobs = jobs_of(program, options)
    run_shards(program, options, SHARDS)
    Path("whole.keep").unlink(missing_ok=True)
    before = 0
    for number in range(1, SHARDS + 1):
        seconds, held = merge(program, options, number)
        added = (jobs + SHARDS - number) // SHARDS
        row(f"merge of shard {number}", f"{before:,}", f"{added:,}", f"{seconds:.2f}", f"{held:.0f}")
        before += added
    seconds, held, _ = measure([program, "report", "case.elf", "whole.keep", *options])
    row("report", f"{before:,}", "0", f"{seconds:.2f}", f"{held:.0f}")


def all_merges(program, options, count):
    """A row of the third table."""
    run_shards(program, options, count)
    Path("whole.keep").unlink(missing_ok=True)
    taken = [merge(program, options, number)[0] for number in range(1, count + 1)]
    seconds, held, _ = measure([program, "report", "case.elf", "whole.keep", *options])
    row(f"{count}", f"{sum(taken):.2f}", f"{taken[-1]:.2f}", f"{seconds:.2f}", f"{held:.0f}")


def main():
    if len(sys.argv) not in (2, 3):
        sys.exit(__doc__)
    program = os.path.abspath(sys.argv[1])
    most = int(sys.argv[2]) if len(sys.argv) == 3 else 1_000_000
    with tempfile.TemporaryDirectory() as folder:
        os.chdir(folder)
        row("instructions", "jobs", "seconds", "MB")
        row(*["---"] * 4)
        for instructions in (1_000, 10_000, 100_000, 1_000_000):
            if instructions <= most:
                start(program, instructions)
        print()
        row("", "rows before", "rows more", "seconds", "MB")
        row(*["---"] * 5)
        if CONTROL_INSTRUCTIONS <= most:
            Path("case.elf").write_bytes(CONTROL.read_bytes())
            options = ["--ram", "0x80000000:64"]
            merges(program, options)
            print()
            row("shards", "all merges, seconds", "the last one", "report", "MB of the report")
            row(*["---"] * 5)
            for count in (SHARDS, *MORE_SHARDS):
                all_merges(program, options, count)
        os.chdir("/")


if __name__ == "__main__":
    main()
