#!/usr/bin/env python3
"""What campaign files of many rows cost: a merge of two halves, a merge of the whole into a half, a report, an export, and it again.

usage: many_rows.py PROGRAM EXPORT [JOBS]     of some 5,000,000 jobs where no number is said

The case is a loop with 4096 bytes of RAM. Its files are written here, with the outcome no-effect for each job: no command asks whether an
outcome is right. Times are processor time, user and system; memory is the most that was held.
"""
import os
import shutil
import struct
import subprocess
import sys
import tempfile
from itertools import islice
from pathlib import Path

from compare import loop, measure

JOBS = 5_000_000
MOST_ROWS = 65535
OPTIONS = ["--rom", "0x20000000:8192", "--ram", "0x80000000:4096", "--limit", "16000000"]


def row(*cells):
    print(f"| {' | '.join(cells)} |", flush=True)


def case_of(program, jobs):
    """Writes a loop of so many jobs at least, by what a turn of it makes."""
    planned = []
    for turns in 1000, 2000:
        Path("case.elf").write_bytes(loop(turns))
        lines = measure([program, "plan", "case.elf", *OPTIONS])[2].decode().splitlines()
        planned.append(int(dict(line.split() for line in lines)["jobs"]))
    turns = 1001 + max(0, jobs - planned[0]) * 1000 // (planned[1] - planned[0])
    Path("case.elf").write_bytes(loop(turns))


def jobs(first, step):
    """The planned jobs, from one on and by steps. They are read line by line: what is held here counts as held by each command."""
    with open("plan.csv", "rb") as lines:
        for line in islice(lines, 1 + first, None, step):
            yield tuple(int(number) for number in line.split(b",")[:3])


def keep(name, head, listed):
    """A campaign file with an outcome for each of these jobs; how many they are."""
    count = 0
    with open(name, "wb") as file:
        file.write(head)
        while page := list(islice(listed, MOST_ROWS)):
            file.write(b"\xa5" + struct.pack("<H", len(page)) + b"".join(struct.pack("<IIBB", *job, 0) for job in page))
            count += len(page)
        file.write(b"\x00")
    return count


def files(program):
    """The whole table and its halves; how many rows it has."""
    measure([program, "run", "case.elf", "head.keep", *OPTIONS, "--stop-after", "0"])
    head = Path("head.keep").read_bytes()[:-1]
    with open("plan.csv", "wb") as out:
        subprocess.run([program, "plan", "case.elf", *OPTIONS, "--format", "csv"], stdout=out, check=True)
    keep("even.keep", head, jobs(0, 2))
    keep("odd.keep", head, jobs(1, 2))
    return keep("whole.keep", head, jobs(0, 1))


def merged(program, into, other):
    shutil.copy(f"{into}.keep", "into.keep")
    seconds, held, _ = measure([program, "merge", "case.elf", "into.keep", f"{other}.keep", *OPTIONS])
    row(f"{other} into {into}", f"{seconds:.2f}", f"{held:.0f}")


def main():
    if len(sys.argv) not in (3, 4):
        sys.exit(__doc__)
    program, export = (os.path.realpath(word) for word in sys.argv[1:3])
    with tempfile.TemporaryDirectory() as folder:
        os.chdir(folder)
        case_of(program, int(sys.argv[3]) if len(sys.argv) == 4 else JOBS)
        row(f"{files(program):,} rows", "seconds", "MB")
        row("---", "---", "---")
        merged(program, "even", "odd")
        merged(program, "even", "whole")
        for words in ["report", [program, "report", "case.elf", "whole.keep", *OPTIONS]], \
                ["export", [export, "case.elf", "whole.keep", "jobs.db", *OPTIONS]], \
                ["export over it", [export, "case.elf", "whole.keep", "jobs.db", *OPTIONS]]:
            seconds, held, _ = measure(words[1])
            row(words[0], f"{seconds:.2f}", f"{held:.0f}")


if __name__ == "__main__":
    main()
