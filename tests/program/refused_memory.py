"""Refuses each allocation in turn of two calls: of a campaign that is stopped, and of one that continues its file.

refused_memory.py SHIM PROGRAM             the program on real files
refused_memory.py SHIM --memory DRIVER     the program over devices in memory, by the driver of refused_memory/main.rt.in
"""

from __future__ import annotations

import collections
import os
import pathlib
import subprocess
import sys
import tempfile
from typing import NamedTuple

import assembler as a
import keep_file
import known
import reference
from machine import Site

# One worker's campaign, and that of four, which starts threads.
WORKERS = (1, 4)
# Workers, the most jobs of a page, and how many threads its 96 jobs start: for each page one for each worker, but no more than the page
# has jobs, and none for one alone.
STARTS = ((1, 40, 0), (4, 40, 12), (4, 4096, 4), (64, 40, 96), (64, 3, 96), (64, 1, 0))
MOST = 10_000
KEEP, NOTE = pathlib.Path("case.keep"), pathlib.Path("note")
FAULTS = {5: "campaign file could not be read or written\n", 8: "output could not be written\n", 9: "out of memory\n"}

# What a call answers and writes; how often disk, output and error output had no memory; and the campaign file that it leaves.
class Call(NamedTuple):
    status: int
    out: str
    err: str
    shorts: tuple[int, ...]
    file: bytes


IMAGE = known.image(known.SEND)
# Both calls as they were worked out by hand.
(TOLD, STOPPED_FILE), (WROTE, ENDED_FILE) = next(
    [(told, file or b"") for command, _, told, file in calls if command == "run"] for image, calls in known.campaigns() if image == IMAGE
)
WANTED = (Call(*TOLD, (0, 0, 0), STOPPED_FILE), Call(*WROTE, (0, 0, 0), ENDED_FILE))
OPTIONS: tuple[list[str], ...] = (["--stop-after", "40"], [])
NAMES = {(cycle, cell, bit) for cycle, cell in ((2, 1), (2, 2), (3, 1)) for bit in range(32)}

CASE = reference.Case(range(a.ROM, a.ROM + 64), range(a.RAM, a.RAM + 16), 100)
reference.load(IMAGE, CASE)


def rows_of(content: bytes) -> dict[Site, int] | None:
    """The outcomes that a file keeps, or None where it is no campaign's yet."""
    try:
        return keep_file.accept(content, CASE, NAMES)[0]
    except keep_file.Refused:
        if content[0] == keep_file.OPEN:
            raise
        return None


ALL = rows_of(ENDED_FILE) or {}
assert ALL


def is_sound(content: bytes, before: bytes) -> bool:
    """Whether the file keeps what it kept, and right outcomes alone."""
    try:
        rows, old = rows_of(content), rows_of(before)
    except keep_file.Refused:
        return False
    return (rows or {}).items() <= ALL.items() and (old or {}).items() <= (rows or {}).items()


def kind_of(call: Call, wanted: Call, before: bytes, is_start: bool) -> tuple[str, bool]:
    """Of what kind a refused allocation was by what its call did, and whether a call may do that."""
    disk, out, err = call.shorts
    if disk:
        return "the disk's own", call[:3] == (5, "", FAULTS[5]) and is_sound(call.file, before)
    if out:
        told = (call.status, call.err, call.file) == (8, FAULTS[8], wanted.file)
        return "the output's own", told and wanted.out.startswith(call.out)
    if err:
        told = (call.status, call.out, call.file) == (wanted.status, wanted.out, wanted.file)
        return "the error output's own", told and wanted.err.startswith(call.err)
    if call == wanted:
        # Where memory for a worker's table of known states is refused, the worker goes on without.
        return "of a thread's start" if is_start else "of a worker's table", True
    return "any other", (call.status, call.out, call.err, call.file) == (9, "", FAULTS[9], before)


class Tally:
    def __init__(self) -> None:
        self.passed, self.failed = 0, 0

    def check(self, name: str, holds: object, got: object) -> None:
        self.passed += bool(holds)
        self.failed += not holds
        if not holds:
            print(f"failed: {name}: {str(got)[:300]}", flush=True)

    def show(self, name: str, kinds: collections.Counter[str]) -> None:
        print(f"{name}: " + ", ".join(f"{count} {kind}" for kind, count in kinds.items()), flush=True)


def refusing(shim: str, words: list[str], number: int) -> tuple[int, str, str, list[str]]:
    """What a command does where it is refused the allocation of a number, and what is noted of that."""
    NOTE.unlink(missing_ok=True)
    env = {"LD_PRELOAD": shim, "REFUSE": str(number), "NOTE": str(NOTE.resolve())}
    done = subprocess.run(words, stdin=subprocess.DEVNULL, capture_output=True, env=env, timeout=100)
    noted = NOTE.read_text().split() if NOTE.exists() else []
    return done.returncode, done.stdout.decode("ascii", "replace"), done.stderr.decode("ascii", "replace"), noted


def try_files(tally: Tally, shim: str, program: str) -> None:
    """Threads that are started, and both calls on real files; and each time what a later run makes of the file."""
    line = [program, "run", "case.elf", KEEP.name, *known.REGIONS, "100"]

    def run(before: bytes, more: list[str], number: int) -> tuple[Call, list[str]]:
        KEEP.unlink(missing_ok=True)
        if before:
            KEEP.write_bytes(before)
        status, out, err, noted = refusing(shim, [*line, *more], number)
        return Call(status, out, err, (0, 0, 0), KEEP.read_bytes() if KEEP.exists() else b""), noted

    for workers, page, threads in STARTS:
        call, noted = run(b"", ["--workers", str(workers), "--page", str(page)], 0)
        tally.check(f"threads of {workers} workers, page {page}", call[:3] == WROTE and len(noted) == threads, (call[:3], len(noted)))

    for workers in WORKERS:
        for before, wanted, more in zip((b"", STOPPED_FILE), WANTED, OPTIONS):
            more = ["--workers", str(workers), *more]
            name = f"run {' '.join(more)}"
            call, starts = run(before, more, 0)
            tally.check(name, call == wanted, call)
            kinds: collections.Counter[str] = collections.Counter()
            for number in range(1, MOST):
                call, noted = run(before, more, number)
                if not noted:
                    break
                kind, allowed = kind_of(call, wanted, before, noted == ["1"] or str(number) in starts)
                kinds[kind] += 1
                tally.check(f"{name}, allocation {number}", allowed, (kind, call))
                later, _ = run(call.file, [], 0)
                whole = later[:3] == WROTE and rows_of(later.file) == ALL
                tally.check(f"{name}, allocation {number}, a later run", whole, later)
            tally.show(name, kinds)


def calls_in(text: str) -> list[Call]:
    """The calls that the driver tells of: both, or none where it had no memory itself."""
    lines, calls = text.split("\n")[:-1], []
    if lines == ["own"]:
        return []
    while lines and lines[0] == "call":
        status, *shorts = map(int, lines[1].split())
        file, out, err = (bytes.fromhex(line) for line in lines[2:5])
        calls.append(Call(status, out.decode("ascii"), err.decode("ascii"), tuple(shorts), file))
        lines = lines[5:]
    if lines or len(calls) != 2:
        raise ValueError(text)
    return calls


def goes_on(first: Call, second: Call) -> bool:
    """What the second call must do where the first was refused memory."""
    if rows_of(first.file) is None:
        return second.status == 6 and second.file == first.file
    return second[:3] == WROTE and rows_of(second.file) == ALL


def try_memory(tally: Tally, shim: str, driver: str) -> None:
    """Both calls over devices in memory."""
    for workers in WORKERS:
        words = [driver, f"--workers={workers}"]
        status, text, _, starts = refusing(shim, words, 0)
        tally.check(" ".join(words), status == 0 and calls_in(text) == [*WANTED], text)
        kinds: collections.Counter[str] = collections.Counter()
        for number in range(1, MOST):
            status, text, err, noted = refusing(shim, words, number)
            if not noted:
                break
            try:
                calls = calls_in(text)
            except (ValueError, IndexError) as error:
                tally.check(f"{words}, allocation {number}", False, (status, text, err, error))
                continue
            is_start = noted == ["1"] or str(number) in starts
            if not calls:
                kind, allowed = "the driver's own", True
            elif calls[0] != WANTED[0]:
                kind, allowed = kind_of(calls[0], WANTED[0], b"", is_start)
                allowed = allowed and goes_on(*calls)
                kind = f"first call: {kind}"
            else:
                kind, allowed = kind_of(calls[1], WANTED[1], STOPPED_FILE, is_start)
                kind = f"second call: {kind}" if calls[1] != WANTED[1] else kind
            kinds[kind] += 1
            tally.check(f"{words}, allocation {number}", status == 0 and allowed, (kind, calls))
        tally.show(" ".join(["in memory", *words[1:]]), kinds)


def main() -> int:
    tally = Tally()
    shim, program = os.path.abspath(sys.argv[1]), os.path.abspath(sys.argv[-1])
    with tempfile.TemporaryDirectory() as folder:
        os.chdir(folder)
        pathlib.Path("case.elf").write_bytes(IMAGE)
        if sys.argv[2] == "--memory":
            try_memory(tally, shim, program)
        else:
            try_files(tally, shim, program)
        os.chdir("/")
    print(f"{tally.passed} passed, {tally.failed} failed")
    return 1 if tally.failed else 0


if __name__ == "__main__":
    sys.exit(main())
