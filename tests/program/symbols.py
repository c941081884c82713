"""Compares what `symbols` writes of generated symbol tables, hostile ones included, with the second reading in
symbol_reader.py and with rows that were worked out by hand, and checks how it ends if there is no report.

symbols.py PROGRAM
"""

from __future__ import annotations

import collections
import concurrent.futures
import os
import pathlib
import random
import subprocess
import sys
import tempfile
from collections.abc import Iterator
from typing import IO, Any

import assembler as a
import code_in_ram
import command_words
import generate
import known
import symbol_reader
from symbol_tables import HOSTILE, NULL, STRTAB, SYMTAB, Section, Table, bad_name, entry, random_symbols, with_headers

TABLES = 500
IMAGE, KEEP = "case.elf", "case.keep"

# --- The campaigns --------------------------------------------------------------------------------

LOAD = known.image(known.LOAD, (a.RAM, b"A"))


def campaigns() -> Iterator[generate.Program]:
    """Small programs: of each kind of case, with data that is read, loops, calls, code in RAM, and RAM that ends at 2^32."""
    dice = random.Random(46)
    yield generate.Program("load", LOAD)
    yield generate.Program("overwrite", known.image(known.KEEP), rom="0x20000000:64", limit=100)
    yield generate.Program("loop", generate.loop(dice, 5), limit=200, flags=("--pc",))
    yield generate.Program("calls", generate.calls(dice), flags=("--ram-code",))
    in_ram = {one.name: one for one in code_in_ram.programs()}
    yield from (in_ram[name] for name in ("in RAM 1", "copied by loop 0", "sb over its own word", "past the top into ROM"))


class Campaign:
    """A program with its whole campaign in a file of its own, and what the program says of it."""

    def __init__(self, program: str, one: generate.Program, file: str = KEEP) -> None:
        self.program, self.one, self.file = program, one, file
        pathlib.Path(IMAGE).write_bytes(one.image)
        self.report = self.write("run")
        if self.report[0] == 0:
            self.keep = pathlib.Path(file).read_bytes()
            self.pcs = symbol_reader.pcs_of(self.write("trace")[1])
            self.jobs = symbol_reader.jobs_of(self.write("report", "--format", "csv")[1])
            self.ram = symbol_reader.region(one.ram)

    def write(self, command: str, *more: str) -> tuple[int, str, str]:
        # `symbols` has the files and options of `audit`.
        words = self.one.words(IMAGE, "audit" if command == "symbols" else command, *more)
        words = [self.file if word == KEEP else word for word in words[1:]]
        done = subprocess.run([self.program, command, *words], stdin=subprocess.DEVNULL, capture_output=True, timeout=60)
        return done.returncode, done.stdout.decode("latin-1"), done.stderr.decode("latin-1")

    def wanted(self, image: bytes) -> tuple[int, str, str]:
        try:
            found = symbol_reader.symbols(image)
        except symbol_reader.Refused as reason:
            return 3, "", f"{reason}\n"
        return 0, symbol_reader.text(found, self.pcs, self.jobs, self.ram, "--pc" in self.one.flags), ""

    def got(self, image: bytes) -> tuple[int, str, str]:
        pathlib.Path(IMAGE).write_bytes(image)
        return self.write("symbols")


class Judge:
    def __init__(self) -> None:
        self.passed, self.failed = 0, 0
        self.seen: collections.Counter[str] = collections.Counter()

    def same(self, name: str, wanted: object, got: object) -> None:
        if wanted == got:
            self.passed += 1
        else:
            self.failed += 1
            print(f"differs: {name}\n  wanted {str(wanted)[:1500]}\n  got    {str(got)[:1500]}", flush=True)


def tables(program: str, part: int, parts: int) -> Judge:
    """The generated tables of one part."""
    judge = Judge()
    with folder():
        made = [Campaign(program, one, f"{number}.keep") for number, one in enumerate(campaigns())]
        judge.same("the campaigns end", [0] * len(made), [campaign.report[0] for campaign in made])
        for turn in range(part, TABLES, parts):
            dice, campaign = random.Random(turn), made[turn // parts % len(made)]
            count = 4000 if turn % 100 == 99 else dice.choice([0, 1, 2, 3, 5, 8, 13, 30])
            table = Table(dice, campaign.one.image, *random_symbols(dice, campaign.pcs, campaign.ram, count))
            name = "symbols"
            if turn % 2:
                change = HOSTILE[turn // 2 % len(HOSTILE)]
                change(table)
                name = change.__name__
            elif turn % 10 == 0:
                bad_name(table)
                name = "bad_name"
            image = table.image()
            wanted = campaign.wanted(image)
            judge.seen[f"{name} {wanted[2][15:17] if wanted[0] else 'read'}"] += 1
            judge.same(f"table {turn}, {name}, {campaign.one.name}", wanted, campaign.got(image))
            if wanted[0] == 0:
                judge.same(f"table {turn}, its last lines", campaign.report[1].splitlines(), wanted[1].splitlines()[-9:])
    return judge


# --- Rows worked out by hand ----------------------------------------------------------------------

NAMES = b"\0main\0emit\0buf\0"
NAMED = """\
function main 0 20 0 0 28 0 0
function emit 48 17 1 0 60 2 0
function (none) 0 0 0 0 0 0 0
function (dead) 5424 0 0 0 0 0 0
object buf 24 16 0 0 0 0 0
object (none) 600 0 0 0 0 0 0
object (registers) 4848 21 1 0 88 2 0
instructions 5
sites 5600
no-effect 5472
silent 37
detected 1
illegal 0
address 88
misaligned 2
timeout 0
"""
UNNAMED = """\
function (none) 48 37 1 0 88 2 0
function (dead) 5424 0 0 0 0 0 0
object (none) 624 16 0 0 0 0 0
object (registers) 4848 21 1 0 88 2 0
""" + NAMED[NAMED.index("instructions") :]


def named(emit: int = 6, **fields: int) -> bytes:
    """Five instructions, that load a byte and send it, and the names of two functions and a variable."""
    symbols = [bytes(16), entry(1, 0x20000000, 12, 2, 1), entry(emit, 0x2000000C, 8, 2, 1), entry(11, 0x80000000, 1, 1, 1)]
    sections = [Section(NULL), Section(SYMTAB, 137, 64, 2, 16), Section(STRTAB, 201, 15)]
    return with_headers(LOAD + b"".join(symbols) + NAMES, sections, **fields)


def rows(program: str) -> Judge:
    """Texts and statuses that are known without any reader."""
    judge = Judge()
    with folder():
        load = Campaign(program, generate.Program("load", LOAD, rom="0x20000000:64", limit=100))
        judge.same("where the headers stand", (137, 216), (len(LOAD), number(named(), 32)))
        refused = {number: (3, "", f"image refused: {number} {name}\n") for number, name in (symbol_reader.BAD_SECTIONS, symbol_reader.BAD_NAME)}
        for name, image, wanted in (
            ("two functions and a variable", named(), (0, NAMED, "")),
            ("headers of 39 bytes", named(size=39), refused[13]),
            ("a name past the strings", named(emit=15), refused[14]),
            ("both", named(emit=15, size=39), refused[13]),
            ("no sections", LOAD, (0, UNNAMED, "")),
        ):
            judge.same(name, wanted, load.got(image))
            judge.same(f"{name}, by the second reading", wanted, load.wanted(image))
            # The other commands do not read them.
            judge.same(f"{name}, a report", (0, NAMED[NAMED.index("instructions") :], ""), load.write("report"))
        ends = Ends(judge, load, refused)
        for part in (ends.lines, ends.images, ends.files, ends.wrong_outcome, ends.output):
            part()
    return judge


GOOD = ["--rom", "0x20000000:64", "--ram", "0x80000000:16", "--limit", "100"]


class Ends:
    """How `symbols` ends where there is no report, and what comes first."""

    def __init__(self, judge: Judge, load: Campaign, refused: dict[int, tuple[int, str, str]]) -> None:
        self.judge, self.load, self.refused = judge, load, refused
        for file, image in ((IMAGE, named()), ("sections.elf", named(size=39)), ("names.elf", named(emit=99))):
            pathlib.Path(file).write_bytes(image)

    def gives(
        self, name: str, wanted: tuple[int, str, str], *words: str, out: int | IO[bytes] = subprocess.PIPE
    ) -> None:
        done = subprocess.run([self.load.program, *words], stdin=subprocess.DEVNULL, stdout=out, stderr=subprocess.PIPE, timeout=60)
        self.judge.same(name, wanted, (done.returncode, (done.stdout or b"").decode(), done.stderr.decode()))

    def lines(self) -> None:
        """Words that are no line, and those of one in another order."""
        usage = 1, "", command_words.USAGE + "\n"
        for more in (["--format", "text"], ["--page", "7"], ["--workers=1"], ["--fresh"], ["--seed", "0"], ["more"], ["--limit", "7"], ["--pc", "--pc"]):
            self.gives(f"symbols with {more}", usage, "symbols", IMAGE, KEEP, *GOOD, *more)
        named: list[list[str]] = [[], [IMAGE], [IMAGE, "-" + KEEP], ["--rom", KEEP], ["-"]]
        for files in named:
            self.gives(f"symbols with the files {files}", usage, "symbols", *files, *GOOD)
        self.gives("another word", usage, "symbol", IMAGE, KEEP, *GOOD)
        self.gives("options in another order", (0, NAMED, ""), "symbols", IMAGE, KEEP, "--limit=0x64", *GOOD[2:4], *GOOD[:2], "--")

    def images(self) -> None:
        """What is wrong with the image, or its run."""
        self.gives("no image", (2, "", "image could not be read\n"), "symbols", "missing.elf", KEEP, *GOOD)
        outside = 3, "", "image refused: 11 SegmentOutsideMap\n"
        self.gives("a fault of the image first", outside, "symbols", "sections.elf", KEEP, "--ram", "0x70000000:16")
        for file, number in (("sections.elf", 13), ("names.elf", 14)):
            self.gives(f"{file} before the golden run", self.refused[number], "symbols", file, KEEP, *GOOD[:4], "--limit", "2")
            self.gives(f"{file} before the campaign file", self.refused[number], "symbols", file, "missing/none.keep", *GOOD)
        self.gives("no golden run", (4, "", "golden run did not halt within 2 instructions\n"), "symbols", IMAGE, KEEP, *GOOD[:4], "--limit", "2")

    def files(self) -> None:
        """What is wrong with the campaign file."""
        for name in ("missing/none.keep", "."):
            self.gives(f"the file {name}", (5, "", "campaign file could not be read or written\n"), "symbols", IMAGE, name, *GOOD)
        pathlib.Path("none.keep").write_bytes(b"no campaign")
        for name, reason, file, more in (
            ("another limit", "6 OtherCase at 21", KEEP, [*GOOD[:4], "--limit", "101"]),
            ("another kind", "6 OtherCase at 0", KEEP, [*GOOD, "--pc"]),
            ("no campaign file", "1 NotACampaign", "none.keep", GOOD),
        ):
            self.gives(name, (6, "", f"campaign file refused: {reason}\n"), "symbols", IMAGE, file, *more)
        jobs = len(self.load.jobs)
        self.gives("no file yet", (7, "", f"stopped: 0 of {jobs} jobs kept\n"), "symbols", IMAGE, "new.keep", *GOOD)
        self.judge.same("no file is made", False, os.path.exists("new.keep"))
        stopped = 7, "", f"stopped: 40 of {jobs} jobs kept\n"
        self.gives("a stopped campaign", stopped, "run", IMAGE, "new.keep", *GOOD, "--stop-after", "40")
        self.gives("jobs that are missing", stopped, "symbols", IMAGE, "new.keep", *GOOD)

    def wrong_outcome(self) -> None:
        """An outcome counts as it stands: the first row of the file becomes a timeout."""
        content, jobs = bytearray(self.load.keep), self.load.jobs
        first = 13 + int.from_bytes(content[9:13], "little") + 3
        self.judge.same("the first row is of the first job", jobs[0][:2], [number(content, first), number(content, first + 4)])
        content[first + 9] = 4
        pathlib.Path("wrong.keep").write_bytes(content)
        wanted = symbol_reader.text(symbol_reader.symbols(named()), self.load.pcs, [[*jobs[0][:4], "timeout"], *jobs[1:]], self.load.ram)
        self.judge.same("a timeout is counted", "timeout 1", wanted.splitlines()[-1])
        self.gives("a wrong outcome", (0, wanted, ""), "symbols", IMAGE, "wrong.keep", *GOOD)

    def output(self) -> None:
        if os.path.exists("/dev/full"):
            with open("/dev/full", "wb") as full:
                self.gives("a full device", (8, "", "output could not be written\n"), "symbols", IMAGE, KEEP, *GOOD, out=full)
        self.judge.same("the campaign file is as it was", self.load.keep, pathlib.Path(KEEP).read_bytes())


def number(content: bytes, at: int) -> int:
    return int.from_bytes(content[at : at + 4], "little")


class folder(tempfile.TemporaryDirectory):
    """A folder of its own, in memory where the system has that, in which all is done."""

    def __init__(self) -> None:
        memory = "/dev/shm"
        super().__init__(dir=memory if os.access(memory, os.W_OK | os.X_OK) else None)

    def __enter__(self) -> str:
        os.chdir(self.name)
        return self.name

    def __exit__(self, *reason: Any) -> None:
        os.chdir("/")
        super().__exit__(*reason)


def main() -> int:
    program, parts = os.path.abspath(sys.argv[1]), 4
    with concurrent.futures.ProcessPoolExecutor(parts) as pool:
        tried = [pool.submit(rows, program), *(pool.submit(tables, program, part, parts) for part in range(parts))]
        judges = [one.result() for one in tried]
    seen: collections.Counter[str] = sum((judge.seen for judge in judges), collections.Counter())
    print("tables:", ", ".join(f"{name}: {seen[name]}" for name in sorted(seen)))
    failed = sum(judge.failed for judge in judges)
    print(f"{sum(judge.passed for judge in judges)} passed, {failed} failed")
    return 1 if failed else 0


if __name__ == "__main__":
    sys.exit(main())
