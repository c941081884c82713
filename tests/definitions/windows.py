"""Parts of generated programs: what fail_window prints of them and keeps, compared with a second reading, which runs each
site of the part individually (reference.py).

windows.py WINDOW PROGRAM

WINDOW is fail_window, and PROGRAM fail_star. Of each program, in one of the four kinds of case, some random parts are
run with one campaign file, so that later parts find jobs of earlier ones. Then windows that tile the run are run into
files of their own, which are merged, some calls are stopped, and words, images and files that have to be refused are
tried. The same seed makes the same programs.
"""

from __future__ import annotations

import concurrent.futures
import dataclasses
import itertools
import json
import os
import pathlib
import random
import subprocess
import sys
import tempfile
from collections.abc import Sequence

import assembler as a
import code_in_ram
import generate
import keep_file
import reference
import symbol_reader
import symbol_tables
from command_words import line_of
from machine import Site

PROGRAMS, PARTS, SEED = 300, 4, 20261201
KINDS = ((), ("--pc",), ("--ram-code",), ("--pc", "--ram-code"))
IMAGE, KEEP, OTHER, WHOLE = "part.elf", "part.keep", "other.keep", "whole.keep"
USAGE = "usage: fail_window IMAGE KEEP (--cycles A..B | --code LOW..HIGH | --function NAME) [options]\n"
NOTHING = "no instruction in the part: "
NONE: tuple[str, ...] = ()
FUNCTION, OBJECT = 2, 1  # types of symbols

Told = tuple[int, str, str]  # a status and the texts on standard output and standard error


# --- Programs -------------------------------------------------------------------------------------


def short(dice: random.Random, number: int) -> generate.Program:
    """A short program, so that each of its sites can be run."""
    kind = number % 5
    if kind == 0:
        return generate.Program("a loop", generate.loop(dice, 1), limit=dice.choice((12, 20)))
    if kind == 1:
        return generate.Program("calls", generate.calls(dice), limit=40, ram="0x80000000:4")
    if kind == 2:
        return generate.Program("guarded", generate.guarded(dice), limit=30, ram="0x80000000:8")
    names = dice.sample(a.MNEMONICS, 3)
    body = generate.Body(dice, 4)
    words = generate.start(dice, 1)
    for name in names:
        words += body.instruction(name)
    image = a.image([(a.ROM, a.code(words + body.halt())), (a.RAM, dice.randbytes(4))])
    return generate.Program(f"straight {' '.join(names)}", image, limit=30, ram="0x80000000:4")


def programs(dice: random.Random) -> list[generate.Program]:
    """All programs, with the four kinds of case in turns. Some have code in RAM."""
    found = [one for one in code_in_ram.programs() if one.flags][: PROGRAMS // 10]
    kinds = itertools.cycle(KINDS)
    while len(found) < PROGRAMS:
        found.append(dataclasses.replace(short(dice, len(found)), flags=next(kinds)))
    return [dataclasses.replace(one, image=with_symbols(dice, one)) for one in found]


def with_symbols(dice: random.Random, one: generate.Program) -> bytes:
    """The image with a symbol table: functions of the same name, that overlap, that have no bytes or are not there, and
    an object with the name of a function."""
    base, size = (int(part, 0) for part in one.rom.split(":"))
    strings, names = b"\0", {}
    for name in (b"alone", b"twice", b"empty", b"data", b"elsewhere"):
        names[name] = len(strings)
        strings += name + b"\0"

    def function(name: bytes, kind: int = FUNCTION, section: int = 1, most: int = 16) -> bytes:
        begin = base + 4 * dice.randrange(max(1, min(size, 64) // 4))
        return symbol_tables.entry(names[name], begin, dice.randrange(1, most), kind, section)

    entries = [function(b"alone"), function(b"twice"), function(b"twice"), function(b"data", OBJECT), function(b"alone", FUNCTION, 0)]
    entries.append(symbol_tables.entry(names[b"empty"], base, 0, FUNCTION, 1))
    entries.append(symbol_tables.entry(names[b"elsewhere"], 0x70000000, 64, FUNCTION, 1))
    dice.shuffle(entries)
    return symbol_tables.Table(dice, one.image, [bytes(16), *entries], strings).image()


# --- The second reading ---------------------------------------------------------------------------


@dataclasses.dataclass
class Part:
    """What the words of a part say."""

    cycles: range | None = None
    code: range | None = None
    function: str | None = None

    def words(self) -> list[str]:
        """The options."""
        ranges = [f"--{name}={value.start}..{value.stop}" for name, value in (("cycles", self.cycles), ("code", self.code)) if value is not None]
        return ranges + ([] if self.function is None else [f"--function={self.function}"])


class Reading:
    """All sites of a case, each with its outcome, and the instructions and functions of its run."""

    def __init__(self, one: generate.Program) -> None:
        line = line_of(one.words(IMAGE))
        self.case = line.case
        reference.load(one.image, self.case)
        self.pcs = symbol_reader.pcs_of(reference.trace(self.case))
        self.sites = list(reference.of_all_sites(self.case))
        self.weights = reference.jobs_of(self.case)[1]
        self.outcomes = dict(self.sites)
        self.functions = [symbol for symbol in symbol_reader.symbols(one.image) if symbol.kind == "function"]

    def cycles(self, part: Part) -> set[int]:
        """The instructions that are in a part."""
        here = [symbol for symbol in self.functions if symbol.name == part.function]
        found = set()
        for cycle, pc in enumerate(self.pcs):
            in_function = part.function is None or any(symbol.value <= pc < symbol.value + symbol.size for symbol in here)
            if (part.cycles is None or cycle in part.cycles) and (part.code is None or pc in part.code) and in_function:
                found.add(cycle)
        return found

    def counts(self, cycles: set[int]) -> dict[str, int]:
        """The sites of some instructions by outcome."""
        totals = dict.fromkeys(reference.OUTCOMES, 0)
        for site, outcome in self.sites:
            if site[0] in cycles:
                totals[outcome] += 1
        return totals

    def due(self, cycles: set[int]) -> list[Site]:
        """The jobs that represent at least one of these sites, in order."""
        return [job for job, weight in self.weights.items() if not cycles.isdisjoint(range(job[0] + 1 - weight, job[0] + 1))]

    def told(self, part: Part, layout: str) -> Told:
        """What has to be written of a part all of whose jobs are run."""
        cycles = self.cycles(part)
        if not cycles:
            return 10, "", NOTHING + self.why(part) + "\n"
        counts = self.counts(cycles)
        numbers = {"instructions": len(self.pcs), "window": len(cycles), "sites": sum(counts.values()), **counts}
        if layout == "json":
            keys = {name.replace("-", "_"): value for name, value in numbers.items()}
            return 0, json.dumps(keys, sort_keys=True, separators=(",", ":")) + "\n", ""
        return 0, "".join(f"{name} {value}\n" for name, value in numbers.items()), ""

    def why(self, part: Part) -> str:
        """Why no instruction is in a part."""
        if part.function is not None and all(symbol.name != part.function for symbol in self.functions):
            return f"no function {part.function}" if self.functions else "the image has no functions"
        if part.cycles is not None and len(self.pcs) <= part.cycles.start:
            return f"the golden run has {len(self.pcs)} instructions"
        return "none that fulfils its conditions is executed"

    def rows(self, jobs: Sequence[Site]) -> list[keep_file.Row]:
        """The rows of some jobs."""
        return [(*job, reference.OUTCOMES[self.outcomes[job]]) for job in jobs]


def random_part(dice: random.Random, reading: Reading) -> Part:
    """A part, which may have no instruction."""
    count = len(reading.pcs)
    part = Part()
    while not part.words():
        if dice.random() < 0.6:
            start = dice.randrange(count + 1)
            part.cycles = range(start, start + dice.choice((1, 2, dice.randrange(1, count + 2), 0xFFFF)))
        if dice.random() < 0.4:
            start = dice.choice(reading.pcs) + dice.randrange(-2, 3)
            part.code = range(max(0, start), max(0, start) + dice.choice((1, 4, 12, 40)))
        if dice.random() < 0.4:
            part.function = dice.choice(("alone", "twice", "twice", "empty", "data", "elsewhere", "missing"))
    return part


# --- Trials ---------------------------------------------------------------------------------------


class Judge:
    """Gives words to the program, compares what it does with the second reading, and counts."""

    def __init__(self, window: str, program: str, one: generate.Program, dice: random.Random) -> None:
        self.window, self.program, self.one, self.dice = window, program, one, dice
        self.reading = Reading(one)
        self.passed, self.failures = 0, 0
        pathlib.Path(IMAGE).write_bytes(one.image)
        self.regions = one.words(IMAGE, "plan")[2:]

    def same(self, name: str, wanted: object, got: object) -> None:
        """Counts a comparison."""
        if wanted == got:
            self.passed += 1
        else:
            self.failures += 1
            print(f"failed: {self.one.name} {' '.join(self.one.flags)}, {name}\n  wanted {wanted}\n  got    {got}", flush=True)

    def call(self, keep: str, words: Sequence[str], regions: Sequence[str] | None = None) -> Told:
        """A call of fail_window."""
        return told([self.window, IMAGE, keep, *(self.regions if regions is None else regions), *words])

    def star(self, command: str, *words: str) -> Told:
        """A call of fail_star for the same case."""
        return told([self.program, command, IMAGE, *words, *self.regions])

    def look_at_rows(self, name: str, keep: str, wanted: Sequence[Site]) -> None:
        """Compares the rows of a campaign file, in the order of the file."""
        content = keep_file.read(keep)
        rows = [row for _, row in keep_file.rows_from(content, keep_file.first_gate(content, keep_file.card(self.reading.case)))[0]] if content else []
        self.same(f"{name}: rows", self.reading.rows(wanted), rows)

    def parts(self) -> None:
        """Random parts, one after the other with one file. Rows are added in job order, and only those of due jobs."""
        pathlib.Path(KEEP).unlink(missing_ok=True)
        kept: list[Site] = []
        for number in range(PARTS):
            part = random_part(self.dice, self.reading)
            layout, page = self.dice.choice(("text", "json")), self.dice.choice(("7", "4096"))
            words = [*part.words(), f"--format={layout}", f"--page={page}", f"--workers={self.dice.randrange(1, 5)}"]
            before = content_of(KEEP)
            missing = [job for job in self.reading.due(self.reading.cycles(part)) if job not in kept]
            if missing and self.dice.random() < 0.5:
                self.stop(words, missing, kept)
            self.same(" ".join(words), self.reading.told(part, layout), self.call(KEEP, words))
            kept += missing
            self.look_at_rows(f"part {number}", KEEP, kept) if self.reading.cycles(part) else self.same("an unchanged file", before, content_of(KEEP))
        self.same("run continues with the rest", (0, self.whole(), ""), self.star("run", KEEP))
        self.look_at_rows("after run", KEEP, kept + [job for job in self.reading.weights if job not in kept])

    def stop(self, words: list[str], missing: list[Site], kept: list[Site]) -> None:
        """A call that stops after some of the missing jobs, which are taken from both lists."""
        count = self.dice.randrange(len(missing))
        got = self.call(KEEP, [*words, f"--stop-after={count}"])
        taken = missing[:count]
        del missing[:count]
        kept += taken
        jobs = len(self.reading.weights)
        self.same(f"stopped after {count}", (7, "", f"stopped: {len(kept)} of {jobs} jobs kept\n"), got)
        self.look_at_rows(f"stopped after {count}", KEEP, kept)

    def whole(self) -> str:
        """The report of the whole run."""
        counts = self.reading.counts(set(range(len(self.reading.pcs))))
        numbers = {"instructions": len(self.reading.pcs), "sites": sum(counts.values()), **counts}
        return "".join(f"{name} {value}\n" for name, value in numbers.items())

    def tiles(self) -> None:
        """Windows that tile the run, each with a file of its own: their counts add up, and the merged file has all."""
        pathlib.Path(WHOLE).unlink(missing_ok=True)
        count = len(self.reading.pcs)
        cuts = sorted({0, count, *(self.dice.randrange(count + 1) for _ in range(self.dice.randrange(4)))})
        pieces = list(zip(cuts, cuts[1:]))
        self.dice.shuffle(pieces)
        sums: dict[str, int] = {}
        for start, end in pieces:
            pathlib.Path(OTHER).unlink(missing_ok=True)
            status, text, _ = self.call(OTHER, [f"--cycles={start}..{end}"])
            self.same(f"the window {start}..{end}", 0, status)
            for line in text.splitlines():
                name, _, number = line.partition(" ")
                sums[name] = sums.get(name, 0) + int(number)
            self.look_at_rows(f"the window {start}..{end}", OTHER, self.reading.due(set(range(start, end))))
            merged = self.star("merge", WHOLE, OTHER)
        wanted = numbers_of(self.whole())
        self.same("windows that tile a run", {**wanted, "instructions": count * len(pieces), "window": count}, sums)
        self.same("the merged files", (0, self.whole(), ""), merged)
        before = content_of(WHOLE)
        self.same("run over the merged files", (0, self.whole(), ""), self.star("run", WHOLE))
        self.same("it has nothing left to do", before, content_of(WHOLE))

    def refusals(self) -> None:
        """Words, images and files that are refused, and leave the campaign file as it is."""
        self.call(KEEP, ["--cycles=0..1"])
        before = content_of(KEEP)
        part = ["--cycles=0..1"]
        for words in wrong_words():
            self.same(f"words: {words}", (1, "", USAGE), self.call(KEEP, words))
        for words, why in (
            ([f"--cycles={len(self.reading.pcs)}..{len(self.reading.pcs) + 1}"], f"the golden run has {len(self.reading.pcs)} instructions"),
            (["--function=missing"], "no function missing"),
            (["--function=data"], "no function data"),
            (["--function", "elsewhere"], "none that fulfils its conditions is executed"),
            (["--code", "0x70000000..0x70000100"], "none that fulfils its conditions is executed"),
        ):
            self.same(f"{words}", (10, "", f"{NOTHING}{why}\n"), self.call(KEEP, words))
        limit = [str(self.one.limit + 1) if word == str(self.one.limit) else word for word in self.regions]
        status, text, line = self.call(KEEP, part, limit)
        self.same("a file of another case", (6, "", "campaign file refused: 6 OtherCase at 21"), (status, text, line.rstrip("\n")))
        pathlib.Path("plain.elf").write_bytes(without_symbols(self.one.image))
        got = told([self.window, "plain.elf", KEEP, *self.regions, "--function=alone"])
        self.same("an image without symbols", (10, "", f"{NOTHING}the image has no functions\n"), got)
        self.same("a missing image", (2, "", "image could not be read\n"), told([self.window, "none.elf", KEEP, *self.regions, *part]))
        self.same("the file after refusals", before, content_of(KEEP))
        self.same("no file", (10, "", f"{NOTHING}no function missing\n"), self.call("none.keep", ["--function=missing"]))
        self.same("none is made", None, content_of("none.keep"))


def wrong_words() -> list[list[str]]:
    """Words that are no line."""
    part = "--cycles=0..1"
    ranges = ["", "1", "1..", "..1", "1..1", "2..1", "0...1", "0..1..2", "0.1", "0..4294967297", "-1..2", "0..0x", " 0..1", "0..1 ", "0:1"]
    found = [[f"{name}={word}"] for name in ("--cycles", "--code") for word in ranges]
    found += [[], ["--function"], ["--cycles"], [part, part], [part, "--shard=1/2"], [part, "--fresh"], [part, "--format=csv"]]
    return [*found, [part, "--page=0"], [part, "--workers=65"], [part, "more"], ["--funct=main"], [part, "--function=x", "--function=x"]]


def without_symbols(image: bytes) -> bytes:
    """The same image without section headers."""
    content = bytearray(image)
    content[32:36], content[46:52] = bytes(4), bytes(6)
    return bytes(content)


def told(words: Sequence[str]) -> Told:
    """The status and the texts of a call."""
    done = subprocess.run(words, stdin=subprocess.DEVNULL, capture_output=True, timeout=100)
    return done.returncode, done.stdout.decode("ascii", "replace"), done.stderr.decode("ascii", "replace")


def content_of(path: str) -> bytes | None:
    """The bytes of a file, if there is one."""
    return pathlib.Path(path).read_bytes() if os.path.exists(path) else None


def numbers_of(text: str) -> dict[str, int]:
    """The numbers of a report."""
    return {name: int(number) for name, _, number in (line.partition(" ") for line in text.splitlines())}


def judged(window: str, program: str, number: int, one: generate.Program) -> tuple[int, int]:
    """How many comparisons of a program passed, and how many failed."""
    memory = "/dev/shm"
    with tempfile.TemporaryDirectory(dir=memory if os.access(memory, os.W_OK | os.X_OK) else None) as folder:
        os.chdir(folder)
        pathlib.Path(IMAGE).write_bytes(one.image)
        refused = told([program, "plan", IMAGE, *one.words(IMAGE, "plan")[2:]])
        if refused[0] != 0:
            got = told([window, IMAGE, KEEP, *one.words(IMAGE, "plan")[2:], "--cycles=0..1"])
            os.chdir("/")
            if got != refused:
                print(f"failed: {one.name}\n  wanted {refused}\n  got    {got}", flush=True)
            return int(got == refused), int(got != refused)
        judge = Judge(window, program, one, random.Random(SEED + number))
        judge.parts()
        judge.tiles()
        if number % 10 == 0:
            judge.refusals()
        os.chdir("/")
    return judge.passed, judge.failures


def main(window: str, program: str) -> int:
    """The exit status."""
    all_programs = programs(random.Random(SEED))
    with concurrent.futures.ProcessPoolExecutor() as pool:
        found = [pool.submit(judged, window, program, number, one) for number, one in enumerate(all_programs)]
        results = [one.result() for one in found]
    failed = sum(result[1] for result in results)
    print(f"{sum(result[0] for result in results)} passed, {failed} failed")
    return 1 if failed else 0


if __name__ == "__main__":
    sys.exit(main(*[os.path.abspath(word) for word in sys.argv[1:3]]))
