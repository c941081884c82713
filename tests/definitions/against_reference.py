"""Runs the program and the reference on the same images, campaign files and lines, and compares what both write, how
both end, and the campaign file that both leave. It also checks that the table of the program's own tests has the
reference's counts of the programs in short_programs.py.

against_reference.py PROGRAM
"""

from __future__ import annotations

import collections
import concurrent.futures
import csv
import dataclasses
import itertools
import json
import os
import pathlib
import random
import subprocess
import sys
import tempfile
from collections.abc import Iterable, Iterator, Sequence

import arithmetic
import code_in_ram
import command_words
import generate
import headers
import keep_files
import reference
import short_programs

TABLE = pathlib.Path(__file__).resolve().parents[2] / "crates/test_programs/src/counted.rt"
REGIONS = ["--rom", "0x20000000:64", "--ram", "0x80000000:16", "--limit"]
# What is written of an image and its campaign file. The first makes the file that the others report.
LAYOUTS = [(command, layout) for command, (files, _, layouts) in command_words.COMMANDS.items() if files in (1, 2) for layout in layouts]
IMAGE, KEEP = "case.elf", "case.keep"
# The four kinds of case: the pc is a cell or not, and code may stand in RAM or not.
KINDS = ((), ("--pc",), ("--ram-code",), ("--pc", "--ram-code"))

NONE: list[str] = []  # no words
Told = tuple[int, str, str]  # a status and the texts on standard output and standard error


def lines(image: str) -> Iterator[list[str]]:
    """Lines of words around the rules for numbers, regions and names; the image is a good one."""
    good = ["run", image, KEEP, *REGIONS, "60"]
    yield good
    for number in (
        "0", "1", "2", "00000000000000000060", "000000000000000000060", "16777216", "16777217", "4294967296", "4294967356",
        "18446744073709551615", "18446744073709551616", "18446744073709551676", "99999999999999999999", "0x3c", "0X3C", "0x3g",
        "0x", "0X", "x3c", "0x000000000000003c", "0x0000000000000003c", "0x1000000", "0x1000001", "0xffffffffffffffff",
        "", " 60", "60 ", "+60", "-60", "6_0", "60.", "6 0", "0b11", "0x0x3c", "６０", "0x-3c", "60\n",
    ):
        yield good[:-1] + [number]
    for rom in (
        "", ":", "0x20000000", "0x20000000:", ":64", "0x20000000:64:", "0x20000000:64:0", "0x20000000 :64", "0x20000000: 64",
        "0x20000001:64", "0x20000002:64", "0x20000000:62", "0x20000000:65", "0x20000000:0", "0x20000000:4", "0x20000000:8",
        "0x20000000:262144", "0x20000000:262148", "0x100000000:64", "0x20000000:4294967296", "0x20000000:4294967300",
        "4294967296:64", "0xFFFFFFC0:64", "0xFFFFFFC0:68", "0xFFFFFFFC:8", "0xFFFFFFFC:4", "0x7FFFFFF0:16", "0x7FFFFFF0:20",
        "0x8000000C:4", "0x80000010:64", "0xEFFFFFFC:4", "0xEFFFFFFC:8", "0xF0000FFC:4", "0xF0001000:4", "0xF0000800:64",
        "536870912:64", "00000000000536870912:64", "0X20000000:0X40", "0x0000000020000000:64", "0x00000000020000000:64",
    ):
        yield good[:4] + [rom] + good[5:]
    for ram in (
        "0x80000000:4", "0x80000000:65536", "0x80000000:65540", "0x80000000:262144", "0x1FFFFFFC:4", "0x1FFFFFFC:8",
        "0x20000040:16", "0x2000003C:16", "0x20000000:64", "0xFFFFFFF0:16", "0xFFFFFFF0:20", "0xEFFF0000:65536",
        "0xEFFF0004:65536", "0xF0001000:16", "0xF0000FFC:16", "0x80000000:0", "0x80000001:16", "0x80000000:14", "0xF0000FF0:32",
    ):
        yield good[:6] + [ram] + good[7:]
    yield from (
        NONE, [""], ["run"], ["run", image], ["Run", *good[1:]], ["", *good[1:]], ["frobnicate", *good[1:]],
        [*good[:1], "-" + image, *good[2:]], [*good[:2], "-", *good[3:]], [*good[:2], "--rom", *good[3:]],
        [*good[:2], "", *good[3:]], [*good, "more"], [*good, "--nonsense", "1"], good[1:], ["--help"], ["-h"], ["--version"],
    )
    yield from (good[:3] + words for words in option_words())
    yield from command_lines(image)


def option_words() -> Iterator[list[str]]:
    """Words behind the names of the files: options in any order, in both spellings, missing, twice, and words that are none."""
    rom, ram, limit = "0x20000000:64", "0x80000000:16", "60"
    pairs = [["--rom", rom], ["--ram", ram], ["--limit", limit], ["--format", "text"]]
    joined = [["=".join(pair)] for pair in pairs]
    for order in itertools.permutations(range(4)):
        yield [word for place in order for word in (joined if place == order[0] else pairs)[place]]
    for missing in ({0}, {2}, {3}, {0, 2, 3}):
        yield [word for place in range(4) if place not in missing for word in pairs[place]]
    yield []
    good = pairs[0] + pairs[1] + pairs[2]
    for number in range(4):
        for more in (pairs[number], joined[number]):
            yield [*good, *more]
            yield [*more, *more, "--ram", ram] if number != 1 else [*more, *more]
    for name, values in (
        ("--workers", ("0", "1", "4", "64", "65", "0x40", "-1", "", "4294967297", "four")),
        ("--page", ("0", "1", "65535", "65536", "0xFFFF", "-1", "", "4294967297")),
        ("--stop-after", ("0", "1", "31", "32", "0x7FFFFFFF", "2147483648", "4294967296", "-1", "", "all")),
        ("--shard", (
            "1/1", "1/2", "2/2", "3/2", "0/2", "1/0", "0/0", "65535/65535", "1/65536", "00000000000000000001/2", "000000000000000000001/2",
            "1/18446744073709551617", "1", "1/", "/2", "/", "1/2/2", "1//2", "0x1/2", "1/0x2", " 1/2", "1 /2", "1/2 ", "+1/2", "1/-2", "-1/2", "1.0/2", "",
        )),
    ):
        yield from ([*good, *words] for value in values for words in ([name, value], [f"{name}={value}"]))
        yield from ([*good, name], [name, *good], [*good, name, "7", name, "7"], [name, "7", *good, f"{name}=7"])
    kept = [["--workers", "2"], ["--page=7"], ["--stop-after", "9"], ["--fresh"], ["--format=json"]]
    yield from ([*itertools.chain.from_iterable(order), *good] for order in itertools.permutations(kept, 3))
    flags = ["--pc"], ["--ram-code"], ["--fresh"]
    yield from ([*itertools.chain.from_iterable(order), *good] for count in (1, 2, 3) for order in itertools.permutations(flags, count))
    yield from ([*pairs[0], "--ram-code", *pairs[1], "--pc", *pairs[2]], [*good, "--pc", "--page", "3", "--ram-code", "--"])
    yield from ([*good, flag, *order] for flag in ("--pc", "--ram-code") for order in ([flag], ["--pc", "--ram-code"]))
    for count in range(6):
        yield from ([*good, *itertools.chain.from_iterable(kept[:count]), *last] for last in (NONE, ["--fresh"], ["--"]))
    for value in ("json", "csv", "xml", "Text", "text ", "", "-", "te"):
        yield [*good, "--format", value]
        yield [*good, "--format=" + value]
    for last in (
        ["--"], ["--", ""], ["--", "--"], ["--", "more"], ["--", "--format", "text"], ["-"], [""], ["---"], ["--=60"], ["--="], ["="],
        ["--help"], ["-h"], ["--version"], ["-V"], ["help"], ["-help"], ["--fresh"], ["--fresh=true"], ["--workers", "4"],
        ["--pc="], ["--pc=true"], ["--pc", "true"], ["--ram-code="], ["--ram-code", "1"], ["--ram_code"], ["--ramcode"], ["--PC"],
        ["-pc"], ["--p"], ["--ram-"], ["pc"], ["--pc-cell"],
        ["--page", "1"], ["--stop-after", "0"], ["--seed", "0"], ["--blocks", "1"], ["--forma", "text"], ["--f", "text"],
        ["-f", "text"], ["--Format", "text"], ["--format", "--"], ["--format", "--", "text"], ["--format", "-text"],
        ["--format=-text"], ["--format==text"], ["--format"], ["--format="], ["-format", "text"], ["format", "text"],
        ["--format ", "text"], ["--format text"], ["--FORMAT=text"], ["---format", "text"],
    ):
        yield [*good, *last]
        yield [*last, *good]
    for value in ("-", "--", "-60", "=60", "", "--rom", "-1"):
        yield [*pairs[0], *pairs[1], "--limit", value]
        yield [*pairs[0], *pairs[1], "--limit=" + value]
        yield [*pairs[0], "--limit", value, *pairs[1]]
        yield [*pairs[2], *pairs[1], "--rom", value]
        yield [*pairs[2], *pairs[1], "--rom=" + value]


def command_lines(image: str) -> Iterator[list[str]]:
    """Lines of the commands that name an image alone, and formats that a command has or has not."""
    for command, formats in (("brute", ("text", "json", "csv")), ("trace", ("text", "json")), ("plan", ("text", "csv", "json"))):
        good = [command, image, *REGIONS, "60"]
        yield good
        for word in formats:
            yield [*good, "--format", word]
            yield [command, image, f"--format={word}", *REGIONS, "60"]
        yield from ([command], [command, "-" + image], [command, "--rom"], [command, image, KEEP, *REGIONS, "60"])
        yield from ([*good, "--limit", "60"], [*good, "--"], [*good, "--", "60"], [*good, "--fresh"], [*good, "more"], good[:-1])
        yield from ([*good[:-1], "0"], [*good[:-1], "16777217"], [*good[:-1], "1"], [command, "missing.elf", *REGIONS, "60"])
        yield from ([*good, *flags] for flags in KINDS[1:])
        yield from ([command, image, *flags, *REGIONS, "60"] for flags in (["--ram-code", "--pc"], ["--ram-code=", "--pc"]))
        yield [command, image, *(word for pair in (REGIONS[2:4], ["--limit=0x3c"], REGIONS[:2]) for word in pair)]
    layouts = (["--format", word] for word in ("text", "json", "csv", "xml"))
    for last in (NONE, *layouts, ["--page", "7"], ["--stop-after=0"], ["--workers=1"], ["--fresh"], *KINDS[1:]):
        yield ["report", image, KEEP, *REGIONS, "60", *last]
        yield ["report", image, KEEP, *last, *REGIONS[2:], "0x3c", *REGIONS[:2]]
    for name in (NONE, ["-"], ["--"], [KEEP, KEEP], ["-" + KEEP], [""]):
        yield ["report", image, *name, *REGIONS, "60"]
    yield from ([command, "missing.elf", KEEP, *REGIONS, "60"] for command in ("run", "report", "audit", "symbols"))
    yield from ([command, image, "missing/" + KEEP, *REGIONS, "60"] for command in ("run", "report", "audit", "symbols"))
    yield from ([command, image, *REGIONS, "60"] for command in ("report", "audit", "demo", "merge", "runs", "brut", "Plan", "trace "))
    yield from ([command, image, KEEP, *REGIONS, "60"] for command in ("audit", "demo", "merge", "reports", "Report", "runs", "Run"))
    yield from (["demo", *words] for words in (NONE, ["--blocks=1"], ["--seed", "7"], ["--seed=0xffffffffffffffff", "--blocks", "20"]))
    yield from (["demo", *words] for words in (["--blocks", "0"], ["--blocks=1025"], ["--seed=18446744073709551616"], ["--seed", "-1"]))
    yield from (["demo", *words] for words in (["--pc"], ["--blocks", "1", "--ram-code"]))
    yield from ([command, image, KEEP, *REGIONS, "60", *flags] for command in ("audit", "symbols") for flags in KINDS)
    yield from (["symbols", image, KEEP, *REGIONS, "60", *last] for last in (["--format", "text"], ["--page", "7"], ["--shard", "1/2"], ["more"]))
    yield from ([command, image, KEEP, *REGIONS, "60", "--shard", "1/2"] for command in ("report", "audit", "merge"))
    # The other file of a merge is missing, or is none.
    for other in ("missing.keep", ".", image):
        yield from (["merge", image, KEEP, other, *REGIONS, "60", *last] for last in (NONE, ["--format", "json"], ["--page=7"], ["--format", "csv"]))
    yield from (["merge", image, KEEP, other, *REGIONS, "60"] for other in ("-", "--", "-" + KEEP, "--limit"))
    yield from (["merge", *files, *REGIONS, "60"] for files in (NONE, [image], [image, "missing/" + KEEP, image], ["missing.elf", KEEP, KEEP]))
    yield from sample_words(image)


def sample_words(image: str) -> Iterator[list[str]]:
    """Lines of samples."""
    good = ["sample", image, *REGIONS, "60"]
    for flags in (NONE, ["--live"], *KINDS[1:]):
        yield from ([*good, *flags, "--count", count, "--seed", seed] for count in ("1", "20") for seed in ("0", "42", "0xffffffffffffffff"))
    yield from ([*good, "--count", count] for count in ("0", "1000001", "-1", "", "five"))
    yield from ([*good, *last] for last in (["--seed", "18446744073709551616"], ["--live=1"], ["--live", "--live"], ["--blocks", "1"], ["--count"]))
    yield from ([*good, *last] for last in (["--format", "text"], ["--fresh"], ["--page", "1"], ["--workers", "1"], ["more"], ["--live", "--"]))
    yield from (["sample"], ["sample", "missing.elf"], ["sample", "-" + image], ["sample", image, KEEP], [*good[:-1], "1"])


def written(program: str, words: Sequence[str]) -> Told:
    done = subprocess.run([program, *words], stdin=subprocess.DEVNULL, capture_output=True, timeout=100)
    return done.returncode, done.stdout.decode("ascii", "replace"), done.stderr.decode("ascii", "replace")


def leave(content: bytes | None) -> None:
    """Makes the campaign file have this content, or none at all."""
    if content is None:
        pathlib.Path(KEEP).unlink(missing_ok=True)
    else:
        pathlib.Path(KEEP).write_bytes(content)


def left() -> tuple[bytes | None, list[str]]:
    """What a command left: the content of the campaign file, if there is one, and the names of other files."""
    names = set(os.listdir())
    return pathlib.Path(KEEP).read_bytes() if KEEP in names else None, sorted(names - {IMAGE, KEEP})


class Judge:
    """Gives lines of words to the program and to the reference, and counts."""

    def __init__(self, program: str) -> None:
        self.program, self.count = program, 0
        self.failures: list[str] = []
        self.statuses: collections.Counter[int] = collections.Counter()

    def fail(self, name: str, text: str) -> None:
        self.failures.append(name)
        print(f"differs: {name}: {text}", flush=True)

    def compare(self, name: str, words: list[str], before: bytes | None = None) -> tuple[int, str, bytes | None]:
        """One line of words to both, each over a campaign file of this content, or none; the status, the text and the file."""
        leave(before)
        got = *written(self.program, words), *left()
        leave(before)
        wanted = *reference.judge(words), *left()
        if got != wanted:
            self.fail(name, f"{words} over {before!r}\n  program   {got}\n  reference {wanted}")
        self.statuses[wanted[0]] += 1
        self.count += 1
        return wanted[0], got[1], got[3]

    def all_commands(self, one: generate.Program) -> tuple[str | None, bytes | None]:
        """All commands on a program. A report is of the file that the first run left."""
        pathlib.Path(IMAGE).write_bytes(one.image)
        outputs, keep = {}, None
        for command, layout in LAYOUTS:
            more = () if layout == "text" else ("--format", layout)
            words = one.words(IMAGE, command, *more)
            status, text, after = self.compare(f"{one.name}, {command} as {layout}", words, keep if command in ("report", "symbols") else None)
            if status == 0:
                outputs[command, layout] = text
                keep = after if command == "run" else keep
        if len(outputs) == len(LAYOUTS):
            self.count += 1
            if not sums(outputs):
                self.fail(one.name, "its texts do not agree")
            return outputs["run", "text"], keep
        return None, None

    def stops(self, one: generate.Program, whole: str | None) -> None:
        """A campaign that is stopped twice, with pages of any size, and taken up again, prints what a whole one does."""
        dice, keep = random.Random(one.name), None
        for number in range(2):
            most, page = dice.choice([0, 1, 7, 20, 40]), dice.randrange(1, 30)
            words = one.words(IMAGE, "run", "--stop-after", str(most), "--page", str(page))
            _, _, keep = self.compare(f"{one.name}, stopped {number}", words, keep)
            self.compare(f"{one.name}, stopped {number}, its report", one.words(IMAGE, "report", "--format", "csv"), keep)
            self.compare(f"{one.name}, stopped {number}, its audit", one.words(IMAGE, "audit"), keep)
        words = one.words(IMAGE, "run", "--page", str(dice.randrange(1, 30)))
        for name, more in (("taken up", ()), ("begun anew", ("--fresh",))):
            _, text, _ = self.compare(f"{one.name}, {name}", [*words, *more], keep)
            self.count += 1
            if text != whole:
                self.fail(f"{one.name}, {name}", "its report is not that of a whole run")

    def keep_files(self) -> None:
        """Campaign files of every kind, for the case of one image."""
        pathlib.Path(IMAGE).write_bytes(headers.base())
        words = [IMAGE, KEEP, *REGIONS, "60"]
        for number, (name, content) in enumerate(keep_files.files()):
            layout = ("text", "json", "csv")[number % 3]
            status, _, _ = self.compare(f"report, {name}", ["report", *words, "--format", layout], content)
            self.compare(f"audit, {name}", ["audit", *words], content)
            if status != 6 or number % 8 == 0:
                self.compare(f"run, {name}", ["run", *words, "--page", "5"], content)
                self.compare(f"run, stopped, {name}", ["run", *words, "--page", "5", "--stop-after", str(number % 13)], content)
            if number % 8 == 0:
                self.compare(f"run, begun anew, {name}", ["run", *words, "--fresh", "--page", "31"], content)


def sums(outputs: dict[tuple[str, str], str]) -> bool:
    """Whether the numbers of one program's texts agree, as other readers of JSON and CSV find them."""
    numbers = json.loads(outputs["brute", "json"])
    text = dict(line.rsplit(" ", 1) for line in outputs["run", "text"].splitlines())
    plan = dict(line.split(" ") for line in outputs["plan", "text"].splitlines())
    rows = list(csv.DictReader(outputs["plan", "csv"].splitlines()))
    kept = list(csv.DictReader(outputs["report", "csv"].splitlines()))
    weights = [int(row["weight"]) for row in rows]
    names = [(int(row["cycle"]), int(row["cell"]), int(row["bit"])) for row in rows]
    totals = dict.fromkeys(reference.OUTCOMES, 0) | {"no-effect": int(plan["dead"])}
    for row in kept:
        totals[row.pop("outcome")] += int(row["weight"])
    return (
        json.loads(outputs["run", "json"]) == numbers
        and (outputs["report", "text"], outputs["report", "json"]) == (outputs["run", "text"], outputs["run", "json"])
        and outputs["symbols", "text"].splitlines()[4:] == outputs["run", "text"].splitlines()
        and {name.replace("-", "_"): int(value) for name, value in text.items()} == numbers
        and sum(numbers[name.replace("-", "_")] for name in reference.OUTCOMES) == numbers["sites"]
        and len(outputs["trace", "text"].splitlines()) == numbers["instructions"] + 2
        and (len(rows), sum(weights)) == (int(plan["jobs"]), int(plan["live"]))
        and int(plan["live"]) + int(plan["dead"]) == int(plan["sites"]) == numbers["sites"]
        and names == sorted(set(names))
        and all(0 < weight <= cycle + 1 for weight, (cycle, _, _) in zip(weights, names))
        and kept == rows
        and all(totals[name] == numbers[name.replace("-", "_")] for name in reference.OUTCOMES)
    )


def in_turns(programs: Iterable[generate.Program]) -> Iterator[generate.Program]:
    """The programs with the four kinds of case in turns."""
    for one, flags in zip(programs, itertools.cycle(KINDS)):
        yield dataclasses.replace(one, flags=flags)


def whole_and_stopped(judge: Judge, programs: Iterable[generate.Program]) -> None:
    for one in programs:
        whole, keep = judge.all_commands(one)
        if keep:
            judge.stops(one, whole)


def programs(judge: Judge) -> None:
    for family in (generate.programs(), short_programs.images(), arithmetic.programs()):
        whole_and_stopped(judge, in_turns(family))


def programs_in_ram(judge: Judge) -> None:
    whole_and_stopped(judge, code_in_ram.programs())


def one_word_programs(judge: Judge) -> None:
    for one in in_turns(generate.one_word_programs()):
        judge.all_commands(one)


def images_and_lines(judge: Judge) -> None:
    for name, content in headers.images():
        pathlib.Path(IMAGE).write_bytes(content)
        judge.compare(name, ["run", IMAGE, KEEP, *REGIONS, "60"])
        if "e_sh" in name:
            judge.compare(f"symbols, {name}", ["symbols", IMAGE, KEEP, *REGIONS, "60"])
    pathlib.Path(IMAGE).write_bytes(headers.base())
    for words in lines(IMAGE):
        judge.compare("line", words)


PARTS = (programs, programs_in_ram, one_word_programs, images_and_lines, Judge.keep_files)


def judged(program: str, part: int) -> Judge:
    """What one part of the tests gives, in a folder of its own."""
    judge = Judge(program)
    # Thousands of campaign files: where the system has a disk in memory nothing waits for them.
    memory = "/dev/shm"
    with tempfile.TemporaryDirectory(dir=memory if os.access(memory, os.W_OK | os.X_OK) else None) as folder:
        os.chdir(folder)
        PARTS[part](judge)
        os.chdir("/")
    return judge


def table_is_current() -> bool:
    """Whether the table of the program's own tests has the reference's numbers."""
    text = TABLE.read_text()
    return short_programs.numbers(text[text.index("= [") :].splitlines()) == short_programs.numbers(short_programs.rows())


def main() -> int:
    program = os.path.abspath(sys.argv[1])
    with concurrent.futures.ProcessPoolExecutor() as pool:
        current = pool.submit(table_is_current)
        parts = [pool.submit(judged, program, part) for part in range(len(PARTS))]
        judges = [part.result() for part in parts]
    failed = sum(len(judge.failures) for judge in judges)
    if not current.result():
        failed += 1
        print(f"differs: {TABLE}: other numbers than the reference gives")
    statuses: collections.Counter[int] = sum((judge.statuses for judge in judges), collections.Counter())
    print("cases by status:", ", ".join(f"{status}: {statuses[status]}" for status in sorted(statuses)))
    print(f"{sum(judge.count for judge in judges) + 1 - failed} passed, {failed} failed")
    return 1 if failed else 0


if __name__ == "__main__":
    sys.exit(main())
