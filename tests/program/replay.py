"""Compares what fail_replay writes with a second reading (replayed.py), for sites that a fixed seed draws and in all
three views; with the campaign, for each job of the examples; and, for short programs, with texts that were worked
out by hand.

replay.py PROGRAM REPLAY
"""

from __future__ import annotations

import collections
import dataclasses
import itertools
import os
import pathlib
import random
import subprocess
import sys
import tempfile
from collections.abc import Iterable, Iterator, Sequence

import code_in_ram
import generate
import known
import reference
import replayed
import short_programs
from machine import Site

BUILT = pathlib.Path(__file__).resolve().parents[2] / "examples/built"
SEED, SITES, MOST_IN_A_CALL = 20261128, 500, 4
# The share of the sites that are drawn of examples, and of these the ones that a long example has.
OF_EXAMPLES, OF_LONG = 0.4, 4
LONG = "control_twice"
TOO_LONG = ("loader", "loader_both")  # of millions of instructions
AT_ONCE = 6000  # the sites of one call: some hundred thousand bytes of words
VIEWS = (None, *replayed.VIEWS)


class Judge:
    """Counts what is compared."""

    def __init__(self, program: str, replay: str) -> None:
        self.program, self.replay, self.passed, self.failed = program, replay, 0, 0

    def same(self, name: str, wanted: object, got: object) -> None:
        if got == wanted:
            self.passed += 1
        else:
            self.failed += 1
            print(f"differs: {name}\n  wanted {shortened(wanted)}\n  got    {shortened(got)}", flush=True)


def shortened(value: object) -> str:
    text = repr(value)
    return text if len(text) < 3000 else f"{text[:1500]} .. {text[-1500:]}"


def called(program: str, words: Iterable[object]) -> tuple[int, str, str]:
    """The status of a call and both texts."""
    done = subprocess.run([program, *map(str, words)], stdin=subprocess.DEVNULL, capture_output=True, timeout=300)
    return done.returncode, done.stdout.decode("ascii", "replace"), done.stderr.decode("ascii", "replace")


# --- Sites that are drawn -------------------------------------------------------------------------


@dataclasses.dataclass
class Replayed:
    """A program that halts: its image, its options, and its case with what each instruction touches."""

    name: str
    image: str
    options: list[str]
    case: reference.Case
    touches: list[dict[int, bool]]

    def site(self, dice: random.Random) -> Site:
        """A site of the case: two of three are of a cell that the next instruction reads, since most others make no difference."""
        cycle = dice.randrange(len(self.touches))
        read = sorted(cell for cell, reads in self.touches[cycle].items() if reads)
        cells = self.case.cells()
        cell = dice.choice(read) if read and dice.random() < 0.67 else dice.choice(cells)[0]
        return cycle, cell, dice.randrange(dict(cells)[cell])


def halting(name: str, image: str, options: list[str]) -> Replayed | None:
    """The program, or nothing where its run without a flip does not halt."""
    try:
        _, _, _, case = replayed.line_of([image, "0", "0", "0", *options])
        reference.load(pathlib.Path(image).read_bytes(), case)
        return Replayed(name, image, options, case, replayed.golden_of(case.key())[2])
    except replayed.Refusal:
        return None


def options_of(name: str, more: Sequence[str] = ()) -> list[str]:
    """The options of an example's campaign; the limit is some three times its instructions at least."""
    ram = "128" if name == "checksum_ram" else "256" if name.startswith("siphash") else "64"
    limit = "120000" if name == LONG else "6000"
    flags = ["--ram-code"] if name == "checksum_ram" else []
    return ["--ram", f"0x80000000:{ram}", "--limit", limit, *flags, *(flag for flag in more if flag not in flags)]


def examples() -> Iterator[Replayed]:
    """The examples, each with the pc as a cell and without, some with code in RAM as well."""
    paths = sorted(path for path in BUILT.glob("*.elf") if path.stem not in TOO_LONG)
    for number, path in enumerate(paths):
        kinds: list[tuple[str, ...]] = [()] if path.stem == LONG else [(), ("--pc",), ("--pc", "--ram-code")[number % 2 :]]
        for more in kinds:
            found = halting(f"{path.stem} {' '.join(more)}", str(path), options_of(path.stem, more))
            assert found, path
            yield found


def short_ones() -> Iterator[Replayed]:
    """The short and generated programs that halt, with the four kinds of case in turns."""
    kinds = itertools.cycle(known.kinds.KINDS)
    sources = itertools.chain(short_programs.images(), code_in_ram.programs(), generate.programs())
    for number, one in enumerate(sources):
        path = f"{number}.elf"
        pathlib.Path(path).write_bytes(one.image)
        flags = one.flags or tuple(next(kinds))
        found = halting(one.name, path, ["--rom", one.rom, "--ram", one.ram, "--limit", str(one.limit), *flags])
        if found:
            yield found


def calls(dice: random.Random) -> Iterator[tuple[Replayed, list[Site]]]:
    """Programs, each with some sites of one call."""
    long: list[Replayed] = []
    shorter: list[Replayed] = []
    for one in examples():
        (long if one.name.split()[0] == LONG else shorter).append(one)
    short, left = list(short_ones()), SITES - OF_LONG
    yield long[0], [long[0].site(dice) for _ in range(OF_LONG)]
    while left:
        one = dice.choice(shorter if dice.random() < OF_EXAMPLES else short)
        count = min(left, dice.randint(1, MOST_IN_A_CALL))
        left -= count
        yield one, [one.site(dice) for _ in range(count)]


def drawn(judge: Judge) -> None:
    """The bytes of the program for all sites that are drawn, the three views in turns."""
    found: collections.Counter[str] = collections.Counter()
    for number, (one, sites) in enumerate(calls(random.Random(SEED))):
        view = VIEWS[number % 3]
        words = [*([view] if view else []), one.image, *itertools.chain(*sites), *one.options]
        wanted = replayed.judge([str(word) for word in words])
        judge.same(f"{one.name}: {words}", wanted, called(judge.replay, words))
        found.update(line for line in wanted[1].splitlines() if line.startswith("outcome "))
    # Sites of every outcome are among them.
    judge.same("the outcomes that were drawn", sorted(f"outcome {word}" for word in reference.OUTCOMES), sorted(found))
    print(f"drawn: {', '.join(f'{line.split()[1]} {count}' for line, count in found.most_common())}")


# --- Jobs -----------------------------------------------------------------------------------------


def outcomes_by(judge: Judge, image: pathlib.Path, jobs: list[list[str]], options: list[str]) -> list[str]:
    """The lines `CYCLE,CELL,BIT,OUTCOME` that replays of jobs give, some thousand in a call."""
    lines = []
    for at in range(0, len(jobs), AT_ONCE):
        words = itertools.chain(*jobs[at : at + AT_ONCE])
        status, text, complaint = called(judge.replay, ["--brief", image, *words, *options])
        if (status, complaint) != (0, ""):
            return [f"status {status}: {complaint}"]
        sites = [line.split()[1:] for line in text.splitlines() if line.startswith("site ")]
        ends = [line.split()[1] for line in text.splitlines() if line.startswith("outcome ")]
        lines += [",".join([*site, end]) for site, end in itertools.zip_longest(sites, ends, fillvalue="-")]
    return lines


def jobs(judge: Judge) -> None:
    """Each job of each example, but for the long ones, has the outcome that its campaign found."""
    for path in sorted(BUILT.glob("*.elf")):
        if path.stem in (LONG, *TOO_LONG):
            continue
        options = options_of(path.stem, ["--pc"] if path.stem.startswith("pin") else [])
        keep = f"{path.stem}.keep"
        judge.same(f"the campaign of {path.stem}", 0, called(judge.program, ["run", path, keep, *options])[0])
        table = called(judge.program, ["report", path, keep, *options, "--format", "csv"])[1].splitlines()[1:]
        rows = [line.split(",") for line in table]
        judge.same(f"{path.stem} has jobs", True, len(rows) > 100)
        got = outcomes_by(judge, path, [row[:3] for row in rows], options)
        wrong = [pair for pair in itertools.zip_longest((",".join(row[:3] + row[4:]) for row in rows), got) if pair[0] != pair[1]]
        judge.same(f"the jobs of {path.stem}, each with its outcome", [], wrong[:9])


# --- Texts that were worked out by hand -----------------------------------------------------------

# Of each: the program, the words behind its image, and the text. Instructions stand at 0x20000000, 4 bytes each.
BIT_SENT = """\
site 2 2 1
2 20000008 00208023
3 2000000c 0000a423
differs pc - registers 2 output 3
output 43
end halted 0
outcome silent
"""
# Bit 3 of the port's address: the store of the byte halts.
HALTS_EARLY = """\
site 2 1 3
0 20000000 f00000b7
1 20000004 04100113
2 20000008 00208023
differs pc - registers 2 output -
output -
end halted 65
outcome silent
"""
DETECTED = """\
site 2 1 2
differs pc - registers 2 output -
output -
end detected
outcome detected
"""
# Nothing reads x5, and bit 9 of x2 is not sent.
DEAD = """\
site 3 5 31
3 2000000c 0000a423
differs pc - registers 3 output -
output 41
end halted 0
outcome no-effect
site 2 2 9
2 20000008 00208023
3 2000000c 0000a423
differs pc - registers 2 output -
output 41
end halted 0
outcome no-effect
"""
# One turn more: 3, 2, 1 in place of 2, 1. The golden run has seven instructions, and stands at the last one then.
ONE_TURN_MORE = """\
site 1 2 0
1 20000004 fff10113
2 20000008 fe011ee3
3 20000004 fff10113
4 20000008 fe011ee3
5 20000004 fff10113
6 20000008 fe011ee3
"""
IN_TIME = "7 2000000c f00000b7\n8 20000010 0000a423\ndiffers pc 5 registers 1 output -\noutput -\nend halted 0\noutcome no-effect\n"
TOO_LATE = "differs pc 5 registers 1 output -\noutput -\nend limit\noutcome timeout\n"
# The store sends in place of the end, and the run goes on to a word of zeros, where the golden run has ended.
GOES_ON = """\
site 2 1 3
2 20000008 0000a023
3 2000000c 00000000
differs pc 3 registers 2 output 3
output 00
end trapped
outcome illegal
"""
NOWHERE = """\
site 0 0 31
0 a0000000 --------
differs pc 0 registers - output -
output -
end trapped
outcome address
"""
# From the store back to the first instruction, which the golden run took before.
BACK = """\
site 1 0 2
0 20000000 f00000b7
1 20000000 f00000b7
2 20000004 0000a423
differs pc 1 registers - output -
output -
end halted 0
outcome no-effect
"""
# A bit of the word that runs: it stores x1 in place of x0.
IN_CODE = """\
site 1 38 4
1 80000004 0010a423
differs pc - registers - output -
output -
end halted 4026531840
outcome silent
"""
CROOKED = """\
site 1 1 0
differs pc - registers 1 output -
output -
end trapped
outcome misaligned
"""


def by_hand() -> Iterator[tuple[bytes, str | None, str, str, str]]:
    """An image, the view or none, the words of the sites, the options behind the regions, and the text."""
    send, loop, halt = known.image(known.SEND), known.image(known.LOOP), known.image(known.HALT)
    yield send, None, "2 2 1", "--limit 100", BIT_SENT
    yield send, None, "0x2 0X2 00000000000000000001", "--limit=100 --", BIT_SENT
    yield send, "--whole", "2 1 3", "--limit 100", HALTS_EARLY
    yield send, "--brief", "2 1 2", "--limit 100 --pc", DETECTED
    yield send, None, "3 5 31 2 2 9", "--limit 0x64", DEAD
    yield send, None, "2 2 1 2 2 1", "", BIT_SENT + BIT_SENT
    yield loop, None, "1 2 0", "--limit 9", ONE_TURN_MORE + IN_TIME
    yield loop, None, "1 2 0", "--limit 8", ONE_TURN_MORE + "7 2000000c f00000b7\n" + TOO_LATE
    yield loop, None, "1 2 0", "--limit 7", ONE_TURN_MORE + TOO_LATE
    yield known.image(known.ADDED), None, "2 1 3", "--limit 100", GOES_ON
    yield halt, None, "0 0 31", "--pc", NOWHERE
    yield halt, "--whole", "1 0 2", "--pc --limit 3 --", BACK
    yield known.in_ram(known.HALT), None, "1 38 4", "--ram-code --limit 2", IN_CODE
    yield halt, "--brief", "1 1 0", "--ram-code --limit 2", CROOKED


def worked_out(judge: Judge) -> None:
    """The texts that were worked out by hand, of the program and of the second reading."""
    for number, (content, view, sites, options, text) in enumerate(by_hand()):
        pathlib.Path("hand.elf").write_bytes(content)
        words = [*([view] if view else []), "hand.elf", *sites.split(), *known.REGIONS[:4], *options.split()]
        judge.same(f"text {number} by the second reading", (0, text, ""), replayed.judge(words))
        judge.same(f"text {number}", (0, text, ""), called(judge.replay, words))


def main() -> int:
    judge = Judge(os.path.abspath(sys.argv[1]), os.path.abspath(sys.argv[2]))
    with tempfile.TemporaryDirectory() as folder:
        os.chdir(folder)
        worked_out(judge)
        drawn(judge)
        jobs(judge)
        os.chdir("/")
    print(f"{judge.passed} passed, {judge.failed} failed")
    return 1 if judge.failed else 0


if __name__ == "__main__":
    sys.exit(main())
