"""Campaigns of generated loops that a flip makes long: each file must be that of runs by themselves.

loops.py PROGRAM [COUNT [BEFORE]]

The loops count in a byte, a halfword or a word of RAM or in a register, up or down, past the ends of signed and of
unsigned numbers, with stores to moving addresses, output, inner loops and code that changes itself. The limits are
one below, at and one above the end of a loop whose counter a flip made larger by a power of two. Expected are the
verdict of `audit`, which runs each job by itself, the same file by 1, 2 and 4 workers, and, where a build BEFORE is
given, its file and output.
"""

from __future__ import annotations

import os
import pathlib
import random
import subprocess
import sys
import tempfile
import time

import assembler as a
import machine
import reference
from short_programs import words_of

COUNT = 60  # the programs of a run of the tests
SECONDS = 100  # no program is begun after this time, unless a number is given
IN_RAM = 256  # the bytes in front of the data of a program that runs from RAM
DATA = 64  # the bytes of data
ROUNDS = 5  # at most, of the golden run
SEARCHED, LONGEST = 17_000, 60_000  # the fewest and the most steps that a flip adds
WIDTHS = {"b": 8, "h": 16, "w": 32}
Case = tuple[bytes, list[str]]


class Loop:
    """The text of a loop, with all that is chosen for it."""

    def __init__(self, dice: random.Random, in_ram: bool) -> None:
        self.dice, self.in_ram = dice, in_ram
        self.at = IN_RAM if in_ram else 0
        self.width = dice.choice("bhwr")
        self.bits = WIDTHS.get(self.width, 32)
        self.place = dice.randrange(0, 16, max(1, self.bits // 8)) if self.width != "r" else 0
        self.step = dice.choice([1, 1, 1, -1, -1, 2, 4, -8, 3, dice.randint(-100, 100) or 1])
        self.unsigned = dice.random() < 0.5
        self.body = [dice.choice(self.pieces()) for _ in range(dice.randint(0, 4))]
        self.test = self.a_test()

    def load(self) -> str:
        if self.width == "r":
            return "addi x2,x20,0"
        sign = "u" if self.unsigned and self.width != "w" else ""
        return f"l{self.width}{sign} x2,{self.at + self.place}(x3)"

    def store(self) -> str:
        return "addi x20,x2,0" if self.width == "r" else f"s{self.width} x2,{self.at + self.place}(x3)"

    def pieces(self) -> list[str]:
        """What a round may do beside counting; `{n}` makes labels differ."""
        at, dice = self.at, self.dice
        other = dice.choice(["lb", "lbu", "lh", "lhu", "lw"])
        offset = at + dice.randrange(0, 16, {"b": 1, "h": 2, "w": 4}[other[1]])
        narrow = dice.choice("bhw")
        fixed = at + dice.randrange(0, 32, {"b": 1, "h": 2, "w": 4}[narrow])
        pieces = [
            "add x6,x6,x2",
            "xor x7,x7,x6",
            "slli x6,x2,3",
            "mul x7,x6,x2",
            "sltu x7,x6,x2",
            "sb x2,0(x1)",
            "lui x12,0x20000; lw x13,4(x12); add x6,x6,x13",
            f"{other} x11,{offset}(x3); add x6,x6,x11",
            f"s{narrow} x6,{fixed}(x3)",
            f"andi x8,x2,7; add x8,x8,x3; sb x6,{at + 32}(x8)",
            f"andi x8,x2,3; slli x8,x8,2; add x8,x8,x3; sw x2,{at + 40}(x8)",
            f"addi x9,x9,1; sb x6,{at + 44}(x9)",
            f"lw x10,{at + 24}(x3); addi x10,x10,{dice.choice([1, -1, 5])}; sw x10,{at + 24}(x3)",
            "addi x14,x0,3; inner{n}: addi x14,x14,-1; bne x14,x0,inner{n}",
            f"sw x0,{at + 28}(x3); in{{n}}: lw x15,{at + 28}(x3); addi x15,x15,1; sw x15,{at + 28}(x3); "
            "slti x16,x15,3; bne x16,x0,in{n}",
        ]
        if self.in_ram:
            changed = "addi x16,x0,0; add x6,x6,x16"
            pieces += [f"auipc x18,0; lw x17,20(x18); lui x19,0x100; add x17,x17,x19; sw x17,20(x18); {changed}"] * 3
        return pieces

    def a_test(self) -> str:
        """The name of the branch that goes on."""
        if self.dice.random() < 0.4 or self.bits < 32 and not self.unsigned:
            return "bne"
        return self.dice.choice(["bltu", "bne"]) if self.unsigned else self.dice.choice(["blt", "bne"])

    def edge(self) -> int:
        """The value of the counter at which the loop ends: near the ends of its numbers, or anywhere."""
        top = 1 << self.bits
        half = top >> 1
        return self.dice.choice([0, half, half - 1, top - 1, 1, self.dice.randrange(top)])

    def text(self, rounds: int, end: int) -> str:
        """The program whose golden run takes this number of rounds."""
        top = 1 << self.bits
        first = (end - rounds * self.step) % top
        signed = self.width != "w" and self.width != "r" and not self.unsigned
        stop = end - top if signed and end >= top >> 1 else end
        lines = ["lui x1,0xF0000", "lui x3,0x80000", *constant(2, first), *constant(4, stop & 0xFFFFFFFF)]
        lines += ["addi x9,x3,0", self.store()]
        lines += ["loop: " + self.load(), f"addi x2,x2,{self.step}", self.store()]
        lines += [piece.replace("{n}", str(n)) for n, piece in enumerate(self.body)]
        one, other = ("x2", "x4") if self.step > 0 else ("x4", "x2")
        lines += [self.load(), f"{self.test} {one},{other},loop", "sb x6,0(x1)", "sw x2,8(x1)"]
        return "; ".join(lines)


def constant(register: int, value: int) -> list[str]:
    """LUI and ADDI that put a value into a register."""
    low = (value & 0xFFF) - (0x1000 if value & 0x800 else 0)
    return [f"lui x{register},{(value - low) >> 12 & 0xFFFFF}", f"addi x{register},x{register},{low}"]


def image_of(text: str, in_ram: bool, data: bytes) -> bytes:
    code, place = a.code(words_of(text)), a.RAM if in_ram else a.ROM
    pieces = [(place, code), (a.RAM + (IN_RAM if in_ram else 0), data)]
    return a.image(pieces, place)


def golden_length(image: bytes, size: int, in_ram: bool) -> int | None:
    """The instructions of the golden run by the second implementation; None if it does not halt."""
    case = machine.Case(range(a.ROM, a.ROM + 1024), range(a.RAM, a.RAM + size), 2000, False, in_ram)
    try:
        reference.load(image, case)
        golden, _, _ = reference.golden_run(case)
    except reference.Refusal:
        return None
    return golden.taken


def a_case(number: int) -> Case | None:
    """The image of a loop, and the words for its case; None if its golden run does not halt."""
    dice = random.Random(f"loops {number}")
    in_ram = dice.random() < 0.3
    loop = Loop(dice, in_ram)
    end, rounds, data = loop.edge(), dice.randint(1, ROUNDS), dice.randbytes(DATA)
    size = loop.at + DATA
    images = [image_of(loop.text(rounds + more, end), in_ram, data) for more in (0, 1)]
    count, longer = (golden_length(image, size, in_ram) for image in images)
    if count is None or longer is None:
        return None
    round_length = max(1, longer - count)
    powers = [1 << k for k in range(loop.bits) if (1 << k) * round_length // abs(loop.step) <= LONGEST]
    more = dice.choice(powers[-2:]) * round_length // abs(loop.step)
    # Only a run with thousands of steps before it is searched for a loop.
    limit = count + (more + dice.choice([-1, 0, 1]) if more > SEARCHED else dice.randrange(SEARCHED, LONGEST))
    flags = [*(["--ram-code"] if in_ram else []), *(["--pc"] if dice.random() < 0.3 else [])]
    words = ["--rom", "0x20000000:1024", "--ram", f"0x80000000:{size}", "--limit", str(limit), *flags]
    return images[0], words


def called(words: list[str]) -> tuple[int, str, str]:
    done = subprocess.run(words, stdin=subprocess.DEVNULL, capture_output=True, text=True, timeout=300)
    return done.returncode, done.stdout, done.stderr


def campaign(program: str, words: list[str], workers: str) -> tuple[tuple[int, str, str], bytes]:
    keep = pathlib.Path("loop.keep")
    keep.unlink(missing_ok=True)
    told = called([program, "run", "loop.elf", str(keep), *words, "--workers", workers])
    return told, keep.read_bytes() if keep.exists() else b""


def failures_of(case: Case, program: str, before: str | None) -> list[str]:
    """What is wrong with the campaigns of a case."""
    image, words = case
    pathlib.Path("loop.elf").write_bytes(image)
    failures = []
    first = campaign(before or program, words, "1")
    for workers in ("1", "2", "4"):
        if campaign(program, words, workers) != first:
            failures.append(f"{workers} workers")
    if first[0][0] != 0:
        failures.append(f"run: {first[0]}")
    elif not (told := called([program, "audit", "loop.elf", "loop.keep", *words]))[1].endswith(" wrong 0\n"):
        failures.append(f"audit: {told}")
    return failures


def main(program: str, count: str | None = None, before: str | None = None) -> int:
    program, before = str(pathlib.Path(program).resolve()), before and str(pathlib.Path(before).resolve())
    wanted, begun = int(count or COUNT), time.monotonic()
    passed = failed = number = 0
    with tempfile.TemporaryDirectory() as folder:
        os.chdir(folder)
        while passed + failed < wanted and (count or time.monotonic() - begun < SECONDS):
            number += 1
            case = a_case(number)
            if case is None:
                continue
            failures = failures_of(case, program, before)
            passed, failed = passed + (not failures), failed + bool(failures)
            for failure in failures:
                print(f"failed: loop {number}, {' '.join(case[1])}: {failure}", flush=True)
        os.chdir("/")
    print(f"{passed} passed, {failed} failed")
    return 1 if failed or not passed else 0


if __name__ == "__main__":
    sys.exit(main(*sys.argv[1:]))
