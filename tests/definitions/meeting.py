"""Campaigns in which injected runs meet earlier ones, and end there: each outcome must be that of a run by itself.

meeting.py PROGRAM [BEFORE]

The programs are loops of random instructions, in each of the four kinds of case. Their golden runs take some hundred
cycles, so that runs are looked at, and the limit is a multiple of that, so that many go on beyond the golden run's
end. Expected are the outcomes of `audit`, which runs each job of the file by itself, for a few small programs the
counts of `brute`, which runs each site from reset, and where a build BEFORE is given all that it writes.
"""

from __future__ import annotations

import os
import pathlib
import random
import subprocess
import sys
import tempfile
import time

import assembler as a
from generate import Body, start

PROGRAMS = 24
BY_BRUTE = 4
WORKERS = (1, 2, 4, 16)
KINDS = ((), ("--pc",), ("--ram-code",), ("--pc", "--ram-code"))
COUNT = 13  # the register that counts the turns of a loop, which no other instruction names
IN_RAM = 192  # so many bytes of code at most stand in front of the data, in programs that run from RAM
DATA_SIZE = 16
SECONDS = 80  # no program is begun after so many


class DataBody(Body):
    """Instructions whose loads and stores go to the data after the code."""

    def __init__(self, dice: random.Random, at: int) -> None:
        super().__init__(dice, DATA_SIZE)
        self.at = at

    def offset(self, name: str) -> int:
        return self.at + super().offset(name)


def looping(dice: random.Random, cycles: int, room: int, at: int) -> list[int]:
    """A loop of random instructions that takes about so many cycles, in so many words at most, with a few bytes sent and a halt."""
    body = DataBody(dice, at)
    names = [name for name in a.MNEMONICS if name not in ("ecall", "ebreak")]
    head = start(dice, 2)
    turn: list[int] = []
    while len(turn) < 5 or dice.random() < 0.8:
        more = body.instruction(dice.choice(names))
        if len(head) + 2 + len(turn) + len(more) + 6 > room:
            break
        turn += more
    turn.append(a.immediate("addi", COUNT, COUNT, -1))
    head += a.constant(COUNT, max(2, cycles // (len(turn) + 1)))
    return [*head, *turn, a.branch("bne", COUNT, 0, -4 * len(turn)), *body.halt()]


class Case:
    """A generated program with the words for its regions, limit and flags."""

    def __init__(self, number: int, seed: int) -> None:
        dice = random.Random(f"{seed} {number}")
        self.flags = KINDS[number % 4]
        self.small = number < BY_BRUTE
        cycles = dice.randint(280, 400) if self.small else dice.randint(300, 800)
        from_ram = "--ram-code" in self.flags and dice.random() < 0.7
        room, at = (IN_RAM // 4, IN_RAM) if from_ram else (64, 0)
        code = a.code(looping(dice, cycles, room, at))
        place = a.RAM if from_ram else a.ROM
        pieces = [(place, code)]
        self.image = a.image([*pieces, (a.RAM + at, dice.randbytes(DATA_SIZE))], place)
        limit = cycles * dice.choice([1, 2, 4]) + 300
        regions = ["--rom", "0x20000000:512", "--ram", f"0x80000000:{at + DATA_SIZE}", "--limit", str(limit)]
        self.words = [*regions, *self.flags]
        self.dice = dice


class Trial:
    """One case, tried in a folder of its own."""

    def __init__(self, program: str, before: str | None, number: int, case: Case) -> None:
        self.program, self.before, self.number, self.case = program, before, number, case
        self.failures: list[str] = []
        self.passed = 0
        pathlib.Path("case.elf").write_bytes(case.image)

    def check(self, name: str, holds: bool, got: object = "") -> None:
        self.passed += holds
        if not holds:
            self.failures.append(f"failed: program {self.number}, {name}: {str(got)[:300]}")

    def call(
        self, command: str, *more: str, program: str | None = None, keep: str | None = None
    ) -> tuple[int, str, str]:
        files = ["case.elf", keep] if keep else ["case.elf"]
        words = [program or self.program, command, *files, *self.case.words, *more]
        done = subprocess.run(words, stdin=subprocess.DEVNULL, capture_output=True, text=True, timeout=100)
        return done.returncode, done.stdout, done.stderr

    def whole(self) -> bool:
        """The campaign at once, and an audit of it; whether there is one."""
        self.told = self.call("run", "--workers", "1", keep="whole.keep")
        if self.told[0] == 4:
            return False
        self.check("a run", self.told[0] == 0 and self.told[2] == "", self.told)
        self.bytes = pathlib.Path("whole.keep").read_bytes()
        self.jobs = self.call("report", "--format", "csv", keep="whole.keep")
        kept = len(self.jobs[1].splitlines()) - 1
        self.check("an audit", self.call("audit", keep="whole.keep") == (0, f"kept {kept} wrong 0\n", ""))
        if self.case.small:
            brute = self.call("brute")
            self.check("brute", brute == self.told, (brute, self.told))
        if self.before:
            told = self.call("run", "--workers", "1", program=self.before, keep="before.keep")
            self.check("the build before", told == self.told and pathlib.Path("before.keep").read_bytes() == self.bytes, told)
        return True

    def by_workers(self) -> None:
        """The same file and output by any number of workers and pages."""
        for workers in WORKERS[1:]:
            keep = f"{workers}.keep"
            told = self.call("run", "--workers", str(workers), keep=keep)
            self.check(f"{workers} workers", told == self.told and pathlib.Path(keep).read_bytes() == self.bytes, told)
        told = self.call("run", "--workers", "4", "--page", "97", keep="paged.keep")
        self.check("pages of 97", told == self.told and self.call("report", "--format", "csv", keep="paged.keep") == self.jobs, told)

    def stopped(self) -> None:
        """Stopped a few times, by other numbers of workers each time, and by the build before too, with the same file after each stop."""
        jobs = len(self.jobs[1].splitlines()) - 1
        programs = [self.program, self.before or self.program]
        for _ in range(4):
            stop = str(self.case.dice.randint(1, jobs // 3))
            for turn, program in enumerate(programs):
                workers = str(self.case.dice.choice(WORKERS))
                self.call("run", "--workers", workers, "--stop-after", stop, program=program, keep=f"stopped{turn}.keep")
        files = [pathlib.Path(f"stopped{turn}.keep").read_bytes() for turn in range(2)]
        self.check("stopped campaigns", files[0] == files[1])
        told = self.call("run", keep="stopped0.keep")
        self.check("a stopped campaign, ended", told == self.told and self.call("report", "--format", "csv", keep="stopped0.keep") == self.jobs, told)

    def killed(self) -> None:
        """Killed at a random moment, and ended then."""
        words = [self.program, "run", "case.elf", "killed.keep", *self.case.words, "--workers", "4", "--page", "50"]
        for _ in range(3):
            child = subprocess.Popen(words, stdin=subprocess.DEVNULL, stdout=subprocess.DEVNULL, stderr=subprocess.DEVNULL)
            time.sleep(self.case.dice.random() * 0.03)
            child.kill()
            child.wait()
        told = self.call("run", keep="killed.keep")
        if told[0] == 6:
            told = self.call("run", "--fresh", keep="killed.keep")
        self.check("a killed campaign, ended", told == self.told and self.call("report", "--format", "csv", keep="killed.keep") == self.jobs, told)


def main() -> int:
    program, before = sys.argv[1], sys.argv[2] if len(sys.argv) > 2 else None
    seed, begun = 20261129, time.monotonic()
    passed, failures, tried = 0, [], 0
    with tempfile.TemporaryDirectory() as top:
        for number in range(PROGRAMS):
            if time.monotonic() - begun > SECONDS:
                break
            folder = pathlib.Path(top, str(number))
            folder.mkdir()
            os.chdir(folder)
            trial = Trial(program, before, number, Case(number, seed))
            if trial.whole():
                tried += 1
                trial.by_workers()
                trial.stopped()
                trial.killed()
            passed += trial.passed
            failures += trial.failures
        os.chdir("/")
    for line in failures:
        print(line)
    print(f"{tried} programs")
    print(f"{passed} passed, {len(failures)} failed")
    return 1 if failures else 0


if __name__ == "__main__":
    sys.exit(main())
