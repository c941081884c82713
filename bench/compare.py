#!/usr/bin/env python3
"""Two builds of the program beside each other: what a change brought, in ratios.

usage: compare.py BEFORE AFTER [ROUNDS [NAME]]     two built programs; the least of ROUNDS rounds (5 if not given)

With NAME it runs only the lines that have NAME in their name, such as `default`.

Both run in turns, with one worker, on the examples, on the compiled programs of `steps` and on loops of 1,000 to
1,000,000 instructions. Those that end with `default` are whole campaigns at the default limit. The last ones run the
same loop from ROM and from RAM, both with --ram-code: what a step from RAM costs is in the ratio of their lines; they
need two builds that know this flag. For each: the least processor time of each build (user and system), the most memory
that it held, and AFTER's as a ratio of BEFORE's; below 1 is better. Where valgrind is there, machine instructions too,
which repeat exactly. What both write is compared, campaign files too. A line ends with OTHER where it differs, and so
does the status.
"""
import filecmp
import os
import random
import subprocess
import sys
import tempfile
from dataclasses import dataclass
from pathlib import Path

HERE = Path(__file__).resolve().parent
sys.path[:0] = [str(HERE), str(HERE.parent / "tests/definitions")]
import assembler as a  # noqa: E402
import image  # noqa: E402

ROM = "0x20000000:8192"
# Under valgrind a command takes some fifty times as long: so only those are counted that take less than this.
VALGRIND = 0.1


@dataclass
class Task:
    """A command on an image, timed for both builds."""

    name: str
    command: str
    image: bytes
    ram: str
    limit: int
    more: tuple = ()
    # options that older builds may not know
    flags: tuple = ()
    # the campaign file is whole before it begins
    whole: bool = False

    def words(self, program, keep):
        more = [] if self.command == "report" else ["--workers", "1", *self.more]
        words = [program, self.command, "case.elf", keep, "--rom", ROM, "--ram", self.ram, "--limit", str(self.limit)]
        return [*words, *self.flags, *more]


def loop(turns):
    """A loop of eight instructions, two loads and two stores among them, as often as it says; then it halts."""
    ports, ram, count = 1, 3, 5
    words = [
        a.upper("lui", ports, 0xF0000),
        a.upper("lui", ram, 0x80000),
        *a.constant(count, turns),
    ]
    return a.image([(a.ROM, a.code(words + turn(ports, ram, count)))])


def turn(ports, ram, count):
    """The loop itself, with its halt behind it."""
    body = [
        a.immediate("lw", 2, ram, 0),
        a.immediate("addi", 2, 2, 1),
        a.store("sw", 2, ram, 0),
        a.immediate("lw", 4, ram, 4),
        a.register("add", 4, 4, 2),
        a.store("sw", 4, ram, 4),
        a.immediate("addi", count, count, -1),
    ]
    return [*body, a.branch("bne", count, 0, -4 * len(body)), a.store("sw", 0, ports, 8)]


def loop_at(turns, base):
    """The same loop at an address of ROM or RAM. In front of it, in ROM, registers are read that nothing reads later: so each of the first
    jobs runs the whole loop, as long from the one place as from the other."""
    ports, ram, count, place = 1, 3, 5, 10
    words = [a.register("add", 6, 7, 8)] * 16
    words += [a.upper("lui", ports, 0xF0000), a.upper("lui", ram, 0x80000), *a.constant(count, turns)]
    words += [*a.constant(place, base), a.immediate("jalr", 0, place, 0)]
    return a.image([(a.ROM, a.code(words)), (base, a.code(turn(ports, ram, count)))])


def dot(length):
    """The dot product of two lists of words: nine instructions a pair. The bytes of the sum are sent, and it halts."""
    ports, left, right, count, total = 1, 5, 6, 7, 8
    words = [a.upper("lui", ports, 0xF0000), a.upper("lui", left, 0x80000), *a.constant(right, 4 * length), *a.constant(count, length)]
    words += [a.register("add", right, right, left), a.immediate("addi", total, 0, 0)]
    body = [a.immediate("lw", 2, left, 0), a.immediate("lw", 3, right, 0), a.register("mul", 4, 2, 3), a.register("add", total, total, 4)]
    body += [a.immediate("addi", register, register, step) for register, step in ((left, 4), (right, 4), (count, -1))]
    words += [*body, a.branch("bne", count, 0, -4 * len(body))]
    for _ in range(4):
        words += [a.store("sb", total, ports, 0), a.shift("srli", total, total, 8)]
    lists = random.Random(1).randbytes(8 * length)
    return a.image([(a.ROM, a.code([*words, a.store("sw", 0, ports, 8)])), (a.RAM, lists)])


def whole_campaigns():
    """Whole campaigns at the default limit: what most users run."""
    limit, ram = 1_000_000, "0x80000000:4096"
    for name in ("CRC", "QSORT", "SHA", "AES"):
        yield Task(f"{name.lower()}, default", "run", image.image(image.words_of(name)), ram, limit)
    yield Task("dot, default", "run", dot(120), ram, limit)
    for name in ("frame", "checksum", "cipher"):
        yield Task(f"{name}, default", "run", (HERE.parent / f"examples/built/{name}.elf").read_bytes(), "0x80000000:64", limit)


def tasks():
    for name, limit in (("checksum", 6_000), ("checksum_twice", 12_000), ("sort", 6_000), ("cipher", 6_000)):
        yield Task(name, "run", (HERE.parent / f"examples/built/{name}.elf").read_bytes(), "0x80000000:64", limit)
    for name, limit in (("CRC", 2_432), ("QSORT", 1_980), ("SHA", 12_400), ("AES", 12_400)):
        yield Task(name.lower(), "run", image.image(image.words_of(name)), "0x80000000:4096", limit, ("--stop-after", "40000"))
    for instructions, jobs in ((1_000, 1_000_000), (10_000, 40_000), (100_000, 4_000), (1_000_000, 400)):
        name, limit = f"loop of {instructions:,}", 2 * instructions
        yield Task(name, "run", loop(instructions // 8), "0x80000000:16384", limit, ("--stop-after", str(jobs)))
    yield Task("start, 1,000,000", "run", loop(125_000), "0x80000000:16", 2_000_000, ("--stop-after", "0"))
    yield Task("open, 10,000", "report", loop(1_250), "0x80000000:16", 12_000, whole=True)
    yield from whole_campaigns()
    for instructions, jobs in ((10_000, "1000"), (100_000, "100")):
        for place, base in (("ROM", a.ROM + 256), ("RAM", a.RAM + 64)):
            name, image_there = f"{instructions:,} from {place}", loop_at(instructions // 8, base)
            yield Task(name, "run", image_there, "0x80000000:128", 2 * instructions, ("--stop-after", jobs), ("--ram-code",))


def unknown(task, programs):
    """Whether a build does not know the flags of a task. Then it answers with the usage text, and else that there is no such image."""
    lines = [[program, "plan", "missing.elf", *task.flags] for program in programs]
    return any(subprocess.run(words, capture_output=True).returncode == 1 for words in lines)


def measure(words):
    """Processor seconds and megabytes of a command, and what it wrote."""
    with open("out", "wb") as out:
        child = subprocess.Popen(words, stdout=out, stderr=subprocess.STDOUT)
        _, status, used = os.wait4(child.pid, 0)
        child.returncode = os.waitstatus_to_exitcode(status)
    if child.returncode not in (0, 7):
        sys.exit(f"{' '.join(words)}: status {child.returncode}: {Path('out').read_text()[:200]}")
    return used.ru_utime + used.ru_stime, used.ru_maxrss / 1024, Path("out").read_bytes()


def instructions(words):
    """Machine instructions of a command, where valgrind is there."""
    try:
        told = subprocess.run(["valgrind", "--tool=callgrind", "--callgrind-out-file=/dev/null", *words], capture_output=True, text=True)
    except FileNotFoundError:
        return None
    found = [line.split()[-1] for line in told.stderr.splitlines() if "Collected" in line]
    return int(found[0]) if found else None


def compare(task, programs, rounds):
    """The least time of each, the most memory of each, whether both wrote the same, and a list of instructions or of nothing."""
    Path("case.elf").write_bytes(task.image)
    keeps = [Path(f"{number}.keep") for number in range(2)]
    if task.whole:
        measure([programs[0], "run", *task.words(programs[0], keeps[0].name)[2:], "--fresh"])
        keeps[1].write_bytes(keeps[0].read_bytes())
    least, most, texts = [None, None], [0, 0], [b"", b""]
    for _ in range(rounds):
        for number, (program, keep) in enumerate(zip(programs, keeps)):
            if not task.whole:
                keep.unlink(missing_ok=True)
            seconds, megabytes, texts[number] = measure(task.words(program, keep.name))
            least[number] = seconds if least[number] is None else min(least[number], seconds)
            most[number] = max(most[number], megabytes)
    same = texts[0] == texts[1] and filecmp.cmp(*keeps, shallow=False)
    counted = []
    if least[0] < VALGRIND:
        for program, keep in zip(programs, keeps):
            if not task.whole:
                keep.unlink()
            counted.append(instructions(task.words(program, keep.name)))
    return least, most, same, counted


def ratio(pair):
    return f"{pair[1] / pair[0]:.2f}" if len(pair) == 2 and all(pair) else "-"


def main():
    if not 3 <= len(sys.argv) <= 5:
        sys.exit(__doc__)
    programs = [os.path.abspath(word) for word in sys.argv[1:3]]
    rounds = int(sys.argv[3]) if len(sys.argv) > 3 else 5
    name = sys.argv[4] if len(sys.argv) > 4 else ""
    others = 0
    print(f"{'':18}{'before s':>10}{'after s':>10}{'ratio':>7}{'before MB':>11}{'after MB':>10}{'ratio':>7}{'instr.':>8}")
    with tempfile.TemporaryDirectory() as folder:
        os.chdir(folder)
        for task in (task for task in tasks() if name in task.name):
            if unknown(task, programs):
                print(f"{task.name:18}  not both builds know {' '.join(task.flags)}", flush=True)
                continue
            least, most, same, counted = compare(task, programs, rounds)
            others += not same
            print(
                f"{task.name:18}{least[0]:10.3f}{least[1]:10.3f}{ratio(least):>7}{most[0]:11.1f}{most[1]:10.1f}{ratio(most):>7}"
                f"{ratio(counted):>8}{'' if same else '  OTHER'}",
                flush=True,
            )
        os.chdir("/")
    return 1 if others else 0


if __name__ == "__main__":
    sys.exit(main())
