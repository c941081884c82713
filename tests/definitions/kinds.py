"""The four kinds of case, checked in the reference only: what instructions touch, worked out by hand; the most
cells that an instruction touches; and that jobs with their weights give the counts of all sites.

A kind is the list of its options, in the order of the kinds of a campaign file's card.
"""

from __future__ import annotations

from collections.abc import Iterator, Sequence

import assembler as a
import code_in_ram
import reference
from machine import Case, Machine

KINDS: tuple[list[str], ...] = ([], ["--pc"], ["--ram-code"], ["--pc", "--ram-code"])
ROM, RAM = range(a.ROM, a.ROM + 64), range(a.RAM, a.RAM + 16)
# The most cells that an instruction touches, and the most jobs that it makes: a store of a word reads two registers and writes four bytes;
# beside these there are the pc, and the four bytes of the instruction itself.
MOST = ((6, 64), (7, 96), (10, 96), (11, 128))


def case_of(image: bytes, flags: Sequence[str], rom: range = ROM, ram: range = RAM, limit: int = 100) -> Case:
    case = reference.Case(rom, ram, limit, "--pc" in flags, "--ram-code" in flags)
    reference.load(image, case)
    return case


def machine_at(word: int, flags: Sequence[str], offset: int = 0) -> Machine:
    """A machine at so many bytes behind a word at the base of RAM, or of ROM where RAM holds no code; x3 holds the base of RAM, and
    what the word does not fill is 0."""
    base = a.RAM if "--ram-code" in flags else a.ROM
    machine = reference.Machine(case_of(a.image([(base, a.code([word]))], base), flags))
    machine.pc += offset
    machine.x[3] = a.RAM
    return machine


def touched() -> Iterator[tuple[int, list[str], int, set[int], set[int]]]:
    """A word, the kind, the offset of the pc, and the cells that are read there, and that are only written."""
    fence, own, following = a.fence(), {32, 33, 34, 35}, {36, 37, 38, 39}
    yield fence, [], 0, set(), set()
    yield fence, ["--pc"], 0, {0}, set()
    yield fence, ["--ram-code"], 0, own, set()
    yield fence, ["--pc", "--ram-code"], 0, own | {0}, set()
    # The word behind it is none.
    yield fence, ["--pc"], 4, {0}, set()
    yield fence, ["--ram-code"], 4, following, set()
    yield fence, ["--pc", "--ram-code"], 4, following | {0}, set()
    # Nothing can be fetched.
    for offset in 1, 2, 3, 64, -4:
        for flags in KINDS:
            yield fence, flags, offset, {0} if "--pc" in flags else set(), set()
    # Stores over its own word, the next one, both in part, and one byte of its own; and one that traps.
    yield a.store("sw", 2, 3, 0), ["--ram-code"], 0, own | {2, 3}, set()
    yield a.store("sw", 2, 3, 4), ["--ram-code"], 0, own | {2, 3}, following
    yield a.store("sb", 0, 3, 3), ["--pc", "--ram-code"], 0, own | {0, 3}, set()
    yield a.store("sh", 0, 3, 6), ["--pc", "--ram-code"], 0, own | {0, 3}, {38, 39}
    yield a.store("sw", 0, 3, 2), ["--ram-code"], 0, own | {3}, set()
    # The same stores in ROM touch the bytes that they write.
    yield a.store("sw", 2, 3, 0), [], 0, {2, 3}, own
    yield a.store("sw", 2, 3, 0), ["--pc"], 0, {0, 2, 3}, own
    # Loads of its own word and of the next one, and a register that is read and written.
    yield a.immediate("lw", 4, 3, 0), ["--ram-code"], 0, own | {3}, {4}
    yield a.immediate("lw", 3, 3, 4), ["--ram-code"], 0, own | following | {3}, set()
    yield a.immediate("addi", 2, 2, -1), ["--pc", "--ram-code"], 0, own | {0, 2}, set()


def most_of(flags: Sequence[str]) -> tuple[int, int]:
    """The most cells and jobs of an instruction of this kind, over all instructions with three registers and an access behind it."""
    cells, jobs = 0, 0
    for name in a.MNEMONICS:
        # Two registers that are read, another one that is written, and the bytes at 8.
        if name in a.REGISTER:
            word = a.register(name, 4, 3, 2)
        elif name in a.SHIFT:
            word = a.shift(name, 4, 3, 8)
        elif name in a.IMMEDIATE:
            word = a.immediate(name, 4, 3, 8)
        elif name in a.STORE:
            word = a.store(name, 2, 3, 8)
        else:
            word = a.branch(name, 3, 2, 8) if name in a.BRANCH else a.upper(name, 4, 8) if name in a.UPPER else a.jal(4, 8)
        touches = machine_at(word, flags).touches()
        cells = max(cells, len(touches))
        jobs = max(jobs, sum(32 if cell < 32 else 8 for cell, reads in touches.items() if reads))
    return cells, jobs


def pruned(case: Case) -> dict[str, int]:
    """The totals by a run of each job, with its weight: dead sites have no effect."""
    golden, end, _ = reference.golden_run(case)
    _, jobs, dead = reference.jobs_of(case)
    totals = dict.fromkeys(reference.OUTCOMES, 0) | {"no-effect": dead}
    before = reference.Machine(case)
    for (cycle, cell, bit), weight in jobs.items():
        while before.taken < cycle:
            before.step()
        injected = before.copy()
        injected.flip(cell, bit)
        totals[reference.outcome(injected.finish(), injected, end, golden)] += weight
    return totals


def small() -> Iterator[tuple[str, Case]]:
    """Programs that halt, each with its name and its case."""
    loop = [a.immediate("addi", 2, 0, 2), a.immediate("addi", 2, 2, -1), a.branch("bne", 2, 0, -4)]
    sent = [a.upper("lui", 1, 0xF0000), a.fence(), a.store("sb", 2, 1, 0), a.store("sw", 0, 1, 8)]
    for base in a.ROM, a.RAM:
        for flags in KINDS:
            if base == a.ROM or "--ram-code" in flags:
                ram = range(a.RAM, a.RAM + 32)
                yield f"a loop at {base:#x} with {flags}", case_of(a.image([(base, a.code(loop + sent))], base), flags, ram=ram, limit=30)
    for one in code_in_ram.programs():
        line = reference.line_of(one.words("case.elf", "brute"))
        reference.load(one.image, line.case)
        yield one.name, line.case


def checks() -> Iterator[tuple[str, object, object]]:
    """Each check: its name, what is wanted, and what there is."""
    for word, flags, offset, reads, writes in touched():
        wanted = dict.fromkeys(reads, True) | dict.fromkeys(writes, False)
        yield f"the touches of {word:08x} at {offset} with {flags}", wanted, machine_at(word, flags, offset).touches()
    for flags, most in zip(KINDS, MOST):
        yield f"the most touches and jobs with {flags}", most, most_of(flags)
    for name, case in small():
        try:
            reference.golden_run(case)
        except reference.Refusal:
            continue
        yield f"jobs and sites of {name}", reference.campaign(case)[1], pruned(case)
