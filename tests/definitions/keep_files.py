"""Campaign files of one small case that are whole, stopped, cut, changed, of another case, or made of odd rows and
batches."""

from __future__ import annotations

import random
from collections.abc import Iterator, Sequence

import headers
import keep_file
import reference
from machine import Case

ROM, RAM, LIMIT = range(0x20000000, 0x20000040), range(0x80000000, 0x80000010), 60


def case_of(
    rom: range = ROM, ram: range = RAM, limit: int = LIMIT, pc_cell: bool = False, ram_code: bool = False
) -> Case:
    """The case of the image of headers.base(): 32 jobs, one for each bit of x1 in cycle 1, all of which trap."""
    case = reference.Case(rom, ram, limit, pc_cell, ram_code)
    reference.load(headers.base(), case)
    return case


def rows() -> list[keep_file.Row]:
    """The rows of a whole campaign."""
    outcomes = reference.counted(case_of().key())[2]
    return [(*job, reference.OUTCOMES[outcome]) for job, outcome in outcomes.items()]


def old_rows() -> list[keep_file.Row]:
    """The same as older versions wrote them, which knew no kinds of traps."""
    return [(*row[:3], keep_file.OLD_TRAP if row[3] in keep_file.TRAPS else row[3]) for row in rows()]


def filled(batches: Sequence[Sequence[keep_file.Row]], case: Case | None = None) -> bytes:
    """A file with these batches of rows."""
    content = keep_file.header(case or case_of())
    for batch in batches:
        content = keep_file.over(content, len(content) - 1, keep_file.batch(batch))
    return content


def changed() -> Iterator[tuple[str, bytes]]:
    """Whole and stopped files of which one byte has another value, and files of other cases."""
    whole, half = filled([rows()]), filled([rows()[:10], rows()[10:16]])
    head = len(keep_file.header(case_of()))
    for at in [*range(head + 14), len(whole) - 11, len(whole) - 2, len(whole) - 1]:
        values = {whole[at] ^ 1} if 13 < at < head - 1 else {0, 1, *range(3, 9), 0xA5, 0xFF, whole[at] ^ 1, whole[at] ^ 0x80}
        for value in sorted(values - {whole[at]}):
            yield f"byte {at} {value:#x}", whole[:at] + bytes([value]) + whole[at + 1 :]
    for name, other in (
        ("another limit", case_of(limit=LIMIT + 1)),
        ("a longer ROM", case_of(rom=range(ROM.start, ROM.start + 68))),
        ("a longer RAM", case_of(ram=range(RAM.start, RAM.start + 20))),
        ("the pc a cell", case_of(pc_cell=True)),
        ("code in RAM", case_of(ram_code=True)),
        ("the pc a cell and code in RAM", case_of(pc_cell=True, ram_code=True)),
    ):
        yield name, filled([rows()], other)
        yield f"{name}, cut", filled([rows()], other)[:-20]
    card = keep_file.card(case_of())
    for length in (0, 1, 24, 25, len(card) - 1):
        yield f"a card of {length} bytes", whole[:9] + length.to_bytes(4, "little") + card[:length] + whole[head - 1 :]
    yield "a card that goes on", whole[:9] + (len(card) + 1).to_bytes(4, "little") + card + bytes(1) + whole[head - 1 :]
    yield "the longest card", whole[:9] + b"\xff" * 4 + whole[13:]
    old, part = old_rows(), old_rows()[:10]
    olds = (("old", filled([old])), ("old, stopped", filled([part])), ("old, gone on with", filled([part, rows()])))
    for name, content in (("whole", whole), ("stopped", half), *olds):
        yield name, content
        yield f"{name}, with more behind it", content + filled([rows()])


def cut() -> Iterator[tuple[str, bytes]]:
    """A stopped file of two batches up to each of its bytes."""
    content = filled([rows()[:3], rows()[3:5]])
    for length in range(len(content)):
        yield f"cut to {length} bytes", content[:length]


def odd(seed: int = 11) -> Iterator[tuple[str, bytes]]:
    """Batches, empty ones too, of rows at random: right and old ones, again and again, wrong ones, and such as name no job or no outcome;
    some end by a gate of another byte, some are cut or go on."""
    dice = random.Random(seed)
    right, old = rows(), old_rows()
    strangers = [(0, 1, 0, 3), (1, 0, 0, 3), (1, 2, 0, 6), (1, 1, 32, 6), (1, 1, 255, 6), (2, 1, 0, 6), (0xFFFFFFFF, 1, 0, 3)]
    strangers.append((1, 48, 0, 0))
    for number in range(250):
        wrong = [(*dice.choice(right)[:3], dice.choice([0, 1, 2, 4, 5, 6, 7])) for _ in range(3)]
        beyond = [(*dice.choice(right)[:3], dice.choice([8, 9, 0x80, 255])) for _ in range(2)]
        pool = right * 4 + (old * 3 if number % 4 < 2 else []) + (wrong if number % 2 else [])
        pool += (beyond if number % 5 == 1 else []) + (strangers if number % 3 == 1 else [])
        batches = [[dice.choice(pool) for _ in range(dice.choice([0, 1, 2, 5, 20]))] for _ in range(dice.randrange(6))]
        if number % 4 == 0:
            batches.append(right)
        content = filled(batches)[:-1] + bytes([dice.choice([0, 0, 1, 0xA4, 0xFF])])
        if number % 7 == 3:
            content = content[: dice.randrange(len(content))]
        elif number % 7 == 5:
            content += dice.randbytes(dice.randrange(40))
        yield f"odd rows {number}", content


def files() -> Iterator[tuple[str, bytes]]:
    yield from changed()
    yield from cut()
    yield from odd()
