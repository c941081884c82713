"""Generated programs that run from RAM, each the same in every run: their image is in RAM, or they copy themselves
there, and many of them store over their own words."""

from __future__ import annotations

import itertools
import random
from collections.abc import Iterator

import assembler as a
from generate import BASE, OUTSIDE_RV32IM, POOL, PORTS, Body, Program

ROM_CODE, NEW, LINK, COUNT = 10, 11, 12, 13  # the registers of a place in ROM, a new word, the way back and a number of turns
RAM_SIZE, DATA = 72, 64  # the code stands in front of eight bytes of data
KINDS = (("--ram-code",), ("--pc", "--ram-code"))

# A name, an image, and the regions of RAM and ROM if they are not the usual ones.
Placed = tuple[str, bytes, "str | None", "str | None"]


class RamBody(Body):
    """Random instructions whose loads and stores go to the data behind the code."""

    def __init__(self, dice: random.Random) -> None:
        super().__init__(dice, RAM_SIZE - DATA)

    def offset(self, name: str) -> int:
        return DATA + super().offset(name)


def head() -> list[int]:
    return [a.upper("lui", PORTS, 0xF0000), a.upper("lui", BASE, a.RAM >> 12)]


def tail(register: int = 4) -> list[int]:
    return [a.store("sb", register, PORTS, 0), a.store("sw", register, PORTS, 8)]


def word(register: int, value: int) -> list[int]:
    """Two words that put any word into a register, so that what stands behind them has its place whatever it is."""
    words = a.constant(register, value)
    return words + [a.immediate("addi", 0, 0, 0)] * (2 - len(words))


def harmless(dice: random.Random) -> int:
    """An instruction that goes on to the next one."""
    register, other = dice.choice(POOL), dice.choice(POOL)
    return dice.choice(
        [
            a.immediate("addi", 4, register, dice.randint(-2048, 2047)),
            a.register(dice.choice(["add", "xor", "mul", "sltu"]), 4, register, other),
            a.upper("auipc", 4, dice.getrandbits(20)),
            a.immediate("lbu", 4, BASE, dice.randrange(RAM_SIZE)),
            a.store("sb", register, BASE, DATA + dice.randrange(8)),
            a.fence(),
        ]
    )


def in_ram(words: list[int], data: bytes = b"") -> bytes:
    """An image of code at the base of RAM, where it begins."""
    content = a.code(words).ljust(DATA, b"\0") + data
    assert len(content) <= RAM_SIZE, len(content)
    return a.image([(a.RAM, content)], a.RAM)


def straight(dice: random.Random, names: list[str]) -> bytes:
    """The named instructions, one after the other."""
    body = RamBody(dice)
    words = head() + a.constant(dice.choice(POOL), dice.choice([3, 0x7FF, 0xFFFFFFFF]))
    for name in names:
        words += body.instruction(name)
    return in_ram(words + tail(dice.choice(POOL)), dice.randbytes(8))


def copied(dice: random.Random, by_loop: bool) -> bytes:
    """Code in ROM that copies a routine to the base of RAM, calls it there, and halts behind the call."""
    routine = [harmless(dice) for _ in range(3)] + [a.immediate("jalr", 0, LINK, 0)]
    words = head()
    if by_loop:
        words += [a.upper("auipc", ROM_CODE, 0), a.immediate("addi", COUNT, 0, len(routine))]
        loop = [a.immediate("lw", NEW, ROM_CODE, 48), a.store("sw", NEW, BASE, 0)]
        loop += [a.immediate("addi", register, register, by) for register, by in ((ROM_CODE, 4), (BASE, 4), (COUNT, -1))]
        words += loop + [a.branch("bne", COUNT, 0, -4 * len(loop)), a.immediate("addi", BASE, BASE, -4 * len(routine))]
        words += [a.immediate("jalr", LINK, BASE, 0), *tail()]
        words += [0] * (14 - len(words)) + routine
    else:
        for place, each in enumerate(routine):
            words += word(NEW, each) + [a.store("sw", NEW, BASE, 4 * place)]
        words += [a.immediate("jalr", LINK, BASE, 0), *tail()]
    return a.image([(a.ROM, a.code(words)), (a.RAM + DATA, dice.randbytes(8))])


def over_next(dice: random.Random, name: str) -> bytes:
    """A store over its own next word, of a word or of a part of it."""
    before, after = a.immediate("addi", 4, 4, 0x111), a.immediate("addi", 4, 4, dice.randint(-2048, 2047))
    size = {"sb": 1, "sh": 2, "sw": 4}[name]
    at = 4 - size
    words = head() + word(NEW, after >> 8 * at)
    if name == "sw" and dice.random() < 0.5:
        before = dice.choice(OUTSIDE_RV32IM)
    words += [a.store(name, NEW, BASE, 4 * len(words) + 4 + at), before]
    return in_ram(words + [harmless(dice)] + tail(), dice.randbytes(8))


def over_own(dice: random.Random, name: str) -> bytes:
    """A store over its own word, of a word or of a part of it, that is met twice: then another instruction stands there."""
    turn = [a.immediate("addi", COUNT, COUNT, 1), a.immediate("sltiu", 5, COUNT, 2)]
    words = head() + word(NEW, 0)
    place = 4 * len(words)
    own = a.store(name, NEW, BASE, place)
    # A halfword leaves it as it was; the low byte of an addi makes one of the store of a byte.
    words[2:4] = word(NEW, {"sw": harmless(dice), "sh": own & 0xFFFF, "sb": a.immediate("addi", 4, 4, 1) & 0xFF}[name])
    words += [own, *turn, a.branch("bne", 5, 0, -4 * (len(turn) + 1))]
    return in_ram(words + tail(COUNT), dice.randbytes(8))


def over_earlier(dice: random.Random) -> bytes:
    """A loop that stores another instruction over its first one each time."""
    first, second = a.immediate("addi", 4, 4, 5), a.register("sub", 4, 0, 4)
    words = head() + word(NEW, second) + [a.immediate("addi", COUNT, 0, 2)]
    loop = [first, a.store("sw", NEW, BASE, 4 * len(words)), harmless(dice), a.immediate("addi", COUNT, COUNT, -1)]
    return in_ram(words + loop + [a.branch("bne", COUNT, 0, -4 * len(loop)), *tail()], dice.randbytes(8))


def reads_itself(dice: random.Random) -> bytes:
    """Loads of its own word and of others of its code."""
    words = head()
    words += [a.immediate("lw", 4, BASE, 4 * len(words)), a.immediate(dice.choice(["lhu", "lb"]), 5, BASE, 2)]
    return in_ram(words + [a.register("add", 4, 4, 5), *tail()])


def ends(dice: random.Random) -> Iterator[Placed]:
    """Runs that end badly in RAM, or go from one region to the other without a jump; each with its name and regions."""
    halt = [a.upper("lui", PORTS, 0xF0000), a.store("sw", 0, PORTS, 8)]
    small = "0x80000000:16"
    yield "two words in RAM", a.image([(a.RAM, a.code(halt))], a.RAM), small, None
    yield "entry in RAM, not aligned", a.image([(a.RAM, a.code(halt))], a.RAM + 2), small, None
    yield "entry in RAM, odd", a.image([(a.RAM, a.code(halt))], a.RAM + 1), small, None
    yield "entry behind RAM", a.image([(a.RAM, a.code(halt))], a.RAM + 16), small, None
    yield "a word of RAM that is none", a.image([(a.RAM, a.code([halt[0], dice.choice(OUTSIDE_RV32IM), halt[1]]))], a.RAM), small, None
    yield "the end of RAM", a.image([(a.RAM + 8, a.code([halt[0], 0x13]))], a.RAM + 8), small, None
    yield "a detection in RAM", a.image([(a.RAM, a.code([halt[0], a.store("sb", 0, PORTS, 4)]))], a.RAM), small, None
    yield "a loop in RAM", a.image([(a.RAM, a.code([a.jal(0, 0)]))], a.RAM), small, None
    spoiled = head() + [a.store("sw", 0, BASE, 12), a.immediate("addi", 4, 0, 1)]
    yield "a store that spoils the next word", a.image([(a.RAM, a.code(spoiled))], a.RAM), small, None
    crooked = [a.upper("lui", BASE, a.RAM >> 12), a.immediate("jalr", 0, BASE, 2)]
    yield "a jump into RAM, not aligned", a.image([(a.ROM, a.code(crooked)), (a.RAM, a.code(halt))]), small, None
    yield "from ROM on into RAM", a.image([(a.ROM, a.code([0x13, halt[0]])), (a.ROM + 8, a.code(halt[1:]))]), "0x20000008:8", "0x20000000:8"
    yield "from RAM on into ROM", a.image([(a.ROM - 4, a.code(halt[:1])), (a.ROM, a.code(halt[1:]))], a.ROM - 4), "0x1FFFFFF8:8", "0x20000000:8"
    yield "past the top into ROM", a.image([(0xFFFFFFFC, a.code(halt[:1])), (0, a.code(halt[1:]))], 0xFFFFFFFC), "0xFFFFFFF8:8", "0:8"


def images(dice: random.Random) -> Iterator[Placed]:
    """Each program with its name and its regions, where they are others."""
    names = a.MNEMONICS[:]
    dice.shuffle(names)
    for number in range(6):
        yield f"in RAM {number}", straight(dice, names[3 * number : 3 * number + 3]), None, None
    for number in range(2):
        yield f"copied by loop {number}", copied(dice, True), None, None
        yield f"copied by words {number}", copied(dice, False), None, None
    for name in a.STORE:
        for number in range(2):
            yield f"{name} over the next word {number}", over_next(dice, name), None, None
        yield f"{name} over its own word", over_own(dice, name), None, None
    yield "over an earlier word", over_earlier(dice), None, None
    yield "over an earlier word again", over_earlier(dice), None, None
    yield "loads of its own word", reads_itself(dice), None, None
    yield from ends(dice)


def programs(seed: int = 20250301) -> Iterator[Program]:
    """All of them, in turns with the pc as a cell and without; and one of them where no code may stand in RAM."""
    kinds = itertools.cycle(KINDS)
    for name, image, ram, rom in images(random.Random(seed)):
        regions = {"ram": ram or f"0x80000000:{RAM_SIZE}", "rom": rom or "0x20000000:256"}
        yield Program(name, image, **regions, limit=50, flags=next(kinds))
    name, image, ram, _ = next(ends(random.Random(seed)))
    assert ram is not None
    for flags in (), ("--pc",):
        yield Program(f"{name}, where no code is", image, ram=ram, limit=50, flags=flags)
