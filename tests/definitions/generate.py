"""Generated programs, each the same in every run: images, and the regions and limit that they are run with."""

from __future__ import annotations

import dataclasses
import random
from collections.abc import Iterator

import assembler as a

PORTS, BASE, CODE = 1, 3, 10  # the registers that hold the port page, the base of RAM and an address of code
POOL = [2, 4, 5, 6, 7, 8, 9, 31]
EDGES = [0, 1, 2, 3, 0x7F, 0x80, 0xFF, 0x7FFF, 0x8000, 0xFFFF, 0x7FFFFFFF, 0x80000000, 0x80000001, 0xFFFFFFFE, 0xFFFFFFFF]
OUTSIDE_RV32IM = [
    0x00000000, 0xFFFFFFFF, 0x00000073, 0x00100073, 0x30200073, 0x10500073, 0x34011073, 0xC0002573, 0x0000100F,
    0x0000200F, 0x00000001, 0x00004501, 0x00001067, 0x00002063, 0x00003063, 0x00003003, 0x00006003, 0x00007003,
    0x00003023, 0x00007023, 0x40001013, 0x02001013, 0x02005013, 0x60005013, 0x42005013, 0x40001033, 0x40004033,
    0x40007033, 0x04000033, 0x06000033, 0x42000033, 0x0000002F, 0x00000007, 0x00000027, 0x0000001B, 0x0000003B,
    0x00000043, 0x00000053, 0x0000000B, 0x00000057, 0x00000012, 0x00000032, 0x0000006D, 0x0000007F,
]


@dataclasses.dataclass
class Program:
    name: str
    image: bytes
    rom: str = "0x20000000:256"
    ram: str = "0x80000000:16"
    limit: int = 60
    flags: tuple[str, ...] = ()

    def words(self, path: str, command: str = "run", *more: str) -> list[str]:
        files = [path, "case.keep"] if command in ("run", "report", "audit", "symbols") else [path]
        # The text of a trace is the same whether the pc is a cell or not, so that command does not ask.
        flags = [flag for flag in self.flags if (command, flag) != ("trace", "--pc")]
        return [command, *files, "--rom", self.rom, "--ram", self.ram, "--limit", str(self.limit), *flags, *more]


class Body:
    """Random instructions that go on to the next, or past the next, wherever no bit was flipped."""

    def __init__(self, dice: random.Random, ram_size: int) -> None:
        self.dice, self.ram_size = dice, ram_size

    def small(self) -> int:
        return self.dice.choice([0, 1, -1, 7, 31, 32, 2047, -2048, self.dice.randint(-2048, 2047)])

    def operand(self) -> int:
        return self.dice.choice(POOL + [0, PORTS, BASE])

    def target(self) -> int:
        return self.dice.choice(POOL + [0])

    def offset(self, name: str) -> int:
        size = {"b": 1, "h": 2, "w": 4}[name[1]]
        return self.dice.randrange(0, self.ram_size, size)

    def instruction(self, name: str) -> list[int]:
        """The words of one instruction, where it needs them with a word before it that makes its address."""
        dice = self.dice
        if name in a.REGISTER:
            return [a.register(name, self.target(), self.operand(), self.operand())]
        if name in a.SHIFT:
            return [a.shift(name, self.target(), self.operand(), dice.choice([0, 1, 31, dice.randrange(32)]))]
        if name in a.LOADS:
            return [a.immediate(name, self.target(), BASE, self.offset(name))]
        if name == "jalr":
            odd = dice.choice([0, 1])
            return [a.upper("auipc", CODE, 0), a.immediate("jalr", self.target(), CODE, 12 + odd), self.filler()]
        if name in a.IMMEDIATE:
            return [a.immediate(name, self.target(), self.operand(), self.small())]
        if name in a.STORE:
            to_port = dice.random() < 0.3
            return [a.store(name, self.operand(), *((PORTS, 0) if to_port else (BASE, self.offset(name))))]
        if name in a.BRANCH:
            return [a.branch(name, self.operand(), self.operand(), 8), self.filler()]
        if name in a.UPPER:
            return [a.upper(name, self.target(), dice.choice([0, 1, 0x7FFFF, 0x80000, 0xFFFFF, dice.getrandbits(20)]))]
        if name == "jal":
            return [a.jal(self.target(), 8), self.filler()]
        return [a.fence(dice.getrandbits(12))]

    def filler(self) -> int:
        return a.immediate("addi", self.target(), self.operand(), self.small())

    def halt(self) -> list[int]:
        name = self.dice.choice(list(a.STORE))
        return [a.store("sb", self.operand(), PORTS, 0), a.store(name, self.operand(), PORTS, 8)]


def start(dice: random.Random, values: int = 2, ram: int = a.RAM) -> list[int]:
    """The port page, the base of RAM and some values in registers."""
    words = a.constant(PORTS, 0xF0000000) + a.constant(BASE, ram)
    for register in dice.sample(POOL, values):
        words += a.constant(register, dice.choice(EDGES + [dice.getrandbits(32)]))
    return words


def straight(dice: random.Random, names: list[str]) -> bytes:
    """A program of the named instructions, with RAM's content from the image."""
    body = Body(dice, 16)
    words = start(dice)
    for name in names:
        words += body.instruction(name)
    return a.image([(a.ROM, a.code(words + body.halt())), (a.RAM, dice.randbytes(16))])


def loop(dice: random.Random, turns: int) -> bytes:
    """Adds bytes of RAM in a loop that counts down, and halts with the sum."""
    words = start(dice, 0) + a.constant(2, turns)
    words += [a.immediate("lbu", 5, BASE, 0), a.register("add", 4, 4, 5), a.immediate("addi", BASE, BASE, 1)]
    words += [a.immediate("addi", 2, 2, -1), a.branch(dice.choice(["bne", "blt", "bltu"]), 0, 2, -16)]
    return a.image([(a.ROM, a.code(words + [a.store("sw", 4, PORTS, 8)])), (a.RAM, dice.randbytes(16))])


def calls(dice: random.Random) -> bytes:
    """Calls one function twice by JAL; it comes back by JALR."""
    words = start(dice, 1) + [a.jal(2, 16), a.jal(2, 12), a.store("sb", 4, PORTS, 0), a.store("sh", 4, PORTS, 8)]
    words += [a.register(dice.choice(["add", "xor", "mul"]), 4, 4, dice.choice(POOL)), a.immediate("addi", 4, 4, 3)]
    return a.image([(a.ROM, a.code(words + [a.immediate("jalr", 0, 2, 0)]))])


def guarded(dice: random.Random) -> bytes:
    """Keeps a value twice, compares the two, and stores to DETECT where they differ."""
    value = dice.getrandbits(11)
    words = start(dice, 0) + a.constant(2, value) + [a.store("sw", 2, BASE, 0), a.store("sw", 2, BASE, 4)]
    words += [a.immediate("lw", 4, BASE, 0), a.immediate("lw", 5, BASE, 4), a.branch("beq", 4, 5, 8)]
    words += [a.store("sw", 0, PORTS, 4), a.store("sb", 4, PORTS, 0), a.store("sw", 4, PORTS, 8)]
    return a.image([(a.ROM, a.code(words))])


def bad_ends(dice: random.Random) -> Iterator[Program]:
    """Golden runs that are refused: traps of each kind, a detection, and runs without an end."""
    ends = {
        "load of a word at 1": [a.immediate("lw", 2, BASE, 1)],
        "load of a word at 2": [a.immediate("lw", 2, BASE, 2)],
        "load of a halfword at 1": [a.immediate("lhu", 2, BASE, 1)],
        "load past RAM": [a.immediate("lb", 2, BASE, 16)],
        "load before RAM": [a.immediate("lb", 2, BASE, -1)],
        "load from a port": [a.immediate("lw", 2, PORTS, 0)],
        "load from address 0": [a.immediate("lbu", 2, 0, 0)],
        "store to ROM": [*a.constant(5, a.ROM), a.store("sw", 2, 5, 64)],
        "store past RAM": [a.store("sb", 2, BASE, 16)],
        "store of a word at 2": [a.store("sw", 2, BASE, 2)],
        "store of a halfword at a port's odd address": [a.store("sh", 2, PORTS, 9)],
        "store to no port": [a.store("sb", 2, PORTS, 1)],
        "store to the word after the ports": [a.store("sw", 2, PORTS, 12)],
        "store past the port page": [*a.constant(5, 0xF0001000), a.store("sw", 2, 5, 0)],
        "detection by a byte": [a.store("sb", 2, PORTS, 4)],
        "detection by a word": [a.store("sw", 2, PORTS, 4)],
        "jump to an address that is not aligned": [a.jal(2, 6)],
        "jump by register to an address that is not aligned": [*a.constant(5, a.ROM + 6), a.immediate("jalr", 2, 5, 1)],
        "jump out of ROM": [*a.constant(5, a.RAM), a.immediate("jalr", 2, 5, 0)],
        "taken branch to an address that is not aligned": [a.branch("beq", 0, 0, 10)],
        "end of ROM": [a.jal(0, 0xE0)],
        "loop on itself": [a.jal(0, 0)],
        "loop by branch": [a.branch("bge", 0, 0, 0)],
    }
    for name, words in ends.items():
        yield Program(name, a.image([(a.ROM, a.code(start(dice, 1) + words + [a.store("sw", 0, PORTS, 8)]))]))
    untaken = [a.branch("bne", 0, 0, 6), a.store("sw", 0, PORTS, 8)]
    yield Program("untaken branch to an address that is not aligned", a.image([(a.ROM, a.code(start(dice, 1) + untaken))]))


def placed(dice: random.Random) -> Iterator[Program]:
    """Entries, regions, segments and limits of every kind."""
    short = start(dice, 1) + [a.store("sb", 5, PORTS, 0), a.store("sw", 5, PORTS, 8)]
    code = a.code(short)
    count = len(short)
    yield Program("entry elsewhere", a.image([(a.ROM + 0x40, code)], a.ROM + 0x40))
    yield Program("entry past the first instructions", a.image([(a.ROM, a.code([0, 0]) + code)], a.ROM + 8))
    yield Program("entry not aligned", a.image([(a.ROM, code)], a.ROM + 2))
    yield Program("entry in RAM", a.image([(a.ROM, code)], a.RAM))
    yield Program("entry outside", a.image([(a.ROM, code)], 0))
    yield Program("limit just enough", a.image([(a.ROM, code)]), limit=count)
    yield Program("limit one too low", a.image([(a.ROM, code)]), limit=count - 1)
    yield Program("limit 1", a.image([(a.ROM, code)]), limit=1)
    least = a.code([a.upper("lui", PORTS, 0xF0000), a.store("sw", 0, PORTS, 8)])
    yield Program("limit 2 that is enough", a.image([(a.ROM, least)]), limit=2)
    late = [(a.ROM, bytes(len(code))), (a.ROM, code), (a.RAM, bytes(range(16))), (a.RAM + 4, b"\xaa\xbb"), (a.RAM + 16, b"")]
    yield Program("later segments win", a.image(late))
    early = [(a.ROM, code), (a.ROM + 4, a.code([0]))]
    yield Program("a later segment breaks the code", a.image(early))
    yield Program("no segments", a.image([]))
    yield Program("ROM at its least", a.image([(0, least[:4])], 0), rom="0:4", ram="4:4")
    yield Program("ROM of two words, RAM touching it", a.image([(0, least)], 0), rom="0:8", ram="8:4")
    yield Program("ROM up to the ports, RAM past them", a.image([(0xEFFFFFF8, least)], 0xEFFFFFF8), rom="0xEFFFFFF8:8", ram="0xF0001000:8")
    yield Program("RAM below ROM, touching it", a.image([(a.ROM, code)]), ram="0x1FFFFFF0:16")
    top = start(dice, 1, 0xFFFFFFF8) + [a.store("sw", 5, BASE, 4), a.immediate("lb", 2, 0, -1), a.store("sb", 2, PORTS, 8)]
    yield Program("RAM at the top", a.image([(a.ROM, a.code(top))]), ram="0xFFFFFFF8:8")
    yield Program("ROM at the top", a.image([(0xFFFFFF00, code)], 0xFFFFFF00), rom="0XFFFFFF00:0x100")
    end = 0x100000000 - 4 * count
    yield Program("ROM at the top, to its last word", a.image([(end, code)], end), rom="4294967040:256")
    yield Program("a run past the top", a.image([(0xFFFFFFFC, a.code([0x13]))], 0xFFFFFFFC), rom="0xFFFFFF00:256")
    wrap = start(dice, 0) + [a.immediate("addi", 5, BASE, -2048), a.immediate("lw", 2, 5, 2047), a.store("sw", 2, PORTS, 8)]
    yield Program("load by a far offset, not aligned", a.image([(a.ROM, a.code(wrap))]))


def programs(seed: int = 20240229) -> Iterator[Program]:
    """All generated programs. Each instruction of RV32IM stands in programs that halt."""
    dice = random.Random(seed)
    names = a.MNEMONICS[:]
    for turn in range(3):
        dice.shuffle(names)
        for at in range(0, len(names), 6):
            yield Program(f"straight {turn}.{at // 6}", straight(dice, names[at : at + 6]))
    for turns, limit in ((1, 50), (2, 50), (3, 20), (5, 200), (9, 400)):
        yield Program(f"loop of {turns}", loop(dice, turns), limit=limit)
    for number in range(3):
        yield Program(f"calls {number}", calls(dice))
        yield Program(f"guarded {number}", guarded(dice), ram=f"0x80000000:{8 + 4 * number}")
    yield from bad_ends(dice)
    yield from placed(dice)


def one_word_programs(seed: int = 77) -> Iterator[Program]:
    """Programs around one word each: words outside RV32IM, and random words of each opcode."""
    dice = random.Random(seed)
    opcodes = [0x37, 0x17, 0x6F, 0x67, 0x63, 0x03, 0x23, 0x13, 0x33, 0x33, 0x0F, 0x73]
    words = OUTSIDE_RV32IM + [dice.getrandbits(32) for _ in range(10)]
    for opcode in opcodes:
        for _ in range(12):
            funct7 = dice.choice([0x00, 0x01, 0x20, dice.getrandbits(7)])
            rd = dice.choice([2, 2, 2, 0, PORTS, dice.getrandbits(5)])
            words.append(funct7 << 25 | dice.getrandbits(13) << 12 | rd << 7 | opcode)
    for word in words:
        program = [a.upper("lui", PORTS, 0xF0000), word, a.store("sw", 2, PORTS, 8)]
        yield Program(f"word {word:08x}", a.image([(a.ROM, a.code(program))]), rom="0x20000000:16", ram="0x80000000:4", limit=9)
