"""Programs that compare the results of instructions, for all pairs of edge operands, with the values of the reference.

Each comparison that fails is a store to DETECT, and an instruction outside RV32IM ends the program. So the golden run
is refused as trapped at its last cycle if all values are right, and as detected at an earlier cycle if a value is
wrong.
"""

from __future__ import annotations

from collections.abc import Iterator

import assembler as a
import machine
from generate import BASE, EDGES, PORTS, Program

LEFT, RIGHT, RESULT, EXPECTED = 5, 6, 2, 7
IMMEDIATES = [0, 1, -1, 2047, -2048, 0x555]


def long_program(name: str, words: list[int], data: bytes = b"") -> Program:
    """A program of many instructions and one golden run; the data stands in RAM."""
    head = a.constant(PORTS, 0xF0000000) + a.constant(BASE, a.RAM)
    image = a.image([(a.ROM, a.code(head + words + [0])), (a.RAM, data)])
    return Program(name, image, rom="0x20000000:65536", limit=20000)


def compare(expected: int) -> list[int]:
    """Goes on where RESULT holds the value, else stores to DETECT."""
    return [*a.constant(EXPECTED, expected), a.branch("beq", RESULT, EXPECTED, 8), a.store("sw", 0, PORTS, 4)]


def computed(word: int, left: int, right: int) -> int:
    """The result of an OP or OP-IMM word by the reference's table."""
    found = machine.decode(word)
    assert found is not None
    kind, operation, _, _, _, immediate = found
    return operation(left, right if kind == "register" else immediate) & 0xFFFFFFFF


def operations() -> Iterator[Program]:
    """Each OP and OP-IMM instruction with all pairs of edge operands."""
    pairs = [(left, right) for left in EDGES for right in EDGES]
    for name in a.REGISTER:
        word, words = a.register(name, RESULT, LEFT, RIGHT), []
        for left, right in pairs:
            words += a.constant(LEFT, left) + a.constant(RIGHT, right) + [word] + compare(computed(word, left, right))
        yield long_program(f"values of {name}", words)
    plain = [a.immediate(name, RESULT, LEFT, value) for name in a.IMMEDIATE for value in IMMEDIATES if a.IMMEDIATE[name][0] == 0x13]
    shifts = [a.shift(name, RESULT, LEFT, amount) for name in a.SHIFT for amount in (0, 1, 4, 16, 31)]
    words = []
    for word in plain + shifts:
        for left in EDGES:
            words += a.constant(LEFT, left) + [word] + compare(computed(word, left, 0))
    yield long_program("values with immediates", words)


def branches() -> Iterator[Program]:
    """Each branch with all pairs of edge operands: the wrong way leads to a store to DETECT."""
    for name, funct3 in a.BRANCH.items():
        words = []
        for left in EDGES:
            for right in EDGES:
                taken = machine.CONDITIONS[funct3](left, right)
                way = [] if taken else [a.jal(0, 8)]
                words += a.constant(LEFT, left) + a.constant(RIGHT, right)
                words += [a.branch(name, LEFT, RIGHT, 8), *way, a.store("sw", 0, PORTS, 4)]
        yield long_program(f"ways of {name}", words)


def memory() -> Program:
    """Loads of each width from RAM, what each store leaves there, and the upper and link values."""
    data = bytes([0x80, 0x7F, 0xFF, 0x01, 0x00, 0xFE, 0x34, 0x92, 0x7F, 0x80, 0x00, 0xFF, 0xA5, 0x5A, 0xC3, 0x3C])
    words = []
    for name in a.LOADS:
        size = {"b": 1, "h": 2, "w": 4}[name[1]]
        for at in range(0, 16, size):
            value = int.from_bytes(data[at : at + size], "little", signed=not name.endswith("u"))
            words += [a.immediate(name, RESULT, BASE, at)] + compare(value & 0xFFFFFFFF)
    kept = bytearray(data)
    for name, size in (("sb", 1), ("sh", 2), ("sw", 4)):
        for at in range(0, 16, size):
            value = 0x12345678 + 0x11111111 * at & 0xFFFFFFFF
            kept[at : at + size] = (value & (1 << 8 * size) - 1).to_bytes(size, "little")
            word = int.from_bytes(kept[at // 4 * 4 : at // 4 * 4 + 4], "little")
            words += a.constant(LEFT, value) + [a.store(name, LEFT, BASE, at), a.immediate("lw", RESULT, BASE, at // 4 * 4)]
            words += compare(word)
    head = len(a.constant(PORTS, 0xF0000000) + a.constant(BASE, a.RAM))
    here = a.ROM + 4 * (head + len(words))
    words += [a.upper("auipc", RESULT, 0xFFFFF)] + compare(here + 0xFFFFF000 & 0xFFFFFFFF)
    here = a.ROM + 4 * (head + len(words))
    words += [a.jal(RESULT, 8), a.store("sw", 0, PORTS, 4)] + compare(here + 4)
    here = a.ROM + 4 * (head + len(words))
    words += a.constant(RESULT, here + 16 + 5)
    words += [a.immediate("jalr", RESULT, RESULT, -5)] + [a.store("sw", 0, PORTS, 4)] + compare(here + 12)
    return long_program("values in memory", words, data)


def programs() -> Iterator[Program]:
    yield from operations()
    yield from branches()
    yield memory()
