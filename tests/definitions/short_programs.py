"""Short programs, each with the counts that the reference gives: the data of the program's own tests.

short_programs.py       writes the table of crates/test_programs/src/counted.rt
"""

from __future__ import annotations

import re
import textwrap
from collections.abc import Iterable, Iterator

import assembler as a
import reference
from generate import Program

# Each line: a name, the limit of instructions, and the instructions. A label stands before its instruction with a colon.
TEXT = """
sum of a loop | 60 | lui x1,0xF0000; addi x2,x0,5; loop: add x4,x4,x2; addi x2,x2,-1; bne x2,x0,loop; sw x4,8(x1)
Fibonacci numbers | 60 | lui x1,0xF0000; addi x5,x0,1; addi x2,x0,2; loop: add x6,x4,x5; addi x4,x5,0; addi x5,x6,0; addi x2,x2,-1; bge x2,x0,loop; sw x4,8(x1)
loop that counts up | 60 | lui x1,0xF0000; addi x2,x0,4; loop: addi x4,x4,1; blt x4,x2,loop; sb x4,0(x1); sw x0,8(x1)
loop by unsigned comparison | 50 | lui x1,0xF0000; addi x2,x0,9; loop: addi x2,x2,-3; bltu x0,x2,loop; sw x2,8(x1)
loop that a flip makes long | 40 | lui x1,0xF0000; addi x2,x0,3; loop: addi x2,x2,-1; bgeu x2,x4,next; sw x0,4(x1); next: bne x2,x0,loop; sw x0,8(x1)
loop in a loop | 60 | lui x1,0xF0000; addi x2,x0,2; outer: addi x4,x0,2; inner: addi x5,x5,1; addi x4,x4,-1; bne x4,x0,inner; addi x2,x2,-1; bne x2,x0,outer; sb x5,8(x1)
doubling until it is large | 60 | lui x1,0xF0000; addi x2,x0,3; addi x5,x0,100; loop: add x2,x2,x2; bge x5,x2,loop; sh x2,8(x1)
bytes with and without sign | 40 | lui x3,0x80000; lui x1,0xF0000; addi x2,x0,-128; sb x2,3(x3); lb x4,3(x3); lbu x5,3(x3); add x6,x4,x5; sb x6,0(x1); sw x4,8(x1)
halfwords with and without sign | 40 | lui x3,0x80000; lui x1,0xF0000; lui x2,0x8; addi x2,x2,1; sh x2,6(x3); lh x4,6(x3); lhu x5,6(x3); sub x6,x4,x5; srai x6,x6,16; sb x6,0(x1); sw x5,8(x1)
words of RAM | 30 | lui x3,0x80000; lui x1,0xF0000; lui x2,0x12345; addi x2,x2,0x678; sw x2,12(x3); lw x4,12(x3); sb x4,0(x1); sw x4,8(x1)
a word from bytes | 30 | lui x3,0x80000; lui x1,0xF0000; addi x2,x0,17; sb x2,0(x3); sb x2,1(x3); sb x2,2(x3); lw x4,0(x3); sw x4,8(x1)
bytes of a word | 36 | lui x3,0x80000; lui x1,0xF0000; lui x2,0xABCDE; sw x2,4(x3); lbu x4,7(x3); lb x5,6(x3); lhu x6,6(x3); add x4,x4,x6; add x4,x4,x5; sw x4,8(x1)
a word from halfwords | 36 | lui x3,0x80000; lui x1,0xF0000; addi x2,x0,0x7FF; sh x2,8(x3); sh x2,10(x3); lw x4,8(x3); lbu x5,9(x3); sb x5,0(x1); sw x4,8(x1)
stores of all widths over each other | 40 | lui x3,0x80000; lui x1,0xF0000; addi x2,x0,-1; sw x2,0(x3); sh x0,2(x3); sb x3,1(x3); lh x4,0(x3); lhu x5,2(x3); sb x4,0(x1); sh x5,0(x1); sw x4,8(x1)
a byte that is overwritten | 36 | lui x3,0x80000; lui x1,0xF0000; addi x2,x0,7; sb x2,0(x3); addi x2,x2,1; sb x2,0(x3); lbu x4,0(x3); sw x4,8(x1)
RAM that nothing wrote | 20 | lui x3,0x80000; lui x1,0xF0000; lw x2,4(x3); lbu x4,15(x3); add x2,x2,x4; sw x2,8(x1)
loads from ROM | 24 | lui x5,0x20000; lui x1,0xF0000; lw x2,0(x5); lhu x4,6(x5); lb x6,4(x5); sb x6,0(x1); sw x4,8(x1)
a copy by bytes | 50 | lui x3,0x80000; lui x1,0xF0000; addi x2,x0,0x5A5; sh x2,0(x3); addi x4,x0,2; loop: lbu x5,0(x3); sb x5,8(x3); addi x3,x3,1; addi x4,x4,-1; bne x4,x0,loop; lhu x6,6(x3); sh x6,8(x1)
output by all widths | 24 | lui x1,0xF0000; addi x2,x0,0x123; sb x2,0(x1); sh x2,0(x1); sw x2,0(x1); sb x0,8(x1)
end by a byte | 12 | lui x1,0xF0000; addi x2,x0,-2; sb x2,0(x1); sb x2,8(x1)
end by a halfword | 12 | lui x1,0xF0000; addi x2,x0,-2; sb x2,0(x1); sh x2,8(x1)
end by a word | 12 | lui x1,0xF0000; addi x2,x0,-2; sb x2,0(x1); sw x2,8(x1)
letters in a loop | 60 | lui x1,0xF0000; addi x2,x0,65; addi x4,x0,69; loop: sb x2,0(x1); addi x2,x2,1; bne x2,x4,loop; sw x0,8(x1)
a call and its return | 24 | lui x1,0xF0000; addi x2,x0,20; jal x5,double; sb x2,0(x1); sw x2,8(x1); double: add x2,x2,x2; jalr x0,0(x5)
two calls of one function | 40 | lui x1,0xF0000; addi x2,x0,3; jal x5,square; jal x5,square; sw x2,8(x1); square: mul x2,x2,x2; addi x2,x2,-1; jalr x0,0(x5)
a call in a call | 60 | lui x1,0xF0000; lui x3,0x80000; addi x2,x0,1; jal x5,outer; sw x2,8(x1); outer: sw x5,12(x3); jal x5,inner; jal x5,inner; lw x5,12(x3); jalr x0,0(x5); inner: addi x2,x2,5; jalr x0,0(x5)
a jump by register | 20 | lui x1,0xF0000; auipc x5,0; addi x2,x0,9; jalr x6,17(x5); sw x0,4(x1); sw x2,8(x1)
a link that is used | 24 | lui x1,0xF0000; jal x5,4; jalr x6,8(x5); fence; sub x2,x6,x5; sb x2,0(x1); sw x2,8(x1)
jumps that a flip misaligns | 24 | lui x1,0xF0000; lui x5,0x20000; addi x5,x5,20; jalr x2,0(x5); sw x0,4(x1); srli x2,x2,4; sb x2,0(x1); sw x0,8(x1)
factorial | 50 | lui x1,0xF0000; addi x2,x0,4; addi x4,x0,1; loop: mul x4,x4,x2; addi x2,x2,-1; bne x2,x0,loop; sb x4,0(x1); sw x4,8(x1)
power | 60 | lui x1,0xF0000; addi x2,x0,-3; addi x4,x0,1; addi x5,x0,4; loop: mul x4,x4,x2; addi x5,x5,-1; blt x0,x5,loop; sw x4,8(x1)
high halves of products | 36 | lui x1,0xF0000; lui x2,0x80000; addi x4,x0,-1; mulh x5,x2,x2; mulhsu x6,x2,x4; mulhu x7,x4,x4; xor x5,x5,x6; xor x5,x5,x7; sw x5,8(x1)
low and high half | 30 | lui x1,0xF0000; addi x2,x0,-7; addi x4,x0,-1; mul x5,x2,x4; mulhsu x6,x4,x2; mulh x7,x2,x4; sb x5,0(x1); sb x6,0(x1); sw x7,8(x1)
signed division | 30 | lui x1,0xF0000; addi x2,x0,-7; addi x4,x0,2; div x5,x2,x4; rem x6,x2,x4; sb x5,0(x1); sb x6,0(x1); sw x5,8(x1)
unsigned division | 30 | lui x1,0xF0000; addi x2,x0,-7; addi x4,x0,16; divu x5,x2,x4; remu x6,x2,x4; sb x6,0(x1); sw x5,8(x1)
division by zero | 40 | lui x1,0xF0000; addi x2,x0,-9; div x4,x2,x0; rem x5,x2,x0; divu x6,x2,x0; remu x7,x2,x0; and x4,x4,x5; and x6,x6,x7; sb x4,0(x1); sw x6,8(x1)
division that does not fit | 30 | lui x1,0xF0000; lui x2,0x80000; addi x4,x0,-1; div x5,x2,x4; rem x6,x2,x4; srli x5,x5,24; sb x5,0(x1); sw x6,8(x1)
greatest common divisor | 60 | lui x1,0xF0000; addi x2,x0,84; addi x4,x0,36; loop: remu x5,x2,x4; addi x2,x4,0; addi x4,x5,0; bne x4,x0,loop; sb x2,0(x1); sw x2,8(x1)
a value kept twice | 40 | lui x1,0xF0000; lui x3,0x80000; addi x2,x0,0x55; sw x2,0(x3); sw x2,8(x3); lw x4,0(x3); lw x5,8(x3); beq x4,x5,good; sw x0,4(x1); good: sb x4,0(x1); sw x4,8(x1)
a value kept thrice | 50 | lui x1,0xF0000; lui x3,0x80000; addi x2,x0,0x5A; sb x2,0(x3); sb x2,1(x3); sb x2,2(x3); lbu x4,0(x3); lbu x5,1(x3); lbu x6,2(x3); and x7,x4,x5; and x8,x4,x6; and x9,x5,x6; or x7,x7,x8; or x7,x7,x9; sb x7,0(x1); sw x0,8(x1)
a value and its complement | 30 | lui x1,0xF0000; addi x2,x0,100; xori x4,x2,-1; add x5,x2,x4; addi x5,x5,1; beq x5,x0,good; sb x0,4(x1); good: sw x2,8(x1)
a parity that is checked | 54 | lui x1,0xF0000; addi x2,x0,2; addi x5,x0,2; loop: andi x6,x5,1; xor x4,x4,x6; srli x5,x5,1; bne x5,x0,loop; addi x6,x0,1; beq x4,x6,good; sh x0,4(x1); good: sw x2,8(x1)
a counter that is checked | 60 | lui x1,0xF0000; addi x2,x0,4; loop: addi x4,x4,1; addi x2,x2,-1; bne x2,x0,loop; addi x5,x0,4; beq x4,x5,good; sw x4,4(x1); good: sb x4,0(x1); sb x4,8(x1)
a sum computed twice | 36 | lui x1,0xF0000; addi x2,x0,11; addi x4,x0,22; add x5,x2,x4; add x6,x4,x2; bne x5,x6,bad; sb x5,0(x1); sw x5,8(x1); bad: sw x0,4(x1)
shifts | 30 | lui x1,0xF0000; addi x2,x0,-77; addi x4,x0,35; sll x5,x2,x4; srl x6,x2,x4; sra x7,x2,x4; xor x5,x5,x6; sub x5,x5,x7; sw x5,8(x1)
shifts by constants | 30 | lui x1,0xF0000; addi x2,x0,-77; slli x4,x2,31; srli x5,x2,28; srai x6,x2,4; or x4,x4,x5; sb x6,0(x1); sw x4,8(x1)
comparisons | 36 | lui x1,0xF0000; addi x2,x0,-1; slt x4,x2,x0; sltu x5,x2,x0; slti x6,x2,-1; sltiu x7,x2,-1; slli x5,x5,1; or x4,x4,x5; or x4,x4,x6; or x4,x4,x7; sb x4,0(x1); sw x4,8(x1)
branches that are not taken | 30 | lui x1,0xF0000; addi x2,x0,-5; blt x0,x2,bad; bge x2,x0,bad; bltu x2,x0,bad; bgeu x0,x2,bad; beq x2,x0,bad; sw x2,8(x1); bad: sw x2,4(x1)
constants | 24 | lui x1,0xF0000; ori x2,x0,0x0F0; xori x2,x2,0x3C; andi x2,x2,0x7C; addi x2,x2,-1; sb x2,0(x1); sw x2,8(x1)
nothing in x0 | 24 | lui x1,0xF0000; addi x0,x1,5; lui x3,0x80000; lw x0,0(x3); fence; add x2,x0,x0; sb x2,0(x1); sw x2,8(x1)
addresses from pc | 20 | lui x1,0xF0000; auipc x2,1; auipc x4,0; sub x5,x2,x4; srli x5,x5,8; sb x5,0(x1); sw x5,8(x1)
a value that is masked | 100 | lui x1,0xF0000; addi x2,x0,1; andi x2,x2,1; sw x2,8(x1)
a byte of a word that is overwritten | 100 | lui x3,0x80000; addi x2,x0,65; sw x2,0(x3); sb x0,1(x3); lw x4,0(x3); lui x1,0xF0000; sb x4,0(x1); sw x4,8(x1)
"""


def word_of(text: str, here: int, labels: dict[str, int]) -> int:
    """The word of one instruction at an address; a branch or JAL names a label or its distance."""
    name, _, operands = text.partition(" ")
    parts = [part.strip() for part in re.split(r"[,()]", operands) if part.strip()]
    numbers = [labels[part] - here if part in labels else int(part.removeprefix("x"), 0) for part in parts]
    if name in a.REGISTER:
        return a.register(name, *numbers)
    if name in a.SHIFT:
        return a.shift(name, *numbers)
    if name in a.LOADS or name == "jalr":
        return a.immediate(name, numbers[0], numbers[2], numbers[1])
    if name in a.IMMEDIATE:
        return a.immediate(name, *numbers)
    if name in a.STORE:
        return a.store(name, numbers[0], numbers[2], numbers[1])
    if name in a.BRANCH:
        return a.branch(name, *numbers)
    if name in a.UPPER:
        return a.upper(name, *numbers)
    return a.jal(*numbers) if name == "jal" else a.fence()


def words_of(text: str) -> list[int]:
    """The words of instructions that are separated by semicolons."""
    lines, labels = [line.strip() for line in text.split(";")], {}
    for number, line in enumerate(lines):
        label, colon, rest = line.rpartition(":")
        if colon:
            labels[label], lines[number] = 4 * number, rest.strip()
    return [word_of(line, 4 * number, labels) for number, line in enumerate(lines)]


def programs() -> Iterator[tuple[str, int, list[int], str]]:
    """Each with its name, limit, words, and the instructions in its text."""
    for line in TEXT.strip().splitlines():
        name, limit, text = (part.strip() for part in line.split("|"))
        yield name, int(limit), words_of(text), text


def images() -> Iterator[Program]:
    for name, limit, words, _ in programs():
        yield Program(name, a.image([(a.ROM, a.code(words))]), limit=limit)


def counts(words: list[int], limit: int) -> tuple[int, list[int]]:
    """The number of instructions and the totals in the order of the report, by the reference."""
    case = reference.Case(range(a.ROM, a.ROM + 256), range(a.RAM, a.RAM + 16), limit)
    reference.load(a.image([(a.ROM, a.code(words))]), case)
    count, totals = reference.campaign(case)
    return count, list(totals.values())


def rows() -> Iterator[str]:
    """The lines of the table, one for each program, in the layout of `rt fmt`."""
    for name, limit, words, text in programs():
        count, totals = counts(words, limit)
        # a line ends between two instructions alone
        whole = f"{name}: {text}".replace(" ", "\0").replace(";\0", "; ")
        lines = textwrap.wrap(whole, 110, break_on_hyphens=False)
        yield from ("    // " + line.replace("\0", " ") for line in lines)
        yield "    Program {"
        yield "        words: &["
        yield from (f"            {line}" for line in textwrap.wrap(" ".join(f"0x{word:08x}," for word in words), 88))
        yield "        ],"
        yield f"        limit: {limit},"
        yield f"        instructions: {count},"
        yield f"        totals: {totals},"
        yield "    },"


def numbers(lines: Iterable[str]) -> list[int]:
    """All numbers in lines that are no comment: what the layout does not change."""
    text = "\n".join(line for line in lines if not line.strip().startswith("//"))
    return [int(digits.replace("_", ""), 0) for digits in re.findall(r"\b0x[0-9a-f_]+|\b[0-9][0-9_]*", text)]


def main() -> None:
    for line in rows():
        print(line)


if __name__ == "__main__":
    main()
