"""A second reading of the command line of fail_star: which lines of words are commands, and what each asks for.

It follows docs/FORMATS.md, "The command line", whose rules are restated at the functions below.
"""

from __future__ import annotations

import dataclasses
import re
from collections.abc import Sequence

from machine import MASK, PORT_PAGE, Case

LONGEST_RUN = 16_777_216
USAGE = """\
usage: fail_star run IMAGE KEEP [options]
usage: fail_star brute IMAGE [options]
usage: fail_star trace IMAGE [options]
usage: fail_star plan IMAGE [options]
usage: fail_star report IMAGE KEEP [options]
usage: fail_star audit IMAGE KEEP [options]
usage: fail_star sample IMAGE [options]
usage: fail_star merge IMAGE KEEP OTHER [options]
usage: fail_star symbols IMAGE KEEP [options]
usage: fail_star demo [--seed S] [--blocks K]"""


class Refusal(Exception):
    """The end of a command by another status than 0, with its line on standard error."""

    def __init__(self, status: int, text: str) -> None:
        super().__init__(text)
        self.status, self.text = status, text


def number(word: str, least: int, most: int) -> int | None:
    """1 to 20 decimal digits, or 0x or 0X and 1 to 16 hexadecimal digits; None for any other word."""
    if re.fullmatch("[0-9]{1,20}", word):
        value = int(word)
    elif re.fullmatch("0[xX][0-9a-fA-F]{1,16}", word):
        value = int(word[2:], 16)
    else:
        return None
    return value if least <= value <= most else None


def region(word: str, most: int) -> range | None:
    """A region BASE:SIZE, aligned to 4 bytes, of 4 to `most` bytes, below 2^32; None for any other word."""
    parts = [number(part, 0, MASK) for part in word.split(":")]
    numbers = [part for part in parts if part is not None]
    if len(parts) != 2 or len(numbers) != 2:
        return None
    base, size = numbers
    if base % 4 or size % 4 or not 4 <= size <= most or base + size > 1 << 32:
        return None
    return range(base, base + size)


def shard_of(word: str) -> tuple[int, int] | None:
    """A shard I/N, two decimal numbers, 1 <= I <= N <= 65535; None for any other word."""
    if not re.fullmatch("[0-9]{1,20}/[0-9]{1,20}", word):
        return None
    part, parts = map(int, word.split("/"))
    return (part, parts) if 1 <= part <= parts <= 65535 else None


def overlap(one: range, other: range) -> bool:
    return max(one.start, other.start) < min(one.stop, other.stop)


# The options that say the case, and those of all that take no value.
CASE = ("--rom", "--ram", "--limit", "--pc", "--ram-code")
FLAGS = ("--fresh", "--pc", "--ram-code", "--live")
# The commands that are there, each with the number of its words in capitals, the options that it has and its formats; and each
# option with what it means where it is missing.
COMMANDS = {
    "run": (2, (*CASE, "--workers", "--page", "--stop-after", "--fresh", "--shard", "--format"), ("text", "json")),
    "report": (2, (*CASE, "--format"), ("text", "json", "csv")),
    "audit": (2, CASE, ("text",)),
    "brute": (1, (*CASE, "--format"), ("text", "json")),
    "trace": (1, tuple(name for name in CASE if name != "--pc"), ("text",)),
    "plan": (1, (*CASE, "--format"), ("text", "csv")),
    "sample": (1, (*CASE, "--count", "--seed", "--live"), ("text",)),
    "merge": (3, (*CASE, "--page", "--format"), ("text", "json")),
    "symbols": (2, CASE, ("text",)),
    "demo": (0, ("--seed", "--blocks"), ("text",)),
}
DEFAULTS = {"--rom": "0x20000000:65536", "--ram": "0x80000000:16384", "--limit": "1000000", "--format": "text"}
DEFAULTS |= {"--seed": "0", "--blocks": "8", "--workers": "4", "--page": "4096", "--count": "1000", "--shard": "1/1"}


def options(words: Sequence[str], names: Sequence[str]) -> dict[str, str] | None:
    """The values of the options, each at most once and in any order, as `NAME VALUE` or `NAME=VALUE`, and the flags, which take
    none; `--` may stand last. None where the words are nothing of that. A value in a word of its own does not begin with a hyphen:
    the one word `-`, which would be one, is no number, no region and no format."""
    values: dict[str, str] = {}
    rest = list(words)
    while rest:
        name, equals, value = rest.pop(0).partition("=")
        if (name, equals) == ("--", ""):
            return values if not rest else None
        if name not in names or name in values or (name in FLAGS and equals):
            return None
        if name not in FLAGS and not equals:
            if not rest or rest[0].startswith("-"):
                return None
            value = rest.pop(0)
        values[name] = value
    return values


def made_case(seed: int, blocks: int) -> Case:
    """The case of a generated program. A block is chosen by the upper half of a 64-bit state, after each step of that."""
    code = [0xF00000B7, 0x800001B7]
    for _ in range(blocks):
        seed = (seed * 6364136223846793005 + 1442695040888963407) % (1 << 64)
        draw = seed >> 32
        immediate, offset = (draw >> 4) & 255, (draw >> 16) & 15
        addi, sb, lbu = 0x00010113 | immediate << 20, 0x00218023 | offset << 7, 0x0001C103 | offset << 20
        code.append((addi, sb, lbu, 0x00208023)[draw & 3])
    code.append(0x0020A423)
    case = Case(range(0x20000000, 0x20002000), range(0x80000000, 0x80000010), 10000)
    case.entry = 0x20000000
    for place, word in enumerate(code):
        for byte in range(4):
            case.poke(0x20000000 + 4 * place + byte, word >> 8 * byte & 255)
    return case


@dataclasses.dataclass
class Line:
    """What a line asks for: a blank case or, without files, one that was made."""

    command: str
    case: Case
    files: list[str]
    layout: str
    page: int
    stop_after: int | None
    fresh: bool
    seed: int
    count: int
    live: bool
    shard: tuple[int, int]


def line_of(words: list[str]) -> Line:
    """What a line of words asks for, or its refusal."""
    usage = Refusal(1, USAGE)
    if not words or words[0] not in COMMANDS:
        raise usage
    named, names, formats = COMMANDS[words[0]]
    files, values = words[1 : 1 + named], options(words[1 + named :], names)
    if len(files) != named or any(file.startswith("-") for file in files) or values is None:
        raise usage
    values = DEFAULTS | values
    rom, ram = region(values["--rom"], 262_144), region(values["--ram"], 65_536)
    limit = number(values["--limit"], 1, LONGEST_RUN)
    if rom is None or ram is None or limit is None or values["--format"] not in formats:
        raise usage
    if overlap(rom, ram) or overlap(rom, PORT_PAGE) or overlap(ram, PORT_PAGE):
        raise usage
    seed, blocks = number(values["--seed"], 0, (1 << 64) - 1), number(values["--blocks"], 1, 1024)
    workers, page = number(values["--workers"], 1, 64), number(values["--page"], 1, 65535)
    stop_after = number(values.get("--stop-after", "0"), 0, (1 << 31) - 1)
    count, shard = number(values["--count"], 1, 1_000_000), shard_of(values["--shard"])
    if seed is None or blocks is None or workers is None or page is None:
        raise usage
    if stop_after is None or count is None or shard is None:
        raise usage
    case = made_case(seed, blocks) if words[0] == "demo" else Case(rom, ram, limit, "--pc" in values, "--ram-code" in values)
    budget = stop_after if "--stop-after" in values else None
    return Line(words[0], case, files, values["--format"], page, budget, "--fresh" in values, seed, count, "--live" in values, shard)
