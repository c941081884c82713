"""The first word of a command that the programs refuse, and the reason: for explain.py, by the rules of
docs/FORMATS.md."""

from __future__ import annotations

import re
from collections.abc import Callable, Iterator
from dataclasses import dataclass
from difflib import get_close_matches
from pathlib import Path

from fail_star_tools.read.campaign_file import NUMBER, OUTCOMES, Refusal, Region, number_of

CASE = ("--rom", "--ram", "--limit", "--pc", "--ram-code")
FLAGS = ("--fresh", "--live", "--pc", "--ram-code")
DEFAULTS = {"--rom": "0x20000000:65536", "--ram": "0x80000000:16384"}
MOST_ROM, MOST_RAM, PORTS, END = 262_144, 65_536, Region(0xF0000000, 0x1000), 1 << 32


@dataclass(frozen=True)
class Command:
    """The files of a command, its options and its formats."""

    files: tuple[str, ...]
    options: tuple[str, ...]
    formats: tuple[str, ...] = ()


RUN = (
    "--rom",
    "--ram",
    "--limit",
    "--workers",
    "--page",
    "--stop-after",
    "--shard",
    "--fresh",
    "--pc",
    "--ram-code",
    "--format",
)
COMMANDS = {
    "run": Command(("IMAGE", "KEEP"), RUN, ("text", "json")),
    "report": Command(("IMAGE", "KEEP"), (*CASE, "--format"), ("text", "json", "csv")),
    "audit": Command(("IMAGE", "KEEP"), CASE),
    "brute": Command(("IMAGE",), (*CASE, "--format"), ("text", "json")),
    "trace": Command(("IMAGE",), ("--rom", "--ram", "--limit", "--ram-code")),
    "plan": Command(("IMAGE",), (*CASE, "--format"), ("text", "csv")),
    "sample": Command(("IMAGE",), (*CASE, "--count", "--seed", "--live")),
    "merge": Command(("IMAGE", "KEEP", "OTHER"), (*CASE, "--page", "--format"), ("text", "json")),
    "symbols": Command(("IMAGE", "KEEP"), CASE),
    "demo": Command((), ("--seed", "--blocks")),
}
PART = ("--cycles", "--code", "--function")
WINDOW = Command(
    ("IMAGE", "KEEP"),
    (*PART, *(option for option in RUN if option not in ("--fresh", "--shard"))),
    ("text", "json"),
)
EXPORT, REPLAY = Command(("IMAGE", "KEEP", "DB"), CASE), Command(("IMAGE", "CYCLE", "CELL", "BIT"), CASE)
ANSWERS = Command(("IMAGE", "KEEP"), (*CASE, "--outcome", "--workers"))
ALONE = {  # programs without commands
    "fail_window": WINDOW,
    "fail_answers": ANSWERS,
    "fail_export": EXPORT,
    "fail_replay": REPLAY,
    "fail_debug": REPLAY,
}
BOUNDS = {
    "--limit": (1, 16_777_216), "--workers": (1, 64), "--page": (1, 65_535), "--stop-after": (0, 2_147_483_647),
    "--count": (1, 1_000_000), "--seed": (0, (1 << 64) - 1), "--blocks": (1, 1024),
}  # fmt: skip
SHARD = re.compile("([0-9]{1,9})/([0-9]{1,9})", re.ASCII)


def first_wrong(words: list[str]) -> str | None:
    """The reason why the words are not a command, by the first wrong one, or None."""
    return next(complaints_of(list(words)), None)


def complaints_of(words: list[str]) -> Iterator[str]:
    """The errors, in the order of the words; those that depend on all options come last."""
    program = Path(words[0]).name if words else ""
    if program.startswith("fail_star"):
        words, program = words[1:], ""
    alone = next((command for name, command in ALONE.items() if program.startswith(name)), None)
    if alone is not None:
        command, rest = alone, words[1:]
        if program.startswith("fail_replay") and rest[:1] in (["--whole"], ["--brief"]):
            rest = rest[1:]
    elif not words:
        yield f"a command is missing: expected one of {', '.join(COMMANDS)}"
        return
    elif words[0] not in COMMANDS:
        yield f"{words[0]}: no such command{like(words[0], COMMANDS)}; there are {', '.join(COMMANDS)}"
        return
    else:
        command, rest, program = COMMANDS[words[0]], words[1:], words[0]
    for place, name in enumerate(command.files):
        if place >= len(rest) or rest[place].startswith("-"):
            before = f" after {command.files[place - 1]}" if place else " after the command"
            what = "number" if name in REPLAY.files[1:] else "file"
            yield f"{name} is missing: expected its {what}{before}, before all options"
            return
    rest = rest[len(command.files) :]
    if program.startswith("fail_replay"):
        while rest and not rest[0].startswith("-"):
            rest = rest[1:]
    yield from complaints_of_options(program, command, rest)


def complaints_of_options(program: str, command: Command, rest: list[str]) -> Iterator[str]:
    """The errors in the options of a command."""
    said: dict[str, str] = {}
    while rest:
        name, equals, value = rest[0].partition("=")
        rest = rest[1:]
        if name == "--" and not rest:
            break
        yield from complaints_of_name(program, command, name, said)
        if name in FLAGS:
            if equals:
                yield f"{name}: a flag, which takes no value"
            said[name] = ""
            continue
        if not equals:
            if not rest or rest[0].startswith("-") and rest[0] != "-":
                yield f"{name}: its value is missing"
                return
            value, rest = rest[0], rest[1:]
        said[name] = value
        yield from complaints_of_value(name, value, command)
    if command is WINDOW and not said.keys() & set(PART):
        yield f"the part of the run is missing: expected at least one of {', '.join(PART)}"
    if {"--rom", "--ram"} <= set(command.options):
        yield from complaints_of_map(said)


def complaints_of_name(program: str, command: Command, name: str, said: dict[str, str]) -> Iterator[str]:
    """The error in the name of an option, if there is one."""
    every = sorted({option for one in (*COMMANDS.values(), WINDOW, ANSWERS) for option in one.options})
    if not name.startswith("-"):
        yield f"{name}: a word that belongs to no option; files come directly after the command"
    elif name not in every:
        yield f"{name}: no such option{like(name, command.options)}"
    elif name not in command.options:
        yield f"{name}: no option of {program}, which has {', '.join(command.options)}"
    elif name in said:
        yield f"{name}: it is repeated"


def like(word: str, known: object) -> str:
    """The word that may have been meant."""
    near = get_close_matches(word, list(known), 1)  # type: ignore[call-overload]
    return f"; did you mean {near[0]}?" if near else ""


def complaints_of_value(name: str, value: str, command: Command) -> Iterator[str]:
    """The error in the value of an option, if there is one."""
    if name in BOUNDS:
        least, most = BOUNDS[name]
        complaint = complaint_of_number(value)
        if complaint:
            yield f"{name} {value}: {complaint}"
        elif not least <= number_of(value) <= most:
            yield f"{name} {value}: expected {least} to {most}"
    elif name == "--shard":
        match = SHARD.fullmatch(value)
        if match is None or not 1 <= int(match[1]) <= int(match[2]) <= 65_535:
            yield f"{name} {value}: expected i/n with 1 <= i <= n <= 65535, such as 3/16"
    elif name in ("--cycles", "--code"):
        yield from complaints_of_span(name, value)
    elif name == "--outcome":
        for word in value.split(","):
            if word not in OUTCOMES:
                expected = f"expected outcomes, with commas between them: {', '.join(OUTCOMES)}"
                yield f"{name} {value}: {word or 'nothing'}: {expected}"
    elif name == "--format" and value not in command.formats:
        yield f"{name} {value}: expected {' or '.join(command.formats)}"
    elif name in DEFAULTS:
        yield from complaints_of_region(name, value)


def complaints_of_span(name: str, value: str) -> Iterator[str]:
    """The error in a range, if there is one."""
    start, dots, end = value.partition("..")
    if not dots:
        yield f"{name} {value}: expected START..END, such as {'100..200' if name == '--cycles' else '0x20000000..0x20000040'}"
        return
    for part in (start, end):
        complaint = complaint_of_number(part)
        if complaint:
            yield f"{name} {value}: {part or 'nothing'}: {complaint}"
            return
    if number_of(start) >= number_of(end):
        yield f"{name} {value}: START is not below END, so nothing is in the range"
    elif number_of(end) > END:
        yield f"{name} {value}: END is past 2^32"


def complaint_of_number(word: str) -> str | None:
    """The reason why a word is not a valid number."""
    if NUMBER.fullmatch(word):
        return None
    if re.fullmatch("[0-9a-fA-F]+", word) and not re.fullmatch("[0-9]+[eE][0-9]+", word):
        return "hexadecimal digits need 0x in front"
    return (
        "expected decimal digits, or 0x and hexadecimal ones: no sign, no point, no exponent, no space, no underscore"
    )


def complaints_of_region(name: str, value: str) -> Iterator[str]:
    """The error in one region, if there is one."""
    parts = value.split(":")
    if len(parts) != 2:
        yield f"{name} {value}: expected BASE:SIZE, such as {DEFAULTS[name]}"
        return
    for part in parts:
        complaint = complaint_of_number(part)
        if complaint:
            yield f"{name} {value}: {part or 'nothing'}: {complaint}"
            return
    region, most = Region.of(value), MOST_ROM if name == "--rom" else MOST_RAM
    for what, number in (("BASE", region.base), ("SIZE", region.size)):
        if number % 4:
            yield f"{name} {value}: {what} is {number}, which is not a multiple of 4"
    if not 4 <= region.size <= most:
        yield f"{name} {value}: SIZE is {region.size}, and {name[2:].upper()} has 4 to {most} bytes"
    elif region.base + region.size > END:
        yield f"{name} {value}: it ends at {region.base + region.size:#x}, past 2^32"


def complaints_of_map(said: dict[str, str]) -> Iterator[str]:
    """The error in the two regions together, given or default, if there is one."""
    try:
        regions = {name: Region.of(said.get(name, DEFAULTS[name])) for name in DEFAULTS}
    except Refusal:
        return
    how: Callable[[str], str] = (
        lambda name: f"{name} {regions[name]}" if name in said else f"the default {name} {regions[name]}"
    )
    rom, ram = regions["--rom"], regions["--ram"]
    if meet(rom, ram):
        other = "--rom" if "--ram" in said else "--ram"
        hint = "" if other in said else f": say {other} too"
        yield f"{how('--ram')} overlaps {how('--rom')}{hint}"
    for name, region in regions.items():
        if meet(region, PORTS):
            yield f"{how(name)} overlaps the ports at {PORTS.base:#x} to {PORTS.base + PORTS.size - 1:#x}"


def meet(one: Region, other: Region) -> bool:
    """Whether two regions share an address."""
    return one.base < other.base + other.size and other.base < one.base + one.size
