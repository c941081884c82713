"""Runs a command on a campaign file with the options that the file was made with, so that you need not repeat them.

    again.py report checksum.elf checksum.keep --format csv
    again.py audit checksum.keep
    again.py replay checksum.keep 120 15 3
    again.py export checksum.elf checksum.keep jobs.db
    again.py window checksum.elf checksum.keep --function main

COMMAND is run, report, symbols, audit, merge, export, replay, window or answers.
Without IMAGE an image is made from the bytes in KEEP; it has no symbols. Other
options follow, as for the program. --program, --export, --replay, --window and
--answers name programs that are not on the path. --version prints the version of
the tools.
"""

from __future__ import annotations

import os
import subprocess

from fail_star_tools.command_line import ABOUT, about
from fail_star_tools.read import campaign_file, regular
from fail_star_tools.read.campaign_file import Refusal
from fail_star_tools.run import program
from fail_star_tools.words import complain

USAGE = "usage: again.py COMMAND [IMAGE] KEEP [words of the command ..]"
OF_STAR = ("run", "report", "symbols", "audit", "merge")
OTHERS = {"export": "fail_export", "replay": "fail_replay", "window": "fail_window", "answers": "fail_answers"}
PROGRAMS = {**dict.fromkeys(OF_STAR, "fail_star"), **OTHERS}
OWN = {"--program": "fail_star", **{f"--{command}": name for command, name in OTHERS.items()}}
VIEWS = ("--whole", "--brief")


def taken(words: list[str]) -> tuple[list[str], dict[str, str]]:
    """The words without the options that name programs, and the programs that these name."""
    rest, said = [], {}
    waiting = list(words)
    while waiting:
        name, equals, value = waiting.pop(0).partition("=")
        if name not in OWN:
            rest.append(name + equals + value)
        elif equals or waiting:
            said[OWN[name]] = value if equals else waiting.pop(0)
        else:
            raise Refusal(f"{name}: its file is missing")
    return rest, said


def found(name: str, said: dict[str, str]) -> str:
    """A program: the given one, or the one on the path or of the last build."""
    called = said[name] if name in said else program.unnamed(name)
    if called is None:
        option = next(option for option, of in OWN.items() if of == name)
        raise Refusal(f"{name} is not on the path: name it with {option}")
    return called


def answer(words: list[str]) -> int:
    """The exit status of the program."""
    rest, said = taken(words)
    command, rest = rest[0] if rest else "nothing", rest[1:]
    if command not in PROGRAMS:
        raise Refusal(f"{command[:60]}: expected one of {', '.join(PROGRAMS)}")
    view = [rest.pop(0)] if command == "replay" and rest[:1] and rest[0] in VIEWS else []
    files = [word for word in rest[:2] if os.path.exists(word) and not os.path.isdir(word)]
    if not files:
        raise Refusal(f"expected a campaign file, found {rest[0][:60] if rest else 'nothing'!r}")
    image = files[0] if len(files) == 2 and not is_campaign(files[0]) else None
    keep, behind = (files[1], rest[2:]) if image else (files[0], rest[1:])
    campaign = campaign_file.read(keep)
    called = found(PROGRAMS[command], said)
    with program.image_of(campaign.card, image) as name:
        words = [command] if command in OF_STAR else view
        words += [name] if command == "replay" else [name, keep]
        return subprocess.run([called, *words, *behind, *campaign.card.options()], check=False).returncode


def is_campaign(path: str) -> bool:
    """Whether a file was begun as a campaign file."""
    with regular.opened(path) as file:
        return campaign_file.is_campaign(file.read(8))


def main(words: list[str]) -> int:
    """The exit status: that of the program, 1 if it was not called, and 2 without words."""
    if not words or words[0] in ABOUT:
        return about("again", words, USAGE, __doc__ or "")
    try:
        return answer(words)
    except (Refusal, OSError) as error:
        complain("again", error)
        return 1
