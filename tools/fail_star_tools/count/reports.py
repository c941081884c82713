"""Counts of campaigns, as `fail_star run` and `report` write them: as text or as JSON, by today's version or an older one."""

from __future__ import annotations

import json
import os
import re
from dataclasses import dataclass
from pathlib import Path

from fail_star_tools.read.campaign_file import OUTCOMES, Refusal
from fail_star_tools.read.cells import bits_of
from fail_star_tools.read.job_table import OLD_TRAP, TRAP_KINDS

OLD_OUTCOMES = ("no-effect", "silent", "detected", OLD_TRAP, "timeout")
NUMBERS, OLD_NUMBERS = (("instructions", "sites", *outcomes) for outcomes in (OUTCOMES, OLD_OUTCOMES))
WINDOW = "window"  # the instructions of a part of the run, in a report of fail_window
WINDOW_NUMBERS = (NUMBERS[0], WINDOW, *NUMBERS[1:])
LONGEST_REPORT = 1_000_000


@dataclass
class Report:
    """The counts of a campaign, by the words of NUMBERS or, for an older version, of OLD_NUMBERS, and the settings: a
    limit, an exit value or flags that are not known are None."""

    name: str
    counts: dict[str, int]
    limit: int | None = None
    exit: int | None = None
    flags: list[str] | None = None
    sent: str | None = None  # by the run without a fault, as `trace` writes it
    warning: str | None = None  # if its RAM is not the one that the image was linked for
    classes: dict[str, int] | None = None  # the sites by answer classes, if the command line asks for them
    code: int | None = None  # the bytes of executable segments in ROM
    stack: int | None = None  # the lowest address of the stack that the run without a fault uses
    port_flips: int | None = None  # the silent sites that turn one port's address into another's, if the command line asks for them

    @property
    def ram(self) -> int | None:
        """The size of RAM in bytes: each instruction has one site for each bit of the registers, of RAM and, with the
        flag, of the pc."""
        instructions, sites = self.counts.get(WINDOW, self.counts["instructions"]), self.counts["sites"]
        others = bits_of("--pc" in (self.flags or []), 0)
        bits = sites // instructions - others if instructions and sites % instructions == 0 else -1
        return bits // 8 if bits > 0 and bits % 8 == 0 else None

    @property
    def ending(self) -> tuple[str | None, int | None]:
        """The output and the exit value of the run without a fault."""
        return self.sent, self.exit

    @property
    def old(self) -> bool:
        """Whether the counts come from an older version."""
        return OLD_TRAP in self.counts

    def number(self, name: str) -> str:
        """A number of the table: also of all traps together, and of a kind of traps if it is known."""
        if name == OLD_TRAP and not self.old:
            return str(sum(self.counts[kind] for kind in TRAP_KINDS))
        return str(self.counts[name]) if name in self.counts else "?"


# --- Reports --------------------------------------------------------------------------------------


def counts_of(text: str) -> dict[str, int]:
    """The counts that a report gives, as text or as JSON."""
    counts = counts_of_json(text) if text.lstrip().startswith("{") else counts_of_text(text)
    total = sum(counts.values()) - counts["instructions"] - counts.get(WINDOW, 0) - counts["sites"]
    if total != counts["sites"]:
        raise Refusal(f"the outcomes add up to {total}, but there are {counts['sites']} sites")
    return counts


def counts_of_text(text: str) -> dict[str, int]:
    """The counts of a report's lines: nine, ten of fail_window, or seven of an older version."""
    lines = text.splitlines()
    names = OLD_NUMBERS if any(line.startswith(f"{OLD_TRAP} ") for line in lines) else NUMBERS
    names = WINDOW_NUMBERS if any(line.startswith(f"{WINDOW} ") for line in lines) else names
    for number, (name, line) in enumerate(zip(names, lines), 1):
        if not re.fullmatch(f"{name} (0|[1-9][0-9]{{0,17}})", line):
            raise Refusal(f"line {number}: expected {name} and a number, found {line[:60]!r}")
    if len(lines) != len(names):
        raise Refusal(f"expected the {len(names)} lines of a report, found {len(lines)}")
    return {name: int(line.split()[1]) for name, line in zip(names, lines)}


def counts_of_json(text: str) -> dict[str, int]:
    """The counts of a report in JSON, whose keys have an underscore in place of a hyphen."""
    try:
        found = json.loads(text)
    except (ValueError, RecursionError) as error:
        raise Refusal(f"expected a JSON object: {error}") from None
    names = WINDOW_NUMBERS if WINDOW in found else OLD_NUMBERS if OLD_TRAP in found else NUMBERS
    keys = {name.replace("-", "_"): name for name in names}
    if sorted(found) != sorted(keys):
        raise Refusal(f"expected the keys {', '.join(sorted(keys))}, found {', '.join(sorted(found))[:200]}")
    for key, value in found.items():
        if type(value) is not int or value < 0:
            raise Refusal(f"{key}: expected a whole number, found {value!r:.60}")
    return {name: found[key] for key, name in keys.items()}


def parts_of(argument: str) -> tuple[str, str | None, str]:
    """The name, the image, if there is one, and the file of an argument [NAME=][IMAGE,]FILE. An argument that is the
    name of a file is not split."""
    name, equals, files = argument.partition("=")
    if not equals or os.path.exists(argument):
        name, files = "", argument
    image, comma, file = split_of(files)
    if not comma or os.path.exists(files):
        return name or Path(files).stem, None, files
    return name or Path(file).stem, image, file


def split_of(files: str) -> tuple[str, str, str]:
    """An image, a comma and a file. If names have commas, the argument is split at the first comma with a file on
    each side, or otherwise at the last comma."""
    for place, letter in enumerate(files):
        if letter == "," and os.path.exists(files[:place]) and os.path.exists(files[place + 1 :]):
            return files[:place], ",", files[place + 1 :]
    return files.rpartition(",")
