"""Says what a line on the error output of fail_star, fail_window, fail_answers, fail_export, fail_replay or fail_debug
means, or an exit status, and what to do.

    explain.py STATUS-LINE [WORD ..]

STATUS-LINE is the whole line, the line from its number on ("6 OtherCase at 17"), or only the exit status. The words
of the command may follow it, as they were typed: then the tool also looks at the campaign file, the image and the
options, and says what is wrong there. For a golden run that does not halt, the program's own trace gives the last
instruction.

With --version, it prints the version of the tools.
"""

from __future__ import annotations

import re
from collections.abc import Callable
from dataclasses import dataclass, field
from difflib import get_close_matches
from pathlib import Path

from fail_star_tools.command_line import ABOUT, about
from fail_star_tools.read import campaign_file, elf_image
from fail_star_tools.read.campaign_file import NUMBERS, Card, Refusal, Region, number_of
from fail_star_tools.read.cells import FIRST_BYTE, PC, end_of_cells, offset_of, width_of
from fail_star_tools.run import causes, image_faults, last_word
from fail_star_tools.run.program import Ended
from fail_star_tools.run.wrong_word import first_wrong
from fail_star_tools.words import printable, say

USAGE = "usage: explain.py STATUS-LINE [the words of the command ..]"
FILES = {"run": 2, "report": 2, "audit": 2, "brute": 1, "trace": 1, "plan": 1, "sample": 1, "merge": 3, "symbols": 2, "demo": 0}
# The programs that have no commands, with the number of their files.
ALONE = {"fail_window": 2, "fail_answers": 2, "fail_export": 3, "fail_replay": 1, "fail_debug": 1}
VIEWS = ("--whole", "--brief")
DEFAULTS = {"--rom": "0x20000000:65536", "--ram": "0x80000000:16384", "--limit": "1000000"}
FLAGS = ("--pc", "--ram-code")
MOST_HINTS = 2

STATUSES = (
    "The job was done.",
    "The words are not a valid command: its files come directly after it, then the options, each at most once.",
    "The image could not be read: is its name right?",
    "The image is not an ELF file that can be loaded; the line says why.",
    "The run without a fault does not halt, so there is nothing to compare with; `fail_star trace` shows it.",
    "The campaign file could not be read or written: a full disk, no permission, a folder, a missing folder, or another command uses it.",
    "The file is not a campaign file of this case; the line says why. It was not changed.",
    "Jobs are still missing: repeat the same `run` command.",
    "The output could not be written: a full disk, or a reader that is gone.",
    "There was not enough memory.",
    "The other campaign file of a merge was refused; or, of fail_window, no instruction is in the part. The line says why. KEEP was not changed.",
    "The other campaign file of a merge could not be read: is its name right?",
    "The jobs could not be stored: DB is no database, has a table `jobs` that no export made, cannot be written, or is in a folder that does not exist.",
    "The campaign has no such site: is the cycle one of the run without a fault, the cell one of its cells, the bit one of the cell?",
    "The input, from which the packets of GDB come, could not be read: start fail_debug by `target remote | fail_debug ..`.",
)

@dataclass
class Said:
    """The words of a command: its files, and those of its options and flags that belong to the case."""

    files: list[str] = field(default_factory=list)
    options: dict[str, str] = field(default_factory=dict)
    flags: list[str] = field(default_factory=list)
    words: list[str] = field(default_factory=list)  # all of them

    @property
    def command(self) -> str:
        """The command, or a program without commands."""
        words = self.words[1:] if self.words and Path(self.words[0]).name.startswith("fail_star") else self.words
        return Path(words[0]).name if words else ""

    def trace_options(self) -> list[str]:
        """The options of `trace` for the same case."""
        options = [word for name, value in self.options.items() for word in (name, value)]
        return options + ["--ram-code"] * ("--ram-code" in self.flags)

    @property
    def keep(self) -> str | None:
        """The campaign file, if the words name one."""
        return self.files[1] if len(self.files) > 1 else None

    def value(self, name: str) -> str:
        """The value of an option, given or default."""
        return self.options.get(name, DEFAULTS[name])

    def how(self, name: str) -> str:
        """The words that say whether a value was given or is the default."""
        return "you gave" if name in self.options else f"without {name} it is"


def said_by(words: list[str]) -> Said:
    """The words of a command, with or without `fail_star` before them."""
    rest = list(words)
    if rest and Path(rest[0]).name.startswith("fail_star"):
        rest.pop(0)
    name = next((name for name in ALONE if rest and Path(rest[0]).name.startswith(name)), None)
    if name and rest[1:2] and rest[1] in VIEWS:
        rest.pop(1)
    count = ALONE[name] if name else FILES.get(rest[0], 0) if rest else 0
    said = Said(files=rest[1 : 1 + count], words=words)
    rest = rest[1 + count :]
    while rest:
        name, equals, value = rest.pop(0).partition("=")
        if name in DEFAULTS:
            said.options[name] = value if equals else rest.pop(0) if rest else ""
        elif name in FLAGS:
            said.flags.append(name)
    return said


# --- Another case ---------------------------------------------------------------------------------


@dataclass(frozen=True)
class Part:
    """A number of the card: its name, the option that says it, and how to find it in a card and in the option's word."""

    name: str
    option: str
    kept: Callable[[Card], int]
    wanted: Callable[[str], int]
    address: bool = False

    def text(self, value: int) -> str:
        """A value as the user writes it."""
        return f"{value:#010x}" if self.address else str(value)


PARTS = {
    5: Part("--rom's base", "--rom", lambda card: card.rom.base, lambda word: Region.of(word).base, True),
    9: Part("--rom's size", "--rom", lambda card: card.rom.size, lambda word: Region.of(word).size),
    13: Part("--ram's base", "--ram", lambda card: card.ram.base, lambda word: Region.of(word).base, True),
    17: Part("--ram's size", "--ram", lambda card: card.ram.size, lambda word: Region.of(word).size),
    21: Part("--limit", "--limit", lambda card: card.limit, number_of),
}
SAME = "Use the options with which KEEP was made, or another name for the new campaign."


def other_kind(card: Card | None, said: Said) -> list[str]:
    """The flags by which a campaign file differs."""
    if card is None:
        return [f"{' or '.join(FLAGS)}: KEEP was made with one of them that is missing now, or without one that you gave.", SAME]
    lines = [f"{flag}: KEEP was made with it, and you did not give it." for flag in card.flags() if flag not in said.flags]
    lines += [f"{flag}: KEEP was made without it, and you gave it." for flag in said.flags if flag not in card.flags()]
    return [*(lines or ["The flags are the same: the line came from another command."]), f"KEEP continues with: {' '.join(card.options())}"]


def other_case(at: int, said: Said) -> list[str]:
    """The difference between the case of a campaign file and that of the words, by the first position at which the
    two cards differ."""
    card = campaign_file.read(said.keep).card if said.keep else None
    if at in range(5, NUMBERS.size):
        part = PARTS[at - (at - 5) % 4]
        if card is None:
            return [f"{part.name}: KEEP was made with another one.", SAME]
        wanted = part.wanted(said.value(part.option))
        lines = [f"{part.name}: KEEP has {part.text(part.kept(card))} and {said.how(part.option)} {part.text(wanted)}"]
        if part.kept(card) == wanted:
            lines.append("The values are the same: the line came from another command.")
        return [*lines, f"KEEP continues with: {' '.join(card.options())}"]
    if at == 0:
        return other_kind(card, said)
    anew = "The program was rebuilt, or this is another image: the old outcomes say nothing about it. Use another name for KEEP."
    if at < 5:
        return ["the image's entry address is another one than in KEEP.", anew]
    rom_size = card.rom.size if card else Region.of(said.value("--rom")).size
    offset = at - NUMBERS.size
    name, base, place = ("ROM", "--rom", offset) if offset < rom_size else ("RAM", "--ram", offset - rom_size)
    start = (card.rom if name == "ROM" else card.ram).base if card else Region.of(said.value(base)).base
    return [f"the image has another byte at {start + place:#010x} ({name}) than KEEP.", anew]


# --- Images and golden runs -----------------------------------------------------------------------


def trapped(cycle: int, said: Said) -> list[str]:
    """Reasons why a run without a fault may trap."""
    image = image_of(said)
    if image and image_faults.looks_compressed(image):
        return ["the image has compressed instructions: build with -march=rv32im, and use libraries that were built in the same way."]
    lines = [f"instruction {cycle} (counted from 0) is not one of RV32IM, or accesses an address without ROM, RAM or a port."]
    lines += last_instruction(said)
    if image and image_faults.needs_more_ram(image, Region.of(said.value("--ram"))):
        return [*lines, "The image's data do not fit into --ram: use the size that it was linked with."]
    if image and "--ram-code" not in said.flags and image_faults.runs_from_ram(image, Region.of(said.value("--ram"))):
        return [*lines, "The image has code that runs from RAM: use --ram-code, which allows that."]
    if len(lines) > 1:
        return lines
    often = "Usual causes: the stack begins past the end of --ram, because the image was linked with more; or -march has a c."
    return [*lines, often, "`fail_star trace` shows the last instruction: its address and its word."]


def last_instruction(said: Said) -> list[str]:
    """The last instruction of the run, if the image and the program are there."""
    if not said.files:
        return []
    steps = last_word.steps_of(said.files[0], said.trace_options())
    return last_word.lines_of(steps, Region.of(said.value("--rom")), Region.of(said.value("--ram")))


def image_of(said: Said) -> str | None:
    """The image, if the words name one."""
    return said.files[0] if said.files else None


def bad_image(number: int, said: Said) -> list[str]:
    """Why an image is refused."""
    return image_faults.refused(number, image_of(said), said.value("--rom"), said.value("--ram"))


def some_fault(said: Said) -> list[str]:
    """What is wrong with an image, without the number of its fault."""
    image, rom, ram = image_of(said), said.value("--rom"), said.value("--ram")
    return [STATUSES[3], *(image_faults.seen(image, rom, ram) if image is not None else [])]


def unread_image(said: Said) -> list[str]:
    """Why an image could not be read."""
    image = image_of(said)
    if image is None:
        return [STATUSES[2]]
    return [image_faults.unread(image) or f"{image} can be read now: repeat the command."]


# --- Words and files ---------------------------------------------------------------------------------


def usage(said: Said) -> list[str]:
    """Which word is wrong."""
    complaint = first_wrong(said.words) if said.words else None
    rules = "Numbers without 0x are decimal, and BASE and SIZE are multiples of 4; docs/FORMATS.md has all rules."
    if complaint is not None:
        return [complaint]
    return [STATUSES[1], "These words are a valid command: the line came from another one." if said.words else rules]


def keep_failed(said: Said) -> list[str]:
    """Why the campaign file could not be read or written."""
    if said.keep is None:
        return [STATUSES[5]]
    cause = causes.cause_of(said.keep, said.files[0])
    return [cause] if cause is not None else [STATUSES[5], "None of these causes holds now: repeat the command."]


def not_stored(said: Said) -> list[str]:
    """Why an export could not be stored."""
    database = said.files[2] if len(said.files) > 2 else None
    if database is not None and causes.has_journal(database):
        return [
            f"{database}-journal: a program stopped in the middle of a transaction, and fail_export does not undo it.",
            f"Read something once, as by `sqlite3 {database} .tables`: that undoes it. Then repeat the command.",
        ]
    return [STATUSES[12]]


def no_campaign(said: Said) -> list[str]:
    """The kind of a file that is not a campaign file."""
    if said.keep is None:
        return ["KEEP is not a campaign file, or its creation was interrupted.", "`run --fresh` overwrites it: look first what it is."]
    return [causes.what_is(said.keep)]


def stopped(kept: int, jobs: int, said: Said) -> list[str]:
    """Why jobs are missing."""
    if said.keep is not None and said.command not in ("run", "merge") and causes.is_missing(said.keep):
        return [f"no such campaign file: {said.keep}. `run` makes it."]
    if said.command.startswith("fail_window"):
        return ["Jobs of the part are missing: repeat the same command without --stop-after."]
    return [f"{jobs - kept} jobs are missing: repeat `run`."]


# --- Parts ----------------------------------------------------------------------------------------


def no_part(reason: str, said: Said) -> list[str]:
    """Why no instruction is in a part of the run."""
    if found := re.fullmatch("no function (.+)", reason):
        near = functions_like(found[1], said)
        hint = f" Did you mean {near[0]}?" if near else ""
        return [f"the image has no function {found[1]}: the compiler may have moved it into its callers, or named it otherwise.{hint}"]
    if reason == "the image has no functions":
        return ["the symbol table of the image has no functions: link without -s and do not strip, or use --cycles or --code."]
    if found := re.fullmatch(r"the golden run has (\d+) instructions", reason, re.ASCII):
        return [f"--cycles begins after the end: the instructions of the run are numbered from 0 to {int(found[1]) - 1}."]
    return ["the run without a fault executes no such instruction: `fail_star trace` shows the number and the address of each."]


def functions_like(name: str, said: Said) -> list[str]:
    """Functions of the image whose names are similar."""
    image = image_of(said)
    if image is None:
        return []
    return get_close_matches(name, elf_image.read(image).function_ranges, 1)


# --- Sites ----------------------------------------------------------------------------------------


def no_site(cycle: int, cell: int, bit: int, said: Said) -> list[str]:
    """The reason why a campaign does not have a site."""
    if cell == PC and "--pc" not in said.flags:
        return ["cell 0 is the pc, which is a cell only with --pc."]
    ram = Region.of(said.value("--ram"))
    if cell >= end_of_cells(ram.size):
        return [f"cell {cell} is byte {offset_of(cell)} of RAM, counted from 0, and {said.how('--ram')} {ram}."]
    if bit >= width_of(cell):
        return [f"cell {cell} has no bit {bit}: a register and the pc have bits 0 to 31, and a byte of RAM, from cell {FIRST_BYTE} on, 0 to 7."]
    return [f"the run without a fault has no instruction {cycle}, counted from 0: `fail_star trace` shows all that it has."]


# --- Lines ----------------------------------------------------------------------------------------

OTHER = "other campaign file refused: "
DISAGREE = "OTHER has another outcome than KEEP for cell {1}, bit {2} at cycle {0}: one of the two is wrong, and `audit` of each says which."


def bad_other(reason: str, said: Said) -> list[str]:
    """Why the other campaign file of a merge is refused: for a reason that also holds for KEEP, or for one of its
    own."""
    if reason == "7 TooLong":
        return ["OTHER has more than 268,435,456 bytes."]
    if found := re.fullmatch(r"8 Disagree at cycle (\d+) cell (\d+) bit (\d+)", reason, re.ASCII):
        return [DISAGREE.format(*found.groups())]
    if not reason[:1].isdigit():
        raise Refusal(f"{reason[:60]!r} is not a reason to refuse a campaign file")
    alone = Said(said.files[:1] + said.files[2:3], said.options, said.flags)
    return [line.replace("KEEP", "OTHER") for line in explained(reason, alone)]


LINES: list[tuple[str, Callable[[re.Match[str], Said], list[str]]]] = [
    (r"6 OtherCase at (\d+)", lambda found, said: other_case(int(found[1]), said)),
    (r"1 NotACampaign", lambda found, said: no_campaign(said)),
    (r"2 Version", lambda found, said: ["KEEP was written by a fail_star with another version of the file."]),
    (r"3 Cut", lambda found, said: ["KEEP ends too early: it was shortened, or copied in part."]),
    (r"4 BadRow at (\d+)", lambda found, said: [f"the row at byte {found[1]} of KEEP has an outcome that does not exist, or names no job."]),
    (r"5 Conflict at (\d+) and (\d+)", lambda found, said: [f"the rows at {found[1]} and {found[2]} of KEEP disagree on one site."]),
    (r"image refused: (\d+) \w+", lambda found, said: bad_image(int(found[1]), said)),
    (r"golden run trapped at cycle (\d+)", lambda found, said: trapped(int(found[1]), said)),
    (
        r"golden run detected at cycle (\d+)",
        lambda found, said: [f"without any fault, instruction {found[1]} (counted from 0) stores to the detect port: a check that always fails?"],
    ),
    (
        r"golden run did not halt within (\d+) instructions",
        lambda found, said: [
            f"the program takes more than {found[1]} instructions, or has no end: raise --limit, or store to 0xF0000008.",
            *last_instruction(said),
        ],
    ),
    (r"stopped: (\d+) of (\d+) jobs kept", lambda found, said: stopped(int(found[1]), int(found[2]), said)),
    (OTHER + r"(.*)", lambda found, said: bad_other(found[1], said)),
    (r"usage: .*", lambda found, said: usage(said)),
    (r"image could not be read", lambda found, said: unread_image(said)),
    (r"campaign file could not be read or written", lambda found, said: keep_failed(said)),
    (r"output could not be written", lambda found, said: [STATUSES[8]]),
    (r"out of memory", lambda found, said: [STATUSES[9]]),
    (r"other campaign file could not be read", lambda found, said: [STATUSES[11]]),
    (r"export could not be stored", lambda found, said: not_stored(said)),
    (r"input could not be read", lambda found, said: [STATUSES[14]]),
    (r"no such site: cycle (\d+) cell (\d+) bit (\d+)", lambda found, said: no_site(int(found[1]), int(found[2]), int(found[3]), said)),
    (r"no instruction in the part: (.*)", lambda found, said: no_part(found[1], said)),
    (r"1", lambda found, said: usage(said) if said.words else [STATUSES[1]]),
    (r"2", lambda found, said: unread_image(said)),
    (r"3", lambda found, said: some_fault(said)),
    (r"5", lambda found, said: keep_failed(said)),
    (r"12", lambda found, said: not_stored(said)),
    (r"(1[0-4]|[0-9])", lambda found, said: [STATUSES[int(found[1])]]),
]


def explained(line: str, said: Said) -> list[str]:
    """What a line means."""
    text = line.strip().removeprefix("campaign file refused: ")
    for pattern, answer in LINES:
        if found := re.fullmatch(pattern, text, re.ASCII):
            return answer(found, said)
    programs = "fail_star, fail_window, fail_answers, fail_export, fail_replay or fail_debug"
    raise Refusal(f"{line[:60]!r} is not a line of {programs}, and not an exit status")


def meaning_of(reason: BaseException) -> list[str]:
    """The meaning of a program's line, if the refusal of the program is the cause of a refusal: at most two lines. The
    last ones say most about this case."""
    cause: BaseException | None = reason
    while cause is not None and not isinstance(cause, Ended):
        cause = cause.__context__
    if cause is None:
        return []
    try:
        return explained(cause.line, said_by(cause.words))[-MOST_HINTS:]
    except (Refusal, OSError):
        return []


def main(words: list[str]) -> int:
    """The exit status: 0 if there was an answer, 1 if there was none, 2 without a line."""
    if not words or words[0] in ABOUT:
        return about("explain", words, USAGE, __doc__ or "")
    return say("explain", lambda: "".join(f"{printable(line)}\n" for line in explained(words[0], said_by(words[1:]))))
