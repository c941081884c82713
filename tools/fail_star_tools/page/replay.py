"""Shows what one flip does: each instruction with its source line, and what differs from the run without a fault.

    replay.py boot.keep 77 1 5 --image boot.elf

Each line of the run with the flip has the number of the instruction, its address, its word, its function and its
source line. Below the line are the address of the run without a fault at that moment, if it is another one, and each
register and byte to which the instruction gave another value. Instructions at which nothing differs are omitted.
--html writes a page, which has the outcome and the settings first, folds the instructions at which nothing differs,
and of a long run has the beginning and the end.

The registers are computed here, from the instructions that fail_replay writes, so
no count depends on them.
"""

from __future__ import annotations

import argparse
import re
from dataclasses import dataclass
from pathlib import Path

from fail_star_tools.command_line import Parser
from fail_star_tools.count.places import number_of
from fail_star_tools.known import known
from fail_star_tools.page import replay_page
from fail_star_tools.page.page_date import date_of
from fail_star_tools.page.replay_page import Step, Told
from fail_star_tools.read import campaign_file, disassembly, elf_image, line_table
from fail_star_tools.read.campaign_file import CampaignFile, Card, Refusal
from fail_star_tools.read.cells import PC, is_byte, offset_of, register_name
from fail_star_tools.read.digest import sha256_of
from fail_star_tools.read.traces import LONGEST_LINE
from fail_star_tools.run import machine, program, whole_file
from fail_star_tools.run.machine import Machine
from fail_star_tools.words import printable, say

STEP = re.compile("([0-9]{1,8}) ([0-9a-f]{8}) ([0-9a-f]{8}|-{8})\n")
LAST = ("differs", "output", "end", "outcome")
MOST_SHOWN = 2000  # lines of a text
AROUND = 1  # instructions without a difference that are shown at either side


@dataclass
class Replay:
    """The steps of the run with a flip, from the flip on, and its last lines."""

    steps: list[tuple[int, int, int | None]]
    last: dict[str, str]


def replay_by(called: str, image: str, site: tuple[int, int, int], card: Card) -> Replay:
    """The replay of a site, as fail_replay writes it."""
    steps, last = [], {}
    with program.lines(called, [image, *map(str, site), *card.options()], "fail_replay") as lines:
        while line := lines.readline(LONGEST_LINE):
            found = STEP.fullmatch(line)
            if found:
                steps.append((int(found[1]), int(found[2], 16), None if found[3][0] == "-" else int(found[3], 16)))
                continue
            word, _, rest = line.rstrip("\n").partition(" ")
            last[word] = rest
    if not steps or any(word not in last for word in LAST):
        raise Refusal("fail_replay: expected the instructions of a replay, and how it ended")
    return Replay(steps, last)


class Places:
    """The place of an instruction: its function, its line, and its text."""

    def __init__(self, image: str | None, disassembler: str | None) -> None:
        self.image = elf_image.read(image) if image else None
        self.lines: line_table.LineTable | None = None
        self.words: dict[int, str] = {}
        if image and self.image is not None:
            try:
                self.lines = line_table.lines_of(self.image)
            except Refusal:
                pass
            self.words = {} if disassembler == "none" else disassembly.instructions_of(image, disassembler)

    def place(self, pc: int) -> str:
        """A function with an offset, and a source line."""
        owner = self.image.function_at(pc) if self.image else None
        name = f"{owner.name}+{pc - owner.value}" if owner else ""
        line = self.lines.of(pc) if self.lines else None
        return " ".join(filter(None, (name, line)))

    def text(self, pc: int, word: int | None) -> str:
        """An instruction as text, or its machine word."""
        return self.words.get(pc, "--------" if word is None else f"{word:08x}").partition(" #")[0]


def shown_of(card: Card, site: tuple[int, int, int], replay: Replay, places: Places) -> list[Step]:
    """All lines. The two runs are executed in step, each on a machine of its own."""
    right = machine.at_start(card)
    machine.run(right, site[0])
    other = right.copy()
    flip(other, site, card)
    lines: list[Step] = []
    for number, pc, word in replay.steps:
        if other.pc != pc:
            raise Refusal(
                f"instruction {number} is at {pc:08x} in the replay, and at {other.pc:08x} on the machine of this tool"
            )
        line = Step(number, pc, places.place(pc), places.text(pc, word))
        if not lines:
            line.notes.append(f"flip of {name_of(site[1], card)}, bit {site[2]}")
        if right.ended:
            line.notes.append("the run without a fault has ended")
        elif right.pc != pc:
            line.notes.append(f"without the fault: {right.pc:#010x} {places.place(right.pc)}".rstrip())
        written = other.written_next()
        other.step()
        right.step()
        line.notes += differences(right, other, written)
        lines.append(line)
    return lines


def differences(right: Machine, other: Machine, written: list[int]) -> list[str]:
    """The differences from the run without a fault in the cells that an instruction wrote."""
    notes = []
    for cell in written:
        now, wanted = other.value(cell), right.value(cell)
        if now != wanted:
            width = 2 if is_byte(cell) else 8
            name = f"byte {other.base + offset_of(cell):#010x}" if is_byte(cell) else register_name(cell)
            notes.append(f"{name} = {now:0{width}x}, without the fault {wanted:0{width}x}")
    return notes


def flip(run: Machine, site: tuple[int, int, int], card: Card) -> None:
    """Flips the bit of a site."""
    _, cell, bit = site
    if cell == PC:
        run.pc ^= 1 << bit
    elif not is_byte(cell):
        run.registers[cell] ^= 1 << bit
    else:
        run.ram[offset_of(cell)] ^= 1 << bit


def name_of(cell: int, card: Card) -> str:
    """The name of a cell."""
    return f"byte {card.ram.base + offset_of(cell):#010x}" if is_byte(cell) else register_name(cell)


# --- Texts ----------------------------------------------------------------------------------------


def folded(lines: list[Step]) -> list[Step | int]:
    """The lines, with the number of lines that are omitted because nothing differs."""
    keep = replay_page.differing(lines, AROUND)
    found: list[Step | int] = []
    for at, line in enumerate(lines):
        if at in keep:
            found.append(line)
        elif found and isinstance(found[-1], int):
            found[-1] += 1
        else:
            found.append(1)
    return found


def text_of(lines: list[Step], replay: Replay) -> str:
    """The replay as text."""
    pieces = []
    for line in folded(lines)[:MOST_SHOWN]:
        if isinstance(line, int):
            pieces.append(f"        .. {line} more")
            continue
        head = f"{line.number:>7} {line.pc:08x}  {printable(line.words)}"
        pieces.append(f"{head:<52} {line.place}".rstrip())
        pieces += [f"            {note}" for note in line.notes]
    return "\n".join([*pieces, *last_lines(replay)]) + "\n"


def last_lines(replay: Replay) -> list[str]:
    """The end and the outcome of the run."""
    return [f"{word} {replay.last[word]}" for word in LAST]


def told_of(
    campaign: CampaignFile, site: tuple[int, int, int], replay: Replay, line: argparse.Namespace, called: str
) -> Told:
    """What a page says besides the instructions."""
    card = campaign.card
    name, steps = printable(Path(line.keep).stem), replay.steps
    cell = name_of(site[1], card)
    outcome = [(word, replay.last[word]) for word in ("outcome", "end", "output")]
    differs = re.sub(r" (?=registers|output)", ", ", replay.last["differs"])
    outcome.append(("first difference, by instruction", differs))
    outcome.append(("instructions", f"{len(steps):,} from the flip on, {steps[0][0]:,} to {steps[-1][0]:,}"))
    image = line.image or "IMAGE"
    settings = [
        ("flip", f"bit {site[2]} of {cell} before instruction {site[0]:,}"),
        ("campaign file", Path(line.keep).name),
        ("image", Path(line.image).name if line.image else "that of the campaign file"),
        ("SHA-256 of the image", sha256_of(line.image) if line.image else "not said"),
        ("ROM", str(card.rom)),
        ("RAM", str(card.ram)),
        ("limit", f"{card.limit:,} instructions"),
        ("flags", " ".join(card.flags()) or "none"),
        ("SHA-256 of fail_replay", program.sum_of(called)),
    ]
    commands = replay_page.commands_of(image, site, card.options(), program.in_gdb(image, site, card.options()))
    note = "The same run again, and in GDB:" if line.image else "The same run again, and in GDB, if IMAGE is the ELF file:"
    title = f"Bit {site[2]} of {cell} at instruction {site[0]} of {name}"
    return Told(title, date_of(), outcome, settings, commands, note)


# --- The command line -----------------------------------------------------------------------------


def answer(line: argparse.Namespace) -> str:
    """The text, or nothing if a page was written."""
    campaign = campaign_file.read(line.keep)
    site = (line.cycle, line.cell, line.bit)
    called = program.replay_found(line.replay)
    with program.image_of(campaign.card, line.image) as image:
        replay = replay_by(called, image, site, campaign.card)
    lines = shown_of(campaign.card, site, replay, Places(line.image, line.disassembler))
    if line.html is None:
        return text_of(lines, replay)
    page = replay_page.page_of(lines, AROUND, told_of(campaign, site, replay, line, called))
    whole_file.write(known(line.html), page)
    return ""


def main(words: list[str]) -> int:
    """The exit status: 0 if all was written, 1 if it was not, and 2 (argparse's) for invalid words."""
    parser = Parser("replay", __doc__)
    parser.add_argument("keep", metavar="KEEP", help="the campaign file, for the case")
    parser.add_argument("cycle", metavar="CYCLE", type=number_of, help="the instruction before which the bit flips")
    parser.add_argument(
        "cell",
        metavar="CELL",
        type=number_of,
        help="1 to 31 for a register, 32 and more for bytes of RAM, 0 for the pc",
    )
    parser.add_argument("bit", metavar="BIT", type=number_of)
    parser.add_argument("--image", metavar="IMAGE", help="the ELF file, for names, lines and a disassembly")
    parser.add_argument("--html", metavar="FILE", help="writes a page instead of the text")
    parser.add_argument("--disassembler", metavar="COMMAND", help="a disassembler that takes objdump's options; none shows bytes")
    parser.add_argument("--replay", metavar="FILE", help="the program fail_replay, if it is not on the path")
    line = parser.parse_args(words)
    return say("replay", lambda: answer(line))
