"""Says where the silent sites of a campaign are: by function, source line, instruction, register and variable, the worst first.

TABLE is a campaign file, or what `fail_star report IMAGE KEEP --format csv` wrote. Numbers are numbers of sites, so
each job counts with its weight. A site counts for the instruction that reads the flipped value, because a check there
would notice the flip; this may be long after the flip. It also counts for the register, the pc or the variable whose
bit flips. With debugging information (-g) a byte of the stack is called `function:variable`, after the function in
whose frame it is then, and otherwise `function: stack+N`, where N(sp) is its word in the complete frame. A byte of
RAM in no variable is called by the address of its word, and code in RAM by its function. Instructions of the
compiler's routines that save and restore registers (-msave-restore) count for the function that called them, and for
the line of the call.

The instruction that reads a job's bit follows from the run without a fault. --trace has it, as `fail_star trace`
wrote it; otherwise the program is called. Names are those of the image's symbol table, and lines those of -g. Tables
for which the image has no data are omitted, and a line at the end says why. If a disassembler is installed
(riscv64-unknown-elf-objdump or llvm-objdump), instructions are shown as text, and otherwise as bytes.

With --classes fail_answers (or fail_replay, where it is missing) runs the jobs again to see what their runs send and
how they end, and the sites are counted by the answer classes of FILE. All tables of places are for one class: the
first of the file, or --class NAME. With --open and --end there are three classes: `opened`, if the output matches
REGEX and the run halts with VALUE, `other output` and `same output`. REGEX is searched for by Python's re anywhere in
the bytes, each taken as the character of its number (latin-1; . is any byte, \\x00 the byte 0).

A line below the tables says how many of the sites turn the address of one port into that of another, for which a
campaign file is needed: bit 2 or 3 of the register from which a store takes the address.

With --cycles, --code and --function only the sites of a part of the run are counted: those before its instructions
with these numbers, at these addresses, or of this function. All that are given must hold, as in fail_window, and only
the jobs of the part need to be kept.

With --diff the first table is from before a change, and the second from after it: rows are matched by their names,
and those that changed most come first. Instructions have no names, so they are omitted there.
"""

from __future__ import annotations

import argparse
from dataclasses import dataclass, field, replace
from typing import Any, TypeVar

from fail_star_tools.command_line import Parser
from fail_star_tools.count import classed, places, port_flips
from fail_star_tools.count.classed import Classed
from fail_star_tools.count.json_text import json_line
from fail_star_tools.count.places import IN_ORDER, KINDS, Asked, Campaign
from fail_star_tools.count.text_table import aligned, ratio
from fail_star_tools.known import known
from fail_star_tools.read import classes, disassembly, linked_ram, parts
from fail_star_tools.read.campaign_file import Refusal, Region
from fail_star_tools.read.classes import Classes
from fail_star_tools.read.job_table import share_of
from fail_star_tools.read.parts import Part
from fail_star_tools.run import program
from fail_star_tools.words import say

ROWS = 10  # of each kind in a text, unless --top says otherwise
Ranked = TypeVar("Ranked")
CLASS = "class"  # the table of classes, which a text has completely
GOLDEN_MATCHES = "the run without a fault is in the class {} too: choose conditions that it does not meet"
NO_DISASSEMBLER = "instructions are shown as machine words: no riscv64-unknown-elf-objdump or llvm-objdump was found (--disassembler)"


@dataclass(frozen=True)
class Row:
    """A place with its sites, and the further fields of its object in JSON."""

    name: str
    sites: int
    more: dict[str, str] = field(default_factory=dict)


# --- One campaign ---------------------------------------------------------------------------------


def rows_of(campaign: Campaign, outcomes: list[str], words: dict[int, str] | None) -> dict[str, list[Row]]:
    """The rows of each kind, the worst first."""
    rows = {}
    for kind in KINDS:
        if kind not in campaign.lacking:
            sites = campaign.sites_by(kind, outcomes)
            of_kind = [row_of(campaign, place, count, words) for place, count in sites.items()]
            rows[kind] = sorted(of_kind, key=lambda row: (-row.sites, row.name))
    return rows


def row_of(campaign: Campaign, place: int | str, sites: int, words: dict[int, str] | None) -> Row:
    """The row of a place. An instruction has its address, and its text or its machine word."""
    if isinstance(place, str):
        return Row(place, sites)
    pc, text = f"{place:08x}", (words or {}).get(place, f"{known(campaign.trace).words[place]:08x}")
    more = {"pc": pc, "text": text}
    if "function" not in campaign.lacking:
        more["function"] = campaign.function_at(place)
    if "line" not in campaign.lacking:
        more["line"] = campaign.line_at(place)
    return Row(f"{pc}  {text}", sites, more)


def words_of(campaign: Campaign, line: argparse.Namespace) -> dict[int, str] | None:
    """The instructions as text, or None if the words of the command ask for machine words."""
    if line.disassembler == "none":
        return None
    return {} if "instruction" in campaign.lacking else disassembly.instructions_of(line.image, line.disassembler)


def notes_of(campaign: Campaign, words: dict[int, str] | None) -> list[str]:
    """The notes on what is missing or may surprise a reader."""
    reasons: dict[str, list[str]] = {}
    for kind in KINDS:
        if kind in campaign.lacking:
            reasons.setdefault(campaign.lacking[kind], []).append(f"{kind}s")
    notes = [f"no {', '.join(kinds)}: {reason}" for reason, kinds in reasons.items()]
    if campaign.names is not None and campaign.names.lacking:
        notes.append(f"no names of variables on the stack: {campaign.names.lacking}")
    if campaign.ram.size is not None:
        warning = linked_ram.warning_of(campaign.image, Region(known(campaign.ram.base), campaign.ram.size))
        notes += [warning] if warning else []
    if campaign.ram.size is None:
        notes.append("shares are of the live sites only: give the size of RAM by --ram BASE:SIZE")
    if words == {} and "instruction" not in campaign.lacking:
        notes.append(NO_DISASSEMBLER)
    return notes


@dataclass(frozen=True)
class Asking:
    """What a text or an object shows: the sites of some outcomes, or those of one class of them."""

    outcomes: list[str]
    words: dict[int, str] | None  # instructions by their addresses
    top: int | None
    found: Classed | None = None
    shown: str = ""  # the class whose places are shown
    case: tuple[str, ...] = ()  # the image, and the options of the campaign
    part: Part | None = None

    @property
    def chosen(self) -> list[str]:
        """The outcomes or the class whose sites are counted at places."""
        return self.outcomes if self.found is None else [self.shown]


def text_of(campaign: Campaign, asking: Asking) -> str:
    """The tables of one campaign. With answer classes, the places are those of one class."""
    total, kind_of_sites = campaign.all_sites(), "sites" if campaign.ram.size is not None else "live sites"
    chosen = chosen_of(campaign, asking)
    part = f"; {share_of(campaign.jobs.number - campaign.jobs.unknown, campaign.jobs.number)}" if campaign.jobs.unknown else ""
    of_part = f" in {asking.part}" if asking.part is not None else ""
    pieces = [f"{' + '.join(asking.outcomes)}: {chosen} of {total} {kind_of_sites}{of_part}, {share(chosen, total)}{part}\n"]
    for kind, rows in {**class_rows(asking.found), **rows_of(campaign, asking.chosen, asking.words)}.items():
        if rows:
            most = len(rows) if kind == CLASS else asking.top
            cells = [(row.name, str(row.sites), share(row.sites, total)) for row in shortened(rows, most)]
            pieces.append(aligned([(kind, "sites", "share"), *cells]) + left_out(rows, most))
    return "\n".join(pieces) + noted(all_notes(campaign, asking))


def all_notes(campaign: Campaign, asking: Asking) -> list[str]:
    """All notes on a campaign and what is shown of it."""
    flips = port_flips.note_of(campaign.port_flips, asking.outcomes)
    return notes_of(campaign, asking.words) + ([flips] if flips else []) + notes_of_classes(asking)


def chosen_of(campaign: Campaign, asking: Asking) -> int:
    """The sites of the outcomes. Those without effect include the dead ones if classes count them."""
    if asking.found is not None:
        return sum(asking.found.counts().values())
    return campaign.chosen(asking.outcomes)


def object_of(campaign: Campaign, asking: Asking) -> dict[str, Any]:
    """The same as an object. It has all rows of each kind, unless --top limits them."""
    total, chosen = campaign.all_sites(), chosen_of(campaign, asking)
    rows = rows_of(campaign, asking.chosen, asking.words)
    by_kind = {
        kind: [{"name": row.name, "sites": row.sites, "share": round(row.sites / total, 9), **row.more} for row in of_kind[: asking.top]]
        for kind, of_kind in rows.items()
    }
    sites = "sites" if campaign.ram.size is not None else "live_sites"
    head = {"outcomes": asking.outcomes, "chosen": chosen, sites: total, "share": round(chosen / total, 9)}
    if campaign.card is not None:
        head["port_flips"] = sum(campaign.port_flips[word] for word in asking.outcomes)
    if asking.part is not None:
        head |= {"part": asking.part.options, "instructions": campaign.jobs.instructions, "window": campaign.jobs.cycles}
    if campaign.jobs.unknown:
        head |= {"jobs": campaign.jobs.number, "jobs_kept": campaign.jobs.number - campaign.jobs.unknown}
    return {**head, **object_of_classes(asking, total), "by": by_kind, "notes": all_notes(campaign, asking)}


# --- Answer classes -------------------------------------------------------------------------------


def class_rows(found: Classed | None) -> dict[str, list[Row]]:
    """The rows of the classes, and for each class those of its answers."""
    if found is None:
        return {}
    rows = {CLASS: [Row(name, sites) for name, sites in found.counts().items()]}
    for name in found.classes.names:
        rows[name] = [Row(f"{answer.text}, {answer.end}", sites) for answer, sites in found.outputs(name)]
    return rows


def object_of_classes(asking: Asking, total: int) -> dict[str, Any]:
    """The same as an object: each class has what was sent, in hexadecimal."""
    found = asking.found
    if found is None:
        return {}
    classes = {}
    for name, sites in found.counts().items():
        rows = [{"output": answer.output.hex(), "end": answer.end, "sites": count} for answer, count in found.outputs(name)]
        classes[name.replace(" ", "_")] = {"sites": sites, "share": round(sites / total, 9), "outputs": rows[: asking.top]}
    return {"classes": classes, "class": asking.shown.replace(" ", "_")}


def notes_of_classes(asking: Asking) -> list[str]:
    """The notes on the first class, and the command that debugs the run of a job of the shown class."""
    found = asking.found
    if found is None:
        return []
    notes = [GOLDEN_MATCHES.format(found.classes.names[0])] if found.opens_without() else []
    job = found.heaviest.get(asking.shown)
    if job is not None:
        notes.append(f"{asking.shown}, in GDB: {program.in_gdb(asking.case[0], (job.cycle, job.cell, job.bit), asking.case[1:])}")
    return notes


# --- Before and after -----------------------------------------------------------------------------


@dataclass(frozen=True)
class Change:
    """A place with its sites before and after."""

    name: str
    before: int
    after: int

    @property
    def change(self) -> int:
        """The number of sites that were added."""
        return self.after - self.before


def changes_of(before: Campaign, after: Campaign, outcomes: list[str]) -> dict[str, list[Change]]:
    """The changes of each kind that both campaigns have, the largest first."""
    changes = {}
    for kind in KINDS:
        if kind != "instruction" and kind not in before.lacking and kind not in after.lacking:
            first, then = before.sites_by(kind, outcomes), after.sites_by(kind, outcomes)
            names = {str(name) for name in (*first, *then)}
            of_kind = [Change(name, first.get(name, 0), then.get(name, 0)) for name in names]
            changes[kind] = sorted(of_kind, key=lambda row: (-abs(row.change), row.name))
    return changes


def notes_of_both(before: Campaign, after: Campaign) -> list[str]:
    """The notes on kinds of places that are omitted, and on numbers that cannot be compared."""
    notes = []
    differences = before.card.differences(after.card) if before.card and after.card else []
    if differences:
        notes.append(f"after: not the same {' and '.join(differences)} as before, so the counts cannot be compared")
    for which, campaign in (("before", before), ("after", after)):
        lacking = {kind: reason for kind, reason in campaign.lacking.items() if kind != "instruction"}
        shown = replace(campaign, lacking=lacking, ram=replace(campaign.ram, size=campaign.ram.size or 0))
        notes += [f"{which}: {note}" for note in notes_of(shown, None)]
    return notes


def text_of_both(before: Campaign, after: Campaign, outcomes: list[str], top: int | None) -> str:
    """The tables of the changes."""
    first, then = before.chosen(outcomes), after.chosen(outcomes)
    pieces = [f"{' + '.join(outcomes)}: {first} sites before, {then} after, {then - first:+d}\n"]
    for kind, rows in changes_of(before, after, outcomes).items():
        if rows:
            cells = [(row.name, str(row.before), str(row.after), f"{row.change:+d}") for row in shortened(rows, top)]
            pieces.append(aligned([(kind, "before", "after", "change"), *cells]) + left_out(rows, top))
    return "\n".join(pieces) + noted(notes_of_both(before, after))


def object_of_both(before: Campaign, after: Campaign, outcomes: list[str], top: int | None) -> dict[str, Any]:
    """The same as an object."""
    first, then = before.chosen(outcomes), after.chosen(outcomes)
    by_kind = {
        kind: [{"name": row.name, "before": row.before, "after": row.after, "change": row.change} for row in rows[:top]]
        for kind, rows in changes_of(before, after, outcomes).items()
    }
    head = {"outcomes": outcomes, "before": first, "after": then, "change": then - first}
    return {**head, "by": by_kind, "notes": notes_of_both(before, after)}


# --- Texts ----------------------------------------------------------------------------------------


def share(sites: int, total: int) -> str:
    """A share in percent, to three digits."""
    return f"{ratio(100 * sites, total)} %"


def shortened(rows: list[Ranked], top: int | None) -> list[Ranked]:
    """The first rows, which a text shows."""
    return rows[: ROWS if top is None else top]


def left_out(rows: list[Any], top: int | None) -> str:
    """The line with the number of rows that the text omits."""
    count = len(rows) - len(shortened(rows, top))
    return f"({count} more)\n" if count else ""


def noted(notes: list[str]) -> str:
    """Notes below the tables, each a line."""
    return "".join(f"{note}\n" for note in ["", *notes]) if notes else ""


# --- The command line -----------------------------------------------------------------------------


def count_of(word: str) -> int:
    """A number of rows."""
    number = places.number_of(word)
    if number < 1:
        raise argparse.ArgumentTypeError(f"{word!r}: expected at least 1")
    return number


def line_of(words: list[str]) -> argparse.Namespace:
    """The options and files that the words name."""
    parser = Parser("where", __doc__)
    parser.add_argument("image", metavar="IMAGE", help="the program's ELF file")
    parser.add_argument("table", metavar="TABLE", help="the output of fail_star report --format csv, or a campaign file; - is standard input")
    parser.add_argument("--outcome", action="append", metavar="WORD", help="an outcome to look for instead of silent; may be repeated")
    parser.add_argument("--top", type=count_of, metavar="N", help=f"the most rows of each kind (default: {ROWS} in a text, all in JSON)")
    parser.add_argument("--format", choices=("text", "json"), default="text", help="the format (default: text)")
    parser.add_argument("--open", type=classed.pattern_of, metavar="REGEX", help="runs jobs again, and counts sites whose output matches")
    parser.add_argument("--end", type=places.number_of, metavar="VALUE", help="the same for sites whose run halts with this value")
    classed.add_options(parser)
    parser.add_argument("--class", dest="shown", metavar="NAME", help="the class whose places are shown (default: the first)")
    parser.add_argument("--diff", nargs=2, metavar=("OTHER_IMAGE", "OTHER_TABLE"), help="compares with the campaign after a change")
    parser.add_argument("--trace", metavar="FILE", help="the output of fail_star trace for IMAGE; without it the program is called")
    parser.add_argument("--other-trace", metavar="FILE", help="the same for OTHER_IMAGE")
    parser.add_argument("--disassembler", metavar="COMMAND", help="a disassembler that takes objdump's options; none shows bytes")
    places.add_options(parser)
    parts.add_options(parser)
    line: argparse.Namespace = parser.parse_args(words)
    if [line.table, line.trace, line.other_trace, *(line.diff or [])].count("-") > 1:
        parser.error("only one of the files can be standard input")
    short = line.open is not None or line.end is not None
    if (short or line.classes) and line.diff is not None:
        parser.error("--open, --end and --classes cannot be combined with --diff")
    if short and line.classes:
        parser.error("--open and --end cannot be combined with --classes")
    if line.classes and line.outcome:
        parser.error("a file of classes names the outcomes: --outcome cannot be given too")
    return line


def classes_in(line: argparse.Namespace) -> Classes | None:
    """The classes of the command line: those of a file, or of the short form."""
    if line.classes is not None:
        return classes.read(line.classes)
    if line.open is None and line.end is None:
        return None
    return classes.opened(line.open, None if line.end is None else str(line.end))


def answer(line: argparse.Namespace) -> str:
    """The whole output."""
    wanted = classes_in(line)
    if wanted is not None and line.shown is not None and line.shown not in wanted.names:
        raise Refusal(f"no class is called {line.shown[:60]!r}; there are {', '.join(wanted.names)}")
    outcomes = sorted(set(line.outcome or ["silent"]), key=lambda word: IN_ORDER.index(word) if word in IN_ORDER else -1)
    if line.classes is not None and wanted is not None:
        outcomes = list(wanted.outcomes)
    listed, part = tuple(outcomes) if wanted else (), parts.asked_in(line)
    asked = Asked(line.trace, line.program, line.rom, line.ram, line.limit, line.ram_code, listed, part=part)
    campaign = places.read(line.image, line.table, replace(asked, unfinished=line.diff is None))
    if line.diff is not None:
        after = places.read(line.diff[0], line.diff[1], replace(asked, trace=line.other_trace))
        look_at_words(outcomes, [campaign, after])
        if line.format == "text":
            return text_of_both(campaign, after, outcomes, line.top)
        return json_line(object_of_both(campaign, after, outcomes, line.top))
    look_at_words(outcomes, [campaign])
    asking = Asking(outcomes, words_of(campaign, line), line.top, part=part)
    if wanted is not None:
        found = classed.classed(campaign, line.image, replace(wanted, outcomes=tuple(outcomes)), classed.replays_in(line), asked)
        case = (line.image, *classed.options_of(campaign, asked))
        asking = replace(asking, found=found, shown=line.shown or wanted.names[0], case=case)
    return text_of(campaign, asking) if line.format == "text" else json_line(object_of(campaign, asking))


def look_at_words(outcomes: list[str], campaigns: list[Campaign]) -> None:
    """Refuses a word that is not an outcome of the table."""
    for word in outcomes:
        for campaign in campaigns:
            places.look_at_word(word, campaign)


def main(words: list[str]) -> int:
    """The exit status: 0 if the answer was written, 1 if it was not, and 2 (argparse's) for invalid words."""
    line = line_of(words)
    return say("where", lambda: answer(line))
