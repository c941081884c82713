"""The HTML page of replay.py: how the run with the flip ended, what was replayed, and its instructions. Those at which
nothing differs from the run without a fault are folded."""

from __future__ import annotations

import itertools
import shlex
from collections.abc import Iterator
from dataclasses import dataclass, field
from xml.sax.saxutils import escape

from fail_star_tools.page import page_text
from fail_star_tools.page.page_text import command_text, element, facts, heading
from fail_star_tools.release import MADE_BY
from fail_star_tools.words import printable

MOST_ROWS = 800  # at which something differs, or next to one
LAST_ROWS = 100  # of these, at the end of the run
MOST_FOLDED = 600  # in all folds together
ENDS = 20  # rows at each end of a fold that is too long
COLUMNS = ("instruction", "address", "word", "place", "what differs")
STYLE = (
    "table.steps td,table.steps th{text-align:left}table.steps td{font-family:monospace;white-space:pre-wrap}"
    "table.steps th{white-space:nowrap}table.steps .number{text-align:right}.differs{color:var(--silent)}"
    "details{margin:.3em 0}summary{cursor:pointer;color:var(--soft)}details table{margin:.2em 0 .2em 1em}"
    "table.steps td.fold{font-family:inherit}"
)
MEANING = (
    "Each row is an instruction of the run with the flip. The last column has the address of the run without a fault at "
    "that moment, if it is another one, and each register and byte to which the instruction gave another value. "
    "Instructions at which nothing differs are folded."
)


@dataclass
class Step:
    """An instruction of the run with the flip, and what differs there from the run without a fault."""

    number: int
    pc: int
    place: str
    words: str
    notes: list[str] = field(default_factory=list)


@dataclass
class Told:
    """What the page says besides the instructions."""

    title: str
    date: str
    outcome: list[tuple[str, str]]
    settings: list[tuple[str, str]]
    commands: list[str]
    note: str  # on the commands


# --- Which instructions are shown -----------------------------------------------------------------


def differing(steps: list[Step], around: int) -> set[int]:
    """The places of the instructions that are not folded: those at which something differs with those around them, the
    first and the last."""
    near = {at + step for at, one in enumerate(steps) if one.notes for step in range(-around, around + 1)}
    return near | {0, len(steps) - 1}


def parts_of(steps: list[Step], around: int) -> Iterator[tuple[bool, list[Step]]]:
    """The instructions in parts, and whether a part is folded."""
    keep = differing(steps, around)
    for shown, part in itertools.groupby(range(len(steps)), lambda at: at in keep):
        yield not shown, [steps[at] for at in part]


# --- Rows -----------------------------------------------------------------------------------------


def row_of(step: Step) -> str:
    """An instruction as a row."""
    cells = (f"{step.pc:#010x}", printable(step.words), printable(step.place))
    notes = "".join(f'<div class="differs">{escape(printable(note))}</div>' for note in step.notes)
    texts = "".join(f"<td>{escape(cell)}</td>" for cell in cells)
    return f'<tr class="step"><th scope="row" class="number">{step.number}</th>{texts}<td>{notes}</td></tr>'


def wide_row(inner: str) -> str:
    """A row with one cell."""
    return f'<tr><td class="fold" colspan="{len(COLUMNS)}">{inner}</td></tr>'


def omitted(count: int) -> str:
    """The row in the place of instructions that the page does not have."""
    text = f"{count:,} instructions are omitted here. The first command above prints all of them."
    return wide_row(element("p", text, "note"))


def heads() -> str:
    """The headers of the columns."""
    cells = "".join(f'<th scope="col">{word}</th>' for word in COLUMNS)
    return f"<thead><tr>{cells}</tr></thead>"


def fold_of(steps: list[Step], room: int) -> tuple[str, int]:
    """Instructions at which nothing differs, folded; and the number of its rows. If there is no room for all, the fold
    has only its ends."""
    whole = len(steps) <= room
    ends = 0 if whole else min(ENDS, room // 2)
    first = steps if whole else steps[:ends]
    last = [] if whole else steps[len(steps) - ends :]
    rows = [*map(row_of, first), *([] if whole else [omitted(len(steps) - 2 * ends)]), *map(row_of, last)]
    span = f"{steps[0].number:,} to {steps[-1].number:,}" if len(steps) > 1 else f"{steps[0].number:,}"
    count = f"{len(steps):,} instructions" if len(steps) > 1 else "1 instruction"
    inner = f'<table class="steps">{heads()}<tbody>{"".join(rows)}</tbody></table>'
    summary = f"<summary>{count} at which nothing differs: {span}</summary>"
    return wide_row(f"<details>{summary}{inner}</details>"), len(first) + len(last)


def rows_of(steps: list[Step], around: int) -> list[str]:
    """All rows, at most as many as a page has."""
    keep = len(differing(steps, around))
    skipped = range(MOST_ROWS - LAST_ROWS, max(MOST_ROWS, keep) - LAST_ROWS) if keep > MOST_ROWS else range(0)
    rows: list[str] = []
    at, room, left_out = 0, MOST_FOLDED, 0
    for folded, part in parts_of(steps, around):
        if folded and at in skipped:
            left_out += len(part)
        elif folded:
            text, used = fold_of(part, room)
            rows.append(text)
            room -= used
        else:
            for step in part:
                left_out += at in skipped
                if at not in skipped:
                    rows += [omitted(left_out)] if left_out else []
                    left_out = 0
                    rows.append(row_of(step))
                at += 1
    return rows


def page_of(steps: list[Step], around: int, told: Told) -> str:
    """The whole page."""
    table = f'<table class="steps"><caption>Instructions</caption>{heads()}<tbody>'
    region = '<div class="scroll" role="group" tabindex="0" aria-label="Instructions">'
    parts = [heading(2, "Outcome", "outcome"), facts(told.outcome, "Outcome")]
    parts += [heading(2, "What was replayed", "settings"), facts(told.settings, "What was replayed")]
    parts += [element("p", told.note, "note"), *map(command_text, told.commands)]
    parts += [heading(2, "Instructions", "instructions"), element("p", MEANING, "note")]
    parts += [f"{region}{table}", *rows_of(steps, around), "</tbody></table></div>"]
    first = [element("p", f"{MADE_BY}, {told.date}", "note"), page_text.contents(parts)]
    return page_text.page(told.title, [*first, *parts], STYLE)


def commands_of(image: str, site: tuple[int, int, int], options: list[str], in_gdb: str) -> list[str]:
    """The commands that show the same run."""
    return [shlex.join(["fail_replay", image, *map(str, site), *options]), in_gdb]
