"""The HTML page of sweep.py: the silent sites of all combinations as bars at one scale, their table, and the
settings."""

from __future__ import annotations

from fail_star_tools.count.text_table import ratio
from fail_star_tools.known import known
from fail_star_tools.page import page_style, page_text
from fail_star_tools.page.fault_grid import OF_CLASS, class_colours
from fail_star_tools.page.page_text import Cell, element, facts, heading, table
from fail_star_tools.page.report import MEANING
from fail_star_tools.read.campaign_file import OUTCOMES
from fail_star_tools.release import MADE_BY
from fail_star_tools.run import program
from fail_star_tools.run.sweep_runs import COUNTED, Result, Sweep

TITLE = "Variants and flags"
SILENT, ANSWERS, OTHERS = "Silent sites", "Sites by answer", "Other sites with an effect"
SCALES = "Each group of bars has a scale of its own, so a bar can be compared only with bars of its group."


def page_of(sweep: Sweep, results: list[Result], notes: list[str], date: str, call: str, title: str | None) -> str:
    """The whole page."""
    counted = [result for result in results if result.report is not None]
    parts = bar_parts(counted) if counted else []
    parts += [heading(2, "All counts", "counts"), counts_table(results, counted)]
    parts += [element("p", note, "note") for note in notes]
    parts += [heading(2, "Settings", "settings"), facts(asked_of(sweep, counted, call), "Settings")]
    parts += [heading(3, "Images", "images"), images_of(results)]
    classes = classes_of(counted)
    style = page_style.of_classes({OF_CLASS + name: colour for name, colour in classes.items()})
    first = [element("p", f"{MADE_BY}, {date}", "note"), page_text.contents(parts), element("p", MEANING)]
    return page_text.page(title or TITLE, [*first, *parts], style)


def classes_of(counted: list[Result]) -> dict[str, str]:
    """The answer classes of a sweep with their colours."""
    return class_colours(list(counted[0].classes)) if counted else {}


def bar_parts(counted: list[Result]) -> list[str]:
    """The bars. Those of silent sites have a scale of their own, because there are often few silent sites."""
    names = [result.combination.name for result in counted]
    counts = [result.counts for result in counted]
    others = [word for word in OUTCOMES if word not in ("no-effect", "silent")]
    parts = [heading(2, SILENT, "silent"), page_text.bars(names, counts, ["silent"], SILENT)]
    if counted[0].classes:
        answers = [result.classes for result in counted]
        parts.append(heading(2, ANSWERS, "answers"))
        parts.append(page_text.bars(names, answers, list(counted[0].classes), ANSWERS, OF_CLASS))
    parts += [heading(2, OTHERS, "others"), page_text.bars(names, counts, others, OTHERS)]
    return [*parts, element("p", SCALES, "note")]


def counts_table(results: list[Result], counted: list[Result]) -> str:
    """A row for each combination, with its numbers or why it has none."""
    words = ["silent", *(word for word in OUTCOMES if word != "silent")]
    numbers = ["instructions", "sites", *words]
    classes = list(counted[0].classes) if counted else []
    columns = [Cell("variant", "words"), Cell("flags", "words"), *map(Cell, [*numbers, *classes, "silent ratio"])]
    least = min((result.counts["silent"] for result in counted), default=None)
    rows = []
    for result in results:
        row = [Cell(result.combination.variant, "words"), Cell(result.combination.flags or "-", "words")]
        if result.report is None:
            rows.append([*row, *(Cell("-") for _ in [*numbers, *classes]), Cell(result.status)])
            continue
        counts = result.report.counts
        for word in numbers:
            best = word == "silent" and counts[word] == least
            row.append(Cell(f"{counts[word]:,}", "worst" if best else ""))  # the style of an emphasised row
        row += [Cell(f"{result.classes[name]:,}") for name in classes]
        rows.append([*row, Cell(ratio(counts["silent"], counted[0].counts["silent"]))])
    return table(columns, rows, "counts", "All counts")


def asked_of(sweep: Sweep, counted: list[Result], call: str) -> list[tuple[str, str]]:
    """The options of the sweep, and the case that follows from them."""
    pairs = [("command", call), ("SHA-256 of fail_star", program.sum_of(sweep.program)), ("build", sweep.command), ("options", " ".join(sweep.options) or "none")]
    if counted:
        card = known(counted[0].case)
        pairs += [("ROM", str(card.rom)), ("RAM", str(card.ram)), ("limit", f"{card.limit:,} instructions")]
        pairs.append(("flags of the campaigns", " ".join(card.flags()) or "none"))
    return pairs


def images_of(results: list[Result]) -> str:
    """The image of each combination, and why it has no counts."""
    columns = [Cell(word, "words") for word in ("variant", "flags", "SHA-256 of the image", "campaign file", "what it came to")]
    rows = []
    for result in results:
        came_to = result.status if result.status == COUNTED else f"{result.status}: {result.reason}"
        words = (result.combination.variant, result.combination.flags or "-", result.digest or "-", result.kept or "-", came_to)
        rows.append([Cell(word, "words") for word in words])
    return table(columns, rows, "images", "Images")
