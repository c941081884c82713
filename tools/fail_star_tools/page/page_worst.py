"""The tables of a page of report.py with the worst functions, instructions and cells, by their silent sites."""

from __future__ import annotations

from collections.abc import Callable, Hashable, Mapping
from typing import TypeVar

from fail_star_tools.known import known
from fail_star_tools.page import page_links
from fail_star_tools.page.page_table import MEMORY, SILENT, Row, Shown, of_functions, of_instructions
from fail_star_tools.page.page_text import Cell, element, heading, table
from fail_star_tools.read.cells import offset_of
from fail_star_tools.read.job_table import Ram

Key = TypeVar("Key", bound=Hashable)

MOST_ROWS = 100
MOST_CELLS = 3
NUMBERS = (Cell("instructions run"), Cell("silent sites read here"))
BOTH_WAYS = (
    "A silent site is counted as read here if this instruction is the next one to read the corrupted bit, and as flipped if the bit "
    "flips just before it. Each of the two columns counts each silent site once."
)


def worst_parts(shown: Shown) -> list[str]:
    """The worst functions, instructions and cells of a campaign."""
    parts = []
    if shown.trace is None:
        note = "Functions and instructions need a trace (--trace), or a campaign file as the table."
        parts.append(element("p", note, "note"))
    else:
        rows = of_instructions(shown.trace, shown)
        if shown.image is not None and shown.image.has_symbols:
            parts += [heading(3, "Functions", shown.anchor("functions")), function_table(shown, rows)]
        else:
            parts.append(element("p", "Names of functions need an image with symbols (--image).", "note"))
        parts += [heading(3, "Instructions", shown.anchor("instructions")), instruction_table(shown, rows)]
        parts.append(element("p", BOTH_WAYS, "note"))
    return [*parts, heading(3, "Cells", shown.anchor("cells")), cell_table(shown)]


def worst_of(rows: Mapping[Key, Row], address: Callable[[Key], int]) -> list[tuple[Key, Row]]:
    """The worst rows that have a silent site, at most the number that a page shows. Of equal rows that with the
    lowest address comes first."""
    silent = (item for item in rows.items() if item[1].read or item[1].flipped)
    return sorted(silent, key=lambda item: (*item[1].rank(), address(item[0])))[:MOST_ROWS]


def function_table(shown: Shown, instructions: dict[int, Row]) -> str:
    """The worst functions, and the numbers of all others. The name of a function links to the map."""
    rows = of_functions(instructions, shown)
    worst = worst_of(rows, lambda function: function.value if function else -1)
    lines = []
    for function, row in worst:
        if function:
            goal, name = page_links.of_span(function.value), page_links.of_function(function.value)
            cells = [Cell(function.name, "words", shown.anchor(goal), shown.anchor(name))]
            cells.append(Cell(f"{function.value:#010x}", "code"))
        else:
            cells = [Cell("no function", "words"), Cell("", "code")]
        lines.append([*cells, *numbers_of(row), through_of(shown, row)])
    numbers = [*NUMBERS, Cell("flipped while it runs"), Cell("mostly through", "words")]
    columns = [Cell("function", "words"), Cell("address", "words"), *numbers]
    return table(columns, lines, "functions", f"Functions of {shown.name}", others(rows, worst, 1))


def instruction_table(shown: Shown, rows: dict[int, Row]) -> str:
    """The worst instructions, and the numbers of all others. An instruction links to its function and its line."""
    worst = worst_of(rows, int)
    places = {address: shown.place_of(address) for address, _ in worst}
    lined = any(places.values())
    lines = []
    for address, row in worst:
        function = shown.function_of(address)
        name = shown.anchor(page_links.of_instruction(address))
        cells = [Cell(f"{address:#010x}", "code", name=name), Cell("", "words")]
        if function:
            goal = shown.anchor(page_links.of_function(function.value))
            cells[1] = Cell(f"{function.name}+{address - function.value}", "words", goal)
        text = Cell(shown.lines.get(address, f"{known(shown.trace).words[address]:08x}"), "code")
        place = places[address]
        line = Cell(place, "code", shown.anchor(page_links.of_line(place)) if place else "")
        lines.append([*cells, text, *numbers_of(row), through_of(shown, row), *([line] if lined else [])])
    numbers = [*NUMBERS, Cell("flipped just before"), Cell("mostly through", "words")]
    columns = [*(Cell(word, "words") for word in ("address", "place", "instruction")), *numbers]
    columns += [Cell("line", "words")] if lined else []
    rest = others(rows, worst, 2)
    rest += [Cell("", "code")] if lined and rest else []
    return table(columns, lines, "instructions", f"Instructions of {shown.name}", rest)


def numbers_of(row: Row) -> list[Cell]:
    """The numbers of a row of the worst."""
    return [Cell(f"{row.times:,}"), Cell(f"{row.read:,}", "worst"), Cell(f"{row.flipped:,}")]


def through_of(shown: Shown, row: Row) -> Cell:
    """The cells through which the most silent sites reach these reads, each with a link to its row of the map."""
    parts: list[Cell] = []
    for cell, sites in row.through.most_common(MOST_CELLS):
        goal = "" if cell == MEMORY else shown.anchor(page_links.of_cell(cell))
        name = "RAM" if cell == MEMORY else Ram().name([cell])
        parts += [Cell(", " if parts else ""), Cell(name, goal=goal), Cell(f" {sites:,}")]
    return Cell("", "words", more=parts)


def others(rows: Mapping[Key, Row], worst: list[tuple[Key, Row]], texts: int) -> list[Cell]:
    """A line for all rows that are not among the worst; nothing if there are none."""
    among = dict(worst)
    rest = {key: row for key, row in rows.items() if key not in among}
    if not rest:
        return []
    sums = Row(*(sum(getattr(row, name) for row in rest.values()) for name in ("times", "read", "flipped")))
    return [Cell(f"{len(rest):,} others", "words"), *([Cell("", "words")] * texts), *numbers_of(sums), Cell("", "words")]


def cell_table(shown: Shown) -> str:
    """The cells with the most silent sites, and the number of all others. A cell and a variable link to the map."""
    silent = {cell: totals[SILENT] for cell, totals in shown.campaign.cells.items()}
    worst = sorted((cell for cell in silent if silent[cell]), key=lambda cell: (-silent[cell], cell))[:MOST_ROWS]
    lines = []
    for cell in worst:
        variable = shown.variable_of(cell)
        cells = [Cell(shown.ram.name([cell]), "words", shown.anchor(page_links.of_cell(cell))), Cell("", "words")]
        if variable:
            place = f"{variable.name}+{known(shown.ram.base) + offset_of(cell) - variable.value}"
            cells[1] = Cell(place, "words", shown.anchor(page_links.of_variable(variable.value)))
        lines.append([*cells, Cell(f"{silent[cell]:,}", "worst")])
    rest = len(silent) - len(worst)
    left = sum(silent.values()) - sum(silent[cell] for cell in worst)
    all_others = [Cell(f"{rest:,} others that are read", "words"), Cell("", "words"), Cell(f"{left:,}", "worst")]
    columns = [Cell("cell", "words"), Cell("byte of", "words"), Cell("silent sites")]
    return table(columns, lines, "cells", f"Cells of {shown.name}", all_others if rest else [])
