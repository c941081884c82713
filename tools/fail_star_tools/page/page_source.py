"""The source of a page of report.py: lines with the silent sites that their instructions read, and with their text if
it is found.

An image names its source files, and may come from anywhere. So a file is shown only if it is within one of the
folders of --sources, or, without this option, within the current folder or that of the image, also after links are
followed. A page shows no other file.
"""

from __future__ import annotations

from collections.abc import Iterable
from dataclasses import dataclass, field
from pathlib import Path

from fail_star_tools.page import page_links
from fail_star_tools.page.page_table import Row, Shown, of_instructions
from fail_star_tools.page.page_text import Cell, element, heading, table
from fail_star_tools.read import regular
from fail_star_tools.read.elf_image import Symbol

MOST_FILES, MOST_LINES, MOST_BYTES = 8, 400, 1_000_000  # of all files of a page; of the text of a file
MOST_ROWS = 100  # of lines without their text
AROUND = 3  # lines of text before and after one that has sites
TAB = 4
HEATS = ((0.5, "heat3"), (0.1, "heat2"), (0.0, "heat1"))  # by the share of the worst line
HEADING = [Cell("line"), Cell("instructions run"), Cell("silent sites read here"), Cell("source", "words")]
FUNCTION = Cell("function", "words")
NOTE = "A silent site counts for the line whose instruction reads the corrupted bit. The darker a line, the more sites it has."


@dataclass
class File:
    """A source file with the counts of its lines."""

    name: str
    lines: dict[int, Row] = field(default_factory=dict)
    functions: dict[int, list[Symbol]] = field(default_factory=dict)  # whose instructions a line has

    @property
    def silent(self) -> int:
        """The silent sites of all lines."""
        return sum(row.read for row in self.lines.values())


def source_parts(shown: Shown, image: str | None, folders: list[str]) -> list[str]:
    """The source lines of a campaign, or the reason why they are missing."""
    if shown.trace is None or shown.image is None or image is None:
        return []
    title = heading(3, "Source", shown.anchor("source"))
    if shown.source is None:
        return [title, element("p", f"No lines: {shown.no_source}.", "note")]
    files = files_of(shown)
    worst = sorted((file for file in files if file.silent), key=lambda file: (-file.silent, file.name))
    if not worst:
        return []
    most = max(row.read for file in worst for row in file.lines.values())
    roots = [Path(folder) for folder in folders] or [Path("."), Path(image).parent]
    parts, room, unfound = [title, element("p", NOTE, "note")], MOST_LINES, []
    for number, file in enumerate(worst):
        text = text_of(file.name, roots) if number < MOST_FILES and room > 0 else None
        if text is None or max(file.lines) > len(text):
            unfound.append(file)
            continue
        rows = listing(shown, file, text, most)[:room]
        room -= len(rows)
        columns = [*HEADING, FUNCTION] if shown.image.has_symbols else HEADING
        listed = table(columns, rows, "source", f"Lines of {file.name} in {shown.name}")
        parts += [element("h4", f"{file.name}: {file.silent:,} silent sites"), listed]
    return parts + unfound_parts(shown, unfound, most)


def files_of(shown: Shown) -> list[File]:
    """The files whose lines have instructions of the run."""
    files: dict[str, File] = {}
    if shown.trace is None:
        return []
    for address, one in of_instructions(shown.trace, shown).items():
        place = shown.place_of(address)
        if place:
            name, _, number = place.rpartition(":")
            file = files.setdefault(name, File(name))
            row = file.lines.setdefault(int(number), Row())
            row.times, row.read = row.times + one.times, row.read + one.read
            owner, owners = shown.function_of(address), file.functions.setdefault(int(number), [])
            if owner is not None and owner not in owners:
                owners.append(owner)
    return list(files.values())


def text_of(name: str, roots: Iterable[Path]) -> list[str] | None:
    """The lines of a source file; nothing if none of the folders has it."""
    for root in roots:
        try:
            folder = root.resolve()
            path = (folder / name).resolve()
            if folder not in path.parents or not path.is_file():
                continue
            with regular.opened(str(path)) as file:
                content = file.read(MOST_BYTES + 1)
        except (OSError, ValueError, RuntimeError):  # a zero byte gives a ValueError, a loop of links a RuntimeError
            continue
        if len(content) <= MOST_BYTES:
            return content.decode("utf-8", "replace").removesuffix("\n").split("\n")
    return None


def listing(shown: Shown, file: File, text: list[str], most: int) -> list[list[Cell]]:
    """The lines that have instructions of the run, with those around them; a row of dots replaces other lines."""
    near = {line for at in file.lines for line in range(at - AROUND, at + AROUND + 1)}
    rows: list[list[Cell]] = []
    before = 0
    for line in sorted(line for line in near if 1 <= line <= len(text)):
        if line > before + 1 and before:
            rows.append([Cell("…"), Cell(""), Cell(""), Cell("", "code"), Cell("", "words")])
        before = line
        row = file.lines.get(line)
        numbers = ["", ""] if row is None else [f"{row.times:,}", f"{row.read:,}" if row.read else ""]
        heat = heat_of(row.read if row else 0, most)
        number = Cell(str(line), name=shown.anchor(page_links.of_line(f"{file.name}:{line}")))
        code = Cell(text[line - 1].rstrip().expandtabs(TAB), f"code {heat}".strip())
        owners = functions_of(shown, file.functions.get(line, []))
        rows.append([number, Cell(numbers[0]), Cell(numbers[1], heat), code, owners])
    return rows if shown.image and shown.image.has_symbols else [row[:-1] for row in rows]


def functions_of(shown: Shown, owners: list[Symbol]) -> Cell:
    """The functions whose instructions a line has, each with a link to its row."""
    parts: list[Cell] = []
    for owner in owners:
        goal = shown.anchor(page_links.of_function(owner.value))
        parts += [Cell(", " if parts else ""), Cell(owner.name, goal=goal)]
    return Cell("", "words", more=parts)


def heat_of(silent: int, most: int) -> str:
    """The style that marks a line."""
    return next(style for share, style in HEATS if silent > share * most) if silent else ""


def unfound_parts(shown: Shown, files: list[File], most: int) -> list[str]:
    """The worst lines of files whose text was not found, or for which there is no room."""
    if not files:
        return []
    lines = [(file, number, row) for file in files for number, row in file.lines.items() if row.read]
    lines.sort(key=lambda line: (-line[2].read, line[0].name, line[1]))
    rows = []
    for file, number, row in lines[:MOST_ROWS]:
        place = f"{file.name}:{number}"
        cells = [Cell(place, "code", name=shown.anchor(page_links.of_line(place))), Cell(f"{row.times:,}")]
        cells.append(Cell(f"{row.read:,}", heat_of(row.read, most)))
        rows.append([*cells, functions_of(shown, file.functions[number])])
    with_functions = shown.image is not None and shown.image.has_symbols
    columns = [Cell("line", "words"), *HEADING[1:3], *([FUNCTION] if with_functions else [])]
    rows = rows if with_functions else [row[:-1] for row in rows]
    note = "Lines whose text is not shown: --sources FOLDER says where the source files are."
    more = len(lines) - len(rows)
    rest = [element("p", f"{more:,} other lines have silent sites.", "note")] if more else []
    title = f"Lines of {shown.name} without their text"
    return [element("p", note, "note"), table(columns, rows, "lines", title), *rest]
