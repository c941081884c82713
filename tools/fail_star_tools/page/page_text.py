"""The HTML of a page: its head, contents, tables and bars. It is also valid XML, so that readers of either can use
it."""

from __future__ import annotations

import re
from collections.abc import Iterable, Mapping, Sequence
from dataclasses import dataclass
from xml.sax.saxutils import escape, quoteattr

from fail_star_tools.page import page_hatch, page_script
from fail_star_tools.page.page_style import STYLE
from fail_star_tools.words import printable

BAR_WIDTH, BAR_HEIGHT = 800, 16
LONG = 25  # rows, above which a table scrolls on a screen
IDENTITY = re.compile(r'(<[a-z0-9]+(?: [^<>]*)?) id="([^"]+)"')
LINK = re.compile(r'<a href="#([^"]+)">([^<]*)</a>')
HEADING = re.compile(r'<h([23]) id="([^"]+)">([^<]*)</h[23]>')


@dataclass
class Cell:
    """A cell of a table, with the class of its style; a cell without a class is a number. `goal` is the anchor to
    which it links, and `name` the anchor that it is."""

    text: str
    style: str = ""
    goal: str = ""
    name: str = ""
    more: Sequence[Cell] = ()  # further texts of the same cell
    commands: Sequence[str] = ()  # for a shell, each of which a reader can copy


# --- A whole page ---------------------------------------------------------------------------------


def page(title: str, parts: Sequence[str], style: str = "") -> str:
    """A whole page, with further style rules."""
    head = [
        "<!DOCTYPE html>",
        '<html lang="en" xmlns="http://www.w3.org/1999/xhtml">',
        '<head><meta charset="utf-8"/><meta name="viewport" content="width=device-width"/>',
        f'<meta http-equiv="Content-Security-Policy" content="{page_script.POLICY}"/>',
        f"<title>{escape(printable(title))}</title>",
        f"<style>{STYLE}{style}</style></head>",
        "<body>",
        page_hatch.definitions(),
        "<main>",
        f"<h1>{escape(printable(title))}</h1>",
    ]
    body = joined(parts)
    return "\n".join([*head, *body, "</main>", f"<script>{page_script.SCRIPT}</script>", "</body></html>", ""])


def joined(parts: Iterable[str]) -> list[str]:
    """Parts of a page, in which no anchor occurs twice, and each link has its anchor. Names of an image may be the
    same, and not every place that is named is shown."""
    anchors: set[str] = set()

    def named(tag: re.Match[str]) -> str:
        known = tag[2] in anchors
        anchors.add(tag[2])
        return tag[1] if known else tag[0]

    unique = [IDENTITY.sub(named, part) for part in parts]
    return [LINK.sub(lambda link: link[0] if link[1] in anchors else link[2], part) for part in unique]


def contents(parts: Iterable[str]) -> str:
    """Links to the headings of these parts that have an anchor: those of the second level, and below each those of the
    third."""
    found = [heading for part in parts for heading in HEADING.findall(part)]
    lines = ['<nav aria-label="Contents"><ul>']
    inner = False
    for (level, name, text), following in zip(found, [*found[1:], ("2", "", "")]):
        opens = level == "2" and following[0] == "3"
        lines.append(f'<li><a href="#{name}">{text}</a>{"<ul>" if opens else "</li>"}')
        inner = inner or opens
        if inner and following[0] == "2":
            lines.append("</ul></li>")
            inner = False
    return "\n".join([*lines, "</ul></nav>"])


# --- Elements -------------------------------------------------------------------------------------


def element(tag: str, text: str, style: str = "") -> str:
    """An element that has this text."""
    chosen = f' class="{style}"' if style else ""
    return f"<{tag}{chosen}>{escape(printable(text))}</{tag}>"


def heading(level: int, text: str, name: str) -> str:
    """A heading with an anchor, to which the contents of the page link."""
    return f'<h{level} id="{name}">{escape(printable(text))}</h{level}>'


def command_text(command: str) -> str:
    """A command, which the script of the page lets a reader copy."""
    return f'<div class="run"><code class="command">{escape(printable(command))}</code></div>'


def linked(cell: Cell) -> str:
    """The text of a cell, as a link if it has a goal."""
    text = escape(printable(cell.text))
    return f'<a href="#{cell.goal}">{text}</a>' if cell.goal else text


def cell_text(cell: Cell, tag: str) -> str:
    """A cell of a table."""
    chosen = (f' class="{cell.style}"' if cell.style else "") + (f' id="{cell.name}"' if cell.name else "")
    scope = {"th": "", "row": ' scope="row"', "col": ' scope="col"'}.get(tag, "")
    inner = linked(cell) + "".join(map(linked, cell.more)) + " ".join(map(command_text, cell.commands))
    return f"<{'th' if scope else tag}{scope}{chosen}>{inner}</{'th' if scope else tag}>"


def row_text(row: Sequence[Cell]) -> str:
    """A row of a table, whose first cell is its heading."""
    first, *others = row
    return f"<tr>{cell_text(first, 'row')}{''.join(cell_text(cell, 'td') for cell in others)}</tr>"


def table(
    heading: Sequence[Cell], rows: Iterable[Sequence[Cell]], style: str, caption: str, last: Sequence[Cell] = ()
) -> str:
    """A table with a heading, or without it if it is empty. `last` is a row that stays below the others when a reader
    sorts them. The caption is for readers who do not see the page."""
    lines = [row_text(row) for row in rows]
    tall = " tall" if len(lines) > LONG else ""
    name = quoteattr(printable(caption))
    pieces = [f'<div class="scroll{tall}" role="group" tabindex="0" aria-label={name}><table class="{style}">']
    pieces.append(f"<caption>{escape(printable(caption))}</caption>")
    if heading:
        pieces.append(f"<thead><tr>{''.join(cell_text(cell, 'col') for cell in heading)}</tr></thead>")
    pieces += ["<tbody>", *lines, "</tbody>"]
    pieces += [f"<tfoot>{row_text(last)}</tfoot>"] if last else []
    return "\n".join([*pieces, "</table></div>"])


def facts(pairs: Iterable[tuple[str, str]], caption: str) -> str:
    """A table of names and values."""
    return table((), ((Cell(word, "words"), Cell(value, "words")) for word, value in pairs), "facts", caption)


def scrolling(picture: str, name: str) -> str:
    """A picture that is scrolled sideways where the screen is narrow."""
    label = quoteattr(printable(name))
    return f'<div class="scroll" role="group" tabindex="0" aria-label={label}>\n{picture}</div>'


# --- Bars -----------------------------------------------------------------------------------------


def bars(names: list[str], counts: list[dict[str, int]], words: list[str], caption: str, style: str = "") -> str:
    """A bar for each of these outcomes or classes and each campaign, all with one scale. `style` is what comes before
    a word in the name of its style."""
    most = max([each.get(word, 0) for each in counts for word in words] + [1])
    manners = page_hatch.of_classes(style + word for word in words) if style else page_hatch.OF_KINDS
    lines = [f'<table class="bars"><caption>{escape(printable(caption))}</caption><tbody>']
    for word in words:
        for at, (name, each) in enumerate(zip(names, counts)):
            count = each.get(word, 0)
            wide = max(1.0, BAR_WIDTH * count / most) if count else 0.0
            label = word if len(names) == 1 else f"{word}: {name}"
            first = ' class="first"' if at == 0 and len(names) > 1 else ""
            lines.append(f"<tr{first}>{cell_text(Cell(label), 'row')}")
            lines.append(f'<td>{bar(style + word, count, wide, manners)}</td><td class="count">{count:,}</td></tr>')
    return "\n".join([*lines, "</tbody></table>"])


def bar(style: str, count: int, wide: float, manners: Mapping[str, str]) -> str:
    """A bar, whose width is a part of that of its column."""
    size = f'width="{100 * wide / BAR_WIDTH:.4f}%" height="{BAR_HEIGHT}"'
    shape = f'<rect class="{style} bar" data-sites="{count}" {size}/>{page_hatch.over(style, manners, size)}'
    return f'<svg xmlns="http://www.w3.org/2000/svg" class="bar" aria-hidden="true">{shape}</svg>'
