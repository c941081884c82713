"""What a page of tools/report.py shows, read with Python's own reader of XML, as files in a folder:

bars      of each bar the outcome, the sites and the width in pixels
marks     of each map the area of its silent marks in square pixels, and the least width and height of one
beside    of each map the silent sites that stand beside its cells
counts, functions, instructions, cells, groups, facts, source, lines: the tables of this class, a line for each row
words     all text, a line for each element that has some
demands   what it would fetch, and scripts that its policy does not name, so nothing where it stands alone
anchors   anchors that occur twice, and links without their anchor, so nothing where all links lead somewhere
links     the text of each link, and that of the row or the shape to which it goes

page.py FILE FOLDER
"""

from __future__ import annotations

import base64
import hashlib
import re
import sys
import xml.etree.ElementTree
from collections.abc import Iterator
from pathlib import Path
from xml.etree.ElementTree import Element

OUTSIDE = re.compile(r"url\((?!#)|@import")
SVG = "{http://www.w3.org/2000/svg}"
HTML = "{http://www.w3.org/1999/xhtml}"
HEADINGS = (HTML + "h2", HTML + "h3")
NUMBER = r"(-?[0-9.]+)"
PIECE = re.compile(f"M{NUMBER} {NUMBER}h{NUMBER}v{NUMBER}h-{NUMBER}z")


def sizes_of(shape: Element) -> list[tuple[float, float]]:
    """The width and the height of each rectangle of a shape."""
    if shape.tag == SVG + "rect":
        return [(float(shape.attrib["width"]), float(shape.attrib["height"]))]
    path = shape.attrib["d"]
    assert PIECE.sub("", path) == "", path
    return [(float(piece[2]), float(piece[3])) for piece in PIECE.findall(path)]


def classes(element: Element) -> list[str]:
    """The words of an element's class."""
    return element.get("class", "").split()


def maps() -> list[Element]:
    """All maps."""
    return [svg for svg in root.iter(SVG + "svg") if "map" in classes(svg)]


def bars() -> list[str]:
    """Of each bar its style, its sites, and its width if the longest is 800 pixels wide."""
    found = (bar for bar in root.iter(SVG + "rect") if "bar" in classes(bar))
    widths = (8 * float(bar.attrib["width"].removesuffix("%")) for bar in root.iter(SVG + "rect") if "bar" in classes(bar))
    return [f"{classes(bar)[0]} {bar.get('data-sites')} {wide:.2f}" for bar, wide in zip(found, widths)]


def marks() -> Iterator[str]:
    for svg in maps():
        groups = (group for group in svg.iter(SVG + "g") if "marks" in classes(group))
        sizes = [size for group in groups for shape in group.iter(SVG + "path") for size in sizes_of(shape)]
        area = sum(wide * high for wide, high in sizes)
        yield f"{area:.0f}, least {min(wide for wide, _ in sizes):.2f} by {min(high for _, high in sizes):.2f}" if sizes else "none"


def beside() -> list[str]:
    return [" ".join(bar.attrib["data-sites"] for bar in svg.iter(SVG + "rect") if "cell" in classes(bar)) for svg in maps()]


def table(name: str) -> list[str]:
    found = (table for table in root.iter(HTML + "table") if name in classes(table))
    return [" | ".join("".join(cell.itertext()) for cell in row) for table in found for row in table.iter(HTML + "tr")]


def words() -> list[str]:
    found = (element for element in root.iter() if element.tag not in (HTML + "style", HTML + "script"))
    return [element.text.strip() for element in found if element.text and element.text.strip()]


def demands() -> Iterator[str]:
    """What the page would fetch, and each script that is not the one that its policy names."""
    for element in root.iter():
        if element.tag in (HTML + "link", HTML + "img", SVG + "image", HTML + "iframe", HTML + "object", HTML + "base"):
            yield element.tag
        if element.tag.endswith("}script"):
            yield from strange(element)
        for name, value in element.attrib.items():
            outward = name.endswith(("href", "src")) and not value.startswith("#")
            if name.startswith("on") or outward or OUTSIDE.search(value):
                yield f"{element.tag} {name}"
    for style in root.iter(HTML + "style"):
        yield from OUTSIDE.findall(style.text or "")


def strange(script: Element) -> Iterator[str]:
    """Whether a script is another one than that which the policy allows, or fetches something."""
    text = script.text or ""
    digest = base64.b64encode(hashlib.sha256(text.encode()).digest()).decode()
    policies = [meta.attrib["content"] for meta in root.iter(HTML + "meta") if meta.get("http-equiv") == "Content-Security-Policy"]
    if ["default-src 'none'" in policy and f"script-src 'sha256-{digest}'" in policy for policy in policies] != [True]:
        yield "a script that the policy does not name"
    yield from re.findall(r"fetch|XMLHttp|WebSocket|import|eval|https?:|location|innerHTML", text)


def anchors() -> Iterator[str]:
    """Anchors that occur twice, and links to anchors that do not occur."""
    found = [name for element in root.iter() if (name := element.get("id"))]
    yield from (f"twice: {name}" for name in sorted(set(found)) if found.count(name) > 1)
    links = [(element.get("href") or "#")[1:] for element in root.iter() if element.tag.endswith("}a")]
    yield from (f"missing: {name}" for name in sorted(set(links)) if name not in found)


def links() -> list[str]:
    """Of each link its text, and the text of the row, or the words of the shape, to which it goes."""
    goals = {element.get("id"): element for element in root.iter() if element.get("id")}
    parents = {child: element for element in root.iter() for child in element}
    found = []
    for link in root.iter(HTML + "a"):
        goal = goals.get((link.get("href") or "#")[1:])
        if goal is not None:
            title = goal.find(f".//{SVG}title")
            row = " | ".join("".join(cell.itertext()) for cell in parents[goal])
            found.append(f"{link.text} -> {title.text if title is not None else goal.text if goal.tag in HEADINGS else row}")
    return found


root = xml.etree.ElementTree.parse(sys.argv[1]).getroot()
assert root.tag == HTML + "html", root.tag
folder = Path(sys.argv[2])
folder.mkdir(exist_ok=True)
lines_of = {"bars": bars(), "marks": marks(), "beside": beside(), "words": words(), "demands": demands()}
lines_of |= {"anchors": anchors(), "links": links()}
lines_of |= {name: table(name) for name in ("counts", "functions", "instructions", "cells", "groups", "facts", "source", "lines")}
for name, lines in lines_of.items():
    (folder / name).write_text("".join(f"{line}\n" for line in lines), encoding="utf-8")
