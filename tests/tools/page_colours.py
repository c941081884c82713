"""The colours of the bars of a page, read from its style: for each kind of bar its colour in light and in dark, and the
lines over it. Then the least contrast, as WCAG 2 defines it, of silent to another kind of sites, and of the
texts to the paper, in light and in dark.

page_colours.py FILE
"""

from __future__ import annotations

import re
import sys
import xml.etree.ElementTree

SVG = "{http://www.w3.org/2000/svg}"
HTML = "{http://www.w3.org/1999/xhtml}"
KINDS = ("timeout", "illegal", "address", "misaligned", "detected", "no-effect", "unknown", "dead", "paper")
TEXTS = ("ink", "soft", "link")

root = xml.etree.ElementTree.parse(sys.argv[1]).getroot()
style = "".join(element.text or "" for element in root.iter(HTML + "style"))
blocks = re.findall(r":root\{([^}]*--paper[^}]*)\}", style)
assert len(blocks) == 2 and "prefers-color-scheme:dark" in style and "color-scheme:light dark" in style, len(blocks)
light, dark = ({name: colour for name, colour in re.findall(r"--([a-z0-9-]+):(#[0-9a-f]{6});", block)} for block in blocks)


def fill_of(name: str) -> str:
    """The fill of a class: that of the rule with the most specific selector, and of these the last."""
    rules = re.findall(rf"([^{{}};]*)\.{name}\{{[^}}]*fill:([^;}}]*)", style)
    return max(enumerate(rules), key=lambda rule: (len(rule[1][0].split()), rule[0]))[1][1]


def colours(name: str) -> tuple[str, str]:
    """The colour of a class in light and in dark."""
    fill = fill_of(name)
    variable = re.fullmatch(r"var\(--(.*)\)", fill)
    return (light[variable[1]], dark[variable[1]]) if variable else (fill, fill)


def luminance(colour: str) -> float:
    parts = (int(colour[at : at + 2], 16) / 255 for at in (1, 3, 5))
    linear = [part / 12.92 if part <= 0.04045 else ((part + 0.055) / 1.055) ** 2.4 for part in parts]
    return 0.2126 * linear[0] + 0.7152 * linear[1] + 0.0722 * linear[2]


def contrast(one: str, other: str) -> float:
    less, more = sorted((luminance(one), luminance(other)))
    return (more + 0.05) / (less + 0.05)


lines: dict[str, str] = {}
for svg in root.iter(SVG + "svg"):
    for shape in svg.findall(f"{SVG}rect"):
        if shape.get("class", "").endswith(" bar"):
            use = svg.find(f"{SVG}svg/{SVG}use")
            goal = "" if use is None else use.attrib["href"].removeprefix("#")
            assert not goal or any(element.get("id") == goal for element in root.iter(SVG + "path")), goal
            lines[shape.attrib["class"].split()[0]] = goal or "plain"
for name, manner in lines.items():
    print(name, *colours(name), manner)
for word, theme in (("light", light), ("dark", dark)):
    silent = min(contrast(theme["silent"], theme[kind]) for kind in KINDS)
    text = min(contrast(theme[kind], theme["paper"]) for kind in TEXTS)
    print(f"{word}: silent at least 1.5 {silent >= 1.5}, texts at least 4.5 {text >= 4.5}")
