#!/usr/bin/env python3
"""Draws the silent sites of GUIDE.md against the limit as an SVG picture on the standard output.

usage: docs/limit_plot.py [GUIDE.md] > docs/limits.svg

The numbers are those below the loops over limits in the guide, which its test compares with the programs. Each program
has a panel of its own; all panels have the same number of sites in a pixel.
"""
from __future__ import annotations

import math
import re
import sys
from pathlib import Path

COMMAND = re.compile(r"\$ for limit in .*fail_star run built/(\w+)\.elf ")
ROW = re.compile(r"(\d+) silent (\d+) timeout \d+$")
WIDTH, HEIGHT = 340, 200  # of a panel without its words
LEFT, TOP, GAP, BOTTOM = 70, 50, 110, 48  # beside, above, between and below the panels
ROUND = 1000  # a line for each so many sites
INSET = 32  # between the edge of a panel and its first and last point
DOT = 3.5
STYLE = (
    "text{font:12px sans-serif;fill:#222}.head{font-size:14px;font-weight:bold}.end{text-anchor:end}.middle{text-anchor:middle}"
    ".guide{stroke:#ddd}.tick{stroke:#222}.line{fill:none;stroke:#d55e00;stroke-width:2}.dot{fill:#d55e00}"
)
Series = list[tuple[int, int]]  # limits and silent sites


def series_of(guide: str) -> dict[str, Series]:
    """The silent sites by limit of each program."""
    found: dict[str, Series] = {}
    name = ""
    for line in guide.splitlines():
        command, row = COMMAND.match(line), ROW.match(line)
        if command:
            name = command[1]
        elif row and name:
            found.setdefault(name, []).append((int(row[1]), int(row[2])))
        else:
            name = ""
    return found


def panel(name: str, rows: Series, left: int, span: int) -> list[str]:
    """The panel of a program: lines for round numbers of sites, the limits below, and the points with their numbers."""
    least = min(sites for _, sites in rows) // ROUND * ROUND
    low, high = math.log(rows[0][0]), math.log(rows[-1][0])

    def x(limit: int) -> float:
        return left + INSET + (WIDTH - 2 * INSET) * (math.log(limit) - low) / (high - low)

    def y(sites: int) -> float:
        return TOP + HEIGHT * (1 - (sites - least) / span)

    pieces = [f'<text x="{left}" y="{TOP - 24}" class="head">{name}: silent sites</text>']
    for sites in range(least, least + span + 1, ROUND):
        pieces.append(f'<line x1="{left}" y1="{y(sites):g}" x2="{left + WIDTH}" y2="{y(sites):g}" class="guide"/>')
        pieces.append(f'<text x="{left - 8}" y="{y(sites) + 4:g}" class="end">{sites:,}</text>')
    bottom = TOP + HEIGHT
    pieces.append(f'<line x1="{left}" y1="{bottom}" x2="{left + WIDTH}" y2="{bottom}" class="tick"/>')
    points = " ".join(f"{x(limit):.1f},{y(sites):.1f}" for limit, sites in rows)
    pieces.append(f'<polyline points="{points}" class="line"/>')
    for limit, sites in rows:
        pieces.append(f'<circle cx="{x(limit):.1f}" cy="{y(sites):.1f}" r="{DOT}" class="dot"/>')
        pieces.append(f'<text x="{x(limit):.1f}" y="{y(sites) - 9:.1f}" class="middle">{sites:,}</text>')
        pieces.append(f'<text x="{x(limit):.1f}" y="{bottom + 18}" class="middle">{limit:,}</text>')
    pieces.append(f'<text x="{left + WIDTH / 2:g}" y="{bottom + 38}" class="middle">limit, in instructions</text>')
    return pieces


def picture(found: dict[str, Series]) -> str:
    """The whole picture."""
    spans = (max(sites for _, sites in rows) - min(sites for _, sites in rows) // ROUND * ROUND for rows in found.values())
    span = (max(spans) // ROUND + 1) * ROUND
    width = LEFT + len(found) * WIDTH + (len(found) - 1) * GAP + 40
    height = TOP + HEIGHT + BOTTOM
    size = f'width="{width}" height="{height}" viewBox="0 0 {width} {height}"'
    title = "Silent sites by limit, of " + " and ".join(found)
    pieces = [
        f'<svg xmlns="http://www.w3.org/2000/svg" {size} role="img"><title>{title}</title><style>{STYLE}</style>',
        f'<rect width="{width}" height="{height}" fill="#fff"/>',
    ]
    for at, (name, rows) in enumerate(found.items()):
        pieces += panel(name, rows, LEFT + at * (WIDTH + GAP), span)
    return "\n".join([*pieces, "</svg>", ""])


def main(words: list[str]) -> None:
    guide = Path(words[0]) if words else Path(__file__).parent / "GUIDE.md"
    print(picture(series_of(guide.read_text(encoding="utf-8"))), end="")


main(sys.argv[1:])
