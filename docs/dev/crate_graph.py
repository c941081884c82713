#!/usr/bin/env python3
"""Draws the groups of crates.txt as an SVG picture on the standard output.

usage: docs/dev/crate_graph.py [crates.txt] > docs/dev/crates.svg

A comment in crates.txt is the heading of a group. Each group is a box with its crates inside. A line leads from a group up to each
group that uses it, unless that one uses it through another group. Groups of tests and libraries of the kit are not drawn.
"""
from __future__ import annotations

import colorsys
import sys
import textwrap
from dataclasses import dataclass, field
from pathlib import Path
from typing import Union

BOX_WIDTH = 300  # of a group's box
LINE_HEIGHT = 18  # of a line of text in a box
PADDING = 10  # between the text and the edge of a box
COLUMN_GAP = 26  # between two boxes of a row
ROW_GAP = 52  # between two rows, where the lines are
NAMES_WIDTH = 39  # characters in a line of crate names
TITLE_WIDTH = 36  # characters in a line of a heading


# A group by its number, or a bend of the line from one group to another, in a row.
Node = Union[int, "tuple[int, int, int]"]


@dataclass
class Place:
    """The middle of a box or bend, its upper edge, and its height."""

    middle: int
    top: int
    height: int


@dataclass
class Group:
    """A heading of crates.txt, its crates, and the groups that these use."""

    title: str
    crates: list[str] = field(default_factory=list)
    uses: set[int] = field(default_factory=set)

    def lines(self) -> tuple[list[str], list[str]]:
        """Returns the lines of the heading and those of the crates' names."""
        return textwrap.wrap(self.title, TITLE_WIDTH), textwrap.wrap(", ".join(self.crates), NAMES_WIDTH)

    def height(self) -> int:
        """Returns the height of the box."""
        title, names = self.lines()
        return LINE_HEIGHT * (len(title) + len(names)) + 2 * PADDING


def read_groups(text: str) -> list[Group]:
    """Returns the groups that have crates, but for those of tests, each with the numbers of the groups that it uses."""
    groups = [Group("crates")]
    used: dict[str, list[str]] = {}
    for line in text.splitlines():
        if line.startswith("#"):
            groups.append(Group(line.lstrip("# ")))
        elif ":" in line:
            name, libraries = line.split(":", 1)
            groups[-1].crates.append(name)
            used[name] = libraries.split()
    groups = [it for it in groups if it.crates and not it.title.startswith("tests")]
    home = {crate: number for number, group in enumerate(groups) for crate in group.crates}
    for number, group in enumerate(groups):
        group.uses = {home[it] for crate in group.crates for it in used[crate] if it in home} - {number}
    return groups


def all_below(number: int, groups: list[Group]) -> set[int]:
    """Returns every group on which this one rests."""
    found: set[int] = set()
    for it in groups[number].uses:
        found |= {it} | all_below(it, groups)
    return found


def drawn_edges(groups: list[Group]) -> list[tuple[int, int]]:
    """Returns the pairs of a group and one that it uses, without those that another group's way implies."""
    edges = []
    for number, group in enumerate(groups):
        implied: set[int] = set().union(*(all_below(it, groups) for it in group.uses))
        edges += [(number, it) for it in sorted(group.uses - implied)]
    return edges


def levels_of(groups: list[Group]) -> list[int]:
    """Returns the row of each group, 0 the lowest: as high as the groups that use it allow, so that lines are short."""
    levels = [0] * len(groups)

    def lowest(number: int) -> int:
        return 1 + max((lowest(it) for it in groups[number].uses), default=-1)

    # A group rests on more groups than each that it uses, so it comes first.
    for number in sorted(range(len(groups)), key=lambda it: -len(all_below(it, groups))):
        users = [levels[it] for it, group in enumerate(groups) if number in group.uses]
        levels[number] = min(users) - 1 if users else lowest(number)
    return levels


def chains_of(edges: list[tuple[int, int]], levels: list[int]) -> list[list[Node]]:
    """Returns what each line passes: a group, a bend in each row between, a group."""
    chains: list[list[Node]] = []
    for upper, lower in edges:
        bends: list[Node] = [(upper, lower, level) for level in range(levels[upper] - 1, levels[lower], -1)]
        chains.append([upper, *bends, lower])
    return chains


def rows_of(levels: list[int], chains: list[list[Node]]) -> list[list[Node]]:
    """Returns the groups and bends of each row, the lowest row first, so that what a line joins is close."""
    rows: list[list[Node]] = [[it for it, level in enumerate(levels) if level == row] for row in range(1 + max(levels))]
    near: dict[Node, list[Node]] = {}
    for chain in chains:
        for bend in chain[1:-1]:
            rows[bend[2]].append(bend)
        for one, other in zip(chain, chain[1:]):
            near.setdefault(one, []).append(other)
            near.setdefault(other, []).append(one)
    for _ in range(40):
        place = {it: (at + 0.5) / len(row) for row in rows for at, it in enumerate(row)}
        for row in rows:
            row.sort(key=lambda it: sum(place[other] for other in near.get(it, [it])) / len(near.get(it, [it])))
    return rows


def places_of(rows: list[list[Node]], groups: list[Group]) -> tuple[dict[Node, Place], int, int]:
    """Returns the place of each box and bend, and the picture's width and height."""

    def room(it: Node) -> int:
        return COLUMN_GAP + (BOX_WIDTH if isinstance(it, int) else 0)

    width = max(sum(room(it) for it in row) for row in rows) + COLUMN_GAP
    places: dict[Node, Place] = {}
    top = ROW_GAP // 2
    for row in reversed(rows):
        spare = (width - COLUMN_GAP - sum(room(it) for it in row)) // len(row)
        left = COLUMN_GAP // 2
        tallest = max(groups[it].height() for it in row if isinstance(it, int))
        for it in row:
            height = groups[it].height() if isinstance(it, int) else tallest
            places[it] = Place(left + (room(it) + spare) // 2, top, height)
            left += room(it) + spare
        top += tallest + ROW_GAP
    return places, width, top - ROW_GAP // 2


def colour(number: int, count: int) -> str:
    """Returns the colour of a group: each has another hue."""
    red, green, blue = colorsys.hls_to_rgb(number / count, 0.88, 0.6)
    return f"#{round(red * 255):02x}{round(green * 255):02x}{round(blue * 255):02x}"


def box(group: Group, place: Place, fill: str) -> list[str]:
    """Returns the elements of a group's box."""
    left, top = place.middle - BOX_WIDTH // 2, place.top
    lines = [f'<rect x="{left}" y="{top}" width="{BOX_WIDTH}" height="{place.height}" rx="6" fill="{fill}" stroke="#555"/>']
    title, names = group.lines()
    for at, text in enumerate(title + names):
        weight = ' font-weight="bold"' if at < len(title) else ""
        baseline = top + PADDING + LINE_HEIGHT * (at + 1) - 5
        lines.append(f'<text x="{left + PADDING}" y="{baseline}"{weight}>{text}</text>')
    return lines


def line_along(places: list[Place]) -> str:
    """Returns the line from the first box down to the last one, straight past each row between."""
    path = f"M{places[0].middle} {places[0].top + places[0].height}"
    for upper, lower in zip(places, places[1:]):
        start, bend = upper.top + upper.height, (upper.top + upper.height + lower.top) // 2
        path += f"L{upper.middle} {start}C{upper.middle} {bend} {lower.middle} {bend} {lower.middle} {lower.top}"
    return f'<path d="{path}" fill="none" stroke="#777"/>'


def picture_of(groups: list[Group]) -> list[str]:
    """Returns the lines of the picture."""
    levels = levels_of(groups)
    chains = chains_of(drawn_edges(groups), levels)
    places, width, height = places_of(rows_of(levels, chains), groups)
    lines = [
        f'<svg xmlns="http://www.w3.org/2000/svg" width="{width}" height="{height}" viewBox="0 0 {width} {height}" '
        'font-family="sans-serif" font-size="13">',
        "<title>The groups of crates, each above those that it uses</title>",
        f'<rect width="{width}" height="{height}" fill="white"/>',
    ]
    lines += [line_along([places[it] for it in chain]) for chain in chains]
    for number, group in enumerate(groups):
        lines += box(group, places[number], colour(number, len(groups)))
    return lines + ["</svg>"]


if __name__ == "__main__":
    listed = Path(sys.argv[1]) if len(sys.argv) > 1 else Path(__file__).parent.parent.parent / "crates.txt"
    print("\n".join(picture_of(read_groups(listed.read_text()))))
