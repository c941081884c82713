"""Lines over the areas of a page, which tell the kinds of sites apart on a print without colours. They are paths:
patterns would make a print of many megabytes."""

from __future__ import annotations

import itertools
import math
from collections.abc import Iterable, Mapping

STEP = 8  # pixels from line to line
LEAST = 10.0  # pixels: the width and the height of the smallest area with lines
BAR = (1300.0, 16.0)  # the width and the height of the lines of bars, of which each bar shows a part
# A kind of sites without lines is missing here; the lines of classes are those of MANNERS, from the second class on.
OF_KINDS = {"detected": "slant", "timeout": "flat", "illegal": "upright", "misaligned": "grid"}
MANNERS = ("slant", "upright", "flat", "grid")


def of_classes(names: Iterable[str]) -> dict[str, str]:
    """The lines of answer classes, of which the first has none."""
    return dict(zip(itertools.islice(names, 1, None), itertools.cycle(MANNERS)))


def lines(manner: str, x: float, y: float, wide: float, high: float) -> str:
    """The lines over a rectangle as pieces of a path. All lines of a picture are on one lattice, so that they go on
    from an area to the next."""
    if wide < LEAST or high < LEAST:
        return ""
    if manner == "grid":
        return lines("flat", x, y, wide, high) + lines("upright", x, y, wide, high)
    if manner == "flat":
        return "".join(f"M{short(x)} {down}h{short(wide)}" for down in between(y, y + high))
    if manner == "upright":
        return "".join(f"M{across} {short(y)}v{short(high)}" for across in between(x, x + wide))
    pieces = []
    for both in between(x + y, x + wide + y + high):
        left, right = max(x, both - y - high), min(x + wide, both - y)
        if right > left:
            pieces.append(f"M{short(left)} {short(both - left)}l{short(right - left)} -{short(right - left)}")
    return "".join(pieces)


def between(start: float, end: float) -> range:
    """The places of the lattice within these bounds."""
    return range((math.floor(start / STEP) + 1) * STEP, math.ceil(end), STEP)


def definitions() -> str:
    """The lines of bars, to which each bar refers."""
    paths = (f'<path class="hatch" id="hatch-{manner}" d="{lines(manner, 0.0, 0.0, *BAR)}"/>' for manner in MANNERS)
    opening = '<svg xmlns="http://www.w3.org/2000/svg" class="definitions" width="0" height="0" aria-hidden="true">'
    return f"{opening}<defs>{''.join(paths)}</defs></svg>"


def over(kind: str, manners: Mapping[str, str], place: str) -> str:
    """The lines over a rectangle of a kind; nothing if the kind has none."""
    return f'<svg {place}><use href="#hatch-{manners[kind]}"/></svg>' if kind in manners else ""


def short(length: float) -> str:
    """A length in pixels, to a tenth."""
    return f"{length:.1f}".removesuffix(".0")
