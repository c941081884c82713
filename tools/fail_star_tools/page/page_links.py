"""The anchors of a page of report.py. An anchor is made of addresses, numbers and encoded names, so no name of an image
can end its attribute or meet another anchor. Those of a second campaign begin with `after-`."""

from __future__ import annotations

import re

from fail_star_tools.read.cells import PC, is_byte

AFTER = "after-"
OTHER = re.compile(rb"[^A-Za-z0-9.-]")


def encoded(name: str) -> str:
    """A name in which each other byte than a letter, a digit, a point or a minus is an underscore and its value."""
    return OTHER.sub(lambda byte: b"_%02x" % byte[0][0], name.encode("utf-8", "replace")).decode("ascii")


def of_cell(cell: int) -> str:
    """The row of a cell in the map."""
    return "pc" if cell == PC else f"byte{cell}" if is_byte(cell) else f"x{cell}"


def of_function(address: int) -> str:
    """The row of a function in the table of functions."""
    return f"function-{address:08x}"


def of_span(address: int) -> str:
    """The first run of a function in the map."""
    return f"run-{address:08x}"


def of_instruction(address: int) -> str:
    """The row of an instruction in the table of instructions."""
    return f"at-{address:08x}"


def of_variable(address: int) -> str:
    """A variable in the map."""
    return f"variable-{address:08x}"


def of_line(place: str) -> str:
    """A source line, given as `FILE:LINE`."""
    file, _, number = place.rpartition(":")
    return f"line-{encoded(file)}-{number}"
