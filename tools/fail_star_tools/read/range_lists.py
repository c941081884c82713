"""Reads lists of ranges and of locations of debugging information: .debug_rnglists and .debug_loclists of DWARF 5,
and .debug_ranges and .debug_loc of the versions before it. The names are those of the DWARF standard, version 5,
sections 2.6.2 and 2.17.3."""

from __future__ import annotations

from collections.abc import Iterator
from typing import NamedTuple

from fail_star_tools.read.campaign_file import Refusal
from fail_star_tools.read.debug_entries import (
    ADDRESS_SIZE,
    LOCATIONS_BASE,
    RANGES_BASE,
    WHAT,
    AddressIndex,
    ListIndex,
    Unit,
)
from fail_star_tools.read.elf_image import Image
from fail_star_tools.read.line_table import Bytes

END, BASE_INDEX, START_END_INDEX, START_LENGTH_INDEX, OFFSET_PAIR = range(5)
# What follows differs between the two: a list of locations has one more kind, the default location.
OF_RANGES = {5: "base", 6: "start_end", 7: "start_length"}
OF_LOCATIONS = {5: "default", 6: "base", 7: "start_end", 8: "start_length"}
ALL = 0xFFFFFFFF
MOST_ROWS = 1_000_000  # of all lists that are read


class Range(NamedTuple):
    """Addresses from the first to below the end, and the location there if the list is one of locations."""

    first: int
    last: int
    location: bytes


class Lists:
    """The lists of an image."""

    def __init__(self, image: Image) -> None:
        self.old_ranges, self.ranges = image.section(".debug_ranges") or b"", image.section(".debug_rnglists") or b""
        self.old_locations, self.locations = image.section(".debug_loc") or b"", image.section(".debug_loclists") or b""
        self.room = MOST_ROWS

    def of(self, unit: Unit, value: int, located: bool) -> list[Range]:
        """The rows of a list, which a value names by its offset or its number."""
        rows = []
        for row in self.rows_of(unit, value, located):
            self.room -= 1
            if self.room < 0:
                raise Refusal(f"{WHAT} whose lists have more than {MOST_ROWS} rows")
            rows.append(row)
        return rows

    def rows_of(self, unit: Unit, value: int, located: bool) -> Iterator[Range]:
        """The rows as they are in the section."""
        if unit.version < 5:
            section = self.old_locations if located else self.old_ranges
            return old_rows(Bytes(section, min(value, len(section)), what=WHAT), unit, located)
        section = self.locations if located else self.ranges
        if isinstance(value, ListIndex):
            base = unit.bases.get(LOCATIONS_BASE if located else RANGES_BASE, 12)
            value = base + Bytes(section, min(base + unit.wide * value, len(section)), what=WHAT).number(unit.wide)
        return rows(Bytes(section, min(value, len(section)), what=WHAT), unit, located)


def old_rows(source: Bytes, unit: Unit, located: bool) -> Iterator[Range]:
    """The rows of a list before version 5: pairs of addresses relative to the last base."""
    base = unit.low
    while True:
        first, last = source.number(ADDRESS_SIZE), source.number(ADDRESS_SIZE)
        if first == last == 0:
            return
        if first == ALL:
            base = last
        else:
            location = source.take(source.number(2)) if located else b""
            yield Range(base + first, base + last, location)


def rows(source: Bytes, unit: Unit, located: bool) -> Iterator[Range]:
    """The rows of a list of version 5."""
    base, others = unit.low, OF_LOCATIONS if located else OF_RANGES

    def indexed() -> int:
        return unit.address(AddressIndex(source.unsigned())) or 0

    while (kind := source.number(1)) != END:
        name = others.get(kind, "")
        if kind == BASE_INDEX:
            base = indexed()
            continue
        if name == "base":
            base = source.number(ADDRESS_SIZE)
            continue
        if kind == START_END_INDEX:
            first, last = indexed(), indexed()
        elif kind == START_LENGTH_INDEX:
            first = indexed()
            last = first + source.unsigned()
        elif kind == OFFSET_PAIR:
            first, last = base + source.unsigned(), base + source.unsigned()
        elif name == "default":
            first, last = 0, ALL
        elif name == "start_end":
            first, last = source.number(ADDRESS_SIZE), source.number(ADDRESS_SIZE)
        elif name == "start_length":
            first = source.number(ADDRESS_SIZE)
            last = first + source.unsigned()
        else:
            raise Refusal(f"{WHAT} with a list that has a row of kind {kind}")
        yield Range(first, last, source.take(source.unsigned()) if located else b"")
