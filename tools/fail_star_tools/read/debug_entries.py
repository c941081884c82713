"""Reads the section .debug_info of an image that was built with -g, DWARF versions 2 to 5: its units, and the entries
of each.

The names are those of the DWARF standard, version 5, section 7.5, "Format of Debugging Information". An entry has the
attributes that a reader asks for; the forms of all others are passed over.
"""

from __future__ import annotations

from collections.abc import Iterator
from dataclasses import dataclass, field
from typing import NamedTuple, Union

from fail_star_tools.read.campaign_file import Refusal
from fail_star_tools.read.elf_image import Image
from fail_star_tools.read.line_table import Bytes

WHAT = "debugging information"
ADDRESS_SIZE = 4
STRINGS_BASE, ADDRESSES_BASE, RANGES_BASE, LOCATIONS_BASE = BASES = 0x72, 0x73, 0x74, 0x8C
COMPILE, TYPE, PARTIAL, SKELETON, SPLIT_COMPILE, SPLIT_TYPE = range(1, 7)
# Bounds of information that may be hostile; compilers make some ten thousand entries for the program of a small
# device.
MOST_ATTRIBUTES, MOST_DEPTH, MOST_INDIRECT = 4_000_000, 256, 8
MOST_ABBREVIATIONS = 100_000

STRING, INDIRECT, IMPLICIT, FLAG_PRESENT = 0x08, 0x16, 0x21, 0x19
FIXED = {0x0B: 1, 0x05: 2, 0x06: 4, 0x07: 8, 0x0C: 1}  # data1, data2, data4, data8, flag
BLOCKS = {0x0A: 1, 0x03: 2, 0x04: 4}  # block1, block2, block4
REFERENCES = {0x11: 1, 0x12: 2, 0x13: 4, 0x14: 8}  # within the unit
STRING_INDICES = {0x25: 1, 0x26: 2, 0x27: 3, 0x28: 4}
ADDRESS_INDICES = {0x29: 1, 0x2A: 2, 0x2B: 3, 0x2C: 4}
SKIPPED = {0x1E: 16, 0x20: 8, 0x1C: 4, 0x24: 8}  # data16, ref_sig8, ref_sup4, ref_sup8


class Address(int):
    """An address, and not a number of bytes."""


class Reference(int):
    """The offset of another entry."""


class AddressIndex(int):
    """The number of an address of the unit."""


class StringIndex(int):
    """The number of a string of the unit."""


class StringOffset(int):
    """The offset of a string in .debug_str."""


class LineStringOffset(int):
    """The offset of a string in .debug_line_str."""


class ListIndex(int):
    """The number of a list of ranges or of locations of the unit."""


Value = Union[int, bytes, str]
Abbreviations = dict[int, tuple[int, bool, list[tuple[int, int, int]]]]  # by their numbers


class Entry(NamedTuple):
    """An entry with the attributes that a reader asked for: its position in the section, and its depth."""

    at: int
    tag: int
    depth: int
    values: dict[int, Value]


@dataclass
class Sections:
    """The sections that entries refer to."""

    info: bytes
    abbreviations: bytes
    strings: bytes
    line_strings: bytes
    string_offsets: bytes
    addresses: bytes
    tables: dict[int, Abbreviations] = field(default_factory=dict)
    room: int = MOST_ABBREVIATIONS


@dataclass
class Unit:
    """The header of a unit, and the numbers in its first entry."""

    sections: Sections
    version: int
    wide: int  # bytes of an offset
    start: int
    bases: dict[int, int] = field(default_factory=dict)
    low: int = 0  # the address to which the ranges of the unit are relative

    def address(self, value: Value) -> int | None:
        """The address that a value represents."""
        if isinstance(value, AddressIndex):
            at = self.bases.get(ADDRESSES_BASE, 8) + ADDRESS_SIZE * value
            return Bytes(self.sections.addresses, at, what=WHAT).number(ADDRESS_SIZE)
        return int(value) if isinstance(value, Address) else None

    def text(self, value: Value | None) -> str:
        """The text that a value represents."""
        if isinstance(value, StringIndex):
            at = self.bases.get(STRINGS_BASE, 2 * self.wide) + self.wide * value
            offset = Bytes(self.sections.string_offsets, at, what=WHAT).number(self.wide)
            return string_at(self.sections.strings, offset)
        if isinstance(value, StringOffset):
            return string_at(self.sections.strings, value)
        if isinstance(value, LineStringOffset):
            return string_at(self.sections.line_strings, value)
        return value if isinstance(value, str) else ""


def string_at(strings: bytes, at: int) -> str:
    """The text at an offset."""
    return Bytes(strings, min(at, len(strings)), what=WHAT).text()


def sections_of(image: Image) -> Sections:
    """The sections of an image, which are empty if it was built without -g."""
    info = image.section(".debug_info") or b""
    names = (".debug_abbrev", ".debug_str", ".debug_line_str", ".debug_str_offsets", ".debug_addr")
    abbreviations, strings, line_strings, string_offsets, addresses = (image.section(name) or b"" for name in names)
    return Sections(info, abbreviations, strings, line_strings, string_offsets, addresses)


def units_of(sections: Sections, wanted: frozenset[int]) -> Iterator[tuple[Unit, Iterator[Entry]]]:
    """The units with their entries; each has the attributes that are wanted. The entries of a unit must be read
    before the next unit."""
    source, room = Bytes(sections.info, what=WHAT), [MOST_ATTRIBUTES]
    while source.at < source.end:
        begin, wide = source.at, 4
        length = source.number(4)
        if length == 0xFFFFFFFF:
            length, wide = source.number(8), 8
        start = source.at
        source.take(length)
        body = Bytes(sections.info, start, source.at, WHAT)
        version = body.number(2)
        if not 2 <= version <= 5:
            raise Refusal(f"{WHAT} of DWARF version {version}; this reader knows 2 to 5")
        kind = body.number(1) if version == 5 else COMPILE
        if version == 5:
            size = body.number(1)
        table = body.number(wide)
        if version < 5:
            size = body.number(1)
        if size != ADDRESS_SIZE:
            raise Refusal(f"{WHAT} with addresses of {size} bytes")
        body.take({SKELETON: 8, SPLIT_COMPILE: 8, TYPE: 8 + wide, SPLIT_TYPE: 8 + wide}.get(kind, 0))
        unit = Unit(sections, version, wide, begin)
        yield unit, entries_of(unit, body, abbreviations_at(sections, table), wanted, room)


def abbreviations_at(sections: Sections, at: int) -> Abbreviations:
    """The abbreviations at an offset by their numbers: a tag, whether there are children, and of each attribute its
    number, its form and the value that it has in all entries."""
    if at in sections.tables:
        return sections.tables[at]
    source = Bytes(sections.abbreviations, min(at, len(sections.abbreviations)), what=WHAT)
    found: Abbreviations = {}
    while number := source.unsigned():
        tag, children = source.unsigned(), source.number(1) != 0
        forms = []
        while True:
            attribute, form = source.unsigned(), source.unsigned()
            value = source.signed() if form == IMPLICIT else 0
            if attribute == 0 and form == 0:
                break
            forms.append((attribute, form, value))
        sections.room -= 1 + len(forms)
        if sections.room < 0:
            raise Refusal(f"{WHAT} with more than {MOST_ABBREVIATIONS} abbreviations and their attributes")
        found[number] = (tag, children, forms)
    sections.tables[at] = found
    return found


def entries_of(
    unit: Unit, source: Bytes, table: Abbreviations, wanted: frozenset[int], room: list[int]
) -> Iterator[Entry]:
    """The entries of a unit in their order, each before its children."""
    depth, first = 0, True
    while source.at < source.end:
        at, number = source.at, source.unsigned()
        if number == 0:
            depth = max(depth - 1, 0)
            continue
        if number not in table:
            raise Refusal(f"{WHAT} with an entry of an abbreviation that is missing")
        tag, children, forms = table[number]
        room[0] -= 1 + len(forms)
        if room[0] < 0:
            raise Refusal(f"{WHAT} of more than {MOST_ATTRIBUTES} entries and attributes")
        values = {}
        for attribute, form, constant in forms:
            value = value_of(unit, source, form, constant)
            if attribute in wanted:
                values[attribute] = value
            elif first and attribute in BASES and isinstance(value, int):
                unit.bases[attribute] = value
        first = False
        yield Entry(at, tag, depth, values)
        depth += children
        if depth > MOST_DEPTH:
            raise Refusal(f"{WHAT} with entries of more than {MOST_DEPTH} levels")


def value_of(unit: Unit, source: Bytes, form: int, constant: int, indirect: int = 0) -> Value:
    """The value of an attribute. Its bytes are consumed."""
    wide = unit.wide
    if form in FIXED:
        return source.number(FIXED[form])
    if form in REFERENCES:
        return Reference(unit.start + source.number(REFERENCES[form]))
    if form in (0x18, 0x09):  # exprloc, block
        return source.take(source.unsigned())
    if form in BLOCKS:
        return source.take(source.number(BLOCKS[form]))
    if form in (0x0F, 0x0D):  # udata, sdata
        return source.unsigned() if form == 0x0F else source.signed()
    if form in (0x0E, 0x1F):  # strp, line_strp
        return StringOffset(source.number(wide)) if form == 0x0E else LineStringOffset(source.number(wide))
    if form == STRING:
        return source.text()
    if form == 0x01:
        return Address(source.number(ADDRESS_SIZE))
    if form == 0x10:  # ref_addr, which had the size of an address in version 2
        return Reference(source.number(ADDRESS_SIZE if unit.version == 2 else wide))
    if form in (0x17, 0x1D, 0x1F20, 0x1F21):  # sec_offset, and what is in another file
        return source.number(wide)
    return rare_value_of(unit, source, form, constant, indirect)


def rare_value_of(unit: Unit, source: Bytes, form: int, constant: int, indirect: int) -> Value:
    """The same for rarer forms."""
    if form == IMPLICIT:
        return constant
    if form == FLAG_PRESENT:
        return 1
    if form == 0x15:  # ref_udata
        return Reference(unit.start + source.unsigned())
    if form == 0x1A or form in STRING_INDICES:
        return StringIndex(source.unsigned() if form == 0x1A else source.number(STRING_INDICES[form]))
    if form == 0x1B or form in ADDRESS_INDICES:
        return AddressIndex(source.unsigned() if form == 0x1B else source.number(ADDRESS_INDICES[form]))
    if form in (0x22, 0x23):  # loclistx, rnglistx
        return ListIndex(source.unsigned())
    if form in SKIPPED:
        return source.take(SKIPPED[form])
    if form == INDIRECT and indirect < MOST_INDIRECT:
        return value_of(unit, source, source.unsigned(), constant, indirect + 1)
    raise Refusal(f"{WHAT} with a value of form {form:#x}")
