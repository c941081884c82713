"""Section headers, symbol tables and their strings, which a fixed seed makes and appends to an image, and changes that
make them hostile. The fields are those of the chapters "Sections" and "Symbol Table" of the ELF specification. Of
the image only the three header fields on sections change, so one campaign of the image fits all these files.
"""

from __future__ import annotations

import dataclasses
import random
from collections.abc import Sequence

NULL, PROGBITS, SYMTAB, STRTAB = range(4)
VISIBLE = bytes(range(0x21, 0x7F))
MOST = 0xFFFFFFFF


@dataclasses.dataclass
class Section:
    kind: int
    offset: int = 0
    size: int = 0
    link: int = 0
    entry: int = 0

    def header(self) -> bytes:
        return b"".join(n.to_bytes(4, "little") for n in (0, self.kind, 0, 0, self.offset, self.size, self.link, 0, 1, self.entry))


def entry(name: int, value: int, size: int, info: int, section: int) -> bytes:
    """A symbol of 16 bytes."""
    return b"".join(n.to_bytes(width, "little") for n, width in ((name, 4), (value, 4), (size, 4), (info, 1), (0, 1), (section, 2)))


def with_headers(
    content: bytes, sections: Sequence[Section], table: int | None = None, size: int = 40, count: int | None = None
) -> bytes:
    """An image with these section headers at the place `table`, or behind all of it."""
    file = bytearray(content)
    table = len(file) if table is None else table
    file += b"".join(section.header() for section in sections)
    for at, width, value in ((32, 4, table), (46, 2, size), (48, 2, len(sections) if count is None else count)):
        file[at : at + width] = value.to_bytes(width, "little")
    return bytes(file)


class Table:
    """A symbol table with the strings that belong to it, placed behind an image, in some order and with gaps."""

    def __init__(self, dice: random.Random, image: bytes, entries: Sequence[bytes], strings: bytes) -> None:
        self.dice, self.file = dice, image
        parts = [(SYMTAB, b"".join(entries)), (STRTAB, strings)]
        dice.shuffle(parts)
        placed = {}
        for kind, content in parts:
            self.file += dice.randbytes(dice.randrange(4))
            placed[kind] = Section(kind, len(self.file), len(content), 0, 16 if kind == SYMTAB else 0)
            self.file += content
        others = [Section(dice.choice([NULL, PROGBITS, 4, 8, 11, 0x70000003]), dice.getrandbits(32), dice.getrandbits(32)) for _ in range(dice.randrange(3))]
        self.sections = [Section(NULL), *dice.sample([*placed.values(), *others], 2 + len(others))]
        self.symbols, self.strings = placed[SYMTAB], placed[STRTAB]
        self.symbols.link = self.sections.index(self.strings)
        self.fields: dict[str, int] = {}

    def image(self) -> bytes:
        return with_headers(self.file, self.sections, **self.fields)

    def end(self) -> int:
        """The file's length, with its headers."""
        return len(self.file) + 40 * len(self.sections)


# --- Symbols --------------------------------------------------------------------------------------


def name_bytes(dice: random.Random) -> bytes:
    """The bytes of a name."""
    how = dice.random()
    if how < 0.05:
        return b""
    if how < 0.25:
        return bytes(dice.choice([1, 0x20, 0x21, 0x7E, 0x7F, 0x80, 0xFF, dice.randrange(1, 256)]) for _ in range(dice.randrange(1, 9)))
    if how < 0.28:
        return dice.choice([b"(none)", b"(dead)", b"(registers)", b"main", b"\x20", b"\x7f", b"\x21\x7e", b"x" * 3000])
    return bytes(dice.choice(VISIBLE) for _ in range(dice.randrange(1, 12)))


def places(dice: random.Random, pcs: Sequence[int], ram: range) -> tuple[int, int]:
    """A value and a size of a symbol: near the code and the data that there are, or anywhere."""
    near = dice.choice([*pcs, *ram]) + dice.choice([0, 0, 0, 0, 1, -1, 2, 4, -4])
    value = dice.choice([near] * 12 + [0, ram.start - 1, ram.stop, MOST, MOST - 3, dice.getrandbits(32)]) & MOST
    size = dice.choice([1, 2, 4, 4, 4, 8, 12, 16, 40, 0, 0x10000, MOST, MOST - value, (1 << 32) - value, dice.getrandbits(32)]) & MOST
    return value, size


def random_symbols(dice: random.Random, pcs: Sequence[int], ram: range, count: int) -> tuple[list[bytes], bytes]:
    """Entries and strings. Names may share their ends, and values may be equal; those of undefined symbols are anything."""
    strings, starts = b"\0", [0]
    for _ in range(max(1, min(count, 40))):
        starts.append(len(strings))
        strings += name_bytes(dice) + b"\0"
    entries = [bytes(16)] * dice.randrange(2)
    values: list[int] = []
    for _ in range(count):
        value, size = places(dice, pcs, ram)
        if values and dice.random() < 0.2:
            value = dice.choice(values)
        values.append(value)
        kind = dice.choice([1, 1, 1, 2, 2, 2, 2, 0, 3, 4, 5, 6, 10, 15])
        section = dice.choice([1, 1, 1, 2, 0xFFF1, 0xFFFF, 0, dice.randrange(0x10000)])
        chosen = kind in (1, 2) and size != 0 and section != 0
        name = dice.choice(starts) if dice.random() < 0.8 else dice.randrange(len(strings))
        if not chosen and dice.random() < 0.5:
            name = dice.choice([MOST, len(strings), len(strings) + 1, dice.getrandbits(32)])
        entries.append(entry(name, value, size, dice.randrange(16) << 4 | kind, section))
    return entries, strings


# --- What is hostile ------------------------------------------------------------------------------


def header_size(table: Table) -> None:
    table.fields["size"] = table.dice.choice([39, 41, 0, 40 << 8, 0xFFFF])


def headers_past_the_end(table: Table) -> None:
    table.fields["table"] = table.dice.choice([len(table.file) + 1, MOST, MOST - 39, 1 << 31])


def one_header_too_many(table: Table) -> None:
    table.fields["count"] = len(table.sections) + table.dice.choice([1, 1000, 0xFFFF - len(table.sections)])


def headers_elsewhere(table: Table) -> None:
    """Over the program's own bytes, or in front of the end."""
    table.fields["table"] = table.dice.choice([0, 1, 16, 52, len(table.file) - table.dice.randrange(80)])


def no_headers(table: Table) -> None:
    table.fields |= {"count": 0, "size": table.dice.choice([0, 39, 40, 0xFFFF]), "table": table.dice.choice([0, MOST, 7])}


def first_header_alone(table: Table) -> None:
    table.fields["count"] = 1


def another_table(table: Table) -> None:
    """Two symbol tables, of which one is short by its first entries; the first one counts."""
    shorter = dataclasses.replace(table.symbols, offset=table.symbols.offset + 16 * (table.symbols.size // 32))
    shorter.size -= shorter.offset - table.symbols.offset
    table.sections.append(shorter)
    at = table.sections.index(table.symbols)
    if table.dice.random() < 0.5:
        table.sections[at], table.sections[-1] = shorter, table.symbols


def a_broken_second_table(table: Table) -> None:
    table.sections.append(Section(SYMTAB, MOST, 17, 0xFFFF, 15))


def a_broken_first_table(table: Table) -> None:
    table.sections[0] = Section(SYMTAB, MOST, 17, 0xFFFF, 15)


def entry_size(table: Table) -> None:
    table.symbols.entry = table.dice.choice([15, 17, 0, 24, 16 << 8, MOST])


def odd_size(table: Table) -> None:
    table.symbols.size += table.dice.choice([1, 8, 15, -1])


def symbols_past_the_end(table: Table) -> None:
    table.symbols.size = table.dice.choice([table.end() - table.symbols.offset + 16 & ~15, MOST & ~15, 1 << 31])


def symbols_at_the_end(table: Table) -> None:
    """The table ends with the file, or just past it."""
    table.symbols.size = 16 * table.dice.randrange(3)
    table.symbols.offset = table.end() - table.symbols.size + (table.dice.random() < 0.3)


def symbols_far_away(table: Table) -> None:
    table.symbols.offset = table.dice.choice([MOST, MOST - 15, 1 << 31, (1 << 32) - table.symbols.size])


def symbols_of_the_header(table: Table) -> None:
    """The file's own header, read as symbols."""
    table.symbols.offset, table.symbols.size = table.dice.choice([0, 3, 4, 8, 12, 52]), 48


def no_entries(table: Table) -> None:
    table.symbols.size = 0


def link_past_the_last(table: Table) -> None:
    table.symbols.link = table.dice.choice([len(table.sections), len(table.sections) + 1, 0xFFFF, MOST])


def link_to_no_strings(table: Table) -> None:
    table.symbols.link = table.dice.choice([0, table.sections.index(table.symbols)])


def other_kind_of_strings(table: Table) -> None:
    table.strings.kind = table.dice.choice([NULL, PROGBITS, 3 << 8, MOST])


def strings_past_the_end(table: Table) -> None:
    table.strings.size = table.dice.choice([table.end() - table.strings.offset + 1, MOST, 1 << 31])


def strings_to_the_end(table: Table) -> None:
    table.strings.size = table.end() - table.strings.offset


def strings_far_away(table: Table) -> None:
    table.strings.offset = table.dice.choice([MOST, (1 << 32) - table.strings.size, table.end() - table.strings.size + 1, table.end() - table.strings.size])


def empty_strings(table: Table) -> None:
    table.strings.offset, table.strings.size = table.dice.choice([table.end(), table.end() + 1, 0]), 0


def strings_cut(table: Table) -> None:
    """The last name has no 0 byte in the table."""
    table.strings.size -= table.dice.choice([1, 1, 2, table.strings.size // 2])


def strings_moved(table: Table) -> None:
    table.strings.offset -= table.dice.randrange(1, 4)


HOSTILE = (
    header_size, headers_past_the_end, one_header_too_many, headers_elsewhere, no_headers, first_header_alone, another_table,
    a_broken_second_table, a_broken_first_table, entry_size, odd_size, symbols_past_the_end, symbols_at_the_end, symbols_far_away,
    symbols_of_the_header, no_entries, link_past_the_last, link_to_no_strings, other_kind_of_strings, strings_past_the_end,
    strings_to_the_end, strings_far_away, empty_strings, strings_cut, strings_moved,
)  # fmt: skip


def bad_name(table: Table) -> None:
    """One entry more, chosen or not, whose name does not begin in the strings or has no end there."""
    dice = table.dice
    name = dice.choice([table.strings.size, table.strings.size + 1, MOST])
    kind, size, section = dice.choice([(1, 1, 1), (2, 1, 1), (2, 0, 1), (1, 1, 0), (0, 4, 1), (3, 4, 1), (4, 4, 0xFFF1), (6, 4, 1)])
    table.file = table.file[: table.symbols.offset] + entry(name, 0x20000000, size, kind, section) + table.file[table.symbols.offset :]
    table.symbols.size += 16
    if table.strings.offset > table.symbols.offset:
        table.strings.offset += 16
