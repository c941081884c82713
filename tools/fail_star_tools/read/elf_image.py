"""Reads an ELF image's names, for the tools: its functions, its variables, and the bytes that are loaded.

`docs/FORMATS.md`, "The image", says how an image becomes a program. A linker also leaves names, which the program
does not read: the symbol table says where functions and objects begin and how long they are. An address belongs to
the symbol that covers it. If several symbols cover it, it belongs to the one that begins last, and of several such
symbols to the first in the table. Start code in assembler often gives no size: an address in no function belongs to
the nearest label before it, if no function is between the two.
"""

from __future__ import annotations

import bisect
import heapq
import struct
import zlib
from collections import Counter
from collections.abc import Callable
from dataclasses import dataclass
from typing import Any

from fail_star_tools.read import regular
from fail_star_tools.read.campaign_file import Card, Refusal, Region
from fail_star_tools.words import printable

MOST_BYTES = 16_777_216
# Bounds for an image that may be hostile. A linker makes a few segments, and compilers make names of some thousand
# letters.
MOST_SEGMENTS = 1024
MOST_SECTION = 67_108_864  # bytes of a section that was compressed
MOST_NAME, MOST_NAMES = 65_536, 67_108_864  # bytes of a name, and of the names of all symbols
HEADER, SEGMENT, SECTION, SYMBOL = (struct.Struct(form) for form in ("<16sHHIIIIIHHHHHH", "<8I", "<10I", "<IIIBBH"))
RISCV, LOADED, RUNNABLE = 243, 1, 1
SYMBOL_TABLE, EMPTY_SECTION, COMPRESSED, EXECUTABLE = 2, 8, 0x800, 4
NO_TYPE, OBJECT, FUNCTION, FILE = 0, 1, 2, 4
UNDEFINED, FIRST_RESERVED = 0, 0xFF00
BEHIND_ALL = 1 << 33  # an address above those of all symbols


@dataclass(frozen=True)
class Section:
    """A section's header, as far as it is used, and where its name begins among the names of sections."""

    name_at: int
    kind: int
    flags: int
    at: int
    size: int
    link: int


@dataclass(frozen=True)
class Symbol:
    """A named range of addresses; a label has the size 0."""

    name: str
    value: int
    size: int


class Owners:
    """The symbols to which addresses belong."""

    def __init__(self, symbols: list[Symbol]) -> None:
        # The symbol that begins last at or before an address comes first; of symbols with one value, the first in the
        # table.
        self.symbols: list[Symbol] = sorted(reversed(symbols), key=lambda symbol: symbol.value)
        self.values = [symbol.value for symbol in self.symbols]
        self.starts, self.owners = parts_of(self.symbols)

    def of(self, address: int) -> Symbol | None:
        """The symbol that covers an address."""
        at = bisect.bisect_right(self.starts, address) - 1
        return self.owners[at] if at >= 0 else None

    def ranges_of(self, name: str) -> list[tuple[int, int]]:
        """The ranges of all symbols of a name, each from its first address to below its end, joined if they touch."""
        ranges: list[tuple[int, int]] = []
        for symbol in self.symbols:
            if symbol.name != name:
                continue
            start, end = symbol.value, symbol.value + symbol.size
            if ranges and start <= ranges[-1][1]:
                start, end = ranges[-1][0], max(end, ranges.pop()[1])
            ranges.append((start, end))
        return ranges

    def last_before(self, address: int) -> Symbol | None:
        """The symbol that begins last at or before an address, whether it covers the address or not."""
        at = bisect.bisect_right(self.values, address) - 1
        return self.symbols[at] if at >= 0 else None


class Image:
    """An image's names and loaded bytes."""

    def __init__(self, content: bytes) -> None:
        self.content = content
        self.header = header_of(content)
        self.segments = self.loaded()
        self.sections, self.section_names = self.all_sections()
        functions, variables, labels = self.symbols()
        self.has_symbols = bool(functions or variables or labels)
        self.function_ranges: dict[str, list[tuple[int, int]]] = {}
        for _, kind, symbol in self.entries():
            if kind == FUNCTION and symbol.size:
                self.function_ranges.setdefault(symbol.name, []).append((symbol.value, symbol.value + symbol.size))
        self.functions, self.variables, self.labels = Owners(functions), Owners(variables), Owners(functions + labels)

    def loaded(self) -> list[tuple[int, memoryview]]:
        """The addresses and bytes of the segments that are loaded."""
        table, count = self.header[5], self.header[10]
        rows = [SEGMENT.unpack_from(self.content, table + SEGMENT.size * number) for number in range(count)]
        rows = [row for row in rows if row[0] == LOADED]
        if len(rows) > MOST_SEGMENTS:
            raise Refusal(f"{len(rows)} segments that are loaded; these tools take {MOST_SEGMENTS}")
        whole = memoryview(self.content)
        return [(row[3], whole[row[1] : row[1] + row[4]]) for row in rows]

    def code_size(self, rom: Region) -> int:
        """The bytes of ROM that executable segments fill."""
        table, count = self.header[5], self.header[10]
        rows = [SEGMENT.unpack_from(self.content, table + SEGMENT.size * number) for number in range(count)]
        end = rom.base + rom.size
        return sum(row[4] for row in rows if row[0] == LOADED and row[6] & RUNNABLE and rom.base <= row[3] < end)

    def word_at(self, address: int) -> int | None:
        """The word at an address when a run begins, or None if no segment fills it. The last segment wins."""
        for base, content in reversed(self.segments):
            if base <= address and address + 4 <= base + len(content):
                return int.from_bytes(content[address - base : address - base + 4], "little")
        return None

    def loads_as(self, card: Card) -> bool:
        """Whether a run of this image begins in the state that a campaign file's card has."""
        filled = [(base, content) for base, content in self.segments if len(content)]
        for region, wanted in ((card.rom, card.rom_bytes), (card.ram, card.ram_bytes)):
            found = bytearray(region.size)
            for base, content in filled:
                if lies_in(region, base, len(content)):
                    found[base - region.base : base - region.base + len(content)] = content
            if found != wanted:
                return False
            filled = [(base, content) for base, content in filled if not lies_in(region, base, len(content))]
        return not filled and self.header[4] == card.entry

    def all_sections(self) -> tuple[list[Section], bytes]:
        """The sections in their order, and their names."""
        table, size, count, names = self.header[6], *self.header[11:14]
        if count == 0:
            return [], b""
        if size != SECTION.size:
            raise Refusal(f"its section headers have {size} bytes each, expected {SECTION.size}")
        rows = [SECTION.unpack_from(self.content, table + size * number) for number in range(count)]
        strings = self.content[rows[names][4] : rows[names][4] + rows[names][5]] if names < count else b""
        return [Section(row[0], row[1], row[2], row[4], row[5], row[6]) for row in rows], strings

    def section(self, name: str) -> bytes | None:
        """The bytes of a section, decompressed if necessary, or nothing if there is no section of this name."""
        wanted = name.encode() + b"\0"
        for section in self.sections:
            here = self.section_names[section.name_at : section.name_at + len(wanted)]
            if here == wanted and section.kind != EMPTY_SECTION:
                content = self.content[section.at : section.at + section.size]
                return inflated(content) if section.flags & COMPRESSED else content
        return None

    def value_of(self, name: str) -> int | None:
        """The value of a symbol of any kind, such as one that the linker's script sets."""
        table = next((section for section in self.sections if section.kind == SYMBOL_TABLE), None)
        if table is None or table.link >= len(self.sections):
            return None
        link, wanted = self.sections[table.link], name.encode() + b"\0"
        strings = self.content[link.at : link.at + link.size]
        for at in range(table.at, min(table.at + table.size, len(self.content)) - SYMBOL.size + 1, SYMBOL.size):
            name_at, value, _, _, _, section = SYMBOL.unpack_from(self.content, at)
            if section != UNDEFINED and strings[name_at : name_at + len(wanted)] == wanted:
                return int(value)
        return None

    def symbols(self) -> tuple[list[Symbol], list[Symbol], list[Symbol]]:
        """Functions, variables and labels of code. If several of a kind have the same name, the source file of each
        comes before it."""
        found: dict[int, list[tuple[str, Symbol]]] = {FUNCTION: [], OBJECT: [], NO_TYPE: []}
        for file, kind, symbol in self.entries():
            found[kind if symbol.size else NO_TYPE].append((file, symbol))
        return told_apart(found[FUNCTION]), told_apart(found[OBJECT]), told_apart(found[NO_TYPE])

    def entries(self) -> list[tuple[str, int, Symbol]]:
        """The symbols that name code or data: with the file that precedes them in the table, and their type."""
        table = next((section for section in self.sections if section.kind == SYMBOL_TABLE), None)
        if table is None or table.link >= len(self.sections):
            return []
        link = self.sections[table.link]
        strings = self.content[link.at : link.at + link.size]
        file, entries, room = "", [], MOST_NAMES
        for at in range(table.at, table.at + table.size - SYMBOL.size + 1, SYMBOL.size):
            name_at, value, size, info, _, section = SYMBOL.unpack_from(self.content, at)
            kind, name = info & 15, text_at(strings, name_at)
            room -= len(name)
            if room < 0:
                raise Refusal(f"symbols whose names have more than {MOST_NAMES} letters together")
            if kind == FILE:
                file = name
            elif self.names_something(kind, size, section, name):
                entries.append((file if info >> 4 == 0 else "", kind, Symbol(name, value, size)))
        return entries

    def names_something(self, kind: int, size: int, section: int, name: str) -> bool:
        """Whether a symbol is a function or an object with bytes, or a label of code that a person wrote."""
        if section == UNDEFINED or kind not in (NO_TYPE, OBJECT, FUNCTION):
            return False
        if kind != NO_TYPE and size:
            return True
        of_code = section < min(FIRST_RESERVED, len(self.sections)) and bool(self.sections[section].flags & EXECUTABLE)
        return of_code and kind != OBJECT and name != "" and not name.startswith(("$", ".L"))

    def function_at(self, address: int) -> Symbol | None:
        """The function of an address, or the label of start code."""
        owner = self.functions.of(address)
        if owner is None:
            owner = self.labels.last_before(address)
            return owner if owner and owner.size == 0 else None
        return owner

    def is_function(self, name: str) -> bool:
        """Whether there is a function, or a label of start code, of this name."""
        return any(symbol.name == name for symbol in self.labels.symbols)

    def has_name(self, name: str) -> Callable[[int], bool]:
        """Whether a function of this name has an address; it may have other names, and lie within another function."""
        ranges = self.functions.ranges_of(name)
        starts = [start for start, _ in ranges]

        def has(address: int) -> bool:
            at = bisect.bisect_right(starts, address) - 1
            if at >= 0 and address < ranges[at][1]:
                return True
            owner = self.function_at(address)
            return owner is not None and owner.name == name

        return has


def lies_in(region: Region, base: int, size: int) -> bool:
    """Whether some addresses are all in a region."""
    return region.base <= base and base + size <= region.base + region.size


def parts_of(symbols: list[Symbol]) -> tuple[list[int], list[Symbol | None]]:
    """The addresses at which the owner changes, in ascending order, each with the owner from there on. The symbols
    ascend by their values, and the last one that covers an address owns it."""
    starts: list[int] = []
    owners: list[Symbol | None] = []
    begun: list[tuple[int, int]] = []  # a heap of the symbols that have begun: minus the place, and the end
    address = 0
    for place, symbol in enumerate([*symbols, Symbol("", BEHIND_ALL, 0)]):
        while address < symbol.value:
            while begun and begun[0][1] <= address:
                heapq.heappop(begun)
            owner = symbols[-begun[0][0]] if begun else None
            if not owners or owners[-1] is not owner:
                starts.append(address)
                owners.append(owner)
            address = min(begun[0][1], symbol.value) if begun else symbol.value
        heapq.heappush(begun, (-place, symbol.value + symbol.size))
    return starts, owners


def told_apart(group: list[tuple[str, Symbol]]) -> list[Symbol]:
    """Symbols of a kind, with the file before a name that several symbols have."""
    times = Counter(symbol.name for _, symbol in group)
    return [
        Symbol(f"{file}:{symbol.name}", symbol.value, symbol.size) if times[symbol.name] > 1 and file else symbol
        for file, symbol in group
    ]


def header_of(content: bytes) -> tuple[Any, ...]:
    """The fields of the header, for an image that the program may accept."""
    if len(content) > MOST_BYTES:
        raise Refusal(f"an image of more than {MOST_BYTES} bytes")
    if len(content) < HEADER.size or content[:4] != b"\x7fELF":
        raise Refusal("it is not an ELF file")
    header = HEADER.unpack_from(content)
    if content[4:6] != b"\x01\x01" or header[2] != RISCV:
        raise Refusal("it is not a 32-bit ELF file for RISC-V")
    return header


def text_at(strings: bytes, at: int) -> str:
    """A name of a string table, with marks for characters that cannot be printed."""
    end = strings.find(b"\0", at, at + MOST_NAME + 1)
    if end < 0 and len(strings) - at > MOST_NAME:
        raise Refusal(f"a symbol whose name has more than {MOST_NAME} bytes")
    return printable(strings[at : end if end >= 0 else None].decode("utf-8", "replace"))


def inflated(content: bytes) -> bytes:
    """The bytes of a compressed section."""
    try:
        reader = zlib.decompressobj()
        whole = reader.decompress(content[12:], MOST_SECTION)
    except zlib.error as error:
        raise Refusal(f"a compressed section: {error}") from None
    if reader.unconsumed_tail or not reader.eof:
        raise Refusal(f"a compressed section that is cut, or has more than {MOST_SECTION} bytes")
    return whole


def read(path: str) -> Image:
    """The image of this name, or the refusal that names it."""
    try:
        with regular.opened(path) as file:
            return Image(file.read(MOST_BYTES + 1))
    except OSError as error:
        raise Refusal(f"{path}: {error.strerror}") from None
    except struct.error:
        raise Refusal(f"{path}: its headers go past its end") from None
    except Refusal as refusal:
        raise Refusal(f"{path}: {refusal}") from None
