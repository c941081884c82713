"""Reads the source line of an instruction: the section .debug_line of an image that was built with -g, DWARF versions
2 to 5.

The names are those of the DWARF standard, version 5, section 6.2, "Line Number Information". An address belongs to
the last row of the table at or before it, within a sequence of rows.
"""

from __future__ import annotations

import bisect
from collections.abc import Iterator
from dataclasses import dataclass
from typing import NamedTuple

from fail_star_tools.read.campaign_file import Refusal
from fail_star_tools.read.elf_image import Image
from fail_star_tools.words import printable

COPY, ADVANCE_PC, ADVANCE_LINE, SET_FILE, CONST_ADD_PC, FIXED_ADVANCE_PC = 1, 2, 3, 4, 8, 9
END_SEQUENCE, SET_ADDRESS = 1, 2
PATH, DIRECTORY_INDEX = 1, 2
FORM_STRING, FORM_BLOCK, FORM_STRP, FORM_UDATA, FORM_LINE_STRP = 0x08, 0x09, 0x0E, 0x0F, 0x1F
# Bounds of a table that may be hostile; compilers make some thousand files and rows.
MOST_ROWS, MOST_FILES, MOST_NAMES = 2_000_000, 65_536, 67_108_864
MOST_NAME = 4_096  # bytes of the name of a file or of a folder
MOST_SHIFT, LONGEST_ADDRESS = 63, 8
FORM_SIZES = {0x0B: 1, 0x05: 2, 0x06: 4, 0x07: 8, 0x1E: 16}


class Bytes:
    """Bytes that are read one after the other; `what` is their name in a refusal."""

    def __init__(self, content: bytes, at: int = 0, end: int | None = None, what: str = "a line table") -> None:
        self.content, self.at, self.end, self.what = content, at, len(content) if end is None else end, what

    def take(self, count: int) -> bytes:
        """The next bytes."""
        if count > self.end - self.at:
            raise Refusal(f"{self.what} that goes past its end")
        self.at += count
        return self.content[self.at - count : self.at]

    def number(self, count: int, signed: bool = False) -> int:
        """A number of this size in bytes."""
        return int.from_bytes(self.take(count), "little", signed=signed)

    def unsigned(self) -> int:
        """A number in LEB128."""
        value = shift = 0
        while True:
            byte = self.number(1)
            if shift > MOST_SHIFT:
                raise Refusal(f"{self.what} with a number of more than 64 bits")
            value |= (byte & 0x7F) << shift
            shift += 7
            if byte < 0x80:
                return value

    def signed(self) -> int:
        """A signed number in LEB128."""
        start = self.at
        value = self.unsigned()
        bits = 7 * (self.at - start)
        return value - (1 << bits) if value >> (bits - 1) else value

    def text(self) -> str:
        """A text up to its zero byte."""
        end = self.content.find(b"\0", self.at, min(self.end, self.at + MOST_NAME + 1))
        if end < 0:
            raise Refusal(f"{self.what} with a name that has no end, or more than {MOST_NAME} bytes")
        return self.take(end + 1 - self.at)[:-1].decode("utf-8", "replace")


class Row(NamedTuple):
    """A range of addresses, from the first to below the end, of one line of a file."""

    first: int
    last: int
    file: str
    line: int


@dataclass
class Unit:
    """The header of a unit: the meaning of its opcodes, and its files by their numbers."""

    version: int
    shortest: int
    line_base: int
    line_range: int
    opcode_base: int
    lengths: bytes
    files: list[str]


class LineTable:
    """The lines of an image by address."""

    def __init__(self, rows: list[Row]) -> None:
        self.rows = sorted(rows, key=lambda row: row.first)
        self.firsts = [row.first for row in self.rows]

    def of(self, address: int) -> str | None:
        """The file and the line of an address: file:line."""
        at = bisect.bisect_right(self.firsts, address) - 1
        if at < 0 or address >= self.rows[at].last or self.rows[at].line == 0:
            return None
        return f"{self.rows[at].file}:{self.rows[at].line}"


def lines_of(image: Image) -> LineTable:
    """The line table of an image, or a refusal with the reason why there is none."""
    content = image.section(".debug_line")
    if not content:
        raise Refusal("the image has no line table: build it with -g")
    strings = {FORM_LINE_STRP: image.section(".debug_line_str") or b"", FORM_STRP: image.section(".debug_str") or b""}
    rows: list[Row] = []
    source, names = Bytes(content), Names()
    while source.at < source.end:
        length, wide = source.number(4), 4
        if length == 0xFFFFFFFF:
            length, wide = source.number(8), 8
        start = source.at
        source.take(length)
        for row in rows_of(Bytes(content, start, source.at), wide, strings, names):
            if len(rows) == MOST_ROWS:
                raise Refusal(f"a line table of more than {MOST_ROWS} rows")
            rows.append(row)
    return LineTable(rows)


class Names:
    """The names of files, each kept once."""

    def __init__(self) -> None:
        self.kept: dict[str, str] = {}
        self.room = MOST_NAMES

    def kept_once(self, name: str) -> str:
        """The same name."""
        if name not in self.kept:
            self.room -= len(name)
            if self.room < 0:
                raise Refusal(f"a line table whose files have names of more than {MOST_NAMES} letters together")
            self.kept[name] = name
        return self.kept[name]


def rows_of(source: Bytes, wide: int, strings: dict[int, bytes], names: Names) -> Iterator[Row]:
    """The rows of a unit whose offsets have this size in bytes."""
    unit, program = unit_of(source, wide, strings)
    before: tuple[int, int, int] | None = None
    for address, file, line, ends in states_of(unit, program):
        if before is not None and address > before[0]:
            yield Row(before[0], address, names.kept_once(named(unit.files, before[1])), before[2])
        before = None if ends else (address, file, line)


def named(files: list[str], number: int) -> str:
    """The name of a file by its number in the unit."""
    return files[number] if number < len(files) else "?"


def unit_of(source: Bytes, wide: int, strings: dict[int, bytes]) -> tuple[Unit, Bytes]:
    """The header of a unit, and the opcodes after it."""
    version = source.number(2)
    if not 2 <= version <= 5:
        raise Refusal(f"a line table of DWARF version {version}; this reader knows 2 to 5")
    if version == 5:
        source.take(2)  # the sizes of an address and of a segment's selector
    length = source.number(wide)
    program = Bytes(source.content, source.at + length, source.end)
    shortest = source.number(1)
    if version >= 4:
        source.take(1)  # the most operations in an instruction
    source.take(1)  # default_is_stmt
    line_base, line_range, opcode_base = source.number(1, True), source.number(1), source.number(1)
    if line_range == 0 or opcode_base == 0 or program.at > program.end:
        raise Refusal("a line table with an invalid header")
    lengths = source.take(opcode_base - 1)
    files = files_of(source, wide, strings) if version == 5 else old_files_of(source)
    return Unit(version, shortest, line_base, line_range, opcode_base, lengths, files), program


def old_files_of(source: Bytes) -> list[str]:
    """The files of a unit of versions 2 to 4, which are numbered from 1; folder 0 is the one of the compilation."""
    folders, files = [""], ["?"]
    while folder := source.text():
        folders.append(folder)
        look_at_number(folders)
    while file := source.text():
        look_at_number(files)
        number = source.unsigned()
        source.unsigned()  # when it was changed
        source.unsigned()  # its length
        files.append(joined(named(folders, number), file))
    return files


def files_of(source: Bytes, wide: int, strings: dict[int, bytes]) -> list[str]:
    """The files of a unit of version 5, which are numbered from 0; folder 0 is the one of the compilation."""
    folders = [folder for _, folder in entries_of(source, wide, strings)]
    folders[:1] = [""]
    return [joined(named(folders, number), file or "?") for number, file in entries_of(source, wide, strings)]


def look_at_number(files: list[str]) -> None:
    """Refuses more files or folders than a unit may have."""
    if len(files) > MOST_FILES:
        raise Refusal(f"a line table with more than {MOST_FILES} files or folders in a unit")


def joined(folder: str, file: str) -> str:
    """The name of a file as seen from the folder of the compilation."""
    name = file if folder in ("", ".") or file.startswith("/") else f"{folder}/{file}"
    return printable(name)


def entries_of(source: Bytes, wide: int, strings: dict[int, bytes]) -> Iterator[tuple[int, str]]:
    """The entries of a list of version 5: the number of the folder, or 0, and the path, or nothing."""
    formats = [(source.unsigned(), source.unsigned()) for _ in range(source.number(1))]
    count = source.unsigned() if formats else 0
    if count > MOST_FILES:
        raise Refusal(f"a line table with more than {MOST_FILES} files or folders in a unit")
    for _ in range(count):
        found = {content: value_of(source, form, wide, strings) for content, form in formats}
        number, path = found.get(DIRECTORY_INDEX, 0), found.get(PATH, "")
        if not isinstance(number, int) or not isinstance(path, str):
            raise Refusal("a line table with a path that is not a text, or a folder that is not a number")
        yield number, path


def value_of(source: Bytes, form: int, wide: int, strings: dict[int, bytes]) -> str | int | bytes:
    """A value in one of the forms that a line table may have."""
    if form == FORM_STRING:
        return source.text()
    if form in strings:
        return Bytes(strings[form], min(source.number(wide), len(strings[form]))).text()
    if form == FORM_UDATA:
        return source.unsigned()
    if form == FORM_BLOCK:
        return source.take(source.unsigned())
    if form not in FORM_SIZES:
        raise Refusal(f"a line table with a value of form {form:#x}")
    return source.number(FORM_SIZES[form])


def states_of(unit: Unit, program: Bytes) -> Iterator[tuple[int, int, int, bool]]:
    """The rows that the opcodes make: address, file, line, and whether a sequence ends there."""
    address, file, line = 0, 1, 1
    while program.at < program.end:
        opcode = program.number(1)
        if opcode >= unit.opcode_base:
            steps, more = divmod(opcode - unit.opcode_base, unit.line_range)
            address, line = address + unit.shortest * steps, line + unit.line_base + more
            yield address, file, line, False
        elif opcode == 0:
            size = program.unsigned()
            operand = Bytes(program.take(size))
            kind = operand.number(1)
            if kind == SET_ADDRESS:
                if size > 1 + LONGEST_ADDRESS:
                    raise Refusal(f"a line table with an address of {size - 1} bytes")
                address = operand.number(size - 1)
            elif kind == END_SEQUENCE:
                yield address, file, line, True
                address, file, line = 0, 1, 1
        elif opcode == COPY:
            yield address, file, line, False
        elif opcode == ADVANCE_PC:
            address += unit.shortest * program.unsigned()
        elif opcode == ADVANCE_LINE:
            line += program.signed()
        elif opcode == SET_FILE:
            file = program.unsigned()
        elif opcode == CONST_ADD_PC:
            address += unit.shortest * ((255 - unit.opcode_base) // unit.line_range)
        elif opcode == FIXED_ADVANCE_PC:
            address += program.number(2)
        else:
            for _ in range(unit.lengths[opcode - 1]):
                program.unsigned()
