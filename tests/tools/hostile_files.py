"""Images that cost a reader without bounds memory or time. The sections are those of the ELF specification, and the
line tables those of the DWARF standard, section 6.2, "Line Number Information".

hostile_files.py NAME FILE
"""

from __future__ import annotations

import struct
import sys
import zlib

import assembler as a
import known
import named_image
from named_image import Section

FUNCTION, ABSOLUTE = 2, 0xFFF1
SYMBOL = struct.Struct("<IIIBBH")
MEGABYTE = 1 << 20
HEAD5 = bytes([1, 1, 1, 0xFB, 14, 13, 0, 1, 1, 1, 1, 0, 0, 0, 1, 0, 0, 1])


def with_sections(*sections: Section, segments: int = 1) -> bytes:
    """The program `overwrite` of tables.py with these sections more: name, type, flags, content, link."""
    first = [("", 0, 0, b"", 0), (".text", 1, 6, known.program(known.KEEP), 0)]
    return named_image.linked([*first, *sections], segments)


def with_symbols(symbols: list[tuple[int, int, int]], names: bytes) -> bytes:
    """The same with functions: of each where its name begins among the names, its address and its size."""
    entries = bytes(16) + b"".join(SYMBOL.pack(*symbol, FUNCTION | 16, 0, 1) for symbol in symbols)
    return with_sections((".symtab", 2, 0, entries, 3), (".strtab", 3, 0, names, 0))


def with_lines(version: int, head: bytes, code: bytes) -> bytes:
    """The same with a line table of one unit."""
    sizes = b"\4\0" if version == 5 else b""
    unit = struct.pack("<H", version) + sizes + struct.pack("<I", len(head)) + head + code
    return with_sections((".debug_line", 1, 0, struct.pack("<I", len(unit)) + unit, 0))


def inflated() -> bytes:
    """A compressed line table of 12 GB: after a full flush deflate's blocks stand alone, so that one may come again."""
    packer = zlib.compressobj(9)
    first = packer.compress(bytes(MEGABYTE)) + packer.flush(zlib.Z_FULL_FLUSH)
    again = packer.compress(bytes(MEGABYTE)) + packer.flush(zlib.Z_FULL_FLUSH)
    content = struct.pack("<3I", 1, 0xFFFFFFFF, 1) + first + again * 12_000
    return with_sections((".debug_line", 1, 0x800, content, 0))


FILES = {
    "inflated": inflated,
    "segments": lambda: with_sections(segments=65_533),
    "name": lambda: with_symbols([(1, a.ROM, 32)], b"\0" + b"n" * (8 * MEGABYTE) + b"\0"),
    # Each symbol's name begins one letter behind the one before it.
    "names": lambda: with_symbols(
        [(1 + at, a.ROM, 32) for at in range(60_000)], b"\0" + b"n" * 65_000 + b"\0" * 60_000
    ),
    # All small functions begin between the start of the large one and the program.
    "nested": lambda: with_symbols(
        [(1, a.ROM - 600_000, 1 << 20)] + [(5, a.ROM - 500_000 + at, 1) for at in range(500_000)], b"\0all\0one\0"
    ),
    "leb": lambda: with_lines(2, named_image.HEAD2, b"\2" + b"\x80" * MEGABYTE + b"\1" + named_image.CODE2),
    # The content of a file's entry: a path, and the number of its folder as a text.
    "form": lambda: with_lines(5, HEAD5 + b"\1\1\x08\1/build\0" + b"\2\1\x08\2\x08\1a.c\0x\0", named_image.CODE5),
    "files": lambda: with_lines(5, HEAD5 + b"\1\1\x08\xff\xff\xff\xff\x0f", named_image.CODE5),
}

if __name__ == "__main__":
    with open(sys.argv[2], "wb") as file:
        file.write(FILES[sys.argv[1]]())
