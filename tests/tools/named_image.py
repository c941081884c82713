"""Writes an image with names: the program `overwrite` of tables.py, with a symbol table and a line table that were
made by hand. The symbol table follows the chapters "Sections" and "Symbol Table" of the ELF specification, and the
line table section 6.2, "Line Number Information", of the DWARF standard.

named_image.py FILE WORD..

The words say what it has: `names` a symbol table, `lines2` or `lines5` a line table of DWARF version 2 or 5, `zipped`
a compressed line table, `twins` a second variable of the same name.
"""

from __future__ import annotations

import struct
import sys
import zlib

import assembler as a
import known

Section = tuple[str, int, int, bytes, int]  # a name, the type, the flags, the content and the linked section

# Functions and objects: name, value, size, type, and whether it is local. Cycle n of the program is the instruction at ROM + 4 * n.
SYMBOLS = [
    ("a.c", 0, 0, 4, True),
    ("$xrv32i", a.ROM, 0, 0, True),
    (".L1", a.ROM + 0x18, 0, 0, True),
    ("store", a.ROM, 0x10, 2, True),
    ("load", a.ROM + 0x10, 4, 2, False),
    ("again", a.ROM + 0x10, 4, 2, False),  # a second name of the same function: the first one counts
    ("finish", a.ROM + 0x14, 0, 0, False),  # a label of start code
    ("low", 0x80000000, 2, 1, True),
]
TWINS = [("b.c", 0, 0, 4, True), ("low", 0x80000002, 1, 1, True)]

# Of the lines: a.c:3 up to cycle 2, inc/b.h:7 at 3 and 4, a.c:9 at 5 and 6, and none at 7.
HEAD2 = bytes([1, 1, 0xFB, 14, 10, 0, 1, 1, 1, 1, 0, 0, 0, 1]) + b"inc\0\0" + b"a.c\0\0\0\0" + b"b.h\0\1\0\0\0"
CODE2 = (
    b"\0\5\2" + struct.pack("<I", a.ROM)  # set_address
    + b"\3\2\1"  # advance_line 2, copy: line 3 of file 1
    + b"\4\2" + bytes([10 + (4 + 5) + 14 * 12])  # set_file 2; 12 bytes and 4 lines on
    + b"\4\1\2\10\3\2\1"  # set_file 1, advance_pc 8, advance_line 2, copy
    + b"\2\10\0\1\1"  # advance_pc 8, end_sequence
)  # fmt: skip
HEAD5 = (
    bytes([1, 1, 1, 0xFB, 14, 13, 0, 1, 1, 1, 1, 0, 0, 0, 1, 0, 0, 1])
    + b"\1\1\x08\2/build\0inc\0"  # folders: a path as a text
    + b"\2\1\x08\2\x0b\3a.c\0\0a.c\0\0b.h\0\1"  # files: a path and the number of a folder in a byte
)
CODE5 = (
    b"\0\5\2" + struct.pack("<I", a.ROM)
    + b"\3\6\3\x7c\1"  # advance_line 6 and -4, copy
    + b"\5\1\4\2\x09\x0c\0\3\4\1"  # set_column 1, set_file 2, fixed_advance_pc 12, advance_line 4, copy
    + b"\4\1\6" + bytes([13 + (2 + 5) + 14 * 8])  # set_file 1, negate_stmt; 8 bytes and 2 lines on
    + b"\2\10\0\1\1"
)  # fmt: skip


def lines(version: int) -> bytes:
    """The line table of a version."""
    head, code = (HEAD2, CODE2) if version == 2 else (HEAD5, CODE5)
    sizes = b"" if version == 2 else b"\4\0"
    unit = struct.pack("<H", version) + sizes + struct.pack("<I", len(head)) + head + code
    return struct.pack("<I", len(unit)) + unit


def symbol_table(symbols: list[tuple[str, int, int, int, bool]]) -> tuple[bytes, bytes]:
    """The entries of symbols, and the names that they name."""
    names, entries = b"\0", bytes(16)
    for name, value, size, kind, local in symbols:
        section = {2: 1, 0: 1, 1: 0xFFF1, 4: 0xFFF1}[kind]
        entries += struct.pack("<IIIBBH", len(names), value, size, kind | (0 if local else 16), 0, section)
        names += name.encode() + b"\0"
    return entries, names


def zipped(content: bytes) -> bytes:
    """The content of a compressed section."""
    return struct.pack("<3I", 1, len(content), 1) + zlib.compress(content)


def image(words: list[str]) -> bytes:
    """The bytes of the file that the words ask for."""
    code = known.program(known.KEEP)
    sections = [("", 0, 0, b"", 0), (".text", 1, 6, code, 0)]
    for word in words:
        if word == "names":
            entries, names = symbol_table(SYMBOLS + (TWINS if "twins" in words else []))
            sections += [(".symtab", 2, 0, entries, len(sections) + 1), (".strtab", 3, 0, names, 0)]
        elif word.startswith("lines"):
            table = lines(int(word[5:]))
            small = "zipped" in words
            sections.append((".debug_line", 1, 0x800 if small else 0, zipped(table) if small else table, 0))
    return linked(sections)


def linked(sections: list[Section], segments: int = 1) -> bytes:
    """The bytes of a file with these sections, the second of which is loaded, by as many segments over the same range."""
    code = sections[1][3]
    texts = b"\0".join(name.encode() for name, *_ in sections) + b"\0.shstrtab\0"
    sections.append((".shstrtab", 3, 0, texts, 0))
    body, headers, at = b"", b"", 52 + 32 * segments
    for name, kind, flags, content, link in sections:
        name_at = 0 if name == "" else texts.index(name.encode() + b"\0")
        headers += struct.pack("<10I", name_at, kind, flags, a.ROM if flags == 6 else 0, at + len(body), len(content), link, 0, 1, 16 if kind == 2 else 0)
        body += content
    identification = b"\x7fELF\1\1\1" + bytes(9)
    numbers = (2, 243, 1, a.ROM, 52, at + len(body), 0, 52, 32, segments, 40, len(sections), len(sections) - 1)
    segment = struct.pack("<8I", 1, at, a.ROM, a.ROM, len(code), len(code), 5, 4)
    return struct.pack("<16sHHIIIIIHHHHHH", identification, *numbers) + segment * segments + body + headers


if __name__ == "__main__":
    with open(sys.argv[1], "wb") as file:
        file.write(image(sys.argv[2:]))
