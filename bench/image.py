#!/usr/bin/env python3
"""Writes one of the compiled programs of bench/steps as an ELF file, so that the built program can be timed on it.

usage: image.py NAME OUT        as image.py QSORT qsort.elf
It stands at 0x20000000, where its first word is run first; its RAM is 4096 bytes at 0x80000000.
"""
import pathlib
import re
import struct
import sys

BASE = 0x20000000
# Where the segment's bytes are in the file: behind the file's header and the one program header.
OFFSET = 52 + 32


def words_of(name):
    text = (pathlib.Path(__file__).parent / "steps/src/programs.rt.in").read_text()
    found = re.search(rf"pub const {name}: \[u32; (\d+)\] = \[([^\]]*)\]", text)
    words = [int(word, 16) for word in re.findall(r"0x[0-9a-f]{8}", found[2])]
    assert len(words) == int(found[1])
    return words


def image(words):
    code = struct.pack(f"<{len(words)}I", *words)
    # ELF32, little-endian, version 1; an executable for RISC-V; its entry, and where its program header is.
    head = b"\x7fELF\1\1\1" + bytes(9)
    head += struct.pack("<HHIIIIIHHHHHH", 2, 243, 1, BASE, 52, 0, 0, 52, 32, 1, 0, 0, 0)
    # PT_LOAD, readable and executable.
    head += struct.pack("<8I", 1, OFFSET, BASE, BASE, len(code), len(code), 5, 4)
    return head + code


if __name__ == "__main__":
    pathlib.Path(sys.argv[2]).write_bytes(image(words_of(sys.argv[1])))
