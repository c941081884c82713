#!/usr/bin/env python3
"""A second reading of an image's symbols, and of what `symbols` writes of a campaign by them.

It follows the chapters "ELF Header", "Sections" and "Symbol Table" of the ELF specification, and docs/FORMATS.md,
"Its symbols". It shares no code with the program or with tools/.

    symbol_reader.py IMAGE TRACE JOBS [RAM [pc]]

TRACE is what `trace` writes of the image, JOBS what `report --format csv` writes of its campaign (RFC 4180), RAM the
region BASE:SIZE, and `pc` says that the pc is a cell. It prints what `symbols` has to print, or the line of the
refusal, and ends with its status.
"""

from __future__ import annotations

import collections
import csv
import sys
from typing import Any, NamedTuple

OUTCOMES = ("no-effect", "silent", "detected", "illegal", "address", "misaligned", "timeout")
SYMTAB, STRTAB = 2, 3
KINDS = {1: "object", 2: "function"}
SECTION_SIZE, SYMBOL_SIZE = 40, 16
REGISTERS, FIRST_BYTE = 31, 32  # how many registers are cells, and the cell of RAM's first byte


class Symbol(NamedTuple):
    kind: str
    name: str
    value: int
    size: int


class Refused(Exception):
    """An image whose symbols are not read: its number and its name."""

    def __str__(self) -> str:
        return "image refused: {} {}".format(*self.args)


BAD_SECTIONS, BAD_NAME = (13, "BadSections"), (14, "BadName")


def number(file: bytes, at: int, size: int) -> int:
    return int.from_bytes(file[at : at + size], "little")


def linked_tables(file: bytes) -> tuple[bytes, bytes]:
    """The bytes of the first symbol table and of the string table that it is linked to; none of both where there is no such table."""
    table, size, count = number(file, 32, 4), number(file, 46, 2), number(file, 48, 2)
    if count == 0:
        return b"", b""
    if size != SECTION_SIZE or table + SECTION_SIZE * count > len(file):
        raise Refused(*BAD_SECTIONS)
    sections = [[number(file, table + SECTION_SIZE * i + at, 4) for at in (4, 16, 20, 24, 36)] for i in range(count)]
    for kind, offset, length, link, entry in sections:
        if kind == SYMTAB:
            break
    else:
        return b"", b""
    if entry != SYMBOL_SIZE or length % SYMBOL_SIZE or offset + length > len(file) or link >= count:
        raise Refused(*BAD_SECTIONS)
    other, start, strings, *_ = sections[link]
    if other != STRTAB or start + strings > len(file):
        raise Refused(*BAD_SECTIONS)
    return file[offset : offset + length], file[start : start + strings]


def symbols(file: bytes) -> list[Symbol]:
    """The functions and objects of an image that have bytes and are defined in it, in the table's order; or the refusal."""
    table, strings = linked_tables(file)
    found = []
    for at in range(0, len(table), SYMBOL_SIZE):
        name, value, size = (number(table, at + place, 4) for place in (0, 4, 8))
        kind, section = KINDS.get(table[at + 12] & 15), number(table, at + 14, 2)
        if kind is None or size == 0 or section == 0:
            continue
        end = strings.find(b"\0", name)
        if end < 0:
            raise Refused(*BAD_NAME)
        shown = "".join(chr(byte) if 0x21 <= byte <= 0x7E else "?" for byte in strings[name:end])
        found.append(Symbol(kind, shown, value, size))
    return found


def owner(found: list[Symbol], kind: str, address: int) -> int | None:
    """The number of the symbol of a kind that an address belongs to, or None."""
    best = None
    for place, symbol in enumerate(found):
        if symbol.kind == kind and symbol.value <= address < symbol.value + symbol.size:
            if best is None or symbol.value > found[best].value:
                best = place
    return best


class Counts:
    """How many sites have each outcome, by lines."""

    def __init__(self) -> None:
        self.lines: dict[object, collections.Counter[str]] = collections.defaultdict(collections.Counter)

    def line(self, title: str, key: object) -> str:
        return " ".join([title, *(str(self.lines[key][outcome]) for outcome in OUTCOMES)])

    def total(self) -> collections.Counter[str]:
        return sum(self.lines.values(), collections.Counter())


def text(found: list[Symbol], pcs: list[int], jobs: list[list[Any]], ram: range, pc_cell: bool = False) -> str:
    """All that `symbols` writes. The jobs are lists of cycle, cell, bit, weight and outcome, and there is a pc for each cycle."""
    functions, objects = Counts(), Counts()
    holder_of = {pc: owner(found, "function", pc) for pc in set(pcs)}
    place_of = {FIRST_BYTE + offset: owner(found, "object", ram.start + offset) for offset in range(len(ram))}
    sites: collections.Counter[object] = collections.Counter({"registers": len(pcs) * 32 * (REGISTERS + pc_cell)})
    for place in place_of.values():
        sites[place] += len(pcs) * 8
    for cycle, cell, _, weight, outcome in jobs:
        functions.lines[holder_of[pcs[cycle]]][outcome] += weight
        objects.lines[place_of.get(cell, "registers")][outcome] += weight
    # What no job stands for is dead.
    functions.lines["dead"]["no-effect"] = sites.total() - functions.total().total()
    for line, count in sites.items():
        objects.lines[line]["no-effect"] += count - objects.lines[line].total()
    lines = []
    for kind, counts, rest in (("function", functions, "dead"), ("object", objects, "registers")):
        lines += [counts.line(f"{kind} {symbol.name}", place) for place, symbol in enumerate(found) if symbol.kind == kind]
        lines += [counts.line(f"{kind} (none)", None), counts.line(f"{kind} ({rest})", rest)]
    totals = objects.total()
    lines += [f"instructions {len(pcs)}", f"sites {sites.total()}", *(f"{outcome} {totals[outcome]}" for outcome in OUTCOMES)]
    return "".join(line + "\n" for line in lines)


def pcs_of(trace: str) -> list[int]:
    """The addresses of the instructions of a trace."""
    return [int(line.split()[1], 16) for line in trace.splitlines() if line[0].isdigit()]


def jobs_of(table: str) -> list[list[Any]]:
    """The jobs of a csv report."""
    return [[*map(int, row[:4]), row[4]] for row in csv.reader(table.splitlines()[1:])]


def region(word: str) -> range:
    base, size = (int(part, 0) for part in word.split(":"))
    return range(base, base + size)


def main(image: str, trace: str, jobs: str, ram: str = "0x80000000:16384", pc: str = "") -> int:
    with open(image, "rb") as file, open(trace) as steps, open(jobs) as table:
        try:
            found = symbols(file.read())
        except Refused as reason:
            print(reason, file=sys.stderr)
            return 3
        print(text(found, pcs_of(steps.read()), jobs_of(table.read()), region(ram), pc == "pc"), end="")
    return 0


if __name__ == "__main__":
    sys.exit(main(*sys.argv[1:]))
