"""A second reading of the campaign file: what a file keeps for a case, and what is written into one.

It follows docs/FORMATS.md, "The campaign file". Numbers are little-endian. Outcomes are the numbers 0 to 7: older
versions wrote 3 for a trap of any kind, which is 5, 6 or 7 now, and 3 is never written.
"""

from __future__ import annotations

import os
import struct
from collections.abc import Container, Sequence

from machine import Case, Site

OPEN, NAME, VERSION = 0xA5, b"FAILCMP", 1
OLD_TRAP, TRAPS, LAST = 3, (5, 6, 7), 7
ROW = struct.Struct("<IIBB")
Row = tuple[int, int, int, int]  # a cycle, a cell, a bit and an outcome


class Refused(Exception):
    """A file that is none of this case, with the reason."""


# The kind of a card, by whether the pc is a cell and whether code may stand in RAM.
KINDS = {(False, False): 1, (True, False): 2, (False, True): 3, (True, True): 4}


def card(case: Case) -> bytes:
    """All that a case is: a kind, the numbers, and the bytes of both regions."""
    numbers = (case.entry, case.rom.start, len(case.rom), case.ram.start, len(case.ram), case.limit)
    return struct.pack("<B6I", KINDS[case.pc_cell, case.ram_code], *numbers) + bytes(case.rom_bytes) + bytes(case.ram_bytes)


def header(case: Case) -> bytes:
    """A file that was begun and keeps nothing: its last byte is the closed gate of the first batch."""
    own = card(case)
    return bytes([OPEN]) + NAME + bytes([VERSION]) + struct.pack("<I", len(own)) + own + bytes(1)


def batch(rows: Sequence[Row]) -> bytes:
    """What comes to stand from a closed gate on: it opened, rows (cycle, cell, bit, outcome), and the next closed gate."""
    return bytes([OPEN]) + struct.pack("<H", len(rows)) + b"".join(ROW.pack(*row) for row in rows) + bytes(1)


def demand(holds: bool, reason: str) -> None:
    if not holds:
        raise Refused(reason)


def first_gate(content: bytes, own: bytes) -> int:
    """The place of the first batch's gate, behind the card of the case."""
    demand(content[0] == OPEN and content[1:8] == NAME, "1 NotACampaign")
    demand(content[8:9] in (b"", bytes([VERSION])), "2 Version")
    gate = 13 + int.from_bytes(content[9:13], "little")
    demand(len(content) > 12 and len(content) > gate, "3 Cut")
    found = content[13:gate]
    if found != own:
        pairs = enumerate(zip(found, own))
        raise Refused(f"6 OtherCase at {next((at for at, (one, other) in pairs if one != other), min(len(found), len(own)))}")
    return gate


def row_at(content: bytes, at: int) -> Row:
    """The row at a place."""
    cycle, cell, bit, outcome = ROW.unpack_from(content, at)
    return cycle, cell, bit, outcome


def rows_from(content: bytes, gate: int) -> tuple[list[tuple[int, Row]], int]:
    """The rows of all open batches, each with its place, and the place of the closed gate."""
    rows: list[tuple[int, Row]] = []
    while True:
        demand(len(content) > gate, "3 Cut")
        if content[gate] != OPEN:
            return rows, gate
        demand(len(content) >= gate + 3, "3 Cut")
        start, gate = gate + 3, gate + 3 + ROW.size * int.from_bytes(content[gate + 1 : gate + 3], "little")
        demand(len(content) >= gate, "3 Cut")
        rows += [(at, row_at(content, at)) for at in range(start, gate, ROW.size)]


def agree(one: int, other: int) -> bool:
    """Whether two rows of one job may have these outcomes."""
    return one == other or (one == OLD_TRAP and other in TRAPS) or (other == OLD_TRAP and one in TRAPS)


def accept(content: bytes, case: Case, jobs: Container[Site]) -> tuple[dict[Site, int], int | None]:
    """The outcome of each job that a file keeps for a case, whose jobs these are, and the place of its closed gate; or the first
    reason against the file. A trap of an older version keeps no outcome. An empty file keeps nothing and has no gate."""
    if not content:
        return {}, None
    rows, gate = rows_from(content, first_gate(content, card(case)))
    for at, row in rows:
        demand(row[3] <= LAST, f"4 BadRow at {at}")
    firsts: dict[Site, dict[int, int]] = {}  # of each name its outcomes, each with the place where it stands first
    for at, (cycle, cell, bit, outcome) in rows:
        earlier = firsts.setdefault((cycle, cell, bit), {})
        against = [place for known, place in earlier.items() if not agree(known, outcome)]
        demand(not against, f"5 Conflict at {min(against, default=0)} and {at}")
        earlier.setdefault(outcome, at)
    for at, row in rows:
        demand(row[:3] in jobs, f"4 BadRow at {at}")
    return {name: outcome for name, known in firsts.items() for outcome in known if outcome != OLD_TRAP}, gate


def over(content: bytes, at: int, more: bytes) -> bytes:
    """A file with bytes written from a place on. It is never shortened."""
    return content[:at] + more + content[at + len(more) :]


def read(path: str) -> bytes:
    """The bytes of a campaign file. One that is missing is empty; anything but a file, and a missing folder, is an OSError."""
    if os.path.isfile(path):
        with open(path, "rb") as file:
            return file.read()
    if path and not os.path.lexists(path) and os.path.isdir(os.path.dirname(path) or "."):
        return b""
    raise OSError(f"{path}: no file")


def write(path: str, content: bytes) -> None:
    with open(path, "wb") as file:
        file.write(content)
