"""Reads campaign files, for the tools: the case of a file, and the rows that it keeps.

`docs/FORMATS.md` has the bytes under "The campaign file", and its words are used here. A file that is not a campaign
file is refused with one line, which has the program's name for the reason. Reasons that only the program can find (a
card of another case, a row that names no job) are not looked for.
"""

from __future__ import annotations

import bisect
import hashlib
import heapq
import itertools
import re
import struct
from array import array
from collections.abc import Iterable, Iterator
from dataclasses import dataclass
from typing import IO, Tuple

from fail_star_tools.read import regular

# The outcomes in the order of a report, each with its byte in a row.
BYTES = {"no-effect": 0, "silent": 1, "detected": 2, "illegal": 5, "address": 6, "misaligned": 7, "timeout": 4}
OUTCOMES = tuple(BYTES)
LAST_BYTE = 7
# What older versions wrote for a trap of any kind: the row of a job that runs again.
OLD_TRAP_BYTE, TRAP_BYTES = 3, (5, 6, 7)
OLD_TRAP = "trap-without-kind"
NAMES = {**{byte: outcome for outcome, byte in BYTES.items()}, OLD_TRAP_BYTE: OLD_TRAP}

OPEN, NAME, VERSION = 0xA5, b"FAILCMP", 1
# The kinds of cards: whether the pc is a cell, and whether code may be executed from RAM.
KINDS = {1: (False, False), 2: (True, False), 3: (False, True), 4: (True, True)}
KIND_OF = {flags: kind for kind, flags in KINDS.items()}
NUMBERS = struct.Struct("<B6I")  # the card's, before the bytes of both regions
ROW = struct.Struct("<IIBB")
CARD_AT = 13
MOST_BYTES = 1 << 30  # of a file that these tools take
MOST_RUNS, MOST_UNORDERED = 1024, 1 << 22  # runs of rows that are merged without much memory, and rows that are sorted in memory
Placed = Tuple[int, int, int, int, int]  # cycle, cell, bit, the row's place in the file, outcome
NUMBER = re.compile("[0-9]{1,20}|0[xX][0-9a-fA-F]{1,16}", re.ASCII)


class Refusal(Exception):
    """The reason why a file or a word is refused, as the line for the error output."""


@dataclass(frozen=True)
class Region:
    """The base and the size of ROM or RAM."""

    base: int
    size: int

    def __str__(self) -> str:
        return f"{self.base:#010x}:{self.size}"

    @classmethod
    def of(cls, word: str) -> Region:
        """The region of a word BASE:SIZE, as in the options of the program."""
        parts = word.split(":")
        if len(parts) != 2:
            raise Refusal(f"{word[:60]!r}: expected BASE:SIZE")
        return cls(number_of(parts[0]), number_of(parts[1]))


def number_of(word: str) -> int:
    """A number as in the options of the program, decimal or hexadecimal."""
    if not NUMBER.fullmatch(word):
        raise Refusal(f"{word[:60]!r}: expected a number, decimal or 0x and hexadecimal digits")
    return int(word[2:], 16) if word[:2].lower() == "0x" else int(word)


@dataclass(frozen=True)
class Card:
    """The case of a campaign file."""

    pc_cell: bool
    ram_code: bool
    entry: int
    rom: Region
    ram: Region
    limit: int
    rom_bytes: bytes
    ram_bytes: bytes

    def flags(self) -> list[str]:
        """The options that say the same kind of case."""
        return ["--pc"] * self.pc_cell + ["--ram-code"] * self.ram_code

    def options(self) -> list[str]:
        """The options that say the same map, limit and kind."""
        return ["--rom", str(self.rom), "--ram", str(self.ram), "--limit", str(self.limit), *self.flags()]

    def trace_options(self) -> list[str]:
        """The same for `trace`, which has no `--pc`: its text does not depend on that."""
        return [word for word in self.options() if word != "--pc"]

    def sha256(self) -> str:
        """The SHA-256 of the card's bytes: two campaigns of one case have the same."""
        kind = KIND_OF[self.pc_cell, self.ram_code]
        numbers = (self.entry, self.rom.base, self.rom.size, self.ram.base, self.ram.size, self.limit)
        return hashlib.sha256(NUMBERS.pack(kind, *numbers) + self.rom_bytes + self.ram_bytes).hexdigest()

    def differences(self, other: Card) -> list[str]:
        """The settings that differ from those of another case, so that their counts cannot be compared."""
        pairs = {"limit": (self.limit, other.limit), "size of RAM": (self.ram.size, other.ram.size), "flags": (self.flags(), other.flags())}
        return [word for word, (one, another) in pairs.items() if one != another]

    def image(self) -> bytes:
        """An ELF executable that loads as this case: both regions as they are when a run begins."""
        identification = b"\x7fELF\x01\x01\x01" + bytes(9)
        parts = [(self.rom, self.rom_bytes), (self.ram, self.ram_bytes)]
        at = 52 + 32 * len(parts)
        headers = [struct.pack("<16sHHIIIIIHHHHHH", identification, 2, 243, 1, self.entry, 52, 0, 0, 52, 32, len(parts), 0, 0, 0)]
        for region, content in parts:
            headers.append(struct.pack("<8I", 1, at, region.base, region.base, region.size, region.size, 6, 4))
            at += len(content)
        return b"".join(headers) + self.rom_bytes + self.ram_bytes


class Batches:
    """Rows that were kept at once: for each batch, the position of the first one in the file, and their number."""

    def __init__(self) -> None:
        self.ats, self.rows = array("Q"), array("H")

    def add(self, at: int, rows: int) -> None:
        """Takes the next batch."""
        self.ats.append(at)
        self.rows.append(rows)

    def __len__(self) -> int:
        return len(self.ats)

    def __iter__(self) -> Iterator[tuple[int, int]]:
        """For each batch, the position of its first byte and that after its last byte."""
        for at, rows in zip(self.ats, self.rows):
            yield at, at + ROW.size * rows


@dataclass(frozen=True)
class CampaignFile:
    """The content of a file. Its rows are read when they are needed, because there may be millions."""

    card: Card
    batches: Batches
    content: bytes

    def rows(self) -> Iterator[tuple[int, int, int, int]]:
        """The rows in the order of the file: cycle, cell, bit, outcome."""
        whole = memoryview(self.content)
        for start, end in self.batches:
            for cycle, cell, bit, outcome in ROW.iter_unpack(whole[start:end]):
                yield cycle, cell, bit, outcome

    def rows_between(self, start: int, end: int) -> Iterator[Placed]:
        """The rows from one position in the file to below another, each with its own position before its outcome."""
        whole = memoryview(self.content)
        for number in range(bisect.bisect_right(self.batches.ats, start) - 1, len(self.batches)):
            first = max(start, self.batches.ats[number])
            last = min(end, self.batches.ats[number] + ROW.size * self.batches.rows[number])
            if first >= end:
                return
            for place, (cycle, cell, bit, outcome) in zip(range(first, last, ROW.size), ROW.iter_unpack(whole[first:last])):
                yield cycle, cell, bit, place, outcome

    def kept(self) -> dict[str, int]:
        """The number of jobs with each outcome, and of jobs with only a row of an older version. A repeated row
        counts once; `run` writes the rows of a job list in order, so rows that ascend need no memory."""
        counts, last = [0] * (LAST_BYTE + 1), (-1, 0, 0)
        for cycle, cell, bit, outcome in self.rows():
            if (cycle, cell, bit) <= last:
                return self.kept_once()
            last = (cycle, cell, bit)
            counts[outcome] += 1
        return by_name(counts)

    def kept_once(self) -> dict[str, int]:
        """The same for rows in any order, or the first two that disagree: all ascending runs of rows are merged into
        one."""
        starts = self.starts_of_runs()
        if len(starts) > MOST_RUNS and sum(self.batches.rows) > MOST_UNORDERED:
            raise Refusal(f"more than {MOST_UNORDERED} rows that are in no order")
        ends = [*starts[1:], len(self.content)]
        runs = [self.rows_between(*pair) for pair in zip(starts, ends)] if len(starts) <= MOST_RUNS else []
        rows = heapq.merge(*runs) if runs else iter(sorted(self.rows_between(starts[0], len(self.content))))
        counts, conflict = [0] * (LAST_BYTE + 1), None
        for _, group in itertools.groupby(rows, key=lambda row: row[:3]):
            outcome, found = outcome_of(group)
            counts[outcome] += 1
            conflict = min(filter(None, (conflict, found)), default=None)
        if conflict is not None:
            raise Refusal(f"5 Conflict at {conflict[1]} and {conflict[0]}: two rows say another outcome of the same site")
        return by_name(counts)

    def ordered(self) -> Iterator[tuple[int, int, int, int]]:
        """The rows in the order cycle, cell, bit, one for each site. A site with only an old trap keeps the byte of
        that."""
        if not len(self.batches):
            return
        starts = self.starts_of_runs()
        if len(starts) > MOST_RUNS:
            raise Refusal(f"rows in more than {MOST_RUNS} runs that ascend")
        runs = [self.rows_between(*pair) for pair in zip(starts, [*starts[1:], len(self.content)])]
        for (cycle, cell, bit), group in itertools.groupby(heapq.merge(*runs), key=lambda row: row[:3]):
            yield cycle, cell, bit, outcome_of(group)[0]

    def starts_of_runs(self) -> array[int]:
        """The positions at which the ascending runs of rows begin."""
        starts, last = array("Q"), None
        for cycle, cell, bit, place, _ in self.rows_between(self.batches.ats[0], len(self.content)):
            if last is None or (cycle, cell, bit) <= last:
                starts.append(place)
            last = (cycle, cell, bit)
        return starts


def outcome_of(rows: Iterable[Placed]) -> tuple[int, tuple[int, int] | None]:
    """The outcome that the rows of a site give: a kind of trap rather than an old trap. If two of them disagree, the
    position of the later one and that of the first one that it disagrees with."""
    firsts: dict[int, int] = {}  # of each outcome its first place
    conflict = None
    for *_, place, outcome in rows:
        against = [earlier for known, earlier in firsts.items() if not agree(known, outcome)]
        if against and conflict is None:
            conflict = (place, min(against))
        firsts.setdefault(outcome, place)
    return next((outcome for outcome in firsts if outcome != OLD_TRAP_BYTE), OLD_TRAP_BYTE), conflict


def by_name(counts: list[int]) -> dict[str, int]:
    """Counts by the words for outcomes, from counts by the bytes of rows: in the order of a report, with old traps at
    the end."""
    return {name: counts[byte] for byte, name in NAMES.items()}


def agree(one: int, other: int) -> bool:
    """Whether two rows of one site may have these bytes: an old trap is any of the three kinds."""
    return one == other or {one, other} in [{OLD_TRAP_BYTE, kind} for kind in TRAP_BYTES]


def is_campaign(content: bytes | bytearray) -> bool:
    """Whether a file was begun as a campaign file, sound or not."""
    return content[1:8] == NAME


def read(path: str) -> CampaignFile:
    """The campaign file of this name, or the refusal that names it."""
    try:
        return parsed(path)
    except OSError as error:
        raise Refusal(f"{path}: {error.strerror}") from None
    except Refusal as refusal:
        raise Refusal(f"{path}: {refusal}") from None


def parsed(path: str) -> CampaignFile:
    """The same, with refusals that do not name it."""
    with regular.opened(path) as file:
        return parse(bytes_up_to_gate(file))


def bytes_up_to_gate(file: IO[bytes]) -> bytes:
    """The bytes of a file up to its first closed gate, or as far as they belong to a campaign file. Later bytes are
    not read."""
    content = bytearray()

    def has(count: int) -> bool:
        if count > MOST_BYTES:
            raise Refusal(f"a campaign file of more than {MOST_BYTES} bytes")
        content.extend(file.read(max(0, count - len(content))))
        return len(content) >= count

    if has(CARD_AT) and content[0] == OPEN and is_campaign(content):
        gate = CARD_AT + int.from_bytes(content[9:CARD_AT], "little")
        while has(gate + 3) and content[gate] == OPEN:
            gate += 3 + ROW.size * int.from_bytes(content[gate + 1 : gate + 3], "little")
    return bytes(content)


def parse(content: bytes) -> CampaignFile:
    """The content of these bytes, or the refusal for the first reason."""
    if not content:
        raise Refusal("an empty file, which keeps nothing yet")
    if content[0] != OPEN and is_campaign(content):
        raise Refusal("1 NotACampaign: its creation was interrupted; `run --fresh` starts it again")
    if content[0] != OPEN or not is_campaign(content):
        raise Refusal("1 NotACampaign: it does not begin as a campaign file")
    if content[8:9] not in (b"", bytes([VERSION])):
        raise Refusal(f"2 Version: it has version {content[8]}, and this reader knows {VERSION}")
    gate = CARD_AT + int.from_bytes(content[9:CARD_AT], "little")
    if len(content) < CARD_AT or len(content) <= gate:
        raise Refusal(f"3 Cut: it ends at byte {len(content)}, before the first batch")
    card, batches = card_of(content[CARD_AT:gate]), batches_of(content, gate)
    for start, end in batches:
        look_at_outcomes(content, start, end)
    return CampaignFile(card, batches, content)


def card_of(card: bytes) -> Card:
    """The case that a card describes."""
    if len(card) < NUMBERS.size:
        raise Refusal(f"its card has {len(card)} bytes, and the numbers alone take {NUMBERS.size}")
    kind, entry, rom_base, rom_size, ram_base, ram_size, limit = NUMBERS.unpack_from(card)
    if kind not in KINDS:
        raise Refusal(f"its card is of kind {kind}, and this reader knows {min(KINDS)} to {max(KINDS)}")
    if len(card) != NUMBERS.size + rom_size + ram_size:
        raise Refusal(f"its card has {len(card)} bytes, but says that ROM has {rom_size} and RAM {ram_size}")
    rom_bytes, ram_bytes = card[NUMBERS.size : NUMBERS.size + rom_size], card[NUMBERS.size + rom_size :]
    return Card(*KINDS[kind], entry, Region(rom_base, rom_size), Region(ram_base, ram_size), limit, rom_bytes, ram_bytes)


def batches_of(content: bytes, gate: int) -> Batches:
    """All batches from a gate on that have rows, each checked to be complete and to have only valid outcomes."""
    batches = Batches()
    while True:
        if gate >= len(content):
            raise Refusal(f"3 Cut: it ends at byte {len(content)}, before the gate of the next batch")
        if content[gate] != OPEN:
            return batches
        at, rows = gate + 3, int.from_bytes(content[gate + 1 : gate + 3], "little")
        gate = at + ROW.size * rows
        if len(content) <= gate:
            raise Refusal(f"3 Cut: it ends at byte {len(content)}, within a batch that goes to {gate}")
        if rows:
            batches.add(at, rows)


def look_at_outcomes(content: bytes, start: int, end: int) -> None:
    """Refuses a batch with an invalid outcome."""
    outcomes = content[start + ROW.size - 1 : end : ROW.size]
    if max(outcomes) > LAST_BYTE:
        place = next(place for place, outcome in enumerate(outcomes) if outcome > LAST_BYTE)
        known = f"this reader knows 0 to {LAST_BYTE}"
        raise Refusal(f"4 BadRow at {start + ROW.size * place}: it has outcome {outcomes[place]}, and {known}")
