"""Reads which variables and parameters of functions are on the stack, from the debugging information of an image that
was built with -g.

A variable is at an offset from the base of its function's frame (DW_OP_fbreg), or from sp; the base is sp at the
call, DWARF's CFA, or the value of sp itself. Variables whose place is computed in another way are omitted.
"""

from __future__ import annotations

from bisect import bisect_right
from dataclasses import dataclass, field
from typing import NamedTuple

from fail_star_tools.read import debug_entries
from fail_star_tools.read.campaign_file import Refusal
from fail_star_tools.read.debug_entries import WHAT, Entry, Reference, StringIndex, Unit, Value
from fail_star_tools.read.elf_image import Image
from fail_star_tools.read.line_table import Bytes
from fail_star_tools.read.range_lists import Lists
from fail_star_tools.words import printable

ARRAY, PARAMETER, LEXICAL_BLOCK, POINTER, REFERENCE, COMPILE_UNIT, TYPEDEF = 0x01, 0x05, 0x0B, 0x0F, 0x10, 0x11, 0x16
VARIADIC, INLINED, SUBRANGE, CONST, SUBPROGRAM, VARIABLE, VOLATILE = 0x18, 0x1D, 0x21, 0x26, 0x2E, 0x34, 0x35
RESTRICT, RVALUE, ATOMIC = 0x37, 0x42, 0x47
LOCATION, NAME, BYTE_SIZE, LOW_PC, HIGH_PC, UPPER_BOUND, ORIGIN, COUNT = 0x02, 0x03, 0x0B, 0x11, 0x12, 0x2F, 0x31, 0x37
FRAME_BASE, SPECIFICATION, TYPE, RANGES = 0x40, 0x47, 0x49, 0x55
WANTED = frozenset(
    (LOCATION, NAME, BYTE_SIZE, LOW_PC, HIGH_PC, UPPER_BOUND, ORIGIN, COUNT, FRAME_BASE, SPECIFICATION, TYPE, RANGES)
)
TRANSPARENT = (TYPEDEF, CONST, VOLATILE, RESTRICT, ATOMIC)
CALL_FRAME_CFA, REGISTER_SP, REGISTER_FP, FROM_BASE, FROM_SP = 0x9C, 0x52, 0x58, 0x91, 0x72
POINTER_SIZE, LARGEST = 4, 65_536  # bytes: of a pointer, and of a variable, which RAM has room for
MOST_STEPS = 32  # from a type to the one that it is made of
MOST_PLACES = 10_000  # of the variables of a function
CFA, SP, FP = "cfa", "sp", "fp"

Ranges = list[tuple[int, int]]


class Offsets(NamedTuple):
    """Bytes from the base of a frame or from sp: the first one, and the one after the last."""

    base: str
    begin: int
    end: int


class Place(NamedTuple):
    """The place of a variable within a range of addresses."""

    first: int
    last: int
    bytes: Offsets


class Found(NamedTuple):
    """A variable or a parameter with its places, and the depth of its block."""

    name: str
    depth: int
    places: list[Place]


@dataclass
class Function:
    """A function with its variables."""

    ranges: Ranges
    base: str | None
    variables: list[Found] = field(default_factory=list)
    room: int = MOST_PLACES


class StackVariables:
    """The variables on the stack by an address of code."""

    def __init__(self, functions: list[Function]) -> None:
        ranges = ((first, last, function) for function in functions for first, last in function.ranges)
        rows = sorted(ranges, key=lambda row: row[:2])
        self.rows, self.firsts = rows, [first for first, _, _ in rows]

    def of(self, pc: int, from_base: int, from_sp: int) -> str | None:
        """The variable that has a byte, by the byte's offsets from the base of the frame and from sp, when the
        instruction at an address runs: if there are several, that of the innermost block."""
        at = bisect_right(self.firsts, pc) - 1
        if at < 0 or pc >= self.rows[at][1]:
            return None
        offsets = {CFA: from_base, SP: from_sp}
        found, deepest = None, -1
        for variable in self.rows[at][2].variables:
            if variable.depth >= deepest and any(has(place, pc, offsets) for place in variable.places):
                found, deepest = variable.name, variable.depth
        return found


def has(place: Place, pc: int, offsets: dict[str, int]) -> bool:
    """Whether a variable has a byte at this place."""
    offset = offsets[place.bytes.base]
    return place.first <= pc < place.last and place.bytes.begin <= offset < place.bytes.end


def variables_of(image: Image) -> StackVariables:
    """The variables on the stack of an image; none if it was built without -g."""
    sections, lists, functions = debug_entries.sections_of(image), Lists(image), []
    entries: dict[int, Entry] = {}
    bounds: dict[int, int] = {}
    parts: list[tuple[Unit, list[Entry]]] = []
    for unit, found in debug_entries.units_of(sections, WANTED):
        own = list(found)
        parts.append((unit, own))
        entries.update((entry.at, entry) for entry in own)
        array = None
        for entry in own:
            name = entry.values.get(NAME)
            if isinstance(name, StringIndex):
                entry.values[NAME] = unit.text(name)  # its number means something in this unit only
            if entry.tag == ARRAY:
                array = entry
            elif entry.tag == SUBRANGE and array is not None and entry.depth == array.depth + 1:
                bounds[array.at] = bounds.get(array.at, 1) * elements_of(entry)
    types = Types(entries, bounds)
    for unit, own in parts:
        functions += Reader(unit, lists, types).functions_in(own)
    return StackVariables(functions)


def elements_of(entry: Entry) -> int:
    """The number of elements in a dimension of an array, or 0 if it is computed."""
    count, bound = entry.values.get(COUNT), entry.values.get(UPPER_BOUND)
    number = bound + 1 if count is None and isinstance(bound, int) else count
    computed = isinstance(bound if count is None else count, Reference)
    return number if isinstance(number, int) and not computed and 0 < number <= LARGEST else 0


class Types:
    """The sizes of types, and the entries that others refer to, by their offsets."""

    def __init__(self, entries: dict[int, Entry], bounds: dict[int, int]) -> None:
        self.entries, self.bounds = entries, bounds

    def value(self, entry: Entry, attribute: int) -> Value | None:
        """An attribute of an entry, or of the one that it is an instance of."""
        for _ in range(MOST_STEPS):
            if attribute in entry.values:
                return entry.values[attribute]
            origin = entry.values.get(ORIGIN, entry.values.get(SPECIFICATION))
            if not isinstance(origin, int) or origin not in self.entries:
                return None
            entry = self.entries[origin]
        return None

    def size_of(self, entry: Entry) -> int:
        """The number of bytes of a variable, or 0 if it is not known or more than RAM has."""
        size, at = 1, self.value(entry, TYPE)
        for _ in range(MOST_STEPS):
            kind = self.entries.get(at) if isinstance(at, int) else None
            if kind is None:
                break
            own = kind.values.get(BYTE_SIZE)
            if isinstance(own, int):
                return within(size * own)
            if kind.tag in (POINTER, REFERENCE, RVALUE):
                return within(size * POINTER_SIZE)
            if kind.tag == ARRAY:
                size = within(size * self.bounds.get(kind.at, 0))
            elif kind.tag not in TRANSPARENT:
                break
            at = kind.values.get(TYPE)
        return 0


def within(size: int) -> int:
    """A number of bytes, or 0 if it is more than RAM has."""
    return size if size <= LARGEST else 0


class Reader:
    """Reads the functions of a unit."""

    def __init__(self, unit: Unit, lists: Lists, types: Types) -> None:
        self.unit, self.lists, self.types = unit, lists, types

    def functions_in(self, entries: list[Entry]) -> list[Function]:
        """The functions with addresses, each with the variables of all its blocks."""
        functions: list[Function] = []
        scopes: list[tuple[int, Ranges | None]] = []  # the blocks that an entry is in: their depths and addresses
        inside = -1  # the depth of the function that an entry is in
        for entry in entries:
            while scopes and scopes[-1][0] >= entry.depth:
                scopes.pop()
            if entry.depth <= inside:
                inside = -1
            if entry.tag == COMPILE_UNIT:
                self.unit.low = self.unit.address(entry.values.get(LOW_PC, 0)) or 0
            elif entry.tag == SUBPROGRAM:
                ranges = self.ranges_of(entry)
                if ranges:
                    inside = entry.depth
                    functions.append(Function(ranges, base_of(entry.values.get(FRAME_BASE))))
                    scopes.append((entry.depth, ranges))
            elif inside >= 0 and functions:
                self.take(functions[-1], entry, scopes)
        return functions

    def take(self, function: Function, entry: Entry, scopes: list[tuple[int, Ranges | None]]) -> None:
        """Takes an entry of a function."""
        if entry.tag in (LEXICAL_BLOCK, INLINED):
            scopes.append((entry.depth, self.ranges_of(entry) or scopes[-1][1]))
        elif entry.tag == VARIADIC and function.base == FP:
            function.base = None  # the saved registers are between the frame pointer and the base
        elif entry.tag in (VARIABLE, PARAMETER):
            name = self.unit.text(self.types.value(entry, NAME))
            places = self.places_of(function, entry, scopes[-1][1] or function.ranges)
            function.room -= len(places)
            if function.room < 0:
                raise Refusal(f"{WHAT} of a function whose variables have more than {MOST_PLACES} places")
            if name and places:
                function.variables.append(Found(printable(name), entry.depth, places))

    def ranges_of(self, entry: Entry) -> Ranges:
        """The addresses of an entry."""
        low, high, ranges = (entry.values.get(attribute) for attribute in (LOW_PC, HIGH_PC, RANGES))
        if isinstance(ranges, int):
            return [(row.first, row.last) for row in self.lists.of(self.unit, ranges, False)]
        start = self.unit.address(low) if low is not None else None
        if start is None or not isinstance(high, int):
            return []
        end = self.unit.address(high)
        return [(start, start + high if end is None else end)]

    def places_of(self, function: Function, entry: Entry, scope: Ranges) -> list[Place]:
        """The places of a variable on the stack. A parameter that the caller put there, above the base, stays as long
        as the function runs."""
        location = entry.values.get(LOCATION)
        if isinstance(location, bytes):
            return [Place(*part, here) for here in self.place_of(function, entry, location) for part in scope]
        if not isinstance(location, int):
            return []
        places = []
        for row in self.lists.of(self.unit, location, True):
            for here in self.place_of(function, entry, row.location):
                stays = entry.tag == PARAMETER and here.base == CFA and here.begin >= 0
                places += [Place(*part, here) for part in (scope if stays else [(row.first, row.last)])]
        return places

    def place_of(self, function: Function, entry: Entry, location: bytes) -> list[Offsets]:
        """The base and the bytes of a location, if it is an offset from the frame's base or from sp and nothing
        else."""
        if len(location) < 2 or location[0] not in (FROM_BASE, FROM_SP):
            return []
        source = Bytes(location, 1, what=WHAT)
        begin = source.signed()
        base = SP if location[0] == FROM_SP else function.base
        size = self.types.size_of(entry)
        if source.at < source.end or base is None or size == 0:
            return []
        return [Offsets(CFA if base == FP else base, begin, begin + size)]


def base_of(value: Value | None) -> str | None:
    """The base of a function's frame, or None if it is computed in another way. A list of bases, which version 2 has
    instead of DW_OP_call_frame_cfa, says how the CFA follows from registers."""
    if isinstance(value, int):
        return CFA
    bases = {bytes([CALL_FRAME_CFA]): CFA, bytes([REGISTER_SP]): SP, bytes([REGISTER_FP]): FP}
    return bases.get(value) if isinstance(value, bytes) else None
