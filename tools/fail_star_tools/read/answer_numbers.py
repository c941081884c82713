"""Conditions on the numbers of an answer: on bytes of the output, and on the value that a run halts with.

    near: output[0:2] as i16 within 2% of golden
    high: output as u32 > 5 and halt within 3 of golden

The manual page `fail_star-classes(5)` has the rules.
"""

from __future__ import annotations

import operator
import re
from collections.abc import Callable
from dataclasses import dataclass
from decimal import Decimal
from fractions import Fraction
from typing import TYPE_CHECKING, NamedTuple

from fail_star_tools.read.campaign_file import NUMBER, Refusal, number_of

if TYPE_CHECKING:
    from fail_star_tools.read.classes import Answer

LONGEST_PLACE = 100_000_000  # no place in an output is at or after this one
RELATIONS: dict[str, Callable[[int, int], bool]] = {
    "=": operator.eq,
    "!=": operator.ne,
    "<": operator.lt,
    "<=": operator.le,
    ">": operator.gt,
    ">=": operator.ge,
}
WITHIN, GOLDEN = "within", "golden"
VALUE = r"-?[0-9][0-9A-Za-z]*|golden"
CONDITION = re.compile(
    r"(?P<about>output|halt)(?:\[(?P<first>[0-9]{1,9}):(?P<end>[0-9]{1,9})\])?"
    r"(?:\s*as\s+(?P<type>[a-z0-9]+))?"
    rf"\s*(?:(?P<relation>[<>]=?|!?=)\s*(?P<value>{VALUE})"
    rf"|(?P<not>not\s+)?within\s+(?P<margin>[0-9]+(?:\.[0-9]+)?)(?P<percent>%)?\s+of\s+(?P<centre>{VALUE}))"
    r"(?![A-Za-z0-9])\s*",
    re.ASCII,
)
TYPE = re.compile("([ui])(8|16|32)(le|be)?", re.ASCII)
TYPES = "u8, i8, u16, i16, u32 or i32, with le (which may be left out) or be at the end"



class NumberType(NamedTuple):
    """How bytes are read as a number."""

    signed: bool
    width: int  # in bytes
    big_endian: bool = False

    def read(self, content: bytes) -> int:
        """The number of these bytes."""
        return int.from_bytes(content, "big" if self.big_endian else "little", signed=self.signed)

    def holds(self, number: int) -> bool:
        """Whether a number of this type can have the value."""
        half = 1 << (8 * self.width - 1)
        return -half <= number < half if self.signed else 0 <= number < 2 * half


@dataclass(frozen=True)
class NumberCondition:
    """A condition on a number of an answer. An answer that does not have the number does not meet it, negated or not."""

    first: int | None  # the place of the number's first byte in the output; None for the value of the halt
    type: NumberType
    relation: str  # one of RELATIONS, or WITHIN
    value: int | None  # without a value, that of the run without a fault is taken
    holds: bool = True  # of WITHIN
    margin: Fraction = Fraction(0)
    percent: bool = False

    def of(self, answer: Answer, outcome: str, golden: Answer) -> bool:
        """Whether an answer meets the condition."""
        del outcome
        wanted = self.value if self.value is not None else self.golden_number(golden)
        number = self.number(answer)
        if number is None:
            return False
        if self.relation != WITHIN:
            return RELATIONS[self.relation](number, wanted)
        margin = self.margin * abs(wanted) / 100 if self.percent else self.margin
        return (abs(number - wanted) <= margin) == self.holds

    def number(self, answer: Answer) -> int | None:
        """The number of an answer, if it has it: it sent all its bytes, or halted."""
        if self.first is None:
            word, _, value = answer.end.partition(" ")
            return self.type.read(int(value).to_bytes(4, "little")) if word == "halted" else None
        content = answer.output[self.first : self.first + self.type.width]
        return self.type.read(content) if len(content) == self.type.width else None

    def golden_number(self, golden: Answer) -> int:
        """The number of the run without a fault, or the refusal of one that does not send all its bytes."""
        number = self.number(golden)
        if number is None:
            end = (self.first or 0) + self.type.width
            raise Refusal(f"output[{self.first}:{end}]: the run without a fault sends {len(golden.output)} bytes")
        return number


def condition_at(text: str, at: int) -> tuple[NumberCondition, int] | None:
    """The condition that begins at a place of a line, and the place after it, if there is one."""
    match = CONDITION.match(text, at)
    if match is None or is_plain(match):
        return None
    relation = match["relation"] or WITHIN
    first, kind = number_place(match)
    value = value_of(match["value"] or match["centre"], kind)
    margin = Fraction(Decimal(match["margin"])) if match["margin"] else Fraction(0)
    return NumberCondition(first, kind, relation, value, not match["not"], margin, bool(match["percent"])), match.end()


def is_plain(match: re.Match[str]) -> bool:
    """Whether a condition compares a whole output, or the value of a halt, without a type: those have a form of their own."""
    return not match["type"] and not match["first"] and match["relation"] in ("=", "!=")


def number_place(match: re.Match[str]) -> tuple[int | None, NumberType]:
    """The place and the type of a condition's number."""
    if match["about"] == "halt":
        if match["first"]:
            raise Refusal("expected halt without a range: it is one number of four bytes")
        kind = type_of(match["type"] or "u32")
        if kind.width != 4 or kind.big_endian:
            raise Refusal(f"expected halt as u32 or i32, found {match['type']!r}")
        return None, kind
    if match["type"] is None:
        raise Refusal(f"expected a type after output, such as output[0:2] as i16: {TYPES}")
    kind = type_of(match["type"])
    first = int(match["first"] or 0)
    end = int(match["end"]) if match["end"] else kind.width
    if end - first != kind.width or end > LONGEST_PLACE:
        raise Refusal(f"output[{first}:{end}] as {match['type']}: expected a range of {kind.width} bytes")
    return first, kind


def type_of(word: str) -> NumberType:
    """The type that a word names."""
    match = TYPE.fullmatch(word)
    if match is None:
        raise Refusal(f"expected {TYPES}, found {word[:60]!r}")
    return NumberType(match[1] == "i", int(match[2]) // 8, match[3] == "be")


def value_of(word: str, kind: NumberType) -> int | None:
    """The number that a word gives, None for that of the run without a fault."""
    if word == GOLDEN:
        return None
    digits = word.removeprefix("-")
    if not NUMBER.fullmatch(digits):
        raise Refusal(f"expected golden or a number, decimal or hexadecimal, found {word[:60]!r}")
    number = -number_of(digits) if word.startswith("-") else number_of(digits)
    if not kind.holds(number):
        raise Refusal(f"{word} is no number of the type: no answer can have it")
    return number
