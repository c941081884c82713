"""Reads a file of answer classes: a text, kept beside the source, that names the answers of a program's runs.

    # What the boot check answers. A run is in the first class whose conditions hold, or in the class `rest`.
    opened: output ~ /^B$/ and halt = 45063
    refused: output ~ /BAD/
    of silent + detected

The manual page `fail_star-classes(5)` has the rules.
"""

from __future__ import annotations

import re
from collections.abc import Iterator
from dataclasses import dataclass
from typing import NamedTuple

from fail_star_tools.read import answer_numbers, regular
from fail_star_tools.read.answer_numbers import NumberCondition
from fail_star_tools.read.campaign_file import OUTCOMES, NUMBER, Refusal, number_of
from fail_star_tools.read.refusals import naming

REST = "rest"
SHOWN = 32  # the most bytes of an output in a text
LONGEST, MOST_CLASSES = 100_000, 50
NAME = r"[a-z][a-z-]{0,30}"
TAKEN = {*OUTCOMES, "trap", "instructions", "sites", "live-sites"}  # words of a report, which cannot name a class
CLASS = re.compile(rf"({NAME})\s*:\s*(.*)", re.ASCII)
OF = re.compile(r"of\s+([a-z-]+(?:\s*\+\s*[a-z-]+)*)", re.ASCII)
CONDITION = re.compile(
    r"(?:(?P<text>output)\s*(?P<like>!?~)\s*/(?P<pattern>(?:[^/\\]|\\.)*)/"
    r"|(?P<word>output|halt|end|outcome)\s*(?P<relation>!?=)\s*(?P<value>[A-Za-z0-9-]+))\s*",
    re.ASCII,
)
AND = re.compile(r"and\s+", re.ASCII)
ENDS = ("halted", "detected", "trapped", "limit")
MANNER = "NAME: CONDITION [and CONDITION ..], `of OUTCOME [+ OUTCOME ..]` or `rest`"


class Answer(NamedTuple):
    """What a run sent, and how it ended: as `fail_replay` writes it, such as `halted 0` or `trapped`."""

    output: bytes
    end: str

    @property
    def text(self) -> str:
        """The bytes as text if all are printable, and otherwise in hexadecimal, as `trace` writes them."""
        some = self.output[:SHOWN]
        more = f".. ({len(self.output)} bytes)" if len(self.output) > SHOWN else ""
        printable = all(0x20 <= byte < 0x7F and byte != 0x22 for byte in self.output)
        return (f'"{some.decode("latin-1")}"' if printable else some.hex()) + more if some else "nothing"


@dataclass(frozen=True)
class Condition:
    """A condition on an answer."""

    about: str  # output, halt, end or outcome
    holds: bool
    pattern: re.Pattern[str] | None = None
    value: str | None = None  # without a value, that of the run without a fault is taken

    def of(self, answer: Answer, outcome: str, golden: Answer) -> bool:
        """Whether an answer meets the condition."""
        return self.equal(answer, outcome, golden) == self.holds

    def equal(self, answer: Answer, outcome: str, golden: Answer) -> bool:
        """The same without the negation."""
        if self.pattern is not None:
            return self.pattern.search(answer.output.decode("latin-1")) is not None
        if self.about == "output":
            return answer.output == (golden.output if self.value is None else bytes.fromhex(self.value))
        if self.about == "halt":
            return answer.end == (golden.end if self.value is None else f"halted {self.value}")
        return (answer.end.split()[0] if self.about == "end" else outcome) == self.value


@dataclass(frozen=True)
class Class:
    """A class with its conditions, all of which must hold."""

    name: str
    conditions: tuple[Condition | NumberCondition, ...] = ()


@dataclass(frozen=True)
class Classes:
    """All classes in their order, `rest` as the last, and the outcomes whose sites are put into them."""

    classes: tuple[Class, ...]
    outcomes: tuple[str, ...] = ("silent",)

    @property
    def names(self) -> list[str]:
        """The names in their order."""
        return [one.name for one in self.classes]

    def of(self, answer: Answer, outcome: str, golden: Answer) -> str:
        """The class of an answer: the first one whose conditions hold."""
        found = (one.name for one in self.classes if all(each.of(answer, outcome, golden) for each in one.conditions))
        return next(found)

    @property
    def title(self) -> str:
        """The outcomes whose sites are put into classes, as text."""
        return " + ".join(self.outcomes)


# --- Reading --------------------------------------------------------------------------------------


def read(path: str) -> Classes:
    """The classes of a file, or the refusal that names it."""
    with naming(path, MANNER):
        with regular.opened(path) as file:
            content = file.read(LONGEST + 1)
        if len(content) > LONGEST:
            raise Refusal(f"a file of classes of more than {LONGEST} bytes")
        return parse(content.decode("utf-8"))


def parse(text: str) -> Classes:
    """The classes of a text, or the refusal of its first invalid line."""
    classes: list[Class] = []
    outcomes: tuple[str, ...] = ("silent",)
    ended = False
    for number, line in enumerate(text.splitlines(), 1):
        written = line.strip()
        if not written or written.startswith("#"):
            continue
        try:
            if ended:
                raise Refusal(f"expected nothing after `{REST}`, found {written[:60]!r}")
            if written == REST:
                ended = True
            elif match := OF.fullmatch(written):
                outcomes = outcomes_of(match[1])
            else:
                classes.append(class_of(written, [one.name for one in classes]))
        except Refusal as refusal:
            raise Refusal(f"line {number}: {refusal}") from None
    if not classes:
        raise Refusal(f"expected {MANNER}, found no class")
    return Classes((*classes, Class(REST)), outcomes)


def outcomes_of(words: str) -> tuple[str, ...]:
    """The outcomes of an `of` line, in the order of a report."""
    found = [word.strip() for word in words.split("+")]
    for word in found:
        if word not in OUTCOMES or found.count(word) > 1:
            raise Refusal(f"expected outcomes, each once, of {', '.join(OUTCOMES)}, found {word[:60]!r}")
    return tuple(word for word in OUTCOMES if word in found)


def class_of(written: str, before: list[str]) -> Class:
    """The class that a line defines."""
    match = CLASS.fullmatch(written)
    if match is None:
        raise Refusal(f"expected {MANNER}, found {written[:60]!r}")
    name = match[1]
    if name in TAKEN or name in before or name == REST:
        raise Refusal(f"expected a name that no other class and no outcome has, found {name!r}")
    if len(before) + 1 == MOST_CLASSES:
        raise Refusal(f"expected at most {MOST_CLASSES - 1} classes")
    return Class(name, tuple(conditions_of(match[2])))


def conditions_of(text: str) -> Iterator[Condition | NumberCondition]:
    """The conditions of a class."""
    at = 0
    while True:
        condition, at = condition_at(text, at)
        yield condition
        if at == len(text):
            return
        joined = AND.match(text, at)
        if joined is None:
            raise Refusal(f"expected `and` or the end of the line, found {text[at : at + 60]!r}")
        at = joined.end()


def condition_at(text: str, at: int) -> tuple[Condition | NumberCondition, int]:
    """The condition that begins at a place of a line, and the place after it."""
    of_number = answer_numbers.condition_at(text, at)
    if of_number is not None:
        return of_number
    match = CONDITION.match(text, at)
    if match is None:
        found = text[at : at + 60]
        raise Refusal(f"expected a condition such as output ~ /BAD/ or halt = 45063, found {found!r}")
    return condition_of(match), match.end()


def condition_of(match: re.Match[str]) -> Condition:
    """The condition of a match."""
    if match["text"]:
        try:
            return Condition(
                "output", match["like"] == "~", re.compile(match["pattern"].replace("\\/", "/"), re.DOTALL)
            )
        except (re.error, RecursionError, OverflowError) as error:
            raise Refusal(f"/{match['pattern'][:60]}/: {error}") from None
    about, value = match["word"], match["value"]
    if about == "output" and value != "golden" and (len(value) % 2 or not re.fullmatch("[0-9a-f]+", value)):
        raise Refusal(f"expected golden or bytes in lower-case hexadecimal digits, found {value[:60]!r}")
    if about == "halt" and value != "golden":
        if not NUMBER.fullmatch(value):
            raise Refusal(f"expected golden or a number, decimal or hexadecimal, found {value[:60]!r}")
        value = str(number_of(value))
    if about == "end" and value not in ENDS:
        raise Refusal(f"expected one of {', '.join(ENDS)}, found {value[:60]!r}")
    if about == "outcome" and value not in OUTCOMES:
        raise Refusal(f"expected one of {', '.join(OUTCOMES)}, found {value[:60]!r}")
    return Condition(about, match["relation"] == "=", None, None if value == "golden" else value)


def opened(pattern: str | None, end: str | None) -> Classes:
    """The classes of the short form --open and --end: a run is in the class `opened` if its output matches and it
    halts with the value."""
    conditions = [Condition("output", True, re.compile(pattern, re.DOTALL))] if pattern is not None else []
    conditions += [Condition("halt", True, value=end)] if end is not None else []
    return Classes(
        (Class("opened", tuple(conditions)), Class("other output", (Condition("output", False),)), Class("same output"))
    )
