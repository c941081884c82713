"""Checks campaigns against a budget: a text beside the source that says how many sites may have which outcome.

BUDGET has one rule on each line, and comments after a #:

    silent <= 258                  # of all sites
    silent + timeout < 1000
    silent in check = 0            # sites that instructions of this function read
    silent in line boot.c:7 = 0    # sites of this source line; also: register, variable
    silent during function check = 0    # sites before instructions of this function
    silent during cycles 90..100 and code 0x20000000..0x20000040 = 0
    detected >= 10
    twice: silent <= 258           # only of the table called twice

The words of a rule are those of a report: outcomes, instructions and sites; with
--classes FILE also the names of its answer classes, as in opened = 0. A rule
without a name in front applies to each table. A rule with `in` needs a table of
jobs, its image, and the trace of the run without a fault, which --trace or the
program gives. Functions are those of the image's symbol table; code that the
compiler moved into another function counts for that function.

A rule with `during` is for a part of the run, as --function, --cycles and --code
name one: the sites that are flipped before its instructions. Only the jobs of
the part need to be kept. The options name the part of all other rules.

A TABLE is a campaign file, for which the program writes the table, or what
`fail_star run` or `fail_star report` wrote, as text, JSON or csv. Its image may
precede it, with a comma. It is called after its file, or by a name before a =.
A csv has only the sites that are read: with --ram BASE:SIZE or --keep the others
are counted too. A csv that was cut looks like a shorter run; with a trace, or
with an image and the program, this is noticed.

The exit status is 0 if all rules hold, 1 if one does not, and 2 if they could
not be checked: a line is not a valid rule, the image lacks a function or the
table a word that a rule names, or a file is not a table.
"""

from __future__ import annotations

import argparse
import hashlib
import operator
import os
import re
import shutil
import stat
import tempfile
from collections.abc import Callable, Iterator
from contextlib import ExitStack, contextmanager
from dataclasses import dataclass, field, replace
from typing import IO

from fail_star_tools.command_line import Parser
from fail_star_tools.count import check_alerts, check_files, classed, places, reports
from fail_star_tools.count.reports import LONGEST_REPORT, parts_of
from fail_star_tools.count.text_table import aligned
from fail_star_tools.count.places import Asked, Campaign, mixed_up
from fail_star_tools.known import known
from fail_star_tools.read import campaign_file, job_table, linked_ram, parts, regular
from fail_star_tools.read.campaign_file import CampaignFile, Card, Refusal, Region
from fail_star_tools.read.classes import Classes
from fail_star_tools.read.digest import sha256_of
from fail_star_tools.read.job_table import HEADER
from fail_star_tools.read.parts import Part, Span
from fail_star_tools.read.refusals import naming
from fail_star_tools.run import whole_file
from fail_star_tools.run.answer_runs import Replays
from fail_star_tools.words import complain, printable, put

RELATIONS: dict[str, Callable[[int, int], bool]] = {
    "<=": operator.le, ">=": operator.ge, "<": operator.lt, ">": operator.gt, "=": operator.eq,
}  # fmt: skip
WORD = "[a-z][a-z-]{0,30}"
PLACES = ("function", "line", "register", "variable")
CONDITION = r"(?:cycles|code|function)\s+[^\s<>=]\S*"
RULE = re.compile(
    rf"(?:(?P<table>\S+):\s+)?(?P<words>{WORD}(?:\s*\+\s*{WORD})*)(?:\s+in\s+(?:(?P<kind>{'|'.join(PLACES)})\s+)?(?P<function>[^\s<>=]\S*))?"
    rf"(?:\s+during\s+(?P<part>{CONDITION}(?:\s+and\s+{CONDITION})*))?"
    r"\s*(?P<relation><=|>=|<|>|=)\s*(?P<number>[0-9]{1,18})",
    re.ASCII,
)
LONGEST_BUDGET, MOST_RULES = 1_000_000, 10_000
SOURCES = "a folder of source files, for the paths of alerts (default: the current folder and that of the image)"
MANNER = "a rule such as silent <= 258 or silent + timeout in check = 0"


# --- The budget -----------------------------------------------------------------------------------


@dataclass(frozen=True)
class Rule:
    """A line of the budget: what is counted of which table, and how many there may be."""

    line: int
    text: str
    table: str | None
    words: list[str]
    kind: str  # of the place; a function if the rule names no kind
    function: str | None  # the place
    relation: str
    number: int
    part: Part | None = None

    @property
    def left(self) -> str:
        """The left side of the rule."""
        kind = "" if self.kind == "function" else f"{self.kind} "
        place = f" in {kind}{self.function}" if self.function else ""
        return " + ".join(self.words) + place + (f" during {words_of(self.part)}" if self.part is not None else "")

    def holds(self, found: int) -> bool:
        """Whether the rule allows this number."""
        return RELATIONS[self.relation](found, self.number)


def rules_of(text: str) -> list[Rule]:
    """The rules of a budget. The first line that is not a rule is refused."""
    rules = []
    for number, line in enumerate(text.splitlines(), 1):
        written = " ".join(line.partition("#")[0].split())
        if not written:
            continue
        match = RULE.fullmatch(written)
        if match is None:
            raise Refusal(f"line {number}: expected {MANNER}, found {written[:60]!r}")
        words = [word.strip() for word in match["words"].split("+")]
        if len(set(words)) < len(words):
            raise Refusal(f"line {number}: a word is repeated: {written[:60]!r}")
        place = match["kind"] or "function", match["function"]
        part = part_of(number, match["part"]) if match["part"] else None
        rules.append(Rule(number, written, match["table"], words, *place, match["relation"], int(match["number"]), part))
        if len(rules) > MOST_RULES:
            raise Refusal(f"line {number}: more than {MOST_RULES} rules")
    if not rules:
        raise Refusal(f"expected {MANNER}, found none")
    return rules


def part_of(number: int, text: str) -> Part:
    """The part of the run that a rule names."""
    part = Part()
    for condition in re.split(r"\s+and\s+(?=(?:cycles|code|function)\s)", text):
        kind, name = condition.split()
        if getattr(part, kind) is not None:
            raise Refusal(f"line {number}: {kind} is repeated: {text[:60]!r}")
        try:
            part = replace(part, **{kind: name if kind == "function" else Span.of(name)})
        except Refusal as refusal:
            raise Refusal(f"line {number}: {refusal}") from None
    return part


def words_of(part: Part) -> str:
    """A part as a rule names it."""
    pairs = zip(part.options[::2], part.options[1::2])
    return " and ".join(f"{option.removeprefix('--')} {value}" for option, value in pairs)


def read_budget(path: str) -> tuple[bytes, list[Rule]]:
    """The bytes of a budget, and its rules."""
    content = bytes_of(path)
    with naming(path, MANNER):
        return content, rules_of(content.decode("utf-8"))


def bytes_of(path: str) -> bytes:
    """All of a budget, or of standard input."""
    try:
        with regular.opened_or_input(path) as file:
            content = file.read(LONGEST_BUDGET + 1)
    except OSError as error:
        raise Refusal(f"{path}: {error.strerror}") from None
    if len(content) > LONGEST_BUDGET:
        raise Refusal(f"{path}: a budget of more than {LONGEST_BUDGET} bytes")
    return content


# --- Tables ---------------------------------------------------------------------------------------


@dataclass(frozen=True)
class Named:
    """A table's name and files, as the words have them."""

    name: str
    image: str | None
    table: str
    trace: str | None = None
    keep: str | None = None


@dataclass
class Measured:
    """A table with its counts, by the words of a report; a table of jobs also has its campaign."""

    named: Named
    digest: str  # SHA-256 of the table
    kind: str
    counts: dict[str, int]
    campaign: Campaign | None = None
    card: Card | None = None
    classes: dict[str, int] = field(default_factory=dict)  # the sites by answer classes, if the command line asks for them
    part: Part | None = None  # of the run, if not all sites are counted

    @property
    def title(self) -> str:
        """The name of the table, with the part."""
        return self.named.name if self.part is None else f"{self.named.name} during {words_of(self.part)}"

    def number_of(self, rule: Rule) -> int:
        """The number that a rule is about."""
        if rule.function is not None:
            return self.number_in(rule)
        return sum(self.count_of(word) for word in rule.words)

    def count_of(self, word: str) -> int:
        """The count of a word."""
        if word in self.classes:
            return self.classes[word]
        complaint = mixed_up(word, self.counts)
        if complaint is not None:
            raise Refusal(complaint)
        if word in self.counts:
            return self.counts[word]
        if self.campaign is not None and word in ("no-effect", "sites"):
            raise Refusal(f"counting {word} needs --ram BASE:SIZE or --keep FILE, because dead sites have no line in a csv")
        raise Refusal(f"the table has no count of {word}; it has {', '.join([*self.counts, *self.classes])}")

    def number_in(self, rule: Rule) -> int:
        """The sites with a rule's outcomes that the instructions of its function read."""
        if self.campaign is None:
            raise Refusal(f"counting in {rule.function} needs a table of jobs: report --format csv, or a campaign file")
        if rule.kind in self.campaign.lacking:
            raise Refusal(f"counting in {rule.function}: {self.campaign.lacking[rule.kind]}")
        if rule.kind == "variable" and self.campaign.image is None:
            raise Refusal(f"counting in {rule.function}: the image is needed")
        place = known(rule.function)
        is_there = known(self.campaign.image).is_function(place) if rule.kind == "function" else self.campaign.has_place(rule.kind, place)
        if not is_there:
            raise Refusal(f"{'there is' if rule.kind == 'register' else 'the image has'} no {rule.kind} {rule.function}")
        for word in rule.words:
            if word in ("no-effect", "sites", "instructions"):
                raise Refusal(f"{word} is not counted by functions")
            self.count_of(word)
        if rule.kind != "function":
            return self.campaign.sites_in(rule.kind, place, rule.words)
        return sum(self.campaign.sites_by("instruction", rule.words, rule.function).values())


def with_classes(table: Measured, wanted: Classes, by: Replays, asked: Asked) -> Measured:
    """A table with the sites of each answer class."""
    if table.campaign is None:
        raise Refusal(f"{table.named.table}: a report does not have answers: --classes needs a campaign file or a table of jobs")
    found = classed.classed(table.campaign, table.named.image, wanted, by, options_of(asked, table.card))
    return replace(table, classes=found.counts())


def measured(named: Named, asked: Asked) -> Measured:
    """Reads a table of whatever kind."""
    asked = replace(asked, trace=named.trace)
    if job_table.is_campaign(named.table):
        campaign = places.read(named.image, named.table, asked)
        digest, counts = sha256_of(named.table), places.counts_of(campaign)
        return Measured(named, digest, "campaign file", counts, campaign, campaign.card, part=asked.part)
    kept = campaign_file.read(named.keep) if named.keep else None
    card = kept.card if kept is not None else None
    if card is not None:
        asked.look_at(card, known(named.keep))
    try:
        with opened(named.table) as file:
            found = measured_text(named, file, options_of(asked, card), card)
    except OSError as error:
        raise Refusal(f"{named.table}: {error.strerror}") from None
    if kept is not None and asked.part is None:
        look_at_rows(kept, found)
    return replace(found, part=asked.part)


def look_at_rows(kept: CampaignFile, table: Measured) -> None:
    """Refuses a campaign file that does not keep each job of a table. In one that keeps none, an audit finds nothing
    wrong."""
    jobs = sum(kept.kept()[outcome] for outcome in campaign_file.OUTCOMES)
    wanted = table.campaign.jobs.number if table.campaign is not None else None  # a report does not have their number
    if jobs == 0 or wanted not in (None, jobs):
        of_table = "" if wanted is None else f", and the table has {wanted}"
        raise Refusal(f"{table.named.keep}: it keeps {jobs} jobs{of_table}: the table was not written from it")


@contextmanager
def opened(table: str) -> Iterator[IO[bytes]]:
    """A table's file. A table of jobs that can be read only once, such as standard input, is copied first."""
    with ExitStack() as stack:
        file = stack.enter_context(regular.opened_or_input(table))
        if table != "-" and stat.S_ISREG(os.fstat(file.fileno()).st_mode):
            yield file
            return
        copy = stack.enter_context(tempfile.TemporaryFile())
        first = file.read(LONGEST_REPORT)
        copy.write(first)
        if first.startswith(HEADER.encode()):
            shutil.copyfileobj(file, copy)
        copy.seek(0)
        yield copy


def measured_text(named: Named, file: IO[bytes], asked: Asked, card: Card | None) -> Measured:
    """A table that is text: of jobs, or a report."""
    first = file.read(LONGEST_REPORT)
    file.seek(0)
    if first.startswith(HEADER.encode()):
        digest = hashlib.sha256()
        while block := file.read(LONGEST_REPORT):
            digest.update(block)
        file.seek(0)
        campaign = places.read_table(named.image, named.table, regular.lines_of(file), asked)
        return Measured(named, digest.hexdigest(), "csv", places.counts_of(campaign), campaign, card)
    if asked.part is not None:
        raise Refusal(f"{named.table}: a report does not have jobs: a part of the run needs a campaign file or a table of jobs")
    try:
        counts = reports.counts_of(first.decode("ascii", "backslashreplace"))
        return Measured(named, hashlib.sha256(first).hexdigest(), "report", counts, None, card)
    except Refusal as refusal:
        raise Refusal(f"{'standard input' if named.table == '-' else named.table}: {refusal}") from None


def options_of(asked: Asked, card: Card | None) -> Asked:
    """The settings of the words, with the map, the limit and the flag of the campaign file that a table was written from."""
    return asked if card is None else replace(asked, rom=card.rom, ram=card.ram, limit=card.limit, ram_code=card.ram_code)


def tables_of(line: argparse.Namespace) -> list[Named]:
    """The tables that the words name, each with its trace and its campaign file."""
    tables = [Named(*parts_of(argument)) for argument in line.tables]
    names = [named.name for named in tables]
    twice = next((name for name in names if names.count(name) > 1), None)
    if twice is not None:
        raise Refusal(f"two tables are called {twice}; NAME=TABLE gives another name")
    traces, keeps = by_table("--trace", line.trace, names), by_table("--keep", line.keep, names)
    return [replace(named, trace=traces.get(named.name), keep=keeps.get(named.name)) for named in tables]


def by_table(option: str, words: list[str], names: list[str]) -> dict[str, str]:
    """The files of an option by the tables that they belong to; if there is only one table, its name may be missing."""
    files: dict[str, str] = {}
    for word in words:
        name, equals, file = word.partition("=")
        if not equals or name not in names:
            if len(names) > 1:
                raise Refusal(f"{option} {word}: expected NAME=FILE with the name of a table: {', '.join(names)}")
            name, file = names[0], word
        if name in files:
            raise Refusal(f"{option}: two files for {name}")
        files[name] = file
    return files


# --- Verdicts -------------------------------------------------------------------------------------


@dataclass(frozen=True)
class Verdict:
    """A rule with what was found in a table."""

    rule: Rule
    table: Measured
    found: int

    @property
    def holds(self) -> bool:
        """Whether the rule holds for the table."""
        return self.rule.holds(self.found)


def parts_for(named: Named, rules: list[Rule], said: Part | None) -> list[Part | None]:
    """The parts of the run for which a table is measured, each once: those of the rules, where None is the whole run."""
    found = [rule.part or said for rule in rules if rule.table in (None, named.name)] or [said]
    wanted = list(dict.fromkeys(found))
    if named.table == "-" and len(wanted) > 1:
        raise Refusal("standard input can be read only once, so all rules must be for the same part of the run")
    return wanted


def verdicts_of(budget: str, rules: list[Rule], tables: list[Measured], said: Part | None = None) -> list[Verdict]:
    """Each rule with each table that it is for, or the reason why one cannot be checked."""
    verdicts = []
    for rule in rules:
        of_part = [table for table in tables if table.part == (rule.part or said)]
        found = [table for table in of_part if rule.table in (None, table.named.name)]
        try:
            if not found:
                raise Refusal(f"no table is called {rule.table}")
            verdicts += [Verdict(rule, table, table.number_of(rule)) for table in found]
        except Refusal as refusal:
            raise Refusal(f"{budget}: line {rule.line}: {refusal}") from None
    return verdicts


def text_of(verdicts: list[Verdict], several: bool) -> str:
    """A line for each verdict; if there are several tables, with the name of its table."""
    heading = ("rule", *(["table"] if several else []), "found", "verdict")
    rows = [heading]
    for verdict in verdicts:
        table = [printable(verdict.table.named.name)] if several else []
        rows.append((printable(verdict.rule.text), *table, str(verdict.found), "holds" if verdict.holds else "broken"))
    return aligned(rows)


# --- The command line -----------------------------------------------------------------------------


def line_of(words: list[str]) -> argparse.Namespace:
    """The options and files that the words name."""
    parser = Parser("check", __doc__)
    parser.add_argument("budget", metavar="BUDGET", help="the file of rules")
    parser.add_argument("tables", nargs="+", metavar="[NAME=][IMAGE,]TABLE", help="a report, a csv or a campaign file; - is standard input")
    parser.add_argument("--junit", metavar="FILE", help="also writes the verdicts in JUnit's XML")
    parser.add_argument("--sarif", metavar="FILE", help="also writes the rules that do not hold in SARIF 2.1.0")
    parser.add_argument("--code-quality", metavar="FILE", help="also writes these rules as GitLab's Code Quality report")
    parser.add_argument("--markdown", metavar="FILE", help="also writes a summary in Markdown, as for GitHub")
    parser.add_argument("--sources", metavar="FOLDER", action="append", default=[], help=SOURCES)
    parser.add_argument("--receipt", metavar="FILE", help="also writes a record in JSON: digests, map and limit, counts, verdicts")
    parser.add_argument("--trace", action="append", default=[], metavar="[NAME=]FILE", help="the output of fail_star trace for the image")
    parser.add_argument("--keep", action="append", default=[], metavar="[NAME=]FILE", help="the campaign file that a table was written from")
    classed.add_options(parser)
    places.add_options(parser)
    parts.add_options(parser)
    line: argparse.Namespace = parser.parse_args(words)
    if [line.budget, *line.tables, *line.trace].count("-") > 1:
        parser.error("only one of the files can be standard input")
    files = (line.junit, line.sarif, line.code_quality, line.markdown, line.receipt)
    outputs = [path for path in files if path is not None]
    if len(set(outputs)) < len(outputs):
        parser.error("--junit, --sarif, --code-quality, --markdown and --receipt need different files")
    return line


def warn_of_ram(table: Measured) -> None:
    """Warns of a campaign whose RAM is not the one that its image was linked for."""
    if table.campaign is not None and table.campaign.ram.size is not None:
        ram = Region(known(table.campaign.ram.base), table.campaign.ram.size)
        linked_ram.warn("check", table.campaign.image, ram, table.named.name)


def answer(line: argparse.Namespace) -> tuple[str, bool]:
    """The text of all verdicts, and whether all rules hold. Files are written after all tables were checked."""
    content, rules = read_budget(line.budget)
    wanted = classed.asked_in(line)
    listed = wanted.outcomes if wanted is not None else ()
    part = parts.asked_in(line)
    asked = Asked(None, line.program, line.rom, line.ram, line.limit, line.ram_code, listed)
    named = tables_of(line)
    tables = [measured(one, replace(asked, part=wanted)) for one in named for wanted in parts_for(one, rules, part)]
    if wanted is not None:
        tables = [with_classes(table, wanted, classed.replays_in(line), asked) for table in tables]
    verdicts = verdicts_of(line.budget, rules, tables, part)
    for table in {one.named.name: one for one in tables}.values():
        warn_of_ram(table)
    write_files(line, content, asked, tables, verdicts, rules)
    return text_of(verdicts, len(named) > 1), all(verdict.holds for verdict in verdicts)


def write_files(
    line: argparse.Namespace,
    content: bytes,
    asked: Asked,
    tables: list[Measured],
    verdicts: list[Verdict],
    rules: list[Rule],
) -> None:
    """Writes the files that the words name, after all their texts were made."""
    files = check_alerts.Files(line.sources)
    budget = line.budget

    def worst(verdict: Verdict) -> list[str]:
        """The worst lines of a rule that does not hold, in words."""
        places = [place for place in check_alerts.places_of(verdict, budget, files) if place.sites is not None]
        return [f"{verdict.rule.text}: {one.file}:{one.line}, {one.sites:,} sites" for one in places]

    wanted: list[tuple[str | None, Callable[[], str]]] = [
        (line.junit, lambda: check_files.junit(verdicts)),
        (line.sarif, lambda: check_alerts.sarif(budget, rules, verdicts, files)),
        (line.code_quality, lambda: check_alerts.code_quality(budget, verdicts, files)),
        (line.markdown, lambda: check_files.summary(budget, verdicts, worst)),
        (line.receipt, lambda: check_files.receipt(line, content, asked, tables, verdicts)),
    ]
    texts = [(path, text()) for path, text in wanted if path is not None]
    for path, text in texts:
        whole_file.write(path, text)


def main(words: list[str]) -> int:
    """The exit status: 0 if all rules hold, 1 if one does not, 2 if they could not be checked."""
    line = line_of(words)
    try:
        text, all_hold = answer(line)
        put(text)
    except (Refusal, OSError) as error:
        complain("check", error)
        return 2
    return 0 if all_hold else 1
