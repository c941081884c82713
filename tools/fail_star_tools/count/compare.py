"""Compares campaigns: one table of their counts, with the ratio of silent sites to those of the first campaign.

Each argument is a campaign file, also as IMAGE,KEEP, or a file with what
`fail_star run` or `fail_star report` wrote, as text or JSON. It may have a name
in front: NAME=FILE. The program counts the sites of a campaign file, and the
file has its limit, map and flags. A report has none of these, so its limit is
shown as unknown, and the size of its RAM follows from the number of sites. (The
pc has as many bits as four bytes, so for a report of `--pc` four more bytes of
RAM are shown.)

The counts are absolute. Faults hit a device at some rate for each bit and
cycle, so a site has the same small probability in every variant of a program,
and the expected number of wrong answers is proportional to the count of silent
sites. A percentage divides by the size of the fault space, which idle
instructions or unused RAM make larger. Counts are comparable only between
campaigns with the same limit, RAM size and flags: a timeout under one limit may
be silent under a longer one, the size of RAM says which stray accesses trap,
`--pc` adds sites, and with `--ram-code` a stray jump into RAM continues. So
there is no ratio between other campaigns.

With --cycles, --code and --function the sites of a part of the run are counted:
those before its instructions with these numbers, at these addresses, or of this
function. Then the column `window` has the number of these instructions. What
`fail_window` wrote is a report of a part, too.

For a campaign file `stack` is the lowest address of the stack that the run
without a fault uses, and for one that is named with its image `code` is the
number of bytes of executable segments in ROM. Both are costs of a variant, like
its time, the number of instructions.

With --port-flips a column has the silent sites whose flip turns the address of one port into that of another, another
one all other silent sites, and the last one the ratio of these.

A report of an older version has one number for all traps. Then a column `trap`
has all traps of each campaign.
"""

from __future__ import annotations

import argparse
from collections.abc import Callable
from typing import Any, Dict, Optional

from fail_star_tools.command_line import Parser
from fail_star_tools.count import classed, metrics, places
from fail_star_tools.count.reports import LONGEST_REPORT, NUMBERS, OLD_NUMBERS, WINDOW, Report, counts_of, parts_of
from fail_star_tools.count.json_text import JSON_PLACES, json_key, json_line
from fail_star_tools.count.text_table import aligned, markdown, ratio
from fail_star_tools.count.places import Asked
from fail_star_tools.known import known
from fail_star_tools.read import campaign_file, elf_image, linked_ram, parts, regular
from fail_star_tools.read.call_frames import CallFrames
from fail_star_tools.read.campaign_file import Refusal
from fail_star_tools.read.job_table import OLD_TRAP
from fail_star_tools.read.parts import Part
from fail_star_tools.read.refusals import naming
from fail_star_tools.read.traces import ending_by
from fail_star_tools.run import program
from fail_star_tools.words import printable, say

COSTS = ("stack", "code")
ClassesOf = Callable[[Optional[str], str], Dict[str, int]]  # from an image, if there is one, and a campaign file to the sites by classes


# --- Campaigns ------------------------------------------------------------------------------------


def counted(keep: str, image: str | None, said: str | None, part: Part | None) -> Report:
    """The counts of a campaign file, which the program computes: the file has no weights, and these need the run without a fault."""
    campaign = campaign_file.parsed(keep)
    called = program.found(said)
    with program.image_of(campaign.card, image) as name:
        card = campaign.card
        if part is None:
            counts = counts_of(program.answer(called, ["report", name, keep, *card.options(), "--format", "json"]))
        else:
            shown = elf_image.read(image) if image else None
            counts = places.counts_of(places.kept_of(campaign, image, keep, Asked(program=said, part=part), shown))
        sent, value, trace = ending_by(called, name, card.trace_options())
        stack = CallFrames(trace, elf_image.read(name)).lowest_in(card.ram) if trace.pcs else None
    shown = elf_image.read(image) if image else None
    warning, code = linked_ram.warning_of(shown, card.ram), shown.code_size(card.rom) if shown else None
    return Report("", counts, card.limit, value, card.flags(), sent, warning, code=code, stack=stack)


def port_flips_of(keep: str, image: str | None, said: str | None, part: Part | None) -> int:
    """The silent sites of a campaign file whose flip turns the address of one port into that of another."""
    return places.read(image, keep, Asked(program=said, part=part)).port_flips["silent"]


def read_report(
    argument: str,
    said: str | None,
    classes_of: ClassesOf | None = None,
    part: Part | None = None,
    port_flips: bool = False,
) -> Report:
    """The report that an argument names. Without NAME= it has the name of the file."""
    name, image, path = parts_of(argument)
    with naming(path, "a report or a campaign file"):
        with regular.opened(path) as file:
            content = file.read(LONGEST_REPORT)
        if campaign_file.is_campaign(content) or image is not None:
            report = counted(path, image, said, part)
            report.classes = classes_of(image, path) if classes_of is not None else None
            report.port_flips = port_flips_of(path, image, said, part) if port_flips else None
        elif classes_of is not None:
            raise Refusal("a report does not have answers: --classes needs a campaign file")
        elif port_flips:
            raise Refusal("a report does not have the jobs: --port-flips needs a campaign file")
        elif part is not None:
            raise Refusal("a report does not have jobs: a part of the run needs a campaign file")
        else:
            report = Report("", counts_of(content.decode("utf-8")))
    report.name = printable(name)
    return report


# --- The table ------------------------------------------------------------------------------------


def differences(report: Report, first: Report) -> list[str]:
    """The settings that differ from those of the first campaign, as far as both are known."""
    pairs = {
        "limit": (report.limit, first.limit),
        "RAM": (report.ram, first.ram),
        "flags": (report.flags, first.flags),
        "part": (WINDOW in report.counts, WINDOW in first.counts),
    }
    return [word for word, (one, other) in pairs.items() if None not in (one, other) and one != other]


def names_of(reports: list[Report]) -> tuple[str, ...]:
    """The columns of counts: all traps together if a report of an older version has only this, and their kinds if any report has them."""
    if any(WINDOW in report.counts for report in reports):
        return (NUMBERS[0], WINDOW, *names_of([report for report in reports if WINDOW not in report.counts])[1:])
    if not any(report.old for report in reports):
        return NUMBERS
    if all(report.old for report in reports):
        return OLD_NUMBERS
    return (*NUMBERS[:-1], OLD_TRAP, NUMBERS[-1])


def rows_of(reports: list[Report], anyway: bool) -> list[tuple[str, ...]]:
    """The words of the table, its heading first. There is a column of flags if any campaign has one."""
    first, names = reports[0], names_of(reports)
    flags = ["flags"] * any(report.flags for report in reports)
    classes = list(first.classes or ())
    costs = [word for word in COSTS if any(getattr(report, word) is not None for report in reports)]
    ports = first.port_flips is not None
    parts, other_ratio = (("port flips", "other silent"), ["other silent ratio"]) if ports else ((), [])
    ratios = ["silent ratio", *(f"{name} ratio" for name in classes[:1]), *other_ratio]
    rows = [("campaign", "limit", "RAM", *flags, "exit", *costs, *names, *parts, *classes, *ratios)]
    for report in reports:
        said = [None if report.flags is None else " ".join(report.flags) or "-"] * len(flags)
        asked = ("?" if value is None else str(value) for value in (report.limit, report.ram, *said, report.exit))
        numbers = (report.number(name) for name in names)
        refused = [] if anyway else differences(report, first)
        of_classes = report.classes or {}
        pairs = [(report.counts["silent"], first.counts["silent"]), *((of_classes[name], (first.classes or {})[name]) for name in classes[:1])]
        if ports:
            pairs.append((other_silent(report), other_silent(first)))
        last = [f"other {' and '.join(refused)}" if refused else ratio(*pair) for pair in pairs]
        cost = [cost_of(report, word) for word in costs]
        of_ports = (str(report.port_flips), str(other_silent(report))) if ports else ()
        rows.append((report.name, *asked, *cost, *numbers, *of_ports, *(str(of_classes[name]) for name in classes), *last))
    return rows


def other_silent(report: Report) -> int:
    """The silent sites whose flip does not turn the address of one port into that of another."""
    return report.counts["silent"] - known(report.port_flips)


def cost_of(report: Report, word: str) -> str:
    """A cost of a campaign's program, as text."""
    value = getattr(report, word)
    if value is None:
        return "?"
    return f"{value:#010x}" if word == "stack" else str(value)


def notes_of(reports: list[Report], anyway: bool) -> list[str]:
    """The notes below the table."""
    first, notes = reports[0], []
    other = [report.name for report in reports if differences(report, first)]
    if other:
        found = {word for report in reports for word in differences(report, first)}
        words = ["limit", "size of RAM", *(word for word in ("flags", "part") if word in found)]
        what = f"{', '.join(words[:-1])} or {words[-1]}"
        why = f"{', '.join(other)}: not the same {what} as {first.name}"
        notes.append(f"{why}, so the ratio means little." if anyway else f"{why}, so no ratio is given (--anyway gives one).")
    answers = [report.name for report in reports if None not in (report.sent, first.sent) and report.ending != first.ending]
    if answers:
        notes.append(f"{', '.join(answers)}: without a fault it sends other bytes or halts with another value than {first.name}, "
                     "so it is a program with another answer.")
    notes += [f"{report.name}: {report.warning}." for report in reports if report.warning]
    old = [report.name for report in reports if report.old]
    if old:
        notes.append(f"{', '.join(old)}: written by an older version, which did not distinguish traps.")
    unnamed = [report.name for report in reports if report.limit is None]
    if unnamed and len(reports) > 1:
        notes.append(f"{', '.join(unnamed)}: a report does not name its limit; a ratio holds only if all limits are the same.")
    return notes


def metric_rows(reports: list[Report], asked: metrics.Asked) -> list[tuple[str, ...]]:
    """The words of the table of metrics, its heading first: a row for each metric, and a column for each campaign."""
    rows = [("metric", *(report.name for report in reports))]
    for metric in metrics.metrics_of(asked):
        rows.append((metric.text, *(metrics.shown(metrics.value_of(metric, report.counts, asked)) for report in reports)))
    return rows


def metric_values(report: Report, asked: metrics.Asked) -> dict[str, float | None]:
    """The same of one campaign, by the keys of JSON."""
    return {metric.key: metrics.json_value(metrics.value_of(metric, report.counts, asked)) for metric in metrics.metrics_of(asked)}


def object_of(reports: list[Report], anyway: bool, asked: metrics.Asked | None) -> str:
    """The same as one line of JSON. What is not known is null; a ratio too where it would mean nothing."""
    found = []
    for report in reports:
        other = [] if anyway else differences(report, reports[0])
        silent, first = report.counts["silent"], reports[0].counts["silent"]
        one: dict[str, Any] = {
            "name": report.name, "limit": report.limit, "ram_size": report.ram, "flags": report.flags,
            "exit": report.exit, "output": report.sent, "stack": report.stack, "code": report.code,
            "differs": [word.lower() for word in differences(report, reports[0])],
            "silent_ratio": None if other or not first else round(silent / first, JSON_PLACES),
        }  # fmt: skip
        counts = {json_key(word): count for word, count in report.counts.items()}
        one |= {"port_flips": report.port_flips} if report.port_flips is not None else {}
        one |= counts | ({"classes": report.classes} if report.classes is not None else {})
        found.append(one | ({"metrics": metric_values(report, asked)} if asked is not None else {}))
    whole: dict[str, object] = {"campaigns": found, "notes": notes_of(reports, anyway)}
    if asked is not None:
        whole["noticed"] = asked.noticed
    return json_line(whole)


def line_of(words: list[str]) -> argparse.Namespace:
    """The options and files that the words name."""
    about = "Compares campaigns by absolute counts of sites, and their silent corruptions with those of the first."
    parser = Parser("compare", about, epilog="compare.py plain=plain.elf,plain.keep voted.keep other=other.txt")
    kinds = "a campaign file, which its image and a comma may precede, or what fail_star run or report wrote, as text or JSON"
    parser.add_argument("reports", nargs="+", metavar="[NAME=][IMAGE,]FILE", help=kinds)
    parser.add_argument("--format", choices=("text", "markdown", "json"), default="text", help="the format (default: text)")
    parser.add_argument("--markdown", action="store_const", const="markdown", dest="format", help="the same as --format markdown")
    parser.add_argument("--anyway", action="store_true", help="gives ratios also between campaigns with different limits, sizes of RAM or flags")
    parser.add_argument("--program", metavar="FILE", help="the program fail_star, if it is not on the path")
    parser.add_argument("--port-flips", action="store_true", help="tells silent sites apart whose flip turns one port's address into another's")
    parts.add_options(parser)
    classed.add_options(parser)
    metrics.add_options(parser)
    line: argparse.Namespace = parser.parse_args(words)
    line.asked = metrics.asked_in(parser, line)
    return line


def reports_of(line: argparse.Namespace) -> list[Report]:
    """All that is to be compared."""
    wanted, part = classed.asked_in(line), parts.asked_in(line)

    def classes_of(image: str | None, keep: str) -> dict[str, int]:
        return classed.counted(image, keep, known(wanted), line.program, classed.replays_in(line), part).counts()

    answers_of = classes_of if wanted else None
    return [read_report(argument, line.program, answers_of, part, line.port_flips) for argument in line.reports]


def answer(line: argparse.Namespace) -> str:
    """The whole output."""
    reports = reports_of(line)
    if line.format == "json":
        return object_of(reports, line.anyway, line.asked)
    tables, notes = [rows_of(reports, line.anyway)], notes_of(reports, line.anyway)
    if line.asked is not None:
        tables.append(metric_rows(reports, line.asked))
        notes.append(metrics.note_of(line.asked))
    write = markdown if line.format == "markdown" else aligned
    return "\n".join(map(write, tables)) + "".join(f"\n{note}\n" for note in notes)


def main(words: list[str]) -> int:
    """The exit status: 0 if the table was written, 1 if it was not, and 2 (argparse's) for invalid words."""
    line = line_of(words)
    return say("compare", lambda: answer(line))
