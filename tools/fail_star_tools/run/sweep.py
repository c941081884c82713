"""Sweeps variants and compiler flags: builds each variant under each choice of flags, runs a campaign of each image, and writes one table.

    sweep.py --variant checksum --variant checksum_twice --flags=-O2 --flags=-Os \\
        --build 'make -C examples BUILD="$OUT" CFLAGS="$FLAGS" "$OUT/$VARIANT.elf"' -- --ram 0x80000000:64

The build command is given to `sh -c` once for each combination, in the current
folder, with these variables in its environment: VARIANT and FLAGS, as given;
OUT, an empty folder for this combination; and IMAGE, the file that it must make,
$OUT/$VARIANT.elf (with _ for each / in a variant's name). Options of
`fail_star run` follow --, and are the same for all.

The folder of --into has a campaign file for each combination. After an
interruption the same command continues, and if nothing changed, no job is run
again. If an image or the options changed, the campaign starts again: the error
output says so, and the old file is kept once, with .old after its name.
Combinations with identical images are run once.

Counts are absolute, for the reasons that compare.py gives; the ratio is that of the silent sites to those of the
first row with counts. With --classes FILE each answer class of FILE has a column, and the best combinations are those
with the fewest sites of the first class.

The exit status is 0 if each combination has its counts; 1 if a build or a campaign failed (the table says which, and
the error output says why); 2 if there is no table, or the page could not be written; and 130 after an interruption.
"""

from __future__ import annotations

import argparse
import csv
import fcntl
import io
import json
import os
import shlex
import signal
from collections.abc import Iterator
from contextlib import ExitStack, contextmanager
from pathlib import Path
from typing import Any

from fail_star_tools.command_line import Parser
from fail_star_tools.count import classed
from fail_star_tools.count.text_table import aligned, markdown, ratio
from fail_star_tools.known import known
from fail_star_tools.page import sweep_page
from fail_star_tools.page.page_date import date_of
from fail_star_tools.read import regular
from fail_star_tools.read.campaign_file import OUTCOMES, Refusal
from fail_star_tools.release import LOGIC, VERSION
from fail_star_tools.run import program, whole_file
from fail_star_tools.run.sweep_runs import COUNTED, Combination, Result, Sweep, carried_out, look_at_options, tell
from fail_star_tools.words import called, printable, put

NUMBERS = ("instructions", "sites", "silent", *(word for word in OUTCOMES if word != "silent"))
TEXTS = ("--variant", "--flags", "--build")  # their values may begin with a hyphen
OWN = ("--format", "--fresh", "--shard")  # options of the program that a sweep cannot use
FORMATS = ("text", "markdown", "csv", "json")


# --- The table ------------------------------------------------------------------------------------


def class_names(results: list[Result]) -> list[str]:
    """The answer classes that were counted."""
    first = first_of(results)
    return list(first.classes) if first is not None else []


def first_of(results: list[Result]) -> Result | None:
    """The first combination that has counts."""
    return next((result for result in results if result.report is not None), None)


def rows_of(results: list[Result]) -> list[tuple[str, ...]]:
    """The words of the table, its heading first."""
    first, names = first_of(results), class_names(results)
    rows = [("variant", "flags", *NUMBERS, *names, "silent ratio")]
    for result in results:
        words = (printable(result.combination.variant), printable(result.combination.flags) or "-")
        if result.report is None:
            rows.append((*words, *("-" for _ in (*NUMBERS, *names)), result.status))
            continue
        numbers = (result.report.number(word) for word in NUMBERS)
        rows.append((*words, *numbers, *(str(result.classes[name]) for name in names), ratio(result.counts["silent"], known(first).counts["silent"])))
    return rows


def best_of(results: list[Result]) -> list[Result]:
    """The combinations with the fewest silent sites; or those with the fewest sites of the first answer class, and
    among them those with the fewest silent ones."""
    counted = [result for result in results if result.report is not None]
    least = min(map(rank_of, counted), default=(0, 0))
    return [result for result in counted if rank_of(result) == least]


def rank_of(result: Result) -> tuple[int, int]:
    """The sites of the first answer class, if there are classes, and the silent ones."""
    return next(iter(result.classes.values()), 0), result.counts["silent"]


def notes_of(results: list[Result]) -> list[str]:
    """The notes below the table."""
    first, best, notes = first_of(results), best_of(results), []
    if best:
        names = ", ".join(result.combination.name for result in best)
        notes.append(f"Fewest silent sites: {names}, with {best[0].counts['silent']}." if not best[0].classes else fewest_of(best[0], names))
    for result in results:
        if result.same is not None:
            notes.append(f"{result.combination.name}: the same image as {result.same.name}, byte for byte, and run once.")
    other = [result for result in results if result.report is not None and ending_of(result) != ending_of(known(first))]
    if other:
        names = ", ".join(result.combination.name for result in other)
        what = f"without a fault it sends other bytes or halts with another value than {known(first).combination.name}"
        notes.append(f"{names}: {what}, so it is a program with another answer.")
    return notes


def ending_of(result: Result) -> tuple[str, int | None]:
    """The output and the exit value of the run without a fault."""
    return result.sent, known(result.report).exit


def fewest_of(best: Result, names: str) -> str:
    """The same by the first answer class."""
    name, sites = next(iter(best.classes.items()))
    return f"Fewest {name} sites: {names}, with {sites}, and {best.counts['silent']} silent ones."


def text_of(results: list[Result], form: str, called: str) -> str:
    """The table in one of the formats."""
    if form == "csv":
        return csv_of(results)
    if form == "json":
        return json.dumps({"made_by": made_by(called), **object_of(results)}, sort_keys=True, separators=(",", ":")) + "\n"
    rows = rows_of(results)
    return (markdown(rows) if form == "markdown" else aligned(rows)) + "".join(f"\n{note}\n" for note in notes_of(results))


def csv_of(results: list[Result]) -> str:
    """The same as comma-separated values, with the result of each combination instead of a ratio."""
    text = io.StringIO()
    writer = csv.writer(text, lineterminator="\n")
    names = class_names(results)
    writer.writerow(("variant", "flags", "came to", *NUMBERS, *names))
    for result in results:
        numbers = [result.report.number(word) if result.report else "" for word in NUMBERS]
        numbers += [str(result.classes[name]) if result.report else "" for name in names]
        writer.writerow((printable(result.combination.variant), printable(result.combination.flags), result.status, *numbers))
    return text.getvalue()


def made_by(called: str) -> dict[str, str]:
    """The release and the program of a sweep."""
    return {"version": VERSION, "logic": LOGIC, "program": program.sum_of(called)}


def object_of(results: list[Result]) -> dict[str, Any]:
    """The same as an object; `same_as` and `best` are places in its list, from 0."""
    places = {result.combination: place for place, result in enumerate(results)}
    first, rows = first_of(results), []
    for result in results:
        row: dict[str, str | int | None | dict[str, int]] = {"variant": result.combination.variant, "flags": result.combination.flags, "came_to": result.status}
        if result.reason:
            row["reason"] = result.reason
        if result.digest:
            row |= {"sha256": result.digest, "keep": result.kept}
        if result.same is not None:
            row["same_as"] = places[result.same]
        if result.report is not None:
            row |= {word.replace("-", "_"): result.counts[word] for word in NUMBERS}
            row |= {"exit": result.report.exit, "output": result.sent}
            if result.classes:
                row["classes"] = result.classes
        rows.append(row)
    case = first.case if first else None
    asked = {"rom": str(case.rom), "ram": str(case.ram), "limit": case.limit, "options": case.flags()} if case else None
    return {"asked": asked, "best": [places[result.combination] for result in best_of(results)], "rows": rows}


# --- The command line -----------------------------------------------------------------------------


def parted(words: list[str]) -> tuple[list[str], list[str]]:
    """The words before -- and those after it. A value that may begin with a hyphen is joined to its option in one
    word."""
    ahead, rest = [], list(words)
    while rest:
        word = rest.pop(0)
        if word == "--":
            break
        ahead.append(f"{word}={rest.pop(0)}" if word in TEXTS and rest else word)
    return ahead, rest


def parser_of() -> Parser:
    """The parser of the command line."""
    usage = "%(prog)s --variant NAME .. [--flags FLAGS ..] --build COMMAND [option ..] [-- options of fail_star run]"
    parser = Parser("sweep", __doc__, usage=usage, allow_abbrev=False)
    parser.add_argument("--variant", action="append", metavar="NAME", required=True, help="a variant; may be repeated")
    parser.add_argument("--flags", action="append", metavar="FLAGS", help="flags for each variant, as one word; may be repeated")
    parser.add_argument("--build", metavar="COMMAND", required=True, help="what makes the file $IMAGE of $VARIANT and $FLAGS")
    parser.add_argument("--into", metavar="FOLDER", default="sweep", help="the folder of images and campaign files (default: sweep)")
    parser.add_argument("--format", choices=FORMATS, default="text", help="the format (default: text)")
    parser.add_argument("--markdown", action="store_const", const="markdown", dest="format", help="the same as --format markdown")
    parser.add_argument("--page", metavar="FILE", help="an HTML page of all of it, which is written whole or not at all")
    parser.add_argument("--title", help="the heading of the page")
    parser.add_argument("--program", metavar="FILE", help="the program fail_star, if it is not on the path")
    classed.add_options(parser)
    return parser


def line_of(words: list[str]) -> tuple[argparse.Namespace, list[str], list[Combination]]:
    """The options of the sweep, the options of its campaigns, and all combinations in the order of the table."""
    parser = parser_of()
    ahead, options = parted(words)
    line = parser.parse_args(ahead)
    combinations = [Combination(variant, flags) for variant in line.variant for flags in line.flags or [""]]
    if "" in line.variant:
        parser.error("--variant: expected a name, found none")
    if len(set(combinations)) < len(combinations):
        parser.error("a variant, or a choice of flags, is repeated")
    for word in options:
        if word.partition("=")[0] in OWN:
            parser.error(f"{word}: not an option for a sweep, which counts whole campaigns and starts again what changed")
    return line, options, combinations


@contextmanager
def held(folder: Path) -> Iterator[None]:
    """Makes the folder of a sweep, and keeps other sweeps out of it."""
    with ExitStack() as stack:
        try:
            folder.mkdir(parents=True, exist_ok=True)
            handle = os.open(folder / "lock", os.O_RDWR | os.O_CREAT | os.O_NOFOLLOW | os.O_NONBLOCK, 0o666)
            stack.callback(os.close, handle)
            regular.refuse_other("lock", os.fstat(handle).st_mode)
            fcntl.flock(handle, fcntl.LOCK_EX | fcntl.LOCK_NB)
        except BlockingIOError:
            raise Refusal(f"{printable(str(folder))}: another sweep works in it") from None
        except OSError as error:
            raise Refusal(f"{printable(str(folder))}: {error.strerror}") from None
        yield


def look_at_page(path: str) -> str:
    """The date of the page, if it can be written: so that an error comes before hours of campaigns, and not after
    them."""
    folder = os.path.dirname(os.path.realpath(path))
    if not os.path.isdir(folder):
        raise Refusal(f"{path}: No such file or directory")
    try:
        whole_file.is_replaced(path)
    except OSError as error:
        raise Refusal(f"{path}: {error.strerror}") from None
    return date_of()


def answer(words: list[str]) -> int:
    """Runs the sweep, and writes its table."""
    line, options, combinations = line_of(words)
    folder = Path(line.into).absolute()
    sweep = Sweep(folder, line.build, program.found(line.program), options, classed.asked_in(line), classed.replays_in(line))
    look_at_options(sweep.program, options)
    with held(sweep.folder):
        date = look_at_page(line.page) if line.page is not None else ""
        results = carried_out(sweep, combinations)
    put(text_of(results, line.format, sweep.program))
    if line.page is not None:
        call = shlex.join([called("sweep"), *words])
        whole_file.write(line.page, sweep_page.page_of(sweep, results, notes_of(results), date, call, line.title))
    return 0 if all(result.status == COUNTED for result in results) else 1


def main(words: list[str]) -> int:
    """The exit status, as the head of this file has it; argparse's for other words is 2 too, and an interrupt is the
    starter's."""
    signal.signal(signal.SIGTERM, signal.default_int_handler)
    try:
        return answer(words)
    except (Refusal, OSError) as error:
        tell(str(error))
        return 2
