"""Stores a campaign in an SQLite database, which may have others: its jobs, and where they are.

    sql.py checksum.keep all.db checksum.elf
    sqlite3 all.db "select function, sum(weight) from places where outcome = 'silent' group by function"

The view `places` has a line for each job, with its function, source line and
register or variable; the table `campaigns` has the map, the limit, the flags
and the counts of each campaign. The manual page `fail_star-sql(1)` has all
tables. A job represents `weight` sites; sites without a job are dead, and
counted only in `campaigns`. Without IMAGE functions, lines and names of
variables are missing.

A campaign has the name of its file, or that of --name. DB is made if it is missing.
All is stored in one transaction: if the exit status is not 0, DB is as before,
unless only the output could not be written.
"""

from __future__ import annotations

import argparse
from collections import Counter
from collections.abc import Iterable, Iterator
from dataclasses import dataclass
from pathlib import Path

from fail_star_tools.command_line import Parser
from fail_star_tools.count import classed, database, places
from fail_star_tools.count.database import Facts, Row
from fail_star_tools.count.job_list import Job
from fail_star_tools.count.places import Asked, Campaign, counts_of
from fail_star_tools.known import known
from fail_star_tools.read import campaign_file, classes, job_table, linked_ram
from fail_star_tools.read.campaign_file import OUTCOMES, Batches, CampaignFile, Refusal
from fail_star_tools.read.cells import is_byte, offset_of, register_name
from fail_star_tools.read.classes import Classes
from fail_star_tools.read.digest import sha256_of
from fail_star_tools.read.job_table import OLD_TRAP, is_campaign, reads_of, table_of
from fail_star_tools.release import MADE_BY
from fail_star_tools.run import program
from fail_star_tools.run.answer_runs import Replays
from fail_star_tools.run.program import Ended
from fail_star_tools.words import printable, say

OTHER_CASE = "campaign file refused: 6 OtherCase"


@dataclass
class Source:
    """A campaign file with everything that is known of its jobs, before anything is stored."""

    keep: str
    image: str | None
    called: str  # fail_star
    campaign: Campaign
    digest: str  # of the campaign file, when it was read
    classes: Iterable[Row] = ()


# --- Reading --------------------------------------------------------------------------------------


def read(line: argparse.Namespace) -> Source:
    """The campaign of a command line, with the classes of its jobs if --classes is given."""
    if not is_campaign(line.keep):
        campaign_file.read(line.keep)  # which refuses a file that is not a campaign file
    wanted = None if line.classes is None else classes.read(line.classes)
    asked = Asked(program=line.program, listed=wanted.outcomes if wanted else ())
    digest = sha256_of(line.keep)
    try:
        campaign = places.read_kept(line.image, line.keep, asked)
    except Refusal as refusal:
        raise another_image(line, refusal) from None
    source = Source(line.keep, line.image, program.found(line.program), campaign, digest)
    if wanted is not None:
        source.classes = rows_of_classes(source, wanted, classed.replays_in(line), asked)
    return source


def another_image(line: argparse.Namespace, refusal: Refusal) -> Refusal:
    """The refusal of the campaign, or of an image of another case."""
    cause = refusal.__context__
    if line.image is not None and isinstance(cause, Ended) and cause.line.startswith(OTHER_CASE):
        return Refusal(f"{line.image}: {line.keep} is a campaign of another image")
    return refusal


def rows_of_classes(source: Source, wanted: Classes, by: Replays, asked: Asked) -> Iterator[Row]:
    """The class of each job that has one of the outcomes that the file of classes names, and the answer of its run.
    The jobs are run before the first row is asked for."""
    found = classed.begun(wanted, known(source.campaign.trace))
    given = classed.answers_of(source.campaign, source.image, classed.run_jobs(source.campaign), by, asked)

    def row_of(job: Job) -> Row:
        answer = found.golden if job.outcome == classed.NO_EFFECT else given[job]
        return job.cycle, job.cell, job.bit, found.take(job, answer), f"{answer.text}, {answer.end}"

    return map(row_of, source.campaign.jobs.listed)


# --- Storing --------------------------------------------------------------------------------------


def store(db: str, name: str, source: Source, replaces: bool) -> int:
    """Stores a campaign, and returns the number of its jobs."""
    counts = counts_of(source.campaign)
    if OLD_TRAP in counts:
        raise Refusal(f"{source.keep}: fail_star of an older version wrote {OLD_TRAP}, which says no kind")
    with database.opened(db) as stored:
        stored.begin(name, replaces)
        found: Counter[str] = Counter()
        jobs = stored.add("jobs", name, rows_of_jobs(source, found))
        if sha256_of(source.keep) != source.digest or any(found[word] != counts[word] for word in OUTCOMES[1:]):
            raise Refusal(f"{source.keep}: it was changed while it was read")
        stored.add("trace", name, enumerate(known(source.campaign.trace).pcs))
        stored.add("instructions", name, rows_of_instructions(source.campaign))
        stored.add("cells", name, rows_of_cells(source.campaign))
        stored.add("classes", name, source.classes)
        facts = facts_of(source) | {"jobs": jobs} | {word.replace("-", "_"): count for word, count in counts.items()}
        stored.add("campaigns", name, [tuple(facts[column] for column in database.COLUMNS)])
    return jobs


def rows_of_jobs(source: Source, found: Counter[str]) -> Iterator[Row]:
    """The jobs, as the program writes them. The sites of each outcome are added to those that were found."""
    case = CampaignFile(known(source.campaign.card), Batches(), b"")  # the program reads the rows
    with table_of(case, source.keep, source.called, source.image) as lines:
        for read in reads_of(lines):
            for bit, place in enumerate(read.outcomes):
                outcome = job_table.OUTCOMES[place]
                found[outcome] += read.weight
                yield read.cycle, read.cell, bit, read.weight, outcome


def rows_of_instructions(campaign: Campaign) -> Iterator[Row]:
    """Each instruction that the run without a fault executes, with its function and line if they are known."""
    for pc, word in sorted(known(campaign.trace).words.items()):
        owner = campaign.image.function_at(pc) if campaign.image else None
        yield pc, word, owner.name if owner else None, campaign.lines.of(pc) if campaign.lines else None


def rows_of_cells(campaign: Campaign) -> Iterator[Row]:
    """The name of each cell that a job names."""
    for cell in sorted(campaign.jobs.cells()):
        address = known(campaign.ram.base) + offset_of(cell)
        yield cell, campaign.variable_at(address) if is_byte(cell) else register_name(cell)


def facts_of(source: Source) -> Facts:
    """The row of a campaign in the table of campaigns, without its counts."""
    card, trace = known(source.campaign.card), known(source.campaign.trace)
    return {
        "made_by": MADE_BY,
        "program_sha256": program.sum_of(source.called),
        "keep_sha256": source.digest,
        "image_sha256": sha256_of(source.image) if source.image else None,
        "entry": card.entry,
        "rom_base": card.rom.base,
        "rom_size": card.rom.size,
        "ram_base": card.ram.base,
        "ram_size": card.ram.size,
        "step_limit": card.limit,
        "pc_cell": int(card.pc_cell),
        "ram_code": int(card.ram_code),
        "output": None if trace.output is None else trace.output.hex(),
        "halt": trace.exit,
    }


# --- The command line -----------------------------------------------------------------------------


def line_of(words: list[str]) -> argparse.Namespace:
    """The options and files that the words name."""
    parser = Parser("sql", __doc__)
    parser.add_argument("keep", metavar="KEEP", help="the campaign file")
    parser.add_argument("db", metavar="DB", help="the SQLite database")
    parser.add_argument("image", metavar="IMAGE", nargs="?", help="the program's ELF file")
    parser.add_argument("--name", metavar="NAME", help="the name of the campaign (default: that of KEEP)")
    parser.add_argument("--replace", action="store_true", help="replaces a campaign of the same name")
    classed.add_options(parser)
    parser.add_argument("--program", metavar="FILE", help="the program fail_star, if it is not on the path")
    line: argparse.Namespace = parser.parse_args(words)
    line.name = printable(line.name if line.name is not None else Path(line.keep).stem)
    if not line.name:
        parser.error("--name: expected a name, found none")
    return line


def answer(line: argparse.Namespace) -> str:
    """Stores the campaign, and returns a line about it."""
    source = read(line)
    jobs = store(line.db, line.name, source, line.replace)
    linked_ram.warn("sql", source.campaign.image, known(source.campaign.card).ram)
    return f"stored {line.name}: {jobs} jobs\n"


def main(words: list[str]) -> int:
    """The exit status: 0 if all was stored, 1 if nothing was, and 2 (argparse's) for invalid words."""
    line = line_of(words)
    return say("sql", lambda: answer(line))
