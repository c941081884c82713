"""The sites of a campaign by answer classes: each job with one of the outcomes is run again once, and its sites are
put into a class by what its run sent and how it ended."""

from __future__ import annotations

import argparse
import re
from collections import Counter
from collections.abc import Iterable
from dataclasses import dataclass, field

from fail_star_tools.count import places
from fail_star_tools.count.job_list import Job, Repeated
from fail_star_tools.count.places import Asked, Campaign
from fail_star_tools.read import classes
from fail_star_tools.read.campaign_file import Refusal
from fail_star_tools.read.cells import PC
from fail_star_tools.read.classes import Answer, Classes
from fail_star_tools.read.parts import Part
from fail_star_tools.read.traces import Trace
from fail_star_tools.run import answers, at_once, program
from fail_star_tools.run.answer_runs import Case, Replays
from fail_star_tools.run.answers import Answers

NO_EFFECT = "no-effect"


@dataclass
class Classed:
    """The sites of each class, by what their runs answered, and what the run without a fault answers."""

    classes: Classes
    golden: Answer
    sent: dict[str, Counter[Answer]] = field(default_factory=dict)
    heaviest: dict[str, Job] = field(default_factory=dict)  # of each class the first job with most sites

    def take(self, job: Job, answer: Answer) -> str:
        """Puts the sites of a job into the class of its answer, whose name it gives."""
        name = self.classes.of(answer, job.outcome, self.golden)
        self.sent[name][answer] += job.weight
        if name not in self.heaviest or self.heaviest[name].weight < job.weight:
            self.heaviest[name] = job
        return name

    def sites(self, name: str) -> int:
        """The sites of a class."""
        return sum(self.sent[name].values())

    def counts(self) -> dict[str, int]:
        """The sites of all classes, in the order of the file."""
        return {name: self.sites(name) for name in self.classes.names}

    def outputs(self, name: str) -> list[tuple[Answer, int]]:
        """What the runs of a class answered, the most frequent first."""
        return sorted(self.sent[name].items(), key=lambda row: (-row[1], row[0].output, row[0].end))

    def of_golden(self) -> str:
        """The class of the run without a fault, and of all sites of no effect."""
        return self.classes.of(self.golden, NO_EFFECT, self.golden)

    def opens_without(self) -> bool:
        """Whether the run without a fault is in the first class, which is the one to look for."""
        return self.of_golden() == self.classes.names[0]


def begun(wanted: Classes, trace: Trace) -> Classed:
    """All classes, without any site."""
    if trace.output is None:
        raise Refusal("to know what a run answers, the trace must say what was sent")
    return Classed(wanted, Answer(trace.output, f"halted {trace.exit}"), {name: Counter() for name in wanted.names})


def classed(campaign: Campaign, image: str | None, asked_classes: Classes, by: Replays, asked: Asked) -> Classed:
    """Puts the sites into classes. The campaign's jobs have to list those of the classes' outcomes, and get a count
    of each class at each place, in addition to those of the outcomes."""
    trace = campaign.trace
    if trace is None or trace.output is None:
        raise Refusal("to know what a run answers, the run without a fault is needed: --trace FILE, or fail_star by --program FILE")
    found = begun(asked_classes, trace)
    jobs = run_jobs(campaign)
    given = answers_of(campaign, image, jobs, by, asked)
    for job in jobs:
        name = found.take(job, given[job])
        campaign.jobs.sites[campaign.spot(job.cycle, job.cell)][name] += job.weight
    if NO_EFFECT in asked_classes.outcomes:
        take_golden(campaign, found)
    return found


def take_golden(campaign: Campaign, found: Classed) -> None:
    """Puts the sites without effect into the class of the right answer, because their runs give it."""
    name = found.of_golden()
    for sites in campaign.jobs.sites.values():
        if sites[NO_EFFECT]:
            sites[name] += sites[NO_EFFECT]
    others = sum(count for word, count in campaign.jobs.counts().items() if word != NO_EFFECT)
    found.sent[name][found.golden] += campaign.all_sites() - others


def run_jobs(campaign: Campaign) -> Repeated:
    """The listed jobs that have to be run again: those without effect answer as the run without a fault does."""
    return Repeated(lambda: (job for job in campaign.jobs.listed if job.outcome != NO_EFFECT))


def answers_of(campaign: Campaign, image: str | None, jobs: Iterable[Job], by: Replays, asked: Asked) -> Answers:
    """The answers of these jobs, which can be gone through several times."""
    if next(iter(jobs), None) is None:
        return Answers()
    options, whole = options_of(campaign, asked), campaign.jobs.window is None
    if campaign.card is not None:
        with program.image_of(campaign.card, image) as name:
            return answers.of_jobs(jobs, Case(name, options, campaign.keep), by, whole)
    if image is None:
        raise Refusal("to know what a run answers, the image is needed")
    return answers.of_jobs(jobs, Case(image, options, campaign.keep), by, whole)


def options_of(campaign: Campaign, asked: Asked) -> list[str]:
    """The options that say the campaign's case: those of its file, or those of the words. A table itself shows
    whether the pc is a cell."""
    if campaign.card is not None:
        return campaign.card.options()
    return asked.options() + ["--pc"] * (PC in campaign.jobs.cells())


# --- The command line -----------------------------------------------------------------------------


def add_options(parser: argparse.ArgumentParser) -> None:
    """The options that ask for classes."""
    parser.add_argument(
        "--classes",
        metavar="FILE",
        help="a file of answer classes: the jobs are run again, and their sites counted by class",
    )
    text = "the program fail_answers, if it is not on the path; without it, or with --replay alone, jobs are replayed"
    parser.add_argument("--answers", metavar="FILE", help=text)
    parser.add_argument("--replay", metavar="FILE", help="the program fail_replay, if it is not on the path")
    at_once.add_option(parser, "workers of fail_answers, or calls of fail_replay,")


def replays_in(line: argparse.Namespace) -> Replays:
    """How jobs are run again, by a command line."""
    return Replays(line.answers, line.replay, line.workers)


def asked_in(line: argparse.Namespace) -> Classes | None:
    """The classes that a command line names."""
    return None if line.classes is None else classes.read(line.classes)


def pattern_of(word: str) -> str:
    """A pattern for what was sent."""
    try:
        re.compile(word, re.DOTALL)
    except (re.error, RecursionError, OverflowError) as error:
        raise argparse.ArgumentTypeError(f"{word[:60]!r}: {error}") from None
    return word


def counted(
    image: str | None, keep: str, wanted: Classes, said: str | None, by: Replays, part: Part | None = None
) -> Classed:
    """The classes of a campaign file's sites, or of those in a part of the run, for tools that look for no places."""
    asked = Asked(program=said, listed=wanted.outcomes, part=part)
    return classed(places.read_kept(image, keep, asked), image, wanted, by, asked)
