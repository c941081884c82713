"""Metrics that papers and standards ask for, computed from counts of sites. `docs/METRICS.md` says what each means, and
why none but the first two may compare variants of a program.

A metric is a factor times one of two counts, divided by a third number. The two counts are the silent sites, and the
noticed ones: those of the outcomes that the device or the program notices. A sample gives both counts as fractions of
its population, so each metric has the interval of its fraction.
"""

from __future__ import annotations

import argparse
import math
import re
from collections.abc import Mapping
from dataclasses import dataclass
from fractions import Fraction

from fail_star_tools.command_line import Parser
from fail_star_tools.read.campaign_file import Refusal
from fail_star_tools.read.job_table import OLD_TRAP, TRAP_KINDS

NO_EFFECT, SILENT = "no-effect", "silent"
NOTICEABLE = ("detected", *TRAP_KINDS, "timeout")
NOTICED, EFFECT, SITES, INSTRUCTIONS = "noticed", "with an effect", "sites", "instructions"
WHOLE_FROM = 1000  # larger numbers are shown without a fraction


@dataclass(frozen=True)
class Asked:
    """What the words say: flips per bit and cycle, FIT per bit, and the outcomes that are noticed."""

    flip_rate: Fraction | None
    fit: Fraction | None
    noticed: tuple[str, ...]


@dataclass(frozen=True)
class Metric:
    """A metric: `factor` times the count `part`, divided by the number `whole` if there is one."""

    key: str
    name: str
    formula: str
    part: str
    whole: str | None = None
    factor: Fraction = Fraction(1)

    @property
    def text(self) -> str:
        """The name with the formula."""
        return f"{self.name} = {self.formula}"


# --- Words ----------------------------------------------------------------------------------------


def rate_of(word: str) -> Fraction:
    """A rate above 0, such as 1e-15."""
    if not re.fullmatch(r"[0-9]{1,18}(\.[0-9]{1,18})?([eE][-+]?[0-9]{1,2})?", word, re.ASCII) or not Fraction(word):
        raise argparse.ArgumentTypeError(f"expected a number above 0, as 1e-15, found {word!r}")
    return Fraction(word)


def noticed_of(word: str) -> tuple[str, ...]:
    """The outcomes that are noticed, in the order of a report."""
    found = word.split(",")
    if len(set(found)) != len(found) or not set(found) <= set(NOTICEABLE):
        raise argparse.ArgumentTypeError(f"expected some of {','.join(NOTICEABLE)}, found {word!r}")
    return tuple(outcome for outcome in NOTICEABLE if outcome in found)


def add_options(parser: Parser) -> None:
    """The options of metrics."""
    parser.add_argument("--metrics", action="store_true", help="also writes expected failures, AVF, FIT and diagnostic coverage")
    parser.add_argument("--flip-rate", type=rate_of, metavar="R", help="with --metrics: flips per bit and cycle, for the expected failures of a run")
    parser.add_argument("--fit-per-bit", type=rate_of, metavar="F", help="with --metrics: FIT per bit, for the FIT of back-to-back runs")
    parser.add_argument("--noticed", type=noticed_of, metavar="WORDS",
                        help="with --metrics: the outcomes that are noticed, with commas between (default: all but no-effect and silent)")  # fmt: skip


def asked_in(parser: Parser, line: argparse.Namespace) -> Asked | None:
    """What the words ask for. Options that need --metrics are wrong without it."""
    for option in ("flip_rate", "fit_per_bit", "noticed"):
        if getattr(line, option) is not None and not line.metrics:
            parser.error(f"--{option.replace('_', '-')} needs --metrics")
    return Asked(line.flip_rate, line.fit_per_bit, line.noticed or NOTICEABLE) if line.metrics else None


# --- Metrics --------------------------------------------------------------------------------------


def metrics_of(asked: Asked) -> list[Metric]:
    """All metrics for which the words have what they need."""
    found: list[Metric] = []
    if asked.flip_rate is not None:
        found.append(Metric("failures_per_run", "expected failures per run", "flip rate * silent", SILENT, None, asked.flip_rate))
    found.append(Metric("sdc_avf", "SDC AVF", "silent / sites", SILENT, SITES))
    found.append(Metric("due_avf", "DUE AVF", "noticed / sites", NOTICED, SITES))
    if asked.fit is not None:
        found.append(Metric("sdc_fit", "SDC FIT", "FIT per bit * silent / instructions", SILENT, INSTRUCTIONS, asked.fit))
        found.append(Metric("due_fit", "DUE FIT", "FIT per bit * noticed / instructions", NOTICED, INSTRUCTIONS, asked.fit))
    found.append(Metric("diagnostic_coverage", "diagnostic coverage", "noticed / all with an effect", NOTICED, EFFECT))
    return found


def extrapolated() -> list[Metric]:
    """What a sample says of the counts themselves."""
    words = ((SILENT, "eafc_silent"), (NOTICED, "eafc_noticed"))
    return [Metric(key, f"EAFC, {part}", f"population * {part} draws / samples", part) for part, key in words]


def parts_of(counts: Mapping[str, int], asked: Asked) -> dict[str, int]:
    """The silent ones, the noticed ones, and all with an effect, of counts by outcome."""
    if OLD_TRAP in counts:
        if 0 < sum(kind in asked.noticed for kind in TRAP_KINDS) < len(TRAP_KINDS):
            raise Refusal("an older version did not distinguish traps, so --noticed needs all of their kinds or none")
        noticed = {*asked.noticed} - {*TRAP_KINDS} | ({OLD_TRAP} if TRAP_KINDS[0] in asked.noticed else set())
    else:
        noticed = {*asked.noticed}
    outcomes = (NO_EFFECT, SILENT, "detected", OLD_TRAP, *TRAP_KINDS, "timeout")
    effect = sum(counts.get(outcome, 0) for outcome in outcomes if outcome != NO_EFFECT)
    return {SILENT: counts.get(SILENT, 0), NOTICED: sum(counts.get(outcome, 0) for outcome in noticed), EFFECT: effect}


def value_of(metric: Metric, counts: Mapping[str, int], asked: Asked) -> Fraction | None:
    """A metric of a whole campaign, whose counts include the sites and the instructions. It is unknown if the number
    to divide by is 0."""
    numbers = {**parts_of(counts, asked), SITES: counts["sites"], INSTRUCTIONS: counts["instructions"]}
    whole = 1 if metric.whole is None else numbers[metric.whole]
    return metric.factor * numbers[metric.part] / whole if whole else None


# --- What is written ------------------------------------------------------------------------------


def shown(value: Fraction | None, up: int = 0) -> str:
    """A value as text: four digits, or a whole number if it is large, rounded down or up if it is a bound."""
    if value is None:
        return "-"
    if value < WHOLE_FROM:
        return f"{float(value):.4g}"
    return str(math.ceil(value) if up > 0 else math.floor(value) if up < 0 else math.floor(value + Fraction(1, 2)))


def json_value(value: Fraction | None) -> float | None:
    """A value in JSON, with twelve digits."""
    return None if value is None else float(f"{float(value):.12g}")


def note_of(asked: Asked) -> str:
    """What counts as noticed, and what the metrics are not for."""
    return f"noticed: {', '.join(asked.noticed)}. Compare variants by silent sites or expected failures, and never by AVF, FIT or coverage."
