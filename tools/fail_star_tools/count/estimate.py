"""Estimates all sites from a sample of them: for each outcome the fraction and the number of sites, with an interval
for both.

It reads what `fail_star sample` wrote: the lines `instructions N`, `population P` and `samples n`, and then a line
for each outcome, with its count among the n draws. A site may be drawn more than once, so a count is binomial, and
the width of an interval depends on the number of draws, and not on P. With `--live` P is the number of live sites:
dead ones have no effect, and are in no number here.

An interval is meant to have the true fraction in it with the probability of
its level, for one outcome by itself. Wilson's has it about so on the average
over all fractions. The exact one, of Clopper and Pearson, has it for each
fraction with that probability or a higher one, and mostly is the wider one.
"""

from __future__ import annotations

import argparse
import functools
import math
import re
from collections.abc import Callable, Iterator, Mapping
from dataclasses import dataclass
from decimal import Decimal
from fractions import Fraction
from statistics import NormalDist

from fail_star_tools.command_line import Parser
from fail_star_tools.count import metrics
from fail_star_tools.count.json_text import JSON_PLACES, json_line
from fail_star_tools.count.text_table import aligned
from fail_star_tools.read import regular
from fail_star_tools.read.campaign_file import Refusal
from fail_star_tools.words import say

# In the order of a report. A version has one word for all traps, or one for each kind.
TRAP, TRAP_KINDS = "trap", ("illegal", "address", "misaligned")
OUTCOMES = ("no-effect", "silent", "detected", TRAP, *TRAP_KINDS, "timeout")
HEAD = ("instructions", "population", "samples")
COLUMNS = ("outcome", "method", "draws", "fraction", "from", "to", "sites", "from", "to")
LONGEST_SAMPLE = 1_000_000
MOST_DRAWS = 1_000_000_000
LEAST_PLACES = 4
MOST_STEPS = 100  # some six are taken

HELP = """\
For each outcome it writes the fraction of the draws, that fraction of the
population in sites, and an interval of both by each method. Bounds of sites
are whole numbers; the lower one is rounded down and the upper one up.

  wilson  Wilson's score interval: it contains the true fraction with about the
          probability of the level, on average over all fractions
  exact   Clopper and Pearson's interval: it contains every fraction with at
          least this probability. It is computed by scipy if that is installed,
          otherwise by the standard library; the two agree to 1e-9

The level holds for each outcome separately: that the intervals of all outcomes
hold together is less probable. Dead sites, which `sample --live` does not draw,
are in no number.

--metrics also writes metrics of papers and standards, each with its formula:
extrapolated absolute failure counts (EAFC), expected failures per run, FIT and
diagnostic coverage, and AVF if --sites has the number of all sites, as `plan`
writes it. A sample without --live has this number as its population.

--format json writes the same as one line, an object: instructions, population,
samples, level, and a list of estimates. Each estimate has outcome, draws,
fraction, sites, and under the name of each method the fraction and sites of the
interval, two numbers each. Fractions have twelve decimal places.

How many draws are needed? An interval of half-width w around a fraction p needs
about

    n = z^2 p (1-p) / w^2      z is 1.96 for a level of 0.95, and 2.58 for 0.99

draws. So 9,604 draws give a fraction near one half to within 0.01, and some
38,000 draws give a fraction of 0.01 to within a tenth of itself. Half the width
needs four times as many draws; the number of sites does not matter. The rule
holds for outcomes with ten or more draws. An outcome that none of n draws had
may still have a fraction of 3.7 / n (level 0.95), or 5.3 / n (0.99).

The exit status is 0 if all was written, 1 if FILE has no sample or a file
failed, and 2 for wrong words.

  fail_star sample program.elf --count 10000 | estimate.py
  estimate.py --level 0.99 --method exact sample.txt
"""


@dataclass(frozen=True)
class Sample:
    """What a sample was drawn from, and how many draws had each outcome, in the order of a report."""

    instructions: int
    population: int
    draws: int
    counts: dict[str, int]


@dataclass(frozen=True)
class Interval:
    """An interval of fractions."""

    low: float
    high: float

    def sites(self, population: int) -> tuple[int, int]:
        """The interval of numbers of sites in a population, rounded outward."""
        return math.floor(Fraction(self.low) * population), math.ceil(Fraction(self.high) * population)


@dataclass(frozen=True)
class Estimate:
    """The estimate for one outcome, with an interval by each chosen method."""

    outcome: str
    draws: int
    fraction: float
    sites: int
    intervals: dict[str, Interval]


# --- The sample -----------------------------------------------------------------------------------


def number_in(line: str, word: str) -> int | None:
    """The number in a line that consists of this word and a number."""
    found = re.fullmatch(f"{word} (0|[1-9][0-9]{{0,17}})", line, re.ASCII)
    return int(found[1]) if found else None


def head_of(lines: list[str]) -> list[int]:
    """The numbers of the first lines."""
    numbers = []
    for at, word in enumerate(HEAD):
        line = lines[at] if at < len(lines) else None
        number = number_in(line, word) if line is not None else None
        if number is None:
            raise refused(at, f"{word} and a number", line)
        if number == 0:
            raise refused(at, f"{word} and a number of 1 or more", line)
        if word == "samples" and number > MOST_DRAWS:
            raise refused(at, f"samples and at most {MOST_DRAWS}", line)
        numbers.append(number)
    return numbers


def counts_of(lines: list[str]) -> dict[str, int]:
    """The number of draws with each outcome that has a line after the first ones, in the order of a report."""
    counts: dict[str, int] = {}
    for at, line in enumerate(lines[len(HEAD) :], len(HEAD)):
        word = line.partition(" ")[0]
        number = number_in(line, word) if word in OUTCOMES else None
        if number is None:
            raise refused(at, f"one of {', '.join(OUTCOMES)} and a number", line)
        if word in counts:
            raise refused(at, "each outcome once", line)
        counts[word] = number
    if TRAP in counts and any(kind in counts for kind in TRAP_KINDS):
        raise Refusal(f"expected either {TRAP} or its kinds, found both")
    return {outcome: counts[outcome] for outcome in OUTCOMES if outcome in counts}


def sample_of(text: str) -> Sample:
    """The sample in a text. The first line that is not valid is refused."""
    lines = text.splitlines()
    instructions, population, draws = head_of(lines)
    counts = counts_of(lines)
    total = sum(counts.values())
    if total != draws:
        raise Refusal(f"the outcomes add up to {total}, but there are {draws} draws")
    return Sample(instructions, population, draws, counts)


def refused(at: int, expected: str, line: str | None) -> Refusal:
    """The refusal of a line, whose number counts from 0, or of the end of the text if there is no such line."""
    return Refusal(f"line {at + 1}: expected {expected}, found {'the end' if line is None else repr(line[:60])}")


def read_sample(file: str) -> Sample:
    """The sample in the file with this name, or in standard input."""
    name = "standard input" if file == "-" else file
    try:
        with regular.opened_or_input(file) as opened:
            return sample_of(regular.lines_of(opened).read(LONGEST_SAMPLE))
    except OSError as error:
        raise Refusal(f"{name}: {error.strerror}") from None
    except Refusal as refusal:
        raise Refusal(f"{name}: {refusal}") from None


# --- Intervals ------------------------------------------------------------------------------------


def wilson(count: int, draws: int, tail: float) -> Interval:
    """Wilson's interval: the fractions from which the drawn fraction is at most z standard deviations away, where the
    standard deviation is that of the fraction in question."""
    z = -NormalDist().inv_cdf(tail)
    middle = (count + z * z / 2) / (draws + z * z)
    reach = z * math.sqrt(count * (draws - count) / draws + z * z / 4) / (draws + z * z)
    return Interval(middle - reach if count > 0 else 0.0, middle + reach if count < draws else 1.0)


def exact(count: int, draws: int, tail: float) -> Interval:
    """Clopper and Pearson's interval: the fractions at which this number of draws or more, and this number or fewer,
    both have at least the probability of the tail. The upper bound is the lower bound for the draws without the
    outcome."""
    return Interval(lower_bound(count, draws, tail), 1.0 - lower_bound(draws - count, draws, tail))


def lower_bound(count: int, draws: int, tail: float) -> float:
    """The fraction at which `count` draws or more have the probability `tail`."""
    if count == 0:
        return 0.0
    if count == draws:
        return float(tail ** (1 / draws))
    inverse = scipy_inverse()
    return solved(count, draws, tail) if inverse is None else float(inverse(count, draws - count + 1, tail))


@functools.lru_cache(maxsize=None)
def scipy_inverse() -> Callable[[int, int, float], float] | None:
    """The inverse of the regularised incomplete beta function, if scipy is installed. A binomial tail is such a
    function."""
    try:
        from scipy.special import betaincinv
    except Exception:  # the same if it cannot be loaded
        return None
    inverse: Callable[[int, int, float], float] = betaincinv
    return inverse


def solved(count: int, draws: int, tail: float) -> float:
    """The same by Newton's method, for a count above 0 and below the number of draws. The logarithm of the tail is
    concave in that of the fraction, so each step but the first goes up and not past the solution. The steps end when
    one is lost in rounding."""
    fraction = count / draws
    for taken in range(MOST_STEPS):
        logarithm, multiple = upper_tail(count, draws, fraction)
        stepped = fraction * math.exp((math.log(tail) - logarithm) * multiple / count)
        if taken > 0 and stepped <= fraction:
            break
        fraction = stepped
    return fraction


def upper_tail(count: int, draws: int, fraction: float) -> tuple[float, float]:
    """The probability of `count` draws or more, as its logarithm, and as a multiple of that of just `count`. The
    terms of the sum decrease if the fraction is at most the drawn one."""
    odds = fraction / (1 - fraction)
    term = total = 1.0
    for more in range(count, draws):
        term *= (draws - more) / (more + 1) * odds
        total += term
        if term < total * 1e-17:
            break
    ways = math.lgamma(draws + 1) - math.lgamma(count + 1) - math.lgamma(draws - count + 1)
    just = ways + count * math.log(fraction) + (draws - count) * math.log1p(-fraction)
    return just + math.log(total), total


METHODS = {"wilson": wilson, "exact": exact}


# --- What is written ------------------------------------------------------------------------------


def estimates_of(sample: Sample, level: Decimal, methods: list[str]) -> Iterator[Estimate]:
    """The estimates for all outcomes."""
    tail = float((1 - level) / 2)
    for outcome, count in sample.counts.items():
        intervals = {method: METHODS[method](count, sample.draws, tail) for method in methods}
        sites = (2 * count * sample.population + sample.draws) // (2 * sample.draws)
        yield Estimate(outcome, count, count / sample.draws, sites, intervals)


def table_of(sample: Sample, level: Decimal, estimates: list[Estimate]) -> str:
    """The lines about the sample, and a row for each outcome and method."""
    places = max(LEAST_PLACES, len(str(sample.draws)) + 1)
    rows: list[tuple[str, ...]] = [COLUMNS]
    for estimate in estimates:
        for method, interval in estimate.intervals.items():
            fractions = (f"{value:.{places}f}" for value in (estimate.fraction, interval.low, interval.high))
            sites = map(str, (estimate.sites, *interval.sites(sample.population)))
            rows.append((estimate.outcome, method, str(estimate.draws), *fractions, *sites))
    numbers = (sample.instructions, sample.population, sample.draws)
    head = "".join(f"{word} {number}\n" for word, number in zip(HEAD, numbers))
    return f"{head}level {level:f}\n\n{aligned(rows)}"


@dataclass(frozen=True)
class Measured:
    """A metric of a sample, with its bounds by each chosen method. It is unknown if no draw says anything of it."""

    metric: metrics.Metric
    value: Fraction | None
    bounds: dict[str, tuple[Fraction, Fraction] | None]


def measured_of(sample: Sample, line: argparse.Namespace) -> Iterator[Measured]:
    """All metrics: each is a fraction of the draws, or of those with an effect, times a number without an interval."""
    parts = metrics.parts_of(sample.counts, line.asked)
    wholes = {metrics.INSTRUCTIONS: sample.instructions, metrics.SITES: line.sites}
    for metric in [*metrics.extrapolated(), *metrics.metrics_of(line.asked)]:
        count, draws, scale = parts[metric.part], sample.draws, metric.factor
        if metric.whole == metrics.EFFECT:
            draws = parts[metrics.EFFECT]
        elif metric.whole is None or wholes[metric.whole] is not None:
            scale *= Fraction(sample.population, 1 if metric.whole is None else wholes[metric.whole])
        else:
            continue
        bounds: dict[str, tuple[Fraction, Fraction] | None] = {}
        for method in line.methods:
            interval = METHODS[method](count, draws, float((1 - line.level) / 2)) if draws else None
            bounds[method] = None if interval is None else (Fraction(interval.low) * scale, Fraction(interval.high) * scale)
        yield Measured(metric, scale * count / draws if draws else None, bounds)


def metric_table(measured: list[Measured], asked: metrics.Asked) -> str:
    """A row for each metric and method, and what counts as noticed."""
    rows: list[tuple[str, ...]] = [("metric", "method", "value", "from", "to")]
    for one in measured:
        for method, bounds in one.bounds.items():
            low, high = bounds or (None, None)
            rows.append((one.metric.text, method, metrics.shown(one.value), metrics.shown(low, -1), metrics.shown(high, 1)))
    return f"\n{aligned(rows)}\n{metrics.note_of(asked)}\n"


def metric_objects(measured: list[Measured]) -> dict[str, object]:
    """The same by the keys of JSON."""
    found: dict[str, object] = {}
    for one in measured:
        item: dict[str, object] = {"value": metrics.json_value(one.value)}
        for method, bounds in one.bounds.items():
            item[method] = None if bounds is None else [metrics.json_value(bound) for bound in bounds]
        found[one.metric.key] = item
    return found


def object_of(sample: Sample, level: Decimal, estimates: list[Estimate], more: Mapping[str, object]) -> str:
    """The same as one line of JSON, with the keys of each object in ascending order."""
    found = []
    for estimate in estimates:
        item = {"outcome": estimate.outcome, "draws": estimate.draws, "sites": estimate.sites}
        item["fraction"] = round(estimate.fraction, JSON_PLACES)
        for method, interval in estimate.intervals.items():
            fractions = [round(value, JSON_PLACES) for value in (interval.low, interval.high)]
            item[method] = {"fraction": fractions, "sites": list(interval.sites(sample.population))}
        found.append(item)
    whole = dict(zip(HEAD, (sample.instructions, sample.population, sample.draws)), level=float(level), estimates=found)
    return json_line({**whole, **more})


def level_of(word: str) -> Decimal:
    """A level: a number between 0 and 1."""
    if not re.fullmatch(r"0?\.[0-9]{1,15}", word, re.ASCII) or not Decimal(word):
        raise argparse.ArgumentTypeError(f"expected a number between 0 and 1, as 0.95, found {word!r}")
    return Decimal(word)


def sites_of(word: str) -> int:
    """A number of sites."""
    if not re.fullmatch(r"[1-9][0-9]{0,17}", word, re.ASCII):
        raise argparse.ArgumentTypeError(f"expected a number of sites, found {word!r}")
    return int(word)


def line_of(words: list[str]) -> argparse.Namespace:
    """The options and files that the words name."""
    parser = Parser("estimate", "Estimates all sites from the counts of a sample, with intervals.", epilog=HELP)
    parser.add_argument("file", nargs="?", default="-", metavar="FILE", help="what fail_star sample wrote; - or none: standard input")
    parser.add_argument("--level", type=level_of, default=Decimal("0.95"), metavar="L", help="the level of the intervals (default: 0.95)")
    parser.add_argument("--method", choices=[*METHODS, "both"], default="both", help="the method of the intervals (default: both)")
    parser.add_argument("--format", choices=["text", "json"], default="text", help="a table, or one line of JSON (default: text)")
    metrics.add_options(parser)
    parser.add_argument("--sites", type=sites_of, metavar="S", help="with --metrics: the number of all sites, for the AVF")
    line: argparse.Namespace = parser.parse_args(words)
    line.asked = metrics.asked_in(parser, line)
    if line.sites is not None and not line.metrics:
        parser.error("--sites needs --metrics")
    line.methods = list(METHODS) if line.method == "both" else [line.method]
    return line


def answer(line: argparse.Namespace) -> str:
    """The whole output."""
    sample = read_sample(line.file)
    estimates = list(estimates_of(sample, line.level, line.methods))
    if line.sites is not None and line.sites < sample.population:
        raise Refusal(f"--sites {line.sites}: the population alone has {sample.population}")
    measured = list(measured_of(sample, line)) if line.asked is not None else []
    if line.format == "json":
        more: dict[str, object] = {"metrics": metric_objects(measured), "noticed": line.asked.noticed} if line.asked is not None else {}
        return object_of(sample, line.level, estimates, more)
    return table_of(sample, line.level, estimates) + (metric_table(measured, line.asked) if line.asked is not None else "")


def main(words: list[str]) -> int:
    """The exit status: 0 if all was written, 1 if it was not, and 2 (argparse's) for invalid words."""
    line = line_of(words)
    return say("estimate", lambda: answer(line))
