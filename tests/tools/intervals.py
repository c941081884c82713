"""Compares the intervals of tools/estimate.py with their definitions, by sums of sixty digits; with published
intervals; and with those of scipy, if that is installed. Each bound must be right to 1e-9.

intervals.py FOLDER-OF-TOOLS
"""

from __future__ import annotations

import decimal
import sys
from collections.abc import Callable, Iterator
from decimal import Decimal
from typing import Any

sys.path.insert(0, sys.argv[1])
from fail_star_tools.count import estimate  # noqa: E402

decimal.setcontext(decimal.Context(prec=60, Emax=decimal.MAX_EMAX, Emin=decimal.MIN_EMIN))
NEAR = Decimal("1e-9")

# Levels, each with the point that a standard normal value is within, of either sign, with that probability: tables of it have these.
LEVELS = {"0.9": "1.644853626951473", "0.95": "1.959963984540054", "0.99": "2.575829303548901", "0.999": "3.290526731491926"}

# Counts, draws, a method and its interval of 95 %, as published, and to how many places. R. G. Newcombe, "Two-sided confidence
# intervals for the single proportion: comparison of seven methods" (Statistics in Medicine 17, 1998), table I; W. J. Conover's
# example of a binomial test as the manual of R has it; and those of half and none of ten draws, as many tables have them.
PUBLISHED = [
    (81, 263, "wilson", 0.2553, 0.3662, 4),
    (15, 148, "wilson", 0.0624, 0.1605, 4),
    (0, 20, "wilson", 0.0000, 0.1611, 4),
    (1, 29, "wilson", 0.0061, 0.1718, 4),
    (5, 10, "wilson", 0.2366, 0.7634, 4),
    (81, 263, "exact", 0.2527, 0.3676, 4),
    (15, 148, "exact", 0.0578, 0.1617, 4),
    (0, 20, "exact", 0.0000, 0.1684, 4),
    (1, 29, "exact", 0.0009, 0.1776, 4),
    (682, 925, "exact", 0.7076683, 0.7654066, 7),
    (0, 10, "exact", 0.0000, 0.3085, 4),
    (5, 10, "exact", 0.1871, 0.8129, 4),
]

# Counts and draws: all of few draws, the published ones, and some of many, up to the most that the command draws.
FEW = [(count, draws) for draws in (1, 2, 3, 10) for count in range(draws + 1)]
SOME = [(0, 20), (1, 29), (15, 148), (81, 263), (682, 925), (500, 1000), (999, 1000), (3, 100_000), (99_997, 100_000)]
MANY = [(0, 10**6), (1, 10**6), (87_500, 10**6), (10**6 - 1, 10**6), (10**6, 10**6)]


def probability(count: int, draws: int, fraction: Decimal) -> Decimal:
    """That so many of the draws have what each has with this probability: the binomial coefficient by its product."""
    product = Decimal(1)
    fewer = min(count, draws - count)
    for factor in range(1, fewer + 1):
        product = product * (draws - fewer + factor) / factor
    return product * fraction**count * (1 - fraction) ** (draws - count)


def at_least(count: int, draws: int, fraction: Decimal) -> Decimal:
    """That `count` of the draws or more have it, term by term until they are nothing beside the sum."""
    term = total = probability(count, draws, fraction)
    for more in range(count, draws):
        term *= Decimal(draws - more) / (more + 1) * fraction / (1 - fraction)
        total += term
        if term < total * Decimal("1e-40"):
            break
    return total


def at_most(count: int, draws: int, fraction: Decimal) -> Decimal:
    """That `count` of the draws or fewer have it."""
    term = total = probability(count, draws, fraction)
    for fewer in range(count, 0, -1):
        term *= Decimal(fewer) / (draws - fewer + 1) * (1 - fraction) / fraction
        total += term
        if term < total * Decimal("1e-40"):
            break
    return total


def is_exact(count: int, draws: int, level: str, low: Decimal, high: Decimal) -> bool:
    """Whether `count` or more are just as rare at the lower bound as the level says, and `count` or fewer at the upper one."""
    tail = (1 - Decimal(level)) / 2
    below, above = low - NEAR, high + NEAR
    lower = low == 0 if count == 0 else (below <= 0 or at_least(count, draws, below) < tail) and at_least(count, draws, low + NEAR) > tail
    upper = high == 1 if count == draws else (above >= 1 or at_most(count, draws, above) < tail) and at_most(count, draws, high - NEAR) > tail
    return lower and upper


def is_wilson(count: int, draws: int, level: str, low: Decimal, high: Decimal) -> bool:
    """Whether the drawn fraction is just so many of its standard deviations away from either bound."""
    z = Decimal(LEVELS[level])

    def away(fraction: Decimal) -> bool:
        return (Decimal(count) / draws - fraction) ** 2 * draws > z * z * fraction * (1 - fraction)

    lower = low == 0 if count == 0 else away(low - NEAR) and not away(low + NEAR)
    upper = high == 1 if count == draws else away(high + NEAR) and not away(high - NEAR)
    return lower and upper


def found(method: str, count: int, draws: int, level: str) -> tuple[float, float]:
    """The tool's interval."""
    interval = estimate.METHODS[method](count, draws, float((1 - Decimal(level)) / 2))
    return interval.low, interval.high


def wrong_by_definition(by: str) -> Iterator[str]:
    """Which intervals are not as they are defined."""
    tried = [(count, draws, level) for count, draws in FEW + SOME for level in LEVELS] + [(*pair, "0.95") for pair in MANY]
    for method, holds in (("exact", is_exact), ("wilson", is_wilson)):
        for count, draws, level in tried:
            low, high = found(method, count, draws, level)
            if not holds(count, draws, level, Decimal(low), Decimal(high)):
                yield f"{method} of {count} in {draws} at {level}, by {by}: {low} to {high}"


def wrong_by_publication(by: str) -> Iterator[str]:
    """Which intervals are not as they were published."""
    for count, draws, method, low, high, places in PUBLISHED:
        got = tuple(round(bound, places) for bound in found(method, count, draws, "0.95"))
        if got != (low, high):
            yield f"{method} of {count} in {draws}, by {by}: {got}, published as {low} to {high}"


def wrong_coverage(by: str) -> Iterator[str]:
    """At which fractions the exact intervals of twenty draws do not have the fraction in them as often as they say."""
    intervals = [found("exact", count, 20, "0.95") for count in range(21)]
    for thousandth in range(5, 1000, 5):
        fraction = Decimal(thousandth) / 1000
        holds = sum(probability(count, 20, fraction) for count, (low, high) in enumerate(intervals) if low <= fraction <= high)
        if holds < Decimal("0.95"):
            yield f"the exact intervals of 20 draws, by {by}, hold {float(fraction)} with {float(holds)}"


def wrong_beside_scipy(binomtest: Callable[..., Any]) -> Iterator[str]:
    """Which intervals are not scipy's."""
    for count, draws in FEW + SOME + MANY:
        for level in LEVELS:
            for method in ("exact", "wilson"):
                wanted = binomtest(count, draws).proportion_ci(float(level), method)
                got = found(method, count, draws, level)
                if max(abs(got[0] - wanted.low), abs(got[1] - wanted.high)) > 1e-9:
                    yield f"{method} of {count} in {draws} at {level}: {got}, by scipy {wanted.low} to {wanted.high}"


def wrong(by: str) -> list[str]:
    """All intervals that are not as they must be, by the way in which the exact ones are found now."""
    return [*wrong_by_definition(by), *wrong_by_publication(by), *wrong_coverage(by)]


def main() -> int:
    complaints = wrong("scipy") if estimate.scipy_inverse() else []
    setattr(estimate, "scipy_inverse", lambda: None)
    complaints += wrong("the standard library")
    try:
        from scipy.stats import binomtest
    except ImportError:
        print("skipped: intervals beside scipy's, which is not installed")
    else:
        complaints += wrong_beside_scipy(binomtest)
    print("".join(f"{complaint}\n" for complaint in complaints[:9]), end="")
    return 1 if complaints else 0


if __name__ == "__main__":
    sys.exit(main())
