"""Counts how often an interval of tools/estimate.py contains the true number of sites: samples of one program by a
thousand seeds, compared with its whole campaign. It is not a test, since a level is a probability: the fraction
depends on the program, the outcome and the number of draws.

coverage.py PROGRAM IMAGE [OPTION..] [--live] [--seeds N] [--count N] [--level L]

For each outcome it writes the true number of sites, and which percentage of the samples have it in each method's
interval.
"""

from __future__ import annotations

import argparse
import collections
import concurrent.futures
import decimal
import pathlib
import subprocess
import sys
import tempfile
from collections.abc import Iterator

sys.path.insert(0, str(pathlib.Path(__file__).resolve().parents[2] / "tools"))
from fail_star_tools.count import estimate  # noqa: E402


def answer(*words: str) -> str:
    return subprocess.run(words, stdin=subprocess.DEVNULL, capture_output=True, text=True, check=True).stdout


def true_counts(program: str, image: str, options: list[str], live: bool) -> dict[str, int]:
    """The number of sites of each outcome in the population, by the whole campaign."""

    def numbers(text: str) -> dict[str, int]:
        return {name: int(value) for name, value in (line.split() for line in text.splitlines())}

    with tempfile.TemporaryDirectory() as folder:
        counts = numbers(answer(program, "run", image, f"{folder}/whole.keep", *options))
    if live:
        counts["no-effect"] -= numbers(answer(program, "plan", image, *options))["dead"]
    return {outcome: counts[outcome] for outcome in estimate.OUTCOMES if outcome in counts}


def held(text: str, level: decimal.Decimal, counts: dict[str, int]) -> Iterator[tuple[str, str]]:
    """The outcome and the method of each interval of a sample that holds the true count."""
    sample = estimate.sample_of(text)
    for each in estimate.estimates_of(sample, level, list(estimate.METHODS)):
        for method, interval in each.intervals.items():
            low, high = interval.sites(sample.population)
            if low <= counts[each.outcome] <= high:
                yield each.outcome, method


def main() -> None:
    parser = argparse.ArgumentParser(allow_abbrev=False)
    parser.add_argument("program")
    parser.add_argument("image")
    parser.add_argument("--live", action="store_true")
    parser.add_argument("--seeds", type=int, default=1000)
    parser.add_argument("--count", default="1000")
    parser.add_argument("--level", type=estimate.level_of, default="0.95")
    line, options = parser.parse_known_args()
    counts = true_counts(line.program, line.image, options, line.live)
    asked = [line.program, "sample", line.image, *options, *(["--live"] if line.live else []), "--count", line.count, "--seed"]
    with concurrent.futures.ThreadPoolExecutor() as pool:
        texts = list(pool.map(lambda seed: answer(*asked, str(seed)), range(line.seeds)))
    found = collections.Counter(pair for text in texts for pair in held(text, line.level, counts))
    print(f"population {estimate.sample_of(texts[0]).population}\nsamples of {line.count} draws {line.seeds}\nlevel {line.level}")
    for outcome, sites in counts.items():
        shares = (f"{method} {100 * found[outcome, method] / line.seeds:.1f} %" for method in estimate.METHODS)
        print(f"{outcome} {sites}:", ", ".join(shares))


if __name__ == "__main__":
    main()
