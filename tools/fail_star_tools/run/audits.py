"""The outcomes of jobs that no campaign file has, by `fail_star audit`.

`audit` runs each job of a campaign file, and writes those whose outcome is another than in the file. So a campaign file
is made in which the jobs have no effect: those that `audit` does not name have none. It runs many jobs of a long
program in a tenth of the time that replays take, because it compares with states of the run without a fault.
"""

from __future__ import annotations

import re
import tempfile
from pathlib import Path
from typing import TextIO, Tuple

from fail_star_tools.read.campaign_file import BYTES, OPEN, OUTCOMES, ROW, Refusal
from fail_star_tools.run import program
from fail_star_tools.run.at_once import Calls, mapped
from fail_star_tools.run.progress import Progress

BATCH = 65_535  # the most rows of a batch
CLOSED = b"\0"  # the gate after the last batch
NO_EFFECT = OUTCOMES[0]
LEAST_JOBS, MOST_JOBS = 16, 2000  # of one call, which also runs the program without a fault
JOBS_LEFT = 7  # the status of a campaign that is not finished
WRONG = re.compile(r"wrong ([0-9]+) ([0-9]+) ([0-9]+) no-effect ([a-z-]+)\n")
LONGEST_LINE = 200
Site = Tuple[int, int, int]  # a cycle, a cell and a bit


def outcomes_of(called: str, image: str, sites: list[Site], options: list[str], workers: int) -> list[str]:
    """The outcomes of the jobs of these sites, which are in job order."""
    number = max(1, min(workers, len(sites) // LEAST_JOBS), len(sites) // MOST_JOBS)
    parts = [sites[first::number] for first in range(number)]
    wrong: dict[Site, str] = {}
    with tempfile.TemporaryDirectory() as folder, Progress("jobs run", len(sites)) as progress:
        begun = begun_by(called, image, options, Path(folder, "begun.keep")) if sites else b""

        def of_part(part: list[Site], calls: Calls) -> dict[Site, str]:
            with tempfile.NamedTemporaryFile(dir=folder, suffix=".keep") as file:
                file.write(begun + rows_of(part) + CLOSED)
                file.flush()
                with calls.begin(called, ["audit", image, file.name, *options]) as running:
                    with program.lines_of(running, "fail_star audit") as lines:
                        return wrong_in(lines, part)

        done = 0
        for part, found in zip(parts, mapped(of_part, parts, workers) if sites else []):
            wrong |= found
            done += len(part)
            progress.note(done)
    return [wrong.get(site, NO_EFFECT) for site in sites]


def begun_by(called: str, image: str, options: list[str], keep: Path) -> bytes:
    """A campaign file without rows, up to its first gate, as `run` begins it."""
    done = program.call(called, ["run", image, str(keep), *options, "--stop-after", "0"])
    if done.returncode != JOBS_LEFT:
        raise Refusal(f"fail_star run: {done.line}")
    return keep.read_bytes()[: -len(CLOSED)]


def rows_of(sites: list[Site]) -> bytes:
    """The batches of a campaign file in which these jobs have no effect."""
    batches = [sites[at : at + BATCH] for at in range(0, len(sites), BATCH)]
    return b"".join(
        bytes([OPEN]) + len(batch).to_bytes(2, "little") + b"".join(ROW.pack(*site, BYTES[NO_EFFECT]) for site in batch)
        for batch in batches
    )


def wrong_in(lines: TextIO, sites: list[Site]) -> dict[Site, str]:
    """The outcomes that `audit` writes for some of these jobs."""
    asked, found = set(sites), dict[Site, str]()
    while match := WRONG.fullmatch(line := lines.readline(LONGEST_LINE)):
        site = (int(match[1]), int(match[2]), int(match[3]))
        if site not in asked or match[4] not in OUTCOMES:
            break
        found[site] = match[4]
    if line != f"kept {len(asked)} wrong {len(found)}\n":
        raise Refusal(f"fail_star audit: expected an outcome of a job, and at the end their numbers, found {line[:60]!r}")
    return found
