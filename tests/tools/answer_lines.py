"""A stand-in for fail_answers, for tests of the tools: the same lines, by fail_replay.

answer_lines.py FAIL_STAR FAIL_REPLAY IMAGE KEEP [--outcome LIST] [--workers N] [case options]

The jobs are those of `fail_star plan` that KEEP has. If `fail_star report` refuses IMAGE or KEEP, so does this.
"""

from __future__ import annotations

import subprocess
import sys
from collections.abc import Iterator
from pathlib import Path

sys.path.insert(0, str(Path(__file__).resolve().parents[2] / "tools"))

from fail_star_tools.read import campaign_file  # noqa: E402

DONE, STOPPED = 0, 7  # statuses of `report`
AT_ONCE = 500  # sites of one call


def option_in(words: list[str], name: str, default: str) -> str:
    """The value of an option, which is taken out of the words."""
    if name not in words:
        return default
    at = words.index(name)
    value = words[at + 1]
    del words[at : at + 2]
    return value


def written(*words: str) -> str:
    """What a program writes, which must succeed."""
    return subprocess.run(words, stdout=subprocess.PIPE, text=True, check=True).stdout


def jobs_in(plan: str, keep: str, outcomes: list[str]) -> Iterator[list[str]]:
    """The cycle, cell, bit and weight of each job that a campaign file has with one of the outcomes, in job order."""
    rows = {row[:3]: campaign_file.NAMES[row[3]] for row in campaign_file.read(keep).ordered()}
    for line in plan.splitlines()[1:]:
        numbers = line.split(",")
        if rows.get((int(numbers[0]), int(numbers[1]), int(numbers[2]))) in outcomes:
            yield numbers


def main(fail_star: str, fail_replay: str, image: str, keep: str, options: list[str]) -> int:
    """The exit status."""
    outcomes, _ = option_in(options, "--outcome", "silent").split(","), option_in(options, "--workers", "1")
    looked = subprocess.run([fail_star, "report", image, keep, *options], capture_output=True, text=True, check=False)
    if looked.returncode not in (DONE, STOPPED):
        sys.stderr.write(looked.stderr)
        return looked.returncode
    jobs = list(jobs_in(written(fail_star, "plan", image, *options, "--format", "csv"), keep, outcomes))
    for at in range(0, len(jobs), AT_ONCE):
        sites = [number for job in jobs[at : at + AT_ONCE] for number in job[:3]]
        lines = written(fail_replay, "--brief", image, *sites, *options).splitlines()
        for job, record in zip(jobs[at:], zip(lines[0::5], lines[2::5], lines[3::5], lines[4::5])):
            site, output, end, outcome = (line.partition(" ")[2] for line in record)
            if site.split() != job[:3]:
                raise ValueError(f"a replay of {site}, and not of {job}")
            print(*job, outcome, output, end)
    return 0


if __name__ == "__main__":
    sys.exit(main(sys.argv[1], sys.argv[2], sys.argv[3], sys.argv[4], sys.argv[5:]))
