"""Compares what plan.py estimates with the whole campaigns: processor seconds and memory, by windows of neighbouring jobs,
and what the campaign file of a window has.

plan_windows.py PROGRAM IMAGE RAM LIMIT

Prints a line for each comparison that does not hold. Of the processor seconds twice as many and half as many are allowed,
since a machine that is used by others measures them badly; of the memory a third.
"""

from __future__ import annotations

import subprocess
import sys
import tempfile
from pathlib import Path

sys.path.insert(0, str(Path(__file__).resolve().parents[2] / "tools"))

from fail_star_tools.read import campaign_file  # noqa: E402
from fail_star_tools.run import plan, windows  # noqa: E402

SECONDS, MEMORY = 2.0, 4 / 3
WINDOWS, EACH = 8, 1_000
PEAK = (
    "import os, sys\n"
    "status = os.spawnv(os.P_WAIT, sys.argv[1], sys.argv[1:])\n"
    "import resource\n"
    "print(status, resource.getrusage(resource.RUSAGE_CHILDREN).ru_maxrss * 1024)"
)


def jobs_of(program: str, case: list[str]) -> list[tuple[int, int, int]]:
    """All jobs of a case: cycle, cell and bit."""
    text = subprocess.run([program, "plan", *case, "--format", "csv"], capture_output=True, text=True, check=True).stdout
    jobs = (tuple(map(int, line.split(",")[:3])) for line in text.splitlines()[1:])
    return [(cycle, cell, bit) for cycle, cell, bit in jobs]


def look_at_prefix(runs: windows.Runs, case: list[str], jobs: list[tuple[int, int, int]]) -> None:
    """A window begins at the job that it should begin at: the file then has exactly the first jobs, each once, and those
    that were run have the outcomes of a campaign."""
    with tempfile.TemporaryDirectory() as folder:
        keep, whole = f"{folder}/window.keep", f"{folder}/whole.keep"
        runs.run(whole)
        outcomes = {row[:3]: row[3] for row in campaign_file.read(whole).rows()}
        runs.run(keep, "--stop-after", "0")
        with windows.planned(runs.called, case) as rows:
            prefix = windows.Prefix(keep, rows)
            for start, length in ((len(jobs) // 3, 40), (len(jobs) // 2, 70)):
                prefix.reach(start)
                runs.run(keep, "--stop-after", str(length))
                prefix.skip(length)
                found = list(campaign_file.read(keep).rows())
                if [row[:3] for row in found] != jobs[: start + length]:
                    print(f"the window at {start}: its file does not have the first {start + length} jobs")
                if any(outcomes[row[:3]] != row[3] for row in found[start:]):
                    print(f"the window at {start}: other outcomes than those of a campaign")


def seconds_of(runs: windows.Runs) -> float:
    """The processor seconds of a whole campaign."""
    before = windows.processor_seconds()
    runs.fresh()
    return windows.processor_seconds() - before


def peak_of(runs: windows.Runs) -> int:
    """The most memory of a whole campaign, as the system counts it for a process that has ended, and for the small one
    that started it."""
    with tempfile.TemporaryDirectory() as folder:
        words = ["run", runs.image, f"{folder}/whole.keep", *runs.options, *runs.more]
        done = subprocess.run([sys.executable, "-S", "-E", "-c", PEAK, runs.called, *words], capture_output=True, text=True, check=True)
    return int(done.stdout.split()[-1])


def look_at(name: str, found: float, truth: float, factor: float) -> None:
    """Says where an estimate is off by more than a factor."""
    if not truth / factor <= found <= truth * factor:
        print(f"{name}: {found:.2f}, and in truth {truth:.2f}")


def main(program: str, image: str, ram: str, limit: str) -> None:
    """All comparisons. The bounds for short campaigns are removed, so that windows are run."""
    options = ["--ram", ram, "--limit", limit]
    runs = windows.Runs(program, image, options, ["--workers", "2"])
    jobs = jobs_of(program, [image, *options])
    look_at_prefix(runs, [image, *options], jobs)
    plan.WHOLE_SECONDS = plan.SHORT_SECONDS = 0.0
    plan.WINDOWS, plan.LEAST_EACH, plan.MOST_EACH = WINDOWS, EACH, EACH
    found = plan.estimate(runs, jobs[-1][0] + 1, len(jobs))
    if "windows" not in found.how:
        print(f"the estimate is {found.how}")
    look_at("processor seconds", found.processor, seconds_of(runs), SECONDS)
    look_at("memory", found.memory, peak_of(runs), MEMORY)


if __name__ == "__main__":
    main(*sys.argv[1:])
