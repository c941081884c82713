"""Writes the progress of a campaign once a minute, for logs: `run` itself shows it only on a terminal.

    fail_star run program.elf program.keep &
    watch.py program.keep
    watch.py folder

A line has the time, the number of jobs that are kept, how many were added per second since the line before, and the
time that the rest takes at that rate. The number of all jobs is that of `plan`, for an image that is made from the
campaign file. The tool ends when all jobs are kept, or after --times lines. After Ctrl-C the exit status is 130.

A file I-of-N.part or I-of-N.keep, as examples/cluster has them, is that of shard I of N: all its jobs are those of the
shard. Of a folder with such files the jobs of all shards are counted, and the line ends with the number of the shards
that are done, and with the shards that have no file. Files cycles-I-of-N.part and cycles-I-of-N.keep are those of
ranges of cycles. How many jobs a range has is not known, and a job at the edge of two ranges is counted in both.
"""

from __future__ import annotations

import argparse
import os
import time
from dataclasses import dataclass

from fail_star_tools.command_line import Parser
from fail_star_tools.read import campaign_file
from fail_star_tools.read.campaign_file import OUTCOMES, CampaignFile, Card, Refusal
from fail_star_tools.run import program, shards
from fail_star_tools.run.shards import Shard
from fail_star_tools.words import complain, put

MOST_TRIES, PAUSE = 5, 1.0  # while a file is being created, it is not a campaign file for a moment


def jobs_of(campaign: CampaignFile, said: str | None) -> int:
    """All jobs of a campaign."""
    called = program.found(said)
    with program.image_of(campaign.card, None) as image:
        text = program.answer(called, ["plan", image, *campaign.card.options()])
    for line in text.splitlines():
        word, _, number = line.partition(" ")
        if word == "jobs" and number.isdigit():
            return int(number)
    raise Refusal("fail_star plan: expected a line with jobs")


def kept_in(keep: str) -> tuple[CampaignFile, int]:
    """The campaign file, and how many jobs it keeps. A file that another program is writing may be valid, or renamed, a
    moment later."""
    for tried in range(MOST_TRIES):
        try:
            campaign = campaign_file.read(shards.present(keep))
            counts = campaign.kept()
            return campaign, sum(counts[outcome] for outcome in OUTCOMES)
        except Refusal:
            if tried + 1 == MOST_TRIES:
                raise
            time.sleep(PAUSE)
    raise AssertionError


@dataclass(frozen=True)
class Seen:
    """What a look at a campaign shows: the jobs that are kept, all of them if their number is known, whose they are, and
    a note."""

    kept: int
    jobs: int | None
    whose: str = ""
    note: str = ""


class OneFile:
    """A campaign file, of a whole campaign or of a shard."""

    def __init__(self, keep: str, said: str | None) -> None:
        self.keep, self.said, self.shard, self.jobs = keep, said, shards.shard_of(keep), 0

    def look(self) -> Seen:
        """What it keeps now."""
        campaign, kept = kept_in(self.keep)
        self.jobs = self.jobs or jobs_of(campaign, self.said)
        if self.shard is None:
            return Seen(kept, self.jobs)
        share = self.shard.share(self.jobs)
        if share is None and is_done(self.keep):
            share = kept
        return Seen(kept, share, f" of {self.shard}")


class Folder:
    """The shards of a campaign in a folder. A file that did not change is not read again."""

    def __init__(self, folder: str, said: str | None) -> None:
        self.folder, self.said, self.jobs = folder, said, 0
        self.card: Card | None = None
        self.known: dict[Shard, tuple[tuple[int, ...], int]] = {}

    def look(self) -> Seen:
        """What all its files keep now."""
        files = shards.in_folder(self.folder)
        done = kept = 0
        for shard, keep in files.items():
            jobs = self.kept_by(shard, keep)
            share = shard.share(self.jobs)
            done += is_done(keep) if share is None else jobs >= share
            kept += jobs if share is None else min(jobs, share)
        first = next(iter(files))
        if first.of_cycles:
            kept = self.jobs if done == first.of else min(kept, self.jobs - 1)
        missing = shards.ranges(sorted({*range(1, first.of + 1)} - {shard.number for shard in files}))
        parts = "ranges" if first.of_cycles else "shards"
        note = f"; {done} of {first.of} {parts} done" + (f", not begun: {missing}" if missing else "")
        return Seen(kept, self.jobs, "", note)

    def kept_by(self, shard: Shard, keep: str) -> int:
        """The number of jobs that the file of a shard keeps."""
        state = state_of(keep)
        if shard in self.known and self.known[shard][0] == state:
            return self.known[shard][1]
        campaign, jobs = kept_in(keep)
        self.jobs, self.card = self.jobs or jobs_of(campaign, self.said), self.card or campaign.card
        if campaign.card != self.card:
            raise Refusal(f"{keep}: a shard of another campaign than that of the first file here")
        self.known[shard] = (state, jobs)
        return jobs


def is_done(keep: str) -> bool:
    """Whether the file of a shard was renamed because all its jobs are kept."""
    return shards.shard_of(keep) is not None and shards.present(keep).endswith(".keep")


def state_of(keep: str) -> tuple[int, ...]:
    """What differs after a file was written to."""
    try:
        state = os.stat(shards.present(keep))
    except OSError as error:
        raise Refusal(f"{keep}: {error.strerror}") from None
    return state.st_ino, state.st_size, state.st_mtime_ns


def left(seconds: float) -> str:
    """A time in the two largest units."""
    whole = int(seconds + 0.5)
    if whole < 60:
        return f"{whole} s"
    if whole < 3600:
        return f"{whole // 60} min {whole % 60} s"
    return f"{whole // 3600} h {whole % 3600 // 60} min"


def line_of_progress(seen: Seen, before: int | None, seconds: float) -> str:
    """A line, without its time."""
    if seen.jobs is None:
        return f"{seen.kept} jobs{seen.whose}{rate_of(seen, before, seconds)}{seen.note}"
    return f"{seen.kept} of {seen.jobs} jobs{seen.whose}{rate_of(seen, before, seconds)}{seen.note}"


def rate_of(seen: Seen, before: int | None, seconds: float) -> str:
    """The part of a line about the jobs since the line before, and about the rest."""
    if seen.jobs is not None and seen.kept >= seen.jobs:
        return ", all"
    if before is None or seconds <= 0:
        return ""
    rate = (seen.kept - before) / seconds
    if seen.jobs is None:
        return f", {rate:.0f} a second"
    rest = f"{left((seen.jobs - seen.kept) / rate)} left" if rate > 0 else "no job since the line before"
    return f", {rate:.0f} a second, {rest}"


def watch(watched: OneFile | Folder, every: float, times: int | None) -> None:
    """Writes the lines."""
    before, at, number = None, 0.0, 0
    while True:
        seen = watched.look()
        now = time.monotonic()
        number += 1
        stamp = time.strftime("%Y-%m-%d %H:%M:%S")
        put(f"{stamp} {line_of_progress(seen, before, now - at)}\n")
        if (seen.jobs is not None and seen.kept >= seen.jobs) or number == times:
            return
        before, at = seen.kept, now
        time.sleep(every)


def seconds_of(word: str) -> float:
    """A number of seconds."""
    try:
        value = float(word)
    except ValueError:
        value = 0.0
    if not 0.01 <= value <= 86_400:
        raise argparse.ArgumentTypeError(f"expected 0.01 to 86400 seconds, found {word!r}")
    return value


def times_of(word: str) -> int:
    """A number of lines."""
    if not word.isdecimal() or not word.isascii() or int(word) < 1:
        raise argparse.ArgumentTypeError(f"expected a number of lines, found {word!r}")
    return int(word)


def main(words: list[str]) -> int:
    """The exit status: 0 if the campaign is whole or all lines were written, 1 if the file could not be read."""
    parser = Parser("watch", __doc__)
    parser.add_argument("keep", metavar="KEEP", help="the campaign file, or a folder of shards")
    parser.add_argument(
        "--every", type=seconds_of, default=60.0, metavar="SECONDS", help="the time between two lines (default: 60)"
    )
    parser.add_argument("--times", type=times_of, metavar="N", help="ends after this number of lines")
    parser.add_argument("--program", metavar="FILE", help="the program fail_star, if it is not on the path")
    line = parser.parse_args(words)
    try:
        folder = os.path.isdir(line.keep)
        watched: OneFile | Folder = Folder(line.keep, line.program) if folder else OneFile(line.keep, line.program)
        watch(watched, line.every, line.times)
    except (Refusal, OSError) as error:
        complain("watch", error)
        return 1
    return 0
