"""The files of a campaign's shards, as examples/cluster names them: I-of-N.part while jobs of shard I are missing, and
I-of-N.keep when all are kept. Ranges of cycles have the same names after `cycles-`."""

from __future__ import annotations

import os
import re
from dataclasses import dataclass
from pathlib import Path

from fail_star_tools.read.campaign_file import Refusal
from fail_star_tools.words import printable

NAME = re.compile(r"(cycles-)?([1-9][0-9]{0,4})-of-([1-9][0-9]{0,4})\.(part|keep)", re.ASCII)
MOST_SHARDS = 65_535


@dataclass(frozen=True)
class Shard:
    """A part of the jobs: those whose number modulo `of` is `number` - 1, or those of one of `of` ranges of cycles."""

    number: int
    of: int
    of_cycles: bool = False

    def share(self, jobs: int) -> int | None:
        """The number of its jobs, which is not known of a range of cycles."""
        return None if self.of_cycles else (jobs + self.of - self.number) // self.of

    def __str__(self) -> str:
        return f"{'range of cycles' if self.of_cycles else 'shard'} {self.number} of {self.of}"


def shard_of(path: str) -> Shard | None:
    """The shard whose file has such a name, or None."""
    found = NAME.fullmatch(os.path.basename(path))
    if found is None:
        return None
    shard = Shard(int(found[2]), int(found[3]), found[1] is not None)
    return shard if shard.number <= shard.of <= MOST_SHARDS else None


def present(path: str) -> str:
    """The file itself; or, if the file of a shard was renamed because all its jobs are kept, the renamed one."""
    renamed = path.removesuffix(".part") + ".keep"
    return renamed if path.endswith(".part") and not os.path.exists(path) and os.path.exists(renamed) else path


def in_folder(folder: str) -> dict[Shard, str]:
    """The files of all shards in a folder, by their numbers."""
    found: dict[Shard, str] = {}
    for name in sorted(os.listdir(folder)):
        shard = shard_of(name)
        if shard is not None:
            found[shard] = str(Path(folder) / name)
    counts = sorted({(shard.of_cycles, shard.of) for shard in found})
    if len(counts) != 1:
        what = " and ".join(f"{'cycles-' if cycles else ''}I-of-{count}" for cycles, count in counts[:2]) or "none"
        raise Refusal(f"{printable(folder)}: expected files I-of-N.part or I-of-N.keep of one N, found {what}")
    return {shard: present(path) for shard, path in sorted(found.items(), key=lambda pair: pair[0].number)}


def ranges(numbers: list[int]) -> str:
    """Ascending numbers as a text such as `1-3, 7`."""
    parts: list[list[int]] = []
    for number in numbers:
        if parts and number == parts[-1][-1] + 1:
            parts[-1] = [parts[-1][0], number]
        else:
            parts.append([number])
    return ", ".join("-".join(map(str, part)) for part in parts)
