#!/usr/bin/env python3
"""Writes the changelog of the Debian package: the versions of CHANGELOG.md, in the form that Debian's tools read.

debian_changelog.py MAINTAINER

Debian wants a later time for a later version, and CHANGELOG.md has only days: so the versions of a day are an hour
apart.
"""

from __future__ import annotations

import re
import sys
import textwrap
from datetime import datetime, timedelta, timezone
from email.utils import format_datetime
from pathlib import Path

CHANGELOG = Path(__file__).resolve().parent.parent / "CHANGELOG.md"
VERSION = re.compile(r"^## \[([0-9.]+)\] - (\d{4}-\d{2}-\d{2})$", re.MULTILINE)
KIND_OR_CHANGE = re.compile(r"^### (\w+)$|^- ((?:.+\n?)(?:  .+\n?)*)", re.MULTILINE)
BULLET = textwrap.TextWrapper(78, initial_indent="  * ", subsequent_indent="    ", break_on_hyphens=False)


def changes_of(section: str) -> str:
    """The changes of a version, each with its kind, such as Added."""
    kind, lines = "", []
    for found in KIND_OR_CHANGE.finditer(section):
        if found[1]:
            kind = found[1]
        else:
            lines.append(BULLET.fill(" ".join(f"{kind}: {found[2]}".split())))
    return "\n".join(lines)


def main(maintainer: str) -> None:
    """Writes all versions, the newest first."""
    text = CHANGELOG.read_text(encoding="utf-8")
    versions = list(VERSION.finditer(text))
    ends = [found.start() for found in versions[1:]] + [len(text)]
    days = [found[2] for found in versions]
    for number, (found, end) in enumerate(zip(versions, ends)):
        day = datetime.fromisoformat(found[2]).replace(tzinfo=timezone.utc)
        time = day + timedelta(hours=days[number + 1 :].count(found[2]))
        print(f"fail-star ({found[1]}) unstable; urgency=medium\n\n{changes_of(text[found.end() : end])}\n")
        print(f" -- {maintainer}  {format_datetime(time)}\n")


if __name__ == "__main__":
    main(sys.argv[1])
