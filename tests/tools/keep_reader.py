"""Compares the tools' reader of campaign files with the reference's, on every file of keep_files.py: it takes the
files that the reference takes, with the same outcomes, and refuses the others for the same reason. It does not look
for a card of another case and for a row that names no job.

keep_reader.py FOLDER-OF-TOOLS
"""

from __future__ import annotations

import collections
import sys
from collections.abc import Container

import keep_file
import keep_files
import reference
from machine import Site

sys.path.insert(0, sys.argv[1])
from fail_star_tools.read import campaign_file  # noqa: E402


def by_tools(content: bytes) -> dict[str, int] | str:
    """How many jobs have each outcome, or the reason of the refusal."""
    try:
        return campaign_file.parse(content).kept()
    except campaign_file.Refusal as refusal:
        return str(refusal)


def agrees(content: bytes, case: reference.Case, jobs: Container[Site]) -> bool:
    """Whether the tools' reader answers as the reference does, as far as it can."""
    got = by_tools(content)
    if not content:  # The program begins an empty file; the tools have nothing to say of it.
        return isinstance(got, str)
    try:
        kept, _ = keep_file.accept(content, case, jobs)
        counts = collections.Counter(reference.OF_NUMBER[outcome] for outcome in kept.values())
        # A job with a row of an older version alone is counted apart.
        sites = {row[:3] for _, row in keep_file.rows_from(content, 13 + len(keep_file.card(case)))[0]}
        counts[campaign_file.OLD_TRAP] = len(sites - set(kept))
        return got == {name: counts[name] for name in (*reference.OUTCOMES, campaign_file.OLD_TRAP)}
    except keep_file.Refused as refused:
        reason = str(refused)
    if reason.startswith("6 OtherCase"):
        return True
    if reason.startswith("4 BadRow") and isinstance(got, dict):
        at = int(reason.split()[-1])
        return keep_file.ROW.unpack_from(content, at)[:3] not in jobs
    return isinstance(got, str) and (got + ":").startswith(reason + ":")


def main() -> int:
    case = keep_files.case_of()
    jobs = reference.counted(case.key())[2]
    files = list(keep_files.files())
    wrong = [name for name, content in files if not agrees(content, case, jobs)]
    print(f"{len(files)} files, {len(wrong)} read otherwise: {', '.join(wrong[:9])}".rstrip(": "))
    return 1 if wrong else 0


if __name__ == "__main__":
    sys.exit(main())
