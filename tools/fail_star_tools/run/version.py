"""Prints the version of the release, the hash of the logic that proved the programs, and the SHA-256 of each program.

The lines are those of the file RELEASE of a release: if a hash is the same, the
program is the packaged one. A missing program has `none`; without fail_star the
exit status is 1.
"""

from __future__ import annotations

from fail_star_tools.command_line import Parser
from fail_star_tools.read.campaign_file import Refusal
from fail_star_tools.release import LOGIC, VERSION
from fail_star_tools.run import program
from fail_star_tools.words import complain, say

PROGRAMS = ("fail_star", "fail_export", "fail_replay", "fail_debug", "fail_window", "fail_answers")


def main(words: list[str]) -> int:
    """The exit status: 0 if there is a fail_star, and 1 if there is none or it cannot be read."""
    parser = Parser("version", __doc__)
    parser.add_argument("--program", metavar="FILE", help="the program fail_star, if it is not on the path")
    line = parser.parse_args(words)
    files = {name: program.unnamed(name) for name in PROGRAMS}
    if line.program is not None:
        files["fail_star"] = line.program
    try:
        sums = {name: "none" if file is None else program.sum_of(file) for name, file in files.items()}
    except Refusal as refusal:
        complain("version", refusal)
        return 1
    lines = [f"version {VERSION}", f"logic {LOGIC}", *(f"{name} {digest}" for name, digest in sums.items())]
    written = say("version", lambda: "".join(f"{line}\n" for line in lines))
    return written or (1 if files["fail_star"] is None else 0)
