"""Words that reach a terminal, a log or a page, and how a command is called. All that a command writes to its standard
output and error output goes through here. Characters that cannot be printed are marked."""

from __future__ import annotations

import os
import re
import sys
from collections.abc import Callable

from fail_star_tools.read.campaign_file import Refusal

TOOLS = (
    "again", "check", "compare", "estimate", "explain", "fault_map", "keep_info", "plan", "replay", "report",
    "sample_places", "sql", "sweep", "version", "watch", "where",
)  # fmt: skip
INSTALLED = "fail_star-"  # before the name of an installed tool
FILE_OF_TOOL = re.compile(rf"\b({'|'.join(TOOLS)})\.py\b")


class ReaderGone(BaseException):
    """Nobody reads the standard output any more, so the command ends. It is no Exception, so that nothing takes it for
    a refusal."""


# --- Names ----------------------------------------------------------------------------------------


def called(tool: str) -> str:
    """A tool as this process was called: `fail_star-compare` if it is installed, otherwise `compare.py`."""
    return INSTALLED + tool if is_installed() else f"{tool}.py"


def named(text: str) -> str:
    """A text that names tools by their files, such as `compare.py`: if they are installed, by their commands."""
    return FILE_OF_TOOL.sub(rf"{INSTALLED}\1", text) if is_installed() else text


def is_installed() -> bool:
    """Whether this process was called by the name of an installed tool."""
    return os.path.basename(sys.argv[0]).startswith(INSTALLED)


# --- Characters -----------------------------------------------------------------------------------


def printable(text: str) -> str:
    """A text in which question marks replace control bytes and everything else that cannot be printed."""
    return "".join(letter if letter.isprintable() else "?" for letter in text)


def in_markdown(text: str) -> str:
    """A text as Markdown shows it: no HTML, no link, and no end of a table's cell."""
    marks = {"&": "&amp;", "<": "&lt;", ">": "&gt;", "|": "\\|", "[": "\\[", "`": "\\`", "\\": "\\\\"}
    return "".join(marks.get(letter, letter) for letter in text)


# --- Standard output and error output -------------------------------------------------------------


def put(text: str) -> None:
    """Writes to standard output at once, so that an OSError says that it could not be written."""
    try:
        print(text, end="", flush=True)
    except BrokenPipeError:
        raise ReaderGone from None


def note(text: str) -> None:
    """Writes to the error output. If that is full, nobody can be told."""
    try:
        print(text, end="", file=sys.stderr, flush=True)
    except OSError:
        silence(sys.stderr.fileno())


def silence(stream: int) -> None:
    """Lets a standard stream that failed go nowhere, so that the interpreter does not fail again when it ends."""
    nowhere = os.open(os.devnull, os.O_WRONLY)
    os.dup2(nowhere, stream)
    os.close(nowhere)


def complain(tool: str, reason: object) -> None:
    """A line for the error output that says why there is no answer. If a program refused, the meaning of its line
    follows."""
    note(f"{called(tool)}: {printable(str(reason))}\n")
    if isinstance(reason, BaseException):
        from fail_star_tools.run.explain import meaning_of  # explain writes its own complaint

        for line in meaning_of(reason):
            note(f"  {printable(line)}\n")


def say(tool: str, answer: Callable[[], str]) -> int:
    """Prints what a command answers. The exit status: 0 if it was written, otherwise 1, after a complaint."""
    try:
        put(answer())
    except (Refusal, OSError) as error:
        complain(tool, error)
        return 1
    return 0
