"""The commands, as functions for the starters of tools/ and for `pip install`. Each ends the process with its exit
status."""

from __future__ import annotations

import argparse
import os
import shlex
import signal
import sys
from collections.abc import Callable
from importlib import import_module
from io import TextIOWrapper
from typing import NoReturn

from fail_star_tools.command_line import Handed, Parser
from fail_star_tools.words import ReaderGone, called, complain, is_installed, note, printable, silence

INTERRUPTED = 130
GOES_ON = ("sweep", "watch")  # these continue, if they are called again, with what was kept
FOLDERS = {
    "count": ("check", "compare", "estimate", "keep_info", "sample_places", "sql", "where"),
    "page": ("fault_map", "replay", "report"),
    "run": ("again", "explain", "plan", "sweep", "version", "watch"),
}
CLOSED_STREAMS = (os.O_WRONLY, os.O_RDONLY, os.O_WRONLY)  # how /dev/null takes the place of each one


def main_of(tool: str) -> Callable[[list[str]], int]:
    """The main function of a tool."""
    folder = next(folder for folder, tools in FOLDERS.items() if tool in tools)
    main: Callable[[list[str]], int] = import_module(f"fail_star_tools.{folder}.{tool}").main
    return main


def actions_of(tool: str) -> list[argparse.Action]:
    """The options and files of a tool, for completions and tests. `again` and `explain` have no parser."""
    Parser.only_hands_out = True
    try:
        main_of(tool)([])
    except Handed as handed:
        return handed.actions
    finally:
        Parser.only_hands_out = False
    raise AssertionError(tool)


def ends_with(tool: str) -> NoReturn:
    """Runs the main function of a tool with the words of the command line."""
    prepare_streams()
    try:
        sys.exit(main_of(tool)(sys.argv[1:]))
    except ReaderGone:
        end_as_cat()
    except MemoryError:
        complain(tool, "there is not enough memory")
    except (ImportError, OSError) as error:  # a Python without sqlite3 or zlib; help that was not written
        complain(tool, str(error))
    except KeyboardInterrupt:
        signal.signal(signal.SIGINT, signal.SIG_IGN)
        if tool in GOES_ON:
            note(f"{called(tool)}: interrupted; continue by: {printable(this_command())}\n")
        sys.exit(INTERRUPTED)
    finally:
        empty_output()
    sys.exit(1)


def this_command() -> str:
    """The words by which this process was called, as a shell takes them."""
    starter = [] if is_installed() else ["python3"]
    return shlex.join([*starter, *sys.argv])


def prepare_streams() -> None:
    """Puts something in the place of standard streams that the caller closed, before a file gets their numbers: to read
    or to write there fails as if they were closed. A character that an output cannot encode is shown by its number."""
    for number, manner in enumerate(CLOSED_STREAMS):
        try:
            os.fstat(number)
        except OSError:
            os.open(os.devnull, manner)
    sys.stdout = sys.stdout or open(1, "w", encoding="utf-8", closefd=False)
    sys.stderr = sys.stderr or open(2, "w", encoding="utf-8", closefd=False)
    for stream in (sys.stdout, sys.stderr):
        if isinstance(stream, TextIOWrapper):
            stream.reconfigure(errors="backslashreplace")


def empty_output() -> None:
    """Leaves nothing for the interpreter to write when it ends: a failure was told already."""
    try:
        sys.stdout.flush()
    except OSError:
        silence(1)


def end_as_cat() -> NoReturn:
    """Ends the process as a program in C ends whose reader is gone: without a line, and by the signal."""
    silence(1)
    signal.signal(signal.SIGPIPE, signal.SIG_DFL)
    os.kill(os.getpid(), signal.SIGPIPE)
    sys.exit(1)


def check() -> NoReturn:
    """Checks campaigns against a budget of sites."""
    ends_with("check")


def compare() -> NoReturn:
    """Compares campaigns by their counts of sites."""
    ends_with("compare")


def estimate() -> NoReturn:
    """Estimates the counts of all sites from a sample."""
    ends_with("estimate")


def explain() -> NoReturn:
    """Explains a line of the error output, or an exit status."""
    ends_with("explain")


def fault_map() -> NoReturn:
    """Draws the fault space of a campaign as an SVG picture."""
    ends_with("fault_map")


def keep_info() -> NoReturn:
    """Shows the case of a campaign file, and what it keeps."""
    ends_with("keep_info")


def report() -> NoReturn:
    """Writes an HTML page about one or two campaigns."""
    ends_with("report")


def sample_places() -> NoReturn:
    """Estimates where sites are from a sample."""
    ends_with("sample_places")


def sql() -> NoReturn:
    """Stores a campaign in an SQLite database."""
    ends_with("sql")


def sweep() -> NoReturn:
    """Runs a campaign of each variant under each choice of compiler flags."""
    ends_with("sweep")


def version() -> NoReturn:
    """Prints the version, and the hashes of the programs."""
    ends_with("version")


def where() -> NoReturn:
    """Shows where the silent sites of a campaign are."""
    ends_with("where")


def again() -> NoReturn:
    """Runs a command on a campaign file with the options that the file was made with."""
    ends_with("again")


def plan() -> NoReturn:
    """Says before a campaign is run how long it takes, and what it needs."""
    ends_with("plan")


def watch() -> NoReturn:
    """Writes the progress of a campaign, one line per minute."""
    ends_with("watch")


def replay() -> NoReturn:
    """Shows what one flip does, with functions, source lines and registers."""
    ends_with("replay")
