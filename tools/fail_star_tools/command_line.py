"""The parser of the tools' words."""

from __future__ import annotations

import argparse
import sys
from collections.abc import Sequence
from typing import IO, Any

from fail_star_tools.release import VERSION
from fail_star_tools.words import INSTALLED, called, named, note, printable, put, say


def version_of(tool: str) -> str:
    """The answer to --version."""
    return f"{INSTALLED}{tool} {VERSION}"


OF_FILES = ("FILE", "FOLDER", "IMAGE", "KEEP", "DB", "PAGE", "TABLE", "TABLE2", "BUDGET")  # how metavars of names end
ABOUT = ("-h", "--help", "--version")


def about(tool: str, words: list[str], usage: str, description: str) -> int:
    """The answer of a tool that reads its words without a parser to one of these words, or to no word. The exit
    status."""
    if not words:
        note(f"{named(usage)}\n")
        return 2
    if words[0] == "--version":
        return say(tool, lambda: f"{version_of(tool)}\n")
    return say(tool, lambda: named(f"{usage}\n{description}"))


class Handed(BaseException):
    """Carries the options and files of a parser out of the tool that made it."""

    def __init__(self, actions: list[argparse.Action]) -> None:
        super().__init__()
        self.actions = actions


class Parser(argparse.ArgumentParser):
    """A parser that knows the name of its tool. What it prints names tools as they are called, is written as every
    other answer is, and has no control bytes."""

    only_hands_out = False  # whether the words are not read, and the options are wanted

    def __init__(self, tool: str, description: str | None, **settings: Any) -> None:
        plain = argparse.RawDescriptionHelpFormatter
        super().__init__(prog=called(tool), description=description, formatter_class=plain, **settings)
        self.add_argument("--version", action="version", version=version_of(tool), help="prints the version and ends")

    def parse_args(self, args: Any = None, namespace: Any = None) -> Any:
        """The values of the words."""
        if Parser.only_hands_out:
            raise Handed(self._actions)
        return super().parse_args(args, namespace)

    def format_help(self) -> str:
        """The help, in which the installed commands have their names."""
        return named(super().format_help())

    def error(self, message: str) -> Any:
        """Ends the command for wrong words, which may have any bytes."""
        super().error(printable(message))

    def _print_message(self, message: str, file: IO[str] | None = None) -> None:
        """Writes the help or a complaint. The one of argparse hides that the output could not be written."""
        (put if file is sys.stdout else note)(message)

    def _get_values(self, action: argparse.Action, arg_strings: Sequence[str]) -> Any:
        """The value of an option or a file. Where it is the word `--`, argparse gives an empty list. The name of a file
        must not be empty: a script may have meant a variable that is not set."""
        values = super()._get_values(action, list(arg_strings))
        if values == [] and action.nargs in (None, argparse.ONE_OR_MORE):
            value = self._get_value(action, "--")
            self._check_value(action, value)
            values = value if action.nargs is None else [value]
        if "" in arg_strings and str(action.metavar).endswith(OF_FILES):
            raise argparse.ArgumentError(action, "expected a name, found none")
        return values
