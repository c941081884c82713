"""A line of progress on the error output, if that is a terminal and the work takes more than a few seconds."""

from __future__ import annotations

import sys
import time
from collections.abc import Iterable, Iterator
from types import TracebackType
from typing import TypeVar

Item = TypeVar("Item")
FIRST_SECONDS, NEXT_SECONDS = 2.0, 0.5  # until the first line, and between two lines
ERASED = "\r\x1b[K"
OFTEN = 4096  # the items between two looks at the clock


class Progress:
    """Says how much of some work is done. The line is erased at the end."""

    def __init__(self, what: str, total: int | None = None) -> None:
        self.what, self.total = what, total
        self.due = time.monotonic() + FIRST_SECONDS if sys.stderr.isatty() else None
        self.shown = False

    def __enter__(self) -> Progress:
        return self

    def __exit__(self, kind: type[BaseException] | None, error: BaseException | None, trace: TracebackType | None) -> None:
        if self.shown:
            self.write(ERASED)

    def note(self, done: int) -> None:
        """Takes into account how much is done."""
        if self.due is not None and time.monotonic() >= self.due:
            self.due = time.monotonic() + NEXT_SECONDS
            of_all = "" if self.total is None else f" of {self.total:,}"
            self.write(f"\r{done:,}{of_all} {self.what}\x1b[K")
            self.shown = True

    def write(self, text: str) -> None:
        """Writes to the terminal. That it is gone is no reason to end."""
        try:
            sys.stderr.write(text)
            sys.stderr.flush()
        except OSError:
            self.due = None


def counted(items: Iterable[Item], what: str) -> Iterator[Item]:
    """The items, with a line that says how many were taken."""
    with Progress(what) as progress:
        for number, item in enumerate(items, 1):
            yield item
            if number % OFTEN == 0:
                progress.note(number)
