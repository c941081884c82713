"""Calls of the programs that run at once: as many as `--workers` says, and never more than there are processors."""

from __future__ import annotations

import argparse
import os
import threading
from collections import deque
from collections.abc import Callable, Iterable, Iterator
from concurrent.futures import Future, ThreadPoolExecutor
from itertools import islice
from typing import TypeVar
from weakref import WeakSet

from fail_star_tools.count import places
from fail_star_tools.read.campaign_file import Refusal
from fail_star_tools.run.program import Running

WORKERS, MOST_WORKERS = 4, 64  # of `run`: without its option, and at most
Part = TypeVar("Part")
Found = TypeVar("Found")
Item = TypeVar("Item")


class Calls:
    """Calls that can all be ended together."""

    def __init__(self) -> None:
        self.lock, self.running, self.ended = threading.Lock(), WeakSet[Running](), False

    def begin(self, program: str, words: list[str]) -> Running:
        """Begins a further call, unless the calls were ended."""
        with self.lock:
            if self.ended:
                raise Refusal(f"{program}: the calls were ended")
            running = Running(program, words)
            self.running.add(running)
            return running

    def end(self) -> None:
        """Ends all calls."""
        with self.lock:
            self.ended = True
            for running in self.running:
                running.process.kill()


def mapped(call: Callable[[Part, Calls], Found], parts: Iterable[Part], workers: int) -> Iterator[Found]:
    """The answers of all parts in their order, each by calls of the programs. After a refusal or an interrupt, all
    calls are ended. Only a few answers wait for those before them."""
    calls = Calls()
    waiting: deque[Future[Found]] = deque()
    with ThreadPoolExecutor(workers) as pool:
        try:
            for part in parts:
                if len(waiting) == 2 * workers:
                    yield waiting.popleft().result()
                waiting.append(pool.submit(call, part, calls))
            while waiting:
                yield waiting.popleft().result()
        except BaseException:
            for future in waiting:
                future.cancel()
            calls.end()
            raise


def portions(items: Iterable[Item], number: int, workers: int, least: int, most: int) -> Iterator[list[Item]]:
    """The items, of which there are `number`, in portions, several for each of several workers, because some items take
    longer than others."""
    size = most if workers == 1 else max(least, min(most, number // (8 * workers)))
    left = iter(items)
    while portion := list(islice(left, size)):
        yield portion


# --- The option -----------------------------------------------------------------------------------


def processors() -> int:
    """The number of processors that this process may use."""
    return len(os.sched_getaffinity(0)) if hasattr(os, "sched_getaffinity") else os.cpu_count() or 1


def workers_of(word: str) -> int:
    """The number of calls at once that a value of the option means."""
    number = places.number_of(word)
    if not 1 <= number <= MOST_WORKERS:
        raise argparse.ArgumentTypeError(f"{word[:60]!r}: expected 1 to {MOST_WORKERS}")
    return min(number, processors())


def add_option(parser: argparse.ArgumentParser, what: str = "calls of programs") -> None:
    """The option for the number of calls, or of what else is named, at once."""
    text = f"the most {what} at once (default: {WORKERS}; never more than processors)"
    parser.add_argument("--workers", type=workers_of, default=by_default(), metavar="N", help=text)


def by_default() -> int:
    """The number of calls at once without the option."""
    return min(WORKERS, processors())
