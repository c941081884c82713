"""Calls fail_star, fail_replay, fail_answers and fail_window, for the tools that need results of the programs.

An option may name another program by mistake. So only a limited number of bytes of an answer is read, and a long
answer is read line by line, so that the first invalid line ends the call.
"""

from __future__ import annotations

import io
import os
import shlex
import shutil
import subprocess
import tempfile
import threading
from collections.abc import Iterable, Iterator
from contextlib import contextmanager
from dataclasses import dataclass
from pathlib import Path
from typing import IO, TextIO, cast

from fail_star_tools.known import known
from fail_star_tools.read import regular
from fail_star_tools.read.campaign_file import Card, Refusal
from fail_star_tools.read.digest import sha256_of
from fail_star_tools.words import printable

CRATES = Path(__file__).resolve().parents[3] / "crates"
MOST_ANSWER, MOST_ERRORS = (
    67_108_864,
    65_536,
)  # bytes of an answer that is read at once, and of the error output


def unnamed(name: str) -> str | None:
    """A program without an option for it: the one on the path, or that of the last build."""
    built = CRATES / name / "out" / name
    return shutil.which(name) or (str(built) if os.access(built, os.X_OK) else None)


def is_there() -> bool:
    """Whether there is such a fail_star."""
    return unnamed("fail_star") is not None


def found(said: str | None) -> str:
    """fail_star: the given one, or the one on the path or of the last build."""
    called = unnamed("fail_star") if said is None else said
    if called is None:
        raise Refusal("fail_star, which counts campaign files, is not on the path: name it with --program")
    return called


def replay_found(said: str | None) -> str:
    """fail_replay, in the same way."""
    called = unnamed("fail_replay") if said is None else said
    if called is None:
        raise Refusal(
            "fail_replay, which runs jobs again, is not on the path: name it with --replay"
        )
    return called


def answers_found(said: str | None, replay: str | None) -> str | None:
    """fail_answers, in the same way, or None: a release may not have it, and whoever names only a fail_replay wants
    that."""
    return unnamed("fail_answers") if said is None and replay is None else said


def window_found(said: str | None) -> str:
    """fail_window, in the same way."""
    called = unnamed("fail_window") if said is None else said
    if called is None:
        raise Refusal("fail_window, which runs a part of a campaign, is not on the path: name it with --window")
    return called


def in_gdb(image: str, site: Iterable[object], options: Iterable[str]) -> str:
    """The command that shows the run of a site in GDB."""
    served = shlex.join(["fail_debug", image, *map(str, site), *options])
    return f"gdb-multiarch {shlex.quote(image)} -ex {shlex.quote(f'target remote | {served}')}"


class Ended(Refusal):
    """A call that did not end with status 0: its line, and the words of the call."""

    def __init__(self, said: str, line: str, words: list[str]) -> None:
        super().__init__(f"{said}: {line}")
        self.line, self.words = line, words


def sum_of(called: str) -> str:
    """The SHA-256 of a program, which may be named as the path finds it."""
    return sha256_of(shutil.which(called) or called)


# --- Calls ----------------------------------------------------------------------------------------


@dataclass(frozen=True)
class Done:
    """A finished call: its status, and what it wrote."""

    returncode: int
    stdout: str
    stderr: str

    @property
    def line(self) -> str:
        """The line of a call whose status is not 0."""
        return (self.stderr.splitlines() or [f"no line, status {self.returncode}"])[0]


class Running:
    """A running call, which ends with its block. Its error output is read at the same time, so that the program need
    not wait."""

    def __init__(self, program: str, words: list[str]) -> None:
        self.program, self.words = program, words
        try:
            self.process = subprocess.Popen(
                [program, *words], stdin=subprocess.DEVNULL, stdout=subprocess.PIPE, stderr=subprocess.PIPE
            )
        except (OSError, ValueError) as error:  # a zero byte in a word gives a ValueError
            raise Refusal(f"{program}: {error.strerror if isinstance(error, OSError) else error}") from None
        self.errors = b""
        self.reader = threading.Thread(target=self.read_errors, daemon=True)
        self.reader.start()

    def __enter__(self) -> Running:
        return self

    def __exit__(self, *of_error: object) -> None:
        self.close()

    @property
    def output(self) -> IO[bytes]:
        """The output of the call."""
        return known(self.process.stdout)

    def read_errors(self) -> None:
        """Reads the error output, and ends the call if it is too long."""
        errors = known(self.process.stderr)
        self.errors = errors.read(MOST_ERRORS)
        if errors.read(1):
            self.process.kill()

    def ended(self, text: str = "") -> Done:
        """Waits for its end."""
        self.reader.join()
        status = self.process.wait()
        return Done(status, text, printable_lines(self.errors.decode("utf-8", "replace")))

    def close(self) -> None:
        """Ends the call if it is still running, and closes its outputs."""
        if self.process.poll() is None:
            self.process.kill()
        self.process.wait()
        self.reader.join()
        self.output.close()
        known(self.process.stderr).close()


def printable_lines(text: str) -> str:
    """A text whose lines can be shown on a terminal."""
    return "\n".join(map(printable, text.splitlines()))


def call(program: str, words: list[str]) -> Done:
    """A finished call of the program: its status, and everything that it wrote."""
    with Running(program, words) as running:
        content = running.output.read(MOST_ANSWER + 1)
        if len(content) > MOST_ANSWER:
            raise Refusal(f"{program}: it wrote more than {MOST_ANSWER} bytes")
        return running.ended(content.decode("utf-8", "backslashreplace"))


@contextmanager
def lines(program: str, words: list[str], said: str) -> Iterator[TextIO]:
    """The output of a call, line by line; `said` comes before the line of the program if the program refuses."""
    with Running(program, words) as running, lines_of(running, said) as text:
        yield text


@contextmanager
def lines_of(running: Running, said: str) -> Iterator[TextIO]:
    """The same of a call that was begun before."""
    text = io.TextIOWrapper(cast(io.BufferedReader, running.output), encoding="ascii", errors="backslashreplace")
    if not running.output.peek(1):  # type: ignore[attr-defined]
        look_at_end(running, said)
    yield text
    if text.read(1):
        raise Refusal(f"{said}: it wrote more than was expected: {running.program} is another program")
    look_at_end(running, said)


def look_at_end(running: Running, said: str) -> None:
    """Refuses a call that did not end with status 0."""
    done = running.ended()
    if done.returncode != 0:
        raise Ended(said, done.line, [said.split()[0], *running.words])


def answer(program: str, words: list[str]) -> str:
    """The output of fail_star, or its line as a refusal."""
    done = call(program, words)
    if done.returncode != 0:
        raise Ended(f"fail_star {words[0]}", done.line, ["fail_star", *words])
    return done.stdout


def look_at_image(image: str) -> None:
    """Refuses an image that is not a regular file: a program would wait for a pipe."""
    try:
        regular.look_at(image)
    except OSError as error:
        raise Refusal(f"{image}: {error.strerror}") from None


@contextmanager
def image_of(card: Card, said: str | None) -> Iterator[str]:
    """The name of an image of this campaign: the given one, or one that is made from the card of its file."""
    if said is not None:
        look_at_image(said)
        yield said
        return
    with tempfile.NamedTemporaryFile(suffix=".elf") as file:
        file.write(card.image())
        file.flush()
        yield file.name
