"""Builds and campaigns of sweep.py: the results of each combination of a variant and flags, and its files.

For each combination the folder of a sweep has STEM.keep, its campaign file; STEM.log, the output of its build; and
the folder STEM, which is empty when the build begins, so that an image of an earlier command is not mistaken for a
new one. A campaign continues with its file. If fail_star says that the file belongs to another case (the bytes of the
image, the map, the limit or a flag changed), the file is renamed to STEM.keep.old, and a new one is made. A file
whose creation was interrupted has no outcome, and is started again. Any other refusal ends the campaign.
"""

from __future__ import annotations

import hashlib
import os
import re
import shutil
import subprocess
import sys
import tempfile
from dataclasses import dataclass
from pathlib import Path

from fail_star_tools.count import classed
from fail_star_tools.count.reports import Report, counts_of
from fail_star_tools.known import known
from fail_star_tools.words import complain, printable
from fail_star_tools.read import campaign_file, elf_image, linked_ram, regular
from fail_star_tools.read.campaign_file import Card, Refusal
from fail_star_tools.read.classes import Classes
from fail_star_tools.read.traces import ending_by
from fail_star_tools.run import program
from fail_star_tools.run.answer_runs import Replays

# The results of a combination.
COUNTED, UNBUILT, UNCOUNTED, STOPPED = "counted", "build failed", "campaign failed", "stopped"

# Statuses of the program, and the beginnings of the lines of two refusals of a campaign file.
WRONG_WORDS, FILE_REFUSED, JOBS_LEFT = 1, 6, 7
OTHER_CASE, NO_CAMPAIGN = "campaign file refused: 6 OtherCase at ", "campaign file refused: 1 NotACampaign"
CLOSED = b"\0"  # the first byte while a file is being created
NOWHERE = "/dev/null/none"  # not the name of a file, so that a call with it only checks its words

# These letters have no special meaning for sh and make.
OTHER_LETTERS = re.compile(r"[^A-Za-z0-9_.-]+")
# In the output of a build: an error with its name, as `a.c:2: error: ..`, `a.S:3: Error: ..` or `error[E0425]: ..`;
# what the compiler's driver says of a linker that failed; and GNU ld's line before that of an error.
NAMED_ERROR = re.compile(r"\b[Ee]rror(\[\w+\])?:")
LINKER_FAILED = re.compile(r"error: ld returned|error: linker command failed")
IN_FUNCTION = re.compile(r": in function `[^']*':$")
LONGEST_WORDS, DIGEST_LENGTH, LONGEST_REASON = 60, 12, 300


@dataclass(frozen=True)
class Combination:
    """A variant under some flags."""

    variant: str
    flags: str

    @property
    def name(self) -> str:
        """Its name in lines and tables."""
        return printable(f"{self.variant} {self.flags}".strip())

    @property
    def stem(self) -> str:
        """The beginning of the names of its files. Other combinations may have the same letters, but not the same
        digest."""
        digest = hashlib.sha256(os.fsencode(f"{self.variant}\0{self.flags}")).hexdigest()
        words = OTHER_LETTERS.sub("_", f"{self.variant} {self.flags}".strip())
        return f"{words[:LONGEST_WORDS]}-{digest[:DIGEST_LENGTH]}"


@dataclass(frozen=True)
class Sweep:
    """The settings that all combinations have in common: the folder of their files, the command that builds, the
    program and its options, and the answer classes that are counted."""

    folder: Path
    command: str
    program: str
    options: list[str]
    classes: Classes | None
    by: Replays

    def path(self, combination: Combination, suffix: str) -> Path:
        """A file of a combination."""
        return self.folder / f"{combination.stem}{suffix}"


@dataclass
class Result:
    """The results of a combination. With the same image as an earlier combination, it has the same results."""

    combination: Combination
    image: Path
    keep: Path
    status: str = COUNTED
    reason: str = ""
    digest: str = ""  # SHA-256 of the image
    same: Combination | None = None
    report: Report | None = None
    case: Card | None = None
    sent: str = ""  # of the run without a fault

    @property
    def kept(self) -> str | None:
        """The name of its campaign file, if that has outcomes."""
        return self.keep.name if self.status in (COUNTED, STOPPED) else None

    @property
    def counts(self) -> dict[str, int]:
        """The counts of a combination that has them."""
        return known(self.report).counts

    @property
    def classes(self) -> dict[str, int]:
        """The sites by answer classes, of a combination that has them."""
        return known(self.report).classes or {}

    def fails(self, status: str, reason: str, beside: str = "") -> None:
        """Ends the combination without counts, and says why."""
        self.status, self.reason = status, printable(reason.strip()[:LONGEST_REASON])
        tell(f"{self.combination.name}: {status}: {self.reason}{beside}")


def tell(line: str) -> None:
    """A line for the error output."""
    complain("sweep", line)


def progress(number: int, results: list[Result], what: str) -> None:
    """A line about the progress."""
    if sys.stderr.isatty():
        tell(f"{number} of {len(results)}: {results[number - 1].combination.name}: {what}")


def look_at_options(called: str, options: list[str]) -> None:
    """Refuses options that the program refuses, before anything is built."""
    done = program.call(called, ["run", NOWHERE, NOWHERE, *options, "--format", "json"])
    if done.returncode == WRONG_WORDS:
        raise Refusal(f"fail_star run takes no such options: {printable(' '.join(options))[:LONGEST_REASON]}")


# --- Builds ---------------------------------------------------------------------------------------


def begun(sweep: Sweep, combination: Combination) -> Result:
    """A combination before its build. Its image lies in a folder of its own."""
    name = combination.variant.replace("/", "_")
    return Result(combination, sweep.path(combination, "") / f"{name}.elf", sweep.path(combination, ".keep"))


def build(sweep: Sweep, result: Result) -> None:
    """Carries out the command. The combination is in the environment, and never in the text that the shell reads."""
    combination, out, log = result.combination, result.image.parent, sweep.path(result.combination, ".log")
    if out.exists():
        shutil.rmtree(out)
    out.mkdir()
    said = {"VARIANT": combination.variant, "FLAGS": combination.flags, "OUT": str(out), "IMAGE": str(result.image)}
    status, errors = shell(sweep.command, said, log)
    if status != 0:
        result.fails(UNBUILT, reason_of(errors) or f"no line, status {status}", f" ({log.name})")
    elif not result.image.is_file():
        result.fails(UNBUILT, "it ended with status 0, and made no file $IMAGE", f" ({log.name})")
    else:
        result.digest = hashlib.sha256(result.image.read_bytes()).hexdigest()


def shell(command: str, said: dict[str, str], log: Path) -> tuple[int, str]:
    """The status of a command and what it wrote for errors; all that it wrote is in the log. Both go to files: a pipe
    would have to wait for processes that a build may leave running. The log is a new file, also if a link has its
    name."""
    log.unlink(missing_ok=True)
    with open(log, "xb") as text, tempfile.TemporaryFile() as errors:
        words = ["sh", "-c", command]
        done = subprocess.run(words, env={**os.environ, **said}, stdin=subprocess.DEVNULL, stdout=text, stderr=errors, check=False)
        errors.seek(0)
        content = errors.read()
    with open(log, "ab") as text:
        text.write(content)
    return done.returncode, content.decode("utf-8", "replace")


def reason_of(errors: str) -> str:
    """The first line of an error that a compiler, an assembler or a linker names; or the first that mentions an error,
    or the first of all. The driver of a compiler adds a line after the linker's own, which names no error."""
    lines = [line for line in errors.splitlines() if line.strip()]
    driver = next((at for at, line in enumerate(lines) if LINKER_FAILED.search(line)), len(lines))
    tests = (names_error, is_of_linker, mentions_error) if driver < len(lines) else (names_error, mentions_error)
    return next((line for test in tests for line in lines[:driver] if test(line)), lines[0] if lines else "")


def names_error(line: str) -> bool:
    """Whether a line has an error's mark."""
    return bool(NAMED_ERROR.search(line))


def is_of_linker(line: str) -> bool:
    """Whether a line before that of the driver is GNU ld's error: it is no warning, and not the line that only names
    the function of the next one."""
    return "warning:" not in line and not IN_FUNCTION.search(line) and ("ld: " in line or "undefined reference" in line)


def mentions_error(line: str) -> bool:
    """Whether a line mentions an error."""
    return "error" in line


# --- Campaigns ------------------------------------------------------------------------------------


def count(sweep: Sweep, result: Result) -> None:
    """Runs the jobs that are missing in its campaign file, and sets the counts."""
    words = ["run", str(result.image), str(result.keep), *sweep.options, "--format", "json"]
    done = program.call(sweep.program, words)
    if done.returncode == FILE_REFUSED and makes_room(result, done.line):
        done = program.call(sweep.program, words)
    if done.returncode != 0:
        status = STOPPED if done.returncode == JOBS_LEFT else UNCOUNTED
        result.fails(status, done.line.removeprefix(f"{status}: "))
        return
    try:
        take_counts(sweep, result, done.stdout)
    except Refusal as refusal:
        result.fails(UNCOUNTED, str(refusal))


def makes_room(result: Result, line: str) -> bool:
    """Whether a refused campaign file was renamed, so that a new one can be made."""
    name, old = result.combination.name, result.keep.with_name(f"{result.keep.name}.old")
    if line.startswith(OTHER_CASE):
        os.replace(result.keep, old)
        tell(f"{name}: started again, because the image or an option changed ({line}); the old file is now {old.name}")
        return True
    if line.startswith(NO_CAMPAIGN) and first_byte(result.keep) == CLOSED:
        result.keep.unlink()
        tell(f"{name}: started again, because the creation of its campaign file was interrupted")
        return True
    return False


def first_byte(path: Path) -> bytes:
    """The first byte of a file."""
    with regular.opened(str(path)) as file:
        return file.read(1)


def take_counts(sweep: Sweep, result: Result, text: str) -> None:
    """The counts of a finished campaign, its settings, and the end of its run without a fault."""
    card = campaign_file.read(str(result.keep)).card
    result.sent, value, _ = ending_by(sweep.program, str(result.image), card.trace_options())
    result.report = Report(result.combination.name, counts_of(text), card.limit, value, card.flags(), result.sent)
    result.case = card
    warning = linked_ram.warning_of(elf_image.read(str(result.image)), card.ram)
    if warning:
        tell(f"{result.combination.name}: {warning}")
    if sweep.classes is not None:
        found = classed.counted(str(result.image), str(result.keep), sweep.classes, sweep.program, sweep.by)
        result.report.classes = found.counts()


def take_same(result: Result, other: Result) -> None:
    """Copies the results of an earlier combination with the same image."""
    result.same, result.keep = other.combination, other.keep
    result.status, result.reason, result.report, result.case, result.sent = other.status, other.reason, other.report, other.case, other.sent


def carried_out(sweep: Sweep, combinations: list[Combination]) -> list[Result]:
    """All builds, and then a campaign of each image."""
    results = [begun(sweep, combination) for combination in combinations]
    for number, result in enumerate(results, 1):
        progress(number, results, "build")
        build(sweep, result)
    firsts: dict[str, Result] = {}
    for number, result in enumerate(results, 1):
        if not result.digest:
            continue
        first = firsts.setdefault(result.digest, result)
        if first is not result:
            take_same(result, first)
        else:
            progress(number, results, "campaign")
            count(sweep, result)
    return results
