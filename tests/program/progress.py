#!/usr/bin/env python3
"""The line of progress of a campaign, on a pseudo-terminal.

usage: progress.py PROGRAM

The campaign is that of an example whose injected runs seldom meet, with a long limit and one worker, so that it takes
seconds. The output, the status and the campaign file must be the same with a terminal and without one.
"""

from __future__ import annotations

import fcntl
import os
import pty
import re
import shutil
import signal
import struct
import subprocess
import sys
import tempfile
import termios
import threading
from dataclasses import dataclass
from pathlib import Path

BUILT = Path(__file__).resolve().parents[2] / "examples/built"
IMAGE = BUILT / "cipher.elf"
QUICK = BUILT / "checksum.elf"
MAP = ["--rom", "0x20000000:2048", "--ram", "0x80000000:64"]
CASE = [*MAP, "--limit", "700000"]
PAGE = 100
SLOW = [*CASE, "--workers", "1", "--page", str(PAGE)]
LINE = re.compile(
    r"\r\x1b\[\?7l(\d+) of (\d+) jobs kept, (\d+) a second, ((?:\d+ h \d+ min|\d+ min \d+ s|\d+ s)) left\x1b\[K\x1b\[\?7h"
)
# What the program sends to a terminal: wrap off and on, erase to the end of the line, and characters.
CODE = re.compile(r"\x1b\[\?7([lh])|(\x1b\[K)|(\r)|(\n)|([^\x1b\r\n])")
KEPT = re.compile(r"stopped: (\d+) of \d+ jobs kept\n")
ERASED = "\r\x1b[K"
# Well behind the half second that goes before the first line, and before the end.
SECONDS_SEEN = 1.5
SECONDS_AT_MOST = 240

passed = failed = 0
Line = tuple[int, int, int, str]  # jobs that are kept, all jobs, jobs in a second, and the time left


def check(name: str, holds: object, seen: object = "") -> None:
    global passed, failed
    if holds:
        passed += 1
    else:
        failed += 1
        print(f"failed: {name}: {seen!r}")


@dataclass
class Ended:
    status: int
    out: str
    screen: str
    same_terminal: bool


def read_all(end: int, pieces: list[bytes]) -> None:
    """Reads a terminal to its end, which Linux tells by an error."""
    while True:
        try:
            piece = os.read(end, 65536)
        except OSError:
            return
        if not piece:
            return
        pieces.append(piece)


def on_terminal(
    words: list[str], *, kind: str | None = "xterm", out_too: bool = False, stop: bytes | None = None, columns: int = 80
) -> Ended:
    """Carries out a line whose error output is a terminal. `stop` is what is typed after some time."""
    ours, theirs = pty.openpty()
    fcntl.ioctl(theirs, termios.TIOCSWINSZ, struct.pack("HHHH", 24, columns, 0, 0))
    before = termios.tcgetattr(theirs)
    environment = dict(os.environ)
    environment.pop("TERM", None)
    if kind is not None:
        environment["TERM"] = kind
    pieces: list[bytes] = []
    reader = threading.Thread(target=read_all, args=(ours, pieces))

    def own_terminal() -> None:
        os.setsid()
        fcntl.ioctl(theirs, termios.TIOCSCTTY, 0)

    process = subprocess.Popen(words, env=environment, stdin=theirs, stdout=theirs if out_too else subprocess.PIPE, stderr=theirs, preexec_fn=own_terminal)
    reader.start()
    if stop:
        try:
            process.wait(SECONDS_SEEN)
        except subprocess.TimeoutExpired:
            os.write(ours, stop)
    out = process.communicate(timeout=SECONDS_AT_MOST)[0]
    same = termios.tcgetattr(theirs) == before
    os.close(theirs)
    reader.join()
    os.close(ours)
    return Ended(process.returncode, (out or b"").decode(), b"".join(pieces).decode(), same)


def elsewhere(words: list[str]) -> Ended:
    ran = subprocess.run(words, capture_output=True, timeout=SECONDS_AT_MOST)
    return Ended(ran.returncode, ran.stdout.decode(), ran.stderr.decode(), True)


def shown_on(columns: int, sent: str) -> list[str]:
    """The rows of a terminal of this width after what was sent to it, as xterm shows them."""
    rows, row, column, wraps = [""], 0, 0, True
    for wrap, erase, begin, feed, sign in CODE.findall(sent):
        if wrap:
            wraps = wrap == "h"
        elif erase:
            rows[row] = rows[row][:column]
        elif begin:
            column = 0
        elif feed:
            row += 1
        else:
            if column == columns:
                row, column = (row + 1, 0) if wraps else (row, columns - 1)
            while len(rows) <= row:
                rows.append("")
            rows[row] = rows[row][:column].ljust(column) + sign + rows[row][column + 1 :]
            column += 1
        while len(rows) <= row:
            rows.append("")
    return rows


def lines_in(screen: str) -> list[Line]:
    return [(int(kept), int(jobs), int(rate), left) for kept, jobs, rate, left in LINE.findall(screen)]


def without_lines(screen: str) -> str:
    return LINE.sub("", screen)


def fits(lines: list[Line], due: int) -> bool:
    """Whether the time left is what the jobs that are due take at the rate that is told, where that is precise enough."""
    return all(abs(seconds(left) - (due - kept) / rate) <= 2 + seconds(left) / 50 for kept, _, rate, left in lines if rate > 100)


def seconds(left: str) -> int:
    numbers = [int(word) for word in left.split() if word.isdigit()]
    units = [word for word in left.split() if not word.isdigit()]
    return sum(number * {"h": 3600, "min": 60, "s": 1}[unit] for number, unit in zip(numbers, units))


def main(program: str) -> None:
    def run(keep: str, *more: str) -> list[str]:
        return [program, "run", str(IMAGE), keep, *more]

    whole = elsewhere(run("whole.keep", *SLOW))
    check("without a terminal there is no line", (whole.status, whole.screen) == (0, ""), whole)
    planned = dict(line.split() for line in elsewhere([program, "plan", str(IMAGE), *CASE]).out.splitlines())
    jobs = int(planned["jobs"])

    shown = on_terminal(run("shown.keep", *SLOW))
    lines = lines_in(shown.screen)
    check("lines on a terminal", len(lines) >= 2, shown.screen)
    check("and nothing else, erased at the end", without_lines(shown.screen) == ERASED, shown.screen)
    check("the output is as without one", (shown.status, shown.out) == (whole.status, whole.out), shown)
    check("and so is the campaign file", Path("shown.keep").read_bytes() == Path("whole.keep").read_bytes())
    check("of all jobs", all(line[1] == jobs for line in lines), lines)
    check("none has less than the one before", all(one[0] <= other[0] for one, other in zip(lines, lines[1:])), lines)
    check("none has more than all", all(0 < line[0] <= jobs for line in lines), lines)
    check("each counts whole pages", all(line[0] % PAGE == 0 or line[0] == jobs for line in lines), lines)
    check("the time left is that of the jobs left", fits(lines, jobs), lines)

    for columns in 40, 20:
        narrow = on_terminal(run(f"narrow{columns}.keep", *SLOW), columns=columns)
        drawn = narrow.screen.split("\x1b[?7h")
        rows = [shown_on(columns, "".join(f"{piece}\x1b[?7h" for piece in drawn[:count])) for count in range(1, len(drawn))]
        check(f"{columns} columns show the beginning of the line alone", rows and all(len(seen) == 1 and 0 < len(seen[0]) <= columns for seen in rows), rows)
        check(f"{columns} columns are blank in the end", shown_on(columns, narrow.screen) == [""], narrow.screen)

    both = on_terminal(run("both.keep", *SLOW), out_too=True)
    check("the report stands where the line was", without_lines(both.screen) == ERASED + whole.out.replace("\n", "\r\n"), both.screen)
    many = on_terminal(run("many.keep", *CASE, "--workers", "7"))
    check("many workers", without_lines(many.screen) in ("", ERASED) and many.out == whole.out, many)

    for kind in "dumb", None:
        plain = on_terminal(run(f"{kind}.keep", *CASE), kind=kind)
        check(f"no line on a terminal whose kind is {kind}", (plain.status, plain.out, plain.screen) == (0, whole.out, ""), plain)
    quick = on_terminal([program, "run", str(QUICK), "quick.keep", *MAP])
    check("no line where it ends at once", without_lines(quick.screen) in ("", ERASED) and quick.status == 0, quick)
    listed = on_terminal([program, "plan", str(IMAGE), *CASE])
    check("no line of what runs no jobs", (listed.status, listed.screen) == (0, ""), listed)

    half = jobs // 2
    stopped = on_terminal(run("part.keep", *SLOW, "--stop-after", str(half)))
    check("a budget", (stopped.status, without_lines(stopped.screen)) == (7, f"{ERASED}stopped: {half} of {jobs} jobs kept\r\n"), stopped)
    lines = lines_in(stopped.screen)
    check("its time left is that of the budget", fits(lines, half) and all(line[0] <= half and line[1] == jobs for line in lines), lines)
    rest = on_terminal(run("part.keep", *SLOW))
    lines = lines_in(rest.screen)
    check("what was kept counts", rest.out == whole.out and fits(lines, jobs) and all(line[0] >= half for line in lines), rest)
    shutil.copy("whole.keep", "again.keep")
    again = on_terminal(run("again.keep", *SLOW))
    check("a complete file has none", (again.status, again.out, again.screen) == (0, whole.out, ""), again)

    killed = on_terminal(run("killed.keep", *SLOW), stop=b"\x03")
    check("Ctrl-C ends it", killed.status == -signal.SIGINT, killed)
    check("and leaves the terminal as it was", killed.same_terminal and without_lines(killed.screen).strip("\r\n") in ("^C", ""), killed.screen)
    lines = lines_in(killed.screen)
    check("a line was there", len(lines) >= 1, killed.screen)
    left = KEPT.fullmatch(elsewhere([program, "report", str(IMAGE), "killed.keep", *CASE]).screen)
    check("the file has what it said to be kept", left and lines and int(left[1]) >= lines[-1][0], (left, lines))
    after = elsewhere(run("killed.keep", *SLOW))
    check("its file is taken up", (after.status, after.out) == (0, whole.out), after)


if __name__ == "__main__":
    program = os.path.realpath(sys.argv[1])
    with tempfile.TemporaryDirectory() as folder:
        os.chdir(folder)
        main(program)
        os.chdir("/")
    print(f"{passed} passed, {failed} failed")
    sys.exit(failed != 0)
