"""The calls of manners.sh: prints a row for each check, its name and `yes`, or what was found.

manners.py TOP PROGRAM REPLAY           in a folder with the files that manners.sh makes

Most calls are made by children of this process, which has the modules of the tools already. Where a standard stream
is closed or is no file, an interpreter is started.
"""

from __future__ import annotations

import os
import re
import subprocess
import sys
import tempfile
import time
from typing import NamedTuple

TOP, PROGRAM, REPLAY = sys.argv[1:]
sys.path.insert(0, f"{TOP}/tools")

from fail_star_tools import commands, release, words  # noqa: E402

FOUND, CALLED = ["--program", PROGRAM], ["--replay", REPLAY]
RAM = ["--ram", "0x80000000:64"]
CLASSES = ["--classes", "some.classes", *CALLED]
PIPE = "pipe"
SECONDS = 60  # the most that a call may take, on a busy machine

# For each tool words with which it answers, and its status if the answer cannot be written.
GOOD: dict[str, tuple[list[str], int]] = {
    "again": (["--help"], 1),
    "check": (["some.budget", "pin.keep", *FOUND], 2),
    "compare": (["pin.keep", *FOUND], 1),
    "estimate": (["sample.txt"], 1),
    "explain": (["5"], 1),
    "fault_map": (["pin.keep", *FOUND], 1),
    "keep_info": (["pin.keep"], 1),
    "plan": (["--help"], 1),
    "replay": (["pin.keep", "5", "10", "3", *CALLED], 1),
    "report": (["pin.keep", "-o", "/dev/stdout", *FOUND], 1),
    "sample_places": (["pin.elf", "--count", "5", *RAM, *FOUND, *CALLED], 1),
    "sql": (["pin.keep", "pin.db", "--replace", *FOUND], 1),
    "sweep": (["--variant", "pin", "--build", 'cp pin.elf "$IMAGE"', *FOUND, "--", *RAM], 2),
    "version": (FOUND, 1),
    "watch": (["pin.keep", "--times", "1", *FOUND], 1),
    "where": (["pin.elf", "pin.keep", "--disassembler", "none", *FOUND], 1),
}

# Calls in which a pipe has the place of a file that is read or written.
PIPES: dict[str, list[list[str]]] = {
    "again": [["report", PIPE, *FOUND], ["report", "pin.elf", PIPE, *FOUND], ["audit", PIPE, *FOUND]],
    "check": [
        [PIPE, "pin.keep", *FOUND], ["some.budget", PIPE], ["some.budget", f"{PIPE},pin.keep", *FOUND],
        ["some.budget", f"pin.elf,{PIPE}", *FOUND], ["some.budget", "pin.csv", "--keep", PIPE],
        *(["some.budget", "pin.keep", *FOUND, option, PIPE] for option in ("--junit", "--sarif", "--code-quality", "--markdown", "--receipt")),
        ["some.budget", "pin.elf,pin.csv", "--trace", PIPE, *RAM], ["some.budget", "pin.keep", "--classes", PIPE],
    ],
    "compare": [[PIPE], [f"pin.elf,{PIPE}", *FOUND], [f"{PIPE},pin.keep", *FOUND], ["pin.keep", "--classes", PIPE]],
    "estimate": [[PIPE]],
    "fault_map": [
        [PIPE], ["pin.csv", "-o", PIPE], ["pin.csv", "--image", PIPE, *RAM], ["pin.keep", "--image", PIPE, *FOUND],
    ],
    "keep_info": [[PIPE], ["pin.keep", "--image", PIPE]],
    "plan": [[PIPE, *FOUND]],
    "replay": [[PIPE, "5", "10", "3"], ["pin.keep", "5", "10", "3", "--image", PIPE, *CALLED],
               ["pin.keep", "5", "10", "3", "--html", PIPE, *CALLED]],
    "report": [
        [PIPE, "-o", "page.html"], ["pin.csv", "-o", PIPE], ["pin.csv", "-o", "page.html", "--keep", PIPE],
        ["pin.csv", "-o", "page.html", "--image", PIPE], ["pin.csv", "-o", "page.html", "--trace", PIPE],
        ["pin.csv", "-o", "page.html", "--compare", PIPE], ["pin.keep", "-o", "page.html", "--classes", PIPE, *FOUND],
    ],
    "sample_places": [[PIPE, *FOUND, *CALLED]],
    "sql": [
        [PIPE, "pin.db", *FOUND], ["pin.keep", PIPE, *FOUND], ["pin.keep", "pin.db", PIPE, *FOUND],
        ["pin.keep", "pin.db", "--classes", PIPE, *FOUND],
    ],
    "sweep": [
        [*GOOD["sweep"][0][:-3], "--classes", PIPE, "--", *RAM], [*GOOD["sweep"][0][:-3], "--page", PIPE, "--", *RAM],
    ],
    "version": [["--program", PIPE]],
    "watch": [[PIPE, *FOUND]],
    "where": [
        [PIPE, "pin.keep", *FOUND], ["pin.elf", PIPE, *FOUND], ["pin.elf", "pin.csv", "--trace", PIPE, *RAM],
        ["pin.elf", "pin.keep", "--classes", PIPE, *FOUND], ["pin.elf", "pin.keep", *FOUND, "--diff", PIPE, "pin.keep"],
        ["pin.elf", "pin.keep", *FOUND, "--diff", "pin.elf", PIPE],
        ["pin.elf", "pin.csv", *FOUND, *RAM, "--diff", "pin.elf", "pin.csv", "--other-trace", PIPE],
    ],
}  # fmt: skip
REFUSED = re.compile("Not a regular file|it is not a file|expected a campaign file, found 'pipe'")
# explain looks at the files of a command, and answers all the same.
EXPLAINED = (
    ["5", "run", "pin.elf", PIPE], ["1 NotACampaign", "run", "pin.elf", PIPE],
    ["6 OtherCase at 0", "run", "pin.elf", PIPE],
    ["golden run trapped at cycle 1", "trace", PIPE], ["golden run did not halt within 5 instructions", "trace", PIPE],
)  # fmt: skip
HOSTILE = ["\x1b[31m", "a\nb\x07", "--f\x1bo=\x9b", "-z\x1b", "\x1b]0;title\x07.keep"]


class Ended(NamedTuple):
    """A call that ended: its status, negative for a signal, and what it wrote."""

    status: int
    out: str
    err: str


def row(name: str, holds: bool, found: object) -> None:
    """Prints the row of a check."""
    print(f"{name}\t{'yes' if holds else str(found)[:500].encode('unicode_escape').decode()}", flush=True)


def started(tool: str, said: list[str], stdout: int = subprocess.PIPE, by: list[str] | None = None) -> Ended:
    """A call by an interpreter of its own; `by` are words of a shell before it."""
    called = [*(by or []), sys.executable, "-B", f"{TOP}/tools/{tool}.py", *said]
    done = subprocess.run(called, stdin=subprocess.DEVNULL, stdout=stdout, stderr=subprocess.PIPE, timeout=2 * SECONDS)
    return Ended(done.returncode, *(text.decode("utf-8", "replace") for text in (done.stdout or b"", done.stderr)))


def forked(tool: str, said: list[str], name: str = "") -> Ended:
    """A call by a child of this process, by a name that is not that of the tool's file."""
    with tempfile.TemporaryFile() as out, tempfile.TemporaryFile() as err:
        child = os.fork()
        if child == 0:
            for number, file in ((1, out), (2, err)):
                os.dup2(file.fileno(), number)
            os.dup2(os.open(os.devnull, os.O_RDONLY), 0)
            sys.argv = [name or f"{tool}.py", *said]
            become(tool)
        end = time.monotonic() + SECONDS
        while True:
            pid, status = os.waitpid(child, os.WNOHANG)
            if pid:
                break
            if time.monotonic() > end:
                os.kill(child, 9)
                os.waitpid(child, 0)
                return Ended(-9, "", f"no end within {SECONDS} seconds")
            time.sleep(0.01)
        out.seek(0)
        err.seek(0)
        texts = (file.read().decode("utf-8", "replace") for file in (out, err))
        return Ended(os.waitstatus_to_exitcode(status), *texts)


def become(tool: str) -> None:
    """Runs a tool in this process, and ends it."""
    status = 70
    try:
        getattr(commands, tool)()
    except SystemExit as end:
        status = end.code if isinstance(end.code, int) else 0 if end.code is None else 1
    except BaseException:
        import traceback

        traceback.print_exc()
    finally:
        sys.stdout.flush()
        sys.stderr.flush()
        os._exit(status)


def options_of(tool: str) -> list[str]:
    """The options of a tool that take one value."""
    if tool in ("again", "explain"):  # which read their words without a parser
        return ["--program", "--export", "--replay"] if tool == "again" else []
    actions = commands.actions_of(tool)
    return [action.option_strings[-1] for action in actions if action.option_strings and action.nargs is None]


def is_quiet(ended: Ended, lines: int = 1) -> bool:
    """Whether the error output has at most this number of lines, and no traceback."""
    return "Traceback" not in ended.err and ended.err.count("\n") <= lines


# --- Checks ---------------------------------------------------------------------------------------


def outputs(tool: str) -> None:
    """Outputs that are full, closed, and without a reader."""
    said, failed = GOOD[tool]
    with open("/dev/full", "wb") as full:
        ended = started(tool, said, full.fileno())
    row(f"{tool}: a full output", ended.status == failed and is_quiet(ended) and "No space left" in ended.err, ended)
    ended = started(tool, said, by=["bash", "-c", 'exec "$@" >&-', "bash"])
    said_so = is_quiet(ended) and "Bad file descriptor" in ended.err
    row(f"{tool}: a closed output", ended.status == failed and said_so, ended)
    reader, writer = os.pipe()
    os.close(reader)
    ended = started(tool, said, writer)
    os.close(writer)
    row(f"{tool}: an output without a reader", ended == Ended(-13, "", ""), ended)


def refusals(tool: str) -> None:
    """A complaint whose output is closed or full does not go elsewhere."""
    wrong = ["none"] if tool in ("again", "explain") else ["--none"]
    status = forked(tool, wrong).status
    for name, how in (("closed", "2>&-"), ("full", "2>/dev/full")):
        ended = started(tool, wrong, by=["bash", "-c", f'exec "$@" {how}', "bash"])
        row(f"{tool}: a {name} error output", ended == Ended(status, "", "") and status in (1, 2), ended)


def about(tool: str) -> None:
    """The version and the help, of an installed tool and of a clone."""
    os.makedirs("installed", exist_ok=True)
    command = f"installed/fail_star-{tool}"
    os.symlink(f"{TOP}/tools/{tool}.py", command)
    done = subprocess.run([sys.executable, "-B", command, "--version"], capture_output=True, text=True, timeout=SECONDS)
    wanted = f"fail_star-{tool} {release.VERSION}\n"
    row(f"fail_star-{tool} --version", (done.returncode, done.stdout, done.stderr) == (0, wanted, ""), done)
    ended = forked(tool, ["--help"], command)
    others = [other for other in words.TOOLS if f"{other}.py" in ended.out]
    good = ended.status == 0 and ended.out.startswith(f"usage: fail_star-{tool} ") and not others
    row(f"fail_star-{tool} --help", good, (ended, others))
    ended = forked(tool, HOSTILE, command)
    row(f"fail_star-{tool} complains", f"fail_star-{tool}: " in ended.err and f"{tool}.py" not in ended.err, ended)
    ended = forked(tool, ["--help"])
    row(f"{tool}.py --help", ended.status == 0 and ended.out.startswith(f"usage: {tool}.py "), ended)


def options(tool: str) -> None:
    """Each option with the word `--` and with nothing as its value."""
    for option in options_of(tool):
        for value in ("--", ""):
            said = [word for word in GOOD[tool][0] if word not in ("--help", "--")]
            if tool == "sweep":
                said = said[: -len(RAM)] + ["--into", "other"]
            ended = forked(tool, [*said, f"{option}={value}"])
            lines = 3 if ended.status == 1 else 20  # argparse writes the usage too
            holds = ended.status in (0, 1, 2) and is_quiet(ended, lines)
            row(f"{tool}: {option}={value}", holds, ended)


def pipes(tool: str) -> None:
    """A pipe that nobody writes to, in the place of each file."""
    for said in PIPES.get(tool, []):
        ended = forked(tool, said)
        refused = is_quiet(ended) and REFUSED.search(ended.err) is not None
        row(f"{tool} {' '.join(said)}", refused and ended.status in (1, 2), ended)


def control_bytes(tool: str) -> None:
    """Words of control bytes, as the names of files in a hostile folder may have them."""
    for said in (HOSTILE, [HOSTILE[-1]], [*GOOD[tool][0], *HOSTILE[:2]], ["--\x1b"]):
        ended = forked(tool, said)
        odd = [letter for letter in ended.out + ended.err if not letter.isprintable() and letter != "\n"]
        row(f"{tool}: control bytes, {len(said)} words", not odd and "Traceback" not in ended.err, ended)


def main() -> None:
    """All checks of all tools."""
    row("all tools", sorted(GOOD) == sorted(words.TOOLS), sorted(GOOD))
    for tool in GOOD:
        commands.main_of(tool)  # so that the children have its modules
        for check in (outputs, refusals, about, options, pipes, control_bytes):
            check(tool)
    for said in EXPLAINED:
        ended = forked("explain", said)
        row(f"explain {' '.join(said)}", ended.status in (0, 1) and "Traceback" not in ended.err, ended)


if __name__ == "__main__":
    main()
