"""A thousand mutated images, tables, campaign files, traces, samples, reports, budgets and programs for all tools, and
some inputs made by hand: each must be answered or refused by one line without control bytes, within 60 seconds and
2 GB, and never by a traceback.

hostile.py FOLDER-OF-TOOLS FOLDER-OF-SEEDS

The folder of seeds has what hostile.sh made there. Each process has the memory bound, and tries the inputs of its
share one by one.
"""

from __future__ import annotations

import contextlib
import importlib
import io
import multiprocessing
import os
import pathlib
import random
import resource
import shutil
import signal
import sys
import tempfile
import traceback

MOST_MEMORY, MOST_SECONDS = 2 << 30, 60
PACKS = {
    "check": "count", "compare": "count", "estimate": "count", "keep_info": "count",
    "sample_places": "count", "sql": "count", "where": "count",
    "fault_map": "page", "report": "page", "explain": "run", "sweep": "run",
}  # fmt: skip
NUMBERS = [b"0", b"-1", b"4294967295", b"18446744073709551616", b"99999999", b"\x1b[31m", b"9" * 400]
WORDS = [bytes(4), b"\xff" * 4, b"\x01\0\0\0", b"\0\0\0\x80", b"\xff\xff\xff\x7f", b"\x80" * 12]


class TooLong(BaseException):
    """A call that takes more time than it may."""


# --- Mutations ------------------------------------------------------------------------------------


def mutated(content: bytes, rng: random.Random) -> bytes:
    """A file with one to four changes."""
    changed = bytearray(content)
    for _ in range(rng.randint(1, 4)):
        at = rng.randrange(len(changed) + 1) if changed else 0
        kind = rng.randrange(7)
        if kind == 0 and at < len(changed):
            changed[at] ^= 1 << rng.randrange(8)
        elif kind == 1 and at < len(changed):
            changed[at] = rng.choice((0, 1, 8, 0x0B, 0x1F, 0x7F, 0x80, 0xFF))
        elif kind == 2:
            changed[at : at + 4] = rng.choice(WORDS)
        elif kind == 3:
            del changed[at : at + rng.choice((1, 2, 16, len(changed)))]
        elif kind == 4:
            changed[at:at] = changed[at : at + rng.choice((1, 10, 1000))]
        elif kind == 5:
            changed[at:at] = rng.randbytes(rng.choice((1, 3, 40)))
        else:
            lines = bytes(changed).split(b"\n")
            line = rng.randrange(len(lines))
            words = lines[line].replace(b",", b" , ").split(b" ")
            words[rng.randrange(len(words))] = rng.choice(NUMBERS)
            lines[line] = b" ".join(words).replace(b" , ", b",")
            changed = bytearray(b"\n".join(lines))
    return bytes(changed)


# --- Calls ----------------------------------------------------------------------------------------

RAM = ["--ram", "0x80000000:16"]
FAKE = ["--program", "./program"]
NONE = ["--disassembler", "none"]
# Of each kind of input the seeds that are changed, the number of inputs, and the words of the tools that read it, for @.
KINDS: dict[str, tuple[list[str], int, list[list[str]]]] = {
    "image": (
        ["image.elf", "two.elf", "zipped.elf"], 330, [
            ["where", "@", "table.csv", "--trace", "trace.txt", *RAM, *NONE],
            ["report", "table.csv", "--image", "@", "--trace", "trace.txt", "--objdump", "none", "-o", "page.html"],
            ["check", "functions.budget", "t=@,table.csv", "--trace", "trace.txt"],
            ["explain", "golden run trapped at cycle 0", "run", "@", "good.keep"],
            ["compare", "@,good.keep", *FAKE],
            ["sql", "good.keep", "image.db", "@", "--replace", *FAKE],
            ["keep_info", "good.keep", "--image", "@"],
        ],
    ),
    "table": (
        ["table.csv", "pc.csv", "old.csv"], 250, [
            ["fault_map", "@", "-o", "map.svg"],
            ["where", "image.elf", "@", "--trace", "trace.txt", *RAM, *NONE],
            ["report", "@", "-o", "page.html"],
            ["check", "plain.budget", "@", "--receipt", "receipt.json"],
            ["compare", "@"],
        ],
    ),
    "keep": (
        ["good.keep", "both.keep"], 250, [
            ["keep_info", "@"],
            ["compare", "@", *FAKE],
            ["fault_map", "@", "-o", "map.svg", *FAKE],
            ["where", "image.elf", "@", *FAKE, *NONE],
            ["report", "@", "-o", "page.html", *FAKE],
            ["check", "plain.budget", "@", *FAKE],
            ["explain", "6 OtherCase at 21", "run", "image.elf", "@"],
            ["sql", "@", "keep.db", "--name", "one", "--replace", *FAKE],
        ],
    ),
    "trace": (
        ["trace.txt"], 60, [
            ["where", "image.elf", "table.csv", "--trace", "@", *RAM, *NONE],
            ["report", "table.csv", "--trace", "@", "-o", "page.html"],
        ],
    ),
    "sample": (["sample.txt"], 50, [["estimate", "@"], ["estimate", "@", "--format", "json"]]),
    "report": (["report.txt", "report.json"], 60, [["compare", "@"], ["check", "plain.budget", "@", "--junit", "junit.xml"]]),
    "budget": (["plain.budget", "functions.budget"], 60, [["check", "@", "t=image.elf,table.csv", "--trace", "trace.txt", "--sarif", "sarif"]]),
    "classes": (
        ["some.classes"], 40, [
            ["where", "image.elf", "table.csv", "--trace", "trace.txt", *RAM, *NONE, "--classes", "@", "--replay", "./program"],
            ["check", "plain.budget", "t=image.elf,table.csv", "--trace", "trace.txt", "--classes", "@", "--replay", "./program"],
        ],
    ),
    "sampled": (
        ["image.elf", "two.elf", "zipped.elf"], 30, [
            ["sample_places", "@", "--count", "20", *RAM, *FAKE, "--replay", "./program", *NONE],
        ],
    ),
    "answers": (
        ["answers.txt"], 40, [
            ["where", "image.elf", "good.keep", *FAKE, *NONE, "--open", "B", "--answers", "./answers"],
            ["check", "plain.budget", "good.keep", *FAKE, "--classes", "some.classes", "--answers", "./answers"],
            ["sql", "good.keep", "answers.db", "--replace", *FAKE, "--classes", "some.classes", "--answers", "./answers"],
        ],
    ),
    "line": (["line.txt"], 30, [["explain", "@text", "run", "image.elf", "good.keep"]]),
    "answer": (
        ["table.csv", "trace.txt", "report.json"], 40, [
            ["compare", "good.keep", "--program", "./answers"],
            ["where", "image.elf", "good.keep", "--program", "./answers", *NONE],
            ["sql", "good.keep", "answer.db", "--replace", "--program", "./answers"],
            ["sample_places", "image.elf", "--count", "20", *RAM, "--program", "./answers", "--replay", "./answers", *NONE],
            ["sweep", "--variant", "v", "--build", "cp image.elf \"$IMAGE\"", "--program", "./answers"],
        ],
    ),
}  # fmt: skip


def complaint_of(tool: str, words: list[str]) -> str:
    """What is wrong with the answer of a tool, or nothing."""
    out, err = io.StringIO(), io.StringIO()
    signal.alarm(MOST_SECONDS)
    try:
        with contextlib.redirect_stdout(out), contextlib.redirect_stderr(err):
            status = importlib.import_module(f"fail_star_tools.{PACKS[tool]}.{tool}").main(words)
    except SystemExit as end:
        status = end.code
    except TooLong:
        return f"more than {MOST_SECONDS} seconds"
    except BaseException:  # MemoryError too
        return traceback.format_exc(limit=-3)
    finally:
        signal.alarm(0)
    lines = err.getvalue().splitlines()
    if status not in (0, 1, 2):
        return f"status {status}"
    if status and tool not in ("check", "sweep") and not lines:
        return f"status {status} without a line"
    if any(not letter.isprintable() and letter != "\n" for letter in out.getvalue() + err.getvalue()):
        return f"bytes that cannot be printed: {lines[:1]!r}"
    return ""


def inputs() -> list[tuple[str, int, str]]:
    """Of each input its kind, its number and its seed."""
    return [
        (kind, number, seeds[number % len(seeds)])
        for kind, (seeds, count, _) in KINDS.items()
        for number in range(count)
    ]


def share(number: int, of: int, seeds: str) -> list[str]:
    """The complaints about a share of the inputs."""

    def ended(*_: object) -> None:
        raise TooLong

    signal.signal(signal.SIGALRM, ended)
    resource.setrlimit(resource.RLIMIT_AS, (MOST_MEMORY, MOST_MEMORY))
    complaints = []
    with tempfile.TemporaryDirectory() as folder:
        shutil.copytree(seeds, folder, dirs_exist_ok=True)
        os.chdir(folder)
        for kind, at, seed in inputs()[number::of]:
            content = mutated(pathlib.Path(seed).read_bytes(), random.Random(f"{kind} {at}"))
            pathlib.Path("changed").write_bytes(content)
            for tool, *words in KINDS[kind][2]:
                text = content.decode("utf-8", "replace")
                said = [text if word == "@text" else word.replace("@", "changed") for word in words]
                wrong = complaint_of(tool, said)
                if wrong:
                    complaints.append(f"{kind} {at} of {seed}, {tool} {' '.join(words)}: {wrong}")
    return complaints


def main() -> int:
    sys.path.insert(0, sys.argv[1])
    sys.dont_write_bytecode = True
    if sys.argv[2] == "one":  # a call of a tool by its words, with the bounds
        resource.setrlimit(resource.RLIMIT_AS, (MOST_MEMORY, MOST_MEMORY))
        return int(importlib.import_module(f"fail_star_tools.{PACKS[sys.argv[3]]}.{sys.argv[3]}").main(sys.argv[4:]))
    workers = min(4, os.cpu_count() or 1)
    with multiprocessing.get_context("fork").Pool(workers, maxtasksperchild=1) as pool:
        shares = [(number, 4 * workers, os.path.abspath(sys.argv[2])) for number in range(4 * workers)]
        complaints = [text for found in pool.starmap(share, shares, 1) for text in found]
    print(f"{len(inputs())} inputs, {len(complaints)} complaints")
    print("\n".join(complaints[:5]))
    return 1 if complaints else 0


if __name__ == "__main__":
    sys.exit(main())
