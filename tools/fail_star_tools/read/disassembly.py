"""Instructions as text, by an installed disassembler."""

from __future__ import annotations

import re
import shutil
from pathlib import Path

from fail_star_tools.read.campaign_file import Refusal
from fail_star_tools.run import program
from fail_star_tools.words import printable

DISASSEMBLERS = ("riscv64-unknown-elf-objdump", "riscv32-unknown-elf-objdump", "riscv64-linux-gnu-objdump", "llvm-objdump")
LINE = re.compile(r" *([0-9a-f]{1,8}):\s+(\S.*)")


def found() -> str | None:
    """A disassembler for RISC-V on the path."""
    return next(filter(None, map(shutil.which, DISASSEMBLERS)), None)


def instructions_of(image: str, said: str | None) -> dict[int, str]:
    """The instructions of an image by their addresses, as a disassembler writes them; without a disassembler the
    result is empty."""
    called = found() if said is None else said
    if called is None:
        return {}
    machine = ["--mattr=+m"] if "llvm" in Path(called).name else ["-m", "riscv:rv32"]
    done = program.call(called, ["-d", "--no-show-raw-insn", *machine, str(Path(image).absolute())])
    if done.returncode != 0:
        raise Refusal(f"{called}: {done.line}")
    matches = (LINE.fullmatch(line) for line in done.stdout.splitlines())
    return {int(match[1], 16): printable(" ".join(match[2].split())) for match in matches if match}
