#!/usr/bin/env python3
"""Writes THIRD-PARTY: the licence files of the kit's crates whose compiled code the six programs contain.

third_party.py KIT

KIT is the folder of the Rattle kit. crates.txt says which of its crates a program uses, and the kit which further
crates those use. A crate for which the kit has no licence file is named as such.
"""

from __future__ import annotations

import re
import sys
from pathlib import Path

TOP = Path(__file__).resolve().parent.parent
PROGRAMS = ("fail_star", "fail_export", "fail_replay", "fail_debug", "fail_window", "fail_answers")
ALWAYS = "std"  # the crate that each crate uses without naming it
LICENCE = re.compile(r"(LICEN[CS]E|UNLICENSE|COPYING|COPYRIGHT|NOTICE)\b.*", re.IGNORECASE)
RULE = "-" * 78
HEAD = """Licences of the code of others in fail_star, fail_export, fail_replay, fail_debug, fail_window and fail_answers

The six programs contain compiled code of crates of the Rattle kit
({kit}). This file has what that kit has of the
licences of these crates. fail_star itself is under MIT OR Apache-2.0.
"""
LACKING = """
The kit has no licence file for these of its crates:
{crates}
The linker of the kit adds start code of GCC and of the C library to each program.
The kit has no licence file for this code either.
"""


def used_by(program: str, uses: dict[str, list[str]], kit: Path) -> set[str]:
    """The kit's crates that a program uses, by itself or through another crate."""
    found: set[str] = set()
    left = [program, ALWAYS]
    while left:
        name = left.pop()
        if name not in found:
            found.add(name)
            left += uses[name] if name in uses else used_in_kit(name, kit)
    return found - uses.keys()


def used_in_kit(crate: str, kit: Path) -> list[str]:
    """The crates that a crate of the kit was built with."""
    content = (kit / "rlibs" / f"{crate}.rlib" / "format").read_bytes()
    return re.findall(r"^dep (\w+)$", content.decode("utf-8", "replace"), re.MULTILINE)


def crates_of_tree() -> dict[str, list[str]]:
    """The crates of crates.txt, each with those that it uses."""
    lines = [line.partition(":") for line in (TOP / "crates.txt").read_text(encoding="utf-8").splitlines()]
    return {head.split()[0]: below.split() for head, colon, below in lines if colon and head[:1].isalpha()}


def licences_of(crate: str, kit: Path) -> dict[str, str]:
    """The licence files of a crate of the kit, by their names."""
    files = (file for file in (kit / "rattle" / crate).iterdir() if LICENCE.fullmatch(file.name) and file.is_file())
    return {file.name: file.read_text(encoding="utf-8").strip("\n") for file in sorted(files)}


def main(words: list[str]) -> int:
    """The exit status: 0 if all was written, and 1 if this is no kit or lacks a crate."""
    kit = Path(words[0])
    uses = crates_of_tree()
    try:
        programs = {program: used_by(program, uses, kit) for program in PROGRAMS}
        crates = sorted(set[str]().union(*programs.values()))
        licences = {crate: licences_of(crate, kit) for crate in crates}
        print(HEAD.format(kit=(kit / "KIT-ID").read_text(encoding="utf-8").strip()))
    except OSError as error:
        print(f"third_party: {error}: is {kit} the folder of the Rattle kit?", file=sys.stderr)
        return 1
    texts: dict[str, list[str]] = {}
    for crate in crates:
        if licences[crate]:
            users = ", ".join(program for program in PROGRAMS if crate in programs[program])
            print(f"{crate} ({', '.join(licences[crate])}): {users}")
        for name, text in licences[crate].items():
            texts.setdefault(text, []).append(f"{crate} ({name})")
    print(LACKING.format(crates="\n".join(f"  {crate}" for crate in crates if not licences[crate])))
    for text, owners in texts.items():
        print(f"{RULE}\n" + "\n".join(owners) + f"\n{RULE}\n\n{text}\n")
    return 0


if __name__ == "__main__":
    sys.exit(main(sys.argv[1:]))
