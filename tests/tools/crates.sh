#!/usr/bin/env bash
# Four rules of crates/ that rt does not check. Each edge of crates.txt is used: some file of the crate, its code, specs or
# proofs, names the crate that it depends on. The code of a crate calls the library of the kit that it is for. No line of src/ or specs/ is wider than 160 columns. And a word that specs/
# define has one meaning: it is defined in one file, but for the few that mean one thing in several crates.
# usage: crates.sh
set -u
cd "$(dirname "$0")/../.." || exit 2
python3 - <<'PY'
import collections
import pathlib
import re

WIDEST = 160
# What a program answers, and why: the same for fail_star and for the programs that name sites. A run with a flip: the same for these two.
OF_PROGRAMS = "IsCause IsOwn IsRefused Loads first_apart number told_text usage_text".split()
# The refusals of several calls, and what two crates of which neither stands on the other define alike.
OF_CRATES = "IsOnce IsRefusedUnless IsUntouched Text is_failed is_fault is_read_fault max_shards overwritten".split()
# The libraries on which the project stands, and the crates whose code each is for.
LIBRARIES = {
    "byteorder": ["elf_loader", "keep_format"],
    "clap": ["command_line"],
    "crossbeam_queue": ["job_queue"],
    "csv": ["report"],
    "itoa": ["report"],
    "rand_pcg": ["sampling"],
    "serde_json": ["report"],
    "sqlite": ["sqlite_rows"],
}
DEFINED = re.compile(r"^(?:abbrev |unfoldable )*pub (?:record |data )?([^\s:({]+)", re.M)

passed = failed = 0


def rule(holds, text):
    global passed, failed
    passed, failed = passed + bool(holds), failed + (not holds)
    if not holds:
        print(f"failed: {text}")


stands_on = {}
for line in pathlib.Path("crates.txt").read_text().splitlines():
    crate, _, used = line.partition("#")[0].partition(":")
    stands_on[crate.strip()] = used.split()
    folder = pathlib.Path("crates", *crate.split()[:1])
    files = [file for part in ("src", "specs", "proofs") for file in (folder / part).rglob("*") if file.suffix in (".rt", ".antt")]
    named = set(re.findall(r"\w+", " ".join(file.read_text() for file in files))) if used.split() else set()
    for other in used.split():
        rule(other in named, f"crates.txt: {crate.split()[0]} depends on {other}, which none of its files names")

for library, crates in LIBRARIES.items():
    for crate in crates:
        code = " ".join(file.read_text() for file in pathlib.Path("crates", crate, "src").rglob("*.rt"))
        calls = re.search(rf"^(?:pub )?use {library}::", code, re.M)
        rule(library in stands_on[crate] and calls, f"{crate} does not call {library}")

for part, kind in (("src", ".rt"), ("specs", ".antt")):
    for file in sorted(pathlib.Path("crates").glob(f"*/{part}/**/*{kind}")):
        wide = [number for number, text in enumerate(file.read_text().splitlines(), 1) if len(text) > WIDEST]
        rule(not wide, f"{file}: wider than {WIDEST} columns: line {', '.join(map(str, wide))}")

places = collections.defaultdict(set)
for file in sorted(pathlib.Path("crates").glob("*/specs/**/*.antt")):
    if file.stem != "Lib":
        for word in DEFINED.findall(file.read_text()):
            places[word].add(str(file))
for word, found in sorted(places.items()):
    rule(len(found) == 1 or word in OF_PROGRAMS + OF_CRATES, f"{word} is defined in {', '.join(sorted(found))}")
for word in OF_PROGRAMS + OF_CRATES:
    rule(len(places[word]) > 1, f"{word} need not be an exception")
print(f"{passed} passed, {failed} failed")
raise SystemExit(failed > 0)
PY
