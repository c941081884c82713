"""A second reading of a replay, for replay.py: the words of its line, the run with a flip next to the golden run, and
the text.

It follows docs/FORMATS.md, "Replays". It shares no code with the program: the machine is that of machine.py, and the
options of a line are read by command_words.py.
"""

from __future__ import annotations

import functools
import itertools

import command_words
import reference
from command_words import Refusal
from machine import MASK, Case, End, Key, Machine, Site

USAGE = "usage: fail_replay [--whole | --brief] IMAGE CYCLE CELL BIT .. [options]"
VIEWS = ("--whole", "--brief")
# What is compared of two runs before an instruction, in the order of the text.
COMPARED = {"pc": lambda machine: machine.pc, "registers": lambda machine: machine.x, "output": lambda machine: machine.output}


def sites_of(words: list[str]) -> list[Site] | None:
    """The sites that these words name, three numbers each; None for other words."""
    numbers = [command_words.number(word, 0, most) for word, most in zip(words, itertools.cycle((MASK, MASK, 255)))]
    found = [number for number in numbers if number is not None]
    if not numbers or len(numbers) % 3 or len(found) < len(numbers):
        return None
    return list(zip(found[0::3], found[1::3], found[2::3]))


def line_of(words: list[str]) -> tuple[str | None, str, list[Site], Case]:
    """The view that a line asks for, or none, its image, its sites and its case; or its refusal."""
    usage = Refusal(1, USAGE)
    view = words[0] if words and words[0] in VIEWS else None
    rest = words[1:] if view else words
    first = list(itertools.takewhile(lambda word: not word.startswith("-"), rest))
    sites = sites_of(first[1:])
    if sites is None:
        raise usage
    try:
        # The options are those of an audit, which has two files.
        line = command_words.line_of(["audit", first[0], first[0], *rest[len(first) :]])
    except Refusal:
        raise usage from None
    return view, first[0], sites, line.case


def is_site(case: Case, count: int, site: Site) -> bool:
    """Whether a case with so many instructions has the site."""
    cycle, cell, bit = site
    return cycle < count and (cell > 0 or case.pc_cell) and cell < 32 + len(case.ram) and bit < (32 if cell < 32 else 8)


def step_line(machine: Machine) -> str:
    """The line of the instruction that a machine is about to take."""
    word = machine.word()
    return f"{machine.taken} {machine.pc:08x} " + ("--------" if word is None else f"{word:08x}")


def end_line(end: End | None) -> str:
    """How a run ended. Of a trap the kind is not said."""
    if end is None:
        return "end limit"
    return f"end halted {end[1]}" if end[0] == "halted" else f"end {end[0]}"


def side_by_side(golden: Machine, injected: Machine, shown: list[str]) -> tuple[End | None, dict[str, int | str]]:
    """Takes both runs on to the end of the injected one, a run that has ended standing still. How that one ended, and before which
    instruction each part first differs; `shown` takes the lines of the injected run."""
    first: dict[str, int | str] = dict.fromkeys(COMPARED, "-")
    end, golden_end = None, None
    while end is None and injected.taken < injected.case.limit:
        for part, of in COMPARED.items():
            if first[part] == "-" and of(golden) != of(injected):
                first[part] = injected.taken
        shown.append(step_line(injected))
        end = injected.step()
        golden_end = golden_end or golden.step()
    return end, first


def replay(case: Case, view: str | None, site: Site) -> list[str]:
    """The text of a site's replay, as lines."""
    golden, before = Machine(case), []
    behind: list[str] = []
    while golden.taken < site[0]:
        before.append(step_line(golden))
        golden.step()
    injected = golden.copy()
    injected.flip(*site[1:])
    end, first = side_by_side(golden, injected, behind)
    whole, whole_end, _ = golden_of(case.key())
    shown: dict[str | None, list[str]] = {None: behind, "--whole": before + behind, "--brief": []}
    differs = " ".join(f"{part} {number}" for part, number in first.items())
    sent = f"output {injected.output.hex() or '-'}"
    outcome = reference.outcome(end, injected, whole_end, whole)
    return ["site {} {} {}".format(*site), *shown[view], f"differs {differs}", sent, end_line(end), f"outcome {outcome}"]


@functools.lru_cache(maxsize=512)
def golden_of(key: Key) -> reference.Golden:
    """The golden run of a case at its end, how it ended, and what each of its instructions touches; or its refusal."""
    return reference.golden_run(reference.Case.of(key))


def judge(words: list[str]) -> tuple[int, str, str]:
    """The status, the text on standard output and the text on standard error of a line of words."""
    try:
        view, image, sites, case = line_of(words)
        try:
            with open(image, "rb") as file:
                reference.load(file.read(reference.LONGEST_IMAGE + 1), case)
        except OSError:
            raise Refusal(2, "image could not be read") from None
        count = golden_of(case.key())[0].taken
        for site in sites:
            if not is_site(case, count, site):
                raise Refusal(13, "no such site: cycle {} cell {} bit {}".format(*site))
    except Refusal as refusal:
        return refusal.status, "", refusal.text + "\n"
    return 0, "".join(line + "\n" for site in sites for line in replay(case, view, site)), ""
