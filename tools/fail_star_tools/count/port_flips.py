"""Flips that turn the address of one port into that of another: in a store to a port, bit 2 or 3 of the register that
holds the address. A byte that should have been sent then ends the run, or a halt sends a byte.

They are a property of the ports, whose addresses differ in one bit, more than of the program: half of the silent sites
that are left of a hardened program can be such flips of one register. A flip counts if the first instruction that
reads the register is the store.
"""

from __future__ import annotations

from collections import Counter
from collections.abc import Iterable
from typing import TYPE_CHECKING

from fail_star_tools.read.campaign_file import Card
from fail_star_tools.run.machine import DETECT, HALT, OUTPUT, WORD, at_start, run

if TYPE_CHECKING:
    from fail_star_tools.count.job_list import Job
    from fail_star_tools.read.traces import Trace

PORTS = (OUTPUT, DETECT, HALT)
BITS = (2, 3)  # in which the ports' addresses differ
OUTCOMES = ("silent", "detected")  # of the flips that are of interest
STORE = 0x23  # the opcode


def bases_of(trace: Trace) -> dict[int, int]:
    """The register with the address of each store of a run, by the address of the instruction."""
    return {pc: word >> 15 & 31 for pc, word in trace.words.items() if word & 0x7F == STORE}


def sites_of(card: Card, jobs: Iterable[Job]) -> Counter[str]:
    """The sites by outcome of those jobs, in job order, whose flip turns the address of one port into that of another. Each
    is a flip of the register that a store reads its address from."""
    found: Counter[str] = Counter()
    machine, cycle = at_start(card), 0
    for job in jobs:
        run(machine, job.cycle - cycle)
        cycle = job.cycle
        word = machine.fetched()
        if word is None:
            continue
        address = machine.target_of_store(word)
        base = machine.registers[job.cell]
        flipped = address + (base ^ 1 << job.bit) - base & WORD
        if address in PORTS and flipped in PORTS:
            found[job.outcome] += job.weight
    return found


def sentence_of(found: Counter[str], name: str) -> str | None:
    """The sentence of a page about the campaign of this name, if it has such flips."""
    counts = [f"{found[word]:,} of the {word} sites" for word in OUTCOMES if found[word]]
    if not counts:
        return None
    what = "turn the address of one port into that of another: keep it out of registers that live long"
    return f"Of {name}, {' and '.join(counts)} {what}."


def note_of(found: Counter[str], outcomes: Iterable[str]) -> str | None:
    """The line that says how many of the chosen sites are such flips, if any are."""
    sites = sum(found[word] for word in outcomes)
    if not sites:
        return None
    what = "turns the address of one port into that of another" if sites == 1 else "turn the address of one port into that of another"
    return f"{sites} of these sites {what}: keep it out of registers that live long"
