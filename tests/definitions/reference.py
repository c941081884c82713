#!/usr/bin/env python3
"""A second, slow implementation of the program, with which the program is compared.

It follows the RISC-V Instruction Set Manual, Volume I (machine.py), the chapters "ELF Header" and "Program Header" of
the ELF specification (32-bit little-endian executables; the machine's number is that of the RISC-V ELF psABI), and
docs/MODEL.md and docs/FORMATS.md. The tables that it writes follow RFC 4180 as FORMATS.md says. It shares no code with
the program. It runs each site individually, without pruning, and finds the jobs by looking at all sites.

    reference.py run IMAGE KEEP [CASE] [--workers N] [--page N] [--stop-after N] [--fresh] [--shard I/N] [--format text|json]
    reference.py report IMAGE KEEP [CASE] [--format text|json|csv]
    reference.py audit IMAGE KEEP [CASE]
    reference.py brute IMAGE [CASE] [--format text|json]
    reference.py trace IMAGE [CASE]
    reference.py plan IMAGE [CASE] [--format text|csv]
    reference.py sample IMAGE [CASE] [--count N] [--seed N] [--live]
    reference.py merge IMAGE KEEP OTHER [CASE] [--page N] [--format text|json]
    reference.py symbols IMAGE KEEP [CASE]
    reference.py demo [--seed N] [--blocks N]

CASE is [--rom BASE:SIZE] [--ram BASE:SIZE] [--limit N] [--pc] [--ram-code]; trace has no --pc.

It prints what the program has to print, leaves in KEEP what the program has to leave, and ends with the program's
status. The campaign file is in keep_file.py, the command line in command_words.py, what a seed draws in draws.py, and
the symbols of an image in symbol_reader.py.
"""

from __future__ import annotations

import collections
import functools
import itertools
import json
import sys
from collections.abc import Container, Iterator, Sized
from typing import Any

import draws
import keep_file
import symbol_reader
from command_words import Line, Refusal, line_of
from machine import Case, End, Key, Machine, Site

LONGEST_IMAGE = 16_777_216
LONGEST_OTHER = 268_435_456
# The outcomes in the order of a report, each with its number in a campaign file.
OUTCOMES = {"no-effect": 0, "silent": 1, "detected": 2, "illegal": 5, "address": 6, "misaligned": 7, "timeout": 4}
OF_NUMBER = {number: outcome for outcome, number in OUTCOMES.items()}

# The machine at the end of the golden run, how it ended, and what each instruction touches.
Golden = tuple[Machine, End, list[dict[int, bool]]]
Totals = dict[str, int]  # the number of sites of each outcome
Board = dict[Site, str]  # the outcome of each job


# --- The image ------------------------------------------------------------------------------------


def load(image: bytes, case: Case) -> None:
    """Fills a case from the bytes of an ELF file, or raises the refusal with the least number."""

    def field(offset: int, size: int) -> int:
        return int.from_bytes(image[offset : offset + size], "little")

    def demand(holds: bool, number: int, name: str) -> None:
        if not holds:
            raise Refusal(3, f"image refused: {number} {name}")

    demand(len(image) <= LONGEST_IMAGE, 12, "TooLong")
    demand(len(image) >= 52, 1, "Short")
    demand(image[0:4] == b"\x7fELF", 2, "NotElf")
    demand(image[4] == 1, 3, "NotClass32")
    demand(image[5] == 1, 4, "NotLittle")
    demand(image[6] == 1 and field(20, 4) == 1, 5, "Version")
    demand(field(16, 2) == 2, 6, "NotExec")
    demand(field(18, 2) == 243, 7, "NotRiscv")
    table, size, count = field(28, 4), field(42, 2), field(44, 2)
    fits = size == 32 and table + 32 * count <= len(image)
    demand(count == 0 or (count != 65535 and fits), 8, "BadHeaders")
    case.entry = field(24, 4)
    for at in range(table, table + 32 * count, 32):
        if field(at, 4) != 1:
            continue
        offset, address, file_size, memory_size = field(at + 4, 4), *(field(at + i, 4) for i in (12, 16, 20))
        demand(file_size <= memory_size, 9, "FilePastMemory")
        demand(offset + file_size <= len(image), 10, "SegmentPastFile")
        inside = any(r.start <= address and address + file_size <= r.stop for r in (case.rom, case.ram))
        demand(file_size == 0 or inside, 11, "SegmentOutsideMap")
        for index, byte in enumerate(image[offset : offset + file_size]):
            case.poke(address + index, byte)


# --- The campaign ---------------------------------------------------------------------------------


def golden_run(case: Case) -> Golden:
    """The run without a flip after its halt, how it ended, and what each of its instructions touches; or the refusal."""
    golden, touches, end = Machine(case), [], None
    while golden.taken < case.limit and end is None:
        touches.append(golden.touches())
        end = golden.step()
    if end is None:
        raise Refusal(4, f"golden run did not halt within {case.limit} instructions")
    if end[0] != "halted":
        raise Refusal(4, f"golden run {end[0]} at cycle {golden.taken - 1}")
    return golden, end, touches


def campaign(case: Case) -> tuple[int, Totals]:
    """The number of instructions of the golden run, and how many sites have each outcome."""
    count, totals, _ = counted(case.key())
    return count, totals


@functools.lru_cache(maxsize=512)
def counted(key: Key) -> tuple[int, Totals, Board]:
    """The same, and the outcome of each site (cycle, cell, bit) whose cell is read in its cycle: those are the jobs, in order."""
    case = Case.of(key)
    golden, _, touches = golden_run(case)
    totals, of_jobs = dict.fromkeys(OUTCOMES, 0), {}
    for site, found in of_all_sites(case):
        totals[found] += 1
        if touches[site[0]].get(site[1]):
            of_jobs[site] = found
    return golden.taken, totals, of_jobs


def of_all_sites(case: Case) -> Iterator[tuple[Site, str]]:
    """All sites (cycle, cell, bit) in order, each with its outcome, by a run of its own."""
    golden, end, _ = golden_run(case)
    before = Machine(case)
    for cycle in range(golden.taken):
        for cell, width in case.cells():
            for bit in range(width):
                injected = before.copy()
                injected.flip(cell, bit)
                yield (cycle, cell, bit), outcome(injected.finish(), injected, end, golden)
        before.step()


def jobs_of(case: Case) -> tuple[int, dict[Site, int], int]:
    """The number of instructions, each job (cycle, cell, bit) with the number of its sites, and the number of dead sites. A site
    belongs to the next touch of its cell at or after its cycle, where that reads; else it is dead."""
    return found_jobs(case.key())


@functools.lru_cache(maxsize=512)
def found_jobs(key: Key) -> tuple[int, dict[Site, int], int]:
    case = Case.of(key)
    golden, _, touches = golden_run(case)
    jobs: dict[Site, int] = {}
    dead = 0
    for cell, width in case.cells():
        cycles = [cycle for cycle in range(golden.taken) if cell in touches[cycle]]
        for cycle in range(golden.taken):
            following = min((later for later in cycles if later >= cycle), default=None)
            for bit in range(width):
                if following is not None and touches[following][cell]:
                    job = following, cell, bit
                    jobs[job] = jobs.get(job, 0) + 1
                else:
                    dead += 1
    return golden.taken, dict(sorted(jobs.items())), dead


def outcome(end: End | None, injected: Machine, golden_end: End, golden: Machine) -> str:
    """The outcome of an injected run. Only a run that halted is compared with the golden run; a trap's is its kind."""
    if end is None:
        return "timeout"
    if end[0] == "halted":
        same = end == golden_end and injected.output == golden.output
        return "no-effect" if same else "silent"
    return end[1] if end[0] == "trapped" else "detected"


# --- What is written ------------------------------------------------------------------------------


def size_of(case: Case, count: int) -> int:
    """How many sites a golden run of so many instructions has."""
    return count * sum(width for _, width in case.cells())


def report(case: Case, layout: str, totals: Totals | None = None) -> str:
    """What run, brute and demo write. Other totals than those of all sites come of a campaign file alone."""
    count, true = campaign(case)
    totals = totals or true
    numbers = {"instructions": count, "sites": size_of(case, count)} | totals
    if layout == "text":
        return "".join(f"{name} {value}\n" for name, value in numbers.items())
    numbers = {name.replace("-", "_"): value for name, value in numbers.items()}
    return json.dumps(numbers, sort_keys=True, separators=(",", ":")) + "\n"


def plan(case: Case, layout: str) -> str:
    count, jobs, dead = jobs_of(case)
    if layout == "csv":
        return "cycle,cell,bit,weight\n" + "".join(f"{','.join(map(str, job))},{jobs[job]}\n" for job in jobs)
    numbers = {"instructions": count, "sites": size_of(case, count), "jobs": len(jobs), "live": sum(jobs.values()), "dead": dead}
    return "".join(f"{name} {value}\n" for name, value in numbers.items())


def outcome_of(case: Case, cycle: int, cell: int, bit: int) -> str:
    """The outcome of a site, by a run of its own."""
    golden, end, _ = golden_run(case)
    injected = Machine(case)
    for _ in range(cycle):
        injected.step()
    injected.flip(cell, bit)
    return outcome(injected.finish(), injected, end, golden)


def sample(line: Line) -> str:
    """How many of the sites that a seed draws have each outcome."""
    count, jobs, _ = jobs_of(line.case)
    if line.live:
        population = [job for job in jobs for _ in range(jobs[job])]
    else:
        population = [(cycle, cell, bit) for cycle in range(count) for cell, width in line.case.cells() for bit in range(width)]
    drawn = collections.Counter(itertools.islice(draws.indices(line.seed, len(population)), line.count))
    numbers = {"instructions": count, "population": len(population), "samples": line.count} | dict.fromkeys(OUTCOMES, 0)
    for index, times in drawn.items():
        numbers[outcome_of(line.case, *population[index])] += times
    return "".join(f"{name} {value}\n" for name, value in numbers.items())


def trace(case: Case) -> str:
    """Each instruction of the run without a flip, at most as many as the limit, its output and its end."""
    machine, end, lines = Machine(case), None, []
    while machine.taken < case.limit and end is None:
        word = machine.word()
        lines.append(f"{machine.taken} {machine.pc:08x} " + ("--------" if word is None else f"{word:08x}"))
        end = machine.step()
    lines.append("output " + (machine.output.hex() or "-"))
    # of a trap the kind is not said
    said = ("limit",) if end is None else end[:1] if end[0] == "trapped" else end
    lines.append("end " + " ".join(map(str, said)))
    return "".join(line + "\n" for line in lines)


def board_of(case: Case, kept: dict[Site, int]) -> tuple[Board, Totals]:
    """The outcome that each job has where a file keeps these outcomes, and else has by its own run; and the totals: the sites of
    a job have its outcome."""
    _, totals, true = counted(case.key())
    board = {job: OF_NUMBER[kept[job]] if job in kept else true[job] for job in true}
    totals, weights = dict(totals), None
    for job in true:
        if board[job] != true[job]:
            weights = weights or jobs_of(case)[1]
            totals[true[job]] -= weights[job]
            totals[board[job]] += weights[job]
    return board, totals


def kept_in(content: bytes, case: Case, jobs: Container[Site]) -> tuple[dict[Site, int], int | None]:
    try:
        return keep_file.accept(content, case, jobs)
    except keep_file.Refused as reason:
        raise Refusal(6, f"campaign file refused: {reason}") from None


def stopped(kept: int, jobs: Sized) -> Refusal:
    return Refusal(7, f"stopped: {kept} of {len(jobs)} jobs kept")


def opened(line: Line, jobs: Container[Site]) -> tuple[bytes, dict[Site, int], int]:
    """The content of its file, begun where it keeps nothing yet, what it keeps, and its closed gate."""
    content = keep_file.read(line.files[1])
    kept, gate = ({}, None) if line.fresh else kept_in(content, line.case, jobs)
    if gate is None:
        head = keep_file.header(line.case)
        content, gate = keep_file.over(content, 0, head), len(head) - 1
    return content, kept, gate


def appended(line: Line, content: bytes, gate: int, rows: list[tuple[Site, int]]) -> None:
    """Writes the file with these rows appended, in pages. A row is a job and the number of its outcome."""
    for at in range(0, len(rows), line.page):
        batch = keep_file.batch([(*job, outcome) for job, outcome in rows[at : at + line.page]])
        content, gate = keep_file.over(content, gate, batch), gate + len(batch) - 1
    keep_file.write(line.files[1], content)


def run(line: Line) -> str:
    """Runs what its file does not keep of the line's shard, as many jobs as the line allows, and appends it in pages."""
    golden_run(line.case)
    jobs = counted(line.case.key())[2]
    content, kept, gate = opened(line, jobs)
    board, totals = board_of(line.case, kept)
    part, parts = line.shard
    missing = [job for number, job in enumerate(jobs) if job not in kept and number % parts == part - 1]
    todo = missing[: line.stop_after]
    appended(line, content, gate, [(job, OUTCOMES[board[job]]) for job in todo])
    if len(kept) + len(todo) < len(jobs):
        raise stopped(len(kept) + len(todo), jobs)
    return report(line.case, line.layout, totals)


def other_of(line: Line, jobs: Container[Site]) -> dict[Site, int]:
    """What the other campaign file of a merge keeps."""
    try:
        with open(line.files[2], "rb") as file:
            content = file.read(LONGEST_OTHER + 1)
    except OSError:
        raise Refusal(11, "other campaign file could not be read") from None
    try:
        if len(content) > LONGEST_OTHER:
            raise keep_file.Refused("7 TooLong")
        return keep_file.accept(content, line.case, jobs)[0]
    except keep_file.Refused as reason:
        raise Refusal(10, f"other campaign file refused: {reason}") from None


def merge(line: Line) -> str:
    """Appends what another file keeps and its own does not, in pages, and then reports as `report` does."""
    golden_run(line.case)
    jobs = counted(line.case.key())[2]
    other = other_of(line, jobs)
    content, kept, gate = opened(line, jobs)
    for job in jobs:
        if job in kept and other.get(job, kept[job]) != kept[job]:
            raise Refusal(10, "other campaign file refused: 8 Disagree at cycle {} cell {} bit {}".format(*job))
    appended(line, content, gate, [(job, other[job]) for job in jobs if job in other and job not in kept])
    return report_kept(line)


def whole_board(line: Line) -> tuple[Board, Totals]:
    """The outcome of each job and the totals, of a file that keeps all."""
    golden_run(line.case)
    content = keep_file.read(line.files[1])
    jobs = counted(line.case.key())[2]
    kept, _ = kept_in(content, line.case, jobs)
    if len(kept) < len(jobs):
        raise stopped(len(kept), jobs)
    return board_of(line.case, kept)


def rows_of(line: Line, board: Board) -> list[list[Any]]:
    """The jobs in order, each with its weight and its outcome."""
    weights = jobs_of(line.case)[1]
    return [[*job, weights[job], board[job]] for job in board]


def report_kept(line: Line) -> str:
    """What a file keeps, where it keeps all."""
    board, totals = whole_board(line)
    if line.layout != "csv":
        return report(line.case, line.layout, totals)
    return "cycle,cell,bit,weight,outcome\n" + "".join(",".join(map(str, row)) + "\n" for row in rows_of(line, board))


def symbols(line: Line, found: list[symbol_reader.Symbol]) -> str:
    """The same by the functions and objects that were found in the image."""
    board, _ = whole_board(line)
    pcs = symbol_reader.pcs_of(trace(line.case))
    return symbol_reader.text(found, pcs, rows_of(line, board), line.case.ram, line.case.pc_cell)


def audit(line: Line) -> str:
    """Which outcomes of a file are not those of their jobs' own runs."""
    golden_run(line.case)
    content = keep_file.read(line.files[1])
    true = counted(line.case.key())[2]
    kept, _ = kept_in(content, line.case, true)
    wrong = [job for job in true if job in kept and OF_NUMBER[kept[job]] != true[job]]
    lines = [f"wrong {job[0]} {job[1]} {job[2]} {OF_NUMBER[kept[job]]} {true[job]}" for job in wrong]
    return "".join(line + "\n" for line in [*lines, f"kept {len(kept)} wrong {len(wrong)}"])


KEPT = {"run": run, "report": report_kept, "audit": audit, "merge": merge}


def text_of(line: Line, image: bytes) -> str:
    """What the command writes of its case, and of the image's symbols."""
    try:
        if line.command == "symbols":
            return symbols(line, symbol_reader.symbols(image))
        if line.command in KEPT:
            return KEPT[line.command](line)
    except symbol_reader.Refused as reason:
        raise Refusal(3, str(reason)) from None
    except OSError:
        raise Refusal(5, "campaign file could not be read or written") from None
    if line.command == "trace":
        return trace(line.case)
    if line.command == "sample":
        return sample(line)
    return plan(line.case, line.layout) if line.command == "plan" else report(line.case, line.layout)


def judge(words: list[str]) -> tuple[int, str, str]:
    """The status, the text on standard output and the text on standard error of a line of words."""
    try:
        line, image = line_of(words), b""
        if line.files:
            try:
                with open(line.files[0], "rb") as file:
                    image = file.read(LONGEST_IMAGE + 1)
            except OSError:
                raise Refusal(2, "image could not be read") from None
            load(image, line.case)
        return 0, text_of(line, image), ""
    except Refusal as refusal:
        return refusal.status, "", refusal.text + "\n"


if __name__ == "__main__":
    status, text, complaint = judge(sys.argv[1:])
    sys.stdout.write(text)
    sys.stderr.write(complaint)
    sys.exit(status)
