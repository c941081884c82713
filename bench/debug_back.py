#!/usr/bin/env python3
"""What fail_debug takes on a run of a million instructions: its start, the way to the end, and ways back.

usage: debug_back.py DEBUG [INSTRUCTIONS [ROUNDS]]     a million instructions and 5 rounds where nothing is said

The program is a loop that counts down. The flip hits a register that it does not use, before its third instruction.
Elapsed milliseconds, the least and the most of all rounds.
"""
import subprocess
import sys
import tempfile
import time
from pathlib import Path

HERE = Path(__file__).resolve().parent
sys.path[:0] = [str(HERE.parent / "tests/definitions"), str(HERE.parent / "tests/program")]
import assembler as a  # noqa: E402
from debug_client import Client  # noqa: E402

CYCLE, NOWHERE = 2, 0x2000FF00


def image_of(instructions):
    """A program of so many instructions, or one less."""
    words = a.constant(2, (instructions - 4) // 2)
    words += [a.immediate("addi", 2, 2, -1), a.branch("bne", 2, 0, -4), a.upper("lui", 1, 0xF0000), a.store("sw", 0, 1, 8)]
    return a.image([(a.ROM, a.code(words))])


def timed(found, name, call):
    began = time.perf_counter()
    answer = call()
    found.setdefault(name, []).append(1000 * (time.perf_counter() - began))
    return answer


def round_of(command, found):
    client = timed(found, "start, to the answer of ?", lambda: opened(command))
    with client:
        timed(found, "c, to the end", client.go_on)
        timed(found, "bs, one instruction back", client.step_back)
        timed(found, "bc, back to the flip", client.go_back)
        timed(found, "monitor first", lambda: client.monitor("first"))
        client.go_on()
        client.insert_breakpoint(NOWHERE)
        timed(found, "bc, with a breakpoint that no instruction has", client.go_back)
        timed(found, "c, with such a breakpoint", client.go_on)


def opened(command):
    client = Client(command)
    client.why()
    return client


def main():
    debug, said = sys.argv[1], [int(word) for word in sys.argv[2:4]]
    instructions, rounds = said + [1_000_000, 5][len(said) :]
    found = {}
    with tempfile.TemporaryDirectory() as folder:
        path = Path(folder, "loop.elf")
        path.write_bytes(image_of(instructions))
        command = [debug, str(path), str(CYCLE), "5", "0", "--ram", "0x80000000:64", "--limit", str(instructions + 10)]
        for _ in range(rounds):
            round_of(command, found)
    for name, times in found.items():
        print(f"{name:46} {min(times):8.1f} {max(times):8.1f}")


if __name__ == "__main__":
    try:
        main()
    except (IndexError, ValueError):
        sys.exit(__doc__)
