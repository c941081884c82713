"""What names the tools have for the bytes of the stack that `read_all` of program/inputs/frames.c reads, beside the
addresses that the program said: a line for each byte that is called otherwise, and how many bytes have the name of
their variable. Where compilers do not say where a variable is, its bytes have the name of its function.

stack_cells.py TOOLS IMAGE TRACE < the csv of `fail_star plan`
"""

from __future__ import annotations

import collections
import csv
import sys

sys.path.insert(0, sys.argv[1])
from fail_star_tools.count.stack_names import StackNames  # noqa: E402
from fail_star_tools.read import elf_image, traces  # noqa: E402

BASE, REGISTERS = 0x80000000, 32
NAMES = {
    "n": "many:ninth", "t": "many:tenth", "p": "many:pair", "m": "again:mine", "l": "blocks:left", "r": "blocks:right",
    "v": "blocks: stack", "c": "blocks:count", "g": "main:grid", "f": "main:first",
}  # fmt: skip


def told(output: bytes) -> dict[int, set[str]]:
    """The bytes with the names of their variables, as the program said them; one address may be of several at
    different times."""
    found: dict[int, set[str]] = collections.defaultdict(set)
    for at in range(0, len(output) - 1, 6):
        address = int.from_bytes(output[at + 1 : at + 5], "little")
        for byte in range(address, address + output[at + 5]):
            found[byte].add(NAMES[chr(output[at])])
    return found


def main() -> None:
    image, trace = elf_image.read(sys.argv[2]), traces.trace_in(sys.argv[3])
    names = StackNames(image, trace, BASE)
    found: dict[int, set[str]] = collections.defaultdict(set)
    for row in csv.DictReader(sys.stdin):
        cycle, cell = int(row["cycle"]), int(row["cell"])
        function = image.function_at(names.owner_at(cycle))
        if cell >= REGISTERS and function is not None and function.name == "read_all":
            name = names.slot_at(cycle, cell)
            if not name.startswith("read_all"):
                found[BASE + cell - REGISTERS].add(name.partition("+")[0])
    wanted, right = told(trace.output or b""), 0
    for byte in sorted({*wanted, *found}):
        unnamed = {name.partition(":")[0] + ": stack" for name in wanted[byte]}
        if not found[byte] or not found[byte] <= wanted[byte] | unnamed:
            print(f"{byte:#x} wanted {wanted[byte]} got {found[byte]}")
        right += wanted[byte] == found[byte]
    print(f"{right} of {len(wanted)}")


main()
