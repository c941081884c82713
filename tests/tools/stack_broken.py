"""Reads the debugging information of images in which some bytes are others: each is read or refused in one line.

stack_broken.py TOOLS IMAGE..
"""

from __future__ import annotations

import random
import sys

sys.path.insert(0, sys.argv[1])
from fail_star_tools.read import elf_image, stack_variables  # noqa: E402
from fail_star_tools.read.campaign_file import Refusal  # noqa: E402

TIMES = 250


def main() -> None:
    dice = random.Random(7)
    for path in sys.argv[2:]:
        image = elf_image.read(path)
        sections = [section for section in image.sections if section.kind == 1 and section.size]
        good = bytearray(image.content)
        for _ in range(TIMES):
            section = dice.choice(sections[1:])  # the first is the code
            changed = good[:]
            for _ in range(dice.randrange(1, 4)):
                byte = dice.choice((0, 1, 0x7F, 0x80, 0xFF, dice.randrange(256)))
                changed[section.at + dice.randrange(section.size)] = byte
            try:
                found = stack_variables.variables_of(elf_image.Image(bytes(changed)))
                for pc in range(0x20000000, 0x20000060, 4):
                    for offset in range(-64, 64, 4):
                        found.of(pc, offset, offset + 32)
            except Refusal as refusal:
                assert "\n" not in str(refusal) and len(str(refusal)) < 200
    print("yes")


main()
