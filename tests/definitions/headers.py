"""Images whose headers are changed, one or two fields at a time, or that are cut short. The fields are those of the
chapters "ELF Header" and "Program Header" of the ELF specification."""

from __future__ import annotations

import random
from collections.abc import Iterator

import assembler as a

FILE_FIELDS = {
    "magic": (0, 4), "class": (4, 1), "byte order": (5, 1), "identification version": (6, 1), "system": (7, 1),
    "padding": (8, 4), "e_type": (16, 2), "e_machine": (18, 2), "e_version": (20, 4), "e_entry": (24, 4), "e_phoff": (28, 4),
    "e_shoff": (32, 4), "e_flags": (36, 4), "e_ehsize": (40, 2), "e_phentsize": (42, 2), "e_phnum": (44, 2),
    "e_shentsize": (46, 2), "e_shnum": (48, 2), "e_shstrndx": (50, 2),
}
SEGMENT_FIELDS = {
    "p_type": (0, 4), "p_offset": (4, 4), "p_vaddr": (8, 4), "p_paddr": (12, 4), "p_filesz": (16, 4), "p_memsz": (20, 4),
    "p_flags": (24, 4), "p_align": (28, 4),
}
ADDRESSES = [a.ROM - 1, a.ROM + 56, a.ROM + 57, a.ROM + 64, a.RAM - 1, a.RAM + 8, a.RAM + 15, a.RAM + 16, 0xF0000000, 0xFFFFFFF8]


def base() -> bytes:
    """Two instructions in ROM, five bytes in RAM, and ten bytes after the last segment."""
    program = a.code([a.upper("lui", 1, 0xF0000), a.store("sw", 0, 1, 8)])
    return a.image([(a.ROM, program), (a.RAM, b"ABCDE")]) + bytes(10)


def fields() -> Iterator[tuple[str, tuple[int, int]]]:
    yield from FILE_FIELDS.items()
    for segment in range(2):
        for name, (offset, size) in SEGMENT_FIELDS.items():
            yield f"{name} of segment {segment}", (52 + 32 * segment + offset, size)


def edges(image: bytes, offset: int, size: int) -> list[int]:
    """The edge values of a field: near 0, its own value, the file's length, the map and the greatest value."""
    own, length, most = int.from_bytes(image[offset : offset + size], "little"), len(image), (1 << 8 * size) - 1
    values = [0, 1, 2, 3, 8, 9, 16, 31, 32, 33, 52, 64, own - 1, own + 1, own ^ 0x80, most, most - 1, most >> 1, (most >> 1) + 1]
    values += [length - 64, length - 63, length - 13, length - 8, length - 7, length - 5, length - 4, length, length + 1]
    if size == 4:
        values += ADDRESSES + [most - 31, most - length, most - 63, most - 4, own << 24, own + 0x100]
    return sorted({value for value in values if 0 <= value <= most and value != own})


def changed(image: bytes, offset: int, size: int, value: int) -> bytes:
    return image[:offset] + value.to_bytes(size, "little") + image[offset + size :]


def images(seed: int = 5) -> Iterator[tuple[str, bytes]]:
    """Each image with its name. The first is unchanged."""
    image, dice = base(), random.Random(seed)
    yield "unchanged", image
    changes = [(name, place, value) for name, place in fields() for value in edges(image, *place)]
    for name, place, value in changes:
        yield f"{name} {value:#x}", changed(image, *place, value)
    for _ in range(150):
        (name, place, value), (other, there, another) = dice.sample(changes, 2)
        yield f"{name} {value:#x}, {other} {another:#x}", changed(changed(image, *place, value), *there, another)
    for length in range(len(image)):
        yield f"cut to {length} bytes", image[:length]
    for length in (47, 48, 51, 52, 53):
        yield f"no program headers, cut to {length} bytes", changed(image, 44, 2, 0)[:length]
    without = changed(changed(image, 44, 2, 0), 42, 2, 0)
    yield "no program headers, of size 0, at the greatest offset", changed(without, 28, 4, 0xFFFFFFFF)
    many = a.image([(a.RAM + i % 16, bytes([i % 256])) for i in range(300)] + [(a.ROM, image[116:124])])
    yield "301 segments", many
    yield "301 segments, one header more than there are bytes", changed(changed(many, 44, 2, 65534), 28, 4, 0xFFFFFF00)
    yield "65535 program headers that fit", changed(many, 44, 2, 65535) + bytes(32 * 65535)
    yield "65534 program headers that fit", changed(many, 44, 2, 65534) + bytes(32 * 65534)
