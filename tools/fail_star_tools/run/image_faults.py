"""Why an image cannot be read, is refused, or does not run on a map: for explain.py."""

from __future__ import annotations

import os
import stat
import struct

from fail_star_tools.read import regular
from fail_star_tools.read.campaign_file import Refusal, Region
from fail_star_tools.read.elf_image import MOST_BYTES
from fail_star_tools.run import causes

FAULTS = (
    "the file is shorter than an ELF header",
    "the file is not an ELF file; .bin and .hex files are not",
    "it is an ELF file of 64 bits: build with -march=rv32im -mabi=ilp32",
    "it is for a big-endian machine",
    "it has another version of ELF",
    "it is not an executable: an object file must be linked first, and -pie or -shared is not for this machine",
    "it is for another processor than RISC-V: was it built by the compiler of this computer?",
    "its program headers are not valid, or not within the file",
    "a segment has more bytes in the file than in memory",
    "a segment goes past the end of the file: was it cut?",
    "a segment is outside of ROM and RAM: compare its physical address (readelf -l) with --rom and --ram",
    "it has more than 16,777,216 bytes",
    "its section headers, or its table of symbols or of their names, are broken; only `symbols` reads them: link it again",
    "a function or a variable has a name that is not in the table of names; only `symbols` reads it: link it again",
)
ELF = b"\x7fELF"
NO_ELF, OUTSIDE = (1, 2), 11  # the numbers of a file that is no ELF file, and of a segment outside of the map
LOADED, EXECUTED = 1, 1  # of a program header the type, and the bit of its flags
WITHOUT_SCRIPT, PAGE = 0x10000, 0x1000  # where GNU ld and lld put a program without a linker script


def first_bytes(image: str) -> bytes:
    """The bytes of a file, up to the longest image."""
    with regular.opened(image) as file:
        return file.read(MOST_BYTES)


def looks_compressed(image: str) -> bool:
    """Whether an image says of itself that it has compressed instructions: the first flag of its ELF header."""
    try:
        header = first_bytes(image)[:52]
    except OSError:
        return False
    return len(header) == 52 and header.startswith(ELF) and bool(header[36] & 1)


def loaded(image: str) -> list[tuple[int, ...]]:
    """The program headers of an image that say what is loaded; empty if they cannot be read."""
    try:
        content = first_bytes(image)
        table, count = struct.unpack_from("<I", content, 28)[0], struct.unpack_from("<H", content, 44)[0]
        headers = [struct.unpack_from("<8I", content, table + 32 * number) for number in range(count)]
    except (OSError, struct.error):
        return []
    return [header for header in headers if header[0] == LOADED]


def needs_more_ram(image: str, ram: Region) -> bool:
    """Whether a segment of an image begins in this RAM and goes past its end."""
    ends = ((header[3], header[5]) for header in loaded(image))
    return any(ram.base <= address < ram.base + ram.size < address + size for address, size in ends)


def runs_from_ram(image: str, ram: Region) -> bool:
    """Whether an image has an executable segment in this RAM, by its link address or its load address."""
    code = (header for header in loaded(image) if header[6] & EXECUTED)
    return any(ram.base <= address < ram.base + ram.size for header in code for address in header[2:4])


def unread(image: str) -> str | None:
    """The reason why an image cannot be read that holds now, or None."""
    if not image:
        return "IMAGE is an empty name."
    try:
        with regular.opened(image) as file:
            file.read(MOST_BYTES)
    except FileNotFoundError:
        return f"{image}: The image could not be read: is its name right?"
    except IsADirectoryError:
        return f"{image} is a folder."
    except PermissionError:
        return f"{image} may not be read by you{mode_of(image)}."
    except (OSError, ValueError) as error:
        return f"{image}: reading it failed: {error.strerror if isinstance(error, OSError) else error}."
    return None


def mode_of(path: str) -> str:
    """The mode of a file in parentheses, if its folder can be searched."""
    try:
        return f" (its mode is {stat.filemode(os.stat(path).st_mode)})"
    except OSError:
        return ""


def refused(number: int, image: str | None, rom: str, ram: str) -> list[str]:
    """Why an image is refused, by the number of its fault and the words of the map. The last lines say most about this
    image."""
    if not 1 <= number <= len(FAULTS):
        raise Refusal(f"no fault of an image has number {number}")
    lines = [f"{FAULTS[number - 1]}."]
    if number in NO_ELF and image is not None:
        lines += no_elf(image)
    if number == OUTSIDE:
        lines += outside(image, rom, ram)
    return lines


def seen(image: str, rom: str, ram: str) -> list[str]:
    """What is wrong with an image that is refused, as far as its first bytes and its segments show it."""
    parts = Region.of(rom), Region.of(ram)
    if all(is_within(header, parts) for header in loaded(image)):
        return no_elf(image)
    return outside(image, rom, ram)


def no_elf(image: str) -> list[str]:
    """What a file is that is given as an image and is no ELF file, if its first bytes tell."""
    try:
        first = first_bytes(image)[: causes.FIRST_BYTES]
    except OSError:
        return []
    if not first:
        return [f"{image} is empty: did its build fail?"]
    kind = causes.kind_of(first)
    if kind is None or first.startswith(ELF):
        return []
    if causes.is_text(first):
        made = "what compiler and linker make of a source, as `make out/NAME.elf` in examples does"
        return [f"{image} is {kind}. IMAGE is {made}."]
    return [f"{image} is {kind}: IMAGE is the program's ELF file, and comes first."]


def outside(image: str | None, rom: str, ram: str) -> list[str]:
    """Which segment is outside of the map, and what may be the reason."""
    headers = loaded(image) if image is not None else []
    parts = Region.of(rom), Region.of(ram)
    beyond = [header for header in headers if not is_within(header, parts)]
    lowest = min((header[3] for header in beyond), default=0)
    if lowest // PAGE * PAGE == WITHOUT_SCRIPT:
        return [
            f"A segment is at {lowest:#010x}, where the linker puts a program that has no linker script.",
            "Link with -T memory.ld, which is in examples: it puts code into ROM and data into RAM.",
        ]
    lines = [f"The segment at {header[3]:#010x} has {header[5]} bytes." for header in beyond[:1]]
    return [*lines, f"The map is --rom {rom} --ram {ram}. Is there a 0x missing in front of a base?"]


def is_within(header: tuple[int, ...], parts: tuple[Region, ...]) -> bool:
    """Whether a segment is within ROM or within RAM."""
    start, end = header[3], header[3] + header[5]
    return any(part.base <= start and end <= part.base + part.size for part in parts)
