"""The size of RAM that an image was linked for, as far as its symbols say it, and a warning about a campaign with
another size."""

from __future__ import annotations

from fail_star_tools.read.campaign_file import Region
from fail_star_tools.read.cells import MOST_RAM
from fail_star_tools.read.elf_image import Image
from fail_star_tools.words import complain

SIZES = ("ram_size", "__ram_size", "_ram_size")
TOPS = ("stack_top", "__stack_top", "_stack_top", "__stack", "_stack", "_estack")


def linked_size(image: Image, base: int) -> tuple[int, str] | None:
    """The size of the RAM that begins at a base, with the symbol that says it, or None if no symbol says it."""
    for name in SIZES:
        value = image.value_of(name)
        if value is not None and 0 < value <= MOST_RAM:
            return value, name
    for name in TOPS:
        value = image.value_of(name)
        if value is not None and base < value <= base + MOST_RAM:
            return value - base, name
    return None


def warning_of(image: Image | None, ram: Region) -> str | None:
    """The warning about a campaign whose RAM is not that for which its image was linked."""
    found = linked_size(image, ram.base) if image is not None else None
    if found is None or found[0] == ram.size:
        return None
    size, name = found
    what = (
        "sites of bytes that the program does not have are counted"
        if ram.size > size
        else "the stack begins past its end"
    )
    return f"RAM has {ram.size} bytes here, and the image was linked for {size} ({name}): {what}"


def warn(command: str, image: Image | None, ram: Region, name: str = "") -> None:
    """Writes that warning to the error output, with the campaign's name if it needs one."""
    warning = warning_of(image, ram)
    if warning is not None:
        complain(command, f"{name}: {warning}" if name else warning)
