"""A campaign as a table, for scripts and notebooks: a row for each job, with the name of its register or variable.

    from fail_star_tools import read_campaign
    rows = read_campaign("checksum.keep", image="checksum.elf")

Each row represents `weight` sites: flips of this bit before the cycles `cycle - weight + 1` to `cycle`. Sites
without a row are dead: they are overwritten or never read, and have no effect.
"""

from __future__ import annotations

from importlib.util import find_spec
from typing import Any, Optional

from fail_star_tools.count.job_columns import Columns, JobRow, JobTable, Labels, columns_by_program, columns_of_text
from fail_star_tools.count.places import RAM_BASE, Campaign, Jobs, look_for_lacking
from fail_star_tools.read import campaign_file, elf_image, regular
from fail_star_tools.read.campaign_file import CampaignFile, Refusal
from fail_star_tools.read.cells import bits_of, is_byte, offset_of, register_name
from fail_star_tools.read.digest import sha256_of
from fail_star_tools.read.job_table import Ram, is_campaign, table_of
from fail_star_tools.read.traces import Trace, trace_by
from fail_star_tools.run import program as programs

__all__ = ["JobRow", "JobTable", "read_campaign"]


def read_campaign(
    path: str, image: Optional[str] = None, program: Optional[str] = None, pandas: Optional[bool] = None
) -> Any:
    """The jobs of a campaign file, or of the output of `fail_star report --format csv`, in the order cycle, cell, bit.

    The result is a DataFrame if pandas is installed, and otherwise a JobTable, whose items are JobRow; `pandas` chooses
    one of the two. A byte of RAM has the name of its variable if `image` is given, and otherwise the address of its
    word. For a campaign file the program fail_star lists the jobs: the one on the path, or `program`. With its image
    there are also the columns pc, function, line and variable: the instruction that reads the flipped bit, and the
    variable that the bit is in.

    `attrs` of the result has `instructions` and, for a campaign file, `sites`, `dead`, `limit`, `flags` and the SHA-256
    of the file and of its case. A file that is refused raises `Refusal`.
    """
    if pandas and not has_pandas():
        raise Refusal("read_campaign: pandas is not installed")
    try:
        table = kept_table(path, image, program) if is_campaign(path) else text_table(path, image)
    except OSError as error:
        raise Refusal(f"{path}: {error.strerror}") from None
    except Refusal as refusal:
        raise Refusal(f"{path}: {refusal}") from None
    return table.to_pandas() if pandas or (pandas is None and has_pandas()) else table


def has_pandas() -> bool:
    """Whether pandas is installed."""
    return find_spec("pandas") is not None


def text_table(path: str, image: Optional[str]) -> JobTable:
    """The table of a text that `report --format csv` wrote."""
    shown = elf_image.read(image) if image else None
    with regular.opened(path) as file:
        columns = columns_of_text(regular.lines_of(file))
    place = Campaign(Jobs(), Ram(RAM_BASE), image=shown)
    return JobTable(columns, {"name": names_of(place, columns)}, {"instructions": columns.instructions})


def kept_table(path: str, image: Optional[str], program: Optional[str]) -> JobTable:
    """The table of a campaign file."""
    kept, called = campaign_file.read(path), programs.found(program)
    shown = elf_image.read(image) if image else None
    with table_of(kept, path, called, image) as lines:
        columns = columns_by_program(lines)
    ram = Ram(kept.card.ram.base, kept.card.ram.size)
    trace = trace_by(called, image, kept.card.trace_options()) if image else None
    place = Campaign(Jobs(), ram, kept.card, shown, trace=trace)
    labels = {"name": names_of(place, columns)}
    if trace is not None:
        look_for_lacking(place)
        labels |= labels_of_code(place, trace, columns)
        labels["variable"] = variables_of(place, columns)
    return JobTable(columns, labels, attrs_of(path, kept, columns), trace.pcs if trace else None)


def attrs_of(path: str, kept: CampaignFile, columns: Columns) -> dict[str, Any]:
    """What is known of the whole campaign."""
    card = kept.card
    sites = columns.instructions * bits_of(card.pc_cell, card.ram.size)
    return {
        "instructions": columns.instructions,
        "sites": sites,
        "dead": sites - columns.live_sites(),
        "limit": card.limit,
        "flags": card.flags(),
        "sha256": sha256_of(path),
        "case_sha256": card.sha256(),
    }


# --- Names ----------------------------------------------------------------------------------------


def names_of(place: Campaign, columns: Columns) -> Labels:
    """The name of each row's register or variable."""
    base = place.ram.base or 0
    return columns.labels_by_cell(lambda cell: place.variable_at(base + offset_of(cell)) if is_byte(cell) else register_name(cell))


def variables_of(place: Campaign, columns: Columns) -> Labels:
    """The variable that each row's bit is in; none for registers and the pc."""
    base = place.ram.base or 0
    return columns.labels_by_cell(lambda cell: place.variable_at(base + offset_of(cell)) if is_byte(cell) else "")


def labels_of_code(place: Campaign, trace: Trace, columns: Columns) -> dict[str, Labels]:
    """The function and the source line of the instruction that reads each row's bit, as far as the image has them."""
    found = {}
    if "function" not in place.lacking:
        found["function"] = columns.labels_by_cycle(trace.pcs, place.function_at)
    if "line" not in place.lacking:
        found["line"] = columns.labels_by_cycle(trace.pcs, place.line_at)
    return found
