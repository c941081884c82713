"""Draws the fault space of a campaign as an SVG picture: cycles across, cells down, coloured by outcome.

It reads a campaign file, from which the program makes the table, or the output of `fail_star report IMAGE KEEP
--format csv`: the line `cycle,cell,bit,weight,outcome`, then a line for each job in job order. A job represents the
sites of its cell and bit at the cycles `cycle - weight + 1` to `cycle`, the interval that ends with the read at
`cycle`. With `--pc` the pc is cell 0, and has a band of its own. A site that no job represents is dead: a flip there
is overwritten or never read, so it has no effect, and it is the background of the picture.

If there are more cycles or bits than the picture has columns or rows, a column holds several cycles and a row several
bits. The legend says how many, and how such a point is coloured. So a picture has a bounded size, and memory does not
grow with the table.

A table of an older version, which did not distinguish traps, has the word `trap` for all of them, and the picture
says so. Of several tables the picture has the maps side by side, with the same rows and the same width of a cycle.
"""

from __future__ import annotations

import argparse
import itertools
import tempfile
from collections.abc import Iterable, Iterator
from contextlib import ExitStack
from dataclasses import dataclass
from pathlib import Path
from xml.sax.saxutils import escape

from fail_star_tools.command_line import Parser
from fail_star_tools.page.fault_grid import KINDS, PLAIN, Area, Band, Grid, Palette, bands_of, fitting_areas
from fail_star_tools.read import campaign_file, elf_image, linked_ram, parts, regular
from fail_star_tools.read.campaign_file import Refusal, Region
from fail_star_tools.read.cells import PC, REGISTERS, REGISTER_WIDTH, all_sites, is_byte
from fail_star_tools.read.job_table import (
    OLD_TRAP, Campaign, Lines, Ram, Spool, is_campaign, ram_of, read_campaign, table_of,
)
from fail_star_tools.read.traces import trace_by
from fail_star_tools.run import program, whole_file
from fail_star_tools.words import printable, say

MOST_TOOLTIPS = 4_000  # an area takes some 15 bytes of the picture, and one with a tooltip some 120

# Lengths in pixels.
LEFT, RIGHT, PLOT_WIDTH = 112, 24, 960
ROW_HEIGHTS = range(1, 9)
PLOT_HEIGHT = 900
LABEL_DISTANCE = 12
SWATCH = 12
CHARACTER = 6.1  # how wide one is, about


# --- The picture ----------------------------------------------------------------------------------


@dataclass
class Placed:
    """A band in the picture, with its place from the top and its height, in pixels."""

    band: Band
    top: float
    height: float


@dataclass
class Zone:
    """The registers or the RAM, with the place of its heading."""

    heading: str
    top: float
    bands: list[Placed]


class Picture:
    """The pieces of an SVG text, and its height so far, in pixels."""

    STYLE = "".join(
        [
            "text{font:11px sans-serif;fill:#222}",
            ".head{font-size:17px;font-weight:bold}.zone{font-weight:bold}.bit{font-size:8px;fill:#666}.end{text-anchor:end}",
            ".middle{text-anchor:middle}.tick{stroke:#222}.guide{stroke:#000;stroke-opacity:.13}",
            "path,rect{shape-rendering:crispEdges}path{pointer-events:none}",
            *(f".{name}{{fill:{colour}}}" for name, (colour, _) in KINDS.items()),
        ]
    )

    def __init__(self) -> None:
        self.pieces: list[str] = []
        self.down = 0.0

    def add(self, piece: str) -> None:
        self.pieces.append(piece)

    def text(self, x: float, y: float, words: str, style: str = "") -> None:
        chosen = f' class="{style}"' if style else ""
        self.add(f'<text x="{x:g}" y="{y:g}"{chosen}>{escape(words)}</text>')

    def line(self, x1: float, y1: float, x2: float, y2: float, style: str) -> None:
        self.add(f'<line x1="{x1:.1f}" y1="{y1:.1f}" x2="{x2:.1f}" y2="{y2:.1f}" class="{style}"/>')

    def swatch(self, kind: str, x: float, y: float) -> None:
        """A kind of points in the legend."""
        self.add(f'<rect class="{kind}" x="{x:g}" y="{y:g}" width="{SWATCH}" height="{SWATCH}" stroke="#ccc"/>')

    def whole(self, title: str) -> str:
        """The text of the picture, with its final height."""
        width, height = LEFT + PLOT_WIDTH + RIGHT, round(self.down)
        opening = (
            f'<svg xmlns="http://www.w3.org/2000/svg" width="{width}" height="{height}" viewBox="0 0 {width} {height}" role="img">'
            f"<title>{escape(title)}</title><style>{self.STYLE}</style>"
            f'<rect width="{width}" height="{height}" fill="#fff"/>'
        )
        return "\n".join([opening, *self.pieces, "</svg>", ""])


def plural(count: int, word: str) -> str:
    """A count with its word."""
    return f"{count:,} {word}" if count == 1 else f"{count:,} {word}s"


def heading_of(campaign: Campaign, name: str) -> str:
    """The heading of the picture: what it shows, and the numbers of cycles and jobs."""
    part = f"; {campaign.share}" if campaign.unknown else ""
    return f"Fault space of {name}: {plural(campaign.cycles, 'cycle')}, {plural(campaign.jobs, 'job')}{part}"


def summary_of(campaign: Campaign, ram: Ram) -> str:
    """The number of sites by outcome. The number of dead sites is known only if the size of RAM is."""
    totals = campaign.counts(campaign.cells)
    sites, kind = sum(totals.values()), "live sites"
    if ram.size is not None:
        dead = all_sites(campaign.cycles, campaign.cells, ram.size) - sites
        sites, kind = sites + dead, "sites"
        totals["no-effect"] += dead
    counts = ", ".join(f"{outcome} {count:,}" for outcome, count in totals.items())
    older = "; by an older version, which did not distinguish traps" if OLD_TRAP in totals else ""
    return f"{sites:,} {kind}: {counts}{older}"


def draw_legend(picture: Picture, outcomes: tuple[str, ...], shared: bool, cycles: int, palette: Palette = PLAIN) -> None:
    """A swatch for each kind of point that can occur. If points have several sites, the legend also explains a
    point."""
    x, y = float(LEFT), picture.down + 12
    also = ("dead", "partly-silent") if shared else ("dead",)
    for name, (_, words) in palette.kinds.items():
        if name in palette.unused or name in KINDS and name not in outcomes and name not in also:
            continue
        if x + 17 + CHARACTER * len(words) > LEFT + PLOT_WIDTH:
            x, y = float(LEFT), y + 18
        picture.swatch(name, x, y - 10)
        picture.text(x + 17, y, words)
        x += 31 + CHARACTER * len(words)
    picture.down = y + 8
    if shared:
        picture.down += 12
        size = f"A point is {plural(cycles, 'cycle')} wide and one row high."
        rule = "If its sites differ, it has the first of these colours that one of them has."
        picture.text(LEFT, picture.down, f"{size} {rule}")
        picture.down += 4


def zones_of(picture: Picture, bands: list[Band], plot_height: int = PLOT_HEIGHT) -> list[Zone]:
    """Places all bands below one another, registers first, with a heading for each of the two kinds, and space
    between bands if bytes of RAM are omitted there."""
    rows = sum(band.rows for band in bands)
    height = min(ROW_HEIGHTS[-1], max(ROW_HEIGHTS[0], plot_height // rows))
    zones: list[Zone] = []
    for band in bands:
        memory = is_byte(band.cells[0])
        if not zones or (memory and not is_byte(zones[-1].bands[-1].band.cells[0])):
            zones.append(Zone(layout_of(band), picture.down + 20, []))
            picture.down += 26
        elif height * band.rows >= ROW_HEIGHTS[-1]:
            apart = memory and band.cells[0] != zones[-1].bands[-1].band.cells[0] + 1
            picture.down += 8 if apart else 2
        zones[-1].bands.append(Placed(band, picture.down, height * band.rows))
        picture.down += height * band.rows
    return zones


def layout_of(band: Band) -> str:
    """The heading of the zone that begins with this band, with the meaning of a row."""
    if not is_byte(band.cells[0]):
        return f"{'The pc and registers' if band.cells[0] == PC else 'Registers'}, a row is {plural(band.bits, 'bit')}, bit 0 at the top"
    if band.bits < 8:
        return f"Bytes of RAM, a row is {plural(band.bits, 'bit')}, bit 0 at the top"
    return f"Bytes of RAM that are read, a row is {plural(len(band.cells), 'byte')}"


def counted(first: int, last: int, word: str) -> str:
    """One or several numbered things, as text."""
    return f"{word} {first}" if first == last else f"{word}s {first} to {last}"


def across(grid: Grid, cycle: int) -> float:
    """The place of the middle of a cycle, in pixels."""
    return LEFT + PLOT_WIDTH * (cycle + 0.5) / (grid.columns * grid.step)


def tip_of(name: str, band: Band, area: Area, grid: Grid) -> str:
    """The tooltip of an area."""
    bits = "" if len(band.cells) > 1 else ", " + counted(area.top * band.bits, area.bottom * band.bits - 1, "bit")
    return f"{name}{bits}, {cycles_of(area, grid)}: {grid.palette.words(area.kind)}"


def cycles_of(area: Area, grid: Grid) -> str:
    """The cycles of an area, as text."""
    last = min(area.right * grid.step, grid.cycles) - 1
    return counted(grid.cycle_at(area.left * grid.step), grid.cycle_at(last), "cycle")


def draw_band(picture: Picture, placed: Placed, shapes: Iterable[str], grid: Grid, tip: str) -> None:
    """A band's background, with its tooltip, and the shapes on it, in units of columns and rows."""
    rows = placed.band.rows
    scale = f"{PLOT_WIDTH / grid.columns:.9g} {placed.height / rows:g}"
    picture.add(f'<g transform="translate({LEFT} {placed.top:g}) scale({scale})">')
    picture.add(f'<rect class="dead" width="{grid.columns}" height="{rows}"><title>{escape(tip)}</title></rect>')
    for shape in shapes:
        picture.add(shape)
    picture.add("</g>")


def rectangles(areas: list[Area], name: str, band: Band, grid: Grid) -> Iterator[str]:
    """Each area with a tooltip of its own."""
    for area in areas:
        place = f'x="{area.left}" y="{area.top}" width="{area.right - area.left}" height="{area.bottom - area.top}"'
        tip = escape(tip_of(name, band, area, grid))
        yield f'<rect class="{grid.palette.names[area.kind]}" {place}><title>{tip}</title></rect>'


def paths(areas: list[Area], palette: Palette) -> Iterator[str]:
    """All areas of a kind as one path, which is much shorter. The pointer then shows the tooltip of the band."""
    by_kind: dict[int, list[str]] = {}
    for area in areas:
        wide, high = area.right - area.left, area.bottom - area.top
        by_kind.setdefault(area.kind, []).append(f"M{area.left} {area.top}h{wide}v{high}h-{wide}z")
    for kind, pieces in by_kind.items():
        yield f'<path class="{palette.names[kind]}" d="{"".join(pieces)}"/>'


def draw_labels(picture: Picture, zone: Zone, ram: Ram) -> None:
    """The heading of a zone, the names of its bands as far as there is room, and the numbers of bits if rows are high
    enough."""
    picture.text(LEFT, zone.top, zone.heading, "zone")
    free = zone.top
    for placed in zone.bands:
        middle = placed.top + placed.height / 2
        first = placed.band.cells[:1]
        if middle - LABEL_DISTANCE / 2 < free:
            continue
        free = middle + LABEL_DISTANCE / 2
        picture.text(LEFT - 22, middle + 4, ram.name(first), "end")
        bit_height = placed.height / REGISTER_WIDTH
        if not is_byte(first[0]) and 8 * bit_height >= LABEL_DISTANCE:
            for bit in range(0, REGISTER_WIDTH, 8):
                picture.text(LEFT - 4, placed.top + bit_height * (bit + 0.5) + 3, str(bit), "bit end")


def round_steps() -> Iterator[int]:
    """The distances of the numbers at an axis."""
    return (factor * 10**power for power in range(9) for factor in (1, 2, 5))


def draw_cycles(picture: Picture, grid: Grid, top: float) -> None:
    """The axis of cycles below all bands, with guides up through them."""
    step = next(step for step in round_steps() if grid.cycles <= 12 * step)
    bottom = picture.down + 2
    for cycle in range(0, grid.cycles, step):
        x = across(grid, cycle)
        picture.line(x, top, x, bottom, "guide")
        picture.line(x, bottom, x, bottom + 5, "tick")
        picture.text(x, bottom + 17, f"{grid.cycle_at(cycle):,}", "middle")
    picture.line(LEFT, bottom, LEFT + PLOT_WIDTH, bottom, "tick")
    picture.text(LEFT + PLOT_WIDTH / 2, bottom + 34, "cycle: the number of the instruction before which the bit flips", "middle")
    picture.down = bottom + 44


def unread_of(cells: Iterable[int], ram: Ram) -> str:
    """A line with the cells that no job names; nothing if each cell is named."""
    named = set(cells)
    unread = [cell for cell in range(1, REGISTERS) if cell not in named]
    parts = []
    for _, group in itertools.groupby(enumerate(unread), lambda pair: pair[1] - pair[0]):
        run = [cell for _, cell in group]
        parts.append(f"x{run[0]}" if len(run) == 1 else f"x{run[0]} to x{run[-1]}")
    bytes_read = sum(map(is_byte, named))
    if ram.size is None:
        parts.append("all other bytes of RAM")
    elif bytes_read < ram.size:
        parts.append(f"{ram.size - bytes_read:,} of {ram.size:,} bytes of RAM")
    return "Never read, so dead and without a row: " + ", ".join(parts) if parts else ""


def draw_bands(picture: Picture, campaign: Campaign, ram: Ram) -> None:
    """The legend, all bands with their labels, and the axis."""
    bands = bands_of(campaign.cells)
    grid = Grid(bands, campaign.cycles, cycle_at=campaign.cycle_at)
    grid.fill(campaign.reads)
    areas = fitting_areas(grid, bands)
    tips = sum(map(len, areas)) <= MOST_TOOLTIPS
    draw_legend(picture, campaign.outcomes, grid.step > 1 or any(bits > 1 for bits in grid.bits), grid.step)
    top = picture.down + 22
    remaining = iter(areas)
    for zone in zones_of(picture, bands):
        for placed in zone.bands:
            band, name, here = placed.band, ram.name(placed.band.cells), next(remaining)
            counts = ", ".join(f"{outcome} {count:,}" for outcome, count in campaign.counts(band.cells).items())
            shapes = rectangles(here, name, band, grid) if tips else paths(here, grid.palette)
            draw_band(picture, placed, shapes, grid, f"{name}, live sites: {counts}")
        draw_labels(picture, zone, ram)
    draw_cycles(picture, grid, top)


def draw(campaign: Campaign, name: str, ram: Ram) -> str:
    """The whole picture of a campaign."""
    picture, heading, summary = Picture(), heading_of(campaign, name), summary_of(campaign, ram)
    picture.text(LEFT, 26, heading, "head")
    picture.text(LEFT, 46, summary)
    picture.down = 54
    draw_bands(picture, campaign, ram)
    unread = unread_of(campaign.cells, ram)
    if unread:
        picture.text(LEFT, picture.down + 12, unread)
        picture.down += 20
    picture.down += 8
    return picture.whole(f"{heading}; {summary}")


# --- The command line -----------------------------------------------------------------------------


def line_of(words: list[str]) -> argparse.Namespace:
    """The options and files that the words name."""
    about = "Draws the fault space of a campaign as an SVG picture: cycles across, cells down, coloured by outcome. "
    about += "Several campaigns are side by side, with the same rows and the same width of a cycle. --cycles, --code and "
    about += "--function ask for a part of the run, whose cycles follow one another in the picture."
    parser = Parser("fault_map", about, epilog="fault_map.py KEEP > picture.svg")
    table = "a campaign file, or what fail_star report --format csv wrote; - or none: standard input"
    parser.add_argument("tables", nargs="*", default=["-"], metavar="table", help=table)
    parser.add_argument("--ram", type=ram_of, default=Ram(), metavar="BASE[:SIZE]", help="shows bytes of RAM by their addresses; "
                        "with SIZE, the one of the campaign, dead sites are counted too")
    parser.add_argument("--name", help="the name of the campaign in the heading (default: that of the table's file)")
    parser.add_argument("-o", "--output", metavar="FILE", help="the file of the picture (default: standard output)")
    about = "the program's ELF file: a warning says if it was linked for another RAM"
    parser.add_argument("--image", metavar="IMAGE", help=about)
    parser.add_argument("--program", metavar="FILE", help="the program fail_star, if it is not on the path")
    parts.add_options(parser)
    line: argparse.Namespace = parser.parse_args(words)
    line.tables = line.tables or ["-"]
    if len(line.tables) > 1 and (line.name is not None or line.image is not None):
        parser.error("--name and --image are for one table")
    return line


def campaign_of(table: str, line: argparse.Namespace, stack: ExitStack) -> tuple[str, Campaign, Ram]:
    """A campaign with its name and its RAM. Files that it needs stay open until the stack is closed."""
    ram: Ram = line.ram
    image = elf_image.read(line.image) if line.image is not None else None
    part, window = parts.asked_in(line), None
    if is_campaign(table):
        kept = campaign_file.parsed(table)
        ram = Ram(kept.card.ram.base, kept.card.ram.size)
        called = program.found(line.program)
        name = stack.enter_context(program.image_of(kept.card, line.image))
        if part is not None:
            window = part.window(trace_by(called, name, kept.card.trace_options()), image)
        lines: Lines = stack.enter_context(table_of(kept, table, called, name, True, window))
    else:
        window = None if part is None else part.window(None, image)
        lines = regular.lines_of(stack.enter_context(regular.opened_or_input(table)))
    campaign = read_campaign(lines, Spool(stack.enter_context(tempfile.TemporaryFile())), window)
    if part is not None:
        part.look_at_end(campaign.instructions)
    ram.look_at(campaign.cells)
    if image is not None and ram.base is not None and ram.size is not None:
        linked_ram.warn("fault_map", image, Region(ram.base, ram.size))
    name = printable(line.name or ("a campaign" if table == "-" else Path(table).stem))
    return name if part is None else f"{name}, {printable(str(part))}", campaign, ram


def picture_of(line: argparse.Namespace) -> str:
    """Reads all tables and draws them."""
    campaigns: list[tuple[str, Campaign, Ram]] = []
    with ExitStack() as stack:
        for table in line.tables:
            try:
                campaigns.append(campaign_of(table, line, stack))
            except Refusal as refusal:
                raise Refusal(f"{'standard input' if table == '-' else table}: {refusal}") from None
            first, last = campaigns[0][2], campaigns[-1][2]
            if None not in (first.base, last.base) and first.base != last.base:
                there = f"that of {line.tables[0]} at {first.base:#010x}"
                raise Refusal(f"{table}: its RAM is at {last.base:#010x}, and {there}")
        text = draw_all(campaigns)
    return text


def draw_all(campaigns: list[tuple[str, Campaign, Ram]]) -> str:
    """The map of one campaign, or those of several side by side."""
    if len(campaigns) > 1:
        from fail_star_tools.page import fault_maps  # which draws with the functions of this module

        return fault_maps.draw(campaigns)
    name, campaign, ram = campaigns[0]
    return draw(campaign, name, ram)


def answer(line: argparse.Namespace) -> str:
    """The picture, or nothing if it was written to a file."""
    text = picture_of(line)
    if line.output is None:
        return text
    whole_file.write(line.output, text)
    return ""


def main(words: list[str]) -> int:
    """The exit status: 0 if the picture was written, 1 if it was not, and 2 (argparse's) for invalid words."""
    line = line_of(words)
    return say("fault_map", lambda: answer(line))
