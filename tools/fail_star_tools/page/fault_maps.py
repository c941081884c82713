"""Draws the fault spaces of several campaigns side by side, for fault_map.py: all have the same rows and the same width
of a cycle, so equal areas are equally many sites."""

from __future__ import annotations

from collections.abc import Iterator
from dataclasses import dataclass
from xml.sax.saxutils import escape

from fail_star_tools.page import fault_map
from fail_star_tools.page.fault_grid import MOST_COLUMNS, Area, Band, Grid, bands_of, fitting_areas
from fail_star_tools.page.fault_map import LEFT, PLOT_WIDTH, Picture, Zone, plural
from fail_star_tools.read.job_table import OUTCOMES, Campaign, Ram

PLOT_HEIGHT = 450  # pixels, of all rows together
GAP = 14  # pixels between two maps
LINE = 14
WIDTH_OF_TICK = 60  # pixels, at least


@dataclass
class Part:
    """One of the campaigns, with its points."""

    name: str
    campaign: Campaign
    ram: Ram
    grid: Grid
    areas: list[list[Area]]

    @property
    def silent(self) -> int:
        """Its silent sites."""
        return self.campaign.counts(self.campaign.cells).get("silent", 0)

    def words(self) -> list[str]:
        """The lines above its map, after its name."""
        share = [self.campaign.share] if self.campaign.unknown else []
        return [plural(self.campaign.cycles, "cycle"), plural(self.silent, "silent site"), *share]


def parts_of(campaigns: list[tuple[str, Campaign, Ram]], bands: list[Band]) -> list[Part]:
    """The points of all campaigns, with equally many cycles in a column."""
    step = -(-sum(campaign.cycles for _, campaign, _ in campaigns) // MOST_COLUMNS)
    grids = []
    for _, campaign, _ in campaigns:
        grid = Grid(bands, campaign.cycles, cycle_at=campaign.cycle_at)
        grid.step = step
        grid.fill(campaign.reads)
        grids.append(grid)
    areas: list[list[list[Area]]] = []
    while not areas or len({grid.step for grid in grids}) > 1:
        step = max(grid.step for grid in grids)
        for grid in grids:
            while grid.step < step:
                grid.halve()
        areas = [fitting_areas(grid, bands) for grid in grids]
    return [Part(*campaign, grid, here) for campaign, grid, here in zip(campaigns, grids, areas)]


def draw_part(picture: Picture, part: Part, zones: list[Zone], left: float, column: float, top: float) -> None:
    """One map: its name and numbers, its rows, and its axis."""
    grid = part.grid
    wide = column * grid.columns
    for at, words in enumerate([part.name, *part.words()]):
        room = int((wide + GAP) / fault_map.CHARACTER)
        shown = words if len(words) <= room else words[: room - 1] + "…"
        picture.text(left, top + LINE * at, shown, "" if at else "zone")
    remaining = iter(part.areas)
    for placed in (placed for zone in zones for placed in zone.bands):
        rows = placed.band.rows
        picture.add(f'<g transform="translate({left:g} {placed.top:g}) scale({column:.9g} {placed.height / rows:g})">')
        name = escape(f"{part.name}, {part.ram.name(placed.band.cells)}")
        picture.add(f'<rect class="dead" width="{grid.columns}" height="{rows}"><title>{name}</title></rect>')
        for shape in fault_map.paths(next(remaining), grid.palette):
            picture.add(shape)
        picture.add("</g>")
    draw_axis(picture, part, left, column)


def draw_axis(picture: Picture, part: Part, left: float, column: float) -> None:
    """The cycles below a map."""
    bottom, wide, cycles = picture.down + 2, column * part.grid.columns, part.campaign.cycles
    most = max(1.0, wide / WIDTH_OF_TICK)
    step = next(step for step in fault_map.round_steps() if cycles <= most * step)
    picture.line(left, bottom, left + wide, bottom, "tick")
    for cycle in range(0, cycles, step):
        x = left + column * (cycle + 0.5) / part.grid.step
        picture.line(x, bottom, x, bottom + 5, "tick")
        picture.text(x, bottom + 17, f"{part.grid.cycle_at(cycle):,}", "middle")


def lefts_of(parts: list[Part]) -> Iterator[tuple[float, float]]:
    """Where each map begins, and the width of a column."""
    column = (PLOT_WIDTH - GAP * (len(parts) - 1)) / sum(part.grid.columns for part in parts)
    left = float(LEFT)
    for part in parts:
        yield left, column
        left += column * part.grid.columns + GAP


def draw(campaigns: list[tuple[str, Campaign, Ram]]) -> str:
    """The whole picture. The campaigns have one RAM, as far as it is known."""
    picture = Picture()
    bands = bands_of(set().union(*(campaign.cells for _, campaign, _ in campaigns)))
    parts = parts_of(campaigns, bands)
    outcomes = tuple(word for word in OUTCOMES if any(word in part.campaign.outcomes for part in parts))
    grid = parts[0].grid
    picture.down = 8.0
    shared = grid.step > 1 or any(bits > 1 for bits in grid.bits)
    fault_map.draw_legend(picture, outcomes, shared, grid.step)
    top = picture.down + 24
    picture.down = top + LINE * max(len(part.words()) for part in parts)
    zones = fault_map.zones_of(picture, bands, PLOT_HEIGHT)
    for part, (left, column) in zip(parts, lefts_of(parts)):
        draw_part(picture, part, zones, left, column, top)
    ram = next((part.ram for part in parts if part.ram.base is not None), parts[0].ram)
    for zone in zones:
        fault_map.draw_labels(picture, zone, ram)
    middle, about = LEFT + PLOT_WIDTH / 2, "cycle: the number of the instruction before which the bit flips"
    picture.text(middle, picture.down + 36, about, "middle")
    picture.down += 46
    return picture.whole("; ".join(f"{part.name}: {', '.join(part.words())}" for part in parts))
