"""Draws the fault map of a page of report.py, by the bands, areas and labels of fault_map.py.

A silent area is at least two pixels wide and high, however few sites it has. Above the cells are the functions of the
run and the silent sites of each cycle, at the left of RAM its variables, and at the right the silent sites of each
cell. Several campaigns are shown with the same rows and the same width of a cycle, so a silent site has the same area
in all of them.
"""

from __future__ import annotations

import itertools
from collections import Counter
from dataclasses import dataclass
from xml.sax.saxutils import escape

from fail_star_tools.known import known
from fail_star_tools.page import fault_grid, fault_map, page_hatch, page_links
from fail_star_tools.page.fault_grid import Area, Band, Grid
from fail_star_tools.page.fault_map import LEFT, PLOT_WIDTH, SWATCH, Picture, Placed, Zone, counted
from fail_star_tools.page.page_groups import ranges_of
from fail_star_tools.page.page_hatch import short
from fail_star_tools.page.page_table import SILENT, Shown
from fail_star_tools.read.cells import is_byte
from fail_star_tools.read.elf_image import Symbol
from fail_star_tools.read.job_table import Campaign
from fail_star_tools.words import printable

# Lengths in pixels. The place of x = 0 is fault_map.py's, and the names of variables are at the left of it.
NAMES_WIDTH, MARGIN_WIDTH = 96, 120
BAR_AT, BAR_WIDTH = LEFT + PLOT_WIDTH + 8, 44
BRACKET_AT = 12
LANE_HEIGHT, STRIP_HEIGHT = 16, 44
LEAST = 2.0  # of a silent area


@dataclass
class Scale:
    """The parts that all maps of a page have in common: the bands, the number of cycles in the width, and the longest
    bars."""

    bands: list[Band]
    cycles: int
    most_of_cell: int
    most_of_cycle: int


class PageMap(Picture):
    """The pieces of a map within a page, which has the style. `manners` has the lines over the kinds of points."""

    def __init__(self, manners: dict[str, str]) -> None:
        super().__init__()
        self.manners = manners

    def swatch(self, kind: str, x: float, y: float) -> None:
        """A kind of points in the legend."""
        super().swatch(kind, x, y)
        place = f'x="{x:g}" y="{y:g}" width="{SWATCH}" height="{SWATCH}"'
        self.add(page_hatch.over(kind, self.manners, place))

    def whole(self, title: str) -> str:
        """The map as an element of a page."""
        left, width, height = -NAMES_WIDTH, NAMES_WIDTH + LEFT + PLOT_WIDTH + MARGIN_WIDTH, round(self.down)
        size = f'width="{width}" height="{height}" viewBox="{left} 0 {width} {height}"'
        opening = f'<svg xmlns="http://www.w3.org/2000/svg" class="map" {size} role="img"><title>{escape(title)}</title>'
        return "\n".join([opening, *self.pieces, "</svg>", ""])


# --- Scales ---------------------------------------------------------------------------------------


def scale_of(all_shown: list[Shown]) -> Scale:
    """The scale of all campaigns of a page."""
    bands = fault_grid.bands_of(set().union(*(shown.campaign.cells for shown in all_shown)))
    most_of_cell = max(silent_of(shown.campaign, band) for shown in all_shown for band in bands)
    most_of_cycle = max(max(shown.counts.flipped) for shown in all_shown)
    return Scale(bands, max(shown.campaign.cycles for shown in all_shown), most_of_cell, most_of_cycle)


def silent_of(campaign: Campaign, band: Band) -> int:
    """The silent sites of a band."""
    return sum(campaign.cells[cell][SILENT] for cell in band.cells if cell in campaign.cells)


def grids_of(all_shown: list[Shown], scale: Scale) -> list[tuple[Grid, list[list[Area]]]]:
    """The grid of each campaign with its areas. All grids have the same number of cycles per column."""
    grids = []
    for shown in all_shown:
        grids.append(Grid(scale.bands, scale.cycles, shown.palette, shown.campaign.cycle_at))
        grids[-1].fill(shown.reads or shown.campaign.reads)
    step = 0
    while any(grid.step != step for grid in grids):
        areas = [fault_grid.fitting_areas(grid, scale.bands) for grid in grids]
        step = max(grid.step for grid in grids)
        for grid in grids:
            while grid.step < step:
                grid.halve()
                areas = []
    return list(zip(grids, areas or [fault_grid.fitting_areas(grid, scale.bands) for grid in grids]))


# --- The lanes above the cells --------------------------------------------------------------------


def place_of(cycle: int, grid: Grid) -> float:
    """Where a cycle begins, in pixels."""
    return LEFT + PLOT_WIDTH * cycle / (grid.columns * grid.step)


def spans_of(shown: Shown, step: int) -> list[tuple[int, int, Symbol | None]]:
    """The functions that run, each from a cycle to below another one. If `step` cycles share a column, the function
    that most of them have is taken."""
    trace, cycles = known(shown.trace), shown.campaign.cycles
    owners = {address: shown.function_of(address) for address in trace.words}
    of_columns = []
    for start in range(0, cycles, step):
        places = range(start, min(start + step, cycles))
        column = Counter(owners[trace.pcs[shown.campaign.cycle_at(place)]] for place in places)
        of_columns.append(column.most_common(1)[0][0])
    spans, start = [], 0
    for owner, group in itertools.groupby(of_columns):
        end = start + step * len(list(group))
        spans.append((start, min(end, cycles), owner))
        start = end
    return spans


def draw_functions(picture: PageMap, shown: Shown, grid: Grid) -> None:
    """A lane with the functions of the run, each named if there is room."""
    if shown.trace is None or shown.image is None or not shown.image.has_symbols:
        return
    picture.text(LEFT - 22, picture.down + 12, "function", "end")
    picture.add('<g data-row="functions">')
    shades: dict[Symbol | None, str] = {}
    for start, end, owner in spans_of(shown, grid.step):
        anchor = f' id="{shown.anchor(page_links.of_span(owner.value))}"' if owner and owner not in shades else ""
        shade = shades.setdefault(owner, ("even", "odd")[len(shades) % 2])
        left, wide = place_of(start, grid), place_of(end, grid) - place_of(start, grid)
        name = printable(owner.name) if owner else "no function"
        tip = escape(f"{name}, {counted(grid.cycle_at(start), grid.cycle_at(end - 1), 'cycle')}")
        place = f'x="{left:.1f}" y="{picture.down:g}" width="{wide:.1f}" height="{LANE_HEIGHT - 2}"'
        picture.add(f'<rect class="{shade}"{anchor} {place}><title>{tip}</title></rect>')
        if fault_map.CHARACTER * len(name) + 6 <= wide:
            picture.text(left + wide / 2, picture.down + 11, name, "middle")
    picture.add("</g>")
    picture.down += LANE_HEIGHT


def draw_strip(picture: PageMap, shown: Shown, grid: Grid, most: int) -> None:
    """The silent sites of each cycle; if a column has several cycles, the largest number of them."""
    bottom, step = picture.down + STRIP_HEIGHT, grid.step
    picture.text(LEFT - 22, bottom - 26, "silent sites", "end")
    picture.text(LEFT - 22, bottom - 13, "of a cycle" if step == 1 else f"of a cycle, most of {step:,}", "end")
    picture.text(LEFT - 22, bottom, f"top: {most:,}", "end")
    peaks = (max(shown.counts.flipped[start : start + step]) for start in range(0, shown.campaign.cycles, step))
    path, at = [], 0
    for peak, group in itertools.groupby(peaks):
        end = at + step * len(list(group))
        left, right = place_of(at, grid), place_of(min(end, shown.campaign.cycles), grid)
        at = end
        if peak:
            high = max(1.0, STRIP_HEIGHT * peak / most)
            path.append(f"M{left:.1f} {bottom - high:.1f}h{right - left:.1f}v{high:.1f}h-{right - left:.1f}z")
    picture.add(f'<g class="plain strip"><path class="silent" d="{"".join(path)}"/></g>')
    picture.line(LEFT, bottom, place_of(shown.campaign.cycles, grid), bottom, "tick")
    picture.down = bottom


# --- The cells ------------------------------------------------------------------------------------


@dataclass(frozen=True)
class Shape:
    """The areas of a band that have one kind and the same cycles."""

    kind: int
    areas: tuple[Area, ...]

    def tip(self, name: str, band: Band, grid: Grid) -> str:
        """The tooltip of the shape."""
        bits = [bit for area in self.areas for bit in range(area.top * band.bits, area.bottom * band.bits)]
        of_bits = "" if len(band.cells) > 1 else f", {'bit' if len(bits) == 1 else 'bits'} {ranges_of(bits)}"
        return f"{name}{of_bits}, {fault_map.cycles_of(self.areas[0], grid)}: {grid.palette.words(self.kind)}"


def shapes_of(areas: list[Area]) -> list[Shape]:
    """The areas of a band as shapes, in the order of their first cycles."""
    found: dict[tuple[int, int, int], list[Area]] = {}
    for area in sorted(areas, key=lambda area: (area.left, area.top)):
        found.setdefault((area.kind, area.left, area.right), []).append(area)
    return [Shape(kind, tuple(group)) for (kind, _, _), group in found.items()]


def draw_bands(picture: PageMap, shown: Shown, zones: list[Zone], grid: Grid, areas: list[list[Area]]) -> None:
    """All cells: the pale areas, then the region after the end of the campaign, and above both the silent areas."""
    shapes = [shapes_of(here) for here in areas]
    tips = sum(map(len, shapes)) <= fault_map.MOST_TOOLTIPS
    placed = [placed for zone in zones for placed in zone.bands]
    full = grid.palette.full
    for one, here in zip(placed, shapes):
        draw_background(picture, shown, one, grid)
        draw_shapes(picture, shown, one, grid, [shape for shape in here if shape.kind not in full], tips)
        picture.add("</g>")
    draw_lines(picture, placed, shapes, grid, False)
    end = place_of(shown.campaign.cycles, grid)
    if shown.campaign.cycles < grid.cycles:
        height = picture.down - placed[0].top
        place = f'x="{end:.1f}" y="{placed[0].top:g}" width="{LEFT + PLOT_WIDTH - end:.1f}" height="{height:g}"'
        picture.add(f'<rect class="over" {place}/>')
    picture.add('<g class="marks">')
    for one, here in zip(placed, shapes):
        silent = [shape for shape in here if shape.kind in full]
        if silent:
            picture.add(f'<g data-row="{page_links.of_cell(one.band.cells[0])}">')
            draw_shapes(picture, shown, one, grid, silent, tips)
            picture.add("</g>")
    picture.add("</g>")
    draw_lines(picture, placed, shapes, grid, True)


def draw_background(picture: PageMap, shown: Shown, placed: Placed, grid: Grid) -> None:
    """The background of a band, with its anchor and tooltip; its group stays open for its shapes."""
    cell = page_links.of_cell(placed.band.cells[0])
    tip = escape(f"{shown.ram.name(placed.band.cells)}: {silent_of(shown.campaign, placed.band):,} silent sites")
    wide = place_of(min(shown.campaign.cycles, grid.columns * grid.step), grid) - LEFT
    place = f'x="{LEFT}" y="{placed.top:g}" width="{wide:.1f}" height="{placed.height:g}"'
    picture.add(f'<g class="band" id="{shown.anchor(cell)}" data-row="{cell}">')
    picture.add(f'<rect class="dead" {place}><title>{tip}</title></rect>')


def draw_shapes(picture: PageMap, shown: Shown, placed: Placed, grid: Grid, shapes: list[Shape], tips: bool) -> None:
    """The shapes of a band: each with a tooltip of its own, or all of a kind as one path, which is much shorter. Those
    of the first kinds come last, and so above."""
    name = shown.ram.name(placed.band.cells)
    for kind in sorted({shape.kind for shape in shapes}, reverse=True):
        style, here = grid.palette.names[kind], [shape for shape in shapes if shape.kind == kind]
        outlines = ["".join(outline_of(area, placed, grid) for area in shape.areas) for shape in here]
        if tips:
            texts = (escape(shape.tip(name, placed.band, grid)) for shape in here)
            pieces = (f'<path d="{outline}"><title>{tip}</title></path>' for outline, tip in zip(outlines, texts))
            picture.add("\n".join([f'<g class="{style}">', *pieces, "</g>"]))
        else:
            picture.add(f'<path class="{style} plain" d="{"".join(outlines)}"/>')


def draw_lines(picture: PageMap, placed: list[Placed], shapes: list[list[Shape]], grid: Grid, full: bool) -> None:
    """The lines over the silent areas and those of classes, or over all others."""
    for kind, name in enumerate(grid.palette.names):
        if name in picture.manners and (kind in grid.palette.full) == full:
            manner = picture.manners[name]
            found = [(shape, one) for one, here in zip(placed, shapes) for shape in here if shape.kind == kind]
            boxes = (box_of(area, one, grid) for shape, one in found for area in shape.areas)
            path = "".join(page_hatch.lines(manner, *box) for box in boxes)
            picture.add(f'<path class="hatch" d="{path}"/>' if path else "")


def box_of(area: Area, placed: Placed, grid: Grid) -> tuple[float, float, float, float]:
    """The place of an area and its width and height, in pixels. A silent area that is too small is made larger around
    its middle."""
    column, row = PLOT_WIDTH / grid.columns, placed.height / placed.band.rows
    wide, high = column * (area.right - area.left), row * (area.bottom - area.top)
    x, y = LEFT + column * area.left, placed.top + row * area.top
    least = LEAST if area.kind in grid.palette.full else 0.0
    grown_x, grown_y = max(0.0, least - wide) / 2, max(0.0, least - high) / 2
    return min(max(x - grown_x, LEFT), LEFT + PLOT_WIDTH - least), y - grown_y, wide + 2 * grown_x, high + 2 * grown_y


def outline_of(area: Area, placed: Placed, grid: Grid) -> str:
    """An area as a piece of a path."""
    x, y, wide, high = map(short, box_of(area, placed, grid))
    return f"M{x} {y}h{wide}v{high}h-{wide}z"


def draw_margin(picture: PageMap, shown: Shown, zones: list[Zone], most: int) -> None:
    """The silent sites of each band: a bar, and the number if there is room."""
    free = 0.0
    picture.text(BAR_AT, zones[0].top, "silent sites", "zone")
    picture.add('<g data-row="sites">')
    for placed in (placed for zone in zones for placed in zone.bands):
        count, middle = silent_of(shown.campaign, placed.band), placed.top + placed.height / 2
        if not count:
            continue
        high, wide = max(1.0, placed.height - 2), max(1.0, BAR_WIDTH * count / most)
        tip = escape(f"{shown.ram.name(placed.band.cells)}: {count:,} silent sites")
        place = f'x="{BAR_AT}" y="{middle - high / 2:g}" width="{wide:.2f}" height="{high:g}"'
        picture.add(f'<rect class="silent cell" data-sites="{count}" {place}><title>{tip}</title></rect>')
        if middle - fault_map.LABEL_DISTANCE / 2 >= free:
            free = middle + fault_map.LABEL_DISTANCE / 2
            picture.text(BAR_AT + BAR_WIDTH + 4, middle + 4, f"{count:,}")
    picture.add("</g>")


def draw_variables(picture: PageMap, shown: Shown, zones: list[Zone]) -> None:
    """Each variable at the left of its bytes of RAM: a bracket, and its name if there is room."""
    free = 0.0
    memory = [placed for zone in zones for placed in zone.bands if is_byte(placed.band.cells[0])]
    found: set[Symbol] = set()
    picture.add('<g data-row="variables">')
    for variable, group in itertools.groupby(memory, lambda placed: shown.variable_of(placed.band.cells[0])):
        bands = list(group)
        if variable is None:
            continue
        top, bottom = bands[0].top, bands[-1].top + bands[-1].height
        tip = escape(f"{printable(variable.name)}, {variable.value:#010x} to {variable.value + variable.size - 1:#010x}")
        anchor = "" if variable in found else f' id="{shown.anchor(page_links.of_variable(variable.value))}"'
        found.add(variable)
        outline = f"M{BRACKET_AT + 4} {top:g}h-4v{bottom - top:g}h4"
        picture.add(f'<path class="bracket"{anchor} d="{outline}"><title>{tip}</title></path>')
        middle = (top + bottom) / 2
        if middle - fault_map.LABEL_DISTANCE / 2 >= free:
            free = middle + fault_map.LABEL_DISTANCE / 2
            name = shortened(printable(variable.name), NAMES_WIDTH + BRACKET_AT - 4)
            picture.text(BRACKET_AT - 4, middle + 4, name, "end")
    picture.add("</g>")


def shortened(name: str, wide: int) -> str:
    """A name as far as there is room for it, in pixels."""
    most = int(wide / fault_map.CHARACTER)
    return name if len(name) <= most else name[: most - 1] + "…"


def maps_of(all_shown: list[Shown], titles: list[str]) -> list[str]:
    """The map of each campaign, all at one scale."""
    scale = scale_of(all_shown)
    texts = []
    for shown, title, (grid, areas) in zip(all_shown, titles, grids_of(all_shown, scale)):
        classes = (name for name in shown.palette.kinds if name not in fault_grid.KINDS)
        picture = PageMap({**page_hatch.OF_KINDS, **page_hatch.of_classes(classes)})
        fault_map.draw_legend(picture, shown.campaign.outcomes, grid.step > 1 or any(bits > 1 for bits in grid.bits), grid.step, grid.palette)
        picture.down += 10
        draw_functions(picture, shown, grid)
        top = picture.down
        draw_strip(picture, shown, grid, scale.most_of_cycle)
        zones = fault_map.zones_of(picture, scale.bands)
        draw_bands(picture, shown, zones, grid, areas)
        for zone in zones:
            fault_map.draw_labels(picture, zone, shown.ram)
        draw_margin(picture, shown, zones, scale.most_of_cell)
        draw_variables(picture, shown, zones)
        fault_map.draw_cycles(picture, grid, top)
        texts.append(picture.whole(title))
    return texts
