"""The style of all pages: colours in light and dark, and how a page is laid out on a screen and on paper.

On a print in black and white the silent sites are the darkest: their contrast to each other kind is at least 1.5 (as
WCAG 2 defines it), and page_hatch.py draws lines over `detected`, `timeout`, `illegal` and `misaligned`. For readers
with three kinds of cones and for those who lack one, each two colours are 18 apart in CIELAB or more, except `unknown`
and `dead`; the simulation is that of Machado, Oliveira and Fernandes (2009).
"""

from __future__ import annotations

from collections.abc import Mapping

from fail_star_tools.read.job_table import OLD_TRAP

LIGHT = {
    "silent": "#b9460a", "partly-silent": "#f3a760", "timeout": "#f8da3f", "illegal": "#9c80ff", "address": "#afd7ff",
    "misaligned": "#a9886a", OLD_TRAP: "#afd7ff", "detected": "#6698d7", "no-effect": "#b9b9b9", "unknown": "#ffffff",
    "dead": "#f6f6f6", "paper": "#ffffff", "ink": "#222222", "soft": "#555555", "rule": "#dddddd", "edge": "#777777",
    "link": "#0b57a4", "even": "#dedede", "odd": "#efefef", "heat1": "#fdf0e6", "heat2": "#f9cfac", "heat3": "#f0a468",
    "field": "#f4f4f4",
}  # fmt: skip
DARK = {
    "silent": "#f8b47a", "partly-silent": "#a97257", "timeout": "#9b9411", "illegal": "#8e4bd5", "address": "#4889c0",
    "misaligned": "#763116", OLD_TRAP: "#4889c0", "detected": "#005479", "no-effect": "#616468", "unknown": "#101214",
    "dead": "#22262b", "paper": "#15181c", "ink": "#e4e4e4", "soft": "#b0b0b0", "rule": "#3a3f45", "edge": "#8a8f95",
    "link": "#8cc4ff", "even": "#3d434a", "odd": "#2c3138", "heat1": "#2f2319", "heat2": "#553619", "heat3": "#82501f",
    "field": "#22262b",
}  # fmt: skip

KINDS_OF_SITES = (
    "silent", "partly-silent", "timeout", "illegal", "address", "misaligned", OLD_TRAP, "detected", "no-effect",
    "unknown", "dead",
)  # fmt: skip
NARROW_MAP = 1100  # pixels: on a narrower screen the map scrolls sideways, so that its words stay readable


def variables(colours: Mapping[str, str]) -> str:
    """Colours as variables of a style."""
    return "".join(f"--{name}:{colour};" for name, colour in colours.items())


def of_classes(colours: Mapping[str, str]) -> str:
    """The style of answer classes, of which each has a name and a colour."""
    return "".join(f".{name}{{fill:{colour}}}" for name, colour in colours.items())


TEXT = (
    "body{font:14px/1.45 sans-serif;color:var(--ink);background:var(--paper)}",
    "body{max-width:1240px;margin:1em auto;padding:0 12px}",
    "h1{font-size:22px;margin:.4em 0}h2{font-size:17px;margin:1.6em 0 .5em}h3{font-size:14px;margin:1.2em 0 .3em}",
    "h1,h2,h3,h4,p,li,summary{overflow-wrap:anywhere}p,ul{margin:.5em 0;max-width:62em}",
    "a{color:var(--link)}:target{outline:2px solid var(--link);outline-offset:1px}",
    ".words,.code,.command{text-align:left}.code,.command{font-family:monospace;white-space:pre-wrap}",
    ".run{overflow-wrap:anywhere;min-width:26em;margin:0 0 3px}.note{color:var(--soft)}.worst{font-weight:bold}",
    "nav ul{margin:0;padding-left:1.4em}nav>ul{columns:17em;padding-left:1.2em}nav>ul>li{break-inside:avoid}",
)
TABLES = (
    "table{border-collapse:collapse;margin:.5em 0}th,td{padding:1px 10px;text-align:right;vertical-align:top}",
    "thead th{border-bottom:1px solid var(--edge);vertical-align:bottom}tbody th{font-weight:normal}",
    "tbody tr+tr>*,tfoot tr>*{border-top:1px solid var(--rule)}.facts td{overflow-wrap:anywhere}",
    "caption{position:absolute;width:1px;height:1px;overflow:hidden;clip-path:inset(50%);white-space:nowrap}",
    ".scroll{overflow:auto;max-width:100%;position:relative}.tall{max-height:40em}",
    ".tall thead th{position:sticky;top:0;background:var(--paper)}",
    "table.bars{width:100%}table.bars tr+tr>*{border-top:0}",
    "table.bars th{width:1%;white-space:nowrap;max-width:18em;overflow:hidden;text-overflow:ellipsis}",
    "table.bars td{padding:1px 0}table.bars td.count{width:1%;padding-left:8px}table.bars tr.first>*{padding-top:7px}",
    "th button{font:inherit;font-weight:bold;color:inherit;text-align:inherit}",
    "th button{background:none;border:0;padding:0;cursor:pointer}",
    "th[aria-sort=ascending] button::after{content:' \\25b2'}th[aria-sort=descending] button::after{content:' \\25bc'}",
    ".tools{margin:.3em 0}.tools input{font:inherit;color:inherit;padding:1px 6px}",
    ".tools input{background:var(--field);border:1px solid var(--edge)}",
    ".tools output{margin-left:.8em;color:var(--soft)}.copy{font-size:11px;margin-left:.7em}",
)
PICTURES = (
    "svg{display:block;max-width:100%;height:auto}svg text{font:11px sans-serif;fill:var(--ink)}",
    ".definitions{position:absolute}",
    f"svg.map{{min-width:{NARROW_MAP}px}}svg.bar{{width:100%;height:16px}}",
    "svg .zone{font-weight:bold}svg .bit{font-size:8px;fill:var(--soft)}",
    "svg .end{text-anchor:end}svg .middle{text-anchor:middle}",
    "svg .tick{stroke:var(--ink)}svg .guide{stroke:var(--ink);stroke-opacity:.13}svg .over{fill:var(--paper)}",
    "svg .bracket{stroke:var(--soft);fill:none}svg .even{fill:var(--even)}svg .odd{fill:var(--odd)}",
    "svg path,svg rect{shape-rendering:crispEdges}svg .plain path,svg path.plain{pointer-events:none}",
    "svg .bar{stroke:var(--edge);stroke-width:.5}svg .at,svg :target,svg g:target>.dead{stroke:var(--ink);stroke-width:2}",
    ".hatch{stroke:var(--paper);stroke-width:1.3;fill:none;pointer-events:none;shape-rendering:auto}",
    ".tip{display:block;min-height:1.5em;color:var(--soft)}",
    *(f".{kind}{{fill:var(--{kind})}}" for kind in KINDS_OF_SITES),
)
PAPER = (
    "@page{size:A4 landscape;margin:10mm}",
    "@media print{:root{color-scheme:light}body{font-size:10px;margin:0;padding:0;max-width:none}h1{font-size:16px}",
    "h2{font-size:13px}h3{font-size:11px}svg,tr{break-inside:avoid}",
    "*{-webkit-print-color-adjust:exact;print-color-adjust:exact}",
    "h2,h3{break-after:avoid}svg.map{max-height:170mm;min-width:0}.scroll{overflow:visible;max-height:none}",
    ".tall thead th{position:static}nav,.tools,.copy,.tip{display:none}a{color:inherit}}",
)
STYLE = "".join(
    [
        f":root{{color-scheme:light dark;{variables(LIGHT)}}}",
        f"@media screen and (prefers-color-scheme:dark){{:root{{{variables(DARK)}}}}}",
        *TEXT, *TABLES, *PICTURES, *PAPER,
    ]
)  # fmt: skip
