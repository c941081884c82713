"""What a browser shows of pages of the tools: a line for each thing that is not as it must be, and the number of things
that were looked at.

page_seen.py REPORT SWEEP REPLAY
"""

from __future__ import annotations

import sys
from collections.abc import Callable

from browser import Browser, found, pixels

WIDTHS = (500, 768, 1440)
LABELS_SEEN = 4  # of each page
LEAST = 4.5  # the contrast of a text, as WCAG 2 has it
LABELS = "[...document.querySelectorAll('svg.map text:not(.bit), h1, tbody th, p')].filter(e => e.textContent.trim()).slice(0, 200)"
looked = 0


def holds(what: str, condition: object) -> None:
    """Looks at one thing."""
    global looked
    looked += 1
    if condition is not True:
        print(f"failed: {what}: {condition}")


def contrast(colours: list[tuple[int, int, int]]) -> float:
    """The contrast of the brightest to the darkest."""
    def luminance(colour: tuple[int, int, int]) -> float:
        parts = [part / 255 for part in colour]
        linear = [part / 12.92 if part <= 0.04045 else ((part + 0.055) / 1.055) ** 2.4 for part in parts]
        return 0.2126 * linear[0] + 0.7152 * linear[1] + 0.0722 * linear[2]

    found = [luminance(colour) for colour in colours]
    return (max(found) + 0.05) / (min(found) + 0.05)


def look_at_widths(browser: Browser, path: str) -> None:
    """No page is wider than the screen, and each map keeps words of a size that can be read."""
    for width in WIDTHS:
        browser.open(path, width)
        holds(f"{path} at {width}", browser.value(f"document.documentElement.scrollWidth <= {width} || document.documentElement.scrollWidth"))
        words = browser.value("Math.min(99, ...[...document.querySelectorAll('svg.map text:not(.bit)')].map(e => e.getBoundingClientRect().height))")
        holds(f"{path} at {width}: the height of words of a map", words >= 9 or words)


def look_at_labels(browser: Browser, path: str) -> None:
    """Labels can be read in light, in dark, and if the browser forces a dark style."""
    for name, dark, forced in (("light", False, False), ("dark", True, False), ("forced dark", True, True)):
        browser.dark(dark, forced)
        browser.open(path, 1440)
        boxes = browser.value(f"{LABELS}.map(e => [e.textContent, ...Object.values(e.getBoundingClientRect().toJSON()).slice(0, 4)])")
        for text, x, y, wide, high in boxes[:: max(1, len(boxes) // LABELS_SEEN)]:
            seen = contrast(pixels(browser.picture(x, y, max(2, wide), max(2, high))))
            holds(f"{path}, {name}: {text[:30]!r} can be read", seen >= LEAST or seen)
    browser.dark(False)


def look_at_tables(browser: Browser, path: str) -> None:
    """Tables sort up, down and back, and filter."""
    browser.open(path, 1440)
    column = "const t = document.querySelector('table.instructions'), b = t.tHead.rows[0].cells[4].querySelector('button')"
    numbers = "[...t.tBodies[0].rows].map(r => Number(r.cells[4].textContent.replace(/,/g, '')))"
    first = browser.value(f"{{{column}; {numbers}}}")
    orders = [browser.value(f"{{{column}; b.click(); {numbers}}}") for _ in range(3)]
    holds("a click sorts up", orders[0] == sorted(first) or orders[0])
    holds("a second click sorts down", orders[1] == sorted(first, reverse=True) or orders[1])
    holds("a third click sorts as at first", orders[2] == first or orders[2])
    names = "{const t = document.querySelector('table.instructions'); t.tHead.rows[0].cells[0].querySelector('button').click(); [...t.tBodies[0].rows].map(r => r.cells[0].textContent)}"
    texts = browser.value(names)
    holds("a click sorts addresses", texts == sorted(texts) or texts)
    last = browser.value("(t => !t.tFoot || t.tFoot.previousElementSibling === t.tBodies[0])(document.querySelector('table.instructions'))")
    holds("the row of all others is last", last)
    filtered = """{const t = document.querySelector('table.instructions'), f = t.parentNode.previousElementSibling.querySelector('input');
        f.value = 'XOR'; f.dispatchEvent(new Event('input'));
        const shown = [...t.tBodies[0].rows].filter(r => r.offsetHeight);
        [shown.length, shown.every(r => r.textContent.includes('xor')), f.nextElementSibling.textContent, t.tBodies[0].rows.length]}"""
    count, all_have, said, rows = browser.value(filtered)
    holds("a filter", (all_have and 0 < count < rows and said == f"{count} of {rows} rows") or (count, all_have, said, rows))


def look_at_maps(browser: Browser, path: str) -> None:
    """The words of an area come by the pointer and by the keyboard."""
    browser.open(path, 1440)
    tip = "document.querySelector('.tip').textContent"
    browser.value("document.querySelector('svg.map').focus()")
    said: list[str] = []
    for key in ("ArrowRight", "ArrowRight", "ArrowDown", "ArrowDown", "ArrowRight", "ArrowLeft"):
        browser.key(key)
        said.append(browser.value(tip))
    wanted = browser.value("[...document.querySelector('svg.map').querySelectorAll('title')].map(e => e.textContent)")
    holds("the arrow keys give words of areas", set(said) <= set(wanted) or said)
    holds("to the right is another area", said[0] != said[1] or said)
    holds("down is another row", said[1].split(",")[0] != said[2].split(":")[0].split(",")[0] or said)
    holds("back to the left is the area before", said[3] == said[5] or said)
    x, y, title = browser.value("""{const shapes = [...document.querySelectorAll('svg.map g.marks [data-row] path')];
        const s = shapes.find(e => e.getBoundingClientRect().width > 40); s.scrollIntoView({block: 'center'});
        const b = s.getBoundingClientRect(); [b.x + 20, b.y + 3, s.querySelector('title').textContent]}""")
    browser.point(x, y)
    holds("the pointer gives words of an area", browser.value(tip) == title or (browser.value(tip), title))


def look_at_commands(browser: Browser, path: str) -> None:
    """A command is copied by its button."""
    browser.open(path, 1440)
    said = browser.value("""new Promise(done => {const c = document.querySelector('code.command'), b = c.nextElementSibling;
        b.click(); setTimeout(() => done([b.textContent, getSelection().toString().trim() === c.textContent]), 500)})""")
    holds("a command is copied", said == ["Copied", True] or said)


def look_at_tree(browser: Browser, path: str, map_name: str) -> None:
    """A screen reader finds the title, headings, tables with headers, and the map with its name."""
    browser.open(path, 1440)
    tree = browser.tree()
    names = {role: [name for each, name in tree if each == role] for role, _ in tree}
    holds(f"{path}: a title", all(names["RootWebArea"]))
    holds(f"{path}: headings", len(names.get("heading", [])) >= 3 and all(names["heading"]))
    tables = names.get("table", [])
    holds(f"{path}: tables have names", bool(tables) and all(tables) or tables)
    holds(f"{path}: headers of columns", not map_name or "silent sites read here" in names.get("columnheader", []))
    holds(f"{path}: headers of rows", bool(names.get("rowheader")))
    holds(f"{path}: the contents", "Contents" in names.get("navigation", []))
    holds(f"{path}: the map has a name", not map_name or any(name.startswith(map_name) for name in names.get("application", [])))
    holds(f"{path}: links have names", all(names.get("link", [])))


def look_without_script(browser: Browser, path: str) -> None:
    """A page is whole without its script."""
    texts: list[str] = []
    for off in (False, True):
        browser.call("Emulation.setScriptExecutionDisabled", value=off)
        browser.open(path, 1440)
        texts.append(browser.value("[...document.querySelectorAll('td:not(:has(code)), h2, h3, p, code, svg text')].map(e => e.textContent).join('|')"))
    browser.call("Emulation.setScriptExecutionDisabled", value=False)
    holds(f"{path}: the same content without the script", texts[0] == texts[1])


def on_paper(browser: Browser, path: str) -> None:
    """A page can be printed."""
    browser.open(path, 1440)
    pdf = browser.print()
    holds(f"{path} on paper", pdf.startswith(b"%PDF") and len(pdf) > 10_000 or len(pdf))


def main(report: str, sweep: str, replay: str) -> None:
    called = found()
    assert called is not None
    browser = Browser(called)
    try:
        looks: list[Callable[[Browser, str], None]] = [look_at_widths, look_at_labels, look_without_script, on_paper]
        for path in (report, sweep, replay):
            for look in looks:
                look(browser, path)
            look_at_tree(browser, path, "Fault map" if path == report else "")
        look_at_tables(browser, report)
        look_at_maps(browser, report)
        for path in (report, replay):
            look_at_commands(browser, path)
        holds("no error of a script", browser.errors == [] or browser.errors)
    finally:
        browser.close()
    print(f"{looked} looked at")


main(*sys.argv[1:])
