"""Names the links of the pages that lead nowhere, and the pages that README does not lead to.

links.py TOP

A link leads to a file from its page's folder, or to a heading of a page, which is named as GitHub names it.
"""

from __future__ import annotations

import re
import sys
from pathlib import Path

LINK = re.compile(r"\]\(([^)\s]+)\)")


def text_of(page: Path) -> str:
    """A page without its blocks of code."""
    return re.sub(r"^```.*?^```$", "", page.read_text(encoding="utf-8"), flags=re.MULTILINE | re.DOTALL)


def anchors_of(page: Path) -> set[str]:
    """The names of its headings."""
    headings = re.findall(r"^#+ (.*)$", text_of(page), re.MULTILINE)
    return {re.sub(r"[^\w\- ]", "", heading.lower()).replace(" ", "-") for heading in headings}


def main(top: Path) -> None:
    """Writes a line for each fault."""
    pages = [top / "README.md", *sorted(top.glob("docs/*.md")), *sorted(top.glob("docs/dev/*.md"))]
    for page in pages:
        for link in LINK.findall(text_of(page)):
            if "://" in link:
                continue
            name, _, anchor = link.partition("#")
            target = page.parent / name if name else page
            if not target.is_file() or (anchor and anchor not in anchors_of(target)):
                print(f"{page.relative_to(top)}: {link}")
    named = {(top / link).resolve() for link in LINK.findall(text_of(pages[0]))}
    for page in pages[1:]:
        if page.resolve() not in named:
            print(f"README.md does not name {page.relative_to(top)}")


if __name__ == "__main__":
    main(Path(sys.argv[1]))
