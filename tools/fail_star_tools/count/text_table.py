"""Tables of words, as text and in Markdown."""

from __future__ import annotations

from decimal import Context, Decimal

from fail_star_tools.words import in_markdown


def ratio(count: int, first: int) -> str:
    """A count as a multiple of that of the first campaign, to three digits, or a hyphen if that is 0."""
    if first == 0:
        return "-"
    return format(Context(prec=3).divide(Decimal(count), Decimal(first)), "f")


def aligned(rows: list[tuple[str, ...]]) -> str:
    """The table, with names at the left and numbers at the right of their columns."""
    widths = [max(map(len, column)) for column in zip(*rows)]
    lines = []
    for name, *numbers in rows:
        words = [name.ljust(widths[0]), *(number.rjust(width) for number, width in zip(numbers, widths[1:]))]
        lines.append("  ".join(words) + "\n")
    return "".join(lines)


def markdown(rows: list[tuple[str, ...]]) -> str:
    """The table in Markdown."""
    heading, *others = ([in_markdown(word) for word in row] for row in rows)
    rule = ["---", *("---:" for _ in heading[1:])]
    return "".join(f"| {' | '.join(row)} |\n" for row in (heading, rule, *others))
