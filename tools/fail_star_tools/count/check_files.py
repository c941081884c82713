"""What `check.py` writes for other programs: its verdicts as JUnit XML and in Markdown, and a receipt in JSON."""

from __future__ import annotations

import argparse
import hashlib
import json
import os
from collections.abc import Callable
from html import escape
from typing import Any, TYPE_CHECKING

from fail_star_tools.count.places import Asked
from fail_star_tools.count.text_table import markdown
from fail_star_tools.read.digest import sha256_of
from fail_star_tools.release import LOGIC, VERSION
from fail_star_tools.run import program
from fail_star_tools.words import in_markdown, printable

if TYPE_CHECKING:
    from fail_star_tools.count.check import Measured, Verdict


def found_text(verdict: Verdict) -> str:
    """The message about a rule that does not hold."""
    return printable(f"{verdict.table.named.name}: {verdict.rule.left} is {verdict.found}, and the budget says {verdict.rule.text}")


# --- JUnit ----------------------------------------------------------------------------------------


def junit(verdicts: list[Verdict]) -> str:
    """A suite for each table, and a case for each rule."""
    suites: dict[str, list[Verdict]] = {}
    for verdict in verdicts:
        suites.setdefault(verdict.table.named.name, []).append(verdict)
    pieces = ['<?xml version="1.0" encoding="UTF-8"?>', f'<testsuites name="fail_star check"{numbers(verdicts)}>']
    for name, of_table in suites.items():
        pieces.append(f"  <testsuite name={attribute(name)}{numbers(of_table)}>")
        for verdict in of_table:
            case = f"    <testcase classname={attribute(name)} name={attribute(verdict.rule.text)}"
            failure = f'><failure type="budget" message={attribute(found_text(verdict))}/></testcase>'
            pieces.append(case + ("/>" if verdict.holds else failure))
        pieces.append("  </testsuite>")
    return "\n".join([*pieces, "</testsuites>", ""])


def numbers(verdicts: list[Verdict]) -> str:
    """The attributes of a suite that count its cases."""
    failures = sum(not verdict.holds for verdict in verdicts)
    return f' tests="{len(verdicts)}" failures="{failures}" errors="0" skipped="0"'


def attribute(text: str) -> str:
    """A text as an attribute's value, with marks for what XML cannot have."""
    return f'"{escape(printable(text))}"'


# --- Markdown -------------------------------------------------------------------------------------


def summary(budget: str, verdicts: list[Verdict], worst: Callable[[Verdict], list[str]]) -> str:
    """The verdicts for the summary of a pipeline: how many rules are broken, all of them, where the sites of the broken
    ones are, and the counts of each table."""
    broken = [verdict for verdict in verdicts if not verdict.holds]
    parts = [f"### {in_markdown(printable(os.path.basename(budget)))}: {counted(len(broken), len(verdicts))}\n"]
    rows: list[tuple[str, ...]] = [("rule", "campaign", "found", "verdict")]
    for one in verdicts:
        verdict = "holds" if one.holds else "**broken**"
        rows.append((printable(one.rule.text), printable(one.table.named.name), f"{one.found:,}", verdict))
    parts.append(markdown(rows))
    lines = [f"- {in_markdown(printable(text))}\n" for one in broken for text in worst(one)]
    parts += ["".join(["Most sites of the broken rules:\n\n", *lines])] * bool(lines)
    for table in {id(one.table): one.table for one in verdicts}.values():
        words, numbers = zip(*table.counts.items(), *table.classes.items())
        counts = (printable(table.title), *(f"{number:,}" for number in numbers))
        parts.append(markdown([("campaign", *words), counts]))
    return "\n".join(parts)


def counted(broken: int, rules: int) -> str:
    """How many rules are broken."""
    if broken == 0:
        return "all rules hold" if rules != 1 else "the rule holds"
    return f"{broken} of {rules} rules {'is' if broken == 1 else 'are'} broken"


# --- The receipt ----------------------------------------------------------------------------------


def receipt(line: argparse.Namespace, content: bytes, asked: Asked, tables: list[Measured], verdicts: list[Verdict]) -> str:
    """What was checked, for a safety case: a reader who has the same files can see that they are the same, and check again."""
    said = {"rom": asked.rom, "ram": asked.ram, "limit": asked.limit, "ram-code": asked.ram_code or None}
    whole = {
        "version": VERSION,
        "logic": LOGIC,
        "budget": digest(line.budget, content),
        "classes": digest_of(line.classes),
        "program": told_by(asked.program),
        "said": {name: None if value is None else str(value) for name, value in said.items()},
        "tables": [of_table(table) for table in tables],
        "rules": [
            {"line": one.rule.line, "rule": one.rule.text, "table": one.table.named.name, "found": one.found, "holds": one.holds}
            for one in verdicts
        ],
        "holds": all(verdict.holds for verdict in verdicts),
    }
    return json.dumps(whole, indent=2) + "\n"


def of_table(table: Measured) -> dict[str, Any]:
    """A table: its files, what its campaign file says of the campaign, and its counts."""
    named, card = table.named, table.card
    campaign = None if card is None else {"rom": str(card.rom), "ram": str(card.ram), "limit": card.limit, "flags": card.flags()}
    own = {"file": named.table, "sha256": table.digest}
    keep = own if table.kind == "campaign file" else digest_of(named.keep)
    return {
        "name": named.name,
        "part": None if table.part is None else table.part.options,
        "kind": table.kind,
        "table": own,
        "image": digest_of(named.image),
        "card": None if card is None else {"sha256": card.sha256()},
        "trace": digest_of(named.trace),
        "keep": keep,
        "campaign": campaign,
        "counts": table.counts,
        "classes": table.classes or None,
    }


def digest(path: str, content: bytes) -> dict[str, str]:
    """A file's name with the SHA-256 of its bytes."""
    return {"file": path, "sha256": hashlib.sha256(content).hexdigest()}


def digest_of(path: str | None) -> dict[str, str] | None:
    """The same for a file that is read for this. Standard input was already read."""
    if path is None or path == "-":
        return None
    return {"file": path, "sha256": sha256_of(path)}


def told_by(said: str | None) -> dict[str, str] | None:
    """The program that the words name, or the one on the path."""
    if said is None and not program.is_there():
        return None
    called = program.found(said)
    return {"file": called, "sha256": program.sum_of(called)}
