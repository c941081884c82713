"""The rules that do not hold, as alerts at source lines: in SARIF 2.1.0, and as GitLab's Code Quality report."""

from __future__ import annotations

import hashlib
import json
import os
from collections import Counter
from collections.abc import Iterable
from dataclasses import dataclass
from pathlib import Path
from typing import Any, TYPE_CHECKING
from urllib.parse import quote

from fail_star_tools.count.check_files import found_text
from fail_star_tools.known import known
from fail_star_tools.release import VERSION

if TYPE_CHECKING:
    from fail_star_tools.count.check import Measured, Rule, Verdict

SCHEMA = "https://json.schemastore.org/sarif-2.1.0.json"
NAMES = {"<=": "at-most", ">=": "at-least", "<": "below", ">": "above", "=": "is"}
WORST_LINES = 5  # of the source, for a rule that does not hold
MANUAL = "man:fail_star-check(1)"
# Variables of pipelines that say where the budget can be read: the repository's address, the commit, and what is between.
LINKS = (
    ("GITHUB_SERVER_URL", "GITHUB_REPOSITORY", "GITHUB_SHA", "/blob/"),
    ("CI_PROJECT_URL", None, "CI_COMMIT_SHA", "/-/blob/"),
)
FINGERPRINT = 32  # hexadecimal digits


@dataclass(frozen=True)
class Place:
    """A line of a file, with the sites that a rule counts there; of the budget's own line None."""

    file: str
    line: int
    sites: int | None = None


# --- Files ----------------------------------------------------------------------------------------


class Files:
    """The names of source files, relative to the repository."""

    def __init__(self, folders: Iterable[str]) -> None:
        self.root = repository()
        self.folders = list(folders)

    def relative(self, file: str, image: str | None) -> str:
        """The name of a source file relative to the top folder of the repository, if it is there: in a folder of
        --sources, or without these in the current folder or in that of the image. Otherwise the name as it is."""
        beside = [os.path.dirname(image)] if image is not None else []
        return self.found(file, self.folders or ["", *beside])

    def named(self, file: str) -> str:
        """The same for a file that the words name."""
        return self.found(file, [""])

    def found(self, file: str, folders: list[str]) -> str:
        """The same for a file in one of these folders."""
        for folder in folders:
            path = Path(os.path.realpath(os.path.join(folder, file)))
            if path.is_relative_to(self.root) and path.is_file():
                return path.relative_to(self.root).as_posix()
        return file


def repository() -> Path:
    """The top folder of the repository that has the current folder; without a repository, the current folder."""
    here = Path(os.path.realpath("."))
    return next((folder for folder in (here, *here.parents) if (folder / ".git").exists()), here)


def link_to(budget: str) -> str | None:
    """The address of the budget in the repository that a pipeline runs for."""
    for server, name, commit, between in LINKS:
        parts = [os.environ.get(word, "") for word in (server, name, commit) if word is not None]
        if all(parts) and not os.path.isabs(budget):
            return "/".join(parts[:-1]) + between + parts[-1] + "/" + quote(os.fsencode(budget))
    return None


# --- Places ---------------------------------------------------------------------------------------


def places_of(verdict: Verdict, budget: str, files: Files) -> list[Place]:
    """Where a rule that does not hold has most sites, the worst line first, and its line in the budget: first of all
    if no source line is known."""
    image = verdict.table.named.image
    lines = worst_lines(verdict.table, verdict.rule)
    worst = [Place(files.relative(one.file, image), one.line, one.sites) for one in lines]
    own = Place(files.named(budget), verdict.rule.line)
    return [*worst[:1], own, *worst[1:]]


def worst_lines(table: Measured, rule: Rule) -> list[Place]:
    """The lines of the source that have most of what a rule counts, if it says that there may not be more."""
    campaign = table.campaign
    if campaign is None or "line" in campaign.lacking or "<" not in rule.relation and rule.relation != "=":
        return []
    if rule.kind == "function":
        sites = campaign.sites_by("line", rule.words, rule.function)
    else:
        sites = campaign.lines_at(rule.kind, known(rule.function), rule.words)
    return worst_of(sites)


def worst_of(sites: dict[int | str, int]) -> list[Place]:
    """The lines with most sites; what has no line is no place."""
    worst = sorted((-count, str(name)) for name, count in sites.items() if ":" in str(name))[:WORST_LINES]
    parts = ((*name.rpartition(":")[::2], -count) for count, name in worst)
    return [Place(file, int(line), count) for file, line, count in parts]


# --- SARIF ----------------------------------------------------------------------------------------


def identifier(rule: Rule) -> str:
    """An identifier of a rule that stays the same if the number in the rule or its line changes."""
    table = [f"{rule.table}:"] if rule.table else []
    kind = [] if rule.kind == "function" else [rule.kind]
    place = ["in", *kind, rule.function] if rule.function else []
    part = [] if rule.part is None else ["during", *(word.removeprefix("--") for word in rule.part.options)]
    return "-".join([*table, *rule.words, *place, *part, NAMES[rule.relation]])


def fingerprints(broken: list[Verdict]) -> list[str]:
    """For each rule that does not hold a fingerprint that stays the same if numbers and lines change. A rule that is
    repeated has others."""
    seen: Counter[str] = Counter()
    found = []
    for verdict in broken:
        name = f"{verdict.table.named.name}\0{identifier(verdict.rule)}"
        seen[name] += 1
        digest = hashlib.sha256(os.fsencode(name)).hexdigest()[:FINGERPRINT]
        found.append(f"{digest}:{seen[name]}")
    return found


def sarif(budget: str, rules: list[Rule], verdicts: list[Verdict], files: Files) -> str:
    """A result for each rule that does not hold: at the worst line of the source if one is known, with its line of the
    budget as a related one."""
    names = [identifier(rule) for rule in rules]
    numbered = {id(rule): number for number, rule in enumerate(rules)}
    link = link_to(files.named(budget))
    broken = [verdict for verdict in verdicts if not verdict.holds]
    results = []
    for verdict, fingerprint in zip(broken, fingerprints(broken)):
        first, *others = places_of(verdict, budget, files)
        related = [{"id": number, **location(place, text_of(place))} for number, place in enumerate(others)]
        results.append(
            {
                "ruleId": identifier(verdict.rule),
                "ruleIndex": numbered[id(verdict.rule)],
                "level": "error",
                "message": {"text": found_text(verdict) + sites_here(first)},
                "locations": [location(first)],
                "relatedLocations": related,
                # GitHub reads the second one, and would otherwise compute it from the text of the line.
                "partialFingerprints": {"budgetRule/v1": fingerprint, "primaryLocationLineHash": fingerprint},
            }
        )
    descriptions = [description(name, rule, link) for name, rule in zip(names, rules)]
    driver = {"name": "fail_star check", "version": VERSION, "informationUri": MANUAL, "rules": descriptions}
    runs = [{"tool": {"driver": driver}, "results": results}]
    return json.dumps({"$schema": SCHEMA, "version": "2.1.0", "runs": runs}, indent=2) + "\n"


def description(name: str, rule: Rule, link: str | None) -> dict[str, Any]:
    """A rule, and where one reads about it: the budget's line if the pipeline says where that is, or the manual
    page."""
    hint = "fail_star-where shows where the sites are, and fail_star-replay why."
    text = f"The budget says {rule.text} (line {rule.line}). {hint}"
    return {
        "id": name,
        "shortDescription": {"text": rule.text},
        "help": {"text": text},
        "helpUri": MANUAL if link is None else f"{link}#L{rule.line}",
    }


def sites_here(place: Place) -> str:
    """The words about the sites of the line at which an alert is."""
    return "" if place.sites is None else f"; {text_of(place)} at this line"


def text_of(place: Place) -> str:
    """What a place has."""
    return "the rule" if place.sites is None else f"{place.sites} site" + ("s" if place.sites != 1 else "")


def location(place: Place, text: str | None = None) -> dict[str, Any]:
    """A line of a file, as SARIF has it."""
    if os.path.isabs(place.file):
        artifact = {"uri": Path(place.file).as_uri()}
    else:
        artifact = {"uri": quote(os.fsencode(place.file)), "uriBaseId": "%SRCROOT%"}
    where = {"physicalLocation": {"artifactLocation": artifact, "region": {"startLine": place.line}}}
    return where if text is None else {**where, "message": {"text": text}}


# --- GitLab's Code Quality ------------------------------------------------------------------------


def code_quality(budget: str, verdicts: list[Verdict], files: Files) -> str:
    """An issue for each rule that does not hold, at the same lines. GitLab takes only paths in the repository."""
    broken = [verdict for verdict in verdicts if not verdict.holds]
    issues = []
    for verdict, fingerprint in zip(broken, fingerprints(broken)):
        places = places_of(verdict, budget, files)
        place = next((place for place in places if not os.path.isabs(place.file)), places[0])
        issues.append(
            {
                "description": found_text(verdict) + sites_here(place),
                "check_name": identifier(verdict.rule),
                "fingerprint": fingerprint,
                "severity": "major",
                "location": {"path": place.file, "lines": {"begin": place.line}},
            }
        )
    return json.dumps(issues, indent=2) + "\n"
