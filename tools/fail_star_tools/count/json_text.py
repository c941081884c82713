"""Answers of the tools as JSON. One thing has one key in all of them: that of the program's own JSON, if it has one."""

from __future__ import annotations

import json
from collections.abc import Mapping

JSON_PLACES = 12  # of a fraction


def json_key(word: str) -> str:
    """The key for an outcome or another word of a report, such as no_effect."""
    return word.replace("-", "_")


def json_line(found: Mapping[str, object]) -> str:
    """An object in one line, with the keys of each object in ascending order, as the program writes it."""
    return json.dumps(found, sort_keys=True, separators=(",", ":")) + "\n"
