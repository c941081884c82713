"""Prints the alerts of a file of check.py in a line each, and checks its form by readers that are not ours, if they are
there: SARIF by sarif_om (Debian's python3-sarif-python-om), Code Quality by jsonschema with what GitLab's manual says.

alerts.py sarif|quality FILE
"""

from __future__ import annotations

import importlib.util
import json
import sys
from typing import Any

# The properties of SARIF whose values are objects or lists of objects, with the names of their classes in sarif_om.
CLASSES = {
    "runs": "Run", "tool": "Tool", "driver": "ToolComponent", "rules": "ReportingDescriptor", "results": "Result", "message": "Message",
    "shortDescription": "MultiformatMessageString", "help": "MultiformatMessageString", "locations": "Location",
    "relatedLocations": "Location", "physicalLocation": "PhysicalLocation", "artifactLocation": "ArtifactLocation", "region": "Region",
}  # fmt: skip
FREE = {"partialFingerprints"}
STRING = {"type": "string", "minLength": 1}
ISSUES = {
    "type": "array",
    "items": {
        "type": "object",
        "required": ["description", "check_name", "fingerprint", "severity", "location"],
        "properties": {
            "description": STRING,
            "check_name": STRING,
            "fingerprint": STRING,
            "severity": {"enum": ["info", "minor", "major", "critical", "blocker"]},
            "location": {
                "type": "object",
                "required": ["path", "lines"],
                "properties": {
                    "path": {"type": "string", "pattern": "^(?!/|[.]/)"},
                    "lines": {"type": "object", "required": ["begin"], "properties": {"begin": {"type": "integer", "minimum": 1}}},
                },
            },
        },
    },
}


def has(module: str) -> bool:
    """Whether a reader is installed."""
    return importlib.util.find_spec(module) is not None


def made(name: str, value: dict[str, Any]) -> Any:
    """The object of a class of sarif_om: each property is one of the class, and each that the class needs is there."""
    import attr  # type: ignore[import]
    import sarif_om  # type: ignore[import]

    of_class = getattr(sarif_om, name)
    names = {one.metadata["schema_property_name"]: one.name for one in attr.fields(of_class)}
    words = {}
    for key, part in value.items():
        inner = CLASSES.get(key)
        if inner is not None and key not in FREE:
            part = [made(inner, one) for one in part] if isinstance(part, list) else made(inner, part)
        words[names[key]] = part
    return of_class(**words)


def spot(location: dict[str, Any]) -> str:
    """A place as file:line, with its message."""
    at = location["physicalLocation"]
    message = f" ({location['message']['text']})" if "message" in location else ""
    return f"{at['artifactLocation']['uri']}:{at['region']['startLine']}{message}"


def main(kind: str, file: str) -> None:
    """Prints the alerts."""
    with open(file, encoding="utf-8") as text:
        content = json.load(text)
    if kind == "quality":
        if has("jsonschema"):
            import jsonschema  # type: ignore[import]

            jsonschema.validate(content, ISSUES)
        for issue in content:
            place = issue["location"]
            print(f"{place['path']}:{place['lines']['begin']}", issue["check_name"], issue["severity"], "|", issue["description"])
        return
    if has("sarif_om"):
        made("SarifLog", content)
    [run] = content["runs"]
    for result in run["results"]:
        places = ", ".join(map(spot, result["locations"] + result["relatedLocations"]))
        print(f"{places} | {result['ruleId']} | {result['message']['text']}")


if __name__ == "__main__":
    main(*sys.argv[1:])
