"""Reads a pipeline of examples/ci: its variables, its commands, the folder that it caches and what it uploads.

pipelines.py gitlab|github FILE FOLDER

FOLDER gets `variables` (a script of exports), `script` (all commands in order, as the engine gives them to a shell),
`cached` and `uploads` (a path in each line). A key that the engine does not know, or a value of another form than the
engine takes, is an error.
"""

from __future__ import annotations

import shlex
import sys
from pathlib import Path
from typing import Any

import yaml

Steps = list[dict[str, Any]]
GITLAB_JOB = {"image", "cache", "before_script", "script", "artifacts"}
GITHUB_STEP = {"name", "uses", "run", "with", "if"}
ACTIONS: dict[str, set[str]] = {
    "actions/checkout@v4": set(),
    "actions/cache/restore@v4": {"path", "key", "restore-keys"},
    "actions/cache/save@v4": {"path", "key"},
    "github/codeql-action/upload-sarif@v3": {"sarif_file"},
    "actions/upload-artifact@v4": {"name", "path"},
}


def only(found: set[str], known: set[str]) -> None:
    """Refuses keys that an engine does not know."""
    assert found <= known, f"unknown: {found - known}"


def gitlab(whole: dict[str, Any]) -> tuple[list[str], list[str], list[str]]:
    """The commands, the cached folders and the files that are uploaded by a pipeline of GitLab."""
    only(set(whole), {"variables", "fault-injection"})
    job = whole["fault-injection"]
    only(set(job), GITLAB_JOB)
    assert job["cache"]["when"] == job["artifacts"]["when"] == "always"
    lines = [*job["before_script"], *job["script"]]
    assert all(isinstance(line, str) for line in lines), "a line that YAML takes for something else"
    reports = job["artifacts"]["reports"]
    only(set(reports), {"junit", "codequality"})
    uploads = [*job["artifacts"]["paths"], *reports.values()]
    return ["set -eo pipefail", *lines], job["cache"]["paths"], uploads


def github(whole: dict[Any, Any]) -> tuple[list[str], list[str], list[str]]:
    """The same of a workflow of GitHub. Each step has its own shell; after a failure only those with `always` run."""
    only({str(key) for key in whole}, {"name", "env", "jobs", "True"})  # YAML 1.1 reads `on` as a truth value
    assert whole[True] == ["push", "pull_request"]
    [job] = whole["jobs"].values()
    only(set(job), {"runs-on", "permissions", "steps"})
    steps: Steps = job["steps"]
    lines, uploads = ["set -e"], []
    for step in steps:
        only(set(step), GITHUB_STEP)
        assert ("run" in step) != ("uses" in step)
        if "run" in step:
            assert "if" not in step
            lines.append(f"bash -e -c {shlex.quote(step['run'])}")
        else:
            only(set(step.get("with", {})), ACTIONS[step["uses"]])
        if "upload" in step.get("uses", ""):
            assert step["if"].startswith("always()")
            uploads.append(step["with"].get("path") or step["with"]["sarif_file"])
    caches = [step for step in steps if step.get("uses", "").startswith("actions/cache")]
    assert [step["uses"].split("@")[0] for step in caches] == ["actions/cache/restore", "actions/cache/save"]
    assert caches[1]["if"] == "always()" and caches[0]["with"]["key"] == caches[1]["with"]["key"]
    assert caches[0]["with"]["key"].startswith(caches[0]["with"]["restore-keys"])
    return lines, sorted({step["with"]["path"] for step in caches}), uploads


def main(engine: str, file: str, folder: str) -> None:
    """Writes what there is."""
    whole = yaml.safe_load(Path(file).read_text(encoding="utf-8"))
    variables = whole["variables" if engine == "gitlab" else "env"]
    lines, cached, uploads = (gitlab if engine == "gitlab" else github)(whole)
    texts = {
        "variables": [f"export {name}={shlex.quote(value)}" for name, value in variables.items()],
        "script": lines,
        "cached": cached,
        "uploads": uploads,
    }
    for name, text in texts.items():
        (Path(folder) / name).write_text("\n".join([*text, ""]), encoding="utf-8")


main(*sys.argv[1:])
