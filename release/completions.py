"""Writes the completions of the tools for bash, zsh and fish, from the parsers of the tools.

completions.py FOLDER              for `completions`, after an option of a tool was changed

One file for each shell completes all tools.
"""

from __future__ import annotations

import argparse
import sys
from collections.abc import Iterator
from dataclasses import dataclass, field
from pathlib import Path

sys.path.insert(0, str(Path(__file__).resolve().parents[1] / "tools"))

from fail_star_tools.command_line import OF_FILES  # noqa: E402
from fail_star_tools.commands import actions_of  # noqa: E402
from fail_star_tools.run import again  # noqa: E402
from fail_star_tools.words import INSTALLED, TOOLS  # noqa: E402

HEAD = "for the tools of fail_star, written by release/completions.py: options, their words, and files."


@dataclass
class Option:
    """An option: its names, what it is for, and what its value may be, if it takes one."""

    names: list[str]
    about: str
    value: str = ""  # the word for its value in the help
    words: list[str] = field(default_factory=list)
    files: bool = False
    repeated: bool = False


def options_of(tool: str) -> list[Option]:
    """The options of a tool."""
    if tool in ("again", "explain"):  # which read their words without a parser
        found = [Option(["-h", "--help"], "prints how it is used"), Option(["--version"], "prints the version")]
        named = again.OWN.items() if tool == "again" else ()
        return found + [Option([name], f"the program {program}", "FILE", files=True) for name, program in named]
    shown = [action for action in actions_of(tool) if action.help != argparse.SUPPRESS]
    return [option_of(action) for action in shown if action.option_strings]


def option_of(action: argparse.Action) -> Option:
    """An option of a parser."""
    about = (action.help or "").partition(" (default")[0]
    option = Option(list(action.option_strings), about, repeated=isinstance(action, argparse._AppendAction))
    if action.nargs == 0:
        return option
    metavar = action.metavar if isinstance(action.metavar, str) else " ".join(action.metavar or ())
    option.value = metavar or (action.dest.upper() if action.choices is None else "WORD")
    option.words = [str(choice) for choice in action.choices or ()]
    option.files = option.value.endswith(OF_FILES)
    return option


def names_of(options: list[Option]) -> list[str]:
    """All names of options."""
    return [name for option in options for name in option.names]


# --- bash -----------------------------------------------------------------------------------------


def bash() -> Iterator[str]:
    """The completion for bash."""
    yield f"# bash completion {HEAD}"
    yield ""
    yield "_fail_star_tools() {"
    yield "    local word=${COMP_WORDS[COMP_CWORD]} before=${COMP_WORDS[COMP_CWORD - 1]} tool=${COMP_WORDS[0]##*/} options="
    yield "    # In --NAME=VALUE the mark is a word."
    yield '    if [ "$word" = = ]; then word=; elif [ "$before" = = ]; then before=${COMP_WORDS[COMP_CWORD - 2]}; fi'
    yield "    COMPREPLY=()"
    yield '    case "$tool $before" in'
    for tool in TOOLS:
        for option in options_of(tool):
            patterns = " | ".join(f"'{INSTALLED}{tool} {name}'" for name in option.names)
            if option.words:
                yield f"""    {patterns}) mapfile -t COMPREPLY < <(compgen -W '{" ".join(option.words)}' -- "$word"); return ;;"""
            elif option.value and not option.files:
                yield f"    {patterns}) return ;;"
    yield f"    '{INSTALLED}again {INSTALLED}again') mapfile -t COMPREPLY < <(compgen -W '{' '.join(again.PROGRAMS)}' -- \"$word\"); return ;;"
    yield "    esac"
    yield "    case $tool in"
    for tool in TOOLS:
        yield f"    {INSTALLED}{tool}) options='{' '.join(names_of(options_of(tool)))}' ;;"
    yield "    esac"
    yield "    if [[ $word = -* ]]; then"
    yield '        mapfile -t COMPREPLY < <(compgen -W "$options" -- "$word")'
    yield "    else"
    yield "        compopt -o filenames 2>/dev/null"
    yield '        mapfile -t COMPREPLY < <(compgen -f -- "$word")'
    yield "    fi"
    yield "}"
    yield f"complete -F _fail_star_tools {' '.join(INSTALLED + tool for tool in TOOLS)}"


# --- zsh ------------------------------------------------------------------------------------------


def zsh() -> Iterator[str]:
    """The completion for zsh."""
    yield f"#compdef {' '.join(INSTALLED + tool for tool in TOOLS)}"
    yield f"# zsh completion {HEAD}"
    yield ""
    yield "case $service in"
    for tool in TOOLS:
        yield f"{INSTALLED}{tool})"
        yield "    _arguments -S \\"
        for option in options_of(tool):
            yield f"        {zsh_option(option)} \\"
        if tool == "again":
            yield f"        ':command:({' '.join(again.PROGRAMS)})' \\"
        yield "        '*:file:_files'"
        yield "    ;;"
    yield "esac"


def zsh_option(option: Option) -> str:
    """The words of _arguments for an option."""
    value = ""
    if option.value:
        what = f"({' '.join(option.words)})" if option.words else "_files" if option.files else " "
        value = f":{zsh_text(option.value)}:{what}"
    repeated = "*" if option.repeated else f"({' '.join(option.names)})" if len(option.names) > 1 else ""
    texts = []
    for name in option.names:
        mark = "=" if option.value and name.startswith("--") else "+" if option.value else ""
        texts.append(f"'{repeated}{name}{mark}[{zsh_text(option.about)}]{value}'")
    return " ".join(texts)


def zsh_text(text: str) -> str:
    """A text within a specification in quotes."""
    for letter in "\\[]:":
        text = text.replace(letter, f"\\{letter}")
    return text.replace("'", "'\\''")


# --- fish -----------------------------------------------------------------------------------------


def fish() -> Iterator[str]:
    """The completion for fish."""
    yield f"# fish completion {HEAD}"
    yield ""
    yield "# Each tool has a link to this file, of which one is enough."
    yield "if not set -q __fail_star_tools"
    yield "    set -g __fail_star_tools yes"
    for tool in TOOLS:
        for option in options_of(tool):
            yield f"    complete -c {INSTALLED}{tool} {fish_option(option)}"
        if tool == "again":
            first = "'test (count (commandline -opc)) -eq 1'"
            yield f"    complete -c {INSTALLED}again -n {first} -f -a '{' '.join(again.PROGRAMS)}'"
    yield "end"


def fish_option(option: Option) -> str:
    """The words of complete for an option."""
    names = [f"-l {name[2:]}" if name.startswith("--") else f"-s {name[1:]}" for name in option.names]
    value = f"-x -a '{' '.join(option.words)}'" if option.words else "-r -F" if option.files else "-x" if option.value else ""
    about = option.about.replace("\\", "\\\\").replace("'", "\\'")
    return " ".join([*names, *([value] if value else []), f"-d '{about}'"])


def main() -> None:
    """Writes the three files."""
    folder = Path(sys.argv[1])
    for name, lines in (("fail_star-tools.bash", bash()), ("_fail_star-tools", zsh()), ("fail_star-tools.fish", fish())):
        (folder / name).write_text("".join(f"{line}\n" for line in lines), encoding="utf-8")


if __name__ == "__main__":
    main()
