#!/usr/bin/env python3
"""The definitions that a clause rests on: who believes the clause has to read these.

usage: reading.py [--write] [--files]

From each clause of CLAUSES it follows each name to its definition, and on from there. It prints the number of lines, without
comments, and fails if one is over its limit, or if docs/READING.md is not what it makes. Definitions of the kit's libraries are
not followed; types that are declared in Rust are counted separately. `--files` lists the files, `--write` writes the page.
"""

from __future__ import annotations

import re
import sys
from dataclasses import dataclass, field
from pathlib import Path

TOP = Path(__file__).resolve().parent.parent.parent
CRATES = TOP / "crates"

HEADER = re.compile(r"^(?:(?:abbrev|unfoldable|opaque) )*(?:pub )?(?:(record|data) )?([^\s({:]+)(?= [({:]| :)")
USE = re.compile(r"^(?:pub )?use ([\w.]+?)(?:\.\{([^}]*)\})?(?: as (\S+))?$")
NAME = re.compile(r"[A-Za-z_][\w'-]*(?:\.[A-Za-z_][\w'-]*)*")


@dataclass
class Definition:
    file: Path
    name: str
    lines: list[str] = field(default_factory=list)

    def text(self) -> str:
        return "\n".join(self.lines)

    def arguments(self) -> set[str]:
        """The names that its equations give to their arguments: in them such a name means no definition."""
        heads = [line.partition(" =")[0] for line in self.lines if line.startswith(f"{self.name} ")]
        return {word for head in heads for word in re.findall(r"(?<![\w.])[a-z_][\w'-]*(?![\w.])", head)} - {self.name}

    def parameters(self) -> str:
        """The parameters of a record, with their types."""
        return self.text().partition(f"record {self.name} ")[2].partition(" where")[0]

    def fields(self) -> dict[str, str]:
        """The fields of a record, each with its type."""
        found: dict[str, str] = {}
        name = ""
        for line in self.lines[1:]:
            begin = re.match(r"  pub (\w+) :(.*)", line)
            if begin:
                name = begin.group(1)
                found[name] = begin.group(2)
            elif name:
                found[name] += "\n" + line
        return found


@dataclass
class Module:
    file: Path
    about: str = ""
    names: dict[str, tuple[str, str]] = field(default_factory=dict)  # a name that is brought in: the module, and its name there
    aliases: dict[str, str] = field(default_factory=dict)  # a name for a module
    own: dict[str, Definition] = field(default_factory=dict)


def without_comment(line: str) -> str:
    return re.sub(r"(^|\s)--.*$", "", line).rstrip()


def add_use(module: Module, line: str) -> bool:
    """Takes the names that a line brings in, if it is a `use` line."""
    use = USE.match(line)
    if use is None:
        return False
    path, names, alias = use.groups()
    if names is None:
        module.aliases[alias or path.rsplit(".", 1)[1]] = path
        return True
    for item in names.split(","):
        words = item.split()
        if words:
            module.names[words[-1]] = (path, words[0])
    return True


def module_of(file: Path) -> Module:
    module = Module(file)
    current: Definition | None = None
    about: list[str] = []
    for line in file.read_text(encoding="utf-8").split("\n"):
        if line.startswith("-- ") and not module.names and not module.own and not module.aliases:
            about.append(line[3:])
        code = without_comment(line)
        if not code:
            continue
        if add_use(module, code):
            current = None
            continue
        if not code.startswith((" ", "pub mod")):
            header = HEADER.match(code)
            if header and header.group(2) not in module.own:
                current = module.own[header.group(2)] = Definition(file, header.group(2))
        if current is not None:
            current.lines.append(code)
            constructor = re.match(r"  (\w+) :", code) if current.lines[0].find(" data ") >= 0 else None
            if constructor:
                module.own.setdefault(constructor.group(1), current)
    module.about = " ".join(about)
    return module


class Tree:
    """All modules of specs/, by the path that `use` gives them."""

    def __init__(self) -> None:
        self.modules: dict[str, Module] = {}
        self.paths: dict[Path, str] = {}
        for file in sorted(CRATES.glob("*/specs/**/*.antt")):
            crate = file.relative_to(CRATES).parts[0]
            inner = file.relative_to(CRATES / crate / "specs").with_suffix("")
            path = f"Rattle.{crate}.specs." + ".".join(inner.parts)
            self.modules[path] = module_of(file)
            self.paths[file] = path

    def named(self, module: Module, name: str) -> tuple[str, str] | None:
        """The module and the name there that a name in a module means."""
        head, _, rest = name.partition(".")
        if head in module.own:
            return self.path_of(module), head
        if head in module.names:
            return module.names[head]
        if head in module.aliases and rest:
            return module.aliases[head], rest.split(".")[0]
        return None

    def path_of(self, module: Module) -> str:
        return self.paths[module.file]


@dataclass
class Reading:
    """What is read for a clause: definitions by file, and the names of declared types."""

    definitions: dict[Path, dict[str, Definition]] = field(default_factory=dict)
    types: set[str] = field(default_factory=set)
    uses: dict[Path, dict[Path, None]] = field(default_factory=dict)

    def lines(self) -> int:
        return sum(len(d.lines) for names in self.definitions.values() for d in names.values())

    def order(self) -> list[Path]:
        """The files, each after those that it uses."""
        found: dict[Path, None] = {}

        def add(file: Path) -> None:
            if file not in found:
                for used in self.uses.get(file, {}):
                    add(used)
                found[file] = None

        for file in self.definitions:
            add(file)
        return list(found)


def follow(tree: Tree, module: Module, text: str, reading: Reading, arguments: set[str]) -> None:
    for name in dict.fromkeys(NAME.findall(text)):
        found = None if name.partition(".")[0] in arguments else tree.named(module, name)
        if found is None:
            continue
        path, inner = found
        declared = re.match(r"Rattle\.(\w+)\.specs\.declared\.(.*)", path)
        if declared:
            crate, place = declared.groups()
            if (CRATES / crate).is_dir():
                reading.types.add(f"{crate} {place.removesuffix('.TheVariants').removesuffix('.TheConstants')}")
            continue
        there = tree.modules.get(path)
        if there is None:
            continue
        if inner not in there.own:
            if inner in there.names:  # brought in there for others
                follow(tree, there, inner, reading, set())
            continue
        definition = there.own[inner]
        if module.file != there.file and module.file in reading.definitions:
            reading.uses.setdefault(module.file, {})[there.file] = None
        names = reading.definitions.setdefault(there.file, {})
        if definition.name in names:
            continue
        names[definition.name] = definition
        follow(tree, there, definition.text(), reading, definition.arguments())


def type_lines(name: str) -> int:
    """The lines of a type that is declared in Rust, without comments."""
    crate, place = name.split(" ")
    *parts, wanted = place.split(".")
    for file in (CRATES / crate / "src" / ("/".join(parts) + ".rt"), CRATES / crate / "src/lib.rt"):
        if not file.is_file():
            continue
        found = re.search(rf"^pub(?:\(crate\))? (?:struct|enum) {wanted}\b.*?(?:^}}|;$)", file.read_text(encoding="utf-8"), re.M | re.S)
        if found:
            return sum(1 for line in found.group(0).split("\n") if line.strip() and not line.strip().startswith("//"))
    return 0


def of_field(tree: Tree, crate: str, file: str, record: str, names: list[str]) -> Reading:
    """What is read for some fields of a record that a clause names."""
    module = tree.modules[f"Rattle.{crate}.specs.{file}"]
    reading = Reading()
    fields = module.own[record].fields()
    follow(tree, module, module.own[record].parameters(), reading, set())
    for name in names:
        follow(tree, module, fields[name], reading, set())
    return reading


def of_clause(tree: Tree, crate: str, file: str, function: str, name: str) -> Reading:
    """What is read for a clause of a function, by the `ghost use` lines of its file."""
    source = (CRATES / crate / "src" / file).read_text(encoding="utf-8")
    module = Module(CRATES / crate / "src" / file)
    for line in re.findall(r"^ghost (use .*);$", source, re.M):
        add_use(module, line)
    begin = source.index(f"pub fn {function}<")
    clause = re.search(r"    ensures " + name + r" \{(.*?)\n(?=    ensures|    requires|    //|\{|\n)", source[begin:], re.S)
    assert clause is not None, f"{function} has no clause {name}"
    reading = Reading()
    follow(tree, module, clause.group(1), reading, set())
    return reading


# The clauses, what each says, where it is, and the most lines that may have to be read for it.
CLAUSES = [
    ("fail_run", "counts", "with Done of `run` the report has the number of sites of each outcome", 720),
    ("fail_run", "cause", "an answer is given only if it has its cause", 1190),
    ("export_run", "right", "the rows of an export have the outcomes of their sites", 1010),
    ("replay_run", "said", "the text of a replay is the site's own run", 820),
    ("answers_run", "said", "the lines of the answers are those of the jobs' own runs", 880),
]
# The fields of `texts` of fail_run, one for each command, and the most lines for any of them.
COMMANDS = "run report audit merge by_symbols brute demo sample plan trace".split()
MOST_OF_COMMAND = 1000


def reading_of(tree: Tree, function: str, name: str) -> Reading:
    if function == "fail_run":
        return of_field(tree, "fail_cli", "Answered", "IsAnswered", [name])
    if function == "export_run":
        return of_field(tree, "results_db", "Export", "IsExported", [name])
    if function == "answers_run":
        return of_field(tree, "answers_run", "Answered", "IsAnswersRun", [name])
    return of_clause(tree, "replay", "program.rt", function, name)


def of_command(tree: Tree, name: str) -> Reading:
    return of_field(tree, "fail_cli", "TrueTexts", "TrueTexts", [name])


def reading_of_line(tree: Tree) -> Reading:
    """What is read to know which words are a line, and what they ask."""
    reading = Reading()
    follow(tree, tree.modules["Rattle.command_line.specs.Line"], "line", reading, set())
    return reading


def sentence(about: str) -> str:
    """The first sentence on a file, and others that name a standard."""
    first, *others = re.split(r"(?<=\.) (?=[A-Z])", about)
    return " ".join([first] + [other for other in others if "specification" in other or "RFC" in other])


def row(file: Path, reading: Reading, about: str) -> str:
    lines = sum(len(d.lines) for d in reading.definitions[file].values())
    return f"- `{file.relative_to(CRATES)}`, {lines}: {sentence(about)}"


def page(tree: Tree, readings: dict[tuple[str, str], Reading]) -> str:
    """docs/READING.md."""
    about = {module.file: module.about for module in tree.modules.values()}
    first = readings["fail_run", "counts"]
    lines = [HEAD]
    for function, name, says, _ in CLAUSES:
        reading = readings[function, name]
        lines.append(f"- `{name}` of `{function}`: {says}; {reading.lines()} lines in {len(reading.definitions)} files")
    of_commands = ", ".join(f"`{name}` {of_command(tree, name).lines()}" for name in COMMANDS)
    lines.append(f"- `texts` of `fail_run`: what each command writes, by a field for each; lines: {of_commands}")
    lines.append(f"\nWhat words ask for is defined by `line` in `command_line/specs/Line.antt`, with {reading_of_line(tree).lines()} lines.")
    lines.append(MIDDLE)
    lines += [row(file, first, about[file]) for file in first.order()]
    return "\n".join(lines) + "\n"


HEAD = """# The reading list

For readers who want to believe the counts without trusting us: after reading these definitions you know what the clause `counts`
says. The proofs need not be read: the prover checks them. `python3 tests/definitions/reading.py --write` makes this page,
and the tests fail if a list grows beyond its limit.

Lines are those of definitions, without comments. The plain types that they use (structs and enums in `src/`) are not
counted, nor are the definitions of Rattle's standard library. The clauses:
"""

MIDDLE = """
## The files of `counts`, in order

Each file, here with its lines, uses only files above it. Have the standards at hand: of the RISC-V unprivileged
specification the chapters on RV32I and the M extension, and of the ELF specification the chapters on the ELF header and
the program header. Only definitions that `counts` reaches are counted. The other commands also need the ELF specification's
chapter on symbols (`symbols`), and RFC 4180 for comma-separated values (`report`, `plan`).
"""


def main() -> None:
    tree = Tree()
    readings = {(function, name): reading_of(tree, function, name) for function, name, _, _ in CLAUSES}
    passed = failed = 0
    for function, name, _, most in CLAUSES:
        reading = readings[function, name]
        types = sum(type_lines(of_type) for of_type in reading.types)
        print(f"{name} of {function}: {reading.lines()} lines in {len(reading.definitions)} files, and {types} lines of types")
        if "--files" in sys.argv:
            for file in reading.order():
                print("   ", file.relative_to(CRATES), " ".join(reading.definitions[file]))
        if reading.lines() <= most:
            passed += 1
        else:
            failed += 1
            print(f"failed: at most {most} lines were to be read for {name} of {function}")
    for name in COMMANDS:
        if (lines := of_command(tree, name).lines()) <= MOST_OF_COMMAND:
            passed += 1
        else:
            failed += 1
            print(f"failed: at most {MOST_OF_COMMAND} lines were to be read for {name} of texts, and there are {lines}")
    wanted = page(tree, readings)
    target = TOP / "docs/READING.md"
    if "--write" in sys.argv:
        target.write_text(wanted, encoding="utf-8")
    if target.is_file() and target.read_text(encoding="utf-8") == wanted:
        passed += 1
    else:
        failed += 1
        print("failed: docs/READING.md is not what reading.py --write makes of the definitions")
    print(f"{passed} passed, {failed} failed")
    sys.exit(1 if failed else 0)


if __name__ == "__main__":
    main()
