#!/usr/bin/env python3
"""Lists what has to be read to believe the headline, and fails if docs/TRUSTED.md leaves out a file of it.

    checks/reading_list.py             a line for each file: how many of its lines have to be read, of how many
    checks/reading_list.py --names     the definitions, too

It begins with the clauses of the functions and traits of ROOTS, of `perform` with one clause, and follows each name that
a clause or a definition uses to what defines it, in crates/*/specs, or in crates/*/src for a type of the code. What the toolchain's library
defines is left out. A line counts if it is one of a definition that was reached, or of the comment before it. The last
line is 'N files, M definitions, L lines', and the status is 1 if a file is missing in docs/TRUSTED.md.
"""

from __future__ import annotations

import functools
import re
import sys
from collections.abc import Iterator
from dataclasses import dataclass, field
from pathlib import Path

from lib.imports import imports_in

TOP = Path(__file__).resolve().parent.parent
CRATES = TOP / "crates"
TRUSTED = TOP / "docs" / "TRUSTED.md"
# The headline: what runs keep and what a run does with stores, in a world and on a disk; and when a text is read. Of an
# item with a clause's name, that clause alone.
ROOTS = (
    ("conf_runs", "laws", "runs_hold", ""), ("conf_runs", "laws", "Folders", ""),
    ("conf_tools", "program", "perform", "stores"), ("conf_tools", "world", "World", ""),
    ("conf_disk", "disk", "Disk", ""), ("conf_store", "laws", "lives_hold", ""),
    ("conf_session", "groups", "run_grouped", ""), ("conf_session", "session", "run", ""),
    ("yaml_tree", "read", "read_one", ""), ("yaml_tree", "format", "format_one", ""),
)
DECLARED = re.compile(r"^( *)(?:(?:pub|abbrev|unfoldable|opaque|data|record)\s+)*([^\s:={}()|.]+) (?::|\(|\{)")
INNER = re.compile(r"^\s+(?:pub )?([^\s:={}()|.]+) :\s")
WORD = re.compile(r"[^\s(){}\[\];,.λ:\"=`]+")


@dataclass
class Definition:
    """A definition: the numbers of its first line and of the one behind it, from 0, and the words that it uses."""

    first: int
    end: int
    words: set[str]


@dataclass
class Module:
    """A file: what it imports, by the name that it has here, and what it defines."""

    path: Path
    imports: dict[str, tuple[str, str]] = field(default_factory=dict)
    definitions: dict[str, Definition] = field(default_factory=dict)


def imports_of(text: str) -> dict[str, tuple[str, str]]:
    """The module and the name of what a file imports from Rattle, by the name that it has here."""
    leaves = (leaf for one in imports_in(text) for leaf in one.leaves if leaf.module.startswith("Rattle."))
    return {leaf.here: (leaf.module.removeprefix("Rattle."), leaf.name) for leaf in leaves if leaf.here}


def blocks(lines: list[str]) -> Iterator[tuple[int, int]]:
    """Runs of lines with none that is empty: the first line, and the one behind the last."""
    first = None
    for number, line in enumerate([*lines, ""]):
        if line.strip() and first is None:
            first = number
        elif not line.strip() and first is not None:
            yield first, number
            first = None


def beginnings(lines: list[str], first: int, end: int) -> Iterator[tuple[int, str]]:
    """Where the definitions of a run of lines begin, and their names: at signatures as deep as the first one."""
    depth = -1
    seen: set[str] = set()
    for number in range(first, end):
        match = DECLARED.match(lines[number])
        # What follows a signature are its equations, which begin with the same name.
        if match and depth in (-1, len(match[1])) and match[2] not in seen:
            yield number if seen else first, match[2]
            depth = len(match[1])
            seen.add(match[2])


def add_block(module: Module, lines: list[str], first: int, end: int) -> None:
    """Adds the definitions of a run of lines. The constructors of a `data` lead to it."""
    begun = list(beginnings(lines, first, end))
    for (at, name), (behind, _) in zip(begun, [*begun[1:], (end, "")]):
        body = "\n".join(line.partition(" -- ")[0] for line in lines[at:behind] if not line.lstrip().startswith("--"))
        one = Definition(at, behind, set(WORD.findall(body)))
        module.definitions.setdefault(name, one)
        if re.search(rf"\bdata\b.* {re.escape(name)} ", body):
            for match in filter(None, map(INNER.match, lines[at:behind])):
                module.definitions.setdefault(match[1], one)


@functools.lru_cache(maxsize=None)
def module_of(name: str) -> Module | None:
    """The module of a name such as `conf_disk.specs.Image`, if there is a file of it."""
    path = CRATES / (name.replace(".", "/") + ".antt")
    if not path.is_file():
        return None
    text = path.read_text(encoding="utf-8")
    lines = text.split("\n")
    module = Module(path, imports_of(text))
    for first, end in blocks(lines):
        add_block(module, lines, first, end)
    return module


@functools.lru_cache(maxsize=None)
def code_of(crate: str, file: str) -> tuple[Path, list[str]] | None:
    for path in (CRATES / crate / "src" / f"{file}.rt", CRATES / crate / "src" / "lib.rt"):
        if path.is_file():
            return path, path.read_text(encoding="utf-8").split("\n")
    return None


def item_in(lines: list[str], name: str) -> tuple[int, int] | None:
    """The lines of a type, a trait or a function's head in code, with the comment before it."""
    head = re.compile(rf"^\s*pub(?:\(\w+\))? (?:const )?(?:fn|struct|enum|trait|type) {re.escape(name)}\b")
    for number, line in enumerate(lines):
        if head.match(line):
            first = number
            while first and re.match(r"\s*(?:///|#\[)", lines[first - 1]):
                first -= 1
            closing = "{" if " fn " in line else "}"
            end = next((at for at in range(number, len(lines)) if lines[at] == closing), number)
            return first, end + 1
    return None


def clause_in(lines: list[str], clause: str) -> list[str]:
    """The lines of the clause with this name; all lines for no name."""
    if not clause:
        return lines
    first = next((at for at, line in enumerate(lines) if re.match(rf"\s*ensures {clause} ", line)), len(lines))
    behind = (at for at in range(first + 1, len(lines)) if re.match(r"\s*(?:ensures |requires |\{)", lines[at]))
    return lines[first:next(behind, len(lines))]


def reach_code(
    crate: str, file: str, name: str, clause: str = ""
) -> tuple[Path, int, int, set[tuple[str, str]]] | None:
    """An item of code: where it stands, and the definitions that its clauses name, or this one."""
    found = code_of(crate, file)
    span = item_in(found[1], name) if found else None
    if not found or not span:
        return None
    path, lines = found
    clauses = clause_in(lines[span[0]:span[1]], clause)
    body = "\n".join(line for line in clauses if not line.lstrip().startswith("//"))
    imports = imports_of("\n".join(lines))
    return path, *span, {imports[word] for word in WORD.findall(body) if word in imports}


@dataclass
class Reached:
    """What was reached: the lines of each file, and the names of what is defined there."""

    lines: dict[Path, set[int]] = field(default_factory=dict)
    names: dict[Path, set[str]] = field(default_factory=dict)
    waiting: list[tuple[str, str]] = field(default_factory=list)
    seen: set[tuple[str, str]] = field(default_factory=set)

    def add(self, path: Path, first: int, end: int, name: str) -> None:
        self.lines.setdefault(path, set()).update(range(first, end))
        self.names.setdefault(path, set()).add(name)

    def item(self, crate: str, file: str, name: str, clause: str = "") -> bool:
        found = reach_code(crate, file, name, clause)
        if found:
            path, first, end, used = found
            self.add(path, first, end, name)
            self.waiting += used
        return found is not None

    def definition(self, module: Module, name: str) -> None:
        one = module.definitions[name]
        self.add(module.path, one.first, one.end, name)
        here = ".".join(module.path.relative_to(CRATES).with_suffix("").parts)
        for word in one.words:
            if word in module.definitions:
                self.waiting.append((here, word))
            elif word in module.imports:
                self.waiting.append(module.imports[word])

    def follow(self) -> None:
        """Follows each name that waits to what defines it."""
        while self.waiting:
            place, name = self.waiting.pop()
            if (place, name) in self.seen or place.startswith("std."):
                continue
            self.seen.add((place, name))
            module = module_of(place)
            declared = re.match(r"(\w+)\.specs\.declared\.([\w.]+)", place)
            if module and name in module.definitions:
                self.definition(module, name)
            elif module and name in module.imports:
                self.waiting.append(module.imports[name])
            elif declared:
                file, _, kind = declared[2].partition(".")
                self.item(declared[1], file, kind.partition(".")[0] or name)


def reached() -> Reached:
    found = Reached()
    for crate, file, name, clause in ROOTS:
        if not found.item(crate, file, name, clause):
            sys.exit(f"reading_list.py: {crate}::{file}::{name} is not there")
    found.follow()
    return found


def listed() -> set[str]:
    """The files that docs/TRUSTED.md lists, as `crate/specs/File`."""
    found: set[str] = set()
    folder = ""
    for item in re.findall(r"(?ms)^\d+\. (.*?)(?=^\d+\. |^$)", TRUSTED.read_text(encoding="utf-8")):
        for entry in re.findall(r"`([\w/]+)`", " ".join(item.split()).partition(" Compare ")[0]):
            if entry.startswith("crates/"):
                folder, _, entry = entry[len("crates/"):].rpartition("/")
            found.add(f"{folder}/{entry}")
    return found


def main(words: list[str]) -> int:
    found = reached()
    known = listed()
    missing = 0
    for path in sorted(found.lines):
        name = str(path.relative_to(CRATES).with_suffix(""))
        print(f"{name}: {len(found.lines[path])} of {len(path.read_text(encoding='utf-8').splitlines())} lines")
        if "--names" in words:
            print("    " + ", ".join(sorted(found.names[path])))
        if path.suffix == ".antt" and name not in known:
            missing += 1
            print(f"docs/TRUSTED.md does not list {name}")
    definitions = sum(len(names) for names in found.names.values())
    print(f"{len(found.lines)} files, {definitions} definitions, {sum(map(len, found.lines.values()))} lines")
    return 1 if missing else 0


if __name__ == "__main__":
    sys.exit(main(sys.argv[1:]))
