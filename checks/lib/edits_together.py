#!/usr/bin/env python3
"""Tries edits that the prover has to refuse, many of them in one check.

    checks/lib/edits_together.py CRATE EDIT..

Runs in a copy of the repository that `rt check` has proved before, as `checks/wrong_bodies.sh` makes it. A check of a
crate judges each function by itself: a function that calls an edited one is still checked against the contract of
that one. So edits of the bodies of different functions are made at once, and one check says which functions are not
proved, beside those that only call one that isn't. An edit is refused if no function that it changes is proved. What a
check can't judge so is tried alone, by `rt must-fail`: an edit of a definition, a contract or a constant, and one that
no line was about. Each edit has a line that says how it ended. The status is 0 if all were refused.
"""

from __future__ import annotations

import os
import re
import shutil
import subprocess
import sys
from collections.abc import Iterable, Iterator
from dataclasses import dataclass
from pathlib import Path

# RT_JOBS says how many jobs rt takes, as it does for `rt ci`.
CHECK = ["rt", "check"] + (["--jobs", os.environ["RT_JOBS"]] if "RT_JOBS" in os.environ else [])
FUNCTION = re.compile(r"^(\s*)(?:pub(?:\(\w+\))? )?(?:const )?(?:unsafe )?fn (\w+)")
CLAUSE = re.compile(r"^\s*(?:requires|ensures|where|decreases)\b")
# What rattle says of a place that it could not prove, and of a function that has no proof of its own.
UNPROVED_PLACE = re.compile(r"^note: (src/\S+?\.rt):(\d+):\d+: it is not proved", re.M)
UNPROVED_FUNCTION = re.compile(r"^fn \w+((?:::\w+)*)::(\w+): (?:not proved|no proof: expected answers)", re.M)


@dataclass(frozen=True)
class Function:
    """A function in a file: what it is a method of, as rattle names that, or nothing; and the numbers of its first line,
    of the first of its body, and of its last, from 0."""

    file: str
    owner: str
    name: str
    first: int
    body: int
    last: int

    def is_in(self, path: str) -> bool:
        """Whether that is the path of what it is in. A method's has the module of its type, which may be another file."""
        if self.owner:
            return path.endswith(f"::{self.owner}")
        module = self.file.removeprefix("src/").removesuffix(".rt").removesuffix("lib")
        return path == (f"::{module.replace('/', '::')}" if module else "")


@dataclass
class Edit:
    """An edit: the file, and each text with the one in its place."""

    path: Path
    file: str
    pairs: list[tuple[str, str]]


def read_edit(path: Path) -> Edit:
    lines = path.read_text(encoding="utf-8").splitlines()
    file = next(line[len("file: "):] for line in lines if line.startswith("file: "))
    old = [line[len("old: "):] for line in lines if line.startswith("old: ")]
    new = [line[len("new: "):] for line in lines if line.startswith("new:")]
    return Edit(path, file, list(zip(old, new)))


def owner_in(line: str) -> str:
    """What the first line of an `impl` block is of: a type, or a type and a trait, whose names rattle joins."""
    while "<" in line and line != (shorter := re.sub(r"<[^<>]*>", "", line.replace("->", ""))):
        line = shorter
    trait, _, kind = line.removeprefix("impl").strip(" {").rpartition(" for ")
    return kind.strip().rpartition("::")[2] + trait.strip().rpartition("::")[2]


def functions_of(file: str, lines: list[str]) -> Iterator[Function]:
    """The functions of a file whose bodies begin and end at lines of their own."""
    owner = ""
    for first, line in enumerate(lines):
        if not line.startswith((" ", "/")):
            owner = owner_in(line) if line.startswith("impl") else owner if not line.strip() else ""
        found = FUNCTION.match(line)
        if not found:
            continue
        indent = found[1]
        has_clauses = False
        body = None
        for number in range(first, len(lines)):
            has_clauses = has_clauses or bool(CLAUSE.match(lines[number]))
            if body is None and (lines[number] == indent + "{" or not has_clauses and lines[number].endswith("{")):
                body = number + 1
            elif body is not None and lines[number] == indent + "}":
                yield Function(file, owner if indent else "", found[2], first, body, number)
                break
            elif body is None and lines[number].endswith((";", "}")) and not has_clauses:
                break


def functions_edited(edit: Edit, text: str) -> set[Function] | None:
    """The functions whose bodies an edit changes, or None if it changes anything else."""
    found: set[Function] = set()
    functions = list(functions_of(edit.file, text.splitlines()))
    for before, _ in edit.pairs:
        number = text[:text.index(before)].count("\n")
        inside = [one for one in functions if one.body <= number < one.last]
        if not inside:
            return None
        found.add(max(inside, key=lambda one: one.first))
    return found


def apply(edits: Iterable[Edit], crate: Path) -> None:
    for edit in edits:
        path = crate / edit.file
        text = path.read_text(encoding="utf-8")
        for before, after in edit.pairs:
            text = text.replace(before, after)
        path.write_text(text, encoding="utf-8")


def choose(waiting: dict[str, tuple[Edit, set[Function]]]) -> list[str]:
    """Edits for one check: no two of them change one function."""
    taken: set[Function] = set()
    chosen = []
    for name, (_, functions) in waiting.items():
        if not functions & taken:
            taken |= functions
            chosen.append(name)
    return chosen


@dataclass
class Unproved:
    """What a check could not prove: places, by file and line, and functions, by the path of what they are in and name."""

    places: set[tuple[str, int]]
    functions: set[tuple[str, str]]

    def has(self, one: Function) -> bool:
        if any(file == one.file and one.first <= line <= one.last for file, line in self.places):
            return True
        return any(name == one.name and one.is_in(path) for path, name in self.functions)


def check(crate: Path, edits: list[Edit]) -> Unproved:
    """What a check of the edited crate could not prove. It is nothing where the check judged nothing."""
    kept = {edit.file: (crate / edit.file).read_bytes() for edit in edits}
    try:
        apply(edits, crate)
        run = subprocess.run(CHECK, cwd=crate, capture_output=True, text=True, stdin=subprocess.DEVNULL)
    finally:
        for file, content in kept.items():
            (crate / file).write_bytes(content)
    said = run.stdout + run.stderr
    places = {(file, int(line) - 1) for file, line in UNPROVED_PLACE.findall(said)}
    return Unproved(places, set(UNPROVED_FUNCTION.findall(said)))


def refused_together(crate: Path, waiting: dict[str, tuple[Edit, set[Function]]]) -> set[str]:
    """The edits of those that checks of many at once refuse."""
    refused: set[str] = set()
    rest = dict(waiting)
    while rest:
        chosen = choose(rest)
        unproved = check(crate, [rest[name][0] for name in chosen])
        for name in chosen:
            _, functions = rest.pop(name)
            if all(map(unproved.has, functions)):
                refused.add(name)
                print(f"{name}: refused, as it must be", flush=True)
    return refused


def refused_alone(crate: Path, edits: list[Path]) -> bool:
    """Whether `rt must-fail` refuses each of the edits, which it tries one by one. It prints a line for each."""
    if not edits:
        return True
    folder = crate / "must-fail"
    folder.mkdir()
    for edit in edits:
        shutil.copy(edit, folder)
    run = subprocess.run(["rt", "must-fail", crate.name], cwd=crate.parent.parent, stdin=subprocess.DEVNULL)
    shutil.rmtree(folder)
    return run.returncode == 0


def main(words: list[str]) -> int:
    crate = Path(words[0]).resolve()
    paths = {os.path.basename(word): Path(word).resolve() for word in words[1:]}
    waiting: dict[str, tuple[Edit, set[Function]]] = {}
    for name, path in paths.items():
        edit = read_edit(path)
        functions = functions_edited(edit, (crate / edit.file).read_text(encoding="utf-8"))
        if edit.file.startswith("src/") and functions is not None:
            waiting[name] = (edit, functions)
    refused = refused_together(crate, waiting)
    return 0 if refused_alone(crate, [path for name, path in paths.items() if name not in refused]) else 1


if __name__ == "__main__":
    sys.exit(main(sys.argv[1:]))
