#!/usr/bin/env python3
"""Looks whether the imports of definitions and lemmas stand on as few lines as nested paths allow, or lays them out so.

    checks/imports.py                     looks at the files of crates/*/specs and crates/*/proofs
    checks/imports.py --write [FILE..]    rewrites those whose imports take too many lines, of these files or of all

Imports that follow each other, with the same words before `use`, are packed together. Paths that begin alike share
their beginning, as in `use Rattle.std.{proofs.Common.{ap, sym}, specs.List.All}`, and a line takes as much as 140
characters hold. Crates of this repository share a `use`, as in `use Rattle.{conf_disk.specs.Disk.Image, yaml_data..}`,
and each library of the toolchain has its own: the prover refuses an operator under `use Rattle.{`, where it can't tell
whose that is. What comes first stays first, but the names of a module stand before the modules
in it, and a path to a module itself, which has no braces, has a line of its own behind the others. What is imported,
and under which name, stays as it is. Imports that would take no fewer lines are left alone, if none of these is too
long or has what may not share it, and so are those whose paths do not begin with `Rattle`, those with `unfoldable`, and those with a comment behind
them.

Each wrong file has a line. The last line is 'N files, M wrong', and the status is 1 if M is above 0; with `--write` it
is 'N files, M rewritten', and the status 0. It takes some seconds.
"""

from __future__ import annotations

import glob
import os
import sys
from collections.abc import Iterator, Sequence
from functools import cache
from itertools import groupby

from lib.imports import Import, Leaf, imports_in

TOP = os.path.dirname(os.path.dirname(os.path.abspath(__file__)))
# The most characters of a line, and what may stand before the `use` of imports that are packed.
MOST = 140
PACKED = ("", "pub ")
# A path to an imported name: its segments, of which the last one is the name, with its alias.
Path = tuple[str, ...]


def path_to(leaf: Leaf) -> Path:
    return (*leaf.module.split("."), f"{leaf.name} as {leaf.alias}" if leaf.alias else leaf.name)


def first_module(path: Path) -> str:
    """The module that a path leads through first, or "" if there is none before the name."""
    return path[0] if len(path) > 1 else ""


def arranged(paths: Sequence[Path]) -> list[Path]:
    """The paths with those together that share a beginning: names first, then modules as they come."""
    inner: dict[str, list[Path]] = {"": []}
    for path in paths:
        inner.setdefault(first_module(path), []).append(path)
    found = inner.pop("")
    for module, below in inner.items():
        found += [(module, *rest) for rest in arranged([path[1:] for path in below])]
    return found


def entries(paths: Sequence[Path]) -> list[str]:
    """The entries of a list of arranged paths: one for each name, and for each module that they lead through first."""
    found = []
    for module, below in groupby(paths, first_module):
        if not module:
            found += [name for name, in below]
            continue
        inner = entries([path[1:] for path in below])
        found.append(f"{module}.{inner[0]}" if len(inner) == 1 else f"{module}.{{{', '.join(inner)}}}")
    return found


def beginning(path: Path) -> Path:
    """What paths begin with that may share a `use`: a library of the toolchain, or nothing but `Rattle`."""
    return path[:1] if path[1] in crates() else path[:2]


@cache
def crates() -> frozenset[str]:
    """The crates of this repository."""
    return frozenset(os.listdir(os.path.join(TOP, "crates")))


def line_of(before: str, paths: Sequence[Path]) -> str:
    """The line that imports arranged paths, which begin with the same module."""
    if len(paths) == 1:
        *modules, name = paths[0]
        return f"{before}use {'.'.join(modules)}.{{{name}}}"
    return f"{before}use {entries(paths)[0]}"


def packed(before: str, leaves: Sequence[Leaf]) -> list[str]:
    """The lines that import what is given: each takes what still fits, and at least one name."""
    together: dict[Path, list[Path]] = {}
    for leaf in dict.fromkeys(leaves):
        if leaf.name:
            together.setdefault(beginning(path_to(leaf)), []).append(path_to(leaf))
    lines = [line for paths in together.values() for line in filled(before, arranged(paths))]
    return lines + [f"{before}use {leaf}" for leaf in dict.fromkeys(leaves) if not leaf.name]


def filled(before: str, paths: Sequence[Path]) -> Iterator[str]:
    """The lines that import arranged paths that may share a `use`."""
    line: list[Path] = []
    for path in paths:
        if line and len(line_of(before, [*line, path])) > MOST:
            yield line_of(before, line)
            line = []
        line.append(path)
    if line:
        yield line_of(before, line)


def is_mixed(one: Import) -> bool:
    """Whether paths share the import that may not."""
    return len({beginning(path_to(leaf)) for leaf in one.leaves if leaf.name}) > 1


def is_packed(one: Import, lines: Sequence[str]) -> bool:
    """Whether an import is of those that are packed."""
    has_comment = any("--" in line for line in lines[one.first : one.end])
    return one.before in PACKED and all(leaf.module.startswith("Rattle.") for leaf in one.leaves) and not has_comment


def runs(text: str, lines: Sequence[str]) -> Iterator[list[Import]]:
    """The imports that are packed together: they follow each other, and have the same words before `use`."""
    run: list[Import] = []
    for one in imports_in(text):
        if not is_packed(one, lines):
            continue
        if run and (run[-1].end, run[-1].before) != (one.first, one.before):
            yield run
            run = []
        run.append(one)
    if run:
        yield run


def rewritten(text: str) -> str:
    """The text, with its imports on as few lines as they take."""
    lines = text.split("\n")
    found: list[str] = []
    behind = 0
    for run in runs(text, lines):
        first, end = run[0].first, run[-1].end
        here = lines[first:end]
        fewest = packed(run[0].before, [leaf for one in run for leaf in one.leaves])
        is_better = len(fewest) < len(here) or any(len(line) > MOST for line in here) or any(map(is_mixed, run))
        found += lines[behind:first] + (fewest if is_better else here)
        behind = end
    return "\n".join(found + lines[behind:])


def all_files() -> list[str]:
    return sorted(
        path
        for folder in ("specs", "proofs")
        for path in glob.glob(os.path.join(TOP, "crates", "*", folder, "**", "*.antt"), recursive=True)
    )


def look(files: Sequence[str], write: bool) -> int:
    """How many of the files are not as they would be written. With `write` they are written so."""
    wrong = 0
    for path in files:
        with open(path, encoding="utf-8", newline="") as file:
            text = file.read()
        better = rewritten(text)
        if better == text:
            continue
        wrong += 1
        before, after = text.count("\n"), better.count("\n")
        has = "had" if write else "has"
        print(f"{os.path.relpath(path, TOP)} {has} {before} lines, and {after} with packed imports")
        if write:
            with open(path, "w", encoding="utf-8", newline="") as file:
                file.write(better)
    return wrong


def main() -> int:
    match sys.argv[1:]:
        case []:
            files = all_files()
            wrong = look(files, write=False)
            print(f"{len(files)} files, {wrong} wrong")
            return 1 if wrong else 0
        case ["--write", *named]:
            files = named or all_files()
            print(f"{len(files)} files, {look(files, write=True)} rewritten")
            return 0
        case _:
            sys.exit(__doc__)


if __name__ == "__main__":
    sys.exit(main())
