#!/usr/bin/env python3
"""Looks at each edit that the prover has to refuse, and fails if one no longer fits the code, or was not tried on it.

    checks/edits.py                        looks at all
    checks/edits.py --sum CRATE            prints the checksum of what the crate's edits beside the gate stand on
    checks/edits.py --tried CRATE SUM      notes that the prover refused all of them, if the crate has this checksum

These are the edits of crates/*/must-fail, which the gate tries, and of crates/*/must-fail-beside, which
checks/wrong_bodies.sh tries and notes. The file that an edit names has to be there, and each `old:` text has to occur in
it exactly once. In the file with the edit applied, each name that is imported from a module of this repository has to
be defined there: else the edit would be refused for that alone. A module that the toolchain writes, or one that exports
another whole, is not looked at.

checks/data/edits-tried has a line for each crate with edits beside the gate: its name, the checksum of its code, its
definitions and these edits, and how many were refused, which is 0 where not all were tried on it as it stands
(`TODO.md`). Imports of definitions count by what they import, and not by their layout. A crate that is not as its line
says fails: its edits have to be tried. The last line is 'N edits, M wrong', and the status is 1 if M is above 0. It
takes some seconds.
"""

from __future__ import annotations

import functools
import glob
import hashlib
import os
import re
import sys
from collections.abc import Iterator

from lib.imports import imports_in, with_leaves

TOP = os.path.dirname(os.path.dirname(os.path.abspath(__file__)))
TRIED = os.path.join(TOP, "checks", "data", "edits-tried")
BESIDE = "must-fail-beside"
# What such an edit stands on, of its crate.
STOOD_ON = ("src", "specs", BESIDE)
MODULE = re.compile(r"Rattle\.(\w+)\.(specs|proofs)(?:\.|$)(.*)")
DECLARED = re.compile(
    r"^\s*(?:(?:pub|abbrev)\s+)*(?:(?:data|record)\s+(\S+)|([^:={}()]+?)\s*(?:(?:\{[^}]*\}|\([^)]*\))\s*)*:\s)", re.M
)


def read(path: str) -> str:
    with open(os.path.join(TOP, path), encoding="utf-8") as file:
        return file.read()


@functools.lru_cache(maxsize=None)
def defined(path: str) -> set[str] | None:
    """The names that a module defines or exports, or None if it exports another module whole."""
    text = re.sub(r"^\s*--.*$", "", read(path), flags=re.M)
    found: set[str] = set()
    for leaf in (leaf for one in imports_in(text) if one.is_public for leaf in one.leaves):
        if not leaf.name:
            return None
        found.add(leaf.here)
    for record, names in DECLARED.findall(text):
        found.update([record] if record else names.split())
    return found


def is_generated(module: str) -> bool:
    """The toolchain writes modules of the crate's types and functions, whose paths have their names."""
    return re.search(r"(^|\.)[a-z]", module) is not None


def imports(text: str) -> Iterator[tuple[str, str, str, str]]:
    """What a text imports from this repository: each crate, folder, module and name. A name may be empty."""
    for leaf in (leaf for one in imports_in(text) for leaf in one.leaves):
        match = MODULE.match(leaf.module)
        if match and os.path.isdir(os.path.join(TOP, "crates", match[1])):
            yield match[1], match[2], match[3], leaf.name


def missing_imports(text: str) -> Iterator[str]:
    """What the text imports from this repository that is not there."""
    for crate, folder, module, name in imports(text):
        path = f"crates/{crate}/{folder}/{module.replace('.', '/')}.antt"
        if not os.path.exists(os.path.join(TOP, path)):
            if not is_generated(module):
                yield f"imports Rattle.{crate}.{folder}.{module}, which is not there"
            continue
        names = defined(path)
        if name and names is not None and name not in names:
            yield f"imports {name}, which {path} does not define"


def faults(path: str, crate: str) -> Iterator[str]:
    """What is wrong with one edit."""
    lines = read(path).splitlines()
    file = next((line[len("file: "):] for line in lines if line.startswith("file: ")), None)
    if file is None or not os.path.exists(os.path.join(TOP, "crates", crate, file)):
        yield f"edits {file}, which is not there"
        return
    source = read(f"crates/{crate}/{file}")
    edited = source
    old = [line[len("old: "):] for line in lines if line.startswith("old: ")]
    new = [line[len("new: "):] for line in lines if line.startswith("new:")]
    if not old or len(old) != len(new):
        yield f"has {len(old)} old texts and {len(new)} new ones"
    for before, after in zip(old, new):
        count = source.count(before)
        if count != 1:
            yield f"edits a text that occurs {count} times in {file}: {before.strip()}"
        edited = edited.replace(before, after)
    yield from missing_imports(edited)


def all_edits() -> Iterator[tuple[str, str]]:
    """The edits, each with its crate."""
    for pattern in ("crates/*/must-fail/*.edit", "crates/*/must-fail-beside/*.edit"):
        for path in sorted(glob.glob(os.path.join(TOP, pattern))):
            path = os.path.relpath(path, TOP)
            yield path, path.split(os.sep)[1]


def content_of(path: str) -> bytes:
    """What counts of a file: all of it, but of the imports of definitions only what they import."""
    with open(path, "rb") as file:
        content = file.read()
    return with_leaves(content.decode()).encode() if path.endswith(".antt") else content


def sum_of(crate: str) -> str:
    """The checksum of what a crate's edits beside the gate stand on, by the files' names and what counts of them."""
    found = hashlib.sha256()
    for folder in STOOD_ON:
        for path in sorted(glob.glob(os.path.join(TOP, "crates", crate, folder, "**", "*.*"), recursive=True)):
            content = content_of(path)
            found.update(f"{os.path.relpath(path, TOP)} {len(content)}\n".encode())
            found.update(content)
    return found.hexdigest()


def tried_lines() -> dict[str, list[str]]:
    """For each crate of the list what stands behind its name: the checksum, and how many edits were refused."""
    lines = [line.split() for line in read(TRIED).splitlines()]
    return {crate: rest for crate, *rest in lines}


def note_tried(crate: str, tried: str) -> None:
    """Writes a crate's line of the list anew. The checksum is the one of the crate whose edits were tried."""
    if tried != sum_of(crate):
        sys.exit(f"crates/{crate} changed while its edits were tried: try them again")
    count = len(glob.glob(os.path.join(TOP, "crates", crate, BESIDE, "*.edit")))
    lines = {**tried_lines(), crate: [tried, str(count)]}
    text = "".join(f"{name} {' '.join(rest)}\n" for name, rest in sorted(lines.items()))
    with open(TRIED, "w", encoding="utf-8") as file:
        file.write(text)


def untried() -> Iterator[str]:
    """What is wrong with the list of edits that were tried."""
    lines = tried_lines()
    crates = {path.split(os.sep)[-2] for path in glob.glob(os.path.join(TOP, "crates", "*", BESIDE))}
    for crate in sorted(crates):
        if lines.get(crate, [""])[0] != sum_of(crate):
            yield f"crates/{crate}: its edits were not tried as it stands: checks/wrong_bodies.sh {crate}"
    for crate in sorted(lines.keys() - crates):
        yield f"checks/data/edits-tried: {crate} has no edits beside the gate"


def look() -> int:
    edits = list(all_edits())
    wrong = 0
    for path, crate in edits:
        found = sorted(set(faults(path, crate)))
        for fault in found:
            print(f"{path} {fault}")
        wrong += bool(found)
    for fault in untried():
        print(fault)
        wrong += 1
    print(f"{len(edits)} edits, {wrong} wrong")
    return 1 if wrong else 0


def main() -> int:
    match sys.argv[1:]:
        case []:
            return look()
        case ["--sum", crate]:
            print(sum_of(crate))
        case ["--tried", crate, tried]:
            note_tried(crate, tried)
        case _:
            sys.exit(__doc__)
    return 0


if __name__ == "__main__":
    sys.exit(main())
