"""What files of definitions and lemmas import, and code for its contracts: lines with `use`, whose paths may be nested.

`use Rattle.{std.proofs.Common.{ap, sym}, conf_tools.specs.Worlds.Around as Near}` imports three names of two modules. A
path without braces leads to a module itself, as `use Rattle.conf_disk.proofs.disk.open.Goals as goal`.
"""

from __future__ import annotations

import re
from collections.abc import Iterator
from dataclasses import dataclass

# What may stand before `use`, and a path with a dot: the paths of Rust's own `use` have none.
USE = re.compile(r"(\s*(?:(?:unfoldable|pub|ghost) )*)use (\w+\..*)")


@dataclass(frozen=True, order=True)
class Leaf:
    """One thing that is imported: a name of a module, or the module itself if there is no name; and what stands behind
    `as`, if anything does."""

    module: str
    name: str
    alias: str

    @property
    def here(self) -> str:
        """The name that it has in the file. A module that is imported without `as` has none."""
        return self.alias or self.name

    def __str__(self) -> str:
        path = f"{self.module}.{{{self.name}}}" if self.name else self.module
        return f"{path} as {self.alias}" if self.alias else path


@dataclass(frozen=True)
class Import:
    """An import: the numbers of its first line and of the one behind it, from 0, what stands before `use`, and what it
    imports."""

    first: int
    end: int
    before: str
    leaves: tuple[Leaf, ...]

    @property
    def is_public(self) -> bool:
        return "pub" in self.before.split()


def entries_of(text: str) -> Iterator[str]:
    """The entries of a list: what stands between the commas that no braces are around."""
    depth = first = 0
    for at, letter in enumerate([*text, ","]):
        depth += (letter == "{") - (letter == "}")
        if letter == "," and depth == 0:
            if entry := text[first:at].strip():
                yield entry
            first = at + 1


def leaves_of(path: str, before: str = "") -> Iterator[Leaf]:
    """What a path imports, behind the segments of the braces that are around it."""
    segments, brace, entries = path.partition("{")
    if brace:
        for entry in entries_of(entries.rstrip().removesuffix("}")):
            yield from leaves_of(entry, before + segments)
        return
    whole, _, alias = path.partition(" as ")
    module, _, name = (before + whole.strip()).rpartition(".")
    yield Leaf(module, name, alias.strip()) if before else Leaf(whole.strip(), "", alias.strip())


def imports_in(text: str) -> Iterator[Import]:
    """The imports of a file, in its order. One may stand on several lines, and in code several on one, each with a `;`
    behind it. A comment behind an import is none of it."""
    lines = [line.partition(" -- ")[0].rstrip() for line in text.split("\n")]
    behind = 0
    for first, line in enumerate(lines):
        if first < behind or not USE.match(line):
            continue
        behind = first + 1
        while line.count("{") > line.count("}") and behind < len(lines):
            line, behind = f"{line} {lines[behind].strip()}", behind + 1
        for match in map(USE.fullmatch, line.split(";")):
            if match:
                yield Import(first, behind, match[1], tuple(leaves_of(match[2])))


def with_leaves(text: str) -> str:
    """A text with a line for each thing that it imports in the place of its imports: those on lines that follow each
    other in order, and once. How imports are laid out has no part in it."""
    found: list[str] = []
    run: set[str] = set()
    lines = text.split("\n")
    behind = 0
    for one in imports_in(text):
        if one.first > behind:
            found += [*sorted(run), *lines[behind : one.first]]
            run = set()
        run.update(f"{one.before}use {leaf}" for leaf in one.leaves)
        behind = one.end
    return "\n".join([*found, *sorted(run), *lines[behind:]])
