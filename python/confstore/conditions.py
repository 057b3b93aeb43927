"""Conditions of commands: what has to hold of a store for a command to be performed.

They are looked at in order, on the store as it is right before the command. Where one does not hold, the command is
refused by `Unmet`.
"""

from __future__ import annotations

import operator
from dataclasses import dataclass
from typing import Dict, List, Optional, Sequence, Union

from .commands import delete_of, put_of
from .mapping import MISSING
from .style import Tree


@dataclass(frozen=True)
class Test:
    """Holds where the value at a path of a configuration is this tree. The order of keys counts."""

    name: str
    path: str
    value: Tree

    @property
    def tree(self) -> Tree:
        """The condition as a session takes it."""
        return {"test": self.name, "path": self.path, "value": self.value}


@dataclass(frozen=True)
class Absent:
    """Holds where nothing is at a path of a configuration; with the empty path, where no configuration has the name."""

    name: str
    path: str = ""

    @property
    def tree(self) -> Tree:
        """The condition as a session takes it."""
        return {"absent": self.name, "path": self.path} if self.path else {"absent": self.name}


@dataclass(frozen=True)
class Count:
    """Holds where the store has accepted exactly so many commands."""

    number: int

    @property
    def tree(self) -> Tree:
        """The condition as a session takes it."""
        return {"count": format(operator.index(self.number), "d")}


Condition = Union[Test, Absent, Count]

# A command that is refused by `BadName` where conditions are known, and by `BadCommand` where they are not.
PROBE: Tree = {"if": [{"absent": "-"}], "delete": "a", "path": "/"}


def at_place(
    name: str, path: str, if_value: Tree = MISSING, if_absent: bool = False, if_count: Optional[int] = None
) -> List[Condition]:
    """The conditions of a call that changes what is at a path of a configuration."""
    conditions: List[Condition] = []
    if if_value is not MISSING:
        conditions.append(Test(name, path, if_value))
    if if_absent:
        conditions.append(Absent(name, path))
    if if_count is not None:
        conditions.append(Count(if_count))
    return conditions


def under(conditions: Sequence[Condition], command: Dict[str, Tree]) -> Dict[str, Tree]:
    """A command that is performed only where all of the conditions hold."""
    return {"if": [condition.tree for condition in conditions], **command} if conditions else command


def move_of(word: str, source: str, target: str, tree: Tree) -> Dict[str, Tree]:
    """The command of a `copy` or a `rename` of a configuration that is this tree. One that gets its own name is put where
    it is, and so keeps its place among the names."""
    put = put_of(target, tree)
    return put if word == "copy" or source == target else {"batch": [delete_of(source, ""), put]}
