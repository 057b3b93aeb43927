"""Values that are left out of what is shown: those at JSON Pointers of any configuration, and below them.

An index is the one that a command names, and the step `-` is taken for every index: so hide a list whole.
"""

from __future__ import annotations

from typing import List, Sequence

from .pointers import pointer_of
from .style import Tree

#: The paths to what is hidden: the steps of each from here on.
Hidden = List[List[str]]


def below(step: str, hidden: Hidden) -> Hidden:
    """The paths from where a step leads. `-` may lead to each element."""
    return [path[1:] for path in hidden if path and step in (path[0], "-")]


def shown(tree: Tree, hidden: Hidden, mark: str) -> Tree:
    """A tree with the mark in the place of what is hidden."""
    if [] in hidden:
        return mark
    if isinstance(tree, list):
        return [shown(item, below(str(index), hidden), mark) for index, item in enumerate(tree)]
    if isinstance(tree, dict):
        return {key: shown(value, below(key, hidden), mark) for key, value in tree.items()}
    return tree


class Hiding:
    """What is hidden of the value at a place: all of it, or what these paths lead to. An edit below a hidden place is
    shown as one of the place itself, which is `steps`."""

    def __init__(self, steps: Sequence[str], hidden: Hidden) -> None:
        self.steps: List[str] = []
        for step in steps:
            if [] in hidden:
                break
            self.steps.append(step)
            hidden = below(step, hidden)
        self.hidden = hidden

    @property
    def is_whole(self) -> bool:
        """Whether nothing of the value is shown."""
        return [] in self.hidden

    @property
    def path(self) -> str:
        """The pointer to the place that is shown."""
        return pointer_of(self.steps)
