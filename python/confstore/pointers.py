"""The steps of JSON Pointers (RFC 6901), and what is at them."""

from __future__ import annotations

import re
from typing import List, Optional, Sequence

from .style import Tree

_INDEX = re.compile(r"0|[1-9][0-9]*")


def steps_of(pointer: str) -> List[str]:
    """The keys and indexes that a pointer leads through."""
    return [step.replace("~1", "/").replace("~0", "~") for step in pointer.split("/")[1:]]


def pointer_of(steps: Sequence[str]) -> str:
    """The pointer that leads through these keys and indexes."""
    return "".join("/" + step.replace("~", "~0").replace("/", "~1") for step in steps)


def index_in(step: str, count: int) -> Optional[int]:
    """The index that a step is, or None if it is none that is less than this count. It may have any number of digits."""
    if not _INDEX.fullmatch(step) or len(step) > len(str(count)):
        return None
    index = int(step)
    return index if index < count else None


def below(tree: Tree, step: str) -> Optional[Tree]:
    """What a step leads to, or None."""
    if isinstance(tree, dict):
        return tree.get(step)
    if isinstance(tree, list) and (index := index_in(step, len(tree))) is not None:
        return tree[index]
    return None


def value_at(tree: Optional[Tree], steps: Sequence[str]) -> Optional[Tree]:
    """What is at these steps, or None."""
    for step in steps:
        tree = None if tree is None else below(tree, step)
    return tree
