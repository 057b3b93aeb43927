"""Pointers of RFC 6901, and what is at them."""

from __future__ import annotations

import re
from typing import List, Optional, Sequence

from ansible_collections.confstore.store.plugins.module_utils.faults import Fault
from ansible_collections.confstore.store.plugins.module_utils.style import Tree

# The step of a pointer that is behind the last element of a list.
BEHIND = "-"

_NAME = re.compile(r"[a-z][a-z0-9_-]{0,63}")
_INDEX = re.compile(r"0|[1-9][0-9]*")


def text_of_step(step: str) -> str:
    """A step as it is written in a pointer."""
    return step.replace("~", "~0").replace("/", "~1")


def pointer_of(steps: Sequence[str]) -> str:
    """The pointer of steps."""
    return "".join(f"/{text_of_step(step)}" for step in steps)


def steps_of(name: str, path: str) -> List[str]:
    """The steps of a pointer. Raises `Fault` where the name or the pointer is none."""
    if not _NAME.fullmatch(name):
        raise Fault("BadName", f"the name {name!r}")
    if path and (not path.startswith("/") or re.search("~(?![01])", path)):
        raise Fault("BadPath", f"the path {path!r} of {name!r}")
    return [step.replace("~1", "/").replace("~0", "~") for step in path.split("/")[1:]]


class Missing(Exception):
    """A step leads to nothing: its place in the pointer, from 0."""

    def __init__(self, step: int) -> None:
        super().__init__(step)
        self.step = step


def child(tree: Tree, step: str, at: int) -> Tree:
    """What a step leads to. Raises `Missing`, or `Fault` for a step into a list that is no index."""
    if isinstance(tree, dict) and step in tree:
        return tree[step]
    if isinstance(tree, list):
        if step != BEHIND and not _INDEX.fullmatch(step):
            raise Fault("NotIndex")
        if step != BEHIND and int(step) < len(tree):
            return tree[int(step)]
    raise Missing(at)


def value_at(tree: Tree, steps: Sequence[str]) -> Tree:
    """What is at a path. Raises `Missing`, or `Fault` for a step into a list that is no index."""
    for at, step in enumerate(steps):
        tree = child(tree, step, at)
    return tree


def found_at(config: Optional[Tree], steps: Sequence[str]) -> Optional[Tree]:
    """What is at a path of a configuration, or None where nothing is."""
    try:
        return None if config is None else value_at(config, steps)
    except (Missing, Fault):
        return None
