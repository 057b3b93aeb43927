"""Trees, and what edits make of the configurations of a store, by docs/SESSION.md."""

from __future__ import annotations

import json
import re
from collections.abc import Callable, Sequence
from typing import Any, Union

# A text, a list of trees, or a tuple of pairs of a key and a tree.
Tree = Union[str, "list[Tree]", "tuple[tuple[str, Tree], ...]"]
Configs = dict[str, Tree]
# A change of a collection, at the last step of a path.
Change = Callable[[Tree, str], Tree]
# A command, an edit or a condition as JSON, which is YAML too.
Document = dict[str, Any]

NUMBER = re.compile(r"0|[1-9][0-9]*")
NAME = re.compile(r"[a-z][a-z0-9_-]{0,63}")


class Refused(Exception):
    """A command is refused, or a text has no tree."""


def steps_of(path: Tree) -> list[str]:
    """The steps of a pointer."""
    if not isinstance(path, str) or (path and path[0] != "/") or re.search("~(?![01])", path):
        raise Refused
    return [step.replace("~1", "/").replace("~0", "~") for step in path.split("/")[1:]]


def index_of(tree: list[Tree], step: str) -> int:
    if not NUMBER.fullmatch(step) or int(step) >= len(tree):
        raise Refused
    return int(step)


def with_change(tree: Tree, steps: list[str], change: Change) -> Tree:
    """The tree with the value at a path changed: `change` takes the collection there and the last step."""
    if len(steps) == 1:
        return change(tree, steps[0])
    if isinstance(tree, list):
        at = index_of(tree, steps[0])
        return tree[:at] + [with_change(tree[at], steps[1:], change)] + tree[at + 1 :]
    if not isinstance(tree, tuple) or steps[0] not in dict(tree):
        raise Refused
    return tuple((key, with_change(value, steps[1:], change) if key == steps[0] else value) for key, value in tree)


def setting(value: Tree) -> Change:
    """A change that sets a value."""

    def change(tree: Tree, step: str) -> Tree:
        if isinstance(tree, list):
            at = len(tree) if step == "-" else index_of(tree, step)
            return tree[:at] + [value] + tree[at + 1 :]
        if not isinstance(tree, tuple):
            raise Refused
        if step in dict(tree):
            return tuple((key, value if key == step else old) for key, old in tree)
        return tree + ((step, value),)

    return change


def deletion(tree: Tree, step: str) -> Tree:
    """The change that takes a value out."""
    if isinstance(tree, list):
        at = index_of(tree, step)
        return tree[:at] + tree[at + 1 :]
    if not isinstance(tree, tuple) or step not in dict(tree):
        raise Refused
    return tuple(pair for pair in tree if pair[0] != step)


def edited(configs: Configs, keys: tuple[str, ...], values: Sequence[Tree]) -> Configs:
    """The configurations after an edit."""
    name = values[0]
    if not isinstance(name, str) or not NAME.fullmatch(name):
        raise Refused
    if keys == ("import", "tree"):
        return {**configs, name: values[1]}
    steps = steps_of(values[1]) if len(values) > 1 else None
    if keys not in (("set", "path", "value"), ("delete", "path")) or name not in configs:
        raise Refused
    if keys[0] == "delete" and not steps:
        return {other: tree for other, tree in configs.items() if other != name}
    changed = setting(values[2]) if keys[0] == "set" else deletion
    return {**configs, name: with_change(configs[name], steps, changed) if steps else values[2]}


def as_tree(value: Any) -> Tree:
    """A value of JSON as a tree of the model."""
    if isinstance(value, dict):
        return tuple((key, as_tree(inner)) for key, inner in value.items())
    return [as_tree(inner) for inner in value] if isinstance(value, list) else str(value)


def as_json(tree: Tree) -> Any:
    """A tree of the model as a value of JSON."""
    if isinstance(tree, tuple):
        return {key: as_json(inner) for key, inner in tree}
    return [as_json(inner) for inner in tree] if isinstance(tree, list) else tree


def value_at(configs: Configs, name: str, path: str) -> Tree | None:
    """The value at a place; `None` if there is none. Raises Refused for a path that is no pointer."""
    steps, tree = steps_of(path), configs.get(name)
    for step in steps:
        if isinstance(tree, list):
            try:
                tree = tree[index_of(tree, step)]
            except Refused:
                return None
        else:
            tree = dict(tree).get(step) if isinstance(tree, tuple) else None
    return tree


def performed(configs: Configs, edits: Sequence[Document]) -> Configs:
    """What edits make of the configurations. Raises Refused."""
    if not edits:
        raise Refused
    for edit in edits:
        keys = tuple("tree" if key == "text" else key for key in edit)
        values = [as_tree(json.loads(value) if key == "text" else value) for key, value in edit.items()]
        configs = edited(configs, keys, values)
    return configs
