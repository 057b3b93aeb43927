"""The texts of trees in the one style of docs/STYLE.md. `trees.py` reads them.

A tree is a str, a list of trees, or a dict of str to trees. What a session is sent and what it answers is in this
style, so a text of it is exactly as long as the store counts it.
"""

from __future__ import annotations

import re
from typing import Any

from .faults import NotATree, NotText, TooDeep, Unwritten
from .written import SPELLED, NotWritten, Scalar, Tree, quoted, scalar, text_of, written

__all__ = ["SPELLED", "Tree", "document", "quoted", "text_of", "to_plain_text", "to_text"]

# What YAML's core schema (1.2.2, 10.3.2) reads as null, a truth value, an integer or a float.
_TYPED = re.compile(
    r"null|Null|NULL|~|true|True|TRUE|false|False|FALSE|[-+]?\.(inf|Inf|INF)|\.(nan|NaN|NAN)|0o[0-7]+|0x[0-9a-fA-F]+"
    r"|[-+]?(\.[0-9]+|[0-9]+(\.[0-9]*)?)([eE][-+]?[0-9]+)?"
)

_SURROGATE = re.compile("[\ud800-\udfff]")


def to_text(tree: Tree) -> str:
    """The text of a tree in the one style, byte by byte what `confstore format` prints for it.

    Raises `NotATree` for what is no str, list or dict (a number has to be written as a str), `NotText` for a lone
    surrogate, and `TooDeep` for a tree more than 200 deep, as one that contains itself.
    """
    return _written(tree, scalar)


def _written(tree: Tree, write: Scalar) -> str:
    """The text of a tree whose texts are written so as values."""
    try:
        return written(tree, write)
    except NotWritten as fault:
        if fault.name == "TooDeep":
            raise TooDeep(fault.name, fault.about) from None
        raise (NotText if fault.name == "NotText" else NotATree)(fault.about, _path_to_fault(tree)) from None


def _path_to_fault(tree: object) -> str | None:
    """The path to the first part of a tree, in the order of its text, that has none; None if all of them have one."""
    if isinstance(tree, str):
        return "" if _SURROGATE.search(tree) else None
    if isinstance(tree, list):
        parts = [(str(index), item) for index, item in enumerate(tree)]
    elif isinstance(tree, dict) and all(isinstance(key, str) for key in tree):
        parts = [(text_of(key), value) for key, value in tree.items()]
        if len({key for key, _ in parts}) < len(parts):
            return ""
    else:
        return ""
    for step, part in parts:
        if isinstance(tree, dict) and _SURROGATE.search(step):
            return ""
        inner = _path_to_fault(part)
        if inner is not None:
            return "/" + step.replace("~", "~0").replace("/", "~1") + inner
    return None


def to_plain_text(tree: Tree) -> str:
    """The text of a tree for readers with types, byte by byte what `confstore export --plain` prints for it: the one
    style, but values such as `80` and `true` stand without quotes. Raises as `to_text` does."""
    return _written(tree, _plain_scalar)


def _plain_scalar(text: str, margin: str) -> str:
    return text if _TYPED.fullmatch(text) else scalar(text, margin)


def document(command: Tree) -> bytes:
    """The document of a command, as a session takes it: its text in the one style, between `---` and a closing line.

    Raises as `to_text` does, by the name and the path of the command, and by the path within its tree.
    """
    try:
        return f"---\n{to_text(command)}...\n".encode()
    except Unwritten as fault:
        _say_where(fault, command)
        raise


def _say_where(fault: Unwritten, command: Any) -> None:
    """Has a fault of a command say which of its trees is at fault."""
    steps = (fault.within or "").split("/")[1:]
    while steps[:1] in (["batch"], ["if"]) and len(steps) > 1:
        command, steps = command[steps[0]][int(steps[1])], steps[2:]
    if not isinstance(command, dict) or not command:
        return
    name, path = next(iter(command.values())), command.get("path")
    fault.name = name if isinstance(name, str) else None
    fault.path = path if isinstance(path, str) else None
    fault.within = "".join(f"/{step}" for step in steps[1:]) if steps[:1] == ["value"] else None
