"""Trees, and their texts in the one style of docs/STYLE.md, without PyYAML: a host may have none.

A tree is a str, a list of trees, or a dict of str to trees. The writer, `written.py`, is that of the Python package.
"""

from __future__ import annotations

import re
from typing import Dict, List, Tuple

from ansible_collections.confstore.store.plugins.module_utils.faults import Fault
from ansible_collections.confstore.store.plugins.module_utils.written import ESCAPES, NotWritten, Tree, written

__all__ = ["Tree", "depth", "from_text", "same", "to_text"]

_UNESCAPED = {escape[1:]: character for character, escape in ESCAPES.items()}

# What a line of a collection begins with: an element, a key in front of its `:`, or a long key with the `:` below it.
_KEY = r'[A-Za-z][A-Za-z0-9_\-./]*|"(?:[^"\\]|\\.)*"'
_ELEMENT = re.compile(r"-(?: |$)")
_MEMBER = re.compile(rf"({_KEY}):(?: |$)")
_LONG_KEY = re.compile(rf"\? ({_KEY})$")
_LONG_VALUE = re.compile(r":(?: |$)")
_ESCAPE = re.compile(r"\\(x[0-9A-F]{2}|u[0-9A-F]{4}|.)")


def same(tree: Tree, other: Tree) -> bool:
    """Whether two trees are the same, with the order of their keys."""
    if isinstance(tree, dict) and isinstance(other, dict):
        return list(tree) == list(other) and all(same(value, other[key]) for key, value in tree.items())
    if isinstance(tree, list) and isinstance(other, list):
        return len(tree) == len(other) and all(map(same, tree, other))
    return type(tree) is type(other) and tree == other


def depth(tree: Tree) -> int:
    """How deep a tree is: a text has 1, and a collection 1 more than its deepest value."""
    if isinstance(tree, str):
        return 1
    return 1 + max(map(depth, tree.values() if isinstance(tree, dict) else tree), default=0)


def to_text(tree: Tree) -> str:
    """The text of a tree in the one style. Raises `Fault` for what has none."""
    try:
        return written(tree)
    except NotWritten as fault:
        raise Fault(fault.name, fault.about) from None


class _Lines:
    """The lines of a text that is read, and where in them the reader is."""

    def __init__(self, text: str) -> None:
        self.lines = text.split("\n")
        self.lines.pop()
        self.at = 0
        self.column = 0

    def rest(self) -> str:
        """What is left of the line."""
        return self.lines[self.at][self.column :] if self.at < len(self.lines) else ""

    def next(self, column: int) -> None:
        """Goes on at a column of the next line."""
        self.at += 1
        self.column = column

    def is_at(self, column: int) -> bool:
        """Whether something begins at a column of this line: the reader is there, or nothing is before it."""
        line = self.lines[self.at] if self.at < len(self.lines) else ""
        is_first = self.column == column or not line[:column].strip(" ")
        return is_first and len(line) > column and line[column] != " "

    def literal(self, header: str, column: int) -> str:
        """The lines behind a header, which begin at a column."""
        margin, found = " " * column, []
        self.next(0)
        while self.at < len(self.lines) and (not self.rest() or self.rest().startswith(margin)):
            found.append(self.rest()[column:])
            self.next(0)
        return "\n".join(found) + ("" if header == "|-" else "\n")


def _unquoted(written: str) -> str:
    """The text of a word, or of what stands in double quotes."""

    def character(found: "re.Match[str]") -> str:
        escape = found[1]
        if len(escape) == 1 and escape not in _UNESCAPED:
            raise Fault("BadAnswer", "an escape that the one style has not")
        return chr(int(escape[1:], 16)) if len(escape) > 1 else _UNESCAPED[escape]

    return _ESCAPE.sub(character, written[1:-1]) if written.startswith('"') else written


def _read_leaf(lines: _Lines, column: int) -> Tree:
    written = lines.rest()
    if written in ("|", "|-", "|+"):
        return lines.literal(written, column)
    lines.next(0)
    if written in ("[]", "{}"):
        return [] if written == "[]" else {}
    if re.fullmatch(_KEY, written):
        return _unquoted(written)
    raise Fault("BadAnswer", "a line of the answer is not in the one style")


def _read_value(lines: _Lines, column: int) -> Tree:
    """What is behind a key: on its line, or from the next one on."""
    if lines.rest():
        return _read_leaf(lines, column)
    lines.next(column)
    return _read_node(lines, column)


def _read_list(lines: _Lines, column: int) -> Tree:
    items: List[Tree] = []
    while lines.is_at(column) and _ELEMENT.match(lines.lines[lines.at], column):
        lines.column = column + 2
        items.append(_read_node(lines, column + 2))
    return items


def _key_in(lines: _Lines, column: int) -> "Tuple[str, int] | None":
    """The key that stands here, and the column behind it. The reader is on the line of its `:` then."""
    line = lines.lines[lines.at]
    found = _MEMBER.match(line, column)
    if not found:
        found = _LONG_KEY.match(line, column)
        if not found:
            return None
        lines.next(column)
        behind = _LONG_VALUE.match(lines.rest())
        return (_unquoted(found[1]), column + behind.end()) if behind else None
    return _unquoted(found[1]), found.end()


def _read_mapping(lines: _Lines, column: int) -> Tree:
    members: Dict[str, Tree] = {}
    while lines.is_at(column) and (found := _key_in(lines, column)):
        key, lines.column = found
        members[key] = _read_value(lines, column + 2)
    return members


def _read_node(lines: _Lines, column: int) -> Tree:
    """The tree that begins where the reader is, whose further lines begin at a column."""
    rest = lines.rest()
    if _ELEMENT.match(rest):
        return _read_list(lines, column)
    if _MEMBER.match(rest) or _LONG_KEY.match(rest):
        return _read_mapping(lines, column)
    return _read_leaf(lines, column)


def from_text(text: str) -> Tree:
    """The tree of a text in the one style. Raises `Fault` for a text that is not in it."""
    lines = _Lines(text)
    is_literal = lines.rest() in ("|", "|-", "|+")
    tree = _read_node(lines, 2 if is_literal else 0)
    if lines.at < len(lines.lines):
        raise Fault("BadAnswer", "the answer is not in the one style")
    return tree
