"""What the bytes of a store file mean, by docs/STORE.md, with libyaml as the reader of its pieces. It needs PyYAML.

libyaml reads YAML 1.1, and it reads anchors and tags, which the profile refuses. Its limits are not those of a store.
So it may read a piece that the program refuses, or the other way round; where both read it, the trees are the same.
"""

from __future__ import annotations

import os
import re
import sys
from collections.abc import Callable, Sequence
from typing import Any

import yaml

from .store_runs import TOP
from .trees import NAME, NUMBER, Configs, Refused, Tree, as_json, edited, steps_of

sys.path.insert(0, os.path.join(TOP, "python"))
from confstore.style import to_text  # noqa: E402

# PyYAML's function has no types.
compose_all: Callable[..., Any] = yaml.compose_all

CLOSING = re.compile(rb"^\.\.\.\n", re.MULTILINE)

# The characters x85, x2028 and x2029 are breaks in YAML 1.1, and none in YAML 1.2.
OLD_BREAKS = re.compile(rb"\xc2\x85|\xe2\x80[\xa8\xa9]")

# The names of the formats that a base may have. The second is written in a store without abouts, and the third once a
# command with an about was accepted. In the third a base begins so, or the next about renews the file.
FORMATS = ("confstore-1", "confstore-2", "confstore-3")
THIRD = b"---\nstore: confstore-3\n"

GREATEST = 2**64 - 1

# The most pairs of an about, the most characters of a key, and the most bytes in the one style.
PAIRS_OF_ABOUT, KEY_OF_ABOUT, BYTES_OF_ABOUT = 16, 64, 4_096


class NotAStore(Exception):
    """There is no piece, or the first one is no base."""


class Damaged(Exception):
    """A piece after the base is no record, has the wrong number, or is refused, and no crash left that."""


def pieces_of(content: bytes) -> tuple[list[bytes], bytes]:
    """The pieces, each through its closing line, and the bytes after the last one."""
    pieces: list[bytes] = []
    start = 0
    for closing in CLOSING.finditer(content):
        pieces.append(content[start : closing.end()])
        start = closing.end()
    return pieces, content[start:]


def tree_of(node: Any) -> Tree:
    """The tree of a node of PyYAML."""
    if isinstance(node, yaml.ScalarNode):
        return str(node.value)
    if isinstance(node, yaml.SequenceNode):
        return [tree_of(value) for value in node.value]
    if not all(isinstance(key, yaml.ScalarNode) for key, _ in node.value):
        raise Refused
    pairs = tuple((key.value, tree_of(value)) for key, value in node.value)
    if len({key for key, _ in pairs}) != len(pairs):
        raise Refused
    return pairs


def read_tree(piece: bytes) -> Tree:
    """The tree of a piece."""
    try:
        documents = list(compose_all(piece, yaml.CBaseLoader))
    except (yaml.YAMLError, UnicodeError) as error:
        raise Refused from error
    if len(documents) != 1 or documents[0] is None:
        raise Refused
    return tree_of(documents[0])


def read_mapping(piece: bytes) -> tuple[tuple[str, ...], tuple[Tree, ...]]:
    """The keys and the values of a piece that is a mapping."""
    tree = read_tree(piece)
    if not isinstance(tree, tuple) or not tree:
        raise Refused
    return keys_and_values(tree)


def keys_and_values(pairs: tuple[tuple[str, Tree], ...]) -> tuple[tuple[str, ...], tuple[Tree, ...]]:
    return tuple(key for key, _ in pairs), tuple(value for _, value in pairs)


def number_of(text: Tree) -> int:
    if not isinstance(text, str) or not NUMBER.fullmatch(text) or int(text) > GREATEST:
        raise Refused
    return int(text)


def read_base(piece: bytes) -> tuple[Configs, int]:
    """The configurations of a base, in order, and its count."""
    keys, values = read_mapping(piece)
    if keys != ("store", "at", "configs") or values[0] not in FORMATS or not isinstance(values[2], tuple):
        raise Refused
    if not all(NAME.fullmatch(name) for name, _ in values[2]):
        raise Refused
    return dict(values[2]), number_of(values[1])


def fault_of_about(tree: Tree) -> str | None:
    """The refusal of a command with this about, by its first fault: of a pair, and then of the whole."""
    if not isinstance(tree, tuple):
        return "BadCommand"
    for key, value in tree:
        if len(key) > KEY_OF_ABOUT:
            return "AboutLarge"
        if not key or not isinstance(value, str):
            return "BadCommand"
    if not tree or len(dict(tree)) < len(tree):
        return "BadCommand"
    is_large = len(tree) > PAIRS_OF_ABOUT or len(to_text(as_json(tree)).encode()) > BYTES_OF_ABOUT
    return "AboutLarge" if is_large else None


def without_about(keys: tuple[str, ...], values: Sequence[Tree]) -> tuple[tuple[str, ...], Sequence[Tree]]:
    """The keys and the values of a command before its about, if it has one."""
    if keys[-1:] != ("about",) or fault_of_about(values[-1]):
        return keys, values
    return keys[:-1], values[:-1]


def perform(configs: Configs, keys: tuple[str, ...], values: Sequence[Tree]) -> Configs:
    """The configurations after a record's command: an edit, or a batch of at least one, and perhaps an about."""
    keys, values = without_about(keys, values)
    if not values:
        raise Refused
    if keys != ("batch",):
        return edited(configs, keys, values)
    if not isinstance(values[0], list) or not values[0]:
        raise Refused
    for edit in values[0]:
        if not isinstance(edit, tuple) or not edit:
            raise Refused
        configs = edited(configs, *keys_and_values(edit))
    return configs


def is_edit(keys: tuple[str, ...], values: Sequence[Tree]) -> bool:
    """Whether these are the members of an edit, whatever there is to be edited."""
    if not values or not isinstance(values[0], str) or not NAME.fullmatch(values[0]):
        return False
    if keys == ("import", "tree"):
        return True
    return keys in (("set", "path", "value"), ("delete", "path")) and isinstance(values[1], str) and is_pointer(values[1])


def is_pointer(path: str) -> bool:
    try:
        steps_of(path)
    except Refused:
        return False
    return True


def is_record(piece: bytes) -> bool:
    """Whether a piece is a record, whatever its number."""
    try:
        keys, values = read_mapping(piece)
        number_of(values[0])
    except Refused:
        return False
    keys, values = without_about(keys, values)
    if keys[0] != "at" or keys[1:] != ("batch",):
        return keys[0] == "at" and is_edit(keys[1:], values[1:])
    edits = values[1]
    return isinstance(edits, list) and all(
        isinstance(edit, tuple) and edit != () and is_edit(*keys_and_values(edit)) for edit in edits
    )


def may_be_left(bad: bytes, behind: Sequence[bytes], is_noted: bool) -> bool:
    """Whether a crash may have left a piece that is not the next record: it has a zero, and no record is behind it, or
    it is noted that several appends may have waited for one sync.
    """
    return b"\0" in bad and (is_noted or not any(is_record(piece) for piece in behind))


def meaning(content: bytes, is_noted: bool = False) -> tuple[Configs, int, int]:
    """The configurations and the count that a store file means, and how many bytes an opening drops."""
    pieces, rest = pieces_of(content)
    try:
        configs, count = read_base(pieces[0])
    except (IndexError, Refused) as error:
        raise NotAStore from error
    for at, piece in enumerate(pieces[1:], 1):
        try:
            keys, values = read_mapping(piece)
            if keys[0] != "at" or len(values) < 2 or number_of(values[0]) != count + 1:
                raise Refused
            configs, count = perform(configs, keys[1:], values[1:]), count + 1
        except Refused as error:
            if may_be_left(piece, pieces[at + 1 :], is_noted):
                return configs, count, len(b"".join(pieces[at:])) + len(rest)
            raise Damaged from error
    return configs, count, len(rest)
