"""How the one style of docs/STYLE.md is written. This stands by itself: the Ansible collection has a copy of this file,
since a host may have neither this package nor PyYAML. `checks/names.py` compares the two.

A tree is a str, a list of trees, or a dict of str to trees.
"""

from __future__ import annotations

import re
from typing import Callable, Dict, Iterable, List, Tuple, Union

Tree = Union[str, List["Tree"], Dict[str, "Tree"]]

# Writes a text as a value, whose further lines begin with a margin.
Scalar = Callable[[str, str], str]

# How deep a tree is looked at. A store keeps less; what is deeper may be endless.
DEEPEST = 200

# How long a plain word may be, and how long a key may be as written to stand before its `:` on one line.
LONGEST_WORD = 128
LONGEST_KEY = 1_000

_WORD = re.compile(rf"[A-Za-z][A-Za-z0-9_\-./]{{0,{LONGEST_WORD - 1}}}")
_NO_WORDS = frozenset("null true false yes no on off y n".split())

# What has to be spelled in double quotes: all that is not shown, and the two signs that are spelled there.
_SHOWN = "\x20-\x7e\xa0-\u2027\u202a-\ud7ff\ue000-\ufefe\uff00-\ufffd\U00010000-\U0010ffff"
SPELLED = re.compile(rf'[^{_SHOWN}]|["\\]')
_LINES = re.compile(rf"[{_SHOWN}\n]*")
_SURROGATE = re.compile("[\ud800-\udfff]")
ESCAPES = {
    "\0": "\\0", "\a": "\\a", "\b": "\\b", "\t": "\\t", "\n": "\\n", "\v": "\\v", "\f": "\\f", "\r": "\\r",
    "\x1b": "\\e", '"': '\\"', "\\": "\\\\",
}  # fmt: skip


class NotWritten(Exception):
    """Why a tree has no text: the name of the fault, and what it is about."""

    def __init__(self, name: str, about: str) -> None:
        super().__init__(name, about)
        self.name, self.about = name, about


def text_of(text: str) -> str:
    """A text as a str of no other class: one of its own, as of an `Enum`, may write itself otherwise."""
    return str.__str__(text)


def _escape(found: "re.Match[str]") -> str:
    character = found.group()
    if character in ESCAPES:
        return ESCAPES[character]
    code = ord(character)
    return f"\\x{code:02X}" if code < 0x100 else f"\\u{code:04X}"


def quoted(text: str) -> str:
    """A text in double quotes, as the one style has it there."""
    return f'"{SPELLED.sub(_escape, text)}"'


def _word_or_quoted(text: str) -> str:
    if _WORD.fullmatch(text) and text.lower() not in _NO_WORDS:
        return text
    found = _SURROGATE.search(text)
    if found:
        raise NotWritten("NotText", f"character {found.start()} is a lone surrogate, which no YAML can hold")
    return quoted(text)


def scalar(text: str, margin: str = "  ") -> str:
    """A text as a value in the one style: a word, lines after a header, or in double quotes. No line feed is at the end
    unless the value's lines end in one. Raises `NotWritten` for a lone surrogate."""
    text = text_of(text)
    if "\n" not in text or text[0] in " \n" or not _LINES.fullmatch(text):
        return _word_or_quoted(text)
    body = text.rstrip("\n")
    ends = len(text) - len(body)
    lines = [margin + line if line else "" for line in body.split("\n")]
    return "\n".join([("|-", "|", "|+")[min(ends, 2)], *lines, *[""] * (ends - 1)])


def _pairs(tree: Dict[str, Tree]) -> Iterable[Tuple[str, Tree]]:
    """The keys, as texts of no other class, with their values."""
    if {*map(type, tree)} == {str}:
        return tree.items()
    for key in tree:
        if not isinstance(key, str):
            raise NotWritten("NotATree", f"a key is a str, not {type(key).__name__}")
    texts = [text_of(key) for key in tree]
    for at, text in enumerate(texts):
        if text in texts[:at]:
            raise NotWritten("NotATree", f"two keys have the same text: {text!r}")
    return zip(texts, tree.values())


def _key(key: str, margin: str) -> str:
    written = _word_or_quoted(key)
    return f"{written}:" if len(written) <= LONGEST_KEY else f"? {written}\n{margin}:"


def _node(tree: Tree, margin: str, depth: int, write: Scalar) -> str:
    """A tree, whose first line stands where it is put, and whose further lines have this margin."""
    if isinstance(tree, str):
        return write(tree, margin)
    if depth >= DEEPEST and tree:
        raise NotWritten("TooDeep", f"nested more than {DEEPEST} deep")
    inner, parts = margin + "  ", []
    if isinstance(tree, list):
        for item in tree:
            parts.append(f"- {_node(item, inner, depth + 1, write)}")
    elif isinstance(tree, dict):
        for key, value in _pairs(tree):
            gap = " " if isinstance(value, str) or not value else f"\n{inner}"
            parts.append(_key(key, margin) + gap + _node(value, inner, depth + 1, write))
    else:
        raise NotWritten("NotATree", f"a tree is a str, a list or a dict, not {type(tree).__name__}")
    return f"\n{margin}".join(parts) if parts else "[]" if isinstance(tree, list) else "{}"


def written(tree: Tree, write: Scalar = scalar) -> str:
    """The text of a tree in the one style, whose texts are written so as values. Raises `NotWritten` for what is none:
    another type or two keys with one text (`NotATree`), a lone surrogate (`NotText`), too many levels (`TooDeep`)."""
    return _node(tree, "  " if isinstance(tree, str) else "", 0, write) + "\n"
