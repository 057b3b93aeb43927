"""Reads JSON5 (https://spec.json5.org), and so JSON with comments. A value that is no text keeps its spelling."""

from __future__ import annotations

import re
from typing import Dict, List

from .foreign import Cursor, Unread, key_twice
from .style import Tree

# How deep collections may be nested here. A store keeps less.
DEEPEST = 150

_SPACE = re.compile(r"(?:[\s\ufeff]|//[^\n\r\u2028\u2029]*|/\*(?:[^*]|\*(?!/))*\*/)*")
_IDENTIFIER = re.compile(r"(?:[^\W\d]|\$)(?:\w|[$\u200c\u200d])*")
_NUMBER = re.compile(
    r"[+-]?(?:0[xX][0-9a-fA-F]+|(?:(?:0|[1-9][0-9]*)(?:\.[0-9]*)?|\.[0-9]+)(?:[eE][+-]?[0-9]+)?|Infinity|NaN)"
)
_LITERAL = re.compile(r"true|false|null")
_STRING = re.compile(r"'((?:[^'\\\n\r]|\\(?:\r\n|[\s\S]))*)'" r'|"((?:[^"\\\n\r]|\\(?:\r\n|[\s\S]))*)"')
_ESCAPE = re.compile(r"\\(?:u([0-9a-fA-F]{4})|x([0-9a-fA-F]{2})|(\r\n|[\s\S]))")
_LETTERS = {
    "b": "\b", "f": "\f", "n": "\n", "r": "\r", "t": "\t", "v": "\v", "0": "\0",
    "\n": "", "\r": "", "\r\n": "", "\u2028": "", "\u2029": "",
}  # fmt: skip
_FOLLOWED = re.compile(r"\w|\$")


class _Reader:
    """Reads the value that a text has."""

    def __init__(self, text: str) -> None:
        self._cursor = Cursor(text)

    def whole(self) -> Tree:
        tree = self._value(0)
        self._cursor.taken(_SPACE)
        if not self._cursor.is_at_end:
            raise self._cursor.fault("more stands behind the value")
        return tree

    def _value(self, depth: int) -> Tree:
        cursor = self._cursor
        cursor.taken(_SPACE)
        if depth > DEEPEST:
            raise cursor.fault("collections are nested too deep", name="TooDeep")
        if cursor.takes("{"):
            return self._mapping(depth)
        if cursor.takes("["):
            return self._list(depth)
        at, string = cursor.at, cursor.taken(_STRING)
        if string:
            return self._text(string, at)
        found = cursor.taken(_NUMBER) or cursor.taken(_LITERAL)
        if found is None or _FOLLOWED.match(cursor.text, cursor.at):
            raise cursor.fault("here stands no value of JSON5", at)
        return found[0]

    def _list(self, depth: int) -> Tree:
        items: List[Tree] = []
        while not self._ends("]"):
            items.append(self._value(depth + 1))
            self._need_mark("]")
        return items

    def _mapping(self, depth: int) -> Tree:
        pairs: Dict[str, Tree] = {}
        while not self._ends("}"):
            at = self._cursor.at
            key = self._key()
            if key in pairs:
                raise key_twice(self._cursor, key, at)
            self._cursor.taken(_SPACE)
            if not self._cursor.takes(":"):
                raise self._cursor.fault("a `:` is missing behind the key")
            pairs[key] = self._value(depth + 1)
            self._need_mark("}")
        return pairs

    def _ends(self, end: str) -> bool:
        self._cursor.taken(_SPACE)
        return self._cursor.takes(end)

    def _need_mark(self, end: str) -> None:
        """Takes the comma behind a part, unless the end comes next."""
        self._cursor.taken(_SPACE)
        if not self._cursor.takes(",") and not self._cursor.text.startswith(end, self._cursor.at):
            raise self._cursor.fault(f"a `,` or a `{end}` is missing")

    def _key(self) -> str:
        at, string = self._cursor.at, self._cursor.taken(_STRING)
        if string:
            return self._text(string, at)
        found = self._cursor.taken(_IDENTIFIER)
        if found is None:
            raise self._cursor.fault("here stands no key: put it into quotes")
        return found[0]

    def _text(self, string: "re.Match[str]", at: int) -> str:
        written = string[1] if string[1] is not None else string[2]

        def sign(found: "re.Match[str]") -> str:
            if found[1] or found[2]:
                return chr(int(found[1] or found[2], 16))
            if found[3] in "xu123456789":
                raise self._cursor.fault(f"there is no escape \\{found[3]} like this", at + 1 + found.start())
            return _LETTERS.get(found[3], found[3])

        text = _ESCAPE.sub(sign, written)
        try:
            return text.encode("utf-16", "surrogatepass").decode("utf-16")
        except UnicodeDecodeError:
            raise self._cursor.fault("a \\u is half a character", at, "NotText") from None


def read_json5(text: str) -> Tree:
    """The tree of a JSON5 text. Raises `Unread`."""
    try:
        return _Reader(text).whole()
    except RecursionError:
        raise Unread("TooDeep", "collections are nested too deep") from None
