"""Reads texts of lines with a key and a value each: `ini`, `env` and `properties`.

What its readers take in different ways is refused here, with what to write instead. Each value is a text as it stands.
"""

from __future__ import annotations

import configparser
import re
from typing import Callable, Dict, Optional

from .foreign import Cursor, Unread, key_twice
from .style import Tree

# ---- ini

# No section of a text is taken for one whose keys are those of all others.
_NO_SECTION = "\n"


def read_ini(text: str) -> Tree:
    """The tree of an INI text: a mapping of sections to mappings, and a key without a value has the empty text. Raises
    `Unread`."""
    parser = configparser.RawConfigParser(allow_no_value=True, default_section=_NO_SECTION)
    parser.optionxform = str  # type: ignore[assignment]
    try:
        parser.read_string(text)
    except (configparser.DuplicateOptionError, configparser.DuplicateSectionError) as error:
        key = error.option if isinstance(error, configparser.DuplicateOptionError) else error.section
        raise Unread("KeyTwice", f'"{key}" is there already', error.lineno or 0, 1) from None
    except configparser.MissingSectionHeaderError as error:
        detail = "a key stands before the first [section]; `--from properties` reads keys alone"
        raise Unread("Syntax", detail, error.lineno, 1) from None
    except configparser.ParsingError as error:
        raise Unread("Syntax", "a line is neither a [section] nor a key", error.errors[0][0], 1) from None
    except configparser.Error as error:
        raise Unread("Syntax", str(error).replace("\n", " ")) from None
    return {name: {key: value or "" for key, value in parser.items(name)} for name in parser.sections()}


# ---- env

_BETWEEN = re.compile(r"(?:[ \t]*(?:#[^\n]*)?\n)*[ \t]*(?:#[^\n]*)?")
_NAME = re.compile(r"(?:export[ \t]+)?([A-Za-z_][A-Za-z0-9_.]*)=")
_SINGLE = re.compile(r"'([^']*)'")
_DOUBLE = re.compile(r'"((?:[^"\\]|\\.)*)"', re.DOTALL)
_BARE = re.compile(r"(?:[^\s#]|[ \t]+(?![\s#]|\Z)|(?<=[^\s=])#)*")
_REST = re.compile(r"[ \t]*(?:[ \t]#[^\n]*)?(?:\n|\Z)")
_UNSURE = re.compile(r"[\"'\\`]|\$(?=[A-Za-z_0-9{(*@#?!$-])")
_ESCAPED = re.compile(r"\\(.)", re.DOTALL)
_OF_DOUBLE = {"n": "\n", "r": "\r", "t": "\t", '"': '"', "\\": "\\", "$": "$", "`": "`", "\n": ""}


def read_env(text: str) -> Tree:
    """The tree of lines `KEY=VALUE`, as of sh, systemd and containers: a mapping of texts. Raises `Unread`."""
    cursor = Cursor(text.replace("\r\n", "\n"))
    tree: Dict[str, Tree] = {}
    while True:
        cursor.taken(_BETWEEN)
        if cursor.is_at_end:
            return tree
        at, found = cursor.at, cursor.taken(_NAME)
        if found is None:
            raise cursor.fault("a line is KEY=VALUE, `export KEY=VALUE`, or a comment")
        if found[1] in tree:
            raise key_twice(cursor, found[1], at)
        tree[found[1]] = _env_value(cursor)
        if not cursor.taken(_REST):
            raise cursor.fault("more stands behind the value: put the whole value into quotes")


def _env_value(cursor: Cursor) -> str:
    """The value that stands here."""
    single = cursor.taken(_SINGLE)
    if single:
        return single[1]
    at, double = cursor.at, cursor.taken(_DOUBLE)
    if double:
        return _of_double(cursor, double[1], at + 1)
    if cursor.text[at : at + 1] in ("'", '"'):
        raise cursor.fault("the quotes are not closed")
    bare = cursor.taken(_BARE)
    value = bare[0] if bare else ""
    if value[:1] in (" ", "\t"):
        raise cursor.fault("readers take a space behind `=` in different ways: put the value into quotes", at)
    unsure = _UNSURE.search(value)
    if unsure:
        raise cursor.fault(f"readers take {unsure[0]} in different ways: use single quotes", at + unsure.start())
    return value


def _of_double(cursor: Cursor, value: str, at: int) -> str:
    """The text of a value in double quotes."""
    plain = _ESCAPED.sub("\0\0", value)
    unsure = _UNSURE.search(plain.replace("'", " "))
    if unsure:
        raise cursor.fault(f"{unsure[0]} would be replaced: use single quotes, or a backslash", at + unsure.start())
    other = next((found for found in _ESCAPED.finditer(value) if found[1] not in _OF_DOUBLE), None)
    if other:
        raise cursor.fault(f"readers take {other[0]} in different ways: write two backslashes", at + other.start())
    return _ESCAPED.sub(lambda found: _OF_DOUBLE[found[1]], value)


# ---- properties

_LINE_END = r"(?:\r\n|\r|\n|\Z)"
_EMPTY_LINE = re.compile(rf"[ \t\f]*(?:[#!][^\r\n]*)?(?:\r\n|\r|\n)|[ \t\f]*(?:[#!][^\r\n]*)?\Z")
_MARGIN = re.compile(r"[ \t\f]*")
_KEY = re.compile(r"(?:[^\\=: \t\f\r\n]|\\(?:\r\n|[\s\S]))*")
_MARK = re.compile(r"(?:[ \t\f]|\\(?:\r\n|\r|\n)[ \t\f]*)*[=:]?(?:[ \t\f]|\\(?:\r\n|\r|\n)[ \t\f]*)*")
_VALUE = re.compile(rf"((?:[^\\\r\n]|\\(?:\r\n|[\s\S])|\\\Z)*){_LINE_END}")
_SIGN = re.compile(r"\\(?:u([0-9A-Fa-f]{4})|(?:\r\n|\r|\n)[ \t\f]*|([\s\S])|\Z)")
_LETTERS = {"n": "\n", "r": "\r", "t": "\t", "f": "\f"}


def read_properties(text: str) -> Tree:
    """The tree of a text of Java's Properties: a mapping of texts, whose keys are not cut at dots. Raises `Unread`."""
    cursor = Cursor(text)
    tree: Dict[str, Tree] = {}
    while not cursor.is_at_end:
        if cursor.taken(_EMPTY_LINE):
            continue
        cursor.taken(_MARGIN)
        at = cursor.at
        key = _unescaped(cursor, cursor.taken(_KEY), at)
        cursor.taken(_MARK)
        value_at, found = cursor.at, cursor.taken(_VALUE)
        if key in tree:
            raise key_twice(cursor, key, at)
        tree[key] = _unescaped(cursor, found, value_at)
    return tree


def _unescaped(cursor: Cursor, found: "Optional[re.Match[str]]", at: int) -> str:
    """The text of a key or of a value."""
    assert found is not None  # both patterns match the empty text
    written = found[found.re.groups]
    wrong = re.search(r"(?<!\\)(?:\\\\)*\\u(?![0-9A-Fa-f]{4})", written)
    if wrong:
        raise cursor.fault("behind \\u stand four digits", at + wrong.end() - 2)
    text = _SIGN.sub(_sign, written)
    try:
        return text.encode("utf-16", "surrogatepass").decode("utf-16")
    except UnicodeDecodeError:
        raise cursor.fault("a \\u is half a character", at, "NotText") from None


def _sign(found: "re.Match[str]") -> str:
    if found[1]:
        return chr(int(found[1], 16))
    return _LETTERS.get(found[2], found[2]) if found[2] else ""


READERS: Dict[str, Callable[[str], Tree]] = {"ini": read_ini, "env": read_env, "properties": read_properties}
