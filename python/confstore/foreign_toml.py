"""Reads TOML by Python's tomllib, or by the package tomli where Python has none."""

from __future__ import annotations

import datetime
import importlib
import re
from typing import Any

from .foreign import Unread
from .style import Tree

_PLACE = re.compile(r"(.*) \(at (?:line (\d+), column (\d+)|end of document)\)", re.DOTALL)


def read_toml(text: str) -> Tree:
    """The tree of a TOML text. A float keeps its spelling; an integer, a truth value, a date and a time have the plain
    form. Raises `Unread`."""
    toml = _reader()
    try:
        return _tree(toml.loads(text, parse_float=str))
    except toml.TOMLDecodeError as error:
        found = _PLACE.fullmatch(str(error))
        if found is None:
            raise Unread("Syntax", str(error)) from None
        end = (text.count("\n") + 1, 1)
        raise Unread("Syntax", found[1], *((int(found[2]), int(found[3])) if found[2] else end)) from None
    except RecursionError:
        raise Unread("TooDeep", "collections are nested too deep") from None


def _reader() -> Any:
    for name in ("tomllib", "tomli"):
        try:
            return importlib.import_module(name)
        except ImportError:
            continue
    raise Unread("Unsupported", "TOML needs Python 3.11, or the package tomli (Debian's python3-tomli)")


def _tree(value: Any) -> Tree:
    if isinstance(value, dict):
        return {key: _tree(one) for key, one in value.items()}
    if isinstance(value, list):
        return [_tree(one) for one in value]
    if isinstance(value, bool):
        return "true" if value else "false"
    if isinstance(value, datetime.datetime) and value.utcoffset() == datetime.timedelta(0):
        return value.replace(tzinfo=None).isoformat() + "Z"
    if isinstance(value, (datetime.datetime, datetime.date, datetime.time)):
        return value.isoformat()
    return str(value)
