"""Templates of `confstorectl render`: a text with places of configurations in it.

    port = {{ web/port }}
    {% for host in web/hosts %}
    server {{ host/name }} {{ host/address | json }};
    {% end %}

A place is the name of a configuration or of a loop's variable, and a JSON Pointer behind it. What is not there, and a
list or a mapping where a text has to be, is refused with its place in the template. A line that has a `for` or an `end`
alone is not written.
"""

from __future__ import annotations

import re
import shlex
from typing import Callable, Dict, Iterator, List, NamedTuple, Optional, Tuple, Union

from .ctl_outputs import json_text
from .foreign import Cursor
from .style import Tree

# Gives the tree of a configuration, or None if none has the name.
Trees = Callable[[str], Optional[Tree]]

_TOKEN = re.compile(
    r"^[ \t]*\{%(?P<line>[^%{}\n]*)%\}[ \t]*(?:\n|\Z)|\{%(?P<tag>[^%{}\n]*)%\}"
    r'|\{\{[ \t]*"(?P<quoted>[^"\n]*)"[ \t]*\}\}|\{\{(?P<value>[^{}\n]*)\}\}|(?P<open>\{\{|\{%)',
    re.MULTILINE,
)
_FOR = re.compile(r"\s*for\s+([a-z][a-z0-9_-]*)(?:\s*,\s*([a-z][a-z0-9_-]*))?\s+in\s+(\S.*?)\s*")
_END = re.compile(r"\s*end\s*")
_VALUE = re.compile(r"\s*(\S.*?)\s*(?:\|\s*([a-z]+)\s*)?")
_PLACE = re.compile(r"([a-z][a-z0-9_-]*)((?:/(?:[^~/]|~[01])*)*)")
_INDEX = re.compile("0|[1-9][0-9]*")


class _Place(NamedTuple):
    """A place in a configuration or in a variable, and where the template has it."""

    name: str
    pointer: str
    at: int

    def __str__(self) -> str:
        return self.name + self.pointer


class _Value(NamedTuple):
    place: _Place
    form: str


class _Loop(NamedTuple):
    """A loop over a list or a mapping, whose variables are a value, or a key and a value."""

    variables: Tuple[str, ...]
    place: _Place
    parts: "List[Part]"


Part = Union[str, _Value, _Loop]

_FORMS: Dict[str, Callable[[Tree], Optional[str]]] = {
    "": lambda tree: tree if isinstance(tree, str) else None,
    "sh": lambda tree: shlex.quote(tree) if isinstance(tree, str) else None,
    "json": json_text,
}


class Template:
    """A template. Raises `Unread` for a text that is none."""

    def __init__(self, text: str) -> None:
        self._cursor = Cursor(text)
        self._open: List[_Loop] = []
        self._parts: List[Part] = []
        for found in _TOKEN.finditer(text):
            self._add(text[self._cursor.at : found.start()])
            self._cursor.at = found.end()
            self._take(found)
        self._add(text[self._cursor.at :])
        if self._open:
            raise self._cursor.fault("the loop has no {% end %}", self._open[-1].place.at)

    def _add(self, part: Part) -> None:
        (self._open[-1].parts if self._open else self._parts).append(part)

    def _take(self, found: "re.Match[str]") -> None:
        kind = str(found.lastgroup)
        at = found.start(kind)
        if kind in ("line", "tag"):
            self._take_tag(found[kind], at)
        elif kind == "quoted":
            self._add(found[kind])
        elif kind == "value":
            self._add(self._value(found[kind], at))
        else:
            remedy = f'{{{{ "{found[kind]}" }}}} writes these signs'
            raise self._cursor.fault(f"no tag or value is closed on the line; {remedy}", at)

    def _take_tag(self, tag: str, at: int) -> None:
        loop = _FOR.fullmatch(tag)
        if loop:
            variables = tuple(name for name in loop.groups()[:2] if name)
            made = _Loop(variables, self._place(loop[3], at + loop.start(3)), [])
            self._add(made)
            self._open.append(made)
        elif not _END.fullmatch(tag):
            raise self._cursor.fault("a tag is {% for NAME in PLACE %}, {% for KEY, NAME in PLACE %} or {% end %}", at)
        elif not self._open:
            raise self._cursor.fault("an `end` without a `for`", at)
        else:
            self._open.pop()

    def _value(self, written: str, at: int) -> _Value:
        found = _VALUE.fullmatch(written)
        if found is None or (found[2] or "") not in _FORMS:
            raise self._cursor.fault("a value is {{ PLACE }}, {{ PLACE | json }} or {{ PLACE | sh }}", at)
        return _Value(self._place(found[1], at + found.start(1)), found[2] or "")

    def _place(self, written: str, at: int) -> _Place:
        found = _PLACE.fullmatch(written)
        if found is None:
            raise self._cursor.fault("a place is NAME/KEY, with more keys or indexes behind a `/` each", at)
        return _Place(found[1], found[2], at)

    def rendered(self, trees: Trees) -> str:
        """The text with the values of these configurations. Raises `Unread` for a place that has none."""
        return "".join(self._texts(self._parts, trees))

    def _texts(self, parts: List[Part], trees: Trees) -> Iterator[str]:
        for part in parts:
            if isinstance(part, str):
                yield part
            elif isinstance(part, _Value):
                yield self._text(part, trees)
            else:
                for variables in self._rounds(part, trees):
                    yield from self._texts(part.parts, _with(variables, trees))

    def _text(self, value: _Value, trees: Trees) -> str:
        text = _FORMS[value.form](self._tree(value.place, trees))
        if text is None:
            about = f"{value.place} is a list or a mapping: loop over it, or write {{{{ {value.place} | json }}}}"
            raise self._cursor.fault(about, value.place.at, "NotText")
        return text

    def _rounds(self, loop: _Loop, trees: Trees) -> Iterator[Dict[str, Tree]]:
        """The variables of each round of a loop."""
        tree = self._tree(loop.place, trees)
        if isinstance(tree, str):
            raise self._cursor.fault(f"{loop.place} is a text", loop.place.at, "NotCollection")
        pairs = tree.items() if isinstance(tree, dict) else ((str(index), one) for index, one in enumerate(tree))
        for key, one in pairs:
            yield dict(zip(loop.variables, (key, one) if len(loop.variables) == 2 else (one,)))

    def _tree(self, place: _Place, trees: Trees) -> Tree:
        """What is at a place."""
        tree = trees(place.name)
        if tree is None:
            about = f"no configuration and no variable has the name {place.name}"
            raise self._cursor.fault(about, place.at, "NoConfig")
        for step in place.pointer.split("/")[1:]:
            tree = _below(tree, step.replace("~1", "/").replace("~0", "~"))
            if tree is None:
                raise self._cursor.fault(f"nothing is at {place}", place.at, "NoSuchPlace")
        return tree


def _below(tree: Tree, step: str) -> Optional[Tree]:
    """What is below a tree at a step, or None."""
    if isinstance(tree, dict):
        return tree.get(step)
    if isinstance(tree, list) and _INDEX.fullmatch(step) and int(step) < len(tree):
        return tree[int(step)]
    return None


def _with(variables: Dict[str, Tree], trees: Trees) -> Trees:
    """The trees of variables, and of others."""
    return lambda name: variables[name] if name in variables else trees(name)


