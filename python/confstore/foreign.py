"""Texts of other formats: what is wrong with one, where, and what is told of one that was read."""

from __future__ import annotations

import re
from typing import Dict, List, NamedTuple, Optional

from .style import Tree


class Unread(Exception):
    """Why a text of another format is refused: the name of the fault, a detail, and the place, from 1; or line 0 where
    that is the whole text."""

    def __init__(self, name: str, detail: str, line: int = 0, column: int = 0) -> None:
        super().__init__(name, detail)
        self.name, self.detail, self.line, self.column = name, detail, line, column

    def line_of(self, file: str) -> str:
        """The line for standard error, as those of confstore on a text."""
        place = f":{self.line}:{self.column}" if self.line else ""
        return f"{file}{place}: {self.name} ({self.detail})"


class _Note(NamedTuple):
    line: int
    column: int
    times: int


class Notes:
    """What was expanded or dropped of a text: each kind once, with the place of the first and how many there are."""

    def __init__(self) -> None:
        self._notes: Dict[str, _Note] = {}

    def add(self, about: str, line: int, column: int) -> None:
        old = self._notes.get(about)
        self._notes[about] = old._replace(times=old.times + 1) if old else _Note(line, column, 1)

    def lines(self, file: str) -> List[str]:
        """A line for each kind, in the order in which they were found."""
        return [
            f"{file}:{note.line}:{note.column}: {about}" + (f" ({note.times} times)" if note.times > 1 else "")
            for about, note in self._notes.items()
        ]


class Document(NamedTuple):
    """A document of a text: its tree, or None if it is empty, and what is told of it."""

    tree: Optional[Tree]
    notes: Notes


class Cursor:
    """A place in a text that is read from its start to its end."""

    def __init__(self, text: str) -> None:
        self.text, self.at = text, 0

    @property
    def is_at_end(self) -> bool:
        return self.at >= len(self.text)

    def taken(self, pattern: "re.Pattern[str]") -> "Optional[re.Match[str]]":
        """What a pattern matches here, behind which the cursor is then."""
        found = pattern.match(self.text, self.at)
        if found:
            self.at = found.end()
        return found

    def takes(self, sign: str) -> bool:
        """Whether a sign stands here, behind which the cursor is then."""
        if not self.text.startswith(sign, self.at):
            return False
        self.at += len(sign)
        return True

    def fault(self, detail: str, at: Optional[int] = None, name: str = "Syntax") -> Unread:
        """The fault of what stands here, or at another place."""
        at = self.at if at is None else at
        start = self.text.rfind("\n", 0, at) + 1
        return Unread(name, detail, self.text.count("\n", 0, at) + 1, at - start + 1)


def key_twice(cursor: Cursor, key: str, at: int) -> Unread:
    """The fault of a key that is there already."""
    return cursor.fault(f'"{key}" is there already', at, "KeyTwice")
