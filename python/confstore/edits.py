"""The edits of a batch."""

from __future__ import annotations

from typing import List

from .commands import delete_of, import_of, put_of, set_of
from .style import Tree


class Edits:
    """A list of edits, in the form of a session's `batch`."""

    def __init__(self) -> None:
        self._edits: List[Tree] = []

    def import_text(self, name: str, text: str) -> None:
        """Puts the tree of a text under a name."""
        self._edits.append(import_of(name, text))

    def put(self, name: str, tree: Tree) -> None:
        """Puts a tree under a name."""
        self._edits.append(put_of(name, tree))

    def set(self, name: str, path: str, tree: Tree) -> None:
        """Puts a tree at a path."""
        self._edits.append(set_of(name, path, tree))

    def delete(self, name: str, path: str = "") -> None:
        """Takes out what is at a path, or the configuration if the path is empty."""
        self._edits.append(delete_of(name, path))

    def __len__(self) -> int:
        return len(self._edits)
