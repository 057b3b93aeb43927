"""The records of a store's journal: who changed what, by number."""

from __future__ import annotations

from dataclasses import dataclass, field
from typing import Dict, List, Optional, Tuple

from .abouts import ABOUT, is_about, words_of
from .faults import BadAnswer
from .style import Tree, quoted

# Of each form of an edit: the key of its name, and the keys that follow.
_FORMS = {"import": ("import", "tree"), "set": ("set", "path", "value"), "delete": ("delete", "path")}


@dataclass(frozen=True)
class Edit:
    """One edit. `kind` is `import`, `set` or `delete`; an import has the empty path, and a delete has no tree."""

    kind: str
    name: str
    path: str
    tree: Optional[Tree]

    @property
    def line(self) -> str:
        """What it does, and where, as `confstore log` writes it."""
        return f"import {self.name}" if self.kind == "import" else f"{self.kind} {self.name} {quoted(self.path)}"

    def may_change(self, name: str, path: str = "") -> bool:
        """Whether it may change what is at a path of a configuration: it was made there, above it or below it, or it
        took an element out of a list, or put one at its end, where the path leads through that list."""
        if name != self.name:
            return False
        made, asked = _steps_of(self.path), _steps_of(path)
        shared = min(len(made), len(asked))
        if made[:shared] == asked[:shared]:
            return True
        if len(made) > len(asked) or made[:-1] != asked[: len(made) - 1]:
            return False
        return _moves(self.kind, made[-1], asked[len(made) - 1])


def _steps_of(path: str) -> List[str]:
    return path.split("/")[1:]


def _moves(kind: str, step: str, asked: str) -> bool:
    """Whether an edit at a step of what may be a list may change what is at another step."""
    if not asked.isdecimal():
        return asked == "-"
    return step == "-" or (kind == "delete" and step.isdecimal() and int(step) <= int(asked))


@dataclass(frozen=True)
class Record:
    """An accepted command: its number, its edits, and who made it, when and why. Only that of a batch has more than one
    edit."""

    number: int
    edits: Tuple[Edit, ...]
    #: Whether it is that of a batch, which may have one edit too.
    is_batch: bool = field(default=False, compare=False, repr=False)
    #: What the command said of itself, as `by`, `when` and `why`. It is empty where that is nothing.
    about: Dict[str, str] = field(default_factory=dict, hash=False, repr=False)

    @property
    def line(self) -> str:
        """The number, who, when and why, what was done, and where, as `confstore log` writes it."""
        return self.line_of("; ".join(edit.line for edit in self.edits))

    def line_of(self, done: str, shown: Optional[Tuple[str, ...]] = None) -> str:
        """The line for what is said of its edits. It shows these keys of the about, or else `by`, `when` and `why`."""
        about = words_of(self.about) if shown is None else words_of(self.about, shown)
        return f"{self.number} {about}{'batch ' if self.is_batch else ''}{done}"

    def may_change(self, name: str, path: str = "") -> bool:
        """Whether one of its edits may change what is at a path of a configuration."""
        return any(edit.may_change(name, path) for edit in self.edits)


def _edit_of(pairs: Tree) -> Edit:
    if isinstance(pairs, dict) and pairs:
        kind = next(iter(pairs))
        if _FORMS.get(kind) == tuple(pairs):
            name, path = pairs[kind], pairs.get("path", "")
            if isinstance(name, str) and isinstance(path, str):
                return Edit(kind, name, path, pairs.get("tree", pairs.get("value")))
    raise BadAnswer("a record has no edit that is known here")


def _about_in(rest: Dict[str, Tree]) -> Dict[str, str]:
    """Takes the about out of a record, whose last key it is. An empty one where there is none."""
    if ABOUT not in rest:
        return {}
    if next(reversed(rest)) != ABOUT or not is_about(rest[ABOUT]):
        raise BadAnswer("a record has an about that is no mapping of texts, or not its last key")
    about = rest.pop(ABOUT)
    return {key: str(text) for key, text in about.items()} if isinstance(about, dict) else {}


def record_of(tree: Tree) -> Record:
    """The record that a document of a journal is. Raises `BadAnswer` for what is none."""
    if not isinstance(tree, dict) or not isinstance(number := tree.get("at"), str) or not number.isdecimal():
        raise BadAnswer("a record has no number")
    rest = {key: value for key, value in tree.items() if key != "at"}
    about = _about_in(rest)
    batch = rest.get("batch")
    if tuple(rest) == ("batch",) and isinstance(batch, list):
        return Record(int(number), tuple(_edit_of(edit) for edit in batch), True, about)
    return Record(int(number), (_edit_of(rest),), False, about)
