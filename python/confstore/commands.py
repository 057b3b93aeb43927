"""The commands of a session, and the exceptions of those that are refused."""

from __future__ import annotations

import re

from .faults import Refused, refusal

TYPE_CHECKING = False
if TYPE_CHECKING:
    from collections.abc import Iterator

    from .style import Tree

_NAME = re.compile(r"[a-z][a-z0-9_-]{0,63}")
_POINTER = re.compile(r"(?:/(?:[^~/]|~[01])*)*")

NAMES: Tree = {"names": ""}
CHECKPOINT: Tree = {"checkpoint": ""}


def is_name(text: str) -> bool:
    """Whether a configuration may have this name."""
    return _NAME.fullmatch(text) is not None


def is_pointer(text: str) -> bool:
    """Whether a text is a pointer of RFC 6901."""
    return _POINTER.fullmatch(text) is not None


def import_of(name: str, text: str) -> dict[str, Tree]:
    return {"import": name, "text": text}


def put_of(name: str, tree: Tree) -> dict[str, Tree]:
    from .faults import Unwritten
    from .style import to_text

    try:
        return import_of(name, to_text(tree))
    except Unwritten as fault:
        fault.name = name if isinstance(name, str) else None
        raise


def set_of(name: str, path: str, tree: Tree) -> dict[str, Tree]:
    return {"set": name, "path": path, "value": tree}


def delete_of(name: str, path: str) -> dict[str, Tree]:
    return {"delete": name, "path": path}


def get_of(name: str, path: str) -> dict[str, Tree]:
    return {"get": name, "path": path}


def lines_of(document: bytes) -> dict[str, Tree]:
    """What asks a server for the lines behind the refusal of a document by its check."""
    from hashlib import sha256  # by those alone that were refused so

    return {"check": sha256(document).hexdigest()}


def _texts(command: Tree) -> Iterator[bytes]:
    """The texts of the imports in a command."""
    if isinstance(command, dict):
        edits = command.get("batch")
        for edit in edits if isinstance(edits, list) else [command]:
            text = edit.get("text") if isinstance(edit, dict) else None
            if isinstance(text, str):
                yield text.encode("utf-8", "surrogatepass")


def about(word: str, name: str | None, path: str | None) -> str:
    """What was refused, of what."""
    where = f" at {path!r}" if path else ""
    of = f" of {name!r}{where}" if name is not None else ""
    return f"`{word}`{of} was refused"


def refused(word: str, command: Tree, program: str | None) -> Refused:
    """The exception of a command that was refused by a word."""
    from .style import text_of

    pairs = [pair for pair in command.items() if pair[0] != "if"] if isinstance(command, dict) else []
    if not isinstance(command, dict) or not pairs:
        return refusal(word)
    kind, first = pairs[0]
    name = text_of(first) if isinstance(first, str) and first else None
    path = command.get("path")
    path = text_of(path) if isinstance(path, str) else None
    if isinstance(first, list):
        fault = refusal(word, f"`{kind}` of {len(first)} edit{'' if len(first) == 1 else 's'} was refused")
    else:
        fault = refusal(word, about(kind, name, path))
    fault.name, fault.path = name, path
    fault.texts, fault.program = tuple(_texts(command)), program
    return fault


def refused_as(fault: Refused, command: Tree, program: str | None) -> Refused:
    """The exception of a command that was refused as another one was, which was performed for it."""
    from .faults import CheckFailed

    found = refused(fault.word, command, program)
    if isinstance(found, CheckFailed) and isinstance(fault, CheckFailed):
        found.lines = fault.lines
    return found
