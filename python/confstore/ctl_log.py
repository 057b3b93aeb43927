"""The word `log` of confstorectl where it shows other keys of abouts, or writes JSON: of the records that the program
writes, which it also reads of archives."""

from __future__ import annotations

from typing import Dict, Iterator, List

from .abouts import SHOWN
from .ctl_archives import records_of
from .ctl_asked import Asked
from .ctl_commands import line_with_values
from .ctl_faults import Fault, shown
from .ctl_outputs import json_line
from .ctl_streams import write
from .ctl_words import JSON_RECORDS, VALUES
from .commands import is_pointer
from .faults import BadAnswer
from .hidden import Hidden
from .log_page import shown_edit
from .pieces import Cutter
from .pointers import steps_of
from .records import Edit, Record, record_of
from .style import Tree
from .trees import NO_TREES, trees_of


def log(asked: Asked) -> int:
    """Writes the commands of a store, and of its archives. The status. Raises a `Fault`."""
    for pointer in asked.hidden:
        if not is_pointer(pointer):
            raise Fault("BadPath", f"{shown(pointer)}: begin the pointer with `/`")
    hidden = [steps_of(pointer) for pointer in asked.hidden]
    for piece in Cutter().cut(records_of(asked)):
        write(_line_of(asked, _record_in(piece), hidden))
    return 0


def _record_in(piece: bytes) -> Record:
    try:
        (tree,) = trees_of(piece)
        return record_of(tree)
    except (BadAnswer, *NO_TREES) as error:
        raise Fault("BadAnswer", f"`log --yaml` of the program wrote no record: {shown(str(error))}") from None


def _line_of(asked: Asked, record: Record, hidden: Hidden) -> bytes:
    if asked.has(JSON_RECORDS):
        return json_line(json_of(record, hidden))
    keys = tuple(asked.shown_keys)
    if asked.has(VALUES):
        return f"{line_with_values(record, hidden, keys)}\n".encode()
    return f"{record.line_of('; '.join(edit.line for edit in record.edits), keys)}\n".encode()


def json_of(record: Record, hidden: Hidden) -> Tree:
    """A record as JSON: its number, who made it, when and why, all that it notes, and its edits, as `batch` takes
    them."""
    told: Dict[str, Tree] = {"at": str(record.number)}
    told.update((key, record.about[key]) for key in SHOWN if key in record.about)
    if record.about:
        about: Dict[str, Tree] = dict(record.about)
        told["about"] = about
    edits: List[Tree] = [dict(_pairs_of(shown_edit(edit, hidden))) for edit in record.edits]
    told["edits"] = edits
    return told


def _pairs_of(edit: Edit) -> "Iterator[tuple[str, Tree]]":
    """An edit as `batch` takes it, where an import has a tree."""
    yield edit.kind, edit.name
    if edit.kind != "import":
        yield "path", edit.path
    if edit.tree is not None:
        yield ("tree" if edit.kind == "import" else "value"), edit.tree
