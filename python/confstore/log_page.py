"""A page of a store's log: one file of HTML with each command, who made it, when and why, the values before and after
it, and the store at each number. Its policy lets it reach no network."""

from __future__ import annotations

import base64
import hashlib
import json
import os
import re
from typing import Any, Dict, List, Optional, Sequence, Tuple

from .abouts import SHOWN
from .faults import ConfstoreError, NoSuchCommand
from .hidden import Hidden, Hiding, shown
from .pointers import steps_of
from .reader import Reader
from .records import Edit, Record
from .style import Tree

_TEMPLATE = os.path.join(os.path.dirname(os.path.abspath(__file__)), "log_page.html")

# How often the log is read again where a checkpoint came between two reads.
TRIES = 10

# What stands for a value that is hidden.
MARK = "(hidden)"


def shown_edit(edit: Edit, hidden: Hidden) -> Edit:
    """An edit with the mark in the place of what is hidden. One below a hidden place puts the mark there."""
    steps = steps_of(edit.path)
    hiding = Hiding(steps, hidden)
    if len(hiding.steps) < len(steps):
        return Edit("set" if hiding.steps else "import", edit.name, hiding.path, MARK)
    return edit if edit.tree is None else Edit(edit.kind, edit.name, edit.path, shown(edit.tree, hiding.hidden, MARK))


def _packed(tree: Tree) -> Any:
    """A tree as JSON, with mappings as lists of pairs, since JavaScript does not keep the order of all keys."""
    if isinstance(tree, list):
        return [_packed(item) for item in tree]
    return {"pairs": [[key, _packed(value)] for key, value in tree.items()]} if isinstance(tree, dict) else tree


def _edit_of(edit: Edit) -> Dict[str, Any]:
    tree = None if edit.tree is None else _packed(edit.tree)
    return {"kind": edit.kind, "name": edit.name, "path": edit.path, "tree": tree}


def _record_of(record: Record, hidden: Hidden) -> Dict[str, Any]:
    """A record without what is hidden. What is noted of it are pairs: who, when and why come first."""
    edits = [_edit_of(shown_edit(edit, hidden)) for edit in record.edits]
    keys = dict.fromkeys([*(key for key in SHOWN if key in record.about), *record.about])
    about = [[key, record.about[key]] for key in keys]
    return {"number": record.number, **({"about": about} if about else {}), "edits": edits}


def _records(readers: Sequence[Reader]) -> Tuple[Reader, List[Record]]:
    """The records that files have one after the other, each once, and the reader of the first of them."""
    found: List[Record] = []
    first = readers[-1]
    for reader in readers:
        records = reader.log(found[-1].number if found else 0)
        first = reader if records and not found else first
        found += records
    return first, found


def _history(readers: Sequence[Reader], hidden: Hidden) -> Dict[str, Any]:
    """The state before the first record of files, and the records, but for what is hidden."""
    for _ in range(TRIES):
        first, records = _records(readers)
        start: Optional[int] = records[0].number - 1 if records else None
        if records and records[-1].number - records[0].number + 1 != len(records):
            continue
        try:
            names = first.names(start)
            configs = [[name, _packed(shown(first.get(name, at=start), hidden, MARK))] for name in names]
        except NoSuchCommand:
            continue
        told = [_record_of(record, hidden) for record in records]
        title = os.path.basename(readers[-1].folder) or readers[-1].folder
        return {"title": title, "start": start or 0, "configs": {"pairs": configs}, "records": told}
    raise ConfstoreError("checkpoints come faster than the log is read")


def _policy(template: str) -> str:
    """What the page may do: run its own script and use its own style, and nothing else."""
    kinds = []
    for kind in ("script", "style"):
        found = re.search(f"<{kind}>(.*?)</{kind}>", template, re.DOTALL)
        assert found is not None
        checksum = base64.b64encode(hashlib.sha256(found[1].encode()).digest()).decode()
        kinds.append(f"{kind}-src 'sha256-{checksum}'")
    return "; ".join(["default-src 'none'", *kinds])


def page_of(reader: Reader, hidden: Hidden, before: Sequence[Reader] = ()) -> str:
    """The page of a store as a text, without the values at these paths, with the commands that archives have from
    before. Raises a `ConfstoreError`."""
    data = json.dumps(_history([*before, reader], hidden)).replace("<", "\\u003c")  # so that no text ends the script that holds it
    with open(_TEMPLATE, encoding="utf-8") as source:
        template = source.read()
    return template.replace("POLICY", _policy(template), 1).replace(">DATA<", f">{data}<", 1)
