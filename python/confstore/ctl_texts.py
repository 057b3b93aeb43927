"""The YAML texts that confstorectl reads, as trees."""

from __future__ import annotations

from typing import List

from .ctl_faults import Fault
from .ctl_program import Source, styled
from .style import Tree, to_text
from .trees import NO_TREES, from_text


def tree_of(text: bytes, source: Source) -> Tree:
    """The tree of a YAML text. Raises the `Fault` of one that is refused."""
    try:
        return from_text(styled(text, source))
    except NO_TREES as error:
        raise Fault("BadAnswer", f"what the program says of a text is no YAML: {error}") from None


def edits_of(text: bytes, source: Source) -> List[Tree]:
    """The edits of the text of a batch, as a session takes them. Raises a `Fault`."""
    tree = tree_of(text, source)
    if not isinstance(tree, list):
        raise Fault("BadCommand", "the text is no list of edits: see `confstorectl help batch`")
    return [_edit_of(edit) for edit in tree]


def _edit_of(edit: Tree) -> Tree:
    """An edit as a session takes it: an import with a tree has its text."""
    if isinstance(edit, dict) and tuple(edit) == ("import", "tree"):
        return {"import": edit["import"], "text": to_text(edit["tree"])}
    return edit
