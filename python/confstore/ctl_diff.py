"""The words `diff` and `page` of confstorectl: what changed in a store, or between two files."""

from __future__ import annotations

import os
import re
from typing import Iterator, List, NamedTuple, Optional, Sequence

from .commands import is_name
from .ctl_archives import History, Moved, again, history_of
from .ctl_asked import Asked
from .ctl_faults import REFUSED, Fault, fault_of, shown, unread
from .ctl_history import names_at
from .ctl_outputs import json_shown
from .ctl_program import Source
from .ctl_streams import is_output_terminal, read_text, write
from .ctl_texts import tree_of
from .ctl_words import EXPLAIN, LINES, OF_FILES, SINCE, TO_NUMBER
from .differences import Difference, are_same, differences, keys_between, listed_between
from .faults import ConfstoreError
from .hidden import Hidden
from .pointers import steps_of
from .style import Tree, quoted, to_text

# The colours of what is taken out and put in, on a terminal, and the end of a colour.
COLOURS, END = {"-": "\033[31m", "+": "\033[32m"}, "\033[0m"

# What stands on a line of its own as it is: a pointer without what a terminal or a reader of lines could mistake.
_PLAIN = re.compile(r'/[^\s"\\\x00-\x1f\x7f-\x9f\u2028-\u202e\u2066-\u2069\u061c\u200e\u200f]*')


class Pair(NamedTuple):
    """The trees of a configuration, or of two files, and its name. Either is None where nothing is."""

    name: str
    before: Optional[Tree]
    after: Optional[Tree]


def diff(asked: Asked) -> int:
    """Writes what differs. The status: 1 if anything does. Raises a `Fault`."""
    pairs = _of_files(asked) if asked.has(OF_FILES) else _of_store(asked)
    found = [pair for pair in pairs if not are_same(pair.before, pair.after)]
    if not found:
        return 0
    is_one = asked.has(OF_FILES) or bool(asked.argument("NAME"))
    write(("".join(_lines(asked, found, is_one)) if asked.has(LINES) else _edits(found)).encode())
    return REFUSED


def _of_store(asked: Asked) -> List[Pair]:
    """What differs of a store between two numbers: by default from the oldest that the file has to the last."""
    name = asked.argument("NAME")
    if name and not is_name(name):
        raise Fault("BadName")
    history = history_of(asked)
    known = history.numbers
    start = int(asked.options.get(SINCE.name, known.first))
    end = int(asked.options.get(TO_NUMBER.name, known.last))
    history.need(start)
    history.need(end)
    return [_of_name(history, name, start, end)] if name else list(_of_all(history, start, end))


def _of_name(history: History, name: str, start: int, end: int) -> Pair:
    """One configuration at two numbers."""
    before, after = history.tree_at(name, start), history.tree_at(name, end)
    if before is None and after is None:
        raise Fault("NoConfig")
    return Pair(name, before, after)


def _of_all(history: History, start: int, end: int) -> Iterator[Pair]:
    """The configurations at two numbers that may differ, in the order in which the edits make the second of the
    first."""
    changed = history.names_changed(min(start, end) + 1, max(start, end))
    names = [names_at(history.folder_with(number), number) for number in (start, end)]
    for name, is_old, is_new in keys_between(*names):
        if name in changed or not (is_old and is_new):
            before = history.tree_at(name, start) if is_old else None
            after = history.tree_at(name, end) if is_new else None
            yield Pair(name, before, after)


def _of_files(asked: Asked) -> List[Pair]:
    """The trees of two files. The edits have the name of the second one up to its first dot."""
    name = os.path.basename(asked.arguments["NAME"]).partition(".")[0]
    if not asked.has(LINES) and not is_name(name):
        raise Fault("BadName", f"{shown(name)} is no name for the edits: {LINES.name} needs none")
    trees = []
    for file in (asked.folder, asked.arguments["NAME"]):
        try:
            text = read_text(file)
        except OSError as error:
            raise unread(file, error) from None
        trees.append(tree_of(text, Source(file, asked.has(EXPLAIN))))
    return [Pair(name, trees[0], trees[1])]


def _edits(found: Sequence[Pair]) -> str:
    """The edits as the list that `batch` takes."""
    return to_text([edit for pair in found for edit in listed_between(*pair)])


def _lines(asked: Asked, found: Sequence[Pair], is_one: bool) -> Iterator[str]:
    """A line for what was at each place, and one for what is there then."""
    hidden = [steps_of(pointer) for pointer in asked.hidden]
    colours = COLOURS if is_output_terminal() else {}
    for pair, difference in ((pair, difference) for pair in found for difference in differences(pair.before, pair.after)):
        for sign, tree in (("-", difference.old), ("+", difference.new)):
            if tree is not None:
                where = [] if is_one else [pair.name]
                line = " ".join([sign, *where, *_place_and_value(difference.steps, tree, hidden)])
                colour = colours.get(sign, "")
                yield f"{colour}{line}{END if colour else ''}\n"


def _place_and_value(steps: Sequence[str], tree: Tree, hidden: Hidden) -> List[str]:
    path = Difference(tuple(steps), None, None).path
    place = [] if not path else [path if _PLAIN.fullmatch(path) else quoted(path)]
    return [*place, json_shown(steps, tree, hidden)]


def page(asked: Asked) -> int:
    """Writes the page of a store's log. The status. Raises a `Fault`."""
    write(again(lambda: _page(asked)).encode())
    return 0


def _page(asked: Asked) -> str:
    from .log_page import page_of
    from .reader import Reader

    history = History(asked.folder, asked.archives)
    try:
        *before, reader = map(Reader, history.folders)
        text = page_of(reader, [steps_of(pointer) for pointer in asked.hidden], before)
    except ConfstoreError as error:
        raise fault_of(error) from None
    if before and not history.is_as_it_was():
        raise Moved
    return text
