"""What differs between two trees: the edits that make the second of the first, performed in their order.

The rules are those of the crate `tree_diff`. In a mapping a key stays if it is the next key of the second mapping;
others are deleted, and what is then missing is set last. So it is with the configurations of a store, too. A mapping of
which fewer keys stay than are deleted is set whole, if some are missing. In a list the elements at one index are
compared. If the first list is longer, what is left over is deleted before the elements that both have at their ends; if
it is shorter, what is missing comes to the end.

The edits of a batch are those of the crate `conf_diff`: an import takes the place of edits that are longer.
"""

from __future__ import annotations

from typing import Dict, Iterator, List, NamedTuple, Optional, Sequence, Tuple

from .commands import delete_of, put_of, set_of
from .pointers import pointer_of
from .style import Tree, to_text

# How deep elements are compared that both lists may have at their ends.
COMPARED = 8

# The step behind the last element of a list.
END = "-"

# How many bytes the edits at places may have in any case, and not be exchanged for an import.
FEW_BYTES = 1_024


class Key(NamedTuple):
    """A key of two mappings, and in which of them it is. One that has to move is deleted first, and set later."""

    key: str
    is_old: bool
    is_new: bool


class Difference(NamedTuple):
    """One edit: the steps to its place, and what is there before it and after it; None where nothing is."""

    steps: Tuple[str, ...]
    old: Optional[Tree]
    new: Optional[Tree]

    @property
    def path(self) -> str:
        """The pointer to the place."""
        return pointer_of(self.steps)


def are_same(first: Optional[Tree], second: Optional[Tree]) -> bool:
    """Whether two trees are equal, or there is none. The order of keys counts."""
    return _same_within(None, first, second)


def _same_within(limit: Optional[int], first: Optional[Tree], second: Optional[Tree]) -> bool:
    """Whether they are the same, and no deeper than a limit, if there is one."""
    if isinstance(first, str) or isinstance(second, str) or first is None or second is None:
        return first == second
    if type(first) is not type(second) or limit == 0 or len(first) != len(second):
        return False
    inner = None if limit is None else limit - 1
    if isinstance(first, list) and isinstance(second, list):
        return all(_same_within(inner, one, other) for one, other in zip(first, second))
    assert isinstance(first, dict) and isinstance(second, dict)
    pairs = zip(first.items(), second.items())
    return all(key == to and _same_within(inner, one, other) for (key, one), (to, other) in pairs)


def differences(first: Optional[Tree], second: Optional[Tree]) -> List[Difference]:
    """The edits that make the second tree of the first one; one for the whole where either is none."""
    if first is None or second is None:
        return [] if first is second else [Difference((), first, second)]
    return list(_between((), first, second))


def _between(steps: Tuple[str, ...], first: Tree, second: Tree) -> Iterator[Difference]:
    if isinstance(first, list) and isinstance(second, list):
        yield from _of_elements(steps, first, second)
    elif isinstance(first, dict) and isinstance(second, dict) and not _is_set_whole(first, second):
        yield from _of_members(steps, first, second)
    elif not (isinstance(first, str) and first == second):
        yield Difference(steps, first, second)


def _is_set_whole(first: Dict[str, Tree], second: Dict[str, Tree]) -> bool:
    """Whether fewer keys of a mapping stay than are deleted, and some of the second one are new."""
    kept = sum(key.is_old and key.is_new for key in keys_between(list(first), list(second)))
    return kept < len(first) - kept and kept < len(second)


def keys_between(first: Sequence[str], second: Sequence[str]) -> Iterator[Key]:
    """The keys of two mappings in the order of their edits: a key stays if it is the next one of the second mapping,
    others are deleted, and those that are then missing come last."""
    place = 0
    for key in first:
        stays = place < len(second) and second[place] == key
        place += stays
        yield Key(key, True, stays)
    for key in second[place:]:
        yield Key(key, False, True)


def _of_members(steps: Tuple[str, ...], first: Dict[str, Tree], second: Dict[str, Tree]) -> Iterator[Difference]:
    for key, is_old, is_new in keys_between(list(first), list(second)):
        if is_old and is_new:
            yield from _between((*steps, key), first[key], second[key])
        else:
            yield Difference((*steps, key), first[key] if is_old else None, second[key] if is_new else None)


def _of_elements(steps: Tuple[str, ...], first: Sequence[Tree], second: Sequence[Tree]) -> Iterator[Difference]:
    index, ahead, over = 0, _before_end(first, second), len(first) - len(second)
    for value in first:
        if over > 0 and (ahead == 0 or index == len(second)):
            over -= 1
            yield Difference((*steps, str(index)), value, None)
            continue
        yield from _between((*steps, str(index)), value, second[index])
        index, ahead = index + 1, max(ahead - 1, 0)
    for value in second[index:]:
        yield Difference((*steps, END), None, value)


def _before_end(first: Sequence[Tree], second: Sequence[Tree]) -> int:
    """How many elements of the second list come before those that the longer first one has at its end, too."""
    if len(second) >= len(first):
        return 0
    run = 0
    for one, other in zip(first[len(first) - len(second) :], second):
        run = run + 1 if _same_within(COMPARED, one, other) else 0
    return len(second) - run


def edit_of(name: str, difference: Difference) -> Dict[str, Tree]:
    """An edit of a list, as the word `batch` takes it. A whole configuration is imported where there was none."""
    if difference.new is None:
        return delete_of(name, difference.path)
    if difference.old is None and not difference.steps:
        return _import_of(name, difference.new)
    return set_of(name, difference.path, difference.new)


def _import_of(name: str, tree: Tree) -> Dict[str, Tree]:
    return {"import": name, "tree": tree}


def listed_between(name: str, first: Optional[Tree], second: Optional[Tree]) -> List[Dict[str, Tree]]:
    """The edits that make a configuration the second tree of the first one, as the word `batch` takes them. Where those
    at places are not few, and longer than an import, they are the import."""
    edits = [edit_of(name, difference) for difference in differences(first, second)]
    if first is None or second is None:
        return edits
    whole, length = [_import_of(name, second)], _length_of(edits)
    return whole if length > FEW_BYTES and length > _length_of(whole) else edits


def _length_of(edits: Sequence[Tree]) -> int:
    """How many bytes edits have in the one style."""
    return len(to_text(list(edits)).encode())


def edits_between(name: str, first: Optional[Tree], second: Optional[Tree]) -> List[Tree]:
    """The same edits, as a batch in a session takes them, where an import has a text."""
    return [put_of(name, edit["tree"]) if "import" in edit else edit for edit in listed_between(name, first, second)]
