"""What a change took from a tree and put into it, taken back in a tree that may have been changed since."""

from __future__ import annotations

from typing import Dict, List, Mapping, Optional, Sequence, Tuple

from .differences import are_same
from .pointers import pointer_of
from .style import Tree


def taken_back(
    before: Optional[Tree], after: Optional[Tree], now: Optional[Tree]
) -> Tuple[Optional[Tree], List[str]]:
    """The tree that is here now without what made the tree after a change of the one before it, and the places where
    something else was changed since. None stands for no tree.

    Mappings are gone through key by key, and lists element by element where all three have as many. Any other value is
    one place. Keys that come back stand where they stood.
    """
    changed: List[str] = []
    return _back(before, after, now, (), changed), changed


def _back(
    before: Optional[Tree], after: Optional[Tree], now: Optional[Tree], steps: Tuple[str, ...], changed: List[str]
) -> Optional[Tree]:
    if are_same(now, after):
        return before
    if are_same(before, after) or are_same(now, before):
        return now
    if isinstance(before, dict) and isinstance(after, dict) and isinstance(now, dict):
        return _of_mappings(before, after, now, steps, changed)
    if isinstance(before, list) and isinstance(after, list) and isinstance(now, list):
        if len(before) == len(after) == len(now):
            return _of_lists(before, after, now, steps, changed)
    changed.append(pointer_of(steps))
    return now


def _of_lists(
    before: Sequence[Tree], after: Sequence[Tree], now: Sequence[Tree], steps: Tuple[str, ...], changed: List[str]
) -> List[Tree]:
    parts = enumerate(zip(before, after, now))
    found = [_back(old, new, here, (*steps, str(index)), changed) for index, (old, new, here) in parts]
    return [part for part in found if part is not None]  # none of them is None, as all three have it


def _of_mappings(
    before: Dict[str, Tree], after: Dict[str, Tree], now: Dict[str, Tree], steps: Tuple[str, ...], changed: List[str]
) -> Dict[str, Tree]:
    values: Dict[str, Tree] = {}
    for key in {**now, **before, **after}:
        value = _back(before.get(key), after.get(key), now.get(key), (*steps, key), changed)
        if value is not None:
            values[key] = value
    if list(now) == list(after):
        return _in_order(values, list(before), list(now))
    return _in_order(values, list(now), list(before))


def _in_order(values: Mapping[str, Tree], keys: Sequence[str], others: Sequence[str]) -> Dict[str, Tree]:
    """The members in the order of the first keys. Those that only the others have stand behind the one that they stood
    behind there."""
    here = set(keys)
    following: Dict[Optional[str], List[str]] = {}
    last: Optional[str] = None
    for key in others:
        if key not in values:
            continue
        if key in here:
            last = key
        else:
            following.setdefault(last, []).append(key)
    order = list(following.get(None, []))
    for key in keys:
        order += [key, *following.get(key, [])]
    return {key: values[key] for key in order if key in values}
