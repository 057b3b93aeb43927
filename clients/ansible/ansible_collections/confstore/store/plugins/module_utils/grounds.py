"""What a plan stands on: the places that it looked at, as they were before its edits.

Where others may change the store too, the edits are made only while these places are as they were.
"""

from __future__ import annotations

from typing import List, NamedTuple, Optional, Sequence

from ansible_collections.confstore.store.plugins.module_utils.pointers import found_at, pointer_of
from ansible_collections.confstore.store.plugins.module_utils.style import Tree


class Condition(NamedTuple):
    """What has to be at a path of a configuration before the task for an edit to be made: a tree, or nothing there."""

    name: str
    path: str
    tree: Optional[Tree]


def _is_within(steps: Sequence[str], around: Sequence[str]) -> bool:
    return list(steps[: len(around)]) == list(around)


class Grounds:
    """The places of one configuration that a plan looked at. It looks at each place before it makes an edit there."""

    def __init__(self, name: str, before: Optional[Tree]) -> None:
        self._name, self._before = name, before
        self._lists: List[List[str]] = []  # those whose elements may have other indexes after the edits so far
        self._places: List[List[str]] = []

    def look(self, steps: Sequence[str]) -> None:
        """Notes that the plan looks at a place, after the edits that it has so far: in a list that they changed, that
        is the whole list as it was. A place has all below it."""
        place = next((around for around in self._lists if _is_within(steps, around)), list(steps))
        if not any(_is_within(place, around) for around in self._places):
            self._places = [other for other in self._places if not _is_within(other, place)] + [place]

    def change_list(self, steps: Sequence[str]) -> None:
        """Notes that an edit of the plan changes the elements of a list."""
        self._lists.append(list(steps))

    def conditions(self) -> List[Condition]:
        """What has to hold of the store for the plan to be right."""
        return [Condition(self._name, pointer_of(place), found_at(self._before, place)) for place in self._places]
