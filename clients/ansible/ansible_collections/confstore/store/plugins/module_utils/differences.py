"""What differs between two trees, place by place: nothing is shown of what stays as it is."""

from __future__ import annotations

from typing import Dict, List, NamedTuple, Optional

from ansible_collections.confstore.store.plugins.module_utils.pointers import text_of_step
from ansible_collections.confstore.store.plugins.module_utils.style import Tree, same, to_text


class Difference(NamedTuple):
    """A place with what was there and what is: None where nothing was, or is."""

    path: str
    before: Optional[Tree]
    after: Optional[Tree]


def differences(before: Optional[Tree], after: Optional[Tree], path: str = "") -> List[Difference]:
    """The places where two trees differ, below a path."""
    if isinstance(before, dict) and isinstance(after, dict):
        return _of_mappings(before, after, path)
    if isinstance(before, list) and isinstance(after, list):
        return _of_lists(before, after, path)
    if before is not None and after is not None and same(before, after):
        return []
    return [Difference(path, before, after)]


def _of_mappings(before: Dict[str, Tree], after: Dict[str, Tree], path: str) -> List[Difference]:
    """Those of mappings. Of a mapping whose keys are in another order its keys are shown."""
    found: List[Difference] = []
    for key in dict.fromkeys([*before, *after]):
        found += _of_values(before.get(key), after.get(key), f"{path}/{text_of_step(key)}")
    was: List[Tree] = [key for key in before if key in after]
    is_now: List[Tree] = [key for key in after if key in before]
    if was != is_now:
        found.append(Difference(path, was, is_now))
    return found


def _of_values(before: Optional[Tree], after: Optional[Tree], path: str) -> List[Difference]:
    return [] if before is None and after is None else differences(before, after, path)


def _of_lists(before: List[Tree], after: List[Tree], path: str) -> List[Difference]:
    """Those of lists, between the elements that are the same at both ends."""
    shorter = min(len(before), len(after))
    start = next((at for at in range(shorter) if not same(before[at], after[at])), shorter)
    left = shorter - start
    end = next((at for at in range(left) if not same(before[-1 - at], after[-1 - at])), left)
    old, new = before[start : len(before) - end], after[start : len(after) - end]
    found: List[Difference] = []
    for at in range(max(len(old), len(new))):
        was, is_now = (part[at] if at < len(part) else None for part in (old, new))
        found += _of_values(was, is_now, f"{path}/{start + at}")
    return found


class Shown:
    """The places of one configuration that a plan changes, in the order in which it does."""

    def __init__(self) -> None:
        self._places: Dict[str, Difference] = {}

    def add(self, found: List[Difference]) -> None:
        """Adds what an edit changes, after those before it."""
        for place in found:
            first = self._places.get(place.path, place)
            self._places[place.path] = place._replace(before=first.before)

    def _changed(self) -> List[Difference]:
        """The places without those where what was there is there again."""
        return [place for place in self._places.values() if differences(place.before, place.after)]

    @property
    def before(self) -> Dict[str, Optional[Tree]]:
        return {place.path: place.before for place in self._changed()}

    @property
    def after(self) -> Dict[str, Optional[Tree]]:
        return {place.path: place.after for place in self._changed()}

    def texts(self) -> List[str]:
        """What Ansible shows with `--diff`: the places before and after, a line each where a value has one."""
        return [_text_of(side) for side in (self.before, self.after)]


def _text_of(side: Dict[str, Optional[Tree]]) -> str:
    """A side of what is shown. The whole configuration is its own text."""
    return "".join(to_text({path: tree} if path else tree) for path, tree in side.items() if tree is not None)
