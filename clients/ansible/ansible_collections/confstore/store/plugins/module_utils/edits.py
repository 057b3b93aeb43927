"""What a task wants, and the edits that a store lacks for it."""

from __future__ import annotations

from typing import Any, Callable, Dict, List, NamedTuple, Optional, Tuple

from ansible_collections.confstore.store.plugins.module_utils.differences import Shown, differences
from ansible_collections.confstore.store.plugins.module_utils.faults import Fault
from ansible_collections.confstore.store.plugins.module_utils.grounds import Condition, Grounds
from ansible_collections.confstore.store.plugins.module_utils.pointers import (
    BEHIND,
    Missing,
    child,
    found_at,
    pointer_of,
    steps_of,
    text_of_step,
    value_at,
)
from ansible_collections.confstore.store.plugins.module_utils.style import Tree, depth, same, to_text

# What a configuration may have: so many bytes in the one style, and so many levels.
LONGEST_CONFIG = 4_194_304
DEEPEST_CONFIG = 128

# Reads the configuration under a name, which is None where there is none.
Read = Callable[[str], Optional[Tree]]


class Wish(NamedTuple):
    """What a task wants at a path of a configuration: a tree, or nothing there. `has_parents` says that what is missing
    above the path is made. Where it is lacking, and the condition does not hold, the task fails."""

    name: str
    path: str
    tree: Optional[Tree]
    is_present: bool = True
    has_parents: bool = False
    condition: Optional[Condition] = None


class Edit(NamedTuple):
    """An edit as the store makes it: `import`, `set` or `delete`. An import has the empty path, a delete no tree."""

    kind: str
    name: str
    path: str
    tree: Optional[Tree]


def tree_of(value: Any, where: str = "") -> Tree:
    """The tree of a value of a task: an integer is its digits, and a boolean `true` or `false`. Raises `Fault` for what
    is none, as a number with a fraction, of which Ansible has dropped the spelling."""
    if where.count("/") > DEEPEST_CONFIG:
        raise Fault("TooDeep", "the value")
    if isinstance(value, bool):
        return "true" if value else "false"
    if isinstance(value, (str, int)):
        return _text_of(str(value), where)
    if isinstance(value, (list, tuple)):
        return [tree_of(item, f"{where}/{index}") for index, item in enumerate(value)]
    if isinstance(value, dict):
        keys = [_text_of(str(key), where) for key in value]
        return {key: tree_of(item, f"{where}/{text_of_step(key)}") for key, item in zip(keys, value.values())}
    kind = "null" if value is None else f"of type {type(value).__name__}"
    raise Fault("NotATree", f"the value at {where!r} is {kind}" if where else f"the value is {kind}")


def _text_of(text: str, where: str) -> str:
    try:
        text.encode()
    except UnicodeEncodeError:
        raise Fault("NotText", f"the value at {where!r}") from None
    return text


def _with(tree: Tree, step: str, value: Optional[Tree]) -> Tree:
    """A collection with a value at a step, or without the one that is there."""
    if isinstance(tree, list):
        end = len(tree) if step == BEHIND else int(step)
        return tree[:end] + ([] if value is None else [value]) + tree[end + 1 :]
    assert isinstance(tree, dict)
    if value is not None:
        return {**tree, step: value}
    return {key: old for key, old in tree.items() if key != step}


def edited(tree: Tree, steps: List[str], value: Optional[Tree]) -> Tree:
    """The tree with a value at a path that has steps, or without what is there. What is above the path is there."""
    above = [tree]
    for at, step in enumerate(steps[:-1]):
        above.append(child(above[-1], step, at))
    made = value
    for around, step in zip(reversed(above), reversed(steps)):
        made = _with(around, step, made)
    assert made is not None
    return made


class Plan:
    """What configurations were and would be, and the edits in between."""

    def __init__(self, read: Read) -> None:
        self.before: Dict[str, Optional[Tree]] = {}
        self.after: Dict[str, Optional[Tree]] = {}
        self.edits: List[Edit] = []
        self.conditions: List[Condition] = []  # of the edits
        self.shown: Dict[str, Shown] = {}  # what the edits change, by the names of the configurations
        self._grounds: Dict[str, Grounds] = {}
        self._read = read

    @property
    def grounds(self) -> List[Condition]:
        """What has to hold of the store for this plan to be right: all that it looked at is as it was."""
        return [condition for grounds in self._grounds.values() for condition in grounds.conditions()]

    def add(self, wish: Wish) -> None:
        """Adds the edits that a wish needs, after those before it. Raises `Fault` as the store would refuse them."""
        steps = steps_of(wish.name, wish.path)
        if wish.name not in self.before:
            self.before[wish.name] = self.after[wish.name] = self._read(wish.name)
            self._grounds[wish.name] = Grounds(wish.name, self.before[wish.name])
        made = len(self.edits)
        try:
            if not wish.is_present:
                self._remove(wish, steps)
            elif steps:
                self._put_at(wish, steps)
            else:
                self._put(wish.name, wish.tree)
        except Fault as fault:
            about = fault.about or f"{wish.path!r} of {wish.name!r}"
            raise Fault(fault.name, about, fault.place) from None
        if wish.condition is not None and len(self.edits) > made:
            self._require(wish.condition, steps)

    def _require(self, condition: Condition, steps: List[str]) -> None:
        """Adds a condition of an edit. Raises `Fault` where it does not hold of what was there before the task."""
        found = found_at(self.before[condition.name], steps)
        if not _is_same(found, condition.tree):
            raise Fault("Unmet", f"the condition on {condition.path!r} of {condition.name!r}")
        self.conditions.append(condition)

    def _make(self, edit: Edit, steps: List[str], after: Optional[Tree]) -> None:
        """Makes an edit at a place."""
        config = self.after[edit.name]
        around = found_at(config, steps[:-1]) if steps else None
        place = [*steps[:-1], str(len(around))] if isinstance(around, list) and steps[-1] == BEHIND else steps
        changed = differences(found_at(config, place), edit.tree, pointer_of(place))
        self.shown.setdefault(edit.name, Shown()).add(changed)
        if isinstance(around, list):
            self._grounds[edit.name].change_list(steps[:-1])
        self.edits.append(edit)
        self.after[edit.name] = after

    def _put(self, name: str, tree: Optional[Tree]) -> None:
        self._grounds[name].look([])
        before = self.after[name]
        assert tree is not None
        if before is None or not same(before, tree):
            self._make(Edit("import", name, "", tree), [], tree)

    def _put_at(self, wish: Wish, steps: List[str]) -> None:
        """Puts a tree at a path. Behind a list it is only put where the list has no equal element."""
        config, tree = self.after[wish.name], wish.tree
        assert tree is not None
        if config is None:
            if not wish.has_parents:
                raise Fault("NoConfig", f"{wish.path!r} of {wish.name!r}")
            self._put(wish.name, _nested(steps, tree))
            return
        steps, tree = _with_parents(config, steps, tree) if wish.has_parents else (steps, tree)
        self._grounds[wish.name].look(steps[:-1] if steps[-1] == BEHIND else steps)
        around = _around(config, steps)
        if steps[-1] == BEHIND and isinstance(around, list):
            if any(same(item, tree) for item in around):
                return
        elif _has(around, steps[-1], tree):
            return
        self._make(Edit("set", wish.name, pointer_of(steps), tree), steps, edited(config, steps, tree))

    def _remove(self, wish: Wish, steps: List[str]) -> None:
        """Takes out what is at a path, or of a list each element that is equal to a tree. What is missing stays so."""
        config = self.after[wish.name]
        around = steps[:-1]
        self._grounds[wish.name].look([] if config is None else around if wish.tree is not None else steps)
        if config is None:
            return
        if not steps:
            self._make(Edit("delete", wish.name, "", None), steps, None)
            return
        try:
            if wish.tree is not None:
                self._remove_equal(wish.name, around, wish.tree, value_at(config, around))
            else:
                value_at(config, steps)
                self._make(Edit("delete", wish.name, wish.path, None), steps, edited(config, steps, None))
        except Missing:
            pass

    def _remove_equal(self, name: str, steps: List[str], tree: Tree, around: Tree) -> None:
        """Takes the elements of a list that are equal to a tree out, from the last one on."""
        for index in reversed(range(len(around) if isinstance(around, list) else 0)):
            assert isinstance(around, list)
            config = self.after[name]
            assert config is not None
            if same(around[index], tree):
                place = [*steps, str(index)]
                self._make(Edit("delete", name, pointer_of(place), None), place, edited(config, place, None))


def _around(config: Tree, steps: List[str]) -> Tree:
    """The collection in which the last step of a path is to put a value."""
    try:
        around = value_at(config, steps[:-1])
        if not isinstance(around, dict) and not (isinstance(around, list) and steps[-1] == BEHIND):
            child(around, steps[-1], len(steps) - 1)
        return around
    except Missing:
        raise Fault("NoSuchPlace") from None


def _has(around: Tree, step: str, tree: Tree) -> bool:
    """Whether a step leads to an equal tree."""
    try:
        return same(child(around, step, 0), tree)
    except Missing:
        return False


def _nested(steps: List[str], tree: Tree) -> Tree:
    """A tree inside mappings, and lists where a step is `-`, one for each step."""
    for step in reversed(steps):
        tree = [tree] if step == BEHIND else {step: tree}
    return tree


def _with_parents(config: Tree, steps: List[str], tree: Tree) -> Tuple[List[str], Tree]:
    """The path to the first step that is missing, and what has to be there for the tree to be at the whole path."""
    try:
        value_at(config, steps)
        return steps, tree
    except Missing as missing:
        first = missing.step + 1
        return steps[:first], _nested(steps[first:], tree)


def check_limits(name: str, tree: Tree) -> None:
    """Raises `Fault` for a tree that no configuration may be."""
    if depth(tree) > DEEPEST_CONFIG:
        raise Fault("TooDeep", f"{name!r}")
    if len(to_text(tree).encode()) > LONGEST_CONFIG:
        raise Fault("ConfigLarge", f"{name!r}")


def plan_of(wishes: List[Wish], read: Read) -> Plan:
    """The plan of wishes, one after the other. Raises `Fault` for the first that can't be met."""
    plan = Plan(read)
    for wish in wishes:
        plan.add(wish)
    changed = [name for name, tree in plan.before.items() if not _is_same(tree, plan.after[name])]
    if not changed:
        plan.edits.clear()  # each edit was taken back by a later one
        plan.conditions.clear()
        plan.shown.clear()
    for name in changed:
        tree = plan.after[name]
        if tree is not None:
            check_limits(name, tree)
    return plan


def _is_same(tree: Optional[Tree], other: Optional[Tree]) -> bool:
    return tree is other or (tree is not None and other is not None and same(tree, other))
