"""`--parents` and `--insert` of confstorectl's `set`: the plain set that each is for a configuration as it is.

They mean what they mean for the program, which does them itself where there is no server.
"""

from __future__ import annotations

from typing import Optional, Sequence, Tuple

from .commands import is_pointer, set_of
from .ctl_asked import Asked
from .ctl_faults import Fault
from .ctl_sockets import Command
from .ctl_words import PARENTS
from .pointers import below, index_in, pointer_of, steps_of, value_at
from .style import Tree

# The step behind the last element of a list.
BEHIND = "-"

# How deep a configuration may be.
DEEPEST = 128

# The steps to a place, and the value that is set there.
Placed = Tuple[Sequence[str], Tree]


def placed(asked: Asked, value: Tree, tree: Tree) -> Command:
    """The command that puts a value where a `set` with one of these options says, into the configuration that is this
    tree. What it can't do is asked all the same, and refused by its name; but what is too deep may be so for a command,
    too, and is a `Fault` here."""
    name, pointer = asked.arguments["NAME"], asked.arguments["POINTER"]
    if not is_pointer(pointer):
        return set_of(name, pointer, value)
    steps = steps_of(pointer)
    above, whole = _with_parents(steps, value, tree) if asked.has(PARENTS) else _inserted(steps, value, tree)
    if len(above) < len(steps) and len(steps) + _depth_of(value) > DEEPEST:
        raise Fault("TooDeep")
    return set_of(name, pointer_of(above), whole)


def _depth_of(tree: Tree) -> int:
    """How deep a tree is: a text is 1 deep, and a collection 1 deeper than what is in it."""
    inner = tree.values() if isinstance(tree, dict) else tree if isinstance(tree, list) else ()
    return 1 + max(map(_depth_of, inner), default=0)


def _with_parents(steps: Sequence[str], value: Tree, tree: Tree) -> Placed:
    """Where a mapping lacks the key of a step, the set is there, and each step behind it is the only key of a new
    mapping, as it is. Else it is the plain set."""
    for number, step in enumerate(steps, 1):
        inner = below(tree, step)
        if inner is not None:
            tree = inner
        elif isinstance(tree, dict):
            return steps[:number], _nested(steps[number:], value)
        else:
            break
    return steps, value


def _nested(keys: Sequence[str], tree: Tree) -> Tree:
    """A tree inside mappings of one key each."""
    for key in reversed(keys):
        tree = {key: tree}
    return tree


def _inserted(steps: Sequence[str], value: Tree, tree: Tree) -> Placed:
    """Where the last step is a place of a list, the set is of the whole list, with the value there, as by the operation
    `add` of RFC 6902 (4.1). Else it is the plain set."""
    around = value_at(tree, steps[:-1])
    if not (steps and isinstance(around, list)):
        return steps, value
    place = len(around) if steps[-1] == BEHIND else index_in(steps[-1], len(around) + 1)
    if place is None:
        return steps, value
    return steps[:-1], [*around[:place], value, *around[place:]]
