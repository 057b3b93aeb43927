"""What confstorectl asks of a server to change its store: the conditions, and changes that depend on what is there, as
those of the words `copy`, `rename` and `move`."""

from __future__ import annotations

import time
from typing import Callable, List, Optional, Sequence

from .commands import delete_of, get_of, is_pointer, set_of
from .conditions import Condition, Test, at_place, move_of, under
from .ctl_asked import Asked
from .ctl_faults import Fault
from .ctl_sockets import PATIENCE, Command, Reply
from .ctl_words import COPY, IF_ABSENT, IF_COUNT, IF_VALUE, MOVE, REPLACE
from .mapping import MISSING
from .pointers import steps_of, value_at
from .style import Tree

# Asks a command. Raises the `Fault` of one that is refused.
Ask = Callable[[Command], Reply]


def conditions_of(asked: Asked) -> List[Condition]:
    """What has to hold for a word to change the store, at the place that it changes. A copy replaces nothing, unless the
    words say so."""
    absent = asked.has(IF_ABSENT) or (asked.word is COPY and not asked.has(REPLACE) and not asked.has(IF_VALUE))
    if not absent and not any(asked.has(option) for option in (IF_VALUE, IF_COUNT)):
        return []
    if asked.word is MOVE:
        name, pointer = asked.arguments["NAME"], asked.arguments["TO"]
    else:
        name, pointer = asked.argument("TO") or asked.argument("NAME"), asked.argument("POINTER")
    value = asked.options.get(IF_VALUE.name, MISSING)
    count: Optional[int] = int(asked.options[IF_COUNT.name]) if asked.has(IF_COUNT) else None
    return at_place(name, pointer, value, absent, count)


def change_read(asked: Asked, change: Callable[[Tree], Command], ask: Ask) -> None:
    """Makes the change of a configuration that is one for its tree, as it is read. It is made while the configuration is
    still that; else it is tried again."""
    source, conditions, deadline = asked.arguments["NAME"], conditions_of(asked), time.monotonic() + PATIENCE
    while True:
        if conditions and not hold(conditions, ask):
            raise Fault("Unmet")
        tree = ask(get_of(source, "")).tree()
        command = change(tree)
        try:
            ask(under([*conditions, Test(source, "", tree)], command))
            return
        except Fault as fault:
            if fault.kind != "Unmet" or time.monotonic() > deadline:
                raise


def moving(asked: Asked, tree: Tree) -> Command:
    """The command of a `copy`, a `rename` or a `move` for the configuration that is this tree."""
    name, target = asked.arguments["NAME"], asked.arguments["TO"]
    if asked.word is MOVE:
        return moved(name, asked.arguments["FROM"], target, tree)
    return move_of(asked.word.name, name, target, tree)


def moved(name: str, source: str, target: str, tree: Tree) -> Command:
    """The command that takes a value of the configuration that is this tree to another pointer. What it can't do is
    asked all the same, and refused by its name."""
    value = value_at(tree, steps_of(source)) if is_pointer(source) else None
    if value is None:
        return delete_of(name, source)
    if source == target:
        return set_of(name, target, value)
    return {"batch": [delete_of(name, source), set_of(name, target, value)]}


def hold(conditions: Sequence[Condition], ask: Ask) -> bool:
    """Whether conditions hold. It asks for an empty batch, which is refused after they were looked at."""
    try:
        ask(under(conditions, {"batch": []}))
    except Fault as fault:
        if fault.kind not in ("Unmet", "EmptyBatch"):
            raise
        return fault.kind == "EmptyBatch"
    return True
