"""The words `undo` and `rollback` of confstorectl: a change that takes back what other ones have changed."""

from __future__ import annotations

from typing import Dict, List, Optional, Tuple

from .commands import is_name
from .ctl_archives import history_of
from .ctl_asked import Asked, range_of
from .ctl_changes import conditions_of
from .ctl_check import NothingToChange, Planned, carry_out
from .ctl_exchange import Exchange
from .ctl_faults import Fault, shown
from .ctl_sockets import Command
from .ctl_words import TO_NUMBER
from .differences import are_same, edits_between
from .merging import taken_back
from .style import Tree

# How many places are named where something was changed since.
MOST_PLACES = 10

# The trees of a configuration before a change and after it.
Change = Tuple[Optional[Tree], Optional[Tree]]


def undo(asked: Asked) -> int:
    """Takes back what commands have changed, in the places that nothing has changed since. The status. Raises a
    `Fault`."""
    first, last = range_of(asked.arguments["N"])
    changes = _changes(asked, first, last)

    def plan(exchange: Exchange) -> Planned:
        trees = _trees_now(exchange, list(changes))
        return Planned(_batch_of(_undone(trees, changes), trees), trees)

    return carry_out(asked, plan, conditions_of(asked))


def _changes(asked: Asked, first: int, last: int) -> Dict[str, Change]:
    """What commands have changed, by the names. Raises a `Fault` where that is nothing."""
    wanted = asked.argument("NAME")
    if wanted and not is_name(wanted):
        raise Fault("BadName")
    history = history_of(asked)
    history.need(first - 1)
    history.need(last)
    names = [name for name in history.names_changed(first, last) if wanted in ("", name)]
    trees = {name: (history.tree_at(name, first - 1), history.tree_at(name, last)) for name in names}
    changes = {name: change for name, change in trees.items() if not are_same(*change)}
    if not changes:
        of_name = f" of {wanted}" if wanted else ""
        raise Fault("NothingToUndo", f"what is asked for has changed nothing{of_name}")
    return changes


def _trees_now(exchange: Exchange, names: List[str]) -> Dict[str, Optional[Tree]]:
    """The configurations as they are, but for one that its holder keeps for itself, as a replicated node does."""
    trees: Dict[str, Optional[Tree]] = {}
    for name in names:
        try:
            trees[name] = exchange.tree(name)
        except Fault as fault:
            if fault.kind != "BadName":
                raise
    return trees


def _undone(trees: Dict[str, Optional[Tree]], changes: Dict[str, Change]) -> Dict[str, Optional[Tree]]:
    """The configurations without the changes. Raises the `Fault` of a place that was changed since."""
    undone: Dict[str, Optional[Tree]] = {}
    places: List[str] = []
    for name, now in trees.items():
        before, after = changes[name]
        undone[name], changed = taken_back(before, after, now)
        places += [f"{name} {shown(path)}".strip() for path in changed]
    if places:
        more = len(places) - MOST_PLACES
        told = ", ".join(places[:MOST_PLACES]) + (f" and {more} more" if more > 0 else "")
        raise Fault("Unmet", f"changed since, so nothing was undone: {told}")
    return undone


def _batch_of(wanted: Dict[str, Optional[Tree]], trees: Dict[str, Optional[Tree]]) -> Command:
    """The batch that makes configurations of others. Raises `NothingToChange` where they are the same."""
    edits = [edit for name, tree in wanted.items() for edit in edits_between(name, trees[name], tree)]
    if not edits:
        raise NothingToChange
    return {"batch": edits}


def rollback(asked: Asked) -> int:
    """Makes a configuration what it was after a command. The status. Raises a `Fault`."""
    name = asked.arguments["NAME"]
    if not is_name(name):
        raise Fault("BadName")
    before = history_of(asked).tree_at(name, int(asked.options[TO_NUMBER.name]))
    now = Exchange(asked).tree(name)
    if before is None and now is None:
        raise Fault("NoConfig")

    def plan(_: Exchange) -> Planned:
        return Planned(_batch_of({name: before}, {name: now}), {name: now})

    try:
        return carry_out(asked, plan, conditions_of(asked), is_planned_once=True)
    except Fault as fault:
        if fault.kind == "Unmet" and fault.about is None and not are_same(Exchange(asked).tree(name), now):
            fault.about = f"{name} was changed meanwhile, so nothing was changed: look at it again"
        raise
