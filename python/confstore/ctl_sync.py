"""The word `sync` of confstorectl, and `--edits` of `import`: changes that are recorded as the edits that they make."""

from __future__ import annotations

import os
import time
from typing import Dict, List, NamedTuple, Optional

from .commands import import_of, is_name, set_of
from .conditions import Condition, Count, under
from .ctl_asked import Asked
from .ctl_changes import conditions_of, hold
from .ctl_check import NothingToChange, Plan, Planned, carry_out, differing_lines, judge_all
from .ctl_exchange import Exchange
from .ctl_faults import Fault, shown, unread
from .ctl_history import numbers_of
from .ctl_program import Source, styled
from .ctl_sockets import PATIENCE, Command
from .ctl_streams import read_text, write, write_error
from .ctl_words import DELETE_MISSING, DRY_RUN, EXPLAIN
from .differences import edits_between
from .style import Tree
from .trees import from_text

ENDING = ".yaml"


def command_of(name: str, now: Optional[Tree], text: bytes) -> Command:
    """The command that makes a configuration the tree of a text in the one style: the edits that make it of what is
    there now, or the import where that is one of them, or nothing stays. Raises `NothingToChange`."""
    whole, tree = import_of(name, text.decode()), from_text(text)
    edits = edits_between(name, now, tree)
    if not edits:
        raise NothingToChange
    return whole if edits[0] in (whole, set_of(name, "", tree)) else {"batch": edits}


def plan_of_import(name: str, text: bytes) -> Plan:
    """What imports a text in the one style by edits."""

    def plan(exchange: Exchange) -> Planned:
        now = exchange.tree(name)
        return Planned(command_of(name, now, text), {name: now})

    return plan


def import_edits(asked: Asked, text: bytes) -> int:
    """Imports a text in the one style by edits. The status. Raises a `Fault`."""
    name = asked.arguments["NAME"]
    if not is_name(name):
        raise Fault("BadName")
    return carry_out(asked, plan_of_import(name, text), conditions_of(asked))


# ---- a folder of files


class _Plan(NamedTuple):
    """What a folder would change: the edits, and each configuration that changes, as it is and as it would be."""

    edits: List[Tree]
    before: Dict[str, Optional[Tree]]
    after: Dict[str, bytes]


def sync(asked: Asked) -> int:
    """Makes the configurations what the files of a folder have. The status. Raises a `Fault`."""
    texts = _texts_of(asked)
    exchange, deadline = Exchange(asked), time.monotonic() + PATIENCE
    known: Optional[_Plan] = None
    while True:
        count = Count(numbers_of(asked.folder).last)
        plan = _plan(exchange, texts, asked.has(DELETE_MISSING))
        if known is None:
            known = plan
            _look_at(asked, exchange, plan)
        elif plan.edits != known.edits:
            raise Fault("Unmet", "the store was changed meanwhile, so that other edits are needed: nothing was changed")
        if asked.has(DRY_RUN) or not plan.edits:
            return 0
        try:
            exchange.ask(under([*conditions_of(asked), count], {"batch": plan.edits}))
            return 0
        except Fault as fault:
            if fault.kind != "Unmet" or numbers_of(asked.folder).last == count.number or time.monotonic() > deadline:
                raise


def _look_at(asked: Asked, exchange: Exchange, plan: _Plan) -> None:
    """Shows a plan, and has the command of `--check` look at what it gives. Raises a `Fault`."""
    conditions: List[Condition] = conditions_of(asked)
    if conditions and not hold(conditions, exchange.ask):
        raise Fault("Unmet")
    judge_all(asked, plan.after)
    write("".join(differing_lines(plan.before, plan.after)).encode())
    if not plan.edits:
        write_error("confstorectl: nothing changed\n")


def _texts_of(asked: Asked) -> Dict[str, bytes]:
    """The text in the one style of each file of the folder, by the name of its configuration. Raises a `Fault`."""
    folder, texts = asked.arguments["DIR"], {}
    try:
        files = sorted(entry.name for entry in os.scandir(folder) if entry.is_file() and _is_taken(entry.name))
    except OSError as error:
        raise unread(folder, error) from None
    for file in files:
        path, name = os.path.join(folder, file), file.removesuffix(ENDING)
        if not is_name(name):
            raise Fault("BadName", f"{shown(path)}: a name has 1 to 64 of a-z, 0-9, _ and -, a letter first")
        try:
            text = read_text(path)
        except OSError as error:
            raise unread(path, error) from None
        texts[name] = styled(text, Source(path, asked.has(EXPLAIN)))
    if not texts:
        raise Fault("NothingToImport", f"{shown(folder)} has no file NAME{ENDING}")
    return texts


def _is_taken(file: str) -> bool:
    return file.endswith(ENDING) and not file.startswith(".")


def _plan(exchange: Exchange, texts: Dict[str, bytes], is_whole: bool) -> _Plan:
    """What makes the store what the files say, where it has no more configurations if that is so `is_whole`."""
    there = exchange.names()
    plan = _Plan([], {}, {})
    for name, text in texts.items():
        now = exchange.tree(name) if name in there else None
        try:
            command = command_of(name, now, text)
        except NothingToChange:
            continue
        edits = command.get("batch", [command])
        assert isinstance(edits, list)
        plan.edits.extend(edits)
        plan.before[name], plan.after[name] = now, text
    for name in there if is_whole else ():
        if name not in texts:
            plan.before[name] = exchange.tree(name)
            plan.edits.extend(edits_between(name, plan.before[name], None))
    return plan
