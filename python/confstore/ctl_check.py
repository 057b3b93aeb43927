"""Changes of confstorectl that depend on what is there, or that are looked at before: by the command of `--check`,
which judges the configurations that a change would give, and by whoever reads what `--dry-run` writes."""

from __future__ import annotations

import difflib
import os
import subprocess
import tempfile
import time
from typing import Callable, Dict, Iterator, List, Mapping, NamedTuple, Optional, Sequence

from .commands import is_name, put_of
from .conditions import Absent, Condition, Test, under
from .ctl_asked import Asked
from .ctl_changes import hold, moving
from .ctl_exchange import Exchange
from .ctl_faults import Fault, TextFault, shown
from .ctl_program import program, run
from .ctl_sockets import PATIENCE, Command, SessionReply, answer_of
from .ctl_streams import write, write_error
from .ctl_words import CHECK, DRY_RUN, MOVE, MOVING, PLANNED, SHAPED
from .differences import are_same
from .pieces import Cutter
from .style import Tree, document, to_text

REFUSED = "CheckFailed"

# How much is shown of what a command said that has refused a text: its last lines, and the first signs of each.
LAST_LINES = 10
LONGEST_LINE = 300


class NothingToChange(Exception):
    """What a change is to give is there already."""


class Planned(NamedTuple):
    """A change, and the configurations that it was made for, each with its tree, or None where there is none."""

    command: Command
    trees: Dict[str, Optional[Tree]]

    @property
    def guards(self) -> List[Condition]:
        """The conditions under which they are as they were."""
        return [Absent(name) if tree is None else Test(name, "", tree) for name, tree in self.trees.items()]


# What makes a change for what is there.
Plan = Callable[[Exchange], Planned]


def judge(asked: Asked, name: str, text: bytes) -> None:
    """Has the command of `--check` look at the text of a configuration. Raises the `Fault` of one that it refuses."""
    command = asked.options[CHECK.name]
    more = {"CONFSTORE_NAME": name, "CONFSTORE_FOLDER": os.path.abspath(asked.folder)}
    try:
        done = subprocess.run(
            ["/bin/sh", "-c", command], input=text, stdout=subprocess.PIPE, stderr=subprocess.STDOUT, check=False,
            env={**os.environ, **more},
        )  # fmt: skip
    except OSError as error:
        raise Fault("NotStarted", f"/bin/sh can't be run: {error.strerror}") from None
    if done.returncode:
        how = f"status {done.returncode}" if done.returncode > 0 else f"signal {-done.returncode}"
        said = done.stdout.decode("utf-8", "replace").splitlines()[-LAST_LINES:]
        about = f"{shown(command)} ended with {how} on {name}, so nothing was changed"
        raise Fault(REFUSED, "\n".join([about, *(shown(line)[:LONGEST_LINE] for line in said)]))


def change(asked: Asked, command: Command, conditions: Sequence[Condition]) -> int:
    """Makes a change as `carry_out` does. The status. Raises a `Fault`."""
    return carry_out(asked, _plan_of(asked, command), conditions)


def carry_out(asked: Asked, plan: Plan, conditions: Sequence[Condition], *, is_planned_once: bool = False) -> int:
    """Makes a change once the command of `--check` has taken all configurations that it gives, or shows it. The status.
    Where one of these was changed meanwhile it begins again with another plan, unless there is one plan alone. Raises a
    `Fault`."""
    is_looked_at = any(asked.has(option) for option in PLANNED)
    if is_looked_at:
        program()  # it says what the change would give
    exchange, deadline = Exchange(asked), time.monotonic() + PATIENCE
    while True:
        try:
            planned = plan(exchange)
        except NothingToChange:
            return _changed_nothing(exchange, conditions)
        texts = _outcome_of(planned) if is_looked_at else {}
        judge_all(asked, texts)
        if asked.has(DRY_RUN):
            if conditions and not hold(conditions, exchange.ask):
                raise Fault("Unmet")
            write("".join(differing_lines(planned.trees, texts)).encode())
            return 0
        try:
            exchange.ask(under([*conditions, *planned.guards], planned.command))
            return 0
        except Fault as fault:
            if fault.kind != "Unmet" or is_planned_once or time.monotonic() > deadline:
                raise
            if all(are_same(exchange.tree(name), tree) for name, tree in planned.trees.items()):
                raise


def _changed_nothing(exchange: Exchange, conditions: Sequence[Condition]) -> int:
    if conditions and not hold(conditions, exchange.ask):
        raise Fault("Unmet")
    write_error("confstorectl: nothing changed\n")
    return 0


def judge_all(asked: Asked, texts: Mapping[str, bytes]) -> None:
    """Has the command of `--check`, if there is one, look at the texts of configurations. Raises a `Fault`."""
    for name, text in texts.items() if asked.has(CHECK) else ():
        judge(asked, name, text)


def differing_lines(before: Mapping[str, Optional[Tree]], after: Mapping[str, bytes]) -> Iterator[str]:
    """The lines that differ of each configuration that a change gives or removes."""
    for name, tree in before.items():
        old = to_text(tree) if tree is not None else ""
        new = after[name].decode() if name in after else ""
        files = name if tree is not None else "/dev/null", name if name in after else "/dev/null"
        yield from difflib.unified_diff(old.splitlines(keepends=True), new.splitlines(keepends=True), *files)


def _plan_of(asked: Asked, command: Command) -> Plan:
    """What makes the change for what is there."""
    if any(asked.has(option) for option in SHAPED):
        from .ctl_placing import placed

        def plan_of_place(exchange: Exchange) -> Planned:
            name = asked.arguments["NAME"]
            tree = exchange.tree(name)
            if tree is None:
                raise Fault("NoConfig")
            return Planned(placed(asked, command["value"], tree), {name: tree})

        return plan_of_place
    if asked.word not in MOVING:
        return lambda exchange: Planned(command, {name: exchange.tree(name) for name in _names_of(command)})
    source, target = asked.arguments["NAME"], asked.arguments["TO"]

    def plan(exchange: Exchange) -> Planned:
        tree = exchange.tree(source)
        if tree is None:
            raise Fault("NoConfig")
        trees: Dict[str, Optional[Tree]] = {source: tree}
        if asked.word is not MOVE and target != source:
            trees[target] = exchange.tree(target)
        return Planned(moving(asked, tree), trees)

    return plan


def _names_of(command: Command) -> List[str]:
    """The names of the configurations that a command may change."""
    edits = command.get("batch", [command])
    firsts = [next(iter(edit.values()), "") for edit in edits if isinstance(edit, dict)]
    return list(dict.fromkeys(name for name in firsts if isinstance(name, str) and is_name(name)))


def _outcome_of(planned: Planned) -> Dict[str, bytes]:
    """The texts of the configurations that a change may give, which the program makes in a store of its own. Raises the
    `Fault` of a change that it refuses."""
    commands: List[Command] = [put_of(name, tree) for name, tree in planned.trees.items() if tree is not None]
    commands.append(planned.command)
    commands += [{"export": name} for name in planned.trees]
    with tempfile.TemporaryDirectory(prefix="confstorectl-") as folder:
        ended = run(["run", "--", folder], b"".join(map(document, commands)))
    answers = Cutter().cut(ended.output)
    if len(answers) != len(commands):
        raise TextFault(ended.lines() or "confstorectl: BadAnswer: the program did not answer all\n", 3)
    texts: Dict[str, bytes] = {}
    for command, answer in zip(commands, answers):
        try:
            tree = answer_of(SessionReply(answer), command, program()).tree()
        except Fault as fault:
            if fault.kind == "NoConfig" and "export" in command:
                continue  # the change removes it
            raise
        if "export" in command:
            texts[str(command["export"])] = str(tree).encode()
    return texts
