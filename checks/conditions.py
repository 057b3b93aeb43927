#!/usr/bin/env python3
"""Random commands with conditions through the built program, beside the model of lib/store_model.py.

Each store gets some commands over few names. Most begin with conditions, of which some hold and some do not: a value
that is there or nearly is, a place that is empty or is not, the count or one beside it, names and pointers that can't
be ones, and lists that are no conditions. Each answer has to be the model's, and at the end the file has to mean the
state of the model: a record holds no condition. Every second session is one in groups.

    checks/conditions.py [COMMANDS]

It needs the built program and PyYAML, and takes some seconds for 10,000 commands with conditions. The last line is 'N
passed, M failed', and the status is 0 if M is 0.
"""

from __future__ import annotations

import json
import os
import random
import re
import sys
import tempfile
from collections import Counter
from collections.abc import Sequence
from typing import Any

from lib.answers import send
from lib.command_line import number_given
from lib.store_model import meaning
from lib.store_runs import GROUPED, SINGLE, Failures, need_program, read_file
from lib.trees import NAME, Configs, Document, Refused, as_json, as_tree, performed, value_at

# How many commands with conditions are sent, if no other number is given.
COMMANDS = 10_000
# How many commands a store gets.
LENGTH = 50
NAMES = ("a", "b", "c", "d", "Bad")
PATHS = ("", "/k", "/l", "/l/-", "/l/0", "/l/7", "/l/k", "/k/x", "no", "/~2")
VALUES: tuple[Any, ...] = ("x", "80", {"k": "v", "l": ["m", "n"]}, [], "", {"k": ["v"]}, {"l": ["m"]})
# What stands under `if` in a document that is no command.
NO_CONDITIONS: tuple[Any, ...] = (
    [], "x", {"count": "1"}, [[]], [{}], [{"count": "01"}], [{"count": "-1"}], [{"count": str(2**64)}],
    [{"test": "a", "value": "x"}], [{"path": "", "absent": "a"}], [{"count": "1", "path": ""}], [{"absent": ["a"]}],
)  # fmt: skip
COUNT = re.compile(r"[0-9]+")


def fault_of(configs: Configs, count: int, condition: Document) -> str | None:
    """Why a condition does not hold; `None` if it does."""
    if "count" in condition:
        return None if condition["count"] == str(count) else "Unmet"
    name = condition.get("test", condition.get("absent"))
    if not NAME.fullmatch(name):
        return "BadName"
    try:
        found = value_at(configs, name, condition.get("path", ""))
    except Refused:
        return "BadPath"
    if "absent" in condition:
        return None if found is None else "Unmet"
    return None if found == as_tree(condition["value"]) else "Unmet"


def some_name(chance: random.Random) -> str:
    return chance.choice(NAMES if chance.random() < 0.05 else NAMES[:4])


def some_edit(chance: random.Random) -> Document:
    name, path, value = some_name(chance), chance.choice(PATHS), chance.choice(VALUES)
    kind = chance.randrange(10)
    if kind < 4:
        return {"import": name, "text": json.dumps(value)}
    return {"set": name, "path": path, "value": value} if kind < 8 else {"delete": name, "path": path}


def some_condition(chance: random.Random, configs: Configs, count: int) -> Document:
    """A condition that may hold of this state, or nearly does."""
    name, path = some_name(chance), chance.choice(PATHS if chance.random() < 0.2 else PATHS[:8])
    kind = chance.randrange(8)
    if kind < 2:
        return {"count": str(max(count + chance.choice((0, 0, 0, 0, 1, -1)), 0))}
    if kind < 4:
        return {"absent": name, "path": path} if chance.random() < 0.8 else {"absent": name}
    value = chance.choice(VALUES)
    try:
        there = value_at(configs, name, path)
    except Refused:
        there = None
    if there is not None and chance.random() < 0.8:
        value = as_json(there)
    return {"test": name, "path": path, "value": value}


class Commands:
    """Random commands for a store, with what each has to be answered, and the state after all of them."""

    def __init__(self, chance: random.Random) -> None:
        self.texts: list[str] = []
        self.wanted: list[str] = []
        self.configs: Configs = {}
        self.count = self.conditional = 0
        for _ in range(LENGTH):
            self.add(chance)

    def add(self, chance: random.Random) -> None:
        is_batch = chance.random() < 0.4
        edits = [some_edit(chance) for _ in range(chance.choice((0, 1, 2, 3)) if is_batch else 1)]
        command: Document = {"batch": edits} if is_batch else edits[0]
        kind = chance.random()
        if kind < 0.05:
            self.note({"if": chance.choice(NO_CONDITIONS), **command}, "refused: BadCommand")
        elif kind < 0.2:
            self.perform(command, edits)
        else:
            conditions = [some_condition(chance, self.configs, self.count) for _ in range(chance.choice((1, 1, 2, 3)))]
            self.conditional += 1
            self.judge({"if": conditions, **command}, conditions, edits)

    def note(self, command: Document, wanted: str) -> None:
        self.texts.append(json.dumps(command) + "\n...\n")
        self.wanted.append(wanted)

    def judge(self, command: Document, conditions: Sequence[Document], edits: Sequence[Document]) -> None:
        """The command is performed if all conditions hold; otherwise the first that does not is answered."""
        for condition in conditions:
            fault = fault_of(self.configs, self.count, condition)
            if fault:
                self.note(command, f"refused: {fault}")
                return
        self.perform(command, edits)

    def perform(self, command: Document, edits: Sequence[Document]) -> None:
        try:
            self.configs = performed(self.configs, edits)
            self.count += 1
            self.note(command, f'ok: "{self.count}"')
        except Refused:
            self.note(command, "refused" if edits else "refused: EmptyBatch")


def try_store(chance: random.Random, top: str, words: Sequence[str], failures: Failures, about: str) -> Commands:
    """Sends random commands to a store, and looks at the answers and at what its file means."""
    folder = os.path.join(top, "folder")
    commands = Commands(chance)
    send(folder, words, commands.texts, commands.wanted, failures, about)
    configs, count, rest = meaning(read_file(os.path.join(folder, "store.yaml")))
    failures.expect(f"{about}: state", (configs, count, rest), (commands.configs, commands.count, 0))
    failures.expect(f"{about}: order", list(configs), list(commands.configs))
    return commands


def main() -> int:
    need_program()
    failures, done, number = Failures(), 0, 0
    answers: Counter[str] = Counter()
    wanted = number_given(1, COMMANDS)
    while done < wanted:
        with tempfile.TemporaryDirectory() as top:
            words = SINGLE if number % 2 else GROUPED
            commands = try_store(random.Random(number), top, words, failures, f"store {number}")
        done, number = done + commands.conditional, number + 1
        answers.update(COUNT.sub("N", wanted) for wanted in commands.wanted)
    counted = ", ".join(f"{count} {answer}" for answer, count in sorted(answers.items()))
    print(f"{done} commands with conditions in {number} stores; of all commands: {counted}")
    return failures.report()


if __name__ == "__main__":
    sys.exit(main())
