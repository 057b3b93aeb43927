#!/usr/bin/env python3
"""Random batches through the built program, beside the model of lib/store_model.py, refused ones among them.

Each store gets some batches and single edits over few names, so that names leave and come again, edits meet, and many
are refused: in the middle of a batch, too. After each command the answer says whether it was accepted, and at the end
the names and the texts have to be those of the model. Then the file is cut at random places, with zeros after some of
them: what opens has to be the state after some first commands, each whole.

    checks/batches.py [BATCHES]

It needs the built program and PyYAML, and takes about a minute for 4,000 batches. The last line is 'N passed, M
failed', and the status is 0 if M is 0.
"""

from __future__ import annotations

import json
import os
import random
import sys
import tempfile
from collections.abc import Callable, Sequence
from typing import Any

import yaml

from lib.answers import send
from lib.command_line import number_given
from lib.store_model import compose_all, meaning, tree_of
from lib.store_runs import GROUPED, SINGLE, Failures, need_program, read_file, session, write_file
from lib.trees import Configs, Document, Refused, as_json, performed

# PyYAML's function has no types.
compose: Callable[..., Any] = yaml.compose

# An edit as a session's command has it: its keys and values, each value as a text of YAML.
Edit = dict[str, str]

# How many batches are sent, if no other number is given.
BATCHES = 4_000
# How many commands a store gets, and how often its file is cut.
COMMANDS = 40
CUTS = 12
NAMES = ("a", "b", "c", "d", "Bad")
PATHS = ("", "/k", "/l/-", "/l/0", "/l/7", "/k/x", "no")
VALUES = ("x", "text of a value", '{k: v, l: [m, n]}', "[]", '"y"')


def some_edit(chance: random.Random) -> Edit:
    name = chance.choice(NAMES if chance.random() < 0.1 else NAMES[:4])
    kind = chance.randrange(10)
    if kind < 4:
        return {"import": name, "text": chance.choice(VALUES)}
    path = chance.choice(PATHS)
    if kind < 8:
        return {"set": name, "path": path, "value": chance.choice(VALUES)}
    return {"delete": name, "path": path}


def spelled(edit: Edit) -> list[str]:
    """The lines of an edit. The value of a set stands as it is, and all other texts are quoted."""
    return [f"{key}: {text if key == 'value' else json.dumps(text)}" for key, text in edit.items()]


def single(edit: Edit) -> str:
    return "\n".join(spelled(edit)) + "\n...\n"


def batch_of(edits: Sequence[Edit]) -> str:
    if not edits:
        return "batch: []\n...\n"
    lines = [("  - " if number == 0 else "    ") + line for edit in edits for number, line in enumerate(spelled(edit))]
    return "batch:\n" + "\n".join(lines) + "\n...\n"


def as_document(edit: Edit) -> Document:
    """An edit as the model has it: the values of its texts of YAML, and the text of an import in JSON."""
    values = {key: as_json(tree_of(compose(edit[key], yaml.CBaseLoader))) for key in ("text", "value") if key in edit}
    return {**edit, **values, **({"text": json.dumps(values["text"])} if "text" in edit else {})}


def look(folder: str) -> Configs | str:
    """The names of a store and the tree of each, as the program gives them, or what it says where it refuses it."""
    status, answers, errors = session(folder, b"names:\n...\n")
    if status:
        return errors
    names = yaml.load(answers, yaml.CBaseLoader)["names"]
    commands = "".join(f'get: {name}\npath: ""\n...\n' for name in names).encode()
    _, answers, _ = session(folder, commands)
    values = [tree_of(node) for node in compose_all(answers, yaml.CBaseLoader)]
    return {name: dict(value)["value"] for name, value in zip(names, values) if isinstance(value, tuple)}


def try_cuts(
    chance: random.Random, top: str, content: bytes, states: Sequence[Configs], failures: Failures, about: str
) -> None:
    """Opens prefixes of a file, some with zeros after them, and looks that each means a state that the store had."""
    for cut in range(CUTS):
        kept = chance.randrange(47, len(content) + 1)
        part = content[:kept] + b"\0" * chance.choice((0, 0, 1, 40))
        configs, count, _ = meaning(part)
        folder = os.path.join(top, f"cut{cut}")
        os.makedirs(folder, exist_ok=True)
        write_file(os.path.join(folder, "store.yaml"), part)
        found = look(folder)
        failures.expect(f"{about}, {kept} bytes", found, configs)
        failures.expect(f"{about}, {kept} bytes: a state that was", configs == states[count], True)


class Commands:
    """Random commands for a store, with what each has to be answered, and the states after those that are accepted."""

    def __init__(self, chance: random.Random) -> None:
        self.texts: list[str] = []
        self.wanted: list[str] = []
        self.states: list[Configs] = [{}]
        self.batches = self.refused = 0
        for _ in range(COMMANDS):
            self.add(chance)

    def add(self, chance: random.Random) -> None:
        is_batch = chance.random() < 0.8
        edits = [some_edit(chance) for _ in range(chance.choice((0, 1, 1, 2, 2, 3, 3, 4, 6)) if is_batch else 1)]
        self.texts.append(batch_of(edits) if is_batch else single(edits[0]))
        self.batches += is_batch
        try:
            self.states.append(performed(self.states[-1], [as_document(edit) for edit in edits]))
            self.wanted.append(f'ok: "{len(self.states) - 1}"')
        except Refused:
            self.wanted.append("refused" if edits else "refused: EmptyBatch")
            self.refused += is_batch


def try_store(
    chance: random.Random, top: str, words: Sequence[str], failures: Failures, about: str
) -> tuple[int, int]:
    """Sends random commands to a store. Returns how many batches there were, and how many of them were refused."""
    folder = os.path.join(top, "folder")
    commands = Commands(chance)
    send(folder, words, commands.texts, commands.wanted, failures, about)
    failures.expect(f"{about}: state", look(folder), commands.states[-1])
    failures.expect(f"{about}: order", list(look(folder)), list(commands.states[-1]))
    try_cuts(chance, top, read_file(os.path.join(folder, "store.yaml")), commands.states, failures, about)
    return commands.batches, commands.refused


def answered(failures: Failures, about: str, command: bytes, answer: str, size: int) -> None:
    """A session of one command in a new folder: its answer, and the size of the store after it beyond 47 bytes."""
    with tempfile.TemporaryDirectory() as folder:
        _, answers, _ = session(folder, command, SINGLE)
        found = (answers, os.path.getsize(os.path.join(folder, "store.yaml")) - 47)
        failures.expect(about, found, (f"---\n{answer}\n...\n".encode(), size))


def try_longest_record(failures: Failures) -> None:
    """Seven imports whose record has 67,108,864 bytes, the most that a file may add, and then one letter more."""
    items = b",".join([b"x"] * 1_048_576)
    lists = b"".join(b"- import: %c\n  text: \"[%s]\"\n" % (name, items) for name in b"abcdef")
    for letters, answer, size in ((4_194_110, 'ok: "1"', 67_108_864), (4_194_111, "refused: RecordLong", 0)):
        command = b"batch:\n" + lists + b"- import: g\n  text: " + b"z" * letters + b"\n...\n"
        answered(failures, f"a record with a text of {letters} letters", command, answer, size)


def main() -> int:
    need_program()
    failures, done, refused, number = Failures(), 0, 0, 0
    try_longest_record(failures)
    count = number_given(1, BATCHES)
    while done < count:
        with tempfile.TemporaryDirectory() as top:
            words = SINGLE if number % 2 else GROUPED
            more, others = try_store(random.Random(number), top, words, failures, f"store {number}")
        done, refused, number = done + more, refused + others, number + 1
    print(f"{done} batches in {number} stores, {refused} of them refused")
    return failures.report()


if __name__ == "__main__":
    sys.exit(main())
