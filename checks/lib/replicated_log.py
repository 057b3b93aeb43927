"""The log of a replicated store: random commands for it, and one session that performs all of it by itself."""

from __future__ import annotations

import random
from collections.abc import Sequence

from .replicated_cluster import Request
from .store_runs import PROGRAM

from confstore import Refused
from confstore_replicated.entries import NO_MARK, RESERVED, batch_of, change_in, refusal_of
from confstore_replicated.store import NodeStore

# Where the base and the entries of the log are in etcd, and the log: of each entry its number, its id and its bytes.
BASE = b"/confstore/default/base"
LOG = b"/confstore/default/log/"
Log = Sequence[tuple[int, str, bytes]]

# Commands and what they were answered, by their ids.
Answers = dict[str, tuple[Request, Request]]


def some_command(chance: random.Random, number: int) -> Request:
    """A command over few names, so that many are refused and many meet."""
    name = f"c{chance.randrange(6)}"
    kind = chance.randrange(10)
    if kind < 3:
        return {"import": name, "text": f"at: {number}\nlist: [a, b]\n"}
    if kind < 7:
        return {"set": name, "path": chance.choice(["/at", "/list/-", "/list/0", "/none/x"]), "value": str(number)}
    if kind < 8:
        return {"delete": name, "path": chance.choice(["", "/list/0", "/at"])}
    other = {"import": f"d{chance.randrange(3)}", "text": "[x]"}
    return {"batch": [{"set": name, "path": "/at", "value": str(number)}, other]}


def some_condition(chance: random.Random, number: int) -> Request:
    """A condition over the same names, that holds in some cases."""
    name = f"c{chance.randrange(6)}"
    conditions: list[Request] = [
        {"absent": name, "path": "/list/0"}, {"absent": name}, {"test": name, "path": "/list/0", "value": "a"},
        {"test": name, "path": "/list", "value": ["a", "b"]}, {"count": str(number)},
    ]  # fmt: skip
    return chance.choice(conditions)


def some_change(chance: random.Random, number: int) -> Request:
    """A command, under conditions in some cases."""
    conditions = [some_condition(chance, number) for _ in range(chance.choice((0, 0, 1, 1, 2)))]
    return {**({"if": conditions} if conditions else {}), **some_command(chance, number)}


def one_session(folder: str, log: Log) -> tuple[dict[str, Request], dict[str, str]]:
    """What one session answers to the log, and what it exports then."""
    answers: dict[str, Request] = {}
    before = 0
    store = NodeStore(folder, program=PROGRAM)
    with store:
        for number, identity, entry in log:
            (answer,) = store.perform([batch_of(change_in(entry)[0], number, before, NO_MARK)])
            if isinstance(answer, Refused):
                answers[identity] = {"refused": answer.word}
                (answer,) = store.perform([refusal_of(answer.word, number, before, NO_MARK)])
            else:
                answers[identity] = {"ok": str(answer)}
            before = number
            if isinstance(answer, Exception):
                raise answer
        return answers, {name: store.export(name) for name in store.names() if name != RESERVED}


class Checks:
    """What was looked at, and what went wrong, which is printed at once."""

    def __init__(self) -> None:
        self.passed = self.failed = 0

    def is_so(self, holds: bool, about: str) -> None:
        if holds:
            self.passed += 1
        else:
            self.failed += 1
            print(f"FAILED: {about}")

    def report(self) -> int:
        """Prints the last line. Returns the status."""
        print(f"{self.passed} passed, {self.failed} failed")
        return 1 if self.failed else 0
