"""Calls on a store without one of the allocations: what each returns, and what the store then holds.

The run is a list of orders to the probe, over a disk in memory: each call is made twice, and then the store is opened
again, twice. Then a checkpoint is written in slices, and commands are submitted while it runs, one by one and in a
round. A call that is refused memory has to leave the store as it was, also how many bytes of a running checkpoint are
left, and has to succeed when it is made again. A round that is refused memory says how many of its pieces are
performed. If the disk in memory runs out of memory for a change, the call returns `Device`; the store that is opened
then has to be in the state before the call or after it. If the program itself runs out of memory, for an order or an
answer, it ends with the status 1.
"""

from __future__ import annotations

import json
import re
from collections.abc import Sequence
from dataclasses import dataclass

from .lengths import SLICE, base_length, meant, record_length
from .refusals import BY_ITSELF, DONE, OUT_OF_MEMORY, WRONG, Run, Trial, of_probe
from .store_runs import STORE_PROBE

LOOK = ["count", "get;a;"]
OPEN = ["open", "open", *LOOK]
CALLS = ["import;a;x", "set;a;;z", "checkpoint", "delete;a;"]
# A checkpoint of two slices: it begins, and commands are submitted before the first one, and between the two.
SUBMITS = ["submit;1;set;a;;z", "submit;2;delete;a;", "submit;1;import;a;x"]
SLICED = ["import;a;*5000*", "begin", SUBMITS[0], "slice", *SUBMITS[1:], "slice"]
# A round, by its pieces' commands. The last one is a question.
ROUND = ["import;a;x", "set;a;;z", "names"]
ROUND_ORDER = r'round;import: a\ntext: x\n...\n;set: a\npath: ""\nvalue: z\n...\n;names:\n...\n'
# The calls that take no memory of their own: each is made once.
ONCE = ["slice"]
ORDERS = ["folder", *OPEN] + [order for call in CALLS for order in [call, *LOOK, call, *LOOK, *OPEN]]
ORDERS += [order for call in SLICED for order in [call, "running", *LOOK] * (1 if call in ONCE else 2)]
ORDERS += ["slice", SUBMITS[0], "flush", "running", *OPEN]
ORDERS += ["import;a;*5000*", "begin", "slice", ROUND_ORDER, *LOOK, ROUND_ORDER, "slice", "running", *OPEN]
# What is answered to a call that was refused memory. A path, and the tree of a set, are read by the probe itself; so is
# the text of an import that is submitted.
REFUSED = ("OutOfMemory", "Path(OutOfMemory)", "Read(OutOfMemory)")


@dataclass(frozen=True)
class State:
    """A count, the value of `a`, and how many bytes of a running checkpoint are left."""

    count: int = 0
    value: str | None = None
    left: int | None = None

    def shown(self, order: str) -> str:
        """The answer to a look."""
        if order == "count":
            return str(self.count)
        return "NoConfig" if self.value is None else f'Text("{self.value}")'

    def after(self, call: str) -> tuple[str, State]:
        """The answer to a call with memory, and the state after it."""
        if call == "flush":
            return "done", self
        if call == "checkpoint":
            return "done", State(self.count, self.value)
        if call == "begin":
            length = base_length(self.count, {} if self.value is None else {"a": self.value})
            return "done", State(self.count, self.value, length)
        if call == "slice":
            left = (self.left or 0) - SLICE
            if left <= 0:
                return "done", State(self.count, self.value)
            return f"left {left}", State(self.count, self.value, left)
        if call == ROUND_ORDER:
            states = self.in_round()
            answers = [f'ok: "{states[1].count}"', f'ok: "{states[2].count}"', "names:\n  - a"]
            text = "".join(f"---\n{answer}\n...\n" for answer in answers)
            return f"3 answers {json.dumps(text)}", states[-1]
        return self.after_command(call)

    def after_command(self, call: str) -> tuple[str, State]:
        words = call.split(";")
        kind, *rest = words = meant(words[2:] if words[0] == "submit" else words)
        if kind == "names":
            return "a", self
        if self.value is None and kind != "import":
            return "NoConfig", self
        count = self.count + 1
        left = self.left if self.left is None else self.left + record_length(count, words)
        return str(count), State(count, None if kind == "delete" else rest[-1], left)

    def in_round(self) -> list[State]:
        """The states after each number of pieces of the round."""
        states = [self]
        for command in ROUND:
            states.append(states[-1].after_command(command)[1])
        return states


class Store:
    """What the store has to hold: the states that it may be in."""

    def __init__(self) -> None:
        self.states = [State()]
        self.is_open = self.needs_reopen = False

    def allows(self, order: str, answer: str) -> bool:
        """Whether the answer to an order is right. The store is then the one after it."""
        if order == "folder":
            return answer == "no file"
        if order == "open":
            return self.allows_open(answer)
        if not self.is_open:
            return answer == "no store is open"
        if order in LOOK:
            return answer in REFUSED or self.allows_look(order, answer)
        runs = self.states[0].left is not None
        if order == "running":
            return answer == ("true" if runs else "false")
        if order == "begin" and runs:
            return answer == "a checkpoint runs"
        if order == "slice" and not runs:
            return answer == "no checkpoint runs"
        return self.allows_call(order, answer)

    def allows_open(self, answer: str) -> bool:
        self.is_open = answer.startswith("commands ") and answer.endswith(", dropped 0")
        self.needs_reopen = False
        self.states = list(dict.fromkeys(State(state.count, state.value) for state in self.states))
        return self.is_open or answer in (*REFUSED, "Device")

    def allows_look(self, order: str, answer: str) -> bool:
        """The answer is of a state that the store may be in. Only such ones stay, unless it has to be opened again."""
        states = [state for state in self.states if answer == state.shown(order)]
        if not self.needs_reopen:
            self.states = states
        return bool(states)

    def allows_call(self, call: str, answer: str) -> bool:
        if self.needs_reopen or answer in REFUSED:
            return answer == "Reopen" if self.needs_reopen else True
        (before,) = self.states
        if call == ROUND_ORDER and (cut := re.fullmatch(r"OutOfMemory \{ performed: ([0-3]) \}", answer)):
            self.states = [before.in_round()[int(cut[1])]]
            return True
        right, after = before.after(call)
        if answer == "Device":
            self.needs_reopen = True
            self.states = list(dict.fromkeys(before.in_round() if call == ROUND_ORDER else [before, after]))
            return True
        self.states = [after]
        return answer == right


def outcome(run: Run, status: int, answers: Sequence[str]) -> str:
    """How a run ended. Each of its answers has to be right; after a wrong one the others are not looked at."""
    store = Store()
    for number, (order, answer) in enumerate(zip(ORDERS, answers)):
        is_right = store.allows(order, answer)
        run.expect(f"{number} {order}: {answer}", is_right, True)
        if not is_right:
            return WRONG
    if status == 1:
        return BY_ITSELF
    run.expect("status and answers", (status, len(answers)), (0, len(ORDERS)))
    if any(answer in REFUSED or answer.startswith("OutOfMemory") for answer in answers):
        return OUT_OF_MEMORY
    return "answered by the device" if "Device" in answers else DONE


CALLS_ON_A_STORE = Trial("calls on a store", of_probe(STORE_PROBE, ORDERS, outcome))
