"""Commands on a state without one of the allocations: what each returns, and what the state then holds.

The run is a list of orders to the probe. For each command the state before it is taken from a base, and the command is
performed twice, with a look at the state after each. A command that is refused memory has to leave the state as it was,
and has to succeed when it is performed again. If the program itself runs out of memory, for an order, a record or an
answer, it ends with the status 1.
"""

from __future__ import annotations

from collections.abc import Sequence

from .refusals import BY_ITSELF, DONE, OUT_OF_MEMORY, Run, Trial, of_probe
from .store_runs import STATE_PROBE

# What a command is answered that was refused memory.
REFUSED = "OutOfMemory"

# A command, the numbers of the states before and after it, and what it is answered.
Command = tuple[str, int, int, str]

# A state: its count, and the configurations as a base has them and as they are in the one style.
TWO = ("{a/b: [x, z]}", r"a/b:\n  - x\n  - z\n")
THREE = ("{a/b: [x, z], e: w}", r"a/b:\n  - x\n  - z\ne: w\n")
DEEP = ("[[{a/b: [x]}]]", r"- - a/b:\n      - x\n")
STATES: list[tuple[int, dict[str, tuple[str, str]]]] = [
    (0, {}),
    (1, {"c": ("{a/b: [x]}", r"a/b:\n  - x\n")}),
    (2, {"c": TWO}),
    (3, {"c": TWO, "d": ("[[x]]", r"- - x\n")}),
    (4, {"c": TWO, "d": DEEP}),
    (5, {"c": THREE, "d": DEEP}),
    (6, {"c": ("{a/b: [z], e: w}", r"a/b:\n  - z\ne: w\n"), "d": DEEP}),
    (7, {"d": DEEP}),
]
COMMANDS: list[Command] = [
    ("{at: 1, import: c, tree: {a/b: [x]}}", 0, 1, "1"),
    ("{at: 2, set: c, path: '/a~1b/-', value: z}", 1, 2, "2"),
    ("{at: 3, set: c, path: '/a~1b/2', value: y}", 2, 2, "Path(NoSuchPlace { step: 2 })"),
    ("{at: 3, import: d, tree: [[x]]}", 2, 3, "3"),
    ("{at: 4, set: d, path: '/0/0', value: {a/b: [x]}}", 3, 4, "4"),
    ("{at: 5, set: c, path: '/e', value: w}", 4, 5, "5"),
    ("{at: 6, delete: c, path: '/a~1b/0'}", 5, 6, "6"),
    ("{at: 7, delete: c, path: ''}", 6, 7, "7"),
]


def opening(number: int) -> str:
    """The order that takes a state from its base."""
    count, configs = STATES[number]
    shown = ", ".join(f"{name}: {flow}" for name, (flow, _) in configs.items())
    return f"open;{{store: confstore-2, at: {count}, configs: {{{shown}}}}}"


def shown(number: int) -> str:
    """The answer to a look at a state."""
    count, configs = STATES[number]
    return " ".join([str(count), *(f'{name} "{text}"' for name, (_, text) in configs.items())])


def orders_of(command: Command) -> list[str]:
    """The orders that perform a command twice, with a look at the state after each."""
    text, before, _, _ = command
    return [opening(before), f"perform;{text}", "show", f"perform;{text}", "show"]


ORDERS = [order for command in COMMANDS for order in orders_of(command)]


def is_right(command: Command, answers: Sequence[str]) -> bool:
    """Whether the answers to a command's orders, as many as came before the program ended, are right."""
    _, before, after, answer = command
    wanted = [str(STATES[before][0]), answer, shown(after)]
    if answers[1:2] == [REFUSED]:
        wanted = [wanted[0], REFUSED, shown(before), *wanted[1:]]
    return answers[: len(wanted)] == wanted[: len(answers)]


def outcome(run: Run, status: int, answers: Sequence[str]) -> str:
    """How a run ended. The answers to each command have to be right."""
    for number, command in enumerate(COMMANDS):
        own = answers[5 * number : 5 * number + 5]
        run.expect(f"{command[0]}: {own}", is_right(command, own), True)
    if status == 1:
        return BY_ITSELF
    run.expect("status and answers", (status, len(answers)), (0, len(ORDERS)))
    return OUT_OF_MEMORY if REFUSED in answers else DONE


COMMANDS_ON_A_STATE = Trial("commands on a state", of_probe(STATE_PROBE, ORDERS, outcome))
