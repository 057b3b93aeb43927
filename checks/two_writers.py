#!/usr/bin/env python3
"""Two and three writers on one store at once, through clients/serve.py: tasks of the Ansible collection (with the
Python package and without it), calls of the package, and words of confstorectl.

What they leave, and what each of them says that it did, has to be what they would have left and said one after the
other, in some order. So nothing is lost, comes twice or is deleted that no command said. The order is searched for with
a model of each operation, which is here and no part of what is tried.

- **Between.** For each two operations the second one is done right between a read and the change of the first one.
- **At once.** Hundreds of rounds of two or three random operations, each in a thread of its own.
- **Without end.** Somebody comes between each time: a task, a call and a word end in time, say so, and change nothing.

Run it from the repository's root after the program is built; it needs PyYAML, and ansible-core for the tasks, and takes
a minute:

    ./prove && python3 checks/two_writers.py [ROUNDS]

A seed is printed, and may follow. The last line is 'N passed, M failed', and the status is 0 if M is 0.
"""

from __future__ import annotations

import contextlib
import copy
import itertools
import os
import random
import subprocess
import sys
import tempfile
import threading
import time
from collections.abc import Callable, Iterator, Sequence
from typing import Any, NamedTuple
from unittest import mock

from lib.store_runs import PROGRAM, TOP, Failures, need_program
from lib.tasks import Options, edit, module, stores

os.environ["CONFSTORE"] = PROGRAM

from confstore import NoConfig, NoSuchPlace, Store, Tree, Unmet, ctl  # noqa: E402
from confstore.ctl_sockets import Connection  # noqa: E402

ROUNDS = 400
PATIENCE = 30

# The longest time in seconds by which an operation starts after another one, and how long one without end may take.
JITTER = 0.004
SHORT = 0.5

State = dict[str, Any]
Outcome = object


class Operation(NamedTuple):
    """What a writer does: it returns what it says of it, and the model returns that too, with the state then."""

    about: str
    run: Callable[[str], Outcome]
    model: Callable[[State], tuple[Outcome, State]]


# ---- Tasks of Ansible


def task(socket: str, /, **options: Any) -> Outcome:
    """Whether a task on `web` has changed something, and what was there; or the fault's name."""
    try:
        result = module.result_of_run(Options(socket=socket, name="web", **options))
    except stores.Fault as fault:
        return fault.name
    return result["changed"], result["before"].get("web", {})


def task_of(about: str, model: Callable[[State], tuple[Outcome, State]], **options: Any) -> Operation:
    return Operation(f"task {about}", lambda socket: task(socket, **options), model)


def hosts_of(state: State) -> "list[Any] | None":
    """The list that most operations are about, or None."""
    return state["web"].get("hosts") if "web" in state else None


def with_web(state: State, **places: Any) -> State:
    """The state with other values in `web`; None takes one out."""
    web = {**state.get("web", {}), **places}
    return {**state, "web": {key: value for key, value in web.items() if value is not None}}


def puts_once(value: str) -> Operation:
    def model(state: State) -> tuple[Outcome, State]:
        hosts = hosts_of(state)
        if hosts is None:
            return ("NoSuchPlace" if "web" in state else "NoConfig"), state
        if value in hosts:
            return (False, {}), state
        return (True, {f"/hosts/{len(hosts)}": None}), with_web(state, hosts=[*hosts, value])

    return task_of(f"puts {value} once", model, path="/hosts/-", value=value)


def takes_value(value: str) -> Operation:
    def model(state: State) -> tuple[Outcome, State]:
        hosts = hosts_of(state) or []
        found = {f"/hosts/{at}": value for at, one in enumerate(hosts) if one == value}
        if not found:
            return (False, {}), state
        return (True, found), with_web(state, hosts=[one for one in hosts if one != value])

    return task_of(f"takes {value} out", model, path="/hosts/-", value=value, state="absent")


def takes_first() -> Operation:
    def model(state: State) -> tuple[Outcome, State]:
        hosts = hosts_of(state)
        if not hosts:
            return (False, {}), state
        return (True, {"/hosts/0": hosts[0]}), with_web(state, hosts=hosts[1:])

    return task_of("takes the first one out", model, path="/hosts/0", state="absent")


def puts_below(key: str) -> Operation:
    def model(state: State) -> tuple[Outcome, State]:
        if "web" not in state:
            return (True, {"": None}), {**state, "web": {"tls": {key: key}}}
        tls = state["web"].get("tls")
        if tls is None:
            return (True, {"/tls": None}), with_web(state, tls={key: key})
        if tls.get(key) == key:
            return (False, {}), state
        return (True, {f"/tls/{key}": None}), with_web(state, tls={**tls, key: key})

    return task_of(f"puts {key} with parents", model, path=f"/tls/{key}", value=key, parents=True)


def puts_number(value: str) -> Operation:
    def model(state: State) -> tuple[Outcome, State]:
        if "web" not in state:
            return "NoConfig", state
        old = state["web"].get("n")
        return ((False, {}), state) if old == value else ((True, {"/n": old}), with_web(state, n=value))

    return task_of(f"puts n {value}", model, path="/n", value=value)


def takes_all() -> Operation:
    def model(state: State) -> tuple[Outcome, State]:
        if "web" not in state:
            return (False, {}), state
        return (True, {"": state["web"]}), {name: tree for name, tree in state.items() if name != "web"}

    return task_of("takes web out", model, state="absent")


def puts_two(value: str) -> Operation:
    def model(state: State) -> tuple[Outcome, State]:
        hosts = hosts_of(state)
        if hosts is None:
            return ("NoSuchPlace" if "web" in state else "NoConfig"), state
        before = {} if value in hosts else {f"/hosts/{len(hosts)}": None}
        after = with_web(state, hosts=hosts if value in hosts else [*hosts, value], tls=None)
        before |= {"/tls": state["web"]["tls"]} if "tls" in state["web"] else {}
        return (bool(before), before), after

    edits = [edit(path="/hosts/-", value=value), edit(path="/tls", state="absent")]
    return task_of(f"puts {value} once and takes tls out", model, edits=edits)


# ---- Calls of the package and words of confstorectl


def call(about: str, does: Callable[[Store], Outcome], model: Callable[[State], tuple[Outcome, State]]) -> Operation:
    """A call of the package, with what it returns, or the name of what it raises."""

    def run(path: str) -> Outcome:
        with Store.connect(path) as store:
            try:
                return does(store)
            except (NoConfig, NoSuchPlace) as fault:
                return fault.word

    return Operation(f"call {about}", run, model)


def pops() -> Operation:
    def model(state: State) -> tuple[Outcome, State]:
        return state.get("mail"), {name: tree for name, tree in state.items() if name != "mail"}

    return call("pops mail", lambda store: store.pop("mail", None), model)


def sets_default(host: str) -> Operation:
    tree: Tree = {"hosts": [host], "n": "3"}

    def model(state: State) -> tuple[Outcome, State]:
        return state.get("mail", tree), {"mail": tree, **state}

    return call(f"sets the default {host}", lambda store: store.setdefault("mail", tree), model)


def adds() -> Operation:
    def does(store: Store) -> Outcome:
        store.update("web", "/n", lambda number: str(int(str(number)) + 1))
        return "added"

    def model(state: State) -> tuple[Outcome, State]:
        if "web" not in state:
            return "NoConfig", state
        number = state["web"].get("n")
        return ("NoSuchPlace", state) if number is None else ("added", with_web(state, n=str(int(number) + 1)))

    return call("adds one", does, model)


def word(model: Callable[[State], "State | None"], *words: str) -> Operation:
    """A word of confstorectl. Its model is what it leaves, or None where it is refused. The folder doesn't count."""

    def run(path: str) -> Outcome:
        return ctl.perform_words(["--socket", path, words[0], "S", *words[1:]])

    def all_of_it(state: State) -> tuple[Outcome, State]:
        left = model(state)
        return (1, state) if left is None else (0, left)

    return Operation(f"word {' '.join(words)}", run, all_of_it)


def moved(state: State, source: str, target: str) -> "State | None":
    left = {name: tree for name, tree in state.items() if name != source}
    return {**left, target: state[source]} if source in state else None


def appended(state: State) -> "State | None":
    hosts = hosts_of(state)
    return None if hosts is None else with_web(state, hosts=[*hosts, "c"])


def without_first(state: State) -> "State | None":
    hosts = hosts_of(state)
    return with_web(state, hosts=hosts[1:]) if hosts else None


def set_to_seven(state: State) -> "State | None":
    return with_web(state, n="7") if state.get("web", {}).get("n") == "1" else None


def operations() -> list[Operation]:
    of_others = [
        pops(), sets_default("x"), sets_default("y"), adds(),
        word(lambda state: {**state, "mail": state["web"]} if "web" in state else None, "copy", "web", "mail", "--replace"),
        word(lambda state: moved(state, "mail", "web"), "rename", "mail", "web"),
        word(lambda state: moved(state, "web", "mail"), "rename", "web", "mail"),
        word(appended, "set", "web", "/hosts/-", "c"), word(without_first, "delete", "web", "/hosts/0"),
        word(set_to_seven, "set", "web", "/n", "7", "--if-value", "1"),
    ]  # fmt: skip
    of_ansible = [
        puts_once("c"), puts_once("d"), takes_value("b"), takes_first(), puts_below("key"), puts_below("cert"),
        puts_number("7"), takes_all(), puts_two("c"),
    ]  # fmt: skip
    return of_others + (of_ansible if module is not None else [])


# Where operations begin. Each configuration that a word may move there is one that the others can be about.
STARTS: list[State] = [
    {"web": {"hosts": ["a", "b"], "n": "1"}, "mail": {"hosts": ["b", "c"], "n": "5"}},
    {"web": {"hosts": ["b", "a", "b", "c"], "n": "1", "tls": {"key": "key"}}},
    {"mail": {"hosts": [], "n": "7"}},
    {"web": {"n": "1"}},
    {},
]


# ---- Rounds


class Round:
    """A round on a store: where it begins, and what its operations leave and say."""

    def __init__(self, held: Store, path: str, failures: Failures) -> None:
        self._held, self.path, self._failures = held, path, failures

    def begin(self, start: State) -> None:
        with self._held.batch() as batch:
            for name in self._held.names():
                batch.delete(name)
            for name, tree in start.items():
                batch.put(name, tree)

    def judge(self, about: str, start: State, done: Sequence[tuple[Operation, Outcome]]) -> None:
        """Looks for an order in which the operations leave and say what they did."""
        left = dict(self._held)
        is_so = any(self._is_explained(order, start, left) for order in itertools.permutations(done))
        said = "; ".join(f"{operation.about}: {outcome}" for operation, outcome in done)
        self._failures.expect(f"{about}, of {start}: {said}", left if not is_so else "explained", "explained")

    @staticmethod
    def _is_explained(order: Sequence[tuple[Operation, Outcome]], start: State, left: State) -> bool:
        state = copy.deepcopy(start)
        for operation, outcome in order:
            wanted, state = operation.model(state)
            if outcome != wanted:
                return False
        return state == left


@contextlib.contextmanager
def between(number: int, other: Callable[[], None]) -> Iterator[list[int]]:
    """Has something done right after read number `number` of whoever reads: a task, a call or a word."""
    reads: list[int] = []

    def after(reads_it: Callable[..., Any]) -> Callable[..., Any]:
        def wrapped(*arguments: Any) -> Any:
            try:
                return reads_it(*arguments)
            finally:
                reads.append(1)
                if len(reads) == number or number == 0:
                    other()

        return wrapped

    with contextlib.ExitStack() as stack:
        places: list[tuple[Any, str]] = [(Store, "_read_at"), (Connection, "ask")]
        if module is not None:
            places.append((stores.BySession, "read"))
        for place, name in places:
            stack.enter_context(mock.patch.object(place, name, after(getattr(place, name))))
        yield reads


def begun(operation: Operation, path: str, said: dict[int, Outcome], number: int, wait: float) -> threading.Thread:
    """An operation that begins after so many seconds, in a thread of its own."""

    def run() -> None:
        time.sleep(wait)
        said[number] = operation.run(path)

    thread = threading.Thread(target=run, daemon=True)
    thread.start()
    return thread


def try_between(round_of: Round, choices: random.Random) -> None:
    """Each operation that reads and then changes, with each one right between. A task reads before it opens the store,
    too."""
    reading = [one for one in operations() if one.about.split()[:2] not in (["word", "set"], ["word", "delete"])]
    for first, second in itertools.product(reading, operations()):
        for number in (1, 2) if first.about.startswith("task") else (1,):
            start, said = choices.choice(STARTS), []
            round_of.begin(start)
            with between(number, lambda: said.append((second, second.run(round_of.path)))):
                outcome = first.run(round_of.path)
            round_of.judge(f"after read {number}", start, [(first, outcome), *said])


def together(chosen: Sequence[Operation], path: str, choices: random.Random) -> list[tuple[Operation, Outcome]]:
    """Operations that begin at about the same time, each with what it says."""
    said: dict[int, Outcome] = {}
    threads = [begun(one, path, said, number, choices.random() * JITTER) for number, one in enumerate(chosen)]
    for thread in threads:
        thread.join(PATIENCE)
    return [(operation, said.get(number, "goes on")) for number, operation in enumerate(chosen)]


def try_at_once(round_of: Round, choices: random.Random, rounds: int) -> None:
    all_of_them = operations()
    for _ in range(rounds):
        start, chosen = choices.choice(STARTS), choices.choices(all_of_them, k=choices.choice((2, 2, 3)))
        round_of.begin(start)
        round_of.judge("at once", start, together(chosen, round_of.path, choices))


def try_without_end(held: Store, path: str, failures: Failures) -> None:
    """Somebody comes between each time."""
    numbers = itertools.count()

    def disturb() -> None:
        held.put("web", {"hosts": [f"h{next(numbers)}"], "n": str(next(numbers))})

    def update() -> None:
        with Store.connect(path) as store:
            store._timeout = SHORT
            store.update("web", "/n", lambda _: "none")

    def copies() -> None:
        with mock.patch("confstore.ctl_changes.PATIENCE", SHORT):
            status = ctl.perform_words(["--socket", path, "copy", "S", "web", "to", "--replace"])
        failures.expect("without end: the word", status, 1)

    disturb()
    for about, does in (("a call", update), ("a word", copies)):
        began = time.monotonic()
        with between(0, disturb), contextlib.suppress(Unmet):
            does()
        failures.expect(f"without end: {about} ends", time.monotonic() - began < PATIENCE, True)
    if module is not None:
        with between(0, disturb):
            options = Options(socket=path, name="web", path="/hosts/-", value="z", timeout=SHORT)
            try:
                ended = str(module.result_of_run(options))
            except stores.Fault as fault:
                ended = str(fault)
        failures.expect("without end: a task", "others changed what the task had read, each of the" in ended, True)
        failures.expect("without end: its fault", "times that it was planned: Unmet: " in ended, True)
    left = held.get("web")
    assert isinstance(left, dict) and isinstance(left["hosts"], list)
    made = "z" in left["hosts"], left["n"] == "none", "to" in held
    failures.expect("without end: what is left", made, (False, False, False))


@contextlib.contextmanager
def serving(folder: str, path: str) -> Iterator[None]:
    """A server of the store in a folder, which is told to end."""
    words = [sys.executable, os.path.join(TOP, "clients", "serve.py"), path, folder]
    process = subprocess.Popen(words)
    try:
        deadline = time.monotonic() + PATIENCE
        while not os.path.exists(path) and process.poll() is None and time.monotonic() < deadline:
            time.sleep(0.02)
        yield
    finally:
        process.terminate()
        process.wait(PATIENCE)


def try_all(path: str, rounds: int, choices: random.Random, failures: Failures) -> None:
    with Store.connect(path) as held:
        round_of = Round(held, path, failures)
        for has_package in (True, False) if module is not None else (True,):
            with contextlib.ExitStack() as stack:
                if not has_package:
                    stack.enter_context(mock.patch.object(stores, "package", None))
                try_between(round_of, choices)
                try_at_once(round_of, choices, rounds)
                try_without_end(held, path, failures)


def main() -> int:
    need_program()
    rounds = int(sys.argv[1]) if sys.argv[1:] else ROUNDS
    seed = int(sys.argv[2]) if sys.argv[2:] else random.randrange(10**6)
    print(f"seed {seed}")
    if module is None:
        print("left out: tasks of Ansible, since ansible-core is not installed")
    failures = Failures()
    with tempfile.TemporaryDirectory() as top, mock.patch("confstore.ctl.write_error", lambda _: None):
        folder, path = os.path.join(top, "store"), os.path.join(top, "socket")
        os.mkdir(folder)
        with serving(folder, path):
            try_all(path, rounds, random.Random(seed), failures)
    return failures.report()


if __name__ == "__main__":
    sys.exit(main())
