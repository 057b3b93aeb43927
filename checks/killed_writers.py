#!/usr/bin/env python3
"""Two writers on one store, while one of them, or what performs their commands, is killed or gets a signal.

In each round two writers make a few changes each on the store that all rounds share, and at a random moment a process
gets SIGKILL, SIGTERM, SIGINT or SIGHUP, or is stopped for a while: a writer, the server or the node that it speaks to,
or the session that holds the store. What is gone is started again. There are three kinds of rounds:

- **folder**: each writer opens the store itself, by the Python package, by words of confstorectl or by tasks of
  Ansible, and waits while the other one holds it;
- **server**: both share `clients/serve.py`, by these, or by the C library;
- **nodes**: each has a node of a replicated store (`replicated/`), and sends what has no answer again by its id, to the
  other node too.

A writer appends texts to one list, puts and deletes configurations of its own, does both in one batch, adds one to a
number under the condition that nobody came between, and claims names that the other one claims too, under the condition
that nobody has them. It notes each change before it is sent, and what it was told. After each round:

- the list is what it was, with one text more for each change that was acknowledged, none twice, none that was refused,
  none that nobody sent, and of each change without an answer none or one;
- a configuration that was put is there with its text, and none is gone that no writer has deleted;
- of a batch both changes are made, or none;
- a name that was claimed has the text of the one that was told so, or of one without an answer, and keeps it;
- the number has grown by the changes that were acknowledged, and at most by one for each without an answer.

At the end of the first two kinds each record of the store is a change that was sent, no change has two, and each that
was told a number has the record with it. At the end of the third both nodes hold the same.

Run it from the repository's root after the program is built; it needs PyYAML, a C compiler for the C library, and
ansible-core and etcd for the tasks and the nodes, and takes two minutes, or ten for 1,000 rounds:

    ./prove && python3 checks/killed_writers.py [ROUNDS [SEED]]

The last line is 'N passed, M failed', and the status is 0 if M is 0.
"""

from __future__ import annotations

import contextlib
import os
import random
import shutil
import signal
import subprocess
import sys
import time
from collections import Counter
from collections.abc import Callable, Iterator, Mapping, Sequence
from typing import Any, NamedTuple, Union

from lib.command_line import number_given, seed_given
from lib.replicated_cluster import Request
from lib.replicated_parts import Node, Part, started
from lib.store_runs import TOP, Failures, need_program
from lib.tasks import module
from lib.waiting import until
from lib.writers import NODES, PACKAGE, TASKS, UNKNOWN, WORDS, Change, Place, Told, Way, begun, held, library_way

from confstore import ConfstoreError, Reader, Record, Store, Tree, to_text

ROUNDS = 200

# How many changes a writer makes in a round, and for how many seconds anything is waited for.
CHANGES = 4
PATIENCE = 60

# The time in seconds by which the signal comes, and for which a process is stopped.
LATEST = 0.1
STOPPED = 0.05

SIGNALS = (signal.SIGKILL, signal.SIGKILL, signal.SIGTERM, signal.SIGINT, signal.SIGHUP, signal.SIGSTOP)

# The kinds of changes that append to the list, and that put a configuration of the writer's own; and what no name ends
# with.
APPENDING, PUTTING = ("append", "pair"), ("put", "pair")
NO_NAME = "/"

# What a store holds at first.
START: Tree = {"hosts": [], "n": "0"}


class State(NamedTuple):
    """What a store holds: the list, the number, the writers' own configurations, which names are claimed, and the texts
    of those that are looked at."""

    texts: list[str]
    number: int
    own: dict[str, str]
    claimed: frozenset[str]
    claims: dict[str, str]


def state_of(read: Callable[[str], Any], names: Sequence[str], looked_at: str) -> State:
    """The state, with the texts of the claimed names that end so."""
    web, claimed = read("web"), frozenset(name for name in names if name.startswith("claim-"))
    own = {name: read(name) for name in names if name.startswith("own-")}
    claims = {name: read(name) for name in claimed if name.endswith(looked_at)}
    return State(web["hosts"], int(web["n"]), own, claimed, claims)


def notes_in(path: str) -> dict[Change, Told]:
    """What a writer has noted. A change is unknown where it was told nothing of it."""
    told: dict[Change, Told] = {}
    with contextlib.suppress(FileNotFoundError), open(path, encoding="ascii") as notes:
        for line in notes:
            sign, kind, text, *more = line.split()
            told[Change(kind, text)] = UNKNOWN if sign == ">" else Told(more[0], int(more[1]))
    return told


class Judge:
    """Looks whether a round did what its writers were told."""

    def __init__(
        self, about: str, before: State, after: State, told: Mapping[Change, Told], failures: Failures
    ) -> None:
        self.about, self.before, self.after, self.told, self.failures = about, before, after, told, failures

    def expect(self, what: str, found: object, wanted: object) -> None:
        self.failures.expect(f"{self.about}: {what}", found, wanted)

    def texts_of(self, kinds: Sequence[str], *words: str) -> set[str]:
        """The texts of the changes of some kinds of which the writers were told one of these words."""
        return {change.text for change, told in self.told.items() if change.kind in kinds and told.word in words}

    def judge(self) -> None:
        self.judge_list()
        self.judge_number()
        for name in sorted({*self.before.own, *self.after.own, *self.texts_of(PUTTING, "done", "unknown")}):
            self.judge_own(name)
        for text in sorted(self.texts_of(["pair"], "done", "unknown", "refused")):
            self.expect(f"both of {text}, or none", text in self.after.own, text in self.after.texts)
        self.expect("claims that are gone", self.before.claimed - self.after.claimed, set())
        names = {change.name for change in self.told if change.kind == "claim"}
        self.expect("claims of nobody", self.after.claimed - self.before.claimed - names, set())
        for name in sorted(names):
            self.judge_claim(name)
        self.expect("told that nothing changes", [c for c, told in self.told.items() if told.word == "unchanged"], [])

    def judge_list(self) -> None:
        count = len(self.before.texts)
        new = self.after.texts[count:]
        self.expect("the list goes on", self.after.texts[:count], self.before.texts)
        self.expect("twice in the list", [text for text, times in Counter(new).items() if times > 1], [])
        self.expect("lost in the list", self.texts_of(APPENDING, "done") - set(new), set())
        self.expect("in the list", set(new) - self.texts_of(APPENDING, "done", "unknown"), set())

    def judge_number(self) -> None:
        done, unknown = (len(self.texts_of(["add"], word)) for word in ("done", "unknown"))
        grown = self.after.number - self.before.number
        self.expect(f"the number grows by {grown}, of {done} and {unknown}", done <= grown <= done + unknown, True)

    def judge_own(self, name: str) -> None:
        words = [self.told[change].word for kind in PUTTING if (change := Change(kind, name)) in self.told]
        put = "done" if name in self.before.own else "".join(words) or "none"
        taken = self.told.get(Change("delete", name), Told("none")).word
        must_be = put == "done" and taken in ("none", "refused")
        may_be = put in ("done", "unknown") and taken != "done"
        is_there = name in self.after.own
        self.expect(f"{name}, put: {put}, deleted: {taken}", is_there, must_be or (is_there and may_be))
        self.expect(f"{name}: its text", self.after.own.get(name, name), name)

    def judge_claim(self, name: str) -> None:
        told = {change.text: word.word for change, word in self.told.items() if change.name == name != change.text}
        found = self.after.claims.get(name)
        done = [text for text, word in told.items() if word == "done"]
        self.expect(f"{name}: has a text", found is not None, bool(done) or found is not None)
        self.expect(f"{name}, of {told}", [found] if done else [], done)
        self.expect(f"{name}: {found} of {told}", told.get(found or "", "unknown") in ("done", "unknown"), True)
        self.expect(f"{name}: is somebody's", found is None or found in told, True)
        if "refused" in told.values():
            self.expect(f"{name}: was there, as one was told", found is not None, True)


def change_of(record: Record) -> Change:
    """The change that a record is."""
    edit = record.edits[0]
    if edit.path == "/hosts/-":
        is_pair = len(record.edits) == 2 and record.edits[1].name == record.edits[1].tree == edit.tree
        return Change("pair" if is_pair else "append", str(edit.tree))
    if edit.path == "/n":
        return Change("add", str(edit.tree))
    if edit.name.startswith("claim-"):
        return Change("claim", str(edit.tree))
    return Change("delete" if edit.kind == "delete" else "put", edit.name)


def compare_records(about: str, folder: str, begins: int, all_told: Mapping[Change, Told], failures: Failures) -> None:
    """Compares the records after those that a store begins with with what was sent and told."""
    found = {record.number: change_of(record) for record in Reader(folder).log(begins)}
    counts = Counter(change for change in found.values() if change.kind != "add")
    failures.expect(f"{about}: records twice", [change for change, times in counts.items() if times > 1], [])
    failures.expect(f"{about}: records that nobody sent", sorted(set(counts) - set(all_told)), [])
    numbers = [int(change.text) for change in found.values() if change.kind == "add"]
    failures.expect(f"{about}: numbers", numbers, list(range(1, len(numbers) + 1)))
    for change, told in all_told.items():
        if told.word == "done" and told.number:
            record = found.get(told.number)
            is_it = record is not None and record.kind == change.kind and (change.kind == "add" or record == change)
            failures.expect(f"{about}: record {told.number} of {change}", is_it, True)


def children_of(process: int) -> list[int]:
    found: list[int] = []
    with contextlib.suppress(OSError):
        for task in os.listdir(f"/proc/{process}/task"):
            with open(f"/proc/{process}/task/{task}/children", encoding="ascii") as children:
                found += map(int, children.read().split())
    return found


class Folder:
    """Where each writer opens the store of one folder by itself."""

    name = "folder"

    def __init__(self, top: str) -> None:
        os.mkdir(top)
        self.folder = os.path.join(top, "store")
        with Store(self.folder, make=True) as store:
            self.begins = store.put("web", START)

    def places(self) -> tuple[Place, Place]:
        """The places of the two writers."""
        return Place(folder=self.folder), Place(folder=self.folder)

    def served_by(self) -> list[int]:
        """The processes that serve the writers."""
        return []

    def mend(self) -> None:
        """Starts again what is gone."""

    def settle(self, told: dict[Change, Told], writers: Sequence[int]) -> None:
        """Waits until all that was sent is performed, or never will be: until the programs are gone that killed writers
        have left."""
        if not until(lambda: not any(self.is_run(process, writers) for process in os.listdir("/proc")), PATIENCE):
            raise TimeoutError("a program goes on whose writer is gone")
        held(self.folder).close()

    def is_run(self, process: str, writers: Sequence[int]) -> bool:
        """Whether a process is a program on the folder, or one that a writer is about to start."""
        try:
            with open(f"/proc/{process}/cmdline", "rb") as words:
                return self.folder.encode() in words.read() or os.getsid(int(process)) in writers
        except (OSError, ValueError):
            return False

    def state(self, looked_at: str) -> State:
        reader = Reader(self.folder)
        return state_of(lambda name: reader.get(name), reader.names(), looked_at)

    def finish(self, told: Mapping[Change, Told], failures: Failures) -> None:
        """Looks at the whole store, and ends what was started."""
        compare_records(self.name, self.folder, self.begins, told, failures)


class Served(Folder):
    """Where both writers share a server."""

    name = "server"

    def __init__(self, top: str) -> None:
        super().__init__(top)
        self.path = os.path.join(top, "socket")
        self.server: "subprocess.Popen[bytes] | None" = None
        self.mend()

    def places(self) -> tuple[Place, Place]:
        return Place(socket=self.path), Place(socket=self.path)

    def served_by(self) -> list[int]:
        return [self.server.pid, *children_of(self.server.pid)] if self.server is not None else []

    def mend(self) -> None:
        """Starts the server again where it is gone. It ends by itself while a session before holds the store."""
        if self.server is None or self.server.poll() is not None:
            words = [sys.executable, os.path.join(TOP, "clients", "serve.py"), self.path, self.folder]
            self.server = subprocess.Popen(words, stderr=subprocess.DEVNULL)

    def settle(self, told: dict[Change, Told], writers: Sequence[int]) -> None:
        def is_answered() -> bool:
            self.mend()
            with contextlib.suppress(ConfstoreError), Store.connect(self.path) as store:
                return len(store.names()) > 0
            return False

        if not (until(is_answered, PATIENCE) and is_answered()):
            raise TimeoutError("the server is not there again")

    def finish(self, told: Mapping[Change, Told], failures: Failures) -> None:
        assert self.server is not None
        self.server.terminate()
        failures.expect("the server's status", self.server.wait(PATIENCE), 0)
        super().finish(told, failures)


class Nodes:
    """Where each writer has a node, and takes the other one where its own is gone."""

    name = "nodes"

    def __init__(self, part: Part) -> None:
        member = started(part.member())
        self.nodes = [started(part.node(name, member)) for name in ("one", "two")]
        self.nodes[0].ask({"import": "web", "text": to_text(START)})

    def places(self) -> tuple[Place, Place]:
        sockets = [node.socket for node in self.nodes]
        return Place(nodes=sockets), Place(nodes=sockets[::-1])

    def served_by(self) -> list[int]:
        nodes = [node.process.running().pid for node in self.nodes]
        return [*nodes, *(child for node in nodes for child in children_of(node))]

    def mend(self) -> None:
        for node in self.nodes:
            if node.process.running().poll() is not None:
                node.process.start()

    def settle(self, told: dict[Change, Told], writers: Sequence[int]) -> None:
        """Sends what has no answer again by its id, as its writer would do: so it is performed once, before or now."""
        for change, word in told.items():
            if word == UNKNOWN:
                told[change] = self.written(change)

    def written(self, change: Change) -> Told:
        self.mend()
        return NODES.opened(self.places()[0])(change)

    def state(self, looked_at: str) -> State:
        return self.state_at(self.nodes[0], looked_at)

    def state_at(self, node: Node, looked_at: str) -> State:
        names = self.said(node, {"names": "", "fresh": "yes"})["names"]
        read = lambda name: self.said(node, {"get": name, "path": "", "fresh": "yes"})["value"]  # noqa: E731
        return state_of(read, names, looked_at)

    def said(self, node: Node, request: Request) -> Request:
        """What a node answers, once it has started again."""
        answer: Request = {"failed": "not asked"}

        def is_answered() -> bool:
            self.mend()
            with contextlib.suppress(OSError):
                answer.clear()
                answer.update(node.ask(request))
            return bool(answer) and "failed" not in answer

        if not until(is_answered, PATIENCE):
            raise TimeoutError(f"no answer to {request}, but {answer}")
        return answer

    def finish(self, told: Mapping[Change, Told], failures: Failures) -> None:
        one, two = (self.state_at(node, "") for node in self.nodes)
        failures.expect("both nodes hold the same", two, one)


Ground = Union[Folder, Nodes]


class Rounds:
    """The rounds of one kind."""

    def __init__(self, ground: Ground, ways: Sequence[Way], chance: random.Random, failures: Failures) -> None:
        self.ground, self.ways, self.chance, self.failures = ground, ways, chance, failures
        self.told: dict[Change, Told] = {}
        self.signals: Counter[str] = Counter()

    def run(self, top: str, count: int) -> None:
        """So many rounds, or as many as it takes until nothing goes on."""
        os.mkdir(top)
        number = 0
        try:
            state = self.ground.state(NO_NAME)
            for number in range(count):
                state = self.round(top, number, state)
            self.ground.finish(self.told, self.failures)
        except TimeoutError as error:
            self.failures.expect(f"{self.ground.name}, round {number}", str(error), "goes on")
        self.report(count)

    def round(self, top: str, number: int, before: State) -> State:
        """One round. Returns what the store holds then."""
        notes = [os.path.join(top, f"notes-{number}-{which}") for which in range(2)]
        writers = [
            begun(way, place, self.changes(way, f"{number}-{which}", which, before), notes[which])
            for which, (way, place) in enumerate(zip(self.chance.choices(self.ways, k=2), self.ground.places()))
        ]
        time.sleep(self.chance.uniform(0, LATEST))
        self.signal(writers)
        for writer in writers:
            self.wait_for(writer)
        told = {change: word for path in notes for change, word in notes_in(path).items()}
        self.ground.settle(told, writers)
        after = self.ground.state(f"-{number}")
        Judge(f"{self.ground.name}, round {number}", before, after, told, self.failures).judge()
        self.told.update(told)
        return after

    def changes(self, way: Way, mark: str, which: int, before: State) -> list[Change]:
        """Changes that a writer is to make. What it deletes is its own."""
        own = [name for name in before.own if name.endswith(f"-{which}")]
        self.chance.shuffle(own)
        changes = []
        for number in range(CHANGES):
            kind = self.chance.choice(way.kinds)
            if kind == "delete" and own:
                changes.append(Change(kind, own.pop()))
            elif kind in PUTTING:
                changes.append(Change(kind, f"own-{number}-{mark}"))
            elif kind == "claim":
                changes.append(Change(kind, f"claim-{number}-{mark}"))
            elif kind != "delete":
                changes.append(Change(kind, f"t{number}-{mark}"))
        return changes

    def signal(self, writers: Sequence[int]) -> None:
        """Sends a signal to a writer, or to what serves it."""
        others = [*self.ground.served_by(), *(child for writer in writers for child in children_of(writer))]
        number = self.chance.choice(SIGNALS)
        is_writer = not others or self.chance.random() < 0.4
        with contextlib.suppress(ProcessLookupError):
            process = self.chance.choice(writers if is_writer else others)
            os.kill(process, number)
            self.signals[f"{number.name} to {'a writer' if is_writer else 'what serves it'}"] += 1
            if number == signal.SIGSTOP:
                time.sleep(STOPPED)
                os.kill(process, signal.SIGCONT)

    def wait_for(self, writer: int) -> None:
        """Waits for the end of a writer, and starts again meanwhile what is gone."""

        def has_ended() -> bool:
            self.ground.mend()
            return os.waitpid(writer, os.WNOHANG)[0] == writer

        if not until(has_ended, PATIENCE):
            self.failures.expect("a writer", "goes on", "ends")
            os.kill(writer, signal.SIGKILL)
            os.waitpid(writer, 0)

    def report(self, count: int) -> None:
        words = Counter(told.word for told in self.told.values())
        signals = ", ".join(f"{count} {name}" for name, count in sorted(self.signals.items()))
        print(f"{self.ground.name}: {count} rounds, {len(self.told)} changes: {dict(words)}; {signals}", flush=True)


def ways_there() -> list[Way]:
    """The ways to write to a folder, by what is installed, each as often as it is to be taken."""
    if module is not None:
        return [PACKAGE, PACKAGE, WORDS, TASKS]
    print("left out: tasks of Ansible, since ansible-core is not installed")
    return [PACKAGE, PACKAGE, WORDS]


def grounds(part: Part) -> Iterator[tuple[Ground, list[Way]]]:
    """The kinds of rounds that can be here, each with the ways to write there."""
    ways = ways_there()
    yield Folder(part.path("alone")), ways
    if shutil.which("cc") is None:
        print("left out: the C library, since there is no C compiler")
        yield Served(part.path("served")), ways
    else:
        yield Served(part.path("served")), [*ways, library_way(part.top)]
    if shutil.which("etcd") is None:
        print("left out: the nodes, since etcd is not installed")
    else:
        yield Nodes(part), [NODES]


def main() -> int:
    need_program()
    rounds, chance, failures = number_given(1, ROUNDS), random.Random(seed_given(2)), Failures()
    with Part() as part:
        for ground, ways in grounds(part):
            Rounds(ground, ways, chance, failures).run(part.path(ground.name), rounds // 3)
    return failures.report()


if __name__ == "__main__":
    sys.exit(main())
