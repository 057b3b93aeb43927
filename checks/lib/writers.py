"""Writers of a store, each a process of its own that notes each change before it is sent, and what it was told."""

from __future__ import annotations

import contextlib
import ctypes
import os
import random
import signal
import subprocess
import sys
import tempfile
import time
from collections.abc import Callable, Iterator, Sequence
from typing import Any, NamedTuple

from .store_runs import PROGRAM, TOP
from .tasks import Options, edit, module, stores

sys.path.insert(0, os.path.join(TOP, "replicated"))
os.environ["CONFSTORE"] = PROGRAM

from confstore import ConfstoreError, Locked, Reader, Refused, Store, Tree, ctl  # noqa: E402
from confstore_replicated import Client  # noqa: E402

# How many seconds a store that another writer holds is waited for, and for how many a call may take.
PATIENCE = 30
PAUSE = 0.002

# How many seconds pass between what a writer reads and the change that depends on it.
BETWEEN = 0.01

# The condition that the number is still the one that was read, and the change to another one.
TEST = "if:\n- test: web\n  path: /n\n  value: '{}'\n"
ADD = "set: web\npath: /n\nvalue: '{}'"


class Place(NamedTuple):
    """Where a writer writes: a folder, the socket of a server, or the sockets of nodes."""

    folder: str = ""
    socket: str = ""
    nodes: Sequence[str] = ()


class Change(NamedTuple):
    """What is changed: `append` a text, `put` or `delete` a configuration whose text is its name, `pair` both `append`
    it and `put` it in one batch, `add` one to the number, or `claim` a name that another writer may claim, too: the
    first one puts its text there."""

    kind: str
    text: str

    @property
    def name(self) -> str:
        """The configuration that is put or deleted. The writers that claim a name have texts with other ends."""
        return self.text.rpartition("-")[0] if self.kind == "claim" else self.text


class Told(NamedTuple):
    """What a writer was told of a change: `done`, with the number if it was told one, `refused`, or `unknown`."""

    word: str
    number: int = 0


UNKNOWN = Told("unknown")

Writing = Callable[[Change], Told]


class Way(NamedTuple):
    """A way to write: which kinds of changes it makes, each as often as it is named, and how it is opened at a place,
    once by each writer."""

    kinds: Sequence[str]
    opened: Callable[[Place], Writing]


def by_package(place: Place) -> Writing:
    """By the Python package."""
    shared = Store.connect(place.socket, timeout=PATIENCE) if place.socket else None

    def write(change: Change) -> Told:
        if shared is not None:
            return made(shared, change)
        with held(place.folder) as store:
            return made(store, change)

    return write


def held(folder: str) -> Store:
    """The store in a folder, once nobody else holds it."""
    deadline = time.monotonic() + PATIENCE
    while True:
        try:
            return Store(folder, timeout=PATIENCE)
        except Locked:
            if time.monotonic() > deadline:
                raise
        time.sleep(PAUSE)


def next_number(number: Tree) -> str:
    """The number after another one, with time for others to come between."""
    time.sleep(BETWEEN)
    return str(int(str(number)) + 1)


def made(store: Store, change: Change) -> Told:
    """What is said of a change that a store is to make."""
    calls: dict[str, Callable[[], int]] = {
        "append": lambda: store.set("web", "/hosts/-", change.text), "put": lambda: store.put(change.text, change.text),
        "delete": lambda: store.delete(change.text), "pair": lambda: paired(store, change.text),
        "claim": lambda: store.put(change.name, change.text, if_absent=True),
        "add": lambda: store.update("web", "/n", next_number),
    }  # fmt: skip
    try:
        return Told("done", calls[change.kind]())
    except Refused:
        return Told("refused")


def paired(store: Store, text: str) -> int:
    with store.batch() as batch:
        batch.set("web", "/hosts/-", text)
        batch.put(text, text)
    assert batch.count is not None
    return batch.count


def number_at(place: Place) -> str:
    """The number, which others may change meanwhile."""
    if not place.socket:
        return str(Reader(place.folder).get("web", "/n"))
    with Store.connect(place.socket, timeout=PATIENCE) as store:
        return str(store.get("web", "/n"))


def added(place: Place, add: Callable[[str, str], Told]) -> Told:
    """What is said of a change of the number to the next one, which is tried again while others come between."""
    deadline = time.monotonic() + PATIENCE
    while time.monotonic() < deadline:
        number = number_at(place)
        if (told := add(number, next_number(number))).word != "refused":
            return told
    return Told("refused")


def by_words(place: Place) -> Writing:
    """By words of confstorectl."""
    where = ["--socket", place.socket] if place.socket else []

    def done(word: str, *more: str) -> Told:
        status = ctl.perform_words([*where, "--wait", str(PATIENCE), word, place.folder or "S", *more])
        return {0: Told("done"), 1: Told("refused")}.get(status, UNKNOWN)

    def write(change: Change) -> Told:
        if change.kind == "add":
            return added(place, lambda number, more: done("set", "web", "/n", more, "--if-value", number))
        pair = f"[{{set: web, path: /hosts/-, value: {change.text}}}, {{import: {change.text}, tree: {change.text}}}]"
        with tempfile.NamedTemporaryFile("w") as text:
            text.write(pair if change.kind == "pair" else change.text)
            text.flush()
            return done(*{
                "append": ["set", "web", "/hosts/-", change.text],
                "put": ["import", "--any-root", change.text, text.name],
                "delete": ["delete", change.text], "pair": ["batch", text.name],
                "claim": ["import", "--any-root", change.name, text.name, "--if-absent"],
            }[change.kind])  # fmt: skip

    return write


def by_tasks(place: Place) -> Writing:
    """By tasks of the Ansible collection."""
    where = {"socket": place.socket} if place.socket else {"folder": place.folder}

    def write(change: Change) -> Told:
        all_options: dict[str, dict[str, Any]] = {
            "append": {"name": "web", "path": "/hosts/-", "value": change.text},
            "put": {"name": change.text, "value": change.text},
            "delete": {"name": change.text, "state": "absent"},
            "pair": {"edits": [edit(name="web", path="/hosts/-", value=change.text),
                               edit(name=change.text, value=change.text)]},
            "claim": {"name": change.name, "value": change.text, "if_absent": True},
        }  # fmt: skip
        options = all_options[change.kind]
        try:
            result = module.result_of_run(Options(wait=float(PATIENCE), **where, **options))
        except stores.Fault as fault:
            return Told("refused") if fault.name in ("Unmet", "Locked") else UNKNOWN
        return Told("done", int(result["count"])) if result["changed"] else Told("unchanged")

    return write


class Bytes(ctypes.Structure):
    """`struct confstore_bytes`."""

    _fields_ = [("data", ctypes.c_void_p), ("length", ctypes.c_size_t), ("room", ctypes.c_size_t)]


def library(folder: str) -> str:
    """The C library, which is built in a folder."""
    path = os.path.join(folder, "libconfstore.so")
    sources = [os.path.join(TOP, "clients", "c", f"confstore{part}.c") for part in ("", "_text", "_watch")]
    subprocess.run(["cc", "-std=c11", "-shared", "-fPIC", "-pthread", "-O1", "-o", path, *sources], check=True)
    return path


def by_library(path: str) -> Callable[[Place], Writing]:
    """By the C library at a path."""

    def open_at(place: Place) -> Writing:
        calls, store = ctypes.CDLL(path), ctypes.c_void_p()
        if calls.confstore_connect(os.fsencode(place.socket), PATIENCE * 1000, ctypes.byref(store)) != 0:
            raise OSError("the library can't connect")

        def write(change: Change) -> Told:
            if change.kind == "add":
                return added(place, lambda number, more: said(f"{TEST.format(number)}{ADD.format(more)}"))
            return said({
                "append": f"set: web\npath: /hosts/-\nvalue: {change.text}",
                "put": f"import: {change.text}\ntext: {change.text}",
                "delete": f'delete: {change.text}\npath: ""',
                "pair": f"batch:\n- set: web\n  path: /hosts/-\n  value: {change.text}\n"
                f"- import: {change.text}\n  tree: {change.text}",
                "claim": f"if:\n- absent: {change.name}\nimport: {change.name}\ntext: {change.text}",
            }[change.kind])

        def said(lines: str) -> Told:
            command, answer = f"{lines}\n...\n".encode(), Bytes()
            if calls.confstore_ask(store, command, ctypes.c_size_t(len(command)), ctypes.byref(answer)) != 0:
                return UNKNOWN
            text = ctypes.string_at(answer.data, answer.length).decode()
            if text.startswith('---\nok: "'):
                return Told("done", int(text.split('"')[1]))
            return Told("refused") if text.startswith("---\nrefused: ") else UNKNOWN

        return write

    return open_at


def by_nodes(place: Place) -> Writing:
    """By nodes of a replicated store: a change that has no answer is sent again, to the other one too."""

    def write(change: Change) -> Told:
        requests: dict[str, dict[str, Any]] = {
            "append": {"set": "web", "path": "/hosts/-", "value": change.text},
            "put": {"import": change.text, "text": change.text},
            "delete": {"delete": change.text, "path": ""},
            "pair": {"batch": [{"set": "web", "path": "/hosts/-", "value": change.text},
                               {"import": change.text, "tree": change.text}]},
            "claim": {"if": [{"absent": change.name}], "import": change.name, "text": change.text},
        }  # fmt: skip
        request = {**requests[change.kind], "id": f"{change.kind}-{change.text}"}
        deadline = time.monotonic() + PATIENCE
        for path in again_and_again(place.nodes, deadline):
            with contextlib.suppress(OSError), contextlib.closing(Client(path, PATIENCE)) as client:
                answer = client.ask(dict(request))
                if "failed" not in answer:
                    return Told("done") if "ok" in answer else Told("refused")
        return UNKNOWN

    return write


def again_and_again(paths: Sequence[str], deadline: float) -> Iterator[str]:
    """The paths in turn, with pauses, until it is too late."""
    while time.monotonic() < deadline:
        for path in paths:
            yield path
            time.sleep(PAUSE)


KINDS = ("append", "put", "delete", "pair", "claim", "claim")
PACKAGE = Way((*KINDS, "add", "add"), by_package)
WORDS = Way((*KINDS, "add"), by_words)
TASKS = Way(KINDS, by_tasks)
NODES = Way(KINDS, by_nodes)


def library_way(folder: str) -> Way:
    """By the C library, which is built in a folder."""
    return Way((*KINDS, "add"), by_library(library(folder)))


def note(file: int, *words: object) -> None:
    os.write(file, (" ".join(map(str, words)) + "\n").encode())


def write_all(way: Way, place: Place, changes: Sequence[Change], file: int) -> None:
    """Makes changes, and notes each. An interrupt ends the change that is under way, and no other."""
    writing: "Writing | None" = None
    for change in changes:
        try:
            writing = writing or way.opened(place)
            note(file, ">", *change)
            told = writing(change)
            note(file, "<", *change, *told)
        except KeyboardInterrupt:
            continue
        if told == UNKNOWN:
            return


def begun(way: Way, place: Place, changes: Sequence[Change], notes: str) -> int:
    """A process that makes changes, and notes them in a file. What it prints is dropped. It has a session of its own, in
    which the programs are that it starts."""
    signal.pthread_sigmask(signal.SIG_BLOCK, {signal.SIGINT})
    process = os.fork()
    if process:
        signal.pthread_sigmask(signal.SIG_UNBLOCK, {signal.SIGINT})
        return process
    try:
        os.setsid()
        signal.signal(signal.SIGINT, signal.default_int_handler)
        signal.pthread_sigmask(signal.SIG_UNBLOCK, {signal.SIGINT})
        nowhere, file = os.open(os.devnull, os.O_RDWR), os.open(notes, os.O_WRONLY | os.O_CREAT | os.O_APPEND, 0o600)
        for stream in range(3):
            os.dup2(nowhere, stream)
        random.seed()
        write_all(way, place, changes, file)
    except (ConfstoreError, OSError, KeyboardInterrupt):
        pass  # its changes without an answer are unknown
    finally:
        os._exit(0)
