"""Words of confstorectl that are killed on a store of their own, while a writer changes it at the same time."""

from __future__ import annotations

import contextlib
import os
import random
import signal
import subprocess
import sys
import threading
import time
from collections import Counter
from collections.abc import Callable, Iterator, Sequence
from typing import Optional

from .store_runs import PROGRAM, TOP, Failures
from .waiting import accepts, until

sys.path.insert(0, os.path.join(TOP, "python"))
os.environ["CONFSTORE"] = PROGRAM

from confstore import ConfstoreError, Locked, Store  # noqa: E402

# How long in seconds anything is waited for.
PATIENCE = 60

ENVIRONMENT = {**os.environ, "PYTHONPATH": os.path.join(TOP, "python")}
for _name in ("CONFSTORE_SOCKET", "CONFSTORE_ABOUT"):
    ENVIRONMENT.pop(_name, None)
CTL = [sys.executable, "-m", "confstore.ctl"]
SERVER = os.path.join(TOP, "clients", "serve.py")

# What a writer sets, what is there at first, and what the log says of its changes before the value.
PLACE = ("web", "/n")
FIRST = "0"
OF_WRITER = f'set {PLACE[0]} "{PLACE[1]}" '

# Who is killed, where that is the word itself.
WORD = "the word"

# The states of a process that starts nothing more: it is stopped, or has ended.
STILL = "TZX"


def children_of(process: int) -> list[int]:
    found: list[int] = []
    with contextlib.suppress(OSError):
        for task in os.listdir(f"/proc/{process}/task"):
            with open(f"/proc/{process}/task/{task}/children", encoding="ascii") as children:
                found += map(int, children.read().split())
    return found


def is_there(process: int) -> bool:
    """Whether a process goes on: one that has ended, and is not waited for, has no program."""
    try:
        os.readlink(f"/proc/{process}/exe")
    except OSError:
        return False
    return True


def is_still(process: int) -> bool:
    """Whether a process is stopped, or has ended."""
    try:
        with open(f"/proc/{process}/stat", encoding="ascii", errors="replace") as stat:
            return stat.read().rpartition(")")[2].split()[0] in STILL
    except OSError:
        return True


def line_of(value: str) -> str:
    """What the log says of a change of the writer, behind its number."""
    return f'{OF_WRITER}"{value}"'


class Writer:
    """Sets a value again and again, and notes what it was told: the values by their numbers, and those that got no
    answer. Between two changes it pauses for so many seconds."""

    def __init__(self, opened: Callable[[], Store], pause: float) -> None:
        self._opened, self.pause = opened, pause
        self._stop = threading.Event()
        self._thread = threading.Thread(target=self._run)
        self._count = 0
        self.told: dict[int, str] = {}
        self.unknown: set[str] = set()

    def start(self) -> None:
        self._stop.clear()
        self._thread = threading.Thread(target=self._run)
        self._thread.start()

    def stop(self) -> None:
        """Ends it once it has the answer to its last change. Nothing is done where it goes on no more."""
        self._stop.set()
        if self._thread.is_alive():
            self._thread.join()

    def _run(self) -> None:
        while not self._stop.is_set():
            self._count += 1
            value = str(self._count)
            try:
                with self._opened() as store:
                    self.told[store.set(*PLACE, value)] = value
            except Locked:
                self._count -= 1  # nothing was done
            except ConfstoreError:
                self.unknown.add(value)
            time.sleep(self.pause)


class Ground:
    """A store that rounds share, with a writer, which pauses for so many seconds between two changes. A server holds
    the store, if it is served."""

    def __init__(self, top: str, name: str, pause: float) -> None:
        self.name = name
        self.top = os.path.join(top, name)
        self.folder = os.path.join(self.top, "store")
        self.socket = os.path.join(self.folder, "confstore.sock")
        os.mkdir(self.top)
        with Store(self.folder, make=True) as store:
            store.put(PLACE[0], {PLACE[1][1:]: FIRST})
        self.server: Optional[subprocess.Popen[bytes]] = None
        self.writer = Writer(self.opened, pause)

    def opened(self) -> Store:
        """The store, by the server if one holds it."""
        return Store(self.folder, program=PROGRAM) if self.server is None else Store.connect(self.socket)

    def serve(self) -> None:
        """Has a server hold the store."""
        self.start()
        until(lambda: accepts(self.socket), PATIENCE)

    def start(self) -> None:
        words = [sys.executable, SERVER, self.socket, self.folder]
        self.server = subprocess.Popen(words, env=ENVIRONMENT, stdout=subprocess.DEVNULL, stderr=subprocess.DEVNULL)

    def end(self) -> None:
        self.writer.stop()
        if self.server is not None:
            self.server.terminate()
            self.server.wait(PATIENCE)

    def sessions(self) -> list[int]:
        """The session of the server, if one holds the store."""
        return children_of(self.server.pid) if self.server is not None else []

    def settle(self) -> None:
        """Waits until a server has done what it was asked: it answers what it is asked after that. One that has ended
        with its session is started again."""

        def is_answered() -> bool:
            if self.server is not None and self.server.poll() is not None:
                self.start()
            with contextlib.suppress(ConfstoreError), self.opened() as store:
                return store.get(*PLACE) != ""
            return False

        if self.server is not None and not (until(is_answered, PATIENCE) and is_answered()):
            raise TimeoutError("the server does not answer")

    def begun(self, word: str, *more: str) -> "subprocess.Popen[bytes]":
        """A word for the store that has begun."""
        words = [*CTL, word, "--wait", str(PATIENCE), self.folder, *more]
        return subprocess.Popen(
            words, env=ENVIRONMENT, stdin=subprocess.DEVNULL, stdout=subprocess.PIPE, stderr=subprocess.STDOUT
        )


class Rounds:
    """Rounds on one ground, and what was seen in them, each as often as it was."""

    def __init__(self, ground: Ground, chance: random.Random, failures: Failures) -> None:
        self.ground, self.chance, self.failures = ground, chance, failures
        self.seen: Counter[str] = Counter()

    def expect(self, about: str, found: object, wanted: object) -> None:
        self.failures.expect(f"{self.ground.name}, {about}", found, wanted)

    def kill(self, process: "subprocess.Popen[bytes]") -> tuple[str, bytes]:
        """Kills a word, or what it has started, or the session of the server, and waits for the end of the word and of
        what it has started. Which of them it was, and what the word said."""
        process.send_signal(signal.SIGSTOP)
        until(lambda: is_still(process.pid), PATIENCE)
        started = children_of(process.pid)
        others = [("what it started", child) for child in started]
        others += [("the session", session) for session in self.ground.sessions()]
        which, target = self.chance.choice([(WORD, process.pid), *others])
        if which == WORD:
            process.kill()
        else:
            with contextlib.suppress(ProcessLookupError):
                os.kill(target, signal.SIGKILL)
        process.send_signal(signal.SIGCONT)
        said = process.communicate(timeout=PATIENCE)[0]
        until(lambda: not any(map(is_there, started)), PATIENCE)
        return which, said

    def look(self, about: str, archives: Sequence[str], first: int) -> list[tuple[int, str]]:
        """Looks whether archives and the store have all numbers, from the first one if it is known, and what was told.
        The lines of the log by their numbers."""
        options = [word for archive in archives for word in ("--archive", archive)]
        words = [*CTL, "log", "--values", self.ground.folder, *options]
        done = subprocess.run(words, env=ENVIRONMENT, capture_output=True, check=False)
        self.expect(f"{about}: the log's status", (done.returncode, done.stderr), (0, b""))
        lines = list(lines_in(done.stdout))
        numbers, values = [number for number, _ in lines], dict(lines)
        begin = first or (numbers[0] if numbers else 0)
        self.expect(f"{about}: numbers", numbers, list(range(begin, begin + len(numbers))))
        told = self.ground.writer.told
        if told and numbers:
            self.expect(f"{about}: the last one is there", numbers[-1] >= max(told), True)
        for number, value in told.items():
            if numbers and number >= numbers[0]:
                self.expect(f"{about}: {number}", values.get(number), line_of(value))
        return lines


def lines_in(log: bytes) -> Iterator[tuple[int, str]]:
    """The lines of a log, each with its number."""
    for line in log.decode().split("\n")[:-1]:
        number, _, done = line.partition(" ")
        yield int(number), done
