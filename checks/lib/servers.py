"""What the trials of the server share: clients, servers that run, and a test with a folder of its own."""

from __future__ import annotations

import contextlib
import os
import shutil
import signal
import socket
import stat
import subprocess
import sys
import tempfile
import time
import unittest
from pathlib import Path
from typing import Any, Callable, Optional, Sequence

from .store_runs import PROGRAM as PROGRAM, TOP as TOP
from .waiting import accepts as accepts, until

SERVER = os.environ.get("SERVER") or os.path.join(TOP, "clients", "serve.py")


def is_for_all(path: str) -> bool:
    """Whether each user may run the file at a path, and enter the folders above it and above what it links to."""
    starts = (Path(os.path.abspath(path)), Path(path).resolve())
    places = {place for start in starts for place in (start, *start.parents)}
    return all(place.exists() and place.stat().st_mode & stat.S_IXOTH for place in places)


# The Python that runs the servers, also for other users: the system's where they may not run the one that runs this.
PYTHON = sys.executable if os.geteuid() != 0 or is_for_all(sys.executable) else "/usr/bin/python3"

# How long in seconds anything here is waited for, and how long a client is told to wait for a server that is at its
# bound: `--max-wait 1`, the second in which a client may be idle in any case, and the server's looks at its clients.
PATIENCE = 20
BOUNDED = 4.0

NAMES = b"names:\n...\n"
MEGABYTE = 1_000_000

# A session that answers `get: N` by a text of N bytes, and all else by `names: []`.
FAKE = """
import sys
while (line := sys.stdin.buffer.readline()):
    word = line if line != b"---\\n" else sys.stdin.buffer.readline()
    while line not in (b"...\\n", b""):
        line = sys.stdin.buffer.readline()
    length = int(word[5:]) if word.startswith(b"get: ") else 0
    sys.stdout.buffer.write(b"---\\nvalue: " + b"x" * length + b"\\n...\\n" if length else b"---\\nnames: []\\n...\\n")
    sys.stdout.buffer.flush()
"""


class Client:
    """A connection to a server."""

    def __init__(self, path: str) -> None:
        self.socket = socket.socket(socket.AF_UNIX)
        self.socket.settimeout(PATIENCE)
        self.socket.connect(path)
        self.rest = bytearray()

    def send(self, commands: bytes) -> None:
        self.socket.sendall(commands)

    def send_some(self, commands: bytes) -> int:
        """Sends what the server takes within a moment. How much that was."""
        self.socket.settimeout(0.1)
        sent = 0
        with contextlib.suppress(OSError):
            while sent < len(commands):
                sent += self.socket.send(commands[sent : sent + 65_536])
        self.socket.settimeout(PATIENCE)
        return sent

    def answer(self) -> bytes:
        """The next answer, or nothing if the server cut this client off."""
        looked = 0
        while (found := self.rest.find(b"\n...\n", looked)) < 0:
            looked = max(len(self.rest) - 4, 0)
            try:
                part = self.socket.recv(1 << 20)
            except ConnectionResetError:
                part = b""
            if not part:
                return b""
            self.rest += part
        answer = bytes(self.rest[: found + 5])
        del self.rest[: found + 5]
        return answer

    def ask(self, command: bytes) -> bytes:
        try:
            self.send(command)
        except BrokenPipeError:
            return b""
        return self.answer()

    def next_byte(self) -> Optional[bytes]:
        """The next byte that is there to be read, nothing if the server cut this client off, and None if none came."""
        self.socket.setblocking(False)
        try:
            return self.socket.recv(1, socket.MSG_PEEK)
        except BlockingIOError:
            return None
        except ConnectionResetError:
            return b""
        finally:
            self.socket.settimeout(PATIENCE)

    def close(self) -> None:
        self.socket.close()


class Running:
    """A server that runs, and what it says on standard error."""

    def __init__(self, words: Sequence[str], top: str, before: Sequence[str], **more: Any) -> None:
        self.errors_file = os.path.join(top, f"errors{time.monotonic_ns()}")
        with open(self.errors_file, "wb") as errors:
            self.process = subprocess.Popen(
                [*before, PYTHON, SERVER, *words], stdin=subprocess.DEVNULL, stderr=errors, **more
            )

    def errors(self) -> str:
        with open(self.errors_file, encoding="utf-8") as errors:
            return errors.read()

    def wait(self) -> int:
        return self.process.wait(PATIENCE)

    def end(self, number: int = signal.SIGTERM) -> int:
        self.process.send_signal(number)
        return self.wait()

    def end_by_many(self, number: int) -> int:
        """Sends a signal again and again until the server has ended."""
        limit = time.monotonic() + PATIENCE
        while self.process.poll() is None and time.monotonic() < limit:
            self.process.send_signal(number)
            time.sleep(0.0005)
        return self.wait()

    def kilobytes(self, name: str) -> int:
        """A figure of the server's memory."""
        with open(f"/proc/{self.process.pid}/status", encoding="ascii") as status:
            return int(next(line for line in status if line.startswith(name + ":")).split()[1])

    def seconds_of_processor(self) -> float:
        with open(f"/proc/{self.process.pid}/stat", encoding="ascii") as figures:
            used = figures.read().rpartition(")")[2].split()[11:13]
        return sum(map(int, used)) / os.sysconf("SC_CLK_TCK")

    def catches_signals(self) -> bool:
        with open(f"/proc/{self.process.pid}/status", encoding="ascii") as status:
            caught = int(next(line for line in status if line.startswith("SigCgt:")).split()[1], 16)
        return bool(caught >> signal.SIGTERM - 1 & 1)

    def session(self) -> int:
        with open(f"/proc/{self.process.pid}/task/{self.process.pid}/children", encoding="ascii") as children:
            return int(children.read().split()[0])


class ServerTest(unittest.TestCase):
    """A test with a folder of its own, and servers on stores in it. None of them may end with a trace of Python."""

    def setUp(self) -> None:
        self.top = tempfile.mkdtemp()
        self.addCleanup(shutil.rmtree, self.top, ignore_errors=True)
        os.chmod(self.top, 0o755)
        self.folder = os.path.join(self.top, "store")
        os.mkdir(self.folder)
        self.path = os.path.join(self.top, "socket")

    def start(
        self,
        *options: str,
        path: str = "",
        folder: str = "",
        program: str = PROGRAM,
        before: Sequence[str] = (),
        **more: Any,
    ) -> Running:
        """A server that was started."""
        environment = {**os.environ, "CONFSTORE": program, **more.pop("environment", {})}
        words = [*options, path or self.path, folder or self.folder]
        server = Running(words, self.top, before, env=environment, **more)
        self.addCleanup(self.stop, server)
        return server

    def serve(self, *options: str, **more: Any) -> Running:
        """A server that takes clients."""
        server = self.start(*options, **more)
        path = more.get("path") or self.path
        self.await_that(lambda: accepts(path) or server.process.poll() is not None, "the server takes clients")
        self.assertIsNone(server.process.poll(), server.errors())
        return server

    def stop(self, server: Running) -> None:
        server.process.kill()
        server.process.wait()
        self.assertNotIn("Traceback", server.errors())

    def fake(self) -> str:
        path = os.path.join(self.top, "fake")
        with open(path, "w", encoding="ascii") as program:
            program.write(f"#!{PYTHON}\n{FAKE}")
        os.chmod(path, 0o755)
        return path

    def client(self, path: str = "") -> Client:
        client = Client(path or self.path)
        self.addCleanup(client.close)
        return client

    def clients(self, count: int) -> list[Client]:
        return [self.client() for _ in range(count)]

    def await_that(self, holds: Callable[[], bool], what: str, limit: float = PATIENCE) -> float:
        """Waits until something holds. How long that took."""
        start = time.monotonic()
        if not until(holds, limit):
            self.fail(f"not within {limit} seconds: {what}")
        return time.monotonic() - start

    def assert_served(self, limit: float = BOUNDED, command: bytes = NAMES) -> Client:
        """A new client that is answered within so many seconds."""
        start = time.monotonic()
        client = self.client()
        client.socket.settimeout(limit)
        try:
            self.assertTrue(client.ask(command).startswith(b"---\n"))
        except TimeoutError:
            self.fail(f"no answer within {limit} seconds")
        self.assertLess(time.monotonic() - start, limit)
        return client
