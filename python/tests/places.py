"""What the tests share: folders of their own, and programs that answer wrongly."""

from __future__ import annotations

import os
import stat
import subprocess
import sys
import tempfile
import unittest
from typing import Callable, TypeVar

from confstore import ConfstoreError, Store, Unsupported
from confstore.other import Program
from confstore.session import Session

from . import TOP

T = TypeVar("T")
F = TypeVar("F", bound=ConfstoreError)


def python_path() -> str:
    """Where another Python finds the package, and what this one finds."""
    return os.pathsep.join([os.path.join(TOP, "python"), os.environ.get("PYTHONPATH", "")]).rstrip(os.pathsep)


def process_of(store: Store) -> subprocess.Popen[bytes]:
    """The program that is the session of a store."""
    other = store._session._other
    assert isinstance(other, Program) and isinstance(other.process, subprocess.Popen)
    return other.process


class StoreTest(unittest.TestCase):
    """A test with a folder of its own, which is removed after it."""

    def setUp(self) -> None:
        holder = tempfile.TemporaryDirectory()
        self.addCleanup(holder.cleanup)
        self.top = holder.name
        self.folder = os.path.join(self.top, "store")
        os.mkdir(self.folder)

    def store(self, *, program: str | None = None, checkpoint_after: int | None = None) -> Store:
        """A store in the folder, closed after the test."""
        store = Store(self.folder, program=program, checkpoint_after=checkpoint_after)
        self.addCleanup(store.close)
        return store

    def supported(self, call: Callable[[], T]) -> T:
        """What a call returns; the test is skipped if the program lacks what it needs."""
        try:
            return call()
        except Unsupported as lack:
            self.skipTest(str(lack))

    def program(self, body: str) -> str:
        """A program in Python, which has read the first command, `names`, and answered it."""
        path = os.path.join(self.top, "program")
        with open(path, "w", encoding="utf-8") as target:
            target.write(f"#!{sys.executable}\nimport os, signal, sys, time\n")
            target.write("def heard():\n    while sys.stdin.buffer.readline() not in (b'...\\n', b''): pass\n")
            target.write("def say(text):\n    os.write(1, text)\n")
            target.write("heard()\nsay(b'---\\nnames: []\\n...\\n')\n" + body)
        os.chmod(path, stat.S_IRWXU)
        return path

    def program_that_waits(self) -> tuple[str, Callable[[Session], bytes]]:
        """A program that reads nothing before it is let, and a call that lets it, closes its session, and returns all
        that it was sent."""
        go, heard = os.path.join(self.top, "go"), os.path.join(self.top, "sent")
        body = f"while not os.path.exists({go!r}): time.sleep(0.01)\n"
        body += f"with open({heard!r}, 'wb') as target: target.write(sys.stdin.buffer.read())\n"

        def sent(session: Session) -> bytes:
            with open(go, "w", encoding="ascii"):
                pass
            session.close(60)
            with open(heard, "rb") as source:
                return source.read()

        return self.program(body), sent

    def set_fault(self, kind: type[F], body: str, timeout: float = 60) -> F:
        """The fault of a `set` through a program with this body, which has to be of a kind and come in time."""
        store = self.store(program=self.program(body))
        store._timeout = timeout
        with self.assertRaises(kind) as caught:
            store.set("a", "", "x")
        return caught.exception
