"""Exceptions that a signal handler raises in a call. `checks/interrupts.py` tries all calls at all places."""

from __future__ import annotations

import _thread
import os
import signal
import time
import unittest
from typing import Callable
from unittest import mock

import confstore
from confstore import Reader, Store
from confstore.pieces import Cutter
from confstore.session import LONGEST_COMMAND

from .places import StoreTest

PATIENCE = 20


class Stop(BaseException):
    pass


def stop(*_: object) -> None:
    raise Stop


class Interrupts(StoreTest):
    def setUp(self) -> None:
        super().setUp()
        self.addCleanup(signal.signal, signal.SIGALRM, signal.signal(signal.SIGALRM, stop))
        self.heard = os.path.join(self.top, "heard")

    def interrupted(self, call: Callable[[], object], after: float = 0.3) -> None:
        try:
            with self.assertRaises(Stop):
                signal.setitimer(signal.ITIMER_REAL, after)
                call()
        finally:
            signal.setitimer(signal.ITIMER_REAL, 0)

    def slow_program(self, seconds: float) -> str:
        """A program that notes what it hears, and takes its time over each answer, which is its number."""
        return self.program(f"""number = 1
with open({self.heard!r}, "ab", 0) as target:
    while line := sys.stdin.buffer.readline():
        target.write(line)
        if line == b"...\\n":
            time.sleep({seconds})
            say(b'---\\nok: "%d"\\n...\\n' % number)
            number += 1
""")

    def heard_sets(self) -> list[str]:
        with open(self.heard, encoding="ascii") as source:
            return [line.split()[1].strip('"') for line in source if line.startswith("value:")]

    def test_a_call_that_waits(self) -> None:
        """Its command is performed once, its answer is nobody's, and the next call gets its own."""
        store = self.store(program=self.slow_program(1))
        self.interrupted(lambda: store.set("a", "", "first"))
        self.assertEqual(store.set("a", "", "second"), 2)
        self.interrupted(lambda: store.perform_batches([[{"delete": "a", "path": ""}]] * 2))
        self.assertEqual((store.set("a", "", "third"), self.heard_sets()), (5, ["first", "second", "third"]))

    def test_a_handler_that_uses_the_store(self) -> None:
        """It may, in the middle of a call, and each gets its own answer."""
        store = self.store(program=self.slow_program(0.5))
        found: list[int] = []
        signal.signal(signal.SIGALRM, lambda *_: found.append(store.set("a", "", "handler")))
        signal.setitimer(signal.ITIMER_REAL, 0.2)
        self.assertEqual((store.set("a", "", "call"), found, self.heard_sets()), (1, [2], ["call", "handler"]))

    def test_what_is_not_sent_yet(self) -> None:
        """It is withdrawn: a program that goes on later does not hear of it."""
        program, heard = self.program_that_waits()
        store = self.store(program=program)
        long = b"import: long\n#" + b"x" * (LONGEST_COMMAND // 2) + b"\n...\n"
        self.interrupted(lambda: store._session.ask(long, PATIENCE))
        self.interrupted(lambda: store.set("a", "", "withdrawn"))
        content = heard(store._session)
        self.assertEqual((b"import: long" in content, b"withdrawn" in content), (True, False))

    def test_opening(self) -> None:
        """The program that did not answer yet is gone when the exception is there."""
        noted = os.path.join(self.top, "process")
        program = self.program("")
        with open(program, "w", encoding="ascii") as target:
            target.write(f"#!/bin/sh\necho $$ > {noted}; exec sleep 1000\n")
        self.interrupted(lambda: Store(self.folder, program=program), 1)
        with open(noted, encoding="ascii") as source:
            self.assertFalse(os.path.exists(f"/proc/{int(source.read())}"))

    def test_reopening_and_closing(self) -> None:
        program = self.slow_program(1)
        store = self.store(program=program)
        self.interrupted(store.close, 1e-5)
        store.close()
        with self.assertRaises(confstore.Closed):
            store.names()
        with open(program, encoding="utf-8") as source:
            text = source.read()
        with open(program, "w", encoding="utf-8") as target:
            target.write(text.replace("heard()\nsay", "heard()\ntime.sleep(1)\nsay"))
        self.interrupted(store.reopen)
        self.assertEqual(store.set("a", "", "x"), 1)
        store.reopen()

    def test_a_thread_that_is_interrupted(self) -> None:
        """As where memory runs out: the session is given up, and says so."""
        store = self.store()
        store["a"] = "x"
        with mock.patch.object(Cutter, "cut", side_effect=MemoryError):
            for _ in range(2):
                with self.assertRaises(confstore.Unknown):
                    store.set("a", "", "y")
        store.reopen()
        self.assertEqual((store["a"], store.checkpoint()), ("y", 2))

    def test_no_thread(self) -> None:
        self.store()
        calls: list[Callable[[], object]] = [lambda: Store(self.folder), Reader(self.folder).names]
        refused = RuntimeError("can't start new thread")
        for call in calls:
            with mock.patch.object(_thread, "start_new_thread", side_effect=refused):
                with self.assertRaises(confstore.NotStarted):
                    call()

    def test_a_thread_that_can_not_send(self) -> None:
        """A session whose thread can't send is given up too."""
        store = self.store()
        start = time.monotonic()
        with mock.patch.object(store._session._line, "_claim", side_effect=MemoryError):
            for _ in range(2):
                with self.assertRaises(confstore.Unknown):
                    store.set("a", "", "y")
        self.assertLess(time.monotonic() - start, PATIENCE)
        store.reopen()
        self.assertEqual(store.names(), [])


if __name__ == "__main__":
    unittest.main()
