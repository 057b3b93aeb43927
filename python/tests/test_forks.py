"""A process that is forked does not hold the session of its parent, and can't use it."""

from __future__ import annotations

import ctypes
import multiprocessing
import os
import signal
import subprocess
import sys
import threading
import time
import unittest
from typing import Callable

import confstore
from confstore import Reader, Store

from .places import StoreTest, process_of, python_path
from .test_server import ServerTest

PATIENCE = 20


def tries(store: Store) -> dict[str, str]:
    """What each call of a store raises, by name."""
    found: dict[str, str] = {}
    calls: list[tuple[str, Callable[[], object]]] = [
        ("names", store.names),
        ("set", lambda: store.set("a", "", "child")),
        ("batches", lambda: store.perform_batches([[{"delete": "a", "path": ""}]])),
        ("reopen", store.reopen),
        ("checkpoint", store.checkpoint),
    ]
    for name, call in calls:
        try:
            found[name] = repr(call())
        except confstore.ConfstoreError as fault:
            found[name] = type(fault).__name__
    store.close()
    return found


CLOSED = dict.fromkeys(("names", "set", "batches", "reopen", "checkpoint"), "Closed")

# A process that holds a store, forks one that lives on, and is killed.
DYING = """
import os, signal, sys, time
from confstore import Store
store = Store(sys.argv[1])
if sys.argv[2] == "os":
    child = os.fork()
    if child == 0:
        time.sleep(1000)
else:
    import multiprocessing
    process = multiprocessing.get_context("fork").Process(target=time.sleep, args=(1000,))
    process.start()
    child = process.pid
print(child, flush=True)
os.kill(os.getpid(), signal.SIGKILL)
"""


class Forks(StoreTest):
    def child(self, call: Callable[[], object]) -> str:
        """A forked process, which makes a call and lives on until the test is over."""
        told, tell = os.pipe()
        child = os.fork()
        if child == 0:
            try:
                os.write(tell, repr(call()).encode())
            finally:
                time.sleep(1000)
                os._exit(1)
        os.close(tell)
        self.addCleanup(os.close, told)
        self.addCleanup(os.waitpid, child, 0)
        self.addCleanup(os.kill, child, signal.SIGKILL)
        return os.read(told, 10_000).decode()

    def test_closing_beside_a_child(self) -> None:
        store = self.store()
        store["a"] = "x"
        process = process_of(store)
        self.assertEqual(self.child(lambda: tries(store)), repr(CLOSED))
        self.assertEqual((store["a"], store.set("a", "", "y")), ("x", 2))
        start = time.monotonic()
        store.close()
        self.assertLess(time.monotonic() - start, PATIENCE)
        self.assertEqual(process.returncode, 0)
        with self.store() as again:
            self.assertEqual(again["a"], "y")

    def test_children_of_multiprocessing(self) -> None:
        store = self.store()
        store["a"] = "x"
        fork = multiprocessing.get_context("fork")
        with fork.Pool(2, initializer=globals().__setitem__, initargs=("held", store)) as pool:
            found = pool.map(in_pool, range(4))
            self.assertEqual(found, [CLOSED] * 4)
            self.assertEqual(store["a"], "x")
            store.close()
            with self.store() as again:
                self.assertEqual(again["a"], "x")

    def test_a_parent_that_is_killed(self) -> None:
        for way in ("os", "multiprocessing"):
            words = [sys.executable, "-c", DYING, self.folder, way]
            environment = {**os.environ, "PYTHONPATH": python_path()}
            with subprocess.Popen(words, stdout=subprocess.PIPE, env=environment) as parent:
                assert parent.stdout is not None
                child = int(parent.stdout.readline())
            try:
                self.opened().close()
            finally:
                os.kill(child, signal.SIGKILL)

    def opened(self) -> Store:
        end = time.monotonic() + PATIENCE
        while True:
            try:
                return Store(self.folder)
            except confstore.Locked:
                if time.monotonic() > end:
                    raise
                time.sleep(0.01)

    def test_a_fork_that_python_does_not_see(self) -> None:
        """The child has copies of the ends, and still closing ends the session."""
        store = self.store()
        process = process_of(store)
        child = ctypes.CDLL(None).fork()
        if child == 0:
            os.kill(os.getpid(), signal.SIGSTOP)
            os._exit(0)
        start = time.monotonic()
        store.close()
        self.assertLess(time.monotonic() - start, PATIENCE)
        self.assertEqual(process.returncode, 0)
        os.kill(child, signal.SIGKILL)
        os.waitpid(child, 0)

    def test_a_fork_among_calls(self) -> None:
        """Threads go on while the process forks, and each child sees a store that is not its own."""
        store = self.store()
        store["l"] = []
        found = [self.child(lambda: tries(store)) for _ in range(3)]
        self.assertEqual(found, [repr(CLOSED)] * 3)
        self.assertEqual([store.set("l", "/-", str(number)) for number in range(3)], [2, 3, 4])

    def test_forks_while_stores_are_opened(self) -> None:
        """No fork has a socket, wherever the opening of a store in another thread was."""
        stop = threading.Event()
        opened: list[float] = []
        found: list[int] = []

        def open_stores() -> None:
            while not stop.is_set():
                Store(self.folder).close()
                opened.append(time.monotonic())

        thread = threading.Thread(target=open_stores)
        thread.start()
        for number in range(100):
            time.sleep(number % 10 / 1000)
            child = os.fork()
            if child == 0:
                names = [f"/proc/self/fd/{name}" for name in os.listdir("/proc/self/fd")]
                links = [os.readlink(name) for name in names if os.path.lexists(name)]
                os._exit(sum(link.startswith("socket:") for link in links))
            found.append(os.waitstatus_to_exitcode(os.waitpid(child, 0)[1]))
        stop.set()
        thread.join(PATIENCE)
        self.assertEqual((set(found), thread.is_alive(), len(opened) > 3), ({0}, False, True))

    def test_a_child_has_its_own_stores(self) -> None:
        self.store()
        other = os.path.join(self.top, "other")

        def use() -> tuple[int, confstore.Tree]:
            with Store(other, make=True) as store:
                return store.put("a", "x"), Reader(other).get("a")

        self.assertEqual(self.child(use), "(1, 'x')")


def in_pool(_: int) -> dict[str, str]:
    return tries(globals()["held"])


class ForkedClients(ServerTest):
    def test_a_client_of_a_server(self) -> None:
        self.serve()
        store = self.connect()
        store["a"] = "x"
        child = os.fork()
        if child == 0:
            os._exit(0 if tries(store) == CLOSED else 1)
        self.assertEqual(os.waitstatus_to_exitcode(os.waitpid(child, 0)[1]), 0)
        self.assertEqual(store["a"], "x")


if __name__ == "__main__":
    unittest.main()
