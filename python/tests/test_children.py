"""How programs ended, in processes that are told so, and in those that are not."""

from __future__ import annotations

import contextlib
import os
import signal
import subprocess
import sys
import time
import unittest
from typing import Any, Callable, Iterator, Optional
from unittest import mock

from confstore import ConfstoreError, Damaged, NoConfig, Reader, Store, children
from confstore.children import Child
from confstore.faults import Unknown
from confstore.other import finished

from .places import StoreTest, process_of, python_path

PATIENCE = 20

# What a program does, each in its own way to end.
ENDS = ("exit 0", "exit 1", "exit 3", "exit 120", "kill -KILL $$", "kill -TERM $$", "kill -SEGV $$", "exit 0 >&-")


@contextlib.contextmanager
def disposed(how: Any) -> Iterator[None]:
    """Has this process take SIGCHLD so."""
    before = signal.signal(signal.SIGCHLD, how)
    try:
        yield
    finally:
        signal.signal(signal.SIGCHLD, before)


def take_all(_number: int = 0, _frame: Any = None) -> None:
    """Waits for all children that are over, as the handler of another part of a process may."""
    with contextlib.suppress(ChildProcessError):
        while os.waitpid(-1, os.WNOHANG)[0]:
            pass


def child_of(*words: str) -> Child:
    null = os.open(os.devnull, os.O_RDWR)
    try:
        return Child(words, null, null, null)
    finally:
        os.close(null)


def status_of(body: str) -> Optional[int]:
    """The status of a program, by a `Child`."""
    child = child_of("/bin/sh", "-c", body)
    if not child.ends_within(PATIENCE):
        raise AssertionError(f"{body!r} goes on")
    return child.status


class Statuses(unittest.TestCase):
    def test_as_subprocess_says_them(self) -> None:
        for body in ENDS:
            wanted = subprocess.run(["/bin/sh", "-c", body], check=False).returncode
            for how in (signal.SIG_DFL, signal.SIG_IGN):
                with self.subTest(body, how=how), disposed(how):
                    self.assertEqual(status_of(body), wanted)

    def test_a_status_that_nobody_says(self) -> None:
        with disposed(signal.SIG_IGN), mock.patch.object(children, "SHELL", "/none"):
            for body in ENDS:
                self.assertIsNone(status_of(body))
        child = child_of("/bin/sh", "-c", "exit 0")
        os.waitpid(child.pid, 0)  # as another part of the process may do
        self.assertTrue(child.ends_within(PATIENCE))
        self.assertIsNone(child.status)

    def test_a_shell_that_gets_no_status(self) -> None:
        silent = children._SCRIPT.replace("(exit 7)", "(exit 0)")
        with disposed(signal.SIG_IGN), mock.patch.object(children, "_SCRIPT", silent):
            self.assertIsNone(status_of("exit 0"))

    def test_words_and_the_environment(self) -> None:
        """What a program is given is what it gets, also by a shell."""
        words = ("", " ", "a b", "$HOME", "`id`", "'", '"', "\\", "\n", "*", "-c", "--", "é", ";exit 9")
        say = "import sys; sys.exit(0 if sys.argv[1:] == eval(sys.stdin.read()) else 5)"
        for how in (signal.SIG_DFL, signal.SIG_IGN):
            source, end = os.pipe()
            os.write(end, repr(list(words)).encode())
            os.close(end)
            with disposed(how):
                child = Child([sys.executable, "-c", say, *words], source, 1, 2)
                os.close(source)
                self.assertTrue(child.ends_within(PATIENCE))
            self.assertEqual(child.status, 0)

    def test_a_kill(self) -> None:
        """It ends the program too where a shell stands between, and says so."""
        for how in (signal.SIG_DFL, signal.SIG_IGN):
            held, end = os.pipe()
            with disposed(how), open(held, "rb") as output:
                child = Child(["/bin/sleep", "60"], held, end, end)
                os.close(end)
                self.assertFalse(child.ends_within(0.1))
                child.kill()
                self.assertTrue(child.ends_within(PATIENCE))
                child.kill()
                self.assertEqual(child.status, -signal.SIGKILL)
                self.assertEqual(output.read(), b"")  # nobody has the other end any more

    def test_one_that_stays(self) -> None:
        for how in (signal.SIG_DFL, signal.SIG_IGN):
            with disposed(how), open(os.devnull, "rb") as errors:
                child, began = child_of("/bin/sleep", "60"), time.monotonic()
                self.assertEqual(finished(child, errors.fileno(), bytearray(), 0.2), -signal.SIGKILL)
                self.assertLess(time.monotonic() - began, PATIENCE)


class Stores(StoreTest):
    def damaged(self) -> str:
        folder = os.path.join(self.top, "damaged")
        Store(folder, make=True).close()
        with open(os.path.join(folder, "store.yaml"), "ab") as file:
            file.write(b'at: "9"\nset: x\npath: ""\nvalue: y\n...\n')
        return folder

    def test_where_sigchld_is_ignored(self) -> None:
        damaged = self.damaged()
        with disposed(signal.SIG_IGN):
            with self.store() as store:
                store["web"] = {"port": "80"}
                self.assertRaises(NoConfig, store.delete, "none")
            reader = Reader(self.folder)
            self.assertEqual((reader.names(), len(reader.log())), (["web"], 1))
            self.assertRaises(NoConfig, reader.get, "none")
            calls: list[Callable[[], object]] = [Reader(damaged).names, Reader(damaged).log, lambda: Store(damaged)]
            for call in calls:
                self.assertRaises(Damaged, call)

    def test_a_session_that_is_killed(self) -> None:
        for how in (signal.SIG_DFL, signal.SIG_IGN):
            with disposed(how):
                store = Store(self.folder)
                os.killpg(process_of(store).pid, signal.SIGTERM)
                with self.assertRaises(ConfstoreError) as caught:
                    for _ in range(1_000):
                        store.names()
                about = "ended by signal 15" if how is signal.SIG_DFL else "how the program ended isn't known"
                self.assertIn(about, str(caught.exception))
                self.assertIsInstance(caught.exception, Unknown if how is signal.SIG_IGN else ConfstoreError)
                store.close()

    def test_beside_a_handler_that_waits_for_all(self) -> None:
        """A read gives what is there, or says that it doesn't know: nothing else."""
        damaged = self.damaged()
        self.store()["web"] = "x"
        with disposed(take_all):
            for _ in range(20):
                with contextlib.suppress(Unknown):
                    self.assertEqual(Reader(self.folder).names(), ["web"])
                self.assertRaises((Damaged, Unknown), Reader(damaged).names)

    def test_confstorectl(self) -> None:
        """Its statuses are those that it has where SIGCHLD is not ignored."""
        damaged = self.damaged()
        Store(self.folder).close()
        rows = (["set", self.folder, "none", "/x", "1"], ["exists", self.folder, "none"], ["names", damaged],
                ["delete", f"{self.top}/none", "w"], ["names", self.folder], ["verify", damaged],
                ["import", self.folder, "w", damaged])  # fmt: skip
        environment = {**os.environ, "PYTHONPATH": python_path()}
        for words in rows:
            found = []
            for before in ("", "trap '' CHLD; "):
                run = ["/bin/sh", "-c", f'{before}exec "$@"', "sh", sys.executable, "-m", "confstore.ctl", *words]
                done = subprocess.run(run, env=environment, capture_output=True, check=False, timeout=PATIENCE)
                found.append((done.returncode, done.stdout, done.stderr))
            self.assertEqual(found[0], found[1], words)


if __name__ == "__main__":
    unittest.main()
