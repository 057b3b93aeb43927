"""What a session may take: memory, time and a place. Programs that say too much, and paths that can't be used."""

from __future__ import annotations

import errno
import os
import resource
import stat
import subprocess
import sys
import textwrap
import time
import unittest
from typing import Callable
from unittest import mock

import confstore
from confstore import ConfstoreError, Reader, Store, Tree
from confstore.session import LONGEST_ANSWER, LONGEST_COMMAND

from .places import StoreTest, python_path

# How much memory a process may have that meets an answer without an end, and how long a call may be late.
MOST_MEMORY = 600_000_000
PATIENCE = 20


class Answers(StoreTest):
    def test_the_longest_answer(self) -> None:
        for more in (0, 1):
            body = f"heard()\nsys.stdout.buffer.write(b'x' * {LONGEST_ANSWER - 5 + more} + b'\\n...\\n')\n"
            body += "sys.stdout.flush()\nheard()\n"
            session = self.store(program=self.program(body))._session
            if more == 0:
                self.assertEqual(len(session.ask(b"...\n", 60)), LONGEST_ANSWER)
                continue
            for _ in range(2):
                with self.assertRaises(confstore.AnswerLong):
                    session.ask(b"...\n", 60)

    def test_answers_without_an_end(self) -> None:
        """Each is ended in a process that has little memory."""
        for stream, text, kind in (
            (1, "x" * 65_536, "AnswerLong"),
            (1, "a: b\\n" * 10_000, "AnswerLong"),
            (1, "\\n...\\n" * 10_000, "BadAnswer"),
            (2, "x" * 65_536, "TimedOut"),
            (2, "a: b\\n" * 10_000, "TimedOut"),
        ):
            program = self.program(f"heard()\nwhile True: os.write({stream}, b'{text}')\n")
            code = """
                import resource, sys
                resource.setrlimit(resource.RLIMIT_AS, (int(sys.argv[3]),) * 2)
                from confstore import Store, ConfstoreError
                store = Store(sys.argv[2], program=sys.argv[1], timeout=60)
                store._timeout = 60 if sys.argv[4] != "TimedOut" else 2
                for _ in range(2):
                    try:
                        store.checkpoint()
                    except ConfstoreError as fault:
                        print(type(fault).__name__)
                store.close()
            """
            start = time.monotonic()
            found = self.run_python(code, program, self.folder, str(MOST_MEMORY), kind)
            self.assertEqual(found, (0, f"{kind}\n" * 2, ""), (stream, text[:10]))
            self.assertLess(time.monotonic() - start, 2 * 60)

    def run_python(self, code: str, *words: str) -> tuple[int, str, str]:
        environment = {**os.environ, "PYTHONPATH": python_path()}
        command = [sys.executable, "-c", textwrap.dedent(code), *words]
        done = subprocess.run(command, capture_output=True, env=environment, check=False, text=True, timeout=300)
        return done.returncode, done.stdout, done.stderr

    def test_an_answer_to_no_command(self) -> None:
        """The next command must not get it."""
        store = self.store(program=self.program("say(b'---\\nok: \"7\"\\n...\\n')\nheard()\ntime.sleep(100)\n"))
        end = time.monotonic() + PATIENCE
        while store._session.end is None and time.monotonic() < end:
            time.sleep(0.01)
        with self.assertRaises(confstore.BadAnswer):
            store.checkpoint()

    def test_a_reader_has_bounds(self) -> None:
        script = self.program("")
        kinds: list[tuple[str, type[ConfstoreError]]] = [
            ("exec yes", confstore.AnswerLong),
            ("exec yes >&2", confstore.TimedOut),
        ]
        for body, kind in kinds:
            with open(script, "w", encoding="ascii") as target:
                target.write(f"#!/bin/sh\n{body}\n")
            reader = Reader(self.folder, program=script, timeout=60 if kind is confstore.AnswerLong else 1)
            for call in self.reads_of(reader):
                start = time.monotonic()
                with self.assertRaises(kind):
                    call()
                self.assertLess(time.monotonic() - start, 60)


    def reads_of(self, reader: Reader) -> list[Callable[[], Tree | list[str]]]:
        return [reader.names, lambda: reader.get("a")]


class Sent(StoreTest):
    def test_what_was_not_sent_is_never_performed(self) -> None:
        """A program that does not read for a while: what timed out unsent is not among what it reads then."""
        program, heard = self.program_that_waits()
        session = self.store(program=program)._session
        sent: dict[int, bool] = {}
        for number in range(4):
            with self.assertRaises(confstore.TimedOut) as caught:
                session.ask(b"names:\n#%d" % number + b"x" * (LONGEST_COMMAND // 2) + b"\n...\n", 0.3)
            sent[number] = caught.exception.sent
        self.assertEqual(sent, {0: True, 1: False, 2: False, 3: False})
        content = heard(session)
        self.assertEqual({number: b"#%dx" % number in content for number in range(4)}, sent)


class Made(StoreTest):
    def made(self, folder: str, fail: str | None = None) -> list[str]:
        """What is synced while a folder is made."""
        synced: list[str] = []
        real = os.fsync

        def fsync(file: int) -> None:
            path = os.readlink(f"/proc/self/fd/{file}")
            if path == fail:
                raise OSError(errno.EIO, "Input/output error")
            synced.append(path)
            real(file)

        with mock.patch.object(os, "fsync", fsync), Store(folder, make=True) as store:
            store["a"] = "x"
        return synced

    def test_parents_are_synced(self) -> None:
        top = os.path.realpath(self.top)
        levels = [top, f"{top}/new", f"{top}/new/and", f"{top}/new/and/deep"]
        synced = self.made(levels[-1])
        self.assertEqual([level for level in levels if level not in synced], [])
        self.assertEqual(self.made(levels[-1]), [])

    def test_one_that_was_left_without_a_store(self) -> None:
        """It may be left by a call that was ended before it synced."""
        top = os.path.realpath(self.top)
        os.makedirs(f"{top}/left/here")
        synced = self.made(f"{top}/left/here")
        self.assertEqual([level for level in (top, f"{top}/left", f"{top}/left/here") if level not in synced], [])

    def test_a_sync_that_fails(self) -> None:
        top = os.path.realpath(self.top)
        with self.assertRaises(confstore.Device):
            self.made(f"{top}/new/store", fail=top)
        with self.assertRaises(confstore.Device):
            self.made(f"{top}/other/store", fail=f"{top}/other")

    def test_what_can_not_be_made(self) -> None:
        with open(os.path.join(self.top, "file"), "w", encoding="ascii"):
            pass
        rows: list[tuple[str, type[ConfstoreError]]] = [
            (os.path.join(self.top, "file"), confstore.MissingFolder),
            (os.path.join(self.top, "file", "below"), confstore.MissingFolder),
            (os.path.join(self.top, "x" * 300), confstore.UnusablePath),
            ("/proc/none", confstore.MissingFolder),
        ]
        for folder, kind in rows:
            with self.assertRaises(kind):
                Store(folder, make=True)


class Paths(StoreTest):
    def opens(self, folder: str, program: str | None = None) -> list[Callable[[], object]]:
        """The two ways to use a folder by a program."""
        return [lambda: Store(folder, program=program), lambda: Reader(folder, program=program).names()]

    def test_folders(self) -> None:
        os.symlink("loop", os.path.join(self.top, "loop"))
        for folder, number in (
            ("/" + "x" * 300, errno.ENAMETOOLONG),
            ("/x" * 3_000, errno.ENAMETOOLONG),
            (os.path.join(self.top, "loop"), errno.ELOOP),
            ("a\0b", errno.EINVAL),
        ):
            for call in self.opens(folder):
                with self.assertRaises(confstore.UnusablePath) as caught:
                    call()
                self.assertEqual(caught.exception.errno, number)

    def test_programs(self) -> None:
        loop, file = os.path.join(self.top, "loop"), os.path.join(self.top, "file")
        os.symlink("loop", loop)
        with open(file, "w", encoding="ascii") as target:
            target.write("#!/none\n")
        os.chmod(file, stat.S_IRWXU)
        rows: list[tuple[str, type[OSError], int]] = [
            ("/" + "x" * 300, confstore.UnusablePath, errno.ENAMETOOLONG),
            ("x" * 300, confstore.UnusablePath, errno.ENAMETOOLONG),
            (loop, confstore.UnusablePath, errno.ELOOP),
            ("a\0b", confstore.UnusablePath, errno.EINVAL),
            ("no-such-program-here", confstore.MissingProgram, errno.ENOENT),
            (os.path.join(file, "below"), confstore.MissingProgram, errno.ENOENT),
            (file, confstore.MissingProgram, errno.ENOENT),
        ]
        for program, kind, number in rows:
            for call in self.opens(self.folder, program):
                with self.assertRaises(kind) as caught:
                    call()
                self.assertEqual(caught.exception.errno, number, program[:20])

    def test_a_long_pointer(self) -> None:
        self.store()["a"] = "x"
        pointer = "/" + "a" * 200_000
        with self.assertRaises(confstore.TooLongToSend) as caught:
            Reader(self.folder).get("a", pointer)
        self.assertIn("200001", str(caught.exception))
        with self.assertRaises(confstore.NoSuchPlace):
            Reader(self.folder).get("a", pointer[:100_000])

    def test_a_long_environment(self) -> None:
        os.environ["TOO_LONG"] = "x" * 200_000
        self.addCleanup(os.environ.pop, "TOO_LONG")
        for call in self.opens(self.folder):
            with self.assertRaises(confstore.NotStarted) as caught:
                call()
            self.assertEqual(caught.exception.errno, errno.E2BIG)

    def test_few_files(self) -> None:
        """With any number of files it is opened, or it is told, and nothing is left."""
        limits = resource.getrlimit(resource.RLIMIT_NOFILE)
        self.addCleanup(resource.setrlimit, resource.RLIMIT_NOFILE, limits)
        before = os.listdir("/proc/self/fd")
        kinds: set[tuple[type[ConfstoreError], int | None] | None] = set()
        for room in range(12):
            resource.setrlimit(resource.RLIMIT_NOFILE, (len(before) + room, limits[1]))
            try:
                Store(self.folder).close()
                kinds.add(None)
            except confstore.NotStarted as fault:
                kinds.add((type(fault), fault.errno))
            resource.setrlimit(resource.RLIMIT_NOFILE, limits)
            self.assertEqual(len(os.listdir("/proc/self/fd")), len(before))
        self.assertEqual(kinds, {None, (confstore.NotStarted, errno.EMFILE)})


if __name__ == "__main__":
    unittest.main()
