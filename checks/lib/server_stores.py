"""Trials of the store that a server holds: another one in its place, what a session and other runs do to the file, and
what is known of the end of a session."""

from __future__ import annotations

import contextlib
import importlib
import os
import re
import shutil
import signal
import socket
import subprocess
import sys
import threading
import time
from typing import Any, Callable, Iterator

from lib.server_watches import CHECKPOINT, IMPORT, WatchTest, set_to
from lib.servers import NAMES, PATIENCE, PROGRAM, SERVER, Client, Running

REPLACED = 5  # the status of a server whose store was replaced
LOOKED = 1.2  # seconds within which a server that is at work has looked at its store
REFUSED = b"---\nrefused: Replaced\n...\n"


def program(*words: str, **more: Any) -> subprocess.CompletedProcess[bytes]:
    return subprocess.run([PROGRAM, *words], capture_output=True, check=False, **more)


def serve_watch() -> Any:
    """The module of the server that is tried."""
    sys.path.insert(0, os.path.dirname(SERVER))
    try:
        return importlib.import_module("serve_watch")
    finally:
        del sys.path[0]


class StoreTest(WatchTest):
    """A test with another store beside, which has more changes, and other ones."""

    def setUp(self) -> None:
        super().setUp()
        self.other = self.made("other", 9)
        self.moved = os.path.join(self.top, "moved")

    def made(self, name: str, changes: int) -> str:
        folder = os.path.join(self.top, name)
        os.mkdir(folder)
        commands = IMPORT + b"".join(b"set: a\npath: /m\nvalue: '%d'\n...\n" % number for number in range(1, changes))
        self.assertEqual(program("run", folder, input=commands).returncode, 0)
        return folder

    def file(self, folder: str = "") -> str:
        return os.path.join(folder or self.folder, "store.yaml")

    def bytes_of(self, folder: str) -> bytes:
        with open(self.file(folder), "rb") as file:
            return file.read()

    def exchange(self) -> None:
        """Moves the store away, and the other one to its place."""
        os.rename(self.folder, self.moved)
        os.rename(self.other, self.folder)

    def numbers_until_refused(self, client: Client) -> Iterator[int]:
        """Sends changes, one after the other, until one is refused since the store is gone. The session may find that
        first, at a sync: then it ends, and whether the last change is there is not known, so it has no answer."""
        end = time.monotonic() + PATIENCE
        while time.monotonic() < end:
            answer = client.ask(set_to(1))
            if answer in (REFUSED, b""):
                return
            found = re.fullmatch(rb'---\nok: "(\d+)"\n\.\.\.\n', answer)
            self.assertIsNotNone(found, answer)
            assert found is not None
            yield int(found[1])
        self.fail("nothing was refused")

    def assert_ends(self, server: Running, why: str) -> None:
        """The server ends with a line that says why, and its socket is gone."""
        self.assertEqual(server.wait(), REPLACED, server.errors())
        wanted = rf"serve\.py: the store at {re.escape(self.folder)} was replaced: {why}: see which one is meant, "
        told = r"(?:confstore: Device\nstore\.yaml: others have [a-z ]+\n)?"
        self.assertRegex(server.errors(), rf"\A{told}{wanted}and start again\n\Z")
        self.assertFalse(os.path.exists(self.path))


class Replacements(StoreTest):
    """Another store, or none, in the place of the one that a server holds."""

    def try_it(self, replace: Callable[[], None], why: str, *options: str) -> list[int]:
        """Replaces the store beside a client that goes on with its changes. The numbers that it was answered."""
        server = self.serve(*options)
        client = self.client()
        client.ask(IMPORT)
        for number in range(1, 4):
            client.ask(set_to(number))
        numbers = [4]
        replace()
        numbers += self.numbers_until_refused(client)
        self.assertEqual(client.answer(), b"")
        self.assert_ends(server, why)
        self.assertEqual(numbers, list(range(4, 4 + len(numbers))))
        return numbers

    def test_another_folder(self) -> None:
        """All that was answered is in the folder that was moved, and the other store is as it was."""
        before = self.bytes_of(self.other)
        numbers = self.try_it(self.exchange, "another folder is there")
        self.assertEqual(self.bytes_of(self.folder), before)
        self.assertIn(b'\nat: "%d"\n' % numbers[-1], self.bytes_of(self.moved))

    def test_another_folder_while_sessions_are_renewed(self) -> None:
        """However soon a next session begins, it never opens the other store."""
        before = self.bytes_of(self.other)
        numbers = self.try_it(self.exchange, "another folder is there", "--renew-after", "300")
        self.assertEqual(self.bytes_of(self.folder), before)
        self.assertIn(b'\nat: "%d"\n' % numbers[-1], self.bytes_of(self.moved))

    def test_an_empty_folder_while_sessions_are_renewed(self) -> None:
        """No store is made in it."""

        def replace() -> None:
            os.rename(self.folder, self.moved)
            os.mkdir(self.folder)

        self.try_it(replace, "another folder is there", "--renew-after", "300")
        self.assertEqual(os.listdir(self.folder), [])

    def test_signals_until_the_end(self) -> None:
        """Whoever tells it to end meanwhile is told that the store was replaced, too."""
        for number in (signal.SIGTERM, signal.SIGINT, signal.SIGHUP):
            server = self.serve()
            self.exchange()
            self.await_that(lambda: not os.path.exists(self.path), "no more clients are taken")
            self.assertEqual(server.end_by_many(number), REPLACED, server.errors())
            os.rename(self.folder, self.other)
            os.rename(self.moved, self.folder)

    def test_a_folder_that_is_gone(self) -> None:
        self.try_it(lambda: os.rename(self.folder, self.moved), "its folder is not there any more")
        self.assertFalse(os.path.exists(self.folder))

    def test_a_link_that_leads_elsewhere(self) -> None:
        """The path may be a link. Where it leads to another store, the one that it led to is as good as replaced."""
        self.addCleanup(setattr, self, "folder", self.folder)
        real, self.folder = self.folder, os.path.join(self.top, "link")
        os.symlink(real, self.folder)

        def replace() -> None:
            os.symlink(self.other, self.folder + ".new")
            os.rename(self.folder + ".new", self.folder)

        self.try_it(replace, "another folder is there")

    def test_another_file(self) -> None:
        """It is as it was: the session writes to its own."""
        before = self.bytes_of(self.other)
        replace = lambda: os.rename(self.file(self.other), self.file())  # noqa: E731
        self.try_it(replace, "another store.yaml is there")
        self.assertEqual(self.bytes_of(self.folder), before)

    def test_a_file_that_is_gone(self) -> None:
        self.try_it(lambda: os.unlink(self.file()), "its store.yaml is not there any more")
        self.assertFalse(os.path.exists(self.file()))

    def test_a_file_that_is_cut(self) -> None:
        def replace() -> None:
            time.sleep(LOOKED)
            os.truncate(self.file(), 60)

        self.try_it(replace, "its store.yaml was cut or written over")

    def test_a_file_that_is_written_over(self) -> None:
        """By a longer one, as `cp` does it."""
        longer = self.made("longer", 50)

        def replace() -> None:
            time.sleep(LOOKED)
            shutil.copyfile(self.file(longer), self.file())

        self.try_it(replace, "its store.yaml was cut or written over")

    def test_idle_clients_and_new_ones(self) -> None:
        """Commands that come just after are refused by name, also in a connection that was idle. Nobody is taken."""
        server = self.serve()
        idle, silent = self.clients(2)
        self.assertEqual(idle.ask(NAMES), b"---\nnames: []\n...\n")
        self.exchange()
        self.await_that(lambda: not os.path.exists(self.path), "no more clients are taken")
        self.assertEqual(idle.ask(IMPORT + NAMES), REFUSED)
        self.assertEqual([idle.answer(), idle.answer(), silent.answer()], [REFUSED, b"", b""])
        self.assert_ends(server, "another folder is there")

    def test_a_client_that_connects_to_the_old_store(self) -> None:
        """Whoever connects after the exchange has nothing performed in the old store, however soon that is."""
        for number in range(5):
            server = self.serve()
            self.exchange()
            self.assertEqual(self.client().ask(IMPORT), REFUSED)
            self.assert_old_store_is_empty(server, number)

    def test_a_client_that_connects_while_the_server_ends(self) -> None:
        """As long as the socket has its name, whoever connects is told why the store is gone."""
        for number in range(12):
            server, client = self.serve(), self.client()
            self.assertEqual(client.ask(NAMES), b"---\nnames: []\n...\n")
            client.close()
            self.exchange()
            time.sleep(number / 20)
            if os.path.exists(self.path):
                self.assertEqual(self.client().ask(IMPORT), REFUSED, number)
            self.assert_old_store_is_empty(server, number)

    def assert_old_store_is_empty(self, server: Running, number: int) -> None:
        """The server ends, and has performed nothing. The next trial gets stores anew."""
        self.assertEqual(server.wait(), REPLACED)
        self.assertEqual(program("names", self.moved).stdout, b"")
        shutil.rmtree(self.moved)
        self.other = self.made(f"other{number}", 3)
        shutil.rmtree(self.folder)
        os.mkdir(self.folder)

    def test_watchers(self) -> None:
        """They are told all that was answered, then that another store is there, and nothing of that one."""
        server = self.serve()
        self.change(IMPORT, set_to(1), CHECKPOINT)
        watchers = [self.watcher(3), self.watcher(3), self.watcher()]
        self.change(set_to(2), set_to(3))
        records = self.records()
        self.exchange()
        for client in watchers:
            told = [client.answer() for _ in range(4)]
            self.assertEqual(told, [*records, b'---\nreplaced:\n  after: "0"\n...\n', b""])
        self.assert_ends(server, "another folder is there")

    def test_one_that_watches_what_is_another_file(self) -> None:
        server = self.serve()
        self.change(IMPORT)
        client = self.watcher(1)
        self.assertEqual(client.answer(), self.records()[0])
        os.rename(self.file(self.other), self.file())
        self.assertEqual([client.answer(), client.answer()], [b'---\nreplaced:\n  after: "0"\n...\n', b""])
        self.assert_ends(server, "another store.yaml is there")

    def test_health(self) -> None:
        """While commands are refused, the server says why it isn't healthy."""
        where = os.path.join(self.top, "metrics")
        self.serve("--metrics", where)
        self.client()
        self.exchange()
        self.await_that(lambda: not os.path.exists(self.path), "no more clients are taken")
        with socket.socket(socket.AF_UNIX) as connection:
            connection.settimeout(PATIENCE)
            connection.connect(where)
            connection.sendall(b"GET /health HTTP/1.1\r\n\r\n")
            with connection.makefile("rb") as stream:
                told = stream.read()
        self.assertRegex(told, rb"\AHTTP/1\.1 503 [^\0]*\r\n\r\nthe store was replaced: another folder is there\n\Z")


class Renewals(StoreTest):
    """What lies between two sessions of a server: what other runs may do there, and what only another store is."""

    def serve_without_a_session(self) -> tuple[Running, Client, subprocess.Popen[bytes]]:
        """A server that waits for another run that holds the store, a client that waits, and that run."""
        server = self.serve("--renew-after", "150")
        client = self.client()
        client.ask(IMPORT)
        run: list[subprocess.Popen[bytes]] = []

        def take() -> None:
            while not run:
                pipe, words = subprocess.PIPE, [PROGRAM, "run", self.folder]
                got = subprocess.Popen(words, stdin=pipe, stdout=pipe, stderr=subprocess.DEVNULL)
                assert got.stdin and got.stdout
                with contextlib.suppress(BrokenPipeError):
                    got.stdin.write(NAMES)
                    got.stdin.flush()
                if got.stdout.readline():
                    run.append(got)
                else:
                    self.end_run(got)

        thread = threading.Thread(target=take)
        thread.start()
        client.socket.settimeout(1)
        with contextlib.suppress(TimeoutError):
            while True:
                client.ask(set_to(1))
        client.socket.settimeout(PATIENCE)
        thread.join()
        self.addCleanup(self.end_run, run[0])
        return server, client, run[0]

    def end_run(self, run: subprocess.Popen[bytes]) -> None:
        with contextlib.suppress(BrokenPipeError, ValueError):
            run.communicate()
        run.wait()

    def perform(self, run: subprocess.Popen[bytes], command: bytes) -> bytes:
        """What a run answers to one more command."""
        assert run.stdin and run.stdout
        run.stdin.write(command)
        run.stdin.flush()
        lines: list[bytes] = []
        while lines[-1:] != [b"...\n"] or lines == [b"...\n"] or not lines[-2].startswith((b"ok", b"refused")):
            lines.append(run.stdout.readline())
            self.assertTrue(lines[-1], lines)
        return lines[-2]

    def test_changes_and_checkpoints_of_another_run(self) -> None:
        server, client, run = self.serve_without_a_session()
        for _ in range(3):
            self.assertIn(b"ok", self.perform(run, set_to(7)))
            self.assertIn(b"ok", self.perform(run, CHECKPOINT))
        last = int(self.perform(run, set_to(8)).split(b'"')[1])
        self.end_run(run)
        self.assertEqual(client.answer(), b'---\nok: "%d"\n...\n' % (last + 1))
        self.assertEqual(server.end(), 0, server.errors())

    def test_another_run_that_is_killed(self) -> None:
        """The next session copies the file, which has another number then."""
        server, client, run = self.serve_without_a_session()
        last = int(self.perform(run, set_to(8)).split(b'"')[1])
        before = os.stat(self.file()).st_ino
        run.kill()
        self.assertEqual(client.answer(), b'---\nok: "%d"\n...\n' % (last + 1))
        self.assertNotEqual(os.stat(self.file()).st_ino, before)
        time.sleep(LOOKED)  # the server looks at the file in this time
        self.assertEqual(client.ask(set_to(9)), b'---\nok: "%d"\n...\n' % (last + 2))
        self.assertEqual(server.end(), 0, server.errors())

    def assert_refused(self, replace: Callable[[], None], why: str) -> None:
        """Where the store is replaced while no session has it, nothing is performed and nothing made."""
        server, client, run = self.serve_without_a_session()
        replace()
        self.end_run(run)
        there = self.bytes_of(self.folder) if os.path.exists(self.file()) else None
        self.assertEqual(client.answer(), REFUSED)
        self.assert_said(server, why)
        self.assertEqual(self.bytes_of(self.folder) if os.path.exists(self.file()) else None, there)

    def assert_said(self, server: Running, why: str) -> None:
        self.assertEqual(server.wait(), REPLACED, server.errors())
        self.assertIn(f" was replaced: {why}: see which one is meant, and start again\n", server.errors())

    def test_another_file(self) -> None:
        replace = lambda: os.rename(self.file(self.other), self.file())  # noqa: E731
        self.assert_refused(replace, "its store.yaml does not go on from what was answered")

    def test_an_older_file(self) -> None:
        """A copy of the store from before, written over it."""
        older = self.made("older", 1)

        def replace() -> None:
            shutil.copyfile(self.file(older), self.file())

        self.assert_refused(replace, "its store.yaml does not go on from what was answered")

    def test_no_file(self) -> None:
        self.assert_refused(lambda: os.unlink(self.file()), "its store.yaml is not there any more")

    def test_a_file_that_goes_while_a_session_begins(self) -> None:
        """However late a session looks for the file, it makes no store where that is gone."""
        program = os.path.join(self.top, "late")
        with open(program, "w", encoding="ascii") as target:
            target.write(f'#!/bin/sh\n[ ! -e "{self.top}/late.now" ] || sleep 0.7\nexec "{PROGRAM}" "$@"\n')
        os.chmod(program, 0o755)
        server = self.serve("--renew-after", "150", program=program)
        client = self.client()
        client.ask(IMPORT)
        session = server.session()
        with open(f"{self.top}/late.now", "w", encoding="ascii"):
            pass
        client.send(set_to(1) * 9)
        self.await_that(lambda: self.next_session(server) not in (0, session), "the next session has begun")
        os.unlink(self.file())
        answers = [client.answer() for _ in range(9)]
        self.assertIn(REFUSED, answers)
        self.assertEqual(server.wait(), REPLACED, server.errors())
        self.assertIn(" was replaced: its store.yaml is not there any more: ", server.errors())
        self.assertFalse(os.path.exists(self.file()))

    def next_session(self, server: Running) -> int:
        """The process of the session that there is, or 0."""
        with open(f"/proc/{server.process.pid}/task/{server.process.pid}/children", encoding="ascii") as children:
            return int((children.read().split() or ["0"])[0])

    def test_another_folder(self) -> None:
        self.assert_refused(self.exchange, "another folder is there")


class OwnFiles(StoreTest):
    """A file that the session itself puts there is no replacement."""

    def test_checkpoints(self) -> None:
        """Those that are asked for and those that are made by length, over renewed sessions, with some who watch."""
        server = self.serve("--checkpoint-after", "600", "--renew-after", "20000")
        self.change(IMPORT)
        watchers = [self.watcher() for _ in range(3)]
        client, end, number = self.client(), time.monotonic() + 6, 1
        while time.monotonic() < end:
            number += 1
            self.assertEqual(client.ask(set_to(number)), b'---\nok: "%d"\n...\n' % number, server.errors())
            if number % 5 == 0:
                self.assertEqual(client.ask(CHECKPOINT), b'---\nok: "%d"\n...\n' % number, server.errors())
        self.assertGreater(number, 200)
        self.assertTrue(all(watcher.next_byte() for watcher in watchers))
        self.assertEqual((server.end(), server.errors()), (0, ""))

    def test_a_program_behind_a_script(self) -> None:
        """Where the session's process is not the one that has the file, its checkpoints are taken for its own too."""
        script = os.path.join(self.top, "script")
        with open(script, "w", encoding="ascii") as target:
            target.write(f'#!/bin/sh\n"{PROGRAM}" "$@"\n')
        os.chmod(script, 0o755)
        server = self.serve(program=script)
        self.change(IMPORT, CHECKPOINT)
        time.sleep(LOOKED)
        self.change(set_to(1), CHECKPOINT)
        time.sleep(LOOKED)
        self.assertEqual((server.end(), server.errors()), (0, ""))

    def test_a_program_that_is_named_from_here(self) -> None:
        """A relative path of the program leads from where the server was started, also for a next session."""
        name = os.path.relpath(PROGRAM, self.top)
        self.serve("--renew-after", "200", program=name, cwd=self.top)
        client = self.client()
        for number in range(1, 20):
            self.assertEqual(client.ask(IMPORT), b'---\nok: "%d"\n...\n' % number)

    def test_marks(self) -> None:
        """The last record is found wherever it begins, and a file goes on from its own beginning alone."""
        module, path = serve_watch(), os.path.join(self.top, "file")
        base = b'---\nstore: confstore-2\nat: "6"\nconfigs: {}\n...\n'
        for length in (0, 10, module.TAIL - 40, module.TAIL, 4 * module.TAIL + 1, 300_000):
            record = b'---\nat: "7"\nset: a\npath: ""\nvalue: "%s"\n...\n' % (b"x" * length)
            one = base + record
            for content, number in ((base, 6), (one, 7), (one + record, 7), (one + b"---\na", 7)):
                with self.subTest(length=length, number=number, bytes=len(content)):
                    mark = self.marked(module, path, content)
                    self.assertEqual((mark.number, mark.end), (number, content.rindex(b"\n...\n") + 5))
                    self.assertTrue(self.goes_on(mark, path, content[: mark.end] + record))
                    self.assertTrue(self.goes_on(mark, path, base.replace(b'"6"', b'"%d"' % number)))
                    if number == 7:
                        self.assertFalse(self.goes_on(mark, path, base))
                        other = base.replace(b"{}", b"{a: b}")
                        self.assertFalse(self.goes_on(mark, path, other + record * 9))

    def marked(self, module: Any, path: str, content: bytes) -> Any:
        with open(path, "wb") as target:
            target.write(content)
        with open(path, "rb") as file:
            return module.mark_of(file.fileno())

    def goes_on(self, mark: Any, path: str, content: bytes) -> bool:
        with open(path, "wb") as target:
            target.write(content)
        with open(path, "rb") as file:
            return bool(mark.goes_on_in(file.fileno()))


class Identities(StoreTest):
    def test_the_name_that_the_socket_was_bound_by(self) -> None:
        """Whoever is connected can see which folder the server has, whatever path it came by."""
        found = os.stat(self.folder)
        self.path = os.path.join(self.folder, "confstore.sock")
        self.serve()
        link, hard = os.path.join(self.other, "confstore.sock"), os.path.join(self.top, "hard")
        os.symlink(self.path, link)
        os.link(self.path, hard)
        for path in (self.path, link, hard):
            name = self.client(path).socket.getpeername()
            self.assertEqual(os.path.basename(name), f"store-{found.st_dev}-{found.st_ino}")


class Parents(StoreTest):
    """A parent that ignores SIGCHLD leaves that to the server: the system keeps no status of children then."""

    def ignoring(self, *options: str, folder: str = "") -> Running:
        ignore = lambda: signal.signal(signal.SIGCHLD, signal.SIG_IGN)  # noqa: E731
        return self.start(*options, folder=folder, preexec_fn=ignore)

    def test_a_session_that_is_killed(self) -> None:
        server = self.ignoring()
        self.await_that(lambda: os.path.exists(self.path), "clients are taken")
        os.kill(server.session(), signal.SIGKILL)
        self.assertEqual(server.wait(), signal.SIGKILL)
        self.assertRegex(server.errors(), r"\Aserve\.py: the session was ended by signal 9: [^\n]*\n\Z")

    def test_a_store_that_is_damaged(self) -> None:
        with open(self.file(self.other), "ab") as file:
            file.write(b"at: '99'\nset: x\npath: ''\nvalue: y\n...\n")
        server = self.ignoring(folder=self.other)
        self.assertEqual((server.wait(), server.errors()), (1, "confstore: Damaged\n"))

    def test_a_session_that_is_renewed(self) -> None:
        server = self.ignoring("--renew-after", "200")
        self.await_that(lambda: os.path.exists(self.path), "clients are taken")
        client = self.client()
        for number in range(1, 20):
            self.assertEqual(client.ask(IMPORT), b'---\nok: "%d"\n...\n' % number)
        self.assertEqual((server.end(), server.errors()), (0, ""))
