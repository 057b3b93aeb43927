"""`clients/serve.py`: one session for many clients, and `Store.connect`."""

from __future__ import annotations

import importlib.util
import os
import signal
import socket
import stat
import subprocess
import sys
import threading
import time
import unittest
from unittest import mock

import confstore
from confstore import Store

from . import TOP
from .places import StoreTest

SERVER = os.path.join(TOP, "clients", "serve.py")
PATIENCE = 30


class ServerTest(StoreTest):
    """A test with a server of the store."""

    def setUp(self) -> None:
        super().setUp()
        self.path = os.path.join(self.top, "socket")

    def serve(self, *options: str, errors: int | None = None) -> subprocess.Popen[bytes]:
        """A server that has begun to take clients, or has ended."""
        words = [sys.executable, SERVER, *options, self.path, self.folder]
        process = subprocess.Popen(words, stderr=errors)
        self.addCleanup(self.stop, process)
        end = time.monotonic() + PATIENCE
        while process.poll() is None and time.monotonic() < end:
            with socket.socket(socket.AF_UNIX) as connection:
                if connection.connect_ex(self.path) == 0:
                    break
            time.sleep(0.01)
        return process

    def stop(self, process: subprocess.Popen[bytes]) -> None:
        process.kill()
        process.wait()
        if process.stderr:
            process.stderr.close()

    def connect(self) -> Store:
        store = Store.connect(self.path, timeout=PATIENCE)
        self.addCleanup(store.close)
        return store

    def raw(self) -> socket.socket:
        connection = socket.socket(socket.AF_UNIX)
        connection.settimeout(PATIENCE)
        connection.connect(self.path)
        self.addCleanup(connection.close)
        return connection


def session_of(process: subprocess.Popen[bytes]) -> int:
    with open(f"/proc/{process.pid}/task/{process.pid}/children", encoding="ascii") as children:
        return int(children.read())


def errors_of(process: subprocess.Popen[bytes]) -> bytes:
    """What a process that has ended wrote to standard error."""
    assert process.stderr is not None
    return process.stderr.read()


def received(connection: socket.socket, count: int) -> bytes:
    """So many answers, or those until the server cuts the client off."""
    answers = b""
    while answers.count(b"...\n") < count and (part := connection.recv(65_536)):
        answers += part
    return answers


class Clients(ServerTest):
    def test_clients_share_a_session(self) -> None:
        self.serve()
        stores = [self.connect() for _ in range(16)]
        wrong: list[int] = []

        def append(number: int) -> None:
            store = stores[number]
            store[f"list{number}"] = []
            for turn in range(20):
                store.set(f"list{number}", "/-", f"n{turn}")
            if store[f"list{number}"] != [f"n{turn}" for turn in range(20)]:
                wrong.append(number)

        threads = [threading.Thread(target=append, args=(number,)) for number in range(16)]
        for thread in threads:
            thread.start()
        for thread in threads:
            thread.join(PATIENCE)
        self.assertEqual((wrong, len(stores[0].names()), stores[1].checkpoint()), ([], 16, 16 * 21))
        with self.assertRaises(confstore.Unsupported):
            stores[0].log()

    def test_answers_come_in_order(self) -> None:
        """Many commands at once, with answers that are short and long."""
        self.serve()
        connection = self.raw()
        commands = [b"import: a\ntext: '[]'\n...\n"]
        wanted = [b'---\nok: "1"\n...\n']
        for number in range(1, 101):
            commands += [b"---\nset: a\npath: /-\nvalue: x\n...\n", b"get: a\npath: ''\n...\n", b"...\n"]
            wanted += [b'---\nok: "%d"\n...\n' % (number + 1), b"---\nvalue:\n" + b"  - x\n" * number + b"...\n"]
            wanted += [b"---\nrefused: BadCommand\n...\n"]
        connection.sendall(b"".join(commands))
        self.assertEqual(received(connection, len(wanted)), b"".join(wanted))

    def test_a_client_that_leaves(self) -> None:
        self.serve()
        gone = self.raw()
        gone.sendall(b"import: a\ntext: x\n...\nset: a\npath: ''\nvalue: y\n...\nset: a")
        gone.close()
        store = self.connect()
        end = time.monotonic() + PATIENCE
        while store.names() != ["a"] and time.monotonic() < end:
            time.sleep(0.01)
        self.assertIn(store["a"], ("x", "y"))

    def test_a_client_that_sends_all_and_then_reads(self) -> None:
        self.serve()
        connection = self.raw()
        connection.sendall(b"names:\n...\n" * 50)
        connection.shutdown(socket.SHUT_WR)
        self.assertEqual(received(connection, 51), b"---\nnames: []\n...\n" * 50)

    def test_a_long_command(self) -> None:
        self.serve()
        connection = self.raw()
        with self.assertRaises(OSError):
            for _ in range(400):
                connection.sendall(b"#" * 65_536)
        self.assertEqual(self.connect().names(), [])

    def test_a_client_that_does_not_read(self) -> None:
        """What waits for it is little, and the others go on."""
        process = self.serve()
        self.connect()["large"] = ["x" * 900_000]
        slow = self.raw()
        slow.setblocking(False)
        sent, commands = 0, b"get: large\npath: ''\n...\n" * 100_000
        try:
            while sent < len(commands):
                sent += slow.send(commands[sent:])
                time.sleep(0.01)
        except BlockingIOError:
            pass
        store = self.connect()
        for number in range(100):
            store.put("other", str(number))
        with open(f"/proc/{process.pid}/status", encoding="ascii") as status:
            size = int(next(line for line in status if line.startswith("VmHWM:")).split()[1])
        self.assertLess(size, 60_000)
        slow.setblocking(True)
        slow.settimeout(PATIENCE)
        self.assertGreaterEqual(received(slow, 20).count(b"...\n"), 20)


class Cutting(unittest.TestCase):
    def test_pieces(self) -> None:
        spec = importlib.util.spec_from_file_location("serve_socket", os.path.join(TOP, "clients", "serve_socket.py"))
        assert spec is not None and spec.loader is not None
        sockets = importlib.util.module_from_spec(spec)
        spec.loader.exec_module(sockets)
        stream = b"...\na\n...\n....\n ...\n...\n\n...\nb...\nrest"
        for step in (1, 2, 3, 5, 100):
            pieces = sockets.Pieces()
            found: list[bytes] = []
            for place in range(0, len(stream), step):
                pieces.add(stream[place : place + step])
                while pieces.end:
                    found.append(pieces.take())
            self.assertEqual(found, [b"...\n", b"a\n...\n", b"....\n ...\n...\n", b"\n...\n"])
            self.assertEqual(bytes(pieces.bytes), b"b...\nrest")


class Ends(ServerTest):
    def test_told_to_end(self) -> None:
        process = self.serve()
        connection = self.raw()
        connection.sendall(b"import: a\ntext: x\n...\n" * 10)
        first = received(connection, 1)
        process.terminate()
        answers = first + received(connection, 100)
        self.assertEqual(process.wait(PATIENCE), 0)
        self.assertFalse(os.path.exists(self.path))
        answered = answers.count(b"ok:")
        with self.store() as store:
            self.assertEqual((store.checkpoint(), store["a"]), (answered, "x"))

    def test_told_to_end_while_a_client_does_not_read(self) -> None:
        process = self.serve()
        self.connect()["large"] = ["x" * 900_000]
        slow = self.raw()
        slow.sendall(b"get: large\npath: ''\n...\n")
        time.sleep(0.3)
        process.terminate()
        self.assertEqual(process.wait(PATIENCE), 0)

    def test_a_killed_session(self) -> None:
        process = self.serve()
        store = self.connect()
        store["a"] = "x"
        os.kill(session_of(process), signal.SIGKILL)
        with self.assertRaises(confstore.SessionEnded):
            for _ in range(100):
                store.set("a", "", "y")
        self.assertEqual(process.wait(PATIENCE), signal.SIGKILL)
        self.serve()
        store.reopen()
        self.assertIn(store["a"], ("x", "y"))

    def test_sixteen_clients_of_sessions_that_are_killed(self) -> None:
        """Each client appends numbers to a list of its own, and connects again when it is cut off."""
        served = [self.serve()]
        answered, stop = [0] * 16, threading.Event()
        wrong: list[tuple[int, int, int | str]] = []
        for number in range(16):
            self.connect().put(f"list{number}", [])

        def append(number: int) -> None:
            store = Store.connect(self.path, timeout=PATIENCE)
            while not stop.is_set():
                try:
                    store.set(f"list{number}", "/-", f"n{answered[number]}")
                    answered[number] += 1
                except confstore.SessionEnded:
                    if not self.catch_up(store, number, answered, wrong):
                        break
            store.close()

        threads = [threading.Thread(target=append, args=(number,)) for number in range(16)]
        for thread in threads:
            thread.start()
        for _ in range(3):
            time.sleep(0.4)
            os.kill(session_of(served[-1]), signal.SIGKILL)
            self.assertEqual(served[-1].wait(PATIENCE), signal.SIGKILL)
            served.append(self.serve())
        time.sleep(0.4)
        stop.set()
        for thread in threads:
            thread.join(PATIENCE)
        store = self.connect()
        lists = [len(store[f"list{number}"]) for number in range(16)]
        self.assertEqual((lists, wrong, min(answered) > 0), (answered, [], True))

    def catch_up(
        self, store: Store, number: int, answered: list[int], wrong: list[tuple[int, int, int | str]]
    ) -> bool:
        """Connects again, and sees which commands are there: all that were answered, and at most one more."""
        end = time.monotonic() + PATIENCE
        while time.monotonic() < end:
            try:
                store.reopen()
                found = store[f"list{number}"]
            except confstore.SessionEnded:
                time.sleep(0.02)
                continue
            if found != [f"n{turn}" for turn in range(len(found))] or len(found) - answered[number] not in (0, 1):
                wrong.append((number, answered[number], len(found)))
            answered[number] = len(found)
            return True
        wrong.append((number, answered[number], "no server"))
        return False

    def test_a_store_that_is_held(self) -> None:
        self.store()
        process = self.serve(errors=subprocess.PIPE)
        said = b"confstore: Locked\nstore.lock: another run holds its lock\n"
        self.assertEqual((process.wait(PATIENCE), errors_of(process)), (3, said))
        self.assertFalse(os.path.exists(self.path))

    def test_a_new_session_after_many_bytes(self) -> None:
        process = self.serve("--renew-after", "2000")
        stores = [self.connect() for _ in range(4)]
        before = session_of(process)
        for number in range(100):
            stores[number % 4].put(f"c{number % 4}", str(number))
        self.assertEqual(stores[0].checkpoint(), 100)
        self.assertNotEqual(session_of(process), before)


class Sockets(ServerTest):
    def test_modes(self) -> None:
        for mode, wanted in ((0o700, 0o600), (0o755, 0o600), (0o770, 0o660), (0o775, 0o660), (0o777, 0o666)):
            os.chmod(self.folder, mode)
            process = self.serve()
            self.assertEqual(stat.S_IMODE(os.stat(self.path).st_mode), wanted, oct(mode))
            process.terminate()
            process.wait(PATIENCE)

    @unittest.skipUnless(os.geteuid() == 0, "needs root")
    def test_the_group(self) -> None:
        os.chown(self.folder, -1, 12345)
        os.chmod(self.folder, 0o770)
        self.serve()
        found = os.stat(self.path)
        self.assertEqual((found.st_gid, stat.S_IMODE(found.st_mode)), (12345, 0o660))

    def test_an_old_socket_is_replaced(self) -> None:
        process = self.serve()
        session = session_of(process)
        process.kill()
        process.wait()
        end = time.monotonic() + PATIENCE
        while os.path.exists(f"/proc/{session}") and time.monotonic() < end:
            time.sleep(0.01)
        self.assertTrue(os.path.exists(self.path))
        self.serve()
        self.assertEqual(self.connect().names(), [])

    def test_what_is_no_old_socket_stays(self) -> None:
        with open(self.path, "w", encoding="ascii"):
            pass
        process = self.serve(errors=subprocess.PIPE)
        self.assertEqual(process.wait(PATIENCE), 3)
        self.assertTrue(os.path.exists(self.path))

    def test_a_socket_that_is_used(self) -> None:
        self.serve()
        other = os.path.join(self.top, "other")
        os.mkdir(other)
        words = [sys.executable, SERVER, self.path, other]
        done = subprocess.run(words, capture_output=True, check=False, timeout=PATIENCE)
        self.assertEqual(done.returncode, 3)
        self.assertEqual(self.connect().names(), [])

    def test_the_manager_is_told(self) -> None:
        with socket.socket(socket.AF_UNIX, socket.SOCK_DGRAM) as manager:
            manager.settimeout(PATIENCE)
            manager.bind(os.path.join(self.top, "manager"))
            with mock.patch.dict(os.environ, {"NOTIFY_SOCKET": os.path.join(self.top, "manager")}):
                self.serve()
            self.assertEqual(manager.recv(100), b"READY=1")


if __name__ == "__main__":
    unittest.main()
