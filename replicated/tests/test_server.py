"""The socket of a node: who may connect, and how much clients can have it keep."""

from __future__ import annotations

import json
import os
import socket
import stat
import tempfile
import threading
import time
import unittest
from typing import Any, Callable, Dict
from unittest import mock

from confstore_replicated import Client, server as module
from confstore_replicated.server import Server

Answering = Callable[[Dict[str, Any]], Dict[str, Any]]


class ServerTest(unittest.TestCase):
    def setUp(self) -> None:
        holder = tempfile.TemporaryDirectory()
        self.addCleanup(holder.cleanup)
        self.top = holder.name
        self.folder = os.path.join(self.top, "store")
        os.mkdir(self.folder)
        self.path = os.path.join(self.top, "socket")

    def bound(self, **bounds: float) -> None:
        for name, bound in bounds.items():
            patch = mock.patch.object(module, name, bound)
            patch.start()
            self.addCleanup(patch.stop)

    def serve(self, answer: Answering = lambda request: {"asked": json.dumps(request)[:40]}) -> Server:
        server = Server(self.path, self.folder, lambda request, _user: answer(request))
        thread = threading.Thread(target=server.serve, daemon=True)
        thread.start()
        self.addCleanup(thread.join, 10)
        self.addCleanup(server.end)
        return server

    def client(self) -> socket.socket:
        client = socket.socket(socket.AF_UNIX)
        self.addCleanup(client.close)
        client.settimeout(30)
        client.connect(self.path)
        return client

    def said(self, line: bytes) -> bytes:
        client = self.client()
        client.sendall(line)
        client.shutdown(socket.SHUT_WR)
        with client.makefile("rb") as answers:
            return answers.read()

    def is_cut_off(self, client: socket.socket) -> bool:
        client.settimeout(10)
        try:
            return client.recv(1) == b""
        except ConnectionResetError:
            return True


class Lines(ServerTest):
    def test_lines_that_close_a_document_of_yaml(self) -> None:
        """They have no answer, so that each command has its own, and no other line is taken for one."""
        self.serve(lambda request: {"asked": request["a"]})
        lines = b'{"a": 1}\n...\n...\n{"a": 2}\n...\n'
        self.assertEqual(self.said(lines), b'{"asked": 1}\n{"asked": 2}\n')
        for line in (b"....\n", b" ...\n", b"... \n", b"...\r\n", b"\n"):
            self.assertEqual(self.said(line), b'{"refused": "BadCommand"}\n', line)

    def test_lines(self) -> None:
        self.serve()
        wrong = b'{"refused": "BadCommand"}\n'
        self.assertEqual(self.said(b'{"names": ""}\n'), b'{"asked": "{\\"names\\": \\"\\"}"}\n')
        self.assertEqual(self.said(b'{"names": ""}\n' * 3), b'{"asked": "{\\"names\\": \\"\\"}"}\n' * 3)
        self.assertEqual(self.said(b"no JSON\n[]\n" + b"[" * 100_000 + b"\n"), wrong * 3)
        self.assertEqual(self.said(b'{"names": ""}'), b"")

    def test_a_line_that_is_too_long(self) -> None:
        self.bound(LONGEST_LINE=200_000)
        self.serve()
        self.assertEqual(self.said(b'"' + b" " * 199_000 + b'"\n'), b'{"refused": "BadCommand"}\n')
        self.assertEqual(self.said(b" " * 200_000), b'{"refused": "TooLong"}\n')

    def test_no_node(self) -> None:
        with self.assertRaises(OSError):
            Client(self.path)


class Bounds(ServerTest):
    def test_clients_that_ask_nothing(self) -> None:
        """While others wait, who asked nothing for the longest time goes; who is asking stays."""
        self.bound(MOST_CLIENTS=3, IDLE=0.5)
        go_on = threading.Event()
        self.addCleanup(go_on.set)
        self.serve(lambda request: {"ok": str(go_on.wait(20))} if request else {})
        asking = self.client()
        asking.sendall(b'{"names": ""}\n')
        time.sleep(0.1)
        idle, later = self.client(), self.client()
        for _ in range(3):
            later.sendall(b"{}\n")
            self.assertEqual(later.recv(9), b"{}\n")
            time.sleep(0.2)
        self.assertEqual(self.said(b"{}\n"), b"{}\n")
        self.assertTrue(self.is_cut_off(idle))
        later.sendall(b"{}\n")
        self.assertEqual(later.recv(9), b"{}\n")
        go_on.set()
        self.assertEqual(asking.recv(99), b'{"ok": "True"}\n')

    def test_a_byte_now_and_then_is_no_request(self) -> None:
        self.bound(MOST_CLIENTS=1, IDLE=0.5)
        self.serve(lambda request: {})
        slow, ended = self.client(), threading.Event()

        def trickle() -> None:
            while not ended.wait(0.05):
                try:
                    slow.sendall(b" ")
                except OSError:
                    return

        thread = threading.Thread(target=trickle)
        thread.start()
        self.addCleanup(thread.join)
        self.addCleanup(ended.set)
        self.assertEqual(self.said(b"{}\n"), b"{}\n")

    def test_nobody_goes_while_there_is_a_place(self) -> None:
        self.bound(MOST_CLIENTS=2, IDLE=0.1)
        self.serve(lambda request: {})
        idle = self.client()
        time.sleep(0.5)
        self.assertEqual(self.said(b"{}\n"), b"{}\n")
        idle.sendall(b"{}\n")
        self.assertEqual(idle.recv(9), b"{}\n")

    def test_lines_that_are_not_finished(self) -> None:
        """They have a bound for all together: the one that is unfinished for the longest time goes."""
        self.bound(ROOM=1_000_000, UNFINISHED=0.3)
        server = self.serve(lambda request: {})
        held = [self.client() for _ in range(3)]
        for client in held:
            client.sendall(b" " * 400_000)
            time.sleep(0.1)
        line = b'{"a": "' + b"x" * 600_000 + b'"}\n'
        self.assertEqual(self.said(line), b"{}\n")
        self.assertTrue(self.is_cut_off(held[0]))
        self.assertEqual(self.said(line), b"{}\n")
        for client in held:
            client.close()
        deadline = time.monotonic() + 10
        while server.room._free != 1_000_000 and time.monotonic() < deadline:
            time.sleep(0.02)
        self.assertEqual(server.room._free, 1_000_000)

    def test_a_burst_of_clients(self) -> None:
        """More connections at once than places: all are answered in the end."""
        self.bound(MOST_CLIENTS=8)
        self.serve(lambda request: {})
        answers: list[bytes] = []
        threads = [threading.Thread(target=lambda: answers.append(self.said(b"{}\n"))) for _ in range(60)]
        for thread in threads:
            thread.start()
        for thread in threads:
            thread.join()
        self.assertEqual(answers, [b"{}\n"] * 60)


class Access(ServerTest):
    """The socket of a server; `test_listener.py` tries who may connect, and what is at its name."""

    def test_who_may_write_in_the_folder_may_connect(self) -> None:
        for mode, wanted in ((0o700, 0o600), (0o770, 0o660), (0o777, 0o666)):
            os.chmod(self.folder, mode)
            server = self.serve()
            self.assertEqual(stat.S_IMODE(os.stat(self.path).st_mode), wanted, oct(mode))
            server.end()
            for _ in range(1_000):
                if not os.path.lexists(self.path):
                    break
                time.sleep(0.01)
            self.assertEqual(sorted(os.listdir(self.top)), ["store"])

    def test_one_that_is_left(self) -> None:
        left = socket.socket(socket.AF_UNIX)
        left.bind(self.path)
        left.close()
        self.serve()
        self.assertIn(b"asked", self.said(b"{}\n"))

    def test_the_end_leaves_what_is_another_one(self) -> None:
        server = self.serve()
        os.unlink(self.path)
        with open(self.path, "x", encoding="ascii"):
            pass
        server.end()
        time.sleep(0.3)
        self.assertTrue(os.path.exists(self.path))


if __name__ == "__main__":
    unittest.main()
