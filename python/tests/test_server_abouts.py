"""The server writes who makes a change, and when: no client can say another's name."""

from __future__ import annotations

import os
import random
import socket
import subprocess
import sys
import time
import unittest
from typing import Dict, List, Optional

from confstore import Reader, Store, Tree, document
from confstore.pieces import Cutter
from confstore.trees import trees_of

from . import TOP
from .test_abouts import USER, WithAbouts
from .test_ctl_abouts import CtlTest

PATIENCE = 60

SET = b'set: web\npath: /port\nvalue: "81"\n'

# Commands with an about in which a client says another's name, and what is noted of each beside `by` and `when`.
CLAIMS: "list[tuple[bytes, Dict[str, str]]]" = [
    (SET + b'about:\n  by: eve\n  when: "2020-01-01T00:00:00Z"\n  why: "x y"\n', {"why": "x y"}),
    (SET + b"about:\n  by: eve\n", {}),
    (SET + b'about:\n  "by": eve\n  ticket: |-\n    a\n      by: eve\n', {"ticket": "a\n  by: eve"}),
    (SET + b"about: {by: eve, why: x}\n", {"why": "x"}),
    (SET + b'about:\n  "\\x62y": eve\n  why: x\n', {"why": "x"}),
    (SET + b"about:\n  ? by\n  : eve\n  why: x\n", {"why": "x"}),
    (SET + b"about:\n    by: eve\n    why: x\n", {"why": "x"}),
    (SET + b'about:\n  why: "x\n    by: eve"\n', {"why": "x by: eve"}),
    (SET + b'"\\x61bout": {by: eve}\n', {}),
    (SET + b'? "ab\\\n  out"\n: by: eve\n', {}),
    (SET + b"'about': {'by': eve}\n", {}),
    (SET.replace(b"\n", b"\r") + b"about: {by: eve}\n", {}),
    (b" " + SET.replace(b"\n", b"\n ") + b"about: {by: eve}\n", {}),
    (b"# about\n---\n" + SET + b"about: {by: eve}\n", {}),
    (b'{set: web, path: /port, value: "81", about: {by: eve}}\n', {}),
    (b'{"set": "web", "path": "/port", "value": "81", "about": {"by": "eve", "why": "\\u00e9"}}\n', {"why": "\u00e9"}),
    (b'{"set": "web", "path": "/port", "value": "81", "\\u0061bout": {"\\u0062y": "eve"}}\n', {}),
    (b'{"set": "web", "path": "/port", "value": 81, "about": {"by": "eve"}}\n', {}),
    (b'if:\n- absent: none\nbatch:\n- ' + SET.replace(b"\n", b"\n  ").rstrip() + b"\nabout:\n  by: eve\n", {}),
]  # fmt: skip

# What may be no command at all.
NONE = [
    SET + b"about: {}\n", SET + b"about: eve\n", SET + b"about:\n", SET + b"about:\n  why:\n    - x\n",
    b"about:\n  by: eve\n" + SET, SET + b"about:\n  by: eve\nabout:\n  by: ann\n", SET + b"about:\n  by: eve\n  by: ann\n",
    b"get: web\npath: /port\nabout:\n  by: eve\n", b"names:\nabout:\n  by: eve\n", SET + b"about: *x\n",
    b'{"set": "web", "path": "/port", "value": "81", "about": {}}\n', b"about\n", b'{"about": {"by": "eve"}}\n',
    b'{"set": "web", "path": "/port", "about": {"by": "eve"}, "value": "81"}\n',
    b'{"set": "web", "path": "/port", "value": "81", "about": {"by": "eve"}, "about": {"why": "x"}}\n',
]  # fmt: skip

# Commands without one, which have the word in them, or could spell it.
PLAIN = [
    b"import: web\ntext: 'about: {by: eve}'\n", b'set: web\npath: /about\nvalue: "\\x61"\n',
    b"set: web\npath: /x\nvalue:\n  about:\n    by: eve\n", b"batch:\n- set: web\n  path: /x\n  value: about\n",
    b'{"set": "web", "path": "/x", "value": {"about": {"by": "eve"}}}\n', b'{set: web, path: /x, value: about}\n',
]  # fmt: skip


class Client:
    """A client of the server."""

    def __init__(self, path: str) -> None:
        self.socket = socket.socket(socket.AF_UNIX)
        self.socket.settimeout(PATIENCE)
        self.socket.connect(path)
        self.cutter = Cutter()

    def ask(self, command: bytes) -> bytes:
        """The answer to a command, without its first and its last line."""
        self.socket.sendall(command + b"...\n")
        pieces: List[bytes] = []
        while not pieces:
            part = self.socket.recv(65_536)
            assert part
            pieces = self.cutter.cut(part)
        return pieces[0][len(b"---\n") : -len(b"\n...\n")]


class ServerTest(WithAbouts):
    def serve(self, *words: str) -> Client:
        """A client of a server of the store, which has a configuration."""
        self.path = os.path.join(self.top, "socket")
        program = os.path.join(TOP, "clients", "serve.py")
        server = subprocess.Popen([sys.executable, program, *words, self.path, self.folder])
        self.addCleanup(server.wait)
        self.addCleanup(server.terminate)
        deadline = time.monotonic() + PATIENCE
        while not os.path.exists(self.path) and time.monotonic() < deadline:
            time.sleep(0.02)
        client = Client(self.path)
        self.addCleanup(client.socket.close)
        self.assertEqual(client.ask(b"import: web\ntext: 'port: 80'\n"), b'ok: "1"')
        return client

    def last(self) -> Dict[str, str]:
        """What is noted of the last command."""
        return Reader(self.folder).log()[-1].about


class Claims(ServerTest):
    def test_nobody_says_another_name(self) -> None:
        client, count = self.serve(), 1
        for command, wanted in CLAIMS:
            with self.subTest(command=command):
                count += 1
                self.assertEqual(client.ask(command), b'ok: "%d"' % count)
                about = dict(self.last())
                self.assertNotIn(about.pop("when"), ("", "2020-01-01T00:00:00Z"))
                self.assertEqual(about, {"by": USER, **wanted})

    def test_what_is_no_command(self) -> None:
        client = self.serve()
        for command in NONE:
            self.assertEqual(client.ask(command), b"refused: BadCommand", command)
        with open(os.path.join(self.folder, "store.yaml"), "rb") as source:
            self.assertTrue(source.read().startswith(b"---\nstore: confstore-2\n"))
        self.assertEqual(client.ask(SET), b'ok: "2"')

    def test_a_store_without_abouts_stays_so(self) -> None:
        client = self.serve()
        for count, command in enumerate([*PLAIN, SET], 2):
            self.assertEqual(client.ask(command), b'ok: "%d"' % count, command)
        self.assertEqual({len(about) for about in self.abouts()}, {0})

    def test_each_change_of_a_store_that_keeps_them(self) -> None:
        client = self.serve()
        client.ask(SET + b"about:\n  why: x\n")
        for command in (*PLAIN, SET, b"---\n" + SET, b"if:\n  - absent: none\n" + SET, b'{"delete": "web", "path": "/x"}\n'):
            self.assertTrue(client.ask(command).startswith(b"ok: "), command)
            self.assertEqual(list(self.last()), ["by", "when"], command)
        self.assertEqual(client.ask(b"if:\n- absent: web\n" + SET), b"refused: Unmet")
        self.assertEqual(client.ask(b"get: web\npath: /port\n"), b'value: "81"')
        self.assertTrue(client.ask(b"checkpoint:\n").startswith(b"ok: "))
        client.ask(SET)
        self.assertEqual(self.last()["by"], USER)

    def test_a_server_that_judges(self) -> None:
        client = self.serve("--check", "! grep -q bad")
        self.assertEqual(client.ask(b"set: web\npath: /a\nvalue: bad\nabout:\n  why: x\n"), b"refused: CheckFailed")
        self.assertEqual(client.ask(SET + b"about:\n  by: eve\n  why: x\n"), b'ok: "2"')
        self.assertEqual((self.last()["by"], self.last()["why"]), (USER, "x"))
        self.assertEqual(client.ask(b"set: web\npath: /a\nvalue: bad\n"), b"refused: CheckFailed")
        self.assertEqual(client.ask(b"set: web\npath: /a\nvalue: good\n"), b'ok: "3"')
        self.assertEqual(list(self.last()), ["by", "when"])

    def test_a_session_that_is_renewed(self) -> None:
        client = self.serve("--renew-after", "200")
        for number in range(8):
            self.assertEqual(client.ask(SET + b"about:\n  why: x%d\n" % number), b'ok: "%d"' % (number + 2))
            self.assertEqual(self.last()["why"], f"x{number}")


# What random changes put into commands.
SIGNS = [
    b"\n", b"\r", b" ", b"  ", b":", b": ", b'"', b"'", b"\\", b"\\\n", b"{", b"}", b"[", b",", b"- ", b"? ", b"#", b"|", b"\t",
    b"about", b"\\x61bout", b"by", b"eve", b"about: {by: eve}\n", b"about:\n  by: eve\n", b"\xc2\x85", b"\xef\xbb\xbf", b"---\n",
]  # fmt: skip
CHANGED = 400


class Spellings(unittest.TestCase):
    """Commands that were changed at random, as the server sends them to the session, read by the program."""

    def setUp(self) -> None:
        sys.path.insert(0, os.path.join(TOP, "clients"))
        self.addCleanup(sys.path.remove, os.path.join(TOP, "clients"))
        import serve_abouts
        import serve_clients

        self.spelled = serve_clients.SPELLED
        self.abouts = serve_abouts.Abouts(os.environ["CONFSTORE"], None)  # type: ignore[arg-type]
        self.choices = random.Random(5)

    def read(self, piece: bytes) -> Dict[str, Tree]:
        """The change that a command is, or nothing of another one."""
        done = subprocess.run([os.environ["CONFSTORE"], "format", "-"], input=piece, capture_output=True, check=False)
        tree = trees_of(b"---\n" + done.stdout + b"...\n")[0] if done.returncode == 0 else ""
        keys = tuple(tree) if isinstance(tree, dict) else ()
        keys = keys[1:] if keys[:1] == ("if",) else keys
        keys = keys[:-1] if keys[-1:] == ("about",) else keys
        is_change = keys in (("set", "path", "value"), ("import", "text"), ("delete", "path"), ("batch",))
        return tree if is_change and isinstance(tree, dict) else {}

    def changed(self, command: bytes) -> bytes:
        for _ in range(self.choices.randrange(4)):
            start = self.choices.randrange(len(command))
            end = start + self.choices.randrange(6)
            command = command[:start] + self.choices.choice(SIGNS) + command[end:]
        piece = command.removesuffix(b"\n") + b"\n...\n"
        return piece[: piece.index(b"\n...\n") + len(b"\n...\n")]

    def test_nobody_says_another_name(self) -> None:
        seeds = [*(command for command, _ in CLAIMS), *NONE, *PLAIN]
        for number in range(CHANGED):
            piece = self.changed(self.choices.choice(seeds))
            self.abouts.is_kept = number % 3 == 0
            is_looked_at = self.abouts.is_kept or b"about" in piece or self.spelled.search(piece) is not None
            sent = bytes(self.abouts.noted(bytearray(piece), os.getuid())) if is_looked_at else piece
            before, after = self.read(piece), self.read(sent)
            about = after.pop("about", None)
            if isinstance(about, dict):
                self.assertEqual(about["by"], USER, piece)
            if before and "about" not in before:
                self.assertEqual((after, about is not None), (before, self.abouts.is_kept), piece)


class Packages(ServerTest, CtlTest):
    def serve(self, *words: str) -> Client:
        os.unlink(os.path.join(self.folder, "store.yaml"))
        return super().serve(*words)

    def test_the_package(self) -> None:
        self.serve()
        with Store.connect(self.path, about={"by": "eve", "why": "x"}) as store:
            store.set("web", "/port", "82", if_value="80")
        self.assertEqual(list(self.last().items())[::2], [("by", USER), ("why", "x")])
        with Store.connect(self.path) as store:
            with store.about(ticket="7"):
                store.delete("web", "/port")
            self.assertEqual((self.last()["by"], self.last()["ticket"]), (USER, "7"))
            store.put("web", {})
        self.assertEqual(list(self.last()), ["by", "when"])

    def test_confstorectl(self) -> None:
        self.serve()
        rows: "list[tuple[tuple[str, ...], Optional[str]]]" = [
            (("set", "any", "web", "/port", "82"), None), (("set", "any", "web", "/port", "83", "--about", "by=eve"), ""),
            (("copy", "any", "web", "old", "--about", "why=x"), "x"), (("delete", "any", "old"), ""),
            (("set", "any", "web", "/a/b", "c", "--parents", "--about", "why=\u00e9\u2028"), "\u00e9\u2028"),
        ]  # fmt: skip
        for words, why in rows:
            self.does("--socket", self.path, *words)
            about = self.last()
            self.assertEqual((about.get("by"), about.get("why", "")), (None if why is None else USER, why or ""), words)
        self.does("--socket", self.path, "undo", self.folder, "5")
        self.assertEqual((self.last()["by"], self.last()["why"]), (USER, "undo of 5"))

    def test_a_document_of_the_package(self) -> None:
        """What the package sends is looked at without the program."""
        sys.path.insert(0, os.path.join(TOP, "clients"))
        self.addCleanup(sys.path.remove, os.path.join(TOP, "clients"))
        import serve_abouts

        told: Dict[str, Tree] = {"by": "eve", "why": "a\nb", "\u00e9": "\x85", "k" * 64: "x" * 200}
        piece = bytearray(document({"set": "web", "path": "/port", "value": ["x"], "about": told}))
        lines = serve_abouts.lines_of(piece)
        self.assertEqual(lines.keys, ["set", "path", "value", "about"])
        block = bytes(piece[lines.last_end : -len(b"...\n")])
        self.assertEqual(serve_abouts.kept_pairs(block, serve_abouts.PLAIN_PAIR), block.replace(b"  by: eve\n", b""))
