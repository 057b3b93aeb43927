"""Who makes a change, when and why: what entries note is in the records of every node."""

from __future__ import annotations

import importlib.util
import io
import os
import pwd
import socket
import sys
import threading
import unittest
from typing import Any, Dict
from unittest import mock

from confstore import ConfstoreError, Reader, document
from confstore.abouts import keeps_abouts
from confstore_replicated.answers import END, answers_in
from confstore_replicated.entries import NO_MARK, RESERVED, Change, Refused, batch_of, change_in, change_of, command_of
from confstore_replicated.entries import digest_of, entry_of
from confstore_replicated.etcd import Item
from confstore_replicated.follower import Follower
from confstore_replicated.log import main
from confstore_replicated.server import Server

from . import TOP
from .test_node import NodeTest

SET: Dict[str, Any] = {"set": "a", "path": "/n", "value": "y"}
ABOUT = {"by": "ann", "when": "2026-12-01T10:00:00Z", "why": "a trial"}


def about_program() -> Any:
    """The module of the package's tests that has a program which takes abouts."""
    path = os.path.join(TOP, "python", "tests", "about_program.py")
    spec = importlib.util.spec_from_file_location("about_program", path)
    assert spec is not None and spec.loader is not None
    module = importlib.util.module_from_spec(spec)
    spec.loader.exec_module(module)
    return module


class Entries(unittest.TestCase):
    def test_what_stands_in_the_log(self) -> None:
        for command in ({**SET, "about": ABOUT}, {"if": [{"count": "3"}], "batch": [SET], "about": ABOUT}):
            change = change_of(command)
            entry = entry_of(command_of(change))
            self.assertEqual(change_in(entry), (change, command_of(change)))
            self.assertEqual(change.about, ABOUT)
            batch = batch_of(change, 7, 0, NO_MARK)
            self.assertEqual((list(batch)[-1], batch["about"]), ("about", ABOUT))
        self.assertEqual(batch_of(Change([SET]), 7, 0, NO_MARK).keys(), {"batch"})

    def test_what_is_refused(self) -> None:
        rows: "list[tuple[str, Any]]" = [
            ("BadCommand", {}), ("BadCommand", "x"), ("BadCommand", {"why": ["x"]}), ("BadCommand", {"": "x"}),
            ("AboutLarge", {"k" * 65: "x"}), ("AboutLarge", {str(number): "" for number in range(17)}),
            ("AboutLarge", {"k": "x" * 4_096}), ("NotText", {"why": "\ud800"}),
        ]  # fmt: skip
        for word, about in rows:
            with self.assertRaises(Refused) as caught:
                change_of({**SET, "about": about})
            self.assertEqual(caught.exception.word, word, str(about)[:60])
        for command in ({"about": ABOUT, **SET}, {"names": "", "about": ABOUT}, {"about": ABOUT}):
            with self.assertRaises(Refused):
                change_of(command)

    def test_a_command_that_is_sent_again(self) -> None:
        """Its name is that of another command where it says something else, and not where it is sent later."""
        changes = [Change([SET], (), about) for about in (ABOUT, {**ABOUT, "when": "later"}, {**ABOUT, "why": "other"})]
        first, again, other = (digest_of(change, command_of(change)) for change in changes)
        self.assertEqual(first, again)
        self.assertNotEqual(first, other)
        plain = Change([SET])
        stamped = Change([SET], (), {"by": "ann", "when": "now"})
        self.assertEqual(digest_of(plain, command_of(plain)), digest_of(stamped, command_of(stamped)))

    def test_the_answers_in_a_file(self) -> None:
        """An about stands behind the number of the entry, and can't be taken for one."""
        fake = f'  - set: {RESERVED}\n    path: "/{9:020}"\n    value: faked\n'
        abouts = [ABOUT, {"why": fake, "more": fake * 20}, {"k": "\n" * 1_900}, {"k": "x" * 4_000}, {}]
        folder = os.path.join(TOP, "none")
        for about in abouts:
            records = ['---\nstore: confstore-3\nat: "0"\nconfigs: {}\n...\n']
            change = Change([SET], (), about)
            record = {"at": "1", **batch_of(change, 7, 3, NO_MARK)}
            records.append(document(record).decode())
            with mock.patch("builtins.open", lambda *_: io.BytesIO("".join(records).encode())):
                found = [(number, performed.answer) for number, performed in answers_in(folder)]
            self.assertEqual(found, [(7, {"ok": "1"})], str(about)[:60])
            self.assertLess(len(records[1]) - records[1].index("  - set: replication"), END)


class Nodes(NodeTest):
    def setUp(self) -> None:
        super().setUp()
        self.module = about_program()
        patch = mock.patch.dict(os.environ, self.module.program_with_abouts())
        patch.start()
        self.addCleanup(patch.stop)
        self.user = pwd.getpwuid(os.getuid()).pw_name

    def abouts(self, name: str) -> "list[dict[str, str]]":
        return [record.about for record in Reader(os.path.join(self.top, name)).log()]

    def test_all_nodes_note_the_same(self) -> None:
        one, two = self.node("a"), self.node("b")
        self.assertEqual(one.answer({"import": "a", "text": "n: 0"}, os.getuid()), {"ok": "1"})
        self.assertFalse(keeps_abouts(os.path.join(self.top, "a")))
        about = {"by": "eve", "when": "never", "why": "a trial"}
        self.assertEqual(two.answer({**SET, "about": about, "id": "x"}, os.getuid()), {"ok": "2"})
        self.assertEqual(two.answer({**SET, "about": about, "id": "x"}, os.getuid()), {"ok": "2"})
        self.assertEqual(one.answer(dict(SET), os.getuid()), {"ok": "3"})
        self.assertEqual(one.answer({"delete": "none", "path": "", "about": about}, os.getuid()), {"refused": "NoConfig"})
        self.assertEqual(self.get(two), {"value": "y"})
        self.assertEqual(self.abouts("a"), self.abouts("b"))
        noted = self.abouts("a")
        self.assertEqual([{**one, "when": ""} for one in noted[:2]], [
            {"by": self.user, "when": "", "why": "a trial"}, {"by": self.user, "when": ""}])  # fmt: skip
        self.assertEqual(noted[2], {})  # an entry that was refused has its number alone
        with mock.patch.object(sys, "stdout", io.TextIOWrapper(io.BytesIO(), encoding="utf-8")) as output:
            self.assertEqual(main([os.path.join(self.top, "b")]), 0)
            output.seek(0)
            lines = output.read().splitlines()
        self.assertRegex(lines[0], f'^2 by "{self.user}" when ".*" why "a trial" set a "/n"$')

    def test_a_node_that_is_started_again(self) -> None:
        node = self.node()
        self.begin(node, 1)
        self.assertEqual(node.answer({**SET, "about": {"why": "x"}, "id": "x"}, os.getuid()), {"ok": "3"})
        self.end(node)
        again = self.node()
        self.assertEqual(again.answer({**SET, "about": {"why": "x"}, "id": "x"}, os.getuid()), {"ok": "3"})
        self.assertEqual(again.answer({**SET, "about": {"why": "y"}, "id": "x"}, os.getuid()), {"refused": "IdTaken"})

    def test_the_user_of_a_socket(self) -> None:
        node, path = self.node(), os.path.join(self.top, "socket")
        server = Server(path, self.top, node.answer)
        thread = threading.Thread(target=server.serve, daemon=True)
        thread.start()
        self.addCleanup(thread.join, 10)
        self.addCleanup(server.end)
        with socket.socket(socket.AF_UNIX) as client:
            client.settimeout(30)
            client.connect(path)
            client.sendall(b'{"import": "a", "text": "n: 0", "about": {"by": "eve", "why": "x"}}\n')
            self.assertEqual(client.recv(1_000), b'{"ok": "1"}\n')
        self.assertEqual((self.abouts("a")[-1]["by"], self.abouts("a")[-1]["why"]), (self.user, "x"))


class OldPrograms(NodeTest):
    def setUp(self) -> None:
        super().setUp()
        if about_program().takes_abouts(os.environ["CONFSTORE"]):
            self.skipTest("the program takes abouts")

    def test_a_node_whose_program_takes_none(self) -> None:
        node = self.node()
        self.begin(node, 1)
        self.assertEqual(node.answer({**SET, "about": {"why": "x"}}), {"refused": "BadCommand"})
        self.assertEqual(self.set(node, "z"), {"ok": "3"})

    def test_an_entry_that_another_node_has_made(self) -> None:
        """It is not taken for one that is refused, which others may perform."""
        follower = Follower(os.path.join(self.top, "a"), ["127.0.0.1:1"], "x")
        follower.open()
        entries = [entry_of(command_of(change_of(command))) for command in (
            {"import": "a", "text": "n: 0"}, {**SET, "about": {"why": "x"}})]  # fmt: skip
        with self.assertRaisesRegex(ConfstoreError, "start it with the program that the other nodes have"):
            follower._perform([Item(b"k", entry, number, number) for number, entry in enumerate(entries, 7)])
        follower.close()


if __name__ == "__main__":
    unittest.main()
