"""Nodes over an etcd that can be restored from a snapshot, made anew, and lose answers."""

from __future__ import annotations

import contextlib
import io
import os
import socket
import subprocess
import sys
import tempfile
import threading
import time
import unittest
from typing import Any, Callable, TypeVar
from unittest import mock

from confstore import Closed, Store, Tree
from confstore_replicated import Client
from confstore_replicated import follower as following
from confstore_replicated import node as module
from confstore_replicated.bases import Bases
from confstore_replicated.entries import RESERVED, change_of, command_of, digest_of
from confstore_replicated.etcd import Etcd
from confstore_replicated.history import base_in
from confstore_replicated.node import Node
from confstore_replicated.stream import Stream

from .fake_etcd import Body, FakeEtcd, Keys

FAILED = {"failed": "OtherHistory"}
LOG = b"/confstore/x/log/"
IDS = b"/confstore/x/ids/"
BASE = b"/confstore/x/base"


T = TypeVar("T")


def until(holds: Callable[[], T], seconds: float = 30) -> T:
    deadline = time.monotonic() + seconds
    while not (found := holds()):
        if time.monotonic() > deadline:
            raise AssertionError("it does not come about")
        time.sleep(0.02)
    return found


class NodeTest(unittest.TestCase):
    def setUp(self) -> None:
        holder = tempfile.TemporaryDirectory()
        self.addCleanup(holder.cleanup)
        self.top = holder.name
        self.etcd = FakeEtcd()
        self.addCleanup(self.etcd.close)
        self.patched(module, "PATIENCE", 10.0)
        errors = contextlib.redirect_stderr(io.StringIO())
        self.said = errors.__enter__()
        self.addCleanup(errors.__exit__, None, None, None)

    def patched(self, owner: object, name: str, value: object) -> None:
        """Gives a name of a module or a class another value until the test is over."""
        patch = mock.patch.object(owner, name, value)
        patch.start()
        self.addCleanup(patch.stop)

    def node(self, name: str = "a", base_after: int = 1_000_000, names_kept: int = 100_000) -> Node:
        node = Node(
            os.path.join(self.top, name), [self.etcd.address], "x", base_after=base_after, names_kept=names_kept
        )  # fmt: skip
        node.follower.start()
        self.addCleanup(self.end, node)
        return node

    def end(self, node: Node) -> None:
        node.end()
        self.assertFalse(node.follower.is_alive())

    def set(self, node: Node, value: str, **more: str) -> Body:
        return node.answer({"set": "a", "path": "/n", "value": value, **more})

    def get(self, node: Node, fresh: str = "yes") -> Body:
        return node.answer({"get": "a", "path": "/n", "fresh": fresh})

    def begin(self, node: Node, count: int = 3) -> None:
        self.assertEqual(node.answer({"import": "a", "text": "n: 0"}), {"ok": "1"})
        for number in range(count):
            self.assertEqual(self.set(node, str(number)), {"ok": str(number + 2)})

    def burn(self, count: int) -> None:
        """Another application makes revisions in the same etcd."""
        etcd = Etcd([self.etcd.address])
        for _ in range(count):
            etcd.put(b"/other", b"x")
        etcd.close()


class Questions(NodeTest):
    def test_the_name_of_the_node(self) -> None:
        node = self.node()
        self.begin(node, 1)
        self.assertEqual(node.answer({"names": "", "fresh": "yes"}), {"names": ["a"]})
        for request in (
            {"get": RESERVED, "path": ""}, {"export": RESERVED}, {"delete": RESERVED, "path": ""},
            {"import": RESERVED, "text": "{}"},
        ):  # fmt: skip
            self.assertEqual(node.answer(request), {"refused": "BadName"})

    def test_two_nodes(self) -> None:
        one, two = self.node("a"), self.node("b")
        self.begin(one)
        self.assertEqual(self.get(two), {"value": "2"})
        self.assertEqual(self.set(two, "x", id="i"), {"ok": "5"})
        self.assertEqual(self.set(one, "x", id="i"), {"ok": "5"})
        self.assertEqual(self.set(one, "y", id="i"), {"refused": "IdTaken"})
        self.assertEqual(self.set(one, "y", id=""), {"refused": "BadCommand"})

    def test_a_session_that_is_killed_while_no_entry_comes(self) -> None:
        node = self.node()
        self.begin(node, 1)
        for _ in range(2):
            store: Any = until(lambda: node.follower.store)
            store._session._other.kill()
            until(lambda: store.end is not None)
            self.assertEqual(until(lambda: self.get(node, "no") == {"value": "0"}), True)
            self.assertEqual(node.follower.trouble(), "")

    def test_what_is_told_of_a_session_that_is_over(self) -> None:
        node = self.node()
        self.begin(node, 1)
        with mock.patch.object(Store, "end", Closed("over")):
            self.assertEqual(node.follower.trouble(), "no session holds the store")

    def test_an_answer_of_etcd_that_is_lost(self) -> None:
        """The command is sent again, with another nonce, and is in the log once."""
        node = self.node()
        lost: list[Body] = []

        def lose(path: str, body: Body) -> bool:
            if path == "/v3/kv/txn" and body["compare"] and not lost:
                lost.append(body)
                return True
            return False

        self.begin(node)
        self.etcd.lose = lose
        self.assertEqual(self.set(node, "x"), {"ok": "5"})
        sent = [body["success"] for path, body in self.etcd.asked if path == "/v3/kv/txn" and body["compare"]][-2:]
        self.assertEqual(sent[0][0], sent[1][0])
        self.assertNotEqual(sent[0][1], sent[1][1])
        self.assertEqual(self.get(node), {"value": "x"})


class Conditions(NodeTest):
    def set_if(self, node: Node, expected: str, value: str, **more: str) -> Body:
        condition = {"test": "a", "path": "/n", "value": expected}
        return node.answer({"if": [condition], "set": "a", "path": "/n", "value": value, **more})

    def test_it_is_judged_in_the_log_and_not_where_it_came(self) -> None:
        """A node that is behind, and for which the condition does not hold, or holds still, has no say."""
        one, two = self.node("a"), self.node("b")
        self.begin(one, 1)
        self.get(two)
        self.hold_back(two)
        self.assertEqual(self.set(one, "9"), {"ok": "3"})
        answers: list[Body] = []
        asks = [
            threading.Thread(target=lambda expected: answers.append(self.set_if(two, expected, "x")), args=[expected])
            for expected in ("0", "9")
        ]
        for count, ask in enumerate(asks, 4):
            ask.start()
            until(lambda: len(self.commands()) == count)
        self.assertEqual(self.get(two, "no"), {"value": "0"})
        self.go_on.set()
        for ask in asks:
            ask.join(20)
        self.assertCountEqual(answers, [{"refused": "Unmet"}, {"ok": "5"}])
        self.assertEqual([self.get(node) for node in (one, two)], [{"value": "x"}] * 2)

    def commands(self) -> list[bytes]:
        with self.etcd.lock:
            return [key for key in self.etcd.keys.keys if key.startswith(LOG)]

    def hold_back(self, node: Node) -> None:
        """Has a node perform nothing until `go_on` is set."""
        self.go_on = go_on = threading.Event()
        perform = node.follower._perform

        def late(entries: list[Any]) -> None:
            go_on.wait(20)
            perform(entries)

        self.patched(node.follower, "_perform", late)

    def test_it_is_answered_again_as_it_was(self) -> None:
        """What is sent again under its id has its answer, though the condition holds now."""
        one, two = self.node("a"), self.node("b")
        self.begin(one, 1)
        self.assertEqual(self.set_if(one, "7", "x", id="i"), {"refused": "Unmet"})
        self.assertEqual(self.set(one, "7"), {"ok": "4"})
        for node in (two, one):
            self.assertEqual(self.set_if(node, "7", "x", id="i"), {"refused": "Unmet"})
            self.assertEqual(self.set_if(node, "8", "x", id="i"), {"refused": "IdTaken"})
            self.assertEqual(self.set(node, "x", id="i"), {"refused": "IdTaken"})
        self.assertEqual(self.get(two), {"value": "7"})

    def test_an_answer_of_etcd_that_is_lost(self) -> None:
        """The command is in the log once: it isn't told that its own change keeps its condition from holding."""
        node = self.node()
        self.begin(node, 1)
        lost: list[Body] = []

        def lose(path: str, body: Body) -> bool:
            if path == "/v3/kv/txn" and body["compare"] and not lost:
                lost.append(body)
                return True
            return False

        self.etcd.lose = lose
        self.assertEqual(self.set_if(node, "0", "x"), {"ok": "3"})
        self.assertEqual((len(lost), self.get(node)), (1, {"value": "x"}))

    def test_clients_that_add_to_one_number(self) -> None:
        nodes = [self.node("a"), self.node("b")]
        nodes[0].answer({"import": "a", "text": "n: 0"})
        refused: list[Body] = []

        def add(node: Node, client: int) -> None:
            for number in range(6):
                tried = 0
                while True:
                    found = self.get(node, "no" if client % 2 else "yes").get("value", "")
                    answer = self.set_if(node, found, f"{int(found or 0) + 1}", id=f"{client}-{number}-{tried}")
                    if "ok" in answer:
                        break
                    refused.append(answer)
                    tried += 1

        clients = [threading.Thread(target=add, args=(nodes[client % 2], client)) for client in range(4)]
        for client in clients:
            client.start()
        for client in clients:
            client.join(60)
        self.assertEqual([self.get(node) for node in nodes], [{"value": "24"}] * 2)
        self.assertTrue(all(answer == {"refused": "Unmet"} for answer in refused), refused)

    def test_words_before_the_log(self) -> None:
        node = self.node()
        rows: list[tuple[str, Body]] = [
            ("BadCommand", {"if": [{"count": "0"}], "get": "a", "path": ""}),
            ("BadCommand", {"if": [], "set": "a", "path": "", "value": "x"}),
            ("BadName", {"if": [{"absent": RESERVED}], "set": "a", "path": "", "value": "x"}),
            ("EmptyBatch", {"batch": []}),
        ]
        for word, request in rows:
            self.assertEqual(node.answer(request), {"refused": word})
        self.assertEqual(self.commands(), [])
        self.assertEqual(node.answer({"if": [{"absent": "a"}], "batch": []}), {"refused": "EmptyBatch"})
        self.assertEqual(node.answer({"if": [{"count": "2"}], "batch": []}), {"refused": "Unmet"})
        self.assertEqual(node.answer({"if": [{"count": "2"}], "import": "a", "text": "n: 0"}), {"ok": "3"})

    def test_an_entry_of_a_later_version(self) -> None:
        """The node stops before it, says so, and performs it no other way."""
        node = self.node()
        self.begin(node, 1)
        with self.etcd.lock:
            keys = self.etcd.keys
            keys.revision += 1
            keys.put(LOG + b"new", b'{"unless":[],"edits":[{"delete":"a","path":""}],"nonce":"1"}', keys.revision)
            self.etcd.lock.notify_all()
        until(lambda: "start the version that the other nodes have" in self.said.getvalue())
        self.assertIn("unless", self.said.getvalue())
        until(lambda: self.get(node, "no") == {"value": "0"})


class Processes(NodeTest):
    def test_a_manager_is_told_once_clients_are_taken(self) -> None:
        """As systemd, which starts what comes after a node then. The session has no part in that."""
        manager = socket.socket(socket.AF_UNIX, socket.SOCK_DGRAM)
        self.addCleanup(manager.close)
        manager.settimeout(30)
        told, path = os.path.join(self.top, "told"), os.path.join(self.top, "socket")
        manager.bind(told)
        words = [sys.executable, "-m", "confstore_replicated.node", path, os.path.join(self.top, "a")]
        process = subprocess.Popen(
            [*words, self.etcd.address], stdout=subprocess.DEVNULL, stderr=subprocess.DEVNULL,
            env={**os.environ, "PYTHONPATH": os.pathsep.join(sys.path), "NOTIFY_SOCKET": told},
        )  # fmt: skip
        try:
            self.assertEqual(manager.recv(100), b"READY=1")
            client = Client(path, 30)
            self.assertEqual(client.ask({"import": "a", "text": "n: 0"}), {"ok": "1"})
            client.close()
        finally:
            process.terminate()
            self.assertEqual(process.wait(30), 0)


class OtherHistories(NodeTest):
    def refuses_all(self, node: Node) -> None:
        until(lambda: self.get(node, "no") == FAILED)
        for request in ({"names": ""}, {"export": "a"}, {"names": "", "fresh": "yes"}, {"import": "b", "text": "x"}):
            self.assertEqual(node.answer(request), FAILED)

    def test_an_older_snapshot(self) -> None:
        node = self.node()
        self.begin(node)
        snapshot = self.etcd.snapshot()
        self.assertEqual(self.set(node, "later"), {"ok": "5"})
        self.etcd.restore(snapshot)
        self.refuses_all(node)
        for _ in range(3):
            self.burn(1)
            self.refuses_all(node)
        self.assertEqual(self.get(self.node("b")), {"value": "2"})
        self.refuses_all(node)
        until(lambda: len(self.said.getvalue().splitlines()) > 1)
        line, after = self.said.getvalue().splitlines()
        self.assertIn("has not come to entry 6", line)
        self.assertIn("does not have entry 6", after)
        for word in (os.path.join(self.top, "a"), "--bump-revision", "empty"):
            self.assertIn(word, line)

    def test_no_ok_for_what_another_history_has_at_the_number(self) -> None:
        """The same id and the same command, made again at the same revision, is another entry."""
        one, two = self.node("a"), self.node("b")
        self.begin(one)
        self.get(two)
        snapshot = self.etcd.snapshot()
        self.assertEqual(self.set(one, "later", id="i"), {"ok": "5"})
        self.get(two)
        self.end(two)
        self.etcd.restore(snapshot)
        self.refuses_all(one)
        fresh = self.node("c")
        self.assertEqual(self.set(fresh, "later", id="i"), {"ok": "5"})
        self.burn(3)
        self.refuses_all(one)
        self.refuses_all(self.node("b"))
        self.assertEqual(self.set(one, "later", id="i"), FAILED)

    def test_the_snapshot_has_the_last_entry(self) -> None:
        """Nothing is lost, so the node goes on; also in a cluster with another id, which a restore makes."""
        node = self.node()
        self.begin(node)
        snapshot = self.etcd.snapshot()
        self.burn(5)
        self.etcd.restore(snapshot, cluster=78)
        self.assertEqual(self.set(node, "x"), {"ok": "5"})
        self.assertEqual(self.get(self.node("b")), {"value": "x"})

    def test_the_right_log_comes_back(self) -> None:
        node = self.node()
        self.begin(node)
        snapshot = self.etcd.snapshot()
        self.etcd.restore(None)
        self.refuses_all(node)
        self.etcd.restore(snapshot)
        until(lambda: self.get(node, "no") == {"value": "2"})
        self.assertEqual(self.set(node, "x"), {"ok": "5"})

    def test_made_anew_while_the_node_is_away(self) -> None:
        node = self.node()
        self.begin(node)
        self.end(node)
        self.etcd.restore(None)
        for count in (0, 3, 3):
            self.burn(count)
            again = self.node()
            self.refuses_all(again)
            self.end(again)

    def test_another_cluster_has_the_same_entry(self) -> None:
        """Entries of an older version have no nonce, so only the id of the cluster tells them apart."""
        command = command_of(change_of({"import": "a", "text": "n: 0"}))
        self.etcd.keys.put(LOG + b"old", command, 2)
        self.etcd.keys.revision = 2
        node = self.node()
        self.assertEqual(self.get(node), {"value": "0"})
        self.etcd.restore(self.etcd.snapshot(), cluster=78)
        self.refuses_all(node)

    def test_an_entry_that_somebody_changed(self) -> None:
        node = self.node()
        self.begin(node)
        with self.etcd.lock:
            keys = self.etcd.keys
            key = max((key for key in keys.keys if key.startswith(LOG)), key=lambda key: keys.keys[key].created)
            keys.revision += 1
            keys.put(key, keys.keys[key].value, keys.revision)
        self.refuses_all(node)

    def test_skipped_by_a_stream(self) -> None:
        """Entries that a restored log got before the stream began are not left out."""
        node = self.node()
        self.begin(node)
        self.burn(5)
        snapshot = self.etcd.snapshot()
        self.burn(5)
        begun, go_on = threading.Event(), threading.Event()

        def late(etcd: Etcd, prefix: bytes, revision: int) -> Stream:
            begun.set()
            go_on.wait(20)
            return Stream(etcd, prefix, revision)

        with mock.patch.object(following, "Stream", late):
            self.etcd.restart()
            begun.wait(20)
            self.etcd.restore(snapshot)
            other = self.node("b")
        self.end(other)
        again = self.node("b")
        self.assertEqual(self.set(again, "missed"), {"ok": "5"})
        go_on.set()
        self.assertEqual(self.set(again, "next"), {"ok": "6"})
        until(lambda: self.get(node) == {"value": "next"})
        self.assertEqual(node.follower.place().number, again.follower.place().number)
        self.assertEqual(self.names_in(node), self.names_in(again))

    def names_in(self, node: Node) -> list[str]:
        assert node.follower.store is not None
        return node.follower.store.names()


class StoresOfTheVersionBefore(NodeTest):
    """Their marks say nothing, and their entries have no nonce."""

    def make(self, entries: list[tuple[int, dict[str, Tree]]]) -> None:
        folder = os.path.join(self.top, "a")
        with Store(folder, make=True) as store:
            for number, command in entries:
                edits: list[Tree] = [{"delete": RESERVED, "path": f"/{number - 1:020}"}]
                if number == 2:
                    edits = [{"import": RESERVED, "text": "{}\n"}]
                last: Tree = {"set": RESERVED, "path": f"/{number:020}", "value": "spare-room-for-the-count"}
                store.perform_batches([[*edits, command, last]])
                change = change_of(command)
                self.etcd.keys.put(LOG + b"k%d" % number, command_of(change), number)
                self.etcd.keys.put(IDS + b"k%d" % number, digest_of(change, command_of(change)), number)
                self.etcd.keys.revision = number

    def test_it_goes_on_and_is_tied_then(self) -> None:
        self.make([(2, {"import": "a", "text": "n: 0"}), (3, {"set": "a", "path": "/n", "value": "1"})])
        node = self.node()
        self.assertEqual(self.set(node, "1", id="k3"), {"ok": "2"})
        snapshot = self.etcd.snapshot()
        self.assertEqual(self.set(node, "2"), {"ok": "3"})
        self.assertEqual(self.set(node, "3"), {"ok": "4"})
        self.etcd.restore(snapshot)
        until(lambda: self.get(node, "no") == FAILED)

    def test_it_is_refused_where_the_log_has_no_such_entry(self) -> None:
        self.make([(2, {"import": "a", "text": "n: 0"}), (3, {"set": "a", "path": "/n", "value": "1"})])
        self.etcd.restore(None)
        self.burn(9)
        node = self.node()
        until(lambda: self.get(node, "no") == FAILED)


class BasesAndNames(NodeTest):
    def test_a_new_node_starts_from_a_base(self) -> None:
        node = self.node(base_after=10)
        self.begin(node, 60)
        until(lambda: BASE in self.etcd.keys.keys and base_in(self.etcd.keys.keys[BASE].value).floor > 0)
        base = base_in(self.etcd.keys.keys[BASE].value)
        self.assertTrue(base.count and base.mark and base.floor_mark)
        with self.etcd.lock:
            old = [key for key, held in self.etcd.keys.keys.items() if held.created <= base.floor]
        self.assertFalse([key for key in old if key.startswith(LOG)])
        self.assertTrue([key for key in old if key.startswith(IDS)], "names outlive their entries")
        other = self.node("b")
        self.assertEqual(self.get(other), {"value": "59"})
        self.assertEqual(self.set(other, "x"), {"ok": "62"})
        self.assertEqual(self.get(node), {"value": "x"})

    def test_what_a_base_replaces_is_kept(self) -> None:
        behind = self.node("b")
        node = self.node(base_after=10)
        self.begin(node, 0)
        self.get(behind)
        self.end(behind)
        with open(os.path.join(self.top, "b", "store.yaml"), "rb") as file:
            before = file.read()
        for count in range(40):
            self.set(node, str(count))
        until(lambda: base_in(self.etcd.keys.keys[BASE].value).floor > 10)
        self.assertEqual(self.get(self.node("b")), {"value": "39"})
        with open(os.path.join(self.top, "b", "before-base.yaml"), "rb") as file:
            self.assertEqual(file.read(), before)

    def test_names_go_after_entries(self) -> None:
        node = self.node(base_after=10, names_kept=30)
        self.begin(node, 0)
        self.assertEqual(self.set(node, "first", id="i"), {"ok": "2"})
        number = self.etcd.keys.keys[IDS + b"i"].created
        self.burn(200)
        for count in range(28):
            self.set(node, str(count))
            self.assertEqual(self.set(node, "second", id="i"), {"refused": "IdTaken"}, count)
        for count in range(60):
            self.set(node, str(count))
            with self.etcd.lock:
                has_name, has_entry = (prefix + b"i" in self.etcd.keys.keys for prefix in (IDS, LOG))
                self.assertTrue(has_name or not has_entry)
        self.assertFalse(has_name)
        self.assertNotIn("refused", self.set(node, "second", id="i"))
        self.assertGreater(self.etcd.keys.keys[LOG + b"i"].created, number)

    def test_an_id_whose_entry_is_gone(self) -> None:
        node = self.node(base_after=10)
        self.begin(node, 0)
        self.assertEqual(self.set(node, "first", id="i"), {"ok": "2"})
        for count in range(40):
            self.set(node, str(count))
        until(lambda: LOG + b"i" not in self.etcd.keys.keys)
        self.assertEqual(self.set(node, "first", id="i"), {"ok": "2"})
        self.assertEqual(self.set(self.node("b"), "first", id="i"), {"failed": "Forgotten"})

    def restored_at_parts(self, node: Node, snapshot: Keys | None, when: str) -> None:
        """Has etcd be restored before or after the parts of a base are put: to a snapshot, or to what it has then."""
        bases, is_restored = node.follower._bases, threading.Event()

        def restore(keys: Keys) -> None:
            self.etcd.restore(keys)
            self.burn(10)
            is_restored.set()

        def put_parts(path: str, prefix: bytes) -> tuple[str, list[bytes]]:
            keys = snapshot or self.etcd.snapshot()
            if when == "before":
                restore(keys)
            found = Bases._put_parts(bases, path, prefix)
            if when == "after":
                restore(keys)
            return found

        with mock.patch.object(bases, "_put_parts", put_parts):
            self.set(node, "x")
            self.assertTrue(is_restored.wait(20))

    def test_a_base_of_another_history_is_not_put(self) -> None:
        node = self.node(base_after=4)
        self.begin(node, 2)
        self.restored_at_parts(node, self.etcd.snapshot(), "before")
        until(lambda: self.get(node, "no") == FAILED)
        self.assertNotIn(BASE, self.etcd.keys.keys)

    def test_a_base_whose_parts_are_lost_is_not_put(self) -> None:
        node = self.node(base_after=4)
        self.begin(node, 2)
        self.restored_at_parts(node, None, "after")
        until(lambda: self.get(node) == {"value": "x"})
        self.assertNotIn(BASE, self.etcd.keys.keys)


if __name__ == "__main__":
    unittest.main()
