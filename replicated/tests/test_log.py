"""The log of a node's store, beside what `confstore log` writes of it."""

from __future__ import annotations

import contextlib
import io
import os
import subprocess
import sys
import tempfile
import unittest
from typing import Any
from unittest import mock

from confstore import Store
from confstore_replicated.entries import RESERVED, change_of, command_of, entry_of
from confstore_replicated.etcd import Item
from confstore_replicated.follower import Follower
from confstore_replicated.log import main

PROGRAM = os.environ["CONFSTORE"]

COMMANDS: list[dict[str, Any]] = [
    {"import": "web", "text": "port: 80"},
    {"set": "web", "path": "/port", "value": "81"},
    {"set": "none", "path": "/port", "value": "81"},
    {"if": [{"count": "3"}], "batch": [{"set": "web", "path": "/a b", "value": ["x"]}, {"delete": "web", "path": ""}]},
    {"if": [{"count": "3"}], "import": "web", "text": "port: 80"},
]

# What the entries say. The numbers are those of their answers.
LINES = [
    "1 import web", '2 set web "/port"', "3 refused NoConfig", '4 batch set web "/a b"; delete web ""', "5 refused Unmet",
]  # fmt: skip
VALUES = [
    '1 import web {"port":"80"}', '2 set web "/port" "81"', "3 refused NoConfig",
    '4 batch set web "/a b" ["x"]; delete web ""', "5 refused Unmet",
]  # fmt: skip


class Logs(unittest.TestCase):
    def setUp(self) -> None:
        holder = tempfile.TemporaryDirectory()
        self.addCleanup(holder.cleanup)
        self.folder = os.path.join(holder.name, "store")

    def perform(self) -> None:
        follower = Follower(self.folder, ["127.0.0.1:1"], "x")
        follower.open()
        entries = [entry_of(command_of(change_of(dict(command)))) for command in COMMANDS]
        follower._perform([Item(b"k", entry, number, number) for number, entry in enumerate(entries, 7)])
        follower.close()

    def said(self, *words: str) -> list[str]:
        output = io.TextIOWrapper(io.BytesIO(), encoding="utf-8")
        with mock.patch.object(sys, "stdout", output):
            self.assertEqual(main([self.folder, *words]), 0)
        output.seek(0)
        return output.read().splitlines()

    def said_by_program(self, *words: str) -> list[str]:
        told = subprocess.run([PROGRAM, "log", *words, self.folder], check=True, capture_output=True, text=True)
        return told.stdout.splitlines()

    def test_it_has_nothing_of_the_node(self) -> None:
        self.perform()
        self.assertEqual(self.said(), LINES)
        self.assertEqual(self.said("--values"), VALUES)
        self.assertEqual(self.said("--after", "3"), LINES[3:])
        self.assertNotIn(RESERVED, "".join(self.said("--values")))

    def test_all_of_it(self) -> None:
        """With `--all` it is what the program writes, which has the node's own edits in each record."""
        self.perform()
        rows: list[list[str]] = [[], ["--values"]]
        for words in rows:
            wanted = self.said_by_program(*words)
            self.assertEqual(self.said("--all", *words), wanted)
            self.assertTrue(all(RESERVED in line for line in wanted))

    def test_nothing_since_the_checkpoint(self) -> None:
        self.perform()
        with Store(self.folder) as store:
            store.checkpoint()
        self.assertEqual(self.said(), [])

    def test_what_is_no_store_of_a_node(self) -> None:
        with Store(self.folder, make=True) as store:
            store.put("web", {"port": "80"})
        self.assert_fails("record 1 is that of no entry", "confstore log")
        self.assertEqual(self.said("--all"), ["1 import web"])

    def test_what_somebody_else_wrote_into_the_store(self) -> None:
        """A record with an edit of the node's name that no node makes is told, and not left out."""
        self.perform()
        mine, other = {"import": RESERVED, "text": "{}"}, {"set": "web", "path": "", "value": "x"}
        word, no_word = ({"import": RESERVED, "text": text} for text in ("NoConfig", "a: b"))
        wrong: list[list[Any]] = [
            [other, mine], [mine, no_word, mine], [mine, other, mine, mine], [other, word, other], [mine, word, other],
        ]  # fmt: skip
        for edits in wrong:
            with Store(self.folder) as store:
                store.checkpoint()
                store.put("web", {})
                store.checkpoint()
                (count,) = store.perform_batches([[*edits]])
                self.assertIsInstance(count, int)
            self.assert_fails(f"record {count} is that of no entry")

    def test_a_folder_without_a_store(self) -> None:
        self.assert_fails(self.folder)

    def assert_fails(self, *parts: str) -> None:
        with contextlib.redirect_stderr(io.StringIO()) as told:
            self.assertEqual(main([self.folder]), 1)
        for part in parts:
            self.assertIn(part, told.getvalue())

    def test_a_pipe_that_is_closed(self) -> None:
        self.perform()
        process = subprocess.Popen(
            [sys.executable, "-m", "confstore_replicated.log", self.folder], stdout=subprocess.PIPE,
            stderr=subprocess.PIPE, env={**os.environ, "PYTHONPATH": os.pathsep.join(sys.path)},
        )  # fmt: skip
        assert process.stdout and process.stderr
        process.stdout.close()
        said = process.stderr.read()
        process.stderr.close()
        self.assertEqual((process.wait(), said), (0, b""))


if __name__ == "__main__":
    unittest.main()
