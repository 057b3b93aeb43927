"""Calls of a store, over real sessions."""

from __future__ import annotations

import enum
import os
import threading
import unittest
from typing import Callable

import confstore
from confstore import Batch, ConfstoreError, Edit, Reader, Record, Store, Tree
from confstore.session import LONGEST_COMMAND

from .places import StoreTest
from .test_style import CHARACTERS


class Calls(StoreTest):
    def test_what_is_set_is_there_again(self) -> None:
        with self.store() as store:
            self.assertEqual(store.import_text("app", "port: 80\nhosts: [a, b]\n"), 1)
            self.assertEqual(store.set("app", "/port", "81"), 2)
            self.assertEqual(store.set("app", "/hosts/-", {"name": "c"}), 3)
            self.assertEqual(store.delete("app", "/hosts/0"), 4)
            self.assertEqual(store["app"], {"port": "81", "hosts": ["b", {"name": "c"}]})
            self.assertEqual(store.get("app", "/port"), "81")
            self.assertEqual(store.export("app"), 'port: "81"\nhosts:\n  - b\n  - name: c\n')
            self.assertEqual(store.checkpoint(), 4)
        with self.store() as store:
            self.assertEqual(store.get("app", "/hosts/0"), "b")
            del store["app"]
            self.assertEqual(store.names(), [])

    def test_as_a_mapping(self) -> None:
        store = self.store()
        store["b"] = "x"
        store["a"] = {"k": ["", {}, []]}
        self.assertEqual((list(store), len(store), "a" in store, "c" in store), (["b", "a"], 2, True, False))
        self.assertEqual(store["a"], {"k": ["", {}, []]})

    def test_texts_of_all_kinds(self) -> None:
        store = self.store()
        texts: list[Tree] = [*CHARACTERS, CHARACTERS, "a\n...\nb\n", "---\n", "...\n", "x" * 100_000, "\U0010ffff"]
        store["texts"] = texts
        self.assertEqual(store["texts"], texts)
        for text in map(str, texts):
            store.set("texts", "", {text: text})
            self.assertEqual(store["texts"], {text: text})

    def test_classes_of_str(self) -> None:
        class Word(str, enum.Enum):
            NAME = "app"
            KEY = "k"
            PATH = "/k"
            TEXT = "two words"

        store = self.store()
        store.put(Word.NAME, {Word.KEY: [Word.TEXT]})
        store.set(Word.NAME, Word.PATH, Word.TEXT)
        self.assertEqual((store["app"], store.get(Word.NAME, Word.PATH)), ({"k": "two words"}, "two words"))
        self.assertEqual((store.export(Word.NAME), Word.NAME in store), ('k: "two words"\n', True))
        self.assertEqual(Reader(self.folder).get(Word.NAME, Word.PATH), "two words")
        with store.batch() as batch:
            batch.import_text(Word.NAME, Word.TEXT)
            batch.put("other", Word.TEXT)
            batch.set("other", "", Word.TEXT)
        self.assertEqual((store["app"], store["other"]), ("two words", "two words"))
        store.perform_batches([[{"set": Word.NAME, "path": "", "value": Word.KEY}]])
        self.assertEqual(store["app"], "k")
        store.delete(Word.NAME)
        self.assertEqual(store.names(), ["other"])

    def test_a_folder_is_made(self) -> None:
        folder = os.path.join(self.top, "new", "store")
        with Store(folder, make=True) as store:
            self.assertEqual(store.names(), [])

    def test_many_threads(self) -> None:
        store = self.store()
        wrong: list[int] = []
        for number in range(16):
            store[f"list{number}"] = []

        def append(number: int) -> None:
            for turn in range(25):
                store.set(f"list{number}", "/-", f"n{turn}")
            if store[f"list{number}"] != [f"n{turn}" for turn in range(25)]:
                wrong.append(number)

        threads = [threading.Thread(target=append, args=(number,)) for number in range(16)]
        for thread in threads:
            thread.start()
        for thread in threads:
            thread.join(60)
        self.assertEqual(wrong, [])
        self.assertEqual(store.checkpoint(), 16 * 26)

    def test_large_commands_of_many_threads(self) -> None:
        store = self.store()
        tree: Tree = ["x" * 900_000]
        threads = [threading.Thread(target=store.put, args=(f"c{number}", tree)) for number in range(8)]
        for thread in threads:
            thread.start()
        for thread in threads:
            thread.join(60)
        self.assertEqual(sorted(store), [f"c{number}" for number in range(8)])
        self.assertTrue(all(store[name] == tree for name in store))

    def test_checkpoints_beside_commands(self) -> None:
        with self.store(checkpoint_after=1_000) as store:
            store["a"] = {}
            for number in range(200):
                store.set("a", "/k", "x" * 50 + str(number))
        self.assertLess(os.path.getsize(os.path.join(self.folder, "store.yaml")), 10_000)


class Refusals(StoreTest):
    def test_words(self) -> None:
        store = self.store()
        store["a"] = {"l": ["x"]}
        rows: list[tuple[type[confstore.Refused], Callable[[], object]]] = [
            (confstore.NoConfig, lambda: store["b"]),
            (confstore.BadName, lambda: store["B"]),
            (confstore.BadPath, lambda: store.get("a", "l")),
            (confstore.NoSuchPlace, lambda: store.get("a", "/k")),
            (confstore.NotIndex, lambda: store.get("a", "/l/x")),
            (confstore.Syntax, lambda: store.import_text("a", "[")),
            (confstore.KeyTwice, lambda: store.import_text("a", "a: 1\na: 2")),
            (confstore.KeyNotText, lambda: store.import_text("a", "[]: 2")),
            (confstore.Documents, lambda: store.import_text("a", "a\n---\nb")),
            (confstore.TooLong, lambda: store.import_text("a", "#" * (LONGEST_COMMAND - 100))),
            (confstore.BadCommand, lambda: store.set("a", "", nested(190))),
        ]
        for kind, call in rows:
            with self.assertRaises(kind) as caught:
                call()
            self.assertEqual((caught.exception.word, caught.exception.__class__), (kind.__name__, kind))
            self.assertIsInstance(caught.exception, confstore.Refused)
        with self.assertRaises(LookupError):
            store["b"]
        self.assertEqual(store["a"], {"l": ["x"]})
        self.assertEqual(store.checkpoint(), 1)

    def test_what_is_never_sent(self) -> None:
        store = self.store()
        rows: list[tuple[type[ConfstoreError], Callable[[], object]]] = [
            (confstore.NotText, lambda: store.set("a", "", "\ud800")),
            (confstore.NotText, lambda: store.get("a", "/\udc00")),
            (confstore.NotATree, lambda: store.put("a", {"port": 80})),  # type: ignore[dict-item]
            (confstore.TooLongToSend, lambda: store.import_text("a", "#" * LONGEST_COMMAND)),
        ]
        for kind, call in rows:
            with self.assertRaises(kind):
                call()
        self.assertEqual(store.names(), [])


class Batches(StoreTest):
    def test_all_or_nothing(self) -> None:
        store = self.store()
        store["a"] = {"k": "x"}

        def both() -> Batch:
            with store.batch() as batch:
                batch.set("a", "/k", "y")
                batch.import_text("b", "[1]")
            return batch

        self.assertEqual((self.supported(both).count, store["a"], store["b"]), (2, {"k": "y"}, ["1"]))
        with self.assertRaises(confstore.NoConfig), store.batch() as batch:
            batch.delete("a")
            batch.set("none", "", "x")
        self.assertEqual((store["a"], store.checkpoint()), ({"k": "y"}, 2))

    def test_nothing_is_sent(self) -> None:
        store = self.store()
        with self.assertRaises(ZeroDivisionError), store.batch() as batch:
            batch.put("a", "x")
            raise ZeroDivisionError
        with store.batch() as batch:
            pass
        self.assertEqual((store.names(), batch.count, store.checkpoint()), ([], None, 0))


class Reading(StoreTest):
    def test_log_and_at(self) -> None:
        store = self.store()
        self.assertEqual(self.supported(store.log), [])
        store["a"] = {"k": ["x"]}
        store.set("a", "/k/-", "y")
        store.delete("a", "/k/0")
        records = [
            Record(1, (Edit("import", "a", "", {"k": ["x"]}),)),
            Record(2, (Edit("set", "a", "/k/-", "y"),)),
            Record(3, (Edit("delete", "a", "/k/0", None),)),
        ]
        self.assertEqual((store.log(), store.log(after=2)), (records, records[2:]))
        trees = [{"k": ["x"]}, {"k": ["x", "y"]}, {"k": ["y"]}]
        self.assertEqual([store.at(number)["a"] for number in (1, 2, 3)], trees)
        self.assertEqual((store.at(0).names(), store.at(2).get("a", "/k/1")), ([], "y"))
        reader = Reader(self.folder)
        self.assertEqual((reader.names(), reader.get("a", "/k")), (["a"], ["y"]))
        rows: list[tuple[type[ConfstoreError], Callable[[], object]]] = [
            (confstore.NoSuchCommand, lambda: store.at(4)),
            (confstore.NoConfig, lambda: reader.get("b")),
            (confstore.BadName, lambda: reader.get("--help")),
            (confstore.BadPath, lambda: reader.get("a", "k")),
            (confstore.NoSuchPlace, lambda: store.at(1).get("a", "/k/1")),
            (confstore.NotText, lambda: reader.get("a", "/\ud800")),
            (confstore.NotText, lambda: reader.get("a", "/\udc80")),
            (confstore.Unsupported, lambda: reader.get("a", "/\0")),
            (confstore.NoSuchCommand, lambda: store.at(-1)),
            (confstore.NoSuchCommand, lambda: store.at(2**64)),
        ]
        for kind, call in rows:
            with self.assertRaises(kind):
                call()
        store.checkpoint()
        self.assertEqual(store.log(), [])
        with self.assertRaises(confstore.NoSuchCommand):
            store.at(1)

    def test_batches_in_the_log(self) -> None:
        store = self.store()
        self.supported(store.log)

        def perform() -> None:
            with store.batch() as batch:
                batch.put("a", "x")
                batch.delete("a")

        self.supported(perform)
        self.assertEqual(store.log(), [Record(1, (Edit("import", "a", "", "x"), Edit("delete", "a", "", None)))])


def nested(depth: int) -> Tree:
    tree: Tree = "x"
    for _ in range(depth):
        tree = [tree]
    return tree


if __name__ == "__main__":
    unittest.main()
