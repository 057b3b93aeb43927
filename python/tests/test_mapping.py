"""Stores as mappings, what refusals say, and what the package shows of itself."""

from __future__ import annotations

import collections.abc
import doctest
import io
import os
import pickle
import pydoc
import unittest
from typing import Any, Callable
from unittest import mock

import confstore
from confstore import ConfstoreError, Reader, Store
from confstore import store as module

from . import TOP
from .places import StoreTest


class Mappings(StoreTest):
    def test_it_is_a_mapping(self) -> None:
        store = self.store()
        store.update({"b": "x", "a": ["y"]}, c={"k": "z"})
        reader = Reader(self.folder)
        self.assertIsInstance(store, collections.abc.MutableMapping)
        for mapping in (store, reader, reader.at(1)):
            self.assertIsInstance(mapping, collections.abc.Mapping)
            self.assertEqual(dict(mapping), {"b": "x", "a": ["y"], "c": {"k": "z"}})
            self.assertEqual(list(mapping.items()), [("b", "x"), ("a", ["y"]), ("c", {"k": "z"})])
            self.assertEqual(list(mapping.keys()), ["b", "a", "c"])
            self.assertEqual(list(mapping.values()), ["x", ["y"], {"k": "z"}])
            self.assertEqual(mapping.keys() & {"a", "d"}, {"a"})
            self.assertIn(("b", "x"), mapping.items())
            self.assertNotIn(("B", "x"), mapping.items())
            self.assertEqual((len(mapping), mapping == dict(mapping), len({mapping})), (3, False, 1))

    def test_get_with_a_default(self) -> None:
        store = self.store()
        store["a"] = {"k": ["x"]}
        reader = Reader(self.folder)
        for mapping in (store, reader, reader.at(1)):
            self.assertEqual(mapping.get("a", "/k/0", default=None), "x")
            for name, path in (("b", ""), ("B", ""), ("a", "/l"), ("a", "/k/1")):
                self.assertIsNone(mapping.get(name, path, default=None))
            with self.assertRaises(confstore.BadPath):
                mapping.get("a", "k", default=None)
            with self.assertRaises(KeyError):
                mapping.get("b")

    def test_in_asks_one_short_question(self) -> None:
        store = self.store()
        store.update(text="x", list=["x"], empty={}, key={"": "x"}, other={"k": "x"})
        asked: list[tuple[bytes, int]] = []
        ask = store._session.ask

        def asking(document: bytes, timeout: float) -> bytes:
            answer = ask(document, timeout)
            asked.append((document.split(b"\n")[1][:4], len(answer)))
            return answer

        absent: list[object] = ["none", "None", "", "\ud800", 5, None]
        with mock.patch.object(store._session, "ask", asking):
            for mapping in (store, Reader(self.folder)):
                for name in ("text", "list", "empty", "key", "other"):
                    self.assertIn(name, mapping)
                for other in absent:
                    self.assertNotIn(other, mapping)
        self.assertEqual({kind for kind, _ in asked}, {b"get:"})
        self.assertLess(max(length for _, length in asked), 40)

    def test_update_and_clear_are_one_command(self) -> None:
        store = self.store()
        store.update([("a", "x"), ("b", "y"), ("a", "z")], c=[])
        self.assertEqual((dict(store), store.checkpoint()), ({"a": "z", "b": "y", "c": []}, 1))
        rows: list[tuple[type[ConfstoreError], dict[str, Any]]] = [
            (confstore.BadName, {"d": "x", "D": "y"}),
            (confstore.NotATree, {"d": "x", "e": 5}),
        ]
        for kind, trees in rows:
            with self.assertRaises(kind):
                store.update(trees)
            self.assertEqual((store.names(), store.checkpoint()), (["a", "b", "c"], 1))
        store.update({})
        store.clear()
        self.assertEqual((store.names(), store.checkpoint()), ([], 2))
        store.clear()
        self.assertEqual(store.checkpoint(), 2)

    def test_clear_beside_one_who_deletes(self) -> None:
        store = self.store()
        names: list[list[str]] = []
        store.update(a="x", b="y")
        names_of = store.names

        def asking() -> list[str]:
            found = names_of()
            if not names:
                store.delete("b")
            names.append(found)
            return found

        with mock.patch.object(store, "names", asking):
            store.clear()
        self.assertEqual((names, names_of()), ([["a", "b"], ["a"]], []))

    def test_pop(self) -> None:
        store = self.store()
        store.update(a="x", b="y", c="z")
        self.assertEqual((store.pop("b"), store.pop("b", None), store.pop("B", 5)), ("y", None, 5))
        self.assertEqual(store.popitem(), ("c", "z"))
        self.assertEqual((store.setdefault("a", "w"), store.setdefault("d", "v")), ("x", "v"))
        self.assertEqual(dict(store), {"a": "x", "d": "v"})
        store.clear()
        calls: list[Callable[[], object]] = [store.popitem, lambda: store.pop("a")]
        for call in calls:
            with self.assertRaises(KeyError):
                call()

    def test_a_configuration_that_goes_while_items_are_read(self) -> None:
        store = self.store()
        store.update(a="x", b="y", c="z")
        items = iter(store.items())
        self.assertEqual(next(items), ("a", "x"))
        del store["b"]
        self.assertEqual(list(items), [("c", "z")])


class Sentences(StoreTest):
    def fault(self, call: Callable[[], object]) -> confstore.Refused:
        with self.assertRaises(confstore.Refused) as caught:
            call()
        return caught.exception

    def test_what_was_refused_of_what(self) -> None:
        store = self.store()
        store["web"] = {"k": "x"}
        reader = Reader(self.folder)

        def batch() -> None:
            with store.batch() as batch:
                batch.put("a", "x")
                batch.delete("none")

        for call, kind, name, path, said in (
            (lambda: store["none"], KeyError, "none", "", "`get` of 'none' was refused: NoConfig: no"),
            (lambda: store.get("web", "/l"), KeyError, "web", "/l", "`get` of 'web' at '/l' was refused: NoSuchPlace"),
            (lambda: reader.get("web", "/l"), KeyError, "web", "/l", "`get` of 'web' at '/l' was refused: NoSuchPlace"),
            (lambda: reader.get("B"), ValueError, "B", "", "`get` of 'B' was refused: BadName: a name has 1 to 64"),
            (lambda: store.set("web", "k", "x"), ValueError, "web", "k", "`set` of 'web' at 'k' was refused: BadPath"),
            (lambda: store.delete("none"), KeyError, "none", "", "`delete` of 'none' was refused: NoConfig: "),
            (lambda: store.import_text("a", "["), ValueError, "a", None, "`import` of 'a' was refused: Syntax: YAML"),
            (batch, KeyError, None, None, "`batch` of 2 edits was refused: NoConfig: no conf"),
        ):
            fault = self.fault(call)
            self.assertIsInstance(fault, kind)
            self.assertEqual((fault.name, fault.path, str(fault)[: len(said)]), (name, path, said))
            self.assertEqual(fault.word, type(fault).__name__)
            again = pickle.loads(pickle.dumps(fault))
            self.assertEqual((type(again), str(again), again.name), (type(fault), str(fault), name))

    def test_the_place_in_a_text(self) -> None:
        store = self.store()
        fault = self.fault(lambda: store.import_text("a", "k: v\nl: [\n"))
        self.assertEqual(fault.place, (2, 4, "Flow"))
        self.assertIsNone(self.fault(lambda: store["none"]).place)
        twice = self.fault(lambda: store.import_text("a", "k: v\nl:\n  k: v\n  k: w\n"))
        self.assertEqual((twice.word, twice.place), ("KeyTwice", (4, 3, "")))
        with self.assertRaises(confstore.Syntax) as caught, store.batch() as batch:
            batch.import_text("a", "good")
            batch.import_text("b", "k: *alias\n")
        self.assertEqual(caught.exception.place, (1, 4, "Alias"))

    def test_no_program_runs_before_the_place_is_looked_at(self) -> None:
        store = self.store()
        fault = self.fault(lambda: store.import_text("a", "["))
        fault.program = os.path.join(self.top, "none")
        self.assertIn("Syntax", str(fault))
        self.assertIsNone(fault.place)


class Shown(StoreTest):
    def test_help(self) -> None:
        output = io.StringIO()
        pydoc.Helper(output=output).help(confstore)
        shown = output.getvalue()
        self.assertIn("from confstore import Store", shown[:300])
        self.assertEqual(confstore.__all__[0], "Store")
        for name in confstore.faults.__all__:
            self.assertIs(getattr(confstore, name), getattr(confstore.faults, name))
        self.assertNotIn("class SessionLong", shown)

    def test_doctests(self) -> None:
        failed, tried = doctest.testmod(module, extraglobs={"folder": self.folder})
        self.assertEqual(failed, 0)
        self.assertGreater(tried, 1)

    def test_the_examples_of_the_readme(self) -> None:
        page = os.path.join(TOP, "python", "README.md")
        failed, tried = doctest.testfile(page, module_relative=False, globs={"folder": self.folder}, encoding="utf-8")
        self.assertEqual(failed, 0)
        self.assertGreater(tried, 5)


if __name__ == "__main__":
    unittest.main()
