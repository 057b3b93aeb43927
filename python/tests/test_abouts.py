"""Abouts: who makes a change, when and why, by the package."""

from __future__ import annotations

import ast
import asyncio
import contextlib
import io
import os
import pwd
import re
import threading
import unittest
from typing import Any, Dict, Mapping, Optional
from unittest import mock

from confstore import AboutLarge, AsyncStore, BadAnswer, BadCommand, NotATree, NotText, Reader, Record, Store, Test
from confstore import Tree, Unsupported, document
from confstore.abouts import NotAbout, filled, from_environment, is_about, joined, keeps_abouts, pair_of, words_of
from confstore.records import record_of
from confstore.trees import trees_of

from . import TOP
from .about_program import program_with_abouts, takes_abouts
from .places import StoreTest

USER = pwd.getpwuid(os.getuid()).pw_name
TIME = re.compile(r"\d{4}-\d\d-\d\dT\d\d:\d\d:\d\dZ")

ABOUT = {"by": "ann", "when": "2026-12-01T10:00:00Z", "why": "open the port"}
RECORD: Dict[str, Tree] = {"at": "3", "set": "web", "path": "/port", "value": "81", "about": dict(ABOUT)}

# What no store takes as an about: by whom it is refused here, and by which exception.
WRONG: "list[tuple[Dict[Any, Any], type[Exception]]]" = [
    ({"": "x"}, BadCommand), ({"k" * 65: "x"}, AboutLarge), ({str(number): "" for number in range(17)}, AboutLarge),
    ({"k": "x" * 4_091}, AboutLarge), ({"k": 1}, NotATree), ({1: "x"}, NotATree), ({"k": "\ud800"}, NotText),
]  # fmt: skip


class Rules(unittest.TestCase):
    def test_what_is_filled_in(self) -> None:
        rows: "list[tuple[Optional[Mapping[str, Optional[str]]], bool, list[str]]]" = [
            (None, False, []), (None, True, ["by", "when"]), ({}, False, ["by", "when"]),
            ({"why": "x"}, False, ["by", "when", "why"]), ({"why": "x", "by": None}, True, ["when", "why"]),
            ({"by": None, "when": None}, True, []), ({"ticket": "7", "by": "ann"}, False, ["when", "ticket", "by"]),
        ]  # fmt: skip
        for given, is_kept, keys in rows:
            about = filled(given, is_kept)
            self.assertEqual(list(about), keys, given)
            self.assertIn(about.get("by"), (None, USER, (given or {}).get("by")))
            self.assertRegex(about.get("when", "2026-12-01T10:00:00Z"), TIME)

    def test_limits(self) -> None:
        for about in ({"k" * 64: "x"}, {str(number): "" for number in range(16)}, {"k": "x" * 4_090}):
            self.assertEqual(filled({**about, "by": None, "when": None}, False), about)
        for wrong, _ in WRONG:
            with self.assertRaises(NotAbout):
                filled({**wrong, "by": None, "when": None}, False)

    def test_of_one_key_the_last_counts(self) -> None:
        self.assertEqual(joined({"a": "1", "b": "2"}, None, {"a": None}), {"a": None, "b": "2"})
        self.assertIsNone(joined(None, None))

    def test_the_environment(self) -> None:
        for text, wanted in (("", None), ("why=a=b\n\nticket=7", {"why": "a=b", "ticket": "7"})):
            with mock.patch.dict(os.environ, {"CONFSTORE_ABOUT": text}):
                self.assertEqual(from_environment(), wanted)
        for text in ("why", "=x", "why=x\nno"):
            with mock.patch.dict(os.environ, {"CONFSTORE_ABOUT": text}), self.assertRaises(NotAbout):
                from_environment()
        with self.assertRaisesRegex(NotAbout, "KEY=TEXT"):
            pair_of("why")

    def test_the_words_of_a_line(self) -> None:
        self.assertEqual(words_of(ABOUT), 'by "ann" when "2026-12-01T10:00:00Z" why "open the port" ')
        self.assertEqual(words_of({"why": 'a "b"\n\u2028', "ticket": "7"}), 'why "a \\"b\\"\\n\\u2028" ')
        self.assertEqual(words_of({"ticket": "7", "a b": "x"}, ("a b", "ticket", "none")), '"a b" "x" ticket "7" ')

    def test_what_is_an_about(self) -> None:
        self.assertTrue(is_about({"why": ""}))
        for tree in ("", [], {}, {"": "x"}, {"why": []}, {"why": {"a": "b"}}, None):
            self.assertFalse(is_about(tree), tree)


class Formats(StoreTest):
    def test_how_a_file_begins(self) -> None:
        rows = [
            (b"---\nstore: confstore-3\n", True), (b"store: confstore-3\n", True), (b'store: "confstore-3"\n', True),
            (b"---\nstore: confstore-2\n", False), (b"---\nstore: confstore-33\n", False), (b"", False),
        ]  # fmt: skip
        path = os.path.join(self.folder, "store.yaml")
        self.assertFalse(keeps_abouts(self.folder))
        for start, wanted in rows:
            with open(path, "wb") as target:
                target.write(start + b'at: "0"\nconfigs: {}\n...\n')
            self.assertEqual(keeps_abouts(self.folder), wanted, start)
        os.unlink(path)
        os.mkfifo(path)
        self.assertFalse(keeps_abouts(self.folder))


class Records(unittest.TestCase):
    def test_a_record_with_an_about(self) -> None:
        for tree in (RECORD, trees_of(document(RECORD))[0]):
            record = record_of(tree)
            self.assertEqual((record.number, record.edits[0].kind, record.about), (3, "set", ABOUT))
            self.assertEqual(record.line, '3 by "ann" when "2026-12-01T10:00:00Z" why "open the port" set web "/port"')
        batch = record_of({"at": "4", "batch": [{"delete": "web", "path": ""}], "about": {"ticket": "7"}})
        self.assertEqual((batch.line, batch.about, batch.is_batch), ('4 batch delete web ""', {"ticket": "7"}, True))
        self.assertEqual(record_of({"at": "4", "delete": "web", "path": ""}).about, {})
        self.assertEqual(hash(Record(1, (), about={"a": "b"})), hash(Record(1, ())))
        self.assertNotEqual(Record(1, (), about={"a": "b"}), Record(1, ()))

    def test_what_is_none(self) -> None:
        about: Dict[str, Tree] = dict(ABOUT)
        wrongs: "list[Tree]" = [
            {"at": "3", "about": about, "set": "web", "path": "/port", "value": "81"}, {"at": "3", "about": about},
            {**RECORD, "about": {}}, {**RECORD, "about": "x"}, {**RECORD, "about": {"why": ["x"]}},
            {**RECORD, "about": {"": "x"}}, {**RECORD, "more": "x"},
        ]  # fmt: skip
        for wrong in wrongs:
            with self.assertRaises(BadAnswer):
                record_of(wrong)


class WithAbouts(StoreTest):
    """Tests of a program that takes abouts, or of a stand-in of one."""

    def setUp(self) -> None:
        super().setUp()
        patch = mock.patch.dict(os.environ, program_with_abouts())
        patch.start()
        self.addCleanup(patch.stop)

    def abouts(self) -> "list[Dict[str, str]]":
        """What is noted of each command in the file, without the time, which is looked at."""
        found = []
        for record in Reader(self.folder).log():
            about = dict(record.about)
            self.assertRegex(about.pop("when", "2026-12-01T10:00:00Z"), TIME)
            found.append(about)
        return found


class Stores(WithAbouts):
    def test_nothing_is_noted_unless_somebody_asks(self) -> None:
        with Store(self.folder) as store:
            store.put("web", {"port": "80"})
            store.set("web", "/port", "81", if_value="80")
        with open(os.path.join(self.folder, "store.yaml"), "rb") as source:
            self.assertTrue(source.read().startswith(b"---\nstore: confstore-2\n"))
        self.assertEqual(self.abouts(), [{}, {}])

    def test_each_change_of_a_store_that_keeps_them(self) -> None:
        with Store(self.folder) as store:
            store["web"] = {"port": "80"}
            with store.about(why="the first"):
                store.set("web", "/port", "81", if_value="80")
            store.set("web", "/port", "82")
        with Store(self.folder) as store:
            store.checkpoint()
            store.copy("web", "old")
            with store.batch(when=[Test("web", "/port", "82")]) as batch:
                batch.set("web", "/port", "83")
            with store.about(by=None, when=None):
                store.delete("old")
            store.perform_batches([[{"delete": "web", "path": ""}]])
        by = {"by": USER}
        self.assertEqual(self.abouts(), [by, by, {}, by])

    def test_what_a_store_gives_each_change(self) -> None:
        with Store(self.folder, about={"why": "a trial", "ticket": "7", "by": "ann"}) as store:
            store["web"] = {"port": "80"}
            with store.about({"the ticket": "9"}, ticket=None, why="inner"), store.about(why="innermost"):
                store.update("web", "/port", lambda port: f"{port}1")
            store.clear()
        given = {"why": "a trial", "ticket": "7", "by": "ann"}
        self.assertEqual(self.abouts(), [given, {"why": "innermost", "by": "ann", "the ticket": "9"}, given])
        with open(os.path.join(self.folder, "store.yaml"), "rb") as source:
            self.assertTrue(source.read().startswith(b"---\nstore: confstore-3\n"))

    def test_another_thread_has_its_own(self) -> None:
        with Store(self.folder) as store, Store(os.path.join(self.top, "other"), make=True) as other:
            with store.about(why="this thread"):
                thread = threading.Thread(target=store.put, args=("a", {}))
                thread.start()
                thread.join()
                other.put("a", {})
                store.put("b", {})
        self.assertEqual(self.abouts(), [{"by": USER, "why": "this thread"}])  # the first one begins a file
        self.assertEqual(Reader(other.__repr__()[7:-2]).log()[0].about, {})

    def test_tasks(self) -> None:
        async def change(store: AsyncStore, name: str) -> None:
            with store.about(why=name):
                await asyncio.sleep(0)
                await store.put(name, {})

        async def change_all() -> None:
            async with AsyncStore(self.folder, about={"ticket": "7"}) as store:
                await asyncio.gather(*(change(store, name) for name in ("a", "b", "c")))
                await store.put("d", {})

        asyncio.run(change_all())
        given = {"by": USER, "ticket": "7"}
        found = self.abouts()
        self.assertCountEqual(found, [*({**given, "why": name} for name in ("a", "b", "c")), given])
        self.assertEqual(found[-1], given)

    def test_what_is_refused_changes_nothing(self) -> None:
        with Store(self.folder) as store:
            for wrong, fault in WRONG:
                with self.assertRaises(fault):
                    store.about(wrong)
                with self.assertRaises(fault):
                    Store(self.folder, about=wrong)
            with mock.patch.dict(os.environ, {"CONFSTORE_ABOUT": "none"}), self.assertRaisesRegex(BadCommand, "KEY=TEXT"):
                store.put("web", {})
            with store.about({str(number): "" for number in range(15)}), self.assertRaises(AboutLarge):
                store.put("web", {})  # `by` and `when` are two more
            self.assertEqual(store.names(), [])

    def test_the_environment(self) -> None:
        with mock.patch.dict(os.environ, {"CONFSTORE_ABOUT": "why=nightly\nticket=7"}), Store(self.folder) as store:
            with store.about(why="inner"):
                store.put("web", {})
        self.assertEqual(self.abouts(), [{"by": USER, "why": "inner", "ticket": "7"}])

    def test_changes_that_are_followed(self) -> None:
        with Store(self.folder) as store, Reader(self.folder).follow(1) as changes:
            store.put("web", {"port": "80"})
            with store.about(why="x"):
                store.set("web", "/port", "81")
                store.set("web", "/port", "82")
            told = [changes.within(20) for _ in range(3)]
        self.assertEqual([one.about.get("why") if isinstance(one, Record) else one for one in told], [None, "x", "x"])


class OldPrograms(StoreTest):
    def test_a_program_that_takes_none(self) -> None:
        if takes_abouts(os.environ["CONFSTORE"]):
            self.skipTest("the program takes abouts")
        with Store(self.folder, about={"why": "x"}) as store:
            for call in (lambda: store.put("a", {}), lambda: store.delete("a", if_count=0)):
                with self.assertRaisesRegex(Unsupported, "takes no abouts"):
                    call()
            self.assertEqual(store.log(), [])


class Pages(WithAbouts):
    def test_the_example_of_the_page(self) -> None:
        with open(os.path.join(TOP, "python", "README.md"), encoding="utf-8") as source:
            found = re.search(r'(?s)```python\n(with Store\("/var/lib/app", about.*?)```', source.read())
        assert found is not None
        with Store(self.folder) as store:
            store["web"] = {"hosts": ["a"]}
        printed = io.StringIO()
        with contextlib.redirect_stdout(printed):
            exec(found[1].replace("/var/lib/app", self.folder), {"Store": Store})
        about = ast.literal_eval(printed.getvalue())
        self.assertRegex(about.pop("when"), TIME)
        self.assertEqual(about, {"by": USER, "ticket": "OPS-7", "why": "a second server"})
