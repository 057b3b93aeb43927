"""What faults and stores say of where: the path within a tree, the name and the path of a command, and the folder."""

from __future__ import annotations

import asyncio
import errno
import os
import pathlib
import pickle
import random
import shlex
from typing import Any, Callable

import confstore
from confstore import AsyncStore, NoConfig, NoSuchPlace, NotAText, NotATree, NotText, Reader, Store, Test, to_text

from .places import StoreTest

A_TREE = "a tree is a str, a list or a dict, not "


def with_leaf(chance: random.Random, leaf: object) -> tuple[Any, str]:
    """A random tree with this leaf in it, and the path to the leaf."""
    tree, path = leaf, ""
    for _ in range(chance.randrange(6)):
        before, behind = chance.randrange(4), chance.randrange(3)
        if chance.randrange(2):
            tree, path = [*["x"] * before, tree, *[leaf] * behind], f"/{before}{path}"
            continue
        key, step = chance.choice([("k", "k"), ("a/b", "a~1b"), ("~1", "~01"), ("", ""), ("10", "10")])
        first, last = {f"b{number}": ["y"] for number in range(before)}, {f"e{number}": leaf for number in range(behind)}
        tree = {**first, key: tree, **last}
        path = f"/{step}{path}"
    return tree, path


class WithinTrees(StoreTest):
    def fault(self, kind: type[confstore.faults.Unwritten], call: Callable[[], object]) -> confstore.faults.Unwritten:
        with self.assertRaises(kind) as caught:
            call()
        return caught.exception

    def test_the_first_leaf_that_is_no_tree(self) -> None:
        chance = random.Random(5)
        for _ in range(300):
            for kind, leaf in ((NotATree, 5), (NotATree, {1: "x"}), (NotText, "\ud800"), (NotText, {"\udfff": "x"})):
                tree, path = with_leaf(chance, leaf)
                self.assertEqual(self.fault(kind, lambda: to_text(tree)).within, path, tree)

    def test_the_sentence(self) -> None:
        tree: Any = {"a": [{"b": None}]}
        for made, said in (
            (5, f"{A_TREE}int"), (tree, f"{A_TREE}NoneType: at '/a/0/b' of the tree"),
            ({"a/b": {1: "x"}}, "a key is a str, not int: at '/a~1b' of the tree"),
            (["\ud800"], "character 0 is a lone surrogate, which no YAML can hold: at '/0' of the tree"),
        ):  # fmt: skip
            fault = self.fault(confstore.faults.Unwritten, lambda: to_text(made))
            self.assertEqual((str(fault), fault.name, fault.path), (said, None, None))
            again = pickle.loads(pickle.dumps(fault))
            self.assertEqual((type(again), str(again), again.within), (type(fault), said, fault.within))

    def test_commands(self) -> None:
        """The place is that in the caller's own tree."""
        store = self.store()
        store["web"] = {}
        bad: Any = {"a": [{"b": 5}]}
        within = f"{A_TREE}int: at '/a/0/b' of the tree for 'web'"

        def batch() -> None:
            with store.batch() as batch:
                batch.delete("web", "/x")
                batch.set("web", "/y", bad)

        def condition() -> None:
            with store.batch(when=[Test("web", "/z", bad)]) as batch:
                batch.delete("web")

        for call, path, said in (
            (lambda: store.put("web", bad), None, within), (lambda: store.__setitem__("web", bad), None, within),
            (lambda: store.set("web", "/y", bad), "/y", f"{within} at '/y'"),
            (batch, "/y", f"{within} at '/y'"), (condition, "/z", f"{within} at '/z'"),
            (lambda: store.set("web", "/y", "x", if_value=bad), "/y", f"{within} at '/y'"),
        ):  # fmt: skip
            fault = self.fault(NotATree, call)
            self.assertEqual((str(fault), fault.name, fault.path, fault.within), (said, "web", path, "/a/0/b"))
        whole: Any = 5
        fault = self.fault(NotATree, lambda: store.set("web", "/y", whole))
        self.assertEqual((str(fault), fault.within), (f"{A_TREE}int: the tree for 'web' at '/y'", ""))
        fault = self.fault(NotText, lambda: store.get("web", "/\ud800"))
        self.assertEqual((fault.name, fault.within), ("web", None))
        self.assertIn("no YAML can hold: the command for 'web' at '/", str(fault))
        self.assertEqual(store["web"], {})


class Texts(StoreTest):
    def test_get_text(self) -> None:
        store = self.store()
        store["web"] = {"port": "80", "hosts": ["a"], "": {}}
        readers: list[Store | Reader | confstore.View] = [store, Reader(self.folder), store.at(1)]
        for reader in readers:
            text: str = reader.get_text("web", "/port")
            self.assertEqual((text, reader.get_text("web", "/hosts/0")), ("80", "a"))
            default: str | int = reader.get_text("web", "/none", default=7)
            self.assertEqual((default, reader.get_text("none", default="x")), (7, "x"))
            for name, path, kind in (("none", "/port", NoConfig), ("web", "/none", NoSuchPlace)):
                with self.assertRaises(kind) as caught:
                    reader.get_text(name, path)
                self.assertIsInstance(caught.exception, KeyError)
            for path, said in (
                ("/hosts", "what is at '/hosts' of 'web' is a list, and no text"),
                ("/", "what is at '/' of 'web' is a mapping, and no text"),
                ("", "'web' is a mapping, and no text"),
            ):
                with self.assertRaises(NotAText) as none:
                    reader.get_text("web", path, default="x")
                self.assertEqual((str(none.exception), none.exception.name, none.exception.path), (said, "web", path))
                self.assertIsInstance(none.exception, TypeError)
                self.assertEqual(str(pickle.loads(pickle.dumps(none.exception))), said)

    def test_get_text_that_is_awaited(self) -> None:
        async def read() -> tuple[str, str | None, str]:
            async with AsyncStore(self.folder) as store:
                await store.put("web", {"port": "80", "hosts": []})
                with self.assertRaises(NotAText):
                    await store.get_text("web", "/hosts")
                with self.assertRaises(NoSuchPlace):
                    await store.get_text("web", "/none")
                return await store.get_text("web", "/port"), await store.get_text("x", default=None), repr(store)

        self.assertEqual(asyncio.run(read()), ("80", None, f"AsyncStore({self.folder!r})"))


class Folders(StoreTest):
    def test_repr(self) -> None:
        store = self.store()
        store["web"] = "x"
        named = Store(os.path.relpath(os.path.join(self.top, "other")), make=True)
        named.close()
        for shown, said in (
            (store, f"Store({self.folder!r})"), (Reader(self.folder), f"Reader({self.folder!r})"),
            (store.at(1), f"Reader({self.folder!r}).at(1)"), (named, f"Store({os.path.join(self.top, 'other')!r})"),
            (AsyncStore.connect("/x/y"), "AsyncStore.connect('/x/y')"),
        ):  # fmt: skip
            self.assertEqual(repr(shown), said)

    def test_the_cause_of_an_end(self) -> None:
        """That which the program has named, as where a file may be no longer."""
        small = pathlib.Path(self.top, "small")
        program = shlex.quote(os.environ["CONFSTORE"])
        small.write_text(f"#!/bin/sh\ntrap '' XFSZ\nulimit -f 2\nexec {program} \"$@\"\n", encoding="utf-8")
        small.chmod(0o755)
        store = self.store(program=str(small))
        with self.assertRaises(confstore.Device) as caught:
            store["web"] = "x" * 5_000
        cause = f"store.yaml: {os.strerror(errno.EFBIG)}"
        self.assertEqual(str(caught.exception), f"Device: {cause}: {self.folder!r}")
        self.assertEqual(caught.exception.cause, cause)

    def test_ends(self) -> None:
        """The sentence of an end has the folder."""
        self.store()["web"] = "x"
        with self.assertRaises(confstore.Locked) as held:
            Store(self.folder)
        self.assertEqual(str(held.exception), f"Locked: another run holds the folder: {self.folder!r}")
        self.assertEqual((held.exception.folder, held.exception.status), (self.folder, 3))
        other = pathlib.Path(self.top, "other")
        other.mkdir()
        (other / "store.yaml").write_text("x: y\n", encoding="utf-8")
        calls: list[Callable[[], object]] = [lambda: Store(other), Reader(other).names, lambda: Reader(other)["web"]]
        for call in calls:
            with self.assertRaises(confstore.NotAStore) as caught:
                call()
            said = f"NotAStore: store.yaml does not begin with a base: {str(other)!r}"
            self.assertEqual(str(caught.exception), said)
            self.assertEqual(str(pickle.loads(pickle.dumps(caught.exception))), said)
