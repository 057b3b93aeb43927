"""Conditions of changes, and what is made of them: values that are updated, and configurations that are copied."""

from __future__ import annotations

import asyncio
import os
import subprocess
import sys
import threading
import time
import unittest
import unittest.mock
from typing import Any, Awaitable, Callable

import confstore
from confstore import Absent, AsyncStore, Condition, Count, Store, Test, Tree
from confstore.commands import refused
from confstore.conditions import PROBE, at_place, under

from . import TOP
from .places import StoreTest

CLIENTS, TURNS = 16, 100
PATIENCE = 600

# A client of a server, which adds one to a number so many times.
CLIENT = """
import sys
from confstore import Store
path, turns = sys.argv[1:]
with Store.connect(path) as store:
    for _ in range(int(turns)):
        store.update("web", "/n", lambda number: str(int(number) + 1))
"""


class Written(unittest.TestCase):
    def test_forms(self) -> None:
        """As docs/SESSION.md has them."""
        conditions: list[Condition] = [Test("web", "/port", "80"), Absent("web", "/tls"), Absent("dns"), Count(17)]
        command = under(conditions, {"set": "web", "path": "/port", "value": "81"})
        wanted = (
            'if:\n  - test: web\n    path: "/port"\n    value: "80"\n  - absent: web\n    path: "/tls"\n'
            '  - absent: dns\n  - count: "17"\nset: web\npath: "/port"\nvalue: "81"\n'
        )
        self.assertEqual(confstore.to_text(command), wanted)
        self.assertEqual(under([], {"names": ""}), {"names": ""})

    def test_of_a_call(self) -> None:
        self.assertEqual(at_place("web", "/a"), [])
        self.assertEqual(at_place("web", "/a", ""), [Test("web", "/a", "")])
        all_of_them = at_place("web", "/a", {}, True, 0)
        self.assertEqual(all_of_them, [Test("web", "/a", {}), Absent("web", "/a"), Count(0)])

    def test_what_is_told(self) -> None:
        command: Tree = {"if": [{"count": "1"}], "set": "web", "path": "/a", "value": "x"}
        fault = refused("Unmet", command, None)
        self.assertIsInstance(fault, confstore.Unmet)
        self.assertEqual((fault.word, fault.name, fault.path), ("Unmet", "web", "/a"))
        said = "`set` of 'web' at '/a' was refused: Unmet: a condition of the command does not hold"
        self.assertEqual(str(fault), said)
        fault = refused("Unmet", {"if": [], "batch": [{}, {}]}, None)
        self.assertEqual(str(fault)[:33], "`batch` of 2 edits was refused: U")


class ConditionTest(StoreTest):
    def conditional(self) -> Store:
        """A store of a program with conditions, with a configuration of four commands."""
        store = self.store()
        store["web"] = {"port": "80", "tags": ["a", {"b": "c"}]}
        self.supported(lambda: store.set("web", "/n", "0", if_absent=True))
        store.set("web", "/n", "1")
        store.set("web", "/n", "2")
        return store

    def unmet(self, call: Callable[..., object], *words: Any, **more: Any) -> None:
        """Has a call raise `Unmet`."""
        with self.assertRaises(confstore.Unmet):
            call(*words, **more)


class Conditions(ConditionTest):
    def test_values(self) -> None:
        store = self.conditional()
        self.assertEqual(store.set("web", "/port", "81", if_value="80"), 5)
        self.unmet(store.set, "web", "/port", "82", if_value="80")
        self.unmet(store.set, "web", "/port", "82", if_value={"80": "80"})
        self.unmet(store.set, "web", "/none", "82", if_value="80")
        self.unmet(store.set, "none", "", "82", if_value="80")
        self.assertEqual(store.set("web", "/tags/1", "x", if_value={"b": "c"}), 6)
        self.assertEqual(store.delete("web", "/tags", if_value=["a", "x"]), 7)
        self.unmet(store.delete, "web", if_value={"n": "2", "port": "81"})
        self.assertEqual(store["web"], {"port": "81", "n": "2"})
        self.assertEqual(store.delete("web", if_value={"port": "81", "n": "2"}), 8)
        self.assertEqual(store.names(), [])

    def test_what_is_absent(self) -> None:
        store = self.conditional()
        self.unmet(store.set, "web", "/port", "81", if_absent=True)
        self.assertEqual(store.set("web", "/color", "red", if_absent=True), 5)
        self.assertEqual(store.set("web", "/tags/-", "d", if_absent=True), 6)
        self.unmet(store.put, "web", "x", if_absent=True)
        self.unmet(store.import_text, "web", "x", if_absent=True)
        self.assertEqual(store.put("dns", "x", if_absent=True), 7)
        self.assertEqual(store.import_text("dns", "y", if_value="x"), 8)
        self.assertEqual(store["dns"], "y")

    def test_counts(self) -> None:
        store = self.conditional()
        self.assertEqual(store.set("web", "/n", "3", if_count=4), 5)
        self.unmet(store.set, "web", "/n", "4", if_count=4)
        self.unmet(store.set, "web", "/n", "4", if_count=6)
        self.unmet(store.set, "web", "/n", "4", if_count=5, if_value="2")
        self.assertEqual(store.set("web", "/n", "4", if_count=5, if_value="3"), 6)
        with self.assertRaises(confstore.BadCommand):
            store.set("web", "/n", "4", if_count=-1)

    def test_batches(self) -> None:
        """The conditions are looked at on the store before the batch."""
        store = self.conditional()
        with store.batch(when=[Test("web", "/n", "2"), Absent("dns"), Count(4)]) as batch:
            batch.set("web", "/n", "3")
            batch.put("dns", "x")
        self.assertEqual(batch.count, 5)
        unmet: list[list[Condition]] = [[Test("web", "/n", "2")], [Count(5), Absent("dns")]]
        for conditions in unmet:
            with self.assertRaises(confstore.Unmet), store.batch(when=conditions) as batch:
                batch.delete("dns")
            self.assertEqual((batch.count, store["dns"]), (None, "x"))
        with store.batch(when=[Count(1)]):
            pass
        self.assertEqual(store.checkpoint(), 5)

    def test_bad_names_and_paths(self) -> None:
        store = self.conditional()
        rows: list[tuple[Condition, type[confstore.Refused]]] = [
            (Absent("9web"), confstore.BadName), (Test("web", "port", "80"), confstore.BadPath),
            (Absent("web", "/~2"), confstore.BadPath),
        ]  # fmt: skip
        for condition, kind in rows:
            with self.assertRaises(kind), store.batch(when=[condition]) as batch:
                batch.set("web", "/n", "3")
        self.unmet(self.set_when, store, [Count(3), Absent("9web")])
        self.assertEqual(store.get("web", "/n"), "2")

    def set_when(self, store: Store, conditions: list[Condition]) -> None:
        with store.batch(when=conditions) as batch:
            batch.set("web", "/n", "3")

    def test_programs_without_conditions(self) -> None:
        """They take no such command, whatever else may be wrong with it."""
        body = "while True:\n    heard()\n    say(b'---\\nrefused: BadCommand\\n...\\n')\n"
        store = self.store(program=self.program(body))
        with self.assertRaises(confstore.Unsupported):
            store.set("web", "/n", "3", if_absent=True)
        with self.assertRaises(confstore.Unsupported):
            self.set_when(store, [Count(1)])

    def test_the_probe(self) -> None:
        """A program with conditions refuses it by the name, so nothing is changed by it, ever."""
        store = self.conditional()
        self.assertEqual(store._ask(PROBE), b"---\nrefused: BadName\n...\n")


class Updates(ConditionTest):
    def test_an_update(self) -> None:
        store = self.conditional()
        self.assertEqual(store.update("web", "/n", lambda number: str(number) + "0"), 5)
        self.assertEqual(store.get("web", "/n"), "20")
        with self.assertRaises(confstore.NoSuchPlace):
            store.update("web", "/none", lambda _: "x")
        with self.assertRaises(confstore.NoConfig):
            store.update("none", "", lambda _: "x")
        store.update({"dns": "x"}, mail="y")
        self.assertEqual(store.names(), ["web", "dns", "mail"])

    def test_a_tree_that_the_function_changes(self) -> None:
        store = self.conditional()

        def add(tags: Any) -> Tree:
            tags.append("d")
            return list(tags)

        store.update("web", "/tags", add)
        self.assertEqual(store.get("web", "/tags"), ["a", {"b": "c"}, "d"])
        store.update("web", "", lambda web: {"whole": web})
        self.assertEqual(store.get("web", "/whole/port"), "80")

    def test_another_change_between(self) -> None:
        store, seen = self.conditional(), []

        def step(number: Tree) -> Tree:
            seen.append(number)
            if len(seen) < 4:
                store.set("web", "/n", f"other {len(seen)}")
            return f"{number} and more"

        store.update("web", "/n", step)
        self.assertEqual(seen, ["2", "other 1", "other 2", "other 3"])
        self.assertEqual(store.get("web", "/n"), "other 3 and more")

    def test_changes_without_end(self) -> None:
        store = self.conditional()
        store._timeout = 0.3
        numbers = iter(range(1_000_000))

        def step(number: Tree) -> Tree:
            store.set("web", "/n", f"other {next(numbers)}")
            return "mine"

        start = time.monotonic()
        self.unmet(store.update, "web", "/n", step)
        self.assertLess(time.monotonic() - start, 20)

    def test_many_threads(self) -> None:
        store = self.conditional()
        store.set("web", "/n", "0")

        def add() -> None:
            for _ in range(TURNS // 4):
                store.update("web", "/n", lambda number: str(int(str(number)) + 1))

        threads = [threading.Thread(target=add) for _ in range(CLIENTS)]
        for thread in threads:
            thread.start()
        for thread in threads:
            thread.join(PATIENCE)
        self.assertEqual(store.get("web", "/n"), str(CLIENTS * TURNS // 4))

    def test_clients_of_a_server(self) -> None:
        """Sixteen that each add one to a number a hundred times end at 1,600."""
        with self.conditional() as store:
            store.set("web", "/n", "0")
        path = os.path.join(self.top, "socket")
        words = [sys.executable, os.path.join(TOP, "clients", "serve.py"), path, self.folder]
        environment = {**os.environ, "PYTHONPATH": os.path.join(TOP, "python")}
        with subprocess.Popen(words) as server:
            try:
                deadline = time.monotonic() + PATIENCE
                while not os.path.exists(path) and time.monotonic() < deadline:
                    time.sleep(0.01)
                client = [sys.executable, "-c", CLIENT, path, str(TURNS)]
                started = [subprocess.Popen(client, env=environment) for _ in range(CLIENTS)]
                self.assertEqual([one.wait(PATIENCE) for one in started], [0] * CLIENTS)
            finally:
                server.terminate()
        with self.store() as store:
            self.assertEqual(store.get("web", "/n"), str(CLIENTS * TURNS))
            self.assertEqual(store.checkpoint(), 5 + CLIENTS * TURNS)


class Moves(ConditionTest):
    def test_copy(self) -> None:
        store = self.conditional()
        web = store["web"]
        self.assertEqual(store.copy("web", "old"), 5)
        self.assertEqual((store["old"], store.names()), (web, ["web", "old"]))
        self.unmet(store.copy, "web", "old", if_absent=True)
        self.unmet(store.copy, "web", "old", if_value="x")
        self.unmet(store.copy, "web", "old", if_count=4)
        store.set("web", "/n", "3")
        self.assertEqual(store.copy("web", "old", if_value=web, if_count=6), 7)
        self.assertEqual(store["old"], store["web"])
        for source, target, kind in (("none", "x", "NoConfig"), ("web", "9", "BadName"), ("9", "x", "BadName")):
            with self.assertRaises(confstore.Refused) as caught:
                store.copy(source, target)
            self.assertEqual((caught.exception.word, caught.exception.name), (kind, source))
        self.assertIn(f"`copy` of {source!r} was refused: BadName", str(caught.exception))

    def test_rename(self) -> None:
        store = self.conditional()
        web = store["web"]
        store["dns"] = "x"
        self.unmet(store.rename, "web", "dns", if_absent=True)
        self.assertEqual(store.rename("web", "site", if_absent=True), 6)
        self.assertEqual((store["site"], store.names()), (web, ["dns", "site"]))
        self.assertEqual(store.rename("dns", "dns"), 7)
        self.assertEqual((store["dns"], store.names()), ("x", ["dns", "site"]))
        self.assertEqual(store.rename("site", "dns", if_value="x"), 8)
        self.assertEqual((store["dns"], store.names()), (web, ["dns"]))
        with self.assertRaises(confstore.NoConfig):
            store.rename("site", "dns")

    def test_records(self) -> None:
        """A copy is one import, and a rename one batch, as of the program's words."""
        store = self.conditional()
        store.copy("web", "old")
        store.rename("web", "new")
        lines = [record.line for record in store.log(4)]
        self.assertEqual(lines, ["5 import old", '6 batch delete web ""; import new'])

    def test_a_source_that_changes(self) -> None:
        """What is copied is what the source is when that is done."""
        store = self.conditional()
        other, reads = Store.__getitem__, []

        def read(store: Store, name: str) -> Tree:
            tree = other(store, name)
            reads.append(tree)
            if len(reads) < 3:
                store.set("web", "/n", f"other {len(reads)}")
            return tree

        with unittest.mock.patch.object(Store, "__getitem__", read):
            store.copy("web", "old", if_absent=True)
        self.assertEqual((len(reads), store.get("old", "/n")), (3, "other 2"))


class Awaited(ConditionTest):
    def run_with(self, task: Callable[[AsyncStore], Awaitable[None]]) -> None:
        self.conditional().close()

        async def run() -> None:
            async with AsyncStore(self.folder) as store:
                await task(store)

        asyncio.run(asyncio.wait_for(run(), PATIENCE))

    def test_calls(self) -> None:
        async def task(store: AsyncStore) -> None:
            self.assertEqual(await store.set("web", "/n", "3", if_value="2"), 5)
            self.assertEqual(await store.put("dns", "x", if_absent=True), 6)
            self.assertEqual(await store.import_text("dns", "y", if_count=6), 7)
            for call in (
                store.set("web", "/n", "4", if_value="2"), store.put("dns", "z", if_absent=True),
                store.delete("dns", if_count=6), store.copy("web", "dns", if_absent=True),
                store.rename("web", "dns", if_value="x"),
            ):  # fmt: skip
                with self.assertRaises(confstore.Unmet):
                    await call
            self.assertEqual(await store.copy("web", "old"), 8)
            self.assertEqual(await store.rename("old", "dns", if_value="y"), 9)
            async with store.batch(when=[Count(9)]) as batch:
                batch.delete("dns", "/n")
            self.assertEqual((batch.count, await store.names()), (10, ["web", "dns"]))
            with self.assertRaises(confstore.Unmet):
                async with store.batch(when=[Absent("web")]) as batch:
                    batch.delete("web")
            await store.update({"mail": "x"})
            self.assertEqual(await store.delete("mail", if_value="x"), 12)

        self.run_with(task)

    def test_many_tasks(self) -> None:
        async def task(store: AsyncStore) -> None:
            await store.set("web", "/n", "0")

            async def add() -> None:
                for _ in range(TURNS // 4):
                    await store.update("web", "/n", lambda number: str(int(str(number)) + 1))

            await asyncio.gather(*(add() for _ in range(CLIENTS)))
            self.assertEqual(await store.get("web", "/n"), str(CLIENTS * TURNS // 4))

        self.run_with(task)


class Disturbed(Store):
    """A store that another user changes right after each of the next reads of it, by one of these calls each."""

    others: "list[Callable[[Store], object]]"

    def _read_at(self, name: str, path: str) -> Tree:
        try:
            return super()._read_at(name, path)
        finally:
            if self.others:
                self.others.pop(0)(self)


class BetweenTwoCommands(StoreTest):
    """Calls that read and then change, where another user comes between."""

    def setUp(self) -> None:
        super().setUp()
        self.held = Disturbed(self.folder)
        self.addCleanup(self.held.close)

    def disturbed(self, *others: Callable[[Store], object], **trees: Tree) -> Disturbed:
        """The store with these configurations, and with what others do meanwhile."""
        self.held.others = []
        self.held.clear()
        self.held.update(trees)
        self.held.others = list(others)
        return self.held

    def test_pop(self) -> None:
        """It returns what it has deleted, and deletes nothing that it has not returned."""
        store = self.disturbed(lambda store: store.put("a", "y"), lambda store: store.put("a", "z"), a="x", b="w")
        self.assertEqual((store.pop("a"), dict(store)), ("z", {"b": "w"}))
        store = self.disturbed(lambda store: store.delete("a"), a="x")
        self.assertEqual((store.pop("a", None), dict(store)), (None, {}))
        store = self.disturbed(lambda store: store.delete("a"), a="x")
        with self.assertRaises(confstore.NoConfig):
            store.pop("a")
        store = self.disturbed(lambda store: store.put("b", "v"), a="x", b="w")
        self.assertEqual((store.pop("a"), dict(store)), ("x", {"b": "v"}))

    def test_popitem(self) -> None:
        store = self.disturbed(lambda store: store.put("b", "y"), a="x", b="w")
        self.assertEqual((store.popitem(), dict(store)), (("b", "y"), {"a": "x"}))
        store = self.disturbed(lambda store: store.delete("b"), a="x", b="w")
        self.assertEqual((store.popitem(), dict(store)), (("a", "x"), {}))

    def test_setdefault(self) -> None:
        """What another user has put stays, and is returned."""
        store = self.disturbed(lambda store: store.put("a", "y"))
        self.assertEqual((store.setdefault("a", "x"), dict(store)), ("y", {"a": "y"}))
        store = self.disturbed(lambda store: store.put("a", "y"), lambda store: store.delete("a"))
        self.assertEqual((store.setdefault("a", "x"), dict(store)), ("y", {}))
        store = self.disturbed(lambda store: (store.put("a", "y"), store.delete("a")))
        self.assertEqual((store.setdefault("a", "x"), dict(store)), ("x", {"a": "x"}))

    def test_one_that_never_comes_through(self) -> None:
        """Each call ends in time where another user comes between each time."""
        numbers = iter(range(10**9))
        others: list[Callable[[Store], object]] = [lambda store: store.put("a", str(next(numbers)))] * 100_000
        store = self.disturbed(*others, a="x")
        store._timeout = 0.5
        calls: list[Callable[[], object]] = [lambda: store.pop("a"), store.popitem, lambda: store.pop("a", None),
                                             lambda: Store.update(store, "a", "", lambda _: "z")]  # fmt: skip
        for call in calls:
            began = time.monotonic()
            with self.assertRaises(confstore.Unmet):
                call()
            self.assertLess(time.monotonic() - began, PATIENCE)


if __name__ == "__main__":
    unittest.main()
