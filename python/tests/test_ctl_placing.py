"""confstorectl's `set --parents`, `set --insert`, and `--dry-run`."""

from __future__ import annotations

import os
import subprocess
import sys
import threading
from typing import Iterator
from unittest import mock

from confstore import Store, ctl
from confstore.ctl_asked import Asked
from confstore.ctl_placing import placed
from confstore.ctl_sockets import Command
from confstore.style import Tree

from . import TOP
from .places import StoreTest, python_path

PATIENCE = 60

START: dict[str, Tree] = {"web": {"port": "80", "hosts": ["a", "c"], "tls": {"key": "k"}, "a/b": {}}, "text": "x"}


class PlacingTest(StoreTest):
    def setUp(self) -> None:
        super().setUp()
        with Store(self.folder) as store:
            store.update(START)

    def opened(self) -> Store:
        """The store, for those who close it."""
        return Store(self.folder)

    def ctl(self, *words: str, given: str = "") -> tuple[int, str, str]:
        """The status of a word on the store, and what it writes."""
        environment = {**os.environ, "PYTHONPATH": python_path(), "TMPDIR": self.top}
        environment.pop("CONFSTORE_SOCKET", None)
        done = subprocess.run(
            [sys.executable, "-m", "confstore.ctl", words[0], self.folder, *words[1:]], input=given.encode(),
            capture_output=True, check=False, env=environment, timeout=PATIENCE,
        )  # fmt: skip
        self.assertEqual([name for name in os.listdir(self.top) if name.startswith("confstorectl-")], [])
        return done.returncode, done.stdout.decode(), done.stderr.decode()

    def trees(self) -> dict[str, Tree]:
        with self.opened() as store:
            return dict(store.items())

    def begin(self) -> None:
        with self.opened() as store, store.batch() as batch:
            for name in store.names():
                batch.delete(name)
            for name, tree in START.items():
                batch.put(name, tree)


class Places(PlacingTest):
    """What the options do where there is no server."""

    # The options with which what is there is read before it is changed.
    reading: tuple[tuple[str, ...], ...] = (("--check", "true"),)

    def test_what_is_put(self) -> None:
        web = START["web"]
        assert isinstance(web, dict)
        rows: tuple[tuple[list[str], dict[str, Tree]], ...] = (
            (["/tls/cert", "c", "--parents"], {"tls": {"key": "k", "cert": "c"}}),
            (["/log/file/name", "n", "--parents"], {"log": {"file": {"name": "n"}}}),
            (["/a~1b/c~0d/e", "x", "--parents"], {"a/b": {"c~d": {"e": "x"}}}),
            (["/port", "81", "--parents"], {"port": "81"}),
            (["/hosts/-", "d", "--parents"], {"hosts": ["a", "c", "d"]}),
            (["/users/-/0/name", "u", "--parents"], {"users": {"-": {"0": {"name": "u"}}}}),
            (["/tls/cert/x", "[y, {z: w}]", "--yaml", "--parents"],
             {"tls": {"key": "k", "cert": {"x": ["y", {"z": "w"}]}}}),
            (["/hosts/1", "b", "--insert"], {"hosts": ["a", "b", "c"]}),
            (["/hosts/0", "b", "--insert"], {"hosts": ["b", "a", "c"]}),
            (["/hosts/2", "b", "--insert"], {"hosts": ["a", "c", "b"]}),
            (["/hosts/-", "b", "--insert"], {"hosts": ["a", "c", "b"]}),
            (["/hosts/1", "{x: y}", "--yaml", "--insert"], {"hosts": ["a", {"x": "y"}, "c"]}),
            (["/tls/0", "b", "--insert"], {"tls": {"key": "k", "0": "b"}}),
            (["/tls/key", "b", "--insert"], {"tls": {"key": "b"}}),
            (["/hosts/1", "b", "--insert", "--if-value", "c"], {"hosts": ["a", "b", "c"]}),
            (["/hosts/1", "b", "--insert", "--check", "grep -q b"], {"hosts": ["a", "b", "c"]}),
            (["/tls/cert", "c", "--parents", "--if-absent"], {"tls": {"key": "k", "cert": "c"}}),
            (["/log/file", "n", "--parents", "--check", "grep -q log"], {"log": {"file": "n"}}),
        )  # fmt: skip
        for words, wanted in rows:
            with self.subTest(words):
                self.begin()
                self.assertEqual(self.ctl("set", "web", *words), (0, "", ""))
                self.assertEqual(self.trees(), {**START, "web": {**web, **wanted}})

    def test_what_is_refused(self) -> None:
        before, digits = self.trees(), "9" * 5_000
        for words, fault in (
            (["web", "/hosts/3", "b", "--insert"], "NoSuchPlace"), (["web", "/hosts/01", "b", "--insert"], "NotIndex"),
            (["web", "/none/0", "b", "--insert"], "NoSuchPlace"), (["text", "/0", "b", "--insert"], "NoSuchPlace"),
            (["web", f"/hosts/{digits}", "b", "--insert"], "NoSuchPlace"),
            (["none", "/0", "b", "--insert"], "NoConfig"), (["web", "hosts/0", "b", "--insert"], "BadPath"),
            (["web", "/port/x", "b", "--parents"], "NoSuchPlace"),
            (["web", "/hosts/x/y", "b", "--parents"], "NotIndex"),
            (["web", "/hosts/-/y", "b", "--parents"], "NoSuchPlace"),
            (["web", f"/hosts/{digits}/y", "b", "--parents"], "NoSuchPlace"),
            (["new", "/a/b", "c", "--parents"], "NoConfig"), (["new", "a/b", "c", "--parents"], "NoConfig"),
            (["new", "/a/b", "c", "--parents", "--check", "true"], "NoConfig"),
            (["Web", "/a/b", "c", "--parents"], "BadName"), (["web", "/a/~", "c", "--parents"], "BadPath"),
            (["web", "/a" * 128, "c", "--parents"], "TooDeep"), (["web", "/a" * 5_000, "c", "--parents"], "TooDeep"),
            (["web", "/hosts/0", f"{'[' * 127}{']' * 127}", "--yaml", "--insert"], "TooDeep"),
            (["web", "/a/b", "c", "--parents", "--if-count", "7"], "Unmet"),
            (["new", "/a/b", "c", "--parents", "--if-count", "7"], "Unmet"),
            (["web", "/hosts/0", "b", "--insert", "--if-value", "z"], "Unmet"),
            (["web", "/hosts/0", "b", "--insert", "--if-absent"], "Unmet"),
        ):  # fmt: skip
            with self.subTest(words):
                status, said, errors = self.ctl("set", *words)
                self.assertEqual((status, said), (1, ""), errors)
                self.assertIn(f"confstorectl: {fault}", errors)
        for options in (["--parents", "--insert"], ["--parents", "--whole"], ["--insert", "--whole"]):
            pointer = "" if "--whole" in options else "/a"
            self.assertEqual(self.ctl("set", "web", pointer, "b", *options)[0], 2)
        self.assertEqual(self.ctl("delete", "web", "/a", "--parents")[0], 2)
        self.assertEqual(self.trees(), before)

    def test_the_deepest(self) -> None:
        """A configuration is 128 deep: 127 mappings, and a text, or a list, in them."""
        for words in (
            ["/a" * 127, "c", "--parents"], ["/b" * 126, "[c]", "--yaml", "--parents"],
            ["/hosts/0", f"{'[' * 126}{']' * 126}", "--yaml", "--insert"],
        ):  # fmt: skip
            with self.subTest(words):
                self.assertEqual(self.ctl("set", "web", *words), (0, "", ""))

    def test_what_is_recorded(self) -> None:
        """It is one plain `set`, of the whole list where the value is inserted."""
        number = len(self.ctl("log")[1].splitlines())
        for words in (
            ["/log/file/name", "n", "--parents"], ["/log/level", "n", "--parents"], ["/hosts/0", "b", "--insert"],
            ["/hosts/-", "b", "--insert"], ["/tls/0", "b", "--insert"],
        ):  # fmt: skip
            self.assertEqual(self.ctl("set", "web", *words), (0, "", ""))
        lines = [line.split(" ", 1)[1] for line in self.ctl("log")[1].splitlines()[number:]]
        places = ("/log", "/log/level", "/hosts", "/hosts", "/tls/0")
        self.assertEqual(lines, [f'set web "{place}"' for place in places])

    def test_a_change_that_comes_between(self) -> None:
        """The value is put into what the other one left."""
        for options in self.reading:
            self.begin()
            others = iter(["b", "d"])

            def place(asked: Asked, value: Tree, tree: Tree, others: Iterator[str] = others) -> Command:
                for host in others:
                    with self.opened() as store:
                        store.set("web", "/hosts/-", host)
                    break
                return placed(asked, value, tree)

            with self.subTest(options), mock.patch("confstore.ctl_placing.placed", place):
                words = ["set", self.folder, "web", "/hosts/0", "first", "--insert", *options]
                self.assertEqual(ctl.perform_words(words), 0)
                with self.opened() as store:
                    self.assertEqual(store.get("web", "/hosts"), ["first", "a", "c", "b", "d"])

    def test_many_at_once(self) -> None:
        def insert(number: int) -> None:
            self.assertEqual(self.ctl("set", "web", "/hosts/1", f"h{number}", "--insert", "--wait", "60")[0], 0)
            self.assertEqual(self.ctl("set", "web", f"/new/k{number}/x", "y", "--parents", "--wait", "60")[0], 0)

        threads = [threading.Thread(target=insert, args=(number,)) for number in range(4)]
        for thread in threads:
            thread.start()
        for thread in threads:
            thread.join(PATIENCE)
        with self.opened() as store:
            hosts = store.get("web", "/hosts")
            self.assertEqual(store.get("web", "/new"), {f"k{number}": {"x": "y"} for number in range(4)})
        assert isinstance(hosts, list)
        self.assertEqual((hosts[0], hosts[-1], len(hosts)), ("a", "c", 6))
        self.assertEqual({str(host) for host in hosts[1:-1]}, {f"h{number}" for number in range(4)})


class PlacesOfServer(Places):
    """The same through a server."""

    reading = ((), ("--check", "true"))

    def setUp(self) -> None:
        super().setUp()
        self.at = os.path.join(self.folder, "confstore.sock")
        serve = [sys.executable, os.path.join(TOP, "clients", "serve.py"), self.at, self.folder]
        server = subprocess.Popen(serve, stdout=subprocess.PIPE, stderr=subprocess.STDOUT)
        self.addCleanup(server.communicate, timeout=PATIENCE)
        self.addCleanup(server.terminate)
        self.assertEqual(self.ctl("names", "--socket", self.at, "--wait", "30")[0], 0)

    def opened(self) -> Store:
        return Store.connect(self.at)


class DryRuns(PlacingTest):
    def test_what_is_written(self) -> None:
        """The lines as `diff -u` has them, and nothing is changed."""
        before = self.trees()
        rows: tuple[tuple[list[str], str, str], ...] = (
            (["set", "text", "", "z", "--whole"], "", "--- text\n+++ text\n@@ -1 +1 @@\n-x\n+z\n"),
            (["delete", "text"], "", "--- text\n+++ /dev/null\n@@ -1 +0,0 @@\n-x\n"),
            (["import", "new"], "a: 1\n", '--- /dev/null\n+++ new\n@@ -0,0 +1 @@\n+a: "1"\n'),
            (["copy", "text", "new"], "", "--- /dev/null\n+++ new\n@@ -0,0 +1 @@\n+x\n"),
            (["rename", "text", "new"], "",
             "--- text\n+++ /dev/null\n@@ -1 +0,0 @@\n-x\n--- /dev/null\n+++ new\n@@ -0,0 +1 @@\n+x\n"),
            (["set", "text", "", "x", "--whole"], "", ""),
            (["set", "web", "/a~1b/k/m", "v", "--parents"], "",
             "--- web\n+++ web\n@@ -4,4 +4,6 @@\n   - c\n tls:\n   key: k\n-a/b: {}\n+a/b:\n+  k:\n+    m: v\n"),
            (["set", "web", "/hosts/1", "b", "--insert"], "",
             '--- web\n+++ web\n@@ -1,6 +1,7 @@\n port: "80"\n hosts:\n   - a\n+  - b\n   - c\n tls:\n   key: k\n'),
            (["batch"], "[{delete: text, path: ''}, {import: new, tree: z}]",
             "--- text\n+++ /dev/null\n@@ -1 +0,0 @@\n-x\n--- /dev/null\n+++ new\n@@ -0,0 +1 @@\n+z\n"),
            (["import", "new", "--from", "env"], "A=1\n", '--- /dev/null\n+++ new\n@@ -0,0 +1 @@\n+A: "1"\n'),
            (["set", "text", "", "z", "--whole", "--if-value", "x"], "", "--- text\n+++ text\n@@ -1 +1 @@\n-x\n+z\n"),
        )  # fmt: skip
        for words, given, wanted in rows:
            with self.subTest(words):
                self.assertEqual(self.ctl(*words, "--dry-run", given=given), (0, wanted, ""))
        self.assertEqual(self.trees(), before)

    def test_what_would_be_refused(self) -> None:
        before = self.trees()
        for words, given, fault in (
            (["set", "web", "/none/x", "y"], "", "NoSuchPlace"), (["set", "none", "/x", "y"], "", "NoConfig"),
            (["set", "none", "/x/y", "z", "--parents"], "", "NoConfig"),
            (["set", "web", "/hosts/3", "z", "--insert"], "", "NoSuchPlace"),
            (["set", "text", "", "y", "--whole", "--if-value", "z"], "", "Unmet"),
            (["set", "text", "", "y", "--whole", "--if-count", "7"], "", "Unmet"),
            (["copy", "text", "web", "--if-absent"], "", "Unmet"), (["delete", "none"], "", "NoConfig"),
            (["batch"], "[{delete: text, path: ''}, {delete: text, path: ''}]", "NoConfig"),
            (["import", "new"], "a: [\n", "Syntax"),
            (["set", "web", "/port", "1", "--check", "false"], "", "CheckFailed"),
        ):  # fmt: skip
            with self.subTest(words):
                status, said, errors = self.ctl(*words, "--dry-run", given=given)
                self.assertEqual((status, said), (1, ""), errors)
                self.assertIn(fault, errors)
        self.assertEqual(self.trees(), before)
