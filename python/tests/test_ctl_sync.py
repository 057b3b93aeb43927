"""confstorectl's `sync`, `import --edits` and `export --all`."""

from __future__ import annotations

import os
import stat
import threading
from unittest import mock

from confstore import Reader, Store, ctl
from confstore.ctl_exchange import Exchange
from confstore.style import Tree, to_text

from .test_ctl_back import START, WRITERS, HistoryTest


class SyncTest(HistoryTest):
    def setUp(self) -> None:
        super().setUp()
        self.files = os.path.join(self.top, "files")
        os.mkdir(self.files)

    def writes(self, name: str, text: str) -> None:
        with open(os.path.join(self.files, name), "w", encoding="utf-8") as file:
            file.write(text)

    def count(self) -> int:
        return len(Reader(self.folder).log())


class Sync(SyncTest):
    def test_files_and_configurations(self) -> None:
        self.writes("web.yaml", "port: 81 # now\nhosts: [a, b]\ntls: {cert: c, key: k}\n")
        self.writes("new.yaml", "a: b\n")
        for other in (".web.yaml", "note.txt", "x.yml"):
            self.writes(other, "a: [\n")
        os.mkdir(os.path.join(self.files, "inner.yaml"))
        shown = self.does("sync", self.files)
        self.assertIn('--- web\n+++ web\n@@ -1,4 +1,4 @@\n-port: "80"\n+port: "81"\n', shown)
        self.assertIn('--- /dev/null\n+++ new\n@@ -0,0 +1 @@\n+a: b\n', shown)
        web = START["web"]
        assert isinstance(web, dict)
        self.assertEqual(self.trees(), {"web": {**web, "port": "81"}, "dns": {}, "new": {"a": "b"}})
        self.assertEqual(self.last(), '2 batch import new; set web "/port"')
        self.assertEqual(self.ctl("sync", self.files), (0, "", "confstorectl: nothing changed\n"))
        shown = self.does("sync", self.files, "--delete", "--dry-run")
        self.assertEqual(shown, "--- dns\n+++ /dev/null\n@@ -1 +0,0 @@\n-{}\n")
        self.assertEqual(self.count(), 2)
        self.assertEqual(self.does("sync", self.files, "--delete", "--if-count", "2"), shown)
        self.assertEqual((list(self.trees()), self.last()), (["web", "new"], '3 batch delete dns ""'))
        self.does("undo", "2..3")
        self.assertEqual(self.trees(), START)

    def test_what_is_refused(self) -> None:
        empty = os.path.join(self.top, "empty")
        os.mkdir(empty)
        self.is_refused("NothingToImport", "sync", empty, "--delete")
        self.assertEqual(self.ctl("sync", os.path.join(self.top, "none"))[0], 3)
        self.writes("web.yaml", "port: 81\n")
        self.is_refused("Unmet", "sync", self.files, "--if-count", "5")
        self.assertEqual(self.ctl("sync", self.files, "--if-count", "5", "--dry-run")[:2], (1, ""))
        self.is_refused("CheckFailed", "sync", self.files, "--check", "! grep -q 81")
        self.writes("b.yaml", "a: [\n")
        status, output, errors = self.ctl("sync", self.files)
        self.assertEqual((status, output), (1, ""))
        self.assertIn("b.yaml:1:4: Syntax Flow", errors)
        os.rename(os.path.join(self.files, "b.yaml"), os.path.join(self.files, "No.yaml"))
        self.assertIn("No.yaml: a name has", self.is_refused("BadName", "sync", self.files))
        self.assertEqual((self.trees(), self.count()), (START, 1))

    def between(self, *changes: "tuple[str, str]") -> int:
        """The status of a `sync` beside whose reading others make a change each time."""
        read, others = Exchange.names, iter(changes)

        def names(exchange: Exchange) -> "list[str]":
            found = read(exchange)
            for name, path in others:
                with Store(self.folder) as store:
                    store.set(name, path, "99")
                break
            return found

        with mock.patch.object(Exchange, "names", names):
            return ctl.perform_words(["sync", self.folder, self.files, "--delete"])

    def test_a_change_that_comes_between(self) -> None:
        """One that takes no other edits is gone along with; any other one stops it."""
        self.writes("web.yaml", "port: 81\nhosts: [a, b]\ntls: {cert: c, key: k}\n")
        self.assertEqual(self.between(("dns", "/a"), ("dns", "/b")), 0)
        self.assertEqual((list(self.trees()), self.count()), (["web"], 4))
        self.writes("web.yaml", "port: 82\nhosts: [a, b]\ntls: {cert: c, key: k}\n")
        self.assertEqual(self.between(("web", "/more")), 0)  # it was read after that change
        with Store(self.folder) as store:
            store["web"] = START["web"]
        count = self.count()
        original = Exchange.tree

        def tree(exchange: Exchange, name: str) -> "Tree | None":
            found = original(exchange, name)
            if self.count() == count:
                with Store(self.folder) as store:
                    store.set("web", "/more", "99")
            return found

        with mock.patch.object(Exchange, "tree", tree):
            self.assertEqual(ctl.perform_words(["sync", self.folder, self.files]), 1)
        self.assertEqual(self.count(), count + 1)
        self.assertEqual(Reader(self.folder).get("web", "/more"), "99")

    def test_four_at_once(self) -> None:
        """One makes the change, and the others find it made."""
        self.writes("web.yaml", "port: 81\n")
        statuses: "list[int]" = []
        words = ["sync", self.files, "--wait", "60"]
        threads = [threading.Thread(target=lambda: statuses.append(self.ctl(*words)[0])) for _ in range(WRITERS)]
        for thread in threads:
            thread.start()
        for thread in threads:
            thread.join()
        self.assertIn(0, statuses)
        self.assertLessEqual(set(statuses), {0, 1})
        self.assertEqual((self.count(), self.trees()["web"]), (2, {"port": "81"}))


class ImportEdits(SyncTest):
    def test_the_record_has_the_edits(self) -> None:
        text = "port: 81\nhosts: [a]\ntls: {cert: c, key: k}\nlong: " + "x" * 200 + "\n"
        self.does("import", "web", given=text)
        there = self.web()
        self.does("undo", "2")
        self.does("import", "web", "--edits", given=text)
        self.assertEqual(repr(self.web()), repr(there))
        self.assertEqual(self.last(), '4 batch set web "/port"; delete web "/hosts/1"; set web "/long"')
        self.assertEqual(self.ctl("import", "web", "--edits", given=text), (0, "", "confstorectl: nothing changed\n"))
        self.does("import", "web", "--edits", given="[x]\n")  # nothing stays
        self.does("import", "new", "-", "--edits", given="a: b\n")
        self.assertEqual([record.line for record in Reader(self.folder).log()[-2:]], ["5 import web", "6 import new"])
        many = [str(number) for number in range(200)]
        self.does("import", "web", given=f"{{l: [{', '.join(many)}], a: b}}")
        self.does("import", "web", "--edits", given=f"{{l: [x{', x'.join(many)}], a: b}}")  # the whole text is shorter
        self.assertEqual(self.last(), "8 import web")

    def test_what_is_refused(self) -> None:
        unmet = self.ctl("import", "web", "-", "--edits", "--if-count", "7", given="a: b")
        self.assertEqual((unmet[0], unmet[1], "Unmet" in unmet[2]), (1, "", True))
        self.assertIn("-:1:1: Documents", self.ctl("import", "web", "--edits", given="")[2])
        self.assertEqual(self.ctl("import", "web", "--edits", "--from", "toml", given="a = 1")[0], 2)
        self.assertIn("+port: x", self.ctl("import", "web", "--edits", "--dry-run", given="port: x")[1])
        self.assertEqual((self.trees(), self.count()), (START, 1))

    def test_a_change_that_comes_between(self) -> None:
        """The text is what is there after it, as of any import."""
        read, others = Exchange.tree, iter(["/other"])

        def tree(exchange: Exchange, name: str) -> "Tree | None":
            found = read(exchange, name)
            for path in others:
                with Store(self.folder) as store:
                    store.set("web", path, "99")
            return found

        self.writes("w", "port: 81\nhosts: [a, b]\ntls: {cert: c, key: k}\n")
        words = ["import", self.folder, "web", os.path.join(self.files, "w"), "--edits"]
        with mock.patch.object(Exchange, "tree", tree):
            self.assertEqual(ctl.perform_words(words), 0)
        web = START["web"]
        assert isinstance(web, dict)
        wanted: Tree = {**web, "port": "81"}
        self.assertEqual((self.web(), self.count()), (wanted, 3))


    def test_four_at_once(self) -> None:
        """Each text was there whole, one after the other: the edits of one are not mixed with those of another."""
        texts: "list[Tree]" = [{"port": str(n), **{f"k{n}": "x"}, "l": [str(n)] * n} for n in range(WRITERS)]
        statuses: "list[int]" = []

        def does(text: str) -> None:
            statuses.append(self.ctl("import", "web", "-", "--edits", "--wait", "60", given=text)[0])

        threads = [threading.Thread(target=does, args=(to_text(tree),)) for tree in texts]
        for thread in threads:
            thread.start()
        for thread in threads:
            thread.join()
        self.assertEqual(statuses, [0] * WRITERS)
        states = [Reader(self.folder).at(number).get("web") for number in range(2, self.count() + 1)]
        self.assertEqual(sorted(map(to_text, states)), sorted(map(to_text, texts)))


class ExportAll(SyncTest):
    def test_files_are_replaced_whole(self) -> None:
        self.writes("web.yaml", "old\n")
        self.writes("other.yaml", "stays\n")
        os.chmod(os.path.join(self.files, "web.yaml"), 0o640)
        self.does("export", "--all", self.files)
        web = os.stat(os.path.join(self.files, "web.yaml"))
        self.assertEqual(stat.S_IMODE(web.st_mode), 0o640)
        self.assertEqual(sorted(os.listdir(self.files)), ["dns.yaml", "other.yaml", "web.yaml"])
        self.does("export", "--all", self.files)
        self.assertEqual(os.stat(os.path.join(self.files, "web.yaml")).st_mtime_ns, web.st_mtime_ns)
        os.unlink(os.path.join(self.files, "other.yaml"))
        self.assertEqual(self.ctl("sync", self.files, "--delete"), (0, "", "confstorectl: nothing changed\n"))

    def test_forms(self) -> None:
        made = os.path.join(self.top, "a", "b")
        self.does("export", "--all", made, "--json")
        self.does("export", "--all", made, "--plain")
        with open(os.path.join(made, "web.json"), encoding="utf-8") as file:
            self.assertEqual(file.read(), self.does("get", "web", "--json"))
        with open(os.path.join(made, "web.yaml"), encoding="utf-8") as file:
            self.assertEqual(file.read(), self.does("export", "web", "--plain"))

    def test_what_is_refused(self) -> None:
        wrong_words: tuple[list[str], ...] = (["web", "--all", self.files], [], ["--all", ""])
        for wrong in wrong_words:
            self.assertEqual(self.ctl("export", *wrong)[0], 2, wrong)
        self.writes("file", "x")
        self.assertEqual(self.ctl("export", "--all", os.path.join(self.files, "file"))[0], 3)

    def test_no_store_is_replaced(self) -> None:
        """A configuration may be called `store`, and its file is no store."""
        self.does("copy", "web", "store")
        self.is_refused("StoreExists", "export", "--all", self.folder)
        self.does("export", "--all", self.files)
        self.does("export", "--all", self.files)
        self.assertEqual(self.does("names").split(), ["web", "dns", "store"])
