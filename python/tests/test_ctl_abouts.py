"""confstorectl notes who makes a change, when and why, and shows it."""

from __future__ import annotations

import json
import os
import re
import subprocess
import sys

from confstore import Reader, Store

from .places import python_path
from .test_abouts import TIME, USER, WithAbouts

PATIENCE = 60

# The words that change a configuration, each with what it is given on standard input.
CHANGES = [
    (("import", "FOLDER", "new"), "a: b\n"), (("import", "FOLDER", "new", "--edits"), "a: c\n"),
    (("import", "FOLDER", "new", "--from", "json5"), "{a: 'd'}"), (("set", "FOLDER", "web", "/port", "81"), ""),
    (("set", "FOLDER", "web", "/tls/key", "k", "--parents"), ""), (("delete", "FOLDER", "web", "/tls"), ""),
    (("set", "FOLDER", "web", "/port", "82", "--check", "true"), ""), (("copy", "FOLDER", "web", "old"), ""),
    (("rename", "FOLDER", "old", "older"), ""), (("move", "FOLDER", "web", "/port", "/at"), ""),
    (("batch", "FOLDER"), "[{set: web, path: /at, value: 83}]"), (("edit", "FOLDER", "web"), ""),
    (("undo", "FOLDER", "LAST"), ""), (("rollback", "FOLDER", "web", "--to", "FIRST"), ""),
    (("sync", "FOLDER", "DIR"), ""),
]  # fmt: skip


class CtlTest(WithAbouts):
    def setUp(self) -> None:
        super().setUp()
        with Store(self.folder) as store:
            store["web"] = {"port": "80"}

    def ctl(self, *words: str, given: str = "", **more: str) -> "tuple[int, str, str]":
        """The status of a word, and what it writes."""
        environment = {**os.environ, "PYTHONPATH": python_path(), "EDITOR": "sed -i s/83/84/", **more}
        environment.pop("CONFSTORE_SOCKET", None)
        done = subprocess.run(
            [sys.executable, "-m", "confstore.ctl", *words], input=given.encode(), capture_output=True, check=False,
            env=environment, timeout=PATIENCE, cwd=self.top,
        )  # fmt: skip
        return done.returncode, done.stdout.decode(), done.stderr.decode()

    def does(self, *words: str, given: str = "", **more: str) -> str:
        status, output, errors = self.ctl(*words, given=given, **more)
        self.assertEqual((status, errors), (0, ""), words)
        return output

    def numbers(self) -> "tuple[int, int]":
        records = Reader(self.folder).log()
        return records[0].number, records[-1].number


class Changes(CtlTest):
    def test_each_word_that_changes_a_configuration(self) -> None:
        os.mkdir(os.path.join(self.top, "conf.d"))
        with open(os.path.join(self.top, "conf.d", "web.yaml"), "w", encoding="ascii") as target:
            target.write("port: 90\n")
        for words, given in CHANGES:
            first, last = self.numbers()
            known = {"FOLDER": self.folder, "DIR": "conf.d", "LAST": str(last), "FIRST": str(first)}
            self.does(*(known.get(word, word) for word in words), "--about", "why=a trial", "--about=ticket=7", given=given)
            record = Reader(self.folder).log()[-1]
            self.assertEqual(record.number, last + 1, words)
            self.assertRegex(record.about["when"], TIME)
            self.assertEqual({**record.about, "when": ""}, {"by": USER, "when": "", "why": "a trial", "ticket": "7"}, words)

    def test_nothing_is_noted_unless_somebody_asks(self) -> None:
        self.does("set", self.folder, "web", "/port", "81")
        self.does("set", self.folder, "web", "/port", "82", "--no-by", "--no-when")
        with open(os.path.join(self.folder, "store.yaml"), "rb") as source:
            self.assertTrue(source.read().startswith(b"---\nstore: confstore-2\n"))
        self.assertEqual(self.abouts(), [{}, {}, {}])

    def test_a_store_that_keeps_them(self) -> None:
        self.does("set", self.folder, "web", "/port", "81", CONFSTORE_ABOUT="why=nightly\nticket=7")
        self.does("set", self.folder, "web", "/port", "82")
        self.does("set", self.folder, "web", "/port", "83", "--no-by")
        self.does("set", self.folder, "web", "/port", "84", "--no-by", "--no-when")
        self.does("undo", self.folder, "5")
        self.does("undo", self.folder, "6", "--about", "why=mine")
        self.assertEqual([list(record.about) for record in Reader(self.folder).log()], [
            ["by", "when", "why", "ticket"], ["by", "when"], ["when"], [], ["by", "when", "why"], ["by", "when", "why"],
        ])  # fmt: skip
        self.assertEqual([about.get("why") for about in self.abouts()], ["nightly", None, None, None, "undo of 5", "mine"])

    def test_what_is_refused_changes_nothing(self) -> None:
        set_port = ("set", self.folder, "web", "/port", "81")
        rows = [
            (("--about", "why"), 2, "WrongWords"), (("--about", "=x"), 2, "WrongWords"),
            (("--about", "a=1", "--about", "a=2"), 2, "WrongWords"), (("--about", "by=x", "--no-by"), 2, "WrongWords"),
            (("--about", f"{'k' * 65}=x"), 1, "AboutLarge"), (("--about", f"k={'x' * 5_000}"), 1, "AboutLarge"),
            (tuple(f"--about={number}=" for number in range(15)), 1, "AboutLarge"),
            (("--about", "why=x", "--if-value", "1"), 1, "Unmet"),
        ]  # fmt: skip
        for more, status, fault in rows:
            found = self.ctl(*set_port, *more)
            self.assertEqual((found[0], found[2].split(":")[1].strip()), (status, fault), found)
        self.assertEqual(self.ctl(*set_port, CONFSTORE_ABOUT="none")[0], 1)
        status, _, errors = self.ctl("import", self.folder, "web", "--about", "why=x", given="a: [\n")
        self.assertEqual((status, errors), (1, "-:1:4: Syntax Flow\n"))
        self.assertEqual(self.ctl("set", self.folder, "none", "/port", "81", "--about", "why=x")[0], 1)
        self.assertEqual(self.ctl("get", self.folder, "web", "--about", "why=x")[0], 2)
        self.assertEqual(self.abouts(), [{}])

    def test_a_history_over_the_first_about(self) -> None:
        """It begins another file, so archives have what was before. One that has the older format is of the store."""
        archive = os.path.join(self.top, "archive")
        self.does("set", self.folder, "web", "/port", "81")
        self.does("checkpoint", self.folder, "--archive", archive)
        self.does("set", self.folder, "web", "/port", "82", "--about", "why=x")
        found = self.does("log", self.folder, "--archive", archive)
        self.assertEqual(re.sub('".*Z"', "..", found).splitlines(), [
            "1 import web", '2 set web "/port"', '3 by .. why "x" set web "/port"'])  # fmt: skip
        self.does("rollback", self.folder, "web", "--to", "1", "--archive", archive)
        self.assertEqual(self.does("get", self.folder, "web", "/port", "--raw"), "80\n")


class Shown(CtlTest):
    def setUp(self) -> None:
        super().setUp()
        with Store(self.folder) as store:
            with store.about(by="ann", when="2026-12-01T10:00:00Z", why="open the port", ticket="OPS 7"):
                store.set("web", "/port", "81")
            with store.about(by=None, when=None):
                store.set("web", "/key", "s3cret")
            with store.about(by="ben", when=None), store.batch() as batch:
                batch.put("dns", {"a": "b"})
                batch.delete("web", "/key")

    def test_lines(self) -> None:
        self.assertEqual(self.does("log", self.folder).splitlines(), [
            '2 by "ann" when "2026-12-01T10:00:00Z" why "open the port" set web "/port"', '3 set web "/key"',
            '4 by "ben" batch import dns; delete web "/key"'])  # fmt: skip
        self.assertEqual(self.does("log", self.folder, "--about", "ticket", "--about", "by").splitlines(), [
            '2 ticket "OPS 7" by "ann" set web "/port"', '3 set web "/key"',
            '4 by "ben" batch import dns; delete web "/key"'])  # fmt: skip
        self.assertEqual(self.does("log", self.folder, "web", "--about", "none", "--values", "--hide", "/key", "--to", "3"),
                         '2 set web "/port" "81"\n3 set web "/key" hidden\n')  # fmt: skip
        self.assertEqual(self.does("log", self.folder, "dns", "--about", "by", "--from", "3").split(" ", 1)[0], "4")

    def test_json(self) -> None:
        lines = self.does("log", self.folder, "--json", "--hide", "/key").splitlines()
        about = {"by": "ann", "when": "2026-12-01T10:00:00Z", "why": "open the port"}
        self.assertEqual([*map(json.loads, lines)], [
            {"at": "2", **about, "about": {**about, "ticket": "OPS 7"},
             "edits": [{"set": "web", "path": "/port", "value": "81"}]},
            {"at": "3", "edits": [{"set": "web", "path": "/key", "value": "(hidden)"}]},
            {"at": "4", "by": "ben", "about": {"by": "ben"},
             "edits": [{"import": "dns", "tree": {"a": "b"}}, {"delete": "web", "path": "/key"}]},
        ])  # fmt: skip
        self.assertEqual(list(json.loads(lines[0])), ["at", "by", "when", "why", "about", "edits"])

    def test_words_that_do_not_go_together(self) -> None:
        for words in (("--about", "by", "--yaml"), ("--about", "by", "--json"), ("--json", "--values"), ("--json", "--yaml"),
                      ("--about", ""), ("--about", "by", "--hide", "/key"), ("--about",)):  # fmt: skip
            self.assertEqual(self.ctl("log", self.folder, *words)[0], 2, words)
        self.assertEqual(self.ctl("log", self.folder, "--json", "--hide", "key")[0], 1)

    def test_the_page(self) -> None:
        page = self.does("page", self.folder)
        found = re.search('<script id="data" type="application/json">(.*?)</script>', page, re.DOTALL)
        assert found is not None
        self.assertEqual([record.get("about") for record in json.loads(found[1])["records"]], [
            [["by", "ann"], ["when", "2026-12-01T10:00:00Z"], ["why", "open the port"], ["ticket", "OPS 7"]], None,
            [["by", "ben"]]])  # fmt: skip

    def test_a_watch(self) -> None:
        words = [sys.executable, "-m", "confstore.ctl", "watch", self.folder, "--from", "2", "--values"]
        environment = {**os.environ, "PYTHONPATH": python_path()}
        with subprocess.Popen(words, stdout=subprocess.PIPE, env=environment) as watch:
            assert watch.stdout is not None
            line = watch.stdout.readline()
            watch.kill()
        self.assertEqual(
            line, b'2 by "ann" when "2026-12-01T10:00:00Z" why "open the port" set web "/port" "81"\n')  # fmt: skip
