"""confstorectl's `diff` and `page`."""

from __future__ import annotations

import os
import pty
import subprocess
import sys

from confstore import Reader, Store
from confstore.differences import are_same
from confstore.trees import from_text

from .places import python_path
from .test_ctl_back import START, HistoryTest


class Diff(HistoryTest):
    def setUp(self) -> None:
        super().setUp()
        with Store(self.folder) as store:
            store.set("web", "/port", "81")
            store.set("web", "/a b\n", "x\ty")
            store.delete("dns")
            store["mail"] = {"host": "m"}

    def lines(self, *words: str) -> "list[str]":
        status, output, errors = self.ctl("diff", *words, "--lines")
        self.assertEqual((status, errors), (1 if output else 0, ""), words)
        return output.splitlines()

    def test_lines(self) -> None:
        for words, wanted in (
            (["web", "--from", "1"], ['- /port "80"', '+ /port "81"', '+ "/a b\\n" "x\\ty"']),
            (["web", "--from", "1", "--to", "2"], ['- /port "80"', '+ /port "81"']),
            (["web", "--from", "2", "--to", "1"], ['- /port "81"', '+ /port "80"']),
            (["--from", "3"], ["- dns {}", '+ mail {"host":"m"}']), (["--from", "5"], []), (["web", "--from", "3"], []),
            (["mail"], ['+ {"host":"m"}']), (["dns", "--from", "1"], ["- {}"]),
            (["--to", "1"], ['+ web {"port":"80","hosts":["a","b"],"tls":{"cert":"c","key":"k"}}', "+ dns {}"]),
            (["--from", "1", "--to", "2"], ['- web /port "80"', '+ web /port "81"']),
            (["web", "--to", "1", "--hide", "/tls/key", "--hide", "/hosts"],
             ['+ {"port":"80","hosts":hidden,"tls":{"cert":"c","key":hidden}}']),
            (["web", "--from", "1", "--to", "2", "--hide", "/port"], ["- /port hidden", "+ /port hidden"]),
        ):  # fmt: skip
            with self.subTest(words):
                self.assertEqual(self.lines(*words), wanted)

    def test_edits_are_a_batch(self) -> None:
        """Performed on the first state they give the second one, both ways."""
        states = [dict(Reader(self.folder).at(number).items()) for number in range(6)]
        for start in range(6):
            for end in range(6):
                status, edits, errors = self.ctl("diff", "--from", str(start), "--to", str(end))
                self.assertEqual((status, errors), (0 if start == end else 1, ""))
                other = os.path.join(self.top, f"other-{start}-{end}")
                with Store(other, make=True) as store:
                    store.update(states[start])
                if edits:
                    self.does_at(other, "batch", given=edits)
                self.assertTrue(are_same(dict(Reader(other).items()), states[end]), (start, end))
        self.assertEqual(from_text(self.ctl("diff", "web", "--from", "1", "--to", "2")[1]),
                         [{"set": "web", "path": "/port", "value": "81"}])  # fmt: skip

    def test_the_order_of_configurations_counts(self) -> None:
        """One that has to move is deleted and imported last, also where no command named it."""
        with Store(self.folder) as store:
            web = store["web"]
            store.delete("web")
            store["web"] = web
        for start, end, wanted in (
            ("5", "7", [{"delete": "web", "path": ""}, {"import": "web", "tree": web}]),
            ("7", "5", [{"delete": "mail", "path": ""}, {"import": "mail", "tree": {"host": "m"}}]),
            ("7", "6", [{"delete": "web", "path": ""}]),
        ):  # fmt: skip
            self.assertEqual(from_text(self.ctl("diff", "--from", start, "--to", end)[1]), wanted)
        self.assertEqual(self.lines("--from", "7", "--to", "5"), ['- mail {"host":"m"}', '+ mail {"host":"m"}'])
        self.assertEqual(self.lines("web", "--from", "5", "--to", "7"), [])

    def does_at(self, folder: str, *words: str, given: str) -> None:
        kept, self.folder = self.folder, folder
        try:
            self.does(*words, given=given)
        finally:
            self.folder = kept

    def test_files(self) -> None:
        for name, text in (
            ("old.yaml", "port: 80\nhost: a\n"), ("new.yaml", "# c\nport: '81'\nhost: a\n"),
            ("same.yaml", "{port: 80, host: a}"), ("Odd.txt", "port: 81"), ("bad.yaml", "a: ["),
        ):  # fmt: skip
            with open(os.path.join(self.top, name), "w", encoding="utf-8") as file:
                file.write(text)

        def files(*words: str) -> "tuple[int, str, str]":
            kept, self.folder = self.folder, words[0]
            try:
                return self.ctl("diff", *words[1:], "--files")
            finally:
                self.folder = kept

        self.assertEqual(files("old.yaml", "same.yaml"), (0, "", ""))
        self.assertEqual(files("old.yaml", "new.yaml", "--lines"), (1, '- /port "80"\n+ /port "81"\n', ""))
        self.assertEqual(files("old.yaml", "new.yaml"), (1, '- set: new\n  path: "/port"\n  value: "81"\n', ""))
        odd = '- /port "80"\n+ /port "81"\n- /host "a"\n'
        self.assertEqual(files("old.yaml", "Odd.txt", "--lines"), (1, odd, ""))
        for first in ("old.yaml", "Odd.txt", "none.yaml"):  # the name is looked at before the files
            self.assertIn("BadName", files(first, "Odd.txt")[2])
        self.assertIn("bad.yaml:1:4: Syntax Flow", files("old.yaml", "bad.yaml")[2])
        self.assertEqual(files("old.yaml", "none.yaml")[0], 3)
        self.assertEqual(files("old.yaml")[0], 2)

    def test_what_is_refused(self) -> None:
        for fault, words in (
            ("NoSuchCommand", ["--from", "6"]), ("NoSuchCommand", ["--to", "9"]), ("NoConfig", ["none"]),
            ("BadName", ["No"]), ("NoConfig", ["dns", "--from", "4"]),
        ):  # fmt: skip
            self.is_refused(fault, "diff", *words)
        for wrong in (["--hide", "/port"], ["--lines", "--hide", "port"], ["--from", "x"], ["--files", "--from", "1"]):
            self.assertEqual(self.ctl("diff", *wrong)[0], 2, wrong)
        self.does("checkpoint")
        self.assertEqual(self.ctl("diff"), (0, "", ""))
        self.is_refused("NoSuchCommand", "diff", "--from", "4")

    def test_colours_on_a_terminal(self) -> None:
        words = [sys.executable, "-m", "confstore.ctl", "diff", self.folder, "web", "--to", "2", "--from", "1"]
        rows: tuple[tuple[dict[str, str], str], ...] = (
            ({}, '\033[31m- /port "80"\033[0m'), ({"NO_COLOR": "1"}, '- /port "80"'),
        )  # fmt: skip
        for more, wanted in rows:
            ours, theirs = pty.openpty()
            environment = {**os.environ, "PYTHONPATH": python_path(), "TERM": "xterm", **more}
            subprocess.run([*words, "--lines"], stdout=theirs, env=environment, check=False, timeout=60)
            os.close(theirs)
            self.assertEqual(os.read(ours, 4096).decode().splitlines()[0], wanted)
            os.close(ours)


class Page(HistoryTest):
    def test_it_is_that_of_the_example(self) -> None:
        with Store(self.folder) as store:
            store.set("web", "/tls/key", "s3cret")
        page = self.does("page")
        self.assertIn("s3cret", page)
        self.assertTrue(page.startswith("<!doctype html>") and "default-src 'none'" in page)
        hidden = self.does("page", "--hide", "/tls/key")
        self.assertNotIn("s3cret", hidden)
        self.assertNotIn('"k"', hidden)
        self.assertEqual(self.ctl("page", "--hide", "tls")[0], 2)
        os.unlink(os.path.join(self.folder, "store.yaml"))
        self.assertEqual(self.ctl("page")[0], 1)
        self.assertEqual(len(START), 2)
