"""confstorectl's `import --from`: texts of other formats, through the program and through a server."""

from __future__ import annotations

import os
import subprocess
import sys
import unittest

from confstore import Store
from confstore.style import Tree

from . import TOP
from .places import StoreTest, python_path

PATIENCE = 60

# Texts as people have them, and a piece of what comes of each.
TYPICAL: tuple[tuple[str, str, str, Tree], ...] = (
    ("compose", "x-a: &a {restart: always}\nservices:\n  web:\n    <<: *a\n    ports: ['80:80']\n", "/services/web",
     {"restart": "always", "ports": ["80:80"]}),
    ("gitlab", ".base: &base\n  script: [make]\ntest:\n  <<: *base\n  rules:\n    - !reference [.base, script]\n",
     "/test", {"script": ["make"], "rules": [[".base", "script"]]}),
    ("rails", "default: &default\n  pool: 5\nproduction:\n  <<: *default\n  database: app\n", "/production",
     {"pool": "5", "database": "app"}),
    ("cloudformation", "R:\n  T: AWS::EC2::Instance\n  P: !GetAtt a.b\n  Q: !Sub '${x}-y'\n", "/R",
     {"T": "AWS::EC2::Instance", "P": "a.b", "Q": "${x}-y"}),
    ("home-assistant", "automation: !include automations.yaml\nhttp:\n  key: !secret key\n", "/automation",
     "automations.yaml"),
    ("vault", "password: !vault |\n  $ANSIBLE_VAULT;1.1;AES256\n  6162\n", "/password",
     "$ANSIBLE_VAULT;1.1;AES256\n6162\n"),
    ("mkdocs", "markdown_extensions:\n  - emoji:\n      index: !!python/name:material.twemoji\n",
     "/markdown_extensions/0/emoji/index", ""),
)  # fmt: skip


class Import(StoreTest):
    def setUp(self) -> None:
        super().setUp()
        with Store(self.folder):
            pass

    def ctl(self, *words: str, given: str = "") -> tuple[int, str, list[str]]:
        """The status, the output and the lines on standard error of a run in the top folder."""
        environment = {**os.environ, "PYTHONPATH": python_path()}
        environment.pop("CONFSTORE_SOCKET", None)
        done = subprocess.run(
            [sys.executable, "-m", "confstore.ctl", *words], input=given.encode(), capture_output=True, check=False,
            cwd=self.top, env=environment, timeout=PATIENCE,
        )  # fmt: skip
        return done.returncode, done.stdout.decode(), done.stderr.decode().splitlines()

    def tree(self, name: str, pointer: str = "") -> Tree:
        with Store(self.folder) as store:
            return store.get(name, pointer)

    def write(self, name: str, text: str) -> str:
        path = os.path.join(self.top, name)
        os.makedirs(os.path.dirname(path), exist_ok=True)
        with open(path, "w", encoding="utf-8") as target:
            target.write(text)
        return path

    def test_typical_texts(self) -> None:
        for name, text, pointer, wanted in TYPICAL:
            with self.subTest(name):
                status, output, errors = self.ctl("import", "--from", "yaml", "store", name, given=text)
                self.assertEqual((status, output), (0, ""))
                self.assertRegex("\n".join(errors), r"\A-:\d+:\d+: (expanded|dropped) ")
                self.assertEqual(self.tree(name, pointer), wanted)

    def test_templates_are_refused(self) -> None:
        for text in ("a: {{ .Values.a }}\nb: c\n", "{{- if .Values.a }}\na: b\n{{- end }}\n"):
            status, _, errors = self.ctl("import", "--from", "yaml", "store", "web", given=text)
            self.assertEqual((status, len(errors)), (1, 1))
            self.assertRegex(errors[0], r"\A-:1:\d+: (Syntax|KeyNotText) \(")
        with Store(self.folder) as store:
            self.assertEqual(store.names(), [])

    def test_documents(self) -> None:
        text = "---\nkind: A\n---\n---\nkind: B\n"
        status, _, errors = self.ctl("import", "--from", "yaml", "store", "web", given=text)
        self.assertEqual(status, 1)
        self.assertRegex(errors[0], r"\A-: Documents \(2: take one by --document N, or all by --split")
        self.assertEqual(self.ctl("import", "--from", "yaml", "--document", "3", "store", "b", given=text)[0], 0)
        self.assertEqual(self.tree("b"), {"kind": "B"})
        self.assertEqual(self.ctl("import", "--from", "yaml", "--document", "4", "store", "b", given=text)[0], 1)
        self.assertEqual(self.ctl("import", "--from", "yaml", "--split", "store", "web-{n}", given=text)[0], 0)
        self.assertEqual((self.tree("web-1"), self.tree("web-3")), ({"kind": "A"}, {"kind": "B"}))
        with Store(self.folder) as store:
            self.assertEqual(store.names(), ["b", "web-1", "web-3"])

    def test_one_value_alone(self) -> None:
        for words in ([], ["--from", "yaml"], ["--edits"], ["--dry-run"]):
            with self.subTest(words):
                status, output, errors = self.ctl("import", *words, "store", "one", given="80 # a: b\n")
                self.assertEqual((status, output), (1, ""))
                self.assertRegex(errors[0], r"\A-: OneValue \(neither a mapping nor a list")
                self.assertEqual(self.ctl("import", *words, "--any-root", "store", "one", given="80\n")[0], 0)
        self.assertEqual(self.tree("one"), "80")

    def test_each_format(self) -> None:
        rows: tuple[tuple[str, str, Tree], ...] = (
            ("toml", "[a]\nb = 0.10\n", {"a": {"b": "0.10"}}), ("ini", "[a]\nb = 010\n", {"a": {"b": "010"}}),
            ("env", "export A='x y'\n", {"A": "x y"}), ("properties", "a.b: c\n", {"a.b": "c"}),
            ("json5", "{a: 0x1F, /* c */}", {"a": "0x1F"}), ("yaml", "a: 0o17\n", {"a": "0o17"}),
        )  # fmt: skip
        for of_format, text, wanted in rows:
            with self.subTest(of_format):
                path = self.write(f"x.{of_format}", text)
                self.assertEqual(self.ctl("import", "--from", of_format, "store", "web", path), (0, "", []))
                self.assertEqual(self.tree("web"), wanted)

    def test_a_folder_is_imported_whole_or_not_at_all(self) -> None:
        self.write("d/a.ini", "[x]\ny=1\n")
        self.write("d/B c.conf", "[x]\ny=2\n")
        self.write("d/README.md", "text")
        words = ("import", "--from", "ini", "--dir", "d", "store", "app-{file}")
        self.assertEqual(self.ctl(*words), (0, "", ["d: left out 1 file of another ending"]))
        self.assertEqual((self.tree("app-a", "/x/y"), self.tree("app-b-c", "/x/y")), ("1", "2"))
        self.write("d/a.ini", "[x]\ny=3\n")
        self.write("d/z.ini", "[x]\ny=1\ny=2\n")
        status, _, errors = self.ctl(*words)
        self.assertEqual((status, errors[-1]), (1, 'd/z.ini:3:1: KeyTwice ("y" is there already)'))
        self.assertEqual(self.tree("app-a", "/x/y"), "1")
        os.unlink(os.path.join(self.top, "d", "z.ini"))
        self.write("d/a.cfg", "[x]\ny=4\n")
        self.assertRegex(self.ctl(*words)[2][-1], r"\Aconfstorectl: BadName: d/a.cfg and d/a.ini both give app-a")
        self.assertEqual(self.ctl("import", "--from", "toml", "--dir", "d", "store", "{file}")[0], 1)

    def test_conditions(self) -> None:
        words = ("import", "--from", "env", "store", "web")
        self.assertEqual(self.ctl(*words, "--if-absent", given="A=1")[0], 0)
        status, _, errors = self.ctl(*words, "--if-absent", given="A=2")
        self.assertEqual((status, errors[0].partition(": ")[2][:5]), (1, "Unmet"))
        self.assertEqual(self.ctl(*words, "--if-count", "2", given="A=2")[0], 1)
        self.assertEqual(self.ctl(*words, "--if-count", "1", given="A=2")[0], 0)
        text = "a: 1\n---\nb: 2\n"
        split = ("import", "--from", "yaml", "--split", "store", "w-{n}", "--if-absent")
        self.assertEqual(self.ctl(*split, given=text)[0], 0)
        self.ctl("delete", "store", "w-1")
        self.assertEqual(self.ctl(*split, given=text)[0], 1)
        with Store(self.folder) as store:
            self.assertEqual(store.names(), ["web", "w-2"])

    def test_a_folder_without_a_store(self) -> None:
        os.mkdir(os.path.join(self.top, "other"))
        words = ("import", "--from", "env", "other", "web")
        status, _, errors = self.ctl(*words, given="A=1")
        self.assertEqual((status, errors[0].split(": ")[1]), (1, "NotAStore"))
        self.assertEqual(os.listdir(os.path.join(self.top, "other")), [])
        self.assertEqual(self.ctl(*words, "--init", given="A=1")[0], 0)
        self.assertEqual(self.ctl("get", "other", "web", "/A", "--raw")[1], "1\n")

    def test_locked_and_waiting(self) -> None:
        with Store(self.folder):
            status, _, errors = self.ctl("import", "--from", "env", "store", "web", given="A=1")
            self.assertEqual((status, errors[0].split(": ")[1]), (3, "Locked"))

    def test_through_a_server(self) -> None:
        at = os.path.join(self.top, "s.sock")
        serve = [sys.executable, os.path.join(TOP, "clients", "serve.py"), at, self.folder]
        with subprocess.Popen(serve, stdout=subprocess.PIPE, stderr=subprocess.STDOUT) as server:
            try:
                words = ("--socket", at, "--wait", "30", "import", "--from", "yaml", "--split", "store", "w-{n}")
                self.assertEqual(self.ctl(*words, given="a: &x 1\nb: *x\n---\nc: 2\n")[0], 0)
                self.assertEqual(self.ctl("--socket", at, "names", "store")[1], "w-1\nw-2\n")
            finally:
                server.terminate()
                server.communicate(timeout=PATIENCE)

    def test_wrong_words(self) -> None:
        for line in (
            "import --from xml store web", "import --document 1 store web", "import --split store web-{n}",
            "import --from toml --document 1 store web", "import --from yaml --split store web",
            "import --from yaml store web-{n}", "import --from yaml --dir d store web", "import --from yaml --dir d "
            "store {file} x", "import --from yaml store {file}", "import --from yaml --document x store web",
            "import --from yaml --split store web-{n} --if-value x",
        ):
            with self.subTest(line):
                status, _, errors = self.ctl(*line.split())
                self.assertEqual((status, len(errors)), (2, 1))
                self.assertRegex(errors[0], r"\Aconfstorectl: WrongWords: .*confstorectl import")

    def test_what_the_program_refuses(self) -> None:
        deep = "[" * 140 + "]" * 140
        status, _, errors = self.ctl("import", "--from", "yaml", "store", "web", given=deep)
        self.assertEqual(status, 1)
        self.assertIn("TooDeep", errors[0])
        status, _, errors = self.ctl("import", "--from", "env", "store", "Web", given="A=1")
        self.assertEqual((status, errors[0].split(": ")[1]), (1, "BadName"))
        status, _, errors = self.ctl("import", "--from", "env", "store", "web", "missing")
        self.assertEqual((status, errors[0]), (3, "missing: Input"))


if __name__ == "__main__":
    unittest.main()
