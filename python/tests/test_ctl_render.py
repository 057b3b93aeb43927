"""confstorectl's `render`: its templates, and the file that it writes."""

from __future__ import annotations

import os
import stat
import subprocess
import sys
import unittest

from confstore import Store
from confstore.foreign import Unread
from confstore.style import Tree
from confstore.templates import Template

from . import TOP
from .places import StoreTest, python_path

PATIENCE = 60

TREES: dict[str, Tree] = {
    "web": {
        "port": "80", "hosts": [{"name": "a", "tags": ["x", "y"]}, {"name": "b", "tags": []}],
        "env": {"A": "it's", "a/b~c": "\n"}, "none": [], "two words": "z",
    },
    "host": "shadowed",
}  # fmt: skip


class Templates(unittest.TestCase):
    def rendered(self, text: str) -> str:
        return Template(text).rendered(TREES.get)

    def test_values(self) -> None:
        for text, wanted in (
            ("", ""), ("a { b } %} }}\n", "a { b } %} }}\n"), ("{{ web/port }}", "80"), ("{{web/port}};", "80;"),
            ("{{ web/hosts/1/name }}", "b"), ("{{ host }}", "shadowed"), ("{{ web/env/a~1b~0c }}", "\n"),
            ("{{ web/two words }}", "z"), ("{{ web/env/A | sh }}", "'it'\"'\"'s'"), ("{{ web/env/A|json }}", '"it\'s"'),
            ("{{ web/hosts/0 | json }}", '{"name":"a","tags":["x","y"]}'), ('{{ "{{" }} {{"{%"}}', "{{ {%"),
        ):
            with self.subTest(text):
                self.assertEqual(self.rendered(text), wanted)

    def test_loops(self) -> None:
        for text, wanted in (
            ("{% for host in web/hosts %}{{ host/name }},{% end %}", "a,b,"),
            ("x\n  {% for host in web/hosts %}  \n- {{ host/name }}\n{% end %}\ny\n", "x\n- a\n- b\ny\n"),
            ("{% for i, host in web/hosts %}{{ i }}={{ host/name }} {% end %}", "0=a 1=b "),
            ("{% for key, one in web/env %}{{ key }}={{ one | json }};{% end %}", 'A="it\'s";a/b~c="\\n";'),
            ("{% for h in web/hosts %}{% for t in h/tags %}{{ h/name }}{{ t }}{{ web/port }} {% end %}{% end %}",
             "ax80 ay80 "),
            ("{% for one in web/none %}{{ nothing/x }}{% end %}", ""),
            ("{% for host in web/hosts %}{% end %}{{ host }}", "shadowed"),
            ("{%for one in web/env%}\nx\n{%end%}", "x\nx\n"),
        ):  # fmt: skip
            with self.subTest(text):
                self.assertEqual(self.rendered(text), wanted)

    def test_refused(self) -> None:
        for text, wanted in (
            ("a\n {{ web/nothing }}", ("NoSuchPlace", 2, 5)), ("{{ nobody/x }}", ("NoConfig", 1, 4)),
            ("{{ web/hosts }}", ("NotText", 1, 4)), ("{{ web/hosts | sh }}", ("NotText", 1, 4)),
            ("{{ web/hosts/01/name }}", ("NoSuchPlace", 1, 4)), ("{{ web/hosts/- }}", ("NoSuchPlace", 1, 4)),
            ("{{ web/port/x }}", ("NoSuchPlace", 1, 4)), ("{{ Web }}", ("Syntax", 1, 4)), ("{{ }}", ("Syntax", 1, 3)),
            ("{{ web/port | upper }}", ("Syntax", 1, 3)), ("{{ web/port", ("Syntax", 1, 1)),
            ("x {{ a\n}}", ("Syntax", 1, 3)),
            ("{% for x in web/port %}{% end %}", ("NotCollection", 1, 13)), ("{% end %}", ("Syntax", 1, 3)),
            ("{% for x in web/hosts %}\n", ("Syntax", 1, 13)), ("{% if x %}{% end %}", ("Syntax", 1, 3)),
            ("{% for x web/hosts %}{% end %}", ("Syntax", 1, 3)), ("{% end", ("Syntax", 1, 1)),
            ("{% for x in web/hosts %}{{ x/none }}{% end %}", ("NoSuchPlace", 1, 28)),
            ("{% for x in web/hosts %}{% end %}{{ x }}", ("NoConfig", 1, 37)), ("{{ web/a~2 }}", ("Syntax", 1, 4)),
        ):  # fmt: skip
            with self.subTest(text):
                with self.assertRaises(Unread) as caught:
                    self.rendered(text)
                fault = caught.exception
                self.assertEqual((fault.name, fault.line, fault.column), wanted, fault.detail)


class Render(StoreTest):
    def setUp(self) -> None:
        super().setUp()
        self.template, self.file = os.path.join(self.top, "t"), os.path.join(self.top, "out.conf")
        self.write(self.template, "port {{ web/port }}\n")
        with Store(self.folder) as store:
            store["web"] = {"port": "80"}

    def write(self, path: str, text: str) -> None:
        with open(path, "w", encoding="utf-8") as target:
            target.write(text)

    def read(self, path: str) -> str:
        with open(path, encoding="utf-8") as source:
            return source.read()

    def render(self, *words: str) -> tuple[int, str, list[str]]:
        environment = {**os.environ, "PYTHONPATH": python_path()}
        environment.pop("CONFSTORE_SOCKET", None)
        line = [sys.executable, "-m", "confstore.ctl", "render", self.folder, *words]
        done = subprocess.run(line, capture_output=True, check=False, env=environment, timeout=PATIENCE, cwd=self.top)
        return done.returncode, done.stdout.decode(), done.stderr.decode().splitlines()

    def test_to_standard_output(self) -> None:
        self.assertEqual(self.render(self.template), (0, "port 80\n", []))

    def test_beside_a_session(self) -> None:
        with Store(self.folder) as store:
            store.set("web", "/port", "81")
            self.assertEqual(self.render(self.template), (0, "port 81\n", []))

    def test_a_file_is_replaced_with_its_mode(self) -> None:
        command = ("--", "sh", "-c", "echo run $CONFSTORE_FILE")
        self.assertEqual(self.render(self.template, self.file, *command), (0, f"run {self.file}\n", []))
        self.assertEqual(self.read(self.file), "port 80\n")
        os.chmod(self.file, 0o640)
        before = os.stat(self.file).st_ino
        self.assertEqual(self.render(self.template, self.file, *command), (0, "", []))
        self.assertEqual(os.stat(self.file).st_ino, before)
        with Store(self.folder) as store:
            store.set("web", "/port", "81")
        self.assertEqual(self.render(self.template, self.file, *command)[1], f"run {self.file}\n")
        self.assertEqual((self.read(self.file), stat.S_IMODE(os.stat(self.file).st_mode)), ("port 81\n", 0o640))
        self.assertNotEqual(os.stat(self.file).st_ino, before)
        self.assertEqual(sorted(os.listdir(self.top)), ["out.conf", "store", "t"])

    def test_through_a_server(self) -> None:
        """Also what an editor saves goes through it."""
        at = os.path.join(self.top, "s.sock")
        serve = [sys.executable, os.path.join(TOP, "clients", "serve.py"), at, self.folder]
        environment = {**os.environ, "PYTHONPATH": python_path(), "VISUAL": "sed -i s/80/82/"}
        edit = [sys.executable, "-m", "confstore.ctl", "--socket", at, "--wait", "30", "edit", "any", "web"]
        with subprocess.Popen(serve, stdout=subprocess.PIPE, stderr=subprocess.STDOUT) as server:
            try:
                done = subprocess.run(edit, env=environment, capture_output=True, check=False, timeout=PATIENCE)
                self.assertEqual((done.returncode, done.stderr), (0, b""))
                self.assertEqual(self.render("--socket", at, self.template), (0, "port 82\n", []))
                self.write(self.template, "{{ none/x }}")
                self.assertEqual(self.render("--socket", at, self.template)[0], 1)
            finally:
                server.terminate()
                server.communicate(timeout=PATIENCE)

    def test_through_a_link(self) -> None:
        link = os.path.join(self.top, "link")
        self.write(self.file, "old")
        os.symlink(self.file, link)
        self.assertEqual(self.render(self.template, link)[0], 0)
        self.assertEqual((os.path.islink(link), self.read(self.file)), (True, "port 80\n"))

    def test_a_refused_template_writes_nothing(self) -> None:
        self.write(self.template, "port {{ web/port }}\n{{ web/none }}\n")
        self.write(self.file, "old")
        self.assertEqual(self.render(self.template, self.file, "--", "touch", "ran"),
                         (1, "", [f"{self.template}:2:4: NoSuchPlace (nothing is at web/none)"]))  # fmt: skip
        self.assertEqual(self.read(self.file), "old")
        self.assertEqual(sorted(os.listdir(self.top)), ["out.conf", "store", "t"])

    def test_faults(self) -> None:
        status, _, errors = self.render(self.template, self.file, "--", "false")
        self.assertEqual((status, errors), (1, ["confstorectl: CommandFailed: false ended with status 1"]))
        self.write(self.file, "old")
        self.assertEqual(self.render(self.template, self.file, "--", "/nothing/here")[0], 3)
        self.assertEqual(self.render("missing")[::2], (3, ["missing: Input", "missing: No such file or directory"]))
        status, _, errors = self.render(self.template, os.path.join(self.top, "none", "x"))
        self.assertEqual((status, errors[0].split(":")[1]), (3, " Output"))
        self.assertEqual(self.render(self.template, "--", "true")[0], 2)
        self.write(self.template, "{{ other/x }}")
        status, _, errors = self.render(self.template)
        self.assertEqual((status, errors),
                         (1, [f"{self.template}:1:4: NoConfig (no configuration and no variable has the name other)"]))
        os.unlink(os.path.join(self.folder, "store.yaml"))
        status, _, errors = self.render(self.template)
        self.assertEqual((status, errors[0].split(": ")[1]), (1, "NotAStore"))


if __name__ == "__main__":
    unittest.main()
