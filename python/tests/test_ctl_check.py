"""confstorectl's `--check`: a command looks at what a change gives, before it is made."""

from __future__ import annotations

import os
import subprocess
import sys
import unittest

from confstore import Store
from confstore.style import Tree

from . import TOP
from .places import StoreTest, python_path

PATIENCE = 60

# Takes a text whose port is a number below 1,000.
CHECK = 'echo "$CONFSTORE_NAME: $(tr "\\n" " ")" >>$SEEN; tail -n 1 $SEEN | grep -Eq "port: \\"[0-9]{1,3}\\" " || ' \
    '{ echo line one; echo "no such port" >&2; exit 7; }'  # fmt: skip


class Check(StoreTest):
    def setUp(self) -> None:
        super().setUp()
        self.seen = os.path.join(self.top, "seen")
        with Store(self.folder) as store:
            store["web"] = {"port": "80"}
            store["dns"] = {"port": "53"}

    def ctl(self, line: str, *more: str, given: str = "", check: str = CHECK) -> tuple[int, list[str]]:
        """The status and the lines on standard error of a change, without what is in the lines of the check."""
        environment = {**os.environ, "PYTHONPATH": python_path(), "SEEN": self.seen, "TMPDIR": self.top}
        environment.pop("CONFSTORE_SOCKET", None)
        words = [*line.split(), *more, "--check", check]
        done = subprocess.run(
            [sys.executable, "-m", "confstore.ctl", *words], input=given.encode(), capture_output=True, check=False,
            cwd=self.top, env=environment, timeout=PATIENCE,
        )  # fmt: skip
        self.assertEqual(done.stdout, b"")
        self.assertEqual([name for name in os.listdir(self.top) if name.startswith("confstorectl-")], [])
        return done.returncode, done.stderr.decode().splitlines()

    def saw(self) -> list[str]:
        """What the command has seen since the last call."""
        try:
            with open(self.seen, encoding="utf-8") as source:
                lines = source.read().splitlines()
        except FileNotFoundError:
            return []
        os.unlink(self.seen)
        return lines

    def trees(self) -> dict[str, Tree]:
        with Store(self.folder) as store:
            return dict(store.items())

    def test_a_change_that_is_taken(self) -> None:
        rows: tuple[tuple[str, str, list[str]], ...] = (
            ("set store web /port 81", "", ['web: port: "81" ']),
            ("set store web /more x", "", ['web: port: "81" more: x ']),
            ("delete store web /more", "", ['web: port: "81" ']), ("delete store dns", "", []),
            ("import store dns", "port: 54\n", ['dns: port: "54" ']), 
            ("import store mail -", "port: 25", ['mail: port: "25" ']),
            ("import --from env store mail", "port=26", ['mail: port: "26" ']),
            ("import --from yaml --split store m-{n}", "port: 1\n---\nport: 2\n",
             ['m-1: port: "1" ', 'm-2: port: "2" ']),
            ("copy store web web-2", "", ['web: port: "81" ', 'web-2: port: "81" ']),
            ("rename store web-2 web-3", "", ['web-3: port: "81" ']),
            ("batch store", "[{set: web, path: /port, value: 82}, {delete: dns, path: ''}, {set: mail, path: /port, "
             "value: 27}]", ['web: port: "82" ', 'mail: port: "27" ']),
        )  # fmt: skip
        for line, given, seen in rows:
            with self.subTest(line):
                self.assertEqual(self.ctl(line, given=given), (0, []))
                self.assertEqual(self.saw(), seen)
        ports = {name: tree["port"] for name, tree in self.trees().items() if isinstance(tree, dict)}
        self.assertEqual(ports, {"web": "82", "mail": "27", "m-1": "1", "m-2": "2", "web-3": "81"})

    def test_a_change_that_is_refused(self) -> None:
        before = self.trees()
        for line, given, name in (
            ("set store web /port x", "", "web"), ("delete store web /port", "", "web"),
            ("import store new", "a: b", "new"),
            ("import --from env store new", "a=b", "new"), ("set --whole --yaml store dns", "", "dns"),
            ("batch store", "[{set: web, path: /port, value: 1}, {set: dns, path: /port, value: x}]", "dns"),
        ):  # fmt: skip
            with self.subTest(line):
                status, errors = self.ctl(line, *(("", "[]") if "--whole" in line else ()), given=given)
                self.assertEqual((status, errors[1:]), (1, ["line one", "no such port"]))
                self.assertTrue(errors[0].startswith("confstorectl: CheckFailed: echo "))
                self.assertTrue(errors[0].endswith(f"ended with status 7 on {name}, so nothing was changed"))
        self.assertEqual(self.trees(), before)

    def test_the_last_lines(self) -> None:
        status, errors = self.ctl("set store web /port x", check="seq 100; printf '\\033[1m'; exit 1")
        self.assertEqual((status, errors[1:]), (1, [*map(str, range(92, 101)), "\\u{1b}[1m"]))
        status, errors = self.ctl("set store web /port x", check="kill -9 $$")
        self.assertEqual((status, errors), (1, ["confstorectl: CheckFailed: kill -9 $$ ended with signal 9 on web, so"
                                                " nothing was changed"]))  # fmt: skip

    def test_what_is_refused_anyway(self) -> None:
        for line, given, wanted in (
            ("set store none /port x", "", "confstorectl: NoConfig"), 
            ("copy store none x", "", "confstorectl: NoConfig"),
            ("set store web /a/b x", "", "confstorectl: NoSuchPlace"), ("import store web", "a: *b", "-:1:4: Syntax"),
            ("import store Web", "port: 1", "confstorectl: BadName"), ("batch store", "[]", "confstorectl: EmptyBatch"),
            ("batch store", "[{x: y}]", "confstorectl: BadCommand"),
        ):
            with self.subTest(line):
                status, errors = self.ctl(line, given=given)
                self.assertEqual(status, 1)
                self.assertTrue(errors[0].startswith(wanted), errors)
        self.assertEqual(self.saw(), [])

    def test_conditions(self) -> None:
        self.assertEqual(self.ctl("set store web /port 81 --if-value 80"), (0, []))
        status, errors = self.ctl("set store web /port 82 --if-value 80")
        self.assertEqual((status, errors[0].split(":")[1]), (1, " Unmet"))
        self.assertEqual(self.ctl("copy store web dns --if-absent")[0], 1)
        self.assertEqual(self.ctl("set store web /port 82 --if-count 3"), (0, []))

    def test_what_another_changes_meanwhile(self) -> None:
        """The command has seen what is stored: it is asked again where another change came between."""
        ctl = f"{sys.executable} -m confstore.ctl"
        check = f"cat >>$SEEN; [ $(wc -l <$SEEN) -gt 1 ] || {ctl} set store web /other x"
        self.assertEqual(self.ctl("set store web /port 81", check=check), (0, []))
        self.assertEqual(self.saw(), ['port: "81"', 'port: "81"', "other: x"])
        self.assertEqual(self.trees()["web"], {"port": "81", "other": "x"})

    def test_a_folder_without_a_store(self) -> None:
        os.mkdir(os.path.join(self.top, "other"))
        self.assertEqual(self.ctl("import other web", given="port: 1")[0], 1)
        self.assertEqual(os.listdir(os.path.join(self.top, "other")), [])
        self.assertEqual(self.ctl("import --init other web", given="port: 1"), (0, []))

    def test_an_edit(self) -> None:
        editor = os.path.join(self.top, "editor")
        with open(editor, "w", encoding="utf-8") as target:
            target.write('if grep -q 80 "$1"; then sed -i s/80/x/ "$1"\n')
            target.write('else cp "$1" again; sed -i "/^port/s/x/81/" "$1"; fi\n')
        os.environ["VISUAL"] = f"sh {editor}"
        self.addCleanup(os.environ.pop, "VISUAL")
        self.assertEqual(self.ctl("edit store web"), (0, []))
        with open(os.path.join(self.top, "again"), encoding="utf-8") as source:
            lines = source.read().splitlines()
        self.assertTrue(lines[0].startswith("# confstorectl: CheckFailed: echo"))
        wanted = ["# confstorectl: line one", "# confstorectl: no such port", 'port: "x"']
        self.assertEqual(lines[1:3] + lines[4:], wanted)
        self.assertEqual(self.trees()["web"], {"port": "81"})

    def test_through_a_server(self) -> None:
        at = os.path.join(self.top, "s.sock")
        serve = [sys.executable, os.path.join(TOP, "clients", "serve.py"), at, self.folder]
        with subprocess.Popen(serve, stdout=subprocess.PIPE, stderr=subprocess.STDOUT) as server:
            try:
                to = f"--socket {at} --wait 30"
                self.assertEqual(self.ctl(f"{to} set store web /port 81"), (0, []))
                self.assertEqual(self.ctl(f"{to} rename store web site"), (0, []))
                self.assertEqual(self.ctl(f"{to} set store site /port x")[0], 1)
            finally:
                server.terminate()
                server.communicate(timeout=PATIENCE)
        self.assertEqual(self.trees(), {"dns": {"port": "53"}, "site": {"port": "81"}})


if __name__ == "__main__":
    unittest.main()
