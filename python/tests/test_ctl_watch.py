"""confstorectl's `watch` with values and with a command."""

from __future__ import annotations

import contextlib
import os
import subprocess
import sys
import time
import unittest
from collections.abc import Iterator, Sequence

from confstore import Store
from confstore.ctl_asked import Asked, asked_of
from confstore.ctl_faults import Fault

from . import TOP
from .places import StoreTest, python_path

PATIENCE = 60


class Words(unittest.TestCase):
    def test_commands(self) -> None:
        rows: tuple[tuple[str, dict[str, str], tuple[str, ...]], ...] = (
            ("watch s -- a b", {"FOLDER": "s"}, ("a", "b")), ("watch s web -- a -x --", {"FOLDER": "s", "NAME": "web"},
                                                              ("a", "-x", "--")),
            ("watch -- -s", {"FOLDER": "-s"}, ()), ("watch -- -s web -- a", {"FOLDER": "-s", "NAME": "web"}, ("a",)),
            ("watch s web /a --settle 2 -- a", {"FOLDER": "s", "NAME": "web", "POINTER": "/a"}, ("a",)),
        )  # fmt: skip
        for line, arguments, command in rows:
            with self.subTest(line):
                asked = asked_of(line.split())
                assert isinstance(asked, Asked)
                self.assertEqual((asked.arguments, asked.command), (arguments, command))
        wrong = ("watch s --", "watch -- s --", "watch s --settle 2", "watch s --settle x -- a", "get s web -- a b")
        for line in wrong:
            with self.subTest(line), self.assertRaises(Fault) as caught:
                asked_of(line.split())
            self.assertEqual(caught.exception.name, "WrongWords")


class Watch(StoreTest):
    def setUp(self) -> None:
        super().setUp()
        self.log = os.path.join(self.top, "log")

    @contextlib.contextmanager
    def watching(self, *words: str) -> Iterator[subprocess.Popen[bytes]]:
        environment = {**os.environ, "PYTHONPATH": python_path(), "LOG": self.log}
        environment.pop("CONFSTORE_SOCKET", None)
        line = [sys.executable, "-m", "confstore.ctl", "watch", *words]
        with subprocess.Popen(line, stdout=subprocess.PIPE, stderr=subprocess.PIPE, env=environment) as process:
            try:
                yield process
            finally:
                process.terminate()

    def lines(self, wanted: int) -> Sequence[str]:
        """The lines of the log, once there are so many."""
        deadline = time.monotonic() + PATIENCE
        lines: list[str] = []
        while len(lines) < wanted and time.monotonic() < deadline:
            time.sleep(0.05)
            with contextlib.suppress(FileNotFoundError), open(self.log, encoding="utf-8") as source:
                lines = source.read().splitlines()
        return lines

    def make(self) -> list[str]:
        """Makes changes of all kinds. The lines of them, as `confstore log --values` writes them."""
        with Store(self.folder) as store:
            store["web"] = {"port": "80", "tags": ["a\n\"é"]}
            store.set("web", "/port", "81")
            store["dns"] = "x"
            store.delete("web", "/tags/0")
            with store.batch() as batch:
                batch.set("web", "/port", "82")
                batch.delete("dns")
        log = [os.environ["CONFSTORE"], "log", "--values", self.folder]
        return subprocess.run(log, capture_output=True, check=True).stdout.decode().splitlines()

    def test_values_are_those_of_log(self) -> None:
        wanted = self.make()
        with self.watching(self.folder, "--values", "--from", "1") as process:
            assert process.stdout
            self.assertEqual([process.stdout.readline().decode().rstrip("\n") for _ in wanted], wanted)

    def test_a_command_for_each_change(self) -> None:
        wanted = self.make()
        script = 'printf "%s|%s|%s|%s|" "$CONFSTORE_NAME" "$CONFSTORE_NUMBER" "$CONFSTORE_CHANGES" "$1" >>$LOG'
        script += "; cat >>$LOG"
        with self.watching(self.folder, "--from", "1", "--", "sh", "-c", script, "sh", "--x") as process:
            lines = self.lines(len(wanted))
        names = ["web", "web", "dns", "web", "web dns"]
        self.assertEqual(list(lines), [
            f"{name}|{number}|{line}|--x|{line}" for number, (name, line) in enumerate(zip(names, wanted), 1)
        ])  # fmt: skip
        self.assertIsNotNone(process.returncode)

    def test_only_what_is_watched(self) -> None:
        self.make()
        script = 'echo "$CONFSTORE_NAME $CONFSTORE_NUMBER" >>$LOG'
        with self.watching(self.folder, "dns", "--from", "1", "--", "sh", "-c", script):
            self.assertEqual(list(self.lines(2)), ["dns 3", "dns 5"])

    def test_records(self) -> None:
        self.make()
        with self.watching(self.folder, "web", "/port", "--yaml", "--from", "2", "--", "sh", "-c", "cat >>$LOG"):
            self.assertIn("path: \"/port\"", "\n".join(self.lines(6)))

    def test_settling(self) -> None:
        self.make()
        script = 'echo run $CONFSTORE_NUMBER >>$LOG; cat >>$LOG'
        with self.watching(self.folder, "--from", "1", "--settle", "1", "--", "sh", "-c", script):
            lines = self.lines(6)
            self.assertEqual((lines[0], len(lines)), ("run 5", 6))
            with Store(self.folder) as store:
                store.set("web", "/port", "83")
            self.assertEqual(self.lines(8)[6], "run 6")

    def test_a_command_that_fails(self) -> None:
        self.make()
        script = "echo $CONFSTORE_NUMBER >>$LOG; exit 3"
        with self.watching(self.folder, "--from", "4", "--", "sh", "-c", script) as process:
            self.assertEqual(list(self.lines(2)), ["4", "5"])
            assert process.stderr
            line = process.stderr.readline().decode()
        self.assertRegex(line, r"\Aconfstorectl: CommandFailed: sh -c .* ended with status 3 for the changes up to 4\n")
        with self.watching(self.folder, "--from", "4", "--", "/nothing/here") as process:
            self.assertEqual(process.wait(PATIENCE), 3)
            assert process.stderr
            self.assertIn(b"NotStarted: /nothing/here can't be run: No such file", process.stderr.read())

    def test_a_thousand_changes(self) -> None:
        """Each is told once and in order, while more of them and checkpoints come."""
        script = 'cat >>$LOG'
        with Store(self.folder) as store:
            store["web"] = {"n": "0"}
            with self.watching(self.folder, "web", "--from", "2", "--settle", ".2", "--", "sh", "-c", script):
                for number in range(1, 1_001):
                    store.set("web", "/n", str(number))
                    if number % 400 == 0:
                        time.sleep(1)
                        store.checkpoint()
                lines = self.lines(1_000)
        values = [line.split()[-1].strip('"') for line in lines if line.split()[1] == "set"]
        self.assertEqual(values, [str(number) for number in range(1, 1_001)])

    def test_through_a_server(self) -> None:
        self.make()
        at = os.path.join(self.top, "s.sock")
        serve = [sys.executable, os.path.join(TOP, "clients", "serve.py"), at, self.folder]
        with subprocess.Popen(serve, stdout=subprocess.PIPE, stderr=subprocess.STDOUT) as server:
            words = ("--socket", at, "--wait", "30", os.path.join(self.top, "none"), "--from", "5", "--", "sh", "-c",
                     "cat >>$LOG")  # fmt: skip
            try:
                with self.watching(*words):
                    wanted = '5 batch set web "/port" "82"; delete dns ""'
                    self.assertEqual(list(self.lines(1)), [wanted])
            finally:
                server.terminate()
                server.communicate(timeout=PATIENCE)


if __name__ == "__main__":
    unittest.main()
