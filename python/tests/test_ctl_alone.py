"""The words of confstorectl that only the program does: with input, beside a server, and with signals."""

from __future__ import annotations

import os
import pathlib
import signal
import subprocess
import sys
import time
import unittest
from typing import Callable

from confstore import Reader, Store

from . import TOP
from .places import StoreTest, python_path

PATIENCE = 20


class WordsOfTheProgram(StoreTest):
    def ctl(self, *words: str, given: str = "") -> tuple[int, str, str]:
        """The status of words, what they wrote, and the first line on standard error."""
        done = subprocess.run(
            [sys.executable, "-m", "confstore.ctl", *words], input=given, capture_output=True, text=True, check=False,
            env={**os.environ, "PYTHONPATH": python_path()}, timeout=PATIENCE,
        )  # fmt: skip
        return done.returncode, done.stdout, done.stderr.partition("\n")[0]

    def test_from_nothing_to_a_backup(self) -> None:
        new, copy = os.path.join(self.top, "a", "b"), os.path.join(self.top, "copy")
        os.mkdir(os.path.dirname(new))
        self.assertEqual(self.ctl("init", new), (0, "", ""))
        told = "confstorectl: StoreExists: the folder has a store; take another folder"
        self.assertEqual(self.ctl("init", new)[::2], (1, told))
        answered = self.ctl("run", new, given="import: web\ntext: 'port: 80'\n...\nexport: web\n...\n")
        self.assertEqual(answered, (0, '---\nok: "1"\n...\n---\ntext: |\n  port: "80"\n...\n', ""))
        self.assertEqual(self.ctl("backup", new, copy), (0, "", ""))
        self.assertEqual(dict(Reader(copy)), {"web": {"port": "80"}})

    def test_files(self) -> None:
        path = pathlib.Path(self.top, "web.yaml")
        path.write_text("port:   80\n", encoding="utf-8")
        found = f"{path}:1: S4 the text first differs from the one style here\n"
        self.assertEqual(self.ctl("check", str(path))[:2], (1, found))
        self.assertEqual(self.ctl("format", "-i", str(path)), (0, "", ""))
        self.assertEqual(path.read_text(encoding="utf-8"), 'port: "80"\n')
        self.assertEqual(self.ctl("check", str(path)), (0, "", ""))
        self.assertEqual(self.ctl("format", given="[a,   b]"), (0, "- a\n- b\n", ""))

    def test_wrong_words_of_the_program(self) -> None:
        """They are told in one line, with the usage of confstorectl."""
        status, output, line = self.ctl("run", self.folder, "--checkpoint-after", "5")
        self.assertEqual((status, output), (2, ""))
        self.assertRegex(line, "^confstorectl: WrongWords: .*--group.*: confstorectl run ")

    @unittest.skipUnless(hasattr(sys, "orig_argv"), "Python 3.9 doesn't say how it was started")
    def test_words_in_another_locale(self) -> None:
        """Words are UTF-8 in each locale, also where Python is told to take them for something else."""
        ascii_words = {"LC_ALL": "C", "PYTHONUTF8": "0", "PYTHONCOERCECLOCALE": "0", "PYTHONPATH": python_path()}
        self.assertEqual(self.ctl("init", folder := os.path.join(self.top, "\u00e9"))[0], 0)
        rows = ("import {} web", ""), ("set {} web /\u00e4 \u20ac", ""), ("get {} web /\u00e4 --raw", "\u20ac\n")
        for more in (ascii_words, {"LC_ALL": "C.UTF-8", "PYTHONPATH": python_path()}):
            for word, wanted in rows:
                done = subprocess.run(
                    [sys.executable, "-m", "confstore.ctl", *(part.encode() for part in word.format(folder).split())],
                    input=b"a: b\n", capture_output=True, check=False, env={**os.environ, **more}, timeout=PATIENCE,
                )  # fmt: skip
                self.assertEqual((done.returncode, done.stdout.decode(), done.stderr), (0, wanted, b""), word)
            bad = [*map(os.fsencode, (sys.executable, "-m", "confstore.ctl", "set", folder, "web", "/a")), b"\xe9"]
            done = subprocess.run(bad, capture_output=True, check=False, env={**os.environ, **more}, timeout=PATIENCE)
            self.assertEqual((done.returncode, b"are not UTF-8" in done.stderr), (2, True))

    def test_beside_a_server(self) -> None:
        """A server holds the store: `run` is refused after it has waited, and `backup` is done."""
        with self.store() as store:
            store["web"] = "x"
        server = os.path.join(TOP, "clients", "serve.py")
        words = [sys.executable, server, os.path.join(self.folder, "confstore.sock"), self.folder]
        with subprocess.Popen(words, env={**os.environ, "PYTHONPATH": python_path()}) as process:
            self.addCleanup(process.kill)
            self.assertTrue(self.becomes(lambda: self.ctl("names", self.folder)[0] == 0 and self.is_held()))
            began = time.monotonic()
            status, output, line = self.ctl("--wait", "0.5", "run", self.folder, given="names:\n...\n")
            self.assertEqual((status, output), (3, ""))
            self.assertRegex(line, "^confstorectl: Locked: a server or another run holds .* `confstorectl batch`$")
            self.assertGreater(time.monotonic() - began, 0.5)
            self.assertEqual(self.ctl("init", self.folder)[0], 1)
            copy = os.path.join(self.top, "copy")
            self.assertEqual(self.ctl("backup", self.folder, copy), (0, "", ""))
            self.assertEqual(dict(Reader(copy)), {"web": "x"})
            process.terminate()

    def is_held(self) -> bool:
        return self.ctl("run", self.folder)[0] == 3

    def becomes(self, holds: Callable[[], bool]) -> bool:
        """Whether something holds soon."""
        deadline = time.monotonic() + PATIENCE
        while not holds():
            if time.monotonic() > deadline:
                return False
            time.sleep(0.05)
        return True

    def running(self, *before: str) -> subprocess.Popen[str]:
        """A run that has answered one command."""
        words = [*before, sys.executable, "-m", "confstore.ctl", "run", self.folder]
        process = subprocess.Popen(
            words, stdin=subprocess.PIPE, stdout=subprocess.PIPE, text=True, bufsize=1,
            env={**os.environ, "PYTHONPATH": python_path()},
        )  # fmt: skip
        assert process.stdin is not None and process.stdout is not None
        self.addCleanup(process.stdin.close)
        self.addCleanup(process.stdout.close)
        self.addCleanup(process.wait)
        self.addCleanup(process.kill)
        process.stdin.write("names:\n...\n")
        self.assertEqual([process.stdout.readline() for _ in range(3)], ["---\n", "names: []\n", "...\n"])
        return process

    def test_signals_end_the_run(self) -> None:
        """The session ends with the program that was signalled, though its input stays open: nobody holds the store."""
        for number in (signal.SIGTERM, signal.SIGHUP):
            process = self.running()
            process.send_signal(number)
            self.assertEqual(process.wait(PATIENCE), 128 + number)
            with Store(self.folder) as store:
                self.assertEqual(store.names(), [])

    def test_a_signal_that_is_ignored(self) -> None:
        """As behind nohup."""
        process = self.running("nohup")
        process.send_signal(signal.SIGHUP)
        assert process.stdin is not None and process.stdout is not None
        process.stdin.write("names:\n...\n")
        self.assertEqual([process.stdout.readline() for _ in range(3)], ["---\n", "names: []\n", "...\n"])
        process.stdin.close()
        self.assertEqual(process.wait(PATIENCE), 0)
