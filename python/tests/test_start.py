"""What is imported by a start of confstorectl, and by `import confstore`: little, since imports are most of its time."""

from __future__ import annotations

import json
import os
import pathlib
import random
import shutil
import socket
import subprocess
import sys
import threading
import unittest
from unittest import mock

import confstore
from confstore import MissingProgram, Tree, document
from confstore.ctl_sockets import SessionReply, line_of
from confstore.pieces import simple_value
from confstore.places import find_program
from confstore.trees import trees_of

from . import TOP
from .places import StoreTest

# What none of the words below imports: each takes a tenth of a start or more, or brings something of that kind.
SLOW = {
    "argparse", "ast", "asyncio", "concurrent", "contextlib", "copy", "dataclasses", "datetime", "email", "hashlib",
    "importlib.metadata", "importlib.resources", "inspect", "json", "logging", "pathlib", "shutil", "subprocess",
    "tempfile", "textwrap", "threading", "typing", "unittest", "yaml", "zipfile",
}  # fmt: skip

# What a word imports moreover that goes to a socket, and what no other word does.
OF_SOCKETS = {"re", "selectors", "socket"}

# The modules of the package that a word imports which the program does.
OF_PACKAGE = {"confstore", "confstore.places"} | {
    f"confstore.ctl{part}" for part in ("", "_asked", "_faults", "_places", "_program", "_streams", "_words")
}

# What a word imports moreover that changes something, to see whether its store keeps abouts.
OF_CHANGES = {"confstore.abouts"}

# Does a word in a process without `site`, which may import anything, and writes what it has imported.
WORD = """
import sys
sys.path.insert(0, sys.argv.pop(1))
before = set(sys.modules)
from confstore.ctl import main
status = main()
sys.stderr.write("\\n".join(sorted(set(sys.modules) - before)))
sys.exit(status)
"""

PACKAGE = """
import sys
sys.path.insert(0, sys.argv.pop(1))
import confstore
sys.stderr.write("\\n".join(sorted(name for name in sys.modules if name.startswith("confstore"))))
"""


def imported(script: str, *words: str) -> tuple[int, str, set[str]]:
    """The status of a script, what it wrote, and the modules that it has imported."""
    line = [sys.executable, "-I", "-S", "-c", script, os.path.join(TOP, "python"), *words]
    done = subprocess.run(line, capture_output=True, text=True, check=False, timeout=60)
    return done.returncode, done.stdout, set(done.stderr.split("\n"))


class Starts(StoreTest):
    def setUp(self) -> None:
        super().setUp()
        with self.store() as store:
            store.put("web", {"port": "80"})

    def test_words_by_the_program(self) -> None:
        rows = [
            (("get", self.folder, "web", "/port", "--raw"), "80\n"), (("exists", self.folder, "web"), ""),
            (("set", self.folder, "web", "/port", "81"), ""), (("names", self.folder), "web\n"),
            (("set", self.folder, "web", "/tls/key", "k", "--parents"), ""),
            (("log", self.folder, "--at", "1"), "1 import web\n"), (("delete", self.folder, "web", "/port"), ""),
        ]  # fmt: skip
        for words, output in rows:
            status, written, modules = imported(WORD, *words)
            self.assertEqual((status, written), (0, output), words)
            self.assertEqual(modules & (SLOW | OF_SOCKETS), set(), words)
            wanted = OF_PACKAGE | OF_CHANGES if words[0] in ("set", "delete") else OF_PACKAGE
            self.assertEqual({name for name in modules if name.startswith("confstore")}, wanted, words)

    def test_words_by_a_socket(self) -> None:
        rows = [
            (("get", "any", "web", "/port"), b'value: "80"\n', '"80"\n'),
            (("get", "any", "web"), b"value:\n  a: b\n", "a: b\n"), (("names", "any"), b"names:\n  - web\n", "web\n"),
            (("set", "any", "web", "/port", "81"), b'ok: "2"\n', ""),
            (("exists", "any", "web", "/port"), b'value: "80"\n', ""), (("delete", "any", "web"), b'ok: "3"\n', ""),
        ]  # fmt: skip
        for number, (words, answer, output) in enumerate(rows):
            path = os.path.join(self.top, f"socket-{number}")
            with socket.socket(socket.AF_UNIX) as listener:
                listener.bind(path)
                listener.listen()
                thread = threading.Thread(target=self.answer, args=(listener, b"---\n" + answer + b"...\n"))
                thread.start()
                status, written, modules = imported(WORD, "--socket", path, *words)
                thread.join()
            self.assertEqual((status, written), (0, output), words)
            self.assertEqual(modules & SLOW, set(), words)

    def answer(self, listener: socket.socket, answer: bytes) -> None:
        """Gives one client an answer to its command."""
        connection, _ = listener.accept()
        with connection, connection.makefile("rb") as commands:
            while commands.readline() != b"...\n":
                pass
            connection.sendall(answer)

    def test_the_help_and_the_version(self) -> None:
        self.assertEqual(imported(WORD, "--version")[2] & (SLOW | OF_SOCKETS), set())
        status, written, modules = imported(WORD, "help", "get")
        self.assertEqual((status, modules & (SLOW - {"textwrap"})), (0, set()))
        self.assertIn("Usage: confstorectl get", written)

    def test_without_pyyaml(self) -> None:
        """Words that need none are done, as above. Others name what is missing."""
        status, _, told = imported(WORD, "set", self.folder, "web", "/a", "[b]", "--yaml", "--check", "true")
        self.assertEqual((status, {line for line in told if line.startswith("confstorectl")}), (3, {
            "confstorectl: MissingModule: this needs PyYAML: install python3-yaml, or `pip install PyYAML`"}))  # fmt: skip

    def test_the_package(self) -> None:
        self.assertEqual(imported(PACKAGE), (0, "", {"confstore"}))


class Lines(unittest.TestCase):
    def test_commands_are_json(self) -> None:
        """The line of a command is what `json` writes, also where that is not imported for it."""
        texts = ["", "a b", "/n", '"', "\\", "a\tb", "\n", "\0", "\x7f", "\x80", "\u00e9", "\u2028", "%s", "{}", "~"]
        values: list[Tree] = [*texts, list(texts), {"k": "v"}, [{"put": "a"}]]
        for value in values:
            for command in ({"get": value}, {"set": "web", "path": "/a/b", "value": value}):
                line = line_of(command)
                self.assertEqual(json.loads(line), command)
                self.assertEqual((line.count(b"\n"), line[-1:]), (1, b"\n"), value)
                if line.isascii() and b"\\" not in line:
                    self.assertEqual(line.decode(), json.dumps(command, ensure_ascii=False) + "\n")


class Names(unittest.TestCase):
    def test_all_of_the_package(self) -> None:
        names = {*confstore.__all__, *confstore.faults.__all__}
        for name in names:
            self.assertEqual(getattr(confstore, name).__module__.partition(".")[0], "confstore" if name not in (
                "Condition", "Tree") else "typing", name)  # fmt: skip
        self.assertLessEqual({*names, "faults", "__version__"}, set(dir(confstore)))
        with self.assertRaisesRegex(AttributeError, "'confstore' has no attribute 'Stores'"):
            getattr(confstore, "Stores")


class Programs(unittest.TestCase):
    def test_found_as_by_shutil(self) -> None:
        """Where `shutil.which` finds a program, or finds none."""
        here = os.path.dirname(os.environ["CONFSTORE"])
        paths = ["", os.pathsep, here, f"/none{os.pathsep}{here}", f"{here}{os.pathsep}/bin", "/bin", "/none"]
        for wanted in ("confstore", "sh", "/bin/sh", "/bin", "bin", "none", "./sh", "/etc/passwd", "x" * 5_000):
            for path in [*paths, None]:
                with mock.patch.dict(os.environ, {} if path is None else {"PATH": path}):
                    if path is None:
                        del os.environ["PATH"]
                    found = shutil.which(wanted)
                    try:
                        self.assertEqual(find_program(wanted), os.path.abspath(found or ""), (wanted, path))
                    except confstore.ConfstoreError as fault:
                        self.assertIsNone(found, (wanted, path, fault))
        with mock.patch.dict(os.environ, {"PATH": ""}), self.assertRaises(MissingProgram):
            find_program(pathlib.Path("sh"))


class SimpleValues(unittest.TestCase):
    def test_beside_a_reader_of_yaml(self) -> None:
        """Each value is read as PyYAML reads it, or is left to PyYAML."""
        signs = ["", "a", "no", "0", " ", '"', "\\", "'", "#", ":", ": ", "- ", "\n", "~", "\x7f", "\u00e9"]
        chance, read = random.Random(7), 0
        for _ in range(3_000):
            lengths = [chance.randrange(6) for _ in range(chance.randrange(1, 4))]
            texts: list[Tree] = ["".join(chance.choices(signs, k=length)) for length in lengths]
            trees: list[Tree] = [texts, texts[0], {"a": texts}]
            for tree in trees:
                piece = document({"value": tree})
                self.assertEqual(trees_of(piece), [{"value": tree}])
                value = simple_value(piece[len(b"---\nvalue:") : -len(b"...\n")])
                self.assertIn(value, (tree, None), piece)
                self.assertEqual(SessionReply(piece).tree(), tree)
                read += value is not None
        self.assertGreater(read, 500)

    def test_what_is_no_value(self) -> None:
        for rest in (
            b"", b" \n", b" a: b\n", b' "a" \n', b" 'a'\n", b" |\n  a\n", b" [a]\n", b"\n  a: b\n", b"\n  -\n", b" *a\n"
        ):  # fmt: skip
            self.assertIsNone(simple_value(rest), rest)
