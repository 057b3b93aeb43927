"""confstorectl: its words, its faults, and whom it asks. `checks/ctl.py` tries it beside the program."""

from __future__ import annotations

import contextlib
import io
import itertools
import json
import os
import random
import re
import shlex
import signal
import socket
import subprocess
import sys
import tempfile
import threading
import time
import unittest
from typing import Any, BinaryIO, Callable
from unittest import mock

import yaml
from confstore import Store, to_text
from confstore import ctl_places, ctl_sockets, ctl_streams
from confstore.ctl import perform_words
from confstore.ctl_asked import Asked, Help, Version, asked_of
from confstore.ctl_faults import Fault, shown
from confstore.ctl_help import help_of, help_of_all
from confstore.ctl_places import Place, place_of
from confstore.ctl_program import Ended, Source
from confstore.ctl_served import Served
from confstore.ctl_sockets import Command, Connection, SessionReply, line_of
from confstore.ctl_words import WORDS
from confstore.pieces import Cutter
from confstore.style import Tree

from . import TOP
from .places import StoreTest, python_path

PATIENCE = 20


class Words(unittest.TestCase):
    def asked(self, line: str) -> tuple[str, dict[str, str], dict[str, str]]:
        asked = asked_of(shlex.split(line))
        assert isinstance(asked, Asked)
        return asked.word.name, asked.arguments, asked.options

    def test_arguments_and_options(self) -> None:
        set_port = {"FOLDER": "s", "NAME": "web", "POINTER": "/port"}
        for line, wanted in (
            ("set s web /port 80", ("set", {**set_port, "VALUE": "80"}, {})),
            ("set --yaml s web /port -", ("set", {**set_port, "VALUE": "-"}, {"--yaml": ""})),
            ("set s web /port -8.5e3", ("set", {**set_port, "VALUE": "-8.5e3"}, {})),
            ("set s web /port -- --yaml", ("set", {**set_port, "VALUE": "--yaml"}, {})),
            ("set s web /port ''", ("set", {**set_port, "VALUE": ""}, {})),
            ("set --whole s web '' x", ("set", {**set_port, "POINTER": "", "VALUE": "x"}, {"--whole": ""})),
            ("delete s web '' --whole", ("delete", {**set_port, "POINTER": ""}, {"--whole": ""})),
            ("delete s --whole web", ("delete", {"FOLDER": "s", "NAME": "web"}, {"--whole": ""})),
            ("get s web ''", ("get", {**set_port, "POINTER": ""}, {})),
            ("set s web /port --file x", ("set", set_port, {"--file": "x"})),
            ("set s web /port 80 --if-value -5", ("set", {**set_port, "VALUE": "80"}, {"--if-value": "-5"})),
            ("delete s web --if-value=-x", ("delete", {"FOLDER": "s", "NAME": "web"}, {"--if-value": "-x"})),
            ("copy s web old --if-absent", ("copy", {"FOLDER": "s", "NAME": "web", "TO": "old"}, {"--if-absent": ""})),
            ("import s web --init", ("import", {"FOLDER": "s", "NAME": "web"}, {"--init": ""})),
            ("batch --explain s x", ("batch", {"FOLDER": "s", "FILE": "x"}, {"--explain": ""})),
            ("get s web", ("get", {"FOLDER": "s", "NAME": "web"}, {})),
            ("get s --raw web --at=5", ("get", {"FOLDER": "s", "NAME": "web"}, {"--raw": "", "--at": "5"})),
            ("--wait .5 names s", ("names", {"FOLDER": "s"}, {"--wait": ".5"})),
            ("names s --socket /x", ("names", {"FOLDER": "s"}, {"--socket": "/x"})),
            ("names -- -s", ("names", {"FOLDER": "-s"}, {})),
            ("watch s --from 18446744073709551615", ("watch", {"FOLDER": "s"}, {"--from": "18446744073709551615"})),
        ):
            with self.subTest(line):
                self.assertEqual(self.asked(line), wanted)

    def test_wrong_words(self) -> None:
        for line in (
            "", "nothing s", "get", "get s", "get s web /a /b", "get s web --foo", "get s web -x", "get s -5",
            "set s web /port -x", "get s web --raw=x", "get s web --raw --raw", "get s web --at", "get s web --at x",
            "get s web --at -1", "names s --at 18446744073709551616", "names s --raw", "names s --wait x",
            "names s --wait -1", "names s --wait inf", "names s --socket ''", "log s --from x", "help nothing",
            "help get set", "watch s --from ''", "set s web '' x", "delete s web ''", "set --whole s web /port x",
            "delete --whole s web /port", "get --whole s web", "delete --explain s web", "set --init s web /port x",
            "set s web /port", "set s web /port x --file y", "set s web /port --file y --yaml", "copy s web",
            "copy s web old /x", "rename s web old --if-count x", "delete s web --if-value x --if-absent",
            "set s web /port x --if-value -x", "get s web --no-newline", "get s web --raw --json",
            "get s web --default -x", "names s --if-count 1", "exists s", "keys s web --raw",
            "log s --values --yaml", "names s --values",
        ):  # fmt: skip
            with self.subTest(line):
                with self.assertRaises(Fault) as caught:
                    asked_of(shlex.split(line))
                self.assertEqual(caught.exception.status, 2)
                self.assertRegex(caught.exception.line, r"\Aconfstorectl: WrongWords: .*confstorectl")
                self.assertNotIn("\n", caught.exception.line)

    def test_help_and_version(self) -> None:
        for line, wanted in (
            ("--help", ""), ("-h", ""), ("help", ""), ("help get", "get"), ("get --help", "get"),
            ("get s web -h", "get"), ("--version", None), ("-V", None),
        ):  # fmt: skip
            with self.subTest(line):
                asked = asked_of(shlex.split(line))
                self.assertIsInstance(asked, Version if wanted is None else Help)
                self.assertEqual(getattr(asked, "word", None), wanted)

    def test_tips(self) -> None:
        """What is like no word gets no tip, and what others call a word gets that."""
        for line, tip in (
            ("lsit", "names"), ("list s", "names"), ("ls s", "names"), ("rm s web", "delete"), ("cat s web", "get"),
            ("version", "--version"), ("gte s web", "get"), ("help improt", "import"), ("exprot s web", "export"),
            ("--wiat 3 names s", "--wait"), ("get s web --josn", "--json"),
            ("set s web /a b --if-vaule x", "--if-value"), ("names s --jsno=x", "--json"), ("run s --gropu", "--group"), ("hlep", "help"), ("xyzzy", None),
            ("get s web --xyzzy", None), ("names s -x", None),
        ):  # fmt: skip
            with self.subTest(line):
                with self.assertRaises(Fault) as caught:
                    asked_of(shlex.split(line))
                tips = re.findall("; `([^`]*)` may be meant", caught.exception.line)
                self.assertEqual(tips, [] if tip is None else [tip])

    def test_files_that_are_repeated(self) -> None:
        asked = asked_of(shlex.split("format --check a b -- -c"))
        assert isinstance(asked, Asked)
        self.assertEqual((asked.arguments, asked.repeated), ({"FILE": "a"}, ("b", "-c")))
        self.assertEqual(asked.options, {"--check": ""})
        self.assertEqual(self.asked("check"), ("check", {}, {}))
        self.assertEqual(self.asked("--check cmd set s web /a b")[2], {"--check": "cmd"})
        for line in ("init --socket /x s", "format --wait 3 a", "backup a", "backup a b c", "set -i s web /a b"):
            with self.subTest(line), self.assertRaisesRegex(Fault, "WrongWords"):
                asked_of(shlex.split(line))

    def test_words_that_are_not_utf8(self) -> None:
        with self.assertRaises(Fault) as caught:
            asked_of(["get", "s", b"\xff".decode("utf-8", "surrogateescape")])
        self.assertEqual((caught.exception.status, caught.exception.name), (2, "WrongWords"))

    def test_the_examples_are_right(self) -> None:
        for word in WORDS.values():
            for example in word.examples:
                with self.subTest(example):
                    line = example.rpartition("| ")[2].partition(" && ")[0].partition(" < ")[0].partition(" > ")[0]
                    self.assertEqual(self.asked(line.partition(" ")[2])[0], word.name)

    def test_help_has_all(self) -> None:
        for word in WORDS.values():
            self.assertRegex(help_of_all(), rf"(?m)^  {word.name} +{re.escape(word.about)}$")
            options = (option.name for option in (*word.options, *word.common))
            for name in [*options, *(one.name for one in word.arguments)]:
                self.assertRegex(help_of(word.name), rf"(?m)^  {name}\b")
        for text in (help_of_all(), *map(help_of, WORDS)):
            self.assertLess(max(map(len, text.splitlines())), 120)


class Faults(unittest.TestCase):
    def test_the_statuses_of_the_page(self) -> None:
        """docs/FAULTS.md has those of each name of the program."""
        with open(os.path.join(TOP, "docs", "FAULTS.md"), encoding="utf-8") as page:
            text = page.read()
        of_stores = text.partition("## Of a store and of the program")[2]
        statuses = [
            (name, int(status))
            for names, status in re.findall(r"(?m)^\| (`.*?) \| (\d) \|", of_stores)
            for name in re.findall(r"`(\w+)`", names)
        ]
        refusals = text.partition("## Of a text")[2].partition("## Of a store")[0]
        rows = re.findall(r"(?m)^\| (`.*?) \|", refusals)
        statuses += [(name, 1) for row in rows for name in re.findall(r"\w+", row)]
        self.assertGreater(len(statuses), 30)
        for name, status in statuses:
            self.assertEqual((name, Fault(name).status), (name, status))

    def test_what_a_line_shows(self) -> None:
        self.assertEqual(shown("a\x1b[1m\n\\\u202e\x85ä"), "a\\u{1b}[1m\\n\\\\\\u{202e}\\u{85}ä")
        self.assertEqual(Fault("Syntax 3:7 Flow").line, "confstorectl: Syntax 3:7 Flow")


class Told(unittest.TestCase):
    """What confstorectl makes of the lines of the program."""

    def test_a_text_is_named(self) -> None:
        ended = Ended(1, b"", b'-:2:1: KeyTwice "a" (first at 1:1)\n2 | a: -: x\n  | ^\nhelp: drop one\n')
        lines = 'web.yaml:2:1: KeyTwice "a" (first at 1:1)\n2 | a: -: x\n  | ^\nhelp: drop one\n'
        self.assertEqual(ended.lines(Source("web.yaml")), lines)
        self.assertEqual(ended.lines(), ended.errors.decode())
        self.assertEqual(Ended(1, b"", b"-: TooLong (x)\n").lines(Source("a\nb")), "a\\nb: TooLong (x)\n")

    def test_the_cause_follows(self) -> None:
        ended = Ended(3, b"", b"confstore: Device\nstore.yaml: No space left on device\n")
        self.assertRegex(ended.lines(), r"\Aconfstorectl: Device: [^\n]+\nstore.yaml: No space left on device\n\Z")
        self.assertEqual(Ended(0, b"x", b"").lines(), "")

    def test_nothing_is_said_twice(self) -> None:
        said = "a name has 1 to 64 of a-z, 0-9, _ and -, a letter first\n"
        self.assertEqual(
            Ended(1, b"", b"confstore: BadName\n" + said.encode()).lines(), "confstorectl: BadName\n" + said
        )
        self.assertEqual(Ended(1, b"", b"confstore: BadName\n").lines(), "confstorectl: BadName: " + said)

    def test_which_run_was_locked(self) -> None:
        locked = b"confstore: Locked\n"
        for errors in (locked, locked + b"store.lock: another run holds its lock\n", b"confstore: the last\n" + locked):
            self.assertTrue(Ended(3, b"", errors).was_locked)
            self.assertFalse(Ended(0, b"", errors).was_locked)
        for errors in (b"", b"confstore: Device\nconfstore: Locked: x\n", b"-: confstore: Locked\n"):
            self.assertFalse(Ended(3, b"", errors).was_locked)


class Lines(unittest.TestCase):
    COMMANDS: tuple[Command, ...] = (
        {"set": "web", "path": "/a", "value": "\x7f\x80\x9f\u2028\ufeff\U0001f600\\\"\n\t\r\b\f/ # : - [ { '"},
        {"set": "web", "path": "", "value": {"a": ["", {}, [], {"": "b: c"}], "no": "~", "- x": "# y"}},
        {"names": ""},
        {"batch": [{"import": "a", "text": "--- \n...\n"}, {"delete": "a", "path": ""}]},
    )

    def test_a_command_is_one_line_of_json_and_yaml(self) -> None:
        for command in self.COMMANDS:
            line = line_of(command)
            self.assertEqual(line.count(b"\n"), 1)
            self.assertEqual(json.loads(line), command)
            self.assertEqual(yaml.load(line.replace(b"\x7f", b"\\x7f"), yaml.BaseLoader), command)


def random_text(chance: random.Random) -> str:
    signs = [*range(0x30), 0x3A, 0x5B, 0x5C, 0x7B, 0x7F, 0x80, 0x85, 0x9F, 0xA0, 0xE4, 0x2028, 0x2029, 0x202E]
    signs += [0xD7FF, 0xE000, 0xFEFF, 0xFFFD, 0xFFFE, 0xFFFF, 0x10000, 0x1F600, 0x10FFFF, 0x61, 0x6E, 0x7E]
    return "".join(chr(chance.choice(signs)) for _ in range(chance.randrange(8)))


def random_tree(chance: random.Random, depth: int) -> Tree:
    kind = chance.randrange(3) if depth < 4 else 0
    if kind == 0:
        return random_text(chance)
    parts = [random_tree(chance, depth + 1) for _ in range(chance.randrange(4))]
    return parts if kind == 1 else {random_text(chance): part for part in parts}


class Sessions(StoreTest):
    TREES: tuple[Tree, ...] = (
        "x", "", "two\nlines", "two\n\n lines\n\n", [], {}, ["a", ["b", {"c": "d\ne\n"}], []], {"k": {"l": ["m\n\nn"]}},
        {"no": "", "k" * 1_100: {"a": "b"}, "\x85": ["\u2028"]},
    )  # fmt: skip

    def answer(self, command: dict[str, Any]) -> SessionReply:
        with Store(self.folder) as store:
            return SessionReply(store._ask(command))

    def test_the_text_of_a_value(self) -> None:
        for tree in self.TREES:
            with Store(self.folder) as store:
                store["web"] = tree
            reply = self.answer({"get": "web", "path": ""})
            self.assertEqual((reply.key, reply.tree(), reply.styled().decode()), ("value", tree, to_text(tree)))

    def test_a_session_reads_a_line_as_json_does(self) -> None:
        """Random trees, of signs that a reader of YAML or of JSON may take for something else."""
        seed = random.randrange(10**9)
        chance = random.Random(seed)
        trees = [random_tree(chance, 0) for _ in range(300)]
        sent = b"".join(line_of({"import": "a", "text": to_text(tree)}) + b"...\n" for tree in trees[::2])
        sent += b"".join(
            line_of({"set": "a", "path": "", "value": tree}) + b'...\n{"get": "a", "path": ""}\n...\n' for tree in trees
        )
        words = [os.environ["CONFSTORE"], "run", self.folder]
        done = subprocess.run(words, input=sent, capture_output=True, check=True, timeout=PATIENCE)
        answers = Cutter().cut(done.stdout)
        counts, rest = answers[: len(trees[::2])], answers[len(trees[::2]) :]
        self.assertEqual([answer for answer in [*counts, *rest[::2]] if not answer.startswith(b"---\nok: ")], [])
        found = [SessionReply(answer).tree() for answer in rest[1::2]]
        self.assertEqual(found, trees, f"seed {seed}")

    def test_what_is_no_answer(self) -> None:
        for piece in (
            b"", b"x\n...\n", b"---\nvalue: x\n", b"---\n- a\n...\n", b"---\nVALUE: x\n...\n", b"---\nvalue:x\n...\n",
            b"---\nvalue:\n...\n", b"---\nvalue: x\nmore: y\n...\n", b"---\nvalue:\n  a: b\n c: d\n...\n",
            b"---\nvalue: |\n  a\n---\nvalue: x\n...\n", b"---\nvalue: x\n\tmore: y\n...\n",
        ):  # fmt: skip
            with self.subTest(piece), self.assertRaises(Fault) as caught:
                SessionReply(piece)
            self.assertEqual((caught.exception.name, caught.exception.status), ("BadAnswer", 3))
        for piece in (b"---\nvalue: *a\n...\n", b"---\nvalue: [\n...\n"):
            with self.assertRaises(Fault):
                SessionReply(piece).tree()


def command_in(stream: BinaryIO) -> bytes:
    """The lines of the next command, up to the closing line or the end."""
    lines = itertools.takewhile(lambda line: line not in (b"...\n", b""), iter(stream.readline, None))
    return b"".join(lines)


class SocketTest(StoreTest):
    """A test with a socket where somebody answers each client in a way of its own."""

    def setUp(self) -> None:
        super().setUp()
        self.path = os.path.join(self.top, "socket")
        self.heard: list[bytes] = []

    def listen(self, *answers: bytes) -> None:
        """Gives a client what it is to be answered, one line of `...` after the other, and then closes."""
        listener = socket.socket(socket.AF_UNIX)
        self.addCleanup(listener.close)
        listener.bind(self.path)
        listener.listen()

        def serve() -> None:
            with contextlib.suppress(OSError), listener:
                connection, _ = listener.accept()
                with connection, connection.makefile("rb") as stream:
                    for answer in answers:
                        self.heard.append(command_in(stream))
                        connection.sendall(answer)
                    if not answers:
                        stream.read()  # until the client goes

        thread = threading.Thread(target=serve, daemon=True)
        thread.start()
        self.addCleanup(thread.join, PATIENCE)

    def perform(self, *words: str) -> tuple[int, bytes, str]:
        """The status of words that go to the socket, and what they wrote."""
        output, errors = io.BytesIO(), io.StringIO()
        streams: dict[str, Any] = {"write": output.write, "write_error": errors.write, "is_error_terminal": lambda: False}
        with mock.patch.multiple("confstore.ctl", **streams):
            status = perform_words(["--socket", self.path, *words])
        return status, output.getvalue(), errors.getvalue()

    def fault(self, *words: str) -> tuple[int, str]:
        status, output, errors = self.perform(*words)
        self.assertEqual(output, b"")
        self.assertRegex(errors, r"\Aconfstorectl: .*\n\Z")
        return status, errors.split(": ")[1].strip()


class Sockets(SocketTest):
    def test_a_session_answers(self) -> None:
        self.listen(b'---\nvalue: "81"\n...\n')
        self.assertEqual(self.perform("get", self.folder, "web", "/port"), (0, b'"81"\n', ""))
        self.assertEqual(json.loads(self.heard[0]), {"get": "web", "path": "/port"})

    def test_a_node_answers(self) -> None:
        self.listen(b'{"value": {"a": ["b", "\xc3\xa4"]}}\n{"refused": "BadCommand"}\n')
        self.assertEqual(self.perform("get", self.folder, "web"), (0, 'a:\n  - b\n  - "ä"\n'.encode(), ""))

    def test_a_node_refuses(self) -> None:
        self.listen(b'{"refused": "IdTaken"}\n')
        self.assertEqual(self.fault("set", self.folder, "web", "/a", "b"), (1, "IdTaken"))

    def test_a_node_fails(self) -> None:
        self.listen(b'{"failed": "OtherHistory"}\n')
        self.assertEqual(self.fault("set", self.folder, "web", "/a", "b"), (3, "Failed OtherHistory"))

    def test_a_refused_text_is_named_by_its_file(self) -> None:
        file = os.path.join(self.top, "web.yaml")
        with open(file, "w", encoding="utf-8") as text:
            text.write("a: 1\na: 2\n")
        for answer in (b"---\nrefused: KeyTwice\n...\n", b'{"refused": "KeyTwice"}\n'):
            for option, shown_lines in (("--init", []), ("--explain", ["2 | a: 2", "  | ^"])):
                self.listen(answer)
                status, output, errors = self.perform("import", option, self.folder, "web", file)
                first, *others = errors.splitlines()
                self.assertEqual((status, output, first), (1, b"", f'{file}:2:1: KeyTwice "a" (first at 1:1)'))
                self.assertEqual(others[:-1], shown_lines)
                os.remove(self.path)

    def test_a_refused_text_without_a_program(self) -> None:
        file = os.path.join(self.top, "web.yaml")
        with open(file, "w", encoding="utf-8") as text:
            text.write("a: 1\na: 2\n")
        self.listen(b"---\nrefused: KeyTwice\n...\n")
        with mock.patch.dict(os.environ, {"CONFSTORE": os.path.join(self.top, "none")}):
            self.assertEqual(self.fault("import", self.folder, "web", file), (1, "KeyTwice"))

    def test_another_refusal_of_an_import(self) -> None:
        file = os.path.join(self.top, "web.yaml")
        with open(file, "w", encoding="utf-8") as text:
            text.write("a: 1\n")
        for name in ("StoreFull", "TooDeep"):
            self.listen(b"---\nrefused: %s\n...\n" % name.encode())
            self.assertEqual(self.fault("import", self.folder, "web", file), (1, name))
            os.remove(self.path)

    def test_a_text_that_can_not_be_read(self) -> None:
        status, _, errors = self.perform("import", self.folder, "web", self.top)
        self.assertEqual((status, errors), (3, f"{self.top}: Input\n{self.top}: it is a folder\n"))

    def test_a_node_has_no_checkpoint(self) -> None:
        self.listen(b'{"refused": "BadCommand"}\n')
        self.assertEqual(self.fault("checkpoint", self.folder), (1, "Unsupported"))
        os.remove(self.path)
        self.listen(b'{"names": ["web"]}\n')
        archive = os.path.join(self.top, "archive")
        self.assertEqual(self.fault("checkpoint", self.folder, "--archive", archive), (1, "Unsupported"))
        self.assertFalse(os.path.exists(archive))

    def test_what_no_line_can_hold_is_sent_as_a_document(self) -> None:
        self.listen(b"---\nrefused: BadCommand\n...\n", b'---\nok: "2"\n...\n')
        command: dict[str, Tree] = {"set": "web", "path": "", "value": {"k" * 2_000: "v"}}
        with Connection(Place(self.path)) as connection:
            self.assertEqual(connection.ask(command).key, "ok")
        self.assertEqual(self.heard[1].decode(), f"---\n{to_text(command)}")

    def test_a_server_that_goes(self) -> None:
        for answer in (b"", b"---\nok: "):
            with self.subTest(answer):
                self.listen(answer)
                self.assertEqual(self.fault("set", self.folder, "web", "/a", "b"), (3, "Disconnected"))
                os.remove(self.path)

    def test_a_server_that_goes_and_comes_again(self) -> None:
        """A question is asked again, and a change isn't."""
        self.listen(b"")

        def come_again() -> None:
            os.remove(self.path)
            self.listen(b"---\nnames: []\n...\n")

        timer = threading.Timer(0.5, come_again)
        timer.start()
        self.assertEqual(self.perform("--wait", str(PATIENCE), "names", self.folder), (0, b"", ""))
        timer.join()
        os.remove(self.path)
        self.listen(b"")
        self.assertEqual(self.fault("--wait", str(PATIENCE), "delete", self.folder, "web"), (3, "Disconnected"))

    def test_a_server_that_answers_something_else(self) -> None:
        for answer in (b"HTTP/1.1 400\n...\n", b"{}\n", b"{]\n", b'{"a": 1, "b": 2}\n'):
            with self.subTest(answer):
                self.listen(answer)
                self.assertEqual(self.fault("names", self.folder), (3, "BadAnswer"))
                os.remove(self.path)

    def test_an_answer_before_all_was_sent(self) -> None:
        """As of a node to a line that is too long for it."""
        with socket.socket(socket.AF_UNIX) as listener:
            listener.bind(self.path)
            listener.listen()

            def refuse() -> None:
                with listener.accept()[0] as connection:
                    connection.sendall(b'{"refused": "TooLong"}\n')

            thread = threading.Thread(target=refuse)
            thread.start()
            found = self.fault("set", self.folder, "web", "/a", "b" * 5_000_000)
            thread.join(PATIENCE)
        self.assertEqual(found, (1, "TooLong"))

    def test_an_answer_that_is_too_long(self) -> None:
        for start in (b"---\nvalue: ", b'{"value": "'):
            self.listen(start + b"x" * 3_000_000)
            with mock.patch.object(ctl_sockets, "LONGEST_ANSWER", 2_000_000):
                self.assertEqual(self.fault("get", self.folder, "web"), (3, "BadAnswer"))
            os.remove(self.path)

    def test_a_node_that_answers_something_else(self) -> None:
        for answer in (b'{"value": 5}\n', b'{"value": {"a": null}}\n', b'{"value": "\\ud800"}\n', b"[" * 9_999 + b"\n"):
            with self.subTest(answer[:30]):
                self.listen(answer if answer[:1] == b"{" else b'{"value": ' + answer)
                self.assertEqual(self.fault("get", self.folder, "web"), (3, "BadAnswer"))
                os.remove(self.path)

    def test_what_a_server_says_is_escaped(self) -> None:
        hostile = b'"\\u001b[1m\\n"'
        for answer in (b'{"refused": %s}\n', b'{"failed": %s}\n', b"---\nrefused: %s\n...\n"):
            with self.subTest(answer):
                self.listen(answer % hostile)
                self.assertTrue(self.fault("names", self.folder)[1].endswith("\\u{1b}[1m\\n"))
                os.remove(self.path)

    def test_a_server_that_says_nothing(self) -> None:
        self.listen()
        with mock.patch.object(ctl_sockets, "PATIENCE", 0.3):
            self.assertEqual(self.fault("names", self.folder), (3, "TimedOut"))

    def test_no_server(self) -> None:
        self.assertEqual(self.fault("names", self.folder), (3, "Disconnected"))
        began = time.monotonic()
        self.assertEqual(self.fault("--wait", "0.4", "names", self.folder), (3, "Disconnected"))
        self.assertGreaterEqual(time.monotonic() - began, 0.4)

    def test_a_command_that_is_too_long(self) -> None:
        self.listen(b"")
        with mock.patch.object(ctl_sockets, "LONGEST_COMMAND", 100):
            self.assertEqual(self.fault("set", self.folder, "web", "/a", "b" * 100), (1, "TooLong"))


class Stores(SocketTest):
    """Servers of this store and of others, by the names by which they bind their sockets."""

    def setUp(self) -> None:
        super().setUp()
        self.other = os.path.join(self.top, "other")
        os.mkdir(self.other)
        patch = mock.patch.dict(os.environ, {"CONFSTORE_SOCKET": ""})
        patch.start()
        self.addCleanup(patch.stop)

    def bind(self, bound: str) -> str:
        """A socket that was bound by a name of its own, and has another one now. Nobody who is told the truth asks."""
        folder = tempfile.mkdtemp(dir=self.top)
        self.path = os.path.join(folder, bound)
        self.listen(b"---\nnames: []\n...\n")
        moved = os.path.join(folder, "socket")
        os.rename(self.path, moved)
        return moved

    def identity_of(self, folder: str) -> str:
        found = os.stat(folder)
        return f"store-{found.st_dev}-{found.st_ino}"

    def found(self, place: Callable[[str, str], None], folder: str, socket_there: str) -> tuple[int, str]:
        """The status and the error of a word where a socket is placed so in a folder."""
        in_folder = os.path.join(folder, "confstore.sock")
        with contextlib.suppress(FileNotFoundError):
            os.remove(in_folder)
        place(socket_there, in_folder)
        output, errors = io.BytesIO(), io.StringIO()
        with mock.patch.multiple("confstore.ctl", write=output.write, write_error=errors.write):
            status = perform_words(["names", folder])
        return status, errors.getvalue().partition(": ")[2].partition(":")[0]

    def test_the_server_of_this_store_and_of_another(self) -> None:
        here, there = self.identity_of(self.folder), self.identity_of(self.other)
        gone = f"store-{os.stat(self.folder).st_dev}-1"
        well, refused = (0, ""), (3, "OtherStore")
        rows = [(here, well, well), (there, refused, refused), (gone, refused, refused), ("made", refused, well),
                (f"{here}0", refused, refused), (f"x{here}", refused, well), ("store--1-1", refused, well)]  # fmt: skip
        for bound, by_link, by_itself in rows:
            with self.subTest(bound):
                self.assertEqual(self.found(os.symlink, self.folder, self.bind(bound)), by_link)
                self.assertEqual(self.found(os.link, self.folder, self.bind(bound)), by_itself)
                self.assertEqual(self.found(os.rename, self.folder, self.bind(bound)), by_itself)

    def test_a_folder_that_is_reached_by_a_link(self) -> None:
        here, link = self.identity_of(self.folder), os.path.join(self.top, "link")
        os.symlink(self.folder, link)
        self.assertEqual(self.found(os.symlink, link, self.bind(here)), (0, ""))

    def test_one_that_is_given(self) -> None:
        """It is the server that says which store is changed, and not FOLDER."""
        self.path = self.bind(self.identity_of(self.other))
        self.assertEqual(self.perform("names", self.folder), (0, b"", ""))

    def test_a_watch(self) -> None:
        """It is refused at once, however long it may wait for a server."""
        place = Place(self.bind(self.identity_of(self.other)), self.folder)
        with self.assertRaises(Fault) as caught:
            Served(place, None, PATIENCE, PATIENCE)
        self.assertEqual(caught.exception.kind, "OtherStore")

    def test_nothing_is_sent(self) -> None:
        self.found(os.symlink, self.folder, self.bind(self.identity_of(self.other)))
        self.assertEqual(b"".join(self.heard), b"")


class Places(SocketTest):
    def found(self, given: str, folder: str) -> tuple[str, str | None]:
        """The path of the socket for a folder, and the folder for which it was found."""
        place = place_of(given, folder)
        assert place is not None
        return place.path, place.folder

    def test_which_socket(self) -> None:
        place_in_folder = os.path.join(self.folder, "confstore.sock")
        with mock.patch.dict(os.environ, {"CONFSTORE_SOCKET": ""}):
            self.assertIsNone(place_of("", self.folder))
            with socket.socket(socket.AF_UNIX) as listener:
                listener.bind(place_in_folder)
                self.assertEqual(self.found("", self.folder), (place_in_folder, self.folder))
                self.assertEqual(self.found("/x", self.folder), ("/x", None))
                os.environ["CONFSTORE_SOCKET"] = "/y"
                self.assertEqual(self.found("", self.folder), ("/y", None))
                self.assertEqual(self.found("/x", self.folder), ("/x", None))

    def test_that_of_the_unit(self) -> None:
        """packaging/confstore@.service has stores and sockets there."""
        stores, sockets = os.path.join(self.top, "lib"), os.path.join(self.top, "run")
        os.makedirs(os.path.join(sockets, "app"))
        with open(os.path.join(TOP, "packaging", "confstore@.service"), encoding="utf-8") as unit:
            self.assertIn(f"{ctl_places.SOCKETS}/%i/socket {ctl_places.STORES}/%i\n", unit.read())
        with mock.patch.multiple(ctl_places, STORES=stores, SOCKETS=sockets):
            with socket.socket(socket.AF_UNIX) as listener:
                listener.bind(os.path.join(sockets, "app", "socket"))
                found = self.found("", os.path.join(stores, "app", ""))
                self.assertEqual(found, (os.path.join(sockets, "app", "socket"), os.path.join(stores, "app")))
                self.assertIsNone(place_of("", os.path.join(stores, "other")))


class Programs(StoreTest):
    """confstorectl as a process."""

    def process(self, *words: str, **more: Any) -> subprocess.Popen[bytes]:
        environment = {**os.environ, "PYTHONPATH": python_path()}
        process = subprocess.Popen([sys.executable, "-m", "confstore.ctl", *words], env=environment, **more)
        self.addCleanup(process.wait)
        self.addCleanup(process.kill)
        return process

    def test_it_is_interrupted_without_a_trace(self) -> None:
        self.store()["web"] = "x"
        process = self.process("watch", self.folder, "--from", "1", stdout=subprocess.PIPE, stderr=subprocess.PIPE)
        assert process.stdout is not None
        self.assertEqual(process.stdout.readline(), b"1 import web\n")
        process.send_signal(signal.SIGINT)
        self.assertEqual(process.communicate(timeout=PATIENCE), (b"", b""))
        self.assertEqual(process.returncode, -signal.SIGINT)

    def test_what_can_not_be_watched(self) -> None:
        for words, name in ((["No"], b"BadName"), (["web", "port"], b"BadPath"), (["web", "/~"], b"BadPath")):
            process = self.process("watch", self.folder, *words, stderr=subprocess.PIPE)
            self.assertRegex(process.communicate(timeout=PATIENCE)[1], rb"\Aconfstorectl: %s: .*\n\Z" % name)
            self.assertEqual(process.returncode, 1)

    def test_a_batch_makes_no_store(self) -> None:
        words = ["batch", self.folder, os.path.join(self.top, "edits.yaml")]
        with open(words[-1], "w", encoding="utf-8") as edits:
            edits.write("[{import: web, text: x}]\n")
        process = self.process(*words, stderr=subprocess.PIPE)
        self.assertRegex(process.communicate(timeout=PATIENCE)[1], rb"\Aconfstorectl: NotAStore: .*\n\Z")
        self.assertEqual((process.returncode, os.listdir(self.folder)), (1, []))
        self.store().close()
        self.assertEqual(self.process(*words).wait(PATIENCE), 0)

    def test_no_program(self) -> None:
        with mock.patch.dict(os.environ, {"CONFSTORE": os.path.join(self.top, "none")}):
            process = self.process("names", self.folder, stderr=subprocess.PIPE)
        self.assertRegex(process.communicate(timeout=PATIENCE)[1], rb"\Aconfstorectl: MissingProgram: .*\n\Z")
        self.assertEqual(process.returncode, 3)

    def test_a_text_is_read_up_to_its_limit(self) -> None:
        path = os.path.join(self.top, "text")
        with open(path, "wb") as file:
            file.truncate(5_000_000)
        self.assertEqual(len(ctl_streams.read_text(path)), 4_194_305)
        with self.assertRaises(IsADirectoryError):
            ctl_streams.read_text(self.folder)


if __name__ == "__main__":
    unittest.main()
