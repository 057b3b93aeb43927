"""What confstorectl asks of a server, what it makes of the answers, and how it takes changes that a server tells."""

from __future__ import annotations

import json
import os
import socket
import threading
import unittest
from typing import Any, Iterable
from unittest import mock

from confstore import Record, ctl_sockets
from confstore.ctl_faults import Fault
from confstore.ctl_outputs import json_text
from confstore.ctl_served import Served
from confstore.ctl_places import Place
from confstore.ctl_watch import line_of
from confstore.following import Told
from confstore.style import Tree, document

from .test_ctl import PATIENCE, SocketTest

OK = b'---\nok: "5"\n...\n'
UNMET = b"---\nrefused: Unmet\n...\n"
EMPTY = b"---\nrefused: EmptyBatch\n...\n"
VALUE = b'---\nvalue:\n  port: "80"\n...\n'


class AnswerTest(SocketTest):
    def answered(self, *answers: bytes) -> None:
        """Has the next client answered so, in place of the one before."""
        if os.path.exists(self.path):
            os.remove(self.path)
        self.heard.clear()
        self.listen(*answers)

    def asked(self) -> list[Any]:
        """The commands that were asked."""
        return [json.loads(line) for line in self.heard]


class Changes(AnswerTest):
    def test_conditions(self) -> None:
        web = {"test": "web", "path": "/port", "value": "80"}
        rows: list[tuple[list[str], Any]] = [
            (["set", "S", "web", "/port", "81", "--if-value", "80"],
             {"if": [web], "set": "web", "path": "/port", "value": "81"}),
            (["set", "S", "web", "/port", "81", "--if-absent"],
             {"if": [{"absent": "web", "path": "/port"}], "set": "web", "path": "/port", "value": "81"}),
            (["delete", "S", "web", "--if-count", "017"], {"if": [{"count": "17"}], "delete": "web", "path": ""}),
            (["delete", "S", "web", "/port", "--if-value", "80", "--if-count", "2"],
             {"if": [web, {"count": "2"}], "delete": "web", "path": "/port"}),
            (["import", "S", "web", "--if-absent", "TEXT"],
             {"if": [{"absent": "web"}], "import": "web", "text": "a: b\n"}),
            (["set", "S", "web", "/port", "--file", "TEXT"], {"set": "web", "path": "/port", "value": "a: b\n"}),
        ]  # fmt: skip
        text = os.path.join(self.top, "text")
        with open(text, "w", encoding="utf-8") as file:
            file.write("a: b\n")
        for words, command in rows:
            with self.subTest(words):
                for answer, status, errors in ((OK, 0, ""), (UNMET, 1, "confstorectl: Unmet: ")):
                    self.answered(answer)
                    found = self.perform(*(text if word == "TEXT" else word for word in words))
                    self.assertEqual((found[0], found[1], found[2][: len(errors)]), (status, b"", errors))
                    self.assertEqual(self.asked(), [command])

    def test_copy_and_rename(self) -> None:
        still = {"test": "web", "path": "", "value": {"port": "80"}}
        put: dict[str, Any] = {"import": "old", "text": 'port: "80"\n'}
        commands: dict[str, dict[str, Any]] = {"copy": put, "rename": {"batch": [{"delete": "web", "path": ""}, put]}}
        for word, command in commands.items():
            words = (word, "S", "web", "old", *(["--replace"] if word == "copy" else []))
            self.answered(VALUE, OK)
            self.assertEqual(self.perform(*words), (0, b"", ""))
            self.assertEqual(self.asked(), [{"get": "web", "path": ""}, {"if": [still], **command}])
            self.answered(VALUE, UNMET, VALUE, OK)
            self.assertEqual(self.perform(*words), (0, b"", ""))
            self.assertEqual(len(self.heard), 4)
            wanted = [{"absent": "old"}, {"count": "4"}]
            self.answered(EMPTY, VALUE, OK)
            self.assertEqual(self.perform(word, "S", "web", "old", "--if-absent", "--if-count", "4"), (0, b"", ""))
            self.assertEqual(self.asked()[0], {"if": wanted, "batch": []})
            self.assertEqual(self.asked()[2], {"if": [*wanted, still], **command})
            self.answered(EMPTY, VALUE, UNMET, UNMET)
            self.assertEqual(self.fault(word, "S", "web", "old", "--if-absent"), (1, "Unmet"))
            self.answered(b"---\nrefused: NoConfig\n...\n")
            self.assertEqual(self.fault(*words), (1, "NoConfig"))
            self.answered(VALUE, b"---\nrefused: BadName\n...\n")
            self.assertEqual(self.fault(*words), (1, "BadName"))
        self.answered(EMPTY, VALUE, OK)
        self.assertEqual(self.perform("copy", "S", "web", "old"), (0, b"", ""))
        self.assertEqual(self.asked()[2], {"if": [{"absent": "old"}, still], **commands["copy"]})
        self.answered(UNMET)
        self.assertEqual(self.fault("copy", "S", "web", "old"), (1, "Unmet"))

    def test_a_node_that_knows_no_conditions(self) -> None:
        self.answered(b'{"refused": "BadCommand"}\n')
        self.assertEqual(self.fault("set", "S", "web", "/a", "b", "--if-count", "1"), (1, "BadCommand"))

    def test_a_file_that_is_no_text(self) -> None:
        file = os.path.join(self.top, "key.pem")
        with open(file, "wb") as target:
            target.write(b"ab\xff")
        self.answered(OK)
        status, _, errors = self.perform("set", "S", "web", "/key", "--file", file)
        # The server may have heard that somebody came and went, and no command.
        self.assertEqual((status, errors.split()[1][:7], b"".join(self.heard)), (1, "NotUtf8", b""))


class OtherAnswers(AnswerTest):
    """What is no answer to the command, though it may be one to another."""

    WORDS = {
        "ok": (["set", "S", "web", "/a", "b"], ["delete", "S", "web"], ["checkpoint", "S"], ["import", "S", "web", "T"],
               ["batch", "S", "E"]),
        "value": (["get", "S", "web"], ["keys", "S", "web"], ["exists", "S", "web"], ["export", "S", "web", "--json"]),
        "text": (["export", "S", "web"],),
        "names": (["names", "S"],),
    }  # fmt: skip
    ANSWERS = {
        "ok": b'---\nok: "5"\n...\n', "value": b"---\nvalue:\n  a: b\n...\n", "text": b"---\ntext: |\n  a\n...\n",
        "names": b"---\nnames:\n  - a\n...\n", "watch": b'---\nwatch: "5"\n...\n', "at": b'---\nat: "5"\n...\n',
        "failed": b"---\nfailed: Busy\n...\n",
    }  # fmt: skip

    def words_of(self, key: str) -> list[list[str]]:
        """The words whose answers have this key, with files that are there."""
        files = {name: os.path.join(self.top, name) for name in ("T", "E")}
        for name, text in (("T", "a: b\n"), ("E", "[{delete: web, path: /a}]\n")):
            with open(files[name], "w", encoding="ascii") as file:
                file.write(text)
        return [[files.get(word, word) for word in words] for words in self.WORDS[key]]

    def test_an_answer_to_another_command(self) -> None:
        for key in self.WORDS:
            for words in self.words_of(key):
                for other, answer in self.ANSWERS.items():
                    self.answered(answer)
                    if key == other:
                        self.assertEqual(self.perform(*words)[::2], (0, ""), words)
                        continue
                    with self.subTest(words, answered=other):
                        self.assertEqual(self.fault(*words), (3, "BadAnswer"))

    def test_a_change_that_is_answered_by_no_number(self) -> None:
        for said in (b'""', b"x", b'"-1"', b'"07"', b'"1.0"', b"[]", b"\n  a: b", b"\n  - a"):
            with self.subTest(said):
                self.answered(b"---\nok: " + said + b"\n...\n")
                self.assertEqual(self.fault("set", "S", "web", "/a", "b"), (3, "BadAnswer"))
        for line in (b'{"ok": 5}\n', b'{"ok": null}\n', b'{"value": "5"}\n'):
            with self.subTest(line):
                self.answered(line)
                self.assertEqual(self.fault("set", "S", "web", "/a", "b"), (3, "BadAnswer"))
        self.answered(b'{"ok": "5"}\n')
        self.assertEqual(self.perform("set", "S", "web", "/a", "b"), (0, b"", ""))
        self.answered(b'{"names": ["a", 1]}\n')
        self.assertEqual(self.fault("names", "S"), (3, "BadAnswer"))

    def test_documents_behind_the_answer(self) -> None:
        for key in self.WORDS:
            for words in self.words_of(key):
                for more in (b'---\nok: "6"\n...\n', b"---\n", b"x", b"\n"):
                    with self.subTest(words, more=more):
                        self.answered(self.ANSWERS[key] + more)
                        self.assertEqual(self.fault(*words), (3, "BadAnswer"))
        self.answered(VALUE + OK)
        self.assertEqual(self.fault("rename", "S", "web", "old"), (3, "BadAnswer"))
        self.answered(VALUE, OK + OK)
        self.assertEqual(self.fault("rename", "S", "web", "old"), (3, "BadAnswer"))

    def test_a_server_whose_store_was_replaced(self) -> None:
        for words in (["get", "S", "web"], ["set", "S", "web", "/a", "b"]):
            self.answered(b"---\nrefused: Replaced\n...\n")
            self.assertEqual(self.fault(*words), (1, "Replaced"))

    def test_a_document_that_comes_late(self) -> None:
        """It comes once the answer was read, and nothing more is asked."""
        self.answered(OK, b"---\nok: \"6\"\n...\n")
        self.assertEqual(self.fault("set", "S", "web", "/a", "b"), (3, "BadAnswer"))

    def test_a_server_that_does_not_go(self) -> None:
        """It is not waited for for long, and not taken amiss."""
        over = threading.Event()
        with socket.socket(socket.AF_UNIX) as listener, mock.patch.object(ctl_sockets, "PARTING", 0.2):
            listener.bind(self.path)
            listener.listen()

            def stay() -> None:
                with listener.accept()[0] as connection:
                    connection.sendall(OK)
                    over.wait(PATIENCE)

            thread = threading.Thread(target=stay)
            thread.start()
            self.assertEqual(self.perform("set", "S", "web", "/a", "b"), (0, b"", ""))
            over.set()
            thread.join(PATIENCE)


class Readings(AnswerTest):
    def test_what_is_written(self) -> None:
        tree = b"---\nvalue:\n  a:\n    - x\n  \"b\\n\": \"\\x85\\u2028\\e\"\n...\n"
        text, index = b"---\nvalue: x\n...\n", b"---\nrefused: NotIndex\n...\n"
        none = b"---\nrefused: NoSuchPlace\n...\n"
        rows: list[tuple[list[str], bytes, int, bytes]] = [
            (["get", "S", "web", "--json"], tree, 0, b'{"a":["x"],"b\\n":"\\u0085\\u2028\\u001B"}\n'),
            (["get", "S", "web", "--plain"], b'---\nvalue:\n  "80": "80"\n  a:\n    - "1.10"\n    - "1_0"\n...\n', 0,
             b'"80": 80\na:\n  - 1.10\n  - "1_0"\n'),
            (["export", "S", "web", "--plain"], b'---\nvalue: "true"\n...\n', 0, b"true\n"),
            (["get", "S", "web", "/a", "--default", "80", "--plain"], none, 0, b"80\n"),
            (["get", "S", "web", "--raw"], text, 0, b"x\n"),
            (["get", "S", "web", "--raw", "--no-newline"], text, 0, b"x"),
            (["get", "S", "web", "--default", "y"], text, 0, b"x\n"),
            (["get", "S", "web", "/a", "--default", "80"], none, 0, b'"80"\n'),
            (["get", "S", "web", "/a", "--default", "80", "--raw"], none, 0, b"80\n"),
            (["get", "S", "web", "/a", "--default", "80", "--json"], none, 0, b'"80"\n'),
            (["get", "S", "web", "/a", "--default", "", "--raw", "--no-newline"], index, 0, b""),
            (["keys", "S", "web"], tree, 0, b'a\n"b\\n"\n'),
            (["keys", "S", "web", "/a"], b"---\nvalue:\n  - x\n  - []\n...\n", 0, b"0\n1\n"),
            (["keys", "S", "web", "/a"], b"---\nvalue: {}\n...\n", 0, b""),
            (["exists", "S", "web"], tree, 0, b""),
            (["exists", "S", "web", "/a"], none, 1, b""),
            (["exists", "S", "web", "/a"], index, 1, b""),
            (["exists", "S", "web"], b"---\nrefused: NoConfig\n...\n", 1, b""),
            (["names", "S", "--json"], b"---\nnames:\n  - a\n  - b\n...\n", 0, b'["a","b"]\n'),
            (["names", "S", "--json"], b'{"names": []}\n', 0, b"[]\n"),
            (["export", "S", "web", "--json"], tree, 0, b'{"a":["x"],"b\\n":"\\u0085\\u2028\\u001B"}\n'),
        ]  # fmt: skip
        for words, answer, status, output in rows:
            with self.subTest(words):
                self.answered(answer)
                self.assertEqual(self.perform(*words), (status, output, ""))

    def test_what_is_refused(self) -> None:
        tree, bad = b"---\nvalue: []\n...\n", b"---\nrefused: BadName\n...\n"
        for words, answer, fault in (
            (["get", "S", "web", "--raw"], tree, "NotText"),
            (["keys", "S", "web"], b"---\nvalue: x\n...\n", "NotCollection"),
            (["get", "S", "9", "--default", "x"], bad, "BadName"), (["exists", "S", "9"], bad, "BadName"),
            (["keys", "S", "web", "/a"], b"---\nrefused: NoSuchPlace\n...\n", "NoSuchPlace"),
        ):  # fmt: skip
            with self.subTest(words):
                self.answered(answer)
                self.assertEqual(self.fault(*words), (1, fault))

    def test_json(self) -> None:
        """Python's own reader reads each text back."""
        signs = "".join(map(chr, [*range(0x180), *range(0x2000, 0x2070), 0xD7FF, 0xE000, 0xFEFF, 0xFFFE, 0x10FFFF]))
        trees: list[Tree] = ["", signs, [], {}, [[], {"": {}}], {signs: [signs, {"a": ["b"]}]}]
        for tree in trees:
            text = json_text(tree)
            self.assertEqual(json.loads(text), tree)
            self.assertEqual(json_text(json.loads(text)), text)
            self.assertNotRegex(text, "[\0-\x1f\x7f-\x9f\u2028\u2029\ufeff]")


def record(number: int, value: str = "x") -> bytes:
    return document({"at": str(number), "set": "web", "path": "/n", "value": value})


def begun(number: int) -> bytes:
    return document({"watch": str(number)})


class ToldChanges(AnswerTest):
    """Changes as a server tells them."""

    def serves(self, start: int | None, *documents: bytes) -> Served:
        self.answered(b"".join(documents))
        served = Served(Place(self.path), start, 0, PATIENCE)
        self.addCleanup(served.close)
        return served

    def lines(self, served: Served, count: int) -> list[str]:
        """So many lines of what is told, at least."""
        told: list[Told] = []
        while len(told) < count:
            told += served.look()
        for event, text in told:
            self.assertEqual(text, record(event.number, _value_of(event)) if isinstance(event, Record) else b"")
        return [line_of(event) for event, _ in told]

    def again(self, *documents: bytes) -> None:
        self.answered(b"".join(documents))

    def test_changes(self) -> None:
        cut = document({"cut": {"first": "3", "last": "5"}})
        served = self.serves(2, begun(2), record(2), cut, record(6), record(7))
        wanted = ['2 set web "/n"', "3-5 cut", '6 set web "/n"', '7 set web "/n"']
        self.assertEqual(self.lines(served, 4), wanted)
        self.assertEqual(self.asked(), [{"watch": "2"}])

    def test_a_connection_that_ends(self) -> None:
        """The next one begins with the change that was told last, which is not told again."""
        served = self.serves(None, begun(5), record(5), record(6))
        self.assertEqual(self.lines(served, 2), ['5 set web "/n"', '6 set web "/n"'])
        self.assertEqual(self.asked(), [{"watch": ""}])
        self.again(begun(6), record(6), record(7))
        self.assertEqual(self.lines(served, 1), ['7 set web "/n"'])
        self.assertEqual(self.asked(), [{"watch": "6"}])
        self.again(begun(7), document({"cut": {"first": "7", "last": "9"}}), record(10))
        self.assertEqual(self.lines(served, 2), ["8-9 cut", '10 set web "/n"'])

    def test_another_history(self) -> None:
        served = self.serves(1, begun(1), record(1), record(2))
        self.assertEqual(self.lines(served, 2), ['1 set web "/n"', '2 set web "/n"'])
        self.again(begun(2), record(2, "other"), record(3))
        self.assertEqual(self.lines(served, 3), ["after 1 replaced", '2 set web "/n"', '3 set web "/n"'])
        self.again(begun(3), document({"replaced": {"after": "1"}}), record(2))
        self.assertEqual(self.lines(served, 2), ["after 1 replaced", '2 set web "/n"'])

    def test_before_the_first_change(self) -> None:
        served = self.serves(None, begun(5))
        self.assertEqual(served.look(), [])
        self.again(begun(5), record(5))
        self.assertEqual(self.lines(served, 1), ['5 set web "/n"'])
        self.assertEqual(self.asked(), [{"watch": "5"}])

    def test_servers_that_tell_nothing(self) -> None:
        rows: Iterable[tuple[bytes, str]] = (
            (document({"refused": "BadCommand"}), "Unsupported"), (document({"refused": "NotInStyle"}), "NotInStyle"),
            (b'{"refused": "BadCommand"}\n', "Unsupported"), (document({"refused": "Other"}), "BadAnswer"),
            (document("moon"), "BadAnswer"), (document({"cut": {"first": "x", "last": "1"}}), "BadAnswer"),
            (b"[\n...\n", "BadAnswer"), (document({"at": "x"}), "BadAnswer"), (document({"watch": ["1"]}), "BadAnswer"),
        )  # fmt: skip
        for answer, name in rows:
            with self.subTest(answer):
                served = self.serves(None, answer)
                with self.assertRaises(Fault) as caught:
                    self.lines(served, 1)
                self.assertEqual(caught.exception.name, name)
                served.close()

    def test_no_server(self) -> None:
        with self.assertRaises(Fault) as caught:
            Served(Place(self.path), None, 0.3, PATIENCE)
        self.assertEqual(caught.exception.name, "Disconnected")
        served = self.serves(None, begun(1))
        served._patience = 0.3
        with self.assertRaises(Fault) as caught:
            os.remove(self.path)
            self.lines(served, 1)
        self.assertEqual(caught.exception.name, "Disconnected")


def _value_of(event: Record) -> str:
    value = event.edits[0].tree
    assert isinstance(value, str)
    return value


if __name__ == "__main__":
    unittest.main()
