"""Trials of how `clients/serve.py` sends checkpoints to its session: once all commands before them are answered."""

from __future__ import annotations

import fcntl
import json
import os
import re
import sys
import tempfile
import termios
from typing import NamedTuple

from lib.server_watches import CHECKPOINT
from lib.servers import BOUNDED, NAMES, PYTHON, TOP, Client, ServerTest

sys.path[:0] = [os.path.join(TOP, "python"), os.path.join(TOP, "clients")]

from confstore.commands import CHECKPOINT as CHECKPOINT_OF_CLIENTS  # noqa: E402
from confstore.ctl_sockets import line_of  # noqa: E402
from confstore.style import document  # noqa: E402
from serve_clients import may_be_checkpoint  # noqa: E402

# A session that reads all that it is sent. It answers its first command at once, and the others once a file is there:
# then it answers one whenever nothing came for a moment. An answer tells the place of its command among all of them.
# Each command that it reads is noted, and each answer.
STAND_IN = r"""
import json, os, select, sys
name = sys.argv[0]
notes = open(name + ".notes", "w", encoding="utf-8", buffering=1)
rest, read, answered = b"", 0, 0
while True:
    if select.select([0], [], [], 0.02)[0]:
        part = os.read(0, 65_536)
        if not part:
            break
        *commands, rest = (rest + part).split(b"\n...\n")
        for command in commands:
            read += 1
            print(json.dumps(["read", command.decode() + "\n...\n"]), file=notes)
    elif answered < read and (not answered or os.path.exists(name + ".answers")):
        answered += 1
        print(json.dumps(["answered", ""]), file=notes)
        os.write(1, b'---\nok: "%d"\n...\n' % answered)
"""

# The spellings of a checkpoint that clients send: those of the pages, that of the Python package and that of
# confstorectl.
SPELLINGS = (
    CHECKPOINT, b'checkpoint: ""\n...\n', b"---\ncheckpoint:\n...\n", b"checkpoint: ''\n...\n",
    b'{"checkpoint":""}\n...\n', b'---\n{"checkpoint": ""}\n...\n', b"{checkpoint: ''}\n...\n",
    document(CHECKPOINT_OF_CLIENTS), line_of({"checkpoint": ""}) + b"...\n",
)  # fmt: skip

# Other spellings, and those that need escapes.
UNUSUAL = (
    b"# set: a\ncheckpoint: ''\n...\n", b"\n\n  checkpoint: ''\n...\n", b"? checkpoint\n: ''\n...\n",
    b"--- {checkpoint: ''}\n...\n", b"{\n  'checkpoint'\n  : ''\n}\n...\n", b"'checkpoint': ''\n...\n",
    b"\xef\xbb\xbfcheckpoint: ''\n...\n",
)  # fmt: skip
ESCAPED = (b'"check\\x70oint": ""\n...\n', b'"check\\\n  point": ""\n...\n', b'{"\\u0063heckpoint": ""}\n...\n')

# Commands that have the word, and are no checkpoints.
OTHERS = (
    b"set: a\npath: ''\nvalue: 'checkpoint:'\n...\n", b"set: checkpoint\npath: ''\nvalue: x\n...\n",
    b"---\nset: a\npath: /checkpoint\nvalue: |\n  checkpoint:\n  ...\n...\n", b"get: checkpoint\npath: ''\n...\n",
    b"import: checkpoint\ntext: |\n  checkpoint: ''\n...\n", b'{"set": "a", "path": "", "value": "checkpoint"}\n...\n',
    b"batch:\n  - set: checkpoint\n    path: ''\n    value: ''\n...\n",
    b"if:\n  - get: checkpoint\n    path: ''\n...\n", b"{ get: checkpoint, path: '' }\n...\n",
    b"export: checkpoint\n...\n", b"---\n'set': checkpoint\n'path': ''\n'value': ''\n...\n",
)  # fmt: skip

MOST_DUE = 16  # commands of a client that a session has at most


class Note(NamedTuple):
    """What a session did: it read this command, or it gave an answer."""

    word: str
    command: bytes


def is_checkpoint(command: bytes) -> bool:
    return command in SPELLINGS or command in UNUSUAL


def change(client: int, number: int) -> bytes:
    """A change that names the client that sends it."""
    return b"set: client%d\npath: ''\nvalue: 'change %d'\n...\n" % (client, number)


class Checkpoints(ServerTest):
    """What the session reads, beside the answers that it has given."""

    def begin(self) -> None:
        """Starts another server, whose session gives no answers for now."""
        place = tempfile.mkdtemp(dir=self.top)
        self.path, self.program = os.path.join(place, "socket"), os.path.join(place, "session")
        with open(self.program, "w", encoding="utf-8") as program:
            program.write(f"#!{PYTHON}\n{STAND_IN}")
        os.chmod(self.program, 0o755)
        self.sent: dict[Client, list[bytes]] = {}
        self.server = self.serve(program=self.program)

    def end(self) -> None:
        """Ends the server. Each client has been answered, in the order in which it sent its commands."""
        commands = self.read()
        for client, sent in self.sent.items():
            places = [re.fullmatch(rb'---\nok: "(\d+)"\n\.\.\.\n', client.answer()) for _ in sent]
            self.assertEqual([commands[int(place[1]) - 1] if place else None for place in places], sent)
            self.assertIsNone(client.next_byte())
        self.assertEqual((self.server.end(), self.server.errors()), (0, ""))

    def notes(self) -> list[Note]:
        with open(self.program + ".notes", encoding="utf-8") as lines:
            return [Note(word, command.encode()) for word, command in map(json.loads, lines)]

    def read(self) -> list[bytes]:
        return [note.command for note in self.notes() if note.word == "read"]

    def under_way(self) -> list[list[bytes]]:
        """Of each checkpoint that was read, the commands that were read before, and not answered by then."""
        found: list[list[bytes]] = []
        waiting: list[bytes] = []
        for word, command in self.notes():
            if word == "answered":
                del waiting[0]
                continue
            if is_checkpoint(command):
                found.append(list(waiting))
            waiting.append(command)
        return found

    def ask(self, client: Client, *commands: bytes) -> None:
        """Sends commands at once, and waits until the server has received them."""
        client.send(b"".join(commands))
        self.sent.setdefault(client, []).extend(commands)
        unread = lambda: any(fcntl.ioctl(client.socket, termios.TIOCOUTQ, bytes(4)))  # noqa: E731
        self.await_that(lambda: not unread(), "the server has received all")

    def begin_changes(self, clients: list[Client]) -> None:
        """Has the session read two changes of each client. It answers none of them."""
        before = len(self.notes())
        for place, client in enumerate(clients):
            self.ask(client, change(place, 1), change(place, 2))
        wanted = [Note("read", change(place, number)) for place in range(len(clients)) for number in (1, 2)]
        self.await_that(lambda: self.notes()[before:] == wanted, "the changes are read, and not answered")

    def let_answer(self, count: int) -> None:
        """Has the session answer, and waits until it has read and answered so many commands, beside its first one."""
        with open(self.program + ".answers", "w", encoding="ascii"):
            pass
        self.await_that(lambda: len(self.notes()) >= 2 * count + 2, "all commands are answered")

    def test_it_waits_for_the_answers(self) -> None:
        """The session reads a checkpoint of one client once it has answered all changes of others, and the client's
        own one. What comes behind it is read behind it, and everybody is answered."""
        for spelling in SPELLINGS:
            with self.subTest(spelling=spelling):
                self.begin()
                before, behind, asking = self.clients(4), self.clients(3), self.client()
                self.begin_changes(before)
                self.ask(asking, change(9, 1), spelling, change(9, 2), change(9, 3))
                later = [change(place, 3) for place in range(len(before + behind))]
                for client, command in zip(before + behind, later):
                    self.ask(client, command)
                self.ask(self.client(), b"get: a\npath: ''\n...\n")
                self.let_answer(20)
                self.assertEqual(self.under_way(), [[]])
                commands = self.read()
                at = commands.index(spelling)
                self.assertEqual(commands[9:at], [change(9, 1)])
                self.assertEqual([command for command in commands[at:] if command in later], later)
                self.end()

    def test_unusual_spellings(self) -> None:
        """A checkpoint in another spelling waits for the answers, too."""
        for spelling in UNUSUAL:
            with self.subTest(spelling=spelling):
                self.begin()
                before, asking = self.clients(3), self.client()
                self.begin_changes(before)
                self.ask(asking, change(9, 1), spelling, change(9, 2))
                self.let_answer(9)
                self.assertEqual(self.under_way(), [[]])
                self.end()

    def test_escapes(self) -> None:
        """Escapes may spell the key. A command whose first key is that of another one is no checkpoint."""
        for command in (*SPELLINGS, *UNUSUAL, *ESCAPED, *OTHERS, b"names: ''\n...\n", b"# why\nnames: ''\n...\n"):
            with self.subTest(command=command):
                heard = bytearray(command + CHECKPOINT)
                told = may_be_checkpoint(heard, len(command))
                self.assertEqual(told, command in (*SPELLINGS, *UNUSUAL, *ESCAPED))

    def test_it_comes_before_what_waits(self) -> None:
        """A client with more commands than a session takes of one keeps no checkpoint waiting for all of them."""
        self.begin()
        busy, asking = self.clients(2)
        changes = [change(0, number) for number in range(MOST_DUE + 4)]
        self.ask(busy, *changes)
        self.await_that(lambda: self.read()[1:] == changes[:MOST_DUE], "as many are read as the session takes")
        self.ask(asking, CHECKPOINT)
        self.let_answer(MOST_DUE + 5)
        self.assertEqual(self.under_way(), [[]])
        self.assertEqual(self.read()[1:], [*changes[:MOST_DUE], CHECKPOINT, *changes[MOST_DUE:]])
        self.end()

    def test_several(self) -> None:
        """Of two clients with checkpoints each waits for all changes, and for no more."""
        self.begin()
        before, asking = self.clients(3), self.clients(2)
        self.begin_changes(before)
        for place, client in enumerate(asking, 7):
            self.ask(client, CHECKPOINT, change(place, 1), CHECKPOINT, CHECKPOINT, change(place, 2))
        self.let_answer(16)
        found = [command for commands in self.under_way() for command in commands if not is_checkpoint(command)]
        self.assertEqual((found, len(self.under_way())), ([], 6))
        self.end()

    def test_what_has_the_word(self) -> None:
        """A command that is no checkpoint waits for no answers, also of a client that has made one."""
        self.begin()
        clients = self.clients(3)
        for client in clients:
            self.ask(client, CHECKPOINT)
        self.let_answer(3)
        os.unlink(self.program + ".answers")
        self.begin_changes(clients)
        for command in OTHERS:
            self.ask(self.client(), command)
            self.await_that(lambda: self.read()[-1] == command, f"it is read: {command!r}")
        self.assertEqual([note.word for note in self.notes()].count("answered"), 4)
        self.let_answer(9 + len(OTHERS))
        self.end()

    def test_beside_a_check(self) -> None:
        """A checkpoint that comes while a change of another client is judged waits for that, and holds up nobody."""
        judged = os.path.join(self.top, "judged")
        self.serve("--check", f"echo >>{judged}; sleep 0.5")
        changing, asking, other = self.clients(3)
        self.assertEqual(changing.ask(b"import: client0\ntext: x\n...\n"), b'---\nok: "1"\n...\n')
        changing.send(change(0, 1))
        self.await_that(lambda: os.path.getsize(judged) == 2, "the change is judged")
        for client, command in ((asking, CHECKPOINT), (other, NAMES)):
            client.send(command)
        for client in (changing, asking, other):
            self.await_that(lambda: client.next_byte() == b"-", "an answer", BOUNDED)  # noqa: B023
        self.assertEqual([changing.answer(), asking.answer()], [b'---\nok: "2"\n...\n'] * 2)

    def test_one_who_reads_nothing(self) -> None:
        """A client with a checkpoint that doesn't read what it has asked for before holds up nobody."""
        self.serve(program=self.fake())
        deaf = self.client()
        deaf.send(b"get: 4000000\n...\n" + CHECKPOINT)
        self.await_that(lambda: deaf.next_byte() == b"-", "an answer")
        for _ in range(3):
            self.assert_served()
        self.assertEqual(len(deaf.answer()), len(b"---\nvalue: \n...\n") + 4_000_000)
        self.assertEqual(deaf.answer(), b"---\nnames: []\n...\n")
