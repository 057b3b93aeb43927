"""Sessions that end, programs that answer wrongly, and folders that can't be used. Nothing here may hang."""

from __future__ import annotations

import gc
import os
import random
import re
import signal
import threading
import time
import unittest
from typing import Callable
from unittest import mock

import confstore
from confstore import ConfstoreError, Reader, Record, SessionEnded, Store, Tree, View
from confstore import session as module
from confstore.pieces import Cutter
from confstore.session import LONGEST_COMMAND, Session

from . import TOP
from .places import StoreTest, process_of


def write(path: str, content: bytes) -> None:
    with open(path, "wb") as target:
        target.write(content)


class Opening(StoreTest):
    def test_folders(self) -> None:
        write(os.path.join(self.top, "file"), b"")
        for name in ("none", "file"):
            with self.assertRaises(confstore.MissingFolder):
                Store(os.path.join(self.top, name))
        with self.assertRaises(confstore.MissingFolder):
            Reader(os.path.join(self.top, "none")).names()

    def test_programs(self) -> None:
        write(os.path.join(self.top, "plain"), b"not a program")
        for program in ("none", "plain"):
            with self.assertRaises(confstore.MissingProgram):
                Store(self.folder, program=os.path.join(self.top, program))
        os.chmod(os.path.join(self.top, "plain"), 0o700)
        with self.assertRaises(confstore.MissingProgram):
            Store(self.folder, program=os.path.join(self.top, "plain"))

    def test_locked(self) -> None:
        self.store()["a"] = "x"
        with self.assertRaises(confstore.Locked) as caught:
            Store(self.folder)
        self.assertEqual(caught.exception.status, 3)

    def test_damaged(self) -> None:
        base = b'---\nstore: confstore-1\nat: "0"\nconfigs: {}\n...\n'
        for kind, content in (
            (confstore.NotAStore, b"x\n...\n"),
            (confstore.Damaged, base + b'---\nat: "2"\nset: a\npath: ""\nvalue: x\n...\n'),
        ):
            write(os.path.join(self.folder, "store.yaml"), content)
            with self.assertRaises(kind) as caught:
                Store(self.folder)
            self.assertEqual(caught.exception.status, 1)

    def test_device(self) -> None:
        os.mkdir(os.path.join(self.folder, "store.yaml"))
        with self.assertRaises(confstore.Device):
            Store(self.folder)

    def test_a_program_that_says_nothing(self) -> None:
        program = self.program("")
        write(program, b"#!/bin/sh\nexec sleep 100\n")
        start = time.monotonic()
        with self.assertRaises(confstore.TimedOut):
            Store(self.folder, program=program, timeout=0.3)
        self.assertLess(time.monotonic() - start, 10)


class ReadingAlone(StoreTest):
    def calls(
        self,
    ) -> tuple[Callable[[], list[str]], Callable[[], list[Record]], Callable[[], Tree], Callable[[], View]]:
        reader = Reader(self.folder)
        self.supported(lambda: self.ignored(reader.names))
        return (reader.names, reader.log, lambda: reader.get("a"), lambda: reader.at(0))

    def ignored(self, call: Callable[[], object]) -> None:
        try:
            call()
        except SessionEnded:
            pass

    def test_no_store(self) -> None:
        for call in self.calls():
            with self.assertRaises(confstore.NotAStore) as caught:
                call()
            self.assertEqual((caught.exception.status, os.listdir(self.folder)), (1, []))

    def test_damaged(self) -> None:
        base = b'---\nstore: confstore-2\nat: "0"\nconfigs:\n  a: x\n...\n'
        for kind, content in (
            (confstore.NotAStore, b"x\n...\n"),
            (confstore.Damaged, base + b'---\nat: "2"\nset: a\npath: ""\nvalue: x\n...\n'),
        ):
            write(os.path.join(self.folder, "store.yaml"), content)
            for call in self.calls()[:3]:
                with self.assertRaises(kind) as caught:
                    call()
                self.assertEqual(caught.exception.status, 1)
            with open(os.path.join(self.folder, "store.yaml"), "rb") as source:
                self.assertEqual(source.read(), content)
            self.assertEqual(os.listdir(self.folder), ["store.yaml"])

    def test_a_torn_end(self) -> None:
        """What a crash has cut is no damage: it is the state before it."""
        base = b'---\nstore: confstore-2\nat: "0"\nconfigs:\n  a: x\n...\n'
        write(os.path.join(self.folder, "store.yaml"), base + b'---\nat: "1"\nset: a\npath: ""\nval')
        names, log, get, at = self.calls()
        self.assertEqual((names(), log(), get(), at().names()), (["a"], [], "x", ["a"]))

    def test_beside_a_session(self) -> None:
        """Each read is the state after some prefix of the commands, and never an older one than the read before."""
        store, reader, stop = self.store(), Reader(self.folder), threading.Event()
        wrong: list[tuple[int, int, list[int]]] = []
        store["a"] = {"n": "0"}
        self.supported(reader.names)

        def read() -> None:
            last = 0
            while not stop.is_set():
                found = int(str(reader.get("a", "/n")))
                numbers = [record.number for record in reader.log()]
                if found < last or numbers != list(range(1, len(numbers) + 1)) or len(numbers) <= found:
                    wrong.append((last, found, numbers[-3:]))
                last = found

        readers = [threading.Thread(target=read) for _ in range(2)]
        for thread in readers:
            thread.start()
        for number in range(1, 301):
            store.set("a", "/n", str(number))
        stop.set()
        for thread in readers:
            thread.join(60)
        self.assertEqual((wrong, reader.get("a", "/n"), reader.at(101).get("a", "/n")), ([], "300", "100"))


class Ending(StoreTest):
    def test_killed(self) -> None:
        store = self.store()
        store["a"] = "x"
        self.assertIsNone(store.end)
        os.kill(process_of(store).pid, signal.SIGKILL)
        for _ in range(2):
            with self.assertRaises(SessionEnded) as caught:
                store.set("a", "", "y")
            self.assertEqual(caught.exception.status, -signal.SIGKILL)
        self.assertIsInstance(store.end, SessionEnded)
        store.reopen()
        self.assertEqual((store["a"], store.checkpoint(), store.end), ("x", 1, None))

    def test_killed_among_threads(self) -> None:
        store = self.store()
        answered: dict[int, int] = {}
        ends: list[int | None] = []

        def append(number: int) -> None:
            try:
                for turn in range(10**6):
                    store.set(f"list{number}", "/-", f"n{turn}")
                    answered[number] = turn
            except SessionEnded as end:
                ends.append(end.status)

        for number in range(8):
            store[f"list{number}"] = []
        threads = [threading.Thread(target=append, args=(number,)) for number in range(8)]
        for thread in threads:
            thread.start()
        time.sleep(0.5)
        os.kill(process_of(store).pid, signal.SIGKILL)
        for thread in threads:
            thread.join(60)
        self.assertEqual(ends, [-signal.SIGKILL] * 8)
        store.reopen()
        for number, last in answered.items():
            numbers = store[f"list{number}"]
            self.assertEqual(numbers, [f"n{turn}" for turn in range(len(numbers))])
            self.assertIn(len(numbers), (last + 1, last + 2))

    def test_the_disk_is_full(self) -> None:
        """A limit of file sizes stands for a full device."""
        script = self.program("")
        write(script, f'#!/bin/sh\nulimit -f 1; exec "{os.environ["CONFSTORE"]}" "$@"\n'.encode())
        store = self.store(program=script)
        store["a"] = "x"
        with self.assertRaises(confstore.Device) as caught:
            store.set("a", "", "x" * 3_000)
        self.assertEqual(caught.exception.status, 3)
        store.close()
        with self.store() as store:
            self.assertEqual(store["a"], "x")

    def test_opened_again_by_many_threads(self) -> None:
        store = self.store()
        store["a"] = {"n": []}
        os.kill(process_of(store).pid, signal.SIGKILL)

        def append(number: int) -> int:
            while True:
                try:
                    return store.set("a", "/n/-", str(number))
                except SessionEnded:
                    store.reopen()

        threads = [threading.Thread(target=append, args=(number,)) for number in range(8)]
        for thread in threads:
            thread.start()
        for thread in threads:
            thread.join(60)
        held = store.get("a", "/n")
        self.assertEqual(sorted(map(str, held)), [str(number) for number in range(8)])

    def test_closed(self) -> None:
        store = self.store()
        store.close()
        store.close()
        with self.assertRaises(confstore.Closed):
            store.names()

    def test_dropped(self) -> None:
        store = Store(self.folder)
        process = process_of(store)
        del store
        gc.collect()
        self.assertEqual(process.wait(10), 0)

    def test_forked(self) -> None:
        store = self.store()
        child = os.fork()
        if child == 0:
            try:
                store.names()
            except confstore.Closed:
                store.close()
                os._exit(7)
            os._exit(8)
        self.assertEqual(os.waitstatus_to_exitcode(os.waitpid(child, 0)[1]), 7)
        self.assertEqual(store.names(), [])

    def test_the_length_that_a_session_takes(self) -> None:
        """The limit that is looked at here is the program's: one byte more ends a session."""
        session = self.store()._session
        fitting = b"#" * (LONGEST_COMMAND - 5) + b"\n...\n"
        self.assertEqual(session.ask(fitting, 60), b"---\nrefused: BadCommand\n...\n")
        with mock.patch.object(module, "LONGEST_COMMAND", LONGEST_COMMAND + 1):
            with self.assertRaises(confstore.CommandLong):
                session.ask(b"#" + fitting, 60)


class Limits(unittest.TestCase):
    def test_one_length_of_a_command(self) -> None:
        """The clients, the server and docs/STORE.md say the same."""
        rows = (
            ("docs/STORE.md", r"(?m)^\| a piece of a session.* \| ([0-9,]+) bytes \| `TooLong` \|$"),
            ("clients/serve_clients.py", r"(?m)^LONGEST = ([0-9_]+) "),
            ("clients/c/confstore.h", r"CONFSTORE_LONGEST_COMMAND \(\(size_t\)([0-9]+)\)"),
        )
        for file, pattern in rows:
            with open(os.path.join(TOP, file), encoding="utf-8") as source:
                found = re.search(pattern, source.read())
            assert found is not None, file
            self.assertEqual(int(found[1].replace(",", "")), LONGEST_COMMAND, file)


class Names(unittest.TestCase):
    def test_each_refusal_is_an_exception(self) -> None:
        """The names in the tables of docs/FAULTS.md on texts and commands, without the reasons of `Syntax`. `Comments`
        and `Unsettled` are only refused by `format`, `OneValue` by the word `import`, and others only by words that write
        a value in another form."""
        with open(os.path.join(TOP, "docs", "FAULTS.md"), encoding="utf-8") as source:
            parts = re.split(r"(?m)^## |^\| reason ", source.read())
        names: set[str] = set()
        for part in parts:
            if part.startswith(("Of a text", "Of a command")):
                for cell in re.findall(r"(?m)^\| (`.*?) \|", part):
                    names |= set(re.findall(r"`(\w+)`", cell))
        self.assertGreater(len(names), 15)
        others = names - set(confstore.faults.REFUSALS) - {"NotText", "NotCollection"}
        self.assertEqual(others, {"Comments", "OneValue", "Unsettled"})


class WrongAnswers(StoreTest):
    def test_a_cut_answer(self) -> None:
        self.set_fault(confstore.AnswerCut, "heard()\nsay(b'---\\nok: ')\n")
        self.set_fault(confstore.AnswerCut, "heard()\nsay(b'---\\nok: ')\nos.kill(os.getpid(), signal.SIGKILL)\n")

    def test_no_yaml(self) -> None:
        for answer in (b"---\n[\n...\n", b"\xff\n...\n", b"...\n", b"---\na\n---\nb\n...\n", b"---\nvalue: x\n...\n",
                       b"---\nok: x\n...\n", b"---\n- ok\n...\n"):  # fmt: skip
            body = f"heard()\nsay({answer!r})\nheard()\ntime.sleep(100)\n"
            self.assertIn("answer", str(self.set_fault(confstore.BadAnswer, body, timeout=20)))

    def test_the_session_is_over_after_a_wrong_answer(self) -> None:
        store = self.store(program=self.program("heard()\nsay(b'---\\n[\\n...\\n')\ntime.sleep(100)\n"))
        with self.assertRaises(confstore.BadAnswer):
            store.set("a", "", "x")
        with self.assertRaises(confstore.BadAnswer):
            store.names()

    def test_a_server_whose_store_was_replaced(self) -> None:
        fault = self.set_fault(confstore.StoreReplaced, "heard()\nsay(b'---\\nrefused: Replaced\\n...\\n')\nheard()\n")
        self.assertEqual((fault.word, fault.name), ("Replaced", "a"))

    def test_an_unknown_refusal(self) -> None:
        fault = self.set_fault(confstore.Refused, "heard()\nsay(b'---\\nrefused: Moonlight\\n...\\n')\nheard()\n")
        self.assertEqual(fault.word, "Moonlight")

    def test_no_answer(self) -> None:
        fault = self.set_fault(confstore.TimedOut, "heard()\ntime.sleep(100)\n", timeout=0.5)
        self.assertTrue(fault.sent)

    def test_a_program_that_does_not_read(self) -> None:
        """A pipe that is full: every call ends in its time, and so does closing."""
        store = self.store(program=self.program("time.sleep(100)\n"))
        store._timeout = 0.3
        start, sent = time.monotonic(), set()
        for _ in range(5):
            with self.assertRaises(confstore.TimedOut) as caught:
                store.import_text("a", "#" * (LONGEST_COMMAND - 200))
            sent.add(caught.exception.sent)
        self.assertEqual(sent, {True, False})
        store.close()
        self.assertLess(time.monotonic() - start, 30)

    def test_a_program_that_stays(self) -> None:
        """It closes its output, and does not go: it is killed."""
        program = self.program("os.close(1)\ntime.sleep(100)\n")
        with self.assertRaises(SessionEnded):
            self.store(program=program).names()

    def test_much_on_standard_error(self) -> None:
        body = "heard()\nfor _ in range(1000): os.write(2, b'x' * 1000 + b'\\n')\n"
        body += "os.write(2, b'confstore: Device\\n')\nsys.exit(3)\n"
        self.set_fault(confstore.Device, body)

    def test_a_cause_in_a_second_line(self) -> None:
        body = "heard()\nos.write(2, b'confstore: Device\\nstore.yaml: No space left on device\\n')\nsys.exit(3)\n"
        self.set_fault(confstore.Device, body)

    def test_old_programs(self) -> None:
        body = "".join("heard()\nsay(b'---\\nrefused: BadCommand\\n...\\n')\n" for _ in range(2)) + "heard()\n"
        store = self.store(program=self.program(body))
        with self.assertRaises(confstore.Unsupported), store.batch() as batch:
            batch.put("a", "x")
        script = self.program("")
        write(script, b"#!/bin/sh\necho \"error: unrecognized subcommand 'log'\" >&2; exit 2\n")
        with self.assertRaises(confstore.Unsupported):
            Reader(self.folder, program=script).log()


class ChangedAnswers(unittest.TestCase):
    """Bytes that are nearly answers: each is read as one, or is a fault of this package."""

    ANSWERS = (
        b'---\nok: "7"\n...\n',
        b"---\nrefused: NoConfig\n...\n",
        b'---\nvalue:\n  a: "1"\n  ? "k"\n  : |\n    x\n\n    y\n  l:\n    - []\n    - "\\u2028"\n...\n',
        b"---\nnames:\n  - a\n  - b\n...\n",
    )
    TOKENS = (
        b"!!int", b"!!binary", b"&a", b"*a", b"<<", b"? ", b"- ", b": ", b"{", b"}", b"[", b"]", b"|", b">", b"'", b'"',
        b"\t", b"\n", b"%YAML 1.1\n", b"---\n", b"#", b"\0", b"\xff", b"\xc2\x85", b"\xef\xbb\xbf", b"=", b"~",
    )  # fmt: skip

    def changed(self, chance: random.Random) -> bytes:
        answer = bytearray(chance.choice(self.ANSWERS))
        for _ in range(chance.randrange(1, 5)):
            place = chance.randrange(len(answer) + 1)
            if chance.randrange(3):
                answer[place : place + chance.randrange(3)] = chance.choice(self.TOKENS)
            else:
                answer[place : place + 1] = bytes([chance.randrange(256)])
        return bytes(answer)

    def test_each_is_read_or_told(self) -> None:
        answer = b""
        faults: list[ConfstoreError] = []

        class Silent(Session):
            def __init__(self) -> None:
                pass

            def ask(self, document: bytes, timeout: float) -> bytes:
                return answer

            def distrust(self, fault: ConfstoreError) -> None:
                faults.append(fault)

        store, chance, read = Store.__new__(Store), random.Random(3), 0
        store._session, store._timeout = Silent(), 1
        calls: list[Callable[[], object]] = [store.names, store.checkpoint, lambda: store.get("a")]
        for _ in range(3_000):
            answer = self.changed(chance)
            for call in calls:
                try:
                    call()
                    read += 1
                except confstore.ConfstoreError:
                    pass
        self.assertGreater(read, 30)
        self.assertGreater(len(faults), 100)
        for way in (b"[", b"{a: ", b"- ", b"? "):
            answer = b"---\nvalue:\n  " + way * 100_000 + b"\n...\n"
            with self.assertRaises(confstore.BadAnswer):
                store.get("a")


class Cutting(unittest.TestCase):
    def test_pieces(self) -> None:
        stream = b"...\na\n...\n....\n ...\n...\n\n...\nb...\nrest"
        pieces = [b"...\n", b"a\n...\n", b"....\n ...\n...\n", b"\n...\n"]
        for step in (1, 2, 3, 5, 100):
            cutter = Cutter()
            found: list[bytes] = []
            for place in range(0, len(stream), step):
                found += cutter.cut(stream[place : place + step])
            self.assertEqual((found, bytes(cutter.rest)), (pieces, b"b...\nrest"))


class Sockets(StoreTest):
    def test_no_server(self) -> None:
        for path in (os.path.join(self.top, "none"), self.folder, "x" * 200):
            with self.assertRaises(confstore.Disconnected):
                Session.connect(path, 1)


if __name__ == "__main__":
    unittest.main()
