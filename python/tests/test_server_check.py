"""`clients/serve.py --check`: a command judges each change before it is made, whoever sends it."""

from __future__ import annotations

import asyncio
import contextlib
import json
import os
import shlex
import signal
import socket
import subprocess
import sys
import threading
import time
import unittest
from unittest import mock

import confstore
from confstore import Absent, AsyncStore, CheckFailed, Condition, Count, Store, Test

from . import TOP
from .places import python_path
from .test_server import PATIENCE, ServerTest, errors_of, received

PROGRAM = os.environ.get("CONFSTORE", "confstore")

# Notes what it sees, and takes a text whose port is a number below 1,000.
CHECK = 'echo "$CONFSTORE_NAME: $(tr "\\n" " ")" >>$SEEN; tail -n 1 $SEEN | grep -Eq "port: \\"[0-9]{1,3}\\" " || ' \
    '{ echo line one; echo "no such port" >&2; exit 7; }'  # fmt: skip

REFUSED = b"---\nrefused: CheckFailed\n...\n"


def children_of(process: int) -> list[int]:
    """The processes below one, in order."""
    try:
        with open(f"/proc/{process}/task/{process}/children", encoding="ascii") as children:
            return [int(word) for word in children.read().split()]
    except FileNotFoundError:
        return []


def is_alive(process: int) -> bool:
    """Whether a process runs. One that has ended may be there until its parent asks for its status."""
    try:
        with open(f"/proc/{process}/stat", encoding="ascii") as stat:
            return stat.read().rpartition(") ")[2][0] not in "ZX"
    except FileNotFoundError:
        return False


def all_below(process: int) -> list[int]:
    return [found for child in children_of(process) for found in (child, *all_below(child))]


class CheckTest(ServerTest):
    def setUp(self) -> None:
        super().setUp()
        self.seen, self.temporary = os.path.join(self.top, "seen"), os.path.join(self.top, "tmp")
        os.mkdir(self.temporary)
        patch = mock.patch.dict(os.environ, {"TMPDIR": self.temporary, "SEEN": self.seen})
        patch.start()
        self.addCleanup(patch.stop)

    def check(self, command: str = CHECK, *options: str, errors: int | None = None) -> subprocess.Popen[bytes]:
        return self.serve("--check", command, *options, errors=errors)

    def end(self, process: subprocess.Popen[bytes], status: int = 0) -> None:
        """Ends a server, which leaves neither a process nor a file."""
        below = all_below(process.pid)
        process.terminate()
        self.assertEqual(process.wait(PATIENCE), status)
        self.assertEqual([pid for pid in below if is_alive(pid)], [])
        self.assertEqual(os.listdir(self.temporary), [])

    def saw(self) -> list[str]:
        """What the command has seen since the last call."""
        try:
            with open(self.seen, encoding="utf-8") as source:
                lines = source.read().splitlines()
        except FileNotFoundError:
            return []
        os.unlink(self.seen)
        return lines

    def until(self, path: str) -> None:
        """Waits for a file."""
        end = time.monotonic() + PATIENCE
        while not os.path.exists(path):
            self.assertLess(time.monotonic(), end, path)
            time.sleep(0.01)

    def refused(self, store: Store, name: str, tree: confstore.Tree) -> tuple[str, ...]:
        with self.assertRaises(CheckFailed) as caught:
            store.put(name, tree)
        return caught.exception.lines


class Judged(CheckTest):
    def test_changes_that_are_taken(self) -> None:
        process = self.check()
        store = self.connect()
        store["web"] = {"port": "80"}
        store.set("web", "/port", "81")
        store.import_text("dns", "# a comment\nport: 53")
        store.copy("web", "old")
        store.rename("old", "new")
        with store.batch() as batch:
            batch.set("web", "/port", "82")
            batch.put("mail", {"port": "25"})
            batch.delete("dns")
        store.delete("new")
        wanted = ["web: port: 80", "web: port: 81", "dns: port: 53", "old: port: 81", "new: port: 81", "web: port: 82"]
        wanted = [line.replace("port: ", 'port: "') + '" ' for line in [*wanted, "mail: port: 25"]]
        self.assertEqual(self.saw(), wanted)
        self.assertEqual(dict(store), {"web": {"port": "82"}, "mail": {"port": "25"}})
        self.assertEqual(store.checkpoint(), 7)
        self.end(process)

    def test_changes_that_are_refused(self) -> None:
        process = self.check()
        store = self.connect()
        store["web"] = {"port": "80"}
        count = store.set("web", "/port", "81")
        about = "the server's check ended with status 7 on web, so nothing was changed"
        for _ in range(3):
            self.assertEqual(self.refused(store, "web", {"port": "x"}), (about, "line one", "no such port"))
        with self.assertRaises(CheckFailed) as caught:
            store.delete("web", "/port")
        self.assertEqual(str(caught.exception).splitlines()[1:], [about, "line one", "no such port"])
        self.assertEqual((caught.exception.word, caught.exception.path), ("CheckFailed", "/port"))
        self.assertEqual(store["web"], {"port": "81"})
        self.refused(store, "other", {"port": "1000"})
        store.set("web", "/port", "1")
        self.end(process)
        with Store(self.folder) as again:
            self.assertEqual((dict(again), again.checkpoint()), ({"web": {"port": "1"}}, count + 1))

    def test_a_batch_of_which_one_is_refused(self) -> None:
        self.check()
        store = self.connect()
        store.update({"web": {"port": "80"}, "dns": {"port": "53"}})
        with self.assertRaises(CheckFailed) as caught, store.batch() as batch:
            batch.set("web", "/port", "81")
            batch.set("dns", "/port", "x")
            batch.set("web", "/port", "82")
            batch.put("mail", {"port": "25"})
        self.assertEqual(caught.exception.lines[0].split(" on ")[1], "dns, so nothing was changed")
        self.assertEqual(self.saw()[2:], ['web: port: "82" ', "dns: port: x "])
        self.assertEqual(dict(store), {"web": {"port": "80"}, "dns": {"port": "53"}})
        counts = store.perform_batches([[{"delete": "dns", "path": path}] for path in ("/port", "")])
        self.assertIsInstance(counts[0], CheckFailed)
        self.assertEqual((counts[1:], store.names()), ([2], ["web"]))

    def test_a_configuration_that_is_removed(self) -> None:
        with Store(self.folder) as alone:
            alone["old"] = {"port": "80"}
        self.check("exit 1")
        store = self.connect()
        self.assertEqual(len(self.refused(store, "web", "x")), 1)
        with store.batch() as batch:  # what is there after all edits is looked at
            batch.put("web", "x")
            batch.delete("web")
        store.delete("old")
        self.assertEqual((store.names(), store.checkpoint()), ([], 3))

    def test_what_the_program_refuses(self) -> None:
        self.check()
        connection = self.raw()
        pieces = (
            (b"set: none\npath: ''\nvalue: x\n", b"NoConfig"), (b"import: web\ntext: 'a: *b'\n", b"Syntax"),
            (b"import: Web\ntext: 'a: b'\n", b"BadName"), (b"batch: []\n", b"EmptyBatch"), (b"x: y\n", b"BadCommand"),
            (b"get: web\npath: ''\n---\nimport: web\ntext: x\n", b"BadCommand"), (b"", b"BadCommand"),
            (b"get: web\nimport: web\ntext: x\n", b"BadCommand"), (b"watch: x\ntext: y\n", b"BadCommand"),
            (b"delete: web\npath: x\n", b"NoConfig"), (b"if:\n  - count: '1'\ncheckpoint:\n", b"BadCommand"),
        )
        for piece, name in pieces:
            with self.subTest(piece):
                connection.sendall(piece + b"...\n")
                self.assertEqual(received(connection, 1), b"---\nrefused: %b\n...\n" % name)
        self.assertEqual((self.saw(), self.connect().names()), ([], []))

    def test_spellings(self) -> None:
        """The program reads the commands, however they are written."""
        self.check()
        connection = self.raw()
        ok, value = b'---\nok: "%d"\n...\n', b'---\nvalue: "80"\n...\n'
        for piece, answer in (
            (b"? import\n: web\n? text\n: 'port: 80'\n", ok % 1), (b"{get: web, path: /port}\n", value),
            (b"# set\n{'set': \"web\", path: /port,\n value: x}\n", REFUSED),
            (b"%YAML 1.2\n---\nset: web\npath: /port\nvalue: x\n", REFUSED),
            (b"? get\n: web\n? path\n: /port\n", value), (b"\n  names:\n", b"---\nnames:\n  - web\n...\n"),
            (b'{"set": "web", "path": "/port", "value": "8"}\n', ok % 2),
            (b"--- {if: [{count: '2'}], delete: web, path: ''}\n", ok % 3),
        ):
            with self.subTest(piece):
                connection.sendall(piece + b"...\n")
                self.assertEqual(received(connection, 1), answer)

    def test_names_and_texts(self) -> None:
        """Each text is the one that `confstore export` writes, under names that YAML has to quote, too."""
        self.check('cat >"$SEEN.$CONFSTORE_NAME"')
        store = self.connect()
        texts = ["", " ", "\n", "a\n \n  b\n\n", "- set: x", "set: x\n", "\n\n a", "...", "---\na\n...\n"]
        texts += ["\u2028\x07é", "x" * 200]
        mapping: confstore.Tree = {text: text for text in texts if text}
        trees: list[confstore.Tree] = [*texts, [], {}, [[*texts]], mapping, [{"a": [[], {}]}]]
        names = ["null", "true", "y", "e1", "on-", *(f"c{number}" for number in range(len(trees)))]
        with store.batch() as batch:
            for number, name in enumerate(names):
                batch.put(name, {"set": trees})
        for number, tree in enumerate(trees):
            store.set(f"c{number}", "", tree)
        for name in names:
            with open(f"{self.seen}.{name}", "rb") as source:
                self.assertEqual(source.read(), store.export(name).encode())

    def test_conditions(self) -> None:
        self.check()
        store = self.connect()
        store["web"] = {"port": "80"}
        store.set("web", "/port", "81", if_value="80")
        self.saw()
        with self.assertRaises(confstore.Unmet):
            store.set("web", "/port", "x", if_value="80")
        with self.assertRaises(confstore.Unmet):
            store.put("web", {"port": "1"}, if_absent=True)
        with self.assertRaises(confstore.Unmet):
            store.put("web", {"port": "1"}, if_count=1)
        self.assertEqual(self.saw(), [])
        self.refused(store, "web", {"port": "x"})
        unmet: tuple[list[Condition], ...] = ([Count(2), Absent("web")], [Count(3)], [Test("web", "/port", "80")])
        for when in unmet:
            with self.assertRaises(confstore.Unmet), store.batch(when=when) as batch:
                batch.set("web", "/port", "82")
        with store.batch(when=[Count(2), Absent("dns"), Test("web", "/port", "81")]) as batch:
            batch.set("web", "/port", "82")
        self.assertEqual(store.update("web", "/port", lambda port: str(int(str(port)) + 1)), 4)
        with self.assertRaises(CheckFailed):
            store.set("web", "/port", [], if_count=4)
        self.assertEqual(dict(store), {"web": {"port": "83"}})

    def test_a_schema(self) -> None:
        """The example of the page, with Debian's python3-jsonschema."""
        try:
            import jsonschema  # noqa: F401
        except ImportError:
            self.skipTest("there is no jsonschema")
        with open(os.path.join(TOP, "clients", "README.md"), encoding="utf-8") as page:
            code = page.read().split("```python\n")[1].split("```")[0]
        schema, judge = os.path.join(self.top, "web.schema.json"), os.path.join(self.top, "judge.py")
        with open(judge, "w", encoding="utf-8") as target:
            target.write(code)
        with open(schema, "w", encoding="utf-8") as target:
            json.dump({"type": "object", "properties": {"port": {"pattern": "^[0-9]+$"}}, "required": ["port"]}, target)
        self.check(shlex.join([sys.executable, judge, self.top]))
        store = self.connect()
        store["web"] = {"port": "80"}
        store["other"] = "whatever"
        self.assertEqual(self.refused(store, "web", {"port": "none"})[1:], ("/port: 'none' does not match '^[0-9]+$'",))
        self.assertEqual(store["web"], {"port": "80"})


class Commands(CheckTest):
    """What COMMAND is and does."""

    def test_one_that_takes_too_long(self) -> None:
        command = "[ $CONFSTORE_NAME != slow ] || { echo began; sleep 60 & sleep 60; }"
        process = self.check(command, "--check-timeout", "0.5")
        store = self.connect()
        start = time.monotonic()
        lines = ("the server's check took more than 0.5 seconds on slow, so nothing was changed", "began")
        self.assertEqual(self.refused(store, "slow", "x"), lines)
        self.assertLess(time.monotonic() - start, 10)
        store["quick"] = "x"
        self.assertEqual((store.names(), len(all_below(process.pid))), (["quick"], 2))
        self.end(process)

    def test_one_that_reads_nothing(self) -> None:
        self.check("exec <&-; test $CONFSTORE_NAME = a")
        store = self.connect()
        store["a"] = ["x" * 1_000] * 1_000
        self.assertEqual(len(self.refused(store, "b", ["x" * 1_000] * 1_000)), 1)
        self.assertEqual(len(store["a"]), 1_000)

    def test_one_that_is_not_there(self) -> None:
        self.check("/nonexistent/judge")
        about, more = self.refused(self.connect(), "a", "x")
        self.assertEqual(about, "the server's check ended with status 127 on a, so nothing was changed")
        self.assertIn("/nonexistent/judge", more)

    def test_what_it_says(self) -> None:
        """The last lines, with nothing that a terminal would take for more than a text."""
        self.check("cat >/dev/null; seq 100; printf ' \\033[1m\\\\\\t\\342\\200\\250\\377 \\n\\n'; kill -9 $$")
        lines = self.refused(self.connect(), "a", "x")
        self.assertEqual(lines[0], "the server's check ended with signal 9 on a, so nothing was changed")
        self.assertEqual(lines[1:], (*map(str, range(94, 101)), " \\u{1b}[1m\\\\\\t", "\ufffd"))

    def test_one_that_says_much(self) -> None:
        process = self.check("yes 'a long line' | head -c 300000000; exit 1", "--check-timeout", "20")
        lines = self.refused(self.connect(), "a", "x")
        self.assertEqual((len(lines), set(lines[2:])), (11, {"a long line"}))
        with open(f"/proc/{process.pid}/status", encoding="ascii") as status:
            size = int(next(line for line in status if line.startswith("VmHWM:")).split()[1])
        self.assertLess(size, 60_000)

    def test_what_it_gets(self) -> None:
        """Its three streams and no others, the name, the folder, and no ear of the manager."""
        with mock.patch.dict(os.environ, {"NOTIFY_SOCKET": "/nonexistent/x"}):
            open_ones = 'n=0; while [ $n -lt 300 ]; do [ ! -e /proc/$$/fd/$n ] || printf "$n " >&2; n=$((n+1)); done'
            told = 'echo "$CONFSTORE_NAME $CONFSTORE_FOLDER ${NOTIFY_SOCKET-none}"; exit 1'
            self.check(f"{open_ones}; {told}")
        self.assertEqual(self.refused(self.connect(), "a", "x")[1:], (f"0 1 2 a {self.folder} none",))

    def test_the_end_of_the_server(self) -> None:
        """No process is left, and the change is not made."""
        for number, how in enumerate((signal.SIGTERM, signal.SIGINT)):
            process = self.check("touch $SEEN; sleep 60 & (sleep 60; true); true", "--check-timeout", "50")
            connection = self.raw()
            connection.sendall(b"import: a\ntext: x\n...\n")
            self.until(self.seen)
            time.sleep(0.1)
            below = all_below(process.pid)
            self.assertGreaterEqual(len(below), 4)
            start = time.monotonic()
            process.send_signal(how)
            self.assertEqual((process.wait(PATIENCE), received(connection, 1)), (0, b""))
            self.assertLess(time.monotonic() - start, 5)
            self.assertEqual([pid for pid in below if is_alive(pid)], [], number)
            self.assertEqual(os.listdir(self.temporary), [])
            os.unlink(self.seen)
        with Store(self.folder) as store:
            self.assertEqual(store.names(), [])

    def test_a_server_that_was_killed(self) -> None:
        """The next server removes the copy that it has left, and not those of others."""
        process = self.check("true")
        self.connect()["a"] = "x"
        (left,) = os.listdir(self.temporary)
        self.assertEqual(os.stat(os.path.join(self.temporary, left)).st_mode & 0o777, 0o700)
        os.mkdir(os.path.join(self.temporary, "confstore-check-1-2-x"))
        process.kill()
        process.wait()
        time.sleep(0.5)
        process = self.check("true")
        self.connect()["a"] = "y"
        found = os.listdir(self.temporary)
        self.assertEqual((len(found), left in found, "confstore-check-1-2-x" in found), (2, False, True))

    def test_no_room_for_the_copy(self) -> None:
        program = self.program("")
        with open(program, "w", encoding="utf-8") as target:
            target.write(f'#!/bin/sh\n[ "$1" != backup ] || {{ echo no room; exit 3; }}\nexec {PROGRAM} "$@"\n')
        with mock.patch.dict(os.environ, {"CONFSTORE": program}):
            process = self.check("true", errors=subprocess.PIPE)
        self.assertEqual(process.wait(PATIENCE), 3)
        about = b"serve.py: no changes can be judged: the store can't be copied: no room: name a folder with room in "
        self.assertEqual(errors_of(process), about + b"TMPDIR\n")
        self.assertEqual(os.listdir(self.temporary), [])


class Together(CheckTest):
    """Several clients, and what becomes of the copy."""

    def test_two_clients_of_which_one_is_refused(self) -> None:
        self.check("sleep 0.2; " + CHECK)
        one, other = self.raw(), self.raw()
        one.sendall(b"import: a\ntext: 'port: x'\n...\nget: a\npath: ''\n...\nimport: a\ntext: 'port: 1'\n...\n")
        asks = b'check: ""\n...\n---\ncheck: "ab"\n...\n{"check": ""}\n...\n'
        other.sendall(b"import: b\ntext: 'port: 2'\n...\nget: b\npath: ''\n...\n" + asks)
        first, second = received(one, 3), received(other, 5)
        self.assertTrue(first.startswith(REFUSED + b"---\nrefused: NoConfig\n...\n---\nok: \""), first)
        self.assertTrue(second.startswith(b'---\nok: "1"\n...\n---\nvalue:\n  port: "2"\n...\n---\n'), second)
        self.assertTrue(second.endswith(3 * b'---\ntext: ""\n...\n'), second)
        one.sendall(b'check: ""\n...\n')
        self.assertEqual(received(one, 1).splitlines()[3:], [b"  line one", b"  no such port", b"..."])

    def test_a_hundred_changes(self) -> None:
        """None is lost, and each is judged on the state that it is performed on: the command sees what is stored."""
        store_path = shlex.quote(self.folder)
        self.check(
            f'new=$(tr "\\n" " "); old=$({PROGRAM} get {store_path} list | tr "\\n" " "); '
            'echo "$old" >>$SEEN; echo "$new" >>$SEEN; case "$new" in *bad*) exit 1;; esac'
        )
        first = self.connect()
        first["list"] = ["begin"]
        self.saw()
        stores = [self.connect() for _ in range(4)]
        taken: list[tuple[int, str]] = []
        wrong: list[str] = []

        def change(number: int) -> None:
            for turn in range(25):
                word = f"{'bad' if (turn + number) % 3 == 0 else 'good'}-{number}-{turn}"
                try:
                    taken.append((stores[number].set("list", "/-", word), word))
                except CheckFailed as fault:
                    if "bad" not in word or len(fault.lines) != 1:
                        wrong.append(word)

        threads = [threading.Thread(target=change, args=(number,)) for number in range(4)]
        for thread in threads:
            thread.start()
        for thread in threads:
            thread.join(PATIENCE * 2)
        words = [word for _, word in sorted(taken)]
        self.assertEqual((first["list"], wrong), (["begin", *words], []))
        self.assertEqual([count for count, _ in sorted(taken)], list(range(2, len(words) + 2)))
        lines = self.saw()
        self.assertEqual((len(lines), all("good" in word for word in words)), (200, True))
        state = "- begin "
        for old, new in zip(lines[::2], lines[1::2]):
            self.assertEqual((old, new.startswith(state)), (state, True))
            state = state if "bad" in new else new

    def test_a_slow_session(self) -> None:
        """No change is judged before the session has answered the one that was judged before it."""
        process = self.check()
        one, other = self.raw(), self.raw()
        session, copy = children_of(process.pid)
        os.kill(session, signal.SIGSTOP)
        one.sendall(b"import: a\ntext: 'port: 1'\n...\n")
        self.until(self.seen)
        other.sendall(b"import: b\ntext: 'port: 2'\n...\n")
        one.sendall(b"import: a\ntext: 'port: 3'\n...\n")
        time.sleep(1)
        with open(self.seen, encoding="utf-8") as source:
            seen = source.read()
        os.kill(session, signal.SIGCONT)
        self.assertEqual((received(one, 2) + received(other, 1)).split()[1::4], [b"ok:"] * 3)
        self.assertEqual((seen, len(self.saw()), copy in children_of(process.pid)), ('a: port: "1" \n', 3, True))

    def test_many_at_once(self) -> None:
        """What one client sends before it reads is answered in order, and each change of it is judged."""
        self.check()
        connection = self.raw()
        commands, wanted, port = [b"import: a\ntext: 'port: 0'\n...\n"], [b'---\nok: "1"\n...\n'], 0
        for number in range(1, 41):
            commands += [b"set: a\npath: /port\nvalue: %b\n...\n" % (b"x" if number % 3 else b"%d" % number)]
            commands += [b"get: a\npath: /port\n...\n"] * (number % 4)
            port += 0 if number % 3 else 1
            wanted += [REFUSED if number % 3 else b'---\nok: "%d"\n...\n' % (port + 1)]
            wanted += [b'---\nvalue: "%d"\n...\n' % (port * 3)] * (number % 4)
        connection.sendall(b"".join(commands))
        self.assertEqual(received(connection, len(wanted)), b"".join(wanted))
        self.assertEqual(len(self.saw()), 41)

    def test_a_reading_client_beside_a_slow_command(self) -> None:
        self.check("while [ ! -e $SEEN ]; do sleep 0.01; done", "--check-timeout", "60")
        writer, reader = self.raw(), self.connect()
        writer.sendall(b"import: a\ntext: x\n...\nnames:\n...\n")
        time.sleep(0.1)
        start = time.monotonic()
        for _ in range(100):
            self.assertEqual(reader.names(), [])
        self.assertLess(time.monotonic() - start, 10)
        writer.setblocking(False)
        self.assertRaises(BlockingIOError, writer.recv, 1)
        writer.settimeout(PATIENCE)
        with open(self.seen, "w", encoding="ascii"):
            pass
        self.assertEqual(received(writer, 2), b'---\nok: "1"\n...\n---\nnames:\n  - a\n...\n')

    def test_lines_of_many(self) -> None:
        """Each of the threads that share a store gets the lines of its own command."""
        self.check("cat; exit 1")
        store = self.connect()
        wrong: list[int] = []

        def change(number: int) -> None:
            for turn in range(10):
                word = f"w{number}-{turn}"
                if self.refused(store, "a", word)[1:] != (word,):
                    wrong.append(number)

        threads = [threading.Thread(target=change, args=(number,)) for number in range(6)]
        for thread in threads:
            thread.start()
        for thread in threads:
            thread.join(PATIENCE)
        self.assertEqual(wrong, [])
        other = self.raw()
        other.sendall(b'{"check": ""}\n...\n')
        self.assertEqual(received(other, 1), b'---\ntext: ""\n...\n')

    def test_a_client_that_leaves(self) -> None:
        """What it has sent is performed or not, and the others go on."""
        self.check("sleep 0.3; " + CHECK)
        gone = self.raw()
        gone.sendall(b"import: a\ntext: 'port: 1'\n...\nget: a\npath: ''\n...\nimport: a\ntext: 'port: 2'\n...\n")
        time.sleep(0.1)
        gone.close()
        store = self.connect()
        store["b"] = {"port": "3"}
        self.refused(store, "b", {"port": "x"})
        self.assertIn(store.names(), (["b"], ["a", "b"]))

    def test_a_lost_copy(self) -> None:
        """Nothing is performed unjudged, and another copy is made."""
        process = self.check()
        store = self.connect()
        store["a"] = {"port": "1"}
        _, copy = children_of(process.pid)
        os.kill(copy, signal.SIGKILL)
        time.sleep(0.2)
        (about,) = self.refused(store, "a", {"port": "2"})
        self.assertIn("the server's check can't be made, so nothing was changed: ", about)
        store["a"] = {"port": "3"}
        self.refused(store, "a", {"port": "x"})
        self.assertEqual((store["a"], store.checkpoint()), ({"port": "3"}, 2))
        self.end(process)

    def test_a_copy_that_refuses_more(self) -> None:
        """What the copy refuses is not performed, whatever the session would say."""
        program = self.program("")
        with open(program, "w", encoding="utf-8") as target:
            refuse = """sed -u 's/^ok: "2"/refused: JournalLong/'"""
            target.write(f'#!/bin/sh\n[ "$1 $2" = "run --" ] || exec {PROGRAM} "$@"\n{PROGRAM} "$@" | {refuse}\n')
        with mock.patch.dict(os.environ, {"CONFSTORE": program}):
            self.check()
        store = self.connect()
        store["a"] = {"port": "1"}
        with self.assertRaises(confstore.JournalLong):
            store["a"] = {"port": "2"}
        self.assertEqual((store["a"], len(self.saw())), ({"port": "1"}, 1))

    def test_another_session(self) -> None:
        """Where a session follows another one, the copy is made anew: others may have changed the store between."""
        process = self.check(CHECK, "--renew-after", "2000", errors=subprocess.PIPE)
        stores = [self.connect() for _ in range(3)]
        before = children_of(process.pid)[0]
        for number in range(60):
            stores[number % 3].put(f"c{number % 3}", {"port": str(number)})
            if number % 7 == 0:
                self.refused(stores[0], "c0", {"port": "x"})
        self.assertEqual((stores[0].checkpoint(), stores[1]["c2"]), (60, {"port": "59"}))
        self.assertNotIn(before, children_of(process.pid))
        self.end(process)

    def test_another_run_between_two_sessions(self) -> None:
        """A change of it is in the copy, too."""
        self.check(CHECK, "--renew-after", "1000", errors=subprocess.PIPE)
        store = self.connect()
        words = [PROGRAM, "import", "--wait", "20", self.folder, "other"]
        with subprocess.Popen(words, stdin=subprocess.PIPE) as run:
            assert run.stdin is not None
            run.stdin.write(b"port: 1\n")
            run.stdin.close()
            end = time.monotonic() + PATIENCE
            store["a"] = {"port": "1"}
            while run.poll() is None and time.monotonic() < end:
                store.names()
            self.assertEqual(run.wait(PATIENCE), 0)
        store.set("other", "/port", "2")
        with self.assertRaises(CheckFailed):
            store.set("other", "/port", "x")
        self.assertEqual(store["other"], {"port": "2"})

    def test_a_checkpoint(self) -> None:
        """One of a client, and one of the copy alone, which has grown."""
        self.check()
        store = self.connect()
        for number in range(30):
            store["a"] = {"port": str(number)}
            if number % 10 == 0:
                self.assertEqual(store.checkpoint(), number + 1)
                self.refused(self.connect(), "a", {"port": "x"})  # the server looks at the store for who connects
        for number in range(4):
            store["a"] = {"port": str(number), "more": ["x" * 1_000] * 900}
        self.refused(store, "a", {"port": "x"})
        self.assertEqual((store.set("a", "/port", "100"), store.get("a", "/port")), (35, "100"))

    def test_a_store_that_is_replaced(self) -> None:
        process = self.check("sleep 2", errors=subprocess.PIPE)
        connection = self.raw()
        connection.sendall(b"import: a\ntext: x\n...\n")
        time.sleep(0.3)
        os.rename(self.folder, self.folder + "-before")
        os.mkdir(self.folder)
        self.assertEqual(received(connection, 1), b"---\nrefused: Replaced\n...\n")
        self.assertEqual(process.wait(PATIENCE), 5)
        self.assertEqual(os.listdir(self.temporary), [])


class Clients(CheckTest):
    """The clients' own words for it."""

    def ctl(self, line: str, *more: str) -> tuple[int, list[str]]:
        words = [sys.executable, "-m", "confstore.ctl", "--socket", self.path, *line.split(), *more]
        environment = {**os.environ, "PYTHONPATH": python_path()}
        done = subprocess.run(words, capture_output=True, check=False, env=environment, cwd=self.top, timeout=60)
        return done.returncode, done.stderr.decode().splitlines()

    def test_confstorectl(self) -> None:
        self.check()
        self.connect()["web"] = {"port": "80"}
        about = "confstorectl: CheckFailed: the server's check ended with status 7 on {}, so nothing was changed"
        for line, name in (
            ("set store web /port x", "web"), ("delete store web /port", "web"),
            ("set store web /port x --if-count 1", "web"), ("set --insert store web /port x", "web"),
        ):  # fmt: skip
            with self.subTest(line):
                self.assertEqual(self.ctl(line), (1, [about.format(name), "line one", "no such port"]))
        self.assertEqual(self.ctl("set store web /port 81"), (0, []))
        self.assertEqual(self.ctl("rename store web site"), (0, []))
        self.assertEqual(self.ctl("set store site /port 82", "--check", "grep -q 82"), (0, []))
        lines = self.ctl("set store site /port 8222", "--check", "grep -q 82")[1]
        self.assertEqual(lines[1:], ["line one", "no such port"])
        self.assertEqual(self.connect()["site"], {"port": "82"})

    def test_asyncio(self) -> None:
        self.check()

        async def change() -> None:
            async with AsyncStore.connect(self.path) as store:
                await store.put("web", {"port": "80"})
                with self.assertRaises(CheckFailed) as caught:
                    await store.set("web", "/port", "x")
                self.assertEqual(caught.exception.lines[1:], ("line one", "no such port"))
                with self.assertRaises(CheckFailed) as caught:
                    await asyncio.gather(store.set("web", "/port", "81"), store.put("dns", {}), store.names())
                self.assertEqual(caught.exception.lines[1:], ("line one", "no such port"))
                self.assertEqual(await store.get("web"), {"port": "81"})

        asyncio.run(change())

    def test_the_counter(self) -> None:
        metrics = os.path.join(self.top, "metrics")
        self.check(CHECK, "--metrics", metrics)
        store = self.connect()
        for port in ("1", "x", "2", "y"):
            with contextlib.suppress(CheckFailed):
                store["a"] = {"port": port}
        with socket.socket(socket.AF_UNIX) as connection:
            connection.connect(metrics)
            connection.sendall(b"GET /metrics HTTP/1.1\r\n\r\n")
            told = b"".join(iter(lambda: connection.recv(65_536), b"")).decode()
        self.assertIn("\nconfstore_check_refusals_total 2\n", told)
        self.assertIn('\nconfstore_refusals_total{name="CheckFailed"} 2\n', told)


if __name__ == "__main__":
    unittest.main()
