"""Trials of those who watch the changes of a store through `clients/serve.py`, and of those who do it badly."""

from __future__ import annotations

import contextlib
import os
import re
import threading
import time
from collections.abc import Iterator

from lib.servers import BOUNDED, MEGABYTE, NAMES, PATIENCE, Client, Running, ServerTest

IMPORT = b"import: a\ntext: '{n: 0}'\n...\n"
CHECKPOINT = b"checkpoint:\n...\n"

# How many changes and checkpoints are made while others watch, and how many watch.
CHANGES, CHECKPOINTS, WATCHERS = 2_000, 10, 20

# How many files that a checkpoint has replaced may be open.
KEPT = 4


def set_to(number: int) -> bytes:
    return b"set: a\npath: /n\nvalue: 'v%d'\n...\n" % number


def asked(start: object = "") -> bytes:
    return f'watch: "{start}"\n...\n'.encode()


def begun(start: int) -> bytes:
    return f'---\nwatch: "{start}"\n...\n'.encode()


def cut(first: int, last: int) -> bytes:
    return f'---\ncut:\n  first: "{first}"\n  last: "{last}"\n...\n'.encode()


def told_of(client: Client, last: int) -> Iterator[range]:
    """The numbers that a watcher is told, or that are cut, up to the last one: a range for each document."""
    number = 0
    while number < last:
        piece = client.answer()
        record = re.match(rb'---\nat: "(\d+)"\n', piece)
        dropped = re.fullmatch(rb'---\ncut:\n  first: "(\d+)"\n  last: "(\d+)"\n\.\.\.\n', piece)
        if record is not None:
            number = int(record[1])
            yield range(number, number + 1)
        elif dropped is not None:
            number = int(dropped[2])
            yield range(number, int(dropped[1]) - 1, -1)  # downwards, so that it is told from one record
        else:
            raise AssertionError(piece[:200])


class WatchTest(ServerTest):
    def change(self, *commands: bytes) -> None:
        """Has commands accepted, each before the next one is sent."""
        client = self.client()
        for command in commands:
            self.assertEqual(client.ask(command)[:8], b"---\nok: ", command[:80])
        client.close()

    def watcher(self, start: object = "") -> Client:
        """A client that watches from a number on, or from the next change on."""
        client = self.client()
        found = re.fullmatch(rb'---\nwatch: "(\d+)"\n\.\.\.\n', client.ask(asked(start)))
        self.assertTrue(found is not None and start in ("", int(found[1])))
        return client

    def content(self) -> bytes:
        with open(os.path.join(self.folder, "store.yaml"), "rb") as file:
            return file.read()

    def records(self) -> list[bytes]:
        """The documents of the file after its base."""
        return re.findall(rb"(?s)(.*?\n\.\.\.\n)", self.content())[1:]


class Watches(WatchTest):
    def test_the_records(self) -> None:
        """Each is told as it stands in the file: those that are there, and then each as it is made."""
        self.serve()
        self.change(IMPORT, set_to(1))
        all_of_them, some, new = self.watcher(1), self.watcher(2), self.watcher()
        self.change(set_to(2), b"batch:\n  - delete: a\n    path: ''\n  - import: b\n    text: |\n      - x\n...\n")
        records = self.records()
        self.assertEqual(len(records), 4)
        for client, first in ((all_of_them, 0), (some, 1), (new, 2)):
            self.assertEqual([client.answer() for _ in records[first:]], records[first:])
            self.assertIsNone(client.next_byte())

    def test_forms(self) -> None:
        """One line of JSON asks too. What is no number is a command of the session, which has none of this name."""
        self.serve()
        self.change(IMPORT)
        for form in (b'---\nwatch: "1"\n...\n', b'{"watch": "1"}\n...\n', b'---\n{"watch": "1"}\n...\n'):
            client = self.client()
            self.assertEqual([client.ask(form), client.answer()], [begun(1), *self.records()])
        client = self.client()
        for form in (b"watch: 1\n...\n", b'watch: "-1"\n...\n', b'watch: "x"\n...\n', b"watch: []\n...\n"):
            self.assertEqual(client.ask(form), b"---\nrefused: BadCommand\n...\n")

    def test_after_a_command(self) -> None:
        """What was sent before is answered first."""
        self.serve()
        client = self.client()
        client.send(IMPORT + NAMES + asked())
        self.assertEqual(client.answer(), b'---\nok: "1"\n...\n')
        self.assertEqual(client.answer(), b"---\nnames:\n  - a\n...\n")
        self.assertEqual(client.answer(), begun(2))

    def test_checkpoints(self) -> None:
        """One that was told all goes on over a checkpoint; one that comes later is told what was cut."""
        self.serve()
        first = self.watcher(1)
        self.change(IMPORT, set_to(1))
        old = self.records()
        self.change(CHECKPOINT)
        self.change(set_to(2))
        self.assertEqual([first.answer() for _ in range(3)], [*old, *self.records()])
        late = self.watcher(1)
        self.assertEqual([late.answer() for _ in range(2)], [cut(1, 2), *self.records()])
        inside = self.watcher(2)
        self.assertEqual([inside.answer() for _ in range(2)], [cut(2, 2), *self.records()])

    def test_another_history(self) -> None:
        """One that asks for what is beyond the next change is told so, and then what comes."""
        self.serve()
        self.change(IMPORT)
        client = self.watcher(9)
        self.assertEqual(client.answer(), b'---\nreplaced:\n  after: "1"\n...\n')
        self.change(set_to(1))
        self.assertEqual([client.answer()], self.records()[1:])

    def test_a_long_record(self) -> None:
        self.serve()
        client = self.watcher()
        self.change(b"import: a\ntext: '" + b"x" * 3 * MEGABYTE + b"'\n...\n", b"import: a\ntext: x\n...\n")
        self.assertEqual([client.answer(), client.answer()], self.records())

    def test_sessions_that_are_renewed(self) -> None:
        server = self.serve("--renew-after", "300")
        sessions, client = {server.session()}, self.watcher(1)
        writer = self.client()
        writer.ask(IMPORT)
        for number in range(1, 60):
            writer.ask(set_to(number))
            sessions.add(server.session())
        self.assertGreater(len(sessions), 3)
        self.assertEqual([client.answer() for _ in range(60)], self.records())

    def test_many(self) -> None:
        """Each of many is told each change once, over checkpoints; those who begin later are, or that it was cut."""
        self.serve()
        self.change(IMPORT)
        heard: list[list[int]] = []

        def listen(client: Client) -> None:
            numbers = [number for part in told_of(client, CHANGES) for number in part]
            heard.append(numbers)

        early = [threading.Thread(target=listen, args=(self.watcher(1),)) for _ in range(WATCHERS)]
        late: list[threading.Thread] = []
        for thread in early:
            thread.start()
        writer, share = self.client(), CHANGES // CHECKPOINTS
        for number in range(2, CHANGES + 1):
            writer.send(set_to(number))
            if number % share == 0:
                while not writer.answer().startswith(b'---\nok: "%d"' % number):
                    pass
                self.assertEqual(writer.ask(CHECKPOINT), b'---\nok: "%d"\n...\n' % number)
                late.append(threading.Thread(target=listen, args=(self.watcher(number - 10),)))
                late[-1].start()
        for thread in early + late:
            thread.join(PATIENCE)
        self.assertEqual(len(heard), len(early) + len(late))
        wanted = list(range(1, CHANGES + 1))
        self.assertEqual([numbers for numbers in heard if numbers[0] == 1], [wanted] * WATCHERS)
        for numbers in heard:
            self.assertEqual(sorted(numbers), wanted[min(numbers) - 1 :])

    def test_a_file_that_was_written_by_hand(self) -> None:
        with open(os.path.join(self.folder, "store.yaml"), "wb") as file:
            file.write(b"store: confstore-2\nat: '0'\nconfigs:\n  a: {n: x}\n...\n")
        self.serve()
        client = self.client()
        self.assertEqual(client.ask(asked(1)), begun(1))
        self.assertEqual([client.answer(), client.answer()], [b"---\nrefused: NotInStyle\n...\n", b""])
        self.change(CHECKPOINT)
        client = self.watcher(1)
        self.change(set_to(1))
        self.assertEqual([client.answer()], self.records())


class HostileWatches(WatchTest):
    def files(self, server: Running) -> int:
        """How many files of the store the server has open that have no name any more."""
        folder, count = f"/proc/{server.process.pid}/fd", 0
        for name in os.listdir(folder):
            with contextlib.suppress(FileNotFoundError):
                count += os.readlink(os.path.join(folder, name)).endswith("store.yaml (deleted)")
        return count

    def test_watchers_that_do_not_read(self) -> None:
        """They cost little memory, hold nobody up, and are cut off. Few files that were replaced are kept for them."""
        server = self.serve("--max-unread", "3")
        self.change(IMPORT)
        deaf = [self.watcher(1) for _ in range(60)]
        before = server.kilobytes("VmHWM")
        for turn in range(8):
            self.change(b"import: b\ntext: '" + b"x" * 2 * MEGABYTE + b"'\n...\n", CHECKPOINT)
            self.change(b"import: b\ntext: '" + b"y" * 2 * MEGABYTE + b"'\n...\n")
            self.assertLessEqual(self.files(server), KEPT, turn)
            deaf += [self.watcher()]
        self.assert_served()
        self.assertLess(server.kilobytes("VmHWM") - before, 60_000)
        self.await_that(lambda: self.files(server) == 0, "no old file is kept")
        for client in deaf[:60]:
            while client.answer():
                pass
        self.assert_served()

    def test_one_that_waits_costs_nothing(self) -> None:
        server = self.serve()
        self.change(IMPORT)
        waiting = [self.watcher() for _ in range(100)]
        before = server.seconds_of_processor()
        time.sleep(1.5)
        self.assertLess(server.seconds_of_processor() - before, 0.2)
        self.change(set_to(1))
        self.assertEqual([client.answer() for client in waiting], self.records()[1:] * 100)

    def test_idle_watchers(self) -> None:
        """Where others wait, one that is told nothing is cut off as one that asks nothing."""
        self.serve("--max-clients", "4", "--max-wait", "1")
        watching = [self.watcher() for _ in range(4)]
        time.sleep(2.5)
        self.assertEqual([client.next_byte() for client in watching], [None] * 4)
        self.assert_served()
        self.assertEqual([client.next_byte() for client in watching].count(b""), 1)

    def test_another_command(self) -> None:
        """One that watches sends no commands: it is cut off, and its command is not performed."""
        self.serve()
        for more in (IMPORT, NAMES, asked(1)):
            client = self.watcher()
            client.send(more)
            self.assertEqual(client.answer(), b"")
        self.assertEqual(self.client().ask(NAMES), b"---\nnames: []\n...\n")

    def test_an_endless_command(self) -> None:
        server = self.serve()
        client = self.watcher()
        with self.assertRaises(OSError):
            for _ in range(400):
                client.send(b"#" * 65_536)
        self.assert_served(2)
        self.assertLess(server.kilobytes("VmHWM"), 80_000)

    def test_watchers_that_leave(self) -> None:
        server = self.serve()
        self.change(IMPORT)

        def count() -> int:
            return len(os.listdir(f"/proc/{server.process.pid}/fd"))

        used = count()
        for _ in range(30):
            client = self.client()
            client.send(asked(1))
            client.close()
        for _ in range(5):
            self.watcher(1).close()
        self.await_that(lambda: count() <= used, "the server has let go of all")

    def test_long_histories(self) -> None:
        """A long file is read in slices, and others are answered meanwhile."""
        self.serve()
        text = b"x" * 4 * MEGABYTE
        self.change(*[b"import: a%d\ntext: '%s'\n...\n" % (number, text) for number in range(14)])
        clients = [self.client() for _ in range(10)]
        for client in clients:
            client.send(asked(14))
        start = time.monotonic()
        self.assertEqual(self.client().ask(b"delete: a0\npath: ''\n...\n"), b'---\nok: "15"\n...\n')
        self.assertLess(time.monotonic() - start, BOUNDED)
        for client in clients:
            self.assertEqual(client.answer(), begun(14))
            self.assertEqual(len(client.answer()), len(self.records()[13]))
