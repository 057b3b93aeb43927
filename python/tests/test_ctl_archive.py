"""confstorectl's `checkpoint --archive`, and the words that look into archives."""

from __future__ import annotations

import contextlib
import errno
import json
import os
import random
import re
import shutil
import signal
import subprocess
import sys
import tempfile
import threading
import time
from collections.abc import Callable, Iterator
from typing import IO, Any
from unittest import mock

from confstore import Reader, Store, ctl, ctl_archiving, ctl_changes, ctl_history
from confstore.ctl_archiving import TRIES, Archive, Replaced
from confstore.ctl_places import Place
from confstore.ctl_sockets import Command, Reply
from confstore.style import Tree

from . import TOP
from .places import python_path
from .test_ctl_back import PATIENCE, START, HistoryTest

SERVER = os.path.join(TOP, "clients", "serve.py")

# How many runs are killed, of words and of what they have started.
KILLS = 6

# What each number of the store of `Reading` has: the values of /port of web, and of /server of dns.
PORTS = [None, "80", "81", "82", "82", "83"]
SERVERS = [None, None, None, None, "s", "s"]

LOG = ["1 batch import web; import dns", '2 set web "/port"', '3 set web "/port"', '4 set dns "/server"',
       '5 set web "/port"']  # fmt: skip


class ArchiveTest(HistoryTest):
    def ctl(self, *words: str, given: str = "") -> "tuple[int, str, str]":
        """The same as in a process of its own, but in this one, which has imported all."""
        streams = [tempfile.TemporaryFile() for _ in (1, 2)]
        kept = [os.dup(number) for number in (1, 2)]
        try:
            with mock.patch.object(tempfile, "tempdir", self.top):
                for number, stream in enumerate(streams, 1):
                    os.dup2(stream.fileno(), number)
                status = ctl.perform_words([words[0], self.folder, *words[1:]])
        finally:
            for number, end in enumerate(kept, 1):
                os.dup2(end, number)
                os.close(end)
        self.assertEqual([name for name in os.listdir(self.top) if name.startswith("confstorectl-")], [])
        output, errors = (read_all(stream) for stream in streams)
        return status, output, errors

    def ctl_alone(self, *words: str) -> "tuple[int, str, str]":
        """In a process of its own, of which several run at once."""
        return super().ctl(*words)

    def path(self, name: str) -> str:
        return os.path.join(self.top, name)

    def archives(self, *names: str) -> "list[str]":
        return [word for name in names for word in ("--archive", self.path(name))]

    def log(self, *archives: str) -> "list[str]":
        return self.does("log", *self.archives(*archives)).splitlines()

    def numbers(self, *archives: str) -> "list[int]":
        """The numbers of the commands that the archives and the store have."""
        return [int(line.partition(" ")[0]) for line in self.log(*archives)]

    def archive(self, name: str) -> int:
        """The status of a checkpoint with an archive."""
        return self.ctl("checkpoint", *self.archives(name))[0]

    def has_whole_log(self, last: int) -> None:
        """Looks whether nothing was dropped."""
        self.assertEqual(self.numbers(), list(range(1, last + 1)))


class Reading(ArchiveTest):
    """Five commands, of which the second and the fourth one are the last before a checkpoint."""

    def setUp(self) -> None:
        super().setUp()
        self.does("set", "web", "/port", "81")
        self.does("checkpoint", *self.archives("one"))
        self.does("set", "web", "/port", "82")
        self.does("set", "dns", "/server", "s")
        self.does("checkpoint", *self.archives("two"))
        self.does("set", "web", "/port", "83")
        self.both = self.archives("two", "one")

    def test_log(self) -> None:
        self.assertEqual(self.log(), LOG[4:])
        self.assertEqual(self.log("two"), LOG[2:])
        for archives in (["one", "two"], ["two", "one"], ["one", "two", "one"]):
            self.assertEqual(self.log(*archives), LOG)
        for words, wanted in (
            (["--from", "2", "--to", "4"], LOG[1:4]), (["--from", "3"], LOG[2:]), (["--to", "2"], LOG[:2]),
            (["--at", "3"], LOG[:3]), (["--from", "5"], LOG[4:]), (["--from", "6"], []), (["--to", "0"], []),
            (["dns"], [LOG[0], LOG[3]]), (["web", "--from", "2", "--to", "4"], LOG[1:3]), (["none"], []),
        ):  # fmt: skip
            self.assertEqual(self.does("log", *words, *self.both).splitlines(), wanted, words)

    def test_log_in_other_forms(self) -> None:
        values = self.does("log", "web", "--values", "--hide", "/hosts", "--hide", "/tls/key", *self.both).splitlines()
        whole = '{"port":"80","hosts":hidden,"tls":{"cert":"c","key":hidden}}'
        self.assertEqual(values[0], f"1 batch import web {whole}; import dns {{}}")
        self.assertEqual(values[1:], [f'{number} set web "/port" "{PORTS[number]}"' for number in (2, 3, 5)])
        records = self.does("log", "--yaml", *self.both).encode()
        pieces = b""
        for folder in (self.path("one"), self.path("two"), self.folder):
            with open(os.path.join(folder, "store.yaml"), "rb") as source:
                pieces += source.read().partition(b"\n...\n")[2]  # without the base
        self.assertEqual(records, pieces)

    def test_what_the_store_was(self) -> None:
        for number in range(1, 6):
            at = ["--at", str(number), *self.both]
            self.assertEqual(self.does("get", "web", "/port", "--raw", *at), f"{PORTS[number]}\n")
            self.assertEqual(self.ctl("exists", "dns", "/server", *at)[0], 0 if SERVERS[number] else 1)
            self.assertEqual(self.does("names", *at), "web\ndns\n")
            self.assertEqual(self.does("keys", "dns", *at), "server\n" if SERVERS[number] else "")
        self.assertEqual(self.does("names", "--at", "0", *self.both), "")
        several = self.does("get", "web", "/port", "/tls/key", "--env", "--at", "3", *self.both)
        self.assertEqual(several, 'port="82"\ntls_key="k"\n')
        self.assertEqual(self.does("get", "dns", "/server", "--default", "x", "--raw", "--at", "2", *self.both), "x\n")

    def test_diff(self) -> None:
        def lines(*words: str) -> "list[str]":
            status, output, errors = self.ctl("diff", *words, "--lines", *self.both)
            self.assertEqual((status, errors), (1 if output else 0, ""), words)
            return output.splitlines()

        self.assertEqual(lines("web", "--from", "1"), ['- /port "80"', '+ /port "83"'])
        self.assertEqual(lines("--from", "5", "--to", "2"),
                         ['- web /port "83"', '+ web /port "81"', '- dns /server "s"'])  # fmt: skip
        self.assertEqual(lines("dns", "--from", "1", "--to", "3"), [])
        self.assertEqual(lines("dns"), ['+ {"server":"s"}'])
        self.assertEqual(lines("--from", "3", "--to", "4"), ['+ dns /server "s"'])
        # from the oldest state that an archive has
        status, output, _ = self.ctl("diff", "--lines", *self.archives("two"))
        self.assertEqual((status, output), (1, '- web /port "81"\n+ web /port "83"\n+ dns /server "s"\n'))

    def test_page(self) -> None:
        page = self.does("page", "--hide", "/tls/key", *self.both)
        data = data_of(page)
        self.assertEqual([record["number"] for record in data["records"]], [1, 2, 3, 4, 5])
        self.assertEqual((data["title"], data["start"], data["configs"]), ("store", 0, {"pairs": []}))
        self.assertNotIn('"k"', page)
        self.does("checkpoint", *self.archives("three"))
        data = data_of(self.does("page", *self.archives("three", "two")))
        self.assertEqual(([record["number"] for record in data["records"]], data["start"]), ([3, 4, 5], 2))
        self.assertEqual([name for name, _ in data["configs"]["pairs"]], ["web", "dns"])

    def test_undo_and_rollback(self) -> None:
        # /port has another value now than the second and the third command left
        self.assertIn("web /port", self.is_refused("Unmet: ", "undo", "2..3", *self.both))
        self.does("undo", "4", *self.archives("two"))
        self.assertEqual(self.trees()["dns"], {})
        self.does("rollback", "web", "--to", "1", *self.both)
        self.assertEqual(self.trees(), START)
        self.does("rollback", "web", "--to", "0", *self.both)
        self.assertEqual(self.trees(), {"dns": {}})
        self.is_refused("NoSuchCommand: ", "rollback", "web", "--to", "1", *self.archives("two"))
        self.is_refused("NoSuchCommand: ", "undo", "2", *self.archives("two"))

    def test_numbers_that_are_not_there(self) -> None:
        for words, first in (
            (["log", "--to", "6", *self.both], 0), (["log", "--to", "1", *self.archives("two")], 2),
            (["get", "web", "--at", "6", *self.both], 0), (["names", "--at", "1", *self.archives("two")], 2),
            (["diff", "--from", "1", *self.archives("two")], 2), (["diff", "--to", "6", *self.both], 0),
        ):  # fmt: skip
            line = self.is_refused("NoSuchCommand: ", *words)
            where = ", ".join([*[f"{self.path('one')} from 0 to 2"][first:], f"{self.path('two')} from 2 to 4",
                               f"{self.folder} from 4 to 5"])  # fmt: skip
            self.assertIn(f": the archives and the store have the numbers from {first} to 5: {where}\n", line)

    def test_archives_that_overlap(self) -> None:
        """As where a checkpoint was cut off after its archive was made, and where a backup is one."""
        self.does("backup", self.path("three"))
        self.does("set", "web", "/port", "84")
        self.does("backup", self.path("four"))
        self.does("checkpoint", *self.archives("five"))
        wanted = [*LOG, '6 set web "/port"']
        self.assertEqual(self.log("one", "two", "three", "four", "five"), wanted)
        self.assertEqual(self.log("five", "four", "two", "one"), wanted)
        self.does("set", "web", "/port", "85")
        self.assertEqual(self.log("one", "two", "five"), [*wanted, '7 set web "/port"'])
        self.assertEqual(self.numbers("five"), [5, 6, 7])
        self.assertEqual(self.does("get", "web", "/port", "--raw", "--at", "6", *self.archives("five")), "84\n")

    def test_a_gap(self) -> None:
        self.does("checkpoint", *self.archives("three"))
        self.does("set", "web", "/port", "86")
        for archives, numbers in (
            (["one"], "the commands from 3 to 5 are"), (["three", "one"], "the commands from 3 to 4 are"),
            (["one", "two"], "command 5 is"),
        ):  # fmt: skip
            for words in (["log"], ["get", "web", "--at", "6"], ["diff"], ["page"]):
                line = self.is_refused("Gap: ", *words, *self.archives(*archives))
                self.assertIn(f": {numbers} in no folder that was given ({self.path(archives[-1])} from ", line)
                self.assertNotIn("kept.yaml", line)
        shutil.copy(os.path.join(self.path("three"), "store.yaml"), os.path.join(self.path("two"), "kept.yaml"))
        line = self.is_refused("Gap: ", "log", *self.archives("one", "two"))
        self.assertIn(f"{self.path('two')}/kept.yaml may have them", line)

    def test_another_store(self) -> None:
        kept = self.folder
        self.folder = self.path("other")
        with Store(self.folder, make=True) as store:
            store.update(START)
            store.set("web", "/port", "99")
        self.does("backup", self.path("like-one"))  # numbers 0 to 2, and another state at 2
        with Store(self.folder) as store:
            store.checkpoint()
            store.set("web", "/port", "81")
            store.set("web", "/port", "82")
            store.set("web", "/port", "83")
        self.does("backup", self.path("like-two"))  # numbers 2 to 5, and another state at 2
        self.folder = kept
        self.does("backup", self.path("now"))
        for archives in (["like-one", "two"], ["one", "like-two"], ["like-two"], ["two", "like-two"]):
            line = self.is_refused("OtherArchive: ", "log", *self.archives(*archives))
            self.assertRegex(line, r"an archive is one of another store, or of another time of this one: .*\n\Z")
        self.assertIn("are two states after command 2\n",
                      self.is_refused("OtherArchive: ", "page", *self.archives("like-one", "two")))  # fmt: skip
        # the same state where the files meet, and another command after that
        shutil.rmtree(self.folder)
        shutil.copytree(self.path("two"), self.folder)
        self.does("set", "web", "/port", "84")
        line = self.is_refused("OtherArchive: ", "log", *self.archives("now", "two"))
        self.assertIn("two commands with the number 5\n", line)
        # more than the store has
        shutil.rmtree(self.folder)
        shutil.copytree(self.path("two"), self.folder)
        line = self.is_refused("OtherArchive: ", "get", "web", "--at", "3", *self.archives("now", "two"))
        self.assertIn(f"{self.path('now')} has command 5, and {self.folder} ends with 4\n", line)

    def test_an_archive_that_can_not_be_read(self) -> None:
        status, output, errors = self.ctl("log", *self.archives("none"))
        self.assertEqual((status, output), (3, ""))
        self.assertTrue(errors.endswith(f"\n{self.path('none')}: it can't be read as an archive\n"), errors)
        with open(os.path.join(self.path("one"), "store.yaml"), "r+b") as file:
            text = file.read()
            file.seek(text.index(b'at: "2"'))
            file.write(b'at: "7"')
        self.assertTrue(self.is_refused("Damaged", "log", *self.both).endswith(": it can't be read as an archive\n"))

    def test_wrong_words(self) -> None:
        for words in (
            ["get", "web", *self.both], ["names", *self.both], ["keys", "web", *self.both], ["exists", "web", *self.both],
            ["diff", "web", "--files", *self.both], ["checkpoint", *self.both], ["checkpoint", "--archive", ""],
            ["log", "--archive", ""], ["log", "--archive"], ["export", "web", *self.both], ["verify", *self.both],
        ):  # fmt: skip
            status, output, errors = self.ctl(*words)
            self.assertEqual((status, output), (2, ""), words)
            self.assertIn("WrongWords", errors)

    def test_a_checkpoint_that_comes_while_it_is_read(self) -> None:
        """What it dropped is not left out in silence. A command that comes is no part of what is read."""
        read = ctl_history.performed

        def performed(words: "list[str]") -> Any:
            if words[0] == "log":
                with Store(self.folder) as store:
                    store.set("web", "/port", "84")
                    if is_checkpoint:
                        store.checkpoint()
            return read(words)

        with mock.patch("confstore.ctl_archives.performed", performed):
            is_checkpoint = False
            self.assertEqual(self.log("one", "two"), LOG)
            is_checkpoint = True
            self.assertIn("Gap: the commands from 5 to 7 are in no folder", self.ctl("log", *self.both)[2])


class CutEnds(ArchiveTest):
    def test_a_file_with_a_cut_end(self) -> None:
        """The opening drops its commands, and the archive has them."""
        self.does("set", "web", "/port", "81")
        with open(os.path.join(self.folder, "store.yaml"), "ab") as file:
            file.write(b'---\nat: "3"\nset: web\n')
        status, output, errors = self.ctl("checkpoint", *self.archives("new"))
        self.assertEqual((status, output), (0, ""))
        self.assertIn("bytes of store.yaml were dropped", errors)
        self.assertEqual((self.log(), self.numbers("new")), ([], [1, 2]))


class Archiving(ArchiveTest):
    """A store of three commands."""

    def setUp(self) -> None:
        super().setUp()
        self.does("set", "web", "/port", "81")
        self.does("set", "web", "/port", "82")

    def test_what_it_leaves(self) -> None:
        with open(os.path.join(self.folder, "store.yaml"), "rb") as file:
            before = file.read()
        self.does("checkpoint", *self.archives("new"))
        self.assertEqual(self.log(), [])
        with open(os.path.join(self.path("new"), "store.yaml"), "rb") as file:
            self.assertEqual(file.read(), before)
        self.assertEqual(sorted(os.listdir(self.path("new"))), ["store.yaml"])
        self.assertEqual(self.numbers("new"), [1, 2, 3])
        # a folder that is there, and one without a new command
        os.mkdir(self.path("empty"))
        self.does("checkpoint", *self.archives("empty"))
        self.assertEqual(self.numbers("empty"), [])
        self.assertEqual(self.numbers("empty", "new"), [1, 2, 3])

    def test_the_store_is_synced_first(self) -> None:
        """What a copy has is on the disk in the store before there is an archive: else a power cut could take a command
        back there that the archive has."""
        path, archive = os.path.join(self.folder, "store.yaml"), os.path.join(self.path("new"), "store.yaml")
        synced: "list[tuple[int, bool]]" = []
        sync = os.fsync

        def noted(opened: int) -> None:
            synced.append((os.fstat(opened).st_ino, os.path.exists(archive)))
            sync(opened)

        before = [(os.stat(place).st_ino, False) for place in (path, self.folder)]
        with mock.patch.object(os, "fsync", noted):
            archiving = ctl_archiving.Archive(self.folder, self.path("new"))
            archiving.make()
        self.assertEqual(synced[:2], before)
        self.assertEqual(synced[2:], [(os.stat(place).st_ino, True) for place in (self.path("new"), self.top)])
        self.assertEqual(archiving.last, 3)
        archiving.drop()
        self.assertFalse(os.path.exists(self.path("new")))

    def test_what_a_run_has_left(self) -> None:
        """A copy of a run that was cut off goes with the next one."""
        os.makedirs(os.path.join(self.path("new"), "copy-left", "deeper"))
        self.does("checkpoint", *self.archives("new"))
        self.assertEqual(os.listdir(self.path("new")), ["store.yaml"])
        self.assertEqual(self.numbers("new"), [1, 2, 3])

    def test_what_is_refused(self) -> None:
        self.does("backup", self.path("new"))
        os.mkdir(self.path("without"))
        with open(self.path("file"), "wb"):
            pass
        for name, status, fault in (
            ("new", 1, "StoreExists"), (os.path.join("none", "new"), 3, "Device"), ("file", 3, "Device"),
            ("store", 1, "StoreExists"),
        ):  # fmt: skip
            found, output, errors = self.ctl("checkpoint", *self.archives(name))
            self.assertEqual((found, output), (status, ""), errors)
            self.assertTrue(errors.startswith(f"confstorectl: {fault}: "), errors)
            self.has_whole_log(3)
        self.assertEqual(sorted(os.listdir(self.path("new"))), ["store.lock", "store.yaml"])
        for folder, fault in (("without", "NotAStore"), ("none", "Device")):
            self.folder = self.path(folder)
            self.assertIn(fault, self.ctl("checkpoint", *self.archives("other"))[2])
            self.assertFalse(os.path.exists(self.path("other")))

    def test_a_store_that_is_held(self) -> None:
        with Store(self.folder) as store:
            store.names()
            self.assertEqual(self.ctl("checkpoint", *self.archives("new"))[0], 3)
            self.assertFalse(os.path.exists(self.path("new")))
            os.mkdir(self.path("there"))
            self.assertEqual(self.ctl("checkpoint", *self.archives("there"))[0], 3)
            self.assertNotIn("store.yaml", os.listdir(self.path("there")))
            threading.Timer(1, store.close).start()
            self.does("checkpoint", "--wait", "30", *self.archives("new"))
        self.assertEqual((self.log(), self.numbers("new")), ([], [1, 2, 3]))

    def test_a_command_that_comes_between(self) -> None:
        with self.after_copies(["/n"]):
            self.assertEqual(self.archive("new"), 0)
        self.assertEqual((self.log(), self.numbers("new")), ([], [1, 2, 3, 4]))

    def test_a_checkpoint_that_comes_between(self) -> None:
        """The archive stays, as nothing else has what it has."""
        with self.after_copies(["/n"], is_checkpoint=True):
            self.assertEqual(self.archive("new"), 1)
        self.assertEqual([record.number for record in Reader(self.path("new")).log()], [1, 2, 3])
        self.assertEqual(Reader(self.folder).get("web", "/n"), "x")

    def test_two_at_once(self) -> None:
        """Both archives are whole, and what a writer adds meanwhile is in one of them, or in the store."""
        stop = threading.Event()
        count = [3]

        def write() -> None:
            while not stop.is_set():
                if self.ctl_alone("set", "web", "/n", str(count[0]), "--wait", "30")[0] == 0:
                    count[0] += 1

        writer = threading.Thread(target=write)
        writer.start()
        names = []
        for number in range(2):
            both = [f"a{number}", f"b{number}"]
            statuses: "list[int]" = []
            def archive(name: str) -> None:
                statuses.append(self.ctl_alone("checkpoint", "--wait", "30", *self.archives(name))[0])

            threads = [threading.Thread(target=archive, args=(name,)) for name in both]
            for thread in threads:
                thread.start()
            for thread in threads:
                thread.join()
            self.assertIn(0, statuses)
            names += [name for name in both if os.path.exists(os.path.join(self.path(name), "store.yaml"))]
        stop.set()
        writer.join()
        self.assertEqual(self.numbers(*names), list(range(1, count[0] + 1)))

    def test_two_into_one_folder(self) -> None:
        """One of them makes it, at most, and nothing is lost."""
        statuses: "list[int]" = []
        def archive() -> None:
            statuses.append(self.ctl_alone("checkpoint", "--wait", "30", *self.archives("new"))[0])

        threads = [threading.Thread(target=archive) for _ in range(3)]
        for thread in threads:
            thread.start()
        for thread in threads:
            thread.join()
        self.assertLessEqual(statuses.count(0), 1)
        self.assertEqual(self.numbers(*["new"] * statuses.count(0)), [1, 2, 3])

    def test_kills(self) -> None:
        """Where it is killed, or what it has started, each command is in the archive or in the store."""
        chance, last, archives = random.Random(7), 3, []
        words = [sys.executable, "-m", "confstore.ctl", "checkpoint", self.folder]
        for number in range(KILLS):
            name = f"archive-{number}"
            environment = {**os.environ, "PYTHONPATH": python_path()}
            process = subprocess.Popen([*words, *self.archives(name)], env=environment, stderr=subprocess.DEVNULL)
            time.sleep(chance.uniform(0.05, 0.5))
            kill(process, chance)
            left = os.listdir(self.path(name)) if os.path.exists(self.path(name)) else []
            archives += [name] if "store.yaml" in left else []
            self.assertEqual(self.numbers(*archives), list(range(1, last + 1)), (number, archives))
            status, _, errors = self.ctl("checkpoint", "--wait", "30", *self.archives(name))
            fault = "StoreExists" if "store.yaml" in left else "FileExists" if "kept.yaml" in left else ""
            self.assertEqual((status, fault in errors), (1 if fault else 0, True), errors)
            archives += [] if fault else [name]
            self.does("set", "web", "/n", str(number), "--wait", "30")
            last += 1
        self.assertEqual(self.numbers(*archives), list(range(1, last + 1)))

    @contextlib.contextmanager
    def after_copies(self, paths: "list[str]", is_checkpoint: bool = False) -> Iterator[None]:
        """Has a place of web changed after each of the first copies that are made, and a checkpoint made if asked."""
        make, left = Archive.make, list(paths)

        def made(archive: Archive) -> None:
            make(archive)
            for path in left[:1]:
                del left[0]
                self.change(path)
                if is_checkpoint:
                    self.does("checkpoint")

        with mock.patch.object(Archive, "make", made):
            yield

    def change(self, path: str) -> None:
        self.does("set", "web", path, "x")


class Served(Archiving):
    """The same where a server holds the store."""

    def setUp(self) -> None:
        super().setUp()
        self.socket = os.path.join(self.folder, "confstore.sock")
        environment = {**os.environ, "PYTHONPATH": python_path()}
        self.server = subprocess.Popen([sys.executable, SERVER, self.socket, self.folder], env=environment)
        self.addCleanup(self.end)
        deadline = time.monotonic() + PATIENCE
        while not os.path.exists(self.socket) and time.monotonic() < deadline:
            time.sleep(0.05)

    def end(self) -> None:
        if self.server.poll() is None:
            self.server.terminate()
            self.assertEqual(self.server.wait(PATIENCE), 0)

    def test_a_store_that_is_held(self) -> None:
        """By another server than the one that is named."""
        os.mkdir(self.path("other"))
        other = os.path.join(self.path("other"), "confstore.sock")
        kept, self.folder = self.folder, self.path("other")
        with Store(self.folder) as store:
            store["web"] = {}
        status, _, errors = self.ctl("checkpoint", "--socket", self.socket, *self.archives("new"))
        self.assertEqual((status, "OtherStore" in errors), (3, True), errors)
        self.assertFalse(os.path.exists(self.path("new")) or os.path.exists(other))
        self.folder = kept

    def test_a_checkpoint_that_comes_between(self) -> None:
        with self.after_copies(["/n"], is_checkpoint=True):
            self.assertEqual(self.archive("new"), 1)
        self.assertEqual([record.number for record in Reader(self.path("new")).log()], [1, 2, 3])
        self.assertEqual(sorted(os.listdir(self.path("new"))), ["store.yaml"])

    def test_without_a_link(self) -> None:
        """As on another device: the store is copied until no command comes between."""
        with self.no_links(), self.after_copies(["/n", "/m"]):
            self.assertEqual(self.archive("new"), 0)
        self.assertEqual((self.log(), self.numbers("new")), ([], [1, 2, 3, 4, 5]))
        with self.no_links(), self.after_copies(["/n"] * TRIES):
            self.assertEqual(self.archive("other"), 1)
        self.assertFalse(os.path.exists(self.path("other")))
        self.assertEqual(self.numbers("new"), list(range(1, 6 + TRIES)))

    def test_a_command_after_the_last_look(self) -> None:
        """It is in the file that the checkpoint replaces, which takes the place of the copy."""
        for name, without in (("new", contextlib.nullcontext()), ("other", self.no_links())):
            is_kept, is_asked = Replaced.is_kept, ctl_changes.hold

            def looked(look: Callable[..., bool]) -> Callable[..., bool]:
                def does(*given: Any) -> bool:
                    found = look(*given)
                    if found:
                        self.change("/n")
                    return found

                return does

            with without, mock.patch.object(Replaced, "is_kept", looked(is_kept)):
                with mock.patch("confstore.ctl_archiving.hold", looked(is_asked)):
                    self.assertEqual(self.archive(name), 0)
            self.assertEqual(self.log(), [])
            self.assertEqual(sorted(os.listdir(self.path(name))), ["store.yaml"])
        self.assertEqual(self.numbers("new", "other"), [1, 2, 3, 4, 5])

    def test_a_checkpoint_after_the_last_look(self) -> None:
        """As of a server that makes some itself. The archive has what came before it, and it is told what is lost."""
        is_kept = Replaced.is_kept

        def looked(replaced: Replaced) -> bool:
            found = is_kept(replaced)
            self.change("/n")
            self.does("checkpoint")
            self.change("/n")
            self.change("/n")
            return found

        with mock.patch.object(Replaced, "is_kept", looked):
            status, _, errors = self.ctl("checkpoint", *self.archives("new"))
        self.assertEqual(status, 1)
        self.assertIn("Gap: the commands from 5 to 6 came between, and are in no file: ", errors)
        self.assertEqual([record.number for record in Reader(self.path("new")).log()], [1, 2, 3, 4])
        self.assertIn("the commands from 5 to 6 are in no folder", self.is_refused("Gap", "log", *self.archives("new")))

    def test_what_a_checkpoint_left_that_was_cut_off(self) -> None:
        os.mkdir(self.path("new"))
        with open(os.path.join(self.path("new"), "kept.yaml"), "wb") as file:
            file.write(b"kept")
        line = self.is_refused("FileExists: ", "checkpoint", *self.archives("new"))
        self.assertIn("take another folder", line)
        self.assertEqual(os.listdir(self.path("new")), ["kept.yaml"])
        self.has_whole_log(3)

    def test_a_server_that_goes(self) -> None:
        """While the copy is made: then the program makes the checkpoint."""
        make = Archive.make

        def made(archive: Archive) -> None:
            make(archive)
            self.end()

        with mock.patch.object(Archive, "make", made):
            self.assertEqual(self.archive("new"), 0)
        self.assertEqual((self.log(), self.numbers("new")), ([], [1, 2, 3]))
        self.assertEqual(sorted(os.listdir(self.path("new"))), ["store.yaml"])

    def test_a_server_that_is_killed(self) -> None:
        """Once it is asked for the checkpoint: what the archive has stays, and the file that may have more."""
        answer_at = ctl_archiving._answer_at

        def killed(place: Place, command: Command, archive: "Archive | None" = None) -> Reply:
            if archive is not None:
                archive.stays = True
                self.server.kill()
                self.server.wait(PATIENCE)
            return answer_at(place, command, archive)

        with mock.patch.object(ctl_archiving, "_answer_at", killed):
            self.assertEqual(self.archive("new"), 3)
        self.assertEqual(sorted(os.listdir(self.path("new"))), ["kept.yaml", "store.yaml"])
        self.assertEqual(self.numbers("new"), [1, 2, 3])

    @contextlib.contextmanager
    def no_links(self) -> Iterator[None]:
        with mock.patch.object(os, "link", side_effect=OSError(errno.EXDEV, "Invalid cross-device link")):
            yield


def read_all(stream: IO[bytes]) -> str:
    with stream:
        stream.seek(0)
        return stream.read().decode()


def data_of(page: str) -> Any:
    """What a page has to show."""
    found = re.search('<script id="data" type="application/json">(.*?)</script>', page, re.DOTALL)
    assert found is not None
    return json.loads(found[1])


def kill(process: "subprocess.Popen[bytes]", chance: random.Random) -> None:
    """Kills a process or one that it has started, and waits until all are over."""
    with contextlib.suppress(OSError):
        with open(f"/proc/{process.pid}/task/{process.pid}/children", encoding="ascii") as children:
            started = [int(child) for child in children.read().split()]
        for one in [chance.choice([process.pid, *started])]:
            os.kill(one, signal.SIGKILL)
    process.wait(PATIENCE)
    for child in started if process.returncode else ():
        deadline = time.monotonic() + PATIENCE
        while os.path.exists(f"/proc/{child}/exe") and time.monotonic() < deadline:
            time.sleep(0.01)
