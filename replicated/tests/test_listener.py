"""The socket of a node: who may connect, and what is at its name, also where others change the names beside it. And the
access to a store's file that a base takes the place of."""

from __future__ import annotations

import contextlib
import errno
import os
import shutil
import socket
import stat
import subprocess
import tempfile
import threading
import unittest
from typing import BinaryIO, Callable, Dict, Iterator, List, Sequence, Tuple
from unittest import mock

import serve_socket as module
from confstore_replicated import Client, access, bases
from confstore_replicated.server import Server, listening
from serve_socket import Fault, Listener

# Users and groups for the trials of access: numbers, which need no names.
ALICE, BOB, CAROL, DAVE, EVE = 70_001, 70_002, 70_003, 70_004, 70_005
STAFF, GUESTS = 71_001, 71_002
IDENTITIES = {
    "root": (0, [0]),
    "alice": (ALICE, [ALICE]),
    "bob": (BOB, [BOB]),
    "carol, of staff": (CAROL, [CAROL, STAFF]),
    "dave, of guests": (DAVE, [DAVE, GUESTS]),
    "eve, of staff and guests": (EVE, [EVE, STAFF, GUESTS]),
}

# What a file of alice and staff has.
FILES = [
    (0o600, ""), (0o640, ""), (0o664, ""), (0o604, ""), (0o060, ""),
    (0o600, f"u:{BOB}:r--"), (0o640, f"u:{BOB}:rw-"), (0o640, f"u:{BOB}:rw-,g::---"), (0o664, f"g:{GUESTS}:---"),
    (0o660, f"u:{EVE}:rw-,m::r--"),
]  # fmt: skip


def as_another(identity: Tuple[int, Sequence[int]], look: Callable[[], int]) -> int:
    """What a look comes to for another user: a number below 128."""
    child = os.fork()
    if child:
        return os.waitstatus_to_exitcode(os.waitpid(child, 0)[1])
    found = 127
    try:
        user, groups = identity
        os.setgroups(list(groups))
        os.setresgid(groups[0], groups[0], groups[0])
        os.setresuid(user, user, user)
        found = look()
    finally:
        os._exit(found)


def connects(path: str) -> int:
    with socket.socket(socket.AF_UNIX) as client:
        return int(client.connect_ex(path) == 0)


def listen(path: str, folder: str) -> Listener:
    """A socket at a path, for those who may write in a folder."""
    store = os.open(folder, os.O_RDONLY | os.O_DIRECTORY)
    try:
        return listening(path, store)
    finally:
        os.close(store)


def may(path: str, *ways: int) -> int:
    """Bits of the ways in which this process has access to a path."""
    return sum(1 << number for number, way in enumerate(ways) if os.access(path, way))


class FolderTest(unittest.TestCase):
    def setUp(self) -> None:
        holder = tempfile.TemporaryDirectory()
        self.addCleanup(holder.cleanup)
        self.top = holder.name
        os.chmod(self.top, 0o755)
        self.folder = os.path.join(self.top, "store")
        os.mkdir(self.folder)
        self.sockets = os.path.join(self.top, "sockets")
        os.mkdir(self.sockets)
        self.path = os.path.join(self.sockets, "socket")

    def listen(self) -> Listener:
        listener = listen(self.path, self.folder)
        self.addCleanup(listener.close)
        return listener

    def give(self, path: str, mode: int, entries: str) -> None:
        """Gives a path of alice and staff this mode and list."""
        os.chown(path, ALICE, STAFF)
        if shutil.which("setfacl"):
            subprocess.run(["setfacl", "-b", path], check=True)
        elif entries:
            self.skipTest("setfacl is not installed")
        os.chmod(path, mode)
        if entries:
            subprocess.run(["setfacl", "-m", entries, path], check=True)


@unittest.skipUnless(os.geteuid() == 0, "needs root")
class Access(FolderTest):
    """Who may connect is tried of the same socket by `checks/server.py`; and this, that a node has that socket."""

    def test_access_that_was_narrowed(self) -> None:
        """Counts for those who connect later."""
        self.give(self.folder, 0o770, "")
        server = Server(self.path, self.folder, lambda _request, _user: {"ok": "1"})
        thread = threading.Thread(target=server.serve, daemon=True)
        thread.start()
        self.addCleanup(thread.join, 10)
        self.addCleanup(server.end)

        def is_answered() -> int:
            try:
                with contextlib.closing(Client(self.path, 10)) as client:
                    return int(client.ask({}) == {"ok": "1"})
            except OSError:
                return 0

        os.chmod(self.sockets, 0o755)
        carol = IDENTITIES["carol, of staff"]
        self.assertEqual(as_another(carol, is_answered), 1)
        os.chmod(self.folder, 0o700)
        self.assertEqual((as_another(carol, is_answered), is_answered()), (0, 1))


class Names(FolderTest):
    """What is at the name, and who changes the names beside it."""

    def test_nothing_is_left(self) -> None:
        listener = self.listen()
        self.assertEqual(connects(self.path), 1)
        self.assertEqual(os.listdir(self.sockets), ["socket"])
        listener.close()
        self.assertEqual(os.listdir(self.sockets), [])
        listener.close()

    def test_the_name_that_it_was_bound_by(self) -> None:
        """It says which folder the node has, to each client that asks whom it is connected to."""
        self.listen()
        found = os.stat(self.folder)
        with socket.socket(socket.AF_UNIX) as client:
            client.connect(self.path)
            self.assertEqual(client.getpeername(), f"store-{found.st_dev}-{found.st_ino}")

    def test_a_server_that_takes_the_name_meanwhile_is_kept(self) -> None:
        """A dead socket is at the name when it is looked at, and one that listens when it is removed."""
        for removed in (False, True):
            dead, alive = socket.socket(socket.AF_UNIX), socket.socket(socket.AF_UNIX)
            dead.bind(self.path)
            dead.close()
            look = module.hindrance

            def late(name: str) -> object:
                why = look(name)
                if name != module.OLD:
                    os.unlink(self.path)
                    if removed:
                        return why
                    alive.bind(self.path)
                    alive.listen()
                return why

            with mock.patch.object(module, "hindrance", late):
                if removed:
                    self.listen().close()
                else:
                    with self.assertRaisesRegex(Fault, "another server takes clients there"):
                        self.listen()
                    self.assertEqual(connects(self.path), 1)
                    os.unlink(self.path)
            alive.close()
            self.assertEqual(os.listdir(self.sockets), [])

    def exchanges(self, mode: int) -> Iterator[Tuple[str, str]]:
        """Each call by which a node makes its socket, and a folder that another user puts in the place of the one it
        is made in, right after that call. In it is a link to a victim."""
        store = os.stat(self.folder)
        for call in ("mkdir", "open", "fstat", "chmod", "chown", "link", "unlink"):
            victim = os.path.join(self.top, f"victim of {call}")
            theirs = os.path.join(self.sockets, "theirs")
            os.mkdir(theirs)
            os.chmod(theirs, mode)
            with open(victim, "w", encoding="ascii") as file:
                file.write("own")
            os.chmod(victim, 0o600)
            os.symlink(victim, os.path.join(theirs, f"store-{store.st_dev}-{store.st_ino}"))
            yield call, victim

    def test_a_folder_that_is_exchanged(self) -> None:
        """No victim's mode changes, and no socket is at the name that was made in a folder of another's."""
        os.chmod(self.folder, 0o777)
        for call, victim in self.exchanges(0o777):
            real, calls = getattr(os, call), iter(range(1_000))

            def exchanging(*words: object, **more: object) -> object:
                done = real(*words, **more)
                if next(calls) == 0:
                    for name in os.listdir(self.sockets):
                        if name.startswith(".socket."):
                            os.rename(os.path.join(self.sockets, name), os.path.join(self.sockets, "away"))
                            os.rename(os.path.join(self.sockets, "theirs"), os.path.join(self.sockets, name))
                return done

            with mock.patch.object(os, call, exchanging):
                with contextlib.suppress(Fault):
                    listen(self.path, self.folder).close()
            self.assertEqual(stat.S_IMODE(os.stat(victim).st_mode), 0o600, call)
            self.assertFalse(os.path.lexists(self.path), call)
            for name in os.listdir(self.sockets):
                shutil.rmtree(os.path.join(self.sockets, name))

    def test_calls_that_fail(self) -> None:
        """Each call in turn fails: no socket is at the name, or one that only those may use who may write."""
        for call in ("mkdir", "open", "fstat", "chmod", "chown", "setxattr", "getxattr", "link", "unlink", "rmdir"):
            for code in (errno.EPERM, errno.ENOSPC):
                with mock.patch.object(os, call, side_effect=OSError(code, "refused")):
                    try:
                        listener = listen(self.path, self.folder)
                    except (Fault, OSError):
                        self.assertEqual(connects(self.path), 0, call)
                        self.assertTrue(call == "unlink" or not os.path.lexists(self.path), call)
                    else:
                        self.assertEqual(stat.S_IMODE(os.stat(self.path).st_mode) & 0o077, 0, call)
                        listener.close()
                for name in os.listdir(self.sockets):
                    path = os.path.join(self.sockets, name)
                    shutil.rmtree(path) if os.path.isdir(path) else os.unlink(path)

    @unittest.skipIf(shutil.which("setfacl") is None, "needs setfacl")
    def test_a_list_that_can_not_be_kept(self) -> None:
        """Then the owner alone may connect."""
        subprocess.run(["setfacl", "-m", f"u:{BOB}:rwx,g::rwx,o::rwx", self.folder], check=True)
        with mock.patch.object(os, "setxattr", side_effect=OSError(errno.ENOTSUP, "not supported")):
            self.listen()
        self.assertEqual(stat.S_IMODE(os.stat(self.path).st_mode), 0o600)


class Installing(FolderTest):
    """The file of a store that a base takes the place of."""

    def setUp(self) -> None:
        super().setUp()
        os.chmod(self.folder, 0o777)
        self.store = os.path.join(self.folder, bases.STORE)

    def content(self, name: str) -> bytes:
        with open(os.path.join(self.folder, name), "rb") as file:
            return file.read()

    def make(self) -> None:
        with open(self.store, "wb") as file:
            file.write(b"old")

    def test_what_is_there_then(self) -> None:
        bases.install(self.folder, b"base")
        self.assertEqual(os.listdir(self.folder), [bases.STORE])
        for before, after in ((b"base", b"new"), (b"new", b"newer")):
            with open(os.path.join(self.folder, bases.NEW), "wb") as file:
                file.write(b"left")
            bases.install(self.folder, after)
            self.assertEqual((self.content(bases.STORE), self.content(bases.KEPT)), (after, before))
            self.assertEqual(sorted(os.listdir(self.folder)), [bases.KEPT, bases.STORE])

    def test_modes(self) -> None:
        """The new file has the old one's mode before it has a byte."""
        write = bases._write_to_disk
        found: List[Tuple[int, int]] = []

        def seen(file: BinaryIO, content: bytes) -> None:
            status = os.fstat(file.fileno())
            found.append((stat.S_IMODE(status.st_mode), status.st_size))
            write(file, content)

        for mode in (0o600, 0o640, 0o664, 0o444, 0o604):
            self.make()
            os.chmod(self.store, mode)
            with mock.patch.object(bases, "_write_to_disk", seen):
                bases.install(self.folder, b"base")
            self.assertEqual((found.pop(), stat.S_IMODE(os.stat(self.store).st_mode)), ((mode, 0), mode))
            os.unlink(self.store)

    @unittest.skipIf(shutil.which("setfacl") is None, "needs setfacl")
    def test_lists(self) -> None:
        """The new file has the old one's list, and none where that has none, whatever the folder's default list is."""
        subprocess.run(["setfacl", "-d", "-m", f"u:{EVE}:rw-,o::rw-", self.folder], check=True)
        for mode, entries in FILES:
            self.make()
            subprocess.run(["setfacl", "-b", self.store], check=True)
            os.chmod(self.store, mode | 0o400)
            if entries:
                subprocess.run(["setfacl", "-m", entries, self.store], check=True)
            before = os.listxattr(self.store), entries and os.getxattr(self.store, module.ACL)
            bases.install(self.folder, b"base")
            self.assertEqual((os.listxattr(self.store), entries and os.getxattr(self.store, module.ACL)), before)
            os.unlink(self.store)

    def test_links_and_pipes(self) -> None:
        """What is no plain file is refused, and no link is followed."""
        other = os.path.join(self.top, "other")
        with open(other, "wb") as file:
            file.write(b"other")
        makes: List[Callable[[str], None]] = [lambda path: os.symlink(other, path), os.mkfifo, os.mkdir]
        for make in makes:
            make(self.store)
            with self.assertRaises(OSError):
                bases.install(self.folder, b"base")
            os.rename(self.store, os.path.join(self.top, f"kept{os.lstat(self.store).st_ino}"))
            os.symlink(other, os.path.join(self.folder, bases.NEW))
            bases.install(self.folder, b"base")
            os.unlink(self.store)
        with open(other, "rb") as file:
            self.assertEqual(file.read(), b"other")

    def test_kept_modes(self) -> None:
        """As docs/DISK.md says: 0640 becomes 0600 with another group, and 0664 becomes 0644."""
        self.assertEqual(access.kept_mode(0o640, True, False), 0o600)
        self.assertEqual(access.kept_mode(0o664, True, False), 0o644)
        self.assertEqual(access.kept_mode(0o466, False, True), 0o444)
        for mode in range(0o1000):
            self.assertEqual(access.kept_mode(mode, True, True), mode)
            for ways in ((False, True), (True, False), (False, False)):
                self.assertEqual(access.kept_mode(mode, *ways) & ~mode, 0)

    def accesses(self) -> Dict[str, int]:
        ways = (os.R_OK, os.W_OK)
        return {
            name: as_another(identity, lambda: may(self.store, *ways)) for name, identity in IDENTITIES.items()
        }

    @unittest.skipUnless(os.geteuid() == 0, "needs root")
    def test_everybody_has_the_access_that_they_had(self) -> None:
        """By owner, group, mode and list: also where the folder's default list is another."""
        for default in ("", f"u:{EVE}:rw-,o::rw-"):
            if default:
                subprocess.run(["setfacl", "-d", "-m", default, self.folder], check=True)
            for mode, entries in FILES:
                with self.subTest(mode=oct(mode), entries=entries, default=default):
                    self.make()
                    self.give(self.store, mode, entries)
                    before = self.accesses()
                    bases.install(self.folder, b"base")
                    self.assertEqual(self.accesses(), before)
                    self.assertEqual((os.stat(self.store).st_uid, os.stat(self.store).st_gid), (ALICE, STAFF))
                    os.unlink(self.store)
            if not shutil.which("setfacl"):
                return

    @unittest.skipUnless(os.geteuid() == 0, "needs root")
    def test_nobody_gets_more_where_calls_fail(self) -> None:
        """Another node than root may not give its file away, and not all file systems keep lists."""
        for calls in (("chown",), ("setxattr",), ("chown", "setxattr")):
            for mode, entries in FILES:
                with self.subTest(mode=oct(mode), entries=entries, calls=calls):
                    self.make()
                    self.give(self.store, mode, entries)
                    before = self.accesses()
                    refused = OSError(errno.EPERM, "refused")
                    with mock.patch.multiple(os, **{call: mock.Mock(side_effect=refused) for call in calls}):
                        bases.install(self.folder, b"base")
                    more = {name: found for name, found in self.accesses().items() if found & ~before[name]}
                    self.assertEqual(more, {})
                    os.unlink(self.store)


if __name__ == "__main__":
    unittest.main()
