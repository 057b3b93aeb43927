"""Trials of the server's socket: who may connect, and what is at its name."""

from __future__ import annotations

import contextlib
import os
import shutil
import socket
import stat
import subprocess
import tempfile
import time
import unittest
from typing import Any, Callable, Iterator, Sequence

from lib.servers import NAMES, PATIENCE, PROGRAM, PYTHON, SERVER, ServerTest, accepts, is_for_all

# Users and groups for the trials of access: numbers, which need no names.
ALICE, BOB, CAROL, DAVE, EVE = 70_001, 70_002, 70_003, 70_004, 70_005
STAFF, GUESTS = 71_001, 71_002
IDENTITIES = {
    "root": (0, [0]),
    "alice": (ALICE, [ALICE]),
    "bob": (BOB, [BOB]),
    "carol, of staff": (CAROL, [CAROL, STAFF]),
    "dave, of guests": (DAVE, [DAVE, GUESTS]),
    "eve": (EVE, [EVE]),
    "eve, of staff and guests": (EVE, [EVE, STAFF, GUESTS]),
}

# What a folder of alice and staff has: its mode, and what setfacl adds.
FOLDERS: list[tuple[int, str]] = [
    (0o700, ""),
    (0o755, ""),
    (0o770, ""),
    (0o775, ""),
    (0o777, ""),
    (0o707, ""),
    (0o720, ""),
    (0o750, f"u:{BOB}:rwx"),
    (0o700, f"u:{BOB}:rwx,g:{GUESTS}:rwx"),
    (0o770, f"u:{BOB}:r-x,g:{STAFF}:r-x"),
    (0o777, f"u:{EVE}:---,g:{GUESTS}:---"),
    (0o750, f"u:{BOB}:rwx,g:{GUESTS}:rwx,m::r-x"),
    (0o750, f"u:{BOB}:-w-,g:{GUESTS}:-wx"),
    (0o722, ""),
    (0o1777, ""),
    (0o700, f"u:{BOB}:rw-"),
    (0o770, f"u:{CAROL}:r-x"),
    (0o770, f"u:{BOB}:rwx,m::r-x"),
    (0o770, f"g:{GUESTS}:---"),
]


def as_another(identity: tuple[int, list[int]], does: Callable[[], bool]) -> bool:
    """Whether what is done by another user succeeds."""
    child = os.fork()
    if child == 0:
        status = 2
        try:
            user, groups = identity
            os.setgroups(groups)
            os.setresgid(groups[0], groups[0], groups[0])
            os.setresuid(user, user, user)
            status = 0 if does() else 1
        finally:
            os._exit(status)
    status = os.waitstatus_to_exitcode(os.waitpid(child, 0)[1])
    if status not in (0, 1):
        raise RuntimeError("another user can't be tried")
    return status == 0


def shut_out() -> str:
    """Why others can't run a server here, or nothing."""
    places = [path for path in (PYTHON, SERVER, PROGRAM) if not is_for_all(path)]
    return f"other users may not run {', '.join(places)}" if places and os.geteuid() == 0 else ""


def may_write(folder: str) -> bool:
    """Whether this process may make a name in a folder."""
    name = os.path.join(folder, f"tried{os.getpid()}")
    try:
        os.mkdir(name)
    except PermissionError:
        return False
    os.rmdir(name)
    return True


def is_served(path: str) -> bool:
    """Whether a server answers this process."""
    with socket.socket(socket.AF_UNIX) as connection:
        connection.settimeout(PATIENCE)
        try:
            connection.connect(path)
            connection.sendall(NAMES)
            return connection.recv(100).startswith(b"---\n")
        except (PermissionError, BrokenPipeError, ConnectionResetError):
            return False


class AccessTest(ServerTest):
    """A test with a folder of alice and staff, and other users who try what it lets them do."""

    def setUp(self) -> None:
        super().setUp()
        if shut_out():
            self.skipTest(shut_out())

    def differences(self, may: Callable[[str], bool], does: Callable[[], bool]) -> dict[str, tuple[bool, bool]]:
        """For whom it differs what the folder lets them do and what the server does."""
        found = {}
        for name, identity in IDENTITIES.items():
            both = as_another(identity, lambda: may(self.folder)), as_another(identity, does)
            if both[0] != both[1]:
                found[name] = both
        return found

    def prepare(self, mode: int, entries: str) -> None:
        os.chown(self.folder, ALICE, STAFF)
        if shutil.which("setfacl"):
            subprocess.run(["setfacl", "-b", self.folder], check=True)
        elif entries:
            self.skipTest("setfacl is not installed")
        os.chmod(self.folder, mode)
        if entries:
            subprocess.run(["setfacl", "-m", entries, self.folder], check=True)


@unittest.skipUnless(os.geteuid() == 0, "needs root")
class Access(AccessTest):
    """Who may connect, beside who may write in the folder: the system decides both."""

    def other_clients(self) -> dict[str, tuple[bool, bool]]:
        return self.differences(may_write, lambda: accepts(self.path))

    def try_all(self, user: int, groups: list[int], folders: Sequence[tuple[int, str]] = FOLDERS) -> None:
        sockets = os.path.join(self.top, "sockets")
        os.mkdir(sockets)
        os.chown(sockets, user, groups[0])
        self.path = os.path.join(sockets, "socket")
        for mode, entries in folders:
            with self.subTest(mode=oct(mode), entries=entries):
                self.prepare(mode, entries)
                server = self.serve(user=user, group=groups[0], extra_groups=groups)
                self.assertEqual(self.other_clients(), {}, f"(may write, may connect); {os.stat(self.path)}")
                self.assertEqual(server.end(), 0)
                for name in os.listdir(self.folder):
                    os.unlink(os.path.join(self.folder, name))

    def test_a_server_of_the_owner(self) -> None:
        self.try_all(ALICE, [ALICE, STAFF])

    def test_a_server_of_the_owner_who_is_not_in_the_group(self) -> None:
        self.try_all(ALICE, [ALICE])

    def test_a_server_of_root(self) -> None:
        self.try_all(0, [0])

    def test_a_server_of_a_member(self) -> None:
        self.try_all(CAROL, [CAROL, STAFF], [(0o770, ""), (0o775, ""), (0o777, "")])

    def test_default_entries_are_not_inherited(self) -> None:
        if not shutil.which("setfacl"):
            self.skipTest("setfacl is not installed")
        self.prepare(0o770, "")
        sockets = os.path.join(self.top, "sockets")
        os.mkdir(sockets)
        subprocess.run(["setfacl", "-d", "-m", f"u:{EVE}:rwx,g:{GUESTS}:rwx,o::rwx", sockets], check=True)
        self.path = os.path.join(sockets, "socket")
        self.serve()
        self.assertEqual(self.other_clients(), {})

    def test_access_that_was_narrowed(self) -> None:
        """Who may not write in the folder any more is not served, though the socket had its list when all might."""
        self.prepare(0o777, "")
        server = self.serve()
        connected = self.client()
        for mode, entries in FOLDERS:
            with self.subTest(mode=oct(mode), entries=entries):
                self.prepare(mode, entries)
                found = self.differences(may_write, lambda: is_served(self.path))
                self.assertEqual(found, {}, "(may write, is served)")
        self.assertTrue(connected.ask(NAMES).startswith(b"---\n"))
        wanted = r"user [0-9]+ is not taken, since it may not write in the store's folder any more: [^\n]*"
        self.assertRegex(server.errors(), rf"\Aserve\.py: {wanted}\n\Z")

    def test_groups_that_are_many(self) -> None:
        """A user of more groups than Python's call takes counts by those of the system's list, and by the user."""
        self.prepare(0o777, "")
        self.serve()
        many = [EVE, *range(80_000, 80_400)]
        self.assertTrue(as_another((EVE, many), lambda: is_served(self.path)))
        self.prepare(0o700, "")
        self.assertFalse(as_another((EVE, many), lambda: is_served(self.path)))

    def test_a_folder_without_access_lists(self) -> None:
        """Where the socket can't have the folder's list, its owner alone may connect."""
        if not shutil.which("setfacl"):
            self.skipTest("setfacl is not installed")
        self.prepare(0o750, f"u:{BOB}:rwx")
        sockets = os.path.join(self.top, "sockets")
        os.mkdir(sockets)
        if subprocess.run(["mount", "-t", "ramfs", "none", sockets], check=False, capture_output=True).returncode != 0:
            self.skipTest("no file system without access lists can be mounted")
        self.addCleanup(subprocess.call, ["umount", sockets])
        os.chmod(sockets, 0o755)
        self.path = os.path.join(sockets, "socket")
        self.serve()
        connects = {name for name, identity in IDENTITIES.items() if as_another(identity, lambda: accepts(self.path))}
        self.assertEqual(connects, {"root", "alice"})

    def test_a_link_in_place_of_the_socket(self) -> None:
        """Another user who may change the names exchanges the socket for a link, as soon as it sees it. The calls that
        give the socket its mode and owner are delayed, so that there is time for that."""
        delays = []
        if shutil.which("strace"):
            calls = "chmod,fchmodat,chown,lchown,fchownat"
            delays = ["strace", "-D", "-f", "-qq", "-o", "/dev/null", "-e", f"trace={calls}"]
            delays += ["-e", f"inject={calls}:delay_enter=50000"]
        self.prepare(0o770, "")
        victim = os.path.join(self.top, "victim")
        with open(victim, "w", encoding="ascii") as target:
            target.write("root only\n")
        os.chmod(victim, 0o600)
        self.path = os.path.join(self.folder, "socket")
        for _ in range(3 if delays else 12):
            with exchanging(self.path, victim):
                server = self.start(before=delays)
                with contextlib.suppress(subprocess.TimeoutExpired):
                    server.process.wait(1)
                server.process.kill()
                server.process.wait()
            found = os.stat(victim)
            self.assertEqual((stat.S_IMODE(found.st_mode), found.st_uid, found.st_gid), (0o600, 0, 0))
            with contextlib.suppress(FileNotFoundError):
                os.unlink(self.path)


@contextlib.contextmanager
def exchanging(path: str, target: str) -> Iterator[None]:
    """A process that exchanges a socket for a link as soon as it is there, once."""
    body = """
import os, stat, sys
path, target = sys.argv[1:]
while True:
    try:
        if stat.S_ISSOCK(os.lstat(path).st_mode):
            os.unlink(path)
            os.symlink(target, path)
            break
    except FileNotFoundError:
        pass
"""
    words = [PYTHON, "-c", body, path, target]
    with subprocess.Popen(words, user=CAROL, group=STAFF, extra_groups=[]) as process:
        time.sleep(0.1)
        try:
            yield
        finally:
            process.kill()


class Names(ServerTest):
    def test_the_socket_is_ready_when_it_has_its_name(self) -> None:
        """Who sees the name finds the mode that it keeps, and a server that listens."""
        os.chmod(self.folder, 0o770)
        for _ in range(5):
            server = self.start()
            while True:
                try:
                    seen = os.lstat(self.path)
                    break
                except FileNotFoundError:
                    self.assertIsNone(server.process.poll(), server.errors())
            with socket.socket(socket.AF_UNIX) as connection:
                connection.connect(self.path)
            self.assertEqual(stat.S_IMODE(seen.st_mode), 0o660)
            self.assertEqual(server.end(), 0)
            self.assertEqual([name for name in os.listdir(self.top) if "socket" in name], [])

    def assert_refused(self, text: str, status: int = 3, **more: Any) -> None:
        """A server that says such a line, and this alone, and ends at once without making a store."""
        server = self.start(**more)
        self.assertEqual(server.wait(), status, server.errors())
        self.assertRegex(server.errors(), rf"\Aserve\.py: no clients are taken at [^\n]*{text}[^\n]*\n\Z")
        self.assertEqual(os.listdir(self.folder), [])

    def test_another_server(self) -> None:
        other = os.path.join(self.top, "other")
        os.mkdir(other)
        self.serve(folder=other)
        self.assert_refused("another server takes clients there: end it")
        self.assert_served()

    def test_another_server_with_clients_that_wait(self) -> None:
        with socket.socket(socket.AF_UNIX) as listener, socket.socket(socket.AF_UNIX) as first:
            listener.bind(self.path)
            listener.listen(0)
            first.connect(self.path)
            waiting = [socket.socket(socket.AF_UNIX) for _ in range(3)]
            for connection in waiting:
                self.addCleanup(connection.close)
                connection.setblocking(False)
                connection.connect_ex(self.path)
            self.assert_refused("another server takes clients there")

    def test_a_file(self) -> None:
        with open(self.path, "w", encoding="ascii") as target:
            target.write("kept")
        self.assert_refused("is no socket: remove it")
        with open(self.path, encoding="ascii") as source:
            self.assertEqual(source.read(), "kept")

    def test_a_link(self) -> None:
        with socket.socket(socket.AF_UNIX) as dead:
            dead.bind(os.path.join(self.top, "dead"))
        os.symlink("dead", self.path)
        self.assert_refused("is no socket")
        self.assertEqual(os.readlink(self.path), "dead")

    def test_a_socket_of_messages(self) -> None:
        with socket.socket(socket.AF_UNIX, socket.SOCK_DGRAM) as messages:
            messages.bind(self.path)
            self.assert_refused("can't be told")
            self.assertTrue(os.path.exists(self.path))

    def test_a_dead_socket(self) -> None:
        with socket.socket(socket.AF_UNIX) as dead:
            dead.bind(self.path)
        self.serve()
        self.assert_served()

    def test_two_servers_at_once(self) -> None:
        """Of several that are started at a dead socket one takes it, and the others say so."""
        for _ in range(3):
            with contextlib.suppress(FileNotFoundError):
                os.unlink(self.path)
            with socket.socket(socket.AF_UNIX) as dead:
                dead.bind(self.path)
            folders = [tempfile.mkdtemp(dir=self.top) for _ in range(4)]
            servers = [self.start(folder=folder) for folder in folders]
            self.await_that(lambda: sum(server.process.poll() is None for server in servers) == 1, "one server")
            time.sleep(0.2)
            self.assert_served()
            self.assertEqual(sorted(server.process.poll() or 0 for server in servers), [0, 3, 3, 3])
            for server in servers:
                if server.process.poll() is None:
                    self.assertEqual(server.end(), 0)

    def test_a_missing_folder(self) -> None:
        server = self.start(path=os.path.join(self.top, "missing", "socket"))
        self.assertEqual(server.wait(), 3)
        wanted = r"[^\n]*missing[^\n]*: No such file or directory: make it first"
        self.assertRegex(server.errors(), rf"\Aserve\.py: {wanted}\n\Z")
        self.assertEqual(os.listdir(self.folder), [])

    def test_a_path_that_is_too_long(self) -> None:
        path = os.path.join(self.top, "x" * (108 - len(self.top) - 1))
        self.assertEqual(len(path), 108)
        self.assert_refused("at most 107 bytes, and this one has 108", 2, path=path)
        path = path[:-1]
        server = self.serve(path=path)
        self.assertEqual(self.client(path).ask(NAMES), b"---\nnames: []\n...\n")
        self.assertEqual(server.end(), 0)

    def test_a_path_without_a_name(self) -> None:
        self.assert_refused("ends in its name", 2, path=self.top + "/")

    def test_what_cannot_be_printed(self) -> None:
        self.path = os.path.join(self.top, "\x1b[31m\nred")
        with open(self.path, "w", encoding="ascii"):
            pass
        self.assert_refused(r"\\x1b\[31m\\nred")

    def test_a_name_that_is_gone(self) -> None:
        server = self.serve()
        os.unlink(self.path)
        self.assertEqual((server.end(), server.errors()), (0, ""))

    def test_a_name_that_is_another_socket_now(self) -> None:
        server = self.serve()
        os.unlink(self.path)
        with socket.socket(socket.AF_UNIX) as other:
            other.bind(self.path)
            self.assertEqual(server.end(), 0)
            self.assertTrue(os.path.exists(self.path))

    def test_a_relative_path(self) -> None:
        server = self.serve(path=self.path, folder="store", cwd=self.top)
        client = self.client()
        self.assertEqual(client.ask(b"import: a\ntext: x\n...\n"), b'---\nok: "1"\n...\n')
        self.assertEqual(server.end(), 0)
        server = self.start(path="socket", folder="store", cwd=self.top)
        self.await_that(lambda: accepts(self.path), "clients are taken")
        self.assertEqual(server.end(), 0)
