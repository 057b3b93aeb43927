"""What `serve.py` has of the system: its sockets, its session, its signals, its streams, its manager, its files. A node
of `replicated/` has the same sockets.

A socket is made in a folder of its own, which nobody else may enter, beside its name. It gets its owner, group and
access list there, and is listened to. Only then it is linked to its name, which fails where anything is. So no mode is
set through a link that another user put there, and nobody connects who may not.

It is bound by the name `store-DEVICE-INODE`, the numbers of the store's folder. The system tells that name to each
client that asks whom it is connected to (getpeername), whatever path or link it came by. So a client that was told a
folder can see whether this is that folder's server.

The list that the socket got is that of the start. So whoever connects is also looked up in the list that the folder has
then, as acl(5) says it: access that was taken away since counts for new connections.
"""

from __future__ import annotations

import collections
import contextlib
import errno
import os
import pwd
import resource
import secrets
import select
import selectors
import signal
import socket
import stat
import struct
import subprocess
import sys
from types import FrameType
from typing import Callable, Generic, Iterator, NamedTuple, Optional, Sequence, TypeVar, Union

LONGEST_PATH = 107  # bytes of a socket's path
BACKLOG = 4_096  # clients that wait to be taken
TRIES = 10  # to take a name where others take it and leave it
LINE_WAITS = 1_000  # milliseconds for room on standard error
MANAGER_TAKES = 10  # seconds to be told
RESERVED = 32  # files that are open beside the clients
SIGNALS_HEARD = 65_536  # signals that are taken at once
PART = 65_536  # bytes that are read at once
LONGEST_ANSWER = 67_108_864  # bytes
CLOSING = b"...\n"  # the line that ends a piece, at its start or behind another line
CLOSED = b"\n" + CLOSING
CLOSED_TWICE = CLOSED + CLOSING
ERRORS_KEPT = 8_192  # bytes of the session's standard error while it opens the store
GOING = 10  # seconds until a session that has ended its output is killed

WRONG_WORDS, FAILED, REPLACED = 2, 3, 5  # statuses

# Events that are watched, as epoll has them, and the other way round.
READS, WRITES = selectors.EVENT_READ, selectors.EVENT_WRITE
POLLED = {READS: select.EPOLLIN, WRITES: select.EPOLLOUT, READS | WRITES: select.EPOLLIN | select.EPOLLOUT}
FOUND = {polled: events for events, polled in POLLED.items()}

# What the session says where another run holds the store.
LOCKED = b"confstore: Locked"

# What asks for the groups of who connected (Linux), and how many bytes Python's call takes of them.
SO_PEERGROUPS, GROUPS_TAKEN = 59, 1_024
PEER = struct.Struct("iII")  # its process, user and group

# An access list as Linux has it in an attribute of a file: a head, and entries of a tag, bits and an id.
ACL, ACL_DEFAULT = "system.posix_acl_access", "system.posix_acl_default"
ACL_HEAD, ACL_ENTRY, NO_ID = struct.pack("<I", 2), struct.Struct("<HHI"), 0xFFFF_FFFF
OWNER, USER, OWN_GROUP, GROUP, MASK, OTHER = 1, 2, 4, 8, 16, 32
WRITE_AND_SEARCH, READ_AND_SEARCH, READ, READ_AND_WRITE = 3, 5, 4, 6

# The names of a socket that is of no store, and of a socket before one, in the folder where it is made.
MADE, OLD = "made", "old"

Asks = TypeVar("Asks")  # who asks a session


class Fault(Exception):
    """A line that says what is wrong and what to do, and a status."""

    def __init__(self, line: str, status: int = FAILED) -> None:
        super().__init__(line)
        self.status = status


def write_error(text: bytes) -> None:
    """Writes to standard error. What nobody takes is dropped, so that no reader of it holds up the clients."""
    with contextlib.suppress(OSError):
        room = select.poll()
        room.register(2, select.POLLOUT)
        while text and room.poll(LINE_WAITS):
            text = text[os.write(2, text[: select.PIPE_BUF]) :]


def say(line: str) -> None:
    """Says a line on standard error, behind the name of the program that this is a part of, as `serve.py`."""
    write_error(f"{os.path.basename(sys.argv[0])}: {line}\n".encode("utf-8", "backslashreplace"))


def shown(text: str) -> str:
    """A name as a line shows it: what can't be printed is escaped."""
    return "".join(sign if sign.isprintable() else sign.encode("unicode_escape").decode() for sign in text)


def reason(error: OSError) -> str:
    return error.strerror or str(error)


class Entry(NamedTuple):
    """An entry of an access list: whom it is about, and its bits."""

    tag: int
    bits: int
    id: int


def access_of(place: Union[int, str]) -> list[Entry]:
    """The access list of an open folder, or of what is at a path. Without one it has the three entries of the mode."""
    mode = os.stat(place).st_mode
    try:
        return [Entry(*entry) for entry in ACL_ENTRY.iter_unpack(os.getxattr(place, ACL)[len(ACL_HEAD) :])]
    except OSError as error:
        if error.errno not in (errno.ENODATA, errno.ENOTSUP):
            mode &= stat.S_IRWXU  # the group's bits may be those of a list that can't be read
    return [Entry(OWNER, mode >> 6 & 7, NO_ID), Entry(OWN_GROUP, mode >> 3 & 7, NO_ID), Entry(OTHER, mode & 7, NO_ID)]


def written(entries: list[Entry]) -> bytes:
    """An access list as the attribute has it."""
    return ACL_HEAD + b"".join(ACL_ENTRY.pack(*entry) for entry in entries)


def unmasked(access: list[Entry]) -> list[Entry]:
    """The entries of a list with the bits that count, without its mask."""
    mask = next((entry.bits for entry in access if entry.tag == MASK), 7)
    masked = (USER, OWN_GROUP, GROUP)
    return [
        Entry(tag, bits & mask if tag in masked else bits, identity) for tag, bits, identity in access if tag != MASK
    ]


def entries_for(wanted: int, access: list[Entry]) -> list[Entry]:
    """The entries of a socket for those whom a folder's list gives the bits that are wanted, and for its owner."""
    return [
        Entry(tag, READ_AND_WRITE if tag == OWNER or bits & wanted == wanted else 0, identity)
        for tag, bits, identity in unmasked(access)
    ]


class Peer(NamedTuple):
    """Who has connected to a socket: the user and the groups that it had then."""

    user: int
    groups: set[int]

    def may(self, wanted: int, place: Union[int, str]) -> bool:
        """Whether the bits that are wanted are given to this user by the list of an open folder, or of a path. Root and
        the server's own user have all."""
        found = os.stat(place)
        access = unmasked(access_of(place))
        own = [bits for tag, bits, _ in access if tag == OWNER and found.st_uid == self.user]
        named = [bits for tag, bits, identity in access if tag == USER and identity == self.user]
        groups = [bits for tag, bits, _ in access if tag == OWN_GROUP and found.st_gid in self.groups]
        groups += [bits for tag, bits, identity in access if tag == GROUP and identity in self.groups]
        others = [bits for tag, bits, _ in access if tag == OTHER]
        counts = own or named or groups or others
        return self.user in (0, os.geteuid()) or any(bits & wanted == wanted for bits in counts)


def groups_of(connection: socket.socket, user: int, group: int) -> set[int]:
    """The groups of who has connected. Where it has too many for Python's call, they are those of the system's list."""
    try:
        found = connection.getsockopt(socket.SOL_SOCKET, SO_PEERGROUPS, GROUPS_TAKEN)
        return {group, *(number for (number,) in struct.iter_unpack("I", found))}
    except OSError:
        with contextlib.suppress(KeyError):
            return {group, *os.getgrouplist(pwd.getpwuid(user).pw_name, group)}
        return {group}


def peer_of(connection: socket.socket) -> Peer:
    _process, user, group = PEER.unpack(connection.getsockopt(socket.SOL_SOCKET, socket.SO_PEERCRED, PEER.size))
    return Peer(user, groups_of(connection, user, group))


def inside(folder: int, *names: str) -> str:
    """A path that leads to an open folder, or to a name in it, wherever that folder has been moved."""
    return os.path.join(f"/proc/self/fd/{folder}", *names)


def may_write(peer: Peer, folder: int) -> bool:
    """Whether somebody may change the store in an open folder."""
    return peer.may(WRITE_AND_SEARCH, folder)


def may_read(peer: Peer, folder: int) -> bool:
    """Whether somebody may read the store in an open folder. Before there is one, the folder alone counts."""
    if not peer.may(READ_AND_SEARCH, folder):
        return False
    try:
        return peer.may(READ, inside(folder, "store.yaml"))
    except FileNotFoundError:
        return True
    except OSError:
        return False


def moved(entries: list[Entry], folder: os.stat_result, socket_now: os.stat_result) -> list[Entry]:
    """The entries for a socket whose owner or group isn't the folder's: what is there for those, by their ids."""
    bits = {(tag, identity): bits for tag, bits, identity in entries}
    if socket_now.st_uid != folder.st_uid:
        bits[USER, folder.st_uid] = bits[OWNER, NO_ID]
        bits[OWNER, NO_ID] = READ_AND_WRITE
    if socket_now.st_gid != folder.st_gid:
        bits[GROUP, folder.st_gid] = bits[OWN_GROUP, NO_ID] | bits.get((GROUP, folder.st_gid), 0)
        groups = [bits_there for (tag, _), bits_there in bits.items() if tag == GROUP]
        bits[OWN_GROUP, NO_ID] = bits[OTHER, NO_ID] if all(groups) else 0
    return [Entry(tag, bits_there, identity) for (tag, identity), bits_there in bits.items()]


def give_mode(place: Union[int, str], mode: int) -> None:
    """Gives the socket at a name, or an open file, a mode, and no access list. At no moment it has the mask of a list
    for its group, or a list with more than its own mask."""
    os.chmod(place, stat.S_IRUSR | stat.S_IWUSR)
    for attribute in (ACL, ACL_DEFAULT):
        with contextlib.suppress(OSError):
            os.removexattr(place, attribute)
    os.chmod(place, mode)


def give_access(name: str, folder: int, wanted: int) -> None:
    """Lets those connect to the socket at a name to whom the open folder gives the bits that are wanted. Nobody else
    can reach it yet."""
    give_mode(name, stat.S_IRUSR | stat.S_IWUSR)
    found = os.fstat(folder)
    for owner, group in ((-1, found.st_gid), (found.st_uid, -1)):
        with contextlib.suppress(OSError):
            os.chown(name, owner, group)
    give_entries(name, moved(entries_for(wanted, access_of(folder)), found, os.stat(name)))


def give_entries(name: str, entries: list[Entry]) -> None:
    """Gives the socket at a name an access list, or a mode where that says the same."""
    if len(entries) > 3:
        entries = sorted([*entries, Entry(MASK, READ_AND_WRITE, NO_ID)])
        with contextlib.suppress(OSError):  # the list can't be kept: the owner alone may connect
            os.setxattr(name, ACL, written(entries))
    else:
        bits = {tag: bits for tag, bits, _ in entries}
        give_mode(name, bits[OWNER] << 6 | bits[OWN_GROUP] << 3 | bits[OTHER])


@contextlib.contextmanager
def working_in(folder: int) -> Iterator[None]:
    """Works in an open folder, so that a name leads there and a path is never too long."""
    here = os.open(".", os.O_PATH | os.O_DIRECTORY)
    try:
        os.fchdir(folder)
        yield
    finally:
        os.fchdir(here)
        os.close(here)


def hindrance(name: str) -> Optional[str]:
    """Why what is at a name in the working folder may not be replaced. A socket that nobody listens to may be."""
    try:
        if not stat.S_ISSOCK(os.lstat(name).st_mode):
            return "what is there is no socket: remove it, or choose another path"
    except FileNotFoundError:
        return None
    with socket.socket(socket.AF_UNIX) as connection:
        connection.setblocking(False)
        code = connection.connect_ex(name)
    if code in (0, errno.EAGAIN):
        return "another server takes clients there: end it, or choose another path"
    if code not in (errno.ECONNREFUSED, errno.ENOENT):
        return f"whether a server listens there can't be told: {os.strerror(code)}: remove it, or choose another path"
    return None


class Listener:
    """A socket with a name, which takes those clients that may write or read in a folder, or those of a mode."""

    def __init__(self, path: str) -> None:
        self.path = path
        parent, self.name = os.path.split(path)
        if not self.name:
            raise Fault(f"no clients are taken at {shown(path)}: the path of a socket ends in its name", WRONG_WORDS)
        length = len(os.fsencode(path))
        if length > LONGEST_PATH:
            limit = f"a socket's path has at most {LONGEST_PATH} bytes, and this one has {length}: choose a shorter one"
            raise Fault(f"no clients are taken at {shown(path)}: {limit}", WRONG_WORDS)
        try:
            self.place = os.open(parent or ".", os.O_PATH | os.O_DIRECTORY)
        except OSError as error:
            hint = "make it first" if error.errno == errno.ENOENT else "choose another one"
            raise Fault(f"the socket's folder {shown(parent)} can't be used: {reason(error)}: {hint}") from None
        self.socket = socket.socket(socket.AF_UNIX)
        self.waiting = select.poll()
        self.made: Optional[tuple[int, int]] = None
        self.access: list[Entry] = []  # the list that the socket was given

    def refuse(self, why: str) -> Fault:
        return Fault(f"no clients are taken at {shown(self.path)}: {why}")

    def look(self) -> None:
        """Raises what is wrong with the name, as far as can be seen now."""
        with working_in(self.place):
            why = hindrance(self.name)
        if why is not None:
            raise self.refuse(why)

    def open(self, folder: int) -> None:
        """Makes the socket by the name of the store in an open folder, and takes those clients that may write there."""
        found = os.fstat(folder)
        name = f"store-{found.st_dev}-{found.st_ino}"
        self.make(name, lambda name: give_access(name, folder, WRITE_AND_SEARCH), BACKLOG)

    def open_for_readers(self, folder: int, waiting: int) -> None:
        """Makes the socket, and takes those that may read in an open folder, of whom so many wait at most."""
        self.make(MADE, lambda name: give_access(name, folder, READ_AND_SEARCH), waiting)

    def open_with_mode(self, mode: int, waiting: int) -> None:
        """Makes the socket, and takes those whom a mode lets connect, of whom so many wait at most."""
        self.make(MADE, lambda name: give_mode(name, mode), waiting)

    def make(self, name: str, give: Callable[[str], None], waiting: int) -> None:
        private = f".{self.name}.{secrets.token_hex(8)}"
        try:
            os.mkdir(private, stat.S_IRWXU, dir_fd=self.place)
            try:
                self.make_in(private, name, give, waiting)
            finally:
                os.rmdir(private, dir_fd=self.place)
        except OSError as error:
            why = f"{reason(error)}: see who may write in that folder, and whether there is room"
            raise self.refuse(why) from None

    def make_in(self, private: str, name: str, give: Callable[[str], None], waiting: int) -> None:
        private_folder = os.open(private, os.O_RDONLY | os.O_DIRECTORY | os.O_NOFOLLOW, dir_fd=self.place)
        try:
            found = os.fstat(private_folder)
            if found.st_uid != os.geteuid() or stat.S_IMODE(found.st_mode) & (stat.S_IRWXG | stat.S_IRWXO):
                raise self.refuse("another user changes the names in that folder: choose a folder of your own")
            with working_in(private_folder):
                self.socket.bind(name)
                give(name)
                made = os.lstat(name)
                self.access = unmasked(access_of(name))
            self.socket.setblocking(False)
            self.socket.listen(waiting)
            self.waiting.register(self.socket, select.POLLIN)
            self.take_name(private_folder, name)
            self.made = made.st_dev, made.st_ino
        finally:
            for left in (name, OLD):
                with contextlib.suppress(FileNotFoundError):
                    os.unlink(left, dir_fd=private_folder)
            os.close(private_folder)

    def take_name(self, private: int, made: str) -> None:
        """Links the socket to its name, where nothing is, or a socket that nobody listens to."""
        for _ in range(TRIES):
            try:
                os.link(made, self.name, src_dir_fd=private, dst_dir_fd=self.place, follow_symlinks=False)
                return
            except FileExistsError:
                self.look()
            with contextlib.suppress(FileNotFoundError):
                self.remove_old(private)
        raise self.refuse("others take that name again and again: choose another path")

    def remove_old(self, private: int) -> None:
        """Removes the socket at the name, which seemed dead. It goes where nobody else can change it, and is looked at
        there: if a server has taken the name meanwhile, it gets it back."""
        os.rename(self.name, OLD, src_dir_fd=self.place, dst_dir_fd=private)
        with working_in(private):
            why = hindrance(OLD)
        if why is not None:
            os.link(OLD, self.name, src_dir_fd=private, dst_dir_fd=self.place, follow_symlinks=False)
        os.unlink(OLD, dir_fd=private)
        if why is not None:
            raise self.refuse(why)

    def keep_out(self, users: set[int]) -> None:
        """Keeps these users out, and no others any more, as far as the system keeps lists. Root and the socket's owner
        can't be kept out."""
        with contextlib.suppress(OSError):
            handle = os.open(self.name, os.O_PATH | os.O_NOFOLLOW, dir_fd=self.place)
            try:
                found = os.fstat(handle)
                if (found.st_dev, found.st_ino) == self.made:
                    others = [entry for entry in self.access if entry.tag != USER or entry.id not in users]
                    give_entries(inside(handle), [*others, *(Entry(USER, 0, user) for user in users)])
            finally:
                os.close(handle)

    def is_waited_for(self) -> bool:
        """Whether a client waits to be taken."""
        return bool(self.waiting.poll(0))

    def accept(self) -> socket.socket:
        connection, _ = self.socket.accept()
        connection.setblocking(False)
        return connection

    def close(self) -> None:
        """Removes the name, if it is still this socket's, and takes no more clients."""
        try:
            if self.made is not None:
                found = os.lstat(self.name, dir_fd=self.place)
                if (found.st_dev, found.st_ino) == self.made:
                    os.unlink(self.name, dir_fd=self.place)
        except FileNotFoundError:
            pass
        except OSError as error:
            say(f"the socket {shown(self.path)} can't be removed: {reason(error)}: remove it")
        self.made = None
        self.socket.close()
        if self.place >= 0:
            os.close(self.place)
        self.place = -1


class Signals:
    """Whether this program was told to end, and a socket that is readable once a signal came."""

    def __init__(self) -> None:
        self.came = False
        self.caught: list[int] = []
        self.ear, self.bell = socket.socketpair()
        self.ear.setblocking(False)
        self.bell.setblocking(False)
        signal.set_wakeup_fd(self.bell.fileno(), warn_on_full_buffer=False)
        for number in (signal.SIGTERM, signal.SIGINT, signal.SIGHUP):
            if number != signal.SIGHUP or signal.getsignal(number) is not signal.SIG_IGN:
                signal.signal(number, self.stop)
                self.caught.append(number)
        signal.signal(signal.SIGCHLD, signal.SIG_DFL)  # where the parent ignores it, no status of a session is kept

    def stop(self, _number: int, _frame: Optional[FrameType]) -> None:
        self.came = True

    def hear(self, _events: int) -> None:
        self.ear.recv(SIGNALS_HEARD)

    def close(self) -> None:
        """All is done, and the status is known. A signal that comes now must not change it, as it would once Python lets
        signals end this program again."""
        for number in self.caught:
            signal.signal(number, signal.SIG_IGN)
        signal.set_wakeup_fd(-1)
        self.ear.close()
        self.bell.close()


class Loop:
    """The descriptors that are watched, and what is called when one of their events is there.

    The module `selectors` has the same, in more calls of Python for each event.
    """

    def __init__(self) -> None:
        self.poll = select.epoll()
        self.watched: dict[int, tuple[int, Callable[[int], None]]] = {}

    def watch(self, descriptor: int, events: int, call: Callable[[int], None]) -> None:
        """Calls so when one of the events is there; never, without events."""
        known = self.watched.get(descriptor)
        if not events:
            self.unwatch(descriptor)
        elif known is None:
            self.poll.register(descriptor, POLLED[events])
            self.watched[descriptor] = events, call
        elif known[0] != events:
            self.poll.modify(descriptor, POLLED[events])
            self.watched[descriptor] = events, call

    def unwatch(self, descriptor: int) -> None:
        if self.watched.pop(descriptor, None) is not None:
            self.poll.unregister(descriptor)

    def turn(self, seconds: float) -> None:
        """Waits for events for so long at most, and makes their calls. One who is gone or has an error has each event
        that is watched."""
        for descriptor, found in self.poll.poll(seconds):
            known = self.watched.get(descriptor)
            if known is not None:
                events, call = known
                call(events if found & ~POLLED[events] else FOUND[found])

    def close(self) -> None:
        self.poll.close()


def tell_manager() -> None:
    """Tells systemd that clients are taken, if it has started this program."""
    address = os.environ.get("NOTIFY_SOCKET")
    if not address:
        return
    try:
        with socket.socket(socket.AF_UNIX, socket.SOCK_DGRAM) as manager:
            manager.settimeout(MANAGER_TAKES)
            manager.connect("\0" + address[1:] if address[0] == "@" else address)
            manager.send(b"READY=1")
    except OSError as error:
        say(f"nobody is told at NOTIFY_SOCKET, {shown(address)}, that clients are taken: {reason(error)}: unset it")


def open_standard_streams() -> None:
    """Opens /dev/null in the place of each standard stream that is closed, so that nothing else takes its number."""
    while (descriptor := os.open(os.devnull, os.O_RDWR)) <= 2:
        os.set_inheritable(descriptor, True)
    os.close(descriptor)
    sys.stdout = sys.stdout or open(1, "w", closefd=False)
    sys.stderr = sys.stderr or open(2, "w", closefd=False)


def clients_with_room(wanted: int) -> int:
    """How many clients may be connected, once as many files may be open as that takes and the system allows."""
    allowed, most = resource.getrlimit(resource.RLIMIT_NOFILE)
    if allowed != resource.RLIM_INFINITY and allowed < wanted + RESERVED:
        raised = wanted + RESERVED if most == resource.RLIM_INFINITY else min(most, wanted + RESERVED)
        with contextlib.suppress(OSError, ValueError):
            resource.setrlimit(resource.RLIMIT_NOFILE, (raised, most))
            allowed = raised
        if allowed <= RESERVED:
            raise Fault(f"only {allowed} files may be open, and {RESERVED + 1} have to be: raise the limit (ulimit -n)")
        if allowed < wanted + RESERVED:
            few = f"only {allowed - RESERVED} clients at once, not {wanted}, since {allowed} files may be open"
            say(f"{few}: raise the limit (ulimit -n)")
            return allowed - RESERVED
    return wanted


class Pieces:
    """Bytes that come in parts, and are cut after closing lines.

    The Python package has a cutter of its own. This program has one too, since it is installed without the package.
    """

    def __init__(self) -> None:
        self.bytes = bytearray()
        self.end = 0  # of the first piece, or 0 if none is whole
        self.looked = 0  # where the closing line of that may begin at the earliest

    def add(self, part: bytes) -> None:
        self.bytes += part
        if not self.end:
            self.look()

    def look(self) -> None:
        if self.looked == 0 and self.bytes.startswith(CLOSING):
            self.end = len(CLOSING)
            return
        found = self.bytes.find(CLOSED, max(self.looked - 1, 0))
        if found >= 0:
            self.end = found + len(CLOSED)
        else:
            self.looked = max(len(self.bytes) - 3, 0)

    def take(self) -> bytearray:
        if self.end == len(self.bytes):
            piece, self.bytes = self.bytes, bytearray()
            self.looked = self.end = 0
            return piece
        piece = self.bytes[: self.end]
        del self.bytes[: self.end]
        self.looked = self.end = 0
        self.look()
        return piece

    def take_all(self) -> list[bytearray]:
        """All pieces that are whole."""
        pieces: list[bytearray] = []
        if self.end and not self.bytes.startswith(CLOSING) and CLOSED_TWICE not in self.bytes:
            *pieces, self.bytes = self.bytes.split(CLOSED)
            for piece in pieces:
                piece += CLOSED
            self.looked = self.end = 0
            self.look()
        while self.end:
            pieces.append(self.take())
        return pieces

    def is_longer_than(self, most: int) -> bool:
        return (self.end or len(self.bytes)) > most

    def forget(self) -> None:
        """Drops what came of a piece that isn't whole, but for the start of a line break and a closing line."""
        del self.bytes[:-4]
        self.looked = 1


@contextlib.contextmanager
def writing_nothing() -> Iterator[None]:
    """Who is started meanwhile may write no byte to a file: a limit says so, which may be raised again."""
    limits = resource.getrlimit(resource.RLIMIT_FSIZE)
    resource.setrlimit(resource.RLIMIT_FSIZE, (0, limits[1]))
    try:
        yield
    finally:
        resource.setrlimit(resource.RLIMIT_FSIZE, limits)


class Session(Generic[Asks]):
    """A session, which answers the k-th command that it is sent by its k-th answer.

    It works in the open folder of the store, and is told `.`. So it opens that one, wherever its path leads by then.
    One that is not to make a store may write no file until it is let (`let_write`).
    """

    def __init__(self, words: Sequence[str], folder: int, *, is_barred: bool) -> None:
        with writing_nothing() if is_barred else contextlib.nullcontext():
            self.process = self.started(words, folder)
        assert self.process.stdin and self.process.stdout and self.process.stderr
        self.streams = (self.process.stdin, self.process.stdout, self.process.stderr)
        self.commands, self.output, self.errors_end = (stream.fileno() for stream in self.streams)
        for stream in self.streams:
            os.set_blocking(stream.fileno(), False)
        self.unsent = bytearray()
        self.sent = 0
        self.turns: collections.deque[Optional[Asks]] = collections.deque()  # the clients of the answers to come
        self.answers = Pieces()
        self.skips = False  # whether the answer that comes is too long to keep
        self.errors = bytearray()
        self.told = b""  # the end of what it said on standard error that was passed on
        self.takes_commands = True
        self.is_full = False  # whether it is to be sent no more
        self.has_opened = False
        self.is_over = False
        self.send(bytearray(b"names:\n...\n"), None)
        self.first = self.sent

    def started(self, words: Sequence[str], folder: int) -> subprocess.Popen[bytes]:
        return subprocess.Popen(
            words, stdin=subprocess.PIPE, stdout=subprocess.PIPE, stderr=subprocess.PIPE, bufsize=0,
            start_new_session=True, restore_signals=False, cwd=inside(folder),
            env={name: value for name, value in os.environ.items() if name != "NOTIFY_SOCKET"},
        )  # fmt: skip

    def let_write(self) -> bool:
        """Lets it write files as this program may. Whether the system did."""
        try:
            resource.prlimit(self.process.pid, resource.RLIMIT_FSIZE, resource.getrlimit(resource.RLIMIT_FSIZE))
        except OSError:
            return False
        return True

    def send(self, piece: bytearray, client: Optional[Asks]) -> None:
        if self.unsent:
            self.unsent += piece
        else:
            self.unsent = piece
        self.sent += len(piece)
        self.turns.append(client)

    def is_used_up(self, length: int, most: int) -> bool:
        """Whether a command of this length would be more than it takes. A session without commands takes any."""
        return self.sent > self.first and self.sent + length > most

    def is_idle(self) -> bool:
        """Whether it has answered all that it was sent."""
        return not self.unsent and not self.turns

    def write(self) -> None:
        """Sends what the session takes now."""
        try:
            del self.unsent[: os.write(self.commands, self.unsent)]
        except BlockingIOError:
            pass
        except OSError:
            self.unsent.clear()  # it ends, which is seen at its output

    def read(self) -> tuple[list[tuple[Asks, bytearray]], bool]:
        """The answers that came, each with its client, and whether there may be more. One too long is empty."""
        try:
            part = os.read(self.output, PART)
        except BlockingIOError:
            return [], True
        self.answers.add(part)
        given = []
        for answer in self.answers.take_all():
            client = self.turns.popleft() if self.turns else None
            if client is not None:
                given.append((client, bytearray() if self.skips else answer))
            self.has_opened = True
            self.skips = False
        if self.answers.is_longer_than(LONGEST_ANSWER):
            self.answers.forget()
            self.skips = True
        return given, bool(part)

    def read_errors(self) -> bool:
        """Takes what it says on standard error. Whether there may be more."""
        try:
            part = os.read(self.errors_end, PART)
        except BlockingIOError:
            return True
        self.errors += part
        if self.has_opened or len(self.errors) > ERRORS_KEPT:
            self.pass_errors_on()
        return bool(part)

    def pass_errors_on(self) -> None:
        write_error(bytes(self.errors))
        self.told = (self.told + self.errors)[-ERRORS_KEPT:]
        self.errors.clear()

    def finish(self) -> None:
        """Tells the session that no more commands come."""
        if self.takes_commands:
            self.takes_commands = False
            self.streams[0].close()

    def wait(self) -> int:
        """Its status, once it is gone. One that has ended its output, and doesn't go, is killed."""
        self.finish()
        try:
            status = self.process.wait(GOING)
        except subprocess.TimeoutExpired:
            self.process.kill()
            status = self.process.wait()
        while not self.streams[2].closed and self.read_errors():
            pass
        for stream in self.streams:
            stream.close()
        return status

    def was_locked(self) -> bool:
        """Whether it ended since another run holds the store. What it said on standard error is still here then."""
        return not self.has_opened and self.process.returncode == FAILED and LOCKED in self.errors
