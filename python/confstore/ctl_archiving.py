"""`checkpoint --archive` of confstorectl: a copy of a store with all commands of its file, and then the checkpoint.

The copy is made before the store is held, since opening a file with a cut end drops its commands as a checkpoint does.
Then the holder of the store, a session of the program or a server, is asked whether it has accepted more than the copy
has. A session lets nobody else in, so a second copy beside it has all. Beside a server a command may come between that
question and the checkpoint; so the file that the checkpoint replaces is kept, by a second name in the archive where the
system allows that, and takes the place of the copy if it has more.

At each moment of it the commands are in the store's file, in the archive, or in both. A copy becomes the archive only
once the store has on the disk what it copied: else a power cut could leave a command in the archive that the store lost.
"""

from __future__ import annotations

import contextlib
import glob
import os
import shutil
import stat
import subprocess
import tempfile
import time
from typing import Iterator, Optional

from .commands import CHECKPOINT, NAMES
from .conditions import Count
from .ctl_archives import KEPT
from .ctl_asked import Asked
from .ctl_changes import Ask, hold
from .ctl_faults import Fault, TextFault, shown
from .ctl_history import Numbers, numbers_of, performed
from .ctl_places import Place, place_of
from .ctl_program import Ended, program, program_if_any
from .ctl_sockets import NOT_BY_NODES, Command, Connection, NodeReply, Reply, SessionReply, answer_of
from .ctl_streams import write_error
from .ctl_words import ARCHIVE
from .pieces import Cutter
from .store_file import NAME
from .style import Tree, document

# How many seconds lie between two tries, and how often a store that a server holds is copied.
PAUSE = 0.1
TRIES = 5

PART = 1_048_576

# How the folder in an archive begins in which a copy is made.
COPY = "copy-"


def checkpoint(asked: Asked) -> int:
    """Makes an archive, and then a checkpoint. The status. Raises a `Fault`."""
    deadline = time.monotonic() + asked.wait
    archive = Archive(asked.folder, asked.options[ARCHIVE.name])
    while True:
        try:
            _try(asked, archive, deadline)
            return 0
        except Fault as fault:
            if not fault.may_try_again or time.monotonic() >= deadline:
                raise
        time.sleep(PAUSE)


def _try(asked: Asked, archive: Archive, deadline: float) -> None:
    """Does it once, by whoever holds the store. Raises a `Fault`."""
    place = place_of(asked.socket, asked.folder, is_read=True)
    if place is not None:
        try:
            _by_server(place, archive)
            return
        except Fault as fault:
            if place.is_given or not fault.may_try_again:
                raise
    _by_program(archive, deadline)  # no server was there, or it has ended


def _command(tree: Tree) -> Command:
    assert isinstance(tree, dict)
    return dict(tree)


class Archive:
    """The archive that a store gets before a checkpoint."""

    def __init__(self, store: str, folder: str) -> None:
        self.store, self.folder = store, folder
        #: Whether the checkpoint was asked for, so that it may be the only one that has the commands.
        self.stays = False
        self._is_new = not os.path.lexists(folder)
        self._numbers: Optional[Numbers] = None  # those of the copy, if there is one

    @property
    def path(self) -> str:
        """The path of its file."""
        return os.path.join(self.folder, NAME)

    @property
    def last(self) -> int:
        """The number of the last command that it has."""
        assert self._numbers is not None
        return self._numbers.last

    def make(self) -> None:
        """Copies the store. Raises the `Fault` of a copy that can't be made, or that is not whole."""
        if os.path.lexists(self.path):
            raise Fault("StoreExists")
        try:
            with self._room() as room:
                performed(["backup", "--", self.store, room])
                # If this is the file that was copied, its commands are on the disk then; else those are in it, since a
                # checkpoint replaced the other one.
                _sync(os.path.join(self.store, NAME))
                _sync(self.store)
                self._take(os.path.join(room, NAME))
            self.look()
        except OSError as error:
            raise Fault("Device", f"{shown(str(error.filename or self.folder))}: {error.strerror}") from None
        finally:
            if self._numbers is None:
                self._leave()

    @contextlib.contextmanager
    def _room(self) -> Iterator[str]:
        """A folder in the archive, for a copy that is made. Those that runs have left which were cut off go."""
        if not os.path.lexists(self.folder):
            os.mkdir(self.folder)
        for left in glob.glob(os.path.join(glob.escape(self.folder), f"{COPY}*")):
            shutil.rmtree(left, ignore_errors=True)
        room = tempfile.mkdtemp(prefix=COPY, dir=self.folder)
        try:
            yield room
        finally:
            shutil.rmtree(room, ignore_errors=True)

    def _take(self, made: str) -> None:
        """Makes a file that of the archive, which has none. Raises the `Fault` of one that has."""
        try:
            os.link(made, self.path)
        except FileExistsError:
            raise Fault("StoreExists") from None
        except OSError:
            os.rename(made, self.path)  # no file has a second name here
        _sync(self.folder)
        if self._is_new:
            with contextlib.suppress(PermissionError):
                _sync(os.path.dirname(os.path.abspath(self.folder)))

    def look(self) -> None:
        """Reads which commands it has."""
        self._numbers = numbers_of(self.folder)

    def drop(self) -> None:
        """Removes the copy, if there is one. Raises the `Fault` of one that has what the store has no more."""
        if self._numbers is not None:
            if numbers_of(self.store).first > self._numbers.first:
                have = f"{shown(self.folder)} has the commands from {self._numbers.first + 1} to {self.last}, and stays"
                raise Fault("Unmet", f"another checkpoint came between: {have}; give what follows another folder")
            self._numbers = None
            try:
                os.unlink(self.path)
            except FileNotFoundError:
                pass
            except OSError as error:
                raise Fault("Device", f"{shown(self.folder)}: {error.strerror}") from None
        self._leave()

    def _leave(self) -> None:
        """Removes the folder, if it is a new one and empty."""
        if self._is_new:
            with contextlib.suppress(OSError):
                os.rmdir(self.folder)


def _sync(path: str) -> None:
    """Has what a file or a folder holds on the disk. Raises an `OSError`."""
    opened = os.open(path, os.O_RDONLY | os.O_CLOEXEC | os.O_NOFOLLOW | os.O_NONBLOCK)
    try:
        os.fsync(opened)
    finally:
        os.close(opened)


@contextlib.contextmanager
def _kept_or_dropped(archive: Archive) -> Iterator[None]:
    """Where something goes wrong, removes an archive if the checkpoint was not asked for, and else says that it stays."""
    try:
        yield
    except Fault as fault:
        if not archive.stays:
            archive.drop()
            raise
        about = f"{shown(archive.folder)}: it has the commands up to {archive.last}, and stays"
        raise TextFault(f"{fault.line}\n{about}; the checkpoint was made or not\n", fault.status) from None


# ---- where no server holds the store


def _by_program(archive: Archive, deadline: float) -> None:
    """Has a session of the program make the checkpoint. Raises a `Fault`."""
    archive.make()
    with _kept_or_dropped(archive), _held(archive.store, deadline) as session:
        if not hold([Count(archive.last)], session.ask):
            archive.drop()
            archive.make()  # the session lets nobody else in
        archive.stays = True
        session.ask(_command(CHECKPOINT))


@contextlib.contextmanager
def _held(store: str, deadline: float) -> Iterator[Held]:
    """A session that holds a store, once no other run does."""
    session = _opened(store, deadline)
    try:
        yield session
    except BaseException:
        session.end()
        raise
    ended = session.end()
    if ended.status:
        raise _fault_of(ended)
    write_error(ended.lines())


def _opened(store: str, deadline: float) -> Held:
    """A session, which is tried again until the deadline where another run holds the store."""
    while True:
        session = Held(store)
        try:
            session.ask(_command(NAMES))
            return session
        except Fault as fault:
            session.end()
            if not fault.may_try_again or time.monotonic() >= deadline:
                raise
        time.sleep(PAUSE)


class Held:
    """A session of the program, which holds a store."""

    def __init__(self, store: str) -> None:
        pipe = subprocess.PIPE
        try:
            self._process = subprocess.Popen([program(), "run", "--", store], stdin=pipe, stdout=pipe, stderr=pipe)
        except OSError as error:
            raise Fault("NotStarted", f"the program can't be run: {error.strerror}") from None

    def ask(self, command: Command) -> Reply:
        """The answer to a command. Raises its `Fault`, or that of a session that is over."""
        assert self._process.stdin is not None and self._process.stdout is not None
        with contextlib.suppress(BrokenPipeError):
            self._process.stdin.write(document(command))
            self._process.stdin.flush()
        cutter = Cutter()
        while part := os.read(self._process.stdout.fileno(), PART):
            for piece in cutter.cut(part):
                return answer_of(SessionReply(piece), command, program_if_any())
        raise _fault_of(self.end())

    def end(self) -> Ended:
        """Ends it. How it has ended."""
        _, errors = self._process.communicate() if self._process.returncode is None else (b"", b"")
        return Ended(self._process.returncode, b"", errors)


def _fault_of(ended: Ended) -> Fault:
    """The fault of a session that is over."""
    if ended.was_locked:
        return Fault("Locked", None, True)
    return ended.fault() if ended.errors else Fault("Unknown", f"the program {ended.how}")


# ---- where a server holds it


def _by_server(place: Place, archive: Archive) -> None:
    """Asks a server for the checkpoint. Raises a `Fault`."""
    if isinstance(_answer_at(place, _command(NAMES)), NodeReply):
        raise Fault("Unsupported", NOT_BY_NODES["checkpoint"])

    def ask(command: Command) -> Reply:
        return answer_of(_answer_at(place, command), command, program_if_any())

    with _kept_or_dropped(archive), _copied(archive, ask) as replaced:
        answer = _answer_at(place, _command(CHECKPOINT), archive)
        last = answer_of(answer, _command(CHECKPOINT), program_if_any()).tree()
        assert isinstance(last, str)
        replaced.finish(int(last))


def _answer_at(place: Place, command: Command, archive: Optional[Archive] = None) -> Reply:
    """What a server answers. Each time it is looked at which store it has. If an archive is given, it stays once there
    is a server that may do the command."""
    with Connection(place) as connection:
        if archive is not None:
            archive.stays = True
        answer = connection.ask(command)
        connection.finish()
    return answer


@contextlib.contextmanager
def _copied(archive: Archive, ask: Ask) -> Iterator[Replaced]:
    """Copies the store of a server so that a checkpoint drops nothing else: where the file is not linked, until no
    command came meanwhile. Raises a `Fault`."""
    for _ in range(TRIES):
        replaced = Replaced(archive)
        try:
            archive.make()
            if replaced.is_kept() or hold([Count(archive.last)], ask):
                yield replaced
                return
        finally:
            replaced.close()
        archive.drop()
    about = f"{TRIES} times commands came while the store was copied: take a folder on the device of the store"
    raise Fault("Unmet", f"{about}, as its owner, or a time when fewer come; nothing was changed")


class Replaced:
    """The file of a store, which the checkpoint of a server replaces. It is open, and linked in the archive."""

    def __init__(self, archive: Archive) -> None:
        self._archive = archive
        self._path = os.path.join(archive.store, NAME)
        self._kept = os.path.join(archive.folder, KEPT)
        if os.path.lexists(archive.path):
            raise Fault("StoreExists")
        try:
            if not os.path.lexists(archive.folder):
                os.mkdir(archive.folder)
            self._file = os.open(self._path, os.O_RDONLY | os.O_CLOEXEC | os.O_NOFOLLOW | os.O_NONBLOCK)
        except OSError as error:
            raise Fault("Device", f"{shown(str(error.filename))}: {error.strerror}") from None
        self._is_linked = False
        try:
            self._link()
        except FileExistsError:
            os.close(self._file)
            about = f"{shown(self._kept)} is of a checkpoint that was cut off, and may have what no other file has"
            raise Fault("FileExists", f"{about}: take another folder") from None

    def _link(self) -> None:
        """Gives the file a name in the archive, where that is on the same device, and the user may do so."""
        try:
            os.link(self._path, self._kept, follow_symlinks=False)
        except FileExistsError:
            raise
        except OSError:
            return
        self._is_linked = self._is_at(self._kept)
        if not self._is_linked:
            os.unlink(self._kept)  # another file has come in its place

    def _is_at(self, path: str) -> bool:
        """Whether the file has a name."""
        try:
            return os.path.samestat(os.lstat(path), os.fstat(self._file))
        except FileNotFoundError:
            return False

    def is_kept(self) -> bool:
        """Whether it is linked, and still that of the store, so that it has all that a checkpoint drops."""
        return self._is_linked and self._is_at(self._path)

    def finish(self, last: int) -> None:
        """Lets it go, once a checkpoint has dropped the commands up to a number. If it has more than the copy, it takes
        the place of that. Raises the `Fault` of an archive that lacks some."""
        if last > self._archive.last:
            try:
                self._take_place()
            except OSError as error:
                raise Fault("Device", f"{shown(self._kept)}: {error.strerror}") from None
            self._archive.look()
        elif self._is_linked:
            os.unlink(self._kept)
        self._is_linked = False
        if last > self._archive.last:
            about = f"the commands from {self._archive.last + 1} to {last} came between, and are in no file"
            raise Fault("Gap", f"{about}: the server makes checkpoints itself (--checkpoint-after)")

    def _take_place(self) -> None:
        """Puts it in the place of the copy."""
        if self._is_at(self._kept):
            os.fsync(self._file)
        else:
            self._copy()
        os.rename(self._kept, self._archive.path)
        _sync(self._archive.folder)

    def _copy(self) -> None:
        target = os.open(self._kept, os.O_WRONLY | os.O_CREAT | os.O_EXCL | os.O_CLOEXEC, stat.S_IRUSR | stat.S_IWUSR)
        with open(target, "wb") as copy, open(os.dup(self._file), "rb") as source:
            shutil.copyfileobj(source, copy, PART)
            os.fchmod(target, stat.S_IMODE(os.fstat(self._file).st_mode))
            copy.flush()
            os.fsync(target)

    def close(self) -> None:
        """Closes it. Its name in the archive goes, unless a checkpoint was asked for that it may be needed after."""
        os.close(self._file)
        if self._is_linked and not self._archive.stays:
            with contextlib.suppress(OSError):
                os.unlink(self._kept)
