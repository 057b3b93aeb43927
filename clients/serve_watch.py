"""What `serve.py` knows of its store: whether it is still there, and which changes are made in it.

The folder is held open, and the session works in that one. Twice a second, before and after a session is renewed, when
a client connects, and when watchers are told something, it is looked at whether the store is still that one:

- the folder's path leads to the folder that is open, by device and inode
- `store.yaml` in it is the file that it was, or another one that the session has open: a session puts a new file in
  place at a checkpoint, and where it has to copy the file as it opens it
- what stood at the end of that file is still there, twice a second and before a session is renewed: a session appends
- where a session follows another one, `store.yaml` begins with what the one before left, or its base stands for all
  that was answered: other runs may have changed the store between the two
- the number of its last change is no less than the last one that was answered

Where one of these fails, another store may stand there. Then the server performs no more commands, and ends.

The changes are told to clients that can't read the folder. A client that sends `watch: "N"` is a watcher from then on:
this server takes that command, and no session sees it. The watcher is sent documents until it goes:

- first `watch: "N"`, the number of the change that is told next. After `watch: ""` that is the next one that is made
- each change as soon as it is made, as its record stands in `store.yaml`; the last ones may not be on the disk yet
- `cut`, with the numbers `first` and `last`: a checkpoint dropped these changes before they were told
- `replaced`, with the number `after`: the store has another history, and what it has after that number is told next.
  With `after: "0"` another store stands in the place of this one, and the server ends
- at the end, `refused: NotInStyle` where the file does not begin as the program writes it. A checkpoint writes it anew

The file is read once for all watchers, a slice in each turn of the server's loop, and only while there are some. Of a
watcher nothing is kept but a part of at most 65,536 bytes. It is sent the next part once it has read that one, and is
cut off as any client that reads nothing, or that others wait for while nothing is to be told. It goes on with the
number after the last one that it saw. One that sends another command is cut off. A checkpoint's old file is kept open
for the watchers that still read it, at most KEPT of them.
"""

from __future__ import annotations

import bisect
import collections
import contextlib
import os
import re
import stat
from typing import Generator, Iterator, NamedTuple, Optional, Protocol

from serve_socket import Fault, inside, reason, shown

STORE_FILE, NEXT_FILE = "store.yaml", "next.yaml"

PART = 65_536  # bytes that a watcher is sent at once
SLICE = 1_048_576  # bytes that are read at once to find where records end
KEPT = 4  # files that a checkpoint has replaced, and that are still read
SERVED = 16  # watchers that are sent a part in one turn

CLOSING = b"\n...\n"
LONGEST = 64  # bytes of a command that asks to watch
ASKED = re.compile(rb'(?:---\n)?(?:watch: "([0-9]{0,20})"|\{"watch": "([0-9]{0,20})"\})\n\.\.\.\n')
BASE = re.compile(rb'(?:---\n)?store: "?confstore-[0-9]+"?\nat: "([0-9]{1,20})"\n')
BASE_LONGEST = 128  # bytes that the number of a base stands in
RECORD = re.compile(rb'\n\.\.\.\n(?:---\n)?at: "([0-9]{1,20})"\n')
# What a session says where others changed its file.
CHANGED = re.compile(rb"^store\.yaml: others have ", re.M)
OK = re.compile(rb'---\nok: "([0-9]{1,20})"\n\.\.\.\n')

# How much of the end of a file is kept to know it by, and how far the start of its last record is looked for.
TAIL = 4_096
FURTHEST = 67_108_864

Identity = tuple[int, int]  # a device, and the number of a file on it


def identity_of(found: os.stat_result) -> Identity:
    return found.st_dev, found.st_ino


def base_of(file: int) -> Optional[int]:
    """The number that the base of an open file stands for, or None where it is not written as the program does it."""
    found = BASE.match(os.pread(file, BASE_LONGEST, 0))
    return int(found[1]) if found else None


def stands_for(file: int, count: int) -> bool:
    """Whether the base of an open file stands for that many changes, as that of a later checkpoint does. Two checkpoints
    may give a file the number that the one before the first had, so the number alone does not tell them apart."""
    base = base_of(file)
    return base is not None and base >= count


class Mark(NamedTuple):
    """Where the last whole document of a file ends, the bytes before that, and the number of the last change in it."""

    end: int
    tail: bytes
    number: Optional[int]  # None where it can't be told

    def goes_on_in(self, file: int) -> bool:
        """Whether an open file begins with what was marked, or its base stands for all of that."""
        if os.pread(file, len(self.tail), self.end - len(self.tail)) == self.tail:
            return True
        return self.number is not None and stands_for(file, self.number)


def mark_of(file: int) -> Mark:
    """The mark of an open file. Its last record is looked for from the end, in parts that grow."""
    size, reach = os.fstat(file).st_size, TAIL
    while True:
        start = max(size - reach, 0)
        part = os.pread(file, size - start, start)
        closing = part.rfind(CLOSING)
        end = closing + len(CLOSING) if closing >= 0 else 0
        found = list(RECORD.finditer(part, 0, end))
        if found or start == 0 or reach >= FURTHEST:
            break
        reach *= 4
    number = int(found[-1][1]) if found else base_of(file) if start == 0 else None
    return Mark(start + end, bytes(part[max(end - TAIL, 0) : end]), number)


class Store:
    """The folder of the store, which is held open, and the file in it. `trouble` says what stands in their place, if
    that is another store or none."""

    def __init__(self, path: str) -> None:
        self.path = os.path.abspath(path)
        try:
            self.folder = os.open(self.path, os.O_RDONLY | os.O_DIRECTORY | os.O_CLOEXEC)
        except OSError as error:
            hint = "make it first" if isinstance(error, FileNotFoundError) else "see who may read it"
            raise Fault(f"the store's folder {shown(path)} can't be used: {reason(error)}: {hint}") from None
        self.file: Optional[Identity] = None
        # How long the file was when its end was looked at, what stood there, and the last number answered by then.
        self.seen = (0, b"", 0)
        self.count = 0  # the last number that was answered
        self.mark: Optional[Mark] = None  # of the file, as the session before left it
        self.session: Optional[int] = None  # the process of the session, while it holds the store
        self.shows_files = False  # whether that process is the one that has the file open
        self.trouble = ""

    def close(self) -> None:
        os.close(self.folder)

    def hold(self, session: int) -> None:
        """A session of this process has opened the store."""
        found = self.found()
        self.session, self.file = session, None
        self.shows_files = found is not None and identity_of(found) in self.files_of_session()
        self.look()

    def leave(self) -> None:
        """The session is over."""
        self.session = None

    def answer(self, *answers: bytes) -> None:
        """Notes the number of the last change that was answered."""
        for answer in reversed(answers):
            if found := OK.fullmatch(answer):
                self.count = int(found[1])
                return

    def look(self) -> bool:
        """Whether the store is still this one, as far as it can be seen."""
        if not self.trouble:
            self.trouble = self.why_other_folder() or (self.why_other_file() if self.session else "")
        return not self.trouble

    def why_other_folder(self) -> str:
        """What is at the folder's path in place of the folder, or nothing."""
        try:
            there = os.stat(self.path)
        except (FileNotFoundError, NotADirectoryError):
            return "its folder is not there any more"
        except OSError:
            return ""  # it may not be looked at
        return "" if os.path.samestat(there, os.fstat(self.folder)) else "another folder is there"

    def why_other_file(self) -> str:
        """What is in place of the session's file, or nothing."""
        found = self.found()
        if found is None:
            return "" if self.file is None else f"its {STORE_FILE} is not there any more"
        file = identity_of(found)
        if file == self.file:
            return ""
        is_placed = self.is_placed_by_session(file)
        if is_placed:
            self.file, self.seen = file, (0, b"", 0)
        return f"another {STORE_FILE} is there" if is_placed is False else ""

    def is_placed_by_session(self, file: Identity) -> Optional[bool]:
        """Whether the session has put the file there that was just seen, or None where that can't be told now."""
        files = self.files_of_session()
        if file in files or not self.shows_files:
            return True
        following = self.found(NEXT_FILE)
        later = self.files_of_session()  # what it has opened while the first ones were listed, too
        is_between = following is not None and identity_of(following) in files | later  # a checkpoint is to replace it
        is_held = identity_of(os.fstat(self.folder)) in later  # a session that ends lets the folder go first
        still = self.found()
        is_there = still is not None and identity_of(still) == file
        return False if is_held and is_there and not is_between else None

    def look_inside(self) -> bool:
        """As `look`. It also looks at what stands at the end of the file, and stood there before."""
        file = self.opened() if self.look() and self.session else None
        if file is not None:
            length, tail, count = self.seen
            if identity_of(os.fstat(file)) == self.file:
                if os.pread(file, len(tail), length - len(tail)) != tail and not stands_for(file, count):
                    self.trouble = f"its {STORE_FILE} was cut or written over"
                length = os.fstat(file).st_size
                self.seen = length, os.pread(file, TAIL, max(length - TAIL, 0))[: min(length, TAIL)], self.count
            os.close(file)
        return not self.trouble

    def heed(self, told: bytes) -> None:
        """Takes what a session said: it may be the first to find that others changed its file, and ends then."""
        if self.trouble or not CHANGED.search(told):
            return
        found = self.found()
        if found is None:
            self.trouble = f"its {STORE_FILE} is not there any more"
        elif identity_of(found) != self.file:
            self.trouble = f"another {STORE_FILE} is there"
        else:
            self.trouble = f"its {STORE_FILE} was cut or written over"

    def found(self, name: str = STORE_FILE) -> Optional[os.stat_result]:
        """What is at a name in the folder, if anything is."""
        try:
            return os.stat(name, dir_fd=self.folder, follow_symlinks=False)
        except OSError:
            return None

    def files_of_session(self) -> set[Identity]:
        """The files that the session has open. There are none where its process is gone or may not be looked at."""
        place, files = f"/proc/{self.session}/fd", set()
        with contextlib.suppress(OSError):
            for name in os.listdir(place):
                with contextlib.suppress(OSError):
                    files.add(identity_of(os.stat(os.path.join(place, name))))
        return files

    def opened(self) -> Optional[int]:
        """The open file of the store, if there is a plain one."""
        try:
            file = os.open(STORE_FILE, os.O_RDONLY | os.O_NOFOLLOW | os.O_NONBLOCK | os.O_CLOEXEC, dir_fd=self.folder)
        except OSError:
            return None
        if stat.S_ISREG(os.fstat(file).st_mode):
            return file
        os.close(file)
        return None

    def note_end(self) -> None:
        """Notes how a session that has answered all leaves the file."""
        file = self.opened()
        if file is not None:
            self.mark = mark_of(file)
            os.close(file)
            if self.mark.number is not None and self.mark.number < self.count:
                self.trouble = f"its {STORE_FILE} lacks changes that were answered"

    def goes_on(self) -> bool:
        """Whether the store is still this one, and its file goes on from where the session before left it."""
        if self.look() and self.mark is not None:
            file = self.opened()
            if file is None:
                self.trouble = f"its {STORE_FILE} is not there any more"
            else:
                if not self.mark.goes_on_in(file):
                    self.trouble = f"its {STORE_FILE} does not go on from what was answered"
                os.close(file)
        return not self.trouble


def asked_in(command: bytes) -> Optional[bytes]:
    """The number that a command asks to watch from, which may be empty, or None if it is another command."""
    found = ASKED.fullmatch(command)
    return None if found is None else found[1] if found[1] is not None else found[2]


class Journal:
    """A file that is or was `store.yaml`: where its records end, as far as it was read."""

    def __init__(self, path: str) -> None:
        self.file = os.open(path, os.O_RDONLY | os.O_NOFOLLOW | os.O_NONBLOCK | os.O_CLOEXEC)
        self.identity = identity_of(os.fstat(self.file))
        self.base: Optional[int] = None  # the number of the last command that the base stands for
        self.number = 0  # of the last whole record, or of the base
        self.whole = 0  # where that ends
        self.looked = 0
        self.marks: list[tuple[int, int]] = []  # numbers of some records, each with the end of its record
        self.is_read = False  # whether its end was reached
        self.is_over = False  # whether another file stands in its place, and it was read to its end
        self.is_in_style = True

    def read(self, is_replaced: bool) -> bool:
        """Looks for the ends of records in the next slice. Whether there may be more to read at once."""
        unread = os.fstat(self.file).st_size - self.looked
        if unread >= len(CLOSING):
            self.read_slice(os.pread(self.file, min(SLICE, unread), self.looked))
        is_more = unread > SLICE
        self.is_read = self.is_read or not is_more
        self.is_over = is_replaced and not is_more
        return is_more

    def read_slice(self, part: bytes) -> None:
        at = 0
        while (found := part.find(CLOSING, at)) >= 0:
            at = found + len(CLOSING) - 1
            self.end_one(self.looked + found + len(CLOSING))
        self.looked += max(len(part) - len(CLOSING) + 1, 0)

    def end_one(self, end: int) -> None:
        """Notes the end of the base, or of a record. The number of each record is one more than that before it."""
        if self.base is None:
            base = base_of(self.file)
            self.is_in_style = base is not None
            self.base = self.number = base or 0
        else:
            self.number += 1
        self.whole = end
        if not self.marks or end - self.marks[-1][1] >= SLICE:
            self.marks.append((self.number, end))

    def mark_before(self, number: int) -> tuple[int, int]:
        """A record before the one with a number, and its end."""
        return self.marks[bisect.bisect_left(self.marks, (number, 0)) - 1]

    def close(self) -> None:
        if self.file >= 0:
            os.close(self.file)
        self.file = -1


class Journals:
    """The file of a store, and those before it that watchers still read."""

    def __init__(self, store: Store) -> None:
        self.store = store
        self.path = inside(store.folder, STORE_FILE)
        self.all: list[Journal] = []  # the last one is the store's

    def look(self, in_use: set[Journal]) -> bool:
        """Reads on, and drops what nobody reads any more. Whether there may be more to read at once."""
        if self.store.look() and self.store.file and not (self.all and self.all[-1].identity == self.store.file):
            self.open()
        unused = [journal for journal in self.all[:-1] if journal not in in_use]
        for journal in unused or self.all[: -KEPT - 1]:
            journal.close()
            self.all.remove(journal)
        return any([self.read(journal) for journal in list(self.all) if not journal.is_over])

    def open(self) -> None:
        """Opens the file that stands there, if it is the one that was looked at."""
        with contextlib.suppress(OSError):
            journal = Journal(self.path)
            if journal.identity == self.store.file:
                self.all.append(journal)
            else:
                journal.close()

    def are_over(self) -> bool:
        """Whether another store stands in the place of this one, and nothing is added to it any more."""
        return bool(self.store.trouble) and self.store.session is None

    def read(self, journal: Journal) -> bool:
        """Reads on in a file. Where it can't be read it is dropped, and those who read it are cut off."""
        try:
            return journal.read(journal is not self.all[-1] or self.are_over())
        except OSError:
            journal.close()
            self.all.remove(journal)
            return False

    def close(self) -> None:
        for journal in self.all:
            journal.close()
        self.all.clear()


def document(text: str) -> bytes:
    return f"---\n{text}\n...\n".encode()


class Heard(Protocol):
    """What a client has sent: its bytes, and the end of its next command, or 0."""

    bytes: bytearray
    end: int

    def take(self) -> bytearray: ...


class Client(Protocol):
    """A client of the server: what it has sent, what it has still to read, and how it is given more."""

    unsaid: bytearray
    watcher: "Optional[Watcher]"

    @property
    def heard(self) -> Heard: ...

    def tell(self, part: bytes) -> None: ...


class Watcher:
    """What one client is told of the changes."""

    def __init__(self, client: Client, start: bytes, journals: Journals) -> None:
        self.client = client
        self.journals = journals
        self.journal: Optional[Journal] = None  # the one that it reads
        self.next = max(int(start or 0), 1)  # the number of the change that it is told next
        self.parts = self.told(is_from_end=not start)
        self.is_looking = False  # whether there is more to look for at once
        self.is_over = False  # whether it is told nothing more

    def turn(self) -> bool:
        """Tells the client the next part, if it has read the one before. Whether there was one."""
        if self.client.unsaid or self.is_over:
            return False
        try:
            part = next(self.parts)
        except (StopIteration, OSError):  # the file can't be read, or others needed its place
            self.is_over = True
            return False
        if part:
            self.client.tell(part)
        return bool(part)

    def has_to_end(self) -> bool:
        """Whether it is to be told that another store stands in the place of this one, and has begun to be told."""
        return self.journals.are_over() and self.journal is not None and not self.is_over

    def told(self, is_from_end: bool) -> Iterator[bytes]:
        """What the client is told, in parts. A part is empty where nothing is there yet."""
        journal = yield from self.opened()
        if is_from_end:
            self.next = journal.number + 1
        yield document(f'watch: "{self.next}"')
        while journal.is_in_style and journal.base is not None:
            if self.next > journal.number + 1:
                yield document(f'replaced:\n  after: "{journal.number}"')
                self.next = journal.number + 1
            elif self.next <= journal.base:
                yield document(f'cut:\n  first: "{self.next}"\n  last: "{journal.base}"')
                self.next = journal.base + 1
            yield from self.records(journal)
            self.next = journal.number + 1
            if self.journals.all[-1:] == [journal]:
                yield document('replaced:\n  after: "0"')  # no other file has followed, so another store has
                return
            journal = yield from self.opened()
        yield document("refused: NotInStyle")

    def opened(self) -> Generator[bytes, None, Journal]:
        """The file of the store, once its end was reached."""
        while True:
            journal = self.journal = self.journals.all[-1] if self.journals.all else None
            if journal is not None and journal.is_read and journal.base is not None:
                return journal
            yield b""

    def records(self, journal: Journal) -> Iterator[bytes]:
        """The records of a file from the next one on, until it is over."""
        place = yield from self.place_in(journal)
        while place < journal.whole or not journal.is_over:
            part = os.pread(journal.file, min(PART, journal.whole - place), place)
            place += len(part)
            yield part

    def place_in(self, journal: Journal) -> Generator[bytes, None, int]:
        """Where the record that is told next begins."""
        number, end = journal.mark_before(self.next)
        looked, self.is_looking = end, True
        while number < self.next - 1:
            part, at = os.pread(journal.file, SLICE, looked), 0
            while number < self.next - 1 and (found := part.find(CLOSING, at)) >= 0:
                at = found + len(CLOSING) - 1
                number, end = number + 1, looked + found + len(CLOSING)
            looked += max(len(part) - len(CLOSING) + 1, 0)
            yield b""
        self.is_looking = False
        return end


class Watchers:
    """All who watch, and the files that they read."""

    def __init__(self, store: Store) -> None:
        self.journals = Journals(store)
        self.all: collections.deque[Watcher] = collections.deque()

    def begin(self, client: Client) -> bool:
        """Whether the next command of a client was one to watch, which is taken then."""
        heard = client.heard
        start = asked_in(bytes(heard.bytes[: heard.end])) if heard.end <= LONGEST else None
        if start is None:
            return False
        heard.take()
        client.watcher = Watcher(client, start, self.journals)
        self.all.append(client.watcher)
        return True

    def leave(self, watcher: Watcher) -> None:
        self.all.remove(watcher)

    def turn(self) -> bool:
        """Reads on, and tells some of them what is there, in turn. Whether there is more to do at once."""
        if not self.all:
            if self.journals.all:
                self.journals.close()
            return False
        is_more = self.journals.look({watcher.journal for watcher in self.all if watcher.journal})
        told = 0
        for watcher in list(self.all):
            if told >= SERVED:
                return True
            self.all.rotate(-1)
            told += watcher.turn()
        return is_more or any(watcher.is_looking for watcher in self.all)

    def close(self) -> None:
        self.journals.close()
