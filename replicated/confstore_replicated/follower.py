"""A follower: it performs the entries of the log on its own store, in order, each exactly once.

The batch of an entry takes out the number of the entry before it and puts its own (`entries.py`), so the store holds an
entry with its number or neither, whenever it is killed. After a start the follower goes on behind the number that the
store holds. An entry that is refused is refused by every follower alike, since their states are the same; then its
number is put alone, with the word of the refusal in the record. So each entry is one accepted command of the store.

Before it performs anything, and each second, it looks whether the log is still the one that its store has performed
(`history.py`). If not, it performs nothing more until it is again, and says so.
"""

from __future__ import annotations

import contextlib
import os
import random
import sys
import threading
import time
from collections import deque
from dataclasses import dataclass
from typing import Callable, Deque, List, NamedTuple, Optional, Sequence

from confstore import ConfstoreError, NoConfig, Refused as StoreRefused

from .answers import Answer, Performed, answers_in, base_length_in, count_in
from .bases import NAMES_KEPT, Bases, install
from .entries import RESERVED, Change, Command, Refused, batch_of, change_in, digest_of, number_in, refusal_of
from .etcd import MOST_ENTRIES, Access, Etcd, Item, Look, Unavailable
from .history import Behind, OtherHistory, Place, base_in, judge, mark_of, short_of
from .metrics import OLDEST_LOOK, Counts
from .store import NodeStore
from .stream import Stream

# How many bytes of entries are sent to the session before the first is answered.
GROUP_BYTES = 1_000_000

# After how many bytes of records the store writes a checkpoint. So its file is far from its limit.
CHECKPOINT_BYTES = 64 * 1024 * 1024

# How many seconds the follower waits at first where something fails, and at most.
PAUSE = 0.2
LONGEST_PAUSE = 5.0

# How many seconds lie between two looks at the log, whatever a stream tells, and how many a stream has to begin.
LOOK = 1.0
BEGINNING = 2.0

# How many entries behind a store are counted at most.
MOST_COUNTED = 1_000

# The words that a store refuses a command by which depend on its state, its count and the command alone, which are the
# same at all nodes. `JournalLong` is not one of them: it depends on the file of one node.
WORDS = frozenset(
    (
        "AboutLarge", "BadCommand", "BadName", "BadPath", "ConfigLarge", "CountFull", "Documents", "EmptyBatch",
        "KeyNotText", "KeyTwice", "LargeInStyle", "NoConfig", "NoSuchPlace", "NotIndex", "NotUtf8", "RecordLong", "StoreFull",
        "Syntax", "TooDeep", "TooLong", "Unmet",
    )
)  # fmt: skip
JOURNAL_LONG = "JournalLong"


class NotReplicated(ConfstoreError):
    """The store has commands that no log had."""


@dataclass
class _Turn:
    """An entry whose turn it is: what it changes, its mark, and why it is refused, once that is known."""

    entry: Item
    mark: str
    word: Optional[str] = None
    change: Change = Change([])
    digest: Optional[bytes] = None
    is_short: bool = False

    def __post_init__(self) -> None:
        try:
            self.change, command = change_in(self.entry.value)
            self.digest = digest_of(self.change, command)
        except Refused as fault:
            self.word = fault.word

    def batch(self, before: int) -> Command:
        """What is sent to the store, whose last entry has this number."""
        if self.word is not None:
            return refusal_of(self.word, self.entry.created, before, self.mark)
        return batch_of(self.change, self.entry.created, before, self.mark)

    def refuse(self, word: str) -> None:
        """Notes that the store refused it; of a number alone, that there is no room for the whole mark."""
        if self.word is None and word in WORDS:
            self.word = word
        elif self.word is not None and word == "StoreFull" and not self.is_short:
            self.mark, self.is_short = short_of(self.mark), True
        else:
            raise ConfstoreError(f"the number of entry {self.entry.created} is refused: {word}")


@dataclass
class _Progress:
    """What is told of a follower: how many entries it has performed since it began, how many the log has behind them of
    those that it had when they were counted, when that was, and how long the base in the file of its store is. What
    isn't known is None."""

    applied: int = 0
    behind: Optional[int] = None
    counted: float = 0.0
    base: Optional[int] = None

    def perform(self) -> None:
        self.applied += 1
        self.behind = self.behind - 1 if self.behind else self.behind


class Standing(NamedTuple):
    """How a follower stands: the number of the last entry that it performed, how many it has performed since it began,
    how many it has still to perform, of those that the log had when they were counted last, how many seconds ago it
    looked at the log, and the lengths of its file and of the base in it, in bytes. What isn't known is None."""

    position: int
    applied: int
    behind: Optional[int]
    looked_ago: Optional[float]
    length: Optional[int]
    base: Optional[int]


def _groups(entries: Sequence[Item]) -> List[List[Item]]:
    """The entries in order, in groups that are sent at once."""
    groups: List[List[Item]] = []
    length = 0
    for entry in entries:
        length += len(entry.value)
        if not groups or length > GROUP_BYTES:
            groups.append([])
            length = len(entry.value)
        groups[-1].append(entry)
    return groups


class Follower(threading.Thread):
    """Follows the log of a cluster. `told` is called with the number of an entry and what it was answered, and `forget`
    before the store starts from a base: what was told before may be of another history."""

    def __init__(
        self,
        folder: str,
        members: List[str],
        cluster: str,
        *,
        program: Optional[str] = None,
        base_after: int = 1000,
        names_kept: int = NAMES_KEPT,
        told: Callable[[int, Performed], None] = lambda _number, _performed: None,
        forget: Callable[[], None] = lambda: None,
        access: Optional[Access] = None,
        counts: Optional[Counts] = None,
    ) -> None:
        super().__init__(name="confstore follower", daemon=True)
        self._counts = counts or Counts()
        self._folder = folder
        self._program = program
        self._etcd = Etcd(members, access=access)
        prefix = f"/confstore/{cluster}/".encode()
        self._log, self._base_key = prefix + b"log/", prefix + b"base"
        self._bases = Bases(self._etcd, prefix, base_after, names_kept, self._counts)
        self._base_after = base_after
        self._told, self._forget = told, forget
        self._state = threading.Condition()  # the three below are changed with it held
        self._place = Place(0, "")
        self._fault: Optional[OtherHistory] = None
        self._has_looked = False
        self._ended = threading.Event()
        self._last: Optional[Item] = None
        self._cluster_id = 0
        self._count = 0
        self._since_base = 0
        self._checkpoint_length = 0
        self._looked = 0.0
        self._progress = _Progress()
        self._pause = PAUSE
        self._said = ""
        #: The store, which others may read. None while there is no session.
        self.store: Optional[NodeStore] = None

    # ---- for others

    def wait_for(self, number: int, timeout: float) -> bool:
        """Waits until an entry was performed here, also one that was refused. Whether it was. Raises `OtherHistory`."""

        def is_over() -> bool:
            return self._place.number >= number or self._fault is not None or self._ended.is_set()

        with self._state:
            self._state.wait_for(is_over, timeout)
            self._raise_fault()
            return self._place.number >= number and not self._ended.is_set()

    def wait_for_look(self, timeout: float) -> None:
        """Waits until the log was looked at since the start. Raises `OtherHistory`, or `Unavailable` after so long."""
        with self._state:
            self._state.wait_for(lambda: self._has_looked or self._fault or self._ended.is_set(), timeout)
            self._raise_fault()
            if not self._has_looked:
                raise Unavailable("this node has not seen the log yet")

    def place(self) -> Place:
        """Which entry this store performed last."""
        with self._state:
            return self._place

    def look(self, etcd: Etcd, place: Place) -> Look:
        """Looks, by another client of etcd, whether the log is the one that a store at this place has performed.
        Returns what was found, with the newest entry. Raises `OtherHistory`, or `Behind` if that isn't known."""
        self.check()
        look = etcd.look(self._log, self._base_key, place.number, place.key, newest=True)
        judge(look, place)
        return look

    def check(self) -> None:
        """Raises `OtherHistory` if that is what the follower found last."""
        with self._state:
            self._raise_fault()

    def standing(self) -> Standing:
        """How it stands now. Nothing is asked of etcd, and no lock is waited for that a thread keeps for long."""
        looked_ago = time.monotonic() - self._looked if self._looked else None
        progress, base, length = self._progress, self._progress.base, None
        with contextlib.suppress(OSError):
            length = self._length()
        if progress.base != base:  # a checkpoint is being written
            base = None
        with self._state:
            return Standing(self._place.number, progress.applied, progress.behind, looked_ago, length, base)

    def trouble(self) -> str:
        """Why this node doesn't serve, or nothing."""
        store = self.store
        if store is None or store.end is not None:
            return "no session holds the store"
        with self._state:
            if self._fault is not None:
                return "etcd does not have the log that this store has performed"
        if time.monotonic() - self._looked > OLDEST_LOOK:
            return f"the log was not looked at for {OLDEST_LOOK:g} seconds"
        return ""

    def _raise_fault(self) -> None:
        if self._fault is not None:
            raise OtherHistory(*self._fault.args)

    def end(self) -> None:
        self._ended.set()
        with self._state:
            self._state.notify_all()

    # ---- the thread

    def run(self) -> None:
        while not self._ended.is_set():
            try:
                if self.store is None:
                    self.open()
                while not self._ended.is_set():
                    self._need_session()
                    try:
                        self._follow()
                    except Unavailable as error:
                        self._say(error)
                    except OtherHistory as error:
                        self._stand_still(error)
            except Behind:
                self._start_from_base()
            except Exception as error:  # whatever it is, the others go on, and so does this one after a while
                self._say(error)
            finally:
                self.close()
        self._etcd.close()

    def _say(self, fault: Exception) -> None:
        """Prints what went wrong, the same thing once, and waits; the longer the more often."""
        self._counts.name("faults", type(fault).__name__)
        about = f"follower: {type(fault).__name__}: {fault}"
        if about != self._said:
            print(about, file=sys.stderr, flush=True)
        self._said = about
        self._ended.wait(self._pause)
        self._pause = min(2 * self._pause, LONGEST_PAUSE)

    def _stand_still(self, fault: OtherHistory) -> None:
        """Has all requests fail, says what to do, and waits."""
        with self._state:
            self._fault = fault
            self._state.notify_all()
        remedy = (
            "this node answers nothing until etcd has its entries again. Restore etcd from a newer snapshot (with "
            "--bump-revision where it has that), or end this node, keep its folder aside, and start it with an empty "
            "one: then it holds what etcd has"
        )
        self._say(OtherHistory(f"{self._folder}: {fault}; {remedy}"))

    def close(self) -> None:
        store, self.store, self._progress.base = self.store, None, None
        if store is not None:
            store.close()

    def open(self) -> None:
        """Opens the store, and tells what the entries in its file were answered. Raises `NotReplicated`."""
        os.makedirs(self._folder, exist_ok=True)
        self.store = store = NodeStore(self._folder, program=self._program)
        self._counts.add("sessions")
        try:
            place = self._place_in(store)
            for number, performed in answers_in(self._folder):
                self._told(number, performed)
        except BaseException:
            self.close()
            raise
        self._last, self._checkpoint_length = None, base_length_in(self._folder)
        self._progress.base = self._checkpoint_length
        with self._state:
            self._place = place
            self._state.notify_all()

    def _place_in(self, store: NodeStore) -> Place:
        """Which entry the store holds as the last one. Raises `NotReplicated` if it holds commands and no entry."""
        try:
            return Place(*number_in(store.get(RESERVED)))
        except NoConfig:
            if store.names() or count_in(self._folder) != 0:
                raise NotReplicated(
                    f"{self._folder} has a store with commands that are in no log, so this node would hold other "
                    "things than the others. Start it with an empty folder, and `import` what the old store exports"
                ) from None
            return Place(0, "")

    def _look(self, most: int, newest: bool = False) -> Look:
        """Looks at the log. Raises `OtherHistory` or `Behind` if the store can't go on with it."""
        look = self._etcd.look(self._log, self._base_key, self._place.number, self._place.key, most, newest)
        self._looked = time.monotonic()
        judge(look, self._place)
        self._cluster_id = look.cluster
        if look.at is not None:
            self._last = look.at
            self._place = self._place._replace(key=look.at.key)
        with self._state:
            self._fault, self._has_looked = None, True
            self._state.notify_all()
        self._count_behind(len(look.after), most)
        return look

    def _count_behind(self, found: int, most: int) -> None:
        """Notes how many entries the log has behind the store's, where a look has found so many of at most so many."""
        behind: Optional[int] = found
        if found == most:
            if not self._counts.is_told or self._looked - self._progress.counted < LOOK:
                return
            self._progress.counted = self._looked
            behind = self._etcd.count_after(self._log, self._place.number, MOST_COUNTED)
        with self._state:
            self._progress.behind = behind

    def _follow(self) -> None:
        """Performs what the log has, and then each entry as it comes, until the member that tells of them goes."""
        revision = self._catch_up()
        stream = Stream(self._etcd, self._log, revision + 1)
        try:
            if not stream.has_begun(BEGINNING):
                self._ended.wait(PAUSE)
                return
            # The log that the stream tells of is looked at after it has begun, so it is the one that is performed.
            look = self._look(1)
            if look.revision >= revision and (not look.after or look.after[0].created > revision):
                self._perform_from(stream)
            else:
                self._ended.wait(PAUSE)
        finally:
            stream.close()

    def _need_session(self) -> None:
        """Raises why the session is over, if it is, so that another one is opened, whether there are entries or not."""
        if self.store is not None and self.store.end is not None:
            raise self.store.end

    def _perform_from(self, stream: Stream) -> None:
        while not self._ended.is_set():
            self._need_session()
            entries = stream.take(MOST_ENTRIES, LOOK)
            if entries is None:
                self._ended.wait(PAUSE)
                return
            self._perform([entry for entry in entries if entry.created > self._place.number])
            if entries and time.monotonic() - self._looked < LOOK:
                continue
            try:
                newest = self._look(1, newest=True).after
            except Behind:  # but the stream leaves nothing out
                continue
            # A member that is cut off from the others tells of nothing; the majority knows better.
            if not entries and newest and newest[0].created > self._place.number:
                return

    def _catch_up(self) -> int:
        """Performs the entries that the log has behind the store's. Returns the revision up to which these are all."""
        while not self._ended.is_set():
            look = self._look(MOST_ENTRIES)
            if not look.after:
                return look.revision
            self._perform(look.after)
        return 0

    def _perform(self, entries: List[Item]) -> None:
        for group in _groups(entries):
            self._perform_group(deque(_Turn(entry, mark_of(self._cluster_id, entry)) for entry in group))
        if entries and self._since_base >= self._base_after:
            self._since_base = -random.randrange(self._base_after // 4 + 1)  # so that followers don't do it at once
            self._write_base()

    def _perform_group(self, turns: Deque[_Turn]) -> None:
        """Performs entries, and tells what each was answered. Raises if the session ended, with some of them done.

        All are sent at once. Where one is refused, those behind it are too, since they wait for its number; so they are
        sent again, behind its number alone. Then their conditions are judged again, and only that counts. Where the
        file is too long, it is made short, and they are sent again.
        """
        store = self.store
        assert store is not None
        was_checkpoint = False
        while turns:
            befores = [self._place.number, *(turn.entry.created for turn in turns)]
            for answer in store.perform([turn.batch(before) for turn, before in zip(turns, befores)]):
                if isinstance(answer, StoreRefused):
                    if answer.word == JOURNAL_LONG and not was_checkpoint:
                        was_checkpoint = True
                        self._checkpoint(store)
                    else:
                        self._need_abouts(store, turns[0], answer.word)
                        turns[0].refuse(answer.word)
                    break
                if isinstance(answer, ConfstoreError):
                    raise answer
                was_checkpoint = False
                self._is_done(turns.popleft(), answer)
        self._pause, self._said = PAUSE, ""
        if self._length() - self._checkpoint_length >= CHECKPOINT_BYTES:
            self._checkpoint(store)

    def _need_abouts(self, store: NodeStore, turn: _Turn, word: str) -> None:
        """Raises `ConfstoreError` where a program that takes no abouts refuses an entry for its about: those of other
        nodes may perform it."""
        if word == "BadCommand" and turn.change.about and not store.takes_abouts():
            raise ConfstoreError(
                f"entry {turn.entry.created} has an about, which the program of this node does not take: end this "
                "node, and start it with the program that the other nodes have"
            )

    def _length(self) -> int:
        return os.path.getsize(os.path.join(self._folder, "store.yaml"))

    def _checkpoint(self, store: NodeStore) -> None:
        self._progress.base = None
        store.checkpoint()
        self._checkpoint_length = self._progress.base = self._length()

    def _is_done(self, turn: _Turn, count: int) -> None:
        entry = turn.entry
        answer: Answer = {"ok": str(count)} if turn.word is None else {"refused": turn.word}
        self._told(entry.created, Performed(turn.mark, answer, entry.key, turn.digest))
        self._last, self._count = entry, count
        self._since_base += 1
        with self._state:
            self._place = Place(entry.created, turn.mark, entry.key)
            self._progress.perform()
            self._state.notify_all()

    # ---- bases

    def _write_base(self) -> None:
        """Puts a base of the store into etcd, unless another follower did just now."""
        store, last = self.store, self._last
        assert store is not None and last is not None
        if self._bases.is_due(last.created, self._count):
            self._checkpoint(store)
            path = os.path.join(self._folder, "store.yaml")
            self._bases.write(last, self._place.mark, self._count, path)

    def _start_from_base(self) -> None:
        """Puts the base in etcd in the place of this store's file, if it can be had."""
        self.close()
        try:
            look = self._etcd.look(self._log, self._base_key, self._place.number, self._place.key)
            try:
                judge(look, self._place)
            except Behind:
                base = self._bases.read(look.base)
                self._forget()
                install(self._folder, base)
                print(f"follower: starts from the base of entry {base_in(look.base).number}", flush=True)
        except OtherHistory as error:
            self._stand_still(error)
        except (Unavailable, OSError, ValueError) as error:
            self._say(error)
