"""What the model's states are made of. All are tuples of numbers, words and tuples, so that states compare and hash.

No step of the protocol looks at `Request.life`, `Request.newest` and `State.lives`; they are for the properties. A life
of etcd goes from one restore to the next. `Entry.life` is an entry's nonce: a number and a life name one commit.
"""

from __future__ import annotations

from functools import lru_cache
from typing import NamedTuple, Tuple, Union

# What an entry may be answered: the count of its store's commands, or one of these words.
JOURNAL_LONG = 101
NO_CONFIG = 102
UNMET = 103
WORDS = {JOURNAL_LONG: "refused JournalLong", NO_CONFIG: "refused NoConfig", UNMET: "refused Unmet"}


class Command(NamedTuple):
    """A change that clients ask for, under an id. A store that accepted no command yet refuses the value `NEEDY`. The
    value `FIRST_OF_ALL` has a condition: that the store has accepted no command with this value."""

    identity: int
    value: int


NEEDY = 2
FIRST_OF_ALL = 4

# What a client asks for that wants a fresh answer to a question.
QUESTION = Command(0, 0)


class Entry(NamedTuple):
    """A key of the log, made at the revision `number`. `judged` says what a node has judged of its condition too early;
    it is 0 where all is right, since a store judges it."""

    number: int
    life: int
    identity: int
    value: int
    judged: int = 0


# What a store performed before it joined.
BEFORE = Entry(0, 99, 0, 0)

# An entry, or `()` where none is known.
MaybeEntry = Union[Entry, Tuple[()]]


class Identity(NamedTuple):
    """A key of the ids, made at the revision `number`."""

    number: int
    identity: int
    value: int


class Done(NamedTuple):
    """An entry that a store performed, and what it was answered."""

    entry: Entry
    answer: int


class Disk(NamedTuple):
    """The file in a node's folder: the store's place and state, which is all that it performed; how much of that is in
    its checkpoint, and not in its journal; and the id of the cluster that its last entry came from."""

    position: int = 0
    history: Tuple[Done, ...] = ()
    checkpoint: int = 0
    cluster: int = 0


class Base(NamedTuple):
    """The record of a base: its number, the number of the one before it with that one's last entry, up to where ids are
    taken out, the bases that there were with their counts, and the checksum of its file, which is the file itself."""

    number: int = 0
    floor: int = 0
    floor_entry: MaybeEntry = ()
    ids_floor: int = 0
    bases: Tuple[Tuple[int, int], ...] = ()
    file: Disk = Disk()


class Log(NamedTuple):
    """The keys of the log, as they were from one revision on."""

    revision: int
    entries: Tuple[Entry, ...] = ()


class Etcd(NamedTuple):
    """What a majority of the members has. `logs` ends with the log as it is; a member that lags has one before it."""

    life: int = 0
    cluster: int = 1
    revision: int = 1
    compacted: int = 0
    logs: Tuple[Log, ...] = (Log(1),)
    ids: Tuple[Identity, ...] = ()
    base: Base = Base()
    parts: Tuple[Disk, ...] = ()

    @property
    def log(self) -> Tuple[Entry, ...]:
        return self.logs[-1].entries


class Request(NamedTuple):
    """A client that waits at a node, until it has performed the number. Without one, it is not known yet whether the
    command is in the log. `newest` is the newest entry when a question was asked."""

    command: Command
    number: int = 0
    life: int = 0
    entry: MaybeEntry = ()
    newest: int = 0
    #: What a node has recalled for it: its place, and what it knows of the number.
    place: Tuple[Disk, ...] = ()
    recalled: Tuple["Known", ...] = ()
    asks_again: bool = False


class Known(NamedTuple):
    """What a node has in memory of an entry: its answer, and whether it also knows the entry's id and command."""

    entry: Entry
    answer: int
    named: bool = True


class Node(NamedTuple):
    """A node: its disk; then what it has in memory; then how often a fault may happen to it yet."""

    disk: Disk = Disk()
    at: str = "opening"
    position: int = 0
    performed: int = 0
    known: Tuple[Known, ...] = ()
    taken: Tuple[Entry, ...] = ()
    next: int = 0
    cluster: int = 0
    since_base: int = 0
    base: Base = Base()
    requests: Tuple[Request, ...] = ()
    kills: int = 0
    losses: int = 0
    full: int = 0


class Left(NamedTuple):
    """How often each thing may happen yet that is no node's own."""

    sends: Tuple[int, ...] = ()
    questions: int = 0
    snapshots: int = 0
    restores: int = 0
    other_writes: int = 0


class State(NamedTuple):
    etcd: Etcd
    nodes: Tuple[Node, ...]
    left: Left
    snapshot: Tuple[Etcd, ...] = ()
    #: All entries that were made in each life, in order, also those that are out of the log.
    lives: Tuple[Tuple[Entry, ...], ...] = ((),)

    def with_node(self, place: int, node: Node) -> State:
        nodes = self.nodes[:place] + (node,) + self.nodes[place + 1 :]
        return State(self.etcd, nodes, self.left, self.snapshot, self.lives)


# What may be judged of a condition.
MET, NOT_MET = 1, 2


def judged(history: Tuple[Done, ...], value: int) -> int:
    """Whether the condition of a command holds for a store that performed this. One without a condition is met."""
    is_made = any(done.entry.value == FIRST_OF_ALL and done.answer < JOURNAL_LONG for done in history)
    return NOT_MET if value == FIRST_OF_ALL and is_made else MET


def answer_of(history: Tuple[Done, ...], value: int, too_early: int = 0) -> int:
    """What a store that performed this answers to a command. Each entry is one accepted command of the store. What a
    node has judged too early stands in the place of what the store judges."""
    if (too_early or judged(history, value)) == NOT_MET:
        return UNMET
    if value == NEEDY and not any(done.answer < JOURNAL_LONG for done in history):
        return NO_CONFIG
    return len(history) + 1


@lru_cache(maxsize=None)
def performed(entries: Tuple[Entry, ...]) -> Tuple[Done, ...]:
    """What one store that performs these entries by itself, from nothing, holds and answers."""
    history: Tuple[Done, ...] = ()
    for entry in entries:
        history += (Done(entry, answer_of(history, entry.value)),)
    return history
