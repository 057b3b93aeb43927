"""The rules of the protocol that the search can leave out one at a time, and the bounds of a search."""

from __future__ import annotations

from typing import NamedTuple, Tuple

from .states import Command


class Rules(NamedTuple):
    """The rules, each by what it says. With `judges` off, the follower is the one that there was before."""

    #: A look at etcd also says whether etcd has the history that this store performed.
    judges: bool = True
    #: Each entry has a nonce, so that a number, a key and a value name one commit.
    nonces: bool = True
    #: A store at the base's floor compares the mark that the base keeps of it.
    compares_the_floor: bool = True
    #: A store that is behind the floor installs the base.
    installs_when_behind: bool = True
    #: After a stream was opened, the node looks again for entries before its start.
    looks_again: bool = True
    #: And drops a stream if etcd's revision is now below what it was.
    compares_the_revision: bool = True
    #: A store that is behind answers no command from memory.
    behind_answers_nothing: bool = True
    #: What a node remembers of a number is recalled with its place, and the look is judged by that place.
    recalls_with_the_place: bool = True
    #: `Forgotten` is said after etcd was asked again, and had the entry with the same number.
    asks_again: bool = True
    #: A base is put only where the entry of its number is this store's last one.
    compares_the_place: bool = True
    #: And only where all its parts are.
    compares_the_parts: bool = True
    #: Entries and ids are taken out only while the base is the one that was put.
    compares_the_base: bool = True
    #: An answer is given only for the commit that this node's store performed.
    compares_the_entry: bool = True
    #: A node forgets the answers that it knew when it installs a base.
    forgets_on_install: bool = True
    #: `JournalLong` is followed by a checkpoint and the same batch again; it is no answer.
    journal_is_own: bool = True
    #: An id is taken out after its entry, and put only if the entry isn't there.
    ids_with_entries: bool = True
    #: A node over a store that has commands and no place ends.
    only_empty_stores_join: bool = True
    #: A fresh question is answered after a look that is linearizable.
    fresh_looks_are_linearizable: bool = True
    #: The condition of a command is judged at its place in the log, and not by the node that a client sends it to.
    judges_conditions_in_the_log: bool = True
    #: And on what the entries before it have made, though many are taken from the log at once.
    judges_conditions_in_turn: bool = True


NEW = Rules()
OLD = Rules(*[False] * len(NEW))._replace(
    installs_when_behind=True, fresh_looks_are_linearizable=True, judges_conditions_in_the_log=True,
    judges_conditions_in_turn=True,
)  # fmt: skip


class Bounds(NamedTuple):
    """How much may happen in a search. Faults are counted for each node, or for all where they are no node's own."""

    commands: Tuple[Command, ...]
    #: How often each command is sent.
    sends: Tuple[int, ...]
    #: How many fresh questions are asked.
    questions: int = 0
    kills: int = 0
    losses: int = 0
    #: How often the journal of a node is too long.
    full: int = 0
    #: After how many entries a node puts a base into etcd.
    base_after: int = 99
    #: How many revisions, or by the new rules entries, an id is known.
    ids_kept: int = 9
    #: How many changes of the log a member lags behind.
    lag: int = 0
    snapshots: int = 0
    restores: int = 0
    #: In which ways etcd is restored.
    ways: Tuple[str, ...] = ()
    #: How often another application writes in etcd, and how many times each time.
    other_writes: int = 0
    other_write: int = 1
    #: Whether one node starts over a store that has a command.
    store_before: bool = False
    #: The steps that are taken before the search, each by how it begins.
    first: Tuple[str, ...] = ()
