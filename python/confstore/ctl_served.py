"""Follows the changes of a store through the socket of its server, for those who can't read its folder."""

from __future__ import annotations

import hashlib
import time
from typing import Iterator, List, NamedTuple, Optional

from .ctl_faults import Fault, shown
from .ctl_places import NO_SERVER, Place
from .ctl_sockets import Connection
from .faults import BadAnswer
from .following import Cut, Replaced, Told
from .records import Record, record_of
from .style import Tree
from .trees import NO_TREES, trees_of

# How many seconds a look takes at most where nothing comes, and how many lie between two tries to connect again.
LOOK = 0.5
PAUSE = 0.1


class _Seen(NamedTuple):
    """The last record that was told: its number, and a digest of it."""

    number: int
    digest: bytes


class Served:
    """The changes that a server tells from the number `start` on, or from now on where that is None.

    A server is waited for so many seconds. Where the connection ends one is waited for again, for as long as `patience`
    says, and then this goes on where it was.
    """

    def __init__(self, place: Place, start: Optional[int], wait: float, patience: float) -> None:
        self._place, self._patience = place, patience
        self._next = max(start, 1) if start is not None else 0  # the change that is told next, once that is known
        self._seen: Optional[_Seen] = None
        self._lost_since: Optional[float] = None
        self._connection = self._connected_within(wait)

    def _connected_within(self, seconds: float) -> Connection:
        deadline = time.monotonic() + seconds
        while True:
            try:
                return self._connected()
            except Fault as fault:
                if fault.kind != NO_SERVER or time.monotonic() > deadline:
                    raise
            time.sleep(PAUSE)

    def _connected(self) -> Connection:
        """A connection where the last change that was told comes again, and then those after it."""
        connection = Connection(self._place)
        start = self._seen.number if self._seen is not None else self._next
        connection.send({"watch": str(start) if start else ""})
        return connection

    def close(self) -> None:
        """Ends it. Does nothing the second time."""
        self._connection.close()

    def look(self) -> List[Told]:
        """What has come and was not told yet. It waits for a moment where nothing has."""
        try:
            pieces = self._connection.pieces_within(LOOK)
        except Fault as fault:
            if fault.kind != NO_SERVER:
                raise
            self._connect_again(fault)
            return []
        if pieces:
            self._lost_since = None
        return [told for piece in pieces for told in self._told(piece)]

    def _connect_again(self, fault: Fault) -> None:
        """Connects again. Raises why that can't be, once it was tried for long."""
        self._connection.close()
        self._lost_since = self._lost_since or time.monotonic()
        left = self._lost_since + self._patience - time.monotonic()
        if left < 0:
            raise fault
        time.sleep(PAUSE)
        self._connection = self._connected_within(left)

    def _told(self, piece: bytes) -> Iterator[Told]:
        """The events that a document of the server tells."""
        tree = _mapping_of(piece)
        if "watch" in tree:
            self._next = self._next or _number_in(tree, "watch")
        elif "cut" in tree:
            yield from self._told_cut(tree["cut"])
        elif "replaced" in tree:
            yield self._told_replaced(_number_in(tree["replaced"], "after"))
        elif "refused" in tree:
            raise _refusal_of(tree["refused"])
        else:
            yield from self._told_record(_record_of(tree), piece)

    def _told_cut(self, cut: Tree) -> Iterator[Told]:
        first, last = max(_number_in(cut, "first"), self._next), _number_in(cut, "last")
        if last >= first:
            self._next, self._seen = last + 1, None
            yield Told(Cut(first, last), b"")

    def _told_replaced(self, last: int) -> Told:
        self._next, self._seen = last + 1, None
        return Told(Replaced(last), b"")

    def _told_record(self, record: Record, piece: bytes) -> Iterator[Told]:
        old, new = self._seen, _Seen(record.number, hashlib.blake2b(piece, digest_size=16).digest())
        if old == new:
            return
        if old is not None and old.number == new.number:
            yield self._told_replaced(record.number - 1)
        self._next, self._seen = record.number + 1, new
        yield Told(record, piece)


def _mapping_of(piece: bytes) -> "dict[str, Tree]":
    try:
        (tree,) = trees_of(piece)
    except NO_TREES:
        tree = ""
    if not isinstance(tree, dict):
        raise Fault("BadAnswer", "what the server tells is no document of a change")
    return tree


def _record_of(tree: Tree) -> Record:
    try:
        return record_of(tree)
    except BadAnswer as fault:
        raise Fault("BadAnswer", str(fault)) from None


def _number_in(tree: Tree, key: str) -> int:
    number = tree.get(key) if isinstance(tree, dict) else None
    if not isinstance(number, str) or not number.isdecimal():
        raise Fault("BadAnswer", f"the server tells no number as `{key}`")
    return int(number)


def _refusal_of(word: Tree) -> Fault:
    """The fault of a server that tells no changes."""
    if word == "NotInStyle":
        return Fault("NotInStyle", "the store's file was written by hand: `confstorectl checkpoint` writes it anew")
    if word == "BadCommand":
        return Fault("Unsupported", "this server tells no changes: read the folder, or use a newer server")
    return Fault("BadAnswer", f"the server refuses to tell changes: {shown(str(word))}")
