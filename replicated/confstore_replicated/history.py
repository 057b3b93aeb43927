"""Whether the log in etcd is the one that a store has performed.

A store keeps, beside the number of the last entry that it performed, a mark: which cluster of etcd had the entry, and a
digest of it, the tie. Each request that may make an entry has a nonce of its own in it. So an entry with the same
number and the same tie is the same event in the same history of etcd, and all that was before it is the same too. A log
that was restored from an older snapshot, or made anew, has no such entry, however far its revisions have come since.
"""

from __future__ import annotations

import base64
import hashlib
import json
from dataclasses import dataclass, field
from typing import List, NamedTuple, Optional, Tuple

from .entries import MARK_LENGTH, NO_MARK, has_nonce
from .etcd import Item, Look

# How many characters of a mark are the cluster, and the tie. A store that is full keeps a part of the tie alone.
CLUSTER = 11
TIE = 12
SHORT_TIE = 10


class OtherHistory(Exception):
    """The log is not the one that the store has performed."""


class Behind(Exception):
    """The store may miss entries that were taken out of the log."""


class Place(NamedTuple):
    """The number of the last entry that a store performed, or 0, what stands with it, and its key if that is known."""

    number: int
    mark: str
    key: Optional[bytes] = None


def _text(data: bytes) -> str:
    return base64.urlsafe_b64encode(data).decode().rstrip("=")


def tie_of(entry: Item) -> str:
    """The digest of an entry: of its number, its key and its value."""
    told = b"%020d %d " % (entry.created, len(entry.key)) + entry.key + entry.value
    return _text(hashlib.sha256(told).digest())[:TIE]


def mark_of(cluster: int, entry: Item) -> str:
    """What stands with the number of an entry. It is as long for each."""
    return "e" + _text(cluster.to_bytes(8, "big")) + tie_of(entry)


def short_of(mark: str) -> str:
    """A mark that is shorter, for a store that is full."""
    return "e" + mark[1 + CLUSTER :][:SHORT_TIE]


def _cluster_in(mark: str) -> Optional[str]:
    """The cluster in a mark, or None if it has none, as that of an older version."""
    return mark[1 : 1 + CLUSTER] if len(mark) == MARK_LENGTH and mark != NO_MARK else None


def _tie_in(mark: str) -> Optional[str]:
    """The tie in a mark, or a part of it, or None if it has none, as that of an older version."""
    if mark == NO_MARK:
        return None
    return mark[-TIE:] if len(mark) == MARK_LENGTH else mark[1:] or None


def short_tie_in(mark: str) -> str:
    """As much of the tie in a mark as each one with a tie has."""
    return (_tie_in(mark) or "")[:SHORT_TIE]


def has_tie(mark: str) -> bool:
    """Whether a mark says which entry it is of."""
    return _tie_in(mark) is not None


def is_tied(mark: str, entry: Item) -> bool:
    """Whether a mark may be that of an entry. One of an older version may be that of any."""
    tie = _tie_in(mark)
    return tie is None or tie_of(entry).startswith(tie)


@dataclass
class Base:
    """What etcd says of the base: its number, the count of commands up to it, the floor, up to which entries may have
    been taken out, with its mark, the sum and the place of its parts, the earlier bases by number and count, and up to
    which number names may have been taken out. Where an older version wrote it, it has the first and the floor alone.
    """

    number: int = 0
    count: Optional[int] = None
    floor: int = 0
    mark: str = ""
    floor_mark: str = ""
    sha256: str = ""
    parts: str = ""
    history: List[Tuple[int, int]] = field(default_factory=list)
    names_floor: int = 0


def base_in(text: Optional[bytes]) -> Base:
    """Raises `ValueError` if the text is that of no base."""
    if text is None:
        return Base()
    try:
        found = json.loads(text)
        base = Base(**{key: value for key, value in found.items() if key in Base.__dataclass_fields__})
        base.history = [(int(number), int(count)) for number, count in base.history]
        numbers = [base.number, base.floor, base.names_floor, base.count or 0]
        texts = [base.mark, base.floor_mark, base.sha256, base.parts]
    except (TypeError, AttributeError, ValueError):
        raise ValueError("the key of the base holds something else") from None
    if not all(isinstance(number, int) for number in numbers) or not all(isinstance(text, str) for text in texts):
        raise ValueError("the key of the base holds something else")
    return base


def judge(look: Look, place: Place) -> None:
    """Raises `OtherHistory` if the log isn't the one that a store at this place has performed, and `Behind` if it is,
    and entries that the store needs may be gone."""
    base = base_in(look.base)
    if place.number == 0:
        if base.floor > 0:
            raise Behind
        return
    if look.revision < place.number:
        raise OtherHistory(f"etcd has not come to entry {place.number}, which the store has performed")
    if look.at is not None:
        _judge_entry(look, look.at, place)
    elif base.floor < place.number:
        raise OtherHistory(f"the log does not have entry {place.number}, which the store has performed")
    elif base.floor == place.number and has_tie(base.floor_mark) and has_tie(place.mark):
        if short_tie_in(base.floor_mark) != short_tie_in(place.mark):
            raise OtherHistory(f"the base in etcd follows another entry {place.number} than the store has performed")
    else:
        _judge_cluster(look, place)
    if place.number < base.floor:
        raise Behind


def _judge_entry(look: Look, entry: Item, place: Place) -> None:
    if entry.modified != entry.created:
        raise OtherHistory(f"somebody has changed entry {place.number} in the log")
    if not is_tied(place.mark, entry):
        raise OtherHistory(f"the log has another entry {place.number} than the store has performed")
    if not has_nonce(entry.value):
        _judge_cluster(look, place)


def _judge_cluster(look: Look, place: Place) -> None:
    cluster, wanted = _text(look.cluster.to_bytes(8, "big")), _cluster_in(place.mark)
    if wanted is not None and cluster != wanted:
        raise OtherHistory("this is another cluster of etcd than the one whose log the store has performed")
