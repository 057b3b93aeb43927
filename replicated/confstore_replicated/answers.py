"""What entries were answered: those that a node has performed since it started, and those in the file of its store."""

from __future__ import annotations

import os
import re
import threading
from collections import OrderedDict
from typing import Dict, Iterator, NamedTuple, Optional, Tuple

from .entries import RESERVED
from .etcd import Item
from .history import has_tie, is_tied

# How many answers are kept for clients that come back for them.
KEPT = 100_000

# How many bytes of a file are read at once, and how many of a record's start and end are looked at.
PART = 1_048_576
START = 64
END = 16_384  # so that it has an about, and the two edits before it

CLOSING = b"\n...\n"

Answer = Dict[str, str]

_COUNT = re.compile(rb'(?:---\n)?(?:store: \S+\n)?at: "([0-9]+)"\n')
_BATCH = re.compile(rb'(?:---\n)?at: "([0-9]+)"\nbatch:\n')
_NUMBER = rf'  - set: {RESERVED}\n    path: "/([0-9]{{20}})"\n    value: '.encode()
_ABOUT = rb"(?:about:\n(?:(?:  .*)?\n)+)?"
_ENTRY = re.compile(rb"(?m)(?:^" + _NUMBER + rb"(\w+)\n)?^" + _NUMBER + rb'("{2}|\S*)\n' + _ABOUT + rb"\Z")


class Performed(NamedTuple):
    """What an entry was answered, and which it is: its mark, and its key and its command's digest if they are known."""

    mark: str
    answer: Answer
    key: Optional[bytes] = None
    digest: Optional[bytes] = None

    def is_of(self, entry: Item) -> bool:
        """Whether this is what a whole entry was answered."""
        return is_tied(self.mark, entry)

    def has_tie(self) -> bool:
        """Whether the mark says which entry it is. That of an older version does not."""
        return has_tie(self.mark)

    def is_of_command(self, key: bytes, digest: bytes) -> bool:
        """Whether this is what an entry with this key and this command was answered. The number is the same."""
        return self.key == key and self.digest == digest


class Answers:
    """What entries were answered, the last ones, by their numbers."""

    def __init__(self) -> None:
        self._lock = threading.Lock()
        self._performed: "OrderedDict[int, Performed]" = OrderedDict()

    def keep(self, number: int, performed: Performed) -> None:
        """Keeps what an entry was answered. What is known of an entry with more is not lost for what is known of it
        with less."""
        with self._lock:
            known = self._performed.get(number)
            if known is None or performed.key is not None or known.mark != performed.mark:
                self._performed[number] = performed
            while len(self._performed) > KEPT:
                self._performed.popitem(last=False)

    def forget(self) -> None:
        with self._lock:
            self._performed.clear()

    def of(self, number: int) -> Optional[Performed]:
        with self._lock:
            return self._performed.get(number)


def _ends_of_pieces(path: str) -> Iterator[Tuple[bytes, bytes]]:
    """The first and the last bytes of each piece of a store's file, as far as they are looked at."""
    start, end = b"", b""
    with open(path, "rb") as file:
        while part := file.read(PART):
            *pieces, rest = (end + part).split(CLOSING)
            for piece in pieces:
                yield start or piece[:START], piece[-END:]
                start = b""
            if not start and len(rest) > START:
                start = rest[:START]
            end = rest[-END - len(CLOSING) :] if start else rest


def answers_in(folder: str) -> Iterator[Tuple[int, Performed]]:
    """The entries whose records the file of a store has, by their numbers, with what they were answered."""
    for start, end in _ends_of_pieces(os.path.join(folder, "store.yaml")):
        count, entry = _BATCH.match(start), _ENTRY.search(end + b"\n")
        if count and entry:
            _, word, number, mark = entry.groups()
            answer = {"ok": count[1].decode()} if word is None else {"refused": word.decode()}
            yield int(number), Performed(mark.decode("utf-8", "replace").strip('"'), answer)


def count_in(folder: str) -> Optional[int]:
    """The count of commands in the file of a store, or None if it is written in another way than a session does."""
    count: Optional[int] = None
    for start, _ in _ends_of_pieces(os.path.join(folder, "store.yaml")):
        found = _COUNT.match(start)
        if found is None:
            return None
        count = int(found[1])
    return count


def base_length_in(folder: str) -> int:
    """How many bytes the base in the file of a store has, which is its first piece."""
    length, end = 0, b""
    with open(os.path.join(folder, "store.yaml"), "rb") as file:
        while part := file.read(PART):
            if (found := (end + part).find(CLOSING)) >= 0:
                return length - len(end) + found + len(CLOSING)
            length += len(part)
            end = (end + part)[-len(CLOSING) + 1 :]
    return length
