"""Bases in etcd: a node writes one now and then, takes out of etcd what it makes needless, and starts from one where
its store is too far behind.

A base is the file of a store, in parts. What etcd has under the key `base` says which parts are those of the base, and
up to which entry, the floor, the log may have lost entries: that of the base before. It is put only if the log has the
entry that the store performed last, with the same nonce, and all parts, so never into the log of another history. And
all that is taken out goes by transactions that compare the key `base`: another node's base, or a restored one, stops
them.
"""

from __future__ import annotations

import contextlib
import errno
import hashlib
import json
import os
import secrets
import stat
from dataclasses import asdict
from typing import BinaryIO, Callable, List, Optional, Sequence, Tuple

from .access import take_after
from .etcd import Etcd, Guard, Item
from .history import Base, base_in
from .metrics import Counts

# After how many further entries a name may be forgotten.
NAMES_KEPT = 100_000

# A base is kept in etcd in parts of so many bytes, of which so many are read at once.
PART = 700_000
PARTS_AT_ONCE = 8

# The file of a store, the one that is to take its place, and the name that it has then.
STORE, NEW, KEPT = "store.yaml", "base.new", "before-base.yaml"

# Into how many steps the entries are divided after which names are forgotten.
STEPS = 100


class Bases:
    """The bases of a cluster's log."""

    def __init__(self, etcd: Etcd, prefix: bytes, base_after: int, names_kept: int, counts: Counts) -> None:
        self._etcd, self._counts = etcd, counts
        self._log, self._names, self._parts = prefix + b"log/", prefix + b"ids/", prefix + b"parts/"
        self._key = prefix + b"base"
        self._base_after, self._names_kept = base_after, names_kept

    def is_due(self, number: int, count: int) -> bool:
        """Whether the base in etcd is so old that a store which is at an entry may write another."""
        last = base_in(self._etcd.get(self._key))
        if last.count is None:
            return number > last.number
        return number > last.number and count - last.count >= self._base_after // 2

    def write(self, entry: Item, mark: str, count: int, path: str) -> None:
        """Puts the file of a store, whose last entry is this one, into etcd as a base, unless another node did just
        now, and takes out what it makes needless."""
        old = self._etcd.get(self._key)
        last = base_in(old)
        if entry.created <= last.number:
            return
        new = Base(entry.created, count, last.number, mark, last.mark, parts=secrets.token_hex(8))
        new.history, new.names_floor = self._history(last, new)
        new.sha256, parts = self._put_parts(path, self._parts_of(new))
        text = json.dumps(asdict(new)).encode()
        self._etcd.replace(self._key, text, old, entry, parts)
        if self._etcd.get(self._key) == text:
            self._clean(new, (self._key, text))

    def _history(self, last: Base, new: Base) -> Tuple[List[Tuple[int, int]], int]:
        """The earlier bases that have to be known, and the last entry whose name may be taken out."""
        count, history = new.count or 0, list(last.history)
        if last.count is not None and (not history or last.count - history[-1][1] >= self._names_kept // STEPS):
            history.append((last.number, last.count))
        old = [number for number, known in history if known <= count - self._names_kept]
        return history[max(len(old) - 1, 0) :], min(max(old, default=0), new.floor)

    def _put_parts(self, path: str, prefix: bytes) -> Tuple[str, List[bytes]]:
        """Puts the file in parts. Returns its checksum, and the keys of the parts: 96 at most."""
        digest = hashlib.sha256()
        keys: List[bytes] = []
        with open(path, "rb") as file:
            while part := file.read(PART):
                digest.update(part)
                keys.append(prefix + f"{len(keys):08}".encode())
                self._etcd.put(keys[-1], part)
        return digest.hexdigest(), keys

    def _parts_of(self, base: Base) -> bytes:
        place = f"{base.number:020}/" + (f"{base.parts}/" if base.parts else "")
        return self._parts + place.encode()

    def _clean(self, base: Base, guard: Guard) -> None:
        """Takes out the parts of bases before this one, also of those that were given up, the entries up to the floor,
        and then old names. Parts of bases behind it stay: another node may be about to put one."""
        before = self._parts + f"{base.number:020}/".encode()
        if not self._etcd.remove_between(self._parts, before, guard):
            return
        self._remove(self._log, base.floor, guard, lambda keys: ())
        start = len(self._names)
        names = self._remove(
            self._names, base.names_floor, guard, lambda keys: [self._log + key[start:] for key in keys]
        )
        self._counts.add("ids_expired", names)
        if base.floor:
            self._etcd.compact(base.floor)

    def _remove(
        self, prefix: bytes, until: int, guard: Guard, absent: Callable[[Sequence[bytes]], Sequence[bytes]]
    ) -> int:
        """Takes out the keys with a prefix that were made up to a revision, those where others are absent. How many."""
        removed = 0
        if until <= 0:
            return removed
        for keys in self._etcd.keys_until(prefix, until):
            if self._etcd.remove(keys, until, absent(keys), guard):
                removed += len(keys)
                continue
            if self._etcd.get(guard[0]) != guard[1]:
                break
            removed += sum(self._etcd.remove([key], until, absent([key]), guard) for key in keys)
        return removed

    def read(self, text: Optional[bytes]) -> bytes:
        """The base of which etcd says this. Raises `ValueError` if it is not whole."""
        base = base_in(text)
        prefix, parts, last = self._parts_of(base), b"", 0
        while items := self._etcd.created_after(prefix, last, PARTS_AT_ONCE):
            parts += b"".join(item.value for item in items)
            last = items[-1].created
        if hashlib.sha256(parts).hexdigest() != base.sha256:
            raise ValueError("the base was replaced while it was read, or is damaged")
        return parts


def install(folder: str, base: bytes) -> None:
    """Has a base stand in the place of the file of a store, which is closed. That file gets another name. The new one
    has its owner, group, mode and access list before it has a byte."""
    directory = os.open(folder, os.O_RDONLY | os.O_DIRECTORY)
    try:
        _remove(NEW, directory)
        has_replaced = _write_new(base, directory)
        if has_replaced:
            _remove(KEPT, directory)
            os.link(STORE, KEPT, src_dir_fd=directory, dst_dir_fd=directory, follow_symlinks=False)
        os.replace(NEW, STORE, src_dir_fd=directory, dst_dir_fd=directory)
        os.fsync(directory)
    finally:
        os.close(directory)


def _write_new(base: bytes, directory: int) -> bool:
    """Writes the new file of a store. Whether there is one that it will replace."""
    how = os.O_WRONLY | os.O_CREAT | os.O_EXCL
    try:
        replaced = os.open(STORE, os.O_RDONLY | os.O_NOFOLLOW | os.O_NONBLOCK, dir_fd=directory)
    except FileNotFoundError:
        with open(os.open(NEW, how, 0o666, dir_fd=directory), "wb") as file:
            _write_to_disk(file, base)
        return False
    try:
        if not stat.S_ISREG(os.fstat(replaced).st_mode):
            raise OSError(errno.EINVAL, "it is no plain file", STORE)
        with open(os.open(NEW, how, stat.S_IRUSR | stat.S_IWUSR, dir_fd=directory), "wb") as file:
            take_after(file.fileno(), replaced)
            _write_to_disk(file, base)
    finally:
        os.close(replaced)
    return True


def _write_to_disk(file: BinaryIO, content: bytes) -> None:
    file.write(content)
    file.flush()
    os.fsync(file.fileno())


def _remove(name: str, directory: int) -> None:
    with contextlib.suppress(FileNotFoundError):
        os.unlink(name, dir_fd=directory)
