"""Two databases that are peers of a store: SQLite, and LMDB where it is installed."""

from __future__ import annotations

import os
import sqlite3
from collections.abc import Iterable
from typing import Any

try:
    import lmdb  # type: ignore[import]
except ImportError:
    lmdb = None


class Sqlite:
    """A table in WAL mode, with full syncs, whose row `a` is set."""

    name = f"SQLite {sqlite3.sqlite_version}"

    def __init__(self, path: str) -> None:
        self.base = sqlite3.connect(os.path.join(path, "base"), isolation_level=None)
        self.base.execute("PRAGMA journal_mode=WAL").fetchall()
        self.base.execute("PRAGMA synchronous=FULL").fetchall()
        self.base.execute("CREATE TABLE IF NOT EXISTS configs (name TEXT PRIMARY KEY, value TEXT)")
        self.base.execute("INSERT OR IGNORE INTO configs VALUES ('a', 'none')")

    def set(self, text: str) -> None:
        self.base.execute("UPDATE configs SET value = ? WHERE name = 'a'", (text,))

    def get(self) -> str:
        return str(self.base.execute("SELECT value FROM configs WHERE name = 'a'").fetchone()[0])

    def put_all(self, pairs: Iterable[tuple[str, str]]) -> None:
        """Puts new rows in one transaction."""
        self.base.execute("BEGIN")
        for pair in pairs:
            self.base.execute("INSERT INTO configs VALUES (?, ?)", pair)
        self.base.execute("COMMIT")

    def close(self) -> None:
        self.base.close()


class Lmdb:
    """A map, whose key `a` is set."""

    name = "LMDB " + ".".join(map(str, lmdb.version())) if lmdb else "LMDB"

    def __init__(self, path: str) -> None:
        self.base: Any = lmdb.open(path, map_size=1 << 26)

    def set(self, text: str) -> None:
        with self.base.begin(write=True) as step:
            step.put(b"a", text.encode())

    def get(self) -> str:
        with self.base.begin() as step:
            return bytes(step.get(b"a")).decode()

    def put_all(self, pairs: Iterable[tuple[str, str]]) -> None:
        """Puts new pairs in one transaction."""
        with self.base.begin(write=True) as step:
            for key, value in pairs:
                step.put(key.encode(), value.encode())

    def close(self) -> None:
        self.base.close()


# The databases that are installed.
DATABASES: list[type[Sqlite] | type[Lmdb]] = [Sqlite, Lmdb] if lmdb else [Sqlite]
