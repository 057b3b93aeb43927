#!/usr/bin/env python3
"""A service that holds its settings, and reads them again when a command of the store changes them.

    service.py FOLDER NAME [SECONDS]

The settings are the configuration NAME of the store in FOLDER. The service doesn't hold the store: it reads beside
whoever does, by `confstore get` and `confstore log`. It looks every second, or so often, and prints a line for each
command that touches its settings, and the settings then. A configuration that is taken out leaves them as they were.

What is read so may not be synced yet: after a crash of the machine the store may be a few commands back, and then the
numbers begin again there. So the service reads all again when the file is another one or has become shorter.
"""

from __future__ import annotations

import os
import sys
import time

from confstore import ConfstoreError, NoConfig, Reader, Tree, Unsupported


class Settings:
    """A configuration, with the number of the last record that was looked at."""

    def __init__(self, folder: str, name: str) -> None:
        self.reader = Reader(folder)
        self.file = os.path.join(self.reader.folder, "store.yaml")
        self.name = name
        self.tree: Tree = {}
        self.number = 0
        self.seen: tuple[int, int] | None = None  # which file was read, and how long it was

    def load(self) -> None:
        """Reads the settings. What was there stays if there are none."""
        try:
            self.tree = self.reader.get(self.name)
        except NoConfig:
            print(f"no configuration {self.name}: the settings stay", flush=True)
        print(f"settings: {self.tree}", flush=True)

    def look(self) -> None:
        """Reads the settings again if they were changed."""
        found = os.stat(self.file)
        now = (found.st_ino, found.st_size)
        if now == self.seen:
            return
        is_further = self.seen is not None and now[0] == self.seen[0] and now[1] > self.seen[1]
        self.seen = now
        records = self.reader.log(after=self.number if is_further else 0)
        self.number = records[-1].number if records else self.number if is_further else 0
        mine = [(record, edit) for record in records for edit in record.edits if edit.name == self.name]
        if is_further:
            for record, edit in mine:
                print(f"command {record.number}: {edit.kind} {edit.path or 'all'}", flush=True)
        if mine or not is_further:
            self.load()


def main(folder: str, name: str, seconds: str = "1") -> None:
    settings = Settings(folder, name)
    told: str | None = None
    while True:
        try:
            settings.look()
            told = None
        except Unsupported as lack:
            sys.exit(f"service.py: {lack}")
        except (ConfstoreError, OSError) as fault:
            settings.seen = None
            if told != str(fault):
                told = str(fault)
                print(f"the settings stay: {told}", file=sys.stderr, flush=True)
        time.sleep(float(seconds))


if __name__ == "__main__":
    if len(sys.argv) not in (3, 4):
        sys.exit(__doc__)
    try:
        main(*sys.argv[1:])
    except KeyboardInterrupt:
        sys.exit(0)
