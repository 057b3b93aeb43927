#!/usr/bin/env python3
"""`confstorectl checkpoint --archive` is killed at random moments, while a writer changes the store.

In each round a checkpoint with an archive begins, and SIGKILL comes to it, or to what it has started, or to the session
of the server. In the first half of the rounds nobody else holds the store but by turns, in the second half
`clients/serve.py` does. A writer sets a value again and again, and notes the number that it was told. After each round:

- the numbers of the last archives and of the store are one row without a gap, and each change that was acknowledged
  is there under its number. Where the kill has left `kept.yaml`, it was taken as the page says (`docs/OPERATING.md`)
- an archive that has a `store.yaml` is whole, and a second run with its folder is refused; one that has none is made
  by the second run, unless it has a `kept.yaml`

At the end all archives and the store have each number once.

Run it from the repository's root after the program is built; it needs PyYAML, and takes four minutes:

    ./prove && python3 checks/killed_archives.py [ROUNDS [SEED]]

The last line is 'N passed, M failed', and the status is 0 if M is 0.
"""

from __future__ import annotations

import os
import random
import signal
import subprocess
import sys
import tempfile
import time

from lib.command_line import number_given, seed_given
from lib.killed_words import PATIENCE, PLACE, Ground, Rounds
from lib.store_runs import Failures, need_program
from lib.waiting import until

from confstore import Reader

ROUNDS = 200

# How many archives are read after a round, and for how long in seconds the writer pauses.
READ = 3
PAUSE = 0.002

# In how many of the rounds the kill comes before the archive has a folder, and by how much longer than a run that is
# not killed the others wait at most.
EARLY, LONGER = 0.2, 1.2


class Archiving(Rounds):
    """The rounds on one ground, and the archives that they make."""

    def __init__(self, ground: Ground, chance: random.Random, failures: Failures) -> None:
        super().__init__(ground, chance, failures)
        self.archives: list[str] = []
        self.span = 0.0  # how long a run takes once its archive has a folder

    def run(self, count: int) -> None:
        archive = os.path.join(self.ground.top, "archive")
        process = self.begun(archive)
        until(lambda: os.path.exists(archive), PATIENCE)
        begin = time.monotonic()
        self.expect("a run that is not killed", process.wait(PATIENCE), 0)
        self.span = time.monotonic() - begin
        self.archives.append(archive)
        for number in range(count):
            self.round(f"round {number}", os.path.join(self.ground.top, f"archive-{number}"))
        self.look("all", self.archives, 1)
        changes = len(self.ground.writer.told)
        print(f"{self.ground.name}: {count} rounds, {changes} changes, {dict(self.seen)}", flush=True)

    def begun(self, archive: str) -> "subprocess.Popen[bytes]":
        """A checkpoint with an archive that has begun."""
        return self.ground.begun("checkpoint", "--archive", archive)

    def round(self, about: str, archive: str) -> None:
        self.ground.writer.start()
        process = self.begun(archive)
        if self.chance.random() > EARLY:
            until(lambda: os.path.exists(archive) or process.poll() is not None, PATIENCE)
        time.sleep(self.chance.uniform(0, self.span * LONGER))
        self.kill(process)
        self.ground.writer.stop()
        self.ground.settle()
        is_made = os.path.exists(os.path.join(archive, "store.yaml"))
        kept = self.mend(archive)
        how = {0: "done", -signal.SIGKILL: "killed"}.get(process.returncode, "failed")
        self.seen[f"{how}: {'an archive' if is_made else 'no archive'}, {kept}"] += 1
        self.expect(f"{about}: a file is kept beside a copy", is_made or kept != "kept.yaml with more", True)
        if is_made:
            self.archives.append(archive)
        self.look(about, self.archives[-READ:], 0)
        again = self.begun(archive)
        said = again.communicate(timeout=PATIENCE)[0]
        self.expect(f"{about}: the second run", (again.returncode, b"StoreExists" in said), (int(is_made), is_made))
        if not is_made:
            self.archives.append(archive)
        self.look(f"{about}, again", self.archives[-READ:], 0)

    def mend(self, archive: str) -> str:
        """Does with `kept.yaml` what the page says. What there was."""
        kept, path = os.path.join(archive, "kept.yaml"), os.path.join(archive, "store.yaml")
        if not os.path.exists(kept):
            return "no kept.yaml"
        if os.path.samefile(kept, os.path.join(self.ground.folder, "store.yaml")):
            os.unlink(kept)
            return "kept.yaml of the store"
        os.rename(kept, path)
        return "kept.yaml with more"


def main() -> int:
    need_program()
    rounds, chance, failures = number_given(1, ROUNDS), random.Random(seed_given(2)), Failures()
    with tempfile.TemporaryDirectory() as top:
        for name in ("alone", "served"):
            ground = Ground(top, name, PAUSE)
            if name == "served":
                ground.serve()
            try:
                Archiving(ground, chance, failures).run(rounds // 2)
                written = {*ground.writer.told.values(), *ground.writer.unknown}
                failures.expect(f"{name}: the last value", Reader(ground.folder).get(*PLACE) in written, True)
            finally:
                ground.end()
    return failures.report()


if __name__ == "__main__":
    sys.exit(main())
