"""Processes that answer pieces: how long they take until all that was sent is answered."""

from __future__ import annotations

import os
import subprocess
import sys
import time
from collections.abc import Sequence

from lib.runs import Words


class Pipes:
    """A process that answers each of a list of pieces, each answer closed by a line of `...`."""

    def __init__(self, words: Words) -> None:
        self.words = words
        self.process = subprocess.Popen(words, stdin=subprocess.PIPE, stdout=subprocess.PIPE, bufsize=0)
        assert self.process.stdin is not None and self.process.stdout is not None
        self.to, self.of = self.process.stdin, self.process.stdout

    def ask(self, pieces: Sequence[bytes]) -> float:
        """The seconds until all pieces are answered."""
        start = time.perf_counter()
        os.write(self.to.fileno(), b"".join(pieces))
        left = len(pieces)
        while left > 0:
            part = os.read(self.of.fileno(), 65_536)
            if not part:
                sys.exit(f"{self.words} ended early")
            left -= part.count(b"...\n")
        return time.perf_counter() - start

    def end(self) -> None:
        self.to.close()
        self.process.wait()
        self.of.close()


def piped(words: Words, pieces: Sequence[bytes], size: int) -> float:
    """The seconds of a process for the pieces, so many at a time."""
    pipes = Pipes(words)
    seconds = sum(pipes.ask(pieces[place : place + size]) for place in range(0, len(pieces), size))
    pipes.end()
    return seconds
