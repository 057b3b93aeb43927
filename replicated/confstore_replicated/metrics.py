"""What a node counts, and the thread that tells it to those who ask, by the code of `clients/serve_metrics.py`: over
HTTP, on a socket of its own, in the text form of Prometheus, to those that may read the store, unless told otherwise.

What is counted says nothing of what is stored. Nothing is asked of etcd for those who ask, and they never hold up the
clients or the follower.
"""

from __future__ import annotations

import select
import socket
import threading
import time
from collections import Counter
from contextlib import ExitStack, contextmanager
from typing import Callable, Dict, Iterator, List, NamedTuple, Optional

from .beside import Sample, Scrapers, Waits, listening

# How many seconds lie between two looks at those who ask.
LOOK = 0.5

# How old in seconds what a node knows of its log may be while it calls itself healthy.
OLDEST_LOOK = 10.0

# The most seconds of a wait that a bucket of the histogram counts.
BUCKETS = (0.001, 0.005, 0.01, 0.05, 0.1, 0.5, 1.0, 5.0, 10.0, 30.0)


class Counts:
    """What a node counts while it runs. Any thread may count."""

    def __init__(self) -> None:
        #: Whether somebody may ask for what is counted.
        self.is_told = False
        self._lock = threading.Lock()
        self._numbers: "Counter[str]" = Counter()
        self._names: Dict[str, "Counter[str]"] = {}
        self._waits = Waits(BUCKETS)
        self._asked: Dict[int, float] = {}  # since when each thread's request is in hand

    def add(self, name: str, count: int = 1) -> None:
        with self._lock:
            self._numbers[name] += count

    def put(self, name: str, number: int) -> None:
        """Notes a number that goes up and down."""
        with self._lock:
            self._numbers[name] = number

    def name(self, kind: str, name: str) -> None:
        """Counts one of this kind by its name."""
        with self._lock:
            self._names.setdefault(kind, Counter())[name] += 1

    def number(self, name: str) -> int:
        with self._lock:
            return self._numbers[name]

    def names(self, kind: str) -> Dict[str, int]:
        with self._lock:
            return dict(self._names.get(kind, {}))

    @contextmanager
    def request(self) -> Iterator[None]:
        """Counts a request that is in hand in this block."""
        began, thread = time.monotonic(), threading.get_ident()
        with self._lock:
            self._numbers["requests"] += 1
            self._asked[thread] = began
        try:
            yield
        finally:
            waited = time.monotonic() - began
            with self._lock:
                del self._asked[thread]
                self._waits.add(waited)

    def waits(self) -> List[Sample]:
        """The samples of the histogram of all requests."""
        with self._lock:
            return list(self._waits.samples())

    def longest(self) -> float:
        """The longest that a request was in hand, in seconds, also one that still is."""
        with self._lock:
            return max([self._waits.longest, *(time.monotonic() - began for began in self._asked.values())])


def named(names: Dict[str, int], *always: str) -> List[Sample]:
    """A sample for each name, also for those that are always told."""
    return [(f'{{name="{name}"}}', names.get(name, 0)) for name in sorted({*names, *always})]


class Telling(NamedTuple):
    """What is told: all metrics, and why the node doesn't serve, or nothing."""

    text: Callable[[], str]
    trouble: Callable[[], str]


class Teller:
    """Tells those who ask at an address, until it is ended. They are those that may read the store in an open folder,
    or whom a mode lets connect. Raises `Fault` where nobody can ask there."""

    def __init__(self, where: str, mode: Optional[int], folder: int, telling: Telling) -> None:
        self._ends = ExitStack()
        door = self._ends.enter_context(listening(where, mode, folder))
        assert door is not None
        self._scrapers = Scrapers(door, telling)
        self._ends.callback(self._scrapers.close)
        self._bell, self._ear = (self._ends.enter_context(end) for end in socket.socketpair())
        self._thread = threading.Thread(target=self._serve, name="confstore metrics", daemon=True)
        self._thread.start()

    def end(self) -> None:
        self._bell.send(b".")
        self._thread.join()
        self._ends.close()

    def _serve(self) -> None:
        looked = -LOOK
        while True:
            now = time.monotonic()
            if now - looked >= LOOK:
                looked = now
                self._scrapers.look(now)
            rest = self._scrapers.rests_until - now
            asked, wait = ([], min(rest, LOOK)) if rest > 0 else ([self._scrapers.selector], LOOK)
            ready, _, _ = select.select([self._ear, *asked], [], [], wait)
            if self._ear in ready:
                return
            if ready:
                self._scrapers.turn(0)
