"""Waiting until something in a folder may have changed.

Where Debian's python3-inotify or python3-watchdog can be imported the system says so at once. Without them, and on file
systems of which the system says nothing, the folder is looked at again after a while.
"""

from __future__ import annotations

import importlib
import threading
import time
from typing import Any, Callable, Optional

# How many seconds lie between two looks: at most without anything that wakes, at most with it, and after a change. Each
# wait is twice as long as the one before, until it is as long as it may be.
LOOK = 0.2
LOOK_AWAKE = 1.0
LOOK_SOON = 0.01

# How the waiting is woken: what returns after so many seconds at most, and what ends it.
Wait = Callable[[float], None]
End = Callable[[], None]


class Waker:
    """Waits until something in a folder may have changed. `close` ends what it started."""

    def __init__(self, folder: str) -> None:
        self._wait: Wait = time.sleep
        self._end: Optional[End] = None
        #: How many seconds `wait` takes at most where nothing changes.
        self.longest = LOOK
        self._pause = LOOK
        for begin in (_by_inotify, _by_watchdog):
            try:
                self._wait, self._end = begin(folder)
            except Exception:  # it isn't installed, or the system has no room for one more
                continue
            self.longest = self._pause = LOOK_AWAKE
            return

    def wait(self, seconds: float) -> None:
        """Waits until something may have changed, for so many seconds at most."""
        self._wait(max(min(seconds, self._pause), 0.0))
        self._pause = min(2 * self._pause, self.longest)

    def found(self) -> None:
        """Notes that something had changed, so that the next wait is short: where many changes come, a checkpoint drops
        fewer of them unseen."""
        self._pause = LOOK_SOON

    def close(self) -> None:
        """Ends what was started. Does nothing the second time."""
        end, self._end, self._wait = self._end, None, time.sleep
        if end is not None:
            end()


def _by_inotify(folder: str) -> "tuple[Wait, End]":
    adapters, constants = importlib.import_module("inotify.adapters"), importlib.import_module("inotify.constants")
    watcher: Any = adapters.Inotify(block_duration_s=LOOK)
    watcher.add_watch(folder, mask=constants.IN_MODIFY | constants.IN_MOVED_TO | constants.IN_CREATE)

    def wait(seconds: float) -> None:
        for _ in watcher.event_gen(timeout_s=seconds, yield_nones=False):
            return

    def end() -> None:
        watcher.remove_watch(folder)

    return wait, end


def _by_watchdog(folder: str) -> "tuple[Wait, End]":
    events, observers = importlib.import_module("watchdog.events"), importlib.import_module("watchdog.observers")
    changed = threading.Event()
    handler: Any = events.FileSystemEventHandler()
    handler.on_any_event = lambda _event: changed.set()
    observer: Any = observers.Observer()
    observer.schedule(handler, folder)
    observer.daemon = True
    observer.start()

    def wait(seconds: float) -> None:
        changed.wait(seconds)
        changed.clear()

    def end() -> None:
        observer.stop()
        observer.join(LOOK_AWAKE)

    return wait, end
