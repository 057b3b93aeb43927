"""Waits until something holds, as that a server takes clients."""

from __future__ import annotations

import socket
import time
from collections.abc import Callable


def until(holds: Callable[[], bool], seconds: float) -> bool:
    """Whether something comes to hold within so many seconds."""
    end = time.monotonic() + seconds
    while not holds():
        if time.monotonic() > end:
            return False
        time.sleep(0.005)
    return True


def accepts(path: str) -> bool:
    """Whether a server takes clients at a socket."""
    with socket.socket(socket.AF_UNIX) as connection:
        connection.setblocking(False)
        return connection.connect_ex(path) == 0
