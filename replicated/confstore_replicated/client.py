"""A client of a node. It waits for an answer for a minute at most; the node itself gives up after half of that."""

from __future__ import annotations

import json
import socket
import time
from typing import Any, Dict


class Client:
    """A client of a node, for Python. One thread at a time may use it."""

    def __init__(self, path: str, timeout: float = 60.0) -> None:
        self._socket = socket.socket(socket.AF_UNIX)
        self._socket.settimeout(timeout)
        try:
            self._connect(path, timeout)
        except OSError:
            self._socket.close()
            raise
        self._file = self._socket.makefile("rwb")

    def _connect(self, path: str, timeout: float) -> None:
        """Connects, and waits where as many others do as may wait."""
        deadline = time.monotonic() + timeout
        while True:
            try:
                return self._socket.connect(path)
            except BlockingIOError:
                if time.monotonic() > deadline:
                    raise
            time.sleep(0.05)

    def ask(self, request: Dict[str, Any]) -> Dict[str, Any]:
        """What the node answers. Raises `OSError` if the node goes."""
        self._file.write(json.dumps(request).encode() + b"\n")
        self._file.flush()
        line = self._file.readline()
        if not line.endswith(b"\n"):
            raise ConnectionError("the node closed the connection")
        answer: Dict[str, Any] = json.loads(line)
        return answer

    def close(self) -> None:
        self._file.close()
        self._socket.close()
