"""The stream of new keys that one member of etcd tells of."""

from __future__ import annotations

import http.client
import json
import queue
import socket
import threading
from typing import Any, Dict, List, Optional

from .etcd import Etcd, Item, encode, end_of, items_of

# How many new keys wait to be taken from a stream at most. Then the member waits.
MOST_WAITING = 64

# The longest line of a stream, in bytes. A member sends what it tells of in fragments of some 1.5 MB.
LONGEST_LINE = 8_388_608


class Stream(threading.Thread):
    """New keys, in the order in which they are made, until the member goes or says that it doesn't know them any more.
    No key is left out before that: a stream lives in one process of a member."""

    def __init__(self, etcd: Etcd, prefix: bytes, revision: int) -> None:
        super().__init__(name="confstore stream", daemon=True)
        self._connection, self._headers = etcd.connection()
        self._asked = {
            "key": encode(prefix), "range_end": encode(end_of(prefix)), "start_revision": str(revision),
            "fragment": True, "filters": ["NODELETE"],
        }  # fmt: skip
        self._items: "queue.Queue[Optional[Item]]" = queue.Queue(MOST_WAITING)
        self._socket: Optional[socket.socket] = None
        self._begun = threading.Event()
        self._is_over = self._is_closed = False
        self.start()

    def run(self) -> None:
        try:
            words = json.dumps({"create_request": self._asked})
            self._connection.request("POST", "/v3/watch", words, self._headers)
            self._socket = self._connection.sock
            answer = self._connection.getresponse()
            if self._socket is not None:
                self._socket.settimeout(None)
            while not self._is_closed and (line := answer.readline(LONGEST_LINE)):
                told = json.loads(line).get("result", {})
                if told.get("canceled"):
                    break
                self._begin(told)
                for item in items_of({"kvs": [event["kv"] for event in told.get("events", ()) if "kv" in event]}):
                    self._give(item)
        except (OSError, http.client.HTTPException, ValueError):
            pass
        finally:
            self._is_over = True
            self._begun.set()
            self._give(None)
            self._connection.close()

    def _begin(self, told: Dict[str, Any]) -> None:
        if told.get("created"):
            self._begun.set()

    def _give(self, item: Optional[Item]) -> None:
        while not self._is_closed:
            try:
                return self._items.put(item, timeout=0.5)
            except queue.Full:
                continue

    def has_begun(self, seconds: float) -> bool:
        """Waits until the member says that the stream has begun. Whether it has."""
        return self._begun.wait(seconds) and not self._is_over

    def take(self, most: int, seconds: float) -> Optional[List[Item]]:
        """The next keys, at most so many: those that are there, or else the first one that comes in so many seconds.
        An empty list if none came, and None once the stream is over."""
        taken: List[Item] = []
        while len(taken) < most:
            try:
                item = self._items.get_nowait() if taken else self._items.get(timeout=seconds)
            except queue.Empty:
                break
            if item is None:
                self._items.put(None)
                return taken or None
            taken.append(item)
        return taken

    def close(self) -> None:
        self._is_closed = True
        if self._socket is not None:
            try:
                self._socket.shutdown(socket.SHUT_RDWR)
            except OSError:
                pass
