"""Takes clients on a Unix socket, a line for each request, and bounds how many there are and what they make it keep."""

from __future__ import annotations

import json
import os
import select
import socket
import threading
import time
from typing import Any, Callable, Dict, List, Optional, Set

from .beside import Listener, may_write, peer_of
from .metrics import Counts

# How many clients are served at once. While others wait, those are cut off that asked nothing for so many seconds.
MOST_CLIENTS = 256
IDLE = 10.0

# How many seconds a client may take to read an answer, or waits for room for its line.
PATIENCE = 30.0

# The longest line of a client, in bytes, and how many of it are read at once.
LONGEST_LINE = 8_388_608
PART = 65_536

# A line that closes a document of YAML. It is passed over, so that a client may send a command as a line that is JSON
# and YAML, and this one, to whoever listens, and go on with the next command on the same connection.
CLOSING = b"...\n"

# How many bytes of lines are kept for all clients together, beyond PART for each. Where there is no room, the client is
# cut off whose line has been unfinished for the longest time, and for so many seconds at least.
ROOM = 67_108_864
UNFINISHED = 1.0

# How many requests that are longer than PART are answered at once.
LONG_ONES = 4

# How many seconds lie between two looks at who waits.
TURN = 0.2

Answering = Callable[[Dict[str, Any], int], Dict[str, Any]]


class _Room:
    """The room for lines of all clients."""

    def __init__(self) -> None:
        self._changed = threading.Condition()
        self._free = ROOM
        self._holders: Set[_Client] = set()

    def take(self, client: "_Client", count: int) -> bool:
        """Takes room for a client whose line is not finished. Whether there was any in time."""
        deadline = time.monotonic() + PATIENCE
        with self._changed:
            while self._free < count:
                if time.monotonic() > deadline:
                    return False
                self._cut_off_one(client)
                self._changed.wait(TURN)
            self._free -= count
            self._holders.add(client)
            return True

    def _cut_off_one(self, waiting: "_Client") -> None:
        late = time.monotonic() - UNFINISHED
        others = [client for client in self._holders if client is not waiting and client.line_began < late]
        if others:
            min(others, key=lambda client: client.line_began).cut_off()

    def give_back(self, client: "_Client", count: int) -> None:
        with self._changed:
            self._free += count
            self._holders.discard(client)
            self._changed.notify_all()

    def is_finished(self, client: "_Client") -> None:
        """Notes that the line of a client is finished: it is cut off no more for its length."""
        with self._changed:
            self._holders.discard(client)


class _Client:
    """One client, which a thread of its own serves."""

    def __init__(self, connection: socket.socket, user: int, server: "Server") -> None:
        self._connection, self._user, self._server = connection, user, server
        self._heard = bytearray()
        self._taken = 0
        self._is_asking = False
        self._answered = self.line_began = time.monotonic()

    def idle_since(self) -> Optional[float]:
        """Since when it asks nothing, or None if it does."""
        return None if self._is_asking else self._answered

    def cut_off(self) -> None:
        try:
            self._connection.shutdown(socket.SHUT_RDWR)
        except OSError:
            pass

    def serve(self) -> None:
        try:
            while (line := self._line()) is not None:
                told = line == CLOSING or self._is_told(line)
                self._server.room.give_back(self, self._taken)
                self._taken = 0
                if not told:
                    return
        except OSError:
            pass
        finally:
            self._server.room.give_back(self, self._taken)
            self._server.forget(self)
            self._connection.close()

    def _is_told(self, line: bytes) -> bool:
        """Answers a line. Whether the client took the answer in time."""
        self._is_asking = True
        told = self._say(self._counted_answer_to(line))
        self._answered, self._is_asking = time.monotonic(), False
        return told

    def _line(self) -> Optional[bytes]:
        """The next line, or None if there is no more, or no room for it. Says so of one that is too long."""
        self.line_began, looked = time.monotonic(), 0
        while (found := self._heard.find(b"\n", looked)) < 0:
            looked = len(self._heard)
            if looked >= LONGEST_LINE:
                self._say({"refused": "TooLong"})
                return None
            part = self._connection.recv(PART)
            self._server.counts.add("received_bytes", len(part))
            if not part or not self._has_room(len(part)):
                return None
            self._heard += part
        self._server.room.is_finished(self)
        line = bytes(self._heard[: found + 1])
        del self._heard[: found + 1]
        return line

    def _has_room(self, more: int) -> bool:
        beyond = len(self._heard) + more - PART - self._taken
        if beyond <= 0:
            return True
        if not self._server.room.take(self, beyond):
            return False
        self._taken += beyond
        return True

    def _counted_answer_to(self, line: bytes) -> Dict[str, Any]:
        counts = self._server.counts
        with counts.request():
            answer = self._answer_to(line)
        for kind in ("refused", "failed"):
            if kind in answer:
                counts.name(kind, str(answer[kind]))
        return answer

    def _answer_to(self, line: bytes) -> Dict[str, Any]:
        if len(line) <= PART:
            return self._answer(line)
        if not self._server.long_ones.acquire(timeout=PATIENCE):
            return {"failed": "Busy"}
        try:
            return self._answer(line)
        finally:
            self._server.long_ones.release()

    def _answer(self, line: bytes) -> Dict[str, Any]:
        try:
            request = json.loads(line)
        except (ValueError, RecursionError):
            request = None
        return self._server.answer(request, self._user) if isinstance(request, dict) else {"refused": "BadCommand"}

    def _say(self, answer: Dict[str, Any]) -> bool:
        """Sends an answer. Whether the client took it in time."""
        line = json.dumps(answer, ensure_ascii=False).encode("utf-8", "surrogatepass") + b"\n"
        try:
            self._connection.settimeout(PATIENCE)
            self._connection.sendall(line)
            self._connection.settimeout(None)
        except OSError:
            return False
        self._server.counts.add("sent_bytes", len(line))
        return True


def listening(path: str, folder: int) -> Listener:
    """A socket at a path, for those who may write in an open folder. Raises `Fault` where that can't be."""
    listener = Listener(path)
    try:
        listener.open(folder)
    except BaseException:
        listener.close()
        raise
    return listener


class Server:
    """Takes clients at a path, those who may write in a folder when they connect, until it is ended."""

    def __init__(self, path: str, folder: str, answer: Answering, counts: Optional[Counts] = None) -> None:
        self.answer = answer
        self.counts = counts or Counts()
        self.room = _Room()
        self.long_ones = threading.Semaphore(LONG_ONES)
        self._folder = os.open(folder, os.O_RDONLY | os.O_DIRECTORY)
        try:
            self._listener = listening(path, self._folder)
        except BaseException:
            os.close(self._folder)
            raise
        self._clients: Set[_Client] = set()
        self._lock = threading.Lock()
        self._is_ended = False
        self._bell, self._ear = socket.socketpair()

    def serve(self) -> None:
        """Serves until `end` is called."""
        try:
            while not self._is_ended:
                ready, _, _ = select.select([self._listener.socket, self._ear], [], [])
                if self._listener.socket in ready and self._has_place():
                    self._accept()
        finally:
            self._listener.close()
            os.close(self._folder)
            self._bell.close()
            self._ear.close()

    def end(self) -> None:
        """Has `serve` end, from any thread or from a handler of a signal: it takes no lock, and waits for nothing."""
        self._is_ended = True
        try:
            self._bell.send(b".", socket.MSG_DONTWAIT)
        except OSError:  # it has ended, or was told to by many
            pass

    def _pause(self, seconds: float) -> None:
        """Waits for so long, or until this server is told to end."""
        select.select([self._ear], [], [], seconds)

    def _has_place(self) -> bool:
        """Whether one more client may be served. If not, cuts off the one that asked nothing for the longest time, if
        that is long enough, and waits a moment."""
        with self._lock:
            if len(self._clients) < MOST_CLIENTS:
                return True
            idle = [(since, client) for client in self._clients if (since := client.idle_since()) is not None]
        late = time.monotonic() - IDLE
        waited: List[_Client] = [client for since, client in sorted(idle, key=lambda pair: pair[0]) if since < late]
        if waited:
            waited[0].cut_off()
        self._pause(TURN / 20 if waited else TURN)
        return False

    def _accept(self) -> None:
        try:
            connection = self._listener.accept()
        except BlockingIOError:
            return
        except OSError:  # as where there are no more descriptors
            self._pause(TURN)
            return
        peer = peer_of(connection)
        if not may_write(peer, self._folder):  # its access was taken away since the start
            connection.close()
            return
        connection.setblocking(True)
        client = _Client(connection, peer.user, self)
        with self._lock:
            self._clients.add(client)
            self.counts.put("clients", len(self._clients))
        try:
            threading.Thread(target=client.serve, name="confstore client", daemon=True).start()
        except RuntimeError:  # the system has no room for one more
            self.forget(client)
            connection.close()

    def forget(self, client: _Client) -> None:
        with self._lock:
            self._clients.discard(client)
            self.counts.put("clients", len(self._clients))
