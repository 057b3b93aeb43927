"""What `serve.py` counts, and how it tells that: over HTTP, on a socket of its own, in the text form of Prometheus.

`GET /metrics` is answered by the counters, in exposition format 0.0.4. `GET /health` is answered by the status 200
while commands are performed, and else by 503 and a line that says why they aren't. There is nothing else, and each
connection has one request. What is counted says nothing of what is stored: no name, no path and no text of it.

The address is a path of a Unix socket, which has a slash, or 127.0.0.1:PORT. At a socket those may ask that may read
the store: they may read in its folder, and `store.yaml`. That is looked at again for each connection. With
`--metrics-mode` the mode of the socket alone counts. A port has no access: whoever is on the machine may ask.

Those who ask share the server's one loop with its clients, and never hold them up: after each moment that is spent on
them, 19 times as long is for others. They don't hold up each other either. A connection lasts for 2 seconds at most,
and a request has at most 4,096 bytes. There are 32 places, and they are never waited for: where all are taken, the user
who has most of them loses the oldest one. A user who connects more than 50 times in a second is kept out of the
socket for a minute, by its access list; root and the server's own user are not. At a port all are one user, and nobody
is kept out.

How long the base of `store.yaml` is stands in no answer, so it is read: the base is the first document of the file. At
most some milliseconds are spent on that between two looks, so it takes a while where the base is long. Until then the
growth is not told.
"""

from __future__ import annotations

import argparse
import bisect
import collections
import contextlib
import os
import re
import selectors
import socket
import stat
import time
from typing import Callable, Iterable, Iterator, NamedTuple, Optional, Protocol, Sequence, Sized, Tuple, Union

from serve_socket import WRONG_WORDS, Fault, Listener, Peer, may_read, peer_of, reason, say

MOST = 32  # connections at a time
TAKEN = 16  # connections that are taken at once
SERVED = 8  # connections that are heard or answered at once
MANY = 50  # connections of one user in a second, of which more are too many
SHORTEST = 0.5  # seconds in which they are counted at least
KEPT_OUT = 60  # seconds that a user with too many is kept out
MOST_KEPT_OUT = 64  # users
REST = 19  # how many times as long as on those who ask is spent on others
STAY = 2  # seconds that a connection lasts at most
WAITING = 1_024  # connections that the system lets wait
LONGEST = 4_096  # bytes of a request
HEARD = 65_536  # bytes that are read at once: what is left unread may cost the answer
STUCK = 60  # seconds that a command may wait before the server calls itself unhealthy
NAMES = 64  # names of refusals that are told apart

# The most seconds of a wait that a bucket of the histogram counts.
BUCKETS = (0.001, 0.005, 0.01, 0.05, 0.1, 0.5, 1.0, 5.0, 10.0, 60.0)

# How much of `store.yaml` is read at once, and for how many seconds between two looks.
PART = 1_048_576
READING = 0.002
CLOSING = b"\n...\n"

READ, WRITE = selectors.EVENT_READ, selectors.EVENT_WRITE

TEXT = "text/plain; version=0.0.4; charset=utf-8"
END_OF_HEAD = re.compile(rb"\r?\n\r?\n")
REQUEST = re.compile(rb"([!-~]+) (/[!-~]*) HTTP/1\.[01]")
LOCAL = re.compile(r"127\.0\.0\.1:([0-9]{1,5})")
REFUSED = b"---\nrefused: "
REFUSAL = re.compile(rb"---\nrefused: ([A-Za-z]{1,40})\n")

Number = Union[int, float]
Sample = Tuple[str, Number]
Watch = Callable[[int, int, Callable[[int], None]], None]


def address(text: str) -> str:
    """A word that is an address. Raises `ArgumentTypeError`."""
    port = LOCAL.fullmatch(text)
    if "/" in text or (port and 0 < int(port[1]) < 65_536):
        return text
    raise argparse.ArgumentTypeError(f"{text!r} is neither a path with a slash nor 127.0.0.1:PORT")


def mode_of(text: str) -> int:
    """A word that is a mode. Raises `ArgumentTypeError`."""
    if re.fullmatch("0?[0-7]{3}", text):
        return int(text, 8)
    raise argparse.ArgumentTypeError(f"{text!r} is no mode of three octal digits, as 0660")


class Door(NamedTuple):
    """Where those who ask come in: who has connected, whether they may ask, and how users are kept out."""

    socket: socket.socket
    peer_of: Callable[[socket.socket], Peer]
    may_ask: Callable[[Peer], bool]
    keep_out: Callable[[set[int]], None]


@contextlib.contextmanager
def listening(where: Optional[str], mode: Optional[int], folder: int) -> Iterator[Optional[Door]]:
    """A socket that listens at an address, or none without one. Raises `Fault` where that can't be."""
    if mode is not None and (where is None or "/" not in where):
        raise Fault("--metrics-mode is the mode of a Unix socket: name its path by --metrics", WRONG_WORDS)
    if where is None:
        yield None
    elif "/" in where:
        with contextlib.closing(Listener(where)) as listener:
            if mode is None:
                listener.open_for_readers(folder, WAITING)
                yield Door(listener.socket, peer_of, lambda peer: may_read(peer, folder), listener.keep_out)
            else:
                listener.open_with_mode(mode, WAITING)
                yield Door(listener.socket, peer_of, lambda _: True, listener.keep_out)
    else:
        with socket.socket(socket.AF_INET) as local:
            open_port(local, where)
            yield Door(local, lambda _: Peer(0, set()), lambda _: True, lambda _: None)


def open_port(local: socket.socket, where: str) -> None:
    """Listens at a port of this machine. Raises `Fault` where that can't be."""
    try:
        local.setsockopt(socket.SOL_SOCKET, socket.SO_REUSEADDR, 1)
        local.bind(("127.0.0.1", int(where.rpartition(":")[2])))
        local.setblocking(False)
        local.listen(WAITING)
    except OSError as error:
        raise Fault(f"no metrics are told at {where}: {reason(error)}: choose another port") from None


class Waits:
    """How long commands waited for their answers, by the most seconds of each bucket."""

    def __init__(self, buckets: Sequence[float] = BUCKETS) -> None:
        self.buckets = buckets
        self.counts = [0] * (len(buckets) + 1)
        self.sum = 0.0
        self.longest = 0.0

    def add(self, seconds: float) -> None:
        self.counts[bisect.bisect_left(self.buckets, seconds)] += 1
        self.sum += seconds
        self.longest = max(self.longest, seconds)

    def samples(self) -> Iterator[Sample]:
        """The samples of a histogram: each bucket counts those of the buckets before it too."""
        so_far = 0
        for bound, count in zip([*self.buckets, "+Inf"], self.counts):
            so_far += count
            yield f'_bucket{{le="{bound}"}}', so_far
        yield "_sum", self.sum
        yield "_count", so_far


class StoreFile:
    """The file of a store: how long it is, and by how much it has grown since its base.

    It is kept open, so that the file that a checkpoint puts in its place is told from it: a number of a file is not
    given again while that file is open.
    """

    def __init__(self, folder: str) -> None:
        self.path = os.path.join(folder, "store.yaml")
        self.file: Optional[int] = None
        self.base: Optional[int] = None
        self.looked = 0  # how many bytes of it have no closing line that ends the base

    def look(self) -> None:
        """Looks for the end of the base, for a moment, where it isn't known."""
        with contextlib.suppress(OSError):
            if self.file is not None and os.fstat(self.file).st_nlink == 0:
                self.close()
            if self.file is None:
                self.open()
            if self.base is None and self.file is not None:
                self.read(self.file)

    def open(self) -> None:
        file = os.open(self.path, os.O_RDONLY | os.O_NOFOLLOW | os.O_NONBLOCK)
        if stat.S_ISREG(os.fstat(file).st_mode):
            self.file = file
        else:
            os.close(file)

    def read(self, file: int) -> None:
        until = time.monotonic() + READING
        while part := os.pread(file, PART, self.looked):
            found = part.find(CLOSING)
            if found >= 0:
                self.base = self.looked + found + len(CLOSING)
                return
            self.looked += max(len(part) - len(CLOSING) + 1, 0)
            if len(part) < PART or time.monotonic() > until:
                return

    def close(self) -> None:
        if self.file is not None:
            os.close(self.file)
        self.file = self.base = None
        self.looked = 0

    def length(self) -> Optional[int]:
        """How many bytes the file has, or None if it can't be looked at."""
        try:
            return os.stat(self.path, follow_symlinks=False).st_size
        except OSError:
            return None

    def growth(self) -> Optional[int]:
        """How many bytes stand behind the base, or None if that isn't known."""
        self.look()
        if self.file is None or self.base is None:
            return None
        found = os.fstat(self.file)
        return found.st_size - self.base if found.st_nlink else None


def family(name: str, kind: str, about: str, samples: Iterable[Sample]) -> str:
    """A metric in the text form, each sample with what follows the name."""
    lines = [f"# HELP confstore_{name} {about}", f"# TYPE confstore_{name} {kind}"]
    return "\n".join([*lines, *(f"confstore_{name}{rest} {value}" for rest, value in samples), ""])


def known(value: Optional[Number]) -> list[Sample]:
    """The sample of a number, or none where it isn't known."""
    return [] if value is None else [("", value)]


class Monitor:
    """What is counted, and what is told of it. `hindrance` says why no commands are performed, or is empty."""

    def __init__(self, folder: str, clients: Sized, hindrance: Callable[[], str]) -> None:
        self.clients = clients
        self.hindrance = hindrance
        self.file = StoreFile(folder)
        self.commands = self.received = self.sent = self.renewals = self.check_refusals = 0
        self.refusals: collections.Counter[str] = collections.Counter()
        self.waits = Waits()
        self.waiting: collections.deque[float] = collections.deque()  # since when each command waits, in order
        self.judged_since: Optional[float] = None  # since when the command waits that is judged, if there is one
        self.lack = ""  # why changes can't be judged, if so
        self.scrapers: Optional[Scrapers] = None

    def command(self, since: float) -> None:
        """Counts a command that goes to the session, and that had come at this time."""
        self.commands += 1
        self.waiting.append(since)

    def answer(self, *answers: bytearray) -> None:
        """Counts the answers to the commands that wait for longest."""
        now = time.monotonic()
        for answer in answers:
            if self.waiting:
                self.waits.add(now - self.waiting.popleft())
            if answer.startswith(REFUSED):
                self.count_refusal(answer)

    def settle(self, since: float, answer: bytes) -> None:
        """Counts the answer to a command that had come at this time."""
        self.waits.add(time.monotonic() - since)
        self.count_refusal(answer)

    def count_refusal(self, answer: bytes) -> None:
        refusal = REFUSAL.match(answer)
        if refusal:
            name = refusal[1].decode()
            self.refusals[name if name in self.refusals or len(self.refusals) < NAMES else "other"] += 1

    def renew(self) -> None:
        """Counts a session that goes on after another one."""
        self.renewals += 1
        self.waiting.clear()

    def open(self, door: Optional[Door]) -> None:
        """Takes those who ask, if there is a socket for them."""
        if door is not None:
            self.scrapers = Scrapers(door, self)

    def look(self, now: float) -> None:
        if self.scrapers is not None:
            self.file.look()
            self.scrapers.look(now)

    def turn(self, watch: Watch, most: float) -> float:
        """Has those who ask watched, unless it is the others' time. How many seconds may be waited, at most so many."""
        if self.scrapers is None:
            return most
        rest = max(self.scrapers.rests_until - time.monotonic(), 0.0)
        watch(self.scrapers.selector.fileno(), 0 if rest else READ, self.scrapers.turn)
        return min(most, rest) if rest else most

    def close(self) -> None:
        if self.scrapers is not None:
            self.scrapers.close()
        self.file.close()

    def oldest(self) -> float:
        """For how many seconds the command has waited that waits for longest."""
        since = [*([self.waiting[0]] if self.waiting else []), *([self.judged_since] if self.judged_since else [])]
        return time.monotonic() - min(since) if since else 0.0

    def trouble(self) -> str:
        """Why no commands are performed, or nothing."""
        stuck = f"a command has waited for more than {STUCK} seconds" if self.oldest() > STUCK else ""
        return self.hindrance() or self.lack or stuck

    def text(self) -> str:
        """All metrics."""
        oldest = self.oldest()
        refusals = [(f'{{name="{name}"}}', count) for name, count in sorted(self.refusals.items())]
        rows: list[tuple[str, str, str, Iterable[Sample]]] = [
            ("session_open", "gauge", "Whether a session holds the store.", known(int(not self.hindrance()))),
            ("session_renewals_total", "counter", "Sessions that followed another one.", known(self.renewals)),
            ("clients", "gauge", "Clients that are connected.", known(len(self.clients))),
            ("commands_total", "counter", "Commands that were sent to the session.", known(self.commands)),
            ("commands_waiting", "gauge", "Commands that the session has not answered.", known(len(self.waiting))),
            ("refusals_total", "counter", "Commands that were refused, by the name of the refusal.", refusals),
            (
                "check_refusals_total", "counter", "Commands that the command of --check refused, or could not judge.",
                known(self.check_refusals),
            ),
            ("received_bytes_total", "counter", "Bytes that clients sent.", known(self.received)),
            ("sent_bytes_total", "counter", "Bytes that were sent to clients.", known(self.sent)),
            (
                "command_wait_seconds", "histogram", "Time from a command's last byte to its answer.",
                self.waits.samples(),
            ),
            (
                "command_wait_longest_seconds", "gauge", "The longest of these since the start, also under way.",
                known(max(self.waits.longest, oldest)),
            ),
            ("command_wait_oldest_seconds", "gauge", "How long the oldest command has waited.", known(oldest)),
            ("store_bytes", "gauge", "Length of store.yaml.", known(self.file.length())),
            ("store_growth_bytes", "gauge", "Bytes of store.yaml behind its base.", known(self.file.growth())),
        ]  # fmt: skip
        return "".join(family(*row) for row in rows)


class Teller(Protocol):
    """What makes the metrics, and says why nothing is performed, if so."""

    def text(self) -> str: ...

    def trouble(self) -> str: ...


class Response(NamedTuple):
    """What is answered to a request."""

    status: str
    body: str
    more: str = ""

    def written(self) -> bytes:
        body = self.body.encode()
        head = f"HTTP/1.1 {self.status}\r\nContent-Type: {TEXT}\r\nContent-Length: {len(body)}\r\n"
        return f"{head}{self.more}Connection: close\r\n\r\n".encode() + body


def response_to(head: bytes, teller: Teller) -> Response:
    """The answer to a request with this head."""
    line = REQUEST.fullmatch(head.partition(b"\n")[0].rstrip(b"\r"))
    if line is None:
        return Response("400 Bad Request", "this is no request of HTTP/1.1\n")
    if line[1] != b"GET":
        return Response("405 Method Not Allowed", "only GET is answered\n", "Allow: GET\r\n")
    path = line[2].partition(b"?")[0]
    if path == b"/metrics":
        return Response("200 OK", teller.text())
    if path == b"/health":
        trouble = teller.trouble()
        return Response("503 Service Unavailable", f"{trouble}\n") if trouble else Response("200 OK", "ok\n")
    return Response("404 Not Found", "there are /metrics and /health\n")


class Scraper:
    """One who asks: what it has sent, and what it has still to read."""

    def __init__(self, connection: socket.socket, user: int) -> None:
        self.connection = connection
        self.user = user
        self.came = time.monotonic()
        self.head = bytearray()
        self.unsaid = b""

    def hear(self) -> bool:
        """Takes a part of the request. Whether more may come, or it is whole."""
        try:
            part = self.connection.recv(HEARD)
        except BlockingIOError:
            return True
        except OSError:
            return False
        self.head += part
        return bool(part)

    def has_asked(self) -> bool:
        return len(self.head) > LONGEST or END_OF_HEAD.search(self.head) is not None

    def say(self) -> bool:
        """Sends what is taken now of the answer. Whether there is more."""
        try:
            self.unsaid = self.unsaid[self.connection.send(self.unsaid) :]
        except BlockingIOError:
            return True
        except OSError:
            return False
        return bool(self.unsaid)


class Scrapers:
    """Those who ask, within their bounds. To the server's loop all of them are one thing, which it can leave alone."""

    def __init__(self, door: Door, teller: Teller) -> None:
        self.door = door
        self.teller = teller
        self.connected: list[Scraper] = []  # in the order in which they came
        self.came: collections.Counter[int] = collections.Counter()  # how often each user came since the last look
        self.looked = time.monotonic()
        self.kept_out: dict[int, float] = {}  # until when
        self.rests_until = 0.0
        self.selector = selectors.EpollSelector()
        self.selector.register(door.socket, READ)

    def turn(self, _events: int) -> None:
        """Does what can be done for them now, and rests for a multiple of the processor's time that it took."""
        began = time.thread_time()
        for key, events in self.selector.select(0)[:SERVED]:
            if key.data is None:
                self.accept()
            elif key.data in self.connected:
                self.serve(key.data, events)
        rest = REST * (time.thread_time() - began)
        self.rests_until = max(self.rests_until, time.monotonic() + rest)

    def accept(self) -> None:
        for _ in range(TAKEN):
            try:
                connection, _address = self.door.socket.accept()
            except BlockingIOError:
                return
            except ConnectionAbortedError:
                continue
            except OSError:
                self.rests_until = time.monotonic() + STAY  # as where no more files may be open
                return
            peer = self.door.peer_of(connection)
            self.came[peer.user] += 1
            if peer.user in self.kept_out or not self.door.may_ask(peer):
                connection.close()
            else:
                self.take(connection, peer.user)

    def take(self, connection: socket.socket, user: int) -> None:
        """Gives one who connects a place, which another one loses where there is none."""
        connection.setblocking(False)
        scraper = Scraper(connection, user)
        self.connected.append(scraper)
        self.selector.register(connection, READ, scraper)
        if len(self.connected) > MOST:
            [(most, _count)] = collections.Counter(other.user for other in self.connected).most_common(1)
            self.drop(next(other for other in self.connected if other.user == most))

    def serve(self, scraper: Scraper, events: int) -> None:
        goes_on = scraper.hear() if events & READ else scraper.say()
        if goes_on and events & READ and scraper.has_asked():
            is_long = len(scraper.head) > LONGEST
            long = Response("431 Request Header Fields Too Large", f"a request has at most {LONGEST} bytes\n")
            scraper.unsaid = (long if is_long else response_to(bytes(scraper.head), self.teller)).written()
            goes_on = scraper.say()
            if goes_on:
                self.selector.modify(scraper.connection, WRITE, scraper)
        if not goes_on:
            self.drop(scraper)

    def drop(self, scraper: Scraper) -> None:
        self.connected.remove(scraper)
        self.selector.unregister(scraper.connection)
        scraper.connection.close()

    def look(self, now: float) -> None:
        """Cuts off those that have been connected for long, and keeps out those who came too often."""
        for scraper in [scraper for scraper in self.connected if now - scraper.came > STAY]:
            self.drop(scraper)
        known = set(self.kept_out)
        self.kept_out = {user: until for user, until in self.kept_out.items() if until > now}
        most, self.looked = MANY * max(now - self.looked, SHORTEST), now
        often = {user for user, count in self.came.items() if count > most} - {0, os.geteuid()} - set(self.kept_out)
        self.came.clear()
        for user in sorted(often)[: MOST_KEPT_OUT - len(self.kept_out)]:
            self.kept_out[user] = now + KEPT_OUT
            too_often = f"user {user} asks for the metrics too often, and is kept out for {KEPT_OUT} seconds"
            say(f"{too_often}: have it ask at most {MANY} times in a second")
        if set(self.kept_out) != known:
            self.door.keep_out(set(self.kept_out))

    def close(self) -> None:
        for scraper in list(self.connected):
            self.drop(scraper)
        self.selector.close()
