"""A node: a follower with its store, and a Unix socket for clients.

A client sends one JSON object a line, and gets one back for each, in order. A line `...` is passed over.

    {"import": NAME, "text": TEXT}                       {"ok": COUNT} once the log has it and this node performed it
    {"set": NAME, "path": POINTER, "value": TREE}        the same
    {"delete": NAME, "path": POINTER}                    the same
    {"batch": [EDIT, ..]}                                the same, all edits or none
    {"if": [CONDITION, ..], ..}                          the same of one of these four, where the conditions hold
    {"get": NAME, "path": POINTER}                       {"value": TREE}, of what this node holds
    {"export": NAME}                                     {"text": TEXT}
    {"names": ""}                                        {"names": [NAME, ..]}

A condition is `{"test": NAME, "path": POINTER, "value": TREE}`, `{"absent": NAME, "path": POINTER}`,
`{"absent": NAME}` or `{"count": COUNT}`, as a session has it. All nodes judge it at the command's place in the log.

A change may have a last key `about`, an object of strings: who makes it, when and why (`by`, `when`, `why`), and what
else is to be noted. The node writes `by`, the user at the other end of the socket, and `when` itself, also where a
change has no about and the store has or had one.

A refusal is `{"refused": WORD}`, with the words of a session, and three more: `NotText` of a text with a lone
surrogate, which no YAML can hold, `TooLong` of a command that is too long for the log, and `IdTaken`. The name
`replication` is the node's own: it is not among the names, and a command with it is refused with `BadName`.
`{"failed": WORD}` says that nothing is known of the command yet: it may be in the log or not. `OtherHistory` is said to
everything while etcd does not have the log that this node's store has performed.

An object may have two more keys: `id`, a text of 1 to 200 characters of the client's own for a change, under which it
is performed at most once, however often it is sent until 100,000 further entries were performed (`IdTaken` if another
command has it); and `fresh` with the value `yes` for a question, which is then answered after all changes that were
acknowledged anywhere before it was asked. `{"failed": "Forgotten"}` is said of an `id` whose command was performed,
where this node does not know any more what it was answered; another may.
"""

from __future__ import annotations

import argparse
import os
import signal
import sys
import time
import uuid
from contextlib import ExitStack, contextmanager
from typing import Any, Dict, Iterator, List, Optional, Tuple

from confstore import ConfstoreError, NotATree, NotText, Refused as StoreRefused, Store
from confstore.abouts import ABOUT, BY, WHEN, is_about, is_change, keeps_abouts, time_now, user_name

from .answers import Answers
from .bases import NAMES_KEPT
from .beside import Fault, Sample, address, family, known, mode_of, tell_manager
from .entries import RESERVED, Change, Refused, change_in, change_of, command_of, digest_of, entry_of
from .etcd import Access, Created, Etcd, Item, Unavailable
from .follower import Follower, NotReplicated
from .history import Behind, OtherHistory, Place
from .metrics import Counts, Teller, Telling, named
from .server import Server

# How many seconds a client waits for an answer at most.
PATIENCE = 30.0

# How many seconds the follower may take to end.
ENDING = 10.0
END_SIGNALS = (signal.SIGTERM, signal.SIGINT)

# The longest `id`.
LONGEST_ID = 200

# Where the password of the user of etcd is taken from if no file is named.
PASSWORD = "CONFSTORE_ETCD_PASSWORD"

Request = Dict[str, Any]


class Wait:
    """How long a request may still take."""

    def __init__(self) -> None:
        self._deadline = time.monotonic() + PATIENCE

    def left(self) -> float:
        return max(self._deadline - time.monotonic(), 0.0)


class Node:
    """Answers the requests of clients."""

    def __init__(
        self,
        folder: str,
        members: List[str],
        cluster: str,
        *,
        program: Optional[str] = None,
        base_after: int = 1000,
        names_kept: int = NAMES_KEPT,
        access: Optional[Access] = None,
    ) -> None:
        self._folder, self._keeps_abouts = folder, False
        self._members, self._access = members, access or Access()
        self._log, self._ids = (f"/confstore/{cluster}/{kind}/".encode() for kind in ("log", "ids"))
        self._answers = Answers()
        self.counts = Counts()
        self._idle: List[Etcd] = []
        self.follower = Follower(
            folder, members, cluster, program=program, base_after=base_after, names_kept=names_kept,
            told=self._answers.keep, forget=self._answers.forget, access=self._access, counts=self.counts,
        )  # fmt: skip

    @contextmanager
    def _etcd(self, wait: Wait) -> Iterator[Etcd]:
        """A client of etcd that nobody else uses meanwhile."""
        try:
            etcd = self._idle.pop()
        except IndexError:
            etcd = Etcd(self._members, access=self._access)
        etcd.timeout = wait.left()
        try:
            yield etcd
        finally:
            self._idle.append(etcd)

    def end(self) -> None:
        """Ends the follower, and waits for that. Requests that wait are answered that they failed."""
        self.follower.end()
        if self.follower.is_alive():
            self.follower.join(ENDING)
        while self._idle:
            self._idle.pop().close()

    def answer(self, request: Request, user: Optional[int] = None) -> Dict[str, Any]:
        """What is answered to a request of a user, if that is known."""
        identity, fresh = request.pop("id", None), request.pop("fresh", None) == "yes"
        try:
            self.follower.check()
            if identity is not None and not _is_id(identity):
                raise Refused("BadCommand")
            if tuple(request) in (("get", "path"), ("export",), ("names",)):
                return self._read(request, fresh)
            return self._change(self._noted(request, user), identity)
        except (Refused, StoreRefused) as refused:
            return {"refused": refused.word}
        except (NotText, UnicodeEncodeError):
            return {"refused": "NotText"}
        except NotATree:
            return {"refused": "BadCommand"}
        except (Unavailable, OtherHistory, Behind, ConfstoreError, OSError) as error:
            return {"failed": type(error).__name__}

    def _change(self, request: Request, identity: Optional[str]) -> Dict[str, Any]:
        """Puts a change into the log, and waits until it was performed here."""
        change, wait = change_of(request), Wait()
        command = command_of(change)
        digest = digest_of(change, command)
        self._need_abouts(change)
        name = (identity or uuid.uuid4().hex).encode()
        self.follower.wait_for_look(wait.left())
        created = self._create(name, command, digest, wait)
        if not self.follower.wait_for(created.number, wait.left()):
            return {"failed": "TimedOut"}
        answer = self._answer_of(created, self._log + name, digest, wait)
        if answer is not None:
            return answer
        again = self._create(name, command, digest, wait)  # so that the log that this node has now is known to have it
        is_same = again.number == created.number and again.value in (None, created.value)
        return {"failed": "Forgotten" if is_same else "TimedOut"}

    def _noted(self, request: Request, user: Optional[int]) -> Request:
        """A change with who makes it, and when, if it has an about, or the store has or had one."""
        about = request.get(ABOUT)
        if about is None and not (is_change(request) and self._has_abouts()):
            return request
        if about is not None and not is_about(about):
            raise Refused("BadCommand")
        own = {} if user is None else {BY: user_name(user)}
        rest = {key: text for key, text in (about or {}).items() if key not in (BY, WHEN)}
        return {**request, ABOUT: {**own, WHEN: time_now(), **rest}}

    def _has_abouts(self) -> bool:
        self._keeps_abouts = self._keeps_abouts or keeps_abouts(self._folder)
        return self._keeps_abouts

    def _need_abouts(self, change: Change) -> None:
        """Raises `Refused` for a change with an about that the program of this node would not take."""
        store = self.follower.store
        if change.about and store is not None and not store.takes_abouts():
            raise Refused("BadCommand")

    def _create(self, name: bytes, command: bytes, digest: bytes, wait: Wait) -> Created:
        """Puts a command into the log under a name, unless it is there. Raises `Refused` if another one is."""
        with self._etcd(wait) as etcd:
            created = etcd.create(self._ids + name, digest, self._log + name, lambda: entry_of(command))
        if _digest_in(created) != digest:
            self._look(self.follower.place(), wait)
            raise Refused("IdTaken")
        return created

    def _answer_of(self, created: Created, key: bytes, digest: bytes, wait: Wait) -> Optional[Dict[str, Any]]:
        """What an entry was answered that this node has performed: the very same, not another with its number. None if
        this node doesn't know."""
        performed, place = self._answers.of(created.number), self.follower.place()
        if self._answers.of(created.number) != performed:  # the store has started from a base meanwhile
            performed = None
        if performed is not None and created.value is not None:
            if not performed.is_of(Item(key, created.value, created.number, created.number)):
                raise OtherHistory("the entry with this number is another one here")
            if performed.has_tie():
                return dict(performed.answer)
        self._look(place, wait)
        if performed is not None and (created.value is not None or performed.is_of_command(key, digest)):
            return dict(performed.answer)
        return None

    def _look(self, place: Place, wait: Wait) -> int:
        """The number of the newest entry, or 0. Raises `OtherHistory` if the log is not the one that a store at this
        place has performed, and `Behind` if that isn't known."""
        with self._etcd(wait) as etcd:
            look = self.follower.look(etcd, place)
        return look.after[0].created if look.after else place.number

    def _newest(self, wait: Wait) -> int:
        """The number of the newest entry in the log, where this store is not behind it or has started from a base."""
        while True:
            try:
                return self._look(self.follower.place(), wait)
            except Behind:
                if not wait.left():
                    raise
            time.sleep(0.1)

    def _read(self, request: Request, fresh: bool) -> Dict[str, Any]:
        """Answers a question from the store of this node."""
        wait = Wait()
        if fresh and not self.follower.wait_for(self._newest(wait), wait.left()):
            return {"failed": "TimedOut"}
        store = self.follower.store
        if store is None:
            return {"failed": "Closed"}
        return _read_from(store, request)


def metrics_of(node: Node) -> str:
    """All metrics of a node, in the text form of Prometheus."""
    counts, standing = node.counts, node.follower.standing()
    growth = None if standing.length is None or standing.base is None else standing.length - standing.base
    rows: List[Tuple[str, str, str, List[Sample]]] = [
        ("healthy", "gauge", "Whether the node serves.", known(int(not node.follower.trouble()))),
        ("clients", "gauge", "Clients that are connected.", known(counts.number("clients"))),
        ("requests_total", "counter", "Requests of clients.", known(counts.number("requests"))),
        ("refusals_total", "counter", "Requests that were refused, by word.", named(counts.names("refused"))),
        (
            "failures_total", "counter", "Requests that failed, by word.",
            named(counts.names("failed"), "Unavailable"),
        ),
        ("received_bytes_total", "counter", "Bytes that clients sent.", known(counts.number("received_bytes"))),
        ("sent_bytes_total", "counter", "Bytes that were sent to clients.", known(counts.number("sent_bytes"))),
        ("request_wait_seconds", "histogram", "Time from a request's last byte to its answer.", counts.waits()),
        (
            "request_wait_longest_seconds", "gauge", "The longest of these since the start, also under way.",
            known(counts.longest()),
        ),
        ("position", "gauge", "Number of the last entry that was performed.", known(standing.position)),
        ("entries_applied_total", "counter", "Entries that were performed.", known(standing.applied)),
        (
            "entries_behind", "gauge", "Entries of etcd's log that were not performed; 1000 stands for more.",
            known(standing.behind),
        ),
        ("look_age_seconds", "gauge", "Time since etcd's log was looked at.", known(standing.looked_ago)),
        ("ids_expired_total", "counter", "Ids that this node took out of etcd.", known(counts.number("ids_expired"))),
        (
            "faults_total", "counter", "What went wrong while the log was followed, by name.",
            named(counts.names("faults"), "Unavailable"),
        ),
        ("sessions_total", "counter", "Sessions that held the store.", known(counts.number("sessions"))),
        ("store_bytes", "gauge", "Length of store.yaml.", known(standing.length)),
        ("store_growth_bytes", "gauge", "Bytes of store.yaml behind its base.", known(growth)),
    ]  # fmt: skip
    return "".join(family(f"node_{name}", kind, about, samples) for name, kind, about, samples in rows)


def _is_id(identity: Any) -> bool:
    return isinstance(identity, str) and 0 < len(identity) <= LONGEST_ID


def _digest_in(created: Created) -> Optional[bytes]:
    """The digest of an entry's command. None of what no node puts there."""
    if created.digest is not None:
        return created.digest
    try:
        return digest_of(*change_in(created.value or b""))
    except Refused:
        return None


def _read_from(store: Store, request: Request) -> Dict[str, Any]:
    if next(iter(request.values())) == RESERVED and "names" not in request:
        raise Refused("BadName")
    if "get" in request:
        return {"value": store.get(str(request["get"]), str(request["path"]))}
    if "export" in request:
        return {"text": store.export(str(request["export"]))}
    return {"names": [name for name in store.names() if name != RESERVED]}


def _parser() -> argparse.ArgumentParser:
    parser = argparse.ArgumentParser(description="One node of a replicated store.")
    parser.add_argument("socket", help="the Unix socket for clients, which is made")
    parser.add_argument("folder", help="the folder of this node's store, which is made if it is missing")
    parser.add_argument("members", nargs="+", help="the members of etcd, each as HOST:PORT")
    parser.add_argument("--cluster", default="default", help="the name of the cluster, its prefix in etcd")
    parser.add_argument("--program", help="the program confstore; else CONFSTORE, or confstore on the PATH")
    parser.add_argument("--base-after", type=int, default=1000, help="how many entries come between two bases in etcd")
    kept = "after how many further entries an id may be forgotten"
    parser.add_argument("--ids-kept", type=int, default=NAMES_KEPT, help=kept)
    told = "tell health and counters over HTTP: a Unix socket, with a slash, or 127.0.0.1:PORT"
    parser.add_argument("--metrics", metavar="ADDRESS", type=address, help=told)
    mode = "the mode of that socket, as 0666 (default: those that may read the store may ask)"
    parser.add_argument("--metrics-mode", metavar="MODE", type=mode_of, help=mode)
    parser.add_argument("--ca", metavar="FILE", help="reach etcd over TLS, and trust these authorities")
    parser.add_argument("--cert", metavar="FILE", help="the certificate of this node for etcd")
    parser.add_argument("--key", metavar="FILE", help="its key")
    parser.add_argument("--user", help="the user of etcd")
    password = f"the file whose first line is the user's password; else the environment's {PASSWORD}"
    parser.add_argument("--password-file", metavar="FILE", help=password)
    return parser


def _access_of(words: argparse.Namespace) -> Access:
    """How etcd is reached. Raises `OSError` or `ValueError`."""
    if words.ca is None and (words.cert or words.key):
        raise ValueError("--cert and --key need --ca, the file of authorities that etcd's certificate is checked by")
    if (words.cert is None) != (words.key is None):
        raise ValueError("--cert and --key go together")
    password = os.environ.pop(PASSWORD, None)
    if words.password_file is not None:
        with open(words.password_file, encoding="utf-8") as file:
            password = file.readline().rstrip("\n")
    if words.user is not None and not password:
        raise ValueError(f"--user needs a password: name its file with --password-file, or set {PASSWORD}")
    if words.user is None and words.password_file is not None:
        raise ValueError("--password-file needs --user")
    try:
        return Access(words.ca, words.cert, words.key, words.user, password)
    except OSError as error:
        raise ValueError(f"the files of --ca, --cert and --key can't be used: {error}") from None


def _open(follower: Follower) -> None:
    """Opens the store for the first time. Raises `NotReplicated`; what else fails is tried again."""
    try:
        follower.open()
    except NotReplicated:
        raise
    except Exception:  # the follower tries again, and says what it is
        pass


def _node_of(words: argparse.Namespace, ends: ExitStack) -> Node:
    """The node, whose store is open if that was possible. Until `ends` is closed those are answered who ask for its
    metrics. Raises `OSError`, `Fault`, `ValueError` or `NotReplicated`."""
    access = _access_of(words)
    words.folder = os.path.abspath(words.folder)
    os.makedirs(words.folder, exist_ok=True)
    node = Node(
        words.folder, words.members, words.cluster, program=words.program, base_after=words.base_after,
        names_kept=words.ids_kept, access=access,
    )  # fmt: skip
    if words.metrics is not None or words.metrics_mode is not None:
        node.counts.is_told = True
        folder = os.open(words.folder, os.O_RDONLY | os.O_DIRECTORY)
        ends.callback(os.close, folder)
        telling = Telling(lambda: metrics_of(node), node.follower.trouble)
        ends.callback(Teller(words.metrics, words.metrics_mode, folder, telling).end)
    _open(node.follower)
    return node


def main() -> int:
    ends = ExitStack()
    try:
        return _run(_parser().parse_args(), ends)
    finally:
        ends.close()
        for number in END_SIGNALS:  # all is done, and no signal may change the status any more
            signal.signal(number, signal.SIG_IGN)


def _run(words: argparse.Namespace, ends: ExitStack) -> int:
    server: Optional[Server] = None
    is_told_to_end = False

    def end(*_: object) -> None:
        nonlocal is_told_to_end
        is_told_to_end = True
        if server is not None:
            server.end()

    for number in END_SIGNALS:
        signal.signal(number, end)
    try:
        node = _node_of(words, ends)
        server = Server(words.socket, words.folder, node.answer, node.counts)
    except (OSError, Fault, ValueError, NotReplicated) as fault:
        print(f"node: {fault}", file=sys.stderr)
        return 1
    if is_told_to_end:
        server.end()
    node.follower.start()
    print("ready", flush=True)
    tell_manager()
    server.serve()
    node.end()
    return 0


if __name__ == "__main__":
    sys.exit(main())
