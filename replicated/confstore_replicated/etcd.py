"""The calls of etcd that a log needs, over its JSON gateway. Only the standard library is used.

A client knows all members, and goes on with the next one where one doesn't answer. Keys and values are bytes.
"""

from __future__ import annotations

import base64
import http.client
import json
import ssl
import threading
import time
from typing import Any, Callable, Dict, Iterator, List, NamedTuple, Optional, Sequence, Tuple

# How many seconds one call to one member may take. Then the next member is asked.
CALL = 2.0

# The longest answer of a member that is read, in bytes, and how many entries are asked for at once at most.
LONGEST_ANSWER = 33_554_432
MOST_ENTRIES = 64

# How many keys one transaction takes out at most. A member takes 128 operations and 128 comparisons of one.
MOST_REMOVED = 60

# What a member calls that a token is none or not valid any more, and that something is not permitted (gRPC's codes).
UNAUTHENTICATED = 16
PERMISSION_DENIED = 7

# The revision that made a key which is not there, in comparisons.
ABSENT = 0

# A key of etcd with the value that it has to have, or None if it may not be there.
Guard = Tuple[bytes, Optional[bytes]]


class Unavailable(Exception):
    """No member answered in time. A change that was asked for may have been made or not."""


class Denied(Unavailable):
    """The cluster does not let this user in, or do this."""


class AnswerLong(Exception):
    """An answer of a member is longer than is read here."""


class _BadToken(ValueError):
    """The member does not take the token."""


class Item(NamedTuple):
    """A key with its value, the revision that made it, and the one that last changed it."""

    key: bytes
    value: bytes
    created: int
    modified: int


class Look(NamedTuple):
    """What one transaction found: which cluster it is, at which revision, and what its log has around a number."""

    cluster: int
    revision: int
    at: Optional[Item]
    base: Optional[bytes]
    after: List[Item]


class Created(NamedTuple):
    """An entry under a name: its number, its value or None if it is out of the log again, and the command's digest, or
    None if only the value has it."""

    number: int
    value: Optional[bytes]
    digest: Optional[bytes]


class Access:
    """How members are reached and a client is let in: over TLS with a file of authorities, and a certificate and its
    key if they want one; as a user with a password. All clients of one process share it, and so its token."""

    def __init__(
        self,
        authorities: Optional[str] = None,
        certificate: Optional[str] = None,
        key: Optional[str] = None,
        user: Optional[str] = None,
        password: Optional[str] = None,
    ) -> None:
        self.context: Optional[ssl.SSLContext] = None
        if authorities is not None:
            self.context = ssl.create_default_context(cafile=authorities)
            if certificate is not None:
                self.context.load_cert_chain(certificate, key)
        self.user, self._password = user, password
        self._lock = threading.Lock()
        self._token = ""

    def connect(self, member: str, timeout: float) -> http.client.HTTPConnection:
        host, port = member.rsplit(":", 1)
        host = host.strip("[]")
        if self.context is None:
            return http.client.HTTPConnection(host, int(port), timeout=timeout)
        return http.client.HTTPSConnection(host, int(port), timeout=timeout, context=self.context)

    def token(self, authenticate: Callable[[Dict[str, str]], str]) -> str:
        """The token, which is fetched with name and password if there is none."""
        with self._lock:
            if not self._token:
                self._token = authenticate({"name": self.user or "", "password": self._password or ""})
            return self._token

    def forget(self, token: str) -> None:
        """Has the next call fetch another token, unless another client has fetched one meanwhile."""
        with self._lock:
            if self._token == token:
                self._token = ""


def encode(data: bytes) -> str:
    return base64.b64encode(data).decode()


def _decode(text: str) -> bytes:
    return base64.b64decode(text)


def end_of(prefix: bytes) -> bytes:
    """The first key after all that begin with a prefix, which is not empty and ends in no byte 255."""
    return prefix[:-1] + bytes([prefix[-1] + 1])


def items_of(answer: Dict[str, Any]) -> List[Item]:
    return [
        Item(
            _decode(found["key"]), _decode(found.get("value", "")), int(found["create_revision"]),
            int(found["mod_revision"]),
        )
        for found in answer.get("kvs", ())
    ]  # fmt: skip


def _found(answer: Dict[str, Any], place: int) -> List[Item]:
    """What the range at a place of a transaction found."""
    return items_of(answer["responses"][place]["response_range"])


def _put(key: bytes, value: bytes) -> Dict[str, Any]:
    return {"request_put": {"key": encode(key), "value": encode(value)}}


def _range(key: bytes, end: Optional[bytes] = None, **more: Any) -> Dict[str, Any]:
    asked: Dict[str, Any] = {"key": encode(key), **more}
    if end is not None:
        asked["range_end"] = encode(end)
    return asked


def _created(key: bytes, revision: int, result: str = "EQUAL") -> Dict[str, str]:
    return {"target": "CREATE", "key": encode(key), "result": result, "create_revision": str(revision)}


def _is(key: bytes, value: Optional[bytes]) -> Dict[str, str]:
    """The comparison that a key has a value, or is not there if that is None."""
    if value is None:
        return _created(key, ABSENT)
    return {"target": "VALUE", "key": encode(key), "result": "EQUAL", "value": encode(value)}


class Etcd:
    """A client of a cluster. One thread at a time may use it."""

    def __init__(self, members: Sequence[str], timeout: float = 30.0, access: Optional[Access] = None) -> None:
        self._members = list(members)
        #: How many seconds a call may take, for all members together.
        self.timeout = timeout
        self._access = access or Access()
        self._first = 0
        self._connection: Optional[http.client.HTTPConnection] = None

    def close(self) -> None:
        if self._connection is not None:
            self._connection.close()
            self._connection = None

    # ---- one call

    def _headers(self) -> Dict[str, str]:
        headers = {"Content-Type": "application/json"}
        if self._access.user is not None:
            headers["Authorization"] = self._access.token(self._authenticate)
        return headers

    def _authenticate(self, who: Dict[str, str]) -> str:
        answer = self._call("/v3/auth/authenticate", who, {"Content-Type": "application/json"})
        return str(answer["token"])

    def _call(self, path: str, body: Dict[str, Any], headers: Dict[str, str]) -> Dict[str, Any]:
        """What one member answers, or `OSError`, `http.client.HTTPException` or `ValueError`."""
        if self._connection is None:
            self._connection = self._access.connect(self._members[self._first], CALL)
        self._connection.request("POST", path, json.dumps(body), headers)
        answer = self._connection.getresponse()
        text = answer.read(LONGEST_ANSWER + 1)
        if len(text) > LONGEST_ANSWER:
            self.close()
            raise AnswerLong(f"an answer of a member is longer than {LONGEST_ANSWER} bytes")
        if answer.status != 200:
            raise _fault_of(path, answer.status, text)
        found: Dict[str, Any] = json.loads(text)
        return found

    def _post(self, path: str, body: Dict[str, Any]) -> Dict[str, Any]:
        headers = self._headers()
        try:
            return self._call(path, body, headers)
        except _BadToken:
            self._access.forget(headers.get("Authorization", ""))
            return self._call(path, body, self._headers())

    def _ask(self, path: str, body: Callable[[], Dict[str, Any]]) -> Dict[str, Any]:
        """What the first member that answers says to a body, which is made anew for each. Only for what may be asked
        twice."""
        deadline = time.monotonic() + self.timeout
        while True:
            try:
                return self._post(path, body())
            except (OSError, http.client.HTTPException, ValueError) as error:
                self.close()
                self._first = (self._first + 1) % len(self._members)
                if time.monotonic() > deadline:
                    raise Unavailable(f"no member of the cluster answers: {error}") from None
                time.sleep(0.05)

    def _transact(
        self,
        compare: Sequence[Dict[str, str]],
        success: Sequence[Dict[str, Any]],
        failure: Sequence[Dict[str, Any]] = (),
    ) -> Dict[str, Any]:
        wanted = {"compare": list(compare), "success": list(success), "failure": list(failure)}
        return self._ask("/v3/kv/txn", lambda: wanted)

    # ---- the log

    def create(self, name: bytes, digest: bytes, key: bytes, value: Callable[[], bytes]) -> Created:
        """Puts a name with the digest of a command, and an entry under a key, by one transaction, if neither is there.

        `value` makes the entry for each request that is sent, so each has another nonce: what a member is asked twice
        is two entries, of which the cluster takes one. If one of the keys is there, returns what they are.
        """
        sent = b""

        def wanted() -> Dict[str, Any]:
            nonlocal sent
            sent = value()
            return {
                "compare": [_created(name, ABSENT), _created(key, ABSENT)],
                "success": [_put(name, digest), _put(key, sent)],
                "failure": [{"request_range": _range(name)}, {"request_range": _range(key)}],
            }

        answer = self._ask("/v3/kv/txn", wanted)
        if answer.get("succeeded"):
            return Created(int(answer["header"]["revision"]), sent, digest)
        names, entries = _found(answer, 0), _found(answer, 1)
        if not names:
            return Created(entries[0].created, entries[0].value, None)
        is_same = entries and entries[0].created == names[0].created
        return Created(names[0].created, entries[0].value if is_same else None, names[0].value)

    def look(
        self, log: bytes, base: bytes, number: int, key: Optional[bytes], most: int = 1, newest: bool = False
    ) -> Look:
        """The entry with a number, the base, and entries after that number in their order, at most so many, or the key
        of the newest one alone. All by one transaction of all members. `key` is that of the entry, if it is known."""
        after = {"sort_target": "CREATE", "sort_order": "DESCEND", "limit": "1", "keys_only": True}
        while True:
            if not newest:
                after = {"sort_target": "CREATE", "sort_order": "ASCEND", "limit": str(most)}
            if number == 0:
                at = _range(base)
            elif key is None:
                only = {"min_create_revision": str(number), "max_create_revision": str(number), "limit": "1"}
                at = _range(log, end_of(log), **only)
            else:
                at = _range(key)
            ranges = [at, _range(base), _range(log, end_of(log), min_create_revision=str(number + 1), **after)]
            try:
                answer = self._transact((), [{"request_range": asked} for asked in ranges])
                break
            except AnswerLong:
                if most == 1:
                    raise Unavailable("an entry of the log is too long") from None
                most //= 2
        header, bases = answer["header"], _found(answer, 1)
        found = [item for item in _found(answer, 0) if item.created == number]
        return Look(
            int(header["cluster_id"]), int(header["revision"]), found[0] if found else None,
            bases[0].value if bases else None, _found(answer, 2),
        )  # fmt: skip

    # ---- other keys

    def get(self, key: bytes) -> Optional[bytes]:
        found = items_of(self._ask("/v3/kv/range", lambda: _range(key)))
        return found[0].value if found else None

    def put(self, key: bytes, value: bytes) -> None:
        self._ask("/v3/kv/put", lambda: {"key": encode(key), "value": encode(value)})

    def replace(
        self, key: bytes, value: bytes, old: Optional[bytes], entry: Item, present: Sequence[bytes] = ()
    ) -> bool:
        """Puts a value under a key that has the old one, or is not there if that is None, if the log has this entry
        and other keys are there. False if it was not put, or if that isn't known."""
        compare = [_is(key, old), _created(entry.key, entry.created), _is(entry.key, entry.value)]
        compare += [_created(other, ABSENT, "GREATER") for other in present]
        return bool(self._transact(compare, [_put(key, value)]).get("succeeded"))

    def keys_until(self, prefix: bytes, revision: int) -> Iterator[List[bytes]]:
        """The keys with a prefix that were made up to a revision, in parts of one transaction each."""
        start, more = prefix, {"max_create_revision": str(revision), "keys_only": True, "limit": str(MOST_REMOVED)}
        while True:
            items = items_of(self._ask("/v3/kv/range", lambda: _range(start, end_of(prefix), **more)))
            if not items:
                return
            yield [item.key for item in items]
            start = items[-1].key + b"\0"

    def created_after(self, prefix: bytes, revision: int, most: int) -> List[Item]:
        """The keys with a prefix that were made after a revision, in their order, at most so many."""
        more = {
            "min_create_revision": str(revision + 1), "sort_target": "CREATE", "sort_order": "ASCEND",
            "limit": str(most),
        }  # fmt: skip
        return items_of(self._ask("/v3/kv/range", lambda: _range(prefix, end_of(prefix), **more)))

    def count_after(self, prefix: bytes, revision: int, most: int) -> int:
        """How many keys with a prefix were made after a revision, at most so many."""
        more = {"min_create_revision": str(revision + 1), "keys_only": True, "limit": str(most)}
        return len(items_of(self._ask("/v3/kv/range", lambda: _range(prefix, end_of(prefix), **more))))

    def remove(self, keys: Sequence[bytes], until: int, absent: Sequence[bytes], guard: Guard) -> bool:
        """Takes out keys that were made up to a revision, if others are not there, and the guard's key has its value.
        All or nothing; whether it did."""
        compare = [_is(*guard), *(_created(key, until + 1, "LESS") for key in keys)]
        compare += [_created(key, ABSENT) for key in absent]
        removed = [{"request_delete_range": {"key": encode(key)}} for key in keys]
        return bool(self._transact(compare, removed).get("succeeded"))

    def remove_between(self, first: bytes, end: bytes, guard: Guard) -> bool:
        """Takes out all keys from the first one on that are before the end, if the guard's key has its value. Whether
        it did."""
        removed = {"request_delete_range": {"key": encode(first), "range_end": encode(end)}}
        return bool(self._transact([_is(*guard)], [removed]).get("succeeded"))

    def compact(self, revision: int) -> None:
        """Has the cluster forget what there was before a revision and is not there any more. All keys stay."""
        try:
            self._post("/v3/kv/compaction", {"revision": str(revision)})
        except (OSError, http.client.HTTPException, ValueError, Unavailable):
            self.close()  # it was compacted further already, or the next base will do it

    def connection(self) -> Tuple[http.client.HTTPConnection, Dict[str, str]]:
        """A connection of its own to the next member, and the headers of a request there. Raises `Unavailable`."""
        self.close()
        self._first = (self._first + 1) % len(self._members)
        try:
            headers = self._headers()
        except (OSError, http.client.HTTPException, ValueError) as error:
            self.close()
            raise Unavailable(f"no member of the cluster answers: {error}") from None
        return self._access.connect(self._members[self._first], 60.0), headers


def _fault_of(path: str, status: int, text: bytes) -> Exception:
    """What an answer with another status than 200 means."""
    try:
        answer = json.loads(text)
        code, about = answer.get("code"), str(answer.get("error") or answer.get("message"))
    except (ValueError, AttributeError):
        code, about = None, repr(text[:200])
    if path.startswith("/v3/auth/") and code is not None and status < 500:
        return Denied(f"the cluster does not let this user in: {about}")
    if code == UNAUTHENTICATED or "auth token" in about or "auth revision" in about:
        return _BadToken(f"status {status}: {about}")
    if code == PERMISSION_DENIED or "user name is empty" in about:
        return Denied(f"the cluster does not permit this: {about}")
    return ValueError(f"status {status}: {about}")
