"""In the place of etcd: one member that keeps its keys in memory, with the calls of the JSON gateway that nodes use.

It is written from etcd's documentation of its API, not from the code that it tests. What it holds can be kept aside and
put back, as a snapshot is restored, and an answer can be lost after its call was performed.
"""

from __future__ import annotations

import base64
import copy
import json
import ssl
import threading
from http.server import BaseHTTPRequestHandler, ThreadingHTTPServer
from typing import Any, Callable, Dict, List, NamedTuple, Tuple

CREATED = "create_revision"

# A request or an answer, as JSON has it.
Body = Dict[str, Any]


class Held(NamedTuple):
    """A key's value, and the revisions that made and changed it."""

    value: bytes
    created: int
    modified: int


def decoded(text: str) -> bytes:
    return base64.b64decode(text)


def encoded(data: bytes) -> str:
    return base64.b64encode(data).decode()


class Keys:
    """The keys, and all events since the beginning."""

    def __init__(self) -> None:
        self.revision = 1
        self.keys: Dict[bytes, Held] = {}
        self.events: List[Tuple[int, Dict[str, str]]] = []

    def put(self, key: bytes, value: bytes, revision: int) -> None:
        created = self.keys[key].created if key in self.keys else revision
        self.keys[key] = Held(value, created, revision)
        self.events.append((revision, self.found(key)))

    def found(self, key: bytes, keys_only: bool = False) -> Dict[str, str]:
        value, created, modified = self.keys[key]
        told = {"key": encoded(key), CREATED: str(created), "mod_revision": str(modified), "version": "1"}
        return told if keys_only else {**told, "value": encoded(value)}

    def in_range(self, asked: Body) -> List[bytes]:
        first, end = decoded(asked["key"]), decoded(asked.get("range_end", ""))
        return sorted(key for key in self.keys if (first <= key < end if end else key == first))

    def range(self, asked: Body) -> Body:
        keys = self.in_range(asked)
        least, most = int(asked.get("min_create_revision", 0)), int(asked.get("max_create_revision", 0))
        keys = [key for key in keys if self.keys[key].created >= least and (not most or self.keys[key].created <= most)]
        if asked.get("sort_target") == "CREATE":
            keys.sort(key=lambda key: self.keys[key].created, reverse=asked.get("sort_order") == "DESCEND")
        limit = int(asked.get("limit", 0)) or len(keys)
        return {"kvs": [self.found(key, asked.get("keys_only", False)) for key in keys[:limit]]}

    def delete(self, asked: Body) -> None:
        for key in self.in_range(asked):
            del self.keys[key]

    def holds(self, compare: Dict[str, str]) -> bool:
        held = self.keys.get(decoded(compare["key"]))
        if compare["target"] == "VALUE":
            return held is not None and held.value == decoded(compare["value"])
        created = 0 if held is None else held.created
        wanted = int(compare[CREATED])
        results = {"EQUAL": created == wanted, "LESS": created < wanted, "GREATER": created > wanted}
        return results[compare.get("result", "EQUAL")]

    def transact(self, asked: Body) -> Body:
        succeeded = all(map(self.holds, asked.get("compare", ())))
        operations = asked.get("success" if succeeded else "failure", ())
        revision = self.revision + 1
        responses: List[Body] = []
        for operation in operations:
            ((kind, words),) = operation.items()
            if kind == "request_range":
                responses.append({"response_range": self.range(words)})
                continue
            self.revision = revision
            if kind == "request_put":
                self.put(decoded(words["key"]), decoded(words["value"]), revision)
            else:
                self.delete(words)
            responses.append({})
        return {"succeeded": succeeded, "responses": responses}


class FakeEtcd:
    """One member. `lose` is called with each request, and its answer is lost if that is true."""

    def __init__(self, context: ssl.SSLContext | None = None, password: str | None = None, padding: int = 0) -> None:
        self.keys, self.cluster, self.incarnation = Keys(), 77, 0
        self.lock = threading.Condition()
        self.password, self.padding = password, padding
        self.tokens: List[str] = []
        self.asked: List[Tuple[str, Body]] = []
        self.lose: Callable[[str, Body], bool] = lambda path, body: False
        member = self

        class Handler(BaseHTTPRequestHandler):
            protocol_version = "HTTP/1.1"

            def do_POST(self) -> None:
                member.answer(self, json.loads(self.rfile.read(int(self.headers["Content-Length"]))))

            def log_message(self, *_: object) -> None:
                pass

        class Gateway(ThreadingHTTPServer):
            daemon_threads = True

            def handle_error(self, *_: object) -> None:
                pass  # clients may go at any time

        self.server = Gateway(("127.0.0.1", 0), Handler)
        self.address = "127.0.0.1:%d" % self.server.server_address[1]
        if context is not None:
            self.server.socket = context.wrap_socket(self.server.socket, server_side=True)
        threading.Thread(target=self.server.serve_forever, args=(0.02,), daemon=True).start()

    def close(self) -> None:
        self.restart()
        self.server.shutdown()
        self.server.server_close()

    def snapshot(self) -> Keys:
        with self.lock:
            return copy.deepcopy(self.keys)

    def restore(self, keys: Keys | None, cluster: int | None = None) -> None:
        """Holds what a snapshot has, or nothing."""
        with self.lock:
            self.keys = copy.deepcopy(keys) if keys is not None else Keys()
            self.cluster = cluster or self.cluster
        self.restart()

    def restart(self) -> None:
        """Ends all streams, as those of a process that was started anew."""
        with self.lock:
            self.incarnation += 1
            self.lock.notify_all()

    def header(self) -> Dict[str, str]:
        return {"cluster_id": str(self.cluster), "revision": str(self.keys.revision)}

    def answer(self, handler: BaseHTTPRequestHandler, body: Body) -> None:
        path = handler.path
        with self.lock:
            self.asked.append((path, body))
            if path == "/v3/auth/authenticate":
                self.authenticate(handler, body)
                return
            if self.password is not None and handler.headers.get("Authorization") not in self.tokens:
                self.send(handler, 401, {"error": "etcdserver: invalid auth token", "code": 16})
                return
        if path == "/v3/watch":
            self.watch(handler, body["create_request"])
            return
        with self.lock:
            told = {"/v3/kv/range": self.keys.range, "/v3/kv/txn": self.keys.transact}.get(path, self.write)(body)
            answer = {"header": self.header(), **told, "padding": " " * self.padding}
            self.lock.notify_all()
        if self.lose(path, body):
            handler.close_connection = True
        else:
            self.send(handler, 200, answer)

    def write(self, body: Body) -> Body:
        if "value" in body:
            self.keys.revision += 1
            self.keys.put(decoded(body["key"]), decoded(body["value"]), self.keys.revision)
        return {}

    def authenticate(self, handler: BaseHTTPRequestHandler, body: Body) -> None:
        if body != {"name": "app", "password": self.password}:
            self.send(handler, 400, {"error": "authentication failed, invalid user ID or password", "code": 3})
            return
        self.tokens.append(f"token{len(self.asked)}")
        self.send(handler, 200, {"token": self.tokens[-1]})

    def send(self, handler: BaseHTTPRequestHandler, status: int, answer: Body) -> None:
        text = json.dumps(answer).encode()
        handler.send_response(status)
        handler.send_header("Content-Length", str(len(text)))
        handler.end_headers()
        handler.wfile.write(text)

    def watch(self, handler: BaseHTTPRequestHandler, asked: Dict[str, str]) -> None:
        handler.close_connection = True
        handler.send_response(200)
        handler.end_headers()
        start, mine = int(asked["start_revision"]), self.incarnation
        first, end = decoded(asked["key"]), decoded(asked["range_end"])
        self.tell(handler, {"created": True})
        sent = 0
        while True:
            with self.lock:
                self.lock.wait_for(lambda: self.incarnation != mine or len(self.keys.events) > sent)
                if self.incarnation != mine:
                    return
                new, sent = self.keys.events[sent:], len(self.keys.events)
            events = [{"kv": kv} for at, kv in new if at >= start and first <= decoded(kv["key"]) < end]
            if events:
                self.tell(handler, {"events": events})

    def tell(self, handler: BaseHTTPRequestHandler, told: Body) -> None:
        try:
            handler.wfile.write(json.dumps({"result": told}).encode() + b"\n")
        except OSError:
            pass
