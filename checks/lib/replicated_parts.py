"""One member of etcd, whose keys can be looked at and put back, and nodes on it, in a folder of their own."""

from __future__ import annotations

import base64
import http.client
import json
import os
import shutil
import ssl
import sys
import tempfile
import time
from collections.abc import Callable
from typing import Any, TypeVar

from .replicated_cluster import Process, Request, etcd_words, free_port
from .store_runs import PROGRAM
from .waiting import accepts, until

from confstore import Reader
from confstore_replicated import Client

# Where a node has its keys in etcd.
PREFIX = "/confstore/default/"


def eventually(call: Callable[[], Any], wanted: object, seconds: float = 30) -> Any:
    """What a call gives at last: what is wanted, or what it gave after so many seconds."""
    deadline = time.monotonic() + seconds
    while True:
        try:
            found = call()
        except OSError as error:
            found = type(error).__name__
        if found == wanted or time.monotonic() > deadline:
            return found
        time.sleep(0.1)


class Member:
    """One member of etcd, whose folder can be kept aside and put back."""

    def __init__(self, top: str, *more: str, scheme: str = "http") -> None:
        self.folder, self.more, self.scheme = os.path.join(top, "etcd"), more, scheme
        self.address, self.peer = f"127.0.0.1:{free_port()}", f"http://127.0.0.1:{free_port()}"
        words = etcd_words("m0", self.folder, f"{scheme}://{self.address}", self.peer, f"m0={self.peer}") + [*more]
        self.process = Process(words, os.path.join(top, "etcd.log"))
        self.context: ssl.SSLContext | None = None
        self.token: str | None = None

    def start(self) -> None:
        self.process.start()
        found = eventually(lambda: self.call("/v3/maintenance/status", {}).get("version", "")[:1], "3", 60)
        if found != "3" and self.token is None and self.scheme == "http":
            raise TimeoutError(f"etcd does not start: {found}")

    def stop(self) -> None:
        self.process.kill()

    def call(self, path: str, body: Request) -> Request:
        host, port = self.address.split(":")
        connection: http.client.HTTPConnection
        if self.context is None:
            connection = http.client.HTTPConnection(host, int(port), timeout=10)
        else:
            connection = http.client.HTTPSConnection(host, int(port), timeout=10, context=self.context)
        headers = {"Authorization": self.token} if self.token else {}
        try:
            connection.request("POST", path, json.dumps(body), headers)
            answer: Request = json.loads(connection.getresponse().read())
            return answer
        except (http.client.HTTPException, ValueError) as error:
            raise OSError(str(error)) from None
        finally:
            connection.close()

    def put(self, key: str, value: str = "x") -> Request:
        key, value = (base64.b64encode(text.encode()).decode() for text in (key, value))
        return self.call("/v3/kv/put", {"key": key, "value": value})

    def burn(self, count: int) -> int:
        """Another application makes so many revisions."""
        host, port = self.address.split(":")
        connection = http.client.HTTPConnection(host, int(port), timeout=10)
        body = json.dumps({"key": "b3RoZXI=", "value": "eA=="})
        for _ in range(count):
            connection.request("POST", "/v3/kv/put", body)
            revision = json.loads(connection.getresponse().read())["header"]["revision"]
        connection.close()
        return int(revision)

    def has(self, key: str) -> bool:
        return "kvs" in self.call("/v3/kv/range", {"key": base64.b64encode((PREFIX + key).encode()).decode()})

    def floor(self) -> int:
        found = self.call("/v3/kv/range", {"key": base64.b64encode((PREFIX + "base").encode()).decode()})
        return int(json.loads(base64.b64decode(found["kvs"][0]["value"]))["floor"]) if "kvs" in found else 0


class Node:
    """One node."""

    def __init__(self, top: str, name: str, member: Member, *more: str, program: str | None = None) -> None:
        self.folder, self.socket = os.path.join(top, f"store-{name}"), os.path.join(top, f"socket-{name}")
        self.log = os.path.join(top, f"{name}.log")
        words = [sys.executable, "-m", "confstore_replicated.node", self.socket, self.folder, member.address, *more]
        self.process = Process([*words, *(["--program", program] if program else [])], self.log)

    def start(self) -> None:
        self.process.start()
        if not until(lambda: accepts(self.socket), 60):
            raise TimeoutError(f"the node does not start: {self.said()}")

    def stop(self) -> None:
        if self.process.process is not None:
            self.process.kill()

    def said(self) -> str:
        with open(self.log, encoding="utf-8") as log:
            return log.read()

    def ask(self, request: Request, timeout: float = 60) -> Request:
        client = Client(self.socket, timeout)
        try:
            return client.ask(dict(request))
        finally:
            client.close()

    def set(self, value: object, **more: str) -> Request:
        return self.ask({"set": "web", "path": "/port", "value": str(value), **more})

    def get(self, fresh: str = "yes") -> Request:
        return self.ask({"get": "web", "path": "/port", "fresh": fresh})

    def holds(self) -> Request:
        reader = Reader(self.folder, program=PROGRAM)
        return {name: reader.get(name) for name in reader.names() if name != "replication"}


class Part:
    """A member and nodes in a folder, which are all ended when the part is left."""

    def __enter__(self) -> Part:
        self.top = tempfile.mkdtemp()
        self.things: list[Member | Node] = []
        return self

    def __exit__(self, *_: object) -> None:
        for thing in self.things:
            thing.stop()
        shutil.rmtree(self.top)

    def member(self, *more: str, **words: str) -> Member:
        member = Member(self.top, *more, **words)
        self.things.append(member)
        return member

    def node(self, name: str, member: Member, *more: str, **words: str) -> Node:
        node = Node(self.top, name, member, *more, **words)
        self.things.append(node)
        return node

    def program(self, text: str) -> str:
        """The path of a program in the place of confstore."""
        path = self.path(f"program{len(self.things)}")
        with open(path, "w", encoding="utf-8") as file:
            file.write(text.format(python=sys.executable, program=os.path.abspath(PROGRAM)))
        os.chmod(path, 0o755)
        return path

    def path(self, name: str) -> str:
        return os.path.join(self.top, name)


Thing = TypeVar("Thing", Member, Node)


def started(thing: Thing) -> Thing:
    """A member or a node that is started."""
    thing.start()
    return thing
