"""What a node tells of itself, beside what the trial did, and those who ask for it.

The text is read by the parser of the Prometheus client library for Python (Debian's python3-prometheus-client).
"""

from __future__ import annotations

import importlib
import json
import os
import re
import select
import signal
import socket
import subprocess
import sys
import tempfile
import threading
import time
import unittest
from typing import Any, Dict, List, Tuple, Union

from confstore_replicated import Client, follower as following, node as module
from confstore_replicated.metrics import Counts, Teller, Telling
from confstore_replicated.node import Node, metrics_of
from confstore_replicated.server import Server
from serve_metrics import STAY
from serve_socket import Fault

from . import TOP
from .test_node import IDS, LOG, NodeTest, until

DEBIAN = "/usr/lib/python3/dist-packages"
NOBODY = 65_534
HALF = b"GET /metrics HTTP/1.1\r\nHost: x"

# Those who keep asking, in a process of their own, with as many connections as they get.
HOSTILE = """
import socket, sys, time
path, request, held = sys.argv[1], sys.argv[2].encode(), []
print("begun", flush=True)
while True:
    connection = socket.socket(socket.AF_UNIX)
    connection.setblocking(False)
    try:
        connection.connect(path)
        connection.send(request)
    except OSError:
        connection.close()
        time.sleep(0.0005)
        continue
    held.append(connection)
    if len(held) > 1000:
        held.pop(0).close()
"""


def parse(text: str) -> List[Any]:
    """The families of metrics in a text, by an independent parser. Skips the test where that isn't installed."""
    if DEBIAN not in sys.path:
        sys.path.append(DEBIAN)
    try:
        parser = importlib.import_module("prometheus_client.parser")
    except ModuleNotFoundError:
        raise unittest.SkipTest("python3-prometheus-client is not installed") from None
    return list(parser.text_string_to_metric_families(text))


def figures_in(text: str) -> Dict[str, float]:
    """Each sample by its name and labels, as they are written, without what all names begin with."""
    found: Dict[str, float] = {}
    for family in parse(text):
        for sample in family.samples:
            labels = ",".join(f'{name}="{value}"' for name, value in sample.labels.items())
            name = sample.name.replace("confstore_node_", "", 1) + (f"{{{labels}}}" if labels else "")
            assert name not in found
            found[name] = sample.value
    return found


def told_by(where: str, request: bytes) -> Tuple[int, Dict[str, str], bytes]:
    """The status, the headers and the body that are answered to the bytes of a request."""
    address: Union[str, Tuple[str, int]] = where if "/" in where else ("127.0.0.1", int(where.split(":")[1]))
    deadline = time.monotonic() + 30
    with socket.socket(socket.AF_UNIX if "/" in where else socket.AF_INET) as connection:
        connection.settimeout(30)
        while True:
            try:
                connection.connect(address)
                break
            except BlockingIOError:  # as many wait as may
                if time.monotonic() > deadline:
                    raise
            time.sleep(0.02)
        connection.sendall(request)
        with connection.makefile("rb") as stream:
            answer = stream.read()
    head, _, body = answer.partition(b"\r\n\r\n")
    first, *lines = head.decode().split("\r\n")
    found = re.fullmatch(r"HTTP/1\.1 (\d{3}) [A-Za-z ]+", first)
    headers = {name.lower(): value for name, _, value in (line.partition(": ") for line in lines)}
    return int(found[1]) if found else 0, headers, body


class Figures(NodeTest):
    def told(self, name: str = "a", base_after: int = 1_000_000, names_kept: int = 100_000) -> Node:
        """A node that tells of itself, which isn't started yet."""
        node = Node(
            os.path.join(self.top, name), [self.etcd.address], "x", base_after=base_after, names_kept=names_kept
        )
        node.counts.is_told = True
        self.addCleanup(node.end)
        return node

    def entries(self, after: int) -> int:
        """How many entries etcd has behind one."""
        with self.etcd.lock:
            return sum(key.startswith(LOG) and made > after for key, (_, made, _) in self.etcd.keys.keys.items())

    def newest(self) -> int:
        with self.etcd.lock:
            return max(made for key, (_, made, _) in self.etcd.keys.keys.items() if key.startswith(LOG))

    def test_requests(self) -> None:
        node = self.told()
        node.follower.start()
        path = os.path.join(self.top, "socket")
        server = Server(path, self.top, node.answer, node.counts)
        threading.Thread(target=server.serve, daemon=True).start()
        self.addCleanup(server.end)
        requests: List[Tuple[Dict[str, Any], str]] = [
            ({"import": "a", "text": "n: 0"}, ""), ({"set": "a", "path": "/n", "value": "1"}, ""),
            ({"set": "b", "path": "/n", "value": "1"}, "NoConfig"), ({"get": "a", "path": "/none"}, "NoSuchPlace"),
            ({"get": "b", "path": ""}, "NoConfig"), ({"names": ""}, ""), ({"other": ""}, "BadCommand"),
        ]  # fmt: skip
        with socket.socket(socket.AF_UNIX) as client, socket.socket(socket.AF_UNIX) as idle:
            client.settimeout(30)
            client.connect(path)
            idle.connect(path)
            sent = received = 0
            for request, word in requests:
                line = json.dumps(request).encode() + b"\n"
                client.sendall(line)
                answer = b""
                while not answer.endswith(b"\n"):
                    answer += client.recv(65_536)
                self.assertEqual(b"refused" in answer, bool(word), answer)
                sent, received = sent + len(line), received + len(answer)
            counted: Dict[str, float] = {
                "requests_total": 7, "clients": 2, 'refusals_total{name="NoConfig"}': 2,
                'refusals_total{name="NoSuchPlace"}': 1, 'refusals_total{name="BadCommand"}': 1,
                'failures_total{name="Unavailable"}': 0, "received_bytes_total": sent, "sent_bytes_total": received,
                "request_wait_seconds_count": 7, 'request_wait_seconds_bucket{le="+Inf"}': 7, "sessions_total": 1,
                "entries_applied_total": 3, "healthy": 1, "position": self.newest(), "entries_behind": 0,
            }  # fmt: skip
            # What was sent is counted just after it was sent.
            until(lambda: figures_in(metrics_of(node))["sent_bytes_total"] == received)
            found = figures_in(metrics_of(node))
            self.maxDiff = None
            self.assertEqual({name: found.get(name) for name in counted}, counted)
        until(lambda: figures_in(metrics_of(node))["clients"] == 0)

    def test_the_form(self) -> None:
        node = self.told()
        node.follower.start()
        self.begin(node)
        text = metrics_of(node)
        families = parse(text)
        for family in families:
            name = family.name + ("_total" if family.type == "counter" else "")
            self.assertIn(f"# TYPE {name} {family.type}\n", text)
            self.assertIn(f"# HELP {name} {family.documentation}\n", text)
            self.assertRegex(name, r"\Aconfstore_node(_[a-z]+)+\Z")
        self.assertEqual(text.count("# TYPE "), len(families))

    def test_entries_behind(self) -> None:
        """A node that is held up tells how many entries etcd has that it has not performed."""
        for count in (10, 63, 100):
            with self.subTest(count=count):
                first = self.told(f"first{count}")
                first.follower.start()
                until(lambda: first.follower.store is not None)
                position = first.follower.place().number
                writer = self.told(f"writer{count}")
                writer.follower.start()
                writer.answer({"import": "a", "text": "n: 0"})
                until(lambda: first.follower.place().number > position)
                until(lambda: first.follower.place().number == self.newest())
                first.end()
                for number in range(count):
                    writer.answer({"set": "a", "path": "/n", "value": str(number)})
                late, some, all_of_them = self.told(f"first{count}"), threading.Event(), threading.Event()
                before = late.follower._perform

                def held(entries: Any) -> None:
                    some.wait(30)
                    before(entries[:4])
                    all_of_them.wait(30)
                    before(entries[4:])

                self.addCleanup(all_of_them.set)
                self.addCleanup(some.set)
                self.patched(late.follower, "_perform", held)
                late.follower.open()
                self.assertEqual(self.entries(late.follower.place().number), count)
                late.follower.start()
                until(lambda: figures_in(metrics_of(late)).get("entries_behind") == count)
                some.set()
                until(lambda: figures_in(metrics_of(late)).get("entries_behind") == count - 4)
                all_of_them.set()
                until(lambda: figures_in(metrics_of(late))["entries_behind"] == 0)
                self.assertEqual(figures_in(metrics_of(late))["position"], self.newest())
                self.assertEqual(figures_in(metrics_of(late))["entries_applied_total"], count)
                late.end()
                writer.end()

    def test_ids_that_expire(self) -> None:
        node = self.told(base_after=10, names_kept=20)
        node.follower.start()
        node.answer({"import": "a", "text": "n: 0", "id": "first"})
        made = 1
        for number in range(80):
            self.assertIn("ok", self.set(node, str(number), id=f"i{number}"))
            made += 1

        def there() -> int:
            with self.etcd.lock:
                return sum(key.startswith(IDS) for key in self.etcd.keys.keys)

        until(lambda: figures_in(metrics_of(node))["ids_expired_total"] == made - there() > 20)

    def test_an_etcd_that_is_gone(self) -> None:
        self.patched(module, "PATIENCE", 2.0)
        self.patched(following, "OLDEST_LOOK", 1.0)
        node = self.told()
        path = os.path.join(self.top, "socket")
        server = Server(path, self.top, node.answer, node.counts)
        threading.Thread(target=server.serve, daemon=True).start()
        self.addCleanup(server.end)
        node.follower.start()
        self.begin(node)
        self.assertEqual(node.follower.trouble(), "")
        node.follower._etcd.timeout = 1.0
        self.etcd.lose = lambda path, body: True
        client = Client(path)
        self.assertEqual(client.ask({"set": "a", "path": "/n", "value": "x"}), {"failed": "Unavailable"})
        client.close()
        until(lambda: figures_in(metrics_of(node))['faults_total{name="Unavailable"}'] >= 1, 60)
        found = figures_in(metrics_of(node))
        self.assertEqual((found['failures_total{name="Unavailable"}'], found["healthy"]), (1, 0))
        self.assertGreater(found["look_age_seconds"], 1)
        self.assertEqual(node.follower.trouble(), "the log was not looked at for 1 seconds")

    def test_another_history(self) -> None:
        node = self.told()
        node.follower.start()
        self.begin(node)
        self.etcd.restore(None)
        until(lambda: node.follower.trouble() == "etcd does not have the log that this store has performed")
        found = figures_in(metrics_of(node))
        self.assertEqual(found["healthy"], 0)
        self.assertGreaterEqual(found['faults_total{name="OtherHistory"}'], 1)

    def test_the_file(self) -> None:
        """Its length, and what stands behind the end of the first document."""
        node = self.told(base_after=8)
        path = os.path.join(self.top, "a", "store.yaml")
        node.follower.start()
        self.assertEqual(node.answer({"import": "a", "text": "n: 0"}), {"ok": "1"})
        for number in range(20):
            self.set(node, str(number))
            time.sleep(0.02)

            def agrees() -> bool:
                with open(path, "rb") as file:
                    content = file.read()
                found = figures_in(metrics_of(node))
                growth = len(content) - content.index(b"\n...\n") - 5
                return (found["store_bytes"], found.get("store_growth_bytes")) == (len(content), growth)

            until(agrees)
        node.end()
        found = figures_in(metrics_of(node))
        self.assertNotIn("store_growth_bytes", found)
        self.assertEqual(node.follower.trouble(), "no session holds the store")


class Waits(unittest.TestCase):
    def test_waits(self) -> None:
        counts = Counts()
        marks = [time.monotonic()]
        for seconds in (0.2, 0.0, 0.02):
            with counts.request():
                time.sleep(seconds)
            marks.append(time.monotonic())
        times = [after - before for before, after in zip(marks, marks[1:])]
        samples = dict(counts.waits())
        buckets = {
            float(name.split('"')[1]): count for name, count in samples.items() if name.startswith("_bucket")
        }  # fmt: skip
        self.assertEqual(list(buckets.values()), sorted(buckets.values()))
        self.assertEqual((buckets[0.1] <= 2, buckets[0.01] <= 1, samples["_count"]), (True, True, 3))
        for bound, count in buckets.items():
            self.assertGreaterEqual(count, sum(seconds <= bound for seconds in times), bound)
        self.assertTrue(0.22 <= samples["_sum"] <= sum(times))
        self.assertTrue(0.2 <= counts.longest() <= max(times))
        with counts.request():
            time.sleep(0.3)
            self.assertGreaterEqual(counts.longest(), 0.3)


class Asking(unittest.TestCase):
    """What is asked and answered is that of `clients/serve_metrics.py`, and tried by `checks/server.py`."""

    def setUp(self) -> None:
        holder = tempfile.TemporaryDirectory()
        self.addCleanup(holder.cleanup)
        os.chmod(holder.name, 0o755)
        self.where, self.folder = os.path.join(holder.name, "metrics"), os.path.join(holder.name, "store")
        os.mkdir(self.folder, 0o750)

    def teller(self, where: str = "", trouble: str = "", mode: "int | None" = None) -> Teller:
        folder = os.open(self.folder, os.O_RDONLY)
        self.addCleanup(os.close, folder)
        return Teller(where or self.where, mode, folder, Telling(lambda: "page\n", lambda: trouble))

    def told(self, request: bytes, where: str = "", trouble: str = "") -> Tuple[int, bytes]:
        teller = self.teller(where, trouble)
        try:
            status, _, body = told_by(where or self.where, request)
            return status, body
        finally:
            teller.end()

    def test_requests(self) -> None:
        self.assertEqual(self.told(b"GET /metrics HTTP/1.1\r\n\r\n"), (200, b"page\n"))
        self.assertEqual(self.told(b"GET /health HTTP/1.1\r\n\r\n"), (200, b"ok\n"))
        self.assertEqual(self.told(b"GET /health HTTP/1.1\r\n\r\n", trouble="it is so"), (503, b"it is so\n"))
        self.assertEqual(self.told(b"GET / HTTP/1.1\r\n\r\n")[0], 404)

    def test_a_port(self) -> None:
        with socket.socket() as probe:
            probe.bind(("127.0.0.1", 0))
            where = f"127.0.0.1:{probe.getsockname()[1]}"
            probe.listen()
            with self.assertRaisesRegex(Fault, "choose another port"):
                self.teller(where)
        self.assertEqual(self.told(b"GET /health HTTP/1.1\r\n\r\n", where), (200, b"ok\n"))

    def test_who_may_ask(self) -> None:
        """Those that may read the store, or whom a mode lets connect."""
        for mode, wanted in ((None, 0o660), (0o666, 0o666), (0o600, 0o600)):
            teller = self.teller(mode=mode)
            self.assertEqual(os.stat(self.where).st_mode & 0o777, wanted)
            teller.end()
        with self.assertRaisesRegex(Fault, "--metrics-mode"):
            self.teller("127.0.0.1:9", mode=0o666)

    def test_the_end(self) -> None:
        teller = self.teller()
        with socket.socket(socket.AF_UNIX) as held:
            held.connect(self.where)
            held.sendall(HALF)
            began = time.monotonic()
            teller.end()
            self.assertLess(time.monotonic() - began, STAY)
        self.assertFalse(os.path.exists(self.where))

    def test_half_requests(self) -> None:
        """They are cut off after a while, and another one is answered."""
        teller, held = self.teller(), []
        self.addCleanup(teller.end)
        for _ in range(8):
            connection = socket.socket(socket.AF_UNIX)
            self.addCleanup(connection.close)
            connection.settimeout(30)
            connection.connect(self.where)
            connection.sendall(HALF)
            held.append(connection)
        self.assertEqual(told_by(self.where, b"GET /health HTTP/1.1\r\n\r\n")[0], 200)
        for connection in held:
            try:
                self.assertEqual(connection.recv(1), b"")
            except ConnectionResetError:
                pass


class Process(NodeTest):
    """The program, whose node follows an etcd that is in this process."""

    def setUp(self) -> None:
        super().setUp()
        self.where, self.path = os.path.join(self.top, "metrics"), os.path.join(self.top, "socket")

    def start(self, where: str, *options: str) -> "subprocess.Popen[str]":
        paths = os.pathsep.join(os.path.join(TOP, name) for name in ("python", "replicated"))
        words = [sys.executable, "-m", "confstore_replicated.node", self.path, os.path.join(self.top, "p")]
        process = subprocess.Popen(
            [*words, self.etcd.address, "--metrics", where, *options], env={**os.environ, "PYTHONPATH": paths}, text=True,
            stdout=subprocess.PIPE, stderr=subprocess.PIPE,
        )  # fmt: skip
        self.addCleanup(process.communicate)
        self.addCleanup(process.kill)
        return process

    def is_healthy(self) -> bool:
        try:
            return told_by(self.where, b"GET /health HTTP/1.1\r\n\r\n")[0] == 200
        except (FileNotFoundError, ConnectionRefusedError):
            return False

    def test_the_program(self) -> None:
        process = self.start(self.where)
        until(self.is_healthy)
        until(lambda: os.path.exists(self.path))
        client = Client(self.path)
        self.assertEqual(client.ask({"import": "a", "text": "n: 0"}), {"ok": "1"})
        found = figures_in(told_by(self.where, b"GET /metrics HTTP/1.1\r\n\r\n")[2].decode())
        self.assertEqual((found["requests_total"], found["clients"], found["entries_applied_total"]), (1, 1, 1))
        client.close()
        process.send_signal(signal.SIGTERM)
        self.assertEqual(process.wait(30), 0)
        self.assertEqual((os.path.exists(self.where), os.path.exists(self.path)), (False, False))

    def test_signals_until_the_end(self) -> None:
        """However late one more signal comes, it changes no status, and leaves no trace."""
        for number in (signal.SIGTERM, signal.SIGINT) * 2:
            process = self.start(self.where)
            until(self.is_healthy)
            until(lambda: os.path.exists(self.path))
            limit = time.monotonic() + 30
            while process.poll() is None and time.monotonic() < limit:
                process.send_signal(number)
                time.sleep(0.0005)
            assert process.stderr
            self.assertEqual((process.wait(30), process.stderr.read()), (0, ""))
            self.assertEqual((os.path.exists(self.where), os.path.exists(self.path)), (False, False))

    def test_addresses_that_are_none(self) -> None:
        for where in ("0.0.0.0:9000", "127.0.0.1:0", "127.0.0.1:65536", "name"):
            process = self.start(where)
            self.assertEqual(process.wait(30), 2)
            assert process.stderr
            self.assertIn("--metrics", process.stderr.read())

    def test_what_is_at_the_path(self) -> None:
        with open(self.where, "x", encoding="ascii"):
            pass
        process = self.start(self.where)
        self.assertEqual(process.wait(30), 1)
        assert process.stderr
        said = r"\Anode: no clients are taken at [^\n]*: what is there is no socket: remove it, [^\n]*\n\Z"
        self.assertRegex(process.stderr.read(), said)
        self.assertEqual((os.path.getsize(self.where), os.path.exists(self.path)), (0, False))

    @unittest.skipUnless(os.geteuid() == 0, "needs root")
    def test_another_user_who_asks_too_much(self) -> None:
        """Others are answered at once, and who asks so is kept out for a while."""
        os.chmod(self.top, 0o755)
        process = self.start(self.where, "--metrics-mode", "666")
        until(self.is_healthy)
        words = [sys.executable, "-c", HOSTILE, self.where, HALF.decode()]
        hostile = subprocess.Popen(words, stdout=subprocess.PIPE, user=NOBODY, group=NOBODY)
        self.addCleanup(hostile.wait)
        self.addCleanup(hostile.kill)
        assert hostile.stdout and process.stderr
        hostile.stdout.readline()
        hostile.stdout.close()
        self.assertTrue(select.select([process.stderr], [], [], 20)[0], "nobody is kept out")
        self.assertIn(f"user {NOBODY} asks for the metrics too often", process.stderr.readline())
        for _ in range(10):
            began = time.monotonic()
            self.assertEqual(told_by(self.where, b"GET /health HTTP/1.1\r\n\r\n")[0], 200)
            self.assertLess(time.monotonic() - began, 1)

    def test_those_who_ask_too_much(self) -> None:
        """Clients are answered in time beside a thousand who ask by halves, or never read."""
        process = self.start(self.where)
        until(self.is_healthy)
        until(lambda: os.path.exists(self.path))
        client = Client(self.path)
        client.ask({"import": "a", "text": "n: 0"})
        alone, _ = self.ask_all(client)
        for request in (HALF.decode(), "GET /metrics HTTP/1.1\r\n\r\n", "GET /" + "x" * 10_000):
            words = [sys.executable, "-c", HOSTILE, self.where, request]
            hostile = subprocess.Popen(words, stdout=subprocess.PIPE)
            self.addCleanup(hostile.wait)
            self.addCleanup(hostile.kill)
            assert hostile.stdout
            hostile.stdout.readline()
            hostile.stdout.close()
        time.sleep(1)
        took, longest = self.ask_all(client)
        self.assertLess(took, 4 * alone + 3)
        self.assertLess(longest, 1)
        self.assertLess(len(os.listdir(f"/proc/{process.pid}/fd")), 60)
        client.close()

    def ask_all(self, client: Client) -> Tuple[float, float]:
        """A thousand questions, each answered before the next: how long all took, and the longest."""
        longest = 0.0
        start = before = time.monotonic()
        for _ in range(1_000):
            self.assertEqual(client.ask({"get": "a", "path": "/n"}), {"value": "0"})
            now = time.monotonic()
            longest, before = max(longest, now - before), now
        return time.monotonic() - start, longest


if __name__ == "__main__":
    unittest.main()
