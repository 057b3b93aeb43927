#!/usr/bin/env python3
"""Faults around a replicated store that are no kills: what may never lead to an `ok` for a command that nobody
performs, to two answers, or to nodes that hold different things.

Each part has one member of etcd and nodes of its own:

- etcd is restored from a snapshot that is older than the stores, while the nodes run and while they are stopped, by a
  copy of its folder and by etcdctl, which gives it another cluster id; its revisions pass the stores' positions then;
- etcd is restored again and again while clients send commands: what is answered once it is back is in the log;
- etcd is made anew, and gets the same commands with the same ids;
- ids expire while another application writes in the same etcd, and a node is away;
- `store.yaml` is too long (`JournalLong`) at one node alone, at any batch;
- a node is started over a store that has commands and no position;
- etcd wants TLS, certificates of clients, and a user with a password, and forgets its tokens;
- a node is told to end by signals, also while etcd is stopped;
- clients connect and say nothing, or half a line, and the node has to answer others;
- what a node tells of itself, beside what etcd has, while it is behind and while etcd is gone.

    checks/replicated.sh, or checks/replicated_faults.py [WORD ..], which has the parts with these words in their names

It needs etcd on the PATH (Debian's etcd-server), PyYAML and the built program; etcdctl (etcd-client) and openssl for
some parts, which are left out without them. The last line is 'N passed, M failed'.
"""

from __future__ import annotations

import base64
import os
import random
import resource
import shutil
import signal
import socket
import ssl
import subprocess
import sys
import tempfile
import threading
import time
from collections.abc import Callable, Iterable, Iterator, Sequence
from concurrent.futures import ThreadPoolExecutor
from contextlib import contextmanager

from lib.replicated_cluster import Request, end_after, need_etcd
from lib.replicated_log import LOG, Answers, Checks, one_session, some_command
from lib.replicated_parts import PREFIX, Member, Node, Part, eventually, started
from lib.stand_ins import SLOW, TOO_LONG
from lib.store_runs import PROGRAM
from lib.waiting import until

from confstore import Store
from confstore_replicated.etcd import Etcd

LONGEST = 900
RESTORES = 6
CHECKS = Checks()

# Answers to a client that have no place in a history that a node's store has not performed.
REFUSES = {"failed": "OtherHistory"}


def is_so(found: object, wanted: object, about: str) -> None:
    CHECKS.is_so(found == wanted, f"{about}: {found}, and not {wanted}")


def import_web(node: Node, about: str) -> None:
    """The first command makes the configuration that is changed then."""
    is_so(node.ask({"import": "web", "text": "port: 0"}), {"ok": "1"}, about)


def refuses_all(node: Node, about: str) -> None:
    """A node whose log etcd does not have answers nothing, whatever is asked, and performs nothing."""
    before = node.holds()
    is_so(eventually(lambda: node.get("no"), REFUSES), REFUSES, f"{about}: a question")
    for request in (
        {"names": "", "fresh": "yes"}, {"export": "web"}, {"import": "new", "text": "x"},
        {"set": "web", "path": "/port", "value": "lost"}, {"set": "web", "path": "/port", "value": "11", "id": "i11"},
    ):  # fmt: skip
        is_so(node.ask(request), REFUSES, f"{about}: {request}")
    is_so(node.holds(), before, f"{about}: the store")
    CHECKS.is_so("--bump-revision" in node.said() and node.folder in node.said(), f"{about}: no remedy in its log")


def change(node: Node, numbers: Iterable[int]) -> None:
    for number in numbers:
        answer = node.set(number, id=f"i{number}")
        CHECKS.is_so("ok" in answer, f"change {number}: {answer}")


# Keeps what a member has aside, and gives how it is put back.
Snapshot = Callable[[Part, Member], Callable[[], None]]


def copy_of_folder(part: Part, member: Member) -> Callable[[], None]:
    """Keeps etcd's folder aside, and returns how it is put back."""
    member.stop()
    shutil.copytree(member.folder, part.path("snapshot"))
    member.start()

    def restore() -> None:
        member.stop()
        shutil.rmtree(member.folder)
        shutil.copytree(part.path("snapshot"), member.folder)

    return restore


def snapshot_of_etcdctl(part: Part, member: Member) -> Callable[[], None]:
    """Has etcdctl save a snapshot, and returns how it is restored: as another cluster."""
    environment = {**os.environ, "ETCDCTL_API": "3"}
    saved = os.path.join(tempfile.mkdtemp(dir=part.top), "saved")
    words = ["etcdctl", "--endpoints", member.address, "snapshot", "save", saved]
    subprocess.run(words, env=environment, check=True, capture_output=True)

    def restore() -> None:
        member.stop()
        shutil.rmtree(member.folder)
        words = [
            "etcdctl", "snapshot", "restore", saved, "--name", "m0", "--data-dir", member.folder,
            "--initial-cluster", f"m0={member.peer}", "--initial-advertise-peer-urls", member.peer,
            "--initial-cluster-token", "restored",
        ]  # fmt: skip
        subprocess.run(words, env=environment, check=True, capture_output=True)

    return restore


def older_snapshot(name: str, keep_snapshot: Snapshot, while_stopped: bool) -> None:
    """Stores are ahead of a restored etcd: they are refused. A store that isn't ahead goes on."""
    about = f"{name}, nodes {'stopped' if while_stopped else 'running'}"
    with Part() as part:
        member = started(part.member())
        ahead, also, behind = (part.node(name, member) for name in ("ahead", "also", "behind"))
        for node in (ahead, also, behind):
            node.start()
        import_web(ahead, about)
        change(ahead, range(1, 11))
        is_so(behind.get(), {"value": "10"}, about)
        behind.stop()
        restore = keep_snapshot(part, member)
        eventually(lambda: ahead.get(), {"value": "10"})
        change(ahead, range(11, 21))
        is_so(also.get(), {"value": "20"}, about)
        if while_stopped:
            ahead.stop()
            also.stop()
        restore()
        member.start()
        behind.start()
        if while_stopped:
            ahead.start()
            also.start()
        for node in (ahead, also):
            refuses_all(node, f"{about}, restored")
        is_so(eventually(lambda: behind.get(), {"value": "10"}), {"value": "10"}, f"{about}: a store that isn't ahead")
        for number in range(11, 21):  # the same ids and commands, at the revisions that they had before
            behind.set(number, id=f"i{number}")
        member.burn(30)
        for node in (ahead, also):
            refuses_all(node, f"{about}, and etcd is past the position")
        ahead.stop()
        ahead.start()
        refuses_all(ahead, f"{about}, and the node was started again")
        serve_anew(part, member, behind, also, about)


def serve_anew(part: Part, member: Member, serving: Node, refusing: Node, about: str) -> None:
    """A new node, and one that refused and gets an empty folder, hold what the one holds that serves."""
    new = started(part.node("new", member))
    is_so(new.set("new"), serving.set("new", id="x") and {"ok": "22"}, f"{about}: a new node")
    is_so(new.get(), serving.get(), f"{about}: the nodes that serve")
    refusing.stop()
    shutil.rmtree(refusing.folder)
    refusing.start()
    is_so(refusing.get(), serving.get(), f"{about}: with an empty folder")


class Times:
    """Clients send commands all the time. A command is kept if it was begun after a restore and answered before the
    next snapshot: then it has to be in the log at the end."""

    def __init__(self, nodes: Sequence[Node]) -> None:
        self.nodes = nodes
        self.window: int | None = 0  # counted for each restore; None from a snapshot to the end of its restore
        self.answers: Answers = {}
        self.ended = threading.Event()
        self.threads = [threading.Thread(target=self.send, args=(which,)) for which in range(4)]
        for thread in self.threads:
            thread.start()

    def send(self, which: int) -> None:
        chance, number = random.Random(which), 0
        while not self.ended.wait(0.005):
            number += 1
            name = f"{which}-{number}"
            command, before = {"id": name, **some_command(chance, number)}, self.window
            try:
                answer = self.nodes[which % len(self.nodes)].ask(command, 20)
            except OSError:
                continue
            if "failed" not in answer and before is not None and self.window == before:
                self.answers[name] = command, answer

    def end(self) -> None:
        self.ended.set()
        for thread in self.threads:
            thread.join()


def restored_again_and_again(base_after: int) -> None:
    """Each command that is kept has the answer that one session gives to the last log, and nodes hold what it does.
    Where bases are written the log is not whole at the end: then each has its answer when it is sent again."""
    chance = random.Random(base_after)
    with Part() as part:
        member = started(part.member())
        nodes = [part.node(name, member, "--base-after", str(base_after)) for name in ("a", "b")]
        for node in nodes:
            node.start()
        times = Times(nodes)
        try:
            for count in range(1, RESTORES + 1):
                time.sleep(chance.uniform(0.5, 2))
                times.window = None
                restore = snapshot_of_etcdctl(part, member)
                time.sleep(chance.uniform(0, 1))
                restore()
                member.start()
                times.window = count
                for node in nodes:  # the operator empties the folders of those that refuse
                    if eventually(lambda: "names" in node.ask({"names": "", "fresh": "yes"}), True, 4) is not True:
                        node.stop()
                        shutil.rmtree(node.folder)
                        node.start()
            time.sleep(2)
        finally:
            times.end()
        for node in nodes:
            node.ask({"names": "", "fresh": "yes"})
        one, other = (node.holds() for node in nodes)
        is_so(one, other, "restored again and again: what the nodes hold")
        CHECKS.is_so(len(times.answers) > 100, f"restored again and again: {len(times.answers)} answers")
        if base_after < 1000:
            CHECKS.is_so(member.floor() > 0, "restored again and again: there is no base")
            send_again(nodes, times)
        else:
            compare_with_one_session(member, one, times)


def send_again(nodes: Sequence[Node], times: Times) -> None:
    for name, (command, answer) in times.answers.items():
        again = [node.ask(command) for node in nodes]
        CHECKS.is_so(set(map(str, again)) <= {str(answer), "{'failed': 'Forgotten'}"}, f"{name}: {answer}, now {again}")


def compare_with_one_session(member: Member, held: Request, times: Times) -> None:
    etcd = Etcd([member.address])
    items = etcd.created_after(LOG, 0, 100_000)
    log = [(item.created, item.key[len(LOG) :].decode(), item.value) for item in items]
    etcd.close()
    with tempfile.TemporaryDirectory() as alone:
        wanted, _ = one_session(alone, log)
        with Store(alone, program=PROGRAM) as store:
            is_so(held, {name: store[name] for name in store.names() if name != "replication"}, "restored: a session")
    for name, (_, answer) in times.answers.items():
        is_so(answer, wanted.get(name), f"restored again and again: {name}")


def made_anew(while_stopped: bool) -> None:
    about = f"made anew, nodes {'stopped' if while_stopped else 'running'}"
    with Part() as part:
        member = started(part.member())
        node = started(part.node("a", member))
        import_web(node, about)
        change(node, range(1, 13))
        if while_stopped:
            node.stop()
        member.stop()
        shutil.rmtree(member.folder)
        member.start()
        if while_stopped:
            node.start()
        refuses_all(node, about)
        new = started(part.node("new", member))
        import_web(new, f"{about}: a new node")
        change(new, range(1, 13))
        refuses_all(node, f"{about}, and the same commands at the same revisions")
        member.burn(10)
        refuses_all(node, f"{about}, and etcd is past the position")


@contextmanager
def others_writing(member: Member) -> Iterator[None]:
    """Another application writes in the same etcd, by two threads, until the block ends."""
    ended = threading.Event()

    def write() -> None:
        while not ended.is_set():
            member.burn(100)

    with ThreadPoolExecutor() as pool:
        writers = [pool.submit(write) for _ in range(2)]
        try:
            yield
        finally:
            ended.set()
    for writer in writers:
        writer.result()


def expiring_ids() -> None:
    """Ids are known for so many further entries, whatever others write in etcd, and never go before their entries."""
    with Part() as part:
        member = started(part.member())
        node = started(part.node("a", member, "--base-after", "10", "--ids-kept", "200"))
        away = started(part.node("b", member, "--base-after", "1000000", "--ids-kept", "200"))
        import_web(node, "ids")
        change(node, range(1, 26))
        is_so(away.get(), {"value": "25"}, "ids")
        away.stop()
        first = {"import": "mail", "text": "first", "id": "job"}
        is_so(node.ask(first), {"ok": "27"}, "ids: the command")
        second = {"import": "mail", "text": "second", "id": "job"}
        with others_writing(member):
            for number in range(100, 400):
                node.set(number)
                if number % 10 == 0 and number < 290:
                    is_so(node.ask(second), {"refused": "IdTaken"}, f"ids: after {number - 99} entries")
                    is_so(node.ask(first), {"ok": "27"}, f"ids: again after {number - 99} entries")
                CHECKS.is_so(member.has("ids/job") or not member.has("log/job"), "an id is gone before its entry")
        CHECKS.is_so(not member.has("ids/job"), "the id is still in etcd")
        answer = node.ask(second)
        CHECKS.is_so("ok" in answer, f"ids: a new command under an id that expired: {answer}")
        away.start()
        is_so(away.get(), node.get(), "ids: the node that was away")
        is_so(away.holds(), node.holds(), "ids: what they hold")
        is_so(away.ask(second) in (answer, {"failed": "Forgotten"}), True, "ids: the answer at the other node")


def too_long_at_one() -> None:
    """`JournalLong` at one node, at any batch, is the answer of no entry."""
    with Part() as part:
        program = part.program(TOO_LONG)
        member = started(part.member())
        one, other = part.node("a", member, program=program), part.node("b", member)
        one.start()
        other.start()
        import_web(one, "too long")
        for number in range(2, 42):
            through = one if number % 2 else other
            name = "web" if number % 5 else "none"
            command = {"set": name, "path": "/port", "value": str(number), "id": f"i{number}"}
            wanted = {"ok": str(number)} if number % 5 else {"refused": "NoConfig"}
            is_so(through.ask(command), wanted, f"too long: command {number}")
            is_so([one.ask(command), other.ask(command)], [wanted] * 2, f"too long: command {number} again")
        is_so(one.get(), other.get(), "too long: the nodes")
        is_so(one.holds(), other.holds(), "too long: the stores")


def commands_and_no_position() -> None:
    with Part() as part:
        member = started(part.member())
        for name, is_emptied in (("full", False), ("emptied", True)):
            node = part.node(name, member)
            with Store(node.folder, program=PROGRAM, make=True) as store:
                store.put("old", "x")
                if is_emptied:
                    store.delete("old")
            node.process.start()
            status: int | str
            try:
                status = node.process.running().wait(30)
            except subprocess.TimeoutExpired:
                status = "none"
            is_so(status, 1, f"{name}: the status")
            CHECKS.is_so(node.folder in node.said() and "import" in node.said(), f"{name}: {node.said()!r}")
            CHECKS.is_so(not os.path.exists(node.socket), f"{name}: a socket is left")


def signals() -> None:
    """A node that is told to end does, with status 0, and leaves neither a socket nor a session."""
    with Part() as part:
        member = started(part.member())
        node = part.node("a", member)
        for count, number in enumerate((signal.SIGTERM, signal.SIGINT) * 2, start=1):
            node.start()
            name = signal.Signals(number).name
            is_so(node.ask({"import": "web", "text": str(count)}), {"ok": str(count)}, name)
            if count > 2:
                member.process.running().send_signal(signal.SIGSTOP)
            sessions, node.process.began = node.process.children(), 0.0
            is_so(node.process.end(number), 0, f"{name}: the status")
            member.process.running().send_signal(signal.SIGCONT)
            CHECKS.is_so(not os.path.exists(node.socket), f"{name}: a socket is left")
            gone = eventually(lambda: [os.path.exists(f"/proc/{session}") for session in sessions], [False])
            is_so(gone, [False], f"{name}: the session")


def make_certificates(part: Part) -> None:
    def run(*words: str) -> None:
        subprocess.run(["openssl", *words], check=True, capture_output=True, cwd=part.top)

    run("req", "-x509", "-newkey", "rsa:2048", "-nodes", "-subj", "/CN=authority", "-days", "2", "-keyout", "ca.key",
        "-out", "ca.crt")  # fmt: skip
    with open(part.path("names"), "w", encoding="ascii") as file:
        file.write("subjectAltName=IP:127.0.0.1\nextendedKeyUsage=serverAuth,clientAuth\n")
    # With users on, etcd's gateway takes no client whose certificate has a common name.
    for name, subject in (("member", "/CN=member"), ("client", "/O=nodes")):
        run("req", "-newkey", "rsa:2048", "-nodes", "-subj", subject, "-keyout", f"{name}.key", "-out", "csr")
        run("x509", "-req", "-in", "csr", "-CA", "ca.crt", "-CAkey", "ca.key", "-CAcreateserial", "-days", "2",
            "-extfile", "names", "-out", f"{name}.crt")  # fmt: skip


def turn_auth_on(member: Member) -> None:
    """Has etcd let nobody in but root, and a user who may read and write what is under the prefix alone."""
    key, end = (base64.b64encode(text.encode()).decode() for text in (PREFIX, PREFIX[:-1] + "0"))
    calls: list[tuple[str, Request]] = [
        ("user/add", {"name": "root", "password": "root's"}), ("role/add", {"name": "root"}),
        ("user/grant", {"user": "root", "role": "root"}),
        ("user/add", {"name": "app", "password": "app's"}), ("role/add", {"name": "app"}),
        ("role/grant", {"name": "app", "perm": {"permType": "READWRITE", "key": key, "range_end": end}}),
        ("user/grant", {"user": "app", "role": "app"}), ("enable", {}),
    ]  # fmt: skip
    for path, body in calls:
        answer = member.call(f"/v3/auth/{path}", body)
        CHECKS.is_so("error" not in answer, f"auth: {path}: {answer}")
    member.token = member.call("/v3/auth/authenticate", {"name": "root", "password": "root's"})["token"]


def tls_and_users() -> None:
    with Part() as part:
        make_certificates(part)
        files = {name: part.path(name) for name in os.listdir(part.top)}
        member = part.member(
            "--cert-file", files["member.crt"], "--key-file", files["member.key"], "--trusted-ca-file",
            files["ca.crt"], "--client-cert-auth", scheme="https",
        )  # fmt: skip
        member.context = ssl.create_default_context(cafile=files["ca.crt"])
        member.context.load_cert_chain(files["client.crt"], files["client.key"])
        member.start()
        turn_auth_on(member)
        with open(part.path("password"), "w", encoding="utf-8") as file:
            file.write("app's\n")
        tls = ["--ca", files["ca.crt"], "--cert", files["client.crt"], "--key", files["client.key"]]
        user = ["--user", "app", "--password-file", part.path("password")]
        one, other = part.node("a", member, *tls, *user, "--base-after", "10"), part.node("b", member, *tls, *user)
        one.start()
        other.start()
        import_web(one, "TLS and a user")
        change(one, range(1, 31))
        is_so(eventually(lambda: other.get(), {"value": "30"}), {"value": "30"}, "TLS and a user: the other node")
        CHECKS.is_so(member.floor() > 0, "TLS and a user: there is no base")
        member.stop()
        member.process.start()  # which knows no token any more
        answer = eventually(lambda: one.set("again", id="again"), {"ok": "32"})
        is_so(answer, {"ok": "32"}, "TLS and a user: a new token")
        is_so(eventually(lambda: other.get(), {"value": "again"}), {"value": "again"}, "a new token at the other node")
        for name, words in (("no user", tls), ("no certificate", [*tls[:2], *user]), ("no TLS", user)):
            shut_out = started(part.node(name.replace(" ", "-"), member, *words))
            answer = eventually(lambda: shut_out.ask({"import": "no", "text": "x"}), {"failed": "Unavailable"}, 1)
            CHECKS.is_so(answer.get("failed") in ("Unavailable", "Denied"), f"{name}: {answer}")
            shut_out.stop()
        is_so(one.ask({"names": "", "fresh": "yes"}), {"names": ["web"]}, "who was shut out")
        command_line = open(f"/proc/{one.process.running().pid}/cmdline", encoding="utf-8").read()
        CHECKS.is_so("app's" not in command_line, "the password is on the command line")


def clients_that_say_nothing() -> None:
    soft, hard = resource.getrlimit(resource.RLIMIT_NOFILE)
    resource.setrlimit(resource.RLIMIT_NOFILE, (min(hard, 4096), hard))
    with Part() as part:
        member = started(part.member())
        node = started(part.node("a", member))
        import_web(node, "idle clients")
        held = []
        for _ in range(380):
            client = socket.socket(socket.AF_UNIX)
            client.connect(node.socket)
            held.append(client)
        began = time.monotonic()
        is_so(node.get(), {"value": "0"}, "400 idle clients: a question")
        CHECKS.is_so(time.monotonic() - began < 45, f"it took {time.monotonic() - began:.0f} s")
        threads = len(os.listdir(f"/proc/{node.process.running().pid}/task"))
        CHECKS.is_so(threads < 300, f"the node has {threads} threads")
        for client in held:
            client.close()
        before, held = memory_of(node), []
        for _ in range(40):
            client = socket.socket(socket.AF_UNIX)
            client.settimeout(5)
            try:
                client.connect(node.socket)
                client.sendall(b" " * 8_000_000)
            except OSError:
                pass
            held.append(client)
        is_so(node.set(1), {"ok": "2"}, "40 half lines: a change")
        grown = memory_of(node) - before
        CHECKS.is_so(grown < 250, f"40 half lines of 8 MB: the node has grown by {grown} MB")
        for client in held:
            client.close()
    resource.setrlimit(resource.RLIMIT_NOFILE, (soft, hard))


def memory_of(node: Node) -> int:
    """How many megabytes of memory a node has."""
    with open(f"/proc/{node.process.running().pid}/status", encoding="ascii") as status:
        return int(next(line for line in status if line.startswith("VmRSS")).split()[1]) // 1024


def told_at(path: str, page: str) -> bytes:
    """What is told over HTTP at a Unix socket."""
    with socket.socket(socket.AF_UNIX) as connection:
        connection.settimeout(10)
        connection.connect(path)
        connection.sendall(f"GET {page} HTTP/1.1\r\n\r\n".encode())
        with connection.makefile("rb") as stream:
            return stream.read()


def figures_at(path: str) -> dict[str, float]:
    body = told_at(path, "/metrics").partition(b"\r\n\r\n")[2].decode()
    lines = [line.split(" ") for line in body.splitlines()]
    return {words[0].removeprefix("confstore_node_"): float(words[1]) for words in lines if len(words) == 2}


def told_of_itself() -> None:
    """A slow node tells how many entries it has still to perform, and at which it is; and that etcd is gone."""
    with Part() as part:
        member, where = part.member(), part.path("metrics")
        member.start()
        one, late = part.node("a", member), part.node("b", member, "--metrics", where, program=part.program(SLOW))
        one.start()
        import_web(one, "told of itself")
        change(one, range(1, 300))
        late.start()
        seen: set[float] = set()
        while "entries_behind" not in (found := figures_at(where)) or found["entries_behind"] > 0:
            if "entries_behind" in found:
                seen.add(found["entries_behind"])
                is_so(found["entries_behind"] + found["entries_applied_total"], 300, "entries behind, and performed")
            time.sleep(0.05)
        CHECKS.is_so(len(seen) > 2, f"entries behind: only {seen}")
        etcd = Etcd([member.address])
        newest = etcd.created_after(LOG, 0, 100_000)[-1].created
        etcd.close()
        found = figures_at(where)
        is_so((found["position"], found["entries_applied_total"], found["healthy"]), (newest, 300, 1), "the position")
        member.stop()
        gone = b"HTTP/1.1 503 Service Unavailable"
        is_so(eventually(lambda: told_at(where, "/health").split(b"\r\n")[0], gone, 60), gone, "health without etcd")
        unavailable = 'faults_total{name="Unavailable"}'
        is_so(eventually(lambda: figures_at(where)[unavailable] > 0, True, 60), True, "etcd is unavailable")
        member.start()
        there = b"HTTP/1.1 200 OK"
        is_so(eventually(lambda: told_at(where, "/health").split(b"\r\n")[0], there, 60), there, "health with etcd")


def main() -> int:
    need_etcd()
    end_after(LONGEST)
    parts: dict[str, Callable[[], None]] = {
        "commands and no position": commands_and_no_position,
        "signals": signals,
        "made anew, nodes running": lambda: made_anew(False),
        "made anew, nodes stopped": lambda: made_anew(True),
        "older snapshot, nodes running": lambda: older_snapshot("copy of its folder", copy_of_folder, False),
        "older snapshot, nodes stopped": lambda: older_snapshot("copy of its folder", copy_of_folder, True),
        "too long at one node": too_long_at_one,
        "ids": expiring_ids,
        "clients that say nothing": clients_that_say_nothing,
        "told of itself": told_of_itself,
    }
    if shutil.which("etcdctl"):
        etcdctl = "older snapshot of etcdctl, nodes running"
        parts[etcdctl] = lambda: older_snapshot("snapshot of etcdctl", snapshot_of_etcdctl, False)
        parts["restored again and again"] = lambda: restored_again_and_again(1_000_000)
        parts["restored again and again, with bases"] = lambda: restored_again_and_again(20)
    if shutil.which("openssl"):
        parts["TLS and users"] = tls_and_users
    for name, part in parts.items():
        if not all(word in name for word in sys.argv[1:]):
            continue
        began, before = time.monotonic(), (CHECKS.passed, CHECKS.failed)
        try:
            part()
        except Exception as fault:  # whatever a node does, the other parts are looked at
            CHECKS.is_so(False, f"{name}: {type(fault).__name__}: {fault}")
        passed, failed = CHECKS.passed - before[0], CHECKS.failed - before[1]
        print(f"{name}: {passed} passed, {failed} failed in {time.monotonic() - began:.0f} s", flush=True)
    return CHECKS.report()


if __name__ == "__main__":
    sys.exit(main())
