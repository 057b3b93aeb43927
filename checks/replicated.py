#!/usr/bin/env python3
"""Three members of etcd and three nodes of a replicated store, with faults all the time, and what they hold afterwards.

First everything is on 127.0.0.1. Four clients send 2,000 commands, half of them with conditions; meanwhile, one at a
time and at random moments, a node or a member is killed (SIGKILL), told to end (SIGTERM, SIGINT), or stopped for a
while (SIGSTOP), or its disk is full. Then these clients each add 1 to one number, again and again, while nodes and
members are killed: each reads it, sets it under the condition that it is what was read, and tries again. Then a node is
kept away until the log has lost entries that it needs. Then each machine gets a network namespace of its own, and each
in turn is cut off from the others while clients send 1,000 more commands. After each part it looks at these things:

- each command that was answered is in the log exactly once;
- the number is how often a client was told that its 1 was added;
- each answer is that of one session that performs the log by itself, and is given again to who asks again;
- all nodes export the same, byte for byte, and so does that session;
- a node that was too far behind, or comes last with an empty folder, starts from a base, and exports the same.

    checks/replicated.sh [COMMANDS]

It needs etcd on the PATH (Debian's package etcd-server), PyYAML and the built program, and takes some two minutes.
The namespaces, and a small file system that is filled, need root; without it a limit of file sizes is the full disk,
and the part with namespaces is left out. All that it starts is stopped at the end. The last line is 'N passed, M
failed'.
"""

from __future__ import annotations

import base64
import http.client
import json
import os
import random
import shutil
import signal
import subprocess
import sys
import tempfile
import threading
import time
from collections.abc import Callable, Sequence

from lib.command_line import number_given
from lib.replicated_cluster import (
    BASE_AFTER, MACHINES, Cluster, Ground, Loopback, Namespaces, Request, asked, end_after, limit_files, need_etcd,
)
from lib.replicated_log import BASE, LOG, Answers, Checks, Log, one_session, some_change
from lib.store_runs import PROGRAM

from confstore import Reader, Refused
from confstore_replicated.entries import RESERVED, number_in
from confstore_replicated.etcd import Etcd, Unavailable
from confstore_replicated.history import base_in

# How many commands the clients send, if no other number is given, how many clients there are, and how often each of
# them adds 1 to a number.
COMMANDS = 2000
CLIENTS = 4
ADDITIONS = 100

# Where syncs cost nothing, for the store of the one session.
MEMORY = "/dev/shm" if os.access("/dev/shm", os.W_OK) else None

# How many seconds there is trouble at most, and the whole run may take.
TROUBLE = 75
LONGEST = 400

# How often each kind of trouble was made.
Done = dict[str, int]


def run_client(cluster: Cluster, part: str, which: int, count: int, answers: Answers, pause: float) -> None:
    chance = random.Random(f"{part}{which}")
    for number in range(count):
        identity = f"{part}-{which}-{number}"
        command = {"id": identity, **some_change(chance, number)}
        answers[identity] = command, asked(cluster, which % MACHINES, command)
        time.sleep(pause)


def add_ones(cluster: Cluster, which: int, count: int, answers: Answers) -> None:
    """Adds 1 to a number so often, by a condition on what was read. Each try has an id of its own, under which it is
    sent again, to any node, until it is answered."""
    for number in range(count):
        tried = 0
        while True:
            read = {"get": "sum", "path": "/n", **({"fresh": "yes"} if tried % 2 else {})}
            found = asked(cluster, which % MACHINES, read).get("value", "none")
            identity = f"add-{which}-{number}-{tried}"
            command = {
                "id": identity, "if": [{"test": "sum", "path": "/n", "value": found}],
                "set": "sum", "path": "/n", "value": str(int(found) + 1 if found.isdecimal() else 0),
            }  # fmt: skip
            answers[identity] = command, asked(cluster, (which + tried) % MACHINES, command)
            if "ok" in answers[identity][1]:
                break
            tried += 1


class Witness:
    """Keeps the whole log, from which the nodes take entries out. It asks each member all the time, since any of them
    may be stopped or cut off for longer than entries stay."""

    def __init__(self, addresses: Sequence[str]) -> None:
        self.addresses = addresses
        self.entries: dict[int, tuple[str, bytes]] = {}  # by their numbers, each with its id
        self.ended = threading.Event()
        self.threads = [threading.Thread(target=self.ask, args=([address],), daemon=True) for address in addresses]

    def start(self) -> None:
        for thread in self.threads:
            thread.start()

    def ask(self, members: Sequence[str]) -> None:
        etcd, last = Etcd(members, 1), 0
        while not self.ended.wait(0.02):
            try:
                last = self.take(etcd, last)
            except Unavailable:
                pass

    def take(self, etcd: Etcd, last: int) -> int:
        entries = etcd.created_after(LOG, last, 500)
        for entry in entries:
            self.entries[entry.created] = entry.key[len(LOG) :].decode(), entry.value
        return entries[-1].created if entries else last

    def log(self) -> Log:
        """Ends it. All entries in their order, each with its number and its id."""
        self.ended.set()
        for thread in self.threads:
            thread.join()
        etcd, last, more = Etcd(self.addresses), 0, -1
        while more != last:
            last, more = self.take(etcd, last), last
        return [(number, *self.entries[number]) for number in sorted(self.entries)]


def make_trouble(cluster: Cluster, ended: threading.Event, done: Done) -> None:
    """Kills, stops and fills nodes and members, one at a time, at random moments, until the clients are done."""
    chance = random.Random(99)
    kinds: list[str] = []
    until = time.monotonic() + TROUBLE
    while time.monotonic() < until and not ended.wait(chance.uniform(0.1, 0.4)):
        if not kinds:
            kinds = ["kill"] * 6 + ["SIGTERM", "SIGINT"] * 2 + ["pause"] * 3 + ["full disk"] + ["full member"]
            chance.shuffle(kinds)
        kind = kinds.pop()
        done[kind] = done.get(kind, 0) + 1
        if kind == "full disk":
            cluster.fill_disk(2, ended)
        elif kind == "full member":
            limit_files(chance.choice(cluster.members), 1, ended)
        elif kind == "pause":
            chance.choice([*cluster.nodes, *cluster.members]).pause(chance.uniform(0.2, 2), ended)
        else:
            process = chance.choice([*cluster.nodes, *cluster.members])
            if kind == "kill":
                process.kill()
            else:
                status = process.end(getattr(signal, kind))
                if process in cluster.nodes and status != 0:
                    done[f"({kind} that a node ended with status {status})"] = 1
            ended.wait(chance.uniform(0.1, 1))
            process.start()


def kill_some(cluster: Cluster, ended: threading.Event, done: Done) -> None:
    """Kills nodes and members, one at a time, until the clients are done."""
    chance = random.Random(7)
    until = time.monotonic() + TROUBLE
    while time.monotonic() < until and not ended.wait(chance.uniform(0.1, 0.5)):
        process = chance.choice([*cluster.nodes, *cluster.nodes, *cluster.members])
        done["kill"] = done.get("kill", 0) + 1
        process.kill()
        ended.wait(chance.uniform(0.1, 0.5))
        process.start()


def cut_off_all(cluster: Cluster, ended: threading.Event, done: Done) -> None:
    """Cuts one machine after the other off from the others, twice, until the clients are done."""
    for machine in [*range(MACHINES)] * 2:
        if ended.wait(1.5):
            return
        done["cut off"] = done.get("cut off", 0) + 1
        cluster.ground.cut_off(machine, 4, ended)


def exports_of(ask: Callable[[Request], Request]) -> dict[str, str]:
    """All that a node, or a session, exports."""
    return {name: ask({"export": name})["text"] for name in ask({"names": ""})["names"]}


def keys_of_member(address: str) -> list[tuple[int, str]]:
    """The keys of the log that one member knows, with the revisions that made them."""
    host, port = address.rsplit(":", 1)
    connection = http.client.HTTPConnection(host, int(port), timeout=10)
    first, end = (base64.b64encode(key).decode() for key in (LOG, LOG[:-1] + b"0"))
    asked = {"key": first, "range_end": end, "serializable": True, "keys_only": True}
    connection.request("POST", "/v3/kv/range", json.dumps(asked))
    found = json.loads(connection.getresponse().read())
    connection.close()
    return sorted((int(item["create_revision"]), item["key"]) for item in found.get("kvs", ()))


def position_of(folder: str) -> int:
    """The number of the last entry that the store in a folder holds."""
    number, _ = number_in(Reader(folder, program=PROGRAM).get(RESERVED))
    return number


# Makes trouble in a cluster until an event comes, and counts it.
Trouble = Callable[[Cluster, threading.Event, Done], None]


class Run:
    """A cluster with a witness, and all that its clients were answered."""

    def __init__(self, folder: str, ground: Ground, checks: Checks) -> None:
        os.mkdir(folder)
        self.folder, self.checks = folder, checks
        self.cluster = Cluster(folder, ground)
        self.answers: Answers = {}
        self.witness = Witness(self.cluster.addresses)

    def start(self) -> None:
        self.cluster.start()
        self.witness.start()

    def send(self, part: str, count: int, trouble: Trouble | None = None, pause: float = 0.0) -> None:
        """Has the clients send so many commands in all, with pauses between them and some trouble meanwhile."""
        done: Done = {}
        ended, began = threading.Event(), time.monotonic()
        clients = [
            threading.Thread(
                target=run_client, args=(self.cluster, part, which, count // CLIENTS, self.answers, pause), daemon=True
            )
            for which in range(CLIENTS)
        ]
        troubles = [threading.Thread(target=trouble, args=(self.cluster, ended, done), daemon=True)] if trouble else []
        for thread in [*clients, *troubles]:
            thread.start()
        for thread in clients:
            thread.join()
        ended.set()
        for thread in troubles:
            thread.join()
        answered = [identity for identity in self.answers if identity.startswith(f"{part}-")]
        self.checks.is_so(len(answered) == count // CLIENTS * CLIENTS, f"{part}: {len(answered)} answers")
        wrong = [kind for kind in done if kind.startswith("(")]
        self.checks.is_so(not wrong, f"{part}: {wrong}")
        seconds = time.monotonic() - began
        what = ", ".join(f"{times} times {kind}" for kind, times in sorted(done.items())) or "no trouble"
        print(f"{part}: {len(answered)} commands in {seconds:.0f} s, with {what}", flush=True)

    def add_together(self, count: int, trouble: Trouble) -> None:
        """Has the clients add 1 to one number so often each, with some trouble meanwhile."""
        done: Done = {}
        ended, began = threading.Event(), time.monotonic()
        asked(self.cluster, 0, {"id": "add", "import": "sum", "text": "n: 0"})
        clients = [
            threading.Thread(target=add_ones, args=(self.cluster, which, count, self.answers), daemon=True)
            for which in range(CLIENTS)
        ]
        troubles = threading.Thread(target=trouble, args=(self.cluster, ended, done), daemon=True)
        for thread in [*clients, troubles]:
            thread.start()
        for thread in clients:
            thread.join()
        ended.set()
        troubles.join()
        added = [answer for identity, (_, answer) in self.answers.items() if identity.startswith("add-")]
        unmet = sum(answer == {"refused": "Unmet"} for answer in added)
        oks = sum("ok" in answer for answer in added)
        self.checks.is_so(oks == CLIENTS * count, f"{oks} of {CLIENTS * count} additions were made")
        self.checks.is_so(unmet > 0 and oks + unmet == len(added), f"{unmet} of {len(added)} tries met another's")
        for node in range(MACHINES):
            found = asked(self.cluster, node, {"get": "sum", "path": "/n", "fresh": "yes"}, elsewhere=False)
            self.checks.is_so(found == {"value": str(oks)}, f"node {node} has the sum {found}, and not {oks}")
        what = ", ".join(f"{times} times {kind}" for kind, times in sorted(done.items())) or "no trouble"
        seconds = time.monotonic() - began
        print(f"sum: {oks} additions and {unmet} tries that were unmet in {seconds:.0f} s, with {what}", flush=True)

    def ask_again(self, count: int) -> None:
        """The last commands are sent again, to each node: they are in the log once, and have their answers."""
        for identity, (command, answer) in list(self.answers.items())[-count:]:
            for number in range(MACHINES):
                again = asked(self.cluster, number, command, elsewhere=False)
                self.checks.is_so(again == answer, f"{identity} again at node {number}: {again}, before {answer}")
            taken = asked(self.cluster, 0, {"id": identity, "import": "another", "text": "x"})
            self.checks.is_so(taken == {"refused": "IdTaken"}, f"another command as {identity}: {taken}")

    def keep_behind(self) -> None:
        """Keeps a node away until the log has lost what it needs, and starts it again."""
        behind = self.cluster.nodes[2]
        asked(self.cluster, 2, {"fresh": "yes", "names": ""}, elsewhere=False)
        behind.kill()
        held = position_of(os.path.join(self.folder, "store2"))
        etcd = Etcd(self.cluster.addresses)
        for round_of in range(10):
            self.send(f"behind{round_of}", BASE_AFTER)
            floor = base_in(etcd.get(BASE)).floor
            if floor > held:
                break
        self.checks.is_so(floor > held, "the log has all that the node needs")
        behind.start()
        asked(self.cluster, 2, {"fresh": "yes", "names": ""}, elsewhere=False)
        with open(behind.log, encoding="utf-8") as log:
            self.checks.is_so("starts from the base" in log.read(), "the node behind starts from a base")

    def compare_members(self) -> None:
        """All members of etcd have the same keys, made at the same revisions."""
        found = []
        for address in self.cluster.addresses:
            member = Etcd([address])
            member.get(LOG)  # so that it has caught up with the others
            found.append(keys_of_member(address))
        self.checks.is_so(found[1:] == found[:-1], f"the members of etcd differ: {[len(items) for items in found]}")

    def compare(self) -> None:
        """Compares all answers and exports with those of one session over the log, a new node's too."""
        number = len(self.cluster.nodes)
        self.cluster.nodes.append(self.cluster.node(number))
        self.cluster.nodes[number].start()
        found = [
            exports_of(lambda request: asked(self.cluster, node, {"fresh": "yes", **request}, elsewhere=False))
            for node in range(number + 1)
        ]
        log = self.witness.log()
        with tempfile.TemporaryDirectory(dir=MEMORY) as alone:
            wanted, exports = one_session(alone, log)
        for node, exported in enumerate(found):
            self.checks.is_so(exported == exports, f"node {node} exports something else")
        numbers: dict[str, list[int]] = {}
        for number, identity, _ in log:
            numbers.setdefault(identity, []).append(number)
        for identity, (_, answer) in self.answers.items():
            mine = numbers.get(identity, [])
            self.checks.is_so(len(mine) == 1, f"{identity} has the numbers {mine}")
            self.checks.is_so(answer == wanted.get(identity), f"{identity}: {answer}, alone {wanted.get(identity)}")
        were_refused = sum("refused" in answer for _, answer in self.answers.values())
        print(f"{len(log)} entries, {were_refused} of them refused, {len(exports)} configurations", flush=True)

    def stop(self) -> None:
        self.witness.ended.set()
        self.cluster.stop()
        self.cluster.ground.remove()


def on_one_machine(run: Run, commands: int) -> None:
    run.start()
    run.send("faults", commands, make_trouble, pause=0.05)
    run.add_together(ADDITIONS, kill_some)
    run.compare_members()
    run.ask_again(40)
    run.keep_behind()
    run.compare()


def on_machines_apart(run: Run, commands: int) -> None:
    run.start()
    run.send("apart", commands // 2, cut_off_all, pause=0.1)
    run.compare()


def keep_logs(folder: str) -> None:
    kept = os.path.join(tempfile.gettempdir(), "replicated-logs")
    shutil.rmtree(kept, ignore_errors=True)
    for place, _, names in os.walk(folder):
        for name in names:
            if name.endswith((".log", ".yaml")):
                os.makedirs(kept, exist_ok=True)
                shutil.copy(os.path.join(place, name), os.path.join(kept, f"{os.path.basename(place)}-{name}"))
    print(f"the logs are in {kept}")


def namespaces() -> Namespaces | None:
    """Machines in namespaces, or none where they can't be made."""
    if os.geteuid() != 0 or shutil.which("ip") is None:
        return None
    try:
        return Namespaces()
    except subprocess.CalledProcessError as fault:
        print(f"no namespaces: {fault.stderr.decode().strip()}")
        return None


def main() -> int:
    need_etcd()
    end_after(LONGEST)
    commands = number_given(1, COMMANDS)
    checks = Checks()
    with tempfile.TemporaryDirectory() as folder:
        parts: Sequence[tuple[str, Callable[[], Ground | None], Callable[[Run, int], None]]] = (
            ("one", Loopback, on_one_machine), ("apart", namespaces, on_machines_apart),
        )  # fmt: skip
        for name, make_ground, part in parts:
            ground = make_ground()
            if ground is None:
                print("left out: machines that are cut off, since no network namespaces can be made here")
                continue
            run = Run(os.path.join(folder, name), ground, checks)
            try:
                part(run, commands)
            except (TimeoutError, Refused) as fault:
                checks.is_so(False, f"{name}: {fault}")
            finally:
                run.stop()
        if checks.failed:
            keep_logs(folder)
    return checks.report()


if __name__ == "__main__":
    sys.exit(main())
