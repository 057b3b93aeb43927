#!/usr/bin/env python3
"""Times a replicated store: commands a second from 1, 4 and 16 clients, beside etcd alone with the same bytes.

Three members of etcd and three nodes are on 127.0.0.1, so all share this machine's processors and its disk. Each
client is a process that awaits each answer; the clients are spread over the nodes. A command sets one value. Beside it
the same entries are put into etcd alone, by the same calls; and the same commands go to one store on this machine
through `clients/serve.py`, which replicates nothing. The ways take turns, and the best of several runs is printed, with
the times that its clients waited.

    ./prove && python3 bench/replicated_rates.py [COMMANDS]

It needs etcd (Debian's package etcd-server), PyYAML and the built program, and takes a minute or two.
"""

from __future__ import annotations

import multiprocessing
import os
import sys
import tempfile
import time
from collections.abc import Callable, Mapping
from contextlib import ExitStack
from typing import Any

from lib.programs import PROGRAM  # which also finds the modules of checks/lib, and one of these the packages
from lib.command_line import number_given
from lib.replicated_cluster import MACHINES, Cluster, Loopback, asked, need_etcd
from lib.runs import by_turns
from lib.serving import served

from confstore import Store
from confstore_replicated import Client
from confstore_replicated.entries import change_of, command_of, digest_of, entry_of
from confstore_replicated.etcd import Etcd

# How many commands all clients of a run send, if no other number is given.
COMMANDS = 960
CLIENTS = (1, 4, 16)
RUNS = 3

# Makes the command of a number, and awaits its answer.
Call = Callable[[int], object]
# Makes such a call for the client of a number, in a cluster or at a socket.
Way = Callable[[Any, int], Call]
# Commands a second, and how long each client waited.
Run = tuple[float, "list[float]"]


def some_command(number: int) -> dict[str, str]:
    return {"set": "app", "path": "/n", "value": f"v{number:09}"}


def through_node(cluster: Cluster, which: int) -> Call:
    client = Client(cluster.socket_of(which % MACHINES))

    def call(number: int) -> None:
        answer = client.ask(some_command(number))
        if "ok" not in answer:
            raise ValueError(answer)

    return call


def etcd_alone(cluster: Cluster, which: int) -> Call:
    shift = which % MACHINES
    etcd = Etcd(cluster.addresses[shift:] + cluster.addresses[:shift])
    mine = f"{os.getpid()}-{time.monotonic_ns()}-"

    def call(number: int) -> None:
        command, name = command_of(change_of(some_command(number))), f"{mine}{number}".encode()
        etcd.create(b"/alone/ids/" + name, digest_of(command), b"/alone/log/" + name, lambda: entry_of(command))

    return call


def one_store(path: str, _which: int) -> Call:
    store = Store.connect(path)
    return lambda number: store.set("app", "/n", f"v{number:09}")


def work(way: Way, place: Any, which: int, count: int, starts: Any, waits: Any) -> None:
    """What the process of a client does: it makes its commands once all are there, and tells how long each took."""
    call = way(place, which)
    call(0)
    starts.wait()
    took = []
    for number in range(count):
        began = time.perf_counter()
        call(number)
        took.append(time.perf_counter() - began)
    waits.put(took)


def timed(way: Way, place: Any, clients: int, commands: int) -> Run:
    """Commands a second of all clients together, and how long they waited, in order."""
    forked = multiprocessing.get_context("fork")
    starts, waits = forked.Barrier(clients + 1), forked.Queue()
    count = commands // clients
    processes = [
        forked.Process(target=work, args=(way, place, which, count, starts, waits)) for which in range(clients)
    ]
    for process in processes:
        process.start()
    starts.wait(60)
    began = time.perf_counter()
    took = sorted(wait for _ in processes for wait in waits.get(timeout=300))
    seconds = time.perf_counter() - began
    for process in processes:
        process.join()
    return len(took) / seconds, took


def made_store(folder: str) -> str:
    """A store by itself, with the configuration that is edited."""
    store = os.path.join(folder, "one")
    with Store(store, program=PROGRAM, make=True) as opened:
        opened["app"] = {"n": "0"}
    return store


def print_best(name: str, runs: list[Run]) -> None:
    rate, waits = max(runs, key=lambda run: run[0])
    middle, most = (1000 * waits[int(place * (len(waits) - 1))] for place in (0.5, 0.99))
    print(f"  {name}: {rate:7.0f} commands a second, waits {middle:.1f} ms, 99 of 100 up to {most:.1f} ms", flush=True)


def compare(ways: Mapping[str, tuple[Way, Any]], clients: int, commands: int) -> None:
    """Prints what each way takes with so many clients."""

    def timed_way(way: Way, place: Any) -> Callable[[], Run]:
        return lambda: timed(way, place, clients, commands)

    runs = by_turns({name: timed_way(*way) for name, way in ways.items()}, RUNS)
    print(f"{clients} client" + "s" * (clients > 1))
    for name, results in runs.items():
        print_best(name, results)


def main() -> int:
    need_etcd()
    commands = number_given(1, COMMANDS)
    print(f"load {os.getloadavg()[0]:.1f} on {os.cpu_count()} processors")
    with tempfile.TemporaryDirectory() as folder, ExitStack() as ends:
        cluster = Cluster(folder, Loopback())
        ends.callback(cluster.stop)
        cluster.start()
        path = os.path.join(folder, "one.socket")
        ends.enter_context(served(path, made_store(folder)))
        asked(cluster, 0, {"import": "app", "text": "n: 0"})
        for number in range(MACHINES):
            asked(cluster, number, {"fresh": "yes", "names": ""}, elsewhere=False)
        ways: dict[str, tuple[Way, Any]] = {
            "replicated": (through_node, cluster),
            "etcd alone": (etcd_alone, cluster),
            "one store": (one_store, path),
        }
        for clients in CLIENTS:
            compare(ways, clients, commands)
    return 0


if __name__ == "__main__":
    sys.exit(main())
