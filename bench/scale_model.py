#!/usr/bin/env python3
"""A model of many stores on many machines, for what can't be run on one: docs/SPEED.md has its figures.

Stores lie on machines by their names' hash, some are busier than others (Zipf), and commands come at random. A
machine's disk makes one sync after the other. A session that holds commands waits for its turn, and then one sync takes
all that wait for it, up to a group. With `--copies 3` each store is on three machines, whose disks sync it alike: a
command first goes over the link to the leader of the log, which waits for the faster of the two others, and then comes
back and is performed here, which takes the sync of the store as before. The log's own disks are not modelled beyond one
sync for each command's way.

    bench/scale_model.py [--stores N] [--machines N] [--commands PER_SECOND] [--sync MS] [--link MS] [--copies 1|3]
                         [--skew EXPONENT] [--group N] [--seconds N] [--sample MACHINES] [--seed N]

It prints how long commands wait, on the machines that are sampled, and how busy their disks are. It takes seconds, and
the same words give the same figures.
"""

from __future__ import annotations

import argparse
import heapq
import random
import zlib
from collections import deque
from collections.abc import Collection, Mapping


def weights_of(stores: int, skew: float) -> list[float]:
    """How many of all commands each store gets, as a share."""
    raw = [1 / (rank + 1) ** skew for rank in range(stores)]
    whole = sum(raw)
    return [weight / whole for weight in raw]


def machines_of(store: int, machines: int, copies: int) -> list[int]:
    """The machines that hold a store, by its name's hash; its clients are at the first."""
    first = zlib.crc32(f"store-{store}".encode()) % machines
    return [(first + copy) % machines for copy in range(copies)]


def arrivals(
    chance: random.Random, shares: Mapping[int, float], rate: float, seconds: float
) -> list[tuple[float, int]]:
    """When commands come, each with its store, in the order of time."""
    times = []
    for store, share in shares.items():
        mean = share * rate
        at = chance.expovariate(mean) if mean else seconds
        while at < seconds:
            times.append((at, store))
            at += chance.expovariate(mean)
    return sorted(times)


def ready_commands(
    chance: random.Random, shares: Mapping[int, float], words: argparse.Namespace
) -> list[tuple[float, float, int]]:
    """When the commands of a machine can be performed, with when they came and their stores, as a heap."""
    link, sync = words.link / 1000, words.sync / 1000
    coming = []
    for at, store in arrivals(chance, shares, words.commands, words.seconds):
        way = 0.0
        if words.copies == 3:
            # To the leader and back, unless this machine is the leader; the leader waits for the faster follower.
            way = (0 if chance.randrange(3) == 0 else 2 * link) + 2 * link + sync
        coming.append((at + way, at, store))
    heapq.heapify(coming)
    return coming


def run_machine(
    chance: random.Random, shares: Mapping[int, float], own: Collection[int], words: argparse.Namespace
) -> tuple[list[float], float]:
    """The times that the commands of a machine's own clients wait, and how long its disk syncs, for all its stores."""
    coming, sync = ready_commands(chance, shares, words), words.sync / 1000
    waiting: dict[int, list[float]] = {}
    turns: deque[int] = deque()
    now, busy = 0.0, 0.0
    waits: list[float] = []
    while coming or turns:
        while coming and (coming[0][0] <= now or not turns):
            ready, at, store = heapq.heappop(coming)
            now = max(now, ready) if not turns else now
            if store not in waiting:
                waiting[store] = []
                turns.append(store)
            waiting[store].append(at)
        store = turns.popleft()
        now += sync
        busy += sync
        if store in own:
            waits += [now - at for at in waiting[store][: words.group]]
        rest = waiting.pop(store)[words.group :]
        if rest:
            waiting[store] = rest
            turns.append(store)
    return waits, busy


def words_given() -> argparse.Namespace:
    parser = argparse.ArgumentParser(description="A model of many stores on many machines.")
    parser.add_argument("--stores", type=int, default=10_000)
    parser.add_argument("--machines", type=int, default=100)
    parser.add_argument("--commands", type=float, default=20_000, help="commands a second, of all stores together")
    parser.add_argument("--sync", type=float, default=1.0, help="how long a sync of a disk takes, in ms")
    parser.add_argument("--link", type=float, default=50.0, help="one way between two machines, in ms")
    parser.add_argument("--copies", type=int, choices=(1, 3), default=1)
    parser.add_argument("--skew", type=float, default=0.8, help="how unlike stores are; 0: all alike")
    parser.add_argument("--group", type=int, default=100, help="the most commands of one sync")
    parser.add_argument("--seconds", type=float, default=10.0)
    parser.add_argument("--sample", type=int, default=10, help="how many machines are looked at")
    parser.add_argument("--seed", type=int, default=1)
    return parser.parse_args()


def main() -> None:
    words = words_given()
    shares: list[dict[int, float]] = [{} for _ in range(words.machines)]
    own: list[set[int]] = [set() for _ in range(words.machines)]
    for store, share in enumerate(weights_of(words.stores, words.skew)):
        holders = machines_of(store, words.machines, words.copies)
        own[holders[0]].add(store)
        for machine in holders:
            shares[machine][store] = share
    by_load = sorted(range(words.machines), key=lambda machine: -sum(shares[machine].values()))
    step = max(words.machines // words.sample, 1)
    print("machine    commands a second   disk busy   waits in ms: median, 99 of 100, longest")
    for machine in by_load[::step][: words.sample]:
        chance = random.Random(words.seed * 1_000_003 + machine)
        waits, busy = run_machine(chance, shares[machine], own[machine], words)
        waits.sort()
        if not waits:
            continue
        load = sum(shares[machine].values()) * words.commands
        middle, most, last = (1000 * waits[int(place * (len(waits) - 1))] for place in (0.5, 0.99, 1))
        print(f"{machine:7} {load:20.0f} {100 * busy / words.seconds:10.0f}% {middle:25.1f} {most:10.1f} {last:8.1f}")


if __name__ == "__main__":
    main()
