#!/usr/bin/env python3
"""Times `clients/serve.py` by how many clients it has: commands a second, and its processor time for each command.

One process holds all connections, so that only the server differs: each connection sends a `set`, awaits the answer,
and sends the next. As many client processes as connections take turns on the processors with the server, and what is
timed then is how the system schedules them. The store is in memory, where a sync takes no time. The processor time is
that of the server and of its session together.

Run it from the repository's root after the program is built; it takes half a minute:

    ./prove && python3 bench/connection_rates.py

The status is 0 if every command was answered.
"""

from __future__ import annotations

import functools
import os
import selectors
import socket
import sys
import tempfile
import time
from dataclasses import dataclass
from pathlib import Path

from lib.programs import MEMORY, need_program
from lib.runs import by_turns
from lib.serving import served
from lib.stores import command, store_in

CONNECTIONS = (1, 8, 16, 64, 256)
COMMANDS = 20_480
TURNS = 3
ENDING = b"...\n"


@dataclass
class Rate:
    """The seconds of a turn by the clock, and of processors for the server and its session."""

    clock: float
    processors: float


def processes_of(server: int) -> list[int]:
    """The server's process, and those that it has started."""
    children = Path(f"/proc/{server}/task/{server}/children").read_text(encoding="ascii")
    return [server, *map(int, children.split())]


def processor_seconds(server: int) -> float:
    ticks = 0
    for process in processes_of(server):
        fields = Path(f"/proc/{process}/stat").read_text(encoding="utf-8").rsplit(")", 1)[1].split()
        ticks += int(fields[11]) + int(fields[12])
    return ticks / os.sysconf("SC_CLK_TCK")


class Exchange:
    """Commands that are sent by many connections, each with one command under way."""

    def __init__(self, path: str, count: int) -> None:
        self.left = COMMANDS
        self.waiting = selectors.DefaultSelector()
        self.answers: dict[socket.socket, bytearray] = {}
        for _ in range(count):
            connection = socket.socket(socket.AF_UNIX)
            connection.connect(path)
            self.waiting.register(connection, selectors.EVENT_READ, connection)
            self.send(connection)

    def send(self, connection: socket.socket) -> None:
        """Sends the next command, or closes the connection if there is none."""
        if self.left:
            self.answers[connection] = bytearray()
            connection.sendall(command(self.left))
            self.left -= 1
        else:
            self.waiting.unregister(connection)
            del self.answers[connection]
            connection.close()

    def receive(self, connection: socket.socket) -> None:
        """Takes what the server sent, and goes on where that is an answer."""
        received = connection.recv(4096)
        answer = self.answers[connection]
        answer.extend(received)
        if not received or not b"---\nok: ".startswith(answer[:8]):
            sys.exit(f"a command was not accepted: {bytes(answer)!r}")
        if answer.endswith(ENDING):
            self.send(connection)

    def run(self) -> None:
        while self.answers:
            for key, _ in self.waiting.select():
                self.receive(key.data)
        self.waiting.close()


def rate_with(count: int) -> Rate:
    with tempfile.TemporaryDirectory(dir=MEMORY) as top:
        path = os.path.join(top, "socket")
        with served(path, store_in(top, "store")) as server:
            clock, processors = time.perf_counter(), processor_seconds(server)
            Exchange(path, count).run()
            return Rate(time.perf_counter() - clock, processor_seconds(server) - processors)


def main() -> None:
    need_program()
    ways = {str(count): functools.partial(rate_with, count) for count in CONNECTIONS}
    print("connections  commands a second  us of processors for a command")
    for name, rates in by_turns(ways, TURNS).items():
        best = min(rates, key=lambda rate: rate.clock)
        least = min(rate.processors for rate in rates)
        print(f"{name:>11}  {COMMANDS / best.clock:>17,.0f}  {least / COMMANDS * 1e6:>30.1f}")


if __name__ == "__main__":
    main()
