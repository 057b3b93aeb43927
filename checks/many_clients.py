#!/usr/bin/env python3
"""Sixteen clients share one session on a store, through clients/serve.py, and the session is killed among them.

Each client has a configuration of its own, a list to which it appends numbers, and awaits each answer before it sends
the next command; now and then it asks for the list. Each answer has to be the one to the client's own command. The
session is killed at a random moment. Then every client is cut off, the server ends with the signal's number, and the
store is opened: the list of each client has all the numbers that were answered, in order, and at most the one more
that was sent. The last session isn't killed: the server is told to end, and all was answered.

Run it from the repository's root after the program is built; it takes some seconds:

    ./prove && python3 checks/many_clients.py

A seed may follow. The status is 0 if all is as it should be.
"""

from __future__ import annotations

import os
import random
import signal
import socket
import subprocess
import sys
import tempfile
import threading
import time

from lib.command_line import seed_given
from lib.store_runs import PROGRAM, TOP, Failures, need_program, session
from lib.waiting import accepts, until

CLIENTS = 16
KILLS = 10

# The longest time in seconds until a session is killed, how many commands a client sends to one that isn't, and how
# long anything here is waited for.
LONGEST = 0.5
COMMANDS = 200
PATIENCE = 30

# Every so many commands a client asks for its list.
LOOK = 16


class Client(threading.Thread):
    """A client that appends the numbers after `held` to its list, up to so many commands or until it is cut off."""

    def __init__(self, path: str, number: int, held: int, commands: int) -> None:
        super().__init__(daemon=True)
        self.connection = socket.socket(socket.AF_UNIX)
        self.connection.settimeout(PATIENCE)
        self.connection.connect(path)
        self.stream = self.connection.makefile("rb")
        self.name_of_list = f"list{number}"
        self.held = held
        self.sent = held
        self.commands = commands
        self.wrong: list[list[str]] = []

    def ask(self, command: str) -> list[str] | None:
        """The lines between the first and the last of the answer, or None if the client is cut off."""
        try:
            self.connection.sendall(command.encode())
            lines = []
            while (line := self.stream.readline()) and line != b"...\n":
                lines.append(line.decode())
            return lines[1:] if line else None
        except (BrokenPipeError, ConnectionResetError):
            return None

    def append(self) -> bool:
        """Whether the next number was appended and answered."""
        self.sent += 1
        lines = self.ask(f"set: {self.name_of_list}\npath: /-\nvalue: n{self.sent}\n...\n")
        if lines is None:
            return False
        self.held = self.sent
        if len(lines) != 1 or not lines[0].startswith('ok: "'):
            self.wrong.append(lines)
        return True

    def look(self) -> bool:
        """Whether the list was answered."""
        lines = self.ask(f"get: {self.name_of_list}\npath: \"\"\n...\n")
        if lines is None:
            return False
        if lines != ["value:\n"] + [f"  - n{number}\n" for number in range(1, self.held + 1)]:
            self.wrong.append(lines[-2:])
        return True

    def run(self) -> None:
        with self.connection, self.stream:
            for turn in range(1, self.commands + 1):
                if not self.append() or (turn % LOOK == 0 and not self.look()):
                    return


class Server:
    """The server, with its one session."""

    def __init__(self, path: str, folder: str) -> None:
        words = [sys.executable, os.path.join(TOP, "clients", "serve.py"), path, folder]
        self.process = subprocess.Popen(words, env=os.environ | {"CONFSTORE": PROGRAM})
        until(lambda: accepts(path), PATIENCE)

    def kill_session(self) -> None:
        with open(f"/proc/{self.process.pid}/task/{self.process.pid}/children", encoding="ascii") as children:
            os.kill(int(children.read()), signal.SIGKILL)

    def end(self) -> int:
        return self.process.wait(PATIENCE)


def held_by_store(folder: str, number: int) -> list[int] | tuple[int, bytes, str]:
    """The numbers in the list of a client, as the store has them, or what was answered in their place."""
    status, output, errors = session(folder, f'get: list{number}\npath: ""\n...\n'.encode())
    lines = output.decode().split("\n")
    if lines == ["---", "value: []", "...", ""]:
        return []
    if status != 0 or lines[:2] != ["---", "value:"]:
        return status, output, errors
    return [int(line.removeprefix("  - n")) for line in lines[2:-2]]


def serve_clients(
    path: str, folder: str, held: list[int], commands: int, moment: float | None, failures: Failures
) -> int:
    """One life of a server with all clients. Its session is killed at a moment, if one is given. Returns how many
    commands were answered in all lives."""
    server = Server(path, folder)
    clients = [Client(path, number, held[number], commands) for number in range(CLIENTS)]
    for client in clients:
        client.start()
    if moment is not None:
        time.sleep(moment)
        server.kill_session()
    for client in clients:
        client.join(PATIENCE)
    if moment is None:
        server.process.terminate()
    failures.expect("the server's status", server.end(), 0 if moment is None else signal.SIGKILL)
    failures.expect("the socket is there", os.path.exists(path), False)
    for number, client in enumerate(clients):
        failures.expect(f"client {number} ended", client.is_alive(), False)
        failures.expect(f"wrong answers to client {number}", client.wrong, [])
        numbers = held_by_store(folder, number)
        failures.expect(f"the list of client {number}", numbers, list(range(1, len(numbers) + 1)))
        failures.expect(
            f"client {number}: {client.held} answered, {len(numbers)} held, {client.sent} sent",
            client.held <= len(numbers) <= client.sent,
            True,
        )
        held[number] = len(numbers)
    return sum(client.held for client in clients)


def main() -> int:
    need_program()
    chance, failures = random.Random(seed_given(1)), Failures()
    with tempfile.TemporaryDirectory() as top:
        folder, path = os.path.join(top, "store"), os.path.join(top, "socket")
        os.mkdir(folder)
        imports = "".join(f'import: list{number}\ntext: "[]"\n...\n' for number in range(CLIENTS))
        session(folder, imports.encode())
        held = [0] * CLIENTS
        for _ in range(KILLS):
            serve_clients(path, folder, held, 10**6, chance.uniform(0.1, LONGEST), failures)
        before = sum(held)
        answered = serve_clients(path, folder, held, COMMANDS, None, failures)
        failures.expect("what the last session answered", answered - before, CLIENTS * COMMANDS)
        print(f"{before} commands through {KILLS} sessions that were killed, {answered - before} through the last")
    return failures.report()


if __name__ == "__main__":
    sys.exit(main())
