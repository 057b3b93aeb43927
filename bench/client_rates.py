#!/usr/bin/env python3
"""Times the clients: commands a second through Python, C and the socket, with 1 and with 16 at once, beside SQLite.

Each command sets one value, and is on the disk when it is answered. Through Python there are one thread and sixteen
threads of one `Store`; through C one command at a time and sixteen under way; through `clients/serve.py` one client
and sixteen, each a process in C that awaits each answer. SQLite is in WAL mode with full syncs, a change a
transaction: from Python by one connection and by sixteen in threads, and from C by one.

It uses a folder of the disk that holds the temporary files. The ways take turns, and the best of several runs is
printed. Run it from the repository's root after the program is built; it needs a C compiler, and takes one to
four minutes, as the disk syncs:

    ./prove && python3 bench/client_rates.py

With `-m` it times the server alone, by how many client processes it has, from 1 to 255. The store is in memory, where a
sync takes no time. Medians are printed; it takes a minute.

SQLite in C is left out where its header is missing: `apt-get install libsqlite3-dev`.
"""

from __future__ import annotations

import functools
import os
import socket
import sqlite3
import statistics
import subprocess
import sys
import tempfile
import threading
import time
from collections.abc import Callable
from pathlib import Path

from lib.programs import MEMORY, PROGRAM, TOP, built, need_program
from lib.runs import by_turns
from lib.serving import served
from lib.stores import command, fresh, store_in
from lib.waiting import until

sys.path.insert(0, os.path.join(TOP, "python"))

from confstore import Store  # noqa: E402

COUNT = 2_000
CLIENTS = 16
RUNS = 5

# How many client processes a server in memory has, for how many seconds their commands are counted, how often each
# number has its turn, and how many commands no client comes to the end of.
PROCESSES = (1, 2, 4, 8, 16, 32, 64, 128, 255)
SECONDS = 1.0
TURNS = 5
ENDLESS = 10**9


def timed_threads(call: Callable[[int], None], count: int) -> float:
    """The seconds until so many threads have made their share of the calls."""
    threads = [threading.Thread(target=call, args=(COUNT // count,)) for _ in range(count)]
    start = time.perf_counter()
    for thread in threads:
        thread.start()
    for thread in threads:
        thread.join()
    return time.perf_counter() - start


def by_python(top: str, count: int) -> float:
    with Store(store_in(top, "run"), program=PROGRAM) as store:

        def work(commands: int) -> None:
            for number in range(commands):
                store.set("app", "/n", f"v{number:09}")

        return timed_threads(work, count)


def by_c(top: str, client: str, window: int) -> float:
    words = [client, PROGRAM, store_in(top, "run"), str(COUNT), str(window)]
    return float(subprocess.run(words, capture_output=True, check=True).stdout)


def by_socket(top: str, client: str, count: int) -> float:
    """The seconds for the commands by so many clients. They are counted for a while once all are connected, so that no
    start of a process is timed."""
    path = os.path.join(top, "socket")
    with served(path, store_in(top, "run")) as server, socket.socket(socket.AF_UNIX) as own:
        own.connect(path)
        number_now(own)
        files = Path(f"/proc/{server}/fd")
        alone = len(list(files.iterdir()))
        words = [client, "-", path, str(ENDLESS), "1"]
        clients = [subprocess.Popen(words, stdout=subprocess.DEVNULL) for _ in range(count)]
        try:
            if not until(lambda: len(list(files.iterdir())) == alone + count, 60):
                sys.exit("a client of the socket failed")
            first, start = number_now(own), time.perf_counter()
            time.sleep(SECONDS)
            last, end = number_now(own), time.perf_counter()
        finally:
            for process in clients:
                process.kill()
                process.wait()
    return COUNT * (end - start) / (last - first)


def in_memory(client: str, count: int) -> float:
    with tempfile.TemporaryDirectory(dir=MEMORY) as top:
        return by_socket(top, client, count)


def number_now(connection: socket.socket) -> int:
    """The number of a command that changes the store now, beside those of the other clients."""
    connection.sendall(command(1))
    answer = connection.recv(4096)
    if not answer.startswith(b'---\nok: "'):
        sys.exit(f"a command was not accepted: {answer!r}")
    return int(answer.split(b'"')[1])


def by_sqlite(top: str, count: int) -> float:
    file = os.path.join(fresh(top, "run"), "base")

    def connect() -> sqlite3.Connection:
        base = sqlite3.connect(file, isolation_level=None, timeout=60, check_same_thread=False)
        base.execute("PRAGMA journal_mode=WAL")
        base.execute("PRAGMA synchronous=FULL")
        return base

    bases = [connect() for _ in range(count)]
    bases[0].execute("CREATE TABLE app (k TEXT PRIMARY KEY, v TEXT)")
    free = list(bases)

    def work(commands: int) -> None:
        base = free.pop()
        for number in range(commands):
            base.execute("INSERT OR REPLACE INTO app VALUES ('n', ?)", (f"v{number:09}",))

    seconds = timed_threads(work, count)
    for base in bases:
        base.close()
    return seconds


def by_sqlite_in_c(top: str, client: str) -> float:
    words = [client, os.path.join(fresh(top, "run"), "base"), str(COUNT)]
    return float(subprocess.run(words, capture_output=True, check=True).stdout)


def ways_of(top: str, client: str) -> dict[str, Callable[[], float]]:
    """The ways to perform the commands, each of which returns its seconds."""
    return {
        "Python, 1 thread": lambda: by_python(top, 1),
        f"Python, {CLIENTS} threads of one store": lambda: by_python(top, CLIENTS),
        "C, one command at a time": lambda: by_c(top, client, 1),
        f"C, {CLIENTS} commands under way": lambda: by_c(top, client, CLIENTS),
        "the socket, 1 client": lambda: by_socket(top, client, 1),
        f"the socket, {CLIENTS} clients": lambda: by_socket(top, client, CLIENTS),
        "SQLite from Python": lambda: by_sqlite(top, 1),
        f"SQLite from Python, {CLIENTS} threads": lambda: by_sqlite(top, CLIENTS),
    }


def say_rates_in_memory(client: str) -> None:
    ways = {str(count): functools.partial(in_memory, client, count) for count in PROCESSES}
    print("client processes  commands a second, the median and the best")
    for name, times in by_turns(ways, TURNS).items():
        print(f"{name:>16}  {COUNT / statistics.median(times):>9,.0f}  {COUNT / min(times):>9,.0f}")


def main() -> int:
    need_program()
    library = os.path.join(TOP, "clients", "c")
    with tempfile.TemporaryDirectory() as top:
        sources = [os.path.join(library, name) for name in ("confstore.c", "confstore_text.c")]
        client = built(top, "confstore_client", *sources, f"-I{library}")
        if client is None:
            sys.exit("the client in C was not built: a C compiler is needed")
        if "-m" in sys.argv[1:]:
            say_rates_in_memory(client)
            return 0
        peer = built(top, "sqlite_client", "-lsqlite3")
        ways = ways_of(top, client)
        if peer is not None:
            ways["SQLite from C"] = functools.partial(by_sqlite_in_c, top, peer)
        else:
            print("left out: SQLite in C")
        for name, times in by_turns(ways, RUNS).items():
            print(f"  {name}: {COUNT / min(times):9.0f} commands a second")
    return 0


if __name__ == "__main__":
    sys.exit(main())
