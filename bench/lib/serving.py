"""A server of one store on a socket, by clients/serve.py."""

from __future__ import annotations

import os
import subprocess
import sys
from collections.abc import Iterator
from contextlib import contextmanager

from lib.programs import PROGRAM, TOP  # which also finds the modules of checks/lib
from lib.waiting import accepts, until


@contextmanager
def served(path: str, folder: str) -> Iterator[int]:
    """Serves the store in a folder on a socket until the block ends. The block gets the number of the server's process."""
    words = [sys.executable, os.path.join(TOP, "clients", "serve.py"), path, folder]
    server = subprocess.Popen(words, env={**os.environ, "CONFSTORE": PROGRAM})
    try:
        if not until(lambda: accepts(path), 10):
            sys.exit("the server takes no clients")
        yield server.pid
    finally:
        server.terminate()
        server.wait()
