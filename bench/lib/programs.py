"""The programs that are measured, and what is looked at before they are.

What the scripts of checks/ share is found as well: `lib` is both bench/lib and checks/lib.
"""

from __future__ import annotations

import os
import shutil
import subprocess
import sys

sys.path.append(os.path.join(os.path.dirname(os.path.abspath(__file__)), "..", "..", "checks"))

from lib.store_runs import DRIVER as DRIVER, PROGRAM as PROGRAM, TOP as TOP, need_program as need_program  # noqa: E402

MIB = 1024 * 1024

# A folder in memory, so that no device is measured. Where there is none, it is that of temporary files.
MEMORY = "/dev/shm" if os.path.isdir("/dev/shm") else None


def has_valgrind() -> bool:
    return shutil.which("valgrind") is not None


def counts_instructions() -> bool:
    """Whether instructions are asked for, with `-i`, and can be counted."""
    return "-i" in sys.argv[1:] and has_valgrind()


def built(folder: str, name: str, *more: str) -> str | None:
    """The program made of a file of bench/peers, with more words for the compiler, or nothing if it can't be built."""
    program = os.path.join(folder, name)
    words = ["cc", "-O2", "-o", program, os.path.join(TOP, "bench", "peers", f"{name}.c"), *more]
    try:
        done = subprocess.run(words, capture_output=True, check=False)
    except FileNotFoundError:
        return None
    return program if done.returncode == 0 else None


def appending_stub(folder: str) -> str:
    """The stub in C that appends and syncs, and parses nothing."""
    stub = built(folder, "append")
    if stub is None:
        sys.exit("the stub of bench/peers/append.c was not built: a C compiler is needed")
    return stub
