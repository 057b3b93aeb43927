#!/usr/bin/env python3
"""Times the base of a store: writing it in a checkpoint, and opening a store that is a base alone.

Stores are made whose base has 46 to 60 MiB: of service files, of Kubernetes' files, and of a few long texts. For each
it prints the processor time of a checkpoint and of opening, and the greatest memory of a session that opens the store,
as a multiple of the base: what is mapped and what is resident. A checkpoint's time is that of a session with it, less
that of a session without. With `-i` instructions a byte are printed, as valgrind counts them on a base of some 4 MiB.

Everything is in a folder in memory, where there is one, so that no device is measured. A time is the least of several
runs. Run it on a quiet machine from the repository's root after the program is built:

    ./prove && python3 bench/base.py [-i]
"""

from __future__ import annotations

import os
import subprocess
import sys
import tempfile
from collections.abc import Callable

from lib.corpora import CORPORA
from lib.programs import MEMORY, MIB, PROGRAM, need_program
from lib.runs import seconds_in
from lib.stores import CHECKPOINT, perform, session_instructions, session_usage

# How many bytes the texts of a base have, and of one whose instructions are counted. In the base they take up to a
# quarter more.
SIZE = 48 * MIB
COUNTED = 4 * MIB
# How many bytes of a corpus a configuration has.
CONFIGURATION = 256 * 1024
RUNS = 5
KINDS: dict[str, Callable[[], str]] = {
    "services": lambda: CORPORA["services"](CONFIGURATION),
    "kubernetes": lambda: CORPORA["kubernetes"](CONFIGURATION),
    "long texts": lambda: f"k: {'x' * CONFIGURATION}\n",
}


def indented(text: str) -> str:
    return "".join(f"  {line}\n" for line in text.splitlines())


def filled(top: str, name: str, text: str, size: int) -> tuple[str, int]:
    """A store whose base has about this size, and the size of the base."""
    folder = os.path.join(top, name)
    os.mkdir(folder)
    count = max(1, size // len(text))
    commands = (f"import: c{number}\ntext: |\n{indented(text)}...\n" for number in range(count))
    perform(folder, "".join(commands).encode() + CHECKPOINT)
    return folder, os.path.getsize(os.path.join(folder, "store.yaml"))


def seconds(folder: str, commands: bytes) -> float:
    return min(seconds_in(session_usage(folder, commands)) for _ in range(RUNS))


def memory(folder: str) -> tuple[int, int]:
    """The greatest number of bytes that an opening maps, and that are resident."""
    with subprocess.Popen([PROGRAM, "run", folder], stdin=subprocess.PIPE, stdout=subprocess.PIPE) as process:
        assert process.stdin is not None and process.stdout is not None
        process.stdin.write(b"get: none\npath: \"\"\n...\n")
        process.stdin.flush()
        process.stdout.readline()
        with open(f"/proc/{process.pid}/status", encoding="ascii") as status:
            lines = dict(line.split(":", 1) for line in status)
    return int(lines["VmPeak"].split()[0]) * 1024, int(lines["VmHWM"].split()[0]) * 1024


def measure(top: str, name: str, text: str) -> None:
    """Prints what the base of a store of such texts takes."""
    folder, size = filled(top, name, text, SIZE)
    opened = seconds(folder, b"")
    written = seconds(folder, CHECKPOINT) - opened
    mapped, resident = memory(folder)
    print(
        f"{name}: a base of {size / MIB:.1f} MiB, a checkpoint {written * 1e3:.0f} ms, opening {opened * 1e3:.0f} ms, "
        f"{mapped / size:.1f} times the base mapped, {resident / size:.1f} resident",
        flush=True,
    )


def count_instructions(top: str, name: str, text: str) -> None:
    """Prints the instructions of a smaller base."""
    folder, size = filled(top, f"{name} counted", text, COUNTED)
    opened = session_instructions(folder, b"")
    written = session_instructions(folder, CHECKPOINT) - opened
    print(f"  instructions a byte: a checkpoint {written / size:.1f}, opening {opened / size:.1f}", flush=True)


def main() -> int:
    need_program()
    with tempfile.TemporaryDirectory(dir=MEMORY) as top:
        for name, make in KINDS.items():
            text = make()
            measure(top, name, text)
            if "-i" in sys.argv:
                count_instructions(top, name, text)
    return 0


if __name__ == "__main__":
    sys.exit(main())
