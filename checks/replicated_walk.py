#!/usr/bin/env python3
"""Walks the section 'Three nodes with TLS, in ten minutes' of replicated/README.md, as it stands on the page.

All commands of the section are done in order by one bash, which ends at the first one that fails. What a command
writes is what stands below it on the page: lines that begin with a brace or a number. At the end nothing that was
started is left, nor the folder. Beside the page, it looks whether etcd lets those in who have no certificate or no
password.

    checks/replicated_walk.py

It needs bash, etcd, etcdctl, openssl and socat (Debian's etcd-server, etcd-client, openssl and socat), PyYAML and the
built program, uses the ports of the page on 127.0.0.1, and takes some ten seconds, and two minutes at most. The last
line is 'N passed, M failed'.
"""

from __future__ import annotations

import contextlib
import os
import re
import shutil
import signal
import socket
import subprocess
import sys
import tempfile
from typing import NamedTuple

from lib.store_runs import PROGRAM, TOP, Failures, need_program

PAGE = os.path.join(TOP, "replicated", "README.md")
SECTION = "Three nodes with TLS, in ten minutes"
TOOLS = ("bash", "etcd", "etcdctl", "openssl", "socat")

# How long the walk may take, in seconds.
LONGEST = 120

# The status of a walk that has left processes.
LEFT = -1

# What stands between the outputs of two blocks, and before what is looked at beside the page.
END_OF_BLOCK = "== a block ends"

# Those who have no certificate, and those who have one and no user, are asked for what only nodes may read.
STRANGERS = """
for cert in '' '--cert node.crt --key node.key'; do
    if etcdctl --endpoints https://127.0.0.1:22379 --cacert ca.crt $cert get --prefix /confstore/ >stranger 2>&1
    then echo let in; elif [ -n "$cert" ] && ! grep -q 'permission denied' stranger; then cat stranger; else echo no; fi
done
"""
LET_NOBODY_IN = ["no", "no"]


class Block(NamedTuple):
    """A block of the page: its commands, and what they write, if that stands there."""

    commands: str
    written: list[str]


def blocks_of(page: str) -> list[Block]:
    """The blocks of the section, in order."""
    found = re.search(rf"(?ms)^## {re.escape(SECTION)}\n(.*?)^## ", page)
    if found is None:
        sys.exit(f"{PAGE} has no section '{SECTION}'")
    blocks = []
    for text in re.findall(r"(?m)(?:^    .*\n(?:\n(?=    ))?)+", found[1]):
        lines = [line[4:] for line in text.splitlines()]
        written = [line for line in lines if re.match(r'\{"|\d', line)]
        blocks.append(Block("\n".join(line for line in lines if line not in written), written))
    return blocks


def script_of(blocks: list[Block]) -> str:
    """All that bash does: the blocks, of which each one's end is told, and the look at strangers before the last two
    of them."""
    parts = ["set -eu"]
    for place, block in enumerate(blocks):
        if place == len(blocks) - 2:
            parts += [STRANGERS, f"echo '{END_OF_BLOCK}'"]
        parts += [block.commands, f"echo '{END_OF_BLOCK}'"]
    return "\n".join(parts) + "\n"


def missing_tools() -> list[str]:
    return [tool for tool in TOOLS if shutil.which(tool) is None]


def taken_ports(commands: str) -> list[int]:
    """The ports of the page that somebody else listens to."""
    taken = []
    for number in (1, 2, 3):
        for end in sorted({int(port) for port in re.findall(r"\$\{1\}(\d{4})", commands)}):
            with socket.socket() as probe:
                probe.setsockopt(socket.SOL_SOCKET, socket.SO_REUSEADDR, 1)
                try:
                    probe.bind(("127.0.0.1", number * 10_000 + end))
                except OSError:
                    taken.append(number * 10_000 + end)
    return taken


def walk(script: str, folder: str) -> tuple[int | None, str, str]:
    """Runs the script in the repository, with its temporary folder. Its status, None if it took too long or LEFT if it
    has left processes, which are killed; and what it wrote to both streams."""
    environment = {**os.environ, "TMPDIR": folder, "CONFSTORE": PROGRAM}
    with open(os.path.join(folder, "said"), "w+b") as output, open(os.path.join(folder, "faults"), "w+b") as errors:
        process = subprocess.Popen(
            ["bash"], stdin=subprocess.PIPE, stdout=output, stderr=errors, cwd=TOP, env=environment,
            start_new_session=True,
        )  # fmt: skip
        status: int | None = None
        try:
            process.communicate(script.encode(), LONGEST)
            status = process.returncode
        except subprocess.TimeoutExpired:
            pass
        output.seek(0)
        errors.seek(0)
        is_gone = is_all_gone(process)
        return status if is_gone else LEFT, output.read().decode(), errors.read().decode()


def is_all_gone(process: subprocess.Popen[bytes]) -> bool:
    """Whether nothing of the process's own group is left. What is left is killed."""
    is_gone = process.poll() is not None
    with contextlib.suppress(ProcessLookupError):
        os.killpg(process.pid, signal.SIGKILL)
        is_gone = False
    process.wait()
    return is_gone


def compare(failures: Failures, blocks: list[Block], said: str) -> None:
    """Compares what each block has written with what stands on the page."""
    written = [part.strip("\n").split("\n") for part in said.split(END_OF_BLOCK)]
    wanted = [block.written for block in blocks]
    wanted.insert(len(blocks) - 2, LET_NOBODY_IN)
    for place, lines in enumerate(wanted):
        found = written[place] if place < len(written) else ["nothing"]
        if lines:
            failures.expect(f"what block {place + 1} writes", found, lines)


def main() -> int:
    need_program()
    if missing := missing_tools():
        sys.exit(f"not installed: {', '.join(missing)} (Debian: etcd-server etcd-client openssl socat)")
    with open(PAGE, encoding="utf-8") as page:
        blocks = blocks_of(page.read())
    if taken := taken_ports("".join(block.commands for block in blocks)):
        sys.exit(f"these ports of the page are in use: {taken}: end what listens there")
    failures = Failures()
    with tempfile.TemporaryDirectory() as folder:
        status, said, faults = walk(script_of(blocks), folder)
        compare(failures, blocks, said)
        failures.expect("the end of the walk", status, 0)
        failures.expect("what is left", sorted(os.listdir(folder)), ["faults", "said"])
        if failures.wrong:
            print(faults)
    return failures.report()


if __name__ == "__main__":
    sys.exit(main())
