#!/usr/bin/env python3
"""What batches cost, beside the same edits one by one, as instructions that valgrind's callgrind counts.

- 100 `set`s in one batch, beside 100 single ones in a session in groups, and how a batch's cost grows with it.
- A batch of one `set`, beside a single `set`, in a store of 10,000 configurations.
- Opening a journal of batches of 100 edits, beside one of as many single edits.
- A single `set` in several spellings.

It also counts the syncs of a batch with strace, where that is installed. Run it from the repository's root after the
program is built; it needs valgrind, and takes some minutes:

    ./prove && python3 bench/batch_costs.py
"""

from __future__ import annotations

import os
import shutil
import subprocess
import sys
import tempfile
from collections.abc import Iterable

from lib.programs import PROGRAM, has_valgrind, need_program
from lib.runs import syncs_of
from lib.stores import CHECKPOINT, perform, session_instructions

VALUE = "a value of some fifty bytes, as many of them are here"


def instructions(folder: str, commands: str) -> int:
    """How many instructions a session in groups takes that performs these commands."""
    return session_instructions(folder, commands.encode(), "--group")


# A set of a text in several spellings. Those of the last two are read by the general reader, the others by themselves.
SPELLINGS = {
    "by lines": '---\nset: c00001\npath: "/k"\nvalue: "12"\n...\n',
    "by lines, in single quotes": "---\nset: 'c00001'\npath: '/k'\nvalue: '12'\n...\n",
    "by lines, of two words": "---\nset: c00001\npath: /k\nvalue: 1 2\n...\n",
    "as JSON": '{"set":"c00001","path":"/k","value":"12"}\n...\n',
    "in flow, plain": "{set: c00001, path: /k, value: 12}\n...\n",
    "in flow, in single quotes": "{'set': 'c00001', 'path': '/k', 'value': '12'}\n...\n",
    "behind a comment": '# why\nset: c00001\npath: "/k"\nvalue: "12"\n...\n',
    "as a literal": "---\nset: c00001\npath: /k\nvalue: |-\n  12\n...\n",
}


def name_of(number: int) -> str:
    return f"c{number:05}"


def filled(top: str, configurations: int) -> str:
    """A store with so many configurations."""
    folder = os.path.join(top, "store")
    os.makedirs(folder)
    imports = "".join(f'---\nimport: {name_of(number)}\ntext: "k: v"\n...\n' for number in range(configurations))
    perform(folder, imports.encode() + CHECKPOINT, "--group")
    return folder


def single(number: int) -> str:
    return f'---\nset: {name_of(number)}\npath: /k\nvalue: "{VALUE}"\n...\n'


def batch(numbers: Iterable[int]) -> str:
    edits = "".join(f'  - set: {name_of(number)}\n    path: /k\n    value: "{VALUE}"\n' for number in numbers)
    return f"---\nbatch:\n{edits}...\n"


def cost(top: str, configurations: int, commands: str) -> int:
    """What commands cost beyond opening and closing their store."""
    folder = filled(top, configurations)
    before = instructions(folder, "")
    taken = instructions(folder, commands) - before
    shutil.rmtree(folder)
    return taken


def opening(top: str, commands: str) -> int:
    """What opening costs after these commands, beyond opening without them."""
    folder = filled(top, 100)
    before = instructions(folder, "")
    perform(folder, commands.encode(), "--group")
    taken = instructions(folder, "") - before
    shutil.rmtree(folder)
    return taken


def syncs(top: str) -> int | None:
    """How many syncs a batch of 100 edits takes in a session, less those of opening."""

    def counted(commands: str) -> int | None:
        folder = filled(top, 100)
        words = [PROGRAM, "run", "--group", folder]
        count = syncs_of(
            words, top, lambda traced: subprocess.run(traced, input=commands.encode(), capture_output=True, check=True)
        )
        shutil.rmtree(folder)
        return count

    without, with_batch = counted(""), counted(batch(range(100)))
    return None if without is None or with_batch is None else with_batch - without


def compare_sizes(top: str) -> None:
    """Prints what a set costs in batches of several sizes, beside a single one."""
    alone = cost(top, 100, "".join(map(single, range(100))) * 10) / 1000
    for size in (1, 10, 100, 1000):
        numbers = [number % 100 for number in range(size)]
        rounds = max(1000 // size, 1)
        each = cost(top, 100, batch(numbers) * rounds) / (size * rounds)
        print(f"a set in a batch of {size:5}: {each:8.0f} instructions,", end=" ")
        print(f"{each / alone:.2f} times a single one ({alone:.0f})")


def compare_large(top: str) -> None:
    """Prints what a batch of one set costs in a large store, beside a single set."""
    one = cost(top, 10_000, batch([5_000]) * 100) / 100
    other = cost(top, 10_000, single(5_000) * 100) / 100
    print(f"in a store of 10,000: a batch of one set {one:.0f} instructions,", end=" ")
    print(f"a single set {other:.0f}, {one / other:.2f} times")


def compare_openings(top: str) -> None:
    """Prints what opening a journal of batches costs, beside one of single edits."""
    edits, hundred = 10_000, range(100)
    batches = opening(top, batch(hundred) * (edits // 100)) / edits
    singles = opening(top, "".join(map(single, hundred)) * (edits // 100)) / edits
    print(f"opening: an edit in batches of 100 {batches:.0f} instructions,", end=" ")
    print(f"a single one {singles:.0f}, {batches / singles:.2f} times")


def compare_spellings(top: str) -> None:
    """Prints what a set costs as it is spelled."""
    for spelling, command in SPELLINGS.items():
        print(f"a set {spelling}: {cost(top, 100, command * 1000) / 1000:.0f} instructions")


def main() -> int:
    need_program()
    if not has_valgrind():
        sys.exit("valgrind is missing, which counts the instructions: apt-get install valgrind")
    with tempfile.TemporaryDirectory() as top:
        compare_sizes(top)
        compare_large(top)
        compare_openings(top)
        compare_spellings(top)
        print(f"syncs of a batch of 100: {syncs(top)}")
    return 0


if __name__ == "__main__":
    sys.exit(main())
