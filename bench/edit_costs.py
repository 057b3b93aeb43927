#!/usr/bin/env python3
"""Times edits at the end of a path, in a mapping of many pairs and in mappings in mappings.

A pair is set after all others and deleted again, over and over: in a tree by itself, and in a configuration of a
store's state by commands. It prints the processor time of an edit, the least of nine runs, beside the tree's size:
what a run of many rounds takes more than a run of one round, which builds the same tree. With `-i` it counts
instructions instead, as valgrind does (`apt-get install valgrind`). They are the same in each run, however busy the
machine is. After each shape it prints how many times as much an edit takes by a command as in the tree; it may be 3.

Then it counts instructions, with `-i` or without, of a command of a session that sets a key which a mapping of so many
keys has, or has not, and of opening a store after such commands; and of a `get` of a key, of which
the first makes the index.

Last it times deletes at the head of a long list, in one batch and at the opening after it: the processor time of a
delete, the least of three runs, less that of a batch of one delete. A delete moves the elements behind it.

`./prove`, and `rt run -- edits tree wide 1 1` in crates/bench_driver, build the programs:

    ./prove && (cd crates/bench_driver && rt run -- edits tree wide 1 1)
    python3 bench/edit_costs.py [-i]
"""

from __future__ import annotations

import os
import subprocess
import sys
import tempfile
from collections.abc import Callable, Iterable

from lib.programs import DRIVER, PROGRAM, has_valgrind, need_program
from lib.runs import instructions_of, processor_seconds, seconds_in
from lib.stores import CHECKPOINT, perform, session_instructions, session_usage

# Shapes with their size. The rounds, in a tree and by commands, are so many that a run takes some tenths of a second.
SHAPES = [
    ("wide", 100, 100_000, 50_000),
    ("wide", 1_000, 20_000, 10_000),
    ("wide", 10_000, 2_000, 1_000),
    ("deep", 8, 100_000, 50_000),
    ("deep", 64, 50_000, 20_000),
]
# How many rounds are counted: valgrind makes a run some fifty times slower. The rounds before are not: in them a wide
# mapping gets its index and its prints.
COUNTED = 100
UNCOUNTED = 20
# Of how many keys a mapping has one set, and how often.
WIDTHS = (32, 100, 1_000, 10_000, 100_000)
SETS = 1_000
# How many elements the list has that is deleted from at its head, and how often.
ELEMENTS = 1_000_000
DELETES = 500
# How many times an edit in the tree an edit by a command may take.
GOAL = 3


def order(target: str, shape: str, size: int, rounds: int) -> list[str]:
    """The words for rounds of edits in a shape."""
    return [DRIVER, "edits", target, shape, str(size), str(rounds)]


def microseconds(target: str, shape: str, size: int, rounds: int) -> float:
    """The processor time of an edit: the least of nine runs, less the least of runs with one round."""

    def least(rounds: int) -> float:
        return min(processor_seconds(order(target, shape, size, rounds)) for _ in range(9))

    return max(least(rounds) - least(1), 0) / (2 * (rounds - 1)) * 1e6


def instructions(target: str, shape: str, size: int) -> float:
    """How many instructions an edit takes, as callgrind counts them."""
    many, few = (instructions_of(order(target, shape, size, rounds)) for rounds in (UNCOUNTED + COUNTED, UNCOUNTED))
    return (many - few) / (2 * COUNTED)


def cost(target: str, shape: str, size: int, rounds: int, counts: bool) -> float:
    """Prints what an edit costs, and returns it."""
    printed = subprocess.run(order(target, shape, size, 1), stdout=subprocess.PIPE, text=True, check=True).stdout
    length = int(printed.split()[-2])
    what = f"{size} pairs" if shape == "wide" else f"{size} deep"
    if counts:
        number = instructions(target, shape, size)
        shown = f"{number:10.0f} instructions an edit"
    else:
        number = microseconds(target, shape, size, rounds)
        shown = f"{number:10.3f} us an edit  ({2 * (rounds - 1)} edits)"
    print(f"{target:5} {what:>12} {length:8} bytes  {shown}", flush=True)
    return number


def sets(numbers: Iterable[int]) -> bytes:
    """Commands that set the keys with these numbers."""
    commands = (f"---\nset: wide\npath: /k{key}\nvalue: v{turn:05}\n...\n" for turn, key in enumerate(numbers))
    return "".join(commands).encode()


def old_keys(width: int, count: int) -> Iterable[int]:
    """The numbers of keys that are there, all over the mapping."""
    return [turn * 7919 % width for turn in range(count)]


def new_keys(width: int, count: int) -> Iterable[int]:
    """The numbers of keys that are not there yet."""
    return range(width, width + count)


def set_costs(width: int, name: str, numbers: Callable[[int, int], Iterable[int]]) -> None:
    """Prints what a set of such a key costs in a session and at opening, in instructions."""
    pairs = "".join(f"  k{number}: v00000\n" for number in range(width))

    def costs(count: int) -> tuple[int, int]:
        with tempfile.TemporaryDirectory() as folder:
            perform(folder, f"---\nimport: wide\ntext: |\n{pairs}...\n".encode() + CHECKPOINT, "--group")
            in_session = session_instructions(folder, sets(numbers(width, count)), "--group")
            return in_session, session_instructions(folder, b"", "--group")

    many, few = costs(3 * SETS // 2), costs(SETS // 2)
    in_session, opening = ((one - other) / SETS for one, other in zip(many, few))
    print(f"a set of {name} key beside {width:6}: {in_session:9.0f} instructions in a session,"
          f" {opening:9.0f} at opening", flush=True)  # fmt: skip


def gets(numbers: Iterable[int]) -> bytes:
    """Commands that get the keys with these numbers."""
    return "".join(f"---\nget: wide\npath: /k{key}\n...\n" for key in numbers).encode()


def read_costs(width: int) -> None:
    """Prints what the first `get` of a key costs in a session, and each further one, in instructions."""
    pairs = "".join(f"  k{number}: v00000\n" for number in range(width))
    with tempfile.TemporaryDirectory() as folder:
        perform(folder, f"---\nimport: wide\ntext: |\n{pairs}...\n".encode() + CHECKPOINT, "--group")
        none, one, many = (
            session_instructions(folder, gets(old_keys(width, count)), "--group") for count in (0, 1, 1 + SETS)
        )
    print(f"a get beside {width:6}: the first {one - none:9} instructions in a session,"
          f" each further {(many - one) / SETS:9.0f}", flush=True)  # fmt: skip


def session_time(folder: str, commands: str) -> float:
    """The processor time of a session that performs these commands."""
    return seconds_in(session_usage(folder, commands.encode(), "--group"))


def delete_costs() -> None:
    """Prints what a delete at the head of a long list costs, in a batch and at the opening after it."""
    elements = ",".join(["a"] * ELEMENTS)

    def costs(count: int) -> tuple[float, float]:
        edits = "- {delete: long, path: /0}\n" * count
        with tempfile.TemporaryDirectory() as folder:
            perform(folder, f'---\nimport: long\ntext: "[{elements}]"\n...\n'.encode() + CHECKPOINT, "--group")
            return session_time(folder, f"---\nbatch:\n{edits}...\n"), session_time(folder, "")

    def least(count: int) -> tuple[float, float]:
        batches, openings = zip(*(costs(count) for _ in range(3)))
        return min(batches), min(openings)

    in_batch, opening = ((many - one) / (DELETES - 1) * 1e3 for many, one in zip(least(DELETES), least(1)))
    print(f"a delete at the head of {ELEMENTS} elements: {in_batch:.2f} ms in a batch, {opening:.2f} ms at opening",
          flush=True)  # fmt: skip


def compare_targets(counts: bool) -> None:
    """Prints what an edit costs by a command, as a multiple of an edit in the tree."""
    ratios = []
    for shape, size, in_tree, by_command in SHAPES:
        alone = cost("tree", shape, size, in_tree, counts)
        ratios.append(cost("state", shape, size, by_command, counts) / alone)
        print(f"  by a command {ratios[-1]:.2f} times an edit in the tree", flush=True)
    within = "within" if max(ratios) <= GOAL else "MORE THAN"
    print(f"an edit by a command takes at most {max(ratios):.2f} times one in the tree: {within} {GOAL} times")


def main() -> int:
    need_program(DRIVER)
    counts = "-i" in sys.argv[1:]
    if counts and not has_valgrind():
        sys.exit("valgrind is missing, which counts the instructions: apt-get install valgrind")
    compare_targets(counts)
    if has_valgrind() and os.access(PROGRAM, os.X_OK):
        for width in WIDTHS:
            set_costs(width, "an old", old_keys)
            set_costs(width, "a new", new_keys)
            read_costs(width)
    if os.access(PROGRAM, os.X_OK):
        delete_costs()
    return 0


if __name__ == "__main__":
    sys.exit(main())
