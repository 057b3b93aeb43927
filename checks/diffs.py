#!/usr/bin/env python3
"""Has `diff` compare 2,000 random pairs of states, and 100,000 pairs of files, and looks whether its edits make the
second of the first.

A session makes each store of random commands, and a plain model here makes them too, so that it knows the state at each
number. Of two of them, either of which may be the older one, `diff` writes the edits. A new store gets the
configurations that the model has at the first number, and `batch` makes the edits on it. Then it has to have those of
the second, all in the same order, with the same order of keys. Where the states are the same, `diff` has to end with
the status 0 and to write nothing, and else with 1. The same is tried of one configuration, by its name, and of the
files of two.

Of each pair it also looks how long the edits are: those of a configuration have at most 1,024 bytes, or no more than an
import of the second one has. Those of two states have at most 1,024 bytes for each configuration of the first one more
than those that delete all of these, and import all of the second one.

The pairs of files are like each other, or not at all. A plain model here performs the edits, as PyYAML reads them, and
counts an import of the second by the writer of `python/confstore/style.py`.

Run it from the repository's root after the program is built; it needs PyYAML, and takes some minutes:

    ./prove && python3 checks/diffs.py [PAIRS [SEED]]

The environment's CONFSTORE names another program. The last line is 'N passed, M failed', and the status is 0 if M is 0.
"""

from __future__ import annotations

import copy
import json
import os
import random
import shutil
import subprocess
import sys
import tempfile
from collections.abc import Sequence
from concurrent.futures import ProcessPoolExecutor
from typing import Any, NamedTuple

import yaml
from lib.command_line import number_given, seed_given
from lib.store_runs import PROGRAM, TOP, Failures, need_program, session, write_file

sys.path.insert(0, os.path.join(TOP, "python"))

from confstore.style import to_text  # noqa: E402

# How many pairs are tried, of each store how many, and by how many commands a store is made at most.
PAIRS = 2_000
OF_A_STORE = 10
COMMANDS = 24

# How many pairs of files are tried for each pair of states, and by one process.
FILES_OF_A_PAIR = 50
FILES_AT_ONCE = 1_000

# How many bytes the edits of a configuration may have where an import is shorter.
FEW_BYTES = 1_024

NAMES = ["a", "b", "c", "web", "web-2"]
KEYS = ["a", "b", "c", "port", "", "0", "-", "a/b", "~", "x y", "\u00e9\u2028", 'q"\\']
TEXTS = ["", "x", "y", "80", "true", "a: b", " x", "# x", "two\nlines\n", "\n", "\t", "q\"'\\", "\u00e9\u0001"]
TEXTS.append("z" * 150)

# All texts as they are, as the failsafe schema gives them.
LOADER = getattr(yaml, "CBaseLoader", yaml.BaseLoader)

# What is at a place is a text, a list or a mapping. A state has its configurations in order.
Tree = Any
State = dict[str, Tree]


def tree_of(chance: random.Random, depth: int = 3) -> Tree:
    kind = chance.random()
    if depth == 0 or kind < 0.35:
        return chance.choice(TEXTS)
    inner = [tree_of(chance, depth - 1) for _ in range(chance.choice([0, 1, 2, 2, 3, 5]))]
    if kind < 0.6:
        return inner
    return dict(zip(chance.sample(KEYS, len(inner)), inner))


def pointer_of(steps: Sequence[str]) -> str:
    return "".join("/" + step.replace("~", "~0").replace("/", "~1") for step in steps)


# ---- the model


def places_in(tree: Tree, steps: tuple[str, ...] = ()) -> list[tuple[str, ...]]:
    """The steps to each value in a tree, the tree itself first."""
    inner = enumerate(tree) if isinstance(tree, list) else tree.items() if isinstance(tree, dict) else ()
    return [steps, *(place for key, value in inner for place in places_in(value, (*steps, str(key))))]


def value_at(tree: Tree, steps: Sequence[str]) -> Tree:
    for step in steps:
        tree = tree[int(step)] if isinstance(tree, list) else tree[step]
    return tree


def put(state: State, name: str, steps: Sequence[str], value: Tree) -> None:
    """Sets a value at a place that is there, or behind the last key or element of what is above it."""
    if not steps:
        state[name] = value
        return
    above, last = value_at(state[name], steps[:-1]), steps[-1]
    if isinstance(above, dict):
        above[last] = value
    elif last == "-":
        above.append(value)
    else:
        above[int(last)] = value


def cut(state: State, name: str, steps: Sequence[str]) -> None:
    if not steps:
        del state[name]
        return
    above, last = value_at(state[name], steps[:-1]), steps[-1]
    if isinstance(above, list):
        del above[int(last)]
    else:
        del above[last]


def random_edit(chance: random.Random, state: State) -> dict[str, Tree]:
    """An edit that can be made, which is made on the model."""
    kind = chance.random()
    if not state or kind < 0.2:
        name, tree = chance.choice(NAMES), tree_of(chance)
        state[name] = copy.deepcopy(tree)
        return {"import": name, "text": json.dumps(tree, ensure_ascii=False)}
    name = chance.choice(list(state))
    steps = chance.choice(places_in(state[name]))
    if kind < 0.45 and (steps or chance.random() < 0.5):
        cut(state, name, steps)
        return {"delete": name, "path": pointer_of(steps)}
    there, value = value_at(state[name], steps), tree_of(chance, 2)
    if chance.random() < 0.6:
        if isinstance(there, list):
            steps = (*steps, "-")
        elif isinstance(there, dict):
            steps = (*steps, chance.choice(KEYS))
    put(state, name, steps, copy.deepcopy(value))
    return {"set": name, "path": pointer_of(steps), "value": value}


def random_commands(chance: random.Random) -> tuple[bytes, int, list[State]]:
    """Commands for a session, the number of the store's base after them, and the states from there on."""
    state: State = {}
    states, commands, base = [copy.deepcopy(state)], [], 0
    for number in range(1, chance.randint(4, COMMANDS) + 1):
        edits = [random_edit(chance, state) for _ in range(chance.choice([1, 1, 1, 2, 4]))]
        commands.append(json.dumps(edits[0] if len(edits) == 1 else {"batch": edits}, ensure_ascii=False))
        states.append(copy.deepcopy(state))
        if chance.random() < 0.03:
            commands.append("checkpoint:")
            base, states = number, states[-1:]
    return "".join(f"{command}\n...\n" for command in commands).encode(), base, states


# ---- the program


class Found(NamedTuple):
    """What a word did: its status, what it wrote, and what it wrote to standard error."""

    status: int
    output: str
    errors: str


def run(*words: str, given: str = "") -> Found:
    done = subprocess.run([PROGRAM, *words], input=given.encode(), capture_output=True, check=False)
    return Found(done.returncode, done.stdout.decode(), done.stderr.decode())


def make(folder: str, state: State) -> None:
    """A new store with these configurations, in this order."""
    edits = [{"import": name, "text": json.dumps(tree, ensure_ascii=False)} for name, tree in state.items()]
    made = run("init", folder)
    if edits and made.status == 0:
        made = run("batch", folder, given=json.dumps(edits, ensure_ascii=False))
    if made != (0, "", ""):
        raise RuntimeError(f"a store was not made: {made}")


def ordered(tree: Tree) -> str:
    """A text that two trees have in common only if they are the same, with their keys in the same order."""
    return json.dumps(tree)


def read(folder: str, top: str) -> str:
    """The configurations of a store in order, as `ordered` gives them."""
    files = os.path.join(top, "files")
    names, exported = run("names", folder), run("export", "--all", files, "--json", folder)
    if names.status or exported != (0, "", ""):
        return f"{names} {exported}"
    state = {}
    for name in names.output.split():
        with open(os.path.join(files, f"{name}.json"), encoding="utf-8") as source:
            state[name] = json.load(source)
    shutil.rmtree(files, ignore_errors=True)
    return ordered(state)


def performed(top: str, first: State, edits: str) -> str:
    """What edits make of a state, as `ordered` gives it, or what is said of them."""
    folder = os.path.join(top, "copy")
    make(folder, first)
    made = run("batch", folder, given=edits) if edits else Found(0, "", "")
    found = read(folder, top) if made == (0, "", "") else str(made)
    shutil.rmtree(folder)
    return found


# ---- the pairs


class Pair(NamedTuple):
    """Two states of a store, the words of `diff` for its folder and their numbers, and where it is tried."""

    title: str
    words: list[str]
    first: State
    second: State
    top: str


def bytes_of(text: str) -> int:
    return len(text.encode())


def length_of_imports(state: State) -> int:
    """How long the imports of all configurations are, in the one style."""
    listed = json.dumps([{"import": name, "tree": tree} for name, tree in state.items()], ensure_ascii=False)
    return bytes_of(run("format", given=listed).output) if state else 0


def length_of_deletes(state: State) -> int:
    """How long the deletes of all configurations are."""
    return sum(bytes_of(f'- delete: {name}\n  path: ""\n') for name in state)


def try_states(pair: Pair, failures: Failures) -> None:
    """The edits between the two states."""
    found = run("diff", *pair.words)
    is_same = ordered(pair.first) == ordered(pair.second)
    failures.expect(f"{pair.title}: status and errors", (found.status, found.errors), (0 if is_same else 1, ""))
    failures.expect(f"{pair.title}: whether nothing is written", found.output == "", is_same)
    made = performed(pair.top, pair.first, found.output)
    failures.expect(f"{pair.title}: what the edits make", made, ordered(pair.second))
    most = length_of_deletes(pair.first) + length_of_imports(pair.second) + FEW_BYTES * len(pair.first)
    failures.expect(f"{pair.title}: at most {most} bytes of edits", bytes_of(found.output) <= most, True)


def try_name(chance: random.Random, pair: Pair, failures: Failures) -> None:
    """The edits of one configuration change it alone."""
    name = chance.choice(NAMES)
    found = run("diff", *pair.words, name)
    title = f"{pair.title} {name}"
    if name not in pair.first and name not in pair.second:
        failures.expect(f"{title}: none", (found.status, found.errors.split("\n")[0]), (1, "confstore: NoConfig"))
        return
    wanted = copy.deepcopy(pair.first)
    if name in pair.second:
        wanted[name] = pair.second[name]
    else:
        del wanted[name]
    is_same = ordered(wanted) == ordered(pair.first)
    failures.expect(f"{title}: status and errors", (found.status, found.errors), (0 if is_same else 1, ""))
    failures.expect(f"{title}: what the edits make", performed(pair.top, pair.first, found.output), ordered(wanted))
    whole = length_of_imports({name: pair.second[name]}) if name in pair.second else length_of_deletes({name: ""})
    failures.expect(f"{title}: length", bytes_of(found.output) <= max(FEW_BYTES, whole), True)


def try_files(chance: random.Random, pair: Pair, failures: Failures) -> None:
    """The edits between the files of two configurations."""
    trees = [chance.choice(list(state.values())) if state else "x" for state in (pair.first, pair.second)]
    files = [os.path.join(pair.top, file) for file in ("old.json", "web.v2.json")]
    for file, tree in zip(files, trees):
        write_file(file, json.dumps(tree, ensure_ascii=False).encode())
    found = run("diff", "--files", *files)
    title, is_same = f"{pair.title} --files", ordered(trees[0]) == ordered(trees[1])
    failures.expect(f"{title}: status and errors", (found.status, found.errors), (0 if is_same else 1, ""))
    made = performed(pair.top, {"web": trees[0]}, found.output)
    failures.expect(f"{title}: what the edits make", made, ordered({"web": trees[1]}))


def try_store(seed: str, pairs: int) -> Failures:
    """What came of some pairs of one store."""
    chance, failures = random.Random(seed), Failures()
    with tempfile.TemporaryDirectory() as top:
        folder = os.path.join(top, "store")
        make(folder, {})
        commands, base, states = random_commands(chance)
        status, answers, errors = session(folder, commands)
        failures.expect(f"{seed}: the session", (status, answers.count(b"refused"), errors), (0, 0, ""))
        for _ in range(pairs):
            start, end = (chance.choice([0, chance.randrange(len(states)), len(states) - 1]) for _ in range(2))
            words = [] if start == 0 and chance.random() < 0.5 else ["--from", str(base + start)]
            words += [] if end == len(states) - 1 and chance.random() < 0.5 else ["--to", str(base + end)]
            title = f"seed {seed}: {' '.join(words)}"
            pair = Pair(title, [*words, folder], states[start], states[end], top)
            try_states(pair, failures)
            try_name(chance, pair, failures)
            try_files(chance, pair, failures)
    return failures


# ---- the pairs of files


def tree_like(chance: random.Random, tree: Tree, depth: int = 3) -> Tree:
    """A tree that is like another one in most places."""
    if isinstance(tree, str) or chance.random() < 0.1:
        return tree if chance.random() < 0.6 else tree_of(chance, depth)
    inner = max(depth - 1, 0)
    if isinstance(tree, list):
        items = [tree_like(chance, item, inner) for item in tree if chance.random() < 0.85]
        items[chance.randint(0, len(items)) :] += [tree_of(chance, inner)] if chance.random() < 0.2 else []
        return items
    pairs = [(key, tree_like(chance, value, inner)) for key, value in tree.items() if chance.random() < 0.85]
    if chance.random() < 0.15:
        chance.shuffle(pairs)
    return dict(pairs) | ({chance.choice(KEYS): tree_of(chance, inner)} if chance.random() < 0.3 else {})


def wide_tree(chance: random.Random) -> Tree:
    """A tree whose edits may be longer than an import of it."""
    count = chance.choice([20, 40, 80])
    if chance.random() < 0.5:
        return [chance.choice(TEXTS) for _ in range(count)]
    return {f"k{number}": chance.choice(TEXTS) for number in range(count)}


def random_trees(chance: random.Random) -> tuple[Tree, Tree]:
    first = wide_tree(chance) if chance.random() < 0.1 else tree_of(chance, 4)
    kind = chance.random()
    if kind < 0.15:
        return first, wide_tree(chance) if chance.random() < 0.5 else tree_of(chance, 4)
    return first, copy.deepcopy(first) if kind < 0.25 else tree_like(chance, first, 4)


def edits_made(tree: Tree, edits: Any) -> Tree:
    """What edits, as PyYAML gives them, make of the tree of `web`."""
    state = {"web": copy.deepcopy(tree)}
    for edit in edits:
        (word, name), *rest = edit.items()
        fields = dict(rest)
        steps = [step.replace("~1", "/").replace("~0", "~") for step in fields.get("path", "").split("/")[1:]]
        if word == "import":
            state[name] = fields["tree"]
        elif word == "set":
            put(state, name, steps, fields["value"])
        else:
            cut(state, name, steps)
    return state["web"]


def try_file_pairs(seed: str, pairs: int) -> tuple[Failures, int, int]:
    """What came of some pairs of files, how many differ, and for how many there was an import."""
    chance, failures = random.Random(seed), Failures()
    differing = imports = 0
    with tempfile.TemporaryDirectory() as top:
        files = [os.path.join(top, file) for file in ("old.yaml", "web.yaml")]
        for number in range(pairs):
            trees = random_trees(chance)
            for file, tree in zip(files, trees):
                write_file(file, json.dumps(tree, ensure_ascii=False).encode())
            found = run("diff", "--files", *files)
            title, is_same = f"seed {seed}, files {number}", ordered(trees[0]) == ordered(trees[1])
            failures.expect(f"{title}: status and errors", (found.status, found.errors), (0 if is_same else 1, ""))
            edits = yaml.load(found.output, Loader=LOADER) or []
            failures.expect(f"{title}: what the edits make", ordered(edits_made(trees[0], edits)), ordered(trees[1]))
            whole = bytes_of(to_text([{"import": "web", "tree": trees[1]}]))
            failures.expect(f"{title}: length", bytes_of(found.output) <= max(FEW_BYTES, whole), True)
            differing += not is_same
            imports += any("import" in edit for edit in edits)
    return failures, differing, imports


def main() -> int:
    need_program()
    pairs, seed, failures = number_given(1, PAIRS), seed_given(2), Failures()
    counts = [min(OF_A_STORE, pairs - done) for done in range(0, pairs, OF_A_STORE)]
    wanted = pairs * FILES_OF_A_PAIR
    file_counts = [min(FILES_AT_ONCE, wanted - done) for done in range(0, wanted, FILES_AT_ONCE)]
    differing = imports = 0
    with ProcessPoolExecutor(max_workers=min(4, os.cpu_count() or 1)) as pool:
        for found in pool.map(try_store, [f"{seed}-{number}" for number in range(len(counts))], counts):
            failures.take(found)
        for found, more, whole in pool.map(
            try_file_pairs, [f"{seed}-{number}" for number in range(len(file_counts))], file_counts
        ):
            failures.take(found)
            differing, imports = differing + more, imports + whole
    print(f"{pairs} pairs of states; {wanted} of files, of which {differing} differ, {imports} by an import")
    return failures.report()


if __name__ == "__main__":
    sys.exit(main())
