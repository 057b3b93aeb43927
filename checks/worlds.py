#!/usr/bin/env python3
"""Runs random lists of the program's words in worlds in memory, by orders to the built world_probe, beside a model.

The model is a dict of folders, each with the state of its store. Each word has to end with the model's status, and a
session has to answer as the model does. After each word its run is killed after each call of a system, and what the
kill leaves is opened again, and each image that a crash leaves then (cuts with some zeros, but not as many as fit, are
left out). What is found in a folder has to be the states that the model goes through in that word, all of them, in
order, and no other.

Run it after the program is built. It takes some seconds.

    (cd crates/world_probe && rt run < stdin > /dev/null) && checks/worlds.py [LISTS [SEED]]

The same seed makes the same lists. The last line is 'N passed, M failed', and the status is 0 if M is 0.
"""

from __future__ import annotations

import functools
import json
import random
import re
import subprocess
import sys
from collections.abc import Callable, Sequence
from concurrent.futures import ProcessPoolExecutor
from dataclasses import dataclass, field
from typing import Any

from lib.answers import answers_in, is_right
from lib.command_line import number_given
from lib.store_runs import Failures, need_program, program_of
from lib.trees import NUMBER, Configs, Document, Refused, as_json, performed, steps_of, value_at

PROBE = program_of("world_probe")
# How many lists there are, and the seed that they are made from, if no others are given.
LISTS = 120
SEED = 1
# The most words of a list, and the most commands of a session.
LONGEST = 8
COMMANDS = 4
# How long the run of one list may take, in seconds.
HANGS = 100

FOLDERS = ("s", "t")
NAMES = ("a", "b", "c", "Bad")
PATHS = ("/k", "/l", "/l/-", "/l/0", "/l/7", "/k/x", "no")
DEEP = ("/k/x/y", "/m/n/0", "/l/0/k", "/l/7/k", "/k", "no/k")
VALUES: tuple[Any, ...] = ("x", "80", {"k": "v", "l": ["m", "n"]}, [], "", {"k": ["v"]}, {"l": ["m"]})

# An answer to words: the status, what is printed, and perhaps what is said on standard error.
ANSWER = re.compile(r'(\d) ("(?:[^"\\]|\\.)*")(?: "(?:[^"\\]|\\.)*")?')
# A state in an answer to `crash`, after the number of its images.
STATE = re.compile(r"\d+ \[(.*?)\](?=, \d+ \[|$)")

# The status of a refusal, and of a folder that is missing.
REFUSED, MISSING = 1, 3


@dataclass(frozen=True)
class State:
    """The configurations of a store, and how many commands it has accepted."""

    configs: Configs = field(default_factory=dict)
    count: int = 0

    def after(self, edits: Sequence[Document]) -> State:
        """The state after a command with these edits. Raises Refused."""
        return State(performed(self.configs, edits), self.count + 1)


def shown(state: State | None) -> str:
    """A state as the probe shows it."""
    if state is None:
        return "no store"
    texts = (f" {name}={json.dumps(as_json(tree), separators=(',', ':'))}" for name, tree in state.configs.items())
    return f"{state.count}{''.join(texts)}"


def written(text: str) -> str:
    """A text as an order has it."""
    return text.replace("\\", "\\\\").replace("\n", "\\n")


@dataclass
class Word:
    """A run of the program: its words and its input, the status and the answers that it has to have, and the states
    that it leads a folder through."""

    words: list[str]
    folder: str
    states: list[State | None]
    status: int = 0
    input: str = ""
    answers: list[str] = field(default_factory=list)

    def order(self) -> str:
        order = " ".join(written(word).replace(" ", "\\x20") for word in ("confstore", *self.words))
        return f"{order} < {written(self.input)}" if self.input else order


class World:
    """The folders, each with the state of its store, or with none."""

    def __init__(self, chance: random.Random) -> None:
        self.chance = chance
        self.folders: dict[str, State | None] = {}

    def word(self) -> Word:
        """A random word. The world is then the one after it."""
        kinds = {
            self.init: 2, self.imported: 4, self.edit: 6, self.moved: 3, self.listed: 3, self.checkpoint: 1,
            self.session: 5, self.backup: 2, self.taken: 3, self.inserted: 2, self.with_parents: 2,
        }  # fmt: skip
        makes: Callable[[str], Word] = self.init
        if self.folders:
            makes = self.chance.choices(list(kinds), list(kinds.values()))[0]
        word = makes(self.chance.choice(FOLDERS))
        if word.states:
            self.folders[word.folder] = word.states[-1]
        return word

    def refused(self, words: list[str], folder: str, more: str = "") -> Word:
        """Words that are refused, or whose folder is missing."""
        states = [self.folders[folder]] if folder in self.folders else []
        return Word(words, folder, states, REFUSED if states else MISSING, more)

    def init(self, folder: str) -> Word:
        if self.folders.get(folder) is not None:
            return self.refused(["init", folder], folder)
        return Word(["init", folder], folder, [None, State()])

    def imported(self, folder: str) -> Word:
        name, value = self.chance.choice(NAMES), json.dumps(self.chance.choice(VALUES))
        conditions = ["--if-absent"] if self.chance.random() < 0.2 else []
        words = ["import", "--any-root", folder, name, *conditions]
        state = self.folders.get(folder)
        if conditions and state is not None and name in state.configs:
            return self.refused(words, folder, value)
        return self.changed(words, folder, [{"import": name, "text": value}], value)

    def edit(self, folder: str) -> Word:
        """A set or a delete, perhaps with the count as its condition."""
        name, path, value = self.chance.choice(NAMES), self.chance.choice(PATHS), self.chance.choice(VALUES)
        edit: Document = {"set": name, "path": path, "value": value}
        words = ["set", folder, name, path, json.dumps(value), "--yaml"]
        if self.chance.random() < 0.3:
            edit, words = {"delete": name, "path": path}, ["delete", folder, name, path]
        elif self.chance.random() < 0.1:
            edit, words = {"delete": name, "path": ""}, ["delete", folder, name]
        state = self.folders.get(folder)
        if state is not None and self.chance.random() < 0.2:
            count = self.chance.choice((state.count, state.count + 1))
            words += ["--if-count", str(count)]
            if count != state.count:
                return self.refused(words, folder)
        return self.changed(words, folder, [edit])

    def moved(self, folder: str) -> Word:
        """A copy or a rename."""
        kind, name, to = self.chance.choice(("copy", "rename")), self.chance.choice(NAMES), self.chance.choice(NAMES)
        words, state = [kind, folder, name, to], self.folders.get(folder)
        if state is None or name not in state.configs:
            return self.refused(words, folder)
        if kind == "copy" and self.chance.random() < 0.7:
            words.append("--replace")
        elif kind == "copy" and to in state.configs:
            return self.refused(words, folder)
        put: Document = {"import": to, "text": json.dumps(as_json(state.configs[name]))}
        taken: Document = {"delete": name, "path": ""}
        return self.changed(words, folder, [put] if kind == "copy" else [taken, put])

    def taken(self, folder: str) -> Word:
        """A move of a value to another place of its configuration."""
        name, source, target = self.chance.choice(NAMES), self.chance.choice(PATHS), self.chance.choice(PATHS)
        words = ["move", folder, name, source, target]
        value = self.value(folder, name, source)
        if value is None:
            return self.refused(words, folder)
        put: Document = {"set": name, "path": target, "value": value}
        return self.changed(words, folder, [put] if source == target else [{"delete": name, "path": source}, put])

    def inserted(self, folder: str) -> Word:
        """A set before an element of a list, or one as any other where there is no list."""
        name, path, value = self.chance.choice(NAMES), self.chance.choice(PATHS), self.chance.choice(VALUES)
        above, _, step = path.rpartition("/")
        around, edit = self.value(folder, name, above), {"set": name, "path": path, "value": value}
        if isinstance(around, list) and (step == "-" or NUMBER.fullmatch(step)):
            at = len(around) if step == "-" else int(step)
            if at <= len(around):
                edit = {"set": name, "path": above, "value": [*around[:at], value, *around[at:]]}
        return self.changed(["set", folder, name, path, json.dumps(value), "--yaml", "--insert"], folder, [edit])

    def with_parents(self, folder: str) -> Word:
        """A set with the mappings that are missing on the way: it is made where the first one is missing."""
        name, path, value = self.chance.choice(NAMES), self.chance.choice(DEEP), self.chance.choice(VALUES)
        words = ["set", folder, name, path, json.dumps(value), "--yaml", "--parents"]
        above = ""
        for step in path.split("/")[1:] if path[0] == "/" else ():
            around = self.value(folder, name, above)
            above += f"/{step}"
            if isinstance(around, dict) and step not in around:
                rest = steps_of(path[len(above) :])
                nested = functools.reduce(lambda inner, key: {key: inner}, reversed(rest), value)
                return self.changed(words, folder, [{"set": name, "path": above, "value": nested}])
        return self.changed(words, folder, [{"set": name, "path": path, "value": value}])

    def value(self, folder: str, name: str, path: str) -> Any:
        """What is at a place of the store in a folder as a value of JSON; `None` if nothing is."""
        state = self.folders.get(folder)
        try:
            tree = None if state is None else value_at(state.configs, name, path)
        except Refused:
            return None
        return None if tree is None else as_json(tree)

    def listed(self, folder: str) -> Word:
        """Some edits or none in a list, perhaps with the count as its condition."""
        edits = [self.some_edit() for _ in range(self.chance.choice((0, 1, 2, 3)))]
        if self.chance.random() < 0.3:
            edits.append({"import": self.chance.choice(NAMES), "tree": self.chance.choice(VALUES)})
        words, text, state = ["batch", folder], json.dumps(edits), self.folders.get(folder)
        if state is not None and self.chance.random() < 0.2:
            count = self.chance.choice((state.count, state.count + 1))
            words += ["--if-count", str(count)]
            if count != state.count:
                return self.refused(words, folder, text)
        return self.changed(words, folder, edits, text)

    def changed(self, words: list[str], folder: str, edits: list[Document], more: str = "") -> Word:
        """Words that make a command of these edits."""
        state = self.folders.get(folder)
        if state is None:
            return self.refused(words, folder, more)
        try:
            return Word(words, folder, [state, state.after(edits)], 0, more)
        except Refused:
            return self.refused(words, folder, more)

    def checkpoint(self, folder: str) -> Word:
        words, state = ["checkpoint", folder], self.folders.get(folder)
        return self.refused(words, folder) if state is None else Word(words, folder, [state])

    def backup(self, folder: str) -> Word:
        """A backup into the other folder."""
        new = FOLDERS[1 - FOLDERS.index(folder)]
        state, words = self.folders.get(folder), ["backup", folder, new]
        if folder not in self.folders:
            return Word(words, folder, [], MISSING)
        if state is None or self.folders.get(new) is not None:
            return Word(words, folder, [state], REFUSED)
        return Word(words, new, [None, state])

    def session(self, folder: str) -> Word:
        kinds: tuple[list[str], ...] = ([], ["--group"], ["--group", "--checkpoint-after", "1"])
        words = ["run", folder, *self.chance.choice(kinds)]
        if folder not in self.folders:
            return Word(words, folder, [], MISSING)
        state = self.folders[folder]
        word = Word(words, folder, [state])
        if state is None:
            word.states.append(State())
        for _ in range(self.chance.randrange(COMMANDS + 1)):
            self.command(word)
        return word

    def command(self, word: Word) -> None:
        """Adds a command, a checkpoint or a question to a session."""
        state = word.states[-1] or State()
        kind = self.chance.random()
        if kind < 0.1:
            document, answer = {"checkpoint": ""}, f'ok: "{state.count}"'
        elif kind < 0.2:
            lines = "".join(f"\n  - {name}" for name in state.configs)
            document, answer = {"names": ""}, f"names:{lines or ' []'}"
        else:
            document, answer = self.change(word, state, kind < 0.4)
        word.input += f"{json.dumps(document)}\n...\n"
        word.answers.append(answer)

    def change(self, word: Word, state: State, is_batch: bool) -> tuple[Document, str]:
        """A command that changes something, and its answer."""
        edits = [self.some_edit() for _ in range(self.chance.choice((1, 2, 3)) if is_batch else 1)]
        try:
            word.states.append(state.after(edits))
            answer = f'ok: "{state.count + 1}"'
        except Refused:
            answer = "refused"
        return {"batch": edits} if is_batch else edits[0], answer

    def some_edit(self) -> Document:
        name, value = self.chance.choice(NAMES[:3]), self.chance.choice(VALUES)
        kind = self.chance.randrange(10)
        if kind < 5:
            return {"import": name, "text": json.dumps(value)}
        path = self.chance.choice(("", *PATHS))
        return {"set": name, "path": path, "value": value} if kind < 8 else {"delete": name, "path": path}


def without_repeats(states: Sequence[State | None]) -> list[str]:
    """The states as they are shown, each once."""
    return list(dict.fromkeys(shown(state) for state in states))


def states_in(answer: str) -> dict[str, list[str]]:
    """The states that an answer to `crash` has of each folder, in order."""
    found = {}
    for part in answer.split("; ")[1:]:
        folder, _, states = part.partition(": ")
        found[folder] = STATE.findall(states)
    return found


def try_list(seed: int, number: int) -> Failures:
    """Runs a list, and looks at its answers."""
    failures, world = Failures(), World(random.Random(f"{seed} {number}"))
    orders, words = ["list"], []
    wanted: list[dict[str, list[str]]] = []
    for _ in range(world.chance.randrange(1, LONGEST + 1)):
        word = world.word()
        words.append(word)
        orders += [word.order(), "crash ends"]
        states = {folder: [shown(state)] for folder, state in world.folders.items()}
        if word.states:
            states[word.folder] = without_repeats(word.states)
        wanted.append(states)
    text = "".join(f"{order}\n" for order in orders)
    done = subprocess.run([PROBE], input=text, capture_output=True, check=False, text=True, timeout=HANGS)
    answers = done.stdout.splitlines()
    failures.expect(f"list {number}", (done.returncode, len(answers)), (0, len(orders)))
    for place, word in enumerate(words[: (len(answers) - 1) // 2]):
        name = f"list {number}, {word.order()}"
        look_at(name, word, answers[2 * place + 1], failures)
        crashed = answers[2 * place + 2]
        failures.expect(f"{name}, {crashed}", states_in(crashed), wanted[place])
    return failures


def look_at(name: str, word: Word, answer: str, failures: Failures) -> None:
    """Whether the answer to a word is right."""
    found = ANSWER.fullmatch(answer)
    failures.expect(f"{name}: {answer}", found is not None and int(found[1]), word.status)
    if found is None or word.words[0] != "run" or word.status:
        return
    answers = answers_in(json.loads(found[2]))
    is_all = len(answers) == len(word.answers) and all(map(is_right, answers, word.answers))
    failures.expect(f"{name}: {answers} for {word.answers}", is_all, True)


def main() -> int:
    need_program(PROBE)
    count, seed = number_given(1, LISTS), number_given(2, SEED)
    failures = Failures()
    with ProcessPoolExecutor() as pool:
        for one in pool.map(functools.partial(try_list, seed), range(count)):
            failures.take(one)
    print(f"{count} lists")
    return failures.report()


if __name__ == "__main__":
    sys.exit(main())
