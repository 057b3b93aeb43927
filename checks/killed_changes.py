#!/usr/bin/env python3
"""`confstorectl undo`, `rollback`, `sync --delete` and `import --edits` are killed, while a writer changes the store.

In each round the store gets a state, and one of these words begins. At a random moment SIGKILL comes to it, or to what
it has started, or to the session of the server. In the first half of the rounds nobody else holds the store but by
turns, in the second half `clients/serve.py` does. A writer sets one value again and again, in a configuration that most
of these words change too, and notes the number that it was told. A model says what each word makes of the store. After
each round:

- the numbers of the log are one row from 1 on, and each change that was acknowledged is there under its number
- the word is one command of the log, or none. Before this command, after it and at the end the store is exactly as the
  model says, with the value that the writer set last. A word that ended with status 0 was done. One that was refused
  was not; this is a `sync` alone, where the writer came between. One that failed, and was done, says that it may be
- the same word a second time does what is missing, and a third time it changes nothing, and says so

Run it from the repository's root after the program is built; it needs PyYAML, and takes eight minutes:

    ./prove && python3 checks/killed_changes.py [ROUNDS [SEED]]

The last line is 'N passed, M failed', and the status is 0 if M is 0.
"""

from __future__ import annotations

import contextlib
import json
import os
import random
import signal
import subprocess
import sys
import tempfile
import time
from collections.abc import Callable, Mapping
from typing import NamedTuple, Optional

from lib.command_line import number_given, seed_given
from lib.killed_words import FIRST, OF_WRITER, PATIENCE, PLACE, WORD, Ground, Rounds, children_of, line_of
from lib.store_runs import Failures, need_program

from confstore import Reader, Tree

ROUNDS = 200

# For how long in seconds the writer pauses: `sync` waits until no change comes while it reads all of the store.
PAUSE, PAUSE_FOR_SYNC = 0.02, 0.1

# In how many of the rounds the kill comes once the word speaks to who holds the store, and how many seconds behind that
# at most; and by how much longer than a run that is not killed the others wait at most, and for how many seconds.
NEAR, BEHIND, LONGER, LONGEST = 0.7, 0.03, 1.2, 2.0

# How often is looked whether a word speaks to who holds the store.
LOOK = 0.0005

# The configurations: that of the writer, that of `rollback`, and others.
WEB, ROLLED = PLACE[0], "dns"
NAMES = (WEB, ROLLED, "mail", "cron", "a-b_c")

# The keys and texts of their trees, also such as the log and the pointers of edits have to escape.
KEYS = ("port", "hosts", "a/b", "~", "on", "", 'x"; delete dns ""', "; set web")
TEXTS = ("80", "", "true", "a b", 'q"; \\', "z\u00fcrich\n", "- a: b", "x" * 300)
DEEPEST = 2

# What a word says where there is nothing to do, or no configuration to remove; and where an answer did not come.
NOTHING = b"confstorectl: nothing changed\n"
NO_CONFIG = b"confstorectl: NoConfig: no configuration has the name; `confstorectl names` lists those that are there\n"
MAY_BE_DONE = b"a change was made or not"

# The status of a word that could not be done or got no answer; that of one that was refused is another.
FAILED = 3

# Who is killed where nobody is.
NOBODY = "nobody"

# What a store holds: its configurations by their names.
Trees = Mapping[str, Tree]


class Case(NamedTuple):
    """A word and its arguments, for a store whose last command has the number `start`: what this holds before the word
    and after it, whether the word sets the writer's value to what it was at first, and the status and the line where
    there is nothing to do."""

    words: list[str]
    start: int
    before: Trees
    after: Trees
    sets_value: bool = False
    needless: tuple[int, bytes] = (0, NOTHING)

    @property
    def word(self) -> str:
        return self.words[0]

    def is_said(self, said: bytes) -> bool:
        """Whether the word says this where it changes the store: `sync` shows what differs, the others say nothing."""
        return said.startswith(b"--- ") if self.word == "sync" else said == b""


# ---- the model


def some_tree(chance: random.Random, depth: int = 0) -> Tree:
    """A tree; a whole configuration is a mapping as a rule, and else a list."""
    kind = chance.random() if depth < DEEPEST else 1
    if kind < (0.3 if depth else 0.85):
        return {key: some_tree(chance, depth + 1) for key in chance.sample(KEYS, chance.randint(1, 5))}
    if kind < (0.5 if depth else 1):
        return [some_tree(chance, depth + 1) for _ in range(chance.choice((0, 1, 2, 3, 40)))]
    return chance.choice(TEXTS)


def changed(tree: Tree, chance: random.Random, depth: int = 0) -> Tree:
    """A tree whose members or elements are changed, taken out, added or moved, or another one."""
    if isinstance(tree, str) or chance.random() < 0.1:
        return some_tree(chance, depth)
    if isinstance(tree, list):
        parts = [changed(part, chance, depth + 1) if chance.random() < 0.3 else part for part in tree]
        return parts[chance.choice((0, 0, 1)) :] + [some_tree(chance, depth + 1)] * chance.randint(0, 2)
    kept = [key for key in tree if chance.random() < 0.8]
    if chance.random() < 0.2:
        chance.shuffle(kept)
    members = {key: changed(tree[key], chance, depth + 1) if chance.random() < 0.5 else tree[key] for key in kept}
    added = [key for key in KEYS if key not in members and chance.random() < 0.2]
    return {**members, **{key: some_tree(chance, depth + 1) for key in added}}


def members_of_web(trees: Trees) -> dict[str, Tree]:
    tree = trees[WEB]
    return tree if isinstance(tree, dict) else {"port": tree}


def with_value(trees: Trees, value: str) -> Trees:
    """The same with a value of the writer, which is the first member of its configuration."""
    members = {key: part for key, part in members_of_web(trees).items() if key != "n"}
    return {**trees, WEB: {"n": value, **members}}


def value_in(trees: Trees) -> str:
    return str(members_of_web(trees)["n"])


def some_state(chance: random.Random) -> Trees:
    names = [name for name in NAMES if name == WEB or chance.random() < 0.7]
    return with_value({name: some_tree(chance) for name in names}, FIRST)


def other_state(trees: Trees, chance: random.Random) -> Trees:
    """A state that differs from another one in two configurations at least, of which one is the writer's."""
    others: dict[str, Tree] = {WEB: changed(trees[WEB], chance)}
    for name in NAMES[1:]:
        if name not in trees:
            others.update({name: some_tree(chance)} if chance.random() < 0.5 else {})
        elif chance.random() < 0.7:
            others[name] = changed(trees[name], chance) if chance.random() < 0.7 else trees[name]
    other = with_value(others, FIRST)
    differing = {name for name in NAMES if text_of(other.get(name)) != text_of(trees.get(name))}
    return other if WEB in differing and len(differing) > 1 else other_state(trees, chance)


def text_of(tree: Optional[Tree]) -> str:
    """A tree as a text, in which the order of keys counts."""
    return json.dumps(tree)


def texts_of(trees: Trees) -> dict[str, str]:
    return {name: text_of(tree) for name, tree in trees.items()}


# ---- the words


def made(ground: Ground, trees: Trees) -> int:
    """Has the store hold this, by one batch. Its number."""
    with ground.opened() as store:
        with store.batch() as batch:
            for name in store.names():
                if name not in trees:
                    batch.delete(name)
            for name, tree in trees.items():
                batch.put(name, tree)
        assert batch.count is not None
        return batch.count


def case_of_undo(ground: Ground, chance: random.Random) -> Case:
    """Of one command, or of two."""
    after = some_state(chance)
    made(ground, after)
    before = other_state(after, chance)
    first = last = made(ground, before)
    if chance.random() < 0.3:
        before = other_state(before, chance)
        while texts_of(before) == texts_of(after):
            before = other_state(before, chance)
        last = made(ground, before)
    return Case(["undo", str(first) if first == last else f"{first}..{last}"], last, before, after)


def case_of_rollback(ground: Ground, chance: random.Random) -> Case:
    """Of a configuration that is there now, or was there then, or both."""
    then = before = some_state(chance)
    while text_of(then.get(ROLLED)) == text_of(before.get(ROLLED)):
        before = other_state(then, chance)
    number = made(ground, then)
    made(ground, other_state(then, chance))
    start = made(ground, before)
    after = {name: tree for name, tree in before.items() if name != ROLLED}
    if ROLLED in then:
        after[ROLLED] = then[ROLLED]
    needless = (0, NOTHING) if ROLLED in after else (1, NO_CONFIG)
    return Case(["rollback", ROLLED, "--to", str(number)], start, before, after, needless=needless)


def case_of_sync(ground: Ground, chance: random.Random) -> Case:
    before = some_state(chance)
    after = other_state(before, chance)
    folder = tempfile.mkdtemp(dir=ground.top)
    for name, tree in after.items():
        write_json(os.path.join(folder, f"{name}.yaml"), tree)
    return Case(["sync", folder, "--delete"], made(ground, before), before, after, True)


def case_of_import(ground: Ground, chance: random.Random) -> Case:
    """Of the writer's configuration, or of another one, which may be new."""
    before = some_state(chance)
    name = chance.choice((WEB, ROLLED))
    tree = before.get(name)
    while tree is None or text_of(tree) == text_of(before.get(name)):
        tree = other_state(before, chance).get(name)
    file = os.path.join(tempfile.mkdtemp(dir=ground.top), "text")
    write_json(file, tree)
    words = ["import", name, file, "--edits"]
    return Case(words, made(ground, before), before, {**before, name: tree}, name == WEB)


def write_json(path: str, tree: Tree) -> None:
    """Writes a tree as JSON, which is YAML too."""
    with open(path, "w", encoding="utf-8") as file:
        json.dump(tree, file, ensure_ascii=False)


CASES: dict[str, Callable[[Ground, random.Random], Case]] = {
    "undo": case_of_undo, "rollback": case_of_rollback, "sync": case_of_sync, "import": case_of_import,
}  # fmt: skip

# What the commands of a word begin with in the log. An import may be whole, too.
BATCH = ("batch ",)
FORMS = {"import": (*BATCH, "import ")}


# ---- the rounds


def is_speaking(process: int) -> bool:
    """Whether a word has begun a session of the program, or is connected to a server."""
    with contextlib.suppress(OSError):
        with os.scandir(f"/proc/{process}/fd") as files:
            if any(os.readlink(file.path).startswith("socket:") for file in files):
                return True
        for child in children_of(process):
            with open(f"/proc/{child}/cmdline", "rb") as words:
                if words.read().split(b"\0")[1:2] == [b"run"]:
                    return True
    return False


class Changing(Rounds):
    """The rounds on one ground."""

    def __init__(self, ground: Ground, chance: random.Random, failures: Failures) -> None:
        super().__init__(ground, chance, failures)
        self.last = 0  # the number of the last command that was seen

    def run(self, count: int) -> None:
        spans = {word: self.unkilled(word) for word in CASES}
        for number in range(count):
            word = list(CASES)[number % len(CASES)]
            self.round(f"round {number}, {word}", word, spans[word])
        seen = "".join(f"\n  {times} {what}" for what, times in sorted(self.seen.items()))
        print(f"{self.ground.name}: {count} rounds, {len(self.ground.writer.told)} changes{seen}", flush=True)

    def unkilled(self, word: str) -> float:
        """A word that is not killed. How many seconds it takes."""
        case = CASES[word](self.ground, self.chance)
        begin = time.monotonic()
        process = self.begun(case)
        said = process.communicate(timeout=PATIENCE)[0]
        span = time.monotonic() - begin
        self.judge_round(f"{word} that is not killed", case, process.returncode, said, NOBODY)
        return span

    def round(self, about: str, word: str, span: float) -> None:
        case = CASES[word](self.ground, self.chance)
        process = self.begun(case)
        self.wait(process, span)
        killed, said = self.kill(process)
        self.judge_round(f"{about}, {killed} is killed", case, process.returncode, said, killed)

    def begun(self, case: Case) -> "subprocess.Popen[bytes]":
        """A word that has begun, beside the writer."""
        self.ground.writer.pause = PAUSE_FOR_SYNC if case.word == "sync" else PAUSE
        self.ground.writer.start()
        return self.ground.begun(*case.words)

    def wait(self, process: "subprocess.Popen[bytes]", span: float) -> None:
        """Waits until the kill is to come."""
        if self.chance.random() > NEAR:
            time.sleep(self.chance.uniform(0, min(span * LONGER, LONGEST)))
            return
        end = time.monotonic() + PATIENCE
        while not is_speaking(process.pid) and process.poll() is None and time.monotonic() < end:
            time.sleep(LOOK)
        time.sleep(self.chance.uniform(0, BEHIND))

    def judge_round(self, about: str, case: Case, status: int, said: bytes, killed: str) -> None:
        """Looks what a word did, and whether it ended so, and has it done again."""
        self.ground.writer.stop()
        self.ground.settle()
        is_done, now = self.judge(about, case)
        how = {0: "done", -signal.SIGKILL: "killed"}.get(status, f"failed with {status}")
        self.seen[f"{case.word}, kill of {killed}: {how}, {'changed' if is_done else 'unchanged'}"] += 1
        is_refused = status > 0 and b": Unmet: " in said
        if status == 0:
            self.expect(f"{about}: ends well, and says {said!r}", (is_done, case.is_said(said)), (True, True))
        elif is_refused:
            self.expect(f"{about}: is refused, and says {said!r}", (case.word, is_done), ("sync", False))
        elif status > 0 and is_done:
            self.expect(f"{about}: is done, and says {said!r}", (status, MAY_BE_DONE in said), (FAILED, True))
        if killed in (NOBODY, WORD):
            self.expect(f"{about}: fails by itself, and says {said!r}", status <= 0 or is_refused, True)
        for more in ("again", "a third time"):
            now = self.repeat(f"{about}, {more}", case, now)

    def repeat(self, about: str, case: Case, now: Trees) -> Trees:
        """Has a word done once more, while nobody else changes the store. What this holds then."""
        after = with_value(case.after, FIRST if case.sets_value else value_in(now))
        is_needed = texts_of(now) != texts_of(after)
        process = self.ground.begun(*case.words)
        said = process.communicate(timeout=PATIENCE)[0]
        if is_needed:
            self.expect(f"{about}: says {said!r}", (process.returncode, case.is_said(said)), (0, True))
        else:
            self.expect(f"{about}: with nothing to do", (process.returncode, said), case.needless)
        is_done, now = self.judge(about, case._replace(start=self.last, before=now, after=after))
        self.expect(f"{about}: is a command", is_done, is_needed)
        return now

    def judge(self, about: str, case: Case) -> tuple[bool, Trees]:
        """Looks whether a word was done whole, or not at all. Whether it was done, and what the store holds now."""
        log, told = self.look(about, [], 1), self.ground.writer.told
        unknown = {line_of(value): value for value in self.ground.writer.unknown}
        by_writer = [line for _, line in log if line.startswith(OF_WRITER)]
        self.expect(f"{about}: changes of the writer that are there twice", len(by_writer), len(set(by_writer)))
        self.last = log[-1][0]
        later = [(number, line) for number, line in log if number > case.start]
        others = [number for number, line in later if number not in told and line not in unknown]
        self.expect(f"{about}: commands of nobody", others[1:], [])
        trees, value, reader = case.before, value_in(case.before), Reader(self.ground.folder)
        for number, line in later:
            if number not in others[:1]:
                value = told.get(number) or unknown.get(line, value)
                continue
            self.expect(f"{about}: form of {line[:40]}", line.startswith(FORMS.get(case.word, BATCH)), True)
            self.compare(f"{about}: before {number}", reader.at(number - 1), with_value(trees, value))
            trees, value = case.after, FIRST if case.sets_value else value
            self.compare(f"{about}: after {number}", reader.at(number), with_value(trees, value))
        now = with_value(trees, value)
        self.compare(f"{about}: at the end", reader, now)
        with self.ground.opened() as store:
            self.compare(f"{about}: at the end, of who holds the store", store, now)
        return bool(others), now

    def compare(self, about: str, found: Trees, wanted: Trees) -> None:
        one, other = texts_of({name: found[name] for name in found}), texts_of(wanted)
        differing = [name for name in {**one, **other} if one.get(name) != other.get(name)]
        self.expect(about, {name: one.get(name) for name in differing}, {name: other.get(name) for name in differing})


def main() -> int:
    need_program()
    rounds, chance, failures = number_given(1, ROUNDS), random.Random(seed_given(2)), Failures()
    with tempfile.TemporaryDirectory() as top:
        for name in ("alone", "served"):
            ground = Ground(top, name, PAUSE)
            if name == "served":
                ground.serve()
            try:
                Changing(ground, chance, failures).run(rounds // 2)
            finally:
                ground.end()
    return failures.report()


if __name__ == "__main__":
    sys.exit(main())
