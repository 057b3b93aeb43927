#!/usr/bin/env python3
"""Commands with an about (docs/SESSION.md) through the built program, beside a model that knows each byte of the file.

- Random stores of each format, from small ones to larger, some with a torn end or a base in another spelling, get a
  session of random commands: with abouts, without, refused, over a limit, with conditions, spelled in several ways.
  The answers, the file byte by byte, what PyYAML reads in it, `log`, `get --at` and `names --at` have to be the
  model's, and of some stores `verify`, `backup`, `salvage` and `diff`.
- The sessions of `stories` renew the file: one command at a time, with commands that wait before, beside a checkpoint
  in slices, over a new folder and over a torn file. Each of their system calls fails once, or ends the process. What is
  left is the old file or a new one, whole but for a cut last record; no about is behind a base of another format; and
  the next session finds the state after a prefix of the commands, which has each one that was answered.
- Words that change a store take abouts, as a session takes them of the same commands, and refuse words that give none.
- Abouts at each limit and one beyond it, and what is no about, with lengths and records that were worked out by hand.
- Random commands without abouts leave the same bytes and answers as the program of the newest release of another version.

    checks/abouts.py [STORES [plain]]

It needs the built program, PyYAML, and a C compiler, and takes two minutes for 1,000 stores of each format. With
`plain` no command has an about, so that a program can be tried that knows none. The last line is 'N passed, M failed',
and the status is 0 if M is 0. The first store that fails is one of the smallest that do.
"""

from __future__ import annotations

import functools
import io
import json
import os
import random
import re
import shutil
import subprocess
import sys
import tarfile
import tempfile
from collections import Counter
from collections.abc import Callable, Iterator, Sequence
from concurrent.futures import ProcessPoolExecutor
from dataclasses import dataclass, field
from typing import Any

import yaml

from lib.about_stores import (
    ABOUT_KEYS, FORMATS, LARGE_ABOUTS, NAMES, TORN, Logged, Model, base_text, document, json_text, some_about, some_change,
    some_command, some_store, spelled,
)
from lib.answers import is_right
from lib.call_faults import ENDED, Call, Kind, calls_in, counted, try_faults
from lib.command_line import number_given
from lib.store_model import (
    THIRD, Damaged, NotAStore, compose_all, edited, keys_and_values, meaning, pieces_of, tree_of,
)
from lib.store_runs import (
    EMPTY, GROUPED, IMPORT, PROGRAM, SINGLE, SLICED, TOP, Ended, Failures, compiled, dropped, need_program, read_file,
    write_file,
)
from lib.trees import Configs, Document, as_json

# Where that is, lib.store_model says.
from confstore.style import to_text

# PyYAML's functions have no types.
compose: Callable[..., Any] = yaml.compose
dump: Callable[..., str] = yaml.dump

# How many stores of each format there are, if no other number is given, and how many one task takes.
STORES = 1_000
CHUNK = 20
# Whether no command has an about.
PLAIN = "plain" in sys.argv[2:]
# Of one store in so many `verify`, `backup`, `salvage` and `diff` are looked at.
LOOKED_AT = 10

# Of so many bytes a session in groups makes one group. Behind more, a checkpoint may end before the last command.
ONE_GROUP = 4_096

# The answers that are counted; `refused` stands for all refusals of edits.
ANSWERS = ("ok:", "refused", "Unmet", "AboutLarge", "BadCommand", "EmptyBatch")

# ---- random stores through the program


def run_of(program: str, words: Sequence[str], given: bytes = b"") -> Ended:
    """The status, the output and the errors of a run."""
    done = subprocess.run([program, *words], input=given, capture_output=True, check=False)
    return done.returncode, done.stdout, done.stderr.decode()


def run(*words: str) -> tuple[int, bytes, str]:
    """The same of the program that is tried, with the first line of its errors."""
    status, output, errors = run_of(PROGRAM, words)
    return status, output, errors.partition("\n")[0]


def compare_answers(
    output: bytes, commands: Sequence[bytes], wanted: Sequence[str], failures: Failures, title: str
) -> None:
    """Each command has to be answered as is wanted."""
    answers, rest = pieces_of(output)
    failures.expect(f"{title}: answers and rest", (len(answers), rest), (len(wanted), b""))
    for number, (command, answer, other) in enumerate(zip(commands, answers, wanted), 1):
        found = answer.decode().removeprefix("---\n").removesuffix("\n...\n")
        name = f"{title}, command {number}: {command!r} is answered {found!r} and not {other!r}"
        failures.expect(name, is_right(found, other), True)


def try_session(
    chance: random.Random, folder: str, model: Model, rest: bytes, length: int, failures: Failures
) -> tuple[str, Counter[str]]:
    """Random commands over a store, in one session. Returns what it is called, and how many answers there were."""
    title = f"{model.file + rest!r}"
    os.mkdir(folder)
    write_file(os.path.join(folder, "store.yaml"), model.file + rest)
    if rest:
        model.begin(model.base())
    sent: list[bytes] = []
    wanted: list[str] = []
    for _ in range(length):
        command = some_command(chance, model)
        command = without_about(command) if PLAIN else command
        sent.append(spelled(chance, command))
        wanted.append(model.answer(command))
    for question in [{"names": ""}, *({"export": name} for name in model.configs)]:
        sent.append(document(question))
        wanted.append(model.asked(question))
    given = b"".join(sent)
    words = chance.choice((SINGLE, GROUPED, SLICED if len(given) <= ONE_GROUP else GROUPED))
    title = f"{title} with {given!r}"
    status, output, errors = run_of(PROGRAM, [*words, folder], given)
    failures.expect(f"{title}: status and errors", (status, errors), (0, dropped(len(rest))))
    compare_answers(output, sent, wanted, failures, title)
    return title, Counter(answer.split('"')[0].removeprefix("refused: ").strip() for answer in wanted[:length])


def abouts_in(content: bytes) -> list[Any]:
    """The abouts of the records of a file, as PyYAML reads them."""
    trees = [tree_of(next(iter(compose_all(piece, yaml.CBaseLoader)))) for piece in pieces_of(content)[0][1:]]
    return [as_json(tree).get("about", {}) for tree in trees]


def look_at_file(folder: str, model: Model, failures: Failures, title: str) -> None:
    """The file has to be the model's, byte by byte, and to mean its state to PyYAML."""
    content = read_file(os.path.join(folder, "store.yaml"))
    failures.expect(f"{title}: file", content, model.file)
    try:
        configs, count, rest = meaning(content)
    except (NotAStore, Damaged) as fault:
        failures.expect(f"{title}: meaning", repr(fault), "a state")
        return
    failures.expect(f"{title}: meaning", (list(configs.items()), count, rest), (list(model.configs.items()), model.count, 0))
    failures.expect(f"{title}: abouts", abouts_in(content), [logged.about for logged in model.log])
    is_third = content.startswith(THIRD)
    renewed = len(model.files) > 1 and any(logged.about for logged in model.log)
    failures.expect(f"{title}: format", is_third or not renewed, True)


def look_at_log(chance: random.Random, folder: str, model: Model, failures: Failures, title: str) -> None:
    """`log` in its forms, and the state at a number."""
    lines = "".join(logged.line(False) for logged in model.log).encode()
    failures.expect(f"{title}: log", run("log", folder), (0, lines, ""))
    values = "".join(logged.line(True) for logged in model.log).encode()
    failures.expect(f"{title}: log --values", run("log", "--values", folder), (0, values, ""))
    records = b"".join(logged.record for logged in model.log)
    failures.expect(f"{title}: log --yaml", run("log", "--yaml", folder), (0, records, ""))
    keys = chance.sample(ABOUT_KEYS, chance.choice((1, 2, 3)))
    others = "".join(logged.line(False, keys) for logged in model.log).encode()
    asked = [f"--about={key}" for key in keys]
    failures.expect(f"{title}: log {asked}", run("log", *asked, folder), (0, others, ""))
    told = [logged.told() for logged in model.log]
    objects = run("log", "--json", folder)
    failures.expect(f"{title}: log --json", objects, (0, "".join(f"{json_text(one)}\n" for one in told).encode(), ""))
    failures.expect(f"{title}: log --json is JSON", [*map(json.loads, objects[1].splitlines())], told)
    number = chance.randint(model.first, model.count)
    configs, at = model.state_at(number), str(number)
    names = "".join(f"{name}\n" for name in configs).encode()
    failures.expect(f"{title}: names --at {at}", run("names", "--at", at, folder), (0, names, ""))
    name = chance.choice(NAMES[:4])
    found = run("get", "--at", at, folder, name)
    if name in configs:
        failures.expect(f"{title}: get --at {at} {name}", found, (0, to_text(as_json(configs[name])).encode(), ""))
    else:
        failures.expect(f"{title}: get --at {at} {name}", found, (1, b"", "confstore: NoConfig"))


def words_of(folder: str, change: Document) -> tuple[list[str], bytes]:
    """The words that make a change, and what they read."""
    kind, name = next(iter(change.items()))
    if kind == "batch":
        return ["batch", folder], json_text(name).encode()
    if kind == "import":
        return ["import", "--any-root", folder, name], change["text"].encode()
    path, value = change["path"], change.get("value")
    whole = [] if path else ["--whole"]
    return [kind, *whole, *([] if value is None else ["--yaml"]), "--", folder, name, path, *value_words(value)], b""


def value_words(value: Any) -> list[str]:
    return [] if value is None else [json_text(value)]


def try_words(chance: random.Random, folder: str, model: Model, failures: Failures, title: str) -> None:
    """Words with abouts do what a session does with the same commands, and refuse what is no about."""
    for _ in range(2):
        change = some_change(chance)
        is_bad = chance.random() < 0.15
        about = chance.choice(LARGE_ABOUTS) if is_bad else some_about(chance)
        (word, *others), given = words_of(folder, change)
        words = [word, *(f"--about={key}={text}" for key, text in about.items()), *others]
        status, output, errors = run_of(PROGRAM, words, given)
        wanted = 2 if is_bad else int(not model.answer({**change, "about": about}).startswith("ok"))
        failures.expect(f"{title}: {words!r} {errors!r}", (status, output), (wanted, b""))
        failures.expect(f"{title}: the file after {words!r}", file_in(folder), model.file)


def look_at_rest(chance: random.Random, folder: str, model: Model, failures: Failures, title: str) -> None:
    """`log` of one configuration and from a number on, `verify`, `backup`, `salvage` and `diff`."""
    name, start = chance.choice(NAMES[:4]), chance.randint(model.first, model.count)
    asked = [logged for logged in model.log if logged.number >= start and changes(logged, name)]
    lines = "".join(logged.line(False) for logged in asked).encode()
    failures.expect(f"{title}: log {name}", run("log", folder, name, "--from", str(start)), (0, lines, ""))
    said = f'state: whole\nbase: "{model.first}"\ncommands: "{len(model.log)}"\ndropped: "0"\n'.encode()
    failures.expect(f"{title}: verify", run("verify", folder), (0, said, ""))
    saved, salvaged = f"{folder}-saved", f"{folder}-salvaged"
    failures.expect(f"{title}: backup", run("backup", folder, saved), (0, b"", ""))
    failures.expect(f"{title}: the backup", file_in(saved), model.file)
    failures.expect(f"{title}: salvage", run("salvage", folder, salvaged), (0, said, ""))
    base = base_text(FORMATS[1], model.configs, model.count)
    failures.expect(f"{title}: what is salvaged", file_in(salvaged), base)
    ends = [chance.randint(model.first, model.count) for _ in range(2)]
    status, output, errors = run("diff", "--from", str(ends[0]), "--to", str(ends[1]), folder)
    before, after = (list(model.state_at(end).items()) for end in ends)
    failures.expect(f"{title}: diff {ends}", (status, errors), (int(before != after), ""))
    failures.expect(f"{title}: diff {ends} makes", list(edits_made(dict(before), output).items()), after)


def changes(logged: Logged, name: str) -> bool:
    return any(next(iter(edit.values())) == name for edit in logged.edits)


def file_in(folder: str) -> bytes:
    path = os.path.join(folder, "store.yaml")
    return read_file(path) if os.path.isfile(path) else b"there is no store"


def edits_made(configs: Configs, listed: bytes) -> Configs:
    """What a list of edits makes of the configurations."""
    tree = tree_of(compose(listed, yaml.CBaseLoader)) if listed else []
    for edit in tree if isinstance(tree, list) else []:
        assert isinstance(edit, tuple), "an edit is a mapping"
        configs = edited(configs, *keys_and_values(edit))
    return configs


def try_store(name: str, number: int) -> tuple[Failures, Counter[str]]:
    """A random store of a format, the greater the number, the larger, and a session over it."""
    chance, failures = random.Random(f"{name} {number}"), Failures()
    length = 1 + number // 100
    with tempfile.TemporaryDirectory() as top:
        folder = os.path.join(top, "store")
        model, rest = some_store(chance, name, length)
        was_third = model.format == FORMATS[2]
        title, counts = try_session(chance, folder, model, rest, length, failures)
        title = f"{name}, store {number}: {title}"
        look_at_file(folder, model, failures, title)
        if not PLAIN:
            try_words(chance, folder, model, failures, title)
        look_at_log(chance, folder, model, failures, title)
        if number % LOOKED_AT == 0:
            look_at_rest(chance, folder, model, failures, title)
    answers = {kind: counts[kind] for kind in ANSWERS}
    is_renewed = model.format == FORMATS[2] and not was_third
    abouts = sum(bool(logged.about) for logged in model.log)
    return failures, Counter({"renewed": int(is_renewed), "records with an about": abouts, **answers})


def try_stores(task: tuple[str, range]) -> tuple[Failures, Counter[str]]:
    failures, counts = Failures(), Counter[str]()
    for number in task[1]:
        found, more = try_store(task[0], number)
        failures.take(found)
        counts.update(more)
    return failures, counts


def random_stores(stores: int, failures: Failures) -> None:
    """Some stores of each format."""
    with ProcessPoolExecutor(os.cpu_count()) as workers:
        for name in FORMATS[:2] if PLAIN else FORMATS:
            counts = Counter[str]()
            tasks = [(name, range(start, min(start + CHUNK, stores))) for start in range(0, stores, CHUNK)]
            for found, more in workers.map(try_stores, tasks):
                failures.take(found)
                counts.update(more)
            said = ", ".join(f"{counts[what]} {what}" for what in ("renewed", "records with an about", *ANSWERS))
            print(f"  {stores} stores of {name}: {said}")


# ---- the step to the third format, where calls fail


LOOK: tuple[Document, ...] = ({"names": ""}, {"export": "app"}, {"checkpoint": ""})
ANN = {"by": "ann", "when": "2026-03-01T10:00:00Z", "why": "open the port\nand close it\n"}
BOB = {"by": "bob"}
# A text that makes a base of several slices, and as many bytes of a comment as a read may bring.
LONG = "x" * 9_000
PADDING = b"# " + b"x" * 65_536 + b"\n"


@dataclass
class Story:
    """A session over a folder. `accepted` has for each number of first commands how many of them are accepted, `states` the
    state after each number of accepted ones, and `files` what `store.yaml` may be, each with its least length."""

    name: str
    file: bytes
    words: Sequence[str]
    commands: Sequence[Document]
    padding: bytes = b""
    answers: list[bytes] = field(default_factory=list)
    accepted: list[int] = field(default_factory=lambda: [0])
    states: list[Configs] = field(default_factory=list)
    files: list[tuple[int, bytes]] = field(default_factory=list)

    def __post_init__(self) -> None:
        configs, self.first, self.rest = meaning(self.file or EMPTY)
        model = Model(self.file[: len(self.file) - self.rest] or EMPTY, configs, self.first)
        if self.rest:
            model.begin(model.base())
        self.states = [model.configs]
        starts = [(model.base(), model.count)]
        for command in self.commands:
            self.answers.append(answer_by(model, command))
            self.accepted.append(model.count - self.first)
            if model.count - self.first == len(self.states):
                self.states.append(model.configs)
                starts.append((model.base(), model.count))
        self.files = [(len(self.file), self.file), *model.files]
        if self.words == SLICED:
            self.files += [(len(base), base + self.records(model, base, number)) for base, number in starts]

    def records(self, model: Model, base: bytes, number: int) -> bytes:
        """The records that may come behind a base that a checkpoint wrote: all later ones, or all before the first with
        an about."""
        later = [piece for _, file in model.files for piece in pieces_of(file)[0][1:] if at_of(piece) > number]
        if not base.startswith(THIRD):
            later = [piece for piece in later if b"\nabout:\n" not in piece and at_of(piece) < first_about(later)]
        return b"".join(later)

    @property
    def given(self) -> bytes:
        return b"".join(self.padding + document(command) for command in self.commands)

    @property
    def output(self) -> bytes:
        return b"".join(self.answers)

    def may_hold(self, output: bytes) -> tuple[int, int]:
        """How many accepted commands are held at least and at most where these answers were written: all with a whole
        answer, and one more, or any number of those that are in groups."""
        answered = len(pieces_of(output)[0])
        performed = min(answered + 1, len(self.commands)) if self.words == SINGLE else len(self.commands)
        return self.accepted[answered], self.accepted[performed]


def answer_by(model: Model, command: Document) -> bytes:
    """The answer to a command of a story. What is refused there is for a configuration that is missing."""
    answer = model.answer(command)
    return f"---\n{'refused: NoConfig' if answer == 'refused' else answer}\n...\n".encode()


def at_of(piece: bytes) -> int:
    """The number of a record."""
    return int(piece.split(b'"')[1])


def first_about(records: Sequence[bytes]) -> int:
    return min((at_of(piece) for piece in records if b"\nabout:\n" in piece), default=10**9)


def of_app(value: str, about: Document | None = None) -> Document:
    command: Document = {"set": "app", "path": "/k", "value": value}
    return {**command, "about": about} if about and not PLAIN else command


def stories() -> Iterator[Story]:
    """The sessions that renew a file."""
    none: Document = {"set": "none", "path": "", "value": "x"}
    short = [of_app("1"), of_app("2", ANN), of_app("3", BOB), none if PLAIN else {**none, "about": BOB}, of_app("4")]
    waiting = [of_app("1"), {"batch": [of_app("2"), {"import": "b", "text": "[]"}]}, of_app("3", ANN), of_app("4")]
    slices = [of_app(LONG), of_app("2"), of_app("3", ANN), of_app("4", BOB), of_app(LONG), of_app("6"), of_app("7")]
    for name in FORMATS[:2]:
        old = EMPTY.replace(b"confstore-2", name.encode()) + IMPORT.replace(b"import: a\ntree: x", b"import: app\ntree: {}")
        yield Story(f"{name}, one by one", old, SINGLE, short)
        yield Story(f"{name}, with commands that wait", old, GROUPED, waiting)
        yield Story(f"{name}, beside a checkpoint in slices", old, SLICED, slices, PADDING)
        yield Story(f"{name}, torn", old + TORN, SINGLE, [of_app("1", ANN), of_app("2", BOB)])
    made: Document = {"import": "app", "text": "{}", **({} if PLAIN else {"about": ANN})}
    yield Story("a new folder", b"", SINGLE, [made, of_app("1", BOB)])
    yield Story("a new folder, in groups", b"", GROUPED, [made, of_app("1", BOB), of_app("2")])


class Trial:
    """A story in a folder of its own."""

    def __init__(self, top: str, story: Story) -> None:
        self.top, self.story = top, story
        compiled("fail_calls.c", top)
        write_file(os.path.join(top, "commands"), story.given)

    def folder(self, name: str) -> str:
        folder = os.path.join(self.top, name)
        os.mkdir(folder)
        if self.story.file:
            write_file(os.path.join(folder, "store.yaml"), self.story.file)
        return folder

    def run(self, folder: str, faults: dict[str, str]) -> Ended:
        """The session with its commands in a file, so that each read brings as much in each run."""
        environment = {**os.environ, "LD_PRELOAD": os.path.join(self.top, "fail_calls.so"), **faults}
        words = [PROGRAM, *self.story.words, folder]
        with open(os.path.join(self.top, "commands"), "rb") as commands:
            done = subprocess.run(words, stdin=commands, capture_output=True, check=False, env=environment)
        return done.returncode, done.stdout, done.stderr.decode()

    def calls(self, failures: Failures) -> list[Call]:
        """The calls of the session without faults, which has to answer as the model does."""
        log, folder, story = os.path.join(self.top, "log"), self.folder("folder"), self.story
        ended = self.run(folder, {"FAULT_LOG": log})
        failures.expect(f"{story.name}, without faults", ended, (0, story.output, dropped(story.rest)))
        calls = calls_in(log)
        names = [(call.name, call.file) for call in calls]
        if story.words == SLICED and not PLAIN:
            before = names[: names.index(("rename", "next.yaml"))]
            failures.expect(f"{story.name}: a checkpoint is given up", before.count(("create", "next.yaml")), 2)
        elif not PLAIN:
            failures.expect(f"{story.name}: the file is renewed", ("rename", "next.yaml") in names, True)
            failures.expect(f"{story.name}: its file", file_in(folder), story.files[-1][1])
        os.remove(log)
        shutil.rmtree(folder)
        return calls


def try_fault(trial: Trial, call: Call, kind: Kind) -> tuple[Failures, str]:
    """A session with a fault: what is wrong with it, and how it ended."""
    story, failures = trial.story, Failures()
    name = f"{story.name}, {call}, {kind}"
    folder = trial.folder(f"{call.number} {kind}")
    status, output, errors = trial.run(folder, kind.environment(call.number))
    failures.expect(f"{name}: status {status} {errors}", status in (0, 3, ENDED), True)
    failures.expect(f"{name}: output {output!r} is the first of the answers", story.output.startswith(output), True)
    if status == 0 and call.file != "input":
        failures.expect(f"{name}: output", output, story.output)
    content = b"" if not os.path.exists(os.path.join(folder, "store.yaml")) else file_in(folder)
    is_one = any(len(content) >= least and file.startswith(content) for least, file in story.files)
    failures.expect(f"{name}: {content!r} is the old file or a new one", is_one, True)
    held, rest = held_in(content, story, failures, name)
    least, most = story.may_hold(output)
    failures.expect(f"{name}: {held} held, of {least} to {most}", least <= held <= most, True)
    if 0 <= held < len(story.states):
        opened_again(folder, content, held, rest, story, failures, name)
    shutil.rmtree(folder)
    fault = re.search(r"(?m)^confstore: (\w+)$", errors)
    return failures, {0: "done", ENDED: "ended"}.get(status) or (fault[1] if fault else errors)


def held_in(content: bytes, story: Story, failures: Failures, name: str) -> tuple[int, int]:
    """How many commands a file has, as PyYAML reads it, and how many bytes behind them. No about is behind a base of
    another format than the third."""
    if not content:
        return 0, 0
    try:
        configs, count, rest = meaning(content)
    except (NotAStore, Damaged) as fault:
        failures.expect(f"{name}: what {content!r} means", repr(fault), "a state")
        return -1, 0
    whole = content[: len(content) - rest]
    has_about = any(abouts_in(whole))
    failures.expect(f"{name}: an about only behind a base of the third format", has_about <= whole.startswith(THIRD), True)
    held = count - story.first
    if 0 <= held < len(story.states):
        failures.expect(f"{name}: the state", list(configs.items()), list(story.states[held].items()))
    return held, rest


def opened_again(
    folder: str, content: bytes, held: int, rest: int, story: Story, failures: Failures, name: str
) -> None:
    """A session without faults finds what the file says, and writes a base of its format."""
    kept = content[: len(content) - rest]
    model = Model(kept or EMPTY, story.states[held], story.first + held)
    answers = b"".join(answer_by(model, question) for question in LOOK)
    status, output, errors = run_of(PROGRAM, ["run", folder], b"".join(map(document, LOOK)))
    failures.expect(f"{name}: opened again", (status, errors), (0, dropped(rest)))
    failures.expect(f"{name}: found", output, answers)
    failures.expect(f"{name}: the next base", file_in(folder), model.file)


def faults(failures: Failures) -> None:
    """Tries each kind of fault at each call of each story."""
    for story in stories():
        with tempfile.TemporaryDirectory() as top:
            trial = Trial(top, story)
            calls = trial.calls(failures)
            endings = try_faults(calls, functools.partial(try_fault, trial), failures)
        print(f"  {story.name}: {len(calls)} calls, {counted(endings)}")


# ---- the limits, by hand

# Abouts that are none or over a limit, each with the refusal.
LARGE, BAD = "refused: AboutLarge", "refused: BadCommand"
SET = "set: a\npath: \"\"\nvalue: z\n"
# Sixteen keys, `k0` to `k9` and `k10` to `k15`, and a seventeenth.
SIXTEEN = "".join(f"  k{number}: x\n" for number in range(16))


def yes(lines: str) -> tuple[str, str]:
    """An about that is accepted as it stands."""
    return lines, lines


# The lines below `about:`, and those of the record, or the refusal. `why: ""` and a break are 8 bytes, so 4,088 more are
# at the limit; of a literal of one line, `why: |`, its break, two spaces and one more break are 10; with `|-` and a line
# `a` before, 15. A key `k10` with quotes takes 8 bytes too, so 16 such keys and 248 bytes for each are 4,096.
LIMITS: tuple[tuple[str, str], ...] = (
    yes("  by: x\n"),
    yes(SIXTEEN),
    (SIXTEEN + "  k16: x\n", LARGE),
    *(yes(f"  {letter * 64}: x\n") for letter in "kK"),
    *(yes(f'  "{letter * 64}": x\n') for letter in ("\u00e9", "\u20ac", "\U0001f600", "\\n", "\\x01", "\\u2028")),
    *((f'  "{letter * 65}": x\n', LARGE) for letter in ("k", "\u00e9", "\u20ac", "\U0001f600", "\\n", "\\u2028")),
    (f'  "{"k" * 64}": x\n', f"  {'k' * 64}: x\n"),
    yes(f'  why: "{"x" * 4_088}"\n'),
    (f'  why: "{"x" * 4_089}"\n', LARGE),
    (f"  why: {'x' * 4_088}\n", f'  why: "{"x" * 4_088}"\n'),
    (f"  why: {'x' * 4_089}\n", LARGE),
    yes(f'  why: "{chr(0xe9) * 2_044}"\n'),
    (f'  why: "{chr(0xe9) * 2_044}x"\n', LARGE),
    yes(f'  why: "{chr(0x1f600) * 1_022}"\n'),
    (f'  why: "{chr(0x1f600) * 1_022}x"\n', LARGE),
    (f'  why: "{chr(0x1f600) * 1_023}"\n', LARGE),
    yes(f'  why: "{chr(92)}t{(chr(92) + "t") * 2_043}"\n'),
    (f'  why: "{(chr(92) + "t") * 2_044}x"\n', LARGE),
    yes(f'  why: "{(chr(92) + "x01") * 1_022}"\n'),
    (f'  why: "{(chr(92) + "x01") * 1_022}x"\n', LARGE),
    yes(f'  why: "{(chr(92) + "u2028") * 681}xx"\n'),
    (f'  why: "{(chr(92) + "u2028") * 681}xxx"\n', LARGE),
    yes(f"  why: |\n    {'x' * 4_086}\n"),
    (f"  why: |\n    {'x' * 4_087}\n", LARGE),
    yes(f"  why: |-\n    a\n    {'x' * 4_081}\n"),
    (f"  why: |-\n    a\n    {'x' * 4_082}\n", LARGE),
    yes("".join(f'  k{number}: "{"x" * 248}"\n' for number in range(10, 26))),
    ("".join(f'  k{number}: "{"x" * (249 if number == 25 else 248)}"\n' for number in range(10, 26)), LARGE),
)  # fmt: skip

# The same in other spellings, and what is no about.
SPELLINGS: tuple[tuple[str, str], ...] = (
    ("about: {by: ann, when: 'now', \"why\": a b}\n", '  by: ann\n  when: now\n  why: "a b"\n'),
    ('"about" : {"by":"ann"}\n', "  by: ann\n"),
    ("? about\n: ? by\n  : ann\n", "  by: ann\n"),
    ("about:\n    why:   open\n           the port # why\n    by:\n", '  why: "open the port"\n  by: ""\n'),
    ("about: {why: \"a\\nb\\n\", no: yes, 80: 443}\n", '  why: |\n    a\n    b\n  "no": "yes"\n  "80": "443"\n'),
    ("about:\n  why: >\n    a\n    b\n\n    c\n", '  why: |\n    a b\n    c\n'),
    ("about: {by: x, 'by ': x, By: x}\n", '  by: x\n  "by ": x\n  By: x\n'),
    # Plain it has 4,096 bytes, and in the one style two more.
    (f"about:\n  why: a {'x' * 4_088}\n", LARGE),
    # The one style of the about is at the limit, and this is far beyond it.
    (f"about: {{why: \"{'x' * 4_000}\\\n{' ' * 500}{'x' * 88}\"}}\n", f'  why: "{"x" * 4_088}"\n'),
    *((f"about:{value}\n", BAD) for value in ("", " x", " ''", " []", " [x]", " [{by: x}]", " {}", " {'': x}", " \"by: x\"")),
    *((f"about: {{{pairs}}}\n", BAD) for pairs in ("by: []", "by: {}", "by: {a: b}", "by: x, by: y", "by: x, '': y")),
    # The first fault counts.
    (f"about: {{{'k' * 65}: [x]}}\n", LARGE),
    (f"about: {{by: [x], {'k' * 65}: x}}\n", BAD),
    (f"about: {{{SIXTEEN.replace(chr(10), ',').replace('  ', ' ')} k16: []}}\n", BAD),
    (f"about: {{{SIXTEEN.replace(chr(10), ',').replace('  ', ' ')} k16: x}}\n", LARGE),
)  # fmt: skip

FINE, BIG = "about: {by: x}\n", f"about: {{{'k' * 65}: x}}\n"
# Whole documents that are refused, with an about where none may be, or over a limit.
REFUSED: tuple[tuple[str, str], ...] = (
    *((f"{question}\n{FINE}", BAD) for question in ("get: a\npath: ''", "export: a", "names:", "checkpoint:")),
    *((f"{question}\n{BIG}", LARGE) for question in ("get: a\npath: ''", "export: a", "names:", "checkpoint:", "no: x")),
    (FINE, BAD), (BIG, LARGE),
    (FINE + SET, BAD), (BIG + SET, BAD),
    (f"set: a\n{FINE}path: ''\nvalue: x\n", BAD), (f"set: a\npath: ''\n{FINE}value: x\n", BAD),
    (f"{SET}{FINE}more: x\n", BAD), (f"{SET}{FINE}{FINE}", BAD),
    (f"batch:\n  - {{set: a, path: '', value: x, {FINE.strip()}}}\n", BAD),
    (f"if: [{{count: '1'}}]\n{FINE}", BAD), (f"{FINE}if: [{{count: '1'}}]\n{SET}", BAD),
    (f"{SET}if: [{{count: '1'}}]\n{FINE}", BAD), (f"if: []\n{SET}{FINE}", BAD), (f"if: []\n{SET}{BIG}", LARGE),
    (f"if: [{{count: '7'}}]\n{SET}{FINE}", "refused: Unmet"), (f"if: [{{count: '7'}}]\n{SET}{BIG}", LARGE),
    (f"batch: []\n{FINE}", "refused: EmptyBatch"), (f"batch: []\n{BIG}", LARGE), (f"batch: x\n{FINE}", BAD),
    (f"import: Bad\ntext: x\n{FINE}", "refused: BadName"), (f"import: Bad\ntext: x\n{BIG}", LARGE),
    (f"import: b\ntext: '['\n{FINE}", "refused: Syntax"), (f"import: b\ntext: '['\n{BIG}", LARGE),
    (f"set: b\npath: ''\nvalue: x\n{FINE}", "refused: NoConfig"),
    (f"delete: a\npath: /k\n{FINE}", "refused: NoSuchPlace"), (f"delete: a\npath: k\n{FINE}", "refused: BadPath"),
    *((f"{SET}About: {{by: x}}\n", BAD), (f"{SET}abouts: {{by: x}}\n", BAD)),
)  # fmt: skip


def limits(failures: Failures) -> None:
    """The abouts of the tables above: the accepted ones in a store each, and then all of them in one."""
    cases = [(f"about:\n{lines}", wanted) for lines, wanted in LIMITS] + list(SPELLINGS)
    for name in FORMATS:
        old = EMPTY.replace(b"confstore-2", name.encode()) + IMPORT
        refused = [(SET + text, wanted) for text, wanted in cases if wanted in (LARGE, BAD)] + list(REFUSED)
        changes_nothing(old, refused, failures)
        kept = [(text, lines) for text, lines in cases if lines not in (LARGE, BAD)]
        for case in kept:
            all_accepted(name, old, [case], failures)
        all_accepted(name, old, kept, failures)
    last_number(failures)
    longest_record(failures)


def session_over(file: bytes, given: str) -> tuple[Ended, bytes]:
    """How a session over a file ends, and the file after it."""
    with tempfile.TemporaryDirectory() as folder:
        write_file(os.path.join(folder, "store.yaml"), file)
        return run_of(PROGRAM, ["run", folder], given.encode()), file_in(folder)


def changes_nothing(old: bytes, refused: Sequence[tuple[str, str]], failures: Failures) -> None:
    """Refused commands leave each byte of the file."""
    given = [f"{text}...\n" for text, _ in refused]
    (status, output, errors), file = session_over(old, "".join(given))
    failures.expect("refused abouts: status, errors and file", (status, errors, file), (0, "", old))
    compare_answers(output, [text.encode() for text in given], [wanted for _, wanted in refused], failures, "refused abouts")


def all_accepted(name: str, old: bytes, kept: Sequence[tuple[str, str]], failures: Failures) -> None:
    """Accepted commands in one session, of which the first renews a file of an older format."""
    base = b'---\nstore: confstore-3\nat: "1"\nconfigs:\n  a: x\n...\n'
    records = [f'---\nat: "{number}"\n{SET}about:\n{lines}...\n' for number, (_, lines) in enumerate(kept, 2)]
    wanted = (old if name == FORMATS[2] else base) + "".join(records).encode()
    (status, output, errors), file = session_over(old, "".join(f"{SET}{text}...\n" for text, _ in kept))
    title = f"{name}, {len(kept)} abouts from {kept[0][0]!r}"
    answers = "".join(f'---\nok: "{number}"\n...\n' for number in range(2, len(kept) + 2)).encode()
    failures.expect(f"{title}: ended", (status, output, errors), (0, answers, ""))
    failures.expect(f"{title}: file", file, wanted)


def last_number(failures: Failures) -> None:
    """The last command that is counted renews a file. One beyond it is refused, and changes nothing."""
    base = b'---\nstore: confstore-2\nat: "18446744073709551614"\nconfigs:\n  a: x\n...\n'
    record = f'---\nat: "18446744073709551615"\n{SET}about:\n  by: x\n...\n'.encode()
    left = base.replace(b"confstore-2", b"confstore-3") + record
    full = base.replace(b"614", b"615")
    refused = b"---\nrefused: CountFull\n...\n"
    command = f"{SET}{FINE}...\n"
    done = b'---\nok: "18446744073709551615"\n...\n'
    failures.expect("the last number", session_over(base, 2 * command), ((0, done + refused, ""), left))
    failures.expect("no number is left", session_over(full, command), ((0, refused, ""), full))


def longest_record(failures: Failures) -> None:
    """Seven imports whose record has 67,108,864 bytes with its about, and then one letter more: checks/batches.py has
    the same with 15 letters more, the bytes of the about."""
    items = ",".join(["x"] * 1_048_576)
    lists = "".join(f'- import: {name}\n  text: "[{items}]"\n' for name in "abcdef")
    for letters, answer, base, size in (
        (4_194_095, 'ok: "1"', EMPTY.replace(b"confstore-2", b"confstore-3"), 67_108_864),
        (4_194_096, "refused: RecordLong", EMPTY, 0),
    ):
        given = f"batch:\n{lists}- import: g\n  text: {'z' * letters}\n{FINE}...\n"
        ended, file = session_over(EMPTY, given)
        title = f"a record with a text of {letters} letters and an about"
        failures.expect(f"{title}: ended", ended, (0, f"---\n{answer}\n...\n".encode(), ""))
        failures.expect(f"{title}: file", (file[: len(EMPTY)], len(file) - len(EMPTY)), (base, size))


# ---- a store without abouts


def git(*words: str) -> bytes:
    return subprocess.run(["git", *words], cwd=TOP, stdout=subprocess.PIPE, check=True).stdout


def released(top: str) -> str:
    """The program of the newest release of another version than this one's, unpacked into a folder."""
    version = run_of(PROGRAM, ["--version"])[1].decode().split()[1]
    for commit in git("log", "--format=%H", "--", "release/manifest").decode().split():
        names = git("ls-tree", "--name-only", commit, "release/").decode().split()
        archive = next((name for name in names if name.endswith(".tar.xz") and f"-{version}-" not in name), None)
        if archive is not None:
            return unpacked(git("show", f"{commit}:{archive}"), top)
    sys.exit("the history has no release of another version: fetch all of it")


def unpacked(content: bytes, top: str) -> str:
    program = os.path.join(top, "confstore")
    with tarfile.open(fileobj=io.BytesIO(content)) as archive:
        member = next(found for found in archive.getmembers() if found.name.endswith("bin/confstore"))
        source = archive.extractfile(member)
        assert source is not None, "the program is a file"
        write_file(program, source.read())
    os.chmod(program, 0o755)
    return program


def without_about(command: Document) -> Document:
    return {key: value for key, value in command.items() if key != "about"}


def left_by(program: str, folder: str, file: bytes, words: Sequence[str], given: bytes) -> tuple[Any, ...]:
    """What a session of a program writes and leaves, and what two words then write."""
    os.mkdir(folder)
    write_file(os.path.join(folder, "store.yaml"), file)
    ended = run_of(program, [*words, folder], given)
    files = {name: read_file(os.path.join(folder, name)) for name in sorted(os.listdir(folder))}
    shown = [run_of(program, [*asked, folder]) for asked in (("log", "--values"), ("verify",))]
    shutil.rmtree(folder)
    return ended, files, shown


def try_same(task: tuple[str, int]) -> Failures:
    """A random store and commands without abouts, through this program and the released one."""
    other, number = task
    chance, failures = random.Random(f"same {number}"), Failures()
    model, rest = some_store(chance, FORMATS[number % 2], 1 + number // 40)
    file, given = model.file + rest, b""
    for _ in range(1 + number // 20):
        command = without_about(some_command(chance, model))
        given += spelled(chance, command)
        model.answer(command)
    words = chance.choice((SINGLE, GROUPED, SLICED))
    with tempfile.TemporaryDirectory() as top:
        folder = os.path.join(top, "store")
        found, wanted = (left_by(program, folder, file, words, given) for program in (PROGRAM, other))
    failures.expect(f"without abouts, {number}: {file!r} with {given!r}", found, wanted)
    return failures


def same_as_released(stores: int, failures: Failures) -> None:
    with tempfile.TemporaryDirectory() as top, ProcessPoolExecutor(os.cpu_count()) as workers:
        program = released(top)
        for found in workers.map(try_same, [(program, number) for number in range(stores)], chunksize=CHUNK):
            failures.take(found)
        print(f"  {stores} stores without abouts, beside {run_of(program, ['--version'])[1].decode().strip()}")


def main() -> int:
    need_program()
    stores, failures = number_given(1, STORES), Failures()
    if not PLAIN:
        limits(failures)
    random_stores(stores, failures)
    same_as_released(stores, failures)
    faults(failures)
    return failures.report()


if __name__ == "__main__":
    sys.exit(main())
