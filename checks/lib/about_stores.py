"""The model of a store with abouts (docs/SESSION.md), which knows each byte of its file, and random stores, commands and
abouts for it, for checks/abouts.py."""

from __future__ import annotations

import copy
import random
import re
from collections.abc import Callable, Sequence
from dataclasses import dataclass
from typing import Any

import yaml

from .store_model import THIRD, fault_of_about, tree_of
from .trees import Configs, Document, Refused, as_json, as_tree, performed, value_at

# Where that is, .store_model says.
from confstore.style import SPELLED, quoted, to_text

# PyYAML's functions have no types.
compose: Callable[..., Any] = yaml.compose
dump: Callable[..., str] = yaml.dump

FORMATS = ("confstore-1", "confstore-2", "confstore-3")
NAMES = ("a", "b", "web", "on", "Bad")
KEYS = ("k", "l", "", "a/b", "x y", "0")
PATHS = ("", "", "", "", "/k", "/k", "/l", "/l/-", "/l/0", "/l/7", "/k/k", "/a~1b", "/x y", "/", "no", "/~2")
TEXTS = (
    "x", "80", "", "true", "a: b", " x", "# x", "two\nlines", "two\nlines\n", "kept\n\n", "\n", "\t", "...\n---\n",
    "q\"'\\", "\u00e9\u2028\u0085", "\u0001\ufeff", "\U0001f600", "- x", "z" * 150,
)  # fmt: skip
USUAL_KEYS = ("by", "when", "why")
ABOUT_KEYS = ("by", "when", "why", "ticket", "if", "about", "\u00e9 x", "no", "- k", "\U0001f600\n")
ABOUT_TEXTS = (*TEXTS, "ann", "2026-03-01T10:00:00Z", "open the port", "a\nb\n...\nc")
# The keys of the commands, those that change something first.
CHANGES = (("import", "text"), ("set", "path", "value"), ("delete", "path"), ("batch",))
QUESTIONS = (("get", "path"), ("export",), ("names",), ("checkpoint",))
# What is no about, and what is one over a limit.
NO_ABOUTS: tuple[Any, ...] = ("", "x", [], ["x"], {}, {"": "x"}, {"by": ["x"]}, {"by": {}}, {"a": "b", "c": {"d": "e"}})
LARGE_ABOUTS: tuple[Any, ...] = (
    {f"k{number}": "x" for number in range(17)}, {"\u00e9" * 65: ""}, {"why": "x" * 4_089}, {"b": "\n" * 2_048},
)  # fmt: skip
# What is behind the last record of a store that a crash cut.
TORN = b'---\nat: "9"\nset: a\npa'

# ---- the texts of the model


def json_text(value: Any) -> str:
    """A JSON text on one line, as the program writes it."""
    if isinstance(value, str):
        return f'"{SPELLED.sub(json_escape, value)}"'
    if isinstance(value, list):
        return f"[{','.join(map(json_text, value))}]"
    return "{" + ",".join(f"{json_text(key)}:{json_text(inner)}" for key, inner in value.items()) + "}"


def json_escape(found: re.Match[str]) -> str:
    letters = {'"': '"', "\\": "\\", "\b": "b", "\t": "t", "\n": "n", "\f": "f", "\r": "r"}
    return "\\" + letters.get(found[0], f"u{ord(found[0]):04X}")


def document(value: Any) -> bytes:
    """A document in the one style."""
    return f"---\n{to_text(value)}...\n".encode()


def base_text(name: str, configs: Configs, count: int) -> bytes:
    """The base of a state."""
    trees = {config: as_json(tree) for config, tree in configs.items()}
    return document({"store": name, "at": str(count), "configs": trees})


def spelled(chance: random.Random, value: Document) -> bytes:
    """A document in the one style, in flow style, or as PyYAML writes it."""
    kind = chance.randrange(3)
    if kind == 0:
        return document(value)
    start = "---\n" if chance.random() < 0.5 else "# a comment\n"
    if kind == 1:
        return f"{start}{json_text(value)}\n...\n".encode()
    style, flow, width = chance.choice((None, "'", '"')), chance.choice((True, False, None)), chance.choice((20, 80, 999))
    options = {"default_style": style, "default_flow_style": flow, "width": width, "allow_unicode": chance.random() < 0.5}
    text = dump(copy.deepcopy(value), Dumper=yaml.CSafeDumper, sort_keys=False, **options)
    return f"{start}{text}...\n".encode()


# ---- the model


@dataclass(frozen=True)
class Logged:
    """A command that was accepted: its number, its edits as records have them, its about, its record, and the state
    after it."""

    number: int
    edits: Sequence[Document]
    is_batch: bool
    about: Document
    record: bytes
    configs: Configs

    def line(self, values: bool, shown: Sequence[str] = USUAL_KEYS) -> str:
        """Its line in a log that shows these keys of abouts."""
        labels = "".join(f" {key} {quoted(self.about[key])}" for key in shown if key in self.about)
        edits = "; ".join(edit_words(edit, values) for edit in self.edits)
        return f"{self.number}{labels} {'batch ' if self.is_batch else ''}{edits}\n"

    def told(self) -> Document:
        """What a log says of it as JSON."""
        usual = {key: self.about[key] for key in USUAL_KEYS if key in self.about}
        about = {"about": self.about} if self.about else {}
        return {"at": str(self.number), **usual, **about, "edits": list(self.edits)}


def edit_words(edit: Document, values: bool) -> str:
    """What a log says of an edit."""
    kind, name = next(iter(edit.items()))
    path = f" {quoted(edit['path'])}" if "path" in edit else ""
    value = [f" {json_text(edit[key])}" for key in ("tree", "value") if values and key in edit]
    return f"{kind} {name}{path}{''.join(value)}"


class Model:
    """A store: its file, its state, and the commands since its base. `files` are all files that it had, each with the
    number of bytes that it had at first."""

    def __init__(self, base: bytes, configs: Configs, count: int) -> None:
        self.configs, self.count = configs, count
        self.files: list[tuple[int, bytes]] = []
        self.begin(base)

    def begin(self, base: bytes, record: bytes = b"") -> None:
        """The file is now a base of the state, with a record."""
        self.first, self.of_base = self.count, self.configs
        self.log: list[Logged] = []
        self.files.append((len(base + record), base))

    @property
    def file(self) -> bytes:
        return self.files[-1][1]

    @property
    def format(self) -> str:
        """The format of the next base."""
        return FORMATS[2] if self.file.startswith(THIRD) else FORMATS[1]

    def base(self) -> bytes:
        return base_text(self.format, self.configs, self.count)

    def state_at(self, number: int) -> Configs:
        return self.of_base if number == self.first else self.log[number - self.first - 1].configs

    def answer(self, command: Document) -> str:
        """Performs a command. Returns its answer, or `refused` for any refusal of an edit."""
        about: Document = {}
        if list(command)[-1] == "about":
            *others, (_, about) = command.items()
            fault = fault_of_about(as_tree(about))
            if fault:
                return f"refused: {fault}"
            command = dict(others)
        conditions = command.get("if")
        plain = {key: value for key, value in command.items() if key != "if"}
        is_known = tuple(plain) in (CHANGES if about or conditions else CHANGES + QUESTIONS)
        if not is_known or next(iter(command)) != next(iter(plain if conditions is None else command)):
            return "refused: BadCommand"
        if tuple(plain) in QUESTIONS:
            return self.asked(plain)
        if not all(self.holds(condition) for condition in conditions or ()):
            return "refused: Unmet"
        return self.perform(plain, about)

    def holds(self, condition: Document) -> bool:
        if "count" in condition:
            return bool(condition["count"] == str(self.count))
        found = value_at(self.configs, condition.get("test", condition.get("absent")), condition.get("path", ""))
        return found is None if "absent" in condition else found == as_tree(condition["value"])

    def asked(self, question: Document) -> str:
        """The answer to a question, and to a checkpoint, which it makes."""
        kind, name = next(iter(question.items()))
        if kind == "checkpoint":
            self.begin(self.base())
            return f'ok: "{self.count}"'
        if kind == "names":
            return to_text({"names": list(self.configs)})[:-1]
        try:
            found = value_at(self.configs, name, question.get("path", ""))
        except Refused:
            return "refused"
        if found is None:
            return "refused"
        answer = {"text": to_text(as_json(found))} if kind == "export" else {"value": as_json(found)}
        return to_text(answer)[:-1]

    def perform(self, command: Document, about: Document) -> str:
        is_batch = "batch" in command
        edits = command["batch"] if is_batch else [command]
        if not edits:
            return "refused: EmptyBatch"
        try:
            configs = performed(self.configs, edits)
        except Refused:
            return "refused"
        made = [recorded(edit) for edit in edits]
        command = {"at": str(self.count + 1), **({"batch": made} if is_batch else made[0])}
        record = document({**command, "about": about} if about else command)
        if about and self.format != FORMATS[2]:
            self.begin(base_text(FORMATS[2], self.configs, self.count), record)
        self.accept(Logged(self.count + 1, made, is_batch, about, record, configs))
        return f'ok: "{self.count}"'

    def accept(self, logged: Logged) -> None:
        self.configs, self.count = logged.configs, logged.number
        self.log.append(logged)
        least, file = self.files[-1]
        self.files[-1] = (least, file + logged.record)


def recorded(edit: Document) -> Document:
    """An edit as a record has it: the text of an import is read, which is in JSON here."""
    if "import" not in edit:
        return edit
    return {"import": edit["import"], "tree": as_json(tree_of(compose(edit["text"], yaml.CBaseLoader)))}


# ---- random commands and stores


def some_tree(chance: random.Random, depth: int = 2) -> Any:
    kind = chance.random()
    if depth == 0 or kind < 0.4:
        return chance.choice(TEXTS)
    inner = [some_tree(chance, depth - 1) for _ in range(chance.choice((0, 1, 2, 3)))]
    return inner if kind < 0.6 else dict(zip(chance.sample(KEYS, len(inner)), inner))


def some_edit(chance: random.Random) -> Document:
    name = chance.choice(NAMES if chance.random() < 0.1 else NAMES[:4])
    kind, path = chance.randrange(10), chance.choice(PATHS)
    if kind < 5:
        return {"import": name, "text": json_text(some_tree(chance))}
    return {"set": name, "path": path, "value": some_tree(chance)} if kind < 8 else {"delete": name, "path": path}


def some_change(chance: random.Random, batches: bool = True) -> Document:
    if batches and chance.random() < 0.3:
        return {"batch": [some_edit(chance) for _ in range(chance.choice((0, 1, 2, 2, 3)))]}
    return some_edit(chance)


def some_about(chance: random.Random) -> Document:
    keys = chance.sample(ABOUT_KEYS, chance.choice((1, 1, 2, 3, 3, 5)))
    return {key: chance.choice(ABOUT_TEXTS) for key in keys}


def some_condition(chance: random.Random, model: Model) -> Document:
    """A condition that may hold."""
    kind, name = chance.randrange(3), chance.choice(NAMES[:4])
    if kind == 0:
        return {"count": str(model.count + chance.choice((0, 0, 1)))}
    there = value_at(model.configs, name, "")
    if kind == 1 or there is None:
        return {"absent": name}
    return {"test": name, "path": "", "value": as_json(there) if chance.random() < 0.8 else "other"}


def some_question(chance: random.Random) -> Document:
    if chance.random() < 0.4:
        return {"checkpoint": ""}
    name = chance.choice(NAMES[:4])
    return chance.choice(({"get": name, "path": chance.choice(PATHS)}, {"export": name}, {"names": ""}))


def some_command(chance: random.Random, model: Model) -> Document:
    is_question = chance.random() < 0.15
    command = some_question(chance) if is_question else some_change(chance)
    if not is_question and chance.random() < 0.25:
        conditions = [some_condition(chance, model) for _ in range(chance.choice((1, 1, 2)))]
        command = {"if": conditions, **command}
    kind = chance.random()
    if kind < (0.8 if is_question else 0.45):
        return command
    about = some_about(chance)
    if kind >= 0.85:
        about = chance.choice(LARGE_ABOUTS if kind < 0.92 else NO_ABOUTS)
    is_first = chance.random() < 0.03
    return {"about": about, **command} if is_first else {**command, "about": about}


def some_base(chance: random.Random, name: str, configs: Configs, count: int) -> bytes:
    """A base in a format, mostly in the one style."""
    plain = base_text(name, configs, count)
    kind = chance.random()
    if kind < 0.75:
        return plain
    if kind < 0.85:
        return plain.replace(b"store: " + name.encode(), b"store: '" + name.encode() + b"'", 1)
    if kind < 0.95:
        return plain.replace(b'at: "', b'at:  "', 1)
    trees = {config: as_json(tree) for config, tree in configs.items()}
    return spelled(chance, {"store": name, "at": str(count), "configs": trees})


def some_store(chance: random.Random, name: str, length: int) -> tuple[Model, bytes]:
    """A store of a format, with records that are allowed behind its base, and bytes behind its last record. Some records
    are in another spelling."""
    model = Model(b"", {}, chance.choice((0, 0, 7, 1_234)))
    for _ in range(chance.randrange(3)):
        model.answer({"import": chance.choice(NAMES[:4]), "text": json_text(some_tree(chance))})
    model.begin(some_base(chance, name, model.configs, model.count))
    base, others = model.file, b""
    for _ in range(chance.randrange(length + 1)):
        command = some_change(chance, name != FORMATS[0])
        about = some_about(chance) if name == FORMATS[2] and chance.random() < 0.5 else {}
        # In a store of the third format no about renews the file, however its base is spelled.
        model.files[-1] = (0, THIRD)
        model.perform(command, about)
    records: list[Logged] = []
    for logged in model.log:
        record = logged.record if chance.random() < 0.85 else respelled(chance, logged)
        records.append(Logged(logged.number, logged.edits, logged.is_batch, logged.about, record, logged.configs))
    model.log, model.files = records, [(0, base + b"".join(logged.record for logged in records))]
    if chance.random() < 0.1:
        others = TORN
    return model, others


def respelled(chance: random.Random, logged: Logged) -> bytes:
    """A record in another spelling."""
    edits: Document = {"batch": list(logged.edits)} if logged.is_batch else dict(logged.edits[0])
    return spelled(chance, {"at": str(logged.number), **edits, **({"about": logged.about} if logged.about else {})})
