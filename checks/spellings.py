#!/usr/bin/env python3
"""Sends 140,000 commands as other programs spell them, by hand and with random changes, and has each read in two ways.

What is spelled in a usual way is read without the general reader of YAML. Each command is sent as it is to one store,
and behind a line with a comment, which leaves it to the general reader, to another one. Both have to give the same
answers, and at the end of a session the two files `store.yaml` have to be the same, byte for byte. The commands are

- edits as PyYAML's two emitters, `json.dumps`, and Python's `repr` spell them. Each has to be accepted, with the next
  number. Then a `get` has to give the text that was meant, as PyYAML reads the answer, or to be refused after a
  `delete`.
- commands by hand in the spellings that are read fast, or nearly so: what is between quotes is not escaped. Conditions,
  batches and abouts are among them.
- all of these with one to three random changes of signs, quotes, spaces and line breaks. Most are refused, or say
  something else. What has become no piece, or two, is left out.

Other programs don't spell all edits as YAML 1.2 and the profile have them. These are left out:

- with x85, x2028 or x2029 where PyYAML doesn't escape them: it takes them for line breaks, as YAML 1.1 does
- with a line that begins with a space, in PyYAML's style `>`: it folds such a line, and itself reads a line break there
- with a number in one of PyYAML's styles for all texts: it writes a tag
- with a character above xFFFF that JSON escapes: it has two surrogates for it, which no escape of YAML gives
- with what Python escapes: it does so between single quotes too, where YAML has no escapes

Run it from the repository's root after the program is built; it needs PyYAML, and takes a minute:

    ./prove && python3 checks/spellings.py [SEED]

The environment's CONFSTORE names another program. The last line is 'N passed, M failed', and the status is 0 if M is 0.
"""

from __future__ import annotations

import json
import os
import random
import re
import sys
import tempfile
from collections import Counter
from collections.abc import Callable, Sequence
from itertools import zip_longest
from typing import Any, NamedTuple, Optional, Union

import yaml
from lib.command_line import seed_given
from lib.store_runs import GROUPED, Failures, need_program, read_file, session

# How many commands are sent as each other program spells them, as many by hand and with changes, and how many in one
# session.
COUNT = 20_000
COUNT_OF_ANY = 40_000
LENGTH = 500
# After so many commands that may do anything, the configurations are imported again.
AGAIN = 25

# What each command is sent behind, to the first store and to the second.
BEFORE = ("", "# by the general reader\n")

# PyYAML's functions have no types. It has an emitter of its own, and mostly that of libyaml.
dump: Callable[..., str] = yaml.dump
load: Callable[..., Any] = yaml.load
EMITTERS = (yaml.SafeDumper, getattr(yaml, "CSafeDumper", yaml.SafeDumper))

# The keys of an edit with their values, in order. A number means the text that it is written as.
Edit = dict[str, Union[str, int]]
# Those of a command or a condition, each text as it is spelled.
Pairs = list[tuple[str, str]]
# Spells an edit, or says that it can't.
Speller = Callable[[random.Random, Edit], Optional[str]]

NAMES = ("web", "a", "null", "on", "e1-x_y", "n" * 64)
KEYS = ("k", "a b", "a:b", "x#y", "it's", 'say "x"', "-", "a/b", "m~n", "", "0", "true")
START = {**{key: "x" for key in KEYS}, "in": {key: "x" for key in KEYS}, "list": ["x", "y"]}
WORDS = (
    "hello", "world", "hello world", "x", "80", "007", "-1", "1.5", "1e3", "0x1f", "true", "no", "null", "~", "<<",
    "http://x:80/", "C:\\x", "12:30:00", "2026-03-01T10:00:00Z", "a#b", "a:b", "a - b", "it's", "é", "ß", "日本",
)  # fmt: skip
# Texts that may stand in quotes alone, or not in all of them, or not in braces.
HARD = (
    "a: b", "a #b", "- a", "? a", "key:", "#a", "[x]", "{x: y}", "x,y", "x, y", "x[y", "x}", "it''s", "''", '""',
    'a"b"', "a\\", "\\n", "a\t#b", "a:\tb", "a\t", "a ", " a", "", "...", "---", "... x", "--- x", "%YAML 1.2", "@a",
)  # fmt: skip
SIGNS = ":#,[]{}&*!|>'\"%@`-?=~/\\."
OTHER = ("\t", "\t\t", "\n", "\n\n", "\r\n", "\x07", "\x7f", "\xa0", "\x85", "\u2028", "\u2029", "\ufeff", "😀")
OLD_BREAKS = re.compile("[\x85\u2028\u2029]")
BEGINS_WITH_SPACE = re.compile("^ ", re.MULTILINE)

# The keys behind the first one, of commands, edits and conditions.
FURTHER = {
    "set": ("path", "value"), "delete": ("path",), "import": ("text",), "get": ("path",), "test": ("path", "value"),
    "absent": ("path",), "count": (),
}  # fmt: skip
# How texts are spelled by hand, and mappings on one line: the braces, what is between a key and its text, and commas.
QUOTES = ("{}", '"{}"', "'{}'") * 20 + ('"{}\'', "'{}\"")
BRACES = ("{{{}}}\n",) * 6 + ("{{ {} }}\n", "{{ {}}}\n", " {{{} }} \n")
COLONS = (": ", ": ", ": ", ": ", ":", ":", ":  ", " : ")
COMMAS = (", ", ", ", ", ", ", ", ",", ",", ",  ", " , ")
# What is put before a sign by a random change.
PUT = (" ", " ", "\n", "\n  ", "\t", " #", "'", '"', "\\")


class Asked(NamedTuple):
    """A command as it is sent, and what is known of its answer: all of it, or the text that is its value."""

    text: str
    answer: Optional[str] = None
    value: Optional[str] = None


def some_text(chance: random.Random) -> str:
    """A text of words, spaces and signs, now and then with other characters."""
    text = ""
    for _ in range(chance.choice((0, 1, 1, 1, 2, 2, 3, 4, 6, 9, 30))):
        kind = chance.random()
        if kind < 0.45:
            text += chance.choice(WORDS + HARD)
        elif kind < 0.75:
            text += " " * chance.choice((1, 1, 1, 2, 3))
        else:
            text += chance.choice(SIGNS) if kind < 0.97 else chance.choice(OTHER)
    return text


def some_path(chance: random.Random) -> str:
    """A pointer to a key, which may be new, or to the whole configuration."""
    if chance.random() < 0.03:
        return ""
    key = chance.choice(KEYS) if chance.random() < 0.7 else some_text(chance)
    return chance.choice(("/", "/in/")) + key.replace("~", "~0").replace("/", "~1")


def some_edit(chance: random.Random) -> Edit:
    name, path = chance.choice(NAMES), some_path(chance)
    if chance.random() < 0.25:
        return {"delete": name, "path": path}
    path = "/list/1" if chance.random() < 0.05 else path
    value: Union[str, int] = chance.randrange(-9, 99) if chance.random() < 0.05 else some_text(chance)
    return {"set": name, "path": path, "value": value}


def by_emitter(chance: random.Random, edit: Edit) -> str | None:
    """As PyYAML spells it. An emitter may write the closing line itself, behind a block scalar."""
    style, is_raw = chance.choice((None, None, None, "'", '"', "|", ">")), chance.random() < 0.5
    texts = "\n".join(map(str, edit.values()))
    if (is_raw and OLD_BREAKS.search(texts)) or (style == ">" and BEGINS_WITH_SPACE.search(texts)):
        return None
    if style and isinstance(edit.get("value"), int):
        return None
    text = dump(
        edit, Dumper=chance.choice(EMITTERS), sort_keys=False, default_style=style, allow_unicode=is_raw,
        default_flow_style=chance.random() < 0.5, explicit_start=chance.random() < 0.3,
        width=chance.choice((5, 20, 80, 10_000)), indent=chance.choice((None, None, 1, 2, 3, 4, 9)),
        line_break=chance.choice((None, None, None, "\r\n")),
    )  # fmt: skip
    return text if text.endswith("\n...\n") else text + "...\n"


def by_json(chance: random.Random, edit: Edit) -> str | None:
    is_ascii = chance.random() < 0.5
    if is_ascii and max("".join(map(str, edit.values()))) > "\uffff":
        return None
    separators = chance.choice((None, (",", ":"), (", ", ":"), (",", ": "), (" , ", " : ")))
    indent = chance.choice((None, None, None, 0, 2, "\t"))
    return json.dumps(edit, ensure_ascii=is_ascii, separators=separators, indent=indent) + "\n...\n"


def by_python(_chance: random.Random, edit: Edit) -> str | None:
    return None if "\\" in repr(edit) else repr(edit) + "\n...\n"


FOREIGN: dict[str, Speller] = {"PyYAML": by_emitter, "JSON": by_json, "Python": by_python}


def spelled(chance: random.Random, spell: Speller) -> tuple[Edit, str]:
    """A random edit that can be spelled so, and its text."""
    while True:
        edit = some_edit(chance)
        text = spell(chance, edit)
        if text is not None:
            return edit, text


def in_quotes(edit: Edit) -> str:
    """An edit, or another command, in lines of JSON."""
    return "".join(f"{key}: {json.dumps(value, ensure_ascii=False)}\n" for key, value in edit.items()) + "...\n"


IMPORTS = [in_quotes({"import": name, "text": json.dumps(START)}) for name in NAMES]


class Expected:
    """Commands for a session, with what they have to be answered."""

    def __init__(self, chance: random.Random, kind: str) -> None:
        self.asked: list[Asked] = []
        self.count = 0
        self.change(*IMPORTS)
        for _ in range(LENGTH):
            self.add(*spelled(chance, FOREIGN[kind]))

    def change(self, *texts: str) -> None:
        """Commands that are accepted."""
        for text in texts:
            self.count += 1
            self.asked.append(Asked(text, f'---\nok: "{self.count}"\n'))

    def add(self, edit: Edit, text: str) -> None:
        """An edit, and a `get` of its place. What is deleted is set before. A whole configuration is imported again."""
        name, path = str(edit.get("set", edit.get("delete"))), str(edit["path"])
        if "delete" in edit:
            self.change(in_quotes({"set": name, "path": path, "value": "x"}))
        self.change(text)
        refused = f"---\nrefused: {'NoSuchPlace' if path else 'NoConfig'}\n"
        get = in_quotes({"get": name, "path": path})
        self.asked.append(Asked(get, value=str(edit["value"])) if "set" in edit else Asked(get, refused))
        if not path:
            self.change(*IMPORTS)


def pairs_by_hand(chance: random.Random, *keys: str) -> Pairs:
    """The pairs of a command, an edit or a condition with one of these keys."""
    first = chance.choice(keys)
    texts = [(first, str(chance.randrange(200)) if first == "count" else chance.choice(NAMES))]
    for key in FURTHER[first]:
        word = chance.choice(("x", chance.choice(WORDS), chance.choice(HARD), chance.choice(HARD), some_text(chance)))
        texts.append((key, some_path(chance) if key == "path" else word))
    return [(key, chance.choice(QUOTES).format(text)) for key, text in texts]


def in_lines(pairs: Pairs, first: str = "", more: str = "") -> str:
    """A line for each pair, which begins so."""
    return "".join(f"{more if number else first}{key}: {text}\n" for number, (key, text) in enumerate(pairs))


def in_list(chance: random.Random, *keys: str) -> str:
    """The lines of one to three elements of a list."""
    return "".join(in_lines(pairs_by_hand(chance, *keys), "  - ", "    ") for _ in range(chance.randrange(1, 4)))


def by_hand(chance: random.Random) -> str:
    """A command in a spelling that is read fast, or is near to one."""
    kind, edit = chance.random(), pairs_by_hand(chance, "set", "set", "delete")
    if chance.random() < 0.05:
        edit = chance.sample(edit * 2, len(edit))
    if kind < 0.3:
        quoted, colon = chance.choice(QUOTES), chance.choice(COLONS)
        members = chance.choice(COMMAS).join(quoted.format(key) + colon + text for key, text in edit)
        return chance.choice(BRACES).format(members) + "...\n"
    text = in_lines(edit)
    if kind < 0.4:
        text = in_lines(pairs_by_hand(chance, "get", "import"))
    elif kind < 0.6:
        text = "batch:\n" + in_list(chance, "set", "set", "delete", "import")
    if kind > 0.75:
        text = "if:\n" + in_list(chance, "test", "test", "absent", "absent", "count") + text
    if chance.random() < 0.1:
        text += "about:\n" + in_lines([("by", "ann"), *pairs_by_hand(chance, "set")], "  ", "  ")
    return chance.choice(("", "", "---\n")) + text + "...\n"


def changed(chance: random.Random, text: str) -> str:
    """The text with a random change at a quote, at a space, or anywhere."""
    signs = chance.choice(("'\"", " ", text, text))
    at = chance.choice([place for place, sign in enumerate(text) if sign in signs] or [0])
    before, here, after = text[:at], text[at], text[at + 1 :]
    kind = chance.random()
    if kind < 0.1:
        return before + after[:1] + here + after[1:]
    if kind < 0.2:
        return text.replace(*chance.choice((("'", '"'), ('"', "'"))))
    if kind < 0.3 and here in "'\"":
        return before + "\"'"[here == '"'] + after
    return before + chance.choice(("", here * 2, chance.choice(SIGNS + " \t\n"), chance.choice(PUT) + here)) + after


def is_piece(text: str) -> bool:
    """Whether a closing line ends the text, and nothing before it looks like one."""
    return text.endswith("...\n") and ("\n" + text).find("\n...") == len(text) - len("...\n")


def by_change(chance: random.Random) -> str:
    """A command that another program or a hand has spelled, with some random changes."""
    text = spelled(chance, chance.choice(list(FOREIGN.values())))[1] if chance.random() < 0.4 else by_hand(chance)
    for _ in range(chance.choice((1, 1, 1, 2, 3))):
        text = changed(chance, text)
    return text


ANY: dict[str, Callable[[random.Random], str]] = {"by hand": by_hand, "changed": by_change}


def any_commands(chance: random.Random, kind: str) -> list[Asked]:
    """Commands of which nothing is known. What they do to the configurations is soon undone."""
    texts: list[str] = []
    while len(texts) < LENGTH:
        text = ANY[kind](chance)
        if is_piece(text):
            texts.append(text)
    parts = [IMPORTS + texts[start : start + AGAIN] for start in range(0, LENGTH, AGAIN)]
    return [Asked(text) for part in parts for text in part]


def value_in(answer: str) -> object:
    """The value of an answer, as PyYAML reads it, or the whole answer where it has none."""
    try:
        return load(answer, Loader=yaml.BaseLoader)["value"]
    except (yaml.YAMLError, KeyError, TypeError):
        return answer


def differing(one: bytes, other: bytes) -> object:
    """The first records in which two files differ."""
    pairs = zip_longest(one.split(b"\n...\n"), other.split(b"\n...\n"))
    return next((pair for pair in pairs if pair[0] != pair[1]), None)


def try_session(asked: Sequence[Asked], failures: Failures, about: str) -> Counter[str]:
    """Sends commands to both stores, and looks at the files, and at the answers up to the first wrong one: those behind
    it may be wrong for that alone. Returns how often each kind of answer came.
    """
    answers: list[list[str]] = []
    files: list[bytes] = []
    for before in BEFORE:
        with tempfile.TemporaryDirectory() as folder:
            status, output, errors = session(folder, "".join(before + one.text for one in asked).encode(), GROUPED)
            files.append(read_file(os.path.join(folder, "store.yaml")))
        answers.append([answer + "\n" for answer in output.decode().split("\n...\n")[:-1]])
        failures.expect(f"{about}, {before!r}: the end", (status, errors, len(answers[-1])), (0, "", len(asked)))
    failures.expect(f"{about}: records, and by the general reader", differing(*files), None)
    last, wrong = "", len(failures.wrong)
    for one, found, other in zip(asked, *answers):
        name = f"{about}: {one.text!r} after {last!r}"
        failures.expect(f"{name}, and by the general reader", found, other)
        if one.answer is not None:
            failures.expect(name, found, one.answer)
        if one.value is not None:
            failures.expect(f"{name}, its value", value_in(found), one.value)
        if len(failures.wrong) > wrong:
            break
        last = one.text
    return Counter(found.removeprefix("---\n").partition(":")[0] for found in answers[0])


def main() -> int:
    need_program()
    seed, failures = seed_given(1), Failures()
    for kind in (*FOREIGN, *ANY):
        counts: Counter[str] = Counter()
        for start in range(0, COUNT if kind in FOREIGN else COUNT_OF_ANY, LENGTH):
            chance = random.Random(f"{seed} {kind} {start}")
            asked = Expected(chance, kind).asked if kind in FOREIGN else any_commands(chance, kind)
            counts += try_session(asked, failures, f"{kind} {start}")
        print(f"  {kind}: answered {', '.join(f'{number} {answer}' for answer, number in counts.most_common())}")
    return failures.report()


if __name__ == "__main__":
    sys.exit(main())
