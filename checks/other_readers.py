#!/usr/bin/env python3
"""Has other readers of YAML read what a store reads and writes: a stream of commands, its answers, a journal, a base.

The commands put texts of every kind under keys of every kind: what has to be quoted or escaped, what looks like a
number or a boolean, empty and long texts, texts with breaks and spaces at their ends, deep trees. Each stream is read
by each reader that is installed, and has to be the documents that it is meant to be: the commands as they were sent,
the records with their numbers, the base with the configurations, and the answers. All scalars are taken as texts.

Run it from the repository's root after the program is built; it takes some seconds:

    ./prove && /usr/bin/python3 checks/other_readers.py

The readers are those of Debian's packages python3-yaml (PyYAML, and libyaml with it), python3-ruamel.yaml,
libfyaml-utils, libyaml-cpp-dev, nodejs with node-yaml, golang-go with golang-gopkg-yaml.v3-dev, and yq. A reader that
isn't installed is named and left out. The status is 0 if all is as it should be.
"""

from __future__ import annotations

import importlib
import io
import json
import os
import shutil
import subprocess
import sys
import tempfile
from collections.abc import Callable, Iterator, Mapping
from typing import Any

from lib.store_runs import TOP, Failures, need_program, read_file, session

READERS = os.path.join(TOP, "checks", "data", "readers")

TEXTS = [
    "", " ", "x", "-", "- a", "a: b", "a #b", "# c", "'", '"', "''", "\\", "true", "null", "~", "no", "12", "0x1F",
    "1e3", ".inf", "2026-11-26", "<<", "=", "?", "!tag", "&anchor", "*alias", "|", ">", "%", "@", "`", "[", "]", "{",
    "}", ",", "a\nb", "a\n", "\na", "a\n\n", " a\nb", "a \nb ", "\n", "...", "---", "a\n...\nb", "a\n---\nb\n",
    "tab\there", "\u00e4\u20ac\U0001d11e", "\u0085\u2028", "\u0007\u001b", "x" * 300, "word " * 60,
]  # fmt: skip

# A document of a stream: a command, an answer, a record or a base.
Document = Mapping[str, Any]
# Reads a stream: its documents, or why it is refused.
Reader = Callable[[bytes], object]


class Stream:
    """A stream of commands. `answers` and `records` are what they are meant to make, `trees` the configurations."""

    def __init__(self) -> None:
        self.commands: list[Document] = []
        self.answers: list[Document] = []
        self.records: list[Document] = []
        self.trees: dict[str, dict[str, Any]] = {}

    def change(self, command: Document, record: Document) -> None:
        self.commands.append(command)
        self.records.append({"at": str(len(self.records) + 1), **record})
        self.answers.append({"ok": str(len(self.records))})

    def ask(self, command: Document, answer: Document) -> None:
        self.commands.append(command)
        self.answers.append(answer)

    def put(self, name: str, tree: Document) -> None:
        self.trees[name] = dict(tree)
        self.change({"import": name, "text": flow(tree)}, {"import": name, "tree": tree})

    def set(self, name: str, key: str, value: str) -> None:
        self.trees[name][key] = value
        command = {"set": name, "path": f"/{key}", "value": value}
        self.change(command, command)

    def delete(self, name: str, key: str) -> None:
        del self.trees[name][key]
        command = {"delete": name, "path": f"/{key}"}
        self.change(command, command)


def stream_of_all() -> Stream:
    """Commands with all the texts, as keys and as values."""
    stream = Stream()
    stream.put("deep", {"list": [[["a"], []], {}, {"k": ["v", {"w": "x"}]}], "texts": TEXTS})
    stream.put("keys", {text: text for text in TEXTS if "\n" not in text})
    stream.put("single", {"port": "80"})
    for number, text in enumerate(TEXTS):
        stream.set("single", f"t{number}", text)
    stream.delete("single", "t0")
    for name, tree in stream.trees.items():
        stream.ask({"get": name, "path": ""}, {"value": tree})
    stream.ask({"get": "none", "path": ""}, {"refused": "NoConfig"})
    stream.ask({"names": ""}, {"names": list(stream.trees)})
    return stream


def values_of(text: str) -> list[Any]:
    """The JSON values that follow each other in a text."""
    decoder, values = json.JSONDecoder(), list[Any]()
    while text := text.lstrip():
        value, end = decoder.raw_decode(text)
        values.append(value)
        text = text[end:]
    return values


def by_tool(read_json: Callable[[str], object], words: list[str]) -> Reader:
    """The reader that a tool is, whose output is read as JSON."""

    def read(stream: bytes) -> object:
        done = subprocess.run(words, input=stream, capture_output=True, check=False)
        if done.returncode != 0:
            return f"{words[0]} ended with {done.returncode}: {done.stderr.decode()[-300:]}"
        return read_json(done.stdout.decode())

    return read


def python_readers() -> Iterator[tuple[str, Reader]]:
    try:
        yaml = importlib.import_module("yaml")
        yield f"PyYAML {yaml.__version__}", lambda stream: list(yaml.load_all(stream, yaml.BaseLoader))
        if yaml.__with_libyaml__:
            yield "libyaml", lambda stream: list(yaml.load_all(stream, yaml.CBaseLoader))
    except ImportError:
        print("left out: PyYAML, libyaml")
    try:
        ruamel = importlib.import_module("ruamel.yaml")

        def by_ruamel(stream: bytes) -> object:
            return list(ruamel.YAML(typ="base", pure=True).load_all(io.BytesIO(stream)))

        yield f"ruamel {ruamel.__version__}", by_ruamel
    except ImportError:
        print("left out: ruamel")


def works(*words: str) -> bool:
    """Whether a command is there and succeeds, as one that builds a reader has to."""
    if shutil.which(words[0]) is None:
        return False
    return subprocess.run(words, capture_output=True, check=False).returncode == 0


def other_readers(folder: str) -> Iterator[tuple[str, Reader | None]]:
    cpp, go = os.path.join(folder, "cpp"), os.path.join(folder, "go")
    os.environ |= {"GO111MODULE": "off", "GOPATH": "/usr/share/gocode", "GOCACHE": os.path.join(folder, "cache")}
    os.environ |= {"NODE_PATH": "/usr/share/nodejs"}
    has_cpp = works("c++", "-o", cpp, os.path.join(READERS, "yaml_cpp.cpp"), "-lyaml-cpp")
    yield "yaml-cpp", by_tool(json.loads, [cpp]) if has_cpp else None
    has_go = works("go", "build", "-o", go, os.path.join(READERS, "yaml_v3.go"))
    yield "yaml.v3 of Go", by_tool(json.loads, [go]) if has_go else None
    node = ["node", os.path.join(READERS, "yaml_js.js")]
    yield "yaml of Node", by_tool(json.loads, node) if works("node", "-e", 'require("yaml")') else None
    fy_dump = ["fy-dump", "-m", "json", "--streaming", "-"]
    yield "libfyaml", by_tool(values_of, fy_dump) if shutil.which("fy-dump") else None
    yield "yq", by_tool(values_of, ["yq", "-c", "."]) if shutil.which("yq") else None


def flow(value: object) -> str:
    """A value as JSON, which every reader of YAML reads: older ones take two more characters for breaks."""
    return json.dumps(value, ensure_ascii=False).replace("\u0085", "\\u0085").replace("\u2028", "\\u2028")


def document(tree: Document) -> str:
    """A document that a session reads as the tree."""
    lines = (f"{key}: {flow(value)}" for key, value in tree.items())
    return "---\n" + "\n".join(lines) + "\n...\n"


def streams(folder: str, failures: Failures) -> Iterator[tuple[str, bytes, list[Document]]]:
    """The streams, each with the documents that it is meant to be."""
    stream = stream_of_all()
    commands = "".join(map(document, stream.commands)).encode()
    status, answers, errors = session(folder, commands)
    failures.expect("the session", (status, errors), (0, ""))
    store = os.path.join(folder, "store.yaml")
    journal = read_file(store)
    session(folder, b"---\ncheckpoint:\n...\n")
    first: Document = {"store": "confstore-2", "at": "0", "configs": {}}
    base: Document = {"store": "confstore-2", "at": str(len(stream.records)), "configs": stream.trees}
    yield "commands", commands, stream.commands
    yield "answers", answers, stream.answers
    yield "journal", journal, [first, *stream.records]
    yield "base", read_file(store), [base]


def main() -> int:
    need_program()
    failures = Failures()
    with tempfile.TemporaryDirectory() as top:
        folder = os.path.join(top, "store")
        os.mkdir(folder)
        given = list(streams(folder, failures))
        for name, reader in [*python_readers(), *other_readers(top)]:
            if reader is None:
                print(f"left out: {name}")
                continue
            for kind, stream, wanted in given:
                failures.expect(f"{kind} by {name}", reader(stream), wanted)
    return failures.report()


if __name__ == "__main__":
    sys.exit(main())
