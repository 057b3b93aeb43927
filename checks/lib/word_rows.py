"""Runs of each word of the program on a small store, with what it has to write and what it has to leave, by hand."""

from __future__ import annotations

import os
import subprocess
from collections.abc import Mapping
from dataclasses import dataclass, field

from .store_runs import EMPTY, PROGRAM, Ended, read_file, write_file

TEXT = b'host: example\nport: "8080"\ntls:\n  - a\n  - "no"\n'
JSON = b'{"host":"example","port":"8080","tls":["a","no"]}\n'
PLAIN = TEXT.replace(b'"8080"', b"8080")


def indented(text: bytes, by: int) -> bytes:
    return b"".join(b" " * by + line for line in text.splitlines(keepends=True))


def record(number: int, words: bytes) -> bytes:
    return b'---\nat: "%d"\n%s...\n' % (number, words)


STORE = EMPTY + record(1, b"import: web\ntree:\n" + indented(TEXT, 2))
# The same state as a base alone.
BASE = b'---\nstore: confstore-2\nat: "1"\nconfigs:\n  web:\n' + indented(TEXT, 4) + b"...\n"
STATE = b'state: whole\nbase: "0"\ncommands: "1"\ndropped: "0"\n'
SET = record(2, b'set: web\npath: "/port"\nvalue: "81"\n')
DELETE = record(2, b'delete: web\npath: "/tls"\n')
IMPORT = record(2, b"import: mail\ntree:\n  a: b\n")
COPY = record(2, b"import: mail\ntree:\n" + indented(TEXT, 2))
RENAME = record(2, b'batch:\n  - delete: web\n    path: ""\n  - import: mail\n    tree:\n' + indented(TEXT, 6))
MOVE = record(
    2, b'batch:\n  - delete: web\n    path: "/port"\n  - set: web\n    path: "/number"\n    value: "8080"\n'
)
PARENTS = record(2, b'set: web\npath: "/a"\nvalue:\n  b: c\n')
INSERT = record(2, b'set: web\npath: "/tls"\nvalue:\n  - a\n  - b\n  - "no"\n')


@dataclass(frozen=True)
class Word:
    """A run of a word: what it has to write, its status, what store.yaml and further files then hold; and its input.
    `named` has the files and folders that a line about memory may name. `ends_by_writing` is whether files are made
    before it writes, and `leaves_empty` whether new files, or their folder, may be left with nothing in them where it
    is refused."""

    words: str
    output: bytes = b""
    status: int = 0
    store: bytes = STORE
    made: dict[str, bytes] = field(default_factory=dict)
    input: bytes = b""
    named: tuple[str, ...] = ()
    ends_by_writing: bool = False
    leaves_empty: bool = False

    def run(self, folder: str, environment: Mapping[str, str]) -> Ended:
        """Runs it in a folder."""
        words = [PROGRAM, *self.words.split()]
        done = subprocess.run(words, cwd=folder, input=self.input, capture_output=True, check=False, env=environment)
        return done.returncode, done.stdout, done.stderr.decode()

    def files(self) -> dict[str, bytes]:
        return {**FILES, **self.made, "S/store.yaml": self.store}


FILES = {
    "S/store.yaml": STORE, "FILE": b"port:   80\nhost: [a]\n", "VALUE": b"81", "NOTES": b"# all\na:   b # one\n",
    "D/web.yaml": b"port: 80\n",
}  # fmt: skip

WORDS = [
    Word("get S web", TEXT),
    Word("get S web /port --raw", b"8080\n"),
    Word("get S web /tls/0 --raw --no-newline", b"a"),
    Word("get S web --json", JSON),
    Word("get S web --plain", PLAIN),
    Word("get S web --at 1", TEXT),
    Word("get S web /none --default x", b"x\n"),
    Word("export S web", TEXT),
    Word("export S web --json", JSON),
    Word("export S web --plain", PLAIN),
    Word("export S --all D", made={"D/web.yaml": TEXT}, named=("D", "D/web.yaml")),
    Word("export S --all D --json", made={"D/web.json": JSON}, named=("D", "D/web.json"), leaves_empty=True),
    Word("export S --all NEW", made={"NEW/web.yaml": TEXT}, named=("NEW", "NEW/web.yaml"), leaves_empty=True),
    Word("names S", b"web\n"),
    Word("names S --json", b'["web"]\n'),
    Word("keys S web", b"host\nport\ntls\n"),
    Word("keys S web /tls", b"0\n1\n"),
    Word("exists S web /tls/1"),
    Word("exists S web /tls/2", status=1),
    Word("log S", b"1 import web\n"),
    Word("log S --values", b"1 import web " + JSON),
    Word("log S --yaml", STORE[len(EMPTY) :]),
    Word("diff S", b"- import: web\n  tree:\n" + indented(TEXT, 4), status=1),
    Word("diff S web --from 1"),
    Word("diff --files FILE D/web.yaml", b'- delete: web\n  path: "/host"\n', status=1, named=("FILE", "D/web.yaml")),
    Word(
        "diff --files - D/web.yaml", b'- delete: web\n  path: "/host"\n', status=1, input=b"port: 80\nhost: [a]\n",
        named=("-", "D/web.yaml"),
    ),  # fmt: skip
    Word("verify S", STATE),
    Word("set S web /port 81", store=STORE + SET),
    Word("set S web /port --file VALUE", store=STORE + SET, named=("VALUE",)),
    Word("set S web /port 81 --if-value 8080 --if-count 1", store=STORE + SET),
    Word("set S web /port --yaml -", store=STORE + SET, input=b'"81"\n', named=("-",)),
    Word("delete S web /tls", store=STORE + DELETE),
    Word("import S mail -", store=STORE + IMPORT, input=b"a: b\n", named=("-",)),
    Word("import S mail - --if-absent", store=STORE + IMPORT, input=b"a:   b\n", named=("-",)),
    Word("copy S web mail", store=STORE + COPY),
    Word("copy S web mail --replace", store=STORE + COPY),
    Word("rename S web mail", store=STORE + RENAME),
    Word("move S web /port /number", store=STORE + MOVE),
    Word("set S web /a/b c --parents", store=STORE + PARENTS),
    Word("set S web /tls/1 b --insert", store=STORE + INSERT),
    Word("checkpoint S", store=BASE),
    Word("run S", b'---\nok: "2"\n...\n', store=STORE + SET, input=b"---\nset: web\npath: /port\nvalue: 81\n...\n"),
    Word("init NEW", made={"NEW/store.yaml": EMPTY}),
    Word("salvage S NEW", STATE, made={"NEW/store.yaml": BASE}, ends_by_writing=True),
    Word("backup S NEW", made={"NEW/store.yaml": STORE}),
    Word("format -i FILE", made={"FILE": b'port: "80"\nhost:\n  - a\n'}, named=("FILE",)),
    Word("check FILE", b"FILE:1: S4 the text first differs from the one style here\n", status=1, named=("FILE",)),
    Word("format --keep-comments NOTES", b"# all\na: b # one\n", named=("NOTES",)),
    Word("format --check --keep-comments NOTES", b"NOTES\n", status=1, named=("NOTES",)),
    Word("format -i --keep-comments NOTES", made={"NOTES": b"# all\na: b # one\n"}, named=("NOTES",)),
    Word(
        "check --keep-comments NOTES", b"NOTES:2: S4 the text first differs from the one style here\n", status=1,
        named=("NOTES",),
    ),  # fmt: skip
    Word("import S mail - --explain", store=STORE + IMPORT, input=b"a:   b\n", named=("-",)),
]


def files_in(folder: str) -> dict[str, bytes]:
    """Each file below a folder but `store.lock`, and each empty folder, which holds nothing."""
    found: dict[str, bytes] = {}
    for at, folders, names in os.walk(folder):
        names = [name for name in names if name != "store.lock"]
        inside = os.path.relpath(at, folder)
        if not folders and not names:
            found[inside + "/"] = b""
        for name in names:
            found[os.path.normpath(os.path.join(inside, name))] = read_file(os.path.join(at, name))
    return found


def new_folder(path: str) -> str:
    """A new folder with the store and the files that the words name."""
    for name, content in FILES.items():
        os.makedirs(os.path.dirname(os.path.join(path, name)), exist_ok=True)
        write_file(os.path.join(path, name), content)
    return path
