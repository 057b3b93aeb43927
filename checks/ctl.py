#!/usr/bin/env python3
"""Tries confstorectl, the program of the Python package, beside the program.

- **Words.** Each row of `lib/ctl_rows.py` is done four times, on stores of their own: by confstore, by confstorectl
  without a server, through the socket of `clients/serve.py`, and through a node of a replicated store. The status, the
  output, the name of the fault and the other lines on standard error are those of confstore, and in the end so is the
  store's file, byte by byte. Some outputs were worked out by hand. (A node's store has its own marks, and a node takes
  neither a checkpoint nor the words that look into the file.) A folder without a store gets none.
- **The table of words** of confstorectl has the words, arguments and options that the help of confstore has.
- **Streams** that are closed, full, or that nobody reads, and a terminal, where more is said of a refused text.
- **Waiting** for a store that is locked, and for a server that is not there; and which socket is taken. In a copy of a
  folder that has a link to the first one's socket no word is done.
- **Clients.** Sixteen of them append 50 texts each to one list: it has all of them, those of each in their order. So
  do four without a server, which wait for each other. Sixteen add one to the same number a hundred times each, where
  nobody came between: it ends at 1,600. Four without a server do the same.
- **Watching.** 10,000 changes, 20 checkpoints and five restarts of the server, after its session was killed or it was
  told to end: `watch`, by the folder and by the socket, and `Reader.follow` say each change once, and none as cut where
  it was told before the checkpoint came. Where checkpoints come at once, or a watch is stopped meanwhile, each change
  is said once, or that it was cut.
- **Pages.** The completions and the man page are those of the table of words, and keys are pressed in each shell.

Run it from the repository's root after the program is built; it needs PyYAML, and takes one minute or two:

    ./prove && python3 checks/ctl.py

The last line is 'N passed, M failed', and the status is 0 if M is 0.
"""

from __future__ import annotations

import contextlib
import importlib.util
import os
import pickle
import pty
import re
import shutil
import signal
import socket
import subprocess
import sys
import tempfile
import threading
import time
from collections.abc import Iterator, Sequence
from concurrent.futures import ThreadPoolExecutor
from typing import Any, NamedTuple

from lib.ctl_rows import NODE_ROWS, ROWS, Row
from lib.ctl_table import OPTIONAL, OPTIONAL_OF, Table, common_of_ctl, table_of_ctl, table_of_program
from lib.keys import SHELLS, press_for_last_word, press_keys, put_stand_in
from lib.store_runs import PROGRAM, TOP, Failures, need_program, read_file, write_file
from lib.typed_pointers import LINES_OF_POINTERS, MADE, put_keys
from lib.waiting import accepts, until

sys.path.insert(0, os.path.join(TOP, "python"))

from confstore import Cut, Reader, Record, Store, Tree  # noqa: E402

ENVIRONMENT = {
    **{name: value for name, value in os.environ.items() if name != "CONFSTORE_SOCKET"},
    "CONFSTORE": PROGRAM,
    "PYTHONPATH": os.pathsep.join(os.path.join(TOP, part) for part in ("python", "replicated")),
}
CTL = [sys.executable, "-m", "confstore.ctl"]
SERVER = os.path.join(TOP, "clients", "serve.py")
PAGES = os.path.join(TOP, "python", "pages_of_confstorectl.py")

# What is no word of the table of confstorectl, but has help too.
OF_PROGRAM_ALONE = {"help"}

# The words that confstorectl has alone.
OF_CTL_ALONE = {"watch", "edit", "render", "undo", "rollback", "sync", "page"}

# What is told of an edit that is none, or of the text of an import among edits: confstorectl tells no file.
OF_EDITS = re.compile(r"^(?:-: )?(\w+)(?: \d+:\d+ \w+)?(?: \((?:no list of edits|the text of an import)\))?$")

# How long anything here is waited for, in seconds.
PATIENCE = 60

CLIENTS, APPENDS = 16, 50
CLIENTS_ALONE, APPENDS_ALONE = 4, 10
ADDS, ADDS_ALONE = 100, 10
CHANGES, CHECKPOINTS, RESTARTS = 10_000, 20, 5

# How many checkpoints come once all changes before them were told, and before how many of the last ones the watch is
# stopped.
CALM, STOPPED = 10, 2

# What does rows of words, each in a process of its own that is forked where all is imported.
DRIVER = """
import os, pickle, sys, tempfile
from confstore import ctl, ctl_help
results = []
for words, given in pickle.load(sys.stdin.buffer):
    with tempfile.TemporaryFile() as source, tempfile.TemporaryFile() as output, tempfile.TemporaryFile() as errors:
        source.write(given)
        source.seek(0)
        child = os.fork()
        if child == 0:
            for number, stream in enumerate((source, output, errors)):
                os.dup2(stream.fileno(), number)
            sys.argv[1:] = words
            os._exit(ctl.main())
        status = os.waitstatus_to_exitcode(os.waitpid(child, 0)[1])
        output.seek(0)
        errors.seek(0)
        results.append((status, output.read(), errors.read().decode()))
pickle.dump(results, sys.stdout.buffer)
"""

# What a client runs that appends its texts to a list, one word of confstorectl after the other.
CLIENT = """
import sys
from confstore.ctl import perform_words
folder, client, count = sys.argv[1:]
for number in range(int(count)):
    status = perform_words(["--wait", "30", "set", folder, "app", "/list/-", f"{client}-{number}"])
    if status:
        sys.exit(status)
"""


# What a client runs that adds one to a number. Its output is a file in which each word writes from the start.
ADDING_CLIENT = """
import os, sys, tempfile
from confstore.ctl import perform_words
folder, count = sys.argv[1:]
output = tempfile.TemporaryFile(buffering=0)
os.dup2(output.fileno(), 1)
made = 0
while made < int(count):
    output.seek(0)
    output.truncate()
    status = perform_words(["--wait", "30", "get", folder, "app", "/n", "--raw"])
    output.seek(0)
    old = output.read().decode().strip()
    status = status or perform_words(
        ["--wait", "30", "set", folder, "app", "/n", str(int(old) + 1), "--if-value", old]
    )
    if status > 1:
        sys.exit(status)
    made += status == 0
"""


class Done(NamedTuple):
    """What became of a program."""

    status: int
    output: bytes
    errors: str

    def told(self, program: str) -> list[str]:
        """Its lines on standard error: of one that begins with the program the fault's name alone, without what is said
        of it, and the others as they are, as `web.yaml:2:1: KeyTwice ..`, but not why a FILE can't be read. Of wrong
        words that is the status alone."""
        begin = f"{program}: "
        all_lines = [] if self.status == 2 else self.errors.splitlines()
        lines = [line for line, before in zip(all_lines, ["", *all_lines]) if not is_cause_of_input(line, before)]
        return [line[len(begin) :].partition(": ")[0] if line.startswith(begin) else line for line in lines]

    def fault(self, program: str) -> list[str]:
        """The faults that it names after the program."""
        return [name for name in self.told(program) if f"{program}: {name}" in self.errors]


def is_cause_of_input(line: str, before: str) -> bool:
    """Whether a line says why the file of the line before it can't be read."""
    return before.endswith(": Input") and line.startswith(before[: -len("Input")])


def done(words: Sequence[str], given: bytes = b"", **more: Any) -> Done:
    """A program that is run to its end."""
    environment = {**ENVIRONMENT, **more.pop("environment", {})}
    ended = subprocess.run(
        list(words), input=given, capture_output=True, check=False, env=environment,
        timeout=more.pop("timeout", PATIENCE), **more,
    )  # fmt: skip
    return Done(ended.returncode, ended.stdout, ended.stderr.decode())


def ctl(*words: str, given: bytes = b"", **more: Any) -> Done:
    return done([*CTL, *words], given, **more)


@contextlib.contextmanager
def running(words: Sequence[str], path: str) -> Iterator[subprocess.Popen[bytes]]:
    """A program that takes clients at a path, and is told to end."""
    quiet = subprocess.DEVNULL
    with subprocess.Popen(list(words), env=ENVIRONMENT, stderr=quiet, stdout=quiet) as process:
        try:
            if not until(lambda: accepts(path) or process.poll() is not None, PATIENCE) or process.poll() is not None:
                raise RuntimeError(f"no server: {words}")
            yield process
        finally:
            process.terminate()


def serving(path: str, folder: str) -> contextlib.AbstractContextManager[subprocess.Popen[bytes]]:
    return running([sys.executable, SERVER, path, folder], path)


def session_of(server: subprocess.Popen[bytes]) -> int:
    with open(f"/proc/{server.pid}/task/{server.pid}/children", encoding="ascii") as children:
        return int(children.read().split()[0])


# ---- words


class Side:
    """A program with a store of its own, on which the rows are done."""

    def __init__(self, top: str, name: str, program: str, words: Sequence[str]) -> None:
        self.name, self.program, self.words = name, program, words
        self.folder = os.path.join(top, name)
        os.mkdir(self.folder)
        self.results: list[Done] = []

    def do(self, rows: Sequence[Row], top: str) -> None:
        todo = []
        for row in rows:
            words = [word.replace("STORE", self.folder).replace("TOP", top) for word in row.words]
            todo.append(([*self.words, *words], row.given))
        self.results = [done(*one) for one in todo] if self.program == "confstore" else do_forked(todo)


def do_forked(todo: Sequence[tuple[list[str], bytes]]) -> list[Done]:
    """What becomes of words of confstorectl."""
    driven = done([sys.executable, "-c", DRIVER], pickle.dumps(todo), timeout=max(PATIENCE, len(todo)))
    if driven.status:
        raise RuntimeError(driven.errors)
    return [Done(*result) for result in pickle.loads(driven.output)]


def named(line: str) -> str:
    """The name alone of what is told of a list of edits, if it is one of its edits, and not its text."""
    return OF_EDITS.sub(r"\1", line)


# The lines of the program that say what was looked for. Over a socket there is the fault alone.
SENTENCE = re.compile(
    r"the store has no |the folder has no store\.yaml |a configuration is missing|nothing is at a pointer"
    r"|begin the pointer |a name has 1 to 64 |a condition does not hold|an element of a list is named "
    r"|\".*\" (?:has (?:nothing|a list) at|is no pointer)"
)


def without_sentences(lines: Sequence[str]) -> list[str]:
    return [line for line in lines if not SENTENCE.match(line)]


def compare(side: Side, model: Side, rows: Sequence[Row], failures: Failures) -> None:
    for row, found, wanted in zip(rows, side.results, model.results):
        name = f"{side.name}: {' '.join(row.words)[:80]}"
        failures.expect(f"{name}: status", found.status, wanted.status)
        failures.expect(f"{name}: output", found.output, wanted.output)
        if row.output is not None:
            failures.expect(f"{name}: output by hand", found.output, row.output)
        told, of_model = without_sentences(found.told("confstorectl")), without_sentences(wanted.told("confstore"))
        if row.words[0] == "batch":  # confstorectl names what an edit is refused for, and the program the file, too
            told, of_model = [named(line) for line in told], [named(line) for line in of_model]
        failures.expect(f"{name}: what is told", told, of_model)


def fill(top: str) -> None:
    """The files that rows name."""
    write_file(os.path.join(top, "web.yaml"), b"a: 1\nb: [x, y]\n")
    write_file(os.path.join(top, "twice.yaml"), b"a: 1\nb:\n  c: 2\n  \"c\": 3\n")
    write_file(os.path.join(top, "a b\n\\.yaml"), b"a: [1,\n")
    write_file(os.path.join(top, "long.yaml"), b"? " + b"k" * 3_000 + b"\n: v\n")
    write_file(os.path.join(top, "too-long.yaml"), b"#" * 4_194_305)
    write_file(os.path.join(top, "deep.yaml"), b"[" * 129 + b"]" * 129)
    write_file(os.path.join(top, "large.yaml"), b'"' + b"\\0" * 2_000_000 + b'"')
    write_file(os.path.join(top, "controls.yaml"), b'"' + b"\x7f" * 700_000 + "\x85\u2028".encode() * 100_000 + b'"')


@contextlib.contextmanager
def node_on(top: str, folder: str) -> Iterator[str]:
    """A node of a replicated store, over a member of etcd that keeps its keys in memory."""
    path = os.path.join(TOP, "replicated", "tests", "fake_etcd.py")
    spec = importlib.util.spec_from_file_location("fake_etcd", path)
    assert spec is not None and spec.loader is not None
    module: Any = importlib.util.module_from_spec(spec)
    spec.loader.exec_module(module)
    etcd, at = module.FakeEtcd(), os.path.join(top, "node.sock")
    try:
        with running([sys.executable, "-m", "confstore_replicated.node", at, folder, etcd.address], at):
            yield at
    finally:
        etcd.close()


def known(rows: Sequence[Row]) -> list[Row]:
    """The rows whose words and options the program has, of those that confstorectl has."""
    of_program, of_ctl = table_of_program(PROGRAM), table_of_ctl()
    return [row for row in rows if not lacking(row, of_program, of_ctl)]


def lacking(row: Row, of_program: Table, of_ctl: Table) -> bool:
    """Whether the program lacks a word or an option of a row that confstorectl has."""
    word = row.words[0]
    if word not in of_ctl:
        return False
    options = {given.partition("=")[0] for given in row.words[1:]} & set(of_ctl[word].options)
    return word not in of_program or bool(options - set(of_program[word].options))


def try_table(_top: str, failures: Failures) -> None:
    """Both programs have the same words, but those that the lists below name, with the same options and arguments."""
    of_program, of_ctl = table_of_program(PROGRAM), table_of_ctl()
    mine, theirs = set(of_ctl) - OF_CTL_ALONE, set(of_program) - OF_PROGRAM_ALONE
    failures.expect("the words", sorted(mine), sorted(theirs))
    for word in sorted(mine & theirs):
        common, options = common_of_ctl(word), of_program[word].options
        optional = OPTIONAL | OPTIONAL_OF.get(word, set())
        wanted = {name: value for name, value in options.items() if name not in common | optional}
        failures.expect(f"the options of {word}", of_ctl[word].options, wanted)
        failures.expect(f"the arguments of {word}", of_ctl[word].arguments, of_program[word].arguments)


def try_words(top: str, failures: Failures) -> None:
    fill(top)
    os.mkdir(os.path.join(top, "empty"))
    rows, node_rows = known(ROWS), known(NODE_ROWS)
    model = Side(top, "model", "confstore", [PROGRAM])
    alone = Side(top, "alone", "confstorectl", [])
    served = Side(top, "served", "confstorectl", [])
    node_model = Side(top, "node-model", "confstore", [PROGRAM])
    with serving(os.path.join(served.folder, "confstore.sock"), served.folder):
        threads = [threading.Thread(target=side.do, args=(rows, top)) for side in (model, alone, served)]
        for thread in threads:
            thread.start()
        os.mkdir(os.path.join(top, "node-store"))
        with node_on(top, os.path.join(top, "node-store")) as at:
            asked = Side(top, "node", "confstorectl", ["--socket", at])
            node_model.do(node_rows, top)
            asked.do(node_rows, top)
            try_link_of_node(os.path.join(top, "node-store"), at, failures)
            try_history_of_node(os.path.join(top, "node-store"), at, failures)
        for thread in threads:
            thread.join()
    compare(asked, node_model, node_rows, failures)
    compare(alone, model, rows, failures)
    compare(served, model, rows, failures)
    files = [read_file(os.path.join(side.folder, "store.yaml")) for side in (model, alone, served)]
    failures.expect("the file without a server", files[1] == files[0], True)
    failures.expect("the file of the server", files[2] == files[0], True)
    failures.expect("the folder without a store", os.listdir(os.path.join(top, "empty")), [])


# ---- streams, waiting, sockets


def try_link_of_node(folder: str, at: str, failures: Failures) -> None:
    """A link to a node's socket is taken in the node's folder, and not in a copy of it."""
    os.symlink(at, os.path.join(folder, "confstore.sock"))
    copy = f"{folder}.copy"
    subprocess.run(["cp", "-a", folder, copy], check=True)
    failures.expect("the node's folder", ctl("names", folder).status, 0)
    found = ctl("import", copy, "lost", given=b"x: y")
    failures.expect("a copy of it", (found.status, found.fault("confstorectl")), (3, ["OtherStore"]))


def try_history_of_node(folder: str, at: str, failures: Failures) -> None:
    """What commands of a node have changed is taken back, but for what the node keeps for itself."""
    files = f"{folder}.files"
    os.mkdir(files)
    write_file(os.path.join(files, "past.yaml"), b"n: 4\n")
    ctl("import", "--socket", at, folder, "past", given=b"n: 1\n")
    number = int(ctl("log", folder).output.splitlines()[-1].split()[0])
    for words, wanted in (
        (["set", folder, "past", "/n", "2"], b'{"n":"2"}\n'),
        (["set", folder, "past", "/m", "3"], b'{"n":"2","m":"3"}\n'),
        (["undo", folder, str(number + 1)], b'{"n":"1","m":"3"}\n'),
        (["rollback", folder, "past", "--to", str(number + 1)], b'{"n":"2"}\n'),
        (["sync", folder, files, "--delete"], b'{"n":"4"}\n'),
    ):
        failures.expect(f"{words[0]} by a node", ctl(words[0], "--socket", at, *words[1:]).status, 0)
        failures.expect(f"{words} by a node", ctl("get", folder, "past", "--json").output, wanted)
    failures.expect("the node's names", ctl("names", "--socket", at, folder).output, b"past\n")
    found = ctl("undo", folder, str(number + 1), "--socket", at)
    failures.expect("what was changed since", (found.status, found.fault("confstorectl")), (1, ["Unmet"]))


def through_shell(line: str, folder: str, program: str) -> Done:
    """What a line of a shell says, with $CTL for the program and $S for the store."""
    return done(["bash", "-o", "pipefail", "-c", line], environment={"CTL": program, "S": folder})


def on_terminal(words: Sequence[str]) -> bytes:
    """What a program writes to standard error where that is a terminal."""
    shown, end = pty.openpty()
    try:
        subprocess.run(words, stderr=end, stdout=subprocess.DEVNULL, check=False, env=ENVIRONMENT, timeout=PATIENCE)
        return os.read(shown, 65_536)
    finally:
        os.close(shown)
        os.close(end)


def try_streams(top: str, failures: Failures) -> None:
    folder = os.path.join(top, "streams")
    with Store(folder, make=True, program=PROGRAM) as store:
        store["web"] = {"port": "80"}
    at = os.path.join(top, "streams.sock")
    with serving(at, folder):
        by_socket = " ".join([*CTL, "--socket", at])
        lines = ["$CTL names $S >/dev/full", "$CTL get $S web >&-", "$CTL names $S | true; sleep 0.2; true"]
        for line in lines:
            wanted, found = (through_shell(line, folder, program) for program in (PROGRAM, by_socket))
            failures.expect(f"streams: {line}", (found.status, found.output), (wanted.status, wanted.output))
            failures.expect(f"the fault of {line}", found.fault("confstorectl"), wanted.fault("confstore"))
        for line in ("$CTL import $S web <&-", "$CTL set $S web /a - --yaml <&-"):
            wanted, found = (through_shell(line, folder, program) for program in (PROGRAM, by_socket))
            failures.expect(f"closed input: {line}", (wanted.status, found.status), (3, 3))
            failures.expect(f"what is told of {line}", found.told("confstorectl"), wanted.told("confstore"))
        closed = through_shell("$CTL get $S web 2>&-", folder, by_socket)
        failures.expect("closed errors", (closed.status, closed.output), (0, b'port: "80"\n'))
        write_file(os.path.join(top, "twice.yaml"), b"a: 1\na: 2\n")
        words = ["import", folder, "web", os.path.join(top, "twice.yaml")]
        shown = on_terminal([PROGRAM, "format", words[-1]])
        failures.expect("a terminal is told more", b"help: " in shown, True)
        failures.expect("on a terminal", on_terminal([*CTL, "--socket", at, *words]), shown)
    failures.expect("on a terminal without a server", on_terminal([*CTL, *words]), shown)


def try_waiting(top: str, failures: Failures) -> None:
    folder, at = os.path.join(top, "held"), os.path.join(top, "held.sock")
    with Store(folder, make=True, program=PROGRAM) as store:
        store["web"] = {"n": "0"}
        found = ctl("set", folder, "web", "/n", "1")
        failures.expect("locked", (found.status, found.fault("confstorectl")), (3, ["Locked"]))
        found = ctl("set", folder, "web", "/n", "1", "--wait", "0.3")
        failures.expect("locked for long", (found.status, found.fault("confstorectl")), (3, ["Locked"]))
        failures.expect("get beside a session", ctl("get", folder, "web", "/n", "--raw").output, b"0\n")
        timer = threading.Timer(0.7, store.close)
        timer.start()
        began = time.monotonic()
        found = ctl("--wait", "30", "set", folder, "web", "/n", "2")
        failures.expect("locked for a while", (found.status, found.errors), (0, ""))
        failures.expect("it has waited", time.monotonic() - began > 0.5, True)
        timer.join()
    found = ctl("--socket", at, "set", folder, "web", "/n", "3")
    failures.expect("no server", (found.status, found.fault("confstorectl")), (3, ["Disconnected"]))
    with contextlib.ExitStack() as stack:
        timer = threading.Timer(0.5, lambda: stack.enter_context(serving(at, folder)))
        timer.start()
        found = ctl("--socket", at, "--wait", "30", "set", folder, "web", "/n", "3")
        failures.expect("a server that comes", (found.status, found.errors), (0, ""))
        timer.join()
        try_finding(folder, at, failures)
    failures.expect("what was set", ctl("get", folder, "web", "/n", "--raw").output, b"5\n")


def try_finding(folder: str, at: str, failures: Failures) -> None:
    """The socket of the environment, the one in the folder, and one that nobody listens to."""
    environment = {"CONFSTORE_SOCKET": at}
    failures.expect("the environment's", ctl("set", folder, "web", "/n", "4", environment=environment).status, 0)
    link = os.path.join(folder, "confstore.sock")
    os.symlink(at, link)
    failures.expect("the folder's", ctl("set", folder, "web", "/n", "5").status, 0)
    try_copies(folder, failures)
    os.remove(link)
    other = os.path.join(os.path.dirname(folder), "x" * 120)
    with Store(other, make=True, program=PROGRAM) as store:
        store["web"] = "x"
    here = os.getcwd()
    os.chdir(other)
    try:
        with socket.socket(socket.AF_UNIX) as left:
            left.bind("confstore.sock")
    finally:
        os.chdir(here)
    failures.expect("one that was left", ctl("set", "--whole", other, "web", "", "y").status, 0)
    failures.expect("what was set there", ctl("get", other, "web").output, b'"y"\n')


def try_copies(folder: str, failures: Failures) -> None:
    """Copies of a folder with a link to the socket of its server. No word goes to the store of the first folder; once
    the link is removed, it goes into the copy."""
    of_first = os.path.join(folder, "store.yaml")
    for how in ("-al", "-a"):
        copy = f"{folder}.copy{how}"
        subprocess.run(["cp", how, folder, copy], check=True)
        held = read_file(of_first), read_file(os.path.join(copy, "store.yaml"))
        for words in (["set", copy, "web", "/n", "6"], ["get", copy, "web"], ["rename", copy, "web", "to"]):
            found = ctl(*words)
            failures.expect(f"cp {how}: {words[0]}", (found.status, found.fault("confstorectl")), (3, ["OtherStore"]))
        left = read_file(of_first), read_file(os.path.join(copy, "store.yaml"))
        failures.expect(f"cp {how}: what it left", left, held)
    os.remove(os.path.join(copy, "confstore.sock"))
    failures.expect("a copy without the link", ctl("set", copy, "web", "/n", "6").status, 0)
    failures.expect("what was set in it", ctl("get", copy, "web", "/n", "--raw").output, b"6\n")
    failures.expect("the first store", read_file(of_first), held[0])


# ---- clients


def append_all(folder: str, clients: int, appends: int, failures: Failures) -> None:
    """Clients that append to one list, side by side."""
    started = [
        subprocess.Popen([sys.executable, "-c", CLIENT, folder, f"c{number}", str(appends)], env=ENVIRONMENT)
        for number in range(clients)
    ]
    failures.expect("the statuses of clients", [client.wait(PATIENCE) for client in started], [0] * clients)
    held = Reader(folder, program=PROGRAM).get("app", "/list")
    assert isinstance(held, list)
    failures.expect("how many texts are held", len(held), clients * appends)
    for number in range(clients):
        mine = [text for text in held if isinstance(text, str) and text.startswith(f"c{number}-")]
        failures.expect(f"those of client {number}", mine, [f"c{number}-{turn}" for turn in range(appends)])


def add_all(folder: str, clients: int, adds: int, failures: Failures) -> None:
    """Clients that add one to one number so many times each, by conditions."""
    errors = [tempfile.TemporaryFile() for _ in range(clients)]
    started = [
        subprocess.Popen([sys.executable, "-c", ADDING_CLIENT, folder, str(adds)], env=ENVIRONMENT, stderr=error)
        for error in errors
    ]
    failures.expect("the statuses of those who add", [client.wait(2 * PATIENCE) for client in started], [0] * clients)
    told: set[str] = set()
    for error in errors:
        with error:
            error.seek(0)
            lines = without_sentences(error.read().decode().splitlines())
            told |= {line.partition(": ")[2].partition(": ")[0] for line in lines}
    failures.expect("what they are told", told <= {"Unmet"}, True)
    failures.expect("the number", Reader(folder, program=PROGRAM).get("app", "/n"), str(clients * adds))


def try_clients(top: str, failures: Failures) -> None:
    served, alone = os.path.join(top, "served"), os.path.join(top, "alone")
    for folder in (served, alone):
        with Store(folder, make=True, program=PROGRAM) as store:
            store["app"] = {"list": [], "n": "0"}
    has_conditions = "--if-value" in table_of_program(PROGRAM)["set"].options
    with serving(os.path.join(served, "confstore.sock"), served):
        append_all(served, CLIENTS, APPENDS, failures)
        if has_conditions:
            add_all(served, CLIENTS, ADDS, failures)
    append_all(alone, CLIENTS_ALONE, APPENDS_ALONE, failures)
    if has_conditions:
        add_all(alone, CLIENTS_ALONE, ADDS_ALONE, failures)


# ---- watching


class Writer:
    """Makes changes of a store that is served, each `set` with its own number as the value."""

    def __init__(self, folder: str, at: str) -> None:
        self.folder, self.at, self.number = folder, at, 1

    def change(self, count: int) -> None:
        """Makes so many changes: a part of them one by one, and the others at once."""
        with Store.connect(self.at) as store:
            batches: list[list[Tree]] = [
                [{"set": "web", "path": "/n", "value": str(number)}]
                for number in range(self.number + 1, self.number + count + 1)
            ]
            for batch in batches[: count // 4]:
                store.perform_batches([batch])
            store.perform_batches(batches[count // 4 :])
        self.number += count

    def checkpoint(self) -> None:
        with Store.connect(self.at) as store:
            store.checkpoint()


class Watched:
    """What those who watch the store have told: `watch` by the folder, and by the socket, and `follow`."""

    def __init__(self, *outputs: str) -> None:
        self.outputs = outputs
        self.followed: list[str] = []
        self.wrong: list[str] = []

    def lines(self) -> list[list[str]]:
        """The lines of each `watch`, as far as they are whole."""
        return [read_file(output).decode().split("\n")[:-1] for output in self.outputs]

    def have_come_to(self, number: int) -> bool:
        return all(lines and last_in(lines[-1]) >= number for lines in (*self.lines(), self.followed))


def last_in(line: str) -> int:
    """The number of the last change that a line of a watch is about."""
    found = re.match(r"(?:\d+-)?(\d+) ", line)
    assert found is not None, line
    return int(found[1])


def change_all(writer: Writer, watch: subprocess.Popen[bytes], watched: Watched, failures: Failures) -> int:
    """The changes and checkpoints, through servers of which every second one is told to end, and the session of the
    others is killed. How many changes came before the checkpoints that wait for nobody."""
    share, calm, lives = (CHANGES - 1) // CHECKPOINTS, 0, RESTARTS + 1
    for life in range(lives):
        with serving(writer.at, writer.folder) as server:
            for turn in range(CHECKPOINTS * life // lives, CHECKPOINTS * (life + 1) // lives):
                if turn == CHECKPOINTS - STOPPED:
                    watch.send_signal(signal.SIGSTOP)
                writer.change(share if turn < CHECKPOINTS - 1 else CHANGES - writer.number)
                if turn < CALM:
                    calm = writer.number
                    failures.expect(f"all is told up to {calm}", until(lambda: watched.have_come_to(calm), PATIENCE), True)
                writer.checkpoint()
            if life % 2:
                os.kill(session_of(server), signal.SIGKILL)
                server.wait(PATIENCE)
    watch.send_signal(signal.SIGCONT)
    return calm


def numbers_of(lines: Sequence[str], failures: Failures) -> list[int]:
    """The numbers that a watch has told, where each number from 1 on comes once, told or cut."""
    seen, following = [], 1
    for line in lines:
        cut = re.fullmatch(r"(\d+)-(\d+) cut", line)
        first, last = (int(cut[1]), int(cut[2])) if cut else (following, following)
        wanted = "1 import web" if following == 1 else f'{following} batch set web "/n"'
        failures.expect(f"the line {line!r}", cut is not None or line == wanted, True)
        failures.expect(f"the number after {following - 1}", first, following)
        seen += [] if cut else [following]
        following = last + 1
    failures.expect("the last number", following - 1, CHANGES)
    return seen


def follow(reader: Reader, watched: Watched) -> None:
    """Follows the changes until the last one, and compares each value with its number."""
    with reader.follow(1) as changes:
        while not watched.followed or last_in(watched.followed[-1]) < CHANGES:
            event = changes.within(PATIENCE)
            if event is None:
                watched.wrong.append("nothing comes")
                return
            if isinstance(event, Cut):
                watched.followed.append(f"{event.first}-{event.last} cut")
            elif isinstance(event, Record):
                watched.followed.append(event.line)
                if event.number > 1 and event.edits[0].tree != str(event.number):
                    watched.wrong.append(f"{event}")


def try_watching(top: str, failures: Failures) -> None:
    folder, outputs = os.path.join(top, "watched"), [os.path.join(top, name) for name in ("folder.txt", "socket.txt")]
    with Store(folder, make=True, program=PROGRAM) as store:
        store["web"] = {"n": "1"}
    writer, watched = Writer(folder, os.path.join(folder, "confstore.sock")), Watched(*outputs)
    thread = threading.Thread(target=follow, args=(Reader(folder, program=PROGRAM), watched), daemon=True)
    by_socket = [*CTL, "--wait", "30", "--socket", writer.at, "watch", os.path.join(top, "none")]
    watches = []
    for words, output in (([*CTL, "watch", folder], outputs[0]), (by_socket, outputs[1])):
        with open(output, "wb") as target:
            watches.append(subprocess.Popen([*words, "--from", "1"], stdout=target, env=ENVIRONMENT))
    try:
        thread.start()
        calm = change_all(writer, watches[0], watched, failures)
        with serving(writer.at, folder):
            failures.expect("all come to the end", until(lambda: watched.have_come_to(CHANGES), PATIENCE), True)
        thread.join(PATIENCE)
    finally:
        for watch in watches:
            watch.send_signal(signal.SIGINT)
            failures.expect("the watch ends as it is told", watch.wait(PATIENCE), -signal.SIGINT)
    failures.expect("the values", watched.wrong, [])
    told_by_folder, told_by_socket = watched.lines()
    is_cut = any(line.endswith(" cut") for line in told_by_folder)
    failures.expect("the watch was cut while it was stopped", is_cut, True)
    all_told = (("watch", told_by_folder), ("watch by the socket", told_by_socket), ("follow", watched.followed))
    for name, lines in all_told:
        seen = numbers_of(lines, failures)
        failures.expect(f"{name}: those before a calm checkpoint", seen[:calm] == list(range(1, calm + 1)), True)
        print(f"{name}: {len(seen)} of {CHANGES} changes were told, and {CHANGES - len(seen)} cut")


def try_one_watch(top: str, failures: Failures) -> None:
    """What a watch of one place tells, its records, and its end where nobody reads any more."""
    folder = os.path.join(top, "one")
    with Store(folder, make=True, program=PROGRAM) as store:
        store["web"] = {"port": "80", "tags": ["a", "b"]}
        store["dns"] = {"server": "a"}
        store.set("web", "/port", "81")
        store.set("web", "/tags/0", "c")
        store.delete("web", "/tags/0")
        store.set("dns", "/server", "b")
    log = done([PROGRAM, "log", folder]).output.splitlines(keepends=True)
    records = done([PROGRAM, "log", "--yaml", folder]).output
    for words, wanted in (
        (["--from", "1"], b"".join(log)),
        (["--from", "1", "--yaml"], records),
        (["--from", "3", "web"], b"".join(log[2:5])),
        (["--from", "1", "web", "/port"], log[0] + log[2]),
        (["--from", "1", "web", "/tags/1"], log[0] + log[4]),
        (["--from", "4", "dns"], log[5]),
    ):
        count = wanted.count(b"\n")
        line = " ".join([*CTL, "watch", folder, *words, "|", "head", "-n", str(count)])
        found = through_shell(line, folder, "")
        failures.expect(f"watch {words}", (found.status, found.output, found.errors), (3, wanted, ""))
    found = ctl("watch", os.path.join(top, "none"))
    failures.expect("watch of no folder", (found.status, found.fault("confstorectl")), (3, ["Device"]))
    os.mkdir(os.path.join(top, "empty"))
    found = ctl("watch", os.path.join(top, "empty"))
    failures.expect("watch of no store", (found.status, found.fault("confstorectl")), (1, ["NotAStore"]))


# ---- pages

# What is typed before a TAB, and the words that confstorectl is called with then.
LINES = [
    ("exp", "export"),
    ("--wait 5 checkp", "--wait 5 checkpoint"),
    ("get store we", "get store web"),
    ("get --at 1 --ra", "get --at 1 --raw"),
    ("--socket fil", "--socket file.yaml"),
    ("import store app fil", "import store app file.yaml"),
    ("watch sto", "watch store"),
    ("help ver", "help verify"),
    ("import --ini", "import --init"),
    ("delete --who", "delete --whole"),
    ("set --yaml --exp", "set --yaml --explain"),
    ("set --if-v", "set --if-value"),
    ("set --file fil", "set --file file.yaml"),
    ("copy store web ap", "copy store web app"),
    ("exi", "exists"),
    ("bac", "backup"),
    ("backup store sto", "backup store store"),
    ("format --check file.yaml fil", "format --check file.yaml file.yaml"),
    ("run --checkp", "run --checkpoint-after"),
    ("und", "undo"),
    ("undo store 3 ap", "undo store 3 app"),
    ("rollback --if-c", "rollback --if-count"),
    ("rollback --to 3 store we", "rollback --to 3 store web"),
    ("sync store sto", "sync store store"),
    ("diff --li", "diff --lines"),
    ("export --all sto", "export --all store"),
]


def try_pages(top: str, failures: Failures) -> None:
    checked = done([sys.executable, PAGES, "--check"])
    failures.expect("the pages", (checked.status, checked.output, checked.errors), (0, b"", ""))
    room, programs = os.path.join(top, "keys"), os.path.join(top, "programs")
    os.mkdir(room)
    os.mkdir(programs)
    with Store(os.path.join(room, "store"), make=True, program=PROGRAM) as store:
        store.update({"web": "x", "app": "x"})
    write_file(os.path.join(room, "file.yaml"), b"a: b\n")
    put_stand_in(programs, "confstorectl")
    shells = {shell: shutil.which(shell) for shell in SHELLS}
    print("".join(f"left out: {shell}\n" for shell, path in shells.items() if path is None), end="")
    there = [shell for shell, path in shells.items() if path is not None]
    with ThreadPoolExecutor() as pool:
        list(pool.map(lambda shell: press_keys(shell, "confstorectl", LINES, room, programs, failures), there))
    of_pointers = os.path.join(top, "pointers")
    os.makedirs(os.path.join(of_pointers, "store"))
    put_keys(top, os.path.join(of_pointers, "store"))
    lines = [*LINES_OF_POINTERS, ("get --wait 1 store web /po", "/port", "")]
    with ThreadPoolExecutor() as pool:
        list(
            pool.map(
                lambda shell: press_for_last_word(shell, "confstorectl", lines, of_pointers, programs, failures), there
            )
        )
    failures.expect("files that keys made", [file for file in os.listdir(of_pointers) if MADE in file], [])


def main() -> int:
    need_program()
    failures = Failures()
    with tempfile.TemporaryDirectory() as top:
        trials = (
            try_table, try_words, try_streams, try_waiting, try_clients, try_watching, try_one_watch, try_pages,
        )  # fmt: skip
        for trial in trials:
            room = os.path.join(top, trial.__name__)
            os.mkdir(room)
            began = time.monotonic()
            trial(room, failures)
            print(f"{trial.__name__.removeprefix('try_').replace('_', ' ')}: {time.monotonic() - began:.0f} s")
    return failures.report()


if __name__ == "__main__":
    sys.exit(main())
