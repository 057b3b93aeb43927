#!/usr/bin/env python3
"""Walks the examples of the READMEs of python/, clients/ and release/, and the server's of docs/OPERATING.md.

They are done as they stand on the pages, in a clone of the last commit, with venvs in which the package is installed
without a network. `/tmp`, `/run` and `/var/lib` stand for folders beside it, and the program is on the PATH. Each
example of a page has to be walked, but those with a `$`, which guide.py runs: one that nothing here takes is told. What
isn't installed is left out, with a line that says so.

    ./prove && python3 checks/readmes.py

It needs PyYAML for the Python that runs it. The last line is 'N passed, M failed', and the status is 0 if M is 0.
"""

from __future__ import annotations

import contextlib
import os
import re
import shutil
import signal
import socket
import subprocess
import sys
import tempfile
from collections.abc import Callable, Iterator

from lib.store_runs import PROGRAM, TOP, Failures, need_program
from lib.waiting import accepts, until

# How long anything here is waited for, in seconds.
PATIENCE = 60

# What stands for folders of the machine in the examples.
PLACES = ("/tmp/", "/run/", "/var/lib/")

# An example: lines within a fence, or lines that are indented by four spaces.
EXAMPLE = re.compile(r"(?ms)^```\w+\n(.*?)^```$|(?<=\n\n)((?:^    [^\n]*\n|\n(?=    ))+)")


def has(*programs: str) -> bool:
    """Whether these programs are installed."""
    missing = [program for program in programs if shutil.which(program) is None]
    if missing:
        print(f"left out: {missing[0]} is not installed")
    return not missing


class Room:
    """A clone of the repository, with the folders that the examples speak of."""

    def __init__(self, top: str, failures: Failures) -> None:
        self.top, self.failures = top, failures
        self.clone = os.path.join(top, "clone")
        subprocess.run(["git", "clone", "--quiet", "--no-hardlinks", TOP, self.clone], check=True)
        programs = os.path.join(top, "bin")
        for folder in (programs, *(top + place for place in PLACES)):
            os.makedirs(folder)
        os.makedirs(f"{top}/run/app")
        os.symlink(PROGRAM, os.path.join(programs, "confstore"))
        self.environment = {
            **{name: value for name, value in os.environ.items() if not name.startswith(("CONFSTORE", "PYTHON"))},
            "PATH": os.pathsep.join(
                [f"{self.clone}/venv/bin", programs, os.path.dirname(sys.executable), os.environ["PATH"]]
            ),
            "PIP_NO_INDEX": "1",
            "PIP_DISABLE_PIP_VERSION_CHECK": "1",
        }

    def here(self, text: str) -> str:
        """A text with the folders of this room."""
        for place in PLACES:
            text = re.sub(rf"(?<![\w.]){place}", self.top + place, text)
        return text

    def shell(self, lines: str, **settings: str) -> str:
        """What lines print, of which each has to succeed."""
        done = subprocess.run(
            ["bash", "-euc", self.here(lines)], cwd=self.clone, env={**self.environment, **settings},
            capture_output=True, text=True, check=False, timeout=5 * PATIENCE,
        )  # fmt: skip
        self.failures.expect(f"the status of {lines!r}, which said {done.stderr!r}", done.returncode, 0)
        return done.stdout

    def python(self, code: str) -> str:
        """What a program in Python prints, which is run by the Python of the venv."""
        self.write("example.py", code)
        return self.shell("venv/bin/python example.py")

    def write(self, name: str, code: str) -> None:
        with open(os.path.join(self.clone, name), "w", encoding="utf-8") as target:
            target.write(self.here(code))

    @contextlib.contextmanager
    def running(self, line: str) -> Iterator[subprocess.Popen[str]]:
        """A line that goes on until it is interrupted."""
        words = ["bash", "-c", f"exec {self.here(line)}"]
        environment = {**self.environment, "PYTHONUNBUFFERED": "1"}
        with subprocess.Popen(
            words, cwd=self.clone, env=environment, stdout=subprocess.PIPE, stderr=subprocess.DEVNULL, text=True
        ) as process:
            try:
                yield process
            finally:
                process.send_signal(signal.SIGINT)

    @contextlib.contextmanager
    def serving(self, line: str) -> Iterator[None]:
        """A line that starts a server, which takes clients at the socket that is its last word but one."""
        path = self.here(line).split()[-2]
        with self.running(line) as process:
            until(lambda: accepts(path) or process.poll() is not None, PATIENCE)
            self.failures.expect(f"{line!r} takes clients", accepts(path), True)
            yield


def next_line(process: subprocess.Popen[str]) -> str:
    assert process.stdout is not None
    return process.stdout.readline()


class Page:
    """The examples of a page, which are taken one after the other."""

    def __init__(self, room: Room, name: str) -> None:
        self.name = name
        with open(os.path.join(room.clone, name), encoding="utf-8") as source:
            self.text = source.read()
        examples = [self._lines_of(found) for found in EXAMPLE.finditer(self.text)]
        self.left = [example for example in examples if not example.startswith("$ ")]

    @staticmethod
    def _lines_of(found: re.Match[str]) -> str:
        fenced, indented = found.groups()
        return str(fenced) if fenced is not None else re.sub("(?m)^    ", "", indented).strip("\n") + "\n"

    def take(self, start: str) -> str:
        """The first example that begins so."""
        for example in self.left:
            if example.startswith(start):
                self.left.remove(example)
                return example
        raise LookupError(f"{self.name} has no example that begins with {start!r}")


# ---- python/README.md


def walk_python(room: Room) -> None:
    page, expect = Page(room, "python/README.md"), room.failures.expect
    room.shell(page.take("python3 -m venv"))
    room.shell(page.take("pip install ./python"))
    room.shell("printf 'server: a\\n' > dns.yaml")
    expect("the first example", room.python(page.take("from confstore import Store\n\nwith")), "a ['web', 'dns']\n")
    page.take(">>> from confstore import Store")  # a doctest: python/tests/test_mapping.py
    page.take(">>> from confstore import Absent")  # the same
    room.shell("confstore import /var/lib/app dns dns.yaml")
    page.take('with Store("/var/lib/app", about')  # python/tests/test_abouts.py tries it, by a program that takes abouts
    walk_asyncio(room, page.take("async with"))
    walk_following(room, page.take("from confstore import Cut"))
    printed = room.python(page.take("from confstore import Reader\n\nfor"))
    expect("the first record", printed.splitlines()[0], "1 [('import', 'web', '')]")
    walk_words(room, page, page.take("confstorectl set"))
    page.take("checks/clients.sh")  # this is a part of it
    expect("examples of python/README.md that are not walked", page.left, [])


def walk_asyncio(room: Room, lines: str) -> None:
    begin = "import asyncio\nfrom confstore import AsyncStore\n\nasync def main():\n"
    body = "".join(f"    {line}\n" for line in lines.splitlines())
    room.python(f"{begin}{body}\nasyncio.run(main())\n")
    found = room.shell("confstore get --raw /var/lib/app web /port; confstore get --raw /var/lib/app dns /server")
    room.failures.expect("what was set by two tasks", found, "81\nb\n")


def walk_following(room: Room, code: str) -> None:
    room.write("following.py", code.replace("    for change in", "    print('begun')\n    for change in"))
    with room.running("venv/bin/python following.py") as process:
        room.failures.expect("the following begins", next_line(process), "begun\n")
        room.shell("confstore set /var/lib/app web /port 82")
        number, _, edits = next_line(process).partition(" ")
        wanted = (True, "[('set', '/port', '82')]\n")
        room.failures.expect("a change that is followed", (number.isdecimal(), edits), wanted)


def walk_words(room: Room, page: Page, lines: str) -> None:
    """The lines with confstorectl, of which the last one watches."""
    edits = re.search(r"`(\[\{set: .*\}\])`", page.text)
    assert edits is not None
    room.shell(f"echo '{edits[1]}' > edits.yaml")
    *single, watch = lines.splitlines()
    room.failures.expect("the value that is got", room.shell("\n".join(single)), "81\n")
    room.failures.expect("what the batch has made", room.shell("confstore get --raw /var/lib/app dns /a"), "b\n")
    with room.running(f"{watch} --from 1") as process:
        room.failures.expect("the first change that is watched", next_line(process), "1 import web\n")


# ---- clients/README.md


def walk_clients(room: Room) -> None:
    page = Page(room, "clients/README.md")
    walk_examples(room, page.take("mkdir -p /tmp/app"))
    walk_ansible(room, page.take("export ANSIBLE_COLLECTIONS_PATH"))
    build, compile_files = page.take("make -C clients/c"), page.take("cc -std=c11")
    if has("make", "cc", "pkg-config"):
        room.shell(build + compile_files)
        flags = room.shell("PKG_CONFIG_PATH=/tmp/usr/lib/pkgconfig pkg-config --cflags --libs confstore")
        room.failures.expect("how to compile with the library", "-lconfstore" in flags, True)
    walk_servers(room, page)
    room.failures.expect("examples of clients/README.md that are not walked", page.left, [])


def walk_examples(room: Room, lines: str) -> None:
    """The examples that run, of which the last one is a service."""
    *single, service = lines.splitlines()
    room.shell("\n".join(single))
    host = room.shell("confstore get --raw /tmp/app web /host")
    room.failures.expect("the host that was set", host.strip(), socket.gethostname())
    with open(f"{room.top}/tmp/app.html", encoding="utf-8") as made:
        room.failures.expect("a page of HTML", made.read(15).lower(), "<!doctype html>")
    with room.running(f"env {service}") as process:
        room.failures.expect("the service says something", next_line(process) != "", True)


def walk_ansible(room: Room, lines: str) -> None:
    if not has("ansible-doc", "ansible-playbook"):
        return
    said = room.shell(lines, ANSIBLE_HOME=f"{room.top}/ansible", ANSIBLE_NOCOLOR="1")
    room.failures.expect("the play", re.search(r"localhost +: .*failed=0", said) is not None, True)


def walk_servers(room: Room, page: Page) -> None:
    alone = page.take("clients/serve.py /run/app/socket").strip()
    with room.serving(alone):
        words = "from confstore import Store\nprint(Store.connect('/run/app/socket').names())\n"
        room.failures.expect("what a client is told", room.python(words), "['web', 'dns']\n")
    inside, change = page.take("clients/serve.py /var/lib/app/confstore.sock").splitlines()
    room.shell("confstore set /var/lib/app web /port 80")
    with room.serving(inside):
        room.shell(change)
        found = room.shell("confstorectl get /var/lib/app web /port --raw")
    room.failures.expect("what was set through the socket", found, "81\n")
    walk_check(room, page)
    measured, asked = page.take("clients/serve.py --metrics").splitlines()
    if has("curl"):
        with room.serving(measured):
            room.failures.expect("a session is open", "confstore_session_open 1\n" in room.shell(asked), True)


def walk_check(room: Room, page: Page) -> None:
    """A server that judges each change by a schema."""
    code, server = page.take("import json, os, sys"), page.take("clients/serve.py --check").strip()
    if "no" in room.shell("python3 -c 'import jsonschema, yaml' 2>/dev/null || echo no"):
        print("left out: jsonschema is not installed")
        return
    room.write("judge.py", code)
    schema = '{"properties": {"port": {"pattern": "^[0-9]+$"}}}'
    room.shell(f"mkdir /var/lib/schemas; cp judge.py /var/lib/schemas; echo '{schema}' >/var/lib/schemas/web.schema.json")
    with room.serving(server):
        words = "from confstore import CheckFailed, Store\nstore = Store.connect('/run/app/socket')\n"
        words += "store.set('web', '/port', '80')\ntry:\n    store.set('web', '/port', 'none')\n"
        words += "except CheckFailed as fault:\n    print(fault.lines[1], store['web']['port'])\n"
        said = room.python(words)
    room.failures.expect("what the schema says", said, "/port: 'none' does not match '^[0-9]+$' 80\n")


# ---- docs/OPERATING.md


def walk_operating(room: Room) -> None:
    page = Page(room, "docs/OPERATING.md")
    server, asked = page.take("clients/serve.py --metrics").splitlines()
    if has("curl"):
        with room.serving(server):
            room.failures.expect("the health of the server", room.shell(asked), "ok\n")
    walk_archives(room, page)
    room.failures.expect("examples of docs/OPERATING.md that are not walked", page.left, [])


def walk_archives(room: Room, page: Page) -> None:
    """A checkpoint at the end of each of two days, whose folders have the log."""
    checkpoint = page.take("confstorectl checkpoint --wait 60")
    room.shell("confstore init /var/lib/shop; mkdir /var/lib/shop-log; printf 'port: 80\\n' | confstore import /var/lib/shop web")
    room.shell(checkpoint.replace("$(date +%F)", "monday"))
    room.shell("confstore set /var/lib/shop web /port 81")
    room.shell(checkpoint.replace("$(date +%F)", "tuesday"))
    said = room.shell(page.take("confstorectl log /var/lib/shop web --archive"))
    room.failures.expect("the log of two days", said, '1 import web\n2 set web "/port"\n')


# ---- release/README.md


def walk_release(room: Room) -> None:
    page = Page(room, "release/README.md")
    room.shell("python3 -m venv --system-site-packages other")
    room.shell(page.take("pip install release/"), PATH=f"{room.clone}/other/bin:{room.environment['PATH']}")
    room.shell("other/bin/confstorectl get /var/lib/app web /port")
    room.failures.expect("examples of release/README.md that are not walked", page.left, [])


def main() -> int:
    need_program()
    failures = Failures()
    with tempfile.TemporaryDirectory() as top:
        room = Room(os.path.realpath(top), failures)
        walks: tuple[Callable[[Room], None], ...] = (walk_python, walk_clients, walk_operating, walk_release)
        for walk in walks:
            walk(room)
    return failures.report()


if __name__ == "__main__":
    sys.exit(main())
