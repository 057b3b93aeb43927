"""What is done to stores before the power is cut, for checks/crash_images.py: commands of a session, words of
confstorectl one after the other, and commands of a client beside a server that is asked for archives.

Each kind of work makes its changes in the same way: `acknowledged` goes on to the next one after each that the store
has acknowledged."""

from __future__ import annotations

import os
import random
import re
import shutil
import subprocess
import sys
from collections.abc import Iterator, Mapping, Sequence
from pathlib import Path
from typing import NamedTuple, Optional

from .store_runs import PROGRAM, TOP
from .waiting import accepts, until

sys.path.insert(0, os.path.join(TOP, "python"))
from confstore import Store  # noqa: E402

# The status of a run, what it wrote, and what it wrote to standard error.
Ended = tuple[int, str, str]

# How long in seconds a run, or a server, is waited for.
PATIENCE = 300

CTL = [sys.executable, "-m", "confstore.ctl"]
SERVER = os.path.join(TOP, "clients", "serve.py")
ENVIRONMENT = {
    **{name: value for name, value in os.environ.items() if not name.startswith("CONFSTORE")},
    "CONFSTORE": PROGRAM, "PYTHONPATH": os.path.join(TOP, "python"), "TMPDIR": "/dev/shm",
}  # fmt: skip

# How a file begins in each format.
FIRST, SECOND, THIRD = (b"---\nstore: confstore-%d\n" % number for number in (1, 2, 3))

# What a change notes, in a command or in words, and how a line of the log tells it.
NOTED, TOLD = re.compile(r"why(?:: |=)(w\d+)"), re.compile(r' why "(w\d+)" ')

# How many archives a work makes, and the most commands that a client sends beside each.
ARCHIVES, COMMANDS = 2, 100


def confstore(*words: str | Path, given: str = "") -> Ended:
    """A run of the program."""
    return _ended([PROGRAM, *words], given)


def ctl(*words: str | Path) -> Ended:
    """A run of confstorectl, for which no server, socket or about is named elsewhere."""
    return _ended([*CTL, *words], "", ENVIRONMENT)


def _ended(words: Sequence[str | Path], given: str, environment: Optional[Mapping[str, str]] = None) -> Ended:
    done = subprocess.run(
        words, input=given, env=environment, capture_output=True, text=True, check=False, timeout=PATIENCE
    )
    return done.returncode, done.stdout, done.stderr


def set_of(key: str, length: int, why: str = "", config: str = "web") -> str:
    about = f"about:\n  why: {why}\n" if why else ""
    return f"set: {config}\npath: /{key}\nvalue: v{key}{'x' * length}\n{about}...\n"


def import_of(config: str, keys: int, length: int) -> str:
    return f"import: {config}\ntext: |\n" + "".join(f"  k{key}: v{'x' * length}\n" for key in range(keys)) + "...\n"


def archives_of(store: Path) -> Path:
    """The folder that the archives of a store are made in, which is beside it."""
    return store.with_name(f"{store.name}-archives")


class State(NamedTuple):
    """The number of a store's last command, and the lines of its configurations."""

    number: int
    lines: list[str]


def number_of(store: Path) -> int:
    """The number of a store's last command, as far as it is there."""
    return sum(map(int, re.findall(r'^(?:base|commands): "(\d+)"$', confstore("verify", store)[1], re.MULTILINE)))


def state_of(store: Path) -> State:
    """The state of a store, as far as it is there."""
    names = confstore("names", store)[1].split()
    lines = [line for name in names for line in [f"{name}:", *confstore("get", store, name)[1].splitlines()]]
    return State(number_of(store), lines)


def between(first: State, last: State, steps: int) -> list[State]:
    """The states from one to another, where each step counts as much, and adds as many lines at the end."""
    count, lines = (last.number - first.number) // steps, (len(last.lines) - len(first.lines)) // steps
    return [
        State(first.number + count * done, last.lines[: len(first.lines) + lines * done]) for done in range(steps + 1)
    ]


# ---- the kinds of works


class Work:
    """What is done to a store, and what a session has done to it before. `is_read` is a store whose state has to be
    read after each change, as changes do not only add lines; `is_first` is one of the first format."""

    waiting = 1
    is_read = False

    def __init__(self, name: str, before: str = "", *, is_first: bool = False, has_archives: bool = False) -> None:
        self.name, self.before, self.is_first, self.has_archives = name, before, is_first, has_archives

    @property
    def changes(self) -> list[str]:
        """What it does, each change as a text."""
        return []

    @property
    def whys(self) -> list[str]:
        """What the commands note that it makes, one after the other: nothing where a command has no about."""
        commands = (change for change in self.changes if "--archive" not in change)
        return [found[1] if (found := NOTED.search(command)) else "" for command in commands]

    @property
    def turn(self) -> int:
        """The number of the change that is the first with an about, or 0."""
        return next((number for number, change in enumerate(self.changes, 1) if NOTED.search(change)), 0)

    @property
    def focus(self) -> list[int]:
        """The numbers of the changes that many cuts are to be at."""
        archives = [number for number, change in enumerate(self.changes, 1) if "--archive" in change]
        return archives + [self.turn] * bool(self.turn)

    def acknowledged(self, store: Path) -> Iterator[None]:
        """Makes the changes. Goes on after each one that is acknowledged."""
        raise NotImplementedError


class Session(Work):
    """The options of a session, its commands, and how many of them may wait for an answer."""

    def __init__(
        self, name: str, options: Sequence[str], commands: Sequence[str], waiting: int = 1, before: str = "",
        *, is_first: bool = False,
    ) -> None:  # fmt: skip
        super().__init__(name, before, is_first=is_first)
        self.options, self.commands, self.waiting = options, commands, waiting

    @property
    def changes(self) -> list[str]:
        return list(self.commands)

    def acknowledged(self, store: Path) -> Iterator[None]:
        words, sent = [PROGRAM, "run", *self.options, str(store)], 0
        with subprocess.Popen(words, stdin=subprocess.PIPE, stdout=subprocess.PIPE) as session:
            assert session.stdin and session.stdout
            for answered in range(len(self.commands)):
                for command in self.commands[sent : answered + self.waiting]:
                    session.stdin.write(command.encode())
                    sent += 1
                session.stdin.flush()
                answer = [session.stdout.readline() for _ in range(3)]
                assert answer[1].startswith(b"ok: "), answer
                yield
            session.stdin.close()


class Step(NamedTuple):
    """A word of confstorectl, with the names of folders in braces, and the files of the folder that it reads."""

    words: str
    files: Mapping[str, str] = {}


class Words(Work):
    """Words of confstorectl. A change is acknowledged where a word ends with the status 0."""

    is_read = True

    def __init__(self, name: str, steps: Sequence[Step], before: str = "", *, has_archives: bool = False) -> None:
        super().__init__(name, before, has_archives=has_archives)
        self.steps = steps

    @property
    def changes(self) -> list[str]:
        return [step.words for step in self.steps]

    def acknowledged(self, store: Path) -> Iterator[None]:
        files = store.parent.with_name("files")
        folders = {"store": store, "files": files, "archives": archives_of(store)}
        for step in self.steps:
            shutil.rmtree(files, ignore_errors=True)
            files.mkdir()
            for name, text in step.files.items():
                (files / name).write_text(text, encoding="utf-8")
            done = ctl(*(word.format(**folders) for word in step.words.split()))
            assert done[0] == 0, (step.words, done)
            yield


class Served(Work):
    """A client that sets values, while confstorectl asks the server for checkpoints with archives."""

    def __init__(self, name: str) -> None:
        super().__init__(name, has_archives=True)

    def acknowledged(self, store: Path) -> Iterator[None]:
        socket = str(store.parent.with_name("socket"))
        with subprocess.Popen([sys.executable, SERVER, socket, str(store)], env=ENVIRONMENT) as server:
            try:
                assert until(lambda: accepts(socket), PATIENCE)
                with Store.connect(socket, timeout=PATIENCE) as client:
                    for number in range(ARCHIVES):
                        archive = str(archives_of(store) / str(number))
                        words = ["checkpoint", "--socket", socket, str(store), "--archive", archive]
                        yield from self._beside(words, client, f"a{number}c")
            finally:
                server.terminate()

    @staticmethod
    def _beside(words: Sequence[str], client: Store, key: str) -> Iterator[None]:
        """Sets values until a word of confstorectl has ended."""
        with subprocess.Popen([*CTL, *words], env=ENVIRONMENT) as word:
            for number in range(COMMANDS):
                client.set("web", f"/{key}{number}", f"v{'x' * 20 * (number % 50)}")
                yield
                if word.poll() is not None:
                    break
            assert word.wait(PATIENCE) == 0


# ---- the works


def works(rnd: random.Random) -> list[Work]:
    return [*plain_works(rnd), *about_works(rnd), *word_works(rnd)]


def plain_works(rnd: random.Random) -> list[Work]:
    """Sessions whose commands have no about."""
    edits = "".join(f"  - set: web\n    path: /b{key}\n    value: v{key}{'x' * 5000}\n" for key in range(200))
    groups = [set_of(f"c{number}", 9000) for number in range(40)]
    large = import_of("big", 2500, 1000) + import_of("bigger", 2500, 1000)
    return [
        Session("single", [], [set_of(f"c{number}", rnd.randint(1, 200)) for number in range(50)]),
        Session("groups", ["--group"], groups, 16),
        Session("slices", ["--group", "--checkpoint-after", "90000"], groups, 8),
        Session("import", [], [import_of("big", 5000, 600)]),
        Session("batch", [], [f"batch:\n{edits}...\n"]),
        Session("checkpoint", [], ["checkpoint:\n...\n"], before=large),
    ]


def noted(rnd: random.Random, count: int, turns: Sequence[int], longest: int) -> list[str]:
    """Commands of which one is the first with an about: a later one has one or not."""
    turn = rnd.choice(turns)
    has_about = [number == turn or (number > turn and rnd.random() < 0.5) for number in range(count)]
    return [set_of(f"c{at}", rnd.randint(1, longest), f"w{at}" * has_about[at]) for at in range(count)]


def about_works(rnd: random.Random) -> list[Work]:
    """Sessions that renew the file of a store, as a command with an about is the first one."""
    large = import_of("big", 1500, 1000) + import_of("bigger", 1500, 1000) + "checkpoint:\n...\n"
    group, longest = ["--group"] * rnd.randrange(2), rnd.choice([300, 9000])
    slices = ["--group", "--checkpoint-after", "20000"]
    return [
        Session("about", [], noted(rnd, 10, range(1, 10), 300)),
        Session("about-groups", ["--group"], noted(rnd, 30, range(4, 28), longest), 16),
        Session("about-slices", slices, noted(rnd, 40, range(14, 36), 4000), 4, import_of("big", 100, 1000)),
        Session("about-large", group, noted(rnd, 6, range(1, 6), 300), 3 if group else 1, large),
        Session("about-first", group, noted(rnd, 10, range(10), 300), 4 if group else 1, is_first=True),
    ]


def word_works(rnd: random.Random) -> list[Work]:
    """Words of confstorectl, of which some renew the file, too."""
    keys = "".join(set_of(f"k{key}", rnd.randint(1, 2000), config="app") for key in range(6))
    return [
        Words("undo", undoing(rnd), import_of("app", 1, 1) + keys),
        Words("sync", syncing(rnd)),
        Words("archive", archiving(rnd), has_archives=True),
        Served("served"),
    ]


def undoing(rnd: random.Random) -> list[Step]:
    """Takes back the commands behind the first import of `app`, and from the first about on the one before."""
    turn, before = rnd.choice([0, 0, 2, 3, 4, 5]), 9  # what was done before: two imports, six keys, and one more
    steps = []
    for number in range(1, 7):
        about = f" --about why=w{number}" if number == turn or (turn and number > turn and rnd.random() < 0.5) else ""
        taken = before + number - 1 if turn and number > turn else number + 1
        steps.append(Step(f"undo {{store}} {taken}{about}"))
    return steps


def syncing(rnd: random.Random) -> list[Step]:
    """Each word changes `web`, and makes another configuration or takes others out."""
    turn, lines, steps = rnd.choice([0, 0, 2, 3, 4]), "port: web\n", []
    for number in range(1, 6):
        about = f" --about why=w{number}" if number == turn or (turn and number > turn and rnd.random() < 0.5) else ""
        lines += f"s{number}: v{'x' * rnd.randint(1, 900)}\n"
        more = "".join(f"m{key}: v{key}\n" for key in range(rnd.randint(1, 400)))
        files = {"web.yaml": lines, f"more{number}.yaml": more}
        steps.append(Step(f"sync {{store}} {{files}}{rnd.choice(['', ' --delete'])}{about}", files))
    return steps


def archiving(rnd: random.Random) -> list[Step]:
    """Some commands before each archive. The first about comes right after one, since it drops what was before."""
    turn, steps = rnd.choice([0, 1]), []
    for archive in range(ARCHIVES):
        for key in "de":
            about = f" --about why=w{archive}" if key == "d" and 0 < turn == archive else ""
            steps.append(Step(f"set {{store}} web /{key}{archive} v{'x' * rnd.randint(1, 3000)}{about}"))
        steps.append(Step(f"checkpoint {{store}} --archive {{archives}}/{archive}"))
    return steps
