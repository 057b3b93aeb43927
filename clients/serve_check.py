"""What `serve.py --check COMMAND` does before a command of a client that changes the store is performed: it has COMMAND
judge each configuration that the change would give.

A client's command first goes to a copy of the store, which the program has made (`confstore backup`) in a folder of its
own, and which a session of the program holds: so the program alone says what the command gives, in whatever spelling it
comes, under which conditions, and whether it refuses it. The record that the session writes of it names the
configurations that are changed, and the session gives their texts in the one style. Each text is the standard input of
COMMAND, which `/bin/sh` runs, with its name in CONFSTORE_NAME and the path of the store in CONFSTORE_FOLDER. A
configuration that is removed is not judged. Then:

- what the copy refuses is answered so, and COMMAND does not run
- where COMMAND ends with the status 0 for each text, the session of the store is sent the client's own bytes
- else the answer is `refused: CheckFailed`, and the copy is taken back to what it was: its file is cut where the record
  began, and opened by another session. What COMMAND said is kept for the client, which asks for it by `check: ""`

The copy is in a folder of mode 0700 in TMPDIR, or else in memory (/dev/shm), or where temporary files are. It is
removed at the end, and one that a killed server left is removed by the next server of the same store.

**One after the other.** A command is judged on the state that it will be performed on. So no other change is judged
before the store's session has answered this one: the server is the only writer, and the copy has the same state as the
store by then, which the two counts show. To judge several at once, each under the condition that the count is what it
was, would have most of them judged again. Reading commands don't come here. A client's commands stay in order, since
the ones behind a change wait for its answer.

Each run of COMMAND has a limit of time. It gets no descriptor of the server but its three streams, and what is left of
its process group is killed when it ends, when its time is over and when the server ends. Of what it says the end is
kept. A COMMAND that sends a change to its own server waits for itself, until its time is over.

Where the copy can't be made, or is lost, nothing is performed unjudged: each change is refused, with the reason.
"""

from __future__ import annotations

import contextlib
import hashlib
import os
import re
import selectors
import shutil
import signal
import stat
import subprocess
import tempfile
import time
from typing import Any, BinaryIO, Container, Generator, Iterator, NamedTuple, Optional, Sequence, TypeVar

from serve_clients import Client
from serve_metrics import Monitor, Watch
from serve_socket import PART, Session, inside, reason
from serve_watch import OK, STORE_FILE, Identity, Store, identity_of, mark_of

LAST_LINES = 10  # of what COMMAND said
LONGEST_LINE = 300  # characters of each of them that are told
SAID = 16_384  # bytes at the end of what a process said that are kept
COPYING = 600  # seconds that the copy of the store may take
GROWTH = 1_048_576  # bytes by which the copy may grow before its history is dropped, beside as many as it had
KEPT = 8  # refusals of one client whose lines are kept
MEMORY = "/dev/shm"

READ, WRITE = selectors.EVENT_READ, selectors.EVENT_WRITE

REFUSED = b"---\nrefused: CheckFailed\n...\n"

# How commands begin that change nothing, whatever follows: the first key of a command says which one it is.
READING = re.compile(rb'(?:---\n)?(?:(?:get|export|names|watch):[ \n]|\{"(?:get|export|names|watch)":)')
LOOKED_AT = 32  # bytes at the start of a command that are looked at for that

# What asks for the lines of a refusal: of the last one, or of the command with this SHA-256 digest.
ASKED = re.compile(rb'(?:---\n)?(?:check: "?([0-9a-f]{0,64})"?|\{"check": "([0-9a-f]{0,64})"\})\n\.\.\.\n')
LONGEST_ASKED = 128

# What a record begins with, and what names the configuration of an edit of it: the only one, or one of a batch. What an
# edit has below its keys stands deeper than they do.
HEAD = re.compile(rb'(?:---\n)?at: "([0-9]{1,20})"\n')
EDIT = re.compile(rb'(?:import|set|delete): "?([a-z][a-z0-9_-]{0,63})"?\n')
EDITS = re.compile(rb'(?m)^  - (?:import|set|delete): "?([a-z][a-z0-9_-]{0,63})"?$')
BATCH = b"batch:\n"
CLOSING = b"\n...\n"

NO_CONFIG = b"---\nrefused: NoConfig\n...\n"
VALUE = b"---\nvalue:"
ANSWER_ENDS = b"...\n"

# What a line must not have: what could change what a terminal shows, as confstorectl escapes it, and what YAML forbids.
HIDDEN = re.compile(
    "[\0-\x1f\x7f-\x9f\u061c\u200e\u200f\u2028-\u202e\u2066-\u2069\ufeff\ufffe\uffff\ud800-\udfff\\\\]"
)

A = TypeVar("A")
Steps = Generator[None, None, A]  # what is done between turns of the server's loop, and what comes of it


class Check(NamedTuple):
    """What judges, and for how many seconds it may run each time."""

    command: str
    seconds: float


class Lost(Exception):
    """The copy of the store is not there, or not known to be as the store is: why."""


def escaped(line: str) -> str:
    """A line as it is told: what must not be in it is escaped, as confstorectl does it."""

    def escape(found: re.Match[str]) -> str:
        sign = found.group()
        return {"\n": "\\n", "\r": "\\r", "\t": "\\t", "\\": "\\\\"}.get(sign) or f"\\u{{{ord(sign):x}}}"

    return HIDDEN.sub(escape, line)


def last_lines(said: bytes) -> list[str]:
    lines = said.decode("utf-8", "replace").splitlines()[-LAST_LINES:]
    return [escaped(line)[:LONGEST_LINE] for line in lines]


def text_answer(lines: Sequence[str]) -> bytes:
    """An answer whose text has these lines in the one style. The first has to begin with a letter."""
    whole = [line.rstrip(" ") for line in "\n".join(lines).rstrip("\n ").split("\n")]
    return "".join(["---\ntext: |\n", *(f"  {line}\n" if line else "\n" for line in whole), "...\n"]).encode()


def is_reading(start: bytes) -> bool:
    """Whether a command with this start changes nothing, whatever else it is."""
    return READING.match(start) is not None


def names_in(record: bytes, number: int) -> list[bytes]:
    """The names of the configurations that a record changes, in order. Raises `Lost` if this is no record with this
    number, as a session writes it."""
    head = HEAD.match(record)
    if head is None or int(head[1]) != number or record.find(CLOSING) != len(record) - len(CLOSING):
        raise Lost("the record of the change is not as expected")
    if record.startswith(BATCH, head.end()):
        names = [found[1] for found in EDITS.finditer(record, head.end())]
    else:
        found = EDIT.match(record, head.end())
        names = [found[1]] if found else []
    if not names:
        raise Lost("the record of the change names no configuration")
    return list(dict.fromkeys(names))


def text_in(answer: bytes) -> Optional[bytes]:
    """The text in the one style that a session answers as the value of a configuration, or None where there is none. An
    answer is in the one style, and so is each part of it."""
    if answer == NO_CONFIG:
        return None
    if not answer.startswith(VALUE) or not answer.endswith(ANSWER_ENDS):
        raise Lost("the answer for a configuration is none")
    value = answer[len(VALUE) : -len(ANSWER_ENDS)]
    return value[1:] if value.startswith(b" ") else re.sub(rb"(?m)^  ", b"", value[1:])


def place_of_copies() -> str:
    """Where the copy is made."""
    if not os.environ.get("TMPDIR") and os.access(MEMORY, os.W_OK | os.X_OK):
        return MEMORY
    return tempfile.gettempdir()


def new_folder(store: Store) -> str:
    """Makes the folder of the copy, and removes those that servers of the same store have left. There is one server at
    most that holds the store."""
    found = os.fstat(store.folder)
    place, start = place_of_copies(), f"confstore-check-{found.st_dev}-{found.st_ino}-"
    for name in os.listdir(place):
        path = os.path.join(place, name)
        with contextlib.suppress(OSError):
            if name.startswith(start) and os.lstat(path).st_uid == os.geteuid():
                shutil.rmtree(path)
    return tempfile.mkdtemp(prefix=start, dir=place)


class Run:
    """A process in a group of its own, and the end of what it says."""

    def __init__(self, words: Sequence[str], watch: Watch, seconds: float, **more: Any) -> None:
        self.watch = watch
        self.process = subprocess.Popen(
            words, stdout=subprocess.PIPE, stderr=subprocess.STDOUT, bufsize=0, start_new_session=True, **more
        )
        assert self.process.stdout is not None
        self.output = self.process.stdout.fileno()
        self.said = b""
        self.has_ended = self.is_late = self.is_closed = False
        self.deadline = time.monotonic() + seconds
        try:
            self.ear = os.pidfd_open(self.process.pid)
        except OSError:
            self.kill()
            raise
        os.set_blocking(self.output, False)
        watch(self.output, READ, self.hear)
        watch(self.ear, READ, self.note_end)

    def hear(self, _events: int) -> None:
        if not self.is_closed and not self.take():
            self.watch(self.output, 0, self.hear)

    def take(self) -> bool:
        """Takes a part of what it says. Whether there may be more."""
        try:
            part = os.read(self.output, PART)
        except BlockingIOError:
            return True
        self.said = (self.said + part)[-SAID:]
        return bool(part)

    def note_end(self, _events: int) -> None:
        self.has_ended = True

    def is_over(self) -> bool:
        self.is_late = not self.has_ended and time.monotonic() > self.deadline
        return self.has_ended or self.is_late

    def kill(self) -> None:
        """Kills what is left of its group. The process itself keeps the group's number until it is waited for."""
        with contextlib.suppress(OSError):
            os.killpg(self.process.pid, signal.SIGKILL)
        self.process.wait()

    def close(self) -> int:
        """Ends it, and takes what is left of what it said. The status."""
        if not self.is_closed:
            self.is_closed = True
            for descriptor, call in ((self.output, self.hear), (self.ear, self.note_end)):
                self.watch(descriptor, 0, call)
            self.kill()
            for _ in range(SAID // 1024):  # a pipe has no more, unless one who left the group goes on to write
                before = self.said
                if not self.take() or self.said == before:
                    break
            os.close(self.ear)
            assert self.process.stdout is not None
            self.process.stdout.close()
        return self.process.returncode


class Copy:
    """A store that is as the server's, in a folder of its own. Each of its steps raises `Lost` where it fails."""

    def __init__(self, program: str, store: Store, watch: Watch) -> None:
        self.program = program
        self.store = store
        self.watch = watch
        self.top = new_folder(store)
        self.number = 0  # of folders that were made
        self.folder = ""
        self.session: Optional[Session[int]] = None
        self.answers: list[bytes] = []
        self.is_over = False
        self.run: Optional[Run] = None
        self.count = 0  # of the commands that it has accepted
        self.length = self.base = 0  # bytes of its file, and of that after its last checkpoint
        self.file: Optional[Identity] = None

    def next_folder(self) -> str:
        self.number += 1
        folder = os.path.join(self.top, str(self.number))
        os.mkdir(folder, stat.S_IRWXU)
        return folder

    def make(self) -> Steps[None]:
        """Copies the store as it is now, and opens the copy. The session of the store has no change under way."""
        self.forget()
        self.folder = self.next_folder()
        words = [self.program, "backup", "--", ".", self.folder]
        run = self.run = Run(words, self.watch, COPYING, stdin=subprocess.DEVNULL, cwd=inside(self.store.folder))
        while not run.is_over():
            yield
        if run.close():
            raise Lost(f"the store can't be copied: {' '.join(last_lines(run.said)) or 'it takes too long'}")
        yield from self.open()
        yield from self.shorten()

    def open(self) -> Steps[None]:
        """Opens the store in the folder."""
        folder = os.open(self.folder, os.O_RDONLY | os.O_DIRECTORY | os.O_CLOEXEC)
        try:
            session = self.session = Session([self.program, "run", "--", "."], folder, is_barred=False)
        finally:
            os.close(folder)
        self.is_over = False
        self.answers.clear()
        self.watch(session.output, READ, self.take)
        self.watch(session.errors_end, READ, self.take_errors)
        while not session.has_opened:
            yield from self.go_on(session)
        self.note_length()

    def shorten(self) -> Steps[None]:
        """Has the file written anew, without a history, which tells the count, too."""
        answered = OK.fullmatch((yield from self.ask(b"checkpoint:\n...\n")))
        if answered is None:
            raise Lost("the copy of the store takes no checkpoint")
        self.count = int(answered[1])
        self.note_length()
        self.base = self.length

    def note_length(self) -> None:
        """Notes which file it has, and how long that is."""
        found = os.stat(self.path)
        self.file, self.length = identity_of(found), found.st_size

    @property
    def path(self) -> str:
        return os.path.join(self.folder, STORE_FILE)

    def take(self, _events: int) -> None:
        if self.session is not None:
            given, may_be_more = self.session.read()
            self.answers += [bytes(answer) for _, answer in given]
            if not may_be_more:
                self.is_over = True
                self.watch(self.session.output, 0, self.take)

    def take_errors(self, _events: int) -> None:
        if self.session is not None and not self.session.read_errors():
            self.watch(self.session.errors_end, 0, self.take_errors)

    def write(self, _events: int = WRITE) -> None:
        if self.session is not None:
            self.session.write()
            self.watch(self.session.commands, WRITE if self.session.unsent else 0, self.write)

    def go_on(self, session: Session[int]) -> Steps[None]:
        """Waits for something to happen. Raises `Lost` where nothing can."""
        if self.is_over:
            raise Lost("the session of the copy ended: see standard error of the server")
        if session.unsent:
            self.write()
        yield

    def ask(self, command: bytes) -> Steps[bytes]:
        """The answer to a command."""
        session = self.session
        if session is None:
            raise Lost("there is no copy of the store")
        session.send(bytearray(command), 0)
        while not self.answers:
            yield from self.go_on(session)
        return self.answers.pop()

    def perform(self, command: bytes) -> Steps[tuple[bytes, Optional[list[bytes]]]]:
        """Performs a command of a client. The answer, and the names of what it changed, or None if nothing was."""
        answer = yield from self.ask(command)
        answered = OK.fullmatch(answer)
        if answered is None:
            return answer, None
        count = int(answered[1])
        if count == self.count:  # a checkpoint
            self.note_length()
            self.base = self.length
            return answer, []
        with open(self.path, "rb") as source:
            self.find_record(source)
            names = names_in(source.read(), count)
        if count != self.count + 1:
            raise Lost("the copy of the store has another count")
        self.count = count
        return answer, names

    def find_record(self, source: BinaryIO) -> None:
        """Reads the file up to where its last record begins. The first record with an about stands behind a new base,
        in another file."""
        found = os.fstat(source.fileno())
        if identity_of(found) != self.file:
            self.file = identity_of(found)
            self.base = self.length = source.read().find(CLOSING) + len(CLOSING)
        source.seek(self.length)

    def text(self, name: bytes) -> Steps[Optional[bytes]]:
        """The text of a configuration, or None if none has the name."""
        return text_in((yield from self.ask(b'get: "%b"\npath: ""\n...\n' % name)))

    def keep(self) -> Steps[None]:
        """Keeps the change that was performed last. The copy needs no history: a checkpoint drops it now and then."""
        self.note_length()
        if self.length > 2 * self.base + GROWTH:
            yield from self.shorten()

    def undo(self) -> Steps[None]:
        """Takes the change back that was performed last. The file is cut where its record begins, and goes to a folder
        of its own: to the program it is a store that was never changed further."""
        self.end_session()
        before, folder = self.folder, self.next_folder()
        os.truncate(self.path, self.length)
        os.rename(self.path, os.path.join(folder, STORE_FILE))
        shutil.rmtree(before)
        self.folder = folder
        self.count -= 1
        length = self.length
        yield from self.open()
        if self.length != length:
            raise Lost("the copy of the store is not what it was")

    def end_session(self) -> None:
        """Kills its session, which has nothing to keep."""
        session, self.session = self.session, None
        if session is not None:
            for descriptor in (session.output, session.errors_end, session.commands):
                self.watch(descriptor, 0, self.take)
            session.process.kill()
            session.process.wait()
            for stream in session.streams:
                stream.close()

    def forget(self) -> None:
        """Drops the copy."""
        if self.run is not None:
            self.run.close()
        self.run = None
        self.end_session()
        if self.folder:
            shutil.rmtree(self.folder, ignore_errors=True)
        self.folder = ""

    def close(self) -> None:
        self.forget()
        shutil.rmtree(self.top, ignore_errors=True)


class Verdict(NamedTuple):
    """What becomes of a command: the answer to it, and the lines behind a refusal by COMMAND, or neither if it is for
    the session of the store, which it may change or not."""

    answer: bytes = b""
    lines: Sequence[str] = ()
    changes: bool = True


READS = Verdict(changes=False)
PASSES = Verdict()


class Judge:
    """Has COMMAND judge the changes of the clients, one after the other.

    A client's next command stays with it until it is the session's turn to have it (`lets`), or until it is answered.
    `turn` goes on with the one that is judged. Once that was sent, the next one waits until the session has answered it
    (`heed`). `restart` drops what was judged, since another session follows, and others may change the store meanwhile.
    """

    def __init__(self, check: Check, program: str, store: Store, watch: Watch, monitor: Monitor) -> None:
        self.check = check
        self.store = store
        self.watch = watch
        self.monitor = monitor
        self.copy = Copy(program, store, watch)
        self.is_fresh = False  # whether the copy is as the store is
        self.steps: Optional[Iterator[None]] = None  # what is being done
        self.client: Optional[Client] = None  # whose next command is judged, or may be sent, or was sent
        self.may_send = self.was_sent = False
        self.reading: set[Client] = set()  # whose next command is found to change nothing
        self.run: Optional[Run] = None
        self.trouble = ""  # why there is no copy, if so
        self.refusals: dict[Client, dict[str, Sequence[str]]] = {}  # the lines behind the last ones of each client

    def prepare(self) -> None:
        """Begins to make the copy."""
        self.steps = self.preparing()
        self.turn()

    def preparing(self) -> Steps[None]:
        try:
            yield from self.refresh()
        except (Lost, OSError) as error:
            self.lose(error)

    def refresh(self) -> Steps[None]:
        """Makes the copy anew, if it isn't as the store is."""
        if not self.is_fresh:
            yield from self.copy.make()
            self.is_fresh, self.trouble = True, ""

    def lose(self, error: Exception) -> None:
        self.trouble = reason(error) if isinstance(error, OSError) else str(error)
        self.is_fresh = False
        self.copy.forget()

    def lets(self, client: Client) -> bool:
        """Whether the next command of a client may go to the session now. Otherwise it is judged, or waits for that, or
        was answered."""
        heard = client.heard
        if is_reading(bytes(heard.bytes[:LOOKED_AT])) or client in self.reading:
            return True
        if client is self.client:
            return self.changes(client)
        if client.due:
            return False
        asked = ASKED.fullmatch(heard.bytes[: heard.end]) if heard.end <= LONGEST_ASKED else None
        if asked is not None:
            self.tell_lines(client, (asked[1] or asked[2] or b"").decode())
        elif self.client is None and self.steps is None:
            self.client = client
            self.monitor.judged_since = client.asked
            self.steps = self.judging(client, bytes(heard.bytes[: heard.end]))
            self.turn()
        return False

    def changes(self, client: Client) -> bool:
        """Whether the next command of a client is one that was judged, and may be sent. Once it was, the next one is
        another one."""
        return client is self.client and self.may_send and not client.due

    def turn(self) -> None:
        """Goes on as far as it can without waiting."""
        if self.steps is not None:
            try:
                next(self.steps)
            except StopIteration:
                self.steps = None

    def judging(self, client: Client, command: bytes) -> Steps[None]:
        """Judges a client's command, and takes the change back where it is refused."""
        performed = False
        try:
            yield from self.refresh()
            answer, names = yield from self.copy.perform(command)
            performed = bool(names)
            verdict = yield from self.verdict_on(answer, names)
        except (Lost, OSError) as error:
            self.lose(error)
            why = f"the server's check can't be made, so nothing was changed: {self.trouble}"
            performed, verdict = False, Verdict(REFUSED, [why])
        if verdict.answer:
            self.answer(client, command, verdict)
        elif verdict.changes:
            self.may_send = True
        else:
            self.reading.add(client)
        if not self.may_send:
            self.let_go()
        yield from self.settle(performed)

    def settle(self, performed: bool) -> Steps[None]:
        """Has the copy keep the change that it performed, or not."""
        try:
            if performed:
                yield from self.copy.keep() if self.may_send else self.copy.undo()
        except (Lost, OSError) as error:
            self.lose(error)

    def verdict_on(self, answer: bytes, names: Optional[list[bytes]]) -> Steps[Verdict]:
        if names is None:
            return Verdict(answer) if answer.startswith(b"---\nrefused:") else READS
        for name in names:
            text = yield from self.copy.text(name)
            lines = [] if text is None else (yield from self.lines_on(name.decode(), text))
            if lines:
                return Verdict(REFUSED, lines)
        return PASSES

    def lines_on(self, name: str, text: bytes) -> Steps[list[str]]:
        """What is said of a text that COMMAND refuses: nothing if it takes it."""
        try:
            run = self.run = self.begun(name, text)
        except OSError as error:
            return [f"the server's check of {name} can't be run, so nothing was changed: {reason(error)}"]
        while not run.is_over():
            yield
        status = run.close()
        self.run = None
        if run.is_late:
            how = f"took more than {self.check.seconds:g} seconds"
        elif status == 0:
            return []
        else:
            how = f"ended with status {status}" if status > 0 else f"ended with signal {-status}"
        return [f"the server's check {how} on {name}, so nothing was changed", *last_lines(run.said)]

    def begun(self, name: str, text: bytes) -> Run:
        """COMMAND, which reads the text from a file without a name."""
        environment = {name: value for name, value in os.environ.items() if name != "NOTIFY_SOCKET"}
        environment.update(CONFSTORE_NAME=name, CONFSTORE_FOLDER=self.store.path)
        with tempfile.TemporaryFile(dir=self.copy.top) as given:
            given.write(text)
            given.seek(0)  # which writes what is in the buffer, or raises why it can't
            words = ["/bin/sh", "-c", self.check.command]
            return Run(words, self.watch, self.check.seconds, stdin=given, env=environment)

    def answer(self, client: Client, command: bytes, verdict: Verdict) -> None:
        """Answers the next command of a client, which no session sees."""
        if verdict.lines:
            kept = self.refusals.setdefault(client, {})
            digest = hashlib.sha256(command).hexdigest()
            kept.pop(digest, None)
            kept[digest] = verdict.lines
            if len(kept) > KEPT:
                del kept[next(iter(kept))]
            self.monitor.check_refusals += 1
        self.monitor.settle(client.asked, verdict.answer)
        if not client.is_gone:
            client.next_command()
            client.answer(bytearray(verdict.answer))

    def tell_lines(self, client: Client, digest: str) -> None:
        """Answers what asks for the lines behind a refusal."""
        kept = self.refusals.get(client, {})
        lines = kept.get(digest) if digest else next(reversed(kept.values()), None)
        answer = text_answer(lines) if lines else b'---\ntext: ""\n...\n'
        self.monitor.settle(client.asked, answer)
        client.next_command()
        client.answer(bytearray(answer))

    def note_sent(self) -> None:
        """Notes whether the command that may be sent was sent by now."""
        self.was_sent = self.was_sent or (self.may_send and self.client is not None and self.client.due > 0)

    def heed(self, owed: Container[Optional[Client]]) -> None:
        """Lets the next change be judged, once the session has answered the one that was sent, and compares what both
        have come to. These are the clients to whom the session owes answers."""
        if self.was_sent and self.client not in owed:
            if self.store.count != self.copy.count:
                self.is_fresh = False  # as where the file of the store would be too long
            self.let_go()

    def let_go(self) -> None:
        self.client, self.may_send, self.was_sent, self.monitor.judged_since = None, False, False, None

    def leave(self, client: Client) -> None:
        """A client is gone. What it has in judgement is performed by nobody."""
        self.reading.discard(client)
        self.refusals.pop(client, None)
        if client is self.client and not self.was_sent:
            self.drop()

    def drop(self) -> None:
        """Drops what is judged: it is not performed, and may be judged anew. The copy is what it was or not."""
        if self.run is not None:
            self.run.close()
            self.run = None
        if self.steps is not None:
            self.steps = None
            self.is_fresh = False
        if self.may_send and not self.was_sent:
            self.is_fresh = False
        self.let_go()

    def restart(self) -> None:
        """Another session follows: others may have changed the store between the two."""
        self.drop()
        self.reading.clear()
        self.is_fresh = False

    def close(self) -> None:
        self.drop()
        self.copy.close()
