"""What `serve.py` keeps of each client: what it sent and is not in the session, and what it has to read; and who waits
for a place."""

from __future__ import annotations

import functools
import re
import selectors
import socket
import time
from typing import Callable, Optional

from serve_metrics import Monitor
from serve_socket import PART, Pieces
from serve_watch import Watcher

LONGEST = 16_777_216  # bytes of a command
MOST_DUE = 16  # commands of a client in the session

# How commands begin whose answers are short, in the one style; and a checkpoint, also in flow, as JSON is.
SHORT = re.compile(rb"(?:---\n)?(?:(?:set|delete|import|batch|if):[ \n]|(?:checkpoint|\{ ?[\"']?checkpoint[\"']?) ?:)")

# How commands begin that are no checkpoints, in the one style or in flow.
OTHER = re.compile(rb"(?:---\n)?(?:\{ ?)?[\"']?(?:set|delete|import|batch|if|get|export|names|count)[\"']? ?:")

# Escapes that may spell a letter of a key, in a command that doesn't have the key as it is.
SPELLED = re.compile(rb"\\[xuU\r\n]")

# What is answered where another store stands in the place of the one that the server holds.
REFUSED = b"---\nrefused: Replaced\n...\n"

READ, WRITE = selectors.EVENT_READ, selectors.EVENT_WRITE


def may_spell_a_key(command: bytearray) -> bool:
    """Whether escapes in a command may spell a key that it doesn't have as it is."""
    return b"\\" in command and SPELLED.search(command) is not None


def may_be_checkpoint(heard: bytearray, end: int) -> bool:
    """Whether the command before `end` may be a checkpoint, in whatever spelling."""
    if OTHER.match(heard):
        return False
    command = heard[:end]
    return b"checkpoint" in command or may_spell_a_key(command)


class Work:
    """The clients that there is something to do for. Each turn goes over them, and not over all that are connected."""

    def __init__(self) -> None:
        self.changed: dict[Client, None] = {}  # who sent, got or read something since its events were watched
        self.answered: dict[Client, None] = {}  # who got an answer that nothing was sent of yet
        self.waiting: dict[Client, None] = {}  # who has a whole command that no session has, in order of their turns
        self.watching: dict[Client, None] = {}  # who watches the store
        self.checkpointing: dict[Client, None] = {}  # who waits with a checkpoint

    def done(self) -> list[Client]:
        """Those for whom nothing is left to do. They have sent all, or watch the store, whose file may be over."""
        clients = {**self.changed, **self.watching} if self.watching else self.changed
        return [client for client in clients if (client.has_sent_all or client.watcher) and client.is_done()]

    def leave(self, client: Client) -> None:
        for clients in (self.changed, self.answered, self.waiting, self.watching, self.checkpointing):
            clients.pop(client, None)


class Client:
    """A client: what it sent and is not in the session, and what it has to read."""

    def __init__(
        self, connection: socket.socket, user: int, monitor: Monitor, work: Work, serve: Callable[[Client, int], None]
    ) -> None:
        self.connection = connection
        self.user = user  # who is at the other end
        self.monitor = monitor
        self.work = work
        self.descriptor = connection.fileno()
        self.serve = functools.partial(serve, self)
        self.watched = 0  # its events that are watched
        self.heard = Pieces()
        self.may_hear = PART
        self.unsaid = bytearray()
        self.due = 0
        self.wants_long = False  # whether the answer to its next command may be long, if that is here
        self.waits_for_long = False
        self.may_note = False  # whether the command that it gave last may have an about
        self.has_sent_all = False
        self.is_gone = False
        self.watcher: Optional[Watcher] = None
        self.came = self.read_last = self.active = self.asked = time.monotonic()
        self.has_changed()

    def has_changed(self) -> None:
        """Notes that its events may be other ones, or that it may be done."""
        self.work.changed[self] = None

    def has_command(self) -> None:
        """Notes that a whole command of it waits for the session."""
        self.work.waiting.setdefault(self)
        self.wants_long = SHORT.match(self.heard.bytes) is None
        if may_be_checkpoint(self.heard.bytes, self.heard.end):
            self.work.checkpointing.setdefault(self)

    def may_send(self) -> bool:
        """Whether its next command may go to the session."""
        is_free = not self.unsaid and not self.waits_for_long and self.watcher is None
        return bool(self.heard.end) and is_free and self.due < MOST_DUE

    def next_command(self) -> bytearray:
        self.waits_for_long = self.wants_long
        self.due += 1
        self.may_hear = PART
        command = self.heard.take()
        self.may_note = b"about" in command or may_spell_a_key(command)
        del self.work.waiting[self]  # its next turn is behind those of the others
        self.work.checkpointing.pop(self, None)
        if self.heard.end:
            self.has_command()
        if self.watched != READ:
            self.has_changed()
        return command

    def hear(self) -> bool:
        """Takes what it sends. Whether it may go on."""
        heard = self.heard
        room = self.may_hear - len(heard.bytes)
        if room <= 0 or self.has_sent_all:
            return True
        try:
            part = self.connection.recv(PART if room > PART else room)
        except BlockingIOError:
            return True
        except OSError:
            return False
        self.has_sent_all = not part
        self.monitor.received += len(part)
        heard.add(part)
        if heard.end and part:
            self.active = self.asked = time.monotonic()  # all whole commands here came by now: none was here before
            self.has_command()
        else:
            self.has_changed()
        return (heard.end or len(heard.bytes)) <= LONGEST

    def answer(self, answer: bytearray) -> None:
        self.active = time.monotonic()
        if not self.unsaid:
            self.read_last = self.active
            self.work.answered[self] = None
        self.due -= 1
        self.waits_for_long = False
        self.unsaid = self.unsaid + answer if self.unsaid else answer

    def tell(self, part: bytes) -> None:
        """Gives it a part of what it watches."""
        self.active = self.read_last = time.monotonic()
        self.unsaid = bytearray(part)
        self.has_changed()

    def say(self) -> bool:
        """Sends it what it takes now. Whether it may go on."""
        try:
            count = self.connection.send(self.unsaid)
        except BlockingIOError:
            self.has_changed()
            return True
        except OSError:
            return False
        self.monitor.sent += count
        self.read_last = time.monotonic()
        if count == len(self.unsaid):
            self.unsaid = bytearray()
            self.active = self.read_last
            if self.watched == READ and not self.has_sent_all:
                return True  # nothing is to be watched that isn't
        else:
            del self.unsaid[:count]
        self.has_changed()
        return True

    def refuse_all(self) -> bool:
        """Answers each whole command that has come, and that no session has, by the refusal of a store that is gone.
        One that was refused is heard no more. Whether it may go on."""
        goes_on = self.hear()
        count = 0
        while self.heard.end:
            self.heard.take()
            count += 1
        if not self.unsaid:
            self.read_last = time.monotonic()
        self.unsaid = self.unsaid + REFUSED * count
        self.has_sent_all = self.has_sent_all or count > 0
        self.has_changed()
        return goes_on

    def leave(self) -> None:
        """Ends the connection, and lets go of the memory."""
        self.is_gone = True
        self.connection.close()
        self.heard, self.unsaid = Pieces(), bytearray()

    def has_to_read(self) -> bool:
        """Whether there is something that it has to be told before the end."""
        return bool(self.unsaid) or (self.watcher is not None and self.watcher.has_to_end())

    def is_done(self) -> bool:
        if self.watcher is not None:
            return not self.unsaid and (self.watcher.is_over or self.has_sent_all or bool(self.heard.end))
        return self.has_sent_all and not self.unsaid and not self.due and not self.heard.end

    def is_idle(self) -> bool:
        """Whether the session has nothing to do for it."""
        return not self.due and not self.heard.end

    def needs_place(self) -> bool:
        """Whether it has sent as much of a command as is kept of each client."""
        return not self.heard.end and len(self.heard.bytes) >= self.may_hear and not self.has_sent_all

    def events(self) -> int:
        hears = not (self.has_sent_all or self.heard.end or self.unsaid) and len(self.heard.bytes) < self.may_hear
        return (READ if hears else 0) | (WRITE if self.unsaid else 0)


class Places:
    """Places for so many clients at a time. The others wait for theirs, in order."""

    def __init__(self, count: int) -> None:
        self.count = count
        self.since: dict[Client, float] = {}
        self.waiting: dict[Client, None] = {}

    def ask(self, client: Client) -> bool:
        """Whether the client has a place. If not, it waits for one from now on."""
        if client not in self.since:
            self.waiting[client] = None
        return client in self.since

    def give(self) -> list[Client]:
        """Those who have got a place just now."""
        if not self.waiting:
            return []
        got = list(self.waiting)[: max(self.count - len(self.since), 0)]
        for client in got:
            del self.waiting[client]
            self.since[client] = client.active = time.monotonic()
        return got

    def leave(self, client: Client) -> None:
        self.since.pop(client, None)
        self.waiting.pop(client, None)

    def held(self) -> list[tuple[Client, float]]:
        """Who has had a place since when, where others wait for one."""
        return list(self.since.items()) if self.waiting else []
