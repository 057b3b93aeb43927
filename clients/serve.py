#!/usr/bin/env python3
"""Lets many clients share one session on a store, over a Unix socket.

    clients/serve.py SOCKET FOLDER

A client connects to SOCKET, sends commands as to `confstore run`, and reads the answers to its own commands, in order.
All commands go to one `confstore run --group FOLDER`, in the order in which they come. Those that come while it syncs
share the next sync. This program has no part in keeping what was answered: the session alone has.

Who may write in FOLDER may connect, and nobody else: the socket has the owner, the group and the access list of the
folder, with reading and writing for those whose entry lets them write there. Where the system refuses that, the owner
alone may connect. Whoever connects later than access was taken away from them is cut off. The socket has its name once
all that is done and the session has opened the store. So a store that is locked or damaged ends this program at once,
with the session's status and line. A socket that nobody listens to is replaced; anything else at its name ends this
program.

Each client has a queue. At most 16 of its commands are in the session, one where the answer may be long, and none are
taken while it has answers to read. What is kept of a client is at most 65,536 bytes of commands and as much of answers.
Only `--max-long-commands` clients at a time have more of a command here, up to 16,777,216 bytes, and only
`--max-long-answers` have a longer answer here or under way; the others wait for their turn. So with 256 clients the
commands have at most 83,886,080 bytes, all together.

At most `--max-clients` are connected, and others wait. A client that keeps others waiting for `--max-wait` seconds is
cut off: where all are connected, the one that did nothing for longest, and where a turn is waited for, one that sends
its command or reads its answer too slowly. To do something is to send a whole command, or to read all answers. Clients
with commands in the session stay. A client is also cut off if it reads nothing for `--max-unread` seconds while there
is something to read, sends a longer command, or asks for an answer of more than 67,108,864 bytes.

When the session ends, all clients are cut off after the answers that came, and this program ends with the session's
status. On SIGTERM, SIGINT or SIGHUP no more clients and commands are taken, those commands that the session has are
performed and answered, the socket is removed, and the status is 0. Shortly before the session was sent as much as it
takes, it is ended and another one started; clients don't notice. If another run holds the store just then, the new
session is tried again for `--max-lock-wait` seconds. The program is CONFSTORE, or `confstore` on the PATH.

This program holds FOLDER open, and all its sessions work in that one. None but the first makes a store there. Once
another folder or file stands in the place of the store (`serve_watch.py`), no more clients and commands are taken.
Those commands that the session has are performed and answered. For two seconds others are answered by
`refused: Replaced`, and the status is 5.

With `--check COMMAND` each change is first tried in a copy of the store, and COMMAND judges each configuration that it
gives. One that is refused changes nothing (`serve_check.py`).

Of an about, which notes who makes a change, when and why, the server writes `by` and `when` itself: the user that has
connected, and the time. It does so for each change of a store that has or had one (`serve_abouts.py`).

With `--metrics` the server tells its health and counters (`serve_metrics.py`). A client that sends `watch: N` is told
the changes from the number N on, as they are made (`serve_watch.py`).
"""

from __future__ import annotations

import signal

if __name__ == "__main__":
    signal.signal(signal.SIGINT, signal.SIG_DFL)  # until it is caught, it ends this program without a trace

import argparse  # noqa: E402
import collections
import contextlib
import errno
import os
import selectors
import socket
import sys
import time
from typing import Callable, NamedTuple, Optional, Sequence

# The other parts of this program are beside it, wherever it is run from.
sys.path.insert(0, os.path.dirname(os.path.realpath(__file__)))
sys.dont_write_bytecode = True

from serve_abouts import GROWTH, Abouts  # noqa: E402
from serve_check import Check, Judge  # noqa: E402
from serve_clients import LONGEST, Client, Places, Work  # noqa: E402
from serve_metrics import Monitor, address, listening, mode_of  # noqa: E402
from serve_socket import FAILED, PART, REPLACED, Fault, Listener, Loop, Session, Signals  # noqa: E402
from serve_socket import clients_with_room, inside, may_write, open_standard_streams, peer_of, reason  # noqa: E402
from serve_socket import say, shown, tell_manager  # noqa: E402
from serve_watch import Store, Watchers  # noqa: E402

SESSION = 1_073_741_824  # bytes that a session takes
MOST_UNSENT = 1_048_576  # bytes that wait to be sent to the session while more are put there
GRACE = 10  # seconds until all clients have read their answers at the end
REFUSES = 2  # seconds for which commands are refused where the store was replaced
LOOK = 0.5  # seconds between two looks at who is late
STAY = 1  # seconds that each client is connected, whoever waits
PAUSE = 0.02  # seconds between two tries to open the store again
QUIET = 60  # seconds between two lines about the same lack
FOREVER = 1e9  # seconds that no bound has

READ, WRITE = selectors.EVENT_READ, selectors.EVENT_WRITE


class Bounds(NamedTuple):
    """What the clients may take."""

    clients: int
    wait: float
    unread: float
    long_commands: int
    long_answers: int
    lock_wait: float
    renew_after: int


class Server:
    """The session, the clients, and what each of them waits for."""

    def __init__(self, words: Sequence[str], store: Store, bounds: Bounds, signals: Signals) -> None:
        self.words = words
        self.store = store
        self.bounds = bounds
        self.signals = signals
        self.loop = Loop()
        self.may = READ | WRITE  # what is watched of clients
        self.takes = False  # whether it is watched who waits to be taken
        self.work = Work()
        self.loop.watch(signals.ear.fileno(), READ, signals.hear)
        self.listener: Optional[Listener] = None
        self.clients: collections.deque[Client] = collections.deque()
        self.long_commands = Places(bounds.long_commands)
        self.long_answers = Places(bounds.long_answers)
        self.monitor = Monitor(inside(store.folder), self.clients, self.hindrance)
        self.watchers = Watchers(store)
        self.abouts = Abouts(words[0], store)
        self.others_since: Optional[float] = None  # when others began to wait to be taken
        self.takes_none_until = 0.0
        self.complained = -float(QUIET)
        self.next_look = 0.0
        self.has_ended = False
        self.begin()

    def is_ending(self) -> bool:
        return self.has_ended or self.signals.came or bool(self.store.trouble)

    def hindrance(self) -> str:
        """Why no commands are performed now, or nothing."""
        if self.store.trouble:
            return f"the store was replaced: {self.store.trouble}"
        if self.is_ending():
            return "the server ends"
        return "" if self.session.has_opened and not self.session.is_over else "no session holds the store"

    def begin(self, *, is_barred: bool = False) -> None:
        self.session: Session[Client] = Session(self.words, self.store.folder, is_barred=is_barred)
        self.loop.watch(self.session.output, READ, self.take_answers)
        self.loop.watch(self.session.errors_end, READ, self.take_errors)

    def opens(self) -> bool:
        """Waits for the session to open the store. Whether it has."""
        while not self.session.has_opened and not self.session.is_over:
            if self.is_ending():
                self.finish_session()
            self.turn()
        return self.session.has_opened

    def accept(self, _events: int = READ) -> None:
        """Takes the clients that wait, as far as there is room."""
        if self.listener is None:
            return
        now = time.monotonic()
        while self.listener.is_waited_for():
            if self.is_full(now) and not self.make_room(now):
                self.others_since = self.others_since or now
                return
            try:
                connection = self.listener.accept()
            except (BlockingIOError, ConnectionAbortedError):
                continue
            except OSError as error:
                self.takes_none_until = now + LOOK
                few = f"no more clients than {len(self.clients)} can be taken"
                self.complain(f"{few}: {reason(error)}: raise the limit")
                self.others_since = self.others_since or now
                return
            self.take(connection)
        self.others_since = None

    def take(self, connection: socket.socket) -> None:
        """Takes a client, if it may write in the store's folder still. If the store is gone, it will be told that."""
        self.store.look()
        peer = peer_of(connection)
        if may_write(peer, self.store.folder):
            self.clients.append(Client(connection, peer.user, self.monitor, self.work, self.serve_client))
        else:
            connection.close()
            lost = f"user {peer.user} is not taken, since it may not write in the store's folder any more"
            self.complain(f"{lost}: give it access there, if it is to have it")

    def complain(self, line: str) -> None:
        if time.monotonic() - self.complained >= QUIET:
            self.complained = time.monotonic()
            say(line)

    def is_full(self, now: float) -> bool:
        return len(self.clients) >= self.bounds.clients or now < self.takes_none_until

    def make_room(self, now: float) -> bool:
        """Cuts off the client that did nothing for longest, if that was long enough. Whether it was."""
        waited = now - self.others_since if self.others_since else 0
        stay = min(STAY, self.bounds.wait)
        idle = [client for client in self.clients if client.is_idle() and now - client.came >= stay]
        idle = [client for client in idle if client not in self.long_commands.waiting]
        client = min(idle, key=lambda client: client.active, default=None)
        if client is None or now - client.active < self.bounds.wait - waited:
            return False
        if client.hear() and not client.is_idle():
            return False
        self.drop(client)
        self.takes_none_until = 0
        return True

    def serve_client(self, client: Client, events: int) -> None:
        if client.is_gone:
            return
        if (events & WRITE and not client.say()) or (events & READ and not client.hear()):
            self.drop(client)
        elif client in self.long_answers.since and not client.unsaid and not client.due:
            self.long_answers.leave(client)

    def drop(self, client: Client) -> None:
        """Cuts a client off. What it sent to the session is performed all the same."""
        self.loop.unwatch(client.descriptor)
        client.leave()
        self.clients.remove(client)
        self.work.leave(client)
        self.long_commands.leave(client)
        self.long_answers.leave(client)
        if client.watcher is not None:
            self.watchers.leave(client.watcher)

    def take_answers(self, _events: int) -> None:
        given, may_be_more = self.session.read()
        answers = [answer for _, answer in given]
        self.monitor.answer(*answers)
        self.store.answer(*answers)
        for client, answer in given:
            if client.is_gone:
                continue
            if not answer:
                self.drop(client)
                continue
            if client.waits_for_long and len(answer) <= PART:
                self.long_answers.leave(client)
            client.answer(answer)
        if self.abouts.is_due:
            self.abouts.look_again(is_idle=self.session.is_idle())
        if not may_be_more:
            self.session.is_over = True
            self.store.leave()
            self.loop.unwatch(self.session.output)
            self.loop.unwatch(self.session.errors_end)
            if self.session.takes_commands:
                self.loop.unwatch(self.session.commands)

    def take_errors(self, _events: int) -> None:
        if not self.session.read_errors():
            self.loop.unwatch(self.session.errors_end)

    def say_answers(self) -> None:
        """Sends the answers that came at once, as most clients take theirs whole. What is left waits for its event."""
        answered, self.work.answered = self.work.answered, {}
        for client in answered:
            self.serve_client(client, WRITE)

    def send_commands(self) -> None:
        """Sends commands of the clients in turn, one of each, as long as there is room. Who got no room is first in the
        next turn. A checkpoint goes once all before it are answered, so that the file that it replaces has them on the
        disk, of which somebody may keep a name as an archive."""
        session, waiting, first = self.session, self.work.waiting, self.work.checkpointing
        was_sent = bool(waiting) and session.has_opened and not self.is_ending()
        while was_sent and waiting and not session.is_full:
            due = [client for client in first if client.may_send()]
            if due and not session.is_idle():
                return
            was_sent = bool(self.long_answers.give())
            for client in dict.fromkeys([*due, *waiting]):  # a checkpoint that has no turn yet holds up nobody
                if len(session.unsent) > MOST_UNSENT or not client.may_send() or not self.has_turn(client):
                    continue
                if session.is_used_up(client.heard.end, self.bounds.renew_after):
                    session.is_full = True
                    return
                if client.may_hear > PART:
                    self.long_commands.leave(client)
                command = client.next_command()
                if self.abouts.is_kept or client.may_note:
                    command = self.abouts.noted(command, client.user)
                session.send(command, client)
                self.monitor.command(client.asked)
                was_sent = True
            was_sent = was_sent or (bool(self.long_answers.waiting) and bool(self.long_answers.give()))

    def has_turn(self, client: Client) -> bool:
        """Whether a client may send its command now: one whose answer may be long waits for the answers before."""
        if not client.wants_long:
            return True
        if client.due:
            return False
        if self.watchers.begin(client):
            del self.work.waiting[client]
            self.work.changed[client] = self.work.watching[client] = None
            return False
        return self.long_answers.ask(client)

    def finish_full_session(self) -> None:
        """Ends the session once it has answered all that it was sent, and notes how it leaves the store."""
        if self.session.is_idle() and self.session.takes_commands and self.store.look_inside():
            self.store.note_end()
            self.finish_session()

    def finish_session(self) -> None:
        """Ends the session once what it was sent is written."""
        if not self.session.unsent and self.session.takes_commands:
            self.loop.unwatch(self.session.commands)
            self.session.finish()

    def look(self, now: float) -> None:
        """Cuts off the clients that are late, takes others where there was no room, and looks at the store."""
        self.monitor.look(now)
        self.store.look_inside()
        for client in list(self.clients):
            if client.unsaid and now - client.read_last > self.bounds.unread:
                self.drop(client)
        for client, since in self.long_commands.held():
            if (not client.heard.end or client.unsaid) and now - since > self.bounds.wait:
                self.drop(client)
        for client, _since in self.long_answers.held():
            if client.unsaid and now - client.active > self.bounds.wait:
                self.drop(client)
        if not self.is_ending() and self.is_full(now):
            self.accept()

    def turn(self) -> None:
        """Waits until something can be done, and does it."""
        now = time.monotonic()
        if now >= self.next_look:
            self.next_look = now + LOOK
            self.look(now)
        if self.work.answered:
            self.say_answers()
        if not self.session.is_over:
            self.go_on()
        is_ending = self.is_ending()
        is_more = (not is_ending or bool(self.store.trouble)) and self.watchers.turn()
        if self.work.changed or self.work.watching:
            for client in self.work.done():
                self.drop(client)
        self.watch_clients(WRITE if is_ending else READ | WRITE)
        if self.listener is not None:
            self.watch_listener(self.listener, takes=not is_ending and not self.is_full(now))
        longest = self.monitor.turn(self.loop.watch, LOOK)
        self.loop.turn(0 if is_more else longest)

    def go_on(self) -> None:
        """Sends the session what it takes."""
        session = self.session
        self.send_commands()
        if session.unsent:
            session.write()
        if session.is_full:
            self.finish_full_session()
        if session.takes_commands and (session.unsent or session.commands in self.loop.watched):
            self.loop.watch(session.commands, WRITE if session.unsent else 0, lambda _: self.session.write())

    def watch_listener(self, listener: Listener, *, takes: bool) -> None:
        if takes != self.takes:
            self.takes = takes
            self.loop.watch(listener.socket.fileno(), READ if takes else 0, self.accept)

    def watch_clients(self, may: int) -> None:
        """Has those events watched that may be, of the clients that have changed, or whose command got no room."""
        changed, self.work.changed = self.work.changed, {}
        if may != self.may:
            self.may = may
            changed = dict.fromkeys(self.clients)
        changed.update((client, None) for client in self.work.waiting if client.watched & READ)
        for client in changed:
            self.watch_client(client)
        for client in self.long_commands.give():
            client.may_hear = LONGEST + 1
            self.watch_client(client)

    def watch_client(self, client: Client) -> None:
        """Has the events of a client watched, or notes that it needs a place to send more."""
        events = client.events()
        if not events & READ and client.needs_place():
            self.long_commands.ask(client)
        events &= self.may
        if events != client.watched:
            client.watched = events
            self.loop.watch(client.descriptor, events, client.serve)

    def serve(self) -> int:
        """Serves until the session is over or the server is told to end. The status."""
        while not self.is_ending():
            self.turn()
            if self.session.is_over:
                was_told = not self.session.takes_commands
                status = self.session.wait()
                self.store.heed(self.session.told)
                if self.store.trouble:
                    return self.finish()
                if status != 0 or not was_told:
                    return self.end(self.said_why(status))
                if not self.renew():
                    return self.end(self.session.process.returncode or FAILED)
        return self.finish()

    def finish(self) -> int:
        """Has the session perform what it was sent. The status. Where the store was replaced, those who wait to be taken
        are told that, too."""
        if self.store.trouble:
            self.accept()
        self.stop_taking()
        while not self.session.is_over:
            self.finish_session()
            self.turn()
        status = self.session.wait()
        if self.session.was_locked():
            self.session.errors.clear()
            status = 0
        if self.store.trouble:
            place = shown(self.store.path)
            say(f"the store at {place} was replaced: {self.store.trouble}: see which one is meant, and start again")
            self.refuse_commands()
            status = REPLACED
        return self.end(status)

    def refuse_commands(self) -> None:
        """Refuses what the clients send, for a moment, so that they are told why their store is gone."""
        until = time.monotonic() + REFUSES
        while self.clients and time.monotonic() < until:
            for client in [client for client in self.clients if client.watcher is None]:
                if not client.refuse_all():
                    self.drop(client)
            self.turn()

    def said_why(self, status: int) -> int:
        """The status that the session has ended with, without being told to, after a line where it said none."""
        if status < 0:
            say(f"the session was ended by signal {-status}: start the server again")
        elif status == 0:
            say("the session ended by itself: start the server again")
        return status

    def why_not_opened(self) -> int:
        """The status of a session that has not opened the store."""
        if self.store.trouble:
            return self.finish()
        status = self.session.wait()
        self.session.pass_errors_on()
        if status == 0 and not self.is_ending():
            raise Fault(f"{shown(self.words[0])} answered nothing: name the program confstore in CONFSTORE")
        return abs(self.said_why(status) if status < 0 else status)

    def renew(self) -> bool:
        """Starts a session after one that is gone, and waits for others that hold the store. Whether one goes on."""
        deadline = time.monotonic() + self.bounds.lock_wait
        waits = False
        is_barred = self.store.shows_files  # it may write nothing as it opens the store, so that it makes none
        while not self.is_ending() and self.store.goes_on():
            try:
                self.begin(is_barred=is_barred)
            except OSError as error:
                trouble, remedy = f"no next session could be started ({reason(error)})", "free memory and processes"
            else:
                if self.opens() and (not is_barred or self.session.let_write()):
                    if self.store.goes_on():
                        self.store.hold(self.session.process.pid)
                        self.abouts.look()
                        self.monitor.renew()
                    return True
                self.session.wait()
                is_locked, was_barred = self.session.was_locked(), is_barred
                is_barred = is_locked and self.store.shows_files
                if not is_locked and not was_barred:
                    break
                if not is_locked:  # it has to copy the file, after a run that was killed
                    self.session.errors.clear()
                    continue
                trouble, remedy = "the store was held by another run", "end that run"
            if time.monotonic() > deadline:
                say(f"{trouble} for {self.bounds.lock_wait:g} seconds: {remedy}, and start the server again")
                break
            if not waits:
                waits = True
                say(f"{trouble}: the next session is tried again for {self.bounds.lock_wait:g} seconds")
            time.sleep(PAUSE)
        return self.is_ending()

    def stop_taking(self) -> None:
        if self.listener is not None:
            self.loop.unwatch(self.listener.socket.fileno())
            self.listener.close()
            self.listener = None

    def end(self, status: int) -> int:
        """Lets the clients read the answers that came, and cuts them off."""
        self.has_ended = True
        self.stop_taking()
        self.session.pass_errors_on()
        deadline = time.monotonic() + GRACE
        while any(client.has_to_read() for client in self.clients) and time.monotonic() < deadline:
            self.turn()
        for client in list(self.clients):
            self.drop(client)
        return abs(status)

    def close(self) -> None:
        """Ends the session, however this program ends."""
        self.monitor.close()
        self.watchers.close()
        if not self.session.is_over:
            self.session.wait()
        self.loop.close()


class CheckedServer(Server):
    """A server that has COMMAND judge each change before the session has it."""

    def __init__(self, words: Sequence[str], store: Store, bounds: Bounds, signals: Signals, check: Check) -> None:
        self.check = check
        self.judge: Optional[Judge] = None  # once the first session has opened the store
        super().__init__(words, store, bounds, signals)

    def begin(self, *, is_barred: bool = False) -> None:
        if self.judge is not None:
            self.judge.restart()
        super().begin(is_barred=is_barred)

    def opens(self) -> bool:
        """As of each server. The first time it also waits for the copy of the store in which changes are tried."""
        if super().opens() and self.judge is None and not self.is_ending():
            try:
                self.judge = Judge(self.check, self.words[0], self.store, self.loop.watch, self.monitor)
            except OSError as error:
                raise Fault(f"no changes can be judged: {reason(error)}: name a folder in TMPDIR") from None
            self.judge.prepare()
            while self.judge.steps is not None and not self.is_ending() and not self.session.is_over:
                self.turn()
            if self.judge.trouble:
                raise Fault(f"no changes can be judged: {self.judge.trouble}: name a folder with room in TMPDIR")
        return self.session.has_opened

    def has_turn(self, client: Client) -> bool:
        if self.judge is None or not self.judge.lets(client):
            return False
        if self.judge.changes(client):
            return True  # its answer is short
        goes = super().has_turn(client)
        if goes:
            self.judge.reading.discard(client)
        return goes

    def send_commands(self) -> None:
        super().send_commands()
        if self.judge is not None:
            self.judge.note_sent()

    def drop(self, client: Client) -> None:
        super().drop(client)
        if self.judge is not None:
            self.judge.leave(client)

    def turn(self) -> None:
        if self.judge is not None:
            if self.is_ending():
                self.judge.drop()
            else:
                self.judge.heed(self.session.turns)
                self.judge.turn()
            if self.listener is not None:
                self.tell_trouble(self.judge.trouble)
        super().turn()

    def tell_trouble(self, trouble: str) -> None:
        self.monitor.lack = f"changes can't be judged: {trouble}" if trouble else ""
        if trouble:
            self.complain(f"{self.monitor.lack}: all are refused until they can be")

    def close(self) -> None:
        if self.judge is not None:
            self.judge.close()
        super().close()


def count(text: str) -> int:
    number = int(text)
    if number < 1:
        raise ValueError
    return number


def seconds(text: str) -> float:
    number = float(text)
    if not 0 < number < FOREVER:
        raise ValueError
    return number


def arguments_of(words: Sequence[str]) -> argparse.Namespace:
    parser = argparse.ArgumentParser(description="Lets many clients share one session on a store.")
    parser.add_argument("socket", metavar="SOCKET", help="where clients connect")
    parser.add_argument("folder", metavar="FOLDER", help="the store")
    parser.add_argument("--checkpoint-after", metavar="BYTES", type=count, help="as for `confstore run --group`")
    told = "tell health and counters over HTTP: a Unix socket, with a slash, or 127.0.0.1:PORT"
    judges = "have COMMAND judge what each change gives, on its standard input, before it is made (serve_check.py)"
    parser.add_argument("--check", metavar="COMMAND", help=judges)
    parser.add_argument("--metrics", metavar="ADDRESS", type=address, help=told)
    mode = "the mode of that socket, as 0666 (default: those that may read the store may ask)"
    parser.add_argument("--metrics-mode", metavar="MODE", type=mode_of, help=mode)
    for word, kind, default, about in (
        ("--check-timeout", seconds, 10, "how long COMMAND may judge one configuration"),
        ("--renew-after", count, SESSION, "start another session after so many bytes of commands"),
        ("--max-clients", count, 256, "clients at a time; others wait"),
        ("--max-wait", seconds, 10, "how long a client that is idle or slow may keep others waiting"),
        ("--max-unread", seconds, 60, "how long a client may read nothing of an answer"),
        ("--max-long-commands", count, 4, f"clients at a time that send a command of more than {PART} bytes"),
        ("--max-long-answers", count, 16, f"clients at a time whose answer may have more than {PART} bytes"),
        ("--max-lock-wait", seconds, 30, "how long a next session waits for another run that holds the store"),
    ):
        shape = "SECONDS" if kind is seconds else "BYTES" if word == "--renew-after" else "COUNT"
        parser.add_argument(word, metavar=shape, type=kind, default=default, help=f"{about} (default: {default})")
    return parser.parse_args(words)


def words_of(arguments: argparse.Namespace) -> list[str]:
    program = os.environ.get("CONFSTORE", "confstore")
    program = os.path.abspath(program) if os.sep in program else program
    more = ["--checkpoint-after", str(arguments.checkpoint_after)] if arguments.checkpoint_after else []
    return [program, "run", "--group", *more, "."]


def bounds_of(arguments: argparse.Namespace) -> Bounds:
    return Bounds(
        clients_with_room(arguments.max_clients), arguments.max_wait, arguments.max_unread,
        arguments.max_long_commands, arguments.max_long_answers, arguments.max_lock_wait,
        min(arguments.renew_after, SESSION - GROWTH),
    )  # fmt: skip


def started(
    words: Sequence[str], store: Store, bounds: Bounds, signals: Signals, check: Optional[Check]
) -> Server:
    try:
        if check is not None:
            return CheckedServer(words, store, bounds, signals, check)
        return Server(words, store, bounds, signals)
    except OSError as error:
        remedy = "install it, or name it in CONFSTORE"
        if error.errno not in (errno.ENOENT, errno.EACCES, errno.ENOEXEC, errno.ENOTDIR):
            remedy = "raise the limit of open files and processes"
        raise Fault(f"the program {shown(words[0])} can't be run: {reason(error)}: {remedy}") from None


def run(arguments: argparse.Namespace, signals: Signals) -> int:
    with contextlib.closing(Listener(arguments.socket)) as listener:
        listener.look()
        with contextlib.closing(Store(arguments.folder)) as store:
            with listening(arguments.metrics, arguments.metrics_mode, store.folder) as door:
                check = Check(arguments.check, arguments.check_timeout) if arguments.check is not None else None
                server = started(words_of(arguments), store, bounds_of(arguments), signals, check)
                with contextlib.closing(server):
                    server.monitor.open(door)
                    return take_clients(server, listener)


def take_clients(server: Server, listener: Listener) -> int:
    """Takes clients once the session has opened the store, and serves them. The status."""
    if not server.opens():
        return server.why_not_opened()
    server.store.hold(server.session.process.pid)
    server.abouts.look()
    listener.open(server.store.folder)
    server.listener = listener
    tell_manager()
    return server.serve()


def main() -> int:
    open_standard_streams()
    signals = Signals()
    try:
        return run(arguments_of(sys.argv[1:]), signals)
    except Fault as fault:
        say(str(fault))
        return fault.status
    except OSError as error:
        say(f"a call of the system failed: {reason(error)}: start the server again")
        return FAILED
    except MemoryError:
        say("memory ran out: give the server more, or lower its bounds")
        return 1
    finally:
        signals.close()


if __name__ == "__main__":
    sys.exit(main())
