"""confstorectl: changes and reads a store, also one that a server or a replicated node holds.

    confstorectl set /var/lib/app web /port 81

It has the words of confstore, with the same arguments, output and statuses (`ctl_words.py`). Each is asked of the
server at a socket, if there is one, and else of the program. `python3 -m confstore.ctl` runs it too.
"""

from __future__ import annotations

import signal

if __name__ == "__main__":
    signal.signal(signal.SIGINT, signal.SIG_DFL)  # it ends this program as it ends confstore, without a trace

import os  # noqa: E402
import sys
import time

from .ctl_asked import Asked, Help, Version, asked_of, wrong
from .ctl_faults import DEVICE, NOTHING_THERE, OF_TEXTS, REFUSED, WRONG_WORDS, Fault, TextFault, unread
from .ctl_places import NO_SERVER, Place, place_of
from .ctl_program import Source, is_without_store, program_if_any, run_shown, styled
from .ctl_streams import ClosedPipe, hold_closed, is_error_terminal, read_text, write, write_error
from .ctl_words import ALL, ANY_ROOT, ARCHIVE, AT, BATCH, CHECKPOINT, DIFF, EDIT, EDITS, ENVIRONMENT, EXISTS, EXPLAIN
from .ctl_words import FED, FOREIGN, FROM_FILE, GET, HIDE, IMPORT, JSON_RECORDS, LOG, LOOKING_BACK, MOVING, NOTE
from .ctl_words import NOTED, OF_PROGRAM, PAGE, PLANNED, READING, READING_AT, RENDER, ROLLBACK, RUN, SET, SHAPED, SYNC
from .ctl_words import UNDO, WATCH, YAML_VALUE, Option

TYPE_CHECKING = False  # `typing` takes as long to import as all of this
if TYPE_CHECKING:
    from collections.abc import Callable, Sequence

    from .ctl_changes import Ask
    from .ctl_sockets import Command, Reply

# How many seconds lie between two tries of a word.
PAUSE = 0.1

# What to do where a run can't have the store.
HELD = "a server or another run holds the store: a server's socket takes the same commands; or use `confstorectl batch`"

# Where the words are done that take more than one command.
_MODULES = {
    WATCH: "ctl_watch.watch", EDIT: "ctl_edit.edit", RENDER: "ctl_render.render", UNDO: "ctl_back.undo",
    ROLLBACK: "ctl_back.rollback", SYNC: "ctl_sync.sync", DIFF: "ctl_diff.diff", PAGE: "ctl_diff.page",
}  # fmt: skip

# What a shell adds to the number of the signal that ended a program.
BY_SIGNAL = 128


class Work:
    """A word that is to be done, with the text that it reads."""

    def __init__(self, asked: Asked) -> None:
        if EXPLAIN in asked.word.options and is_error_terminal():
            asked = asked.with_option(EXPLAIN)
        self.asked: Asked = asked
        self.text: bytes | None = None
        self.source = Source("-", asked.has(EXPLAIN))
        self._command: Command | None = None
        if asked.word in (IMPORT, BATCH):
            self._take_file(asked.argument("FILE") or "-")
        elif asked.word is SET and asked.has(FROM_FILE):
            self._take_file(asked.options[FROM_FILE.name])
        elif asked.word is SET and asked.has(YAML_VALUE):
            self._take_value(asked.arguments["VALUE"])

    def _take_file(self, file: str) -> None:
        self.source = self.source.named(file)
        try:
            self.text = read_text(file)
        except OSError as error:
            raise unread(file, error) from None

    def _take_value(self, value: str) -> None:
        if value != "-":
            self.source = self.source.named("VALUE")
            self.text = value.encode()
            return
        try:
            self.text = read_text(value)
        except OSError as error:
            raise Fault("Input", error.strerror) from None

    @property
    def place(self) -> Place | None:
        """The socket that it is asked through, if there is one."""
        if self.asked.word in (*LOOKING_BACK, *OF_PROGRAM) or self.asked.has(AT):
            return None
        return place_of(self.asked.socket, self.asked.folder)

    @property
    def command(self) -> Command:
        """The command of a session. Raises the `Fault` of a text that is refused."""
        if self._command is None:
            from .ctl_requests import request_of

            self._command = request_of(self)
        return self._command

    def may_try_again(self, fault: Fault) -> bool:
        """Whether it may be done once more: nothing was done, or it only reads and the server went."""
        return fault.may_try_again or (fault.kind == NO_SERVER and self.asked.word in READING)

    @property
    def _is_noted(self) -> bool:
        """Whether it is a change that has an about, where no server holds the store."""
        asked = self.asked
        if NOTE not in asked.word.options:
            return False
        from .abouts import ABOUT, VARIABLE, keeps_abouts  # by words that change something

        if not asked.abouts and VARIABLE not in os.environ and not keeps_abouts(asked.folder):
            return False
        return ABOUT in self._noted(None, {"batch": []})

    def _noted(self, place: Place | None, command: Command) -> Command:
        """A command with the about of the word, if it has one."""
        if NOTE not in self.asked.word.options:
            return command
        from .ctl_abouts import noted

        return noted(self.asked, place, command)

    def by_program(self) -> int:
        """Has the program do it. The status."""
        if self._is_noted:
            return self._noted_by_program()
        if self.asked.word is BATCH:
            return self._batch_by_program()
        ended = run_shown(self._words(), self.text, is_fed=self.asked.word in FED)
        if ended.was_locked:
            raise Fault("Locked", HELD if self.asked.word is RUN else None, True)
        if ended.status == WRONG_WORDS:
            raise wrong(ended.complaint, self.asked.word)
        write_error(ended.lines(self.source))
        return ended.status if ended.status >= 0 else BY_SIGNAL - ended.status

    def _batch_by_program(self) -> int:
        """Has a session of the program make the edits of a list. The status."""
        from .ctl_exchange import ended_session
        from .ctl_sockets import SessionReply, answer_of

        if is_without_store(self.asked.folder):
            raise Fault("NotAStore")
        ended = ended_session(self.asked.folder, self.command)
        write_error(ended.lines(self.source))
        if ended.output:
            answer_of(SessionReply(ended.output), self.command, program_if_any())
        return ended.status if ended.status >= 0 else BY_SIGNAL - ended.status

    def _noted_by_program(self) -> int:
        """Has a session of the program make the change with its about. The status."""
        from .ctl_exchange import Exchange

        exchange = Exchange(self.asked)
        if self.asked.word in MOVING or self._is_placed:
            self._change_read(exchange.ask)
            return 0
        try:
            exchange.ask(self.command)
        except Fault as fault:
            raise self._with_place(fault) from None
        return 0

    def _words(self) -> list[str]:
        """The words for the program. What is read is on its standard input."""
        asked = self.asked
        given = [option for option in asked.word.options if asked.has(option) and option not in NOTED]
        options = [part for option in given for part in self._parts(option)]
        arguments = dict(asked.arguments)
        if self.text is not None:
            arguments.pop("FILE", None)
            if "VALUE" in arguments:
                arguments["VALUE"] = "-"
        return [asked.word.name, *options, "--", *arguments.values(), *asked.repeated]

    def _parts(self, option: Option) -> list[str]:
        """An option for the program."""
        if option is HIDE:
            return [f"{option.name}={pointer}" for pointer in self.asked.hidden]
        value = "-" if option is FROM_FILE else self.asked.options[option.name]
        if not option.value:
            return [option.name]
        return [f"{option.name}={value}"] if value.startswith("-") and value != "-" else [option.name, value]

    def by_socket(self, place: Place) -> int:
        """Asks the server. The status."""
        from .ctl_outputs import output_of
        from .ctl_sockets import Connection, answer_of

        with Connection(place) as connection:
            if self.asked.word in MOVING or self._is_placed:

                def ask(command: Command) -> Reply:
                    command = self._noted(place, command)
                    return answer_of(connection.ask(command), command, program_if_any())

                self._change_read(ask)
                connection.finish()
                return 0
            command = self._noted(place, self.command)
            answer = connection.ask(command)
            connection.finish()
        try:
            reply = answer_of(answer, command, program_if_any())
        except Fault as fault:
            return self._without(fault)
        write(output_of(self.asked, reply))
        return 0

    @property
    def _is_placed(self) -> bool:
        """Whether what is there says where a value is set."""
        return any(self.asked.has(option) for option in SHAPED)

    def _change_read(self, ask: Ask) -> None:
        """Makes a change that depends on what is there."""
        from .ctl_changes import change_read, moving

        if not self._is_placed:
            change_read(self.asked, lambda tree: moving(self.asked, tree), ask)
            return
        from .ctl_placing import placed

        value = self.command["value"]
        change_read(self.asked, lambda tree: placed(self.asked, value, tree), ask)

    def _without(self, fault: Fault) -> int:
        """The status where the server refused the command, as where nothing is at the place. Raises the `Fault` where
        that is one."""
        from .ctl_outputs import output_of_default

        default = output_of_default(self.asked)
        if fault.kind not in NOTHING_THERE or (self.asked.word is not EXISTS and default is None):
            raise self._with_place(fault) from None
        write(default or b"")
        return REFUSED if self.asked.word is EXISTS else 0

    def _with_place(self, fault: Fault) -> Fault:
        """The fault of a text that a server refused, as the program tells of it, if there is one."""
        if self.asked.word is not IMPORT or fault.kind not in OF_TEXTS or self.text is None or not program_if_any():
            return fault
        try:
            styled(self.text, self.source)
        except TextFault as told:
            return told
        return fault


# ---- the whole


def _try(work: Work) -> int:
    """Does a word once. The status. Raises a `Fault`."""
    place = work.place
    if place is None:
        return work.by_program()
    try:
        return work.by_socket(place)
    except Fault as fault:
        if place.is_given or not fault.may_try_again:
            raise
    return work.by_program()  # the server that was there has ended


def do(asked: Asked) -> int:
    """Does what is asked. The status. Raises a `Fault`."""
    if asked.archives and asked.word in READING_AT:
        from .ctl_archives import found

        asked = found(asked)
    composed = composed_of(asked)
    if composed is not None:
        return composed(asked)
    work, deadline = Work(asked), time.monotonic() + asked.wait
    while True:
        try:
            return _try(work)
        except Fault as fault:
            if not work.may_try_again(fault) or time.monotonic() >= deadline:
                raise
        time.sleep(min(PAUSE, max(deadline - time.monotonic(), 0)))


def composed_of(asked: Asked) -> Callable[[Asked], int] | None:
    """What does a word that takes more than one command, or None of another one. Only that is imported then."""
    name = _MODULES.get(asked.word)
    if name is None and asked.word is IMPORT and any(asked.has(option) for option in FOREIGN):
        name = "ctl_import.import_foreign"
    if name is None and (asked.has(ENVIRONMENT) or (asked.word is GET and asked.repeated)):
        name = "ctl_values.get_values"
    if name is None and asked.has(ALL):
        name = "ctl_values.export_all"
    if name is None and asked.word is LOG and (asked.shown_keys or asked.has(JSON_RECORDS)):
        name = "ctl_log.log"
    if name is None and asked.word is LOG and asked.archives:
        name = "ctl_archives.log"
    if name is None and asked.word is CHECKPOINT and asked.has(ARCHIVE):
        name = "ctl_archiving.checkpoint"
    if name is not None:
        from importlib import import_module

        module, _, function = name.partition(".")
        does: Callable[[Asked], int] = getattr(import_module(f".{module}", __package__), function)
        return does
    return plan_and_do if any(asked.has(option) for option in (*PLANNED, EDITS)) else None


def plan_and_do(asked: Asked) -> int:
    """Does a word whose change depends on what is there, or that somebody looks at before. The status. Raises a
    `Fault`."""
    from .ctl_changes import conditions_of
    from .ctl_check import change

    if asked.word in MOVING:
        return change(asked, {}, conditions_of(asked))
    work = Work(asked)
    if asked.word is IMPORT:
        text = styled(work.text or b"", work.source)  # a text that is refused is named by its file
        if not asked.has(ANY_ROOT):
            from .ctl_requests import refuse_one_value

            refuse_one_value(text, work.source)
        if asked.has(EDITS):
            from .ctl_sync import import_edits

            return import_edits(asked, text)
    command = {key: value for key, value in work.command.items() if key != "if"}
    return change(asked, command, conditions_of(asked))


def perform_words(words: Sequence[str]) -> int:
    """Does what the words ask for, and writes why it can't. The status."""
    try:
        asked = asked_of(words)
        if isinstance(asked, Asked):
            return do(asked)
        write(_help(asked).encode())
        return 0
    except ClosedPipe:
        return DEVICE
    except Fault as fault:
        write_error(f"{fault.line}\n")
        return fault.status
    except MemoryError:
        write_error("confstorectl: OutOfMemory\n")
        return 1
    except ModuleNotFoundError as error:
        if error.name != "yaml":
            raise
        write_error("confstorectl: MissingModule: this needs PyYAML: install python3-yaml, or `pip install PyYAML`\n")
        return DEVICE


def _help(asked: Help | Version) -> str:
    if isinstance(asked, Version):
        from . import __version__

        return f"confstorectl {__version__}\n"
    from .ctl_help import help_of, help_of_all

    return help_of(asked.word) if asked.word else help_of_all()


def be_in_utf8() -> None:
    """Begins again in Python's UTF-8 mode where words are taken for another encoding, as in the locale C if Python is
    told to keep to it. They are UTF-8, as those of confstore."""
    words = getattr(sys, "orig_argv", [])  # from Python 3.10 on
    if words and sys.getfilesystemencoding() != "utf-8" and "utf8" not in sys._xoptions:
        try:
            os.execv(sys.executable, [sys.executable, "-X", "utf8", *words[1:]])
        except OSError:
            pass  # words that are no UTF-8 so are refused


def main() -> int:
    """The program. The status."""
    be_in_utf8()
    signal.signal(signal.SIGINT, signal.SIG_DFL)
    signal.signal(signal.SIGCHLD, signal.SIG_DFL)  # else the system would not say how the program confstore ended
    hold_closed()
    return perform_words(sys.argv[1:])


if __name__ == "__main__":
    sys.exit(main())
