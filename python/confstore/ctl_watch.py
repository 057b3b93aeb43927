"""The word `watch` of confstorectl."""

from __future__ import annotations

import os
import select
from typing import List, NoReturn, Optional, Sequence, Tuple, Union

from .commands import is_name, is_pointer
from .ctl_asked import Asked
from .ctl_commands import Runner, line_with_values
from .ctl_faults import Fault, fault_of
from .ctl_places import Place, place_of
from .ctl_program import program
from .ctl_served import Served
from .ctl_sockets import PATIENCE
from .ctl_streams import STANDARD_OUTPUT, ClosedPipe, write
from .ctl_words import FROM, VALUES, YAML_RECORDS
from .faults import ConfstoreError
from .following import Cut, Event, Following, Replaced, Told
from .places import need_folder
from .store_file import NAME
from .waking import Waker

# How many seconds the program may take to read a piece that it did not write.
TIMEOUT = 60.0


def watch(asked: Asked) -> NoReturn:
    """Writes each change as it is made, until whoever reads that closes its pipe. Raises a `Fault`.

    They are read from the folder. Where it can't be read, the server at a socket is asked for them, if there is one.
    """
    if asked.argument("NAME") and not is_name(asked.argument("NAME")):
        raise Fault("BadName")
    if not is_pointer(asked.argument("POINTER")):
        raise Fault("BadPath")
    start = int(asked.options[FROM.name]) if asked.has(FROM) else None
    sink: Sink = Runner(asked) if asked.command else Writer()
    folder = os.path.abspath(asked.folder)
    place = place_of(asked.socket, folder)
    if place is not None and not os.access(os.path.join(folder, NAME), os.R_OK):
        _watch_served(asked, sink, place, start)
    try:
        _watch_folder(asked, sink, folder, start)
    except ConfstoreError as error:
        raise fault_of(error) from None


def _watch_served(asked: Asked, sink: Sink, place: Place, start: Optional[int]) -> NoReturn:
    served = Served(place, start, asked.wait, max(asked.wait, PATIENCE))
    try:
        while True:
            sink.take(_watched(asked, served.look()))
    finally:
        sink.finish()
        served.close()


def _watch_folder(asked: Asked, sink: Sink, folder: str, start: Optional[int]) -> NoReturn:
    need_folder(folder)
    waker = Waker(folder)
    try:
        following = Following(folder, program(), TIMEOUT, start)
        try:
            while True:
                told = following.look()
                sink.take(_watched(asked, told))
                if told:
                    waker.found()
                else:
                    waker.wait(sink.within(waker.longest))
        finally:
            sink.finish()
            following.close()
    finally:
        waker.close()


class Writer:
    """Writes each change."""

    def take(self, told: "Sequence[Tuple[Told, bytes]]") -> None:
        """Writes what is told. Raises `ClosedPipe` where nobody reads it."""
        if told:
            write(b"".join(text for _, text in told))
        elif not _is_read():
            raise ClosedPipe

    def within(self, seconds: float) -> float:
        """How long it may be until the next call, of so many seconds at most."""
        return seconds

    def finish(self) -> None:
        """Does nothing: all is written."""


# What takes the changes that are watched.
Sink = Union[Writer, Runner]


def _watched(asked: Asked, told: Sequence[Told]) -> "List[Tuple[Told, bytes]]":
    """The changes that are watched, each with what is written of it."""
    return [(one, text) for one in told if (text := text_of(asked, one))]


def _is_read() -> bool:
    """Whether anybody reads standard output, or may."""
    output = select.poll()
    output.register(STANDARD_OUTPUT, 0)
    return not output.poll(0)


def text_of(asked: Asked, told: Told) -> bytes:
    """What is written of an event: nothing of a change that is not watched."""
    event, name = told.event, asked.argument("NAME")
    if asked.has(YAML_RECORDS):
        text = told.text or document_of(event)
    else:
        has_values = asked.has(VALUES) or bool(asked.command)
        text = f"{line_of(event, has_values=has_values)}\n".encode()
    if isinstance(event, (Cut, Replaced)) or not name or event.may_change(name, asked.argument("POINTER")):
        return text
    return b""


def line_of(event: Event, *, has_values: bool = False) -> str:
    """The line of an event: of a change, that of `confstore log`, also with values."""
    if isinstance(event, Cut):
        return f"{event.first}-{event.last} cut"
    if isinstance(event, Replaced):
        return f"after {event.last} replaced"
    return line_with_values(event) if has_values else event.line


def document_of(event: Event) -> bytes:
    """The document of an event that is no change."""
    if isinstance(event, Cut):
        return f'---\ncut:\n  first: "{event.first}"\n  last: "{event.last}"\n...\n'.encode()
    assert isinstance(event, Replaced)
    return f'---\nreplaced:\n  after: "{event.last}"\n...\n'.encode()
