"""The word `render` of confstorectl: a file of a template and of the values of a store."""

from __future__ import annotations

import contextlib
import os
import tempfile
from typing import Dict, Optional

from .commands import is_name
from .ctl_asked import Asked
from .ctl_commands import failure_of, run_command
from .ctl_exchange import Exchange
from .ctl_faults import Fault, TextFault, shown, unread
from .ctl_streams import read_text, write
from .foreign import Unread
from .style import Tree
from .templates import Template, Trees


def render(asked: Asked) -> int:
    """Renders a template. The status. Raises a `Fault`."""
    text = _rendered(asked, asked.arguments["TEMPLATE"])
    file = asked.argument("FILE")
    if not file:
        write(text)
        return 0
    try:
        is_changed = put(os.path.realpath(file), text)
    except OSError as error:
        raise Fault("Output", f"{shown(file)}: {error.strerror}") from None
    if is_changed and asked.command:
        status = run_command(asked.command, None, {"CONFSTORE_FILE": os.path.abspath(file)})
        if status:
            raise failure_of(asked.command, status)
    return 0


def _rendered(asked: Asked, template: str) -> bytes:
    try:
        text = read_text(template)
    except OSError as error:
        raise unread(template, error) from None
    try:
        return Template(text.decode()).rendered(_trees_of(Exchange(asked))).encode()
    except UnicodeDecodeError:
        raise TextFault(f"{shown(template)}: NotUtf8\n", 1) from None
    except Unread as fault:
        raise TextFault(f"{fault.line_of(shown(template))}\n", 1) from None


def _trees_of(exchange: Exchange) -> Trees:
    """The configurations of a store, each of which is read once."""
    known: Dict[str, Optional[Tree]] = {}

    def tree_of(name: str) -> Optional[Tree]:
        if name not in known:
            known[name] = exchange.tree(name) if is_name(name) else None
        return known[name]

    return tree_of


def put(path: str, text: bytes) -> bool:
    """Puts a text in a file's place, whole, with the mode and the owner of the file that was there. Whether that was
    another one."""
    try:
        with open(path, "rb") as source:
            old = os.fstat(source.fileno())
            if source.read() == text:
                return False
        mode, owner = old.st_mode & 0o7777, (old.st_uid, old.st_gid)
    except FileNotFoundError:
        mask = os.umask(0)
        os.umask(mask)
        mode, owner = 0o666 & ~mask, (-1, -1)
    opened, made = tempfile.mkstemp(prefix=f".{os.path.basename(path)[:100]}.", dir=os.path.dirname(path))
    try:
        with open(opened, "wb") as target:
            target.write(text)
            target.flush()
            with contextlib.suppress(PermissionError):
                os.fchown(opened, *owner)
            os.fchmod(opened, mode)
            os.fsync(opened)
        os.rename(made, path)
    except BaseException:
        with contextlib.suppress(OSError):
            os.unlink(made)
        raise
    return True
