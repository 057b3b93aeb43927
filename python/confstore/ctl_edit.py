"""The word `edit` of confstorectl: an editor on the text of a configuration."""

from __future__ import annotations

import os
import shutil
import signal
import subprocess
import tempfile
from typing import Sequence

from .commands import get_of, import_of
from .conditions import Test, under
from .ctl_asked import Asked
from .ctl_check import judge
from .ctl_exchange import Exchange
from .ctl_faults import Fault, TextFault, shown
from .ctl_program import Source, program, styled
from .ctl_streams import write_error
from .ctl_words import CHECK
from .trees import from_text

# What the comment lines begin with that say why a text was refused. They are taken out again.
MARK = b"# confstorectl: "

REMEDY = "save another text, or leave this one as it is to change nothing"


class Draft:
    """The text that is edited, in a file of a folder that nobody else may read."""

    def __init__(self, name: str, text: bytes) -> None:
        self._folder = tempfile.mkdtemp(prefix="confstorectl-")
        self.path = os.path.join(self._folder, f"{name}.yaml")
        self._write(text)

    def _write(self, text: bytes) -> None:
        self._saved = text
        opened = os.open(self.path, os.O_WRONLY | os.O_CREAT | os.O_TRUNC | os.O_CLOEXEC, 0o600)
        with open(opened, "wb") as target:
            target.write(text)

    @property
    def text(self) -> bytes:
        """The text without the comment lines that were put before it."""
        lines = self._saved.splitlines(keepends=True)
        while lines and lines[0].startswith(MARK):
            lines.pop(0)
        return b"".join(lines)

    def edit(self) -> bool:
        """Has the editor on it. Whether the file is another one then. Raises a `Fault`."""
        run_editor(self.path)
        before = self._saved
        try:
            with open(self.path, "rb") as source:
                self._saved = source.read()
        except OSError as error:
            raise Fault("EditorFailed", f"the edited text can't be read: {error.strerror}") from None
        return self._saved != before

    def refuse(self, lines: Sequence[str]) -> None:
        """Puts lines before the text, as comments."""
        self._write(b"".join(MARK + line.removeprefix("confstorectl: ").encode() + b"\n" for line in lines) + self.text)

    def remove(self) -> None:
        """Removes the file, and what an editor has put beside it."""
        shutil.rmtree(self._folder, ignore_errors=True)


def run_editor(path: str) -> None:
    """Runs the user's editor on a file until it ends. Raises a `Fault`."""
    editor = os.environ.get("VISUAL") or os.environ.get("EDITOR") or "vi"
    script = f'trap : INT; {editor} "$@"'
    old = signal.signal(signal.SIGINT, lambda *_: None)  # it is the editor's, which has it as it was before
    try:
        status = subprocess.run(["/bin/sh", "-c", script, editor, path], check=False).returncode
    except OSError as error:
        raise Fault("EditorFailed", f"/bin/sh can't be run: {error.strerror}") from None
    finally:
        signal.signal(signal.SIGINT, old)
    if status:
        about = f"{shown(editor)} ended with status {status}; nothing was changed; VISUAL or EDITOR names another one"
        raise Fault("EditorFailed", about)


def _check(asked: Asked, text: bytes) -> "list[str]":
    """Why the command of `--check` refuses a text. Nothing if it takes it, or if there is none."""
    if not asked.has(CHECK):
        return []
    try:
        judge(asked, asked.arguments["NAME"], text)
    except Fault as fault:
        return [*fault.line.split("\n"), REMEDY]
    return []


def refusal_of(text: bytes, name: str) -> "list[str]":
    """Why the program refuses a text, with the places of the text below these lines. Nothing if it takes the text."""
    lines: "list[str]" = []
    for _ in range(2):
        try:
            styled(b"#\n" * len(lines) + text, Source(name, True))
            return []
        except TextFault as fault:
            lines = [*fault.line.split("\n"), REMEDY]
    return lines


def edit(asked: Asked) -> int:
    """Has a configuration edited. The status. Raises a `Fault`."""
    program()  # without it an edited text could not be looked at
    exchange, name = Exchange(asked), asked.arguments["NAME"]
    old = exchange.ask(get_of(name, "")).styled()
    draft = Draft(name, old)
    is_kept = False
    try:
        new = _edited(asked, draft, old)
        if new is None:
            write_error("confstorectl: nothing changed\n")
            return 0
        is_kept = True
        exchange.ask(under([Test(name, "", from_text(old))], import_of(name, new.decode())))
        is_kept = False
        return 0
    except TextFault:
        is_kept = True
        raise
    except Fault as fault:
        if fault.kind == "Unmet":
            fault.about = "the configuration was changed meanwhile, so nothing was changed"
        raise
    finally:
        if is_kept:
            write_error(f"confstorectl: the edited text is in {shown(draft.path)}\n")
        else:
            draft.remove()


def _edited(asked: Asked, draft: Draft, old: bytes) -> "bytes | None":
    """The text in the one style of what was edited, or None where that is the old one. A text that is refused is opened
    again. Raises the `TextFault` of one that was left as it is then."""
    file = os.path.basename(draft.path)
    lines: "list[str]" = []
    while draft.edit() and draft.text.strip():
        lines = refusal_of(draft.text, file)
        if not lines:
            new = styled(draft.text, Source(file))
            lines = _check(asked, new) if new != old else []
            if not lines:
                return new if new != old else None
        draft.refuse(lines)
    if lines and draft.text.strip():
        raise TextFault("".join(f"{line}\n" for line in lines[:-1]), 1)
    return None

