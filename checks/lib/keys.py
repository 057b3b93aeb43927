"""Keys that are pressed in bash, zsh and fish, and what the completions of a program make of them."""

from __future__ import annotations

import os
import pty
import re
import select
import time
from collections.abc import Sequence

from .store_runs import PROGRAM, TOP, Failures, write_file

FOLDER = os.path.join(TOP, "completions")

# How each shell is started, and what is typed first.
SHELLS = {
    "bash": (["bash", "--norc", "--noprofile", "-i"], "source {folder}/{program}.bash"),
    "zsh": (["zsh", "-f", "-i"], "fpath=({folder} $fpath); autoload -Uz compinit; compinit -u -D"),
    "fish": (["fish", "--no-config", "-i"], "source {folder}/{program}.fish"),
}

# How many seconds a shell may take to start, to complete a line, and to say what its words are.
START = 20
PAUSE = 0.7
PATIENCE = 10


def put_stand_in(folder: str, program: str) -> None:
    """A program that says its words, and writes them to a file. For what completions call it is the one that was built."""
    path = os.path.join(folder, program)
    own = f'if [ "$1 $2" = "names --" ] || [ "$1 $2" = "keys --" ]; then exec "{PROGRAM}" "$@"; fi'
    says = 'printf "%s\\0" "$@" > "$CALLED"\necho "called: $*."'
    write_file(path, f"#!/bin/sh\n{own}\n{says}\n".encode())
    os.chmod(path, 0o755)


class Terminal:
    """A shell in a terminal."""

    def __init__(self, words: list[str], top: str, programs: str) -> None:
        path = f"{programs}:{os.environ['PATH']}"
        self.called = os.path.join(programs, f"{words[0]}.called")
        environment = {
            "PATH": path, "HOME": top, "TERM": "dumb", "LANG": "C.UTF-8", "PS1": "$ ", "CALLED": self.called
        }  # fmt: skip
        self.process, self.end = pty.fork()
        if self.process == 0:
            os.chdir(top)
            os.execvpe(words[0], words, environment)
        self.seen = ""

    def type(self, text: str) -> None:
        os.write(self.end, text.encode())

    def await_text(self, pattern: str, seconds: float) -> re.Match[str] | None:
        """The first match of a pattern in what comes within so many seconds."""
        deadline = time.monotonic() + seconds
        while not (found := re.search(pattern, self.seen)) and time.monotonic() < deadline:
            if select.select([self.end], [], [], 0.1)[0]:
                try:
                    self.seen += os.read(self.end, 65_536).decode("utf-8", "replace")
                except OSError:
                    break
        if found:
            self.seen = self.seen[found.end() :]
        return found

    def close(self) -> None:
        os.close(self.end)
        try:
            os.kill(self.process, 9)
        except ProcessLookupError:
            pass
        os.waitpid(self.process, 0)


def start(shell: str, program: str, top: str, programs: str, failures: Failures) -> Terminal | None:
    """A shell in a folder, once it has the completions of a program."""
    words, first = SHELLS[shell]
    terminal = Terminal(words, top, programs)
    terminal.type(f"{first.format(folder=FOLDER, program=program)}; echo rea''dy\r")
    if terminal.await_text(r"(?m)^ready", START):
        return terminal
    failures.expect(f"{shell} starts", terminal.seen, "ready")
    terminal.close()
    return None


def press_keys(
    shell: str, program: str, lines: Sequence[tuple[str, str]], top: str, programs: str, failures: Failures
) -> None:
    """Presses keys in a shell in a folder: what is typed before a TAB, and the words that the program then has."""
    terminal = start(shell, program, top, programs, failures)
    if terminal is None:
        return
    try:
        for typed, wanted in lines:
            terminal.type(f"{program} {typed}\t")
            time.sleep(PAUSE)
            terminal.type("\r")
            found = terminal.await_text(r"called: (.*?)\.\r?\n", PATIENCE)
            failures.expect(f"{shell}: {typed}", found and found[1].strip().removesuffix("/"), wanted)
    finally:
        terminal.close()


def press_for_last_word(
    shell: str, program: str, lines: Sequence[tuple[str, str, str]], top: str, programs: str, failures: Failures
) -> None:
    """The same for the last word alone, which may have any character: what is typed before a TAB, that word, and what
    is typed behind the TAB. No error is to be seen meanwhile."""
    terminal = start(shell, program, top, programs, failures)
    if terminal is None:
        return
    try:
        for typed, wanted, behind in lines:
            write_file(terminal.called, b"")
            terminal.type(f"{program} {typed}\t")
            time.sleep(PAUSE)
            terminal.type(f"{behind}\r")
            found = terminal.await_text(r"(?s)(.*?)called: ", PATIENCE)
            said = found[1] if found else terminal.seen
            failures.expect(f"{shell}: {typed}: errors", re.findall(r"confstore\w*: |rror|not found|No such|bad ", said), [])
            with open(terminal.called, encoding="utf-8") as source:
                words = source.read().split("\0")[:-1]
            failures.expect(f"{shell}: {typed}", words and words[-1].removesuffix("/"), wanted.removesuffix("/"))
    finally:
        terminal.close()
