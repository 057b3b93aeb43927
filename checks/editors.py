#!/usr/bin/env python3
"""Tries the settings of clients/editors and its page, the hook of git, and the two examples.

Vim and Emacs run in batch mode, as far as they are installed, and read lines as `confstore check` prints them; the
patterns for VS Code are tried on the same lines. Those that the program prints of files are among them.
The hook is run in a repository of its own, with files that differ between the index and the working tree.

Run it from the repository's root after the program is built; it takes some seconds:

    ./prove && python3 checks/editors.py

The last line is 'N passed, M failed', and the status is 0 if M is 0.
"""

from __future__ import annotations

import json
import os
import re
import shutil
import subprocess
import sys
import tempfile
import time
from collections.abc import Mapping, Sequence
from typing import Any

from lib.store_runs import PROGRAM, TOP, Failures, need_program, read_file, session, write_file

# Where an editor finds a message: the file, the line and the column, with the message.
Place = tuple[str, int, int, str]
# A line that is tried, with its place.
Line = tuple[str, Place]

# Lines, each with the file, the line, the column and the message that an editor has to find.
LINES: list[Line] = [
    ("web.yaml:3: S1 the line ends in a space or TAB", ("web.yaml", 3, 0, "S1 the line ends in a space or TAB")),
    ("web.yaml:12:7: Syntax Flow", ("web.yaml", 12, 7, "Syntax Flow")),
    ("a b.yaml:1: S4", ("a b.yaml", 1, 0, "S4")),
    ("a b.yaml: Comments", ("a b.yaml", 0, 0, "Comments")),
    ("a b.yaml: TooLong (more than 9 bytes)", ("a b.yaml", 0, 0, "TooLong (more than 9 bytes)")),
    ('web.yaml:5:1: KeyTwice "a: b" (first at 1:3)', ("web.yaml", 5, 1, 'KeyTwice "a: b" (first at 1:3)')),
    (
        "web.yaml:2:4: Syntax Key (a `: ` in a value without quotes: quote the value)",
        ("web.yaml", 2, 4, "Syntax Key (a `: ` in a value without quotes: quote the value)"),
    ),
]

# Lines that explain one of these, and are none for VS Code, whose tasks run in a terminal.
EXPLAINING = ["5 | a:1: b", "12 | name: Input", "   | ^", "help: drop one, or give it another key", "help: close it"]

VIM = os.path.join(TOP, "clients", "editors", "yaml.vim")

# How long anything here may take, in seconds.
PATIENCE = 60

# Three lines, one with a space at its end.
SPACED = b"a: b\nc: d \ne: f\n"

# Files that are staged, and what the hook says of them.
STAGED = {
    "good.yaml": b"a: b\n",
    "b d.yml": SPACED,
    "deep/er/c.yaml": SPACED,
    "flow.yaml": b"a:\n  - [b,,c]\n",
    "two\nlines.yaml": SPACED,
    "two.yaml": b"a\n---\nb\n",
    "other.txt": SPACED,
}
SAID = (
    "b d.yml:2: S1 the line ends in a space or TAB",
    "b d.yml:2: S4 the text first differs from the one style here",
    "deep/er/c.yaml:2: S1 the line ends in a space or TAB",
    "flow.yaml:2:8: Syntax Flow (nothing between two commas: drop one)",
    "two\\nlines.yaml:2: S1 the line ends in a space or TAB",  # escaped as docs/FAULTS.md has it
    "two.yaml:2:1: Documents (the second of 2 begins here)",
)


def block_of(language: str) -> str:
    """What stands in clients/editors/README.md as a block of a language."""
    text = read_file(os.path.join(TOP, "clients", "editors", "README.md")).decode()
    found = re.search(rf"```{language}\n(.*?)```", text, re.DOTALL)
    if found is None:
        sys.exit(f"clients/editors/README.md has no block of {language}")
    return found[1]


def lines_of(top: str, failures: Failures) -> list[Line]:
    """The lines to be tried, those that the program prints of two files among them."""
    write_file(os.path.join(top, "own.yaml"), SPACED)
    write_file(os.path.join(top, "twice.yaml"), b"a: b\na: c\n")
    done = subprocess.run([PROGRAM, "check", "own.yaml", "twice.yaml"], cwd=top, capture_output=True, check=False)
    failures.expect("the status of check", done.returncode, 1)
    own = [line for line in done.stdout.decode().splitlines() if ": S1" in line]
    failures.expect("the program's lines", [line.split(" ")[0] for line in own], ["own.yaml:2:"])
    failures.expect("the program's faults", done.stderr, b'twice.yaml:2:1: KeyTwice "a" (first at 1:1)\n')
    return LINES + [(line, ("own.yaml", 2, 0, line.split(": ", 1)[1])) for line in own]


def by_vim(top: str, lines: Sequence[Line]) -> list[Place]:
    """What Vim reads of the lines."""
    settings = read_file(VIM).decode().replace("setlocal", "set")
    write_file(os.path.join(top, "settings.vim"), settings.encode())
    write_file(os.path.join(top, "lines"), "".join(f"{line}\n" for line, _ in lines).encode())
    entry = "[bufname(v:val.bufnr), v:val.lnum, v:val.col, v:val.text]"
    say = f"call writefile([json_encode(map(getqflist(), '{entry}'))], 'found')"
    words = ["vim", "-N", "-u", "NONE", "-i", "NONE", "-es"]
    for command in ("source settings.vim", "cgetfile lines", say, "qa!"):
        words += ["-c", command]
    subprocess.run(words, cwd=top, stdin=subprocess.DEVNULL, capture_output=True, check=False, timeout=PATIENCE)
    found = json.loads(read_file(os.path.join(top, "found")))
    return [(name, line, column, text.strip()) for name, line, column, text in found]


# Texts that Vim writes, each with what is in the file then: a text that is refused stays.
WRITTEN = [
    (b"# all\na:   b   # one\nc: [d]\n", b"# all\na: b # one\nc:\n  - d\n"),
    (b"a: [1,,2]\nb:   c\n", b"a: [1,,2]\nb:   c\n"),
    (b"a: b\n", b"a: b\n"),
    (b"a: {}\n\n\n", b"a: {}\n"),
]


def written_by_vim(top: str, text: bytes) -> bytes:
    """What is in a file that Vim opens and writes again, with the program on the PATH."""
    write_file(os.path.join(top, "written.yaml"), text)
    where = os.path.dirname(os.path.abspath(PROGRAM)) + os.pathsep + os.environ["PATH"]
    words = ["vim", "-N", "-u", "NONE", "-i", "NONE", "-es", "written.yaml"]
    for command in (f"source {VIM}", "write", "qa!"):
        words += ["-c", command]
    subprocess.run(
        words, cwd=top, env={**os.environ, "PATH": where}, stdin=subprocess.DEVNULL, capture_output=True, check=False,
        timeout=PATIENCE,
    )  # fmt: skip
    return read_file(os.path.join(top, "written.yaml"))


# Writes the file, the line and the column of each message that `compile` finds.
BY_EMACS = """
(require 'compile)
(with-temp-buffer
  (setq default-directory (file-name-as-directory "{top}"))
  (insert "-*- mode: compilation -*-\\n\\n")
  (insert-file-contents "lines")
  (compilation-mode)
  (let ((inhibit-read-only t)) (compilation-parse-errors (point-min) (point-max)))
  (goto-char (point-min))
  (let ((found nil))
    (while (< (point) (point-max))
      (let ((message (get-text-property (point) 'compilation-message)))
        (when message
          (let ((place (compilation--message->loc message)))
            (push (list (car (compilation--file-struct->file-spec (compilation--loc->file-struct place)))
                        (or (compilation--loc->line place) 0) (or (compilation--loc->col place) 0))
                  found))))
      (forward-line 1))
    (dolist (one (nreverse found)) (princ (format "%s\\t%s\\t%s\\n" (nth 0 one) (nth 1 one) (nth 2 one))))))
"""


def by_emacs(top: str, lines: Sequence[Line], failures: Failures) -> list[tuple[str, int, int]]:
    """What Emacs reads of the lines, and whether its settings can be read."""
    write_file(os.path.join(top, "lines"), "".join(f"{line}\n" for line, _ in lines).encode())
    write_file(os.path.join(top, "settings.el"), block_of("elisp").encode())
    write_file(os.path.join(top, "try.el"), BY_EMACS.replace("{top}", top).encode())
    words = ["emacs", "-Q", "--batch", "-l", "settings.el", "-l", "try.el"]
    done = subprocess.run(words, cwd=top, stdin=subprocess.DEVNULL, capture_output=True, check=False, timeout=PATIENCE)
    failures.expect("emacs", (done.returncode, done.stderr if done.returncode else b""), (0, b""))
    found = [line.split("\t") for line in done.stdout.decode().splitlines()]
    return [(name, int(line), int(column)) for name, line, column in found]


def by_code(lines: Sequence[str]) -> list[Place | None]:
    """What the patterns for VS Code find in the lines, of which each takes the first that fits."""
    tasks = json.loads(read_file(os.path.join(TOP, "clients", "editors", "tasks.json")))["tasks"]
    patterns = [matcher["pattern"] for matcher in tasks[0]["problemMatcher"]]
    return [found_by(patterns, line) for line in lines]


def found_by(patterns: Sequence[Mapping[str, Any]], line: str) -> Place | None:
    """What the first pattern that fits finds in a line."""
    for pattern in patterns:
        match = re.search(pattern["regexp"], line)
        if match:
            name, number, column, message = (
                match[pattern[part]] if part in pattern else "" for part in ("file", "line", "column", "message")
            )
            return name, int(number or 0), int(column or 0), message
    return None


def try_editors(top: str, failures: Failures) -> None:
    lines = lines_of(top, failures)
    wanted = [place for _, place in lines]
    failures.expect("VS Code", by_code([line for line, _ in lines]), wanted)
    failures.expect("VS Code, lines that explain", by_code(EXPLAINING), [None] * len(EXPLAINING))
    if shutil.which("vim"):
        failures.expect("Vim", by_vim(top, lines), wanted)
        for text, kept in WRITTEN:
            failures.expect(f"Vim writes {text!r}", written_by_vim(top, text), kept)
    else:
        print("left out: Vim")
    if shutil.which("emacs"):
        failures.expect("Emacs", by_emacs(top, lines, failures), [place[:3] for place in wanted if place[1]])
    else:
        print("left out: Emacs")


def git(folder: str, *words: str, **more: str) -> tuple[int, str]:
    """The status and the errors of git, with more settings of the environment."""
    names = {"GIT_AUTHOR_NAME": "a", "GIT_AUTHOR_EMAIL": "a", "GIT_COMMITTER_NAME": "a", "GIT_COMMITTER_EMAIL": "a"}
    alone = {"GIT_CONFIG_GLOBAL": "/dev/null", "GIT_CONFIG_SYSTEM": "/dev/null", "CONFSTORE": PROGRAM}
    environment = {**os.environ, **names, **alone, **more}
    done = subprocess.run(
        ["git", *words], cwd=folder, env=environment, capture_output=True, check=False, timeout=PATIENCE
    )
    return done.returncode, done.stderr.decode()


def repository_in(top: str) -> str:
    """A repository with the hook, and with the staged files in its index."""
    folder = os.path.join(top, "repository")
    os.mkdir(folder)
    git(folder, "init", "-q")
    hooks = os.path.join(folder, ".git", "hooks")
    os.makedirs(hooks, exist_ok=True)
    os.symlink(os.path.join(TOP, "clients", "hooks", "pre-commit"), os.path.join(hooks, "pre-commit"))
    os.makedirs(os.path.join(folder, "deep", "er"))
    for name, content in STAGED.items():
        write_file(os.path.join(folder, name), content)
    git(folder, "add", ".")
    return folder


def try_hook(top: str, failures: Failures) -> None:
    folder = repository_in(top)
    write_file(os.path.join(folder, "b d.yml"), b"a: b\n")  # the working tree is well, the index is not
    status, said = git(folder, "commit", "-m", "x")
    failures.expect("a commit of wrong files", status, 1)
    for line in SAID:
        failures.expect(f"the hook says {line!r}", f"{line}\n" in said, True)
    failures.expect("files that are well", "good" in said or "other" in said, False)
    for name in ("b d.yml", "deep/er/c.yaml", "flow.yaml", "two\nlines.yaml", "two.yaml"):
        write_file(os.path.join(folder, name), b"a: b\n")
    git(folder, "add", ".")
    write_file(os.path.join(folder, "good.yaml"), SPACED)  # and the other way round
    failures.expect("a commit of files that are well", git(folder, "commit", "-m", "x"), (0, ""))
    write_file(os.path.join(folder, "good.yaml"), b"a: c\n")
    git(folder, "add", ".")
    status, said = git(folder, "commit", "-m", "x", CONFSTORE="/none")
    failures.expect("a missing program", (status, "no program" in said), (1, True))


def deploy(*words: str) -> tuple[int, bytes, bytes]:
    """The status, the output and the errors of clients/examples/deploy.sh."""
    script = os.path.join(TOP, "clients", "examples", "deploy.sh")
    environment = {**os.environ, "CONFSTORE": PROGRAM}
    done = subprocess.run([script, *words], env=environment, capture_output=True, check=False, timeout=PATIENCE)
    return done.returncode, done.stdout, done.stderr


def try_deployment(top: str, failures: Failures) -> None:
    folder, file = os.path.join(top, "deployed"), os.path.join(top, "web.yaml")
    os.mkdir(folder)
    if session(folder, b"batch: []\n...\n")[1] == b"---\nrefused: BadCommand\n...\n":
        print("left out: deploy.sh, since this program has no batches")
        return
    write_file(file, b"\xef\xbb\xbf# a comment\nhost: none\nnote: |\n  a\n  ...\n  b\nlist: [1, 2]")
    text = b'host: "a \\"b\\" \\\\c"\nnote: |\n  a\n  ...\n  b\nlist:\n  - "1"\n  - "2"\n  - x\n'
    failures.expect("deploy", deploy(folder, "web", file, "/host", 'a "b" \\c', "/list/-", "x"), (0, text, b""))
    refused = (1, b"", b"deploy.sh: refused: NoSuchPlace\n")
    failures.expect("a refused edit", deploy(folder, "web", file, "/host", "z", "/no/where", "x"), refused)
    failures.expect("what it left", session(folder, b"export: web\n...\n")[1].count(b'a \\"b\\"'), 1)
    write_file(file, b"a: \0\n")
    failures.expect("a file that is no text", deploy(folder, "web", file)[0], 1)
    failures.expect("a missing folder", deploy(os.path.join(top, "none"), "web", file)[0], 3)
    failures.expect("wrong words", deploy(folder, "web", file, "/host")[0], 2)


def try_service(top: str, failures: Failures) -> None:
    folder = os.path.join(top, "served")
    os.mkdir(folder)
    session(folder, b'import: web\ntext: "port: 80"\n...\n')
    if subprocess.run([PROGRAM, "log", "--yaml", folder], capture_output=True, check=False).returncode == 2:
        print("left out: service.py, since this program has no word `log`")
        return
    environment = {**os.environ, "CONFSTORE": PROGRAM, "PYTHONPATH": os.path.join(TOP, "python")}
    words = [sys.executable, os.path.join(TOP, "clients", "examples", "service.py"), folder, "web", "0.1"]
    service = subprocess.Popen(words, env=environment, stdout=subprocess.PIPE, text=True)
    assert service.stdout is not None
    try:
        failures.expect("the settings", service.stdout.readline(), "settings: {'port': '80'}\n")
        session(folder, b"set: web\npath: /port\nvalue: 81\n...\nimport: other\ntext: x\n...\n")
        said = [service.stdout.readline() for _ in range(2)]
        failures.expect("after a set", said, ["command 2: set /port\n", "settings: {'port': '81'}\n"])
        session(folder, b"checkpoint:\n...\nset: web\npath: /port\nvalue: 82\n...\n")
        failures.expect("after a checkpoint", service.stdout.readline()[:9], "settings:")
        time.sleep(0.5)
        failures.expect("it goes on", service.poll(), None)
    finally:
        service.kill()
        service.wait()
        service.stdout.close()


def main() -> int:
    need_program()
    failures = Failures()
    with tempfile.TemporaryDirectory() as top:
        try_editors(top, failures)
        try_hook(top, failures)
        try_deployment(top, failures)
        try_service(top, failures)
    return failures.report()


if __name__ == "__main__":
    sys.exit(main())
