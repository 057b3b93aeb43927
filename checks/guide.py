#!/usr/bin/env python3
"""Runs the commands of docs/GUIDE.md, docs/OPERATING.md, python/GUIDE.md and README.md, and compares what they print with the page.

In the lists of the first three a line that begins with `$ ` is a command, one that begins with `> ` goes on with it, and
the lines up to the next command are what it prints, on standard output or standard error. The commands of one page
share a scratch folder and run in order, by one bash each. Of README.md the first list is run, and the file compared
that the second shows. It needs PyYAML, and the program has to be built first:

    ./prove && python3 checks/guide.py [--write]

`--write` puts what the commands print into these pages, to be looked at. The environment's CONFSTORE names another
program. The last line is 'N passed, M failed', of commands; the status is 0 if M is 0.
"""

from __future__ import annotations

import os
import re
import shlex
import subprocess
import sys
import tempfile
from collections.abc import Mapping
from typing import Union

from lib.store_runs import PROGRAM, TOP, Failures, need_program

PAGES = tuple(os.path.join(TOP, *name) for name in (("docs", "GUIDE.md"), ("docs", "OPERATING.md"), ("python", "GUIDE.md")))
README = os.path.join(TOP, "README.md")
MARGIN = "    "
PATIENCE = 60


class Command:
    """A command of a page: its lines there, what the shell is given, and what the page says that it prints."""

    def __init__(self, line: str) -> None:
        self.lines = [line]
        self.printed: list[str] = []

    def script(self) -> str:
        return "".join(line[len(MARGIN) + 2 :] + "\n" for line in self.lines)


# A part of a page: a command, or a line between them.
Part = Union[Command, str]


def parts_of(text: str) -> list[Part]:
    """The page in order: commands, and the lines between them as texts."""
    parts: list[Part] = []
    for line in text.splitlines():
        last = parts[-1] if parts else None
        if line.startswith(MARGIN + "$ "):
            parts.append(Command(line))
        elif isinstance(last, Command) and line.startswith(MARGIN + "> "):
            last.lines.append(line)
        elif isinstance(last, Command) and line.startswith(MARGIN):
            last.printed.append(line[len(MARGIN) :])
        else:
            parts.append(line)
    return parts


def environment(top: str) -> dict[str, str]:
    """An environment in which the word `confstore` is the program, and `confstorectl` that of this package."""
    words, program = os.path.join(top, "bin"), os.path.realpath(os.environ.get("CONFSTORE", PROGRAM))
    os.mkdir(words)
    os.symlink(program, os.path.join(words, "confstore"))
    ctl = os.path.join(words, "confstorectl")
    with open(ctl, "w", encoding="utf-8") as file:
        package = shlex.quote(os.path.join(TOP, "python"))
        file.write(f'#!/bin/sh\nPYTHONPATH={package} exec {python_with_yaml()} -m confstore.ctl "$@"\n')
    os.chmod(ctl, 0o755)
    path = f"{words}:{os.environ['PATH']}"
    return {**os.environ, "PATH": path, "LC_ALL": "C.UTF-8", "CONFSTORE": program}


def python_with_yaml() -> str:
    """A Python that has PyYAML. Ends the run where there is none."""
    for python in (sys.executable, "/usr/bin/python3"):
        if subprocess.run([python, "-c", "import yaml"], capture_output=True, check=False).returncode == 0:
            return python
    sys.exit("this needs PyYAML: install python3-yaml")


def lines_printed(script: str, folder: str, settings: Mapping[str, str]) -> list[str]:
    done = subprocess.run(["bash", "-c", script], cwd=folder, env=settings, stdin=subprocess.DEVNULL, check=False,
                          stdout=subprocess.PIPE, stderr=subprocess.STDOUT, timeout=PATIENCE)  # fmt: skip
    return done.stdout.decode().splitlines()


def run_page(path: str, failures: Failures, settings: Mapping[str, str]) -> list[Part]:
    """Runs the commands of a page. Returns its parts with what the commands print."""
    with open(path, encoding="utf-8") as page:
        parts = parts_of(page.read())
    with tempfile.TemporaryDirectory() as folder:
        for part in parts:
            if isinstance(part, Command):
                printed = lines_printed(part.script(), folder, settings)
                failures.expect(f"{os.path.basename(path)}: {part.lines[0].strip()}", printed, part.printed)
                part.printed = printed
    return parts


def write_page(path: str, parts: list[Part]) -> None:
    with open(path, "w", encoding="utf-8") as page:
        for part in parts:
            lines = part.lines + [MARGIN + line for line in part.printed] if isinstance(part, Command) else [part]
            page.write("".join(line.rstrip() + "\n" for line in lines))


def run_readme(failures: Failures, settings: Mapping[str, str]) -> None:
    """The first list of the README, and the file that it shows then."""
    with open(README, encoding="utf-8") as page:
        text = re.sub(r"^```.*?^```$", "", page.read(), flags=re.M | re.S)
    lists = re.findall(r"(?:^    .*\n)+", text, re.M)
    commands, shown = (re.sub(r"^    ", "", part, flags=re.M).splitlines() for part in lists[:2])
    with tempfile.TemporaryDirectory() as folder:
        printed = lines_printed("\n".join(commands), folder, settings)
        failures.expect("README: the first commands", printed, ['port: "81"'])
        failures.expect("README: the file", lines_printed(shown[0][2:], folder, settings), shown[1:])


def main() -> int:
    if "CONFSTORE" not in os.environ:
        need_program()
    failures = Failures()
    with tempfile.TemporaryDirectory() as top:
        settings = environment(top)
        for path in PAGES:
            parts = run_page(path, failures, settings)
            if "--write" in sys.argv[1:]:
                write_page(path, parts)
        run_readme(failures, settings)
    return failures.report()


if __name__ == "__main__":
    sys.exit(main())
