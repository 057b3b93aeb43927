"""The answers of a session, beside those of a model, which does not name each refusal."""

from __future__ import annotations

import os
from collections.abc import Sequence

from .store_runs import Failures, session

# The refusals of a command that no edit is refused by.
OF_NO_EDIT = ("refused: Unmet", "refused: BadCommand", "refused: AboutLarge", "refused: EmptyBatch")


def answers_in(output: str) -> list[str]:
    """The answers, each without its first line and its closing one."""
    return [answer.partition("---\n")[2].rstrip("\n") for answer in output.split("\n...\n")[:-1]]


def is_right(found: str, wanted: str) -> bool:
    """Whether an answer is the wanted one. Where a command is refused for its edits, any of their refusals is right."""
    return found.startswith("refused: ") and found not in OF_NO_EDIT if wanted == "refused" else found == wanted


def send(
    folder: str, words: Sequence[str], commands: Sequence[str], wanted: Sequence[str], failures: Failures, about: str
) -> None:
    """Sends commands to a new store in one session, each of which has to be answered as is wanted."""
    os.mkdir(folder)
    status, output, errors = session(folder, "".join(commands).encode(), words)
    failures.expect(f"{about}: status", (status, errors), (0, ""))
    answers = answers_in(output.decode())
    failures.expect(f"{about}: answers", len(answers), len(wanted))
    for number, (command, one, other) in enumerate(zip(commands, answers, wanted)):
        name = f"{about}, command {number}: {command!r} is answered {one} and not {other}"
        failures.expect(name, is_right(one, other), True)
