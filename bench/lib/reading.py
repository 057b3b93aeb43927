"""Programs that read a text in rounds inside one process: what a round takes."""

from __future__ import annotations

import os
import resource
import subprocess
import sys
import tempfile
from collections.abc import Mapping, Sequence

from lib.runs import Words, instructions_of, seconds_in, usage_of

# How long the rounds of one measurement take together, in seconds, and how many turns the programs take.
ENOUGH = 0.1
TURNS = 11


class Reading:
    """Runs of programs that read, in an environment with these settings."""

    def __init__(self, settings: Mapping[str, str] | None = None) -> None:
        self.settings = settings or {}

    def usage_and_output(self, words: Words, source: str = os.devnull) -> tuple[resource.struct_rusage, bytes]:
        """What a run of a program used, and what it printed."""
        with tempfile.TemporaryFile() as output, open(source, "rb") as text:
            status, usage = usage_of(words, text, output, subprocess.DEVNULL, self.settings)
            if status != 0:
                sys.exit(f"{' '.join(words)} failed")
            output.seek(0)
            return usage, output.read()

    def run(self, words: Words, source: str = os.devnull) -> tuple[float, bytes]:
        """The processor time of a run in seconds, and what it printed."""
        usage, output = self.usage_and_output(words, source)
        return seconds_in(usage), output

    def rounds_of(self, words: Words) -> int:
        """How many rounds take long enough to be measured."""
        rounds = 1
        while self.run([*words, str(rounds + 1)])[0] - self.run([*words, "1"])[0] < ENOUGH and rounds < 100_000:
            rounds *= 4
        return rounds

    def turns_of(self, runs: Sequence[tuple[Words, str]]) -> list[tuple[float, ...]]:
        """The processor times of each run, some words and a file, of several turns in which each is made once."""
        return list(zip(*([self.run(words, source)[0] for words, source in runs] for _ in range(TURNS))))

    def round_turns(self, programs: Sequence[Words]) -> list[list[float]]:
        """The processor times of one round of each program, of several turns."""
        rounds = [self.rounds_of(words) for words in programs]
        starts = [min(seconds) for seconds in self.turns_of([([*words, "1"], os.devnull) for words in programs])]
        longs = self.turns_of([([*words, str(count + 1)], os.devnull) for words, count in zip(programs, rounds)])
        return [
            [max(second - start, 1e-9) / count for second in seconds]
            for seconds, start, count in zip(longs, starts, rounds)
        ]

    def round_pages(self, words: Words) -> float:
        """How many pages of memory the system hands out in a round."""
        many, few = (self.usage_and_output([*words, rounds])[0].ru_minflt for rounds in ("12", "2"))
        return (many - few) / 10


def round_instructions(words: Words) -> int:
    """How many instructions one round takes, as callgrind counts them."""
    return instructions_of([*words, "2"]) - instructions_of([*words, "1"])


def written(folder: str, text: str, name: str = "input.yaml") -> str:
    """A file with a text."""
    path = os.path.join(folder, name)
    with open(path, "w", encoding="utf-8") as target:
        target.write(text)
    return path
