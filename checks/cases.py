#!/usr/bin/env python3
"""Runs the built programs on the texts of checks/data/cases, and compares what they answer with what is expected.

A case is some lines, and an empty line ends it. Each begins with a word:

    text      the text. `\\n`, `\\r`, `\\t`, `\\\\` and `\\xHH` mean bytes, and `\\{k*9}` means k nine times
    events    its events, as `show` of `text_probe` prints them; without this line the text is refused when it is read
    format    what `confstore format` prints, escaped as a text is
    fault     or the fault that it names
    check     what `confstore check` prints, its lines joined by commas; it is left out where the program has no `check`

What `format` prints is formatted once more, and has to stay as it is. The expected answers come from an independent
reader of the grammar and from hand, never from these programs, which have to be built first:

    ./prove && (cd crates/text_probe && rt run < stdin > /dev/null) && python3 checks/cases.py

The last line is 'N passed, M failed', of cases; the status is 0 where M is 0.
"""

from __future__ import annotations

import os
import subprocess
import sys
from collections.abc import Sequence

from lib.store_runs import PROGRAM, need_program, program_of
from lib.text_cases import CASES, Case, bytes_of, read_cases

PROBE = program_of("text_probe")


def run(words: Sequence[str], text: bytes) -> tuple[int, bytes, str]:
    """The status of a program, what it prints, and its line on standard error."""
    done = subprocess.run(words, input=text, capture_output=True, check=False)
    return done.returncode, done.stdout, done.stderr.decode()


def shown_events(cases: Sequence[Case]) -> list[str]:
    """What `show` of `text_probe` prints for the text of each case."""
    lines = "".join(f"node;show;{case['text']}\n" for case in cases)
    status, shown, errors = run([PROBE], lines.encode())
    if status != 0:
        sys.exit(f"text_probe failed: {errors}")
    return shown.decode().split("\n")


def reading_faults(case: Case, shown: str) -> list[str]:
    """What is wrong with the events, or the refusal, that `show` printed."""
    if "events" in case:
        expected = f"events {case['events']}".strip()
        return [] if shown == expected else [f"events: {shown}"]
    word = shown.split(" ")[0]
    return [] if word == case["fault"] else [f"not refused by {case['fault']}: {shown}"]


def refusal_faults(case: Case, subcommand: str) -> list[str]:
    """What is wrong with how a subcommand refuses the text."""
    status, output, errors = run([PROGRAM, subcommand], bytes_of(case["text"]))
    words = errors.split()
    named = words[:1] == ["confstore:"] and words[1:2] == [case["fault"]] and errors.count("\n") == 1
    return [] if status == 1 and not output and named else [f"{subcommand}: status {status}, {output!r}, {errors}"]


def format_faults(case: Case) -> list[str]:
    """What is wrong with the text that `format` prints."""
    expected = bytes_of(case["format"])
    answers = [run([PROGRAM, "format"], text) for text in (bytes_of(case["text"]), expected)]
    return [f"format: {answer}" for answer in answers if answer != (0, expected, "")]


def check_faults(case: Case) -> list[str]:
    """What is wrong with the findings that `check` prints."""
    findings = [finding for finding in case["check"].split(", ") if finding]
    status, output, errors = run([PROGRAM, "check"], bytes_of(case["text"]))
    good = output.decode().splitlines() == findings and status == (1 if findings else 0) and not errors
    return [] if good else [f"check: status {status}, {output!r}, {errors}"]


def faults_of(case: Case, shown: str) -> list[str]:
    """What is wrong with the answers to a case."""
    faults = reading_faults(case, shown)
    if "fault" in case:
        return faults + [fault for word in ("format", "check") for fault in refusal_faults(case, word)]
    return faults + format_faults(case) + check_faults(case)


def main() -> int:
    for program in (PROGRAM, PROBE):
        need_program(program)
    passed = failed = 0
    for name in sorted(os.listdir(CASES)):
        cases = read_cases(os.path.join(CASES, name))
        for case, shown in zip(cases, shown_events(cases)):
            faults = faults_of(case, shown)
            for fault in faults:
                print(f"{name}:{case['line']}: {fault}")
            passed, failed = (passed, failed + 1) if faults else (passed + 1, failed)
    print(f"{passed} passed, {failed} failed")
    return 0 if failed == 0 else 1


if __name__ == "__main__":
    sys.exit(main())
