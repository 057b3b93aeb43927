"""Sessions without one of the allocations: what they answer, and what is left.

The sessions are those of stories.py, one command at a time and in groups with a checkpoint in slices beside them. A
session that lacks an allocation ends with 'confstore: OutOfMemory' and the status 1, or does without it and answers
everything. Its output is the answers to the commands before the one that met it. A new session has to find the state
after exactly these commands: the one that met it changed nothing. Where opening drops bytes, a line says so: of the
session, or of the new one if memory ran out before.
"""

from __future__ import annotations

import functools
import os
import shutil
from collections.abc import Mapping

from .refusals import DONE, OUT_OF_MEMORY, Run, Trial
from .store_runs import Ended, dropped, read_file, rest_of, session, write_file
from .stories import BATCHES, CONDITIONS, LARGE, LOOK, NEW, TORN, Story

FAULT = "confstore: OutOfMemory\n"


def expect_prefix(run: Run, story: Story, output: bytes, files: Mapping[str, bytes], left: Ended) -> None:
    """The output is the answers to some commands, and the state is the one after exactly these."""
    answered = story.answered(len(output))
    run.expect("output", output, b"".join(story.answers[:answered]))
    run.expect("left", left, (0, story.states[story.accepted(answered)], dropped(len(rest_of(files)))))


def expect_end(run: Run, story: Story, ended: Ended, files: Mapping[str, bytes]) -> str:
    """The session said what opening dropped, if it came so far, and ended out of memory, or answered everything.
    Returns how it ended."""
    status, output, errors = ended
    torn = dropped(len(rest_of(story.files)))
    said = torn if not rest_of(files) else ""
    is_out = errors.endswith(FAULT)
    run.expect("ending", (status, errors), (1, said + FAULT) if is_out else (0, torn))
    if not is_out:
        run.expect("whole", output, story.output)
    return OUT_OF_MEMORY if is_out else DONE


def perform(story: Story, run: Run) -> str:
    """A session, and what it left in its folder."""
    folder = os.path.join(run.top, "folder")
    os.mkdir(folder)
    for file, content in story.files.items():
        write_file(os.path.join(folder, file), content)
    ended = session(folder, story.commands, story.words, env=run.environment)
    files = {file: read_file(os.path.join(folder, file)) for file in os.listdir(folder)}
    left = session(folder, LOOK)
    shutil.rmtree(folder)
    expect_prefix(run, story, ended[1], files, left)
    return expect_end(run, story, ended, files)


SINGLE_COMMANDS = (NEW, TORN, BATCHES, CONDITIONS)
STORIES = (*SINGLE_COMMANDS, *(story.in_groups() for story in SINGLE_COMMANDS), LARGE)
SESSIONS = [Trial(story.name, functools.partial(perform, story)) for story in STORIES]
