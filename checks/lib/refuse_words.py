"""The words of the program without one of the allocations: what each answers, and the folder afterwards.

The words, and what each has to write and to leave, are in word_rows.py. A word that lacks an allocation either does
without, and all is as it should be, or it says OutOfMemory with the status 1: its output is the beginning of what it
had to write, `store.yaml` is as it was, and no file or folder stands that was not there. (`salvage` says what it found
once it has made its store, so then it may have made it. What `export --all` makes may stand, with nothing in it.)
"""

from __future__ import annotations

import functools
import os
import shutil

from .refusals import DONE, OUT_OF_MEMORY, Run, Trial
from .store_runs import Ended
from .word_rows import FILES, WORDS, Word, files_in, new_folder

FAULT = ": OutOfMemory"
# The option of words whose report has a line of what to do behind the fault.
EXPLAINED = "--explain"
HELP = "help: "


def expect_out_of_memory(run: Run, word: Word, ended: Ended, files: dict[str, bytes]) -> None:
    """The word said that memory ran out, and left everything as it was."""
    status, output, errors = ended
    said, _, remedy = errors.partition("\n")
    run.expect(f"{errors!r} tells of memory", said.removesuffix(FAULT) in ("confstore", *word.named), True)
    run.expect(f"{errors!r} is explained", remedy == "" or (EXPLAINED in word.words and remedy.startswith(HELP)), True)
    run.expect("status", status, 1)
    if word.leaves_empty:
        files = {name: content for name, content in files.items() if content}
    if not word.ends_by_writing or files != word.files():
        run.expect("files", files, FILES)
    run.expect(f"output {output!r} begins that of the word", word.output.startswith(output), True)


def perform(word: Word, run: Run) -> str:
    """A word on a new folder, and what it left there."""
    folder = new_folder(os.path.join(run.top, "work"))
    ended = word.run(folder, run.environment)
    files = files_in(folder)
    shutil.rmtree(folder)
    if FAULT in ended[2]:
        expect_out_of_memory(run, word, ended, files)
        return OUT_OF_MEMORY
    run.expect("all of it", (*ended, files), (word.status, word.output, "", word.files()))
    return DONE


RUNS_OF_WORDS = [Trial(word.words, functools.partial(perform, word)) for word in WORDS]
