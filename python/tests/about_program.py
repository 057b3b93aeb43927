#!/usr/bin/env python3
"""The program that the tests of abouts run: the one that is tested, if it takes abouts; else a stand-in, which is this
file. The stand-in keeps the file of a store with its abouts, and has the tested program do all else on a copy without
them. It is slow, and no crash-safe store."""

from __future__ import annotations

import fcntl
import functools
import os
import re
import shutil
import subprocess
import sys
import tempfile
from typing import BinaryIO, Dict, List, Optional, Tuple

if __name__ == "__main__":
    sys.path.insert(0, os.path.dirname(os.path.dirname(os.path.realpath(__file__))))

from confstore.abouts import ABOUT, CHANGES, NotAbout, check, is_about, words_of
from confstore.pieces import Cutter
from confstore.style import document
from confstore.trees import NO_TREES, Tree, trees_of

# What names the tested program for the stand-in.
TESTED = "CONFSTORE_TESTED"

THIRD, SECOND = b"store: confstore-3\n", b"store: confstore-2\n"
PROBE = b"---\nimport: a\ntext: x\nabout:\n  why: x\n...\n"
COPIED = ("get", "names", "keys", "exists", "log", "verify", "export", "diff", "backup", "checkpoint", "run", "init")


@functools.lru_cache()
def takes_abouts(program: str) -> bool:
    """Whether a program performs a command with an about."""
    with tempfile.TemporaryDirectory() as folder:
        done = subprocess.run([program, "run", "--", folder], input=PROBE, capture_output=True, check=False)
    return b'ok: "1"' in done.stdout


def program_with_abouts() -> Dict[str, str]:
    """What the environment is to have so that CONFSTORE is a program that takes abouts."""
    tested = shutil.which(os.environ["CONFSTORE"]) or ""
    if takes_abouts(tested):
        return {"CONFSTORE": tested}
    return {"CONFSTORE": os.path.realpath(__file__), TESTED: os.path.abspath(tested)}


# ---- the stand-in


def tree_of(piece: bytes) -> Tree:
    try:
        (tree,) = trees_of(piece)
    except NO_TREES:
        return ""
    return tree


def plain_of(piece: bytes) -> bytes:
    """A base of the second format, or a record without its about."""
    if THIRD in piece[:32]:
        return piece.replace(THIRD, SECOND, 1)
    tree = tree_of(piece)
    if not isinstance(tree, dict) or ABOUT not in tree:
        return piece
    return document({key: value for key, value in tree.items() if key != ABOUT})


class Copy:
    """The store in a folder, and a copy of it without abouts."""

    def __init__(self, folder: str) -> None:
        self.path = os.path.join(folder, "store.yaml")
        self.top = tempfile.mkdtemp()
        self.folder = os.path.join(self.top, "copy")
        os.mkdir(self.folder)
        self.copy = os.path.join(self.folder, "store.yaml")
        if os.path.exists(self.path):
            with open(self.path, "rb") as source, open(self.copy, "wb") as target:
                target.write(b"".join(map(plain_of, Cutter().cut(source.read()))))

    def is_third(self) -> bool:
        with open(self.path, "rb") as source:
            return THIRD in source.read(32)

    def length(self) -> int:
        return os.stat(self.copy).st_size if os.path.exists(self.copy) else 0

    def replace(self, content: bytes) -> None:
        following = os.path.join(os.path.dirname(self.path), "next.yaml")
        with open(following, "wb") as target:
            target.write(content)
        os.rename(following, self.path)

    def base_before(self, length: int) -> bytes:
        """The base of the state that the copy had when it was so long."""
        folder = tempfile.mkdtemp(dir=self.top)
        with open(self.copy, "rb") as source, open(os.path.join(folder, "store.yaml"), "wb") as target:
            target.write(source.read(length))
        subprocess.run([os.environ[TESTED], "checkpoint", "--", folder], check=True)
        with open(os.path.join(folder, "store.yaml"), "rb") as source:
            return source.read().replace(SECOND, THIRD, 1)

    def take(self, length: int, about: Dict[str, str]) -> None:
        """Takes over what the copy has got since it was so long."""
        with open(self.copy, "rb") as source:
            content = source.read()
        if not os.path.exists(self.path):
            base = content[: content.index(b"...\n") + 4]
            self.replace(base)
            length = max(length, len(base))
        record = content[length:]
        if about:
            tree = tree_of(record)
            assert isinstance(tree, dict)
            told: Dict[str, Tree] = dict(about)
            record = document({**tree, ABOUT: told})
            if not self.is_third():
                self.replace(self.base_before(length) + record)
                return
        with open(self.path, "ab") as target:
            target.write(record)

    def take_checkpoint(self) -> None:
        is_third = self.is_third()
        with open(self.copy, "rb") as source:
            content = source.read()
        self.replace(content.replace(SECOND, THIRD, 1) if is_third else content)


def told_about(tree: Tree) -> Tuple[Dict[str, str], str]:
    """The about of a command, and the word by which it is refused."""
    if not isinstance(tree, dict) or ABOUT not in tree:
        return {}, ""
    about = tree[ABOUT]
    kind = next(key for key in tree if key != "if")
    if next(reversed(tree)) != ABOUT or not is_about(about) or kind not in CHANGES or not isinstance(about, dict):
        return {}, "BadCommand"
    texts = {key: str(text) for key, text in about.items()}
    try:
        check(texts)
    except NotAbout as fault:
        return {}, fault.name
    return texts, ""


def answer_from(stream: BinaryIO) -> bytes:
    cutter = Cutter()
    for line in stream:
        for piece in cutter.cut(line):
            return piece
    return b""


def session(folder: str) -> int:
    """A session over a folder. The status."""
    opened = os.open(folder, os.O_RDONLY)
    try:
        fcntl.flock(opened, fcntl.LOCK_EX | fcntl.LOCK_NB)
    except OSError:
        sys.stderr.write("confstore: Locked\n")
        return 3
    copy = Copy(folder)
    words = [os.environ[TESTED], "run", "--", copy.folder]
    with subprocess.Popen(words, stdin=subprocess.PIPE, stdout=subprocess.PIPE) as inner:
        assert inner.stdin and inner.stdout
        held = os.open(copy.path, os.O_RDONLY) if os.path.exists(copy.path) else -1
        while piece := answer_from(sys.stdin.buffer):
            tree = tree_of(piece)
            about, word = told_about(tree)
            if about and isinstance(tree, dict):
                piece = document({key: value for key, value in tree.items() if key != ABOUT})
            length = copy.length()
            if word:
                answer = f"---\nrefused: {word}\n...\n".encode()
            else:
                inner.stdin.write(piece)
                inner.stdin.flush()
                answer = answer_from(inner.stdout)
                if copy.length() and not os.path.exists(copy.path):
                    copy.take(0, {})
                if answer.startswith(b"---\nok:"):
                    if isinstance(tree, dict) and "checkpoint" in tree:
                        copy.take_checkpoint()
                    else:
                        copy.take(length, about)
            if os.path.exists(copy.path):  # a session has the file of its store open
                old, held = held, os.open(copy.path, os.O_RDONLY)
                if old >= 0:
                    os.close(old)
            os.write(1, answer)
        inner.stdin.close()
    shutil.rmtree(copy.top)
    return inner.returncode


def log_with_abouts(path: str, printed: bytes) -> bytes:
    """What `log` prints of a store, with its abouts."""
    with open(path, "rb") as source:
        pieces = Cutter().cut(source.read())[1:]
    trees = {tree["at"]: (tree, piece) for piece in pieces if isinstance(tree := tree_of(piece), dict)}
    if printed.startswith(b"---\n"):
        numbers = re.findall(rb'(?m)^at: "([0-9]+)"$', printed)
        return b"".join(trees[number.decode()][1] for number in numbers)
    lines: List[str] = []
    for line in printed.decode().splitlines():
        number, _, done = line.partition(" ")
        about = trees[number][0].get(ABOUT, {})
        texts = {key: str(text) for key, text in about.items()} if isinstance(about, dict) else {}
        lines.append(f"{number} {words_of(texts)}{done}\n")
    return "".join(lines).encode()


def folder_in(words: List[str]) -> Optional[int]:
    """Where the folder of a store stands among words."""
    return next((place for place, word in enumerate(words) if place > 0 and os.path.isdir(word)), None)


def main() -> int:
    words = sys.argv[1:]
    place = folder_in(words)
    if place is None or words[0] not in (*COPIED, "set", "delete", "import"):
        return subprocess.run([os.environ[TESTED], *words], check=False).returncode
    folder = words[place]
    if words[0] == "run":
        return session(folder)
    if words[0] == "backup":
        if os.path.exists(os.path.join(words[-1], "store.yaml")):
            sys.stderr.write("confstore: StoreExists\n")
            return 1
        os.makedirs(words[-1], exist_ok=True)
        shutil.copyfile(os.path.join(folder, "store.yaml"), os.path.join(words[-1], "store.yaml"))
        return 0
    copy = Copy(folder)
    length = copy.length()
    done = subprocess.run(
        [os.environ[TESTED], *words[:place], copy.folder, *words[place + 1 :]], stdout=subprocess.PIPE, check=False
    )
    printed = done.stdout
    if done.returncode == 0 and words[0] == "log":
        printed = log_with_abouts(copy.path, printed)
    elif done.returncode == 0 and words[0] == "checkpoint":
        copy.take_checkpoint()
    elif done.returncode == 0 and words[0] in ("set", "delete", "import", "init"):
        copy.take(length, {})
    shutil.rmtree(copy.top)
    sys.stdout.buffer.write(printed)
    return done.returncode


if __name__ == "__main__":
    sys.exit(main())
