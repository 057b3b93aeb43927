#!/usr/bin/env python3
"""Formats 500 files of Debian's packages with their comments, and reads what is written by PyYAML.

The files are those with a comment that `keep` of `tree_probe` does not refuse, of the packages below, which
`apt-get download` fetches. Of each:

- the comments of what is written are those of the file, in order, without whitespace at their ends, as this script
  finds them between PyYAML's tokens;
- PyYAML's BaseLoader gives the same tree for both;
- what is written is formatted once more, and stays as it is.

Fewer than one comment in a hundred is at another node than before, as `lib/comment_nodes.py` sees it.

Run it from the repository's root after the probe is built; it needs PyYAML, and two minutes:

    (cd crates/tree_probe && rt run < stdin > /dev/null) && python3 checks/real_comments.py

A folder with files may follow, whose files are tried in place of the packages'. The status is 0 if all is as it should
be.
"""

from __future__ import annotations

import os
import subprocess
import sys
import tempfile
from collections import Counter
from collections.abc import Callable, Iterator

import yaml

from lib.comment_nodes import seen
from lib.comments_model import NotRead
from lib.kept_comments import PROBE, kept
from lib.store_runs import need_program

# Packages of Debian with such files.
PACKAGES = (
    "ansible", "bandit", "ceph-mgr-cephadm", "cloud-init", "heat-common", "mkdocs", "netplan.io", "openqa",
    "pre-commit", "prometheus", "rubocop", "ruby-rails-i18n", "yamllint",
)  # fmt: skip

FILES = 500

# At most one comment in so many is at another node.
MOVED = 100


def fetch(folder: str) -> None:
    """Fetches the packages into a folder, and unpacks them there."""
    subprocess.run(["apt-get", "download", "-qq", *PACKAGES], cwd=folder, check=True)
    for name in sorted(os.listdir(folder)):
        if name.endswith(".deb"):
            subprocess.run(["dpkg-deb", "-x", name, "."], cwd=folder, check=True)


def paths(folder: str) -> Iterator[str]:
    """The files of a folder whose names are those of YAML, in order."""
    for place, folders, names in os.walk(folder):
        folders.sort()
        for name in sorted(names):
            path = os.path.join(place, name)
            if name.endswith((".yml", ".yaml")) and os.path.isfile(path):
                yield path


def comments_of(text: str) -> list[str]:
    """The comments of a text: each `#` between two tokens of scalars that begins a row or has whitespace before it."""
    spans: list[tuple[int, int]] = []
    scan: Callable[[str, object], Iterator[yaml.Token]] = yaml.scan
    for token in scan(text, yaml.BaseLoader):
        if isinstance(token, yaml.ScalarToken):
            start, end = token.start_mark.index, token.end_mark.index
            if token.style in ("|", ">"):
                start = text.index("\n", start)
            spans.append((start, max(start, end)))
    found: list[str] = []
    at = 0
    for start, end in [*spans, (len(text), len(text))]:
        while 0 <= (at := text.find("#", at, start)):
            line_end = text.find("\n", at)
            line_end = len(text) if line_end < 0 else line_end
            if at == 0 or text[at - 1] in " \t\n\r\ufeff":
                found.append(text[at:line_end].rstrip(" \t\r"))
            at = line_end
        at = end
    return found


def faults_of(text: str, written: str, again: str | None) -> list[str]:
    """What is wrong with what was written for a text."""
    faults: list[str] = []
    if comments_of(written) != comments_of(text):
        faults.append("the comments differ")
    if yaml.load(written, yaml.BaseLoader) != yaml.load(text, yaml.BaseLoader):
        faults.append("the trees differ")
    if again != written:
        faults.append("it changes once more")
    return faults


def moved(text: str, written: str) -> int:
    """How many comments are at another node than before."""
    return sum(not was.is_like(now) for was, now in zip(seen(text), seen(written), strict=True))


def texts_of(folder: str) -> Iterator[tuple[str, str]]:
    """The files with a comment that PyYAML reads, and their texts."""
    for path in paths(folder):
        with open(path, "rb") as file:
            given = file.read()
        try:
            text = given.decode("utf-8-sig")
            if comments_of(text):
                yield path, text
        except (UnicodeDecodeError, ValueError, yaml.YAMLError):
            continue


def tried(folder: str) -> int:
    """Tries the files of a folder, and returns how many are wrong."""
    counts: Counter[str] = Counter()
    wrong = 0
    given = list(texts_of(folder))
    written = kept([text for _, text in given])
    pairs = [(path, text, new) for (path, text), new in zip(given, written, strict=True) if new is not None][:FILES]
    again = kept([new for _, _, new in pairs])
    for (path, text, new), once_more in zip(pairs, again, strict=True):
        counts["files"] += 1
        counts["comments"] += len(comments_of(text))
        faults = faults_of(text, new, once_more)
        try:
            counts["moved"] += moved(text, new)
        except NotRead as fault:
            faults.append(f"the model does not read it: {fault}")
        if faults:
            wrong += 1
            print(f"{os.path.relpath(path, folder)}: {', '.join(faults)}")
    print(f"{counts['files']} files of {len(given)}, {counts['comments']} comments, {counts['moved']} at another node")
    if counts["files"] < FILES or counts["moved"] * MOVED >= counts["comments"]:
        return wrong + 1
    return wrong


def main() -> None:
    """Tries the files of a folder, or those of the packages."""
    need_program(PROBE)
    if len(sys.argv) > 1:
        sys.exit(1 if tried(sys.argv[1]) else 0)
    with tempfile.TemporaryDirectory() as folder:
        fetch(folder)
        sys.exit(1 if tried(folder) else 0)


if __name__ == "__main__":
    main()
