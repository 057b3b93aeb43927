#!/usr/bin/env python3
"""Says what a crate's check spends its time on.

The prover keeps each module that it has checked in a file of `out/incremental`. After a check from nothing by one job,
the time between two files is what the second one took. So run, in the crate's folder, with nothing else running:

    rm -rf out/incremental && rt check --jobs 1 && python3 ../../checks/proof_times.py . [COUNT]

It prints the seconds and megabytes of each kind of module (`Lts` is a function's code as steps, `Proof` what the search
proved, `Answers` what is written), and then those of the COUNT dearest functions and files, 30 if it isn't given. What
the prover takes before it writes its first file is not in them.
"""

from __future__ import annotations

import collections
import os
import sys

# The last parts of a name that say of a module only which part of it is kept.
PARTS = ("decls", "exports")
# The modules that rattle makes of each function.
MADE = (
    "Answers", "Code", "Given", "Goals", "Invariants", "Key", "Kinds", "Layout", "Lts", "Lts-drop", "Met", "Mir",
    "Named", "Proof", "Reads", "Statement", "TheLink", "TheLinks", "Tie", "View",
)


def kept(folder: str) -> list[tuple[float, int, str]]:
    """The time at which each file was written, its size, and its module's name, in order of time."""
    found = []
    for place, _, files in os.walk(os.path.join(folder, "out", "incremental")):
        for file in files:
            if file.endswith(".oantt"):
                known = os.stat(os.path.join(place, file))
                found.append((known.st_mtime, known.st_size, file.removesuffix(".oantt")))
    return sorted(found)


def parts_of(name: str) -> list[str]:
    """The parts of a module's name below its library, at least one: a file may be named as a part is."""
    for library in ("-proofs.", "-specs."):
        name = name.split(library)[-1]
    parts = name.split(".")
    return [part for part in parts if part not in PARTS] or parts


def subject_of(parts: list[str]) -> str:
    """The function that a module is made of, or the file that it is."""
    names = [part for part in parts if part not in MADE]
    return ".".join(names) or parts[0]


def show(title: str, sums: dict[str, tuple[float, int]], count: int) -> None:
    print(title)
    for name, (seconds, size) in sorted(sums.items(), key=lambda one: -one[1][0])[:count]:
        print(f"{seconds:7.1f} s {size / 1e6:7.2f} MB  {name}")


def main() -> None:
    if len(sys.argv) < 2:
        sys.exit(__doc__)
    files = kept(sys.argv[1])
    if not files:
        sys.exit(f"{sys.argv[1]}/out/incremental has no modules")
    kinds: dict[str, tuple[float, int]] = collections.defaultdict(lambda: (0.0, 0))
    subjects: dict[str, tuple[float, int]] = collections.defaultdict(lambda: (0.0, 0))
    before = files[0][0]
    for time, size, name in files:
        parts = parts_of(name)
        for sums, key in ((kinds, parts[-1]), (subjects, subject_of(parts))):
            sums[key] = (sums[key][0] + time - before, sums[key][1] + size)
        before = time
    print(f"{len(files)} modules in {before - files[0][0]:.0f} s")
    show("by kind:", kinds, 12)
    show("by function or file:", subjects, int(sys.argv[2]) if len(sys.argv) > 2 else 30)


if __name__ == "__main__":
    main()
