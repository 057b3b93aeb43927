#!/usr/bin/env python3
"""Writes the table of docs/PROOFS.md that says what each crate of the program costs.

    rm -rf crates/*/out out/proof-costs && ./prove && python3 checks/crate_costs.py [FILE]

`./prove` keeps in out/proof-costs, or in FILE of another checkout, how many seconds of processors the proof of each crate
took; from nothing these are its costs, whatever else runs. The lines are those of src/, specs/ and proofs/, with comments and empty
ones. The status is 1 if a crate of the program was not proved in that run, and the page is left alone.
"""

from __future__ import annotations

import subprocess
import sys
from pathlib import Path

TOP = Path(__file__).resolve().parent.parent
COSTS = TOP / "out" / "proof-costs"
PAGE = TOP / "docs" / "PROOFS.md"
WIDTHS = (-19, 8, 9)


def lines_in(crate: str, folder: str, ending: str) -> int:
    return sum(path.read_bytes().count(b"\n") for path in (TOP / "crates" / crate / folder).rglob(f"*.{ending}"))


def product() -> list[str]:
    """The crates of the program, in the order of crates.txt."""
    words = '. packaging/program.sh && product_crates'
    found = subprocess.run(["bash", "-c", f"top={TOP}; {words}"], cwd=TOP, capture_output=True, check=True, text=True)
    named = [line.split(":")[0].split()[0] for line in (TOP / "crates.txt").read_text("utf-8").splitlines() if ":" in line]
    return [crate for crate in named if crate in found.stdout.split()]


def row(*words: str) -> str:
    return "".join(f"{word:{'>' if width > 0 else '<'}{abs(width)}}" for word, width in zip(words, WIDTHS)) + "\n"


HEADING = "```text\n" + row("crate", "lines", "seconds")


def table(crates: list[str], costs: dict[str, list[int]]) -> str:
    rows = []
    for crate in crates:
        lines = lines_in(crate, "src", "rt") + lines_in(crate, "specs", "antt") + lines_in(crate, "proofs", "antt")
        rows.append((crate, [lines, *costs[crate]]))
    sums = [sum(column) for column in zip(*(numbers for _, numbers in rows))]
    return HEADING + "".join(row(name, *(f"{number:,}" for number in numbers)) for name, numbers in [*rows, ("all", sums)])


def main() -> int:
    crates = product()
    costs = {}
    for line in (Path(sys.argv[1]) if sys.argv[1:] else COSTS).read_text("utf-8").splitlines():
        name, _, processors, _ = line.split()
        costs[name] = [int(processors)]
    missing = [crate for crate in crates if crate not in costs]
    if missing:
        print(f"there is no line for {' '.join(missing)}", file=sys.stderr)
        return 1
    before, found, rest = PAGE.read_text("utf-8").partition(HEADING)
    if not found:
        print("docs/PROOFS.md has no such table", file=sys.stderr)
        return 1
    PAGE.write_text(before + table(crates, costs) + rest[rest.index("```") :], encoding="utf-8")
    return 0


if __name__ == "__main__":
    sys.exit(main())
