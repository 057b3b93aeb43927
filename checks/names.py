#!/usr/bin/env python3
"""Looks up each name that the pages and crates.txt give, and fails if one is wrong.

- docs/PROVED.md, in the lists of rules: `File.name` is a definition, `crate::file::name` a function in `src/file.rt`,
  `crate/name` a must-fail edit, and a bare name with `_` a law (a public function) or a crate. A text with `;` begins a
  row of a probe, and one that begins with `words ` is such a line of checks/data/program.txt. A plain word behind the
  arrow is a law, or is in the sources of the crates of the rule's code.
- docs/FAULTS.md: the first cells of its tables have each variant of the faults that the program prints, and no other
  name, and the table of statuses has those of the code.
- docs/STORE.md: each number of the table of limits is in the code, and each fault of it is one.
- docs/ARCHITECTURE.md: the lists have each crate of crates.txt, and in brackets its files to read first; the functions
  of the drawing of a command's way are in their files.
- CONTRIBUTING.md: in the table of a new command, each file of a crate is there, and has the command of its column.
- docs/TRUSTED.md: each file of definitions is there.
- docs/GUIDE.md, docs/OPERATING.md and README.md: each word behind `confstore` is one of the program's; the guide has
  all of them. Each word behind `confstorectl` on any page is one of its table.
- docs/OPERATING.md: the table of faults has each fault for which docs/FAULTS.md points to it, and no name that is none.
- PAGES: each page, script and picture that they name is there: beside the page, from the top, in checks/ or bench/.
- crates.txt: a library that a line names is in the files of the line's crate, and from no crate are there more than
  70,000 ways down through these lines: a toolchain may read the sources once for each.
- docs/*.svg: the pictures that packaging/pictures draws are as it would draw them.
- checks/ and bench/: no two scripts have one name, and none imports another: what they share is in lib/.
- The Ansible collection says what to do about a refused text as the program does.
- COPIES: two files that have to be the same are, and nothing is a link, which the proof refuses.

It takes some seconds, and the status is 1 if a name is not there or if there are more ways.
"""

from __future__ import annotations

import functools
import glob
import json
import os
import re
import runpy
import subprocess
import sys
from collections.abc import Iterator

TOP = os.path.dirname(os.path.dirname(os.path.abspath(__file__)))
CODE = re.compile(r"`([^`]+)`")
CELL_ENDS = re.compile(r"(?<!\\)\|")
# Crates of docs/ARCHITECTURE.md and checks/README.md: an item of a list that begins with their names, and the files in
# its brackets.
CRATES_ITEM = re.compile(r"(?ms)^- ((?:`\w+`,?\s)*`\w+`): (?:[^(]*?)(?:\(([^)]*)\))?\n(?=- |$)")
# What is to be read, in docs/TRUSTED.md: an item of a numbered list.
READ_ITEM = re.compile(r"(?ms)^\d+\. (.*?)(?=^\d+\. |^$)")
# A rule of docs/PROVED.md: an item of a list with an arrow.
RULE = re.compile("(?ms)^- ((?:(?!^- |^$).)*\u2192.*?)(?=^- |^$)")
# The libraries that no file of a crate names, but whose types its contracts speak of.
UNNAMED = {"example_edit": {"yaml_data"}, "conf_history": {"yaml_data"}}
MOST_WAYS = 70000
# The pages whose names of other files are looked up.
PAGES = (
    "[!C]*.md", "CONTRIBUTING.md", "docs/*.md", "python/GUIDE.md", "[!c]*/README.md", "checks/README.md",
    "clients/editors/README.md", "replicated/model/README.md",
)  # fmt: skip
# Files that have to be the same: each stands by itself where the other one is not.
COPIES = (
    ("python/confstore/abouts.py", "clients/ansible/ansible_collections/confstore/store/plugins/module_utils/abouts.py"),
    ("python/confstore/written.py", "clients/ansible/ansible_collections/confstore/store/plugins/module_utils/written.py"),
)  # fmt: skip
# The faults of Ansible's tasks, and an arm of the program's table of what to do: names, and a text.
TASK_FAULTS = "clients/ansible/ansible_collections/confstore/store/plugins/module_utils/faults.py"
REMEDY = re.compile(r'(?m)^        ((?:ReadFault|Why)::[^=]*?) => (?:\{\s*)?("(?:[^"\\]|\\.)*")')
# The enums of faults that the program prints, and the names that it prints for what isn't a variant of that name.
FAULTS = ["Why", "ReadFault", "StoreFault", "PathFault", "OpenFault", "FolderFault", "SessionFault", "HistoryFault",
          "ReadingFault", "ConditionFault", "NewFileFault"]
PRINTED = {"AboutLarge", "BadCommand", "Comments", "Input", "OneValue", "Output", "StoreExists", "Unsettled"}
# A line of the drawing of a command's way: a crate or none, functions of it, words, and the files that have them.
DRAWN = re.compile(r"^ +(\w+)? {2,}([a-zA-Z_:, ]+?)(?::| {2,}).*? {2,}([\w., ]+\.rt)$", re.M)
# The status of the script `./confstore`, and the words that are clap's.
SCRIPT_STATUS = "4"
CLAP_WORDS = {"help"}


@functools.lru_cache(maxsize=None)
def text_of(pattern: str) -> str:
    texts = []
    for path in sorted(glob.glob(os.path.join(TOP, "crates", pattern), recursive=True)):
        with open(path, encoding="utf-8") as file:
            texts.append(file.read())
    return "\n".join(texts)


@functools.lru_cache(maxsize=None)
def page(path: str) -> str:
    with open(os.path.join(TOP, path), encoding="utf-8") as file:
        return file.read()


def crates() -> set[str]:
    return set(os.listdir(os.path.join(TOP, "crates")))


def has_word(name: str, text: str) -> bool:
    return re.search(rf"(?<![\w-]){re.escape(name)}(?![\w-])", text) is not None


def is_definition(file: str, name: str) -> bool:
    return has_word(name, text_of(f"*/specs/{file}.antt"))


def is_function(crate: str, file: str, name: str) -> bool:
    return re.search(rf"\bfn {re.escape(name)}\b", text_of(f"{crate}/src/{file}.rt")) is not None


def is_edit(crate: str, name: str) -> bool:
    places = (f"crates/{crate}/must-fail", f"crates/{crate}/must-fail-beside")
    return any(os.path.exists(os.path.join(TOP, place, f"{name}.edit")) for place in places)


def is_law(name: str) -> bool:
    return re.search(rf"\bpub fn {re.escape(name)}\b", text_of("*/src/**/*.rt")) is not None


def begins_row(token: str) -> bool:
    return any(line.startswith(token) for line in text_of("*/stdin").splitlines())


def rows_of(path: str, heading: str = "") -> Iterator[list[str]]:
    """The cells of each row of the page's tables, from a heading to the next one if one is given."""
    text = page(path).partition(f"\n## {heading}\n")[2].partition("\n## ")[0] if heading else page(path)
    for line in text.splitlines():
        if line.startswith("|") and not line.startswith("|---"):
            yield [cell.strip() for cell in CELL_ENDS.split(line.strip())[1:-1]]


def is_rule_name(token: str) -> bool:
    """Whether a name of a rule is there; what is no name counts as one that is."""
    if ";" in token:
        return begins_row(token)
    if token.startswith("words "):
        return token in page("checks/data/program.txt").splitlines()
    if re.fullmatch(r"\w+::\w+::\w+", token):
        return is_function(*token.split("::"))
    if re.fullmatch(r"[A-Z]\w+\.\w+", token) and not token.endswith(".md"):
        return is_definition(*token.split("."))
    if re.fullmatch(r"[a-z]+(_[a-z]+)+/\w+", token):
        return is_edit(*token.split("/"))
    if re.fullmatch(r"[a-z]+(_[a-z]+)+", token):
        return is_law(token) or token in crates()
    return True


def rules() -> list[tuple[list[str], list[str]]]:
    """What each rule names, and what its clauses and laws are: the names behind its arrow that are plain words."""
    found = []
    for item in RULE.findall(page("docs/PROVED.md")):
        rule, _, behind = item.partition("\u2192")
        names = CODE.findall(behind)
        proofs = [name for name in names if re.fullmatch(r"\w+", name) and name not in crates()]
        found.append((CODE.findall(rule) + [name for name in names if name not in proofs], proofs))
    return found


def missing_in_rules() -> Iterator[str]:
    for tokens, _ in rules():
        yield from (f"docs/PROVED.md: `{token}`" for token in tokens if not is_rule_name(token))


def missing_in_proofs() -> Iterator[str]:
    for tokens, proofs in rules():
        named = [token.split("::")[0] for token in tokens if "::" in token]
        sources = "\n".join(text_of(f"{crate}/src/**/*.rt") for crate in named)
        for name in proofs:
            if not has_word(name, sources) and not is_law(name):
                yield f"docs/PROVED.md: `{name}` is neither a law nor in {', '.join(named)}"


def found_in(pattern: str, text: str, flags: re.RegexFlag) -> re.Match[str]:
    """What a pattern finds in a text. Ends the run where there is nothing."""
    found = re.search(pattern, text, flags)
    if found is None:
        sys.exit(f"names.py looks for {pattern!r}, which is not in the code")
    return found


def variants_of(fault: str) -> list[str]:
    """The variants of an enum of faults, but those that only hold another fault."""
    found = found_in(rf"^pub enum {fault} {{$(.*?)^}}$", text_of("*/src/*.rt"), re.M | re.S)
    return re.findall(r"^    (\w+)(?:,| \{.*\},)$", found[1], re.M)


def printed_faults() -> set[str]:
    return {name for fault in FAULTS for name in variants_of(fault)} | PRINTED


def wrong_in_faults() -> Iterator[str]:
    named = {name for row in rows_of("docs/FAULTS.md") for name in CODE.findall(row[0])}
    there = printed_faults()
    yield from (f"docs/FAULTS.md: `{name}` is no fault" for name in sorted(named - there))
    yield from (f"docs/FAULTS.md: `{name}` is missing" for name in sorted(there - named - {"Read", "Write"}))


def wrong_statuses() -> Iterator[str]:
    code = found_in(r"fn code\(self\).*?^    }$", text_of("conf_tools/src/program.rt"), re.M | re.S)[0]
    there = set(re.findall(r"=> (\d)", code)) | {SCRIPT_STATUS}
    named = {row[0] for row in rows_of("docs/FAULTS.md", "Statuses") if row[0].isdigit()}
    yield from (f"docs/FAULTS.md: status {status}" for status in sorted(there ^ named))


def wrong_in_operating() -> Iterator[str]:
    """The faults of the table of the page for operators, beside those whose rows in FAULTS.md point to it."""
    codes = (name for row in rows_of("docs/OPERATING.md") for name in CODE.findall(row[0]))
    named = {name for name in codes if re.fullmatch(r"[A-Z][A-Za-z]+", name)}
    pointing = [row for row in rows_of("docs/FAULTS.md") if "`OPERATING.md`" in row[-1]]
    wanted = {name for row in pointing for name in CODE.findall(row[0])}
    yield from (f"docs/OPERATING.md: `{name}` is no fault" for name in sorted(named - printed_faults()))
    yield from (f"docs/OPERATING.md: `{name}` is missing" for name in sorted(wanted - named))


def wrong_limits() -> Iterator[str]:
    code = text_of("*/src/*.rt").replace("_", "")
    for what, most, beyond in list(rows_of("docs/STORE.md", "Limits"))[1:]:
        for number in re.findall(r"\d[\d,]*", most):
            value = number.replace(",", "")
            if not has_word(value, code) and value != str(2**64 - 1):
                yield f"docs/STORE.md: {number} ({what}) is not in the code"
        yield from (f"docs/STORE.md: `{name}`" for name in CODE.findall(beyond) if name not in printed_faults())


def is_file_of(crate: str, name: str) -> bool:
    path = f"src/{name}" if name.endswith(".rt") else f"specs/{name}.antt"
    return os.path.exists(os.path.join(TOP, "crates", crate, path))


def wrong_in_architecture() -> Iterator[str]:
    named: set[str] = set()
    for names, files in CRATES_ITEM.findall(page("docs/ARCHITECTURE.md") + page("checks/README.md")):
        here = CODE.findall(names)
        named.update(here)
        for name in CODE.findall(files):
            if not is_file_of(here[0], name):
                yield f"docs/ARCHITECTURE.md: {here[0]} has no file `{name}`"
    for crate in sorted(named ^ set(libraries_of_crates())):
        yield f"docs/ARCHITECTURE.md: `{crate}` is not in both its list, or that of checks/README.md, and crates.txt"


def files_of_cell(cell: str) -> Iterator[tuple[str, str]]:
    """The files that a cell names, each with the crate that is named before it."""
    crate = ""
    for name in CODE.findall(cell):
        crate = name if name in crates() else crate
        if name.startswith(("specs/", "src/")):
            yield crate, name if name.endswith(".rt") else f"{name}.antt"


def wrong_in_contributing() -> Iterator[str]:
    """The files of a new command: those in the second column say `set`, and those in the third `names`."""
    for row in rows_of("CONTRIBUTING.md", "A new command"):
        cells = [row[1], row[1] + row[2] if row[2].startswith("the same") else row[2]]
        for cell, words in zip(cells, (("set", "Set", "set_at"), ("names", "Names", "names_keys"))):
            for crate, name in files_of_cell(cell):
                if not any(has_word(word, text_of(f"{crate}/{name}")) for word in words):
                    yield f"CONTRIBUTING.md: `{name}` of {crate} has no `{words[0]}`"


def wrong_in_drawing() -> Iterator[str]:
    """The names in the drawing of a command's way; a line without a crate is of the one before."""
    crate = ""
    for here, what, files in DRAWN.findall(page("docs/ARCHITECTURE.md")):
        crate = here or crate
        text = "\n".join(text_of(f"{crate}/src/{file}") for file in files.split(", "))
        for name in re.findall(r"\w+", what):
            if not has_word(name, text):
                yield f"docs/ARCHITECTURE.md: {crate} has no `{name}` in {files}"


def missing_definitions() -> Iterator[str]:
    folder = ""
    for item in READ_ITEM.findall(page("docs/TRUSTED.md")):
        for token in CODE.findall(" ".join(item.split()).partition(" Compare ")[0]):
            if not re.fullmatch(r"(crates/\w+/specs/)?[A-Z]\w+", token):
                continue
            folder = os.path.dirname(token) or folder
            if not os.path.exists(os.path.join(TOP, folder, f"{os.path.basename(token)}.antt")):
                yield f"docs/TRUSTED.md: `{token}`"


def wrong_words() -> Iterator[str]:
    text = text_of("conf_words/src/subcommand.rt")
    words = set(re.findall(r'Subcommand::\w+ => "([a-z]+)"', text))
    for path in ("docs/GUIDE.md", "docs/OPERATING.md", "README.md"):
        named = set(re.findall(r"^    .*?\bconfstore ([a-z]+)\b", page(path), re.M))
        yield from (f"{path}: confstore {word}" for word in sorted(named - words - CLAP_WORDS))
        if path == "docs/GUIDE.md":
            yield from (f"{path}: the word `{word}` is missing" for word in sorted(words - named))


def wrong_ctl_words() -> Iterator[str]:
    words = set(runpy.run_path(os.path.join(TOP, "python", "confstore", "ctl_words.py"))["WORDS"]) | {"help"}
    for pattern in PAGES:
        for path in sorted(glob.glob(os.path.join(TOP, pattern))):
            named = set(re.findall(r"(?m)(?:^    .*?|`)\bconfstorectl ([a-z]+)\b", page(path)))
            yield from (f"{os.path.relpath(path, TOP)}: confstorectl {word}" for word in sorted(named - words))


def missing_files() -> Iterator[str]:
    for pattern in PAGES:
        for path in sorted(glob.glob(os.path.join(TOP, pattern))):
            named = set(re.findall(r"`([\w./-]+\.(?:md|py|sh|svg))`", page(path)))
            tops = (TOP, os.path.dirname(path), os.path.join(TOP, "checks"), os.path.join(TOP, "bench"))
            there = {name for name in named for top in tops if os.path.exists(os.path.join(top, name))}
            yield from (f"{os.path.relpath(path, TOP)}: `{name}`" for name in sorted(named - there))


def libraries_of_crates() -> dict[str, set[str]]:
    """The libraries that the line of each crate names."""
    lines = [line.partition("#")[0].partition(":") for line in page("crates.txt").splitlines()]
    return {crate.strip(): set(libraries.split()) for crate, colon, libraries in lines if colon}


def unused_libraries() -> Iterator[str]:
    for crate, libraries in libraries_of_crates().items():
        files = "\n".join(text_of(f"{crate}/{part}") for part in ("src/**/*.rt", "specs/**/*.antt", "proofs/**/*.antt"))
        for library in libraries - UNNAMED.get(crate, set()):
            if not has_word(library, files):
                yield f"crates.txt: {crate} has `{library}`, which no file of it names"


def many_ways() -> Iterator[str]:
    libraries = libraries_of_crates()

    @functools.lru_cache(maxsize=None)
    def ways(crate: str) -> int:
        return 1 + sum(ways(library) for library in libraries[crate] if library in libraries)

    for crate in libraries:
        if ways(crate) > MOST_WAYS:
            yield f"crates.txt: {ways(crate)} ways lead down from {crate}, more than {MOST_WAYS}"


def wrong_pictures() -> Iterator[str]:
    script = os.path.join(TOP, "packaging", "pictures", "draw.py")
    checked = subprocess.run([sys.executable, script, "--check"], stdout=subprocess.PIPE, text=True, check=False)
    yield from checked.stdout.splitlines()


def mixed_scripts() -> Iterator[str]:
    scripts = [path for folder in ("checks", "bench") for path in glob.glob(os.path.join(TOP, folder, "*.py"))]
    names = [os.path.basename(path).removesuffix(".py") for path in scripts]
    yield from (f"{name}.py is in checks/ and in bench/" for name in sorted(set(names)) if names.count(name) > 1)
    for path in sorted(scripts + glob.glob(os.path.join(TOP, "*", "lib", "*.py"))):
        here = os.path.relpath(path, TOP)
        imported = re.findall(r"^ *(?:from (\w+) import .*|import (\w+).*)$", page(here), re.M)
        yield from (f"{here} imports the script {name}.py" for pair in imported for name in pair if name in names)


def remedies() -> dict[str, list[str]]:
    """What the program says to do about each fault of a text; in order, where it depends on how many documents there
    are."""
    found: dict[str, list[str]] = {}
    for names, text in REMEDY.findall(page("crates/yaml_refusals/src/remedies.rt")):
        for name in re.findall(r"::(\w+)", names):
            found.setdefault(name, []).append(json.loads(text))
    return found


def wrong_remedies() -> Iterator[str]:
    """What a task says to do about a refused text, where the program says something else."""
    told, there = runpy.run_path(os.path.join(TOP, TASK_FAULTS)), remedies()
    of_tasks = {name: [remedy] for name, (_, remedy) in {**told["REFUSALS"], **told["REASONS"]}.items()}
    of_tasks["Documents"].insert(0, told["NO_DOCUMENT"][1])
    names = set(there) - {"OutOfMemory"}
    if set(told["REASONS"]) != set(variants_of("Why")) or not set(variants_of("Why")) <= names <= set(of_tasks):
        yield f"{TASK_FAULTS}: it has other faults of texts than the program"
    for name in sorted(names & set(of_tasks)):
        if of_tasks[name] != there[name]:
            yield f"{TASK_FAULTS}: `{name}` has {of_tasks[name]}, and the program {there[name]}"


def wrong_copies() -> Iterator[str]:
    yield from (f"{copy} is not as {original}" for original, copy in COPIES if page(original) != page(copy))
    kept = subprocess.run(["git", "ls-files", "-s"], cwd=TOP, capture_output=True, text=True, check=False).stdout
    yield from (f"{path} is a link" for path in re.findall(r"^120000 .*\t(.*)$", kept, re.M))


def main() -> int:
    looks = (missing_in_rules, missing_in_proofs, wrong_in_faults, wrong_statuses, wrong_in_operating, wrong_limits,
             wrong_in_architecture, wrong_in_contributing, wrong_in_drawing, missing_definitions,
             wrong_words, wrong_ctl_words, missing_files, unused_libraries, many_ways, wrong_pictures, mixed_scripts,
             wrong_remedies, wrong_copies)  # fmt: skip
    missing = [line for look in looks for line in look()]
    for line in missing:
        print(line)
    print(f"{len(missing)} names are wrong" if missing else "every name is there")
    return 1 if missing else 0


if __name__ == "__main__":
    sys.exit(main())
