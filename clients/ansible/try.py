#!/usr/bin/env python3
"""Tries the Ansible collection: the modules and the lookup over folders and sockets, and the playbook of the examples.

    ./prove && clients/ansible/try.py

- The parts by themselves (`plans.py`).
- The modules with the Python package and without it, over a folder and over the socket of `clients/serve.py`: a second
  run changes nothing, check mode changes nothing, and refusals say what was refused, where, and what to do.
- `clients/examples/deploy.yaml` by `ansible-playbook` on this host, the lookup, secrets, the documentation, and the
  collection as `ansible-galaxy` installs it.

It needs ansible-core, PyYAML, and the program: CONFSTORE, or the one that is built. What needs ansible-core is left out
where that isn't installed. The last line is 'N passed, M failed', and the status is 0 if M is 0. It takes a minute.
"""

from __future__ import annotations

import copy
import json
import os
import re
import shutil
import subprocess
import sys
import tempfile
import time
from collections.abc import Iterator
from concurrent.futures import ThreadPoolExecutor
from contextlib import contextmanager
from typing import Any

HERE = os.path.dirname(os.path.abspath(__file__))
TOP = os.path.dirname(os.path.dirname(HERE))
sys.path[:0] = [HERE, os.path.join(TOP, "checks"), os.path.join(TOP, "python")]

from ansible_collections.confstore.store.plugins.module_utils import faults  # noqa: E402
from confstore import __version__  # noqa: E402
from lib.store_runs import EMPTY, PROGRAM, Failures, need_program, read_file, write_file  # noqa: E402
from plans import SECRET, try_parts  # noqa: E402

COLLECTION = os.path.join(HERE, "ansible_collections", "confstore", "store")
PLUGINS = "ansible_collections.confstore.store.plugins"
PLAYBOOK = os.path.join(TOP, "clients", "examples", "deploy.yaml")
PATIENCE = 120

# What Ansible shows in the place of an option that is not to be shown.
HIDDEN = "VALUE_SPECIFIED_IN_NO_LOG_PARAMETER"

Result = dict[str, Any]


# ---- The names and the version


def try_names(failures: Failures) -> None:
    """The names of docs/FAULTS.md are those of the module, but for those of words that it does not use."""
    page = read_file(os.path.join(TOP, "docs", "FAULTS.md")).decode()
    tables = {
        part.split("\n", 1)[0].strip(): re.findall(r"(?m)^\| (`[A-Z].*?`) \|", part) for part in page.split("\n## ")
    }
    found = {title: set(re.findall(r"`(\w+)`", " ".join(rows))) for title, rows in tables.items()}
    reasons = set(faults.REASONS)
    of_get = {"NotText", "NotCollection"}  # of the program's words that write a value in another form
    of_files = {"Comments", "Unsettled", "OneValue", "FileExists"}  # of `format`, `import` and `--keep-dropped`
    refusals = (found["Of a text"] | found["Of a command"]) - reasons - of_files - of_get
    failures.expect("refusals", refusals, set(faults.REFUSALS))
    failures.expect("reasons", found["Of a text"] & reasons, reasons)
    ends = found["Of a store and of the program"] - {"TooLong", "Reopen", "Unmet"} - of_files - of_get
    failures.expect("ends", ends, set(faults.ENDS))


# ---- The modules


class Modules:
    """Runs the modules as Ansible does on a host, where Python finds what is in these folders too."""

    def __init__(self, interpreter: str, top: str, *folders: str) -> None:
        self._interpreter = interpreter
        self._before: list[str] = []  # what starts the interpreter
        self._environment = {**os.environ, "CONFSTORE": PROGRAM, "TMPDIR": top}
        self._environment["PYTHONPATH"] = os.pathsep.join([HERE, *folders])

    def written(self, start: list[str], **options: Any) -> "subprocess.CompletedProcess[bytes]":
        """What a module writes that is started so. `check` is the mode."""
        words = {"_ansible_check_mode": options.pop("check", False), "_ansible_diff": True, **options}
        return subprocess.run(
            [*self._before, self._interpreter, *start], input=json.dumps({"ANSIBLE_MODULE_ARGS": words}).encode(),
            env=self._environment, capture_output=True, check=False, timeout=PATIENCE,
        )  # fmt: skip

    def run(self, module: str, **options: Any) -> Result:
        """What a module returns, without its options."""
        done = self.written(["-m", f"{PLUGINS}.modules.{module}"], **options)
        try:
            found: Result = json.loads(done.stdout)
        except ValueError:
            return {"output": done.stdout, "errors": done.stderr}
        found.pop("invocation", None)
        return found

    def ignoring(self) -> "Modules":
        """The same, started by a process that ignores SIGCHLD."""
        found = copy.copy(self)
        found._before = ["/bin/sh", "-c", "trap '' CHLD; exec \"$@\"", "sh"]
        return found

    def change(self, **options: Any) -> Result:
        return self.run("confstore", **options)

    def has_package(self) -> bool:
        """Whether the modules find the Python package."""
        say = f"import sys; from {PLUGINS}.module_utils.stores import package; sys.exit(package is None)"
        return subprocess.run([self._interpreter, "-c", say], env=self._environment, check=False).returncode == 0


@contextmanager
def server(folder: str, path: str) -> Iterator[None]:
    """A server of the store in a folder."""
    words = [sys.executable, os.path.join(TOP, "clients", "serve.py"), path, folder]
    process = subprocess.Popen(words, env={**os.environ, "CONFSTORE": PROGRAM})
    try:
        deadline = time.monotonic() + PATIENCE
        while not os.path.exists(path) and time.monotonic() < deadline:
            time.sleep(0.05)
        yield
    finally:
        process.terminate()
        process.wait()


def short(result: Result) -> tuple[Any, Any, list[str]]:
    """Whether something has changed, what is there then, and the edits."""
    made = [f"{edit['edit']} {edit['name']} {edit['path']}" for edit in result.get("edits", [])]
    return result.get("changed"), result.get("after", result), made


# Tasks, one after the other, each with what is at the places that it changes, and the edits that it makes.
TASKS: list[tuple[Result, Any, list[str]]] = [
    ({"name": "web", "value": {"port": 80, "tls": True, "hosts": []}},
     {"web": {"": {"port": "80", "tls": "true", "hosts": []}}}, ["import web "]),
    ({"name": "web", "path": "/port", "value": "81"}, {"web": {"/port": "81"}}, ["set web /port"]),
    ({"name": "web", "path": "/hosts/-", "value": "a"}, {"web": {"/hosts/0": "a"}}, ["set web /hosts/-"]),
    ({"name": "web", "text": "v: 1.10\nw: yes\nx: |\n  two\n  lines\n"},
     {"web": {"/port": None, "/tls": None, "/hosts": None, "/v": "1.10", "/w": "yes", "/x": "two\nlines\n"}},
     ["import web "]),
    ({"name": "web", "edits": [{"path": "/w", "state": "absent"}, {"path": "/t/s", "value": {}, "parents": True},
                               {"name": "mail", "value": ["é\u2028\0"]}, {"path": "/v", "value": "1.10"}]},
     {"web": {"/w": None, "/t": {"s": {}}}, "mail": {"": ["é\u2028\0"]}},
     ["delete web /w", "set web /t", "import mail "]),
    ({"name": "mail", "state": "absent"}, {"mail": {"": None}}, ["delete mail "]),
]  # fmt: skip


def try_tasks(name: str, modules: Modules, where: Result, file: str, failures: Failures) -> None:
    """Each task in check mode, then really, and then again."""
    for number, (task, after, wanted) in enumerate(TASKS, 1):
        held = read_file(file) if os.path.exists(file) else b""
        checked = modules.change(check=True, **where, **task)
        failures.expect(f"{name}: task {number} in check mode", short(checked), (True, after, wanted))
        failures.expect(f"{name}: what check mode left", read_file(file) if os.path.exists(file) else b"", held)
        made = modules.change(**where, **task)
        failures.expect(f"{name}: task {number}", short(made), (True, after, wanted))
        failures.expect(f"{name}: its number", made.get("count"), number)
        failures.expect(f"{name}: the same before", made.get("before"), checked.get("before"))
        failures.expect(f"{name}: the same difference", made.get("diff"), checked.get("diff"))
        held = read_file(file)
        again = modules.change(**where, **task)
        failures.expect(f"{name}: task {number} again", short(again), (False, {}, []))
        failures.expect(f"{name}: what it left", read_file(file), held)
    shown = subprocess.run([PROGRAM, "get", os.path.dirname(file), "web"], capture_output=True, check=False)
    failures.expect(f"{name}: the store", shown.stdout, b'v: "1.10"\nx: |\n  two\n  lines\nt:\n  s: {}\n')


# Tasks that fail, each with the fault's name, the place, and what its message says.
REFUSED: list[tuple[Result, str, Any, str]] = [
    ({"name": "web", "text": "a: 1\nb: 2\nc: [d,,e]\n"}, "Syntax", {"line": 3, "column": 7, "reason": "Flow"},
     "the text for 'web', at line 3, column 7: Syntax Flow: a bracket is not closed, or an entry in it is malformed. "
     "What to do: close it, or put a comma."),
    ({"name": "web", "text": "a: b\na: c\n"}, "KeyTwice", {"line": 2, "column": 1, "reason": ""},
     "the text for 'web', at line 2, column 1: KeyTwice: "),
    ({"name": "web", "text": "#" * 4_194_305}, "TooLong", None, "the text for 'web': TooLong: "),
    ({"name": "web", "path": "/no/where", "value": "x"}, "NoSuchPlace", None, "'/no/where' of 'web': NoSuchPlace: "),
    ({"name": "none", "path": "/a", "value": "x"}, "NoConfig", None, "'/a' of 'none': NoConfig: "),
    ({"name": "Web", "value": "x"}, "BadName", None, "the name 'Web': BadName: "),
    ({"name": "web", "path": "a", "value": "x"}, "BadPath", None, "the path 'a' of 'web': BadPath: "),
    ({"name": "web", "edits": [{"path": "/v", "value": "2"}, {"path": "/no/x", "value": "x"}]}, "NoSuchPlace", None,
     "'/no/x' of 'web': NoSuchPlace: "),
    ({"name": "web", "value": {"a": [1.5]}}, "NotATree", None, "the value at '/a/0' is of type float: NotATree: "),
    ({"name": "web", "value": {"a": None}}, "NotATree", None, "the value at '/a' is null: NotATree: "),
    ({"name": "web", "text": {"a": "b"}}, "BadTask", None, "the text for 'web' is no text: use the filter `string`"),
    ({"name": "web"}, "BadTask", None, "none of `value`, `text` and `src` for 'web'"),
    ({"value": "x"}, "BadTask", None, "an edit has no `name`"),
    ({"name": "web", "value": "x", "text": "x"}, "BadTask", None, "`value` beside `text` for 'web'"),
    ({"name": "web", "path": "/v", "value": "x", "state": "absent"}, "BadTask", None, "`value` with `state: absent`"),
    ({"name": "web", "value": "x", "edits": []}, "BadTask", None, "`edits` beside an edit"),
    ({"name": "web", "if_absent": True, "edits": []}, "BadTask", None, "`edits` beside an edit"),
    ({"name": "web", "value": "x", "if_value": "y", "if_absent": True}, "BadTask", None, "`if_value` beside"),
    ({"name": "web", "path": "/v", "value": "x", "if_value": "1"}, "Unmet", None,
     "the condition on '/v' of 'web': Unmet: "),
    ({"name": "web", "path": "/v", "value": "x", "if_absent": True}, "Unmet", None,
     "the condition on '/v' of 'web': Unmet: "),
    ({"name": "web", "src": "/none/there"}, "MissingFile", None,
     "/none/there: No such file or directory: MissingFile: "),
    ({"name": "web", "value": "x" * 4_194_303}, "ConfigLarge", None, "'web': ConfigLarge: "),
]  # fmt: skip


def nested(depth: int) -> Any:
    return [nested(depth - 1)] if depth > 1 else "x"


def try_refusals(name: str, modules: Modules, where: Result, file: str, failures: Failures) -> None:
    held = read_file(file)
    deep = ({"name": "web", "value": nested(129)}, "TooDeep", None, "")
    for task, fault, place, message in [*REFUSED, deep]:
        for check in (True, False):
            failed = modules.change(check=check, **where, **task)
            found = failed.get("failed"), failed.get("fault"), failed.get("place")
            failures.expect(f"{name}: {str(task)[:80]}", found, (True, fault, place))
            failures.expect(f"{name}: the message", failed.get("msg", "")[: len(message)], message)
    failures.expect(f"{name}: what refusals left", read_file(file), held)
    deepest = modules.change(check=True, **where, name="web", value=nested(128))
    failures.expect(f"{name}: the deepest tree", deepest.get("changed"), True)


def try_reading(name: str, modules: Modules, where: Result, failures: Failures) -> None:
    """The module that reads, on what the tasks left."""
    rows: list[tuple[Result, Result]] = [
        ({"name": "web", "path": "/v"}, {"value": "1.10"}),
        ({"name": "web", "path": "/none", "default": ["x"]}, {"value": ["x"]}),
        ({"name": "none", "default": "x"}, {"value": "x"}),
        ({"name": "web", "path": "/none"}, {"fault": "NoSuchPlace"}),
        ({"name": "none"}, {"fault": "NoConfig"}),
        ({}, {"configs": {"web": {"v": "1.10", "x": "two\nlines\n", "t": {"s": {}}}}, "names": ["web"]}),
    ]
    for options, wanted in rows:
        found = modules.run("confstore_info", **where, **options)
        failures.expect(f"{name}: reading {options}", {key: found.get(key) for key in wanted}, wanted)


# Tasks with conditions, each with how it ends: whether something has changed, or the fault. They are done in order, on
# what the tasks above left.
CONDITIONAL: list[tuple[Result, Any]] = [
    ({"path": "/v", "value": "1.11", "if_value": "1.10"}, True),
    ({"path": "/v", "value": "1.11", "if_value": "1.10"}, False),
    ({"path": "/v", "value": "1.12", "if_value": "1.10"}, "Unmet"),
    ({"path": "/a", "value": "x", "if_absent": True}, True),
    ({"path": "/a", "value": "x", "if_absent": True}, False),
    ({"path": "/a", "value": "y", "if_absent": True}, "Unmet"),
    ({"path": "/a", "state": "absent", "if_value": "y"}, "Unmet"),
    ({"path": "/a", "state": "absent", "if_value": "x"}, True),
    ({"edits": [{"path": "/b", "value": ["x"], "if_absent": True}, {"path": "/v", "value": "2", "if_value": "1"}]},
     "Unmet"),
    ({"edits": [{"path": "/b", "value": ["x"], "if_absent": True}, {"path": "/v", "value": "2", "if_value": "1.11"}]},
     True),
    ({"edits": [{"path": "/b", "value": ["x"], "if_absent": True}, {"path": "/v", "value": "3", "if_value": "2"}]},
     True),
    ({"path": "/b/-", "value": "y", "if_absent": True}, True),
    ({"name": "mail", "value": {"tls": "yes"}, "if_absent": True}, True),
    ({"name": "mail", "state": "absent", "if_value": {"tls": "no"}}, "Unmet"),
    ({"name": "mail", "state": "absent", "if_value": {"tls": "yes"}}, True),
]  # fmt: skip


def has_conditions(top: str) -> bool:
    """Whether the program knows conditions: then it refuses the name in this one."""
    with tempfile.TemporaryDirectory(dir=top) as folder:
        given = b'if:\n  - absent: "-"\ndelete: a\npath: /\n...\n'
        done = subprocess.run([PROGRAM, "run", folder], input=given, capture_output=True, check=False)
    return b"refused: BadName" in done.stdout


def try_conditions(name: str, modules: Modules, where: Result, failures: Failures) -> None:
    """Tasks with conditions, in check mode and really; and the count of commands, which check mode does not look at."""
    if not has_conditions(os.path.dirname(where.get("folder") or where["socket"])):
        print(f"left out: {name}: conditions, which this program has not")
        return
    for task, wanted in CONDITIONAL:
        for check in (True, False):
            ended = modules.change(check=check, **where, **{"name": "web", **task})
            found = ended.get("fault", ended.get("changed"))
            failures.expect(f"{name}: {task}, {'in check mode' if check else 'done'}", found, wanted)
    left = {"v": "3", "x": "two\nlines\n", "t": {"s": {}}, "b": ["x", "y"]}
    read = modules.run("confstore_info", **where, name="web").get("value")
    failures.expect(f"{name}: what the conditions left", read, left)
    count = modules.change(**where, name="web", path="/v", value="4").get("count", 0)
    for number, wanted in ((count - 1, "Unmet"), (count, True), (count, "Unmet")):
        ended = modules.change(**where, name="web", path="/v", value=f"5{wanted}", if_count=number)
        failures.expect(f"{name}: if_count {number}", ended.get("fault", ended.get("changed")), wanted)
    modules.change(**where, name="web", edits=[{"path": "/v", "value": "1.10"}, {"path": "/b", "state": "absent"}])


# Starts the module so that what Ansible writes to the log of the host is on standard error.
LOGGED = f"""
import runpy, sys
from ansible.module_utils.basic import AnsibleModule
AnsibleModule.log = lambda self, msg, log_args=None: print(msg, log_args, file=sys.stderr)
runpy.run_module("{PLUGINS}.modules.confstore", run_name="__main__")
"""

# Tasks with a secret, each with whether its result may have that: it is what the task changes, and the task is well.
SECRETS: list[tuple[Result, bool]] = [
    ({"name": "mail", "value": {"password": SECRET, "port": "1"}}, True),
    ({"name": "mail", "path": "/port", "value": "2"}, False),
    ({"name": "mail", "path": "/port", "state": "absent"}, False),
    ({"name": "mail", "text": f"password: {SECRET}\nport: 3\n"}, False),
    ({"name": "mail", "edits": [{"path": "/port", "value": "4"}, {"path": "/password", "value": SECRET}]}, False),
    ({"name": "mail", "path": "/port", "value": SECRET, "if_value": SECRET}, False),
    ({"name": "mail", "path": "/none/x", "value": SECRET}, False),
    ({"name": "mail", "path": "/none/x", "text": f"{{{SECRET}: 1, {SECRET}: 2}}"}, False),
    ({"name": "mail", "value": {SECRET: 1.5}, "text": SECRET}, False),
    ({"name": "mail", "edits": [{"path": "/none/x", "value": SECRET, "if_value": [SECRET]}]}, False),
    ({"name": "mail", "edits": [{"value": SECRET, "state": "none"}]}, False),
    ({"name": "mail", "value": SECRET, "state": SECRET[::-1]}, False),
]


def try_secrets(name: str, modules: Modules, where: Result, failures: Failures) -> None:
    """A secret is in the result alone, and there only of a task that changes it. What is short stays as it is."""
    for task, may_show in SECRETS:
        for check in (True, False):
            done = modules.written(["-c", LOGGED], check=check, **where, **task)
            about = f"{name}: {'check of ' if check else ''}{str(task)[:70]}"
            result = json.loads(done.stdout)
            invocation = json.dumps(result.pop("invocation", {}))
            failures.expect(f"{about}: the options", SECRET in invocation, False)
            failures.expect(f"{about}: the log", SECRET.encode() in done.stderr, False)
            failures.expect(f"{about}: the result", SECRET in json.dumps(result), may_show)
    done = modules.written(["-c", LOGGED], **where, name="mail", path="/port", value="1")
    result = json.loads(done.stdout)
    failures.expect(f"{name}: a short value", result["after"], {"mail": {"/port": "1"}})
    failures.expect(f"{name}: the number", type(result["count"]), int)
    shown = result["invocation"]["module_args"]
    failures.expect(f"{name}: what is shown of it", (shown["path"], shown["value"]), ("/port", HIDDEN))
    failures.expect(f"{name}: the log has it", b"Invoked with" in done.stderr, True)
    modules.change(**where, name="mail", state="absent")


def try_held(name: str, modules: Modules, folder: str, failures: Failures) -> None:
    """A folder that a session holds: what is there already is fine, and a change is refused."""
    session = subprocess.Popen([PROGRAM, "run", folder], stdin=subprocess.PIPE, stdout=subprocess.PIPE)
    assert session.stdin is not None and session.stdout is not None
    try:
        session.stdin.write(b"names:\n...\n")
        session.stdin.flush()
        session.stdout.readline()
        task = {"folder": folder, "name": "web", "path": "/v"}
        failures.expect(f"{name}: beside a session", modules.change(**task, value="1.10").get("changed"), False)
        failed = modules.change(**task, value="2", wait=0)
        failures.expect(f"{name}: a change beside it", failed.get("fault"), "Locked")
        failures.expect(f"{name}: what it says", "`socket`" in failed.get("msg", ""), True)
    finally:
        session.communicate(timeout=PATIENCE)


def try_together(name: str, modules: Modules, folder: str, failures: Failures) -> None:
    """Tasks of several hosts on one folder at once, which is still to be made."""

    def add(number: int) -> Any:
        task = {"folder": folder, "create": True, "wait": PATIENCE, "parents": True}
        return modules.change(**task, name="web", path="/hosts/-", value=f"h{number}").get("changed")

    with ThreadPoolExecutor(6) as hosts:
        failures.expect(f"{name}: tasks at once", list(hosts.map(add, range(6))), [True] * 6)
    found = modules.run("confstore_info", folder=folder, name="web", path="/hosts").get("value", [])
    failures.expect(f"{name}: what they have made", sorted(found), [f"h{number}" for number in range(6)])


def try_places(name: str, modules: Modules, top: str, failures: Failures) -> None:
    """Folders, programs and servers that are none."""
    damaged, other = os.path.join(top, "damaged"), os.path.join(top, "other")
    sleeper, spied = os.path.join(top, "sleeper"), os.path.join(top, "spy")
    for folder, content in ((damaged, EMPTY + b"x\n...\n"), (other, b"x\n")):
        os.makedirs(folder, exist_ok=True)
        write_file(os.path.join(folder, "store.yaml"), content)
    write_file(sleeper, b"#!/bin/sh\nexec sleep 60\n")
    write_file(spied, f'#!/bin/sh\necho "$*" >>{spied}.words\nexec {PROGRAM} "$@"\n'.encode())
    os.chmod(sleeper, 0o755)
    os.chmod(spied, 0o755)
    whole = {"name": "web", "value": "x"}
    rows: list[tuple[Result, str]] = [
        ({"folder": os.path.join(top, "none")}, "MissingFolder"),
        ({"folder": damaged}, "Damaged"),
        ({"folder": other}, "NotAStore"),
        ({"folder": top, "program": "/none/confstore"}, "MissingProgram"),
        ({"folder": top, "program": sleeper, "timeout": 0.5}, "TimedOut"),
        ({"socket": os.path.join(top, "none")}, "Disconnected"),
    ]
    for where, fault in rows:
        failures.expect(f"{name}: {where}", modules.change(**where, **whole).get("fault"), fault)
        found = modules.ignoring().change(**where, **whole)
        failures.expect(f"{name}: {where}, without SIGCHLD", found.get("fault"), fault)
    failures.expect(f"{name}: nowhere", modules.change(**whole).get("failed"), True)
    both = modules.change(folder=top, socket=top, **whole)
    failures.expect(f"{name}: a folder and a socket", both.get("failed"), True)
    made = os.path.join(top, f"made-{name}", "deep")
    checked = modules.change(folder=made, create=True, check=True, **whole)
    failures.expect(f"{name}: a folder in check mode", (checked.get("changed"), os.path.exists(made)), (True, False))
    source = os.path.join(top, "source.yaml")
    write_file(source, f"password: {SECRET}\n".encode())
    changed = modules.change(folder=made, create=True, program=spied, name="web", src=source)
    failures.expect(f"{name}: a folder is made", changed.get("after"), {"web": {"": {"password": SECRET}}})
    words = read_file(f"{spied}.words")
    failures.expect(f"{name}: the program's words", (b"run" in words, SECRET.encode() in words), (True, False))


def try_modules(interpreter: str, top: str, failures: Failures) -> None:
    lacking = os.path.join(top, "lacking")  # a Python without PyYAML, which the package needs
    os.mkdir(lacking)
    write_file(os.path.join(lacking, "yaml.py"), b"raise ImportError\n")
    package = os.path.join(TOP, "python")
    for name, folders in (("words", [lacking, package]), ("package", [package])):
        modules = Modules(interpreter, top, *folders)
        failures.expect(f"{name}: the package is used", modules.has_package(), name == "package")
        folder, served = os.path.join(top, name), os.path.join(top, f"served-{name}")
        file = os.path.join(folder, "store.yaml")
        try_tasks(name, modules, {"folder": folder, "create": True}, file, failures)
        try_refusals(name, modules, {"folder": folder}, file, failures)
        try_reading(name, modules, {"folder": folder}, failures)
        try_conditions(name, modules, {"folder": folder}, failures)
        try_secrets(name, modules, {"folder": folder}, failures)
        try_held(name, modules, folder, failures)
        try_together(name, modules, os.path.join(top, f"together-{name}"), failures)
        try_places(name, modules, top, failures)
        os.mkdir(served)
        with server(served, f"{served}.socket"):
            where, file = {"socket": f"{served}.socket"}, os.path.join(served, "store.yaml")
            try_tasks(f"{name}, socket", modules, where, file, failures)
            try_refusals(f"{name}, socket", modules, where, file, failures)
            try_reading(f"{name}, socket", modules, where, failures)
            try_conditions(f"{name}, socket", modules, where, failures)


# ---- Ansible


def ansible(program: str, *words: str, **more: str) -> tuple[int, str]:
    """The status of one of Ansible's programs, and all that it prints."""
    environment = {**os.environ, "CONFSTORE": PROGRAM, "ANSIBLE_COLLECTIONS_PATH": HERE, "ANSIBLE_NOCOLOR": "1", **more}
    environment.setdefault("PYTHONPATH", "")
    done = subprocess.run([program, *words], env=environment, capture_output=True, check=False, timeout=PATIENCE)
    return done.returncode, (done.stdout + done.stderr).decode()


def play(folder: str, *words: str, port: str = "8080", **more: str) -> tuple[int, str]:
    given = ("-e", f"store={folder}", "-e", f"web_port={port}", "-e", f"secret={SECRET}")
    return ansible("ansible-playbook", "-i", "localhost,", "-c", "local", PLAYBOOK, *given, *words, **more)


def counts(said: str) -> tuple[str, ...]:
    """How many tasks were well, changed and failed."""
    found = re.search(r"ok=(\d+)\s+changed=(\d+)\s+unreachable=0\s+failed=(\d+)", said)
    return found.groups() if found else (said,)


def try_playbook(top: str, failures: Failures) -> None:
    folder = os.path.join(top, "played")
    status, said = play(folder, "--check", "--diff")
    failures.expect("check mode on a fresh host", (status, counts(said)), (0, ("3", "3", "0")))
    failures.expect("its difference", ('+port: "8080"\n' in said, '+version: "1.10"\n' in said), (True, True))
    failures.expect("what it left", os.path.exists(folder), False)
    status, said = play(folder, "-vvv")
    failures.expect("the first run", (status, counts(said)), (0, ("4", "3", "0")))
    failures.expect("the secret in the output", SECRET in said, False)
    failures.expect("the lookup", re.findall(r'"(8080|localhost)"', said)[-2:], ["8080", "localhost"])
    held = read_file(os.path.join(folder, "store.yaml"))
    failures.expect("the secret in the store", held.count(SECRET.encode()), 1)
    status, said = play(folder, PYTHONPATH=os.path.join(TOP, "python"))
    failures.expect("the second run", (status, counts(said)), (0, ("4", "0", "0")))
    status, said = play(folder, "--check", "--diff", port="8081")
    failures.expect("check mode of a change", (status, counts(said)), (0, ("3", "1", "0")))
    failures.expect("what it would be", '-"/port": "8080"\n+"/port": "8081"\n' in said, True)
    failures.expect("what stays as it is", "version" in said, False)
    failures.expect("what both left", read_file(os.path.join(folder, "store.yaml")), held)
    status, said = play(folder, port="[a,,b]")
    failures.expect("a template that is refused", (status, counts(said)), (2, ("0", "0", "1")))
    failures.expect("where it is", "the text for 'web', at line 3, column 10: Syntax Flow: " in said, True)


def try_shown(top: str, failures: Failures) -> None:
    """What all of Ansible shows and says most of a task that changes a configuration beside its secret, and of tasks
    that fail."""
    folder, book = os.path.join(top, "shown"), os.path.join(top, "shown.yaml")
    whole = {"port": "80", "password": SECRET, "last": "1"}
    tasks: list[tuple[Result, Result]] = [
        ({"name": "web", "value": whole, "create": True}, {"no_log": True}),
        ({"name": "web", "path": "/port", "value": "81"}, {}),
        ({"name": "web", "value": {**whole, "port": "82"}}, {}),
        ({"name": "web", "path": "/x/y", "value": SECRET}, {"ignore_errors": True}),
        ({"name": "web", "text": f"{{{SECRET}: 1, {SECRET}: 2}}"}, {"ignore_errors": True}),
    ]
    plays = [{"confstore.store.confstore": {"folder": folder, **options}, **more} for options, more in tasks]
    write_file(book, json.dumps([{"hosts": "all", "gather_facts": False, "tasks": plays}]).encode())
    status, said = ansible("ansible-playbook", "-i", "localhost,", "-c", "local", "-vvv", "--diff", book)
    failures.expect("tasks beside a secret", (status, counts(said)), (0, ("5", "3", "0")))
    failures.expect("the secret in what is shown", SECRET in said, False)
    failures.expect("the change in it", '-"/port": "80"\n+"/port": "81"\n' in said, True)


def task(module: str, *words: str) -> tuple[int, str]:
    """The status of one task on this host, and all that Ansible prints."""
    return ansible("ansible", "-i", "localhost,", "-c", "local", "all", "-m", module, "-a", *words)


def lookup(where: str, words: str) -> Any:
    """What a lookup gives, or all that Ansible says. `where` is a variable and its value."""
    message = f"{{{{ query('confstore.store.confstore', {words}) | to_json }}}}"
    status, said = task("debug", f"msg={message}", "-e", where)
    found = re.search(r'"msg": (.*)', said)
    return json.loads(json.loads(found[1])) if status == 0 and found else said


def try_lookup(top: str, failures: Failures) -> None:
    folder, path = os.path.join(top, "played"), os.path.join(top, "played.socket")
    where = f"confstore_folder={folder}"
    found = lookup(where, "'web/version', 'mail/tls'")
    failures.expect("values", found, ["1.10", {"certificate": "/etc/ssl/mail.pem"}])
    failures.expect("a default", lookup(where, "'web/none', 'none', default='x'"), ["x", "x"])
    said = lookup(where, "'web/none'")
    failures.expect("none", "confstore: '/none' of 'web': NoSuchPlace: nothing is" in said, True)
    said = lookup(f"confstore_folder={folder}-none", "'web'")
    failures.expect("no folder", "MissingFolder: there is no such folder" in said, True)
    with server(folder, path):
        failures.expect("values of a server", lookup(f"confstore_socket={path}", "'web/version'"), ["1.10"])
        words = f"socket={path} name=web path=/version value=1.20"
        for wanted in ("CHANGED", "SUCCESS"):
            status, said = task("confstore.store.confstore", words)
            failures.expect(f"a task by a server: {wanted}", (status, f"| {wanted} =>" in said), (0, True))
        failures.expect("the new value", lookup(f"confstore_socket={path}", "'web/version'"), ["1.20"])


def options_of(documentation: Any) -> Any:
    """What a documentation, or a module itself, says of options."""
    found: Result = {}
    for name, option in documentation.items():
        kept = {key: option[key] for key in ("type", "choices", "default", "elements") if key in option}
        inner = option.get("suboptions") or option.get("options")
        found[name] = {**kept, "options": options_of(inner)} if inner else kept
    return found


def try_version(failures: Failures) -> None:
    """The collection's version is the package's."""
    found = re.search(r"(?m)^version: (.*)$", read_file(os.path.join(COLLECTION, "galaxy.yml")).decode())
    failures.expect("the version", found[1] if found else None, __version__)


def try_documentation(interpreter: str, top: str, failures: Failures) -> None:
    for kind, name in (("module", "confstore"), ("module", "confstore_info"), ("lookup", "confstore")):
        status, said = ansible("ansible-doc", "-t", kind, "--json", f"confstore.store.{name}")
        failures.expect(f"the documentation of {kind} {name}", status, 0)
        page = json.loads(said)[f"confstore.store.{name}"]
        lacking = [part for part in ("doc", "examples", "return") if not page[part]]
        failures.expect(f"what the documentation of {kind} {name} lacks", lacking, [])
        if kind == "module":
            say = f"import json; from {PLUGINS}.modules.{name} import OPTIONS; print(json.dumps(OPTIONS))"
            done = subprocess.run(
                [interpreter, "-c", say], env={**os.environ, "PYTHONPATH": HERE}, capture_output=True, check=False
            )
            options = options_of(json.loads(done.stdout))
            failures.expect(f"the options of {name}", options_of(page["doc"]["options"]), options)
    installed = os.path.join(top, "installed")
    status, said = ansible("ansible-galaxy", "collection", "install", "-p", installed, COLLECTION)
    failures.expect("the collection is installed", (status, said if status else ""), (0, ""))
    status, said = ansible("ansible-doc", "confstore.store.confstore", ANSIBLE_COLLECTIONS_PATH=installed)
    failures.expect("what is installed", (status, installed in said), (0, True))


def interpreter_of_ansible() -> str | None:
    """The Python that has Ansible, or None."""
    program = shutil.which("ansible-playbook")
    if program is None:
        return None
    with open(program, encoding="utf-8") as source:
        return source.readline().removeprefix("#!").strip()


def main() -> int:
    need_program()
    os.environ["CONFSTORE"] = PROGRAM
    failures = Failures()
    with tempfile.TemporaryDirectory() as top:
        try_parts(top, failures)
        try_names(failures)
        try_version(failures)
        interpreter = interpreter_of_ansible()
        if interpreter is None:
            print("left out: the modules and the playbook, since ansible-core is not installed")
            return failures.report()
        try_modules(interpreter, top, failures)
        try_playbook(top, failures)
        try_shown(top, failures)
        try_lookup(top, failures)
        try_documentation(interpreter, top, failures)
    return failures.report()


if __name__ == "__main__":
    sys.exit(main())
