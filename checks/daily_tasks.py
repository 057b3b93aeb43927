#!/usr/bin/env python3
"""Does the tasks of each day as a user does them: by words of confstore and confstorectl in a shell.

Each task is a row, with how it is done, and has to leave and print what is known by hand. LEFT has those that no word
does yet: a row of these fails once the program or confstorectl has the word, so that the task is written here then.

Run it from the repository's root after the program is built; it needs PyYAML and jq, and takes a minute:

    ./prove && python3 checks/daily_tasks.py

The last line is 'N passed, M failed', of tasks, and the status is 0 if M is 0.
"""

from __future__ import annotations

import json
import os
import shlex
import subprocess
import sys
import tempfile
import time
from collections.abc import Callable
from typing import NamedTuple

from lib.ctl_table import help_of
from lib.store_runs import PROGRAM, TOP, Failures, need_program, write_file
from lib.typical_texts import TYPICAL

PATIENCE = 120

# How many keys a batch has, writers and changes are there at once, and files a folder has.
KEYS, WRITERS, CHANGES, FILES = 500, 8, 25, 163

# What those who watch are told of.
WATCHED = 100


class User:
    """Somebody at a shell, in a folder of their own, where a store `s` has the configuration `web`."""

    def __init__(self, top: str) -> None:
        self.top, words = top, os.path.join(top, "bin")
        os.mkdir(words)
        os.symlink(PROGRAM, os.path.join(words, "confstore"))
        ctl = os.path.join(words, "confstorectl")
        path = shlex.quote(os.path.join(TOP, "python"))
        write_file(ctl, f'#!/bin/sh\nPYTHONPATH={path} exec {sys.executable} -m confstore.ctl "$@"\n'.encode())
        os.chmod(ctl, 0o755)
        self.environment = {**os.environ, "PATH": f"{words}:{os.environ['PATH']}", "CONFSTORE": PROGRAM}
        self.does("confstore init s; printf 'port: 80\\nhosts: [a, b]\\n' | confstore import s web")

    def runs(self, script: str) -> "subprocess.CompletedProcess[str]":
        words = ["bash", "-c", script]
        return subprocess.run(words, cwd=self.top, env=self.environment, stdin=subprocess.DEVNULL, capture_output=True,
                              text=True, timeout=PATIENCE, check=False)  # fmt: skip

    def does(self, script: str) -> str:
        """Runs a script that has to be done. What it writes to standard output."""
        done = self.runs(f"set -e -o pipefail\n{script}")
        assert done.returncode == 0, f"status {done.returncode} of {script}: {done.stdout}{done.stderr}"
        return done.stdout

    def is_refused(self, script: str, name: str) -> None:
        done = self.runs(script)
        assert done.returncode == 1 and name in done.stderr, f"{script}: {done.returncode} {done.stderr}"

    def value(self, pointer: str, name: str = "web") -> object:
        return json.loads(self.does(f"confstore get s {name} {shlex.quote(pointer)} --json"))

    def writes(self, name: str, text: str) -> None:
        write_file(os.path.join(self.top, name), text.encode())

    def reads(self, name: str) -> str:
        with open(os.path.join(self.top, name), encoding="utf-8") as file:
            return file.read()


def guarded_change(user: User) -> None:
    user.does("confstore set s web /port 81 --if-value 80")
    user.is_refused("confstore set s web /port 82 --if-value 80", "Unmet")
    assert user.value("/port") == "81"


def between_hosts(user: User) -> None:
    user.does("confstore set s web /port 81; confstore backup s copy; tar -cf copy.tar copy")
    user.does("mkdir other; tar -xf copy.tar -C other; confstore verify other/copy")
    assert user.does("confstore log other/copy --values") == user.does("confstore log s --values")


def many_keys(user: User) -> None:
    edits = [f"- {{set: web, path: /k{number}, value: v{number}}}\n" for number in range(KEYS)]
    user.writes("edits.yaml", "".join(edits))
    user.does("confstore batch s edits.yaml")
    assert len(user.does("confstore keys s web").splitlines()) == KEYS + 2
    user.writes("bad.yaml", "".join(edits) + "- {set: none, path: /x, value: y}\n")
    user.is_refused("confstore batch s bad.yaml", "NoConfig")
    assert len(user.does("confstore log s").splitlines()) == 2


def from_many_shells(user: User) -> None:
    user.does("confstore set s web /n 0")
    adds = (
        f"for i in $(seq {CHANGES}); do"
        " while n=$(confstore get s web /n --raw);"
        " ! confstore set s web /n $((n + 1)) --if-value $n --wait 60; do :; done 2>/dev/null; done"
    )
    user.does(f"for w in $(seq {WRITERS}); do ({adds}) & done; wait")
    assert user.value("/n") == str(WRITERS * CHANGES)


def eight_at_once(user: User) -> None:
    user.does(f"for w in $(seq {WRITERS}); do confstore set s web /hosts/- w$w --wait 60 & p=\"$p $!\"; done; wait $p")
    assert sorted(user.does("confstore get s web /hosts --json | jq -r '.[]'").split())[2:] == [
        f"w{number}" for number in range(1, WRITERS + 1)
    ]


def roll_back(user: User) -> None:
    user.does("confstore set s web /port 81; confstore set s web /port wrong")
    user.does("confstore get s web --at 2 | confstore import s web --if-count 3")
    assert user.value("/port") == "81" and len(user.does("confstore log s").splitlines()) == 4
    user.is_refused("confstore get s web --at 1 | confstore import s web --if-count 3", "Unmet")


def roll_back_by_a_word(user: User) -> None:
    user.does("confstore set s web /port 81; confstore set s web /port wrong; confstore set s web /hosts/- c")
    user.does("confstorectl rollback s web --to 2 --if-count 4")
    assert user.value("") == {"port": "81", "hosts": ["a", "b"]}
    user.is_refused("confstorectl rollback s web --to 1 --if-count 4", "Unmet")


def undo(user: User) -> None:
    """What came since stays, and what was changed since is not overwritten."""
    user.does("confstore set s web /port 81; confstore set s web /hosts/- c; confstorectl undo s 2")
    assert user.value("") == {"port": "80", "hosts": ["a", "b", "c"]}
    user.does("confstore set s web /hosts/- d")
    user.is_refused("confstorectl undo s 3", "web /hosts")


def what_changed(user: User) -> None:
    user.does("confstore set s web /port 81; confstore set s web /hosts/- c; confstore copy s web old")
    shown = user.runs("confstorectl diff s web --from 1 --to 3 --lines").stdout
    assert shown == '- /port "80"\n+ /port "81"\n+ /hosts/- "c"\n', shown
    for program, file in (("confstore", "edits.yaml"), ("confstorectl", "same.yaml")):
        user.does(f"{program} diff s --from 1 > {file} || [ $? = 1 ]")
    user.does("cmp edits.yaml same.yaml; confstore get s web --at 1 > web.yaml")
    user.does("confstore init t; confstore import t web web.yaml; confstore batch t edits.yaml")
    assert user.does("confstore names t; confstore get t old") == user.does("confstore names s; confstore get s old")


def log_of_one(user: User) -> None:
    """The commands of one configuration, and those since a number."""
    user.does("confstore set s web /port 81; confstore copy s web old; confstore set s web /port 82")
    user.does("confstore rename s web site")
    lines = user.does("confstore log s").splitlines(keepends=True)
    assert user.does("confstore log s web") == "".join(lines[number - 1] for number in (1, 2, 4, 5))
    assert user.does("confstore log s old --from 2 --to 4; confstorectl log s web --from 5") == lines[2] + lines[4]


def several_values(user: User) -> None:
    """Several values by one run, of one moment."""
    assert user.does("confstore get s web /port /hosts/1 --raw") == "80\nb\n"
    shown = user.does("confstore get s web /hosts /port --json | jq -c .")
    assert shown == '["a","b"]\n"80"\n'


def other_formats(user: User) -> None:
    """A file of another format, or an empty one, is not taken for a configuration."""
    texts = ("A=1\nB=2\n", "a = 1\nb = 2\n", "<a>\n b\n</a>\n")
    for text in texts:
        user.writes("file", text)
        user.is_refused("confstore import s web file", "file: OneValue")
        user.is_refused("confstorectl import s web file", "file: OneValue")
    assert len(user.does("confstore log s").splitlines()) == 1
    user.does("echo 80 | confstore import s number --any-root")
    assert user.does("confstore get s number --raw") == "80\n"


def folder_as_it_is(user: User) -> None:
    """A folder of files is what the store has to be: what changes is shown, and is one command."""
    user.does("confstore copy s web old; confstorectl export s --all files; rm files/old.yaml")
    user.does("sed -i s/80/81/ files/web.yaml; echo 'a: b' > files/new.yaml")
    shown = user.does("confstorectl sync s files --delete --dry-run")
    assert '-port: "80"\n+port: "81"\n' in shown and user.value("/port") == "80"
    assert user.does("confstorectl sync s files --delete") == shown
    assert user.does("confstore names s").split() == ["web", "new"] and user.value("/port") == "81"
    assert user.does("confstore log s").splitlines()[2:] == ['3 batch import new; set web "/port"; delete old ""']


def all_files(user: User) -> None:
    """Each configuration in a file of its own: what has changed is replaced, with its mode, and nothing else."""
    user.does("confstore copy s web old; confstore export s --all files; confstore export s --all texts --json")
    assert user.does("ls files texts").split() == ["files:", "old.yaml", "web.yaml", "texts:", "old.json", "web.json"]
    assert user.does("cat files/*; cat texts/web.json") == user.does(
        "confstore export s old; confstore export s web; confstore export s web --json"
    )
    user.does("chmod 640 files/*; touch -d @1 files/* texts/*; confstore set s web /port 81")
    user.does("confstore export s --all files")
    assert user.does("find files -newermt @2 -type f -printf '%f %m\n'") == "web.yaml 640\n"
    assert user.reads("files/web.yaml") == user.does("confstore export s web")
    user.is_refused("confstore export s --all s", "StoreExists")


def secret(user: User) -> None:
    """It is in no argument, and in no line that is shown."""
    user.does("printf hunter2 | confstore set s web /password --file -")
    assert user.value("/password") == "hunter2"
    shown = user.does("confstore log s --values --hide /password; confstorectl log s --values --hide /password")
    assert "hunter2" not in shown and "hidden" in shown
    assert "hunter2" in user.does("confstore log s --values")
    assert "hunter2" not in user.does("confstorectl page s --hide /password")
    assert "hunter2" not in user.runs("confstorectl diff s --lines --hide /password").stdout


def render(user: User) -> None:
    user.writes("site.template", "listen {{ web/port }};\n{% for h in web/hosts %}\nserver {{ h }};\n{% end %}\n")
    user.does("confstorectl render s site.template site.conf -- sh -c 'echo reloaded >> told'")
    assert (user.reads("site.conf"), user.reads("told")) == ("listen 80;\nserver a;\nserver b;\n", "reloaded\n")
    user.does("confstorectl render s site.template site.conf -- sh -c 'echo reloaded >> told'")
    assert user.reads("told") == "reloaded\n"


def environment(user: User) -> None:
    """What a shell and systemd can take as variables, with a value that has to be quoted."""
    user.does("confstorectl get s web /port --env > port.env")
    assert user.reads("port.env") == 'port="80"\n'
    user.does("""confstore import s env <<'END'\nNAME: it's "a" $b\nEMPTY: ""\nEND""")
    user.writes("env.template", "{% for key, value in env %}\n{{ key }}={{ value | sh }}\n{% end %}\n")
    user.does("confstorectl render s env.template app.env; confstorectl get s env --env > get.env")
    for file in ("app.env", "get.env"):
        assert user.does(f'. ./{file}; printf "%s|%s" "$NAME" "$EMPTY"') == 'it\'s "a" $b|'


def validate(user: User) -> None:
    """A judge sees the text that would be there, and a refused change changes nothing."""
    user.does("confstorectl set s web /port 81 --check 'grep -q ^port:'")
    judge = "grep -q ^port: || { echo no port >&2; false; }"
    user.is_refused(f"confstorectl delete s web /port --check {shlex.quote(judge)}", "no port")
    schema = '{"type": "object", "properties": {"port": {"pattern": "^[0-9]+$"}}, "required": ["port"]}'
    validates = "jsonschema.validate(yaml.load(sys.stdin, yaml.BaseLoader), json.loads(sys.argv[1]))"
    user.writes("judge.py", f"import sys, yaml, jsonschema, json\n{validates}\n")
    if user.runs(f"{sys.executable} -c 'import jsonschema'").returncode == 0:
        checks = f"{sys.executable} judge.py {shlex.quote(schema)}"
        user.does(f"confstorectl set s web /port 82 --check {shlex.quote(checks)}")
        user.is_refused(f"confstorectl set s web /port none --check {shlex.quote(checks)}", "CheckFailed")
    assert user.value("/port") in ("81", "82") and "none" not in user.does("confstore log s --values")


def notify(user: User) -> None:
    """A command for each change, with its values: none is missed, and none comes twice."""
    words = ["confstorectl", "watch", "s", "web", "--", "sh", "-c", "cat >> told"]
    with subprocess.Popen(words, cwd=user.top, env=user.environment) as watcher:
        deadline = time.monotonic() + PATIENCE
        while not (lines := told_to(user)) and time.monotonic() < deadline:  # it begins with what comes after its start
            user.does("confstore set s web /seen yes")
            time.sleep(0.2)
        first = int(lines[0].split()[0])
        last = len(user.does("confstore log s").splitlines()) + WATCHED
        user.does(f"for i in $(seq {WATCHED}); do confstore set s web /n $i; done")
        while len(told_to(user)) < last - first + 1 and time.monotonic() < deadline:
            time.sleep(0.1)
        watcher.terminate()
    lines = told_to(user)
    assert [int(line.split()[0]) for line in lines] == list(range(first, last + 1)), lines
    assert lines[-WATCHED:] == [f'{last - WATCHED + n} set web "/n" "{n}"' for n in range(1, WATCHED + 1)], lines[-2:]


def told_to(user: User) -> list[str]:
    """The lines that the command of `notify` was given so far."""
    path = os.path.join(user.top, "told")
    return user.reads("told").splitlines() if os.path.exists(path) else []


def folder_of_files(user: User) -> None:
    user.does(f"mkdir files; for i in $(seq {FILES}); do printf 'n: %s\\n' $i > files/f$i.yaml; done")
    user.does("confstorectl import s '{file}' --from yaml --dir files")
    assert len(user.does("confstore names s").splitlines()) == FILES + 1 and user.value("/n", "f7") == "7"
    assert len(user.does("confstore log s").splitlines()) == 2
    user.does("printf 'a: [\\n' > files/bad.yaml")
    assert user.runs("confstorectl import s 'x-{file}' --from yaml --dir files").returncode == 1
    assert len(user.does("confstore log s").splitlines()) == 2


def editor(user: User) -> None:
    user.does("EDITOR='sed -i s/80/81/' confstorectl edit s web")
    assert user.value("/port") == "81"
    breaks, mends = 'touch broken; echo "a: [" > "$1"', 'printf "port: 82\\n" > "$1"'
    user.writes("ed.sh", f"if [ -e broken ]; then {mends}; else {breaks}; fi\n")
    user.does("EDITOR='sh ed.sh' confstorectl edit s web")
    assert user.value("") == {"port": "82"}


def typical_texts(user: User) -> None:
    """Ten of twelve texts of other programs go in; the two templates are refused, which says that they are such."""
    for number, typical in enumerate(TYPICAL):
        user.writes("text.yaml", typical.text)
        words = f"confstorectl import s t{number} text.yaml {' '.join(typical.options)}"
        if typical.places is None:
            assert "template" in (done := user.runs(words)).stderr and done.returncode == 1, f"{words}: {done.stderr}"
            continue
        user.does(words)
        for pointer, wanted in typical.places.items():
            found = user.value(pointer, f"t{number}")
            assert found == wanted, f"{typical.name}: {pointer} is {found!r}, and not {wanted!r}"


def missing_parents(user: User) -> None:
    user.does("confstore set s web /tls/server/cert /etc/cert.pem --parents")
    user.does("confstorectl set s web /log/file/name n --parents")
    assert user.value("/tls") == {"server": {"cert": "/etc/cert.pem"}} and user.value("/log") == {"file": {"name": "n"}}
    user.is_refused("confstorectl set s new /a/b c --parents", "NoConfig")


def into_a_list(user: User) -> None:
    user.does("confstore set s web /hosts/1 between --insert; confstorectl set s web /hosts/0 first --insert")
    assert user.value("/hosts") == ["first", "a", "between", "b"]


def to_another_key(user: User) -> None:
    """A value gets another key, in one command."""
    user.does("confstore move s web /port /number; confstorectl move s web /hosts/0 /hosts/-")
    assert user.value("") == {"hosts": ["b", "a"], "number": "80"}
    user.is_refused("confstore move s web /hosts/0 /number --if-absent", "Unmet")


def dry_run(user: User) -> None:
    shown = user.does("confstorectl set s web /port 81 --dry-run")
    assert '\n-port: "80"\n+port: "81"\n' in shown and user.value("/port") == "80"
    user.is_refused("confstorectl set s web /none/x 81 --dry-run", "NoSuchPlace")


def through_a_server(user: User) -> None:
    """The same words while a server holds the store."""
    server = os.path.join(TOP, "clients", "serve.py")
    words = [sys.executable, server, "s/confstore.sock", "s"]
    with subprocess.Popen(words, cwd=user.top, env=user.environment) as process:
        try:
            user.does("until [ -S s/confstore.sock ]; do sleep 0.05; done")
            user.does("confstorectl set s web /port 81 --if-value 80")
            user.does("EDITOR='sed -i s/81/82/' confstorectl edit s web; confstorectl copy s web old")
            assert user.does("confstorectl get s old /port --raw") == "82\n"
        finally:
            process.terminate()


class Task(NamedTuple):
    """A task, how it is done, and what does it."""

    name: str
    how: str
    does: Callable[[User], None]


TASKS = [
    Task("guarded change", "`--if-value`", guarded_change),
    Task("move between hosts", "`backup` and tar", between_hosts),
    Task("500 keys at once", "`batch`", many_keys),
    Task("compare-and-set from 8 shells", "`--if-value`, `--wait`", from_many_shells),
    Task("8 changes side by side", "`--wait`", eight_at_once),
    Task("roll back one configuration", "`get --at`, `import --if-count`", roll_back),
    Task("the same by a word", "`confstorectl rollback`", roll_back_by_a_word),
    Task("undo", "`confstorectl undo`", undo),
    Task("what changed between two numbers", "`diff`, `confstorectl diff --lines`", what_changed),
    Task("what changed of one configuration", "`log NAME --from N`", log_of_one),
    Task("several values at once", "`get` of several pointers", several_values),
    Task("files of other formats are refused", "`import`", other_formats),
    Task("a folder that the store is to be like", "`confstorectl sync`, `export --all`", folder_as_it_is),
    Task("all files", "`export --all`", all_files),
    Task("a secret out of arguments and logs", "`set --file -`, `log --hide`, `page --hide`", secret),
    Task("render a file, and reload", "`confstorectl render .. -- COMMAND`", render),
    Task("variables for sh", "`confstorectl get --env`, `render`, `| sh`", environment),
    Task("validate before a change", "`confstorectl --check COMMAND`", validate),
    Task("a dry run", "`confstorectl .. --dry-run`", dry_run),
    Task("a new key below a missing parent", "`set --parents`", missing_parents),
    Task("put into the middle of a list", "`set --insert`", into_a_list),
    Task("another key for a value", "`move`", to_another_key),
    Task("a command for each change", "`confstorectl watch .. -- COMMAND`", notify),
    Task("a folder of 163 files", "`confstorectl import --dir`", folder_of_files),
    Task("edit in $EDITOR", "`confstorectl edit`", editor),
    Task("12 texts of other programs", "`confstorectl import --from yaml`", typical_texts),
    Task("the same words at a server", "`confstorectl`", through_a_server),
]

# What no word does yet, each with a word of confstore, or an option of one, that would.
LEFT = {
    "who, when, why": ("set", "--about"),
}


def is_there(word: str, option: str) -> bool:
    """Whether confstore has a word, or a word this option."""
    words = {line.split()[0] for line in help_of(PROGRAM, "--help").splitlines() if line.startswith("  ")}
    return word in words and option in help_of(PROGRAM, "help", word)


def main() -> int:
    need_program()
    failures = Failures()
    for task in TASKS:
        began = time.monotonic()
        with tempfile.TemporaryDirectory() as top:
            try:
                task.does(User(top))
                score = "done"
            except (AssertionError, subprocess.TimeoutExpired) as error:
                score = f"not done: {error}".strip()
        failures.expect(task.name, score, "done")
        print(f"{score:5}| {task.name} | {task.how} | {time.monotonic() - began:.1f} s", flush=True)
    for name, (word, option) in LEFT.items():
        what = f"`{word} {option}`".replace(" `", "`")
        score = "done by a new word: write it as a task" if is_there(word, option) else "left"
        failures.expect(name, score, "left")
        print(f"{score:5}| {name} | {what}")
    return failures.report()


if __name__ == "__main__":
    sys.exit(main())
