#!/usr/bin/env python3
"""Others lock, leave or exchange what lies in a folder, or a file of it is hidden, and the program does no harm.

- A user who can only read a folder can't open its `store.lock`. What root leaves there doesn't shut the owner out, and
  a `store.lock` of another user, as older versions left it, is replaced; one that a run has marked stays.
- An access list of a folder keeps others out of a store through checkpoints and `format -i`, as `docs/DISK.md` says.
- `format -i` on a file of a folder that is exchanged with a link to another folder before any of its calls: no file of
  that folder is replaced or left over, and none has another owner.
- Each call that opens or looks at a file of a store says falsely that it is not there, once or from then on: no store
  is made over the one that is there, and what was acknowledged is held.
- A word that is refused makes nothing: a folder without a store stays empty, one with a store gets no `store.lock`, and
  a `salvage` leaves no new folder. Beside a run that makes the store at the same moment a change is refused, and does
  no harm.
- A store that is salvaged has the owner, the group and the mode of the damaged one.
- `init` syncs the folder above, also where its own folder is there.

The library that lets calls go wrong is shims/fail_calls.c. Run it from the repository's root after the program is
built; run as root it tries more. It takes a minute at most, and needs a C compiler:

    ./prove && python3 checks/hostile_folders.py

The status is 0 if all is as it should be.
"""

import errno
import fcntl
import os
import pwd
import shutil
import stat
import subprocess
import sys
import tempfile
from pathlib import Path

from lib.store_runs import EMPTY, IMPORT, PROGRAM, Failures, compiled, need_program

SECONDS = 60
NOBODY = "nobody"
OUTSIDER = "daemon"

# A store with `a`, which is `x`; a session that changes it twice, and what it holds after each change.
STORE = EMPTY + IMPORT
COMMANDS = b'set: a\npath: ""\nvalue: p\n...\ncheckpoint:\n...\nset: a\npath: ""\nvalue: q\n...\n'
VALUES = ["x\n", "p\n", "q\n"]

# How many stores are made beside changes.
BESIDE = 20


def run(program: str, *words: str, commands: bytes = b"", user: str | None = None, **env: str) -> tuple[int, str]:
    """The program: its status, and what it wrote."""
    done = subprocess.run([program, *words], input=commands, capture_output=True, check=False, timeout=SECONDS,
                          user=user, group=user and pwd.getpwnam(user).pw_gid, extra_groups=[] if user else None,
                          env={**os.environ, **env})
    return done.returncode, done.stdout.decode()


def new_store(top: Path, name: str) -> Path:
    folder = top / name
    folder.mkdir()
    (folder / "store.yaml").write_bytes(STORE)
    return folder


def change(program: str, folder: Path, value: str, user: str | None = None) -> int:
    """The status of a change of `a`."""
    return run(program, "set", "--whole", str(folder), "a", "", value, user=user)[0]


def value_of(folder: Path) -> str:
    return run(PROGRAM, "get", str(folder), "a")[1]


def lock_modes(top: Path, failures: Failures) -> None:
    """Who may open `store.lock`: those who may write the folder or the store."""
    rows = [
        (0o755, 0o644, 0o600), (0o775, 0o644, 0o660), (0o755, 0o664, 0o660), (0o777, 0o666, 0o666),
        (0o700, 0o606, 0o606),
    ]
    for of_folder, of_store, wanted in rows:
        for left in (None, 0o644, 0o600):
            folder = new_store(top, f"{of_folder:o} {of_store:o} {left}")
            (folder / "store.yaml").chmod(of_store)
            folder.chmod(of_folder)
            lock = folder / "store.lock"
            if left:
                lock.touch()
                lock.chmod(left)
            for turn in ("first", "second"):
                failures.expect(f"{folder.name}: the {turn} run", change(PROGRAM, folder, "p"), 0)
            failures.expect(f"{folder.name}: mode", stat.S_IMODE(lock.stat().st_mode) & 0o777, wanted)


def locks_of_others(top: Path, failures: Failures) -> None:
    """Root and `nobody` in turn in a folder of `nobody`, and `nobody` before a folder of root."""
    program = shutil.copy(PROGRAM, top / "confstore")
    top.chmod(0o755)
    nobody = pwd.getpwnam(NOBODY)
    for left in ("root's run", "an old version"):
        folder = new_store(top, f"left by {left}")
        for path in (folder, folder / "store.yaml"):
            os.chown(path, nobody.pw_uid, nobody.pw_gid)
        if left == "root's run":
            failures.expect("a run of root", run(program, "get", str(folder), "a"), (0, "x\n"))
            failures.expect("a change of root", change(program, folder, "p"), 0)
        else:
            (folder / "store.lock").touch(0o644)
        failures.expect(f"the owner after {left}", change(program, folder, "q", user=NOBODY), 0)
        failures.expect(f"the owner of store.lock after {left}", (folder / "store.lock").stat().st_uid, nobody.pw_uid)
    folder = new_store(top, "with another's marked lock")
    for path in (folder, folder / "store.yaml"):
        os.chown(path, nobody.pw_uid, nobody.pw_gid)
    lock = folder / "store.lock"
    lock.touch()
    lock.chmod(0o1600)
    number = lock.stat().st_ino
    failures.expect("a change beside another's marked lock", change(program, folder, "q", user=NOBODY), 3)
    failures.expect("another's marked lock stays", lock.stat().st_ino, number)
    folder = new_store(top, "of root")
    change(program, folder, "p")
    opened = subprocess.run(["cat", str(folder / "store.lock")], user=NOBODY, capture_output=True, check=False)
    failures.expect("a reader opens store.lock", opened.returncode, 1)
    failures.expect("a reader changes the store", change(program, folder, "r", user=NOBODY), 3)
    failures.expect("a reader exports", run(program, "export", str(folder), "a", user=NOBODY), (0, "p\n"))
    held = os.open(folder, os.O_RDONLY)
    fcntl.flock(held, fcntl.LOCK_SH)
    failures.expect("a change beside a reader's lock", change(program, folder, "q"), 0)
    os.close(held)


def lists_of_a_folder(top: Path, failures: Failures) -> None:
    """A folder whose list lets `nobody` in, and not `daemon`: with files that all may read and write, or with a default
    list, which goes to each new file."""
    for way in ("files for all", "a default list"):
        folder = new_store(top, f"with a list and {way}")
        (folder / "x.yaml").write_text("a:   1\n")
        folder.chmod(0o700)
        lists = [("-m", f"u:{NOBODY}:rwx,g::---", folder)]
        files = [folder / "store.yaml", folder / "x.yaml"]
        if way == "a default list":
            entries = f"u:{NOBODY}:rw,g::---,o::---"
            lists += [("-dm", entries, folder), *(("-m", entries, file) for file in files)]
        for how, entries, path in lists:
            subprocess.run(["setfacl", how, entries, str(path)], check=True, timeout=SECONDS)
        for file in files:
            file.chmod(0o666 if way == "files for all" else 0o660)
        try_list(folder, str(top / "confstore"), way, failures)


def try_list(folder: Path, program: str, way: str, failures: Failures) -> None:
    """`nobody` may change the store, and `daemon` may not read it, also after its files were replaced."""
    ways = (("nothing",), ("checkpoint", str(folder)), ("format", "-i", str(folder / "x.yaml")))
    for number, words in enumerate(ways):
        name = f"{way}, after {words[0]}"
        if number:
            failures.expect(f"{name}: the status", run(program, *words)[0], 0)
        for file in ("store.yaml", "x.yaml"):
            for user, wanted in ((OUTSIDER, 1), (NOBODY, 0)):
                read = subprocess.run(["cat", str(folder / file)], user=user, group=pwd.getpwnam(user).pw_gid,
                                      extra_groups=[], capture_output=True, check=False)
                failures.expect(f"{name}: {user} reads {file}", read.returncode, wanted)
        changed = change(program, folder, "p", user=NOBODY)
        failures.expect(f"{name}: {NOBODY} changes the store", changed, 0)


def calls(library: str, log: Path, *words: str, commands: bytes = b"") -> int:
    """How many calls the program makes."""
    run(PROGRAM, *words, commands=commands, LD_PRELOAD=library, FAULT_LOG=str(log))
    count = len(log.read_text().splitlines())
    log.unlink()
    return count


def exchanged_folders(top: Path, library: str, failures: Failures) -> None:
    """`format -i` on a file in a folder that is exchanged with a link to another folder before one of its calls."""
    theirs, mine, link = top / "theirs", top / "mine", top / "link"
    theirs.mkdir()
    link.symlink_to(theirs)
    mine.mkdir()
    (mine / "x.yaml").write_text("by:   an attacker\n")
    count = calls(library, top / "log", "format", "-i", str(mine / "x.yaml"))
    for number in range(1, count + 1):
        (mine / "x.yaml").write_text("by:   an attacker\n")
        (theirs / "x.yaml").write_text("theirs:   1\n")
        run(PROGRAM, "format", "-i", str(mine / "x.yaml"), LD_PRELOAD=library, FAULT_CALL=str(number),
            FAULT_SWAP=str(mine), FAULT_WITH=str(link))
        if mine.is_symlink():
            mine.rename(top / "other")
            link.rename(mine)
            (top / "other").rename(link)
        found = (theirs / "x.yaml").read_text()
        name = f"exchanged before call {number} of {count}"
        failures.expect(f"{name}: {found!r}", found in ("theirs:   1\n", 'theirs: "1"\n'), True)
        failures.expect(f"{name}: files", sorted(os.listdir(theirs)), ["x.yaml"])
        for left in mine.glob(".confstore-*"):
            failures.expect(f"{name}: left over", left.name, None)
            left.unlink()
    print(f"  {count} calls of format -i with another folder in the place of the first")


def hidden_files(top: Path, library: str, failures: Failures) -> None:
    """A file of a store is said not to be there, by one call or by each from then on."""
    tried = 0
    once_or_always: list[dict[str, str]] = [{"FAULT_TIMES": "1"}, {}]
    for words in (("run",), ("init",)):
        count = calls(library, top / "log", *words, str(new_store(top, f"{words[0]}, plain")), commands=COMMANDS)
        for file in ("store.yaml", "next.yaml", "store.lock"):
            for number in range(1, count + 1):
                for often in once_or_always:
                    name = f"{words[0]}, {file} hidden from call {number}{' once' if often else ''}"
                    folder = new_store(top, name)
                    status, output = run(PROGRAM, *words, str(folder), commands=COMMANDS, LD_PRELOAD=library,
                                         FAULT_CALL=str(number), FAULT_HIDE=file,
                                         FAULT_ERROR=str(errno.ENOENT), **often)
                    least = sum(f'ok: "{at}"' in output for at in ("2", "3"))
                    allowed = (0, 3) if words == ("run",) else (1, 3)
                    failures.expect(f"{name}: the status {status}", status in allowed, True)
                    failures.expect(f"{name}: the value {value_of(folder)!r}", value_of(folder) in VALUES[least:], True)
                    shutil.rmtree(folder)
                    tried += 1
    print(f"  {tried} files hidden")


def ending(*words: str) -> tuple[int, str]:
    """The status of the program, and the first line that it wrote to standard error."""
    done = subprocess.run([PROGRAM, *words], input=b"", capture_output=True, check=False, timeout=SECONDS)
    return done.returncode, done.stderr.decode().partition("\n")[0]


def contents(folder: Path) -> dict[str, bytes] | None:
    """The files of a folder, or None if it is not there."""
    return {path.name: path.read_bytes() for path in folder.iterdir()} if folder.is_dir() else None


def refused_words(top: Path, failures: Failures) -> None:
    """Words that are refused, each in a folder of its own, which stays as it was."""
    text = top / "x.yaml"
    text.write_text("x: y\n")
    changes = {"set": ("a", "/k", "v"), "delete": ("a", "/k"), "checkpoint": (), "import": ("a", str(text))}
    lefts: tuple[dict[str, bytes], ...] = ({}, {"next.yaml": STORE})
    rows = [(word, rest, files, "NotAStore") for word, rest in changes.items() for files in lefts]
    rows.append(("init", (), {"store.yaml": STORE}, "StoreExists"))
    for number, (word, rest, files, fault) in enumerate(rows):
        folder = top / f"refused {number}"
        folder.mkdir()
        for file, content in files.items():
            (folder / file).write_bytes(content)
        name = f"{word} over {sorted(files)}"
        failures.expect(name, ending(word, str(folder), *rest), (1, f"confstore: {fault}"))
        failures.expect(f"{name}: what is left", contents(folder), files)


def refused_salvages(top: Path, failures: Failures) -> None:
    """A salvage of what is no store, or to where a store is: no new folder, and no file in one that was there."""
    damaged = STORE + STORE
    olds: tuple[dict[str, bytes], ...] = ({}, {"store.yaml": b"no store"}, {"store.yaml": b""}, {"store.yaml": damaged})
    news: tuple[dict[str, bytes] | None, ...] = (None, {}, {"store.yaml": STORE})
    for number, (files, before) in enumerate((old, new) for old in olds for new in news):
        folder, new = top / f"old {number}", top / f"new {number}"
        for path, content in ((folder, files), (new, before)):
            for file, held in (content or {}).items():
                path.mkdir()
                (path / file).write_bytes(held)
            if content == {}:
                path.mkdir()
        is_saved = files.get("store.yaml") == damaged and not before
        fault = "StoreExists" if files and before else "NotAStore"
        name = f"a salvage of {files} to {before}"
        wanted = (0, "") if is_saved else (1, f"confstore: {fault}")
        failures.expect(name, ending("salvage", str(folder), str(new)), wanted)
        if is_saved:
            failures.expect(f"{name}: what is saved", value_of(new), "x\n")
        else:
            failures.expect(f"{name}: what is left", contents(new), before)
        failures.expect(f"{name}: the old folder", contents(folder), files)


def owners_of_saved_stores(top: Path, failures: Failures) -> None:
    """A salvaged store takes after the damaged one: the mode, and for root the owner and the group."""
    nobody = pwd.getpwnam(NOBODY)
    owners = [(os.geteuid(), os.getegid())] + ([(nobody.pw_uid, nobody.pw_gid)] if os.geteuid() == 0 else [])
    for owner in owners:
        for mode in (0o600, 0o640, 0o644, 0o664):
            folder, new = new_store(top, f"damaged {owner} {mode:o}"), top / f"saved {owner} {mode:o}"
            old = folder / "store.yaml"
            old.write_bytes(STORE + STORE)
            os.chown(old, *owner)
            old.chmod(mode)
            failures.expect(f"{new.name}: status", run(PROGRAM, "salvage", str(folder), str(new))[0], 0)
            found = (new / "store.yaml").stat()
            failures.expect(new.name, (found.st_uid, found.st_gid, stat.S_IMODE(found.st_mode)), (*owner, mode))


def changes_beside_new_stores(top: Path, failures: Failures) -> None:
    """Changes beside a run that makes the store: each is refused, since there is no store yet or the run holds it."""
    refusals = {"confstore: NotAStore", "confstore: Locked"}
    for number in range(BESIDE):
        folder = top / f"beside {number}"
        folder.mkdir()
        making = subprocess.Popen([PROGRAM, "run", str(folder)], stdin=subprocess.PIPE, stdout=subprocess.PIPE)
        words = ["set", "--whole", str(folder), "a", "", "p"]
        changes = [subprocess.Popen([PROGRAM, *words], stderr=subprocess.PIPE, text=True) for _ in range(4)]
        said = [change.communicate(timeout=SECONDS)[1].partition("\n")[0] for change in changes]
        failures.expect(f"{folder.name}: {said}", set(said) <= refusals, True)
        answer, _ = making.communicate(b'import: a\ntext: "x"\n...\n', timeout=SECONDS)
        failures.expect(f"{folder.name}: the run", (making.returncode, answer), (0, b'---\nok: "1"\n...\n'))
        failures.expect(f"{folder.name}: the value", value_of(folder), "x\n")


def syncs_of_init(top: Path, library: str, failures: Failures) -> None:
    """`init` syncs the folder above its own one, whether it makes that or finds it."""
    for way in ("made", "found"):
        folder, log = top / way, top / "syncs"
        if way == "found":
            folder.mkdir()
        run(PROGRAM, "init", str(folder), LD_PRELOAD=library, FAULT_LOG=str(log))
        synced = [line.split(" ")[1] for line in log.read_text().splitlines() if line.startswith("fsync ")]
        failures.expect(f"the first sync of init, its folder {way}", synced[:1], [top.name])
        log.unlink()


def main() -> int:
    need_program()
    failures = Failures()
    with tempfile.TemporaryDirectory() as name:
        top = Path(name)
        library = compiled("fail_calls.c", name)
        refused_words(top, failures)
        refused_salvages(top, failures)
        owners_of_saved_stores(top, failures)
        changes_beside_new_stores(top, failures)
        syncs_of_init(top, library, failures)
        lock_modes(top, failures)
        if os.geteuid() == 0:
            locks_of_others(top, failures)
            if shutil.which("setfacl"):
                lists_of_a_folder(top, failures)
        exchanged_folders(top, library, failures)
        hidden_files(top, library, failures)
    return failures.report()


if __name__ == "__main__":
    sys.exit(main())
