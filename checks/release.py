#!/usr/bin/env python3
"""Tries ./confstore, ./prove, packaging/release.sh, packaging/wheel.sh and checks/released.sh in copies of the
repository.

No hour of proof is needed: in the copies, most of which have a few of the crates alone, an `rt` stands first on the
PATH that proves nothing, and "builds" a program that is given. The release is made of that program by the copy's own
scripts, and is then damaged, made to disagree with the sources, or put where others could have changed it, in each way
that the scripts have to notice. A library under the programs that look at files says that one is another user's
(shims/other_owner.c), so root is not needed; a few things are only tried as root. Any program will do:

    ./prove && python3 checks/release.py

The environment's CONFSTORE names another program. It needs xz; what needs cc is left out where that isn't there, with a
line that says so. The last line is 'N passed, M failed', of expectations; the status is 0 if M is 0.
"""

from __future__ import annotations

import os
import re
import resource
import shutil
import subprocess
import sys
import tempfile
import time
from pathlib import Path

from lib.store_runs import PROGRAM, TOP, Failures, compiled, need_program

# The rt of the copies: its identity, its runs and what it "builds" come from the environment.
RT = """#!/bin/sh
echo "rt $*" >>"$RT_LOG"
case $1 in
version) echo "$RT_IDENTITY" ;;
lib) [ -z "${RT_FAILS:-}" ] || { echo "not proved: $RT_FAILS"; exit 1; }
     mkdir -p out/rlib && echo built >out/rlib/stamp ;;
run) mkdir -p out && cp "$RT_PROGRAM" out/confstore ;;
*) exit 9 ;;
esac
"""
TEXT = b'host: "example"\nport: 8080\n'
FORMATTED = b'host: example\nport: "8080"\n'
# A file of the program's code, one of its definitions, one of a proof, and one of a crate beside the program.
CODE = "crates/conf_words/src/words.rt"
DEFINITIONS = "crates/conf_state/specs/Commands.antt"
PROOF = next(path for path in sorted(Path(TOP, "crates/conf_state/proofs").rglob("*.antt"))).relative_to(TOP)
BESIDE = "crates/text_probe/src/main.rt"
# The crates of most copies. The last one is beside the program.
FEW = "confstore: conf_words conf_state\nconf_words:\nconf_state:\ntext_probe: conf_words\n"
# What a start may take of processors more than the program, and what a first start may take, in starts of bash, which
# measure how busy the machine is. A start takes some four, and fifty where it reads all sources; a first one some 300.
MOST_COST = 9
MOST_FIRST = 1_000
# How long a command may take, in seconds: a slow and busy machine packs an archive for minutes.
HANGS = 1_800
# A user who is neither root nor, it is to be hoped, the one who runs this.
OTHER_USER = 65_533

Run = subprocess.CompletedProcess[bytes]


class Scene:
    """A folder for copies of the repository, with a program and an rt."""

    def __init__(self, folder: str) -> None:
        self.folder = Path(folder)
        self.count = 0
        self.program = self.folder / "program"
        shutil.copy2(PROGRAM, self.program)
        # Smaller, if it was built to be looked into.
        subprocess.run(["strip", str(self.program)], check=False, capture_output=True)
        rt = self.folder / "bin" / "rt"
        rt.parent.mkdir()
        rt.write_text(RT, encoding="utf-8")
        rt.chmod(0o755)
        self.environment = {
            **{name: value for name, value in os.environ.items() if name != "CONFSTORE"},
            "PATH": f"{rt.parent}:{os.environ['PATH']}",
            "HOME": str(self.folder / "home"),
            "RT_LOG": str(self.folder / "log"),
            "RT_IDENTITY": "a toolchain",
            "RT_PROGRAM": str(self.program),
        }
        self.environment.pop("XDG_CACHE_HOME", None)

    def copy(self, source: Path, crates: set[str] | None = None) -> Path:
        """A copy of the repository as a clone would have it: without what was made there, all files new."""
        self.count += 1
        target = self.folder / f"copy{self.count}"
        skipped = shutil.ignore_patterns("out", ".git", "__pycache__", "must-fail*", ".mypy_cache")

        def left_out(folder: str, names: list[str]) -> set[str]:
            others = set(names) - crates if crates is not None and folder == str(source / "crates") else set()
            return skipped(folder, names) | others

        shutil.copytree(source, target, ignore=left_out, copy_function=shutil.copy)
        return target

    def small_copy(self) -> Path:
        """A copy with a few of the crates."""
        target = self.copy(Path(TOP), {line.split(":")[0] for line in FEW.splitlines()})
        (target / "crates.txt").write_text(FEW, encoding="utf-8")
        return target

    def run(self, words: list[str | Path], text: bytes = b"", **settings: str) -> Run:
        environment = {**self.environment, **settings}
        return subprocess.run(words, input=text, capture_output=True, check=False, env=environment, timeout=HANGS)

    def format(self, copy: Path, **settings: str) -> Run:
        return self.run([copy / "confstore", "format"], TEXT, **settings)

    def script(self, name: str, text: str) -> Path:
        """A program in shell."""
        path = self.folder / name
        path.parent.mkdir(exist_ok=True)
        path.write_text(f"#!/bin/sh\n{text}\n", encoding="utf-8")
        path.chmod(0o755)
        return path

    def nothing(self) -> Path:
        """A script of bash that does nothing."""
        path = self.folder / "nothing"
        path.write_text("#!/usr/bin/env bash\n", encoding="utf-8")
        path.chmod(0o755)
        return path

    def was_proving(self) -> bool:
        """Whether rt was asked to prove since this was last asked."""
        log = self.folder / "log"
        runs = log.read_text(encoding="utf-8") if log.exists() else ""
        log.unlink(missing_ok=True)
        return "rt lib" in runs

    def old(self, *copies: Path) -> None:
        """Waits until the files are old enough for a stamp, and has one made in each copy."""
        for copy in copies:
            self.format(copy)
        time.sleep(3.1)
        for copy in copies:
            self.format(copy)


def change(path: Path, at: int = -2) -> None:
    """Changes one byte of a file, and puts its time back."""
    known = path.stat()
    content = bytearray(path.read_bytes())
    content[at] ^= 1
    path.write_bytes(content)
    os.utime(path, ns=(known.st_atime_ns, known.st_mtime_ns))


def replace(path: Path, old: str, new: str) -> None:
    """Changes a text in a file, and puts its time back."""
    known = path.stat()
    path.write_text(path.read_text(encoding="utf-8").replace(old, new), encoding="utf-8")
    os.utime(path, ns=(known.st_atime_ns, known.st_mtime_ns))


def lines_of(run: Run) -> list[str]:
    return run.stderr.decode().splitlines()


def unpacked(copy: Path) -> Path:
    return next((copy / "out").glob("released-*/bin/confstore"))


def archive_of(copy: Path) -> Path:
    return next((copy / "release").glob("*.tar.xz"))


def wheel_of(copy: Path) -> Path:
    return next((copy / "release").glob("*.whl"))


def try_making(scene: Scene, failures: Failures) -> Path:
    """./prove, packaging/release.sh, packaging/wheel.sh and checks/released.sh. Returns a copy with a release that is whole."""
    copy = scene.small_copy()
    shutil.rmtree(copy / "release", ignore_errors=True)
    proved = scene.run([copy / "prove"])
    failures.expect("./prove: status", proved.returncode, 0)
    failures.expect("./prove without a release", "no release is here to compare it with" in proved.stderr.decode(), True)
    failures.expect("./prove names what runs", re.search(r"2 of 3 crates .*now confstore \d+ s", proved.stderr.decode()) is not None, True)
    failures.expect("./prove leaves nothing behind", (copy / "out" / "proof").exists(), False)
    failures.expect("no release: checks/released.sh", scene.run([copy / "checks/released.sh"]).returncode, 1)
    makers = [copy / "packaging/release.sh", copy / "packaging/wheel.sh"]
    for maker in makers:
        made = scene.run([maker])
        failures.expect(maker.name, (made.returncode, made.stderr), (0, b""))
    first = {path.name: path.read_bytes() for path in (copy / "release").iterdir()}
    time.sleep(1.1)
    (copy / "python/confstore/store.py").touch()
    for maker in makers:
        scene.run(["bash", "-c", f"umask 077; {maker}"], LC_ALL="C.UTF-8", TZ="Asia/Tokyo")
    again = {path.name: path.read_bytes() for path in (copy / "release").iterdir()}
    kinds = sorted(name.rpartition(".")[2] for name in first)
    failures.expect("what is in the release", kinds, ["manifest", "whl", "xz"])
    failures.expect("the same is made twice", again == first, True)
    failures.expect("the manifest is in the one style", scene.run([PROGRAM, "check", copy / "release/manifest"]).stdout, b"")
    said = scene.run([copy / "prove"]).stderr.decode()
    failures.expect("./prove knows the released program", "bit for bit" in said, True)
    same = scene.run([copy / "checks/released.sh"])
    failures.expect("checks/released.sh on a whole release", (same.returncode, same.stdout), (0, b""))
    return copy


class Looks:
    """Copies of a release, and what the gate's look says of each."""

    def __init__(self, scene: Scene, whole: Path, failures: Failures) -> None:
        self.scene, self.whole, self.failures = scene, whole, failures

    def look(self, name: str, copy: Path, wanted: str) -> None:
        found = self.scene.run([copy / "checks/released.sh"])
        self.failures.expect(f"the gate's look, {name}", found.returncode, 1)
        said = (found.stdout + found.stderr).decode()
        self.failures.expect(f"the gate's look, {name}, says it", wanted in said, True)

    def proved_copy(self, program: "Path | None" = None) -> Path:
        copy = self.scene.copy(self.whole)
        self.scene.run([copy / "prove"], RT_PROGRAM=str(program or self.scene.program))
        return copy

    def changed_copy(self, name: str) -> Path:
        """A copy that was proved, of which a file was changed then."""
        copy = self.proved_copy()
        change(copy / name)
        return copy


def try_comparing(scene: Scene, whole: Path, failures: Failures) -> None:
    """What the gate's look and ./prove say of a release that the sources don't give."""
    looks = Looks(scene, whole, failures)
    compare_programs(looks)
    compare_sources(looks)
    compare_wheels(looks)


def compare_programs(looks: Looks) -> None:
    """Another program, and another toolchain."""
    scene, failures = looks.scene, looks.failures
    other = scene.folder / "other"
    shutil.copy2(scene.program, other)
    with other.open("ab") as program:
        program.write(b"\0")
    copy = looks.proved_copy(other)
    looks.look("another program", copy, "the released program isn't the one that was proved here")
    said = scene.run([copy / "prove"], RT_PROGRAM=str(other)).stderr.decode()
    failures.expect("./prove with another program", "it is NOT the released program" in said, True)
    again = scene.run([copy / "checks/released.sh"], RT_IDENTITY="another toolchain")
    failures.expect("the gate's look with another toolchain", again.returncode, 0)
    failures.expect("and what it says", b"the program wasn't compared" in again.stdout, True)
    said = scene.run([copy / "prove"], RT_IDENTITY="another toolchain").stderr.decode()
    failures.expect("./prove with another toolchain", "nothing was compared" in said, True)


def compare_sources(looks: Looks) -> None:
    """Other sources, proofs, pages and archives."""
    scene, failures = looks.scene, looks.failures
    copy = scene.copy(looks.whole)
    change(copy / CODE)
    said = scene.run([copy / "prove"]).stderr.decode()
    failures.expect("./prove with other sources", "made of other sources: nothing was compared" in said, True)
    looks.look("another source", copy, "run packaging/release.sh, and commit release/")
    copy = scene.copy(looks.whole)
    change(copy / PROOF)
    scene.run([copy / "prove"])
    looks.look("another proof", copy, "proofs_sha256")
    copy = looks.proved_copy()
    change(archive_of(copy), 4000)
    looks.look("an archive with another byte", copy, "hasn't the SHA-256 of release/manifest")
    made = "the archive isn't the one that packaging/release.sh makes"
    looks.look("another man page", looks.changed_copy("docs/man/confstore.1"), made)
    copy = looks.proved_copy()
    shutil.copy(archive_of(copy), copy / "release/confstore-0.0.1-linux-x86_64.tar.xz")
    looks.look("an archive of old", copy, "isn't in release/manifest")
    looks.look("a source that changed after the proof", looks.changed_copy(CODE), "run checks/gate.sh first")


def compare_wheels(looks: Looks) -> None:
    """Another package, another wheel, and none."""
    copy = looks.changed_copy("python/confstore/store.py")
    looks.look("another source of the package", copy, "isn't the wheel that packaging/wheel.sh makes")
    copy = looks.proved_copy()
    wheel = wheel_of(copy)
    shutil.copy(wheel, wheel.with_name("confstore-0.0.1-py3-none-any.whl"))
    looks.look("a wheel of old", copy, "confstore-0.0.1-py3-none-any.whl isn't the wheel")
    wheel.unlink()
    looks.look("no wheel", copy, f"release/{wheel.name} is missing")


def try_starts(scene: Scene, whole: Path, failures: Failures) -> None:
    """First and later starts in a copy that nothing was built in."""
    scene.was_proving()
    copy = scene.copy(whole)
    start = processor_time()
    first = scene.format(copy)
    took = processor_time() - start
    failures.expect("first start", (first.returncode, first.stdout), (0, FORMATTED))
    failures.expect("first start: costs little", took < MOST_FIRST * least_costs(scene, [scene.nothing()])[0], True)
    failures.expect("first start: one line", len(lines_of(first)), 1)
    failures.expect("first start: says how to prove it", "./prove" in lines_of(first)[0], True)
    second = scene.format(copy)
    failures.expect("second start", (second.returncode, second.stdout, second.stderr), (0, FORMATTED, b""))
    failures.expect("status and faults are the program's", scene.run([copy / "confstore", "frmat"]).returncode, 2)
    failures.expect("nothing is proved", scene.was_proving(), False)

    elsewhere = scene.folder / "links"
    elsewhere.mkdir()
    (elsewhere / "confstore").symlink_to(copy / "confstore")
    (elsewhere / copy.name).mkdir()
    words: list[str | Path] = ["bash", "-c", f"cd {scene.folder}; CDPATH={elsewhere} bash {copy.name}/confstore format"]
    failures.expect("through a link", scene.run([elsewhere / "confstore", "format"], TEXT).stdout, FORMATTED)
    failures.expect("from another folder", scene.run(words, TEXT).stdout, FORMATTED)
    failures.expect("without a TMPDIR", scene.format(scene.copy(whole), TMPDIR="/nonexistent").stdout, FORMATTED)
    words = ["bash", "-c", f"umask 077; {scene.copy(whole)}/confstore format"]
    failures.expect("with a narrow umask", scene.run(words, TEXT).stdout, FORMATTED)

    crowd = scene.copy(whole)
    runs = [
        subprocess.Popen([crowd / "confstore", "format"], stdin=subprocess.PIPE, stdout=subprocess.PIPE,
                         stderr=subprocess.PIPE, env=scene.environment)
        for _ in range(12)
    ]  # fmt: skip
    ended = [run.communicate(TEXT) for run in runs]
    failures.expect("twelve first starts at once", [output for output, _ in ended], [FORMATTED] * 12)
    failures.expect("of which one unpacks", sum(len(errors.splitlines()) for _, errors in ended), 1)
    left = {path.name[:8] for path in (crowd / "out").iterdir()} - {"stamp"}
    failures.expect("and nothing is left over", left, {"released"})


def try_read_only(scene: Scene, whole: Path, failures: Failures) -> None:
    """A copy that its user may not write in: the program is unpacked among what is the user's own."""
    copy = scene.copy(whole)
    home = scene.folder / "nobody"
    home.mkdir()
    words: list[str | Path] = [copy / "confstore", "format"]
    if os.geteuid() == 0:
        os.chown(home, 65534, 65534)
        scene.folder.chmod(0o755)
        words = ["setpriv", "--reuid=65534", "--regid=65534", "--clear-groups", *words]
    else:
        copy.chmod(0o555)
    found = scene.run(words, TEXT, HOME=str(home))
    failures.expect("a checkout of another's", (found.returncode, found.stdout, len(lines_of(found))), (0, FORMATTED, 1))
    failures.expect("its second start", scene.run(words, TEXT, HOME=str(home)).stderr, b"")
    failures.expect("nothing is written there", (copy / "out").exists(), False)
    for settings in ({"HOME": "/nonexistent"}, {"HOME": ""}, {"HOME": "relative"}):
        found = scene.run(words, TEXT, **settings)
        failures.expect(f"no place to unpack, {settings}", (found.returncode, found.stdout), (4, b""))
    copy.chmod(0o755)


def try_damage(scene: Scene, whole: Path, failures: Failures) -> None:
    """A release that is not what its manifest says is refused by name."""

    def refuse(name: str, copy: Path, wanted: str) -> None:
        found = scene.format(copy)
        failures.expect(f"{name}: refused", (found.returncode, found.stdout), (4, b""))
        failures.expect(f"{name}: said", wanted in found.stderr.decode(), True)

    copy = scene.copy(whole)
    change(archive_of(copy), 4000)
    refuse("a damaged archive", copy, f"{archive_of(copy)} is refused")
    copy = scene.copy(whole)
    archive_of(copy).write_bytes(archive_of(copy).read_bytes()[:5000])
    refuse("half an archive", copy, f"{archive_of(copy)} is refused")
    copy = scene.copy(whole)
    archive_of(copy).unlink()
    refuse("no archive", copy, "is missing")
    copy = scene.copy(whole)
    manifest = copy / "release/manifest"
    manifest.write_text(re.sub("(?m)^program_sha256.*\n", "", manifest.read_text("utf-8")), encoding="utf-8")
    refuse("half a manifest", copy, "release/manifest has no")
    copy = scene.copy(whole)
    manifest = copy / "release/manifest"
    manifest.write_text(re.sub("(?m)^(program_sha256: ).*", r"\g<1>" + "0" * 64, manifest.read_text("utf-8")), encoding="utf-8")
    refuse("another program than the manifest's", copy, "is refused")
    copy = scene.copy(whole)
    scene.old(copy)
    change(unpacked(copy), 5000)
    refuse("a damaged copy", copy, f"{unpacked(copy)} is refused")


# A change of each kind of the program's sources: a file, and a text in it with what takes its place.
OTHER_SOURCES = (
    (CODE, "const VERSION", "const  VERSION"),
    (DEFINITIONS, " ", "  "),
    ("crates.txt", "conf_state:\n", "conf_state: memchr\n"),
)


def try_other_sources(scene: Scene, whole: Path, failures: Failures) -> None:
    """With another source nothing runs, and a line says how to go on; a stamp that was made before changes nothing."""
    scene.was_proving()
    stamped = [scene.copy(whole) for _ in OTHER_SOURCES]
    scene.old(*stamped)
    failures.expect("there are stamps", [(copy / "out/stamp").exists() for copy in stamped], [True] * len(stamped))
    for copy, source in zip([*stamped, *(scene.copy(whole) for _ in OTHER_SOURCES)], [*OTHER_SOURCES, *OTHER_SOURCES]):
        case = f"{source[0]} changed, {'one with a stamp' if copy in stamped else 'a new checkout'}"
        replace(copy / source[0], *source[1:])
        found = scene.format(copy)
        failures.expect(f"{case}: nothing runs", (found.returncode, found.stdout, scene.was_proving()), (4, b"", False))
        failures.expect(f"{case}: one line", len(lines_of(found)), 1)
        why = f"confstore: the sources here aren't those of the released program: {copy}/prove proves and builds"
        failures.expect(f"{case}: says why", lines_of(found)[0].startswith(why), True)
        failures.expect(f"{case}: the released one runs", try_the_remedy(scene, lines_of(found)[0]), FORMATTED)
        scene.run([copy / "prove"])
        failures.expect(f"{case}: proved", (scene.was_proving(), scene.format(copy).stdout), (True, FORMATTED))
    replace(copy / "crates.txt", "conf_state: memchr\n", "conf_state:\n")
    failures.expect("a change that is taken back", (scene.format(copy).stdout, scene.was_proving()), (FORMATTED, False))
    shutil.rmtree(copy / "release")
    change(copy / CODE)
    said = lines_of(scene.format(copy))[0]
    failures.expect("no release", said.startswith("confstore: no program is released with"), True)


def try_the_remedy(scene: Scene, line: str) -> bytes:
    """What the released program formats to, which is where this line says, or is unpacked as it says."""
    unpack = re.search(r"; (tar -xf \S+ -C )FOLDER unpacks the released one$", line)
    if unpack is None:
        named = re.search(r"; (\S+) is the released one$", line)
        return scene.run([named[1], "format"], TEXT).stdout if named else b""
    room = Path(tempfile.mkdtemp(dir=scene.folder))
    scene.run(["sh", "-c", unpack[1] + str(room)])
    return b"".join(scene.run([program, "format"], TEXT).stdout for program in room.glob("*/bin/confstore"))


def try_changes(scene: Scene, whole: Path, failures: Failures) -> None:
    """What is no source of the program changes nothing, and what was built here comes first."""
    copy = scene.copy(whole)
    for file in (str(PROOF), BESIDE, "README.md"):
        change(copy / file)
        failures.expect(f"{file} changed", scene.format(copy).stdout, FORMATTED)
    before, more = "text_probe: conf_words\n", "text_probe: conf_words conf_state\nnew_probe:\n"
    for case, old, new in (
        ("another crate is beside the program", before, more),
        ("none is", more, ""),
        ("a comment", "conf_words:\n", "# words\nconf_words:\n"),
    ):
        replace(copy / "crates.txt", old, new)
        failures.expect(f"crates.txt: {case}", scene.format(copy).stdout, FORMATTED)
    built = scene.script("files", 'ls "/proc/$$/fd"')
    scene.run([copy / "prove"], RT_PROGRAM=str(built))
    for case in ("the first start", "one with a stamp"):
        failures.expect(f"open files, {case}", scene.format(copy).stdout, scene.run([built], TEXT).stdout)
        scene.old(copy)
    built = scene.script("script", "echo built here")
    scene.run([copy / "prove"], RT_PROGRAM=str(built))
    failures.expect("what was built here comes first", scene.format(copy).stdout, b"built here\n")
    scene.old(copy)
    failures.expect("and so with a stamp", scene.format(copy).stdout, b"built here\n")
    change(copy / "crates/confstore/out/confstore")
    failures.expect("a built program that changed is not run", scene.format(copy).stdout, FORMATTED)
    change(copy / CODE)
    failed = scene.run([copy / "prove"], RT_FAILS="yaml_chars")
    failures.expect("a proof that fails", failed.returncode, 1)
    failures.expect("a proof that fails: shown", "not proved: yaml_chars" in failed.stderr.decode(), True)
    failures.expect("and what runs then", (scene.format(copy).returncode, scene.format(copy).stdout), (4, b""))
    (scene.folder / "bin/rt").rename(scene.folder / "rt")
    folders = [folder for folder in os.environ["PATH"].split(":") if not os.path.exists(os.path.join(folder, "rt"))]
    alone = scene.run([copy / "prove"], PATH=":".join(folders))
    failures.expect("without a toolchain", (alone.returncode, "no rt is on the PATH" in alone.stderr.decode()), (2, True))
    (scene.folder / "rt").rename(scene.folder / "bin/rt")


class Trust:
    """Starts in a copy in which others may have changed a place."""

    def __init__(self, scene: Scene, copy: Path, failures: Failures, **settings: str) -> None:
        self.scene, self.copy, self.failures, self.settings = scene, copy, failures, settings

    def refuse(self, case: str, path: Path, why: str, **settings: str) -> str:
        """Expects that a place is refused by name. Returns what is said."""
        found = self.scene.format(self.copy, **{**self.settings, **settings})
        said = found.stderr.decode()
        self.failures.expect(f"{case}: refused", (found.returncode, found.stdout), (4, b""))
        is_named = said.startswith(f"confstore: {path} is refused: {why}")
        self.failures.expect(f"{case}: says {path} ({said})", (is_named, said.count("\n")), (True, 1))
        return said

    def run(self, case: str, **settings: str) -> None:
        found = self.scene.format(self.copy, **{**self.settings, **settings})
        self.failures.expect(f"{case}: runs", (found.returncode, found.stdout, found.stderr), (0, FORMATTED, b""))

    def narrow(self, path: Path) -> None:
        """Lets the group, and then all, write at a place. It is refused until what is said was done."""
        for bits in (0o020, 0o002):
            case = f"{path.relative_to(self.scene.folder)} with {bits:o}"
            path.chmod(path.stat().st_mode | bits)
            said = self.refuse(case, path, "others may write there; chmod go-w ")
            remedy = re.search(r"chmod go-w [^,\n]*", said)
            self.scene.run(["sh", "-c", remedy[0] if remedy else "false"])
            self.run(f"{case}, after the remedy")


def try_writers(scene: Scene, whole: Path, failures: Failures) -> None:
    """Places that others may write are refused by name: of the released program, and of one that was built."""
    released, built = scene.copy(whole), scene.copy(whole)
    scene.run([built / "prove"])
    (built / "release").rename(built / "none")
    scene.old(released, built)
    failures.expect("both have a stamp", [(copy / "out/stamp").exists() for copy in (released, built)], [True, True])
    program, made = unpacked(released), built / "crates/confstore/out/confstore"
    trust = Trust(scene, released, failures)
    for path in (*program.parents[:3], program, released / "out/stamp", released / "release/manifest"):
        trust.narrow(path)
    (released / "out/stamp").unlink(missing_ok=True)
    trust.narrow(released / "release")
    trust_in_built = Trust(scene, built, failures)
    for path in (*made.parents[:3], made, built / "out", built / "out/stamp", built / "out/proved"):
        trust_in_built.narrow(path)
    released.chmod(0o775)
    for path in (program, *program.parents[:3], released / "release", released / "release/manifest"):
        path.chmod(path.stat().st_mode | 0o020)
    trust.run("what its group may write in a checkout that the group may write")
    released.chmod(0o777)
    trust.refuse("a checkout that all may write", released, "others may write there; chmod go-w ")


def try_owners(scene: Scene, whole: Path, failures: Failures) -> None:
    """A place of another user's is refused by name, also in a folder where all may write and the sticky bit is set."""
    if shutil.which("cc") is None:
        print("left out: no file was another user's, as cc is not installed")
        return
    scene.environment["LD_PRELOAD"] = compiled("other_owner.c", scene.folder)
    copy = scene.copy(whole)
    scene.old(copy)
    program, trust = unpacked(copy), Trust(scene, copy, failures)
    why = "it belongs to "
    for _ in range(2):
        for path in (program, *program.parents[:3], copy / "out/stamp"):
            trust.refuse("another's", path, why, OTHERS_FILE=str(path), OTHERS_USER=str(OTHER_USER))
            trust.run("root's", OTHERS_FILE=str(path), OTHERS_USER="0")
        (copy / "out").chmod(0o1777)
    trust.run("a sticky folder where all may write")
    (copy / "out/stamp").unlink()
    for path in (copy / "release/manifest", copy / "release"):
        trust.refuse("another's", path, why, OTHERS_FILE=str(path), OTHERS_USER=str(OTHER_USER))
    trust.run("a checkout of another's", OTHERS_FILE=str(copy), OTHERS_USER=str(OTHER_USER))
    del scene.environment["LD_PRELOAD"]


def try_stamps(scene: Scene, whole: Path, failures: Failures) -> None:
    """A stamp names one of the two known programs, by a word. What else it names is not run."""
    evil = scene.script("evil", "echo evil runs")
    copy = scene.copy(whole)
    scene.old(copy)
    trust, stamp = Trust(scene, copy, failures), copy / "out/stamp"
    states = stamp.read_bytes().partition(b"\n")[2]
    state_of_evil = scene.run(["find", evil, "-printf", "%D %i %s %T@ %C@ %p\n"]).stdout
    for name in (f"{evil}", f"released/../../../../{evil}", "built", "", "evil", "released "):
        for more in (b"", state_of_evil):
            stamp.write_bytes(name.encode() + b"\n" + states + more)
            found = scene.format(copy)
            failures.expect(f"a stamp that names {name!r}", (found.stdout, found.stderr), (FORMATTED, b""))
            stamp.chmod(0o666)
            trust.refuse(f"one that others may write and names {name!r}", stamp, "others may write there; chmod go-w")
            stamp.unlink(missing_ok=True)


def try_exchange(scene: Scene, whole: Path, failures: Failures) -> None:
    """A program that is exchanged after it was looked at is not run."""
    evil = scene.script("evil", "echo evil runs")
    sums = shutil.which("sha256sum")
    for case, place in (("unpacked", "out/released-*/bin/confstore"), ("built", "crates/confstore/out/confstore")):
        copy = scene.copy(whole)
        scene.format(copy) if case == "unpacked" else scene.run([copy / "prove"])
        program = next(copy.glob(place))
        exchange = f"{sums} <{program}; cp -p {evil} {copy}/e; exec mv {copy}/e {program}"
        is_it = f"[ /proc/self/fd/0 -ef {program} ]"
        scene.script("exchanging/sha256sum", f'if {is_it}; then {exchange}; fi\nexec {sums} "$@"')
        path = f"{scene.folder}/exchanging:{scene.environment['PATH']}"
        trust = Trust(scene, copy, failures, PATH=path)
        trust.refuse(f"the program that was {case}, exchanged", program, "it was exchanged while it was looked at; run")
        failures.expect(f"the program that was {case} was exchanged", program.read_bytes(), evil.read_bytes())


def try_own_folder(scene: Scene, whole: Path, failures: Failures) -> None:
    """In a checkout that can't be written, the folders on the way to the user's own are looked at from the root on."""
    copy, homes = scene.copy(whole), scene.folder / "homes"
    copy.chmod(0o555)
    home = homes / "alice"
    home.mkdir(parents=True)
    (homes / "link").symlink_to(home)
    if os.geteuid() == 0:  # who can write anywhere
        os.chown(copy, OTHER_USER, OTHER_USER)
    trust = Trust(scene, copy, failures, HOME=str(home))
    scene.format(copy, HOME=str(home))
    time.sleep(3.1)
    scene.format(copy, HOME=str(home))
    cache = home / ".cache/confstore"
    there = sorted(path.name[:8] for path in cache.iterdir())
    failures.expect("a folder of the user's own", there, ["released", "stamp"])
    failures.expect("and nothing in the checkout", (copy / "out").exists(), False)
    for path in (homes, home, home / ".cache", cache, cache / "stamp", next(cache.glob("released-*/bin"))):
        trust.narrow(path)
    homes.chmod(0o777)
    cache.chmod(0o777)
    trust.refuse("of two places the outer one", homes, "others may write there; chmod go-w")
    cache.chmod(0o755)
    trust.refuse("through a link", homes, "others may write there; chmod go-w", HOME=str(homes / "link"))
    homes.chmod(0o1777)
    trust.run("below a sticky folder")
    trust.run("a cache elsewhere", HOME="/nonexistent", XDG_CACHE_HOME=str(home / ".cache"))
    trust.run("a relative path is none", XDG_CACHE_HOME="homes/alice/.cache")
    copy.chmod(0o755)


def try_links(scene: Scene, whole: Path, failures: Failures) -> None:
    """A link on the way leads on, and what is behind it is looked at from the root on."""
    copy, disk = scene.copy(whole), scene.folder / "disk"
    (disk / "out").mkdir(parents=True)
    (copy / "release").rename(disk / "release")
    for name in ("out", "release"):
        (copy / name).symlink_to(disk / name)
    trust = Trust(scene, copy, failures)
    scene.format(copy)
    trust.run("two folders that are elsewhere")
    for path in (unpacked(copy).resolve().parent, disk / "out", disk):
        trust.narrow(path)
    (disk / "out/stamp").unlink(missing_ok=True)
    (disk / "release").chmod(0o777)
    trust.refuse("a release that is elsewhere", disk / "release", "others may write there; chmod go-w")
    (disk / "release").chmod(0o755)
    disk.chmod(0o1777)
    trust.run("two folders below a sticky one")


def try_cost(scene: Scene, failures: Failures) -> None:
    """What a start costs beside the program alone, with all crates there: the least of many turns of each."""
    made = scene.copy(Path(TOP))
    scene.run([made / "prove"])
    scene.run([made / "packaging/release.sh"])
    copy = scene.copy(made)
    scene.old(copy)
    failures.expect("there is a stamp", (copy / "out/stamp").exists(), True)
    alone, started, empty = least_costs(scene, [unpacked(copy), copy / "confstore", scene.nothing()])
    print(f"a start costs {1000 * (started - alone):.1f} ms more than the program's {1000 * alone:.1f} ms, ", end="")
    print(f"one of bash {1000 * empty:.1f} ms")
    failures.expect("a start costs little", started - alone < MOST_COST * empty, True)


def try_what_starts(scene: Scene, whole: Path, failures: Failures) -> None:
    """A start that finds nothing changed runs three programs of the system beside confstore, and no bash."""
    for case in ("released", "built"):
        copy = scene.copy(whole)
        if case == "built":
            scene.run([copy / "prove"])
        scene.old(copy)
        started = programs_of(scene, copy)
        failures.expect(f"what a start runs, {case}", sorted(started), ["cmp", "find", "stat"])
        change(copy / BESIDE)
        failures.expect(f"with a crate beside changed, {case}", sorted(programs_of(scene, copy)), ["cmp", "find", "stat"])
        change(copy / CODE)
        failures.expect(f"with a source changed, {case}", "sha256sum" in programs_of(scene, copy), True)


def programs_of(scene: Scene, copy: Path) -> list[str]:
    """The names of the programs of the PATH that a start runs, as each notes its own."""
    log = scene.folder / "started"
    log.write_bytes(b"")
    for name in ("awk", "bash", "cmp", "find", "readlink", "realpath", "sed", "sha256sum", "sort", "stat", "xargs"):
        scene.script(f"noting/{name}", f'echo {name} >>{log}\nexec {shutil.which(name)} "$@"')
    found = scene.format(copy, PATH=f"{scene.folder}/noting:{scene.environment['PATH']}")
    assert found.returncode in (0, 4), found.stderr
    return log.read_text(encoding="utf-8").split()


def least_costs(scene: Scene, programs: list[Path]) -> list[float]:
    """The seconds of processors that a start of each program takes: the least of many turns of all."""
    taken: list[list[float]] = [[] for _ in programs]
    for _ in range(40):
        for program, times in zip(programs, taken):
            start = processor_time()
            scene.run([program, "--version"])
            times.append(processor_time() - start)
    return [min(times) for times in taken]


def processor_time() -> float:
    """The seconds of processors that ended runs have taken: what others do on the machine is not in them."""
    used = resource.getrusage(resource.RUSAGE_CHILDREN)
    return used.ru_utime + used.ru_stime


def version_in(path: str, pattern: str) -> str | None:
    found = re.search(pattern, Path(TOP, path).read_text(encoding="utf-8"), re.M)
    return found[1] if found else None


def try_version(failures: Failures) -> None:
    """The version is the one of conf_words wherever it stands."""
    version = version_in("crates/conf_words/src/words.rt", r'^const VERSION: &str = "(.*)";')
    for path, pattern in (
        ("CHANGELOG.md", r"^## (\d\S*)"),
        ("docs/man/confstore.1", r'^\.TH .*"confstore (\S+)"'),
        ("docs/man/confstore-store.5", r'^\.TH .*"confstore (\S+)"'),
        ("docs/man/confstore.3", r'^\.TH .*"confstore (\S+)"'),
        ("docs/man/confstorectl.1", r'^\.TH .*"confstore (\S+)"'),
        ("clients/c/confstore.h", r'^#define CONFSTORE_VERSION "(.*)"'),
        ("python/confstore/__init__.py", r'^__version__ = "(.*)"'),
        ("clients/ansible/ansible_collections/confstore/store/galaxy.yml", r"^version: (.*)"),
        ("checks/data/program.txt", r"^output_has confstore (.*)"),
        ("release/README.md", r"release/confstore-(.*)-py3-none-any\.whl"),
    ):
        failures.expect(f"the version of {path}", version_in(path, pattern), version)


def main() -> int:
    need_program()
    failures = Failures()
    with tempfile.TemporaryDirectory() as folder:
        scene = Scene(folder)
        whole = try_making(scene, failures)
        try_comparing(scene, whole, failures)
        try_starts(scene, whole, failures)
        try_read_only(scene, whole, failures)
        try_damage(scene, whole, failures)
        try_other_sources(scene, whole, failures)
        try_changes(scene, whole, failures)
        try_writers(scene, whole, failures)
        try_owners(scene, whole, failures)
        try_stamps(scene, whole, failures)
        try_exchange(scene, whole, failures)
        try_own_folder(scene, whole, failures)
        try_links(scene, whole, failures)
        try_what_starts(scene, whole, failures)
        try_cost(scene, failures)
    try_version(failures)
    return int(failures.report())


if __name__ == "__main__":
    sys.exit(main())
