#!/usr/bin/env python3
"""Makes the container image of `packaging/image.py`, and looks at what is in it, without an engine.

- **Twice**: from a copy of the program with another name and time, with another umask, zone and folder, come the same
  bytes, whose SHA-256 is the one that is printed, as that of the lower layer is.
- **The format**: each blob has its digest and its size, and none is left over; the layers are those that the
  configuration names; and skopeo reads all of it, where that is installed.
- **The layers**: all is of one time and of root, nothing may be written by others or has a set bit, and /data is of the
  user of the image. What ldd names is there as it is here.
- **The program**: as root, in a chroot of the unpacked layers, as the user and with the environment that the image
  names, it makes a store in /data, changes it and reads it, and can write nowhere else. Without the C library of the
  image it does not start, so it is that which it has; but by the image's loader it does, with these files in a folder of
  any name, as on a system with another C library.

    ./prove && python3 checks/image.py

The last line is 'N passed, M failed', and the status is 0 if M is 0. It takes some seconds.
"""

from __future__ import annotations

import hashlib
import json
import os
import shutil
import subprocess
import sys
import tarfile
import tempfile
from typing import Any

from lib.store_runs import PROGRAM, TOP, Failures, need_program, read_file

IMAGE = os.path.join(TOP, "packaging", "image.py")
TIME = 315_532_800  # 1980-01-01
USER = 65_532
NAME = os.path.basename(PROGRAM)


def made(folder: str, program: str, **environment: str) -> tuple[str, str, str]:
    """The path of an image, and the SHA-256 that were printed: its own, and that of its lower layer."""
    done = subprocess.run(
        [sys.executable, IMAGE, folder, program], stdout=subprocess.PIPE, text=True, check=True, timeout=60,
        env={**os.environ, **environment}, umask=0o077 if environment else -1,
    )  # fmt: skip
    path, digest, base = done.stdout.splitlines()
    return path, digest.removeprefix("sha256: "), base.removeprefix("base: ")


def sum_of(content: bytes) -> str:
    return hashlib.sha256(content).hexdigest()


class Archive:
    """The files of an image, by their paths."""

    def __init__(self, path: str) -> None:
        with tarfile.open(path) as tar:
            self.files = {entry.name: tar.extractfile(entry) for entry in tar if entry.isfile()}
            self.contents = {name: file.read() for name, file in self.files.items() if file is not None}

    def blob(self, named: dict[str, Any], failures: Failures) -> bytes:
        """The blob that something names by its digest and its size."""
        content = self.contents.pop("blobs/" + named["digest"].replace(":", "/"))
        failures.expect("the digest of a blob", f"sha256:{sum_of(content)}", named["digest"])
        failures.expect("the size of a blob", len(content), named["size"])
        return content


def try_twice(top: str, failures: Failures) -> tuple[str, str]:
    """The path of the image, and the SHA-256 of its lower layer that was printed."""
    path, digest, base = made(os.path.join(top, "one"), PROGRAM)
    copy = shutil.copy(PROGRAM, os.path.join(top, "another"))
    os.utime(copy, (1, 1))
    again, *_ = made(os.path.join(top, "two", "three"), copy, TZ="Asia/Tokyo", PYTHONHASHSEED="7")
    failures.expect("the same bytes", read_file(again) == read_file(path), True)
    failures.expect("the checksum", digest, sum_of(read_file(path)))
    return path, base


def try_format(path: str, failures: Failures) -> tuple[dict[str, Any], list[bytes]]:
    """The configuration of the image, and its layers."""
    archive = Archive(path)
    failures.expect("the layout", json.loads(archive.contents.pop("oci-layout")), {"imageLayoutVersion": "1.0.0"})
    (named,) = json.loads(archive.contents.pop("index.json"))["manifests"]
    manifest = json.loads(archive.blob(named, failures))
    config = json.loads(archive.blob(manifest["config"], failures))
    layers = [archive.blob(layer, failures) for layer in manifest["layers"]]
    failures.expect("blobs that nothing names", list(archive.contents), [])
    wanted = [f"sha256:{sum_of(layer)}" for layer in layers]
    failures.expect("the layers of the configuration", config["rootfs"]["diff_ids"], wanted)
    if shutil.which("skopeo") is None:
        print("left out: skopeo is not installed")
    else:
        said = subprocess.run(["skopeo", "inspect", f"oci-archive:{path}"], capture_output=True, text=True, check=False)
        failures.expect("what skopeo says", (said.returncode, said.stderr), (0, ""))
        failures.expect("the layers that skopeo finds", json.loads(said.stdout or "{}").get("Layers"), wanted)
    return config, layers


def try_layers(layers: list[bytes], root: str, failures: Failures) -> None:
    """Unpacks them, one over the other."""
    os.mkdir(root, 0o755)
    for number, layer in enumerate(layers):
        place = f"{root}-{number}.tar"
        with open(place, "wb") as target:
            target.write(layer)
        with tarfile.open(place) as tar:
            for entry in tar:
                owner = USER if entry.name == "data" else 0
                failures.expect(f"the owner of {entry.name}", (entry.uid, entry.gid), (owner, owner))
                failures.expect(f"the time of {entry.name}", entry.mtime, TIME)
                failures.expect(f"the mode of {entry.name}", entry.mode & 0o7022, 0)
                failures.expect(f"{entry.name} is a file or a folder", entry.isfile() or entry.isdir(), True)
            tar.extractall(root, numeric_owner=True)
    failures.expect("the program", sum_of(read_file(f"{root}/usr/bin/confstore")), sum_of(read_file(PROGRAM)))
    for path in needed_files():
        failures.expect(f"{path} in the image", sum_of(read_file(root + path)), sum_of(read_file(path)))


def needed_files() -> list[str]:
    """The files of the C library that the program needs, the loader among them."""
    listed = subprocess.run(["ldd", PROGRAM], capture_output=True, text=True, check=True).stdout.split()
    return [word for word in listed if word.startswith("/")]


def run_in(
    root: str, config: dict[str, Any], *words: str, given: bytes = b"", program: list[str] | None = None
) -> tuple[int, str]:
    """The status of the image's program, or of another one, which runs as an engine would run it, and what it wrote."""
    settings = config["config"]
    user, group = map(int, settings["User"].split(":"))

    def enter() -> None:
        os.chroot(root)
        os.chdir(settings["WorkingDir"])
        os.setgroups([])
        os.setgid(group)
        os.setuid(user)

    try:
        done = subprocess.run(
            [*(program or settings["Entrypoint"]), *words], input=given, capture_output=True, check=False, timeout=60,
            env=dict(pair.split("=", 1) for pair in settings["Env"]), preexec_fn=enter,
        )  # fmt: skip
    except FileNotFoundError:
        return -1, "it does not start"
    return done.returncode, (done.stdout + done.stderr).decode()


def try_program(root: str, config: dict[str, Any], failures: Failures) -> None:
    version = subprocess.run([PROGRAM, "--version"], capture_output=True, text=True, check=True).stdout
    failures.expect("the version", run_in(root, config, "--version"), (0, version))
    commands = b"import: web\ntext: 'port: 80'\n...\nset: web\npath: /port\nvalue: 81\n...\n"
    answers = '---\nok: "1"\n...\n---\nok: "2"\n...\n'
    failures.expect("a session", run_in(root, config, "run", "--", "/data", given=commands), (0, answers))
    failures.expect("what it left", run_in(root, config, "get", "/data", "web", "/port", "--raw"), (0, "81\n"))
    failures.expect("a folder in the one that it begins in", run_in(root, config, "init", "other"), (0, ""))
    failures.expect("its owner", {os.stat(f"{root}/data/{name}").st_uid for name in ("other", "store.yaml")}, {USER})
    status, said = run_in(root, config, "init", "/usr/bin/other")
    failures.expect("a folder of root", (status, said.partition("\n")[0]), (3, "confstore: Device"))
    default = run_in(root, config, *config["config"]["Cmd"])
    failures.expect("what it says without words", (default[0], "Usage: confstore" in default[1]), (0, True))
    beside = os.path.join(root, "opt", "confstore")
    os.makedirs(beside)
    needed = [path for path in needed_files() if os.path.exists(root + path)]
    for path in [*(root + path for path in needed), PROGRAM]:
        shutil.copy(path, beside)
    for folder in ("lib", "lib64"):
        shutil.rmtree(os.path.join(root, folder), ignore_errors=True)
    failures.expect("without the C library", run_in(root, config, "--version"), (-1, "it does not start"))
    loader = next(os.path.basename(path) for path in needed if "/ld-" in path)
    by_loader = [f"/opt/confstore/{loader}", "--library-path", "/opt/confstore", f"/opt/confstore/{NAME}"]
    failures.expect("by its loader", run_in(root, config, "--version", program=by_loader), (0, version))
    changed = run_in(root, config, "set", "/data", "web", "/port", "82", program=by_loader)
    failures.expect("a change by its loader", changed, (0, ""))


def main() -> int:
    need_program()
    failures = Failures()
    with tempfile.TemporaryDirectory() as top:
        os.chmod(top, 0o755)
        path, base = try_twice(top, failures)
        config, layers = try_format(path, failures)
        failures.expect("the checksum of the lower layer", base, sum_of(layers[0]))
        root = os.path.join(top, "root")
        try_layers(layers, root, failures)
        if os.geteuid() == 0:
            try_program(root, config, failures)
        else:
            print("left out: the program in a chroot, which needs root")
    return failures.report()


if __name__ == "__main__":
    sys.exit(main())
