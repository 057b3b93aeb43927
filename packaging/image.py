#!/usr/bin/env python3
"""Makes a container image of the program, as an archive of the OCI image format, without an engine and without a network.

    packaging/image.py FOLDER [PROGRAM]

The archive is put into FOLDER. Its path is printed, its SHA-256, and that of its lower layer, which is the same wherever
the C library is. The program is CONFSTORE, or the one that ./confstore runs. The image has it, the files of the C library that it needs, which are those of this system, their
licences, and a user, confstore, with the number 65532, who has the folder /data. It has no shell.

It needs Python alone, and ldd. The same program and C library make the same archive, byte by byte.
"""

from __future__ import annotations

import hashlib
import io
import json
import os
import platform
import re
import shutil
import subprocess
import sys
import tarfile
from typing import Any, Dict, List, NamedTuple, Sequence

TOP = os.path.dirname(os.path.dirname(os.path.abspath(__file__)))

# The time of all that is in an image: 1980-01-01, as in a release (`files.sh`).
TIME, TIME_SHOWN = 315_532_800, "1980-01-01T00:00:00Z"

USER, NAME, DATA = 65_532, "confstore", "data"
PASSWD = f"root:x:0:0:root:/:/sbin/nologin\n{NAME}:x:{USER}:{USER}:confstore:/{DATA}:/sbin/nologin\n"
GROUP = f"root:x:0:\n{NAME}:x:{USER}:\n"

ARCHITECTURES = {"x86_64": "amd64", "aarch64": "arm64"}

MANIFEST = "application/vnd.oci.image.manifest.v1+json"
CONFIG = "application/vnd.oci.image.config.v1+json"
LAYER = "application/vnd.oci.image.layer.v1.tar"

# A line of ldd: `libc.so.6 => /lib/libc.so.6 (0x..)`, or the loader's path alone.
_NEEDED = re.compile(r"(?m)^\s+(?:\S+ => )?(/\S+) \(0x[0-9a-f]+\)$")


class File(NamedTuple):
    """A file of a layer, or a folder, which has no content; with its mode and its owner."""

    mode: int
    content: "bytes | None" = None
    owner: int = 0


Files = Dict[str, File]


def find_program(words: Sequence[str]) -> str:
    """The program that is named, or the one that ./confstore runs."""
    named = words[0] if words else os.environ.get("CONFSTORE", "")
    if named:
        return shutil.which(named) or named
    script = 'top=$1; . "$top/packaging/program.sh"; find_program || { echo "$why" >&2; exit 1; }; echo "$program"'
    found = subprocess.run(["bash", "-c", script, "bash", TOP], stdout=subprocess.PIPE, text=True, check=False)
    if found.returncode:
        sys.exit("image.py: there is no program, as the line above says; ./prove builds one")
    return found.stdout.strip()


def needed_by(program: str) -> List[str]:
    """The paths of the C library's files that a program needs, the loader among them."""
    said = subprocess.run(["ldd", program], stdout=subprocess.PIPE, text=True, check=False).stdout
    if "not found" in said:
        sys.exit(f"image.py: this system lacks what {program} needs:\n{said}")
    return sorted(set(_NEEDED.findall(said)))


def read(path: str) -> bytes:
    with open(path, "rb") as source:
        return source.read()


def licence_of(path: str) -> Files:
    """The licence of a file of the system, where dpkg knows its package. It may be known by its place below /usr."""
    for known in (path, f"/usr{path}", os.path.realpath(path)):
        try:
            found = subprocess.run(["dpkg", "-S", known], capture_output=True, text=True, check=False)
        except FileNotFoundError:
            break
        package = found.stdout.partition(":")[0]
        text = f"/usr/share/doc/{package}/copyright"
        if found.returncode == 0 and os.path.exists(text):
            return {text[1:]: File(0o644, read(text))}
    print(f"image.py: the licence of {path} is not known here: the image has none of it", file=sys.stderr)
    return {}


def base_layer(needed: Sequence[str]) -> Files:
    """What the program needs: the C library, the user and its folder."""
    files: Files = {DATA: File(0o750, None, USER)}
    for path in needed:
        files[path[1:]] = File(0o755, read(path))
        files.update(licence_of(path))
    files["etc/passwd"], files["etc/group"] = File(0o644, PASSWD.encode()), File(0o644, GROUP.encode())
    return files


def program_layer(program: str) -> Files:
    licence = read(os.path.join(TOP, "LICENSE"))
    return {f"usr/bin/{NAME}": File(0o755, read(program)), f"usr/share/doc/{NAME}/LICENSE": File(0o644, licence)}


def with_folders(files: Files) -> Files:
    """Files with the folders that they are in."""
    folders: Files = {}
    for path in files:
        while path := os.path.dirname(path):
            folders[path] = File(0o755)
    return {**folders, **files}


def packed(files: Files) -> bytes:
    """An archive of files, in the order of their paths."""
    archive = io.BytesIO()
    with tarfile.open(fileobj=archive, mode="w", format=tarfile.USTAR_FORMAT) as tar:
        for path, file in sorted(files.items()):
            entry = tarfile.TarInfo(path)
            entry.type = tarfile.REGTYPE if file.content is not None else tarfile.DIRTYPE
            entry.mode, entry.mtime, entry.size = file.mode, TIME, len(file.content or b"")
            entry.uid = entry.gid = file.owner
            tar.addfile(entry, io.BytesIO(file.content or b""))
    return archive.getvalue()


def written(tree: Any) -> bytes:
    return json.dumps(tree, sort_keys=True, separators=(",", ":")).encode()


class Blobs:
    """The blobs of an image, by their SHA-256."""

    def __init__(self) -> None:
        self.files: Files = {}

    def add(self, kind: str, content: bytes) -> Dict[str, Any]:
        """Adds one, and returns what names it."""
        digest = hashlib.sha256(content).hexdigest()
        self.files[f"blobs/sha256/{digest}"] = File(0o644, content)
        return {"mediaType": kind, "digest": f"sha256:{digest}", "size": len(content)}


def config_of(version: str, machine: str, layers: Sequence[Dict[str, Any]]) -> Dict[str, Any]:
    """What runs in the image, and as whom."""
    return {
        "architecture": machine,
        "os": "linux",
        "created": TIME_SHOWN,
        "config": {
            "User": f"{USER}:{USER}",
            "Env": ["PATH=/usr/bin"],
            "Entrypoint": [f"/usr/bin/{NAME}"],
            "Cmd": ["--help"],
            "WorkingDir": f"/{DATA}",
            "Volumes": {f"/{DATA}": {}},
            "Labels": {
                "org.opencontainers.image.title": NAME,
                "org.opencontainers.image.version": version,
                "org.opencontainers.image.licenses": "Apache-2.0",
            },
        },
        "rootfs": {"type": "layers", "diff_ids": [layer["digest"] for layer in layers]},
        "history": [{"created": TIME_SHOWN, "created_by": "packaging/image.py"} for _ in layers],
    }


class Image(NamedTuple):
    """The archive of an image, and the digest of its lower layer, which has all but the program."""

    archive: bytes
    base: str


def image_of(program: str, version: str, machine: str) -> Image:
    blobs = Blobs()
    layers = [
        blobs.add(LAYER, packed(with_folders(files)))
        for files in (base_layer(needed_by(program)), program_layer(program))
    ]
    config = blobs.add(CONFIG, written(config_of(version, machine, layers)))
    whole = {"schemaVersion": 2, "mediaType": MANIFEST, "config": config, "layers": layers}
    manifest = blobs.add(MANIFEST, written(whole))
    manifest["platform"] = {"architecture": machine, "os": "linux"}
    manifest["annotations"] = {"org.opencontainers.image.ref.name": version}
    index = {"schemaVersion": 2, "mediaType": "application/vnd.oci.image.index.v1+json", "manifests": [manifest]}
    files = {"oci-layout": File(0o644, written({"imageLayoutVersion": "1.0.0"})), "index.json": File(0o644, written(index))}
    return Image(packed(with_folders({**files, **blobs.files})), layers[0]["digest"])


def main() -> int:
    if len(sys.argv) not in (2, 3) or sys.argv[1].startswith("-"):
        print(__doc__, end="", file=sys.stdout if sys.argv[1:] == ["--help"] else sys.stderr)
        return 0 if sys.argv[1:] == ["--help"] else 2
    folder, program = sys.argv[1], find_program(sys.argv[2:])
    machine = ARCHITECTURES.get(platform.machine(), platform.machine())
    try:
        said = subprocess.run([program, "--version"], stdout=subprocess.PIPE, text=True, check=True).stdout
        version = said.split()[1]
        image = image_of(program, version, machine)
        path = os.path.join(folder, f"{NAME}-{version}-linux-{machine}.oci.tar")
        os.makedirs(folder, exist_ok=True)
        with open(path, "wb") as target:
            target.write(image.archive)
    except (OSError, subprocess.CalledProcessError) as error:
        print(f"image.py: {error}", file=sys.stderr)
        return 1
    print(f"{path}\nsha256: {hashlib.sha256(image.archive).hexdigest()}\nbase: {image.base.partition(':')[2]}")
    return 0


if __name__ == "__main__":
    sys.exit(main())
