"""The folder of a store, and the program: where they are, and what is wrong with a path."""

from __future__ import annotations

import errno
import itertools
import os
import stat

# The exceptions are imported where one is raised: who only looks for the program has no other need of them.
TYPE_CHECKING = False
if TYPE_CHECKING:
    from collections.abc import Iterator

    from .faults import ConfstoreError


def path_of(path: str | bytes | os.PathLike[str]) -> str:
    """A path from the root, as a str of no other class."""
    wanted = str.__str__(os.fsdecode(path))
    if "\0" in wanted:
        from .faults import UnusablePath

        raise UnusablePath(errno.EINVAL, "a path can't have the character 0", wanted)
    return os.path.abspath(wanted)


def need_folder(folder: str) -> None:
    """Raises `MissingFolder` or `UnusablePath` unless the folder is there."""
    from .faults import MissingFolder, folder_fault

    try:
        found = os.stat(folder)
    except OSError as error:
        raise folder_fault(error, folder) from None
    if not stat.S_ISDIR(found.st_mode):
        raise MissingFolder(errno.ENOTDIR, "this is no folder", folder)


def find_program(program: str | os.PathLike[str] | None) -> str:
    """The path of the program: the one that is given, or that of the environment's CONFSTORE, or of the PATH."""
    wanted = str.__str__(os.fsdecode(program or os.environ.get("CONFSTORE") or "confstore"))
    if "\0" in wanted:
        from .faults import UnusablePath

        raise UnusablePath(errno.EINVAL, "a path can't have the character 0", wanted)
    found = _which(wanted)
    if found is None:
        raise _missing(wanted)
    return os.path.abspath(found)


def _which(program: str) -> str | None:
    """The program of a path, or of a name on the PATH, as `shutil.which` finds it: importing that takes longer."""
    if os.path.dirname(program):
        return program if _may_run(program) else None
    folders = os.environ.get("PATH", os.defpath)
    likely = (os.path.join(folder, program) for folder in folders.split(os.pathsep)) if folders else ()
    return next((path for path in likely if _may_run(path)), None)


def _may_run(path: str) -> bool:
    return os.access(path, os.X_OK) and not os.path.isdir(path)


def _missing(program: str) -> ConfstoreError:
    """Why there is no such program: mostly because nothing is there, or what is there may not be run."""
    from .faults import MissingProgram, UnusablePath

    try:
        os.stat(program if os.path.dirname(program) else os.path.join(os.sep, program))
    except OSError as error:
        if error.errno in (errno.ENAMETOOLONG, errno.ELOOP):
            return UnusablePath(error.errno, f"no path of a program: {error.strerror}", program)
    return MissingProgram(errno.ENOENT, "no such program", program)


def make_folder(folder: str) -> None:
    """Makes a folder, with those above it that are missing, and syncs what holds their names.

    A folder without a store may be left by a call that a crash or an exception has ended before it synced. So all above
    it are synced then, as far as they can be opened; those that were made here, and the one above them, have to be.
    """
    made = _make_missing(folder)
    if not made and os.path.exists(os.path.join(folder, "store.yaml")):
        return
    needed = {*made, *(os.path.dirname(path) for path in made)}
    for level in _levels(folder):
        _sync(level, level in needed)


def _levels(folder: str) -> Iterator[str]:
    """A folder, and all above it."""
    yield folder
    while (above := os.path.dirname(folder)) != folder:
        folder = above
        yield folder


def _make_missing(folder: str) -> list[str]:
    """Makes a folder and those above it that are missing, and returns those that were made."""
    from .faults import MissingFolder, folder_fault

    missing = list(itertools.takewhile(lambda level: not os.path.isdir(level), _levels(folder)))
    for path in reversed(missing):
        try:
            os.mkdir(path)
        except FileExistsError as error:
            if not os.path.isdir(path):
                raise MissingFolder(error.errno, "the folder can't be made: a file has this name", path) from None
        except OSError as error:
            if error.errno in (errno.ENAMETOOLONG, errno.ELOOP):
                raise folder_fault(error, folder) from None
            raise MissingFolder(error.errno, f"the folder can't be made: {error.strerror}", path) from None
    return missing


def _sync(folder: str, is_needed: bool) -> None:
    from .faults import Device

    opened: int | None = None
    try:
        opened = os.open(folder, os.O_RDONLY | os.O_DIRECTORY | os.O_CLOEXEC)
        os.fsync(opened)
    except OSError as error:
        if is_needed:
            raise Device(f"{folder} can't be synced, so a crash may take the folder back: {error.strerror}") from None
    finally:
        if opened is not None:
            os.close(opened)
