"""Who has access to a file that takes the place of another: those who had it to that one. What an access list is, and
how a file gets a mode, is in `clients/serve_socket.py`."""

from __future__ import annotations

import contextlib
import os
import stat

from .beside import ACL, GROUP, MASK, OTHER, OWN_GROUP, OWNER, USER, Entry, access_of, give_mode, written


def take_after(file: int, replaced: int) -> None:
    """Gives an open new file the owner, the group, the mode and the access list of the one that it will replace. Where
    the system doesn't let this user do that, the mode is narrower, as `docs/DISK.md` says: nobody but a new owner gets
    access that they did not have."""
    wanted, entries = os.fstat(replaced), access_of(replaced)
    for owner, group in ((-1, wanted.st_gid), (wanted.st_uid, -1)):
        with contextlib.suppress(OSError):
            os.chown(file, owner, group)
    made = os.fstat(file)
    same_owner, same_group = made.st_uid == wanted.st_uid, made.st_gid == wanted.st_gid
    if len(entries) > 3 and same_owner and same_group:
        with contextlib.suppress(OSError):  # the list can't be kept
            os.setxattr(file, ACL, written(entries))
            return
    give_mode(file, kept_mode(mode_without_list(entries), same_owner, same_group))


def mode_without_list(entries: list[Entry]) -> int:
    """The mode of a file that has such a list no more. Whom it names is in the group or one of the others then: both
    keep only what each of these had."""
    bits, common = {tag: bits for tag, bits, _ in entries}, 7
    mask = bits.get(MASK, 7)
    for tag, bits_there, _ in entries:
        common &= bits_there & mask if tag in (USER, GROUP) else 7
    return bits[OWNER] << 6 | (bits[OWN_GROUP] & mask & common) << 3 | bits[OTHER] & common


def kept_mode(mode: int, same_owner: bool, same_group: bool) -> int:
    """What is kept of a mode in a file whose owner or group may be another.

    Who was in the group may be one of the others now, and who was one of the others may be in the group: then both
    classes keep what both had. Who was the owner may be in either: then both keep only what the owner had."""
    kept = stat.S_IRWXG | stat.S_IRWXO
    if not same_group:
        kept &= (mode >> 3 & mode & 7) * 0o11
    if not same_owner:
        kept &= (mode >> 6 & 7) * 0o11
    return mode & (stat.S_IRWXU | kept)
