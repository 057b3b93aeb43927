"""Where confstorectl finds the server of a store."""

from __future__ import annotations

import os
import stat

# The fault of a socket where nobody answers, or that this process may not use.
NO_SERVER = "Disconnected"

# Where the units of packaging/ have stores and sockets.
STORES, SOCKETS = "/var/lib/confstore", "/run/confstore"


class Place:
    """Where a server may be: the path of its socket, and the folder whose store it has to have, or None where it may have
    any, as one that the user has named."""

    def __init__(self, path: str, folder: str | None = None, *, is_given: bool = False) -> None:
        self.path, self.folder = path, folder
        self.is_given = is_given or folder is None


def place_of(given: str, folder: str, *, is_read: bool = False) -> Place | None:
    """The socket for a store: the one that was given, or the one that is found. Its server has to have the store in the
    folder where the socket was found for it, or where the folder is read too."""
    given = given or os.environ.get("CONFSTORE_SOCKET", "")
    if given:
        return Place(given, os.path.abspath(folder) if is_read else None, is_given=True)
    folder = os.path.abspath(folder)
    above, name = os.path.split(folder)
    likely = [os.path.join(folder, "confstore.sock")]
    if above == STORES:
        likely.append(os.path.join(SOCKETS, name, "socket"))
    return next((Place(path, folder) for path in likely if _is_socket(path)), None)


def _is_socket(path: str) -> bool:
    try:
        return stat.S_ISSOCK(os.stat(path).st_mode)
    except OSError:
        return False
