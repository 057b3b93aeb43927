"""What a node has of the server of one store: the sockets of `clients/serve_socket.py` and `clients/serve_metrics.py`.

Both are looked for on the PYTHONPATH, and then in the checkout that this package is in.
"""

from __future__ import annotations

import os
import sys

_CLIENTS = os.path.join(os.path.dirname(os.path.realpath(__file__)), "..", "..", "clients")

sys.path.append(_CLIENTS)
try:
    from serve_metrics import Sample, Scrapers, Waits, address, family, known, listening, mode_of
    from serve_socket import ACL, GROUP, MASK, OTHER, OWN_GROUP, OWNER, USER, Entry, Fault, Listener, access_of
    from serve_socket import give_mode, may_write, peer_of, tell_manager, written
finally:
    sys.path.remove(_CLIENTS)

__all__ = [
    "ACL", "GROUP", "MASK", "OTHER", "OWNER", "OWN_GROUP", "USER", "Entry", "Fault", "Listener", "Sample", "Scrapers",
    "Waits", "access_of", "address", "family", "give_mode", "known", "listening", "may_write", "mode_of", "peer_of",
    "tell_manager", "written",
]  # fmt: skip
