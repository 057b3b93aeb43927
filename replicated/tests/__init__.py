"""Tests of what needs no etcd, over real stores. They need the built program: see `checks/clients.sh`."""

import os
import shutil
import sys

TOP = os.path.dirname(os.path.dirname(os.path.dirname(os.path.abspath(__file__))))
sys.path[:0] = [os.path.join(TOP, name) for name in ("python", "replicated", "clients")]

os.environ.setdefault("CONFSTORE", os.path.join(TOP, "crates", "confstore", "out", "confstore"))
if shutil.which(os.environ["CONFSTORE"]) is None:
    sys.exit("the program is not built: run ./prove first, or set CONFSTORE")
