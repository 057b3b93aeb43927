"""Tests of the package, over real stores. They need the built program: see `checks/clients.sh`."""

import os
import shutil
import sys

TOP = os.path.dirname(os.path.dirname(os.path.dirname(os.path.abspath(__file__))))
BUILT = os.path.join(TOP, "crates", "confstore", "out", "confstore")

os.environ.setdefault("CONFSTORE", BUILT)
if shutil.which(os.environ["CONFSTORE"]) is None:
    sys.exit("the program is not built: run ./prove first, or set CONFSTORE")
