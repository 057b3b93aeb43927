#!/usr/bin/env python3
"""Searches all schedules of a model of the replication for answers that are lost, doubled or divided.

    checks/replication_model.py [--large] [--traces] [--only WORDS]

The model and its bounds are in replicated/model (README.md there). The old rules have to show each of their faults,
with its shortest schedule; without any one of the rules a fault has to be found; and with all rules none. It needs
nothing but Python, and takes a minute on four processors; with `--large` some ten minutes more. The last line is
'N passed, M failed'.
"""

import os
import sys

TOP = os.path.dirname(os.path.dirname(os.path.abspath(__file__)))
sys.path.insert(0, os.path.join(TOP, "replicated"))

from model.__main__ import main  # noqa: E402

if __name__ == "__main__":
    sys.exit(main())
