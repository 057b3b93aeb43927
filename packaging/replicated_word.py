#!/usr/bin/python3
"""Runs the module of confstore_replicated that has the name of this file, as `node` or `log`, in the package
confstore-replicated: with the modules that are installed beside it, and the sockets of the package confstore."""

import os
import runpy
import sys

sys.dont_write_bytecode = True
HERE = os.path.dirname(os.path.realpath(__file__))
sys.path.append(os.path.join(os.path.dirname(HERE), "confstore"))
runpy.run_module(f"confstore_replicated.{os.path.basename(__file__)}", run_name="__main__", alter_sys=True)
