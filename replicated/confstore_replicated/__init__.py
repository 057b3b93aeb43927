"""The same confstore store on several machines, by a log in etcd.

`python3 -m confstore_replicated.node` is one node, and `Client` speaks to one. See replicated/README.md.
"""

from .client import Client

__all__ = ["Client"]
