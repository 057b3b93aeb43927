#!/usr/bin/python
"""The module `confstore_info`: reads a store on the host."""

from __future__ import annotations

DOCUMENTATION = r"""
module: confstore_info
short_description: Reads configurations of a store of confstore
description:
  - Reads a store on the host. A folder is read beside whoever holds the store. No lock is taken, and nothing is
    changed.
options:
  folder:
    description: The folder of the store, on the host. One of this and I(socket) is needed.
    type: path
  socket:
    description: The Unix socket of a server that holds the store.
    type: path
  program:
    description: The program. By default it is what the environment has as C(CONFSTORE), or C(confstore) on the PATH.
    type: path
  timeout:
    description: How many seconds an answer may take.
    type: float
    default: 60
  name:
    description: The name of a configuration. Without it all of them are read.
    type: str
  path:
    description: Where in it the value is, as a JSON Pointer (RFC 6901). Without it the whole configuration is read.
    type: str
    default: ''
  default:
    description: The value where there is no such configuration, or nothing is at the path. Without it that fails.
    type: raw
attributes:
  check_mode:
    support: full
    description: Changes nothing in either mode.
notes:
  - What is read is in the result. C(no_log) on the task keeps it out of Ansible's output and log.
author:
  - The authors of confstore
"""

EXAMPLES = r"""
- name: The port that is set on the host
  confstore.store.confstore_info:
    folder: /var/lib/app
    name: web
    path: /port
    default: "80"
  register: port

- name: All configurations
  confstore.store.confstore_info:
    folder: /var/lib/app
  register: store
"""

RETURN = r"""
names:
  description: The names of all configurations, in order.
  type: list
  elements: str
  returned: success
  sample: [web, mail]
value:
  description: The tree that was asked for.
  type: raw
  returned: with I(name)
  sample: "80"
configs:
  description: Each configuration by its name.
  type: dict
  returned: without I(name)
  sample: {web: {port: "80"}}
fault:
  description: The name of what went wrong, as in C(docs/FAULTS.md).
  type: str
  returned: failure
  sample: NoConfig
"""

import signal
from contextlib import closing
from typing import Any, Dict

from ansible.module_utils.basic import AnsibleModule
from ansible_collections.confstore.store.plugins.module_utils.faults import Fault
from ansible_collections.confstore.store.plugins.module_utils.stores import Target, reading
from ansible_collections.confstore.store.plugins.module_utils.values import read_value

OPTIONS: Dict[str, Dict[str, Any]] = {
    "folder": {"type": "path"},
    "socket": {"type": "path"},
    "program": {"type": "path"},
    "timeout": {"type": "float", "default": 60.0},
    "name": {"type": "str"},
    "path": {"type": "str", "default": ""},
    "default": {"type": "raw"},
}


def found(options: Dict[str, Any]) -> Dict[str, Any]:
    """What the task returns. Raises `Fault` for why it fails."""
    target = Target(options["folder"], options["socket"], options["program"], options["timeout"])
    given = {} if options["default"] is None else {"default": options["default"]}
    with closing(reading(target)) as store:
        names = store.names()
        if options["name"] is not None:
            return {"names": names, "value": read_value(store, options["name"], options["path"], **given)}
        trees = {name: store.read(name) for name in names}
    return {"names": names, "configs": {name: tree for name, tree in trees.items() if tree is not None}}


def main() -> None:
    """Runs the module."""
    signal.signal(signal.SIGCHLD, signal.SIG_DFL)  # else the system would not say how the program ended
    module = AnsibleModule(
        argument_spec=OPTIONS,
        supports_check_mode=True,
        mutually_exclusive=[("folder", "socket")],
        required_one_of=[("folder", "socket")],
    )
    try:
        result = found(module.params)
    except Fault as fault:
        module.fail_json(msg=str(fault), **fault.result())
    module.exit_json(changed=False, **result)


if __name__ == "__main__":
    main()
