"""The lookup `confstore`: values of a store, and whole configurations."""

from __future__ import annotations

DOCUMENTATION = r"""
name: confstore
short_description: Reads values from a store of confstore
description:
  - Reads configurations, or values in them, from a folder or a server's socket on the controller. To read on a host,
    use the module M(confstore.store.confstore_info).
  - A folder is read beside whoever holds the store. No lock is taken, and nothing is changed.
options:
  _terms:
    description:
      - The name of a configuration, or a name with the path of a value behind it, such as C(web/port) or
        C(web/hosts/0). The path is a JSON Pointer (RFC 6901).
    required: true
  folder:
    description: The folder of the store. One of this and I(socket) is needed.
    type: path
    vars:
      - name: confstore_folder
  socket:
    description: The Unix socket of a server that holds the store.
    type: path
    vars:
      - name: confstore_socket
  default:
    description:
      - What is returned where there is no such configuration, or nothing is at the path. Without it that fails.
    type: raw
  program:
    description: The program. By default it is what the environment has as C(CONFSTORE), or C(confstore) on the PATH.
    type: path
  timeout:
    description: How many seconds an answer may take.
    type: float
    default: 60
author:
  - The authors of confstore
"""

EXAMPLES = r"""
- name: A value, or another one where there is none
  ansible.builtin.debug:
    msg: "{{ lookup('confstore.store.confstore', 'web/port', folder='/var/lib/app', default='80') }}"

- name: A whole configuration
  ansible.builtin.set_fact:
    web: "{{ lookup('confstore.store.confstore', 'web', folder='/var/lib/app') }}"

- name: Two values of a server's store
  ansible.builtin.debug:
    msg: "{{ query('confstore.store.confstore', 'web/port', 'mail/host', socket='/run/app/socket') }}"
"""

RETURN = r"""
_raw:
  description: The tree of each term, a text, a list or a mapping.
  type: list
  elements: raw
"""

from contextlib import closing
from typing import Any, Dict, List

from ansible.errors import AnsibleError
from ansible.plugins.lookup import LookupBase
from ansible_collections.confstore.store.plugins.module_utils.faults import Fault
from ansible_collections.confstore.store.plugins.module_utils.stores import Target, reading
from ansible_collections.confstore.store.plugins.module_utils.values import read_value


class LookupModule(LookupBase):  # type: ignore[misc] # Ansible has no types.
    """Reads the trees of the terms."""

    def run(self, terms: List[str], variables: Any = None, **options: Any) -> List[Any]:
        """The trees of the terms, in order."""
        self.set_options(var_options=variables, direct=options)
        folder, socket = self.get_option("folder"), self.get_option("socket")
        if (folder is None) == (socket is None):
            raise AnsibleError("confstore: one of `folder` and `socket` is needed")
        target = Target(folder, socket, self.get_option("program"), float(self.get_option("timeout")))
        given: Dict[str, Any] = {"default": options["default"]} if "default" in options else {}
        try:
            with closing(reading(target)) as store:
                return [read_value(store, *_split(term), **given) for term in terms]
        except Fault as fault:
            raise AnsibleError(f"confstore: {fault}") from None


def _split(term: str) -> "tuple[str, str]":
    """The name and the path of a term. A name has no `/`."""
    name, slash, path = term.partition("/")
    return name, slash + path
