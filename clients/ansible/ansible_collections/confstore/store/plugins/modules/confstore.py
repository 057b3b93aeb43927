#!/usr/bin/python
"""The module `confstore`: puts values, texts and trees into a store, and takes them out."""

from __future__ import annotations

DOCUMENTATION = r"""
module: confstore
short_description: Changes configurations in a store of confstore
description:
  - A store holds named configurations, which are trees of texts, lists and mappings, and keeps them through a crash.
  - The module reads what is there, and makes the edits that are lacking as one batch, so all of them or none. Where
    nothing is lacking, nothing is written, and no lock is taken.
  - Through a I(socket) others may change the store at the same time. The edits are made only while all that the task
    has looked at is as it was; else the task is planned again, see I(timeout). So nothing is put twice, and nothing is
    lost or taken out that the task did not see.
  - It needs the program C(confstore) on the host, or the socket of a server such as C(clients/serve.py). It uses the
    Python package C(confstore) where the host's Python can import it, and needs no package where not.
options:
  folder:
    description:
      - The folder of the store, on the host.
      - One run at a time may hold it to change something, see I(wait). Where a service holds it, use I(socket).
    type: path
  socket:
    description: The Unix socket of a server that holds the store. One of I(folder) and I(socket) is needed.
    type: path
  create:
    description: Makes the folder, and those above it, if it is missing.
    type: bool
    default: false
  program:
    description:
      - The program. By default it is what the environment has as C(CONFSTORE), or C(confstore) on the PATH.
      - With I(socket) it is only needed to read I(text) or I(src).
    type: path
  timeout:
    description:
      - How many seconds an answer may take.
      - Through a I(socket) this is also how long the task is planned again where others change what it has looked at.
        Then it fails with the fault C(Unmet), and nothing is changed.
    type: float
    default: 60
  wait:
    description:
      - How many seconds the task waits for another run that holds the folder, as one of another host that is delegated
        to the same store. Then it fails, with the fault C(Locked).
    type: float
    default: 10
  name:
    description: The name of the configuration. Beside I(edits), that of each edit that has no name of its own.
    type: str
  path:
    description:
      - Where in the configuration, as a JSON Pointer (RFC 6901) such as C(/port) or C(/hosts/0). Without it the whole
        configuration is meant, which may be new.
      - "A path that ends in C(/-) is behind the last element of a list. The value is put there unless an element is
        equal to it; with I(state=absent), each element that is equal to I(value) is taken out."
      - With another path a value replaces what is there, or is a new last key. What is above it has to be there, or
        see I(parents).
    type: str
    default: ''
  value:
    description:
      - The tree that has to be there, a text, a list or a mapping. The order of keys counts.
      - An integer is written as its digits, and a boolean as C(true) or C(false). A number with a fraction and null are
        refused, and need quotes, since Ansible does not keep how they were written.
    type: raw
  text:
    description:
      - A YAML text whose tree has to be there, for example a template. The store reads it as YAML 1.2.2, so C(yes) and
        C(1.10) stay as they are written.
      - A template that gives a mapping in braces may reach the module as a mapping. The filter C(string) keeps it a
        text.
    type: raw
  src:
    description: A file on the host with such a text.
    type: path
  state:
    description: Whether something has to be there, or nothing may be there.
    type: str
    choices: [present, absent]
    default: present
  parents:
    description: Makes the mappings above I(path) that are missing, and the configuration.
    type: bool
    default: false
  if_value:
    description:
      - The edit is only made where this tree is at I(path) before the task. Else, where it is lacking, the task fails
        with the fault C(Unmet), and nothing is changed. It is a tree as I(value).
      - The store looks at it right before the change, so nobody can come between. In check mode the module looks.
    type: raw
  if_absent:
    description: The edit is only made where nothing is at I(path) before the task. Else it is as of I(if_value).
    type: bool
    default: false
  if_count:
    description:
      - The task is only done where the store has accepted exactly so many commands, as I(count) of an earlier task
        says. Else it fails with the fault C(Unmet), if something is lacking. In check mode this is not looked at.
    type: int
  edits:
    description:
      - Several edits, made one after the other, as one batch. Each has I(path), I(value), I(text), I(src), I(state),
        I(parents), I(if_value) and I(if_absent), and I(name) unless the task has one.
    type: list
    elements: dict
    suboptions:
      name:
        description: As I(name).
        type: str
      path:
        description: As I(path).
        type: str
        default: ''
      value:
        description: As I(value).
        type: raw
      text:
        description: As I(text).
        type: raw
      src:
        description: As I(src).
        type: path
      state:
        description: As I(state).
        type: str
        choices: [present, absent]
        default: present
      parents:
        description: As I(parents).
        type: bool
        default: false
      if_value:
        description: As I(if_value).
        type: raw
      if_absent:
        description: As I(if_absent).
        type: bool
        default: false
  about:
    description:
      - What the store notes of the change, a mapping of texts, such as C(why) and C(ticket). C(confstore log) shows it.
      - C(by), the user that runs the module on the host, and C(when), the time, are added, and C(why) is the name of
        the task; a key with null is left out. A server writes C(by) and C(when) itself.
      - Without this option nothing is noted, unless the store in I(folder) has had an about before. Then C(by), C(when)
        and C(why) are.
      - Older programs do not open a store that has had an about, and the first one drops the earlier commands from the
        file, as a checkpoint does. A mapping has at most 16 keys of 64 characters, and 4,096 bytes.
    type: dict
  task:
    description: The name of the task. The collection sets it.
    type: str
    default: ''
requirements:
  - Python 3.9 or later on the host
attributes:
  check_mode:
    support: full
    description: Changes nothing, and returns what would be. Limits of the whole store are not looked at.
  diff_mode:
    support: full
    description: Shows the places that change, before and after, in the one style of confstore.
notes:
  - Values are sent to the program by its standard input, and never stand among its words, where other users could see
    them.
  - I(value), I(text), I(if_value) and I(edits) are C(no_log) options. Ansible does not write them to the log of the
    host, and what it shows of the task's options (C(-vvv)) has no values. Messages of faults have none either.
  - The result, and what C(--diff) shows, have the values at the places that the task changes, and at no other place.
    C(no_log) on the task keeps these out of Ansible's output and log, too.
  - Deleting an element of a list by its index is not idempotent, since the next element has that index then.
author:
  - The authors of confstore
"""

EXAMPLES = r"""
- name: A template is the whole configuration
  confstore.store.confstore:
    folder: /var/lib/app
    create: true
    name: web
    text: "{{ lookup('ansible.builtin.template', 'web.yaml.j2') | string }}"

- name: One value
  confstore.store.confstore:
    folder: /var/lib/app
    name: web
    path: /port
    value: "8080"

- name: A host is in the list, once
  confstore.store.confstore:
    socket: /run/app/socket
    name: web
    path: /hosts/-
    value: "{{ inventory_hostname }}"

- name: Several edits, all of them or none
  confstore.store.confstore:
    folder: /var/lib/app
    name: web
    edits:
      - path: /tls/certificate
        value: /etc/ssl/app.pem
        parents: true
      - path: /old
        state: absent
      - name: mail
        value: {host: mail.example.org, port: "25"}

- name: A version goes on only from the one that this was written for
  confstore.store.confstore:
    socket: /run/app/socket
    name: web
    path: /version
    value: "1.11"
    if_value: "1.10"

- name: The certificate of May
  confstore.store.confstore:
    folder: /var/lib/app
    name: web
    path: /tls/certificate
    value: /etc/ssl/may.pem
    about: {ticket: OPS-7}

- name: A secret, which Ansible does not show
  confstore.store.confstore:
    folder: /var/lib/app
    name: web
    path: /password
    value: "{{ vault_password }}"
  no_log: true

- name: A configuration is taken out
  confstore.store.confstore:
    folder: /var/lib/app
    name: old
    state: absent
"""

RETURN = r"""
before:
  description:
    - What was at each place that the task changes, by the name of the configuration and by the path, or null where
      nothing was. The path of a whole configuration is empty.
    - Of a mapping whose keys come in another order, the keys.
  type: dict
  returned: success
  sample: {web: {/port: "80"}}
after:
  description: What is at the same places now, or would be in check mode.
  type: dict
  returned: success
  sample: {web: {/port: "81"}}
edits:
  description: The edits that were made, without their values.
  type: list
  elements: dict
  returned: success
  sample: [{edit: set, name: web, path: /port}]
count:
  description: The number of the store's command that made them.
  type: int
  returned: changed, and not in check mode
  sample: 2
fault:
  description: The name of what went wrong, as in C(docs/FAULTS.md).
  type: str
  returned: failure
  sample: Syntax
place:
  description: Where a text was refused. Line and column, in characters, count from 1.
  type: dict
  returned: failure of a text
  sample: {line: 3, column: 7, reason: Flow}
"""

import signal
import time
from contextlib import closing
from typing import Any, Dict, List, Optional, Tuple

from ansible.module_utils.basic import AnsibleModule
from ansible_collections.confstore.store.plugins.module_utils.differences import Shown
from ansible_collections.confstore.store.plugins.module_utils.edits import Plan, Wish, plan_of, tree_of
from ansible_collections.confstore.store.plugins.module_utils.faults import Fault
from ansible_collections.confstore.store.plugins.module_utils.grounds import Condition
from ansible_collections.confstore.store.plugins.module_utils.stores import (
    Empty,
    Given,
    Store,
    Target,
    make_store,
    reading,
    session,
    tree_of_text,
)
from ansible_collections.confstore.store.plugins.module_utils.style import Tree

EDIT_OPTIONS: Dict[str, Dict[str, Any]] = {
    "name": {"type": "str"},
    "path": {"type": "str", "default": ""},
    "value": {"type": "raw", "no_log": True},
    "text": {"type": "raw", "no_log": True},
    "src": {"type": "path"},
    "state": {"type": "str", "choices": ["present", "absent"], "default": "present"},
    "parents": {"type": "bool", "default": False},
    "if_value": {"type": "raw", "no_log": True},
    "if_absent": {"type": "bool", "default": False},
}
OPTIONS: Dict[str, Dict[str, Any]] = {
    **EDIT_OPTIONS,
    "folder": {"type": "path"},
    "socket": {"type": "path"},
    "create": {"type": "bool", "default": False},
    "program": {"type": "path"},
    "timeout": {"type": "float", "default": 60.0},
    "wait": {"type": "float", "default": 10.0},
    "if_count": {"type": "int"},
    "edits": {"type": "list", "elements": "dict", "options": EDIT_OPTIONS, "no_log": True},
    "about": {"type": "dict"},
    "task": {"type": "str", "default": ""},
}
SOURCES = ("value", "text", "src")

# The options that have values of the store, and what Ansible shows in their place.
SECRET = ("value", "text", "if_value")
NOT_SHOWN = "VALUE_SPECIFIED_IN_NO_LOG_PARAMETER"

# The faults of a store that is not any more as it was when the task was planned.
OVERTAKEN = ("Unmet", "NoConfig", "NoSuchPlace", "NotIndex")

# How often in seconds a task looks whether another run has let the folder go.
LOOK = 0.05


def wanted_tree(edit: Dict[str, Any], target: Target) -> Optional[Tree]:
    """The tree that an edit has, or None."""
    if edit["value"] is not None:
        return tree_of(edit["value"])
    name = edit["name"]
    if edit["src"] is not None:
        try:
            with open(edit["src"], "rb") as source:
                return tree_of_text(target, source.read(), f"the text {edit['src']} for {name!r}")
        except OSError as error:
            raise Fault("MissingFile", f"{edit['src']}: {error.strerror}") from None
    if edit["text"] is not None:
        if not isinstance(edit["text"], str):
            raise Fault("BadTask", f"the text for {name!r} is no text: use the filter `string`, or `value`")
        return tree_of_text(target, edit["text"].encode("utf-8", "surrogateescape"), f"the text for {name!r}")
    return None


def wish_of(edit: Dict[str, Any], name: Optional[str], target: Target) -> Wish:
    """What an edit of the task wants, where `name` is that of the task."""
    edit = {**edit, "name": edit["name"] or name}
    path, is_present = edit["path"], edit["state"] == "present"
    if not edit["name"]:
        raise Fault("BadTask", "an edit has no `name`")
    given = [source for source in SOURCES if edit[source] is not None]
    if len(given) > 1:
        raise Fault("BadTask", f"`{given[0]}` beside `{given[1]}` for {edit['name']!r}")
    if is_present and not given:
        raise Fault("BadTask", f"none of `value`, `text` and `src` for {edit['name']!r}")
    if given and not is_present and not path.endswith("/-"):
        raise Fault("BadTask", f"`{given[0]}` with `state: absent` at {path!r}, which does not end in `/-`")
    return Wish(edit["name"], path, wanted_tree(edit, target), is_present, edit["parents"], condition_of(edit))


def about_of(about: Optional[Dict[str, Any]]) -> Optional[Given]:
    """What a task gives for the about of its change: texts, or null for a key that is left out."""
    if about is None:
        return None
    given: Given = {}
    for key, value in about.items():
        text = None if value is None else tree_of(value)
        if not (text is None or isinstance(text, str)):
            raise Fault("BadTask", f"the key {str(key)!r} of `about` has no text")
        given[str(key)] = text
    return given


def condition_of(edit: Dict[str, Any]) -> Optional[Condition]:
    """The condition of an edit, if it has one."""
    if edit["if_value"] is None:
        return Condition(edit["name"], edit["path"], None) if edit["if_absent"] else None
    if edit["if_absent"]:
        raise Fault("BadTask", f"`if_value` beside `if_absent` for {edit['name']!r}")
    return Condition(edit["name"], edit["path"], tree_of(edit["if_value"]))


def wishes_of(options: Dict[str, Any], target: Target) -> List[Wish]:
    """What the task wants, in order."""
    if options["edits"] is None:
        return [wish_of(options, None, target)]
    given = any(options[source] is not None for source in (*SOURCES, "if_value")) or options["if_absent"]
    if given or options["path"] or options["state"] != "present":
        raise Fault("BadTask", "`edits` beside an edit of the task's own")
    if not options["edits"]:
        return []
    return [wish_of(edit, options["name"], target) for edit in options["edits"]]


def result_of(plan: Plan) -> Dict[str, Any]:
    """What a task returns of a plan, in check mode too."""
    edits = [{"edit": edit.kind, "name": edit.name, "path": edit.path} for edit in plan.edits]
    return {
        "changed": bool(edits),
        "before": {name: shown.before for name, shown in plan.shown.items()},
        "after": {name: shown.after for name, shown in plan.shown.items()},
        "edits": edits,
        "diff": [_difference(name, shown) for name, shown in plan.shown.items()],
    }


def _difference(name: str, shown: Shown) -> Dict[str, str]:
    """What Ansible shows with `--diff` of a configuration."""
    before, after = shown.texts()
    return {
        "before_header": f"{name} (before)",
        "before": before,
        "after_header": f"{name} (after)",
        "after": after,
    }


def shown_options(options: Dict[str, Any]) -> Dict[str, Any]:
    """The options of a task, or of an edit, as Ansible may show them."""
    shown = {name: NOT_SHOWN if name in SECRET and value is not None else value for name, value in options.items()}
    if shown.get("edits"):
        shown["edits"] = [shown_options(edit) for edit in shown["edits"]]
    return shown


class Task:
    """What a task wants of a store. Raises `Fault` for options that say nothing, and for a text that is refused."""

    def __init__(self, options: Dict[str, Any]) -> None:
        about = about_of(options["about"])
        self._target = Target(
            options["folder"], options["socket"], options["program"], options["timeout"], about, options["task"]
        )
        self._may_create: bool = options["create"]
        self._wait: float = options["wait"]
        self._count: Optional[int] = options["if_count"]
        self._wishes = wishes_of(options, self._target)

    def check(self) -> Plan:
        """What would be done. Nothing is changed."""
        with closing(self._store()) as store:
            return plan_of(self._wishes, store.read)

    def perform(self) -> Tuple[Plan, Optional[int]]:
        """What was done, and the number of the store's command, if there was one.

        It is planned anew, since another may have changed the store. Nobody can while this holds a folder. Through a
        socket others can: so the edits are made only while what the plan stands on holds, and else it is planned again.
        """
        deadline = time.monotonic() + self._target.timeout
        with closing(self._session()) as store:
            tries = 0
            while True:
                plan = plan_of(self._wishes, store.read)
                if not plan.edits:
                    return plan, None
                try:
                    return plan, store.perform(plan.edits, self._conditions_of(plan), self._count)
                except Fault as fault:
                    tries += 1
                    self._go_on_after(fault, tries, deadline)

    def _conditions_of(self, plan: Plan) -> List[Condition]:
        """What has to hold for the edits of a plan to be made."""
        return plan.conditions + ([] if self._target.socket is None else plan.grounds)

    def _go_on_after(self, fault: Fault, tries: int, deadline: float) -> None:
        """Raises a `Fault` of the edits, unless others have come between, and there is time to plan them again."""
        if self._target.socket is None or self._count is not None or fault.name not in OVERTAKEN:
            raise fault
        if time.monotonic() > deadline:
            about = f"others changed what the task had read, each of the {tries} times that it was planned"
            raise Fault("Unmet", f"{self._target.where}: {about}")

    def _session(self) -> Store:
        """The store, made if it is missing, and held once another run has let it go."""
        deadline = time.monotonic() + self._wait
        while True:
            try:
                if self._may_create:
                    make_store(self._target)
                return session(self._target)
            except Fault as fault:
                if fault.name != "Locked" or time.monotonic() > deadline:
                    raise
            time.sleep(LOOK)

    def _store(self) -> Store:
        """The store as it is before the task, which is empty where its folder is still to be made."""
        try:
            return reading(self._target)
        except Fault as fault:
            if fault.name == "MissingFolder" and self._may_create:
                return Empty()
            raise


def result_of_run(module: Any) -> Dict[str, Any]:
    """What the task returns. Raises `Fault` for why it fails."""
    task = Task(module.params)
    plan = task.check()
    if module.check_mode or not plan.edits:
        return result_of(plan)
    plan, count = task.perform()
    return {**result_of(plan), **({} if count is None else {"count": count})}


def main() -> None:
    """Runs the module."""
    signal.signal(signal.SIGCHLD, signal.SIG_DFL)  # else the system would not say how the program ended
    module = AnsibleModule(
        argument_spec=OPTIONS,
        supports_check_mode=True,
        mutually_exclusive=[("folder", "socket")],
        required_one_of=[("folder", "socket")],
    )
    # Nothing below shows an option with values. Ansible would put stars for each text of these options wherever it
    # stands in the result: for the value `1` in each number and path.
    module.no_log_values.clear()
    invocation = {"module_args": shown_options(module.params)}
    try:
        result = result_of_run(module)
    except Fault as fault:
        module.fail_json(msg=str(fault), invocation=invocation, **fault.result())
    if not module._diff:
        del result["diff"]
    module.exit_json(invocation=invocation, **result)


if __name__ == "__main__":
    main()
