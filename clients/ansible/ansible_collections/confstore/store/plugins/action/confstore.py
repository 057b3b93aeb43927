"""The controller's part of the module `confstore`: it tells the module the name of its task, which says why a store is
changed."""

from __future__ import annotations

from typing import Any, Dict, Optional

from ansible.plugins.action import ActionBase
from ansible.utils.vars import merge_hash


class ActionModule(ActionBase):  # type: ignore[misc]
    """Runs the module on the host, with the name of the task."""

    _supports_check_mode = True
    _supports_async = True

    def run(self, tmp: Optional[str] = None, task_vars: Optional[Dict[str, Any]] = None) -> Dict[str, Any]:
        result: Dict[str, Any] = super().run(tmp, task_vars)
        words = {"task": self._task.name or "", **self._task.args}
        is_async = bool(self._task.async_val) and not self._connection.has_native_async
        done = self._execute_module(module_args=words, task_vars=task_vars, wrap_async=is_async)
        if not is_async:
            self._remove_tmp_path(self._connection._shell.tmpdir)
        merged: Dict[str, Any] = merge_hash(result, done)
        return merged
