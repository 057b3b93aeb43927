"""The page of a log has nothing of what it hides."""

from __future__ import annotations

import json
import os
import re
import subprocess
import sys
from typing import Any

from confstore import Store

from . import TOP
from .places import StoreTest

PAGE = os.path.join(TOP, "clients", "examples", "page.py")


class Page(StoreTest):
    def made(self, *words: str) -> "subprocess.CompletedProcess[str]":
        environment = {**os.environ, "PYTHONPATH": os.path.join(TOP, "python")}
        return subprocess.run([sys.executable, PAGE, *words, self.folder], env=environment, text=True,
                              capture_output=True, check=False, timeout=60)  # fmt: skip

    def told(self, *words: str) -> Any:
        """What the page has of the store, and that it has no secret."""
        done = self.made(*words)
        self.assertEqual((done.returncode, done.stderr), (0, ""))
        self.assertNotIn("s3cret", done.stdout)
        found = re.search('<script id="data" type="application/json">(.*?)</script>', done.stdout, re.DOTALL)
        assert found is not None
        return json.loads(found[1])

    def edits(self, *words: str) -> "list[tuple[str, str, Any]]":
        return [(edit["kind"], edit["path"], edit["tree"]) for record in self.told(*words)["records"]
                for edit in record["edits"]]  # fmt: skip

    def test_a_value_is_hidden_wherever_it_is_set(self) -> None:
        with Store(self.folder) as store:
            store["web"] = {"port": "80", "tls": {"key": "s3cret", "on": "yes"}}
            store.set("web", "/tls/key", "s3cret2")
            store.set("web", "/tls", {"key": "s3cret3"})
            store.set("web", "/tls/key", {"a": "s3cret4"})
            store.set("web", "/tls/key/a", "s3cret5")
            store.delete("web", "/tls/key/a")
            store.delete("web", "/tls/key")
            store.set("web", "/port", "81")
        mark = "(hidden)"
        tls = {"pairs": [["key", mark], ["on", "yes"]]}
        self.assertEqual(self.edits("--hide", "/tls/key"), [
            ("import", "", {"pairs": [["port", "80"], ["tls", tls]]}),
            ("set", "/tls/key", mark), ("set", "/tls", {"pairs": [["key", mark]]}), ("set", "/tls/key", mark),
            ("set", "/tls/key", mark), ("set", "/tls/key", mark), ("delete", "/tls/key", None), ("set", "/port", "81"),
        ])  # fmt: skip

    def test_what_stood_there_before(self) -> None:
        with Store(self.folder) as store:
            store["web"] = {"a/b": "s3cret", "list": [{"key": "s3cret"}, {"key": "open"}]}
            store.checkpoint()
            store.set("web", "/list/-", {"key": "s3cret"})
            store.set("web", "/list/-", "seen")
        told = self.told("--hide", "/a~1b", "--hide=/list/0/key")
        mark = "(hidden)"
        before = [["a/b", mark], ["list", [{"pairs": [["key", mark]]}, {"pairs": [["key", "open"]]}]]]
        self.assertEqual(told["configs"], {"pairs": [["web", {"pairs": before}]]})
        self.assertEqual(self.edits("--hide", "/a~1b", "--hide", "/list/0/key"),
                         [("set", "/list/-", {"pairs": [["key", mark]]}), ("set", "/list/-", "seen")])  # fmt: skip

    def test_a_whole_configuration(self) -> None:
        with Store(self.folder) as store:
            store["web"] = "s3cret"
            store["web"] = {"a": "s3cret"}
            store.set("web", "/a", "s3cret")
            store.delete("web")
        hidden = ("import", "", "(hidden)")
        self.assertEqual(self.edits("--hide", ""), [hidden, hidden, hidden, ("delete", "", None)])

    def test_what_is_no_pointer(self) -> None:
        for wrong in ("a", "/~", "/~2"):
            done = self.made("--hide", wrong)
            self.assertEqual((done.returncode, done.stdout), (2, ""))
            self.assertIn(f"{wrong!r} is no JSON Pointer", done.stderr)
