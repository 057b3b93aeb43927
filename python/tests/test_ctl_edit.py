"""confstorectl's `edit`, with editors that are small programs."""

from __future__ import annotations

import os
import signal
import stat
import subprocess
import sys
import time
import unittest

from confstore import Store
from confstore.style import Tree

from .places import StoreTest, python_path

PATIENCE = 60


class Edit(StoreTest):
    def setUp(self) -> None:
        super().setUp()
        self.drafts = os.path.join(self.top, "drafts")
        os.mkdir(self.drafts)
        self.seen = os.path.join(self.top, "seen")
        with Store(self.folder) as store:
            store["web"] = {"port": "80", "host": "a"}
            store["dns"] = "x"

    def tree(self) -> Tree:
        with Store(self.folder) as store:
            return store["web"]

    def environment(self, editor: str) -> dict[str, str]:
        """One whose editor is a shell's script; `$1` is the file, and `$seen` where it puts what it saw."""
        path = os.path.join(self.top, "editor")
        with open(path, "w", encoding="utf-8") as target:
            target.write(f"#!/bin/sh\nseen={self.seen}\nround=$(($(cat $seen.round 2>/dev/null || echo 0) + 1))\n")
            target.write(f"echo $round >$seen.round\ncp \"$1\" $seen.$round\n{editor}\n")
        os.chmod(path, stat.S_IRWXU)
        environment = {**os.environ, "PYTHONPATH": python_path(), "EDITOR": path, "TMPDIR": self.drafts}
        for name in ("CONFSTORE_SOCKET", "VISUAL"):
            environment.pop(name, None)
        return environment

    def edit(self, editor: str, *words: str, **more: str) -> tuple[int, list[str]]:
        """The status and the lines on standard error of an edit of `web`."""
        done = subprocess.run(
            [sys.executable, "-m", "confstore.ctl", "edit", self.folder, "web", *words], check=False,
            stdin=subprocess.DEVNULL, capture_output=True, env={**self.environment(editor), **more}, timeout=PATIENCE,
        )  # fmt: skip
        self.assertEqual(done.stdout, b"")
        return done.returncode, done.stderr.decode().splitlines()

    def saw(self, number: int) -> str:
        """What the editor had the n-th time."""
        with open(f"{self.seen}.{number}", encoding="utf-8") as source:
            return source.read()

    def kept(self) -> str:
        """The text that was kept."""
        ((folder, _, (file,)),) = [found for found in os.walk(self.drafts) if found[2]]
        self.assertEqual(stat.S_IMODE(os.stat(folder).st_mode), 0o700)
        self.assertEqual(stat.S_IMODE(os.stat(os.path.join(folder, file)).st_mode), 0o600)
        with open(os.path.join(folder, file), encoding="utf-8") as source:
            return source.read()

    def test_a_change(self) -> None:
        self.assertEqual(self.edit('sed -i s/80/81/ "$1"'), (0, []))
        self.assertEqual(self.saw(1), 'port: "80"\nhost: a\n')
        self.assertEqual(self.tree(), {"port": "81", "host": "a"})
        self.assertEqual(os.listdir(self.drafts), [])

    def test_nothing_changed(self) -> None:
        for editor in (":", 'echo "# comment" >>"$1"', ': >"$1"', 'printf "port: 80\\nhost: \'a\'\\n" >"$1"'):
            with self.subTest(editor):
                self.assertEqual(self.edit(editor), (0, ["confstorectl: nothing changed"]))
        self.assertEqual(os.listdir(self.drafts), [])
        with Store(self.folder) as store:
            self.assertEqual(store.log()[-1].number, 2)

    def test_the_order_of_keys_is_a_change(self) -> None:
        self.assertEqual(self.edit('printf "host: a\\nport: 80\\n" >"$1"'), (0, []))
        tree = self.tree()
        assert isinstance(tree, dict)
        self.assertEqual(list(tree), ["host", "port"])

    def test_a_refused_text_is_opened_again(self) -> None:
        editor = 'case $round in 1) echo "host: b" >>"$1" ;; 2) sed -i "s/^host: b/name: c/" "$1" ;; esac'
        self.assertEqual(self.edit(editor), (0, []))
        lines = self.saw(2).splitlines()
        self.assertEqual([line for line in lines if not line.startswith("# confstorectl: ")],
                         ['port: "80"', "host: a", "host: b"])  # fmt: skip
        self.assertRegex(lines[0], r"\A# confstorectl: web.yaml:(\d+):1: KeyTwice \"host\"")
        self.assertEqual(lines[int(lines[0].split(":")[2]) - 1], "host: b")
        self.assertEqual(self.tree(), {"port": "80", "host": "a", "name": "c"})
        self.assertEqual(os.listdir(self.drafts), [])

    def test_a_refused_text_is_given_up(self) -> None:
        status, errors = self.edit('[ $round != 1 ] || echo "host: b" >>"$1"')
        self.assertEqual((status, self.tree()), (1, {"port": "80", "host": "a"}))
        self.assertRegex(errors[0], r"\Aconfstorectl: the edited text is in .*web.yaml\Z")
        self.assertRegex(errors[1], r"\Aweb.yaml:\d+:1: KeyTwice")
        self.assertIn("host: b\n", self.kept())
        self.assertEqual(self.edit('[ $round != 4 ] || : >"$1"; [ $round != 3 ] || echo "host: b" >>"$1"')[0], 0)

    def test_nobodys_change_is_lost(self) -> None:
        ctl = f"{sys.executable} -m confstore.ctl"
        status, errors = self.edit(f'{ctl} set {self.folder} web /port 82; sed -i s/80/81/ "$1"')
        self.assertEqual((status, errors[1].split(":")[1]), (1, " Unmet"))
        self.assertEqual(self.tree(), {"port": "82", "host": "a"})
        self.assertEqual(self.kept(), 'port: "81"\nhost: a\n')

    def test_another_configuration_may_change(self) -> None:
        ctl = f"{sys.executable} -m confstore.ctl"
        self.assertEqual(self.edit(f'{ctl} set {self.folder} dns "" y --whole; sed -i s/80/81/ "$1"'), (0, []))

    def test_an_editor_that_fails(self) -> None:
        status, errors = self.edit('echo x >"$1"; exit 3')
        self.assertEqual((status, len(errors)), (3, 1))
        self.assertRegex(errors[0], r"\Aconfstorectl: EditorFailed: .*/editor ended with status 3; nothing was changed")
        status, errors = self.edit("", VISUAL="/nothing/here")
        self.assertEqual((status, errors[-1].split(":")[1]), (3, " EditorFailed"))
        status, errors = self.edit('rm "$1"')
        self.assertEqual((status, errors[-1].split(":")[1]), (3, " EditorFailed"))
        self.assertEqual(os.listdir(self.drafts), [])

    def test_an_editor_with_arguments(self) -> None:
        self.assertEqual(self.edit("", VISUAL="sed -i s/80/83/"), (0, []))
        self.assertEqual(self.tree(), {"port": "83", "host": "a"})

    def test_a_name_that_is_not_there(self) -> None:
        words = [sys.executable, "-m", "confstore.ctl", "edit", self.folder, "none"]
        done = subprocess.run(words, capture_output=True, check=False, env=self.environment(":"), timeout=PATIENCE)
        self.assertEqual((done.returncode, done.stderr.split(b":")[1]), (1, b" NoConfig"))
        self.assertEqual(os.listdir(self.drafts), [])

    def test_an_interrupt_is_the_editors(self) -> None:
        """Ctrl-C in an editor that goes on ends neither it nor confstorectl."""
        go = os.path.join(self.top, "go")
        editor = f'trap : INT; touch {go}; while [ -e {go} ]; do sleep 0.05; done; sed -i s/80/84/ "$1"'
        words = [sys.executable, "-m", "confstore.ctl", "edit", self.folder, "web"]
        with subprocess.Popen(words, env=self.environment(editor), start_new_session=True) as process:
            deadline = time.monotonic() + PATIENCE
            while not os.path.exists(go) and time.monotonic() < deadline:
                time.sleep(0.02)
            os.killpg(process.pid, signal.SIGINT)
            os.unlink(go)
            self.assertEqual(process.wait(PATIENCE), 0)
        self.assertEqual(self.tree(), {"port": "84", "host": "a"})


if __name__ == "__main__":
    unittest.main()
