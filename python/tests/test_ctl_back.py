"""confstorectl's `undo` and `rollback`."""

from __future__ import annotations

import os
import shutil
import subprocess
import sys
import threading
import time
from unittest import mock

from confstore import Reader, Store, ctl
from confstore.ctl_exchange import Exchange
from confstore.ctl_faults import Fault
from confstore.style import Tree

from . import TOP
from .places import StoreTest, python_path

PATIENCE = 60

START: "dict[str, Tree]" = {"web": {"port": "80", "hosts": ["a", "b"], "tls": {"cert": "c", "key": "k"}}, "dns": {}}

WRITERS = 4


class HistoryTest(StoreTest):
    """A store whose first command makes two configurations."""

    def setUp(self) -> None:
        super().setUp()
        with Store(self.folder) as store:
            store.update(START)

    def ctl(self, *words: str, given: str = "") -> "tuple[int, str, str]":
        """The status of a word on the store, and what it writes."""
        environment = {**os.environ, "PYTHONPATH": python_path(), "TMPDIR": self.top}
        environment.pop("CONFSTORE_SOCKET", None)
        done = subprocess.run(
            [sys.executable, "-m", "confstore.ctl", words[0], self.folder, *words[1:]], input=given.encode(),
            capture_output=True, check=False, env=environment, timeout=PATIENCE, cwd=self.top,
        )  # fmt: skip
        self.assertEqual([name for name in os.listdir(self.top) if name.startswith("confstorectl-")], [])
        return done.returncode, done.stdout.decode(), done.stderr.decode()

    def does(self, *words: str, given: str = "") -> str:
        status, output, errors = self.ctl(*words, given=given)
        self.assertEqual((status, errors), (0, ""), words)
        return output

    def is_refused(self, fault: str, *words: str) -> str:
        """The line of a fault, where nothing was written and nothing changed."""
        before = self.trees()
        status, output, errors = self.ctl(*words)
        self.assertEqual((status, output), (1, ""), errors)
        self.assertTrue(errors.startswith(f"confstorectl: {fault}"), errors)
        self.assertEqual(self.trees(), before)
        return errors

    def trees(self) -> "dict[str, Tree]":
        return dict(Reader(self.folder).items())

    def web(self) -> Tree:
        return Reader(self.folder).get("web")

    def last(self) -> str:
        """The line of the last command."""
        return Reader(self.folder).log()[-1].line


class Undo(HistoryTest):
    def test_one_command(self) -> None:
        for words, record in (
            (["set", "web", "/port", "81"], '3 batch set web "/port"'), (["delete", "web", "/hosts/0"], "set"),
            (["delete", "web", "/tls/cert"], ""), (["delete", "web"], "3 batch import web"),
            (["set", "web", "/more", "x"], '3 batch delete web "/more"'), (["set", "web", "/tls", "x"], ""),
            (["copy", "web", "new"], '3 batch delete new ""'), (["rename", "web", "new"], ""),
            (["import", "web"], ""), (["set", "web", "/hosts/-", "c"], '3 batch delete web "/hosts/2"'),
        ):  # fmt: skip
            with self.subTest(words):
                self.tearDown()
                self.doCleanups()
                self.setUp()
                self.does(*words, given="a: b\n")
                self.does("undo", "2")
                self.assertEqual(self.trees(), START)
                self.assertEqual(repr(self.web()), repr(START["web"]))
                if record.startswith("3"):
                    self.assertEqual(self.last(), record)

    def test_what_came_since_stays(self) -> None:
        self.does("set", "web", "/port", "81")
        self.does("set", "web", "/tls/cert", "d")
        self.does("set", "dns", "/server", "s")
        self.does("undo", "2")
        self.assertEqual(self.last(), '5 batch set web "/port"')
        web = START["web"]
        assert isinstance(web, dict)
        self.assertEqual(self.trees(), {"web": {**web, "tls": {"cert": "d", "key": "k"}}, "dns": {"server": "s"}})
        # an undo can be undone, and its command done again
        self.does("undo", "5")
        self.assertEqual(Reader(self.folder).get("web", "/port"), "81")

    def test_several_commands(self) -> None:
        self.does("set", "web", "/port", "81")
        self.does("set", "web", "/port", "82")
        self.does("set", "dns", "/server", "s")
        self.does("undo", "2..4", "web")
        self.assertEqual(self.trees(), {**START, "dns": {"server": "s"}})
        self.does("undo", "5")
        self.does("undo", "2..4")
        self.assertEqual(self.trees(), START)

    def test_a_place_that_was_changed_since(self) -> None:
        self.does("set", "web", "/port", "81")
        self.does("set", "web", "/a~1b\n", "x")
        self.does("set", "web", "/port", "82")
        self.does("set", "web", "/hosts/-", "c")
        self.does("set", "web", "/hosts/-", "d")
        self.assertIn("Unmet: changed since, so nothing was undone: web /port\n", self.is_refused("Unmet", "undo", "2"))
        self.assertIn("web /hosts\n", self.is_refused("Unmet", "undo", "5"))
        self.assertIn(": web /hosts\n", self.is_refused("Unmet", "undo", "2..5"))
        self.does("batch", given="[{set: web, path: /port, value: 83}, {delete: web, path: /hosts/0}]")
        self.assertIn(": web /port, web /hosts\n", self.is_refused("Unmet", "undo", "2..6"))
        self.does("delete", "web", "/a~1b\n")
        # what has its old value again needs nothing
        self.assertEqual(self.ctl("undo", "3"), (0, "", "confstorectl: nothing changed\n"))
        self.does("delete", "web")
        self.assertIn("nothing was undone: web\n", self.is_refused("Unmet", "undo", "4"))

    def test_what_is_not_there(self) -> None:
        self.does("set", "web", "/port", "81")
        self.does("checkpoint")
        self.does("set", "web", "/port", "82")
        for words, fault in (
            (["2"], "NoSuchCommand"), (["1..3"], "NoSuchCommand"), (["4"], "NoSuchCommand"),
            (["3..4"], "NoSuchCommand"),
            (["3", "dns"], "NothingToUndo"), (["3", "none"], "NothingToUndo"), (["3", "No"], "BadName"),
            (["3", "--if-count", "2"], "Unmet"),
        ):  # fmt: skip
            with self.subTest(words):
                self.is_refused(fault, "undo", *words)
        for wrong in ("0", "x", "3..2", "3..", "..3", "-1", "1..x", "18446744073709551616"):
            self.assertEqual(self.ctl("undo", "--", wrong)[0], 2, wrong)
        os.unlink(os.path.join(self.folder, "store.yaml"))
        self.assertIn("NotAStore", self.ctl("undo", "1")[2])

    def test_a_look_at_it_first(self) -> None:
        self.does("set", "web", "/port", "81")
        shown = self.does("undo", "2", "--dry-run")
        self.assertIn('\n-port: "81"\n+port: "80"\n', shown)
        self.assertIn("CheckFailed", self.is_refused("CheckFailed", "undo", "2", "--check", "grep -q nothing"))
        self.assertEqual(Reader(self.folder).get("web", "/port"), "81")
        self.does("undo", "2", "--check", "grep -q 'port: .80'", "--if-count", "2")
        self.assertEqual(self.trees(), START)

    def test_values_that_are_like_marks(self) -> None:
        """Names and pointers of the log are read as they are, whatever stands in them."""
        hostile = '/x"; import dns; set web "~1\\\u2028\t'
        self.does("set", "web", hostile, "v")
        self.does("batch", given="[{import: new, text: a}, {set: web, path: '/p; delete web \"', value: x}]")
        self.does("undo", "3")
        self.assertEqual(self.trees()["web"], {**START["web"], hostile[1:].replace("~1", "/"): "v"})  # type: ignore
        self.does("undo", "2")
        self.assertEqual(self.trees(), START)

    def test_a_change_that_comes_between(self) -> None:
        """A change of another place stays, and one of the same place is not overwritten."""
        for path, status, port in (("/tls/cert", 0, "80"), ("/port", 1, "99")):
            with Store(self.folder) as store:
                store["web"] = START["web"]
                number = store.set("web", "/port", "81")
            read, others = Exchange.tree, iter([path])

            def tree(exchange: Exchange, name: str) -> "Tree | None":
                found = read(exchange, name)
                for place in others:
                    with Store(self.folder) as store:
                        store.set("web", place, "99")
                    break
                return found

            with self.subTest(path), mock.patch.object(Exchange, "tree", tree):
                self.assertEqual(ctl.perform_words(["undo", self.folder, str(number)]), status)
                with Store(self.folder) as store:
                    self.assertEqual((store.get("web", path), store.get("web", "/port")), ("99", port))

    def test_what_its_holder_keeps_for_itself(self) -> None:
        """A replicated node has a name that it answers nothing about: that one is left as it is."""
        with Store(self.folder) as store, store.batch() as batch:
            batch.put("replication", {"1": "x"})
            batch.set("web", "/port", "81")

        read = Exchange.tree

        def tree(exchange: Exchange, name: str) -> "Tree | None":
            if name == "replication":
                raise Fault("BadName")
            return read(exchange, name)

        with mock.patch.object(Exchange, "tree", tree):
            self.assertEqual(ctl.perform_words(["undo", self.folder, "2"]), 0)
        self.assertEqual(self.trees(), {**START, "replication": {"1": "x"}})

    def killed(self, number: int, word: str, *, is_done: bool) -> "tuple[int, str, str]":
        """An `undo` whose program is killed in this word of its own, after it has done it or before."""
        program = shutil.which(os.environ["CONFSTORE"])
        stand_in = os.path.join(self.top, "killed")
        does = f'"{program}" "$@" >/dev/null; ' if is_done else ""
        with open(stand_in, "w", encoding="utf-8") as file:
            file.write(f'#!/bin/sh\nif [ "$1" = {word} ]; then {does}kill -9 $$; fi\nexec "{program}" "$@"\n')
        os.chmod(stand_in, 0o755)
        with mock.patch.dict(os.environ, {"CONFSTORE": stand_in}):
            return self.ctl("undo", str(number))

    def test_a_program_that_is_killed(self) -> None:
        """A change without an answer was made or not: the status is that of a fault, and not of a refusal."""
        for word, is_done in (("run", True), ("run", False), ("get", False), ("log", False), ("verify", False)):
            with self.subTest(word, is_done=is_done):
                with Store(self.folder) as store:
                    number = store.set("web", "/port", "81")
                status, output, errors = self.killed(number, word, is_done=is_done)
                self.assertEqual((status, output), (3, ""), errors)
                self.assertTrue(errors.startswith("confstorectl: BadAnswer: the program was ended by signal 9"), errors)
                self.assertEqual("a change was made or not" in errors, word == "run", errors)
                self.assertEqual(Reader(self.folder).get("web", "/port"), "80" if is_done else "81")

    def test_four_at_once(self) -> None:
        """Each takes back one of four changes, also where all are in one mapping; and of four who take back the same
        one none does it twice."""
        for writer in range(WRITERS):
            self.does("set", "web", f"/n{writer}", "x")
        first = len(Reader(self.folder).log()) - WRITERS + 1
        self.at_once([["undo", str(first + writer), "--wait", "60"] for writer in range(WRITERS)])
        self.assertEqual(self.trees(), START)
        self.assertEqual(len(Reader(self.folder).log()), first - 1 + 2 * WRITERS)
        self.does("set", "web", "/port", "81")
        number = len(Reader(self.folder).log())
        self.at_once([["undo", str(number), "--wait", "60"]] * WRITERS)
        self.assertEqual((len(Reader(self.folder).log()), self.trees()), (number + 1, START))

    def at_once(self, several: "list[list[str]]") -> None:
        statuses: "list[int]" = []
        def does(words: "list[str]") -> None:
            statuses.append(self.ctl(*words)[0])

        threads = [threading.Thread(target=does, args=(words,)) for words in several]
        for thread in threads:
            thread.start()
        for thread in threads:
            thread.join()
        self.assertEqual(statuses, [0] * len(several))

    def test_beside_a_server(self) -> None:
        socket = os.path.join(self.folder, "confstore.sock")
        server = [sys.executable, os.path.join(TOP, "clients", "serve.py"), socket, self.folder]
        environment = {**os.environ, "PYTHONPATH": python_path()}
        with subprocess.Popen(server, env=environment) as process:
            try:
                deadline = time.monotonic() + PATIENCE
                while not os.path.exists(socket) and time.monotonic() < deadline:
                    time.sleep(0.05)
                self.does("set", "web", "/port", "81")
                self.does("undo", "2")
                self.does("rollback", "web", "--to", "2")
                self.assertEqual(self.does("get", "web", "/port", "--raw"), "81\n")
                self.not_in_another_store(socket)
            finally:
                process.terminate()

    def not_in_another_store(self, socket: str) -> None:
        """What one folder says is not done to the store that the server of another one holds."""
        served, self.folder = self.folder, os.path.join(self.top, "other")
        with Store(self.folder, make=True) as store:
            store.update(START)
            store.set("web", "/port", "81")
        before = dict(Reader(served).items())
        for words in (["undo", "2"], ["rollback", "web", "--to", "1"], ["sync", self.top]):
            with open(os.path.join(self.top, "web.yaml"), "w", encoding="utf-8") as file:
                file.write("a: b\n")
            status, _, errors = self.ctl(*words, "--socket", socket)
            self.assertEqual(status, 3, words)
            self.assertIn("OtherStore", errors)
        self.assertEqual((dict(Reader(served).items()), before["web"]), (before, self.web()))
        self.folder = served


class Rollback(HistoryTest):
    def test_a_configuration(self) -> None:
        self.does("set", "web", "/port", "81")
        self.does("set", "dns", "/server", "s")
        self.does("delete", "web", "/tls/cert")
        self.does("rollback", "web", "--to", "1")
        self.assertEqual(self.trees(), {**START, "dns": {"server": "s"}})
        self.assertEqual(repr(self.web()), repr(START["web"]))
        self.assertEqual(self.ctl("rollback", "web", "--to", "1"), (0, "", "confstorectl: nothing changed\n"))
        self.does("rollback", "web", "--to", "4", "--if-count", "5")
        self.assertEqual(self.web(), {"port": "81", "hosts": ["a", "b"], "tls": {"key": "k"}})
        self.does("delete", "web")
        self.does("rollback", "web", "--to", "1")
        self.assertEqual(self.last(), "8 batch import web")
        self.does("rollback", "web", "--to", "7")
        self.assertEqual(self.trees(), {"dns": {"server": "s"}})

    def test_what_is_refused(self) -> None:
        self.does("set", "web", "/port", "81")
        self.is_refused("NoSuchCommand", "rollback", "web", "--to", "3")
        self.is_refused("NoConfig", "rollback", "none", "--to", "1")
        self.is_refused("BadName", "rollback", "No", "--to", "1")
        self.is_refused("Unmet", "rollback", "web", "--to", "1", "--if-count", "1")
        self.is_refused("CheckFailed", "rollback", "web", "--to", "1", "--check", "false")
        self.assertEqual(self.ctl("rollback", "web")[0], 2)
        self.assertIn('+port: "80"', self.does("rollback", "web", "--to", "1", "--dry-run"))
        self.assertEqual(len(Reader(self.folder).log()), 2)

    def test_a_change_that_comes_between(self) -> None:
        """It is not dropped by somebody who has not seen it; one of another configuration does not matter."""
        self.does("set", "web", "/port", "81")
        for name, status in (("dns", 0), ("web", 1)):
            read, others = Exchange.tree, iter([name])

            def tree(exchange: Exchange, wanted: str) -> "Tree | None":
                found = read(exchange, wanted)
                for other in others:
                    with Store(self.folder) as store:
                        store.set(other, "/seen", "no")
                    break
                return found

            with self.subTest(name), mock.patch.object(Exchange, "tree", tree):
                self.assertEqual(ctl.perform_words(["rollback", self.folder, "web", "--to", "1"]), status)
                self.assertEqual(Reader(self.folder).get(name, "/seen"), "no")
            with Store(self.folder) as store:
                store.set("web", "/port", "81")

    def test_four_at_once(self) -> None:
        """All roll back to one number: one does it, and the others find it done, or are told that it was changed."""
        self.does("set", "web", "/port", "81")
        statuses: "list[tuple[int, str, str]]" = []
        words = ["rollback", "web", "--to", "1", "--wait", "60"]
        threads = [threading.Thread(target=lambda: statuses.append(self.ctl(*words))) for _ in range(WRITERS)]
        for thread in threads:
            thread.start()
        for thread in threads:
            thread.join()
        self.assertIn((0, "", ""), statuses)
        for status, _, errors in statuses:
            self.assertTrue(status == 0 or "Unmet: web was changed meanwhile" in errors, errors)
        self.assertEqual((self.trees(), len(Reader(self.folder).log())), (START, 3))
