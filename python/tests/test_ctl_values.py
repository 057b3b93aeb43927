"""confstorectl's `get` of several pointers, and its variables for sh and systemd."""

from __future__ import annotations

import os
import shutil
import subprocess

from confstore import Store

from .test_ctl_back import HistoryTest

# Values that are quoted wrongly if anything is left out: all that sh and systemd know, and more.
HOSTILE = [
    "", " ", "a b", "it's", '"', "\\", "\\\\n", "$HOME", "`id`", "$(id)", "${a}", "a\nb", "\n", "#", "a # b", "é\u2028",
    "~", "*", "!x", "\t", "a\\", 'a"; id; "', "%n", "\x7f", "\\\n", "'\"'", "=", ";", "&", "\r",
]  # fmt: skip


def by_systemd(text: str) -> "dict[str, str]":
    """What systemd makes of a file of an EnvironmentFile=, by systemd.exec(5), of values in double quotes alone. `\\`
    stands for nothing before one of four signs, and for itself before others; before a line feed both go."""
    found: "dict[str, str]" = {}
    place = 0
    while place < len(text):
        name, _, _ = text[place:].partition("=")
        place += len(name) + 1
        assert text[place] == '"', text[place:]
        place += 1
        value = ""
        while text[place] != '"':
            if text[place] == "\\":
                place += 1
                value += text[place] if text[place] in '"\\$`' else "" if text[place] == "\n" else "\\" + text[place]
            else:
                value += text[place]
            place += 1
        assert text[place + 1] == "\n"
        place += 2
        found[name] = value
    return found


class Values(HistoryTest):
    def test_several_pointers(self) -> None:
        self.assertEqual(self.does("get", "web", "/port", "/hosts/1", "/tls/key", "--raw"), "80\nb\nk\n")
        self.assertEqual(self.does("get", "web", "/hosts", "/port", "--json"), '["a","b"]\n"80"\n')
        with Store(self.folder) as store:
            store.set("web", "/port", "81")
        self.assertEqual(self.does("get", "web", "/port", "/port", "--raw", "--at", "1"), "80\n80\n")
        for fault, words in (
            ("NoSuchPlace", ["web", "/port", "/none", "--raw"]), ("BadPath", ["web", "/port", "x", "--raw"]),
            ("NotText", ["web", "/port", "/hosts", "--raw"]), ("NoConfig", ["none", "/a", "/b", "--raw"]),
            ("BadName", ["No", "/a", "/b", "--raw"]),
        ):  # fmt: skip
            self.is_refused(fault, "get", *words)
        for wrong in (
            ["/a", "/b"], ["/a", "/b", "--plain"], ["/a", "/b", "--raw", "--default", "x"],
            ["/a", "/b", "--raw", "--no-newline"], ["--env", "--raw"], ["--env", "--default", "x"],
        ):  # fmt: skip
            self.assertEqual(self.ctl("get", "web", *wrong)[0], 2, wrong)

    def test_variables(self) -> None:
        rows: tuple[tuple[list[str], str], ...] = (
            (["/port"], 'port="80"\n'), (["/port", "/tls"], 'port="80"\ntls_cert="c"\ntls_key="k"\n'),
            (["/hosts"], 'hosts_0="a"\nhosts_1="b"\n'), (["/hosts/1"], 'hosts_1="b"\n'),
            ([], 'port="80"\nhosts_0="a"\nhosts_1="b"\ntls_cert="c"\ntls_key="k"\n'),
        )  # fmt: skip
        for words, wanted in rows:
            self.assertEqual(self.does("get", "web", *words, "--env"), wanted)
        self.assertEqual(self.does("get", "dns", "--env"), "")
        with Store(self.folder) as store:
            store["odd"] = {"a-b": "1", "2": {"ü": "3"}}
            store["twice"] = {"a.b": "1", "a": {"b": "2"}}
            store["text"] = "x"
        self.assertEqual(self.does("get", "odd", "--env"), 'a_b="1"\n_2__="3"\n')
        self.assertIn("/a/b and another place", self.is_refused("NameTwice", "get", "twice", "--env"))
        self.is_refused("NameTwice", "get", "web", "/port", "/port", "--env")
        self.is_refused("NoVariable", "get", "text", "--env")

    def test_what_readers_take_of_them(self) -> None:
        with Store(self.folder) as store:
            store["hostile"] = {f"v{number}": value for number, value in enumerate(HOSTILE)}
        lines = self.does("get", "hostile", "--env")
        self.assertEqual(by_systemd(lines), {f"v{number}": value for number, value in enumerate(HOSTILE)})
        file = os.path.join(self.top, "file.env")
        with open(file, "w", encoding="utf-8", newline="") as target:
            target.write(lines)
        script = f". {file}; " + "; ".join(f'printf "%s\\0" "$v{number}"' for number in range(len(HOSTILE)))
        for shell in ("sh", "bash", "dash", "zsh", "busybox"):
            if shutil.which(shell):
                words = [shell, *(["sh"] if shell == "busybox" else []), "-c", script]
                done = subprocess.run(words, capture_output=True, check=True, timeout=60)
                self.assertEqual(done.stdout.decode().split("\0")[:-1], HOSTILE, shell)
