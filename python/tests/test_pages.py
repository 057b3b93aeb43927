"""The examples of the pages do what they say."""

import os
import re
import subprocess
import sys
import textwrap
import unittest

from confstore import Store

from . import TOP
from .places import StoreTest


class Pages(StoreTest):
    def run_example(self, code: str) -> str:
        """What an example prints, over a store of its own in place of the one in /var/lib/app."""
        with open(os.path.join(self.top, "dns.yaml"), "w", encoding="utf-8") as target:
            target.write("server: a\n")
        code = code.replace("/var/lib/app", os.path.join(self.top, "app"))
        environment = {**os.environ, "PYTHONPATH": os.path.join(TOP, "python")}
        done = subprocess.run(
            [sys.executable, "-c", code], cwd=self.top, env=environment, capture_output=True, check=False, timeout=60
        )
        errors = done.stderr.decode()
        if "confstore.faults.Unsupported" in errors:
            self.skipTest(errors.splitlines()[-1])
        self.assertEqual((done.returncode, errors), (0, ""))
        return done.stdout.decode()

    def on_page(self, pattern: str, *names: str) -> re.Match[str]:
        """What a pattern matches on a page."""
        with open(os.path.join(TOP, *names), encoding="utf-8") as source:
            found = re.search(pattern, source.read())
        assert found is not None, names
        return found

    def test_readme(self) -> None:
        code = self.on_page(r"(?m)^    from confstore import Store\n(?:    .*\n|\n)*", "README.md")[0]
        self.run_example(textwrap.dedent(code))
        with Store(os.path.join(self.top, "app")) as store:
            self.assertEqual(store["web"], {"port": "81"})

    def test_readme_of_the_package(self) -> None:
        code = self.on_page(r"(?s)```python\n(.*?)```", "python", "README.md")[1]
        self.assertEqual(self.run_example(code), "a ['web', 'dns']\n")
        with Store(os.path.join(self.top, "app")) as store:
            self.assertEqual(store["web"], {"port": "81", "hosts": ["a", "b", "c"]})

    def test_following(self) -> None:
        """The example of the package's page, for three changes."""
        code = self.on_page(r"(?s)```python\n(from confstore import Cut.*?)```", "python", "README.md")[1]
        code = code.replace(".follow()", ".follow(2)")
        folder = os.path.join(self.top, "app")
        with Store(folder, make=True) as store:
            store["web"] = {"port": "80"}
            store.set("web", "/port", "81")
            store.checkpoint()
            store.set("web", "/port", "82")
            store["dns"] = "x"
        three = "    for change in [changes.within(9) for _ in range(3)]:\n"
        code = code.replace("    for change in changes:\n", three)
        wanted = "a checkpoint dropped 2 to 2 before they were seen\n3 [('set', '/port', '82')]\n"
        self.assertEqual(self.run_example(code), wanted)

    def test_docstring(self) -> None:
        pattern = r"(?m)^    from confstore import Store\n(?:    .*\n|\n)*"
        code = self.on_page(pattern, "python", "confstore", "__init__.py")[0]
        self.assertEqual(self.run_example(textwrap.dedent(code)), "81\n")


if __name__ == "__main__":
    unittest.main()
