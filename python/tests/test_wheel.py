"""The package is built and installed with nothing but Python."""

from __future__ import annotations

import os
import pathlib
import subprocess
import sys
import tempfile
import unittest
import venv
import zipfile

from . import TOP

HERE = os.path.join(TOP, "python")
BUILD = "import sys, wheel_of_confstore as w; w.build_wheel(sys.argv[1]); w.build_sdist(sys.argv[1])"


class Wheels(unittest.TestCase):
    def setUp(self) -> None:
        holder = tempfile.TemporaryDirectory()
        self.addCleanup(holder.cleanup)
        self.top = holder.name

    def built(self, name: str) -> dict[str, bytes]:
        """The bytes of the archives of a build, by name."""
        folder = os.path.join(self.top, name)
        os.mkdir(folder)
        subprocess.run([sys.executable, "-S", "-c", BUILD, folder], cwd=HERE, check=True, timeout=60)
        return {found: pathlib.Path(folder, found).read_bytes() for found in os.listdir(folder)}

    def test_the_same_bytes_twice(self) -> None:
        first = self.built("first")
        self.assertEqual(sorted(name[-7:] for name in first), [".tar.gz", "any.whl"])
        self.assertEqual(first, self.built("second"))

    def test_it_has_all_sources(self) -> None:
        (wheel,) = (name for name in self.built("one") if name.endswith(".whl"))
        with zipfile.ZipFile(os.path.join(self.top, "one", wheel)) as archive:
            self.assertIsNone(archive.testzip())
            packed = {name for name in archive.namelist() if name.startswith("confstore/")}
        sources = {f"confstore/{name}" for name in os.listdir(os.path.join(HERE, "confstore"))}
        self.assertEqual(packed, sources - {"confstore/__pycache__"})

    def test_pip_in_a_fresh_venv(self) -> None:
        folder = os.path.join(self.top, "fresh")
        try:
            venv.create(folder, with_pip=True)
        except subprocess.CalledProcessError:
            self.skipTest("this Python has no ensurepip")
        python = os.path.join(folder, "bin", "python")
        words = [python, "-m", "pip", "install", "--quiet", "--no-index", "--no-deps", HERE]
        done = subprocess.run(words, capture_output=True, text=True, check=False, timeout=120)
        self.assertEqual(done.returncode, 0, done.stderr)
        words = [python, "-m", "pip", "show", "-f", "confstore"]
        shown = subprocess.run(words, capture_output=True, text=True, check=True, timeout=60)
        self.assertIn("Requires: PyYAML", shown.stdout)
        self.assertIn("confstore/py.typed", shown.stdout)
        self.assertTrue(os.access(os.path.join(folder, "bin", "confstorectl"), os.X_OK))

    def test_the_program_of_the_wheel(self) -> None:
        (wheel,) = (name for name in self.built("one") if name.endswith(".whl"))
        folder = os.path.join(self.top, "site")
        words = [sys.executable, "-m", "pip", "install", "--quiet", "--no-index", "--no-deps", "--target", folder]
        done = subprocess.run(
            [*words, os.path.join(self.top, "one", wheel)], capture_output=True, text=True, check=False, timeout=120
        )
        if "No module named pip" in done.stderr:
            self.skipTest("this Python has no pip")
        self.assertEqual(done.returncode, 0, done.stderr)
        program, environment = os.path.join(folder, "bin", "confstorectl"), {**os.environ, "PYTHONPATH": folder}
        done = subprocess.run([program, "--version"], env=environment, capture_output=True, text=True, check=True)
        self.assertRegex(done.stdout, r"\Aconfstorectl [0-9.]+\n\Z")


if __name__ == "__main__":
    unittest.main()
