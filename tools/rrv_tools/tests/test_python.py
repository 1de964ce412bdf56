"""The checkers of Python, mypy and ruff, over what pyproject.toml has settings for; and that a finding fails their
case."""
import os
import pathlib
import shutil
import subprocess
import tempfile
import tomllib
import unittest
from unittest import mock

from rrv_tools.program import ROOT

# What is checked: mypy takes that from its settings, and ruff as words.
CHECKED = tomllib.loads((ROOT / "pyproject.toml").read_text(encoding="utf-8"))["tool"]["mypy"]["files"]


class Python(unittest.TestCase):
    """The checkers have no finding."""

    seconds = 16

    def need_clean(self, *words: str) -> None:
        """A checker has no finding; its case is left out if it is missing."""
        if shutil.which(words[0]) is None:
            self.skipTest(f"{words[0]} is not installed")
        done = subprocess.run(words, cwd=ROOT, stdin=subprocess.DEVNULL, stdout=subprocess.PIPE,
                              stderr=subprocess.STDOUT, text=True, check=False)
        if done.returncode != 0:
            self.fail(done.stdout)

    def test_mypy(self) -> None:
        self.need_clean("mypy", "--strict", f"--cache-dir={os.devnull}")

    def test_ruff(self) -> None:
        self.need_clean("ruff", "check", "--no-cache", *CHECKED)


class Findings(unittest.TestCase):
    """Those cases, with checkers that are made up."""

    def run_case(self, name: str, checker: str | None) -> unittest.TestResult:
        """How a case ends, with this text alone as its checker on the PATH."""
        folder, result = pathlib.Path(self.enterContext(tempfile.TemporaryDirectory())), unittest.TestResult()
        if checker is not None:
            (folder / name).write_text(checker, encoding="utf-8")
            (folder / name).chmod(0o755)
        with mock.patch.dict(os.environ, PATH=str(folder)):
            Python(f"test_{name}").run(result)
        return result

    def test_a_finding(self) -> None:
        """The case fails, and says what the checker printed."""
        for name in ("mypy", "ruff"):
            result = self.run_case(name, "#!/bin/sh\necho 'a.py:1: a finding'\nexit 1\n")
            self.assertEqual((len(result.failures), result.errors, result.skipped), (1, [], []))
            self.assertIn("a.py:1: a finding", result.failures[0][1])

    def test_no_finding(self) -> None:
        """It passes; the checker runs at the root of the repository."""
        needs = "#!/bin/sh\n[ -e pyproject.toml ] && [ -e tools/rrv_tools ]\n"
        for name in ("mypy", "ruff"):
            result = self.run_case(name, needs)
            self.assertEqual((result.testsRun, result.wasSuccessful(), result.skipped), (1, True, []))

    def test_no_checker(self) -> None:
        """It is left out."""
        for name in ("mypy", "ruff"):
            result = self.run_case(name, None)
            self.assertEqual([why for _, why in result.skipped], [f"{name} is not installed"])
