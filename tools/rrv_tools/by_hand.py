"""Runs a class of cases by hand in this process, with other numbers than `./check` has."""
import collections
import pathlib
import shutil
import tempfile
import unittest
from typing import Any

from rrv_tools import testing
from rrv_tools.testing import FAILED, PASSED, Case


class Printed(testing.Results):
    """Prints each failure as it comes, and keeps the files of the first class of which a case failed."""

    def __init__(self) -> None:
        super().__init__(-1)
        self.counts: collections.Counter[str] = collections.Counter()
        self.kept: pathlib.Path | None = None

    def write(self, name: str, kind: str, text: str = "", count: int = 1) -> None:
        self.counts[kind] += count
        if kind != PASSED:
            print(name, *(f"    {line}" for line in text.splitlines()), sep="\n", flush=True)

    def addFailure(self, test: unittest.TestCase, err: Any) -> None:
        super().addFailure(test, err)
        if isinstance(test, Case):
            self.kept = self.kept or pathlib.Path(tempfile.mkdtemp(prefix="rrv-kept-"))
            shutil.copytree(test.class_folder, self.kept, dirs_exist_ok=True)


def run(of: type[unittest.TestCase]) -> int:
    """Runs the cases of a class, and prints their count; the status is 0 if none failed."""
    results = Printed()
    unittest.defaultTestLoader.loadTestsFromTestCase(of).run(results)
    if results.kept:
        print(f"the files are in {results.kept}")
    print(f"{results.counts[PASSED]} passed, {results.counts[FAILED]} failed")
    return 1 if results.counts[FAILED] else 0
