"""Refuses each growth of a test in turn.

Expected values: the tests themselves, which look for `Memory` after a refused growth and make the same call again.

usage: tools/run refused_growths [CRATE [TEXT]]

runs those tests of a crate whose full names have this text (with no word: those of LOOKS), once for each of their
growths, which is then refused. Of a program of ROWS it runs those rows that begin so and have this text, each alone.
The tests or the program have to be built (`rt ci` or, in the crate's folder, `rt test` or `rt run`).

A test fails if a growth is refused that it needs before its subject, and passes after these, as it looks for Memory and
makes the same call again. So for each test it prints how many growths made it fail, and how many it passed. A test
counts as failed if it fails after the first growth that it passed, or passes none. Some tests are run once more with
the growth after it refused too, and some with all after it: these have to end, and to ask for nothing after their
subject.

The growths are those of a call, a slice and an address space, and of turns of a flusher, steps of a recorder, openings
of a store, verifications and cursors (docs/PROOFS.md, "Out of memory").
"""
import concurrent.futures
import functools
import itertools
import pathlib
import subprocess
import sys
import tempfile
from collections.abc import Sequence
from typing import NamedTuple

from rrv_tools import preload
from rrv_tools.program import ROOT

# The programs with rows that look for a refused growth, and how these begin.
ROWS = {"storage_cases": "no-memory "}
# How many growths are refused in a row, and how that is printed.
ONE, TWO = 1, 2
COUNTS = {ONE: "", TWO: ", each with the next", preload.ALL: ", each from one on"}
# The tests that look for a refused growth: crates, parts of their names, and how many growths are refused in a row.
LOOKS = (
    ("guest_tests", "a_refused", ONE),
    *((f"{it}_tests", "finds_no_memory", ONE) for it in ("slice", "group", "session", "program")),
    *((*it, ONE) for it in ROWS.items()),
    ("slice_tests", "a_slice_to_a_shared_page_finds_no_memory", TWO),
    ("session_tests", "a_session_finds_no_memory", preload.ALL),
)


class Test(NamedTuple):
    """A test, or a row: its name, the words that run it, what it reads, and the folder that it is run in."""

    name: str
    words: list[str]
    text: bytes = b""
    folder: pathlib.Path | None = None


class Found(NamedTuple):
    """How many growths made a test fail, how many it passed, and whether all of these came last."""

    failed: int
    passed: int
    in_order: bool

    def is_well(self) -> bool:
        """Whether that is as it has to be."""
        return self.in_order and self.passed > 0


def refuse_each(shared: pathlib.Path, count: int, test: Test) -> Found:
    """Runs a test once for each of its growths, from which this many are refused."""
    ends: list[bool] = []
    for nth in itertools.count(1):
        reached, ended = preload.refuse(shared, test.words, nth, count, input=test.text, cwd=test.folder)
        passes = ended is not None and ended.status == 0
        if not reached:
            return Found(ends.count(False), ends.count(True), passes and ends == sorted(ends))
        ends.append(passes)
    raise AssertionError("growths have no end")


def tests_of(crate: str, text: str) -> list[Test]:
    """Those of a crate's tests whose names have this text, or one of its words."""
    program = ROOT / "crates" / crate / "out" / f"{crate}_tests"
    if not program.is_file():
        return []
    listed = subprocess.run([program, "--list"], capture_output=True, text=True, check=True).stdout.splitlines()
    names = [it.removesuffix(": test") for it in listed if it.endswith(": test")]
    return [Test(it, [str(program), it]) for it in names if any(part in it for part in text.split() or [""])]


def rows_of(crate: str, text: str) -> list[Test]:
    """Those rows of a program that look for a refused growth and have this text."""
    folder = ROOT / "crates" / crate
    program = folder / "out" / crate
    if not program.is_file():
        return []
    lines = (folder / "stdin").read_text(encoding="utf-8").splitlines(keepends=True)
    some = [it for it in lines if it.startswith(ROWS[crate]) and text in it]
    return [Test(it.partition(" = ")[0], [str(program)], it.encode(), folder / "data") for it in some]


def main(words: Sequence[str]) -> int:
    """Runs the tests that the words name, or all of LOOKS."""
    looks = ((words[0], "".join(words[1:]), ONE),) if words else LOOKS
    passed = failed = 0
    with tempfile.TemporaryDirectory() as folder, concurrent.futures.ThreadPoolExecutor() as pool:
        shared = preload.build(folder, "refusing")
        if shared is None:
            print("refused_growths: no C compiler is installed", file=sys.stderr)
            looks, failed = (), 1
        for crate, text, count in looks:
            tests = (rows_of if crate in ROWS else tests_of)(crate, text)
            if not tests:
                failed += 1
                print(f"{crate}: it has no built test named {text}")
            tried = pool.map(functools.partial(refuse_each, shared, count), tests)
            for test, found in zip(tests, tried, strict=True):
                passed, failed = passed + found.is_well(), failed + (not found.is_well())
                print(f"{crate} {test.name}{COUNTS[count]}: failed {found.failed}, passed {found.passed}"
                      f"{'' if found.is_well() else ': not as it has to'}", flush=True)
    print(f"{passed} passed, {failed} failed")
    return 1 if failed else 0
