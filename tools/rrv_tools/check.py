"""Tests the program that ./rrv starts, or RRV_PROGRAM.

usage: ./check                       runs every case and look that needs no prover
       ./check -k WORD ..            those whose name is or has one of the words, or matches one with `*`
       ./check --list [-k WORD ..]   prints the names, one a line
       ./check --real [-k WORD ..]   builds programs over musl, records them, and compares; takes half an hour or more
       ./check --proofs [--times]    is the gate: proves all, compares the release, and then does all of ./check
       --junit FILE                  writes what was found as JUnit's XML too

A case stands in a class of tools/rrv_tools/cases, or of tools/rrv_tools/tests; a look is a tool of the package. Classes
and looks run side by side, one more than there are processors that this process may use, since some of them mostly
wait. The longest come first, and those that measure time run alone at the end. As each ends there is a line with what
it counted and its seconds. What failed follows, and how to run it again. What needs a compiler or a debugger says that
it was left out if that is missing.

The gate first compares the logic of the kit in use with the one that release/FROM names. It runs `rt ci`, which proves
every crate, tries the edits of must-fail/, and runs the tests and the programs. With some kits that takes over what an
earlier run on this machine proved or refused, if no file of that crate or of one below it changed. If all that passes,
./rrv starts the program that it built (tools/run build --by), and tools/run release compares that with the release. If
they were built by different kits, the rows of two looks are run on both. Then come the looks at what the gate built,
and all others.

With --real it runs just the cases of classes with `is_real`, which no other line runs. They need Debian's package
gcc-riscv64-unknown-elf, some of them qemu-user, rustc 1.63 with rust-src, or tcl, and sources, which apt-get fetches.
First examples/musl/build-musl fills the folder RRV_MUSL, or a temporary one if that isn't set. What is missing is said,
and what needs it is left out.

With --times the gate also prints how many minutes of processor time each crate took: its proof, its tests, its edits.
They are looked up twice a second while the checks run, so each may be some seconds short.

The last line counts all, as 'N passed, M failed'; the status is 0 only for 0 failed.
"""
import argparse
import contextlib
import fnmatch
import importlib
import os
import pathlib
import pkgutil
import resource
import signal
import sys
import time
import types
import unittest
import xml.etree.ElementTree as xml
from collections.abc import Iterator, Sequence

import rrv_tools.cases
import rrv_tools.tests
from rrv_tools import gate, jobs, musl
from rrv_tools import program as programs
from rrv_tools.jobs import Counts, Done, Job
from rrv_tools.program import ROOT
from rrv_tools.testing import FAILED, PASSED, Outcome

# A class that takes longer is split into processes of about this many seconds.
SHARD = 40


def look(words: str, seconds: float) -> Job:
    """A tool of the package, with its words."""
    return Job(f"tools/{words.split()[0]}", seconds, words=("run", *words.split()))


# The tools that count what they look at themselves, with their words, and what each looks at.
LOOKS = (
    # that the wrong bodies of each crate were all refused at the text that the crate has now
    look("edits --stale", 3),
    # that no line of a definition or a proof is longer than 140 columns
    look("wrap_proofs --check", 1),
    # the files that CONTRIBUTING.md lists, for who adds a call, an instruction, a record kind or a command
    look("places", 3),
    # the picture, the table and the reading order of docs/ARCHITECTURE.md beside crates.txt
    look("architecture", 2),
    # the minutes and the logic that docs/PROOFS.md has, beside tools/minutes.toml and release/FROM
    look("proofs_page --check", 1),
    # the table that docs/TESTS.md has, beside the docstrings of the modules of cases
    look("tests_page --check", 3),
)
# The tools that look at what only the gate builds: the tests of refused growths, with each growth refused in turn.
OF_PROOFS = (look("refused_growths", 60),)
# How the names begin of what is compared on the release and on the program that the gate built, if these are not the
# same bytes.
OF_BOTH = ("cases.lines", "cases.scenes")


# ---- finding cases


def classes_in(module: types.ModuleType) -> list[type[unittest.TestCase]]:
    """The classes of cases that a module defines."""
    found = [it for it in vars(module).values() if isinstance(it, type) and issubclass(it, unittest.TestCase)]
    return [it for it in found if it.__module__ == module.__name__]


def jobs_of_class(of: type[unittest.TestCase], words: Sequence[str]) -> Iterator[Job]:
    """The jobs of those cases of a class whose names fit the words; several if it takes long."""
    name = f"{of.__module__.removeprefix('rrv_tools.')}.{of.__qualname__}"
    every = [f"{name}.{it}" for it in unittest.defaultTestLoader.getTestCaseNames(of)]
    cases = chosen(every, words)
    if not cases:
        return
    seconds = float(getattr(of, "seconds", 0.2)) * len(cases) / len(every)
    is_alone = bool(getattr(of, "is_alone", False))
    shards = 1 if is_alone else min(-(-int(seconds) // SHARD) or 1, len(cases))
    for shard in range(shards):
        title = name if shards == 1 else f"{name} {shard + 1}/{shards}"
        yield Job(title, seconds / shards, is_alone, tuple(cases[shard::shards]))


def jobs_of_module(name: str, words: Sequence[str], is_real: bool) -> Iterator[Job]:
    """The jobs of a module's classes of one kind; a module that can't be imported has a job, which fails by that."""
    try:
        module = importlib.import_module(name)
    except Exception:  # whatever it raises, its job shows
        short = name.removeprefix("rrv_tools.")
        yield Job(short, 0, cases=(short,))
        return
    for it in classes_in(module):
        if getattr(it, "is_real", False) == is_real:
            yield from jobs_of_class(it, words)


def jobs_found(words: Sequence[str] = (), is_real: bool = False) -> list[Job]:
    """All jobs of which the names fit the words: those that build programs, or all others."""
    packages = (pkgutil.iter_modules(it.__path__, f"{it.__name__}.") for it in (rrv_tools.cases, rrv_tools.tests))
    modules = sorted(it.name for package in packages for it in package)
    of_modules = [job for name in modules for job in jobs_of_module(name, words, is_real)]
    return [*of_modules, *(it for it in LOOKS if not is_real and fits(it.name, words))]


def chosen(names: Sequence[str], words: Sequence[str]) -> list[str]:
    """Those of the names that fit the words. A word that is a whole name means that one alone."""
    others = [it for it in words if it not in names]
    return [it for it in names if it in words or (others or not words) and fits(it, others)]


def fits(name: str, words: Sequence[str]) -> bool:
    """Whether a name has one of the words, or matches one with `*`; all do if there is none."""
    return not words or any(fnmatch.fnmatchcase(name, it) if "*" in it else it in name for it in words)


# ---- running


def run_jobs(some: Sequence[Job], program: programs.Program | None, found: list[Done]) -> list[Counts]:
    """Runs jobs at a program, adds what they did, and returns their counts."""
    if program is None:
        named = os.environ.get("RRV_PROGRAM")
        why = f": RRV_PROGRAM={named}, from the root of the repository, is none" if named else ""
        print(f"check: there is no program to look at{why}", flush=True)
        return [(0, 1)]
    print(f"the program is {os.path.relpath(program.path, ROOT)}", flush=True)
    done = jobs.run_jobs(some, program.path)
    found += done
    return [it.counts for it in done]


def run_gate(with_times: bool, found: list[Done]) -> list[Counts]:
    """The gate, with the jobs at both programs and at the one that it built."""
    def look_at_both(program: pathlib.Path) -> list[Counts]:
        done = jobs.run_jobs([it for it in jobs_found() if it.name.startswith(OF_BOTH)], program)
        found.extend(done)
        return [it.counts for it in done]

    def look_at_program() -> list[Counts]:
        return run_jobs([*OF_PROOFS, *jobs_found()], programs.started(), found)

    return gate.gate(with_times, look_at_both, look_at_program)


def junit(found: Sequence[Done]) -> xml.ElementTree:
    """What was found, as JUnit's XML: a suite for each job, and a case for each of its cases; a look is one."""
    root = xml.Element("testsuites")
    for done in found:
        (passed, failed), seconds = done.counts, f"{done.seconds:.3f}"
        total = f"{passed + failed}"
        suite = xml.SubElement(root, "testsuite", name=done.job.name, tests=total, failures=f"{failed}", time=seconds)
        kind = FAILED if failed else PASSED
        for it in done.outcomes or [Outcome(done.job.name.replace("/", "."), kind, done.seconds, done.text)]:
            of, _, name = it.name.rpartition(".")
            case = xml.SubElement(suite, "testcase", classname=of, name=name, time=f"{it.seconds:.3f}")
            if it.kind != PASSED:
                element = "failure" if it.kind == FAILED else "skipped"
                xml.SubElement(case, element, message=it.text.partition("\n")[0]).text = it.text
    return xml.ElementTree(root)


def end(number: int, _: types.FrameType | None) -> None:
    """Ends this program as a signal asks, by what it has to do before."""
    sys.exit(128 + number)


def parsed(words: Sequence[str]) -> argparse.Namespace:
    """What the words ask for; it ends the program if they ask for nothing that there is."""
    usage = (__doc__ or "").partition("usage: ")[2].partition("\n\n")[0]
    parser = argparse.ArgumentParser(prog="./check", add_help=False, usage=usage)
    parser.add_argument("-k", dest="names", nargs="+", default=[])
    for it in ("--list", "--proofs", "--real", "--times", "-h", "--help"):
        parser.add_argument(it, action="store_true")
    parser.add_argument("--junit", type=pathlib.Path)
    asked = parser.parse_args(words)
    if asked.times and not asked.proofs or asked.proofs and (asked.names or asked.list or asked.real):
        parser.error("--proofs runs all, and --times goes with it alone")
    return asked


def main(words: Sequence[str]) -> int:
    """Runs what the words ask for; the status is 0 if nothing failed."""
    asked = parsed(words)
    if asked.h or asked.help:
        print(__doc__, end="")
        return 0
    some = [] if asked.proofs else jobs_found(asked.names, asked.real)
    if asked.list:
        print("\n".join(name for it in some for name in it.cases or [it.name]))
    if not asked.proofs and (asked.list or not some):
        if not some:
            print(f"check: nothing is named so: {' '.join(asked.names)}", file=sys.stderr)
        return 0 if some else 2
    for it in (signal.SIGTERM, signal.SIGHUP):
        if signal.getsignal(it) != signal.SIG_IGN:
            signal.signal(it, end)
    start = time.monotonic()
    found: list[Done] = []
    with musl.prepared() if asked.real else contextlib.nullcontext():
        counts = run_gate(asked.times, found) if asked.proofs else run_jobs(some, programs.found(), found)
    use = resource.getrusage(resource.RUSAGE_CHILDREN)
    minutes = (use.ru_utime + use.ru_stime) / 60, (time.monotonic() - start) / 60
    print(f"minutes: {minutes[0]:.1f} of processors, {minutes[1]:.1f} by the clock")
    if asked.junit:
        junit(found).write(asked.junit, encoding="utf-8", xml_declaration=True)
    passed, failed = (sum(it) for it in zip(*counts, strict=True))
    print(f"{passed} passed, {failed} failed")
    return 1 if failed else 0
