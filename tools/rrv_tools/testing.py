"""The base class of cases, rows as methods, and the process that runs cases.

A row of a table becomes a case with a name of its own: `@rows(TABLE, "play")` gives the class a method for each row,
which calls `play` with it. A class of cases is run in one process, in a folder of its own: each case begins in an
empty folder, which is removed afterwards.

`python3 -m rrv_tools.testing FILE` reads the names of cases from its standard input, a line each, runs them, and
writes into FILE a line in JSON as each ends.
"""
import contextlib
import dataclasses
import difflib
import json
import os
import pathlib
import re
import shutil
import subprocess
import sys
import tempfile
import time
import traceback
import types
import unittest
from collections.abc import Callable, Iterable, Iterator, Mapping
from typing import Any, ClassVar, TypeVar

from rrv_tools import preload
from rrv_tools import program as programs
from rrv_tools.program import Limits, Program, Result, Word

PASSED, FAILED, LEFT_OUT = "passed", "failed", "left out"
# Texts of more lines or characters are compared by a diff.
SHORT_LINES, SHORT = 3, 200
# What stands in a diff for the newline that the last line lacks.
NO_NEWLINE = "\\ no newline at the end"
Text = bytes | str
# Rows by their names.
Table = Mapping[str, Any] | Iterable[tuple[str, Any]]
Class = TypeVar("Class", bound=type[unittest.TestCase])
Made = TypeVar("Made")


@dataclasses.dataclass(frozen=True)
class Outcome:
    """How a case ended: its name below the package, PASSED, FAILED or LEFT_OUT, its seconds, what there is to say,
    and how many it counts for."""

    name: str
    kind: str
    seconds: float
    text: str = ""
    count: int = 1

    def line(self) -> str:
        """Its line in JSON."""
        return json.dumps(dataclasses.asdict(self))

    @staticmethod
    def read(line: str) -> "Outcome":
        """Reads its line."""
        return Outcome(**json.loads(line))


# ---- cases


class Case(unittest.TestCase):
    """A class of cases that run the program under test. A case runs in a folder of its own, or in the class's if they
    share that."""

    # About how many seconds the class takes by itself, and whether it measures time, so that nothing may run beside it.
    seconds: ClassVar[float] = 1
    is_alone: ClassVar[bool] = False
    # Programs without which it is left out.
    needs: ClassVar[tuple[str, ...]] = ()
    # The library that lines may run over, `preloaded` or `refusing` (preload), without which it is left out too.
    library: ClassVar[str] = ""
    # Whether it builds programs, or fetches them, so that only `./check --real` runs it.
    is_real: ClassVar[bool] = False
    # Whether all cases of the class run in one folder, which `setUpClass` of the class fills.
    shares_folder: ClassVar[bool] = False
    maxDiff = None
    # How many a case counts for once it passed: what it compared, if that is many of one kind.
    compared = 1

    program: ClassVar[Program]
    class_folder: ClassVar[pathlib.Path]
    shared: ClassVar[pathlib.Path]
    # What cases of the class made for all of them.
    kept: ClassVar[dict[Any, Any]]
    folder: pathlib.Path

    @classmethod
    def setUpClass(cls) -> None:
        super().setUpClass()
        missing = [it for it in cls.needs if shutil.which(it) is None]
        if missing:
            raise unittest.SkipTest(f"{' and '.join(missing)} is not installed")
        cls.program, cls.kept = programs.needed(), {}
        cls.class_folder = pathlib.Path(cls.enterClassContext(tempfile.TemporaryDirectory(prefix="rrv-")))
        # Some lines are run by another user, who has to reach the files.
        cls.class_folder.chmod(0o755)
        cls.enterClassContext(contextlib.chdir(cls.class_folder))
        if cls.library:
            cls.shared = preload.needed(cls.class_folder, cls.library)

    def setUp(self) -> None:
        super().setUp()
        self.folder = self.class_folder
        if not self.shares_folder:
            self.folder = pathlib.Path(self.enterContext(tempfile.TemporaryDirectory(dir=self.class_folder)))
            self.folder.chmod(0o755)
            self.enterContext(contextlib.chdir(self.folder))

    def once(self, make: Callable[..., Made], *of: Any) -> Made:
        """What `make` returns of these, for which it is called once in the class."""
        if (make, of) not in self.kept:
            self.kept[make, of] = make(*of)
        made: Made = self.kept[make, of]
        return made

    def run_line(self, *words: Word, stdin: bytes = b"", limits: Limits = programs.NO_LIMITS,
                 timeout: float = programs.PATIENCE) -> Result:
        """Runs a line of the program; it fails the case if it doesn't end within some seconds."""
        try:
            return self.program.run(*words, stdin=stdin, limits=limits, timeout=timeout)
        except subprocess.TimeoutExpired as late:
            text = f"rrv {programs.shown(words)}\ndid not end within {late.timeout:.0f} seconds"
            raise self.failureException(text) from None

    def need_line(self, *words: Word, status: int = 0, out: Text | None = b"", err: Text | None = b"",
                  stdin: bytes = b"") -> Result:
        """Runs a line, and fails the case if its status, its output or its errors are others than are wanted. None
        leaves them open."""
        result = self.run_line(*words, stdin=stdin)
        parts: list[tuple[str, Text | int | None, Text | int]] = [
            ("status", status, result.status), ("output", out, result.out), ("errors", err, result.err)]
        wanted = [(what, it.encode() if isinstance(it, str) else it, came) for what, it, came in parts]
        wrong = [difference(what, it, came) for what, it, came in wanted if it is not None and it != came]
        if wrong:
            raise self.failureException("\n".join([f"rrv {programs.shown(words)}", *wrong]))
        return result

    def need_refused(self, *words: Word, err: Text) -> Result:
        """Runs a line that has to be refused by this text, with the status 1 and nothing in its output."""
        return self.need_line(*words, status=1, err=err)

    def need_bad(self, *words: Word, message: str, usage: str = "<COMMAND>") -> Result:
        """Runs a line that is none: it has to end with the status 2, and print the message and the usage."""
        return self.need_line(*words, status=2, err=bad_text(message, usage))

    def need(self, what: str, wanted: object, came: object) -> None:
        """Fails the case if two are not equal."""
        if wanted != came:
            raise self.failureException(difference(what, wanted, came))


def bad_text(message: str, usage: str = "<COMMAND>") -> str:
    """The errors of a line that is none."""
    return f"error: {message}\n\nUsage: rrv {usage}\n\nFor more information, try '--help'.\n"


def difference(what: str, wanted: object, came: object) -> str:
    """What was wanted and what came, as a diff if both are texts of many lines; of other long values what is around
    the first place at which they differ."""
    before, after = _lines(wanted), _lines(came)
    if min(len(before), len(after)) > SHORT_LINES:
        lines = list(difflib.unified_diff(before, after, "wanted", "came", lineterm="", n=2))
        if lines:
            return "\n".join([f"{what}:", *lines])
    place = ""
    if isinstance(wanted, bytes) and isinstance(came, bytes) and max(len(wanted), len(came)) > SHORT:
        place = f", from byte {len(os.path.commonprefix([wanted, came]))} on"
    first = len(os.path.commonprefix([repr(wanted), repr(came)]))
    shown = [_shown(repr(it), first) for it in (wanted, came)]
    return f"{what}{place}: wanted {shown[0]}\n{' ' * len(what + place)}    came {shown[1]}"


def _lines(value: object) -> list[str]:
    """The lines of a text, each as it can be printed, and NO_NEWLINE if the last has none. What is no text has none:
    bytes that are not UTF-8, or of which one is zero."""
    text = value
    if isinstance(value, bytes):
        with contextlib.suppress(UnicodeDecodeError):
            text = value.decode()
    if not isinstance(text, str) or "\0" in text:
        return []
    lines = text.split("\n")
    end = [NO_NEWLINE] if lines[-1] else []
    shown = [it if it.isprintable() else it.encode("unicode_escape").decode() for it in lines]
    return [*(shown if end else shown[:-1]), *end]


def _shown(text: str, first: int) -> str:
    """A text; of a long one what is around a place, and how long it is."""
    if len(text) <= 2 * SHORT:
        return text
    begin, end = max(first - SHORT, 0), max(first, SHORT) + SHORT
    return f"{'.. ' if begin else ''}{text[begin:end]}{' ..' if end < len(text) else ''} ({len(text)} characters)"


# ---- rows


def method_name(name: str) -> str:
    """The name of the method of a row: `test_` and the row's name, with `_` for what a name can't have."""
    return "test_" + re.sub(r"\W+", "_", name).strip("_")


def add_rows(to: type[unittest.TestCase], table: Table, take: Callable[[Any, Any], None]) -> None:
    """Gives a class a method for each row of a table, which calls `take` with the case and the row. Two of one name
    are a ValueError."""
    def made(row: Any) -> Callable[[Any], None]:
        return lambda case: take(case, row)

    for name, row in table.items() if isinstance(table, Mapping) else table:
        method = method_name(name)
        if hasattr(to, method):
            raise ValueError(f"two cases of {to.__name__} are named {method}")
        test = made(row)
        test.__name__, test.__qualname__, test.__doc__ = method, f"{to.__qualname__}.{method}", name
        setattr(to, method, test)


def rows(table: Table, take: str) -> Callable[[Class], Class]:
    """A class decorator: adds a method for each row of a table, which calls the class's method `take` with it."""
    def decorate(to: Class) -> Class:
        add_rows(to, table, getattr(to, take))
        return to

    return decorate


# ---- the process that runs cases


class Results(unittest.TestResult):
    """Writes the outcome of each case as it ends."""

    def __init__(self, file: int) -> None:
        super().__init__()
        self.file, self.begun, self.wrong = file, time.monotonic(), ""

    def write(self, name: str, kind: str, text: str = "", count: int = 1) -> None:
        """Writes an outcome."""
        os.write(self.file, f"{Outcome(name, kind, time.monotonic() - self.begun, text, count).line()}\n".encode())

    def startTest(self, test: unittest.TestCase) -> None:
        super().startTest(test)
        self.begun, self.wrong = time.monotonic(), ""

    def addSuccess(self, test: unittest.TestCase) -> None:
        self.write(name_of(test), PASSED, count=getattr(test, "compared", 1))

    def addSkip(self, test: unittest.TestCase, reason: str) -> None:
        self.write(name_of(test), LEFT_OUT, reason)

    def addFailure(self, test: unittest.TestCase, err: Any) -> None:
        self.write(name_of(test), FAILED, failure_text(err))

    def addError(self, test: unittest.TestCase, err: Any) -> None:
        self.write(name_of(test), FAILED, failure_text(err))

    def addSubTest(self, test: unittest.TestCase, subtest: unittest.TestCase, err: Any) -> None:
        if err:
            self.write(name_of(test), FAILED, f"{subtest}\n{failure_text(err)}")


def name_of(test: unittest.TestCase) -> str:
    """The name of a case below the package; of what holds the failure of a class, `setUpClass` and the like stands in
    place of a method."""
    held = re.fullmatch(r"(\w+) \((.+)\)", test.id())
    return (f"{held[2]}.{held[1]}" if held else test.id()).removeprefix("rrv_tools.")


def failure_text(err: tuple[type[BaseException], BaseException, types.TracebackType | None]) -> str:
    """What an assertion says; of another exception the traceback too."""
    kind, error, trace = err
    if isinstance(error, AssertionError) and str(error):
        return str(error)
    return "".join(traceback.format_exception(kind, error, trace)).rstrip()


def main(path: str) -> int:
    """Runs the cases that standard input names, and writes their outcomes into a file."""
    names = sys.stdin.read().split()
    null = os.open(os.devnull, os.O_RDONLY)
    os.dup2(null, 0)
    os.close(null)
    suite, wrong = loaded(names)
    with open(path, "ab", buffering=0) as file:
        classes, results = {type(case) for case in cases_in(suite)}, Results(file.fileno())
        for name, text in wrong.items():
            results.write(name, FAILED, text)
        try:
            suite.run(results)
        finally:
            # One that is stopped has not cleaned up after itself.
            for it in classes:
                it.doClassCleanups()
    return 0


def loaded(names: Iterable[str]) -> tuple[unittest.TestSuite, dict[str, str]]:
    """The cases of these names, and of each name that can't be loaded, why."""
    suite, wrong = unittest.TestSuite(), {}
    for name in names:
        loader = unittest.TestLoader()
        try:
            cases = loader.loadTestsFromName(f"rrv_tools.{name}")
        except Exception:  # whatever a module raises
            wrong[name] = traceback.format_exc().rstrip()
        else:
            if loader.errors:
                wrong[name] = f"{loader.errors[0]}".strip()
            else:
                suite.addTest(cases)
    return suite, wrong


def cases_in(suite: unittest.TestSuite) -> Iterator[unittest.TestCase]:
    """The cases of a suite and of those in it."""
    for it in suite:
        if isinstance(it, unittest.TestSuite):
            yield from cases_in(it)
        elif isinstance(it, unittest.TestCase):
            yield it


if __name__ == "__main__":
    sys.exit(main(sys.argv[1]))
