"""Runs the program under test: RRV_PROGRAM, or else the one that ./rrv starts, which tools/program prints."""
import dataclasses
import functools
import os
import pathlib
import resource
import shlex
import signal
import subprocess
from collections.abc import Callable, Mapping
from typing import NamedTuple

ROOT = pathlib.Path(__file__).resolve().parents[2]
GUESTS = ROOT / "tools" / "guests"
# A line may run for this many seconds.
PATIENCE = 60
# A word of a line: paths and numbers may stand there too.
Word = str | int | pathlib.Path


class Result(NamedTuple):
    """How a line ended; a signal's status is its number, negative."""

    status: int
    out: bytes
    err: bytes


class Wrong(AssertionError):
    """Something is not as it has to be."""


class Refused(Wrong):
    """A line that has to succeed ended with another status, or there is no program."""


@dataclasses.dataclass(frozen=True)
class Limits:
    """Limits of a process, in bytes; None leaves each as it is. A write past the length of files ends in EFBIG, or by
    SIGXFSZ if that is not ignored."""

    address_space: int | None = None
    stack: int | None = None
    file_length: int | None = None
    ignores_file_length: bool = True

    def set(self) -> None:
        """Sets them for this process."""
        if self.file_length is not None:
            signal.signal(signal.SIGXFSZ, signal.SIG_IGN if self.ignores_file_length else signal.SIG_DFL)
        limits = self.address_space, self.stack, self.file_length
        for kind, limit in zip((resource.RLIMIT_AS, resource.RLIMIT_STACK, resource.RLIMIT_FSIZE), limits, strict=True):
            if limit is not None:
                resource.setrlimit(kind, (limit, limit))

    def before(self) -> Callable[[], None] | None:
        """What subprocess is to call in a process before it runs the program; None if there is no limit."""
        return None if self == Limits() else self.set


NO_LIMITS = Limits()


def shown(words: tuple[Word, ...]) -> str:
    """A line as a shell takes it."""
    return shlex.join(str(it) for it in words)


@dataclasses.dataclass(frozen=True)
class Program:
    """A program, by its path. Its lines have no standard input if none is given."""

    path: pathlib.Path

    def words(self, *words: Word) -> list[str]:
        """The words of a process of it."""
        return [str(self.path), *(str(it) for it in words)]

    def run(self, *words: Word, stdin: bytes = b"", timeout: float = PATIENCE, limits: Limits = NO_LIMITS,
            environment: Mapping[str, str] | None = None) -> Result:
        """Runs a line to its end, by subprocess.TimeoutExpired if it doesn't end in time. Variables are added to the
        environment."""
        ran = subprocess.run(self.words(*words), input=stdin, capture_output=True, timeout=timeout, check=False,
                             env={**os.environ, **(environment or {})}, preexec_fn=limits.before())
        return Result(ran.returncode, ran.stdout, ran.stderr)

    def run_well(self, *words: Word, stdin: bytes = b"") -> Result:
        """Runs a line that has to succeed, by Refused if it doesn't."""
        result = self.run(*words, stdin=stdin)
        if result.status != 0:
            raise Refused(f"rrv {shown(words)} ended with {result.status}: {result.err[-200:]!r}")
        return result

    def start(self, *words: Word, limits: Limits = NO_LIMITS, out: int = subprocess.PIPE,
              err: int = subprocess.PIPE) -> "subprocess.Popen[bytes]":
        """Starts a line without standard input; its streams have no buffer."""
        return subprocess.Popen(self.words(*words), stdin=subprocess.DEVNULL, stdout=out, stderr=err, bufsize=0,
                                preexec_fn=limits.before())


def at(path: str | pathlib.Path) -> Program | None:
    """The program at a path, which is relative to the root of the repository; None if there is none that can be run."""
    whole = (ROOT / path).resolve()
    return Program(whole) if whole.is_file() and os.access(whole, os.X_OK) else None


def started() -> Program | None:
    """The program that ./rrv starts, or None if there is none."""
    launcher = [ROOT / "tools" / "program"]
    done = subprocess.run(launcher, stdin=subprocess.DEVNULL, stdout=subprocess.PIPE, text=True, check=False)
    return at(done.stdout.strip()) if done.returncode == 0 else None


@functools.cache
def found() -> Program | None:
    """The program under test, or None if there is none."""
    path = os.environ.get("RRV_PROGRAM")
    return at(path) if path else started()


def needed() -> Program:
    """The program under test, by Refused if there is none."""
    program = found()
    if program is None:
        raise Refused("there is no program to look at")
    return program
