"""Runs the program over a library that stands between it and the C library: `preloaded.c` notes its calls, and does
otherwise with one of them; `refusing.c` refuses growths of its memory. What their options do stands at the top of
these files."""
import os
import pathlib
import shutil
import struct
import subprocess
import tempfile
import unittest
from collections.abc import Mapping, Sequence
from typing import Any, NamedTuple

from rrv_tools.program import PATIENCE, Result

FOLDER = pathlib.Path(__file__).resolve().parent
# The calls by their numbers in the notes; those that make a file safe; and those that change it or make it safe.
NAMES = ("write", "pwrite", "ftruncate", "fsync", "fdatasync", "pread", "statx", "posix_fadvise", "flock", "close")
SYNCS = ("fsync", "fdatasync")
CHANGES = ("write", "pwrite", "ftruncate", *SYNCS)
HEAD = struct.Struct("7q")
# All growths from one on.
ALL = 1 << 62


class Moment(NamedTuple):
    """A moment of the program: a call begins, or has ended. `data` has its bytes, or of a sync the name of its file."""

    call: str
    has_ended: bool
    descriptor: int
    at: int
    result: int
    is_chosen: bool
    data: bytes


def build(folder: str | pathlib.Path, name: str = "preloaded") -> pathlib.Path | None:
    """Builds a library, `preloaded` or `refusing`, in a folder, by whichever C compiler is there, of which the
    toolchain of rt has one; None if there is none."""
    shared = pathlib.Path(folder).resolve() / f"{name}.so"
    kit = pathlib.Path(shutil.which("rt") or "rt").resolve().parents[1]
    words = ["-O1", "-shared", "-fPIC", "-nostdlib", "-o", str(shared), str(FOLDER / f"{name}.c")]
    for compiler in (["cc"], [f"{kit}/toolchain/bin/clang", "-fuse-ld=lld"]):
        is_there = shutil.which(compiler[0]) is not None
        if is_there and subprocess.run([*compiler, *words], capture_output=True, check=False).returncode == 0:
            return shared
    return None


def needed(folder: str | pathlib.Path, name: str = "preloaded") -> pathlib.Path:
    """Builds a library for cases, which are left out if there is no C compiler."""
    shared = build(folder, name)
    if shared is None:
        raise unittest.SkipTest("no C compiler is installed")
    return shared


def moments_in(text: bytes) -> list[Moment]:
    """What was noted, in its order."""
    found, place = [], 0
    while place < len(text):
        call, ended, descriptor, at, result, chosen, length = HEAD.unpack_from(text, place)
        place += HEAD.size + length
        data = text[place - length: place]
        found.append(Moment(NAMES[call], bool(ended), descriptor, at, result, bool(chosen), data))
    return found


def run(shared: str | pathlib.Path, words: Sequence[str | pathlib.Path], options: Mapping[str, object] | None = None,
        **how: Any) -> tuple[Result, list[Moment]]:
    """How a process ended over `preloaded`, and the moments that were noted. `options` are those of the library; `how`
    is for subprocess.run."""
    with tempfile.TemporaryFile("a+b") as log:
        given = {name: f"{value}" for name, value in (options or {}).items()}
        named = {**os.environ, "LD_PRELOAD": str(shared), "CALLS_LOG": f"{log.fileno()}", **given}
        how = {"stdin": subprocess.DEVNULL, "capture_output": True, "timeout": PATIENCE, "check": False, **how}
        done = subprocess.run(words, env=named, pass_fds=[log.fileno()], **how)
        log.seek(0)
        return Result(done.returncode, done.stdout, done.stderr), moments_in(log.read())


def refuse(shared: str | pathlib.Path, words: Sequence[str | pathlib.Path], nth: int, count: int = 1,
           **how: Any) -> tuple[bool, Result | None]:
    """Whether a process over `refusing` asked for its growth number `nth`, from which this many are refused, and how
    it ended; None if it didn't in time. `how` is for subprocess.run."""
    reads, writes = os.pipe()
    options = {"REFUSED_GROWTH": f"{nth}", "REFUSED_MANY": f"{count}", "REFUSED_TELLS": f"{writes}"}
    named = {**os.environ, "LD_PRELOAD": str(shared), **options}
    how = {"capture_output": True, "timeout": PATIENCE, "check": False, **how}
    with os.fdopen(reads, "rb") as reached:
        try:
            done = subprocess.run(words, env=named, pass_fds=[writes], **how)
            result = Result(done.returncode, done.stdout, done.stderr)
        except subprocess.TimeoutExpired:
            result = None
        finally:
            os.close(writes)
        return reached.read() != b"", result
