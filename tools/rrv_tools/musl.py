"""The C library of examples/musl, as the cases need it that build programs over it.

The processes of cases find it by the environment: RRV_MUSL has the folder, or RRV_MUSL_MISSING why there is none.
"""
import contextlib
import fcntl
import os
import pathlib
import shutil
import subprocess
import tempfile
import unittest
from collections.abc import Iterator, Sequence
from typing import ClassVar

from rrv_tools.program import ROOT, Word
from rrv_tools.testing import Case

KIT, REAL = ROOT / "examples" / "musl", ROOT / "examples" / "real"
# The last says that the cases are those of `./check --real`.
FOLDER, MISSING, IS_REAL = "RRV_MUSL", "RRV_MUSL_MISSING", "RRV_REAL"
# How long a compiler, and how long a build of a library or a program may take.
SECONDS, BUILD_SECONDS = 120, 7200

# What a script prints of a source that it can't fetch, or of a program that isn't there.
ABSENT = ("can't fetch", "is not installed", "has no list of Debian's packages")

Ran = subprocess.CompletedProcess[bytes]


def ran(words: Sequence[Word], seconds: int = SECONDS, environment: dict[str, str] | None = None) -> Ran:
    """Runs a command, without input."""
    named = {**os.environ, **(environment or {})}
    return subprocess.run([str(it) for it in words], env=named, stdin=subprocess.DEVNULL, capture_output=True,
                          timeout=seconds, check=False)


@contextlib.contextmanager
def prepared() -> Iterator[None]:
    """Builds musl for as long as this is entered, or looks whether the folder that RRV_MUSL names has it."""
    kept = {it: os.environ.get(it) for it in (FOLDER, MISSING, IS_REAL)}
    with tempfile.TemporaryDirectory(prefix="rrv-musl-") as folder:
        os.environ[IS_REAL] = "1"
        os.environ[FOLDER] = os.path.abspath(os.environ.get(FOLDER) or folder)
        print(f"building musl into {os.environ[FOLDER]}", flush=True)
        done = ran([KIT / "build-musl"], BUILD_SECONDS)
        print(done.stderr.decode(errors="replace"), end="", flush=True)
        if done.returncode != 0:
            os.environ[MISSING] = done.stderr.decode(errors="replace").strip().rpartition("\n")[2]
        try:
            yield
        finally:
            for name, value in kept.items():
                os.environ.pop(name, None)
                if value is not None:
                    os.environ[name] = value


def need() -> None:
    """Leaves out a class if there is no musl, and says what is missing."""
    if os.environ.get(MISSING) or not os.environ.get(FOLDER):
        raise unittest.SkipTest(os.environ.get(MISSING) or f"{FOLDER} names no folder: ./check --real sets it")


def run_once(words: Sequence[Word]) -> None:
    """Runs a script that fetches or builds something for all processes, one at a time. A class is left out if that
    can't be had."""
    with open(f"{os.environ[FOLDER]}/lock", "ab") as lock:
        fcntl.flock(lock, fcntl.LOCK_EX)
        done = ran(words, BUILD_SECONDS)
    text = done.stderr.decode(errors="replace").strip().rpartition("\n")[2]
    if done.returncode != 0 and any(it in text for it in ABSENT):
        raise unittest.SkipTest(text)
    if done.returncode != 0:
        raise AssertionError(text)


def need_cxx() -> None:
    """Builds libstdc++, or leaves out a class if its source can't be had."""
    run_once([KIT / "build-cxx"])


def need_source(package: str) -> pathlib.Path:
    """The folder with the source of a package of Debian's, or leaves out a class if that can't be had."""
    folder = pathlib.Path(os.environ[FOLDER], package)
    unpack = '[ -d "$2" ] || { "$0" "$1" "$2.new" "$2.source" && mv "$2.new" "$2"; }'
    run_once(["sh", "-c", unpack, REAL / "unpack", package, folder])
    return folder


def need_plain() -> pathlib.Path:
    """The folder with musl as it is, for programs that qemu-riscv32 runs; or leaves out a class."""
    if shutil.which("qemu-riscv32") is None:
        raise unittest.SkipTest("qemu-riscv32 is not installed: apt-get install qemu-user")
    folder, sources = pathlib.Path(os.environ[FOLDER], "plain"), pathlib.Path(os.environ[FOLDER], "source")
    run_once([KIT / "build-musl", "--plain", "--to", folder, *sources.glob("musl_*.orig.tar.gz")])
    return folder


class MuslCase(Case):
    """A class of cases that compile programs over musl."""

    is_real = True
    needs: ClassVar[tuple[str, ...]] = ("riscv64-unknown-elf-gcc",)

    @classmethod
    def setUpClass(cls) -> None:
        super().setUpClass()
        need()

    def need_run(self, *words: Word, seconds: int = SECONDS) -> bytes:
        """Runs a command that has to end with 0, and returns what it prints."""
        done = ran(words, seconds)
        self.need(f"{words}: {done.stderr.decode(errors='replace')}", 0, done.returncode)
        return done.stdout

    def compiled(self, source: pathlib.Path, *options: Word, compiler: str = "cc") -> pathlib.Path:
        """The guest that a compiler of the kit makes of a source, which may print nothing."""
        elf = self.folder / f"{source.stem}.elf"
        done = ran([KIT / compiler, "-g", "-O1", *options, source, "-o", elf])
        self.need(f"what {compiler} prints of {source.name}", (b"", 0), (done.stderr, done.returncode))
        return elf

    def recorded(self, elf: pathlib.Path, *options: Word, name: str = "g0") -> bytes:
        """What a guest prints that is recorded to a marked store and has to end with 0. It is verified and replayed."""
        self.need_line("new", "store")
        words: tuple[Word, ...] = ("record", "--fail", "--upgrade", "--name", name, *options, "store", elf)
        done = self.need_line(*words, out=None, err=None)
        self.need_line("verify", "store", 0, out=None)
        self.need_line("replay", "store", 0, out=done.out)
        return done.out
