"""Keeps the kit's libraries in memory while checks run, if there is room for them."""
import contextlib
import os
import re
import resource
import shutil
import threading
from collections.abc import Iterator
from pathlib import Path
from typing import IO

from rrv_tools.prover.crates import lines

# What a check takes of memory, most of the time at most.
MEMORY = 4 << 30
# The libraries that each check reads, beside those that crates.txt names; how often they are all read, in seconds, if
# the system had given some of them back, and if it hadn't.
READ_BY_ALL, READ_AGAIN, READ_LATER = ("std", "core", "io"), 30, 120


def kit() -> Path:
    """The folder of the toolchain in use."""
    return Path(shutil.which("rt") or "rt").resolve().parents[1]


def free_memory() -> int:
    """How many bytes of memory are free, or are given back if they are wanted; 0 if the system doesn't say it."""
    free = re.search(r"MemAvailable:\s+(\d+) kB", Path("/proc/meminfo").read_text(encoding="utf-8"))
    return int(free[1]) * 1024 if free else 0


def checks_at_once() -> int:
    """How many checks run side by side: one a processor, as far as each has that memory free."""
    return max(1, min(len(os.sched_getaffinity(0)), free_memory() // MEMORY))


@contextlib.contextmanager
def libraries() -> Iterator[None]:
    """Keeps all libraries in memory.

    Some kernels give cached pages back early. A check then reads its libraries page by page: one had 22 seconds of a
    processor in eight minutes by the clock, and after one sequential read of all libraries, which took four seconds, it
    was done in one minute.
    """
    ended = threading.Event()
    threading.Thread(target=keep, args=(ended,), daemon=True).start()
    try:
        yield
    finally:
        ended.set()


def keep(ended: threading.Event) -> None:
    """Reads all libraries, and again every half minute, or every two if none had to be read from the disk."""
    with contextlib.suppress(OSError), open(os.devnull, "wb") as nothing:
        files = library_files()
        size = sum(it.stat().st_size for it in files)
        while free_memory() >= size + MEMORY:
            before = resource.getrusage(resource.RUSAGE_THREAD).ru_inblock
            for it in files:
                if ended.is_set():
                    return
                read_through(it, nothing)
            has_read = resource.getrusage(resource.RUSAGE_THREAD).ru_inblock > before
            if ended.wait(READ_AGAIN if has_read else READ_LATER):
                return


def read_through(path: Path, nothing: IO[bytes]) -> None:
    """Reads a file from its start to its end, and takes nothing of it: the system keeps what it read."""
    with path.open("rb") as file:
        left = os.fstat(file.fileno()).st_size
        while left > 0 and (some := os.sendfile(nothing.fileno(), file.fileno(), None, left)):
            left -= some


def library_files() -> list[Path]:
    """The files of the kit's libraries that the crates read."""
    left = {*READ_BY_ALL, *(it for line in lines().values() for it in line.replace(":", " ").split())}
    found: set[Path] = set()
    while left:
        folder = kit() / "rlibs" / f"{left.pop()}.rlib"
        if folder not in found:
            found.add(folder)
            left |= {it.name for it in (folder / "below").glob("*")}
    return [file for it in sorted(found) for file in it.rglob("*") if file.is_file()]
