"""What measurements share: commands that take turns, what they take, bare syncs, and the machine that it was on."""
import argparse
import dataclasses
import datetime
import functools
import os
import pathlib
import platform
import resource
import statistics
import subprocess
import sys
import time
from collections.abc import Callable, Mapping, Sequence
from typing import TypeVar

from rrv_tools import records, store
from rrv_tools.bench import programs
from rrv_tools.program import ROOT, Word

MEGABYTE, MILLION = 1 << 20, 1_000_000
MEMORY = pathlib.Path("/dev/shm")
PROCESSORS = sorted(os.sched_getaffinity(0))
# About what a commit writes before its first sync, and before its second.
BODY, GATE = bytes(400), store.OPEN
Key = TypeVar("Key")
Taken = TypeVar("Taken")


@dataclasses.dataclass(frozen=True)
class Ran:
    """What a command printed, and its seconds: by the clock, and the processor's."""

    text: str
    clock: float
    processor: float


def run(*command: Word, on: Sequence[int] = ()) -> Ran:
    """Runs a command, on these processors alone if some are given. It ends the measurement if it fails."""
    words = [str(it) for it in command]
    if on:
        words = ["taskset", "--cpu-list", ",".join(map(str, on)), *words]
    before, start = resource.getrusage(resource.RUSAGE_CHILDREN), time.monotonic()
    done = subprocess.run(words, stdin=subprocess.DEVNULL, capture_output=True, text=True, errors="replace",
                          check=False)
    clock, after = time.monotonic() - start, resource.getrusage(resource.RUSAGE_CHILDREN)
    if done.returncode != 0:
        sys.exit(f"{words}: status {done.returncode}\n{done.stdout[-2000:]}{done.stderr}")
    return Ran(done.stdout, clock, after.ru_utime - before.ru_utime + after.ru_stime - before.ru_stime)


def processor(ran: Ran) -> float:
    """The processor's seconds."""
    return ran.processor


def clock(ran: Ran) -> float:
    """The seconds by the clock."""
    return ran.clock


def best_of(rounds: int, runs: Mapping[Key, Callable[[], Taken]], key: Callable[[Taken], float]) -> dict[Key, Taken]:
    """The best run of each by its name. They take turns, so that a change in the machine's load meets all."""
    best: dict[Key, Taken] = {}
    for _ in range(rounds):
        for name, take in runs.items():
            taken = take()
            best[name] = min(taken, best.get(name, taken), key=key)
    return best


def best_commands(rounds: int, commands: Mapping[Key, Sequence[Word]]) -> dict[Key, Ran]:
    """The best run of each command, by the processor's seconds."""
    return best_of(rounds, {name: functools.partial(run, *words) for name, words in commands.items()}, processor)


def needed(what: str, found: object, wanted: object) -> None:
    """Ends the measurement if what was found isn't what is wanted."""
    if found != wanted:
        sys.exit(f"{what}: found {found!r}, and not {wanted!r}")


def written(path: pathlib.Path, content: bytes) -> pathlib.Path:
    """Writes a program that can be run, and returns its path."""
    path.write_bytes(content)
    path.chmod(0o755)
    return path


def recorded(rrv: Sequence[str], kept: pathlib.Path, program: pathlib.Path, *options: Word) -> Ran:
    """Records a program in a new store."""
    kept.unlink(missing_ok=True)
    run(*rrv, "new", kept)
    return run(*rrv, "record", *options, kept, program)


def bare_syncs(folder: pathlib.Path, pairs: int, later: float = 0) -> list[float]:
    """The seconds of each of so many pairs: some bytes put at a file's end and synced, and then one byte before them,
    as a commit does. Each sync takes so many seconds more."""
    found = []
    file = os.open(folder / "bare", os.O_RDWR | os.O_CREAT | os.O_TRUNC)
    for at in range(pairs):
        start = time.monotonic()
        for data, place in ((BODY, at * len(BODY) + 1), (GATE, at * len(BODY))):
            os.pwrite(file, data, place)
            os.fdatasync(file)
            time.sleep(later)
        found.append(time.monotonic() - start)
    os.close(file)
    os.unlink(folder / "bare")
    return found


def bodies(file: bytes) -> list[int]:
    """How many records each body of a store has."""
    found = []
    for body in store.scanned(file).bodies:
        data, many = records.Reader(body), 0
        while not data.is_empty():
            data.take(9)
            data.take(data.word())
            many += 1
        found.append(many)
    return found


def tenths(numbers: Sequence[float]) -> tuple[float, float, float]:
    """The first tenth, the median and the last tenth of some."""
    found = statistics.quantiles(numbers, n=10, method="inclusive")
    return found[0], statistics.median(numbers), found[-1]


# ---- the words, and where and when was measured


def parser(name: str, about: str | None, **defaults: float | str | None) -> argparse.ArgumentParser:
    """A parser of the words of a measurement, whose help is the module's docstring, with these options; one without a
    default is a path."""
    how = argparse.RawDescriptionHelpFormatter
    asked = argparse.ArgumentParser(prog=f"tools/run bench {name}", description=about, formatter_class=how)
    for option, default in defaults.items():
        asked.add_argument(f"--{option}", type=pathlib.Path if default is None else type(default), default=default)
    return asked


def processor_name() -> str:
    """The processor's name, as Linux has it."""
    lines = pathlib.Path("/proc/cpuinfo").read_text(encoding="utf-8").splitlines()
    names = (it.partition(":")[2].strip() for it in lines if it.startswith("model name"))
    return next(names, platform.machine())


def commit() -> str:
    """The commit that is checked out, with `-dirty` if files were changed since."""
    words = ["git", "-C", str(ROOT), "describe", "--always", "--dirty", "--exclude=*"]
    try:
        done = subprocess.run(words, stdout=subprocess.PIPE, stderr=subprocess.DEVNULL, text=True, check=False)
    except FileNotFoundError:
        return "unknown"
    return done.stdout.strip() or "unknown"


def circumstances() -> str:
    """The machine, the date and the commit; the program's version too, if RRV_PROGRAM names it."""
    of = [f"program {run(programs.GIVEN, '--version').text.strip()}"] if programs.GIVEN else []
    parts = [processor_name(), f"{len(PROCESSORS)} processors", f"{datetime.date.today()}", f"commit {commit()}", *of]
    return ", ".join(parts)


def print_machine() -> None:
    """Prints the machine, the date and the commit."""
    print(f"{circumstances()}, load at the end {' '.join(f'{it:.1f}' for it in os.getloadavg())}")


def print_failures(found: Sequence[str]) -> int:
    """Prints what was too slow, and returns the status."""
    for line in found:
        print(line)
    return 1 if found else 0
