"""Recordings that are ended: by SIGKILL at a moment, or by a limit on the length of files."""
import os
import pathlib
import random
import subprocess
import threading
import time
from collections.abc import Sequence
from typing import IO

from rrv_tools.program import NO_LIMITS, PATIENCE, Limits, Program, Result, Word, Wrong


class Reader:
    """Reads a pipe to its end, in a thread, unless it is held up."""

    def __init__(self, pipe: IO[bytes], goes_on: threading.Event) -> None:
        self.pipe, self.goes_on, self.text = pipe, goes_on, bytearray()
        self.thread = threading.Thread(target=self.read)
        self.thread.start()

    def read(self) -> None:
        """Reads on."""
        while some := os.read(self.pipe.fileno(), 4096):
            self.text += some
            self.goes_on.wait()


class Moment:
    """When a recording is killed, as it is drawn: some seconds after some bytes of guests were printed, of about so
    many in all, and whether these are read on until then."""

    def __init__(self, draw: random.Random, length: int) -> None:
        self.length, self.delay = 0, 0.0
        if draw.random() < 0.25:
            self.delay = draw.uniform(0, draw.choice([0.003, 0.03]))
        else:
            self.length = round(length * min(1, draw.uniform(0, 1.1)))
            self.delay = draw.choice([0, draw.uniform(0, 0.002)])
        self.stalls = draw.random() < 0.15

    def is_near(self, readers: Sequence[Reader]) -> bool:
        """Whether that many bytes were printed."""
        return sum(len(it.text) for it in readers) >= self.length


class MarkMoment(Moment):
    """When a recording is killed that marks its store: some seconds after the store has more bytes than it had."""

    def __init__(self, draw: random.Random, path: pathlib.Path) -> None:
        self.path, self.size, self.stalls = path, os.path.getsize(path), False
        self.delay = draw.choice([0, draw.uniform(0, 0.001)])

    def is_near(self, readers: Sequence[Reader]) -> bool:
        """Whether the store has grown."""
        return os.path.getsize(self.path) > self.size


def kill_at(moment: Moment, ran: "subprocess.Popen[bytes]", readers: Sequence[Reader],
            goes_on: threading.Event) -> None:
    """Kills a recording at a moment, or as it is over."""
    limit = time.monotonic() + PATIENCE
    while not moment.is_near(readers) and ran.poll() is None and time.monotonic() < limit:
        time.sleep(0.0001)
    if moment.stalls:
        goes_on.clear()
    time.sleep(moment.delay)
    ran.kill()


def record(program: Program, words: Sequence[Word], moment: Moment | None = None, limits: Limits = NO_LIMITS) -> Result:
    """A recording that is killed at a moment, or has limits; how it ended, with all that was printed."""
    goes_on = threading.Event()
    goes_on.set()
    with program.start("record", *words, limits=limits) as ran:
        readers = [Reader(it, goes_on) for it in (ran.stdout, ran.stderr) if it]
        if moment:
            kill_at(moment, ran, readers, goes_on)
        goes_on.set()
        try:
            ran.wait(PATIENCE)
        except subprocess.TimeoutExpired as late:
            ran.kill()
            raise Wrong(f"record did not end within {PATIENCE} seconds") from late
        finally:
            for it in readers:
                it.thread.join()
    return Result(ran.returncode, *(bytes(it.text) for it in readers))


def run_killed(program: Program, words: Sequence[Word], delay: float) -> int:
    """The status of a line that is killed after some seconds."""
    with program.start(*words, out=subprocess.DEVNULL, err=subprocess.DEVNULL) as ran:
        time.sleep(delay)
        ran.kill()
    return ran.returncode
