"""Runs jobs side by side: a job is a class of cases, or some of its methods, or a script of tools, in a process of its
own."""
import concurrent.futures
import contextlib
import dataclasses
import os
import pathlib
import re
import shlex
import shutil
import signal
import subprocess
import sys
import tempfile
import threading
import time
from collections.abc import Iterator, Sequence

from rrv_tools.program import ROOT
from rrv_tools.testing import FAILED, LEFT_OUT, PASSED, Outcome

# A job may run for this many seconds, or for so many times what it takes if that is more; and it has this many to end
# itself once it is stopped.
PATIENCE, TIMES, ENDS = 900, 10, 5
COUNT = re.compile(r"(?m)^(\d+) passed, (\d+) failed\n?\Z")
# What stands for a class as a whole, if it failed or was left out before its first case.
OF_CLASS = ("setUpClass", "setUpModule")
# These, and what stands for its end.
AROUND = (*OF_CLASS, "tearDownClass", "tearDownModule")

Counts = tuple[int, int]


@dataclasses.dataclass(frozen=True)
class Job:
    """What a process does: `cases` has the names of cases; a script has its words in their place."""

    name: str
    # About how long it takes by itself, by which the longest begin first; and whether nothing may run beside it, since
    # it measures time.
    seconds: float
    is_alone: bool = False
    cases: tuple[str, ...] = ()
    words: tuple[str, ...] = ()

    def command(self, results: pathlib.Path) -> list[str]:
        """The words of its process."""
        if self.words:
            return [str(ROOT / "tools" / self.words[0]), *self.words[1:]]
        return [sys.executable, "-m", "rrv_tools.testing", str(results)]


@dataclasses.dataclass(frozen=True)
class Done:
    """What a job did: the outcomes of its cases, or what its script counted and printed."""

    job: Job
    counts: Counts
    seconds: float
    text: str
    outcomes: tuple[Outcome, ...] = ()

    def lines(self) -> list[str]:
        """Its line, and below that the failures, and what was left out."""
        passed, failed = self.counts
        line = f"{self.job.name:40} {passed:6} passed, {failed} failed {self.seconds:7.1f} s"
        return [line, *(f"    {it}" for it in (self.script_lines() if self.job.words else self.case_lines()))]

    def script_lines(self) -> list[str]:
        """What its script printed, if it failed; else only what it left out for want of a program."""
        printed = COUNT.sub("", self.text).splitlines()
        return printed if self.counts[1] else [it for it in printed if "is not installed" in it]

    def case_lines(self) -> Iterator[str]:
        """The failures of its cases, each with how to run it again, and why some were left out."""
        for reason in sorted({it.text for it in self.outcomes if it.kind == LEFT_OUT}):
            yield f"left out: {reason}"
        for it in self.outcomes:
            if it.kind == FAILED:
                yield it.name
                yield from (f"    {line}" for line in [*it.text.splitlines(), f"run again: {again(it.name)}"])
        if self.text and self.counts[1]:
            yield from ("its process printed:", *(f"    {line}" for line in self.text.splitlines()))


def again(name: str) -> str:
    """The line that runs a case again, of the program that RRV_PROGRAM names, if it does. Of what failed around the
    cases of a class or a module, it is the line that runs all of them."""
    of, _, last = name.rpartition(".")
    program = os.environ.get("RRV_PROGRAM")
    before = f"RRV_PROGRAM={shlex.quote(program)} " if program else ""
    real = "--real " if os.environ.get("RRV_REAL") else ""
    return f"{before}./check {real}-k {f'{of}.' if last in AROUND else name}"


def counts_in(text: str, status: int) -> Counts:
    """How many statements a script's output counts as passed and as failed; one failed at least if the status is not
    0, or it counts none."""
    counted = COUNT.search(text)
    passed, failed = (int(counted[1]), int(counted[2])) if counted else (0, 1)
    return passed, max(failed, 1 if status else 0)


def with_missing(job: Job, outcomes: list[Outcome], status: int) -> list[Outcome]:
    """The outcomes of a job's cases. Those that have none failed, unless their class did or was left out."""
    seen = {it.name for it in outcomes}
    if any(it.name.endswith(OF_CLASS) for it in outcomes):
        return outcomes
    text = f"it did not run: the process of its class ended with {status}"
    return [*outcomes, *(Outcome(it, FAILED, 0, text) for it in job.cases if it not in seen)]


class Progress:
    """One line on a terminal that says how many jobs are done and which run. It is cleared before anything else is
    printed."""

    def __init__(self, total: int) -> None:
        self.total, self.done, self.start, self.is_terminal = total, 0, time.monotonic(), sys.stderr.isatty()

    def show(self, running: Sequence[Job]) -> None:
        """Prints the line."""
        if self.is_terminal:
            seconds = int(time.monotonic() - self.start)
            columns = os.get_terminal_size(sys.stderr.fileno()).columns or 80
            names = ", ".join(it.name for it in running)
            text = f"{seconds // 60}:{seconds % 60:02}, {self.done} of {self.total} done, running {names}"
            print(f"\r{text[: columns - 1]}\033[K", end="", file=sys.stderr, flush=True)

    def clear(self) -> None:
        """Clears the line."""
        if self.is_terminal:
            print("\r\033[K", end="", file=sys.stderr, flush=True)

    def print(self, done: Done) -> None:
        """Prints what a job did in place of it."""
        self.done += 1
        self.clear()
        print("\n".join(done.lines()), flush=True)


class Runner:
    """Runs jobs at a program, with their files in a folder. Each has a group of processes of its own, so that all it
    started can be ended."""

    def __init__(self, program: pathlib.Path, folder: pathlib.Path) -> None:
        path = os.pathsep.join([str(ROOT / "tools"), *filter(None, [os.environ.get("PYTHONPATH")])])
        more = {"RRV_PROGRAM": str(program), "TMPDIR": str(folder), "PYTHONDONTWRITEBYTECODE": "1", "PYTHONPATH": path}
        self.environment, self.is_stopped, self.lock = {**os.environ, **more}, False, threading.Lock()
        self.running: dict[Job, subprocess.Popen[bytes]] = {}

    def begin(self, job: Job, results: pathlib.Path, printed: int) -> "subprocess.Popen[bytes] | None":
        """Starts a job, unless all are to end. What it prints goes to a file, so that nothing waits for a process that
        it leaves."""
        with self.lock, tempfile.TemporaryFile() as names:
            if self.is_stopped:
                return None
            names.write("\n".join(job.cases).encode())
            names.seek(0)
            given = names.fileno() if job.cases else subprocess.DEVNULL
            ran = subprocess.Popen(job.command(results), stdin=given, stdout=printed, stderr=printed, cwd=ROOT,
                                   env=self.environment, process_group=0)
            self.running[job] = ran
            return ran

    def run(self, job: Job) -> Done:
        """Runs a job to its end."""
        begun = time.monotonic()
        with tempfile.TemporaryFile() as printed, tempfile.NamedTemporaryFile() as results:
            try:
                ran = self.begin(job, pathlib.Path(results.name), printed.fileno())
                more, status = self.wait(ran, max(PATIENCE, TIMES * job.seconds)) if ran else ("stopped\n", 1)
            except OSError as error:
                more, status = f"{error}\n", 1
            with self.lock:
                self.running.pop(job, None)
            printed.seek(0)
            text = printed.read().decode(errors="replace") + more
            found = [Outcome.read(it) for it in results.read().decode().splitlines()]
        seconds = time.monotonic() - begun
        if job.words:
            return Done(job, counts_in(text, status), seconds, text)
        outcomes = with_missing(job, found, status)
        counts = sum(it.count for it in outcomes if it.kind == PASSED), sum(it.kind == FAILED for it in outcomes)
        return Done(job, counts, seconds, text, tuple(outcomes))

    @staticmethod
    def wait(ran: "subprocess.Popen[bytes]", patience: float = PATIENCE) -> tuple[str, int]:
        """Waits for a job to end, and returns its status. One that doesn't is ended, and so is what one left."""
        text = ""
        try:
            ran.wait(patience)
        except subprocess.TimeoutExpired:
            text = f"it did not end in {patience:.0f} seconds\n"
        with contextlib.suppress(ProcessLookupError):
            os.killpg(ran.pid, signal.SIGKILL)
        return text, ran.wait()

    def stop(self) -> None:
        """Ends the jobs that run, as Ctrl-C would, so that they end what they started; and what is left of them
        then."""
        with self.lock:
            self.is_stopped, groups = True, [it.pid for it in self.running.values()]
        for number, seconds in ((signal.SIGINT, ENDS), (signal.SIGKILL, 0)):
            for it in groups:
                with contextlib.suppress(ProcessLookupError):
                    os.killpg(it, number)
            limit = time.monotonic() + seconds
            while self.running and time.monotonic() < limit:
                time.sleep(0.05)

    def done(self, jobs: Sequence[Job], at_once: int, progress: Progress) -> Iterator[Done]:
        """What jobs did, each as it ends, with at most this number of them side by side."""
        pool = concurrent.futures.ThreadPoolExecutor(at_once)
        try:
            left = {pool.submit(self.run, it) for it in jobs}
            while left:
                ended, left = concurrent.futures.wait(left, 1, concurrent.futures.FIRST_COMPLETED)
                yield from (it.result() for it in ended)
                progress.show(list(self.running))
        finally:
            pool.shutdown(wait=False, cancel_futures=True)


@contextlib.contextmanager
def folder_of_jobs() -> Iterator[pathlib.Path]:
    """A folder for the files of jobs. It stays if one of them kept something there, which it names, since it failed."""
    folder = pathlib.Path(tempfile.mkdtemp(prefix="rrv-check-"))
    # Some lines are run by another user, who has to reach his files.
    folder.chmod(0o755)
    try:
        yield folder
    except BaseException:
        shutil.rmtree(folder, ignore_errors=True)
        raise
    if not any(folder.iterdir()):
        folder.rmdir()


def run_jobs(jobs: Sequence[Job], program: pathlib.Path) -> list[Done]:
    """Runs jobs at a program, one more than there are processors that this process may use, since some of them mostly
    wait. The longest come first, and those that run alone last. It prints a line as each ends."""
    progress, found = Progress(len(jobs)), []
    most = len(os.sched_getaffinity(0)) + 1
    together = sorted((it for it in jobs if not it.is_alone), key=lambda it: -it.seconds)
    alone = [it for it in jobs if it.is_alone]
    with folder_of_jobs() as folder:
        runner = Runner(program, folder)
        try:
            for some, at_once in ((together, most), (alone, 1)):
                for it in runner.done(some, at_once, progress):
                    progress.print(it)
                    found.append(it)
        finally:
            progress.clear()
            runner.stop()
    return found
