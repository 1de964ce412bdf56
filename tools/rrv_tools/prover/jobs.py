"""The commands of the toolchain that a build runs, how they run side by side, and what is shown meanwhile."""
import contextlib
import fcntl
import os
import re
import shutil
import signal
import sys
import time
import types
from collections.abc import Iterable, Iterator
from pathlib import Path
from subprocess import DEVNULL, STDOUT, Popen, TimeoutExpired

from rrv_tools.prover.crates import PRODUCT, ROOT, TEXTS, below, link
from rrv_tools.prover.schedule import Schedule

OUT = ROOT / "crates" / PRODUCT / "out"
PROGRAM, LANES = OUT / PRODUCT, OUT / "lanes"
# What a command makes of a crate that later ones begin with.
MADE = ("rlib", "incremental")
ANOTHER = "another rt in this repository"


class Progress:
    """Lines on standard error, and on a terminal one that is written again and again: how many of the crates that were
    left are proved, and which are being proved."""

    def __init__(self) -> None:
        self.is_terminal, self.start, self.is_shown, self.shown = sys.stderr.isatty(), time.monotonic(), False, 0.0
        self.left: list[str] = []
        self.begun: list[str] = []

    def say(self, text: object) -> None:
        """Writes a line that stays."""
        self.clear()
        print(f"rrv: {text}", file=sys.stderr, flush=True)

    def show(self, text: str) -> None:
        """Writes the line on a terminal, and nothing elsewhere."""
        if self.is_terminal:
            seconds = int(time.monotonic() - self.start)
            columns = os.get_terminal_size(sys.stderr.fileno()).columns or 80
            shown = f"rrv: {seconds // 60}:{seconds % 60:02}, {text}"[: columns - 1]
            print(f"\r{shown}\033[K", end="", file=sys.stderr, flush=True)
            self.is_shown = True

    def wait(self, what: str) -> None:
        """Says what is waited for."""
        (self.show if self.is_terminal else self.say)(f"waiting for {what}")

    def clear(self) -> None:
        """Takes the line away."""
        if self.is_shown:
            print("\r\033[K", end="", file=sys.stderr, flush=True)
            self.is_shown = False

    def begin(self, name: str) -> None:
        """Takes note of a crate whose proof begins."""
        if name in self.left and name not in self.begun:
            self.begun.append(name)
            if not self.is_terminal:
                self.say(f"proving {name}, crate {len(self.begun)} of {len(self.left)}")

    def show_running(self, running: Iterable[tuple[str, str]]) -> None:
        """Shows on a terminal, at most once a second, which crates are being proved, and how far each is."""
        if self.is_terminal and time.monotonic() - self.shown >= 1:
            self.shown = time.monotonic()
            proving = [text for name, text in running if name in self.left]
            now = f"proving {', '.join(proving)}" if proving else "looking at what has changed"
            self.show(f"{len(self.begun) - len(proving)} of {len(self.left)} crates proved, {now}")


class Signals:
    """The signals that end a build. One that comes while a job begins or is ended waits: so no job is forgotten."""

    def __init__(self) -> None:
        self.waits, self.number = False, 0

    def take(self) -> None:
        """Has these signals end this process."""
        for it in (signal.SIGINT, signal.SIGTERM, signal.SIGHUP):
            if signal.getsignal(it) != signal.SIG_IGN:
                signal.signal(it, self.end)

    def end(self, number: int, _: types.FrameType | None) -> None:
        """Ends this process, unless that has to wait."""
        self.number = number
        if not self.waits:
            sys.exit(128 + number)

    @contextlib.contextmanager
    def wait(self) -> Iterator[None]:
        """Has signals wait for what is done meanwhile."""
        self.waits, self.number = True, 0
        try:
            yield
        finally:
            self.waits = False
            if self.number:
                sys.exit(128 + self.number)


SIGNALS = Signals()


class Job:
    """An rt that runs in a crate's folder, or in a lane's copy of it, or at the top, and writes to a log."""

    def __init__(self, name: str, words: list[str], root: Path = ROOT, jobs: int = 1) -> None:
        self.name, self.root, self.jobs = name, root, jobs
        self.log = OUT / f"{name if words[0] == 'lib' else words[0]}.log"
        folder = root if words[0] == "ci" else root / "crates" / name
        with self.log.open("wb") as log:
            self.process = Popen(["rt", *words], cwd=folder, stdin=DEVNULL, stdout=log, stderr=STDOUT)

    def chosen(self) -> list[str]:
        """The crates that rt has begun to prove, if it chose their jobs itself."""
        return re.findall(r"(?m)^rt: chose --jobs \d+ for (\w+)", self.text())

    def text(self) -> str:
        """What it has printed."""
        return self.log.read_text(encoding="utf-8", errors="replace").replace(str(self.root), str(ROOT))

    def state(self) -> tuple[str, str]:
        """Its crate, and that with how far it is, if rt has said so."""
        text = self.text().rpartition("rt: chose --jobs ")[2]
        far = r"(?m)^so far: (\d+ of \d+ functions) checked|^rt: .*?(waiting for (?:another rt|it))\b"
        said = ["".join(it) for it in re.findall(far, text)]
        return self.name, f"{self.name} ({said[-1]})" if said else self.name

    def was_killed(self) -> bool:
        """Whether the system killed the check, most likely for memory: rt ends with the signal's number below 256."""
        return self.process.returncode in (-signal.SIGKILL, 256 - signal.SIGKILL)

    def end(self) -> None:
        """Ends it, and all that it started: rt sees to these."""
        self.process.terminate()
        try:
            self.process.wait(5)
        except TimeoutExpired:
            self.process.kill()
            self.process.wait()


@contextlib.contextmanager
def held(paths: Iterable[Path], by: str, progress: Progress) -> Iterator[None]:
    """Waits until these files and folders are not locked by another, and keeps others out."""
    with contextlib.ExitStack() as files:
        for path in sorted(paths):
            it = os.open(path, os.O_RDONLY)
            files.callback(os.close, it)
            # Some file systems have no locks.
            with contextlib.suppress(OSError):
                try:
                    fcntl.flock(it, fcntl.LOCK_EX | fcntl.LOCK_NB)
                except BlockingIOError:
                    progress.wait(by)
                    fcntl.flock(it, fcntl.LOCK_EX)
        yield


def move(name: str, one: Path, other: Path) -> None:
    """Moves what commands made of a crate from one tree of crates to another, if that has none."""
    for part in MADE:
        source, target = (it / "crates" / name / "out" / part for it in (one, other))
        if source.is_dir() and not os.path.lexists(target):
            target.parent.mkdir(parents=True, exist_ok=True)
            source.rename(target)


def remove_lanes(progress: Progress) -> None:
    """Removes the lanes, once no rt works in one that a killed build left, and gives back what was made there."""
    crates = [*LANES.glob("*/crates/*")]
    with held(crates, ANOTHER, progress):
        pass
    for it in crates:
        move(it.name, it.parents[1], ROOT)
    shutil.rmtree(LANES, ignore_errors=True)


class Lanes:
    """A copy of the crates' texts for each job, all of one moment. rt never writes into a file that is there."""

    def __init__(self, crates: Schedule) -> None:
        self.crates, self.texts = crates, LANES / "texts"
        self.idle: list[Path] = []
        self.linked: dict[Path, set[str]] = {}
        for name in crates.uses:
            (self.texts / "crates" / name).mkdir(parents=True)
            for part in TEXTS:
                if (source := ROOT / "crates" / name / part).is_dir():
                    shutil.copytree(source, self.texts / "crates" / name / part, symlinks=True)
        (self.texts / "crates.txt").write_text(crates.lines, encoding="utf-8")

    def another(self) -> Path:
        """A new lane."""
        lane = LANES / str(len(self.linked) + 1)
        self.linked[lane] = set()
        shutil.copytree(self.texts, lane, symlinks=True, copy_function=link)
        return lane

    def begin(self, name: str, jobs: int) -> Job:
        """Has rt build a library in a lane in which none is built."""
        lane = self.idle.pop() if self.idle else self.another()
        for it in {*below(self.crates.uses, name)} - self.linked[lane]:
            self.linked[lane].add(it)
            to = lane / "crates" / it / "out/rlib"
            shutil.rmtree(to, ignore_errors=True)
            shutil.copytree(ROOT / "crates" / it / "out/rlib", to, copy_function=link)
        move(name, ROOT, lane)
        return Job(name, ["lib", "--jobs", str(jobs)], lane, jobs)

    def end(self, job: Job) -> None:
        """Gives back what a job made."""
        move(job.name, job.root, ROOT)
        self.idle.append(job.root)


class SideBySide:
    """The libraries as they are proved and built, side by side."""

    def __init__(self, crates: Schedule, jobs: int, progress: Progress) -> None:
        self.crates, self.jobs, self.progress = crates, jobs, progress
        self.waiting, self.done = [it for it in crates.uses if it != PRODUCT], set[str]()
        self.running: list[Job] = []

    def prove(self) -> Job | None:
        """Proves all, and returns the job that failed, if one did."""
        failed = None
        with held((ROOT / "crates" / it for it in self.crates.uses), ANOTHER, self.progress):
            try:
                lanes = Lanes(self.crates)
                while (self.waiting or self.running) and not failed:
                    self.begin(lanes)
                    self.progress.show_running(it.state() for it in self.running)
                    time.sleep(0.05)
                    ended = [it for it in self.running if it.process.poll() is not None]
                    failed = next((it for it in ended if not self.takes(it, lanes)), None)
            finally:
                with SIGNALS.wait():
                    for it in self.running:
                        it.end()
                    remove_lanes(self.progress)
        return failed

    def begin(self, lanes: Lanes) -> None:
        """Begins the jobs whose turn it is."""
        free = self.jobs - sum(it.jobs for it in self.running)
        for name, share in [*self.crates.next(self.waiting, self.done, free)]:
            self.waiting.remove(name)
            self.progress.begin(name)
            with SIGNALS.wait():
                self.running.append(lanes.begin(name, share))

    def takes(self, job: Job, lanes: Lanes) -> bool:
        """Takes note of a job that ended, and returns whether the others may go on."""
        passed = job.process.returncode == 0
        if not passed and not (self.jobs > 1 and job.was_killed()):
            return False
        self.running.remove(job)
        lanes.end(job)
        if passed:
            self.done.add(job.name)
        else:
            # The others may take less memory than it, so they go on, and then one after another.
            self.waiting.append(job.name)
            self.jobs = 1
        return True


def run(progress: Progress) -> Job | None:
    """Has rt build and run the program, and what is left below it, and returns the job if it failed."""
    job, chosen, is_ended = None, 0, False
    try:
        with SIGNALS.wait():
            job = Job(PRODUCT, ["run"])
        while not is_ended:
            is_ended = job.process.poll() is not None
            for name in job.chosen()[chosen:]:
                job.name = name
                progress.begin(name)
                chosen += 1
            progress.show_running([job.state()] if chosen else [])
            time.sleep(0.05)
    finally:
        if job:
            job.end()
    return None if job.process.returncode == 0 and os.access(PROGRAM, os.X_OK) else job
