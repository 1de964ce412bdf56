"""Builds rrv, which proves it, and says on standard error how long that takes and how far it is.

usage: tools/run build
       tools/run build --by COMMAND..     runs a command that builds rrv too, and ends with its status; rrv counts as
                                          built if that is 0

tools/program calls this if neither the release nor the program that was built here is of this text. The sum of the
text, which the program's version names, is written to crates/rrv/src/text_sum.rt first. The first line says how long
the build takes, by tools/minutes.toml. Then one line on a terminal shows which crates are proved and how far the others
are; elsewhere there is a line for each crate. crates/rrv/out has a log of each crate, NAME.log, and of the program,
run.log. If a crate fails, its log is printed, the others are ended, and the status is 1.

Crates that don't stand on each other are proved side by side, the longest chain above first, if that saves half a
minute; else `rt run` proves all in turn. There is a job for each processor, as far as there are 4 GB of free memory for
each, or RRV_JOBS of them; what no other crate can use goes to one that is about to begin. If the system kills a check,
for want of memory, what is left is proved in turn.

rt lets one command at a time use a crate's folder, also to read its library. So the crates stand once more for each
job, in crates/rrv/out/lanes, as long as these run, with links to the libraries. rt says whether these fit the text,
there and in the `rt run` at the end. If nothing is built here, rt is asked first whether it kept the program when
./check passed at the same text, somewhere on this machine.

What rrv is made of (tools/program --made-of) is kept beside it, so that the next start is quick: only if it was the
same before the build and after it, and no file had changed in the last two seconds before. A later edit then has a
later time, whatever the file system.
"""
import contextlib
import shutil
import signal
import subprocess
import sys
import time
from collections.abc import Sequence
from pathlib import Path

from rrv_tools.prover.crates import PRODUCT, ROOT
from rrv_tools.prover.jobs import OUT, PROGRAM, SIGNALS, Job, Progress, SideBySide, held, remove_lanes, run
from rrv_tools.prover.libraries import libraries
from rrv_tools.prover.schedule import Schedule, jobs_at_once

KEPT, COPY = OUT / f"{PRODUCT}.made_of", OUT / "copy"
# What no proof of the program reads.
UNREAD = ("out", "must-fail", "wrong-bodies")
SETTLED = 2.0
# How long `rt ci` may take to find what it kept, in seconds.
FINDS = 120
# The minutes that proving side by side has to save: to make the lanes, and to have rt look at each crate, takes time.
GAIN = 0.5


def made_of(*more: Path) -> str | None:
    """What rrv is made of, as text, or None if something is missing."""
    words: list[str | Path] = [ROOT / "tools/program", "--made-of", *(it.relative_to(ROOT) for it in more)]
    done = subprocess.run(words, stdout=subprocess.PIPE, text=True, errors="surrogateescape", check=False)
    return done.stdout.rstrip("\n") if done.returncode == 0 else None


def settled() -> str | None:
    """What rrv is made of, once its last change is old enough; None if it doesn't get so."""
    for _ in range(2):
        sources = made_of()
        age = time.time() - max((float(it.split()[-1]) for it in (sources or "").splitlines()), default=0)
        if age >= SETTLED:
            return sources
        time.sleep(min(SETTLED, SETTLED - age))
    return None


def is_kept() -> bool:
    """Whether the program that is here was built of the sources as they are."""
    now = made_of(PROGRAM)
    return bool(now) and KEPT.is_file() and KEPT.read_text(encoding="utf-8", errors="surrogateescape") == f"{now}\n"


def keep(sources: str | None) -> bool:
    """Notes that rrv was built of these sources, if they are still the same, and returns that. One look finds both: no
    edit comes between."""
    now = made_of(PROGRAM)
    if not sources or not now or now.rpartition("\n")[0] != sources:
        return False
    new = OUT / f"{KEPT.name}.new"
    new.write_text(f"{now}\n", encoding="utf-8", errors="surrogateescape")
    new.replace(KEPT)
    return True


def copy_crates(crates: Schedule) -> None:
    """Copies what the gate's verdict on rrv stands on, as a repository without edits that must fail."""

    def unread(folder: str, _: list[str]) -> Sequence[str]:
        return UNREAD if Path(folder).parent == ROOT / "crates" else ()

    (COPY / ".git").mkdir(parents=True)
    for name in crates.uses:
        shutil.copytree(ROOT / "crates" / name, COPY / "crates" / name, symlinks=True, ignore=unread)
    (COPY / "crates.txt").write_text(crates.lines, encoding="utf-8")
    if (ROOT / "HANDLES").exists():
        shutil.copy(ROOT / "HANDLES", COPY)


def proves(folder: Path) -> bool:
    """Whether the prover works below this folder."""
    for it in Path("/proc").glob("[0-9]*"):
        with contextlib.suppress(OSError):
            named = (it / "comm").read_text(encoding="utf-8", errors="replace")
            if named == "rattle\n" and (it / "cwd").readlink().is_relative_to(folder):
                return True
    return False


def finds(progress: Progress) -> bool:
    """Whether `rt ci` passes over the copy without a proof. It is ended if it has to prove, or waits for one that
    proves."""
    job, end = None, time.monotonic() + FINDS
    try:
        with SIGNALS.wait():
            job = Job(PRODUCT, ["ci"], COPY)
        while job.process.poll() is None:
            progress.show("looking for what ./check has proved on this machine")
            if proves(COPY) or "another run on this machine is proving" in job.text() or time.monotonic() > end:
                return False
            time.sleep(0.1)
        return job.process.returncode == 0
    finally:
        with SIGNALS.wait():
            if job:
                job.end()


def take_kept(crates: Schedule, sources: str, progress: Progress) -> bool:
    """Whether `rt ci` had kept rrv as it stands: then the program is taken."""
    try:
        copy_crates(crates)
        made = COPY / "crates" / PRODUCT / "out" / PRODUCT
        if not finds(progress) or not made.is_file() or sources != made_of():
            return False
        shutil.copy(made, PROGRAM.with_suffix(".new"))
        PROGRAM.with_suffix(".new").replace(PROGRAM)
        return keep(sources)
    finally:
        with SIGNALS.wait():
            shutil.rmtree(COPY, ignore_errors=True)


def build(progress: Progress) -> int:
    """Builds rrv, and returns the status."""
    if subprocess.run([ROOT / "tools/text_sum", "--write"], check=False).returncode != 0:
        return 1
    crates, jobs = Schedule(), jobs_at_once()
    progress.say(crates.announced(jobs))
    sources, progress.left = settled(), crates.left
    if sources and crates.left == [*crates.uses] and not crates.has_kept() and take_kept(crates, sources, progress):
        return 0
    gains = crates.expected(1) - crates.expected(jobs) >= GAIN
    with libraries():
        failed = (SideBySide(crates, jobs, progress).prove() if gains else None) or run(progress)
    progress.clear()
    if failed:
        sys.stderr.write(failed.text())
        return 1
    keep(sources)
    return 0


def build_by(command: Sequence[str]) -> int:
    """Has the command build rrv, and returns its status."""
    sources = settled()
    with libraries(), subprocess.Popen(command, cwd=ROOT) as ran:
        try:
            status = ran.wait()
        finally:
            # Ctrl-C reaches the command itself, which may have to put things back.
            if ran.returncode is None and SIGNALS.number != signal.SIGINT:
                ran.terminate()
    if status == 0:
        keep(sources)
    return status if status >= 0 else 128 - status


def main(words: Sequence[str]) -> int | None:
    """Builds rrv, unless that is done."""
    if words and (words[0] != "--by" or not words[1:]):
        return None
    if not shutil.which("rt"):
        print("rrv: the Rattle toolchain is needed: its command rt is not on the PATH", file=sys.stderr)
        return 1
    SIGNALS.take()
    progress = Progress()
    try:
        OUT.mkdir(parents=True, exist_ok=True)
        (OUT / "build.lock").touch()
        with held([OUT / "build.lock"], "another build of rrv", progress):
            if not words and is_kept():
                return 0
            remove_lanes(progress)
            shutil.rmtree(COPY, ignore_errors=True)
            return build_by(words[1:]) if words else build(progress)
    except OSError as error:
        progress.say(error)
        return 1
    finally:
        progress.clear()
