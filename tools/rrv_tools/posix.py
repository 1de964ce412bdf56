"""Runs cases of the open POSIX test suite as guests and on Linux, and prints both verdicts.

usage: tools/run posix [FUNCTION ..]       those of these functions, or all: a line each, FUNCTION/CASE GUEST LINUX

The suite is Debian's source package posixtestsuite, which apt-get fetches. A case is compiled twice as it is. Over the
musl of examples/musl it is recorded to a marked store and verified. Over musl as it is qemu-riscv32 runs it: that is
Linux here. It says by its status whether its function does what IEEE Std 1003.1-2001 asks. Those that fork are left
out, since a guest has one process. What musl is built into is the folder RRV_MUSL, or a temporary one.
"""
import collections
import functools
import os
import pathlib
import re
import signal
import subprocess
import sys
import tempfile
import unittest
from collections.abc import Iterator, Mapping, Sequence
from typing import NamedTuple

from rrv_tools import musl
from rrv_tools import program as programs
from rrv_tools.musl import KIT, need_plain, need_source, ran
from rrv_tools.program import Program, Wrong

PACKAGE = "posixtestsuite"
# The functions of which some case doesn't fork, by groups.
GROUPS: Mapping[str, str] = {
    "threads and semaphores": """
pthread_atfork pthread_attr_destroy pthread_attr_getdetachstate pthread_attr_getinheritsched
pthread_attr_getschedparam pthread_attr_getschedpolicy pthread_attr_getscope pthread_attr_getstack
pthread_attr_getstacksize pthread_attr_init pthread_attr_setdetachstate pthread_attr_setinheritsched
pthread_attr_setschedparam pthread_attr_setschedpolicy pthread_attr_setscope pthread_attr_setstack
pthread_attr_setstacksize pthread_barrier_destroy pthread_barrier_init pthread_barrier_wait
pthread_barrierattr_destroy pthread_barrierattr_getpshared pthread_barrierattr_init pthread_barrierattr_setpshared
pthread_cancel pthread_cleanup_pop pthread_cleanup_push pthread_cond_broadcast pthread_cond_destroy pthread_cond_init
pthread_cond_signal pthread_cond_timedwait pthread_cond_wait pthread_condattr_destroy pthread_condattr_getclock
pthread_condattr_getpshared pthread_condattr_init pthread_condattr_setclock pthread_condattr_setpshared pthread_create
pthread_detach pthread_equal pthread_exit pthread_getcpuclockid pthread_getschedparam pthread_getspecific pthread_join
pthread_key_create pthread_key_delete pthread_kill pthread_mutex_destroy pthread_mutex_getprioceiling
pthread_mutex_init pthread_mutex_lock pthread_mutex_timedlock pthread_mutex_trylock pthread_mutex_unlock
pthread_mutexattr_destroy pthread_mutexattr_getprioceiling pthread_mutexattr_getprotocol pthread_mutexattr_getpshared
pthread_mutexattr_gettype pthread_mutexattr_init pthread_mutexattr_setprioceiling pthread_mutexattr_setprotocol
pthread_mutexattr_setpshared pthread_mutexattr_settype pthread_once pthread_rwlock_destroy pthread_rwlock_init
pthread_rwlock_rdlock pthread_rwlock_timedrdlock pthread_rwlock_timedwrlock pthread_rwlock_tryrdlock
pthread_rwlock_trywrlock pthread_rwlock_unlock pthread_rwlock_wrlock pthread_rwlockattr_destroy
pthread_rwlockattr_getpshared pthread_rwlockattr_init pthread_rwlockattr_setpshared pthread_self
pthread_setcancelstate pthread_setcanceltype pthread_setschedparam pthread_setschedprio pthread_setspecific
pthread_sigmask pthread_spin_destroy pthread_spin_init pthread_spin_lock pthread_spin_trylock pthread_spin_unlock
pthread_testcancel sem_close sem_destroy sem_getvalue sem_init sem_open sem_post sem_timedwait sem_unlink sem_wait""",
    "signals": """
kill killpg raise sigaction sigaddset sigaltstack sigdelset sigemptyset sigfillset sighold sigignore sigismember
signal sigpause sigpending sigprocmask sigqueue sigrelse sigset sigtimedwait sigwait sigwaitinfo""",
    "clocks": """
clock clock_getcpuclockid clock_getres clock_gettime clock_nanosleep clock_settime nanosleep time""",
    "scheduling": """
sched_get_priority_max sched_get_priority_min sched_getparam sched_getscheduler sched_rr_get_interval sched_setparam
sched_setscheduler sched_yield""",
    "memory": """
mmap munmap""",
}
FUNCTIONS = {function: group for group, names in GROUPS.items() for function in names.split()}
# What the statuses of a case mean: include/posixtest.h of the suite.
STATUSES = {0: "pass", 1: "fail", 2: "unresolved", 4: "unsupported", 5: "untested"}
# The signals by which Linux ends a program where a guest faults: docs/GUEST.md has the kinds of faults.
FAULTS = {1: signal.SIGILL, 2: signal.SIGTRAP, 3: signal.SIGBUS, 4: signal.SIGBUS, 5: signal.SIGSEGV,
          6: signal.SIGSEGV, 7: signal.SIGSEGV}
NO_END, NOT_BUILT = "no end", "not built"
# A case that has no end is ended after so many seconds: as a guest, and on Linux, if it doesn't end as a guest.
PATIENCE, SHORT = 120, 10
# These have none in either place, and aren't waited for as long.
ENDLESS = ("clock/1-1", "pthread_equal/2-1")
FLAGS = ("-std=gnu99", "-w", "-O1", "-D_XOPEN_SOURCE=600", "-pthread")
# Those that are left out: two look at what they never set, and two make a million calls, each of which is recorded.
LEFT_OUT = ("pthread_key_create/2-1", "sem_unlink/4-1", "clock_getcpuclockid/1-1", "clock_gettime/4-1")
# Who runs cases on Linux if all may be done by who runs this: a case may set the clock, or send signals.
NOBODY = 65534


class Verdicts(NamedTuple):
    """What a case says as a guest, and on Linux."""

    guest: str
    linux: str


def of_status(status: int) -> str:
    """What a status says, or the signal that is in it as a shell has it."""
    if status in STATUSES:
        return STATUSES[status]
    return of_signal(status - 128) if 128 < status <= 192 else f"status {status}"


def of_signal(number: int) -> str:
    """The signal that ended a case."""
    return signal.Signals(number).name if number in signal.valid_signals() and number < 32 else f"signal {number}"


def of_guest(errors: str) -> str:
    """What the line of a guest's end says."""
    end = re.search(r"^g0: end (?:(exited|faulted) (\d+)|stuck)", errors, re.MULTILINE)
    if not end:
        raise Wrong(f"no end: {errors}")
    if end[1] == "faulted":
        return of_signal(FAULTS[int(end[2])])
    return of_status(int(end[2])) if end[1] else NO_END


class Suite(NamedTuple):
    """Where the suite is, and musl as it is."""

    folder: pathlib.Path
    plain: pathlib.Path
    program: Program

    def cases(self, function: str) -> Iterator[pathlib.Path]:
        """The sources of a function's cases that don't fork."""
        for it in sorted((self.folder / "conformance" / "interfaces" / function).glob("*.c")):
            is_case = re.fullmatch(r"\d+-\d+", it.stem) and f"{function}/{it.stem}" not in LEFT_OUT
            if is_case and not re.search(r"\bfork\s*\(", it.read_text(errors="replace")):
                yield it

    def built(self, source: pathlib.Path, to: pathlib.Path, folder: pathlib.Path) -> bool:
        """Whether a case can be built over the musl of a folder."""
        words = (KIT / "cc", *FLAGS, "-I", self.folder / "include", source, "-lm", "-o", to)
        return ran(words, environment={musl.FOLDER: str(folder)}).returncode == 0

    def in_guest(self, elf: pathlib.Path, seconds: int) -> str:
        """What a case says that is recorded, and verified."""
        store = elf.with_suffix(".rrv")
        self.program.run_well("new", store)
        try:
            done = self.program.run("record", "--upgrade", store, elf, timeout=seconds)
        except subprocess.TimeoutExpired:
            return NO_END
        self.program.run_well("verify", store, 0)
        return of_guest(done.err.decode(errors="replace"))

    def verdicts(self, source: pathlib.Path, has_end: bool = True) -> Verdicts:
        """What a case says in both places, at the same time. As a guest it may be known to have no end."""
        seconds = PATIENCE if has_end and f"{source.parent.name}/{source.stem}" not in ENDLESS else SHORT
        with tempfile.TemporaryDirectory(prefix="rrv-posix-") as name:
            folder = pathlib.Path(name)
            folder.chmod(0o777)
            guest, linux = folder / "guest.elf", folder / "linux.elf"
            if not self.built(source, guest, pathlib.Path(os.environ[musl.FOLDER])):
                return Verdicts(NOT_BUILT, NOT_BUILT)
            if not self.built(source, linux, self.plain):
                raise Wrong(f"{source} can't be built over musl as it is")
            with started(linux) as process:
                verdict = self.in_guest(guest, seconds)
                return Verdicts(verdict, on_linux(process, SHORT if verdict == NO_END else PATIENCE))


def started(elf: pathlib.Path) -> "subprocess.Popen[bytes]":
    """A process that runs a case by qemu-riscv32, in its folder, as a user who may do little."""
    user = NOBODY if os.geteuid() == 0 else None
    return subprocess.Popen(["qemu-riscv32", elf], cwd=elf.parent, user=user, group=user,
                            extra_groups=[] if user else None, stdin=subprocess.DEVNULL, stdout=subprocess.DEVNULL,
                            stderr=subprocess.DEVNULL, start_new_session=True)


def on_linux(process: "subprocess.Popen[bytes]", seconds: int) -> str:
    """What a case says that runs; it may take some seconds more."""
    try:
        status = process.wait(seconds)
    except subprocess.TimeoutExpired:
        os.killpg(process.pid, signal.SIGKILL)
        return NO_END
    return of_status(status) if status >= 0 else of_signal(-status)


@functools.cache
def needed() -> Suite:
    """The suite, for which musl has to be there as it is; a class is left out if that can't be had."""
    musl.need()
    return Suite(need_source(PACKAGE), need_plain(), programs.needed())


def compared(words: Sequence[str]) -> bool:
    """Prints the verdicts of functions, and how many are the same; returns whether all are."""
    counts: collections.Counter[tuple[str, str]] = collections.Counter()
    suite = needed()
    for function in words or FUNCTIONS:
        for source in suite.cases(function):
            both = suite.verdicts(source)
            print(f"{function}/{source.stem}", *(it.replace(" ", "-") for it in both), flush=True)
            counts[FUNCTIONS[function], "the same" if both.guest == both.linux else "different"] += 1
    for (group, what), count in sorted(counts.items()):
        print(f"{group}: {count} {what}")
    return all(what == "the same" for _, what in counts)


def main(words: Sequence[str]) -> int | None:
    """Prints the verdicts of functions; the status is 1 if some case differs, or if something is missing."""
    if not all(it in FUNCTIONS for it in words):
        return None
    with musl.prepared():
        try:
            return 0 if compared(words) else 1
        except unittest.SkipTest as missing:
            print(f"posix: {missing}", file=sys.stderr)
            return 1
