"""The open POSIX test suite: its cases of threads, semaphores, signals, clocks, scheduling and memory, as guests.

Expected values: that a case passes, by what it says itself, or else what it says on Linux; those that differ are in
OTHERS, with the reason.

How a case is run as a guest and on Linux, by qemu-riscv32, is in rrv_tools.posix. The cases of a function are one case
here. Each that ends as a guest is verified. Only `./check --real` runs them.
"""
from collections.abc import Mapping
from typing import ClassVar

from rrv_tools import posix
from rrv_tools.musl import MuslCase
from rrv_tools.posix import NO_END, NOT_BUILT, Suite, Verdicts
from rrv_tools.testing import rows

# What cases say as guests that don't pass there, and say something else on Linux, by the reason, as FUNCTION/CASE.
OTHERS: Mapping[tuple[str, str], str] = {
    ("no end", "it waits for a signal in a thread that makes no more calls"): """
        pthread_atfork/3-3 pthread_cond_broadcast/4-2 pthread_cond_signal/4-2 pthread_cond_timedwait/4-3
        pthread_mutex_trylock/4-3 pthread_once/6-1""",
    ("no end", "a signal is to end a loop without calls"): """
        pthread_spin_lock/1-1 pthread_spin_lock/3-1""",
    ("fail", "a signal for a fault has no handler"): """
        mmap/11-2 mmap/11-3""",
    ("SIGSEGV", "a signal for a fault has no handler"): """
        munmap/1-1 munmap/1-2""",
    ("fail", "a mapping of a file that is shared can't be put at an address"): """
        mmap/3-1""",
    ("fail", "a handler runs on the stack of its thread"): """
        sigaltstack/1-1 sigaltstack/6-1 sigaltstack/7-1""",
    ("fail", "a signal of a number is pending once, and has no value"): """
        sigaction/29-1 sigqueue/4-1 sigwait/2-1 sigwaitinfo/7-1""",
    ("unresolved", "a signal of a number is pending once, and has no value"): """
        sigqueue/8-1""",
    ("no end", "a signal of a number is pending once, and has no value"): """
        sigwaitinfo/8-1""",
    ("fail", "a thread has no policy of scheduling from its maker"): """
        pthread_attr_setinheritsched/2-3 pthread_attr_setinheritsched/2-4""",
    ("fail", "there is one user, and one process"): """
        kill/2-2 kill/3-1""",
    ("untested", "there is one user, and one process"): """
        sched_getparam/6-1 sched_getscheduler/7-1 sched_setparam/23-6 sched_setparam/26-1 sched_setscheduler/17-6
        sched_setscheduler/20-1 sem_open/3-1 sigqueue/3-1 sigqueue/12-1""",
    ("unresolved", "the clock can't be set"): """
        clock_settime/1-1 clock_settime/4-1 clock_settime/5-1 clock_settime/5-2""",
    ("unresolved", "a guest has 64 threads"): """
        pthread_cond_timedwait/2-5""",
    ("fail", "files have no times"): """
        mmap/13-1 mmap/14-1""",
    ("no end", "a mapping of a file that is shared takes no room of its own"): """
        mmap/24-1""",
    ("not built", "musl has no such function"): """
        pthread_mutexattr_getprioceiling/1-1 pthread_mutexattr_getprioceiling/1-2
        pthread_mutexattr_getprioceiling/3-1 pthread_mutexattr_setprioceiling/1-1
        pthread_mutexattr_setprioceiling/3-1 pthread_mutexattr_setprioceiling/3-2""",
    ("not built", "it has no main"): """
        pthread_once/4-1 sched_setparam/25-3 sched_setparam/25-4""",
}
EXPECTED = {case: verdict for (verdict, _), cases in OTHERS.items() for case in cases.split()}


def wanted(case: str, both: Verdicts) -> str:
    """What a case has to say as a guest, which says something there and on Linux."""
    is_right = both.guest == "pass" or both.guest == both.linux != NOT_BUILT
    return EXPECTED.get(case, both.guest if is_right else both.linux)


@rows({it: it for it in posix.FUNCTIONS}, "judge")
class Functions(MuslCase):
    """The cases of a function."""

    seconds = 2500
    suite: ClassVar[Suite]

    @classmethod
    def setUpClass(cls) -> None:
        super().setUpClass()
        cls.suite = posix.needed()

    def judge(self, function: str) -> None:
        """Each of its cases says what is expected."""
        sources = {f"{function}/{it.stem}": it for it in self.suite.cases(function)}
        self.assertTrue(sources, "the suite has no case of it")
        self.compared = len(sources)
        found = {case: self.suite.verdicts(it, EXPECTED.get(case) != NO_END) for case, it in sources.items()}
        self.need("verdicts as guests", {case: wanted(case, it) for case, it in found.items()},
                  {case: it.guest for case, it in found.items()})
