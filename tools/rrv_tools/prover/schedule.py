"""In which order the crates of rrv are proved, and how long it takes."""
import heapq
import os
import re
from collections.abc import Collection, Iterator
from pathlib import Path

from rrv_tools.prover.crates import PRODUCT, ROOT, TEXTS, below, chains, files_of, lines, listed, minutes
from rrv_tools.prover.libraries import checks_at_once, kit

# The jobs that a crate gains from, and how many bytes of its text are proved in a minute.
MOST_JOBS, TEXT = 4, 60_000


def jobs_at_once() -> int:
    """How many jobs the processors and the free memory hold, or RRV_JOBS."""
    if re.fullmatch("[1-9][0-9]*", os.environ.get("RRV_JOBS", "")):
        return int(os.environ["RRV_JOBS"])
    return checks_at_once()


def last_change(*paths: Path) -> float:
    """When the last of these files and folders, and of what is in them, was changed or put there."""
    found = [it.lstat() for path in paths for it in (path, *path.rglob("*")) if os.path.lexists(it)]
    return max((max(it.st_mtime, it.st_ctime) for it in found), default=0.0)


class Schedule:
    """The crates that rrv is made of, each after those that it uses, and the minutes that their proofs take."""

    def __init__(self) -> None:
        uses, found = listed(), lines()
        self.uses = {it: uses[it] for it in (*below(uses, PRODUCT), PRODUCT)}
        self.lines = "".join(f"{found[it]}\n" for it in self.uses)
        measured = {it: of.get("proof") for it, of in minutes().items()}
        sizes = {it: sum(file.stat().st_size for file in files_of(it, TEXTS)) for it in self.uses}
        self.minutes = {it: measured.get(it) or sizes[it] / TEXT for it in self.uses}
        self.left = self.unbuilt()
        # The minutes of the longest chain that begins with a crate.
        longest = chains(self.uses, self.minutes)
        self.chain = {it: sum(self.minutes[that] for that in longest[it]) for it in self.uses}

    def unbuilt(self) -> list[str]:
        """The crates whose library is missing or older than what it is made of, and rrv. This only shows how long it
        takes: rt looks at texts."""
        of_kit = last_change(kit() / "WHAT")
        changes = {it: last_change(*(ROOT / "crates" / it / part for part in TEXTS)) for it in self.uses}
        built = {it: last_change(ROOT / "crates" / it / "out/rlib/stamp") for it in self.uses}
        newest = {it: max(of_kit, *(changes[that] for that in (it, *below(self.uses, it)))) for it in self.uses}
        return [it for it in self.uses if it == PRODUCT or built[it] <= newest[it]]

    def next(self, waiting: Collection[str], done: set[str], free: int) -> Iterator[tuple[str, int]]:
        """The crates to begin now, with their jobs: those with the longest chain first."""
        ready = sorted((it for it in waiting if done.issuperset(self.uses[it])), key=lambda it: -self.chain[it])
        for at, name in enumerate(ready[:free]):
            jobs = max(1, min(MOST_JOBS, free // (len(ready) - at))) if name in self.left else 1
            free -= jobs
            yield name, jobs

    def expected(self, jobs: int) -> float:
        """How many minutes it takes until rrv is built, if a crate takes as long as it took the gate."""
        waiting, done, now = [*self.uses], set[str](), 0.0
        running: list[tuple[float, str]] = []
        while waiting or running:
            for name, _ in [*self.next(waiting, done, jobs - len(running))]:
                waiting.remove(name)
                heapq.heappush(running, (now + self.minutes[name] * (name in self.left), name))
            now, name = heapq.heappop(running)
            done.add(name)
        return now

    def has_kept(self) -> bool:
        """Whether an earlier proof of a crate that is left is there to begin with."""
        return any((ROOT / "crates" / it / "out/incremental").is_dir() for it in self.left)

    def announced(self, jobs: int) -> str:
        """How long it takes, in words."""
        minutes = round(self.expected(jobs))
        most = "at most " if self.has_kept() else ""
        takes = f"{most}about {minutes} minute{'s' * (minutes != 1)}" if minutes else "less than a minute"
        on = f"{jobs} processor{'s' * (jobs != 1)}"
        return f"proving and building it takes {takes} on {on}, once; later starts take milliseconds"
