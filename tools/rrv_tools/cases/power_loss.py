"""What a loss of power may leave of a store is opened, and nothing is lost.

Expected values: a restatement of the crash model in Python (rrv_tools.disks), by the calls that were noted; and the
guests' instructions, from which it follows what they print.
A larger run: Of 2,000 contents of one run, 1,099 of them different and 147 left within an opening, none was refused.
Each held a beginning of the store up to one of its gates, with each commit whose second sync had ended, and all that
the guests had begun to print. Of calls without the first sync of a commit, without the second, or with output before
it, such contents were refused or had lost output.

usage: tools/run power_loss [N] [--seed S] [--program PROGRAM]

runs these cases with N contents (2000), and with what else S draws (1).

Guests that print are recorded into a store in a real file, one, then four at once, then two with checkpoints. The last
recording marks the store first, and one of its guests waits for a time after each write. The calls are noted in their
order (preload). Contents are made that a loss of power may leave between these calls or within one: of what was written
since the last sync nothing is there, all, a beginning, some sectors or some single bytes, or anything else; the length
is any between the least and the greatest; and what lies above the least is anything. A part of them is opened halfway,
and the power lost again.

Each is opened. It may not be refused. It has to hold, byte for byte, a beginning of the store as it was at the end, up
to one of its gates: with each commit whose second sync had ended by that moment, and none that had not begun. Each
guest has to verify; what it had begun to print by that moment has to be a beginning of what is replayed, and that of
what its program prints. A guest's bytes have a high half of its own.

Then the calls are spoiled in three ways, as by a program that leaves out the first sync of a commit, or the second, or
prints before that: each has to be found. What is refused or has lost something is kept, and its name printed.

What a real disk leaves, this does not show.
"""
import argparse
import collections
import concurrent.futures
import itertools
import os
import pathlib
import random
import tempfile
import unittest
from collections.abc import Callable, Iterator, Sequence
from typing import ClassVar, NamedTuple

from rrv_tools import preload
from rrv_tools.disks import Disk
from rrv_tools.guests import Printer
from rrv_tools.preload import SYNCS, Moment
from rrv_tools.program import Program, Result
from rrv_tools.store import BEFORE_BODY, CLOSED, HEADER, OPEN
from rrv_tools.testing import Case, rows

SPOILED, AT_ONCE = 500, 64
# Of this many contents one is opened halfway, and of the moments of that opening this many are made, of which one is
# drawn.
HALFWAY, WITHIN = 8, 16
# How many contents a moment has for each of one at which nothing is open.
FEWEST, MOST = 4, 16
# What is recorded: options, and guests. They run some milliseconds between their writes, so that there are many
# commits, of few records.
FEW = ["--quantum", "1000000"]
RECORDINGS = [
    (FEW, [Printer(8, 6, 1, 500_000)]),
    (FEW, [Printer(9, 12, 1, 500_000), Printer(10, 6, 2, 250_000, has_clock=True), Printer(11, 3, 4, 1_000_000),
           Printer(12, 20, 1, 10)]),
    (["--upgrade", "--every", "500000", *FEW], [Printer(13, 6, 1, 500_000, nap=200_000), Printer(14, 4, 1, 400_000)]),
]
GUESTS = [guest for _, guests in RECORDINGS for guest in guests]
# What stands after each program, so that what is written at once has several sectors.
PADDING = bytes(range(256)) * 8
# What was printed, by guest and descriptor.
Printed = dict[tuple[int, int], bytes]
Moments = Sequence[Moment]


class Content(NamedTuple):
    """A content, and what has to be found in it: the gates that the last one may be, and what was printed; and its
    moment."""

    data: bytes
    first: int
    last: int
    printed: Printed
    moment: int


# ---- contents


def is_change(moment: Moment) -> bool:
    """Whether something is otherwise from this moment on: a sync has ended, or another call begins."""
    if moment.call in SYNCS:
        return moment.has_ended and moment.result == 0
    return moment.call in ("pwrite", "ftruncate", "write") and not moment.has_ended


def gates_of(store: bytes | bytearray) -> list[int]:
    """The places of a sound store's gates, up to the first that is not open."""
    gates = [len(HEADER)]
    while store[gates[-1]: gates[-1] + 1] == OPEN:
        gates.append(gates[-1] + BEFORE_BODY + int.from_bytes(store[gates[-1] + 1: gates[-1] + 5], "little"))
    return gates


def add_printed(printed: Printed, moment: Moment) -> None:
    """Adds what each guest has begun to print."""
    if moment.call == "write" and moment.descriptor in (1, 2):
        for number, guest in enumerate(GUESTS):
            printed[number, moment.descriptor] += guest.of(moment.data)


def weights_of(changes: Moments, start: bytes) -> list[int]:
    """How many contents to make of each moment, beside the others: more if more is left open."""
    disk, weights = Disk(start), []
    for moment in changes:
        disk.apply(moment)
        still_open = disk.greatest - disk.least + sum(len(data) for _, data in disk.writes)
        weights.append(min(max(still_open, FEWEST), MOST) if still_open else 1)
    return weights


def contents_of(moments: Moments, start: bytes, count: int, draw: random.Random) -> Iterator[Content]:
    """This many contents, in the order of their moments. What may be found in one is known by its disk."""
    changes = [it for it in moments if is_change(it)]
    disk, made, ends = Disk(start), 0, list(itertools.accumulate(weights_of(changes, start)))
    printed: Printed = collections.defaultdict(bytes)
    for place, moment in enumerate(changes):
        disk.apply(moment)
        add_printed(printed, moment)
        first, last = len(gates_of(disk.durable)), len(gates_of(disk.now))
        due = count * ends[place] // ends[-1]
        for _ in range(due - made):
            yield Content(disk.left(draw), first, last, {key: text for key, text in printed.items() if text}, place)
        made = due


# ---- opening


class Opening:
    """Opens contents of a store of which all is known."""

    def __init__(self, program: Program, shared: pathlib.Path, finished: bytes) -> None:
        self.program, self.shared, self.finished, self.gates = program, shared, finished, gates_of(finished)
        self.found: dict[int, tuple[bytes, dict[int, tuple[bytes, bytes]]]] = {}
        self.counts: collections.Counter[str] = collections.Counter()
        self.made = 0

    def named(self, data: bytes) -> pathlib.Path:
        """A new file with these bytes."""
        self.made += 1
        path = pathlib.Path(f"content{self.made}")
        path.write_bytes(data)
        return path

    def open(self, path: pathlib.Path) -> tuple[Result, int | None]:
        """Opens a content: how `list` ends, and the gate to which the file then goes, which is removed."""
        ended, mended = self.program.run("list", path), path.read_bytes()
        path.unlink()
        gates = (place for place, it in enumerate(self.gates, 1) if mended == self.finished[:it] + CLOSED)
        return ended, next(gates, None)

    def guests_at(self, last: int) -> tuple[bytes, dict[int, tuple[bytes, bytes]]]:
        """What `list` prints of the store up to a gate, and what is replayed of each guest, once for each gate."""
        if last not in self.found:
            path = self.named(self.finished[: self.gates[last - 1]] + CLOSED)
            listed = self.program.run_well("list", path).out
            numbers = [int(it.split()[0]) for it in listed.splitlines()]
            self.found[last] = listed, {it: self.replayed(path, it) for it in numbers}
        return self.found[last]

    def replayed(self, path: pathlib.Path, number: int) -> tuple[bytes, bytes]:
        """What a guest's replay prints, which is the first that its program does."""
        verified = self.program.run_well("verify", path, number).out
        _, *texts = self.program.run_well("replay", path, number)
        for text, whole in zip(texts, GUESTS[number].whole() or texts, strict=True):
            assert whole.startswith(text) and verified.startswith(b"ok "), (
                f"guest {number} replays {text!r}, and its program prints {whole!r}; {verified!r}")
        return texts[0], texts[1]

    def judge(self, content: Content, ended: Result, last: int | None) -> None:
        """That a content, which was opened so, has what it must, and what was printed."""
        assert ended.status == 0, f"list ends with {ended.status} and {ended.err!r}"
        assert last is not None and content.first <= last <= content.last, (
            f"it was opened to the gate {last}, and not to one from {content.first} to {content.last}")
        wanted, guests = self.guests_at(last)
        assert ended.out == wanted, f"list prints {ended.out!r}, and {wanted!r} when it is opened again"
        for (number, descriptor), text in content.printed.items():
            assert number in guests and guests[number][descriptor - 1].startswith(text), (
                f"guest {number} had printed {text!r} to {descriptor}, and has {guests.get(number)}")
            self.counts["bytes"] += len(text)

    def halfway(self, content: Content, draw: random.Random) -> Content:
        """A content that is left if the power is lost again while this one is opened; or the same if nothing had to be
        mended."""
        path = self.named(content.data)
        _, moments = preload.run(self.shared, self.program.words("list", path))
        path.unlink()
        if not any(it.call in ("pwrite", "ftruncate") for it in moments):
            return content
        self.counts["halfway"] += 1
        return content._replace(data=draw.choice(list(contents_of(moments, content.data, WITHIN, draw))).data)

    def try_all(self, contents: Iterator[Content], draw: random.Random) -> list[tuple[Content, str]]:
        """Opens contents, and returns those of which something is wrong. Those that are the same are opened once."""
        wrong, opened = [], {}
        self.counts.clear()
        with concurrent.futures.ThreadPoolExecutor() as pool:
            while some := list(itertools.islice(contents, AT_ONCE)):
                some = [self.halfway(it, draw) if draw.randrange(HALFWAY) == 0 else it for it in some]
                for it in some:
                    if it.data not in opened:
                        opened[it.data] = pool.submit(self.open, self.named(it.data))
                for it in some:
                    self.counts["opened"] += 1
                    try:
                        self.judge(it, *opened[it.data].result())
                    except AssertionError as found:
                        wrong.append((it, str(found)))
        self.counts["different"] = len(opened)
        return wrong


# ---- the calls


def commits_in(moments: Moments) -> list[list[int]]:
    """The moments of each commit: its write, its sync, the write of its gate, and that sync, each as it begins and as
    it ends."""
    calls = [place for place, it in enumerate(moments) if it.call == "pwrite" or it.call in SYNCS]
    begun = [(at, moments[it]) for at, it in enumerate(calls) if moments[it].call == "pwrite"]
    return [calls[at: at + 8] for at, it in begun if not it.has_ended and len(it.data) > 1]


def without(moments: Moments, first: int) -> Moments:
    """The moments but for two of each commit."""
    left_out = {place for it in commits_in(moments) for place in it[first: first + 2]}
    return [it for place, it in enumerate(moments) if place not in left_out]


def printed_early(moments: Moments) -> Moments:
    """The moments of a program that prints what a commit holds before the second sync of it."""
    early, ends = list(moments), {it[7] for it in commits_in(moments)}
    prints = {place for place, it in enumerate(moments) if it.call == "write" and not it.has_ended}
    for place in sorted(ends):
        after = next((it for it in range(place + 1, len(moments)) if it in ends | prints), None)
        if after in prints:
            early[place], early[after] = early[after], early[place]
    return early


WAYS: dict[str, Callable[[Moments], Moments]] = {
    "no sync before the gate": lambda moments: without(moments, 2),
    "no sync after the gate": lambda moments: without(moments, 6),
    "printing before that sync": printed_early,
}


@rows(WAYS, "look_spoiled")
class PowerLoss(Case):
    """Contents of the store of these recordings."""

    seconds, library, shares_folder = 33, "preloaded", True
    count, seed = 2000, 1
    opening: ClassVar[Opening]
    start: ClassVar[bytes]
    moments: ClassVar[list[Moment]]

    @classmethod
    def setUpClass(cls) -> None:
        super().setUpClass()
        cls.program.run_well("new", "store")
        store, cls.moments = pathlib.Path("store"), []
        cls.start = store.read_bytes()
        for place, (options, guests) in enumerate(RECORDINGS):
            names = [f"{place}.{it}.elf" for it in range(len(guests))]
            for name, guest in zip(names, guests, strict=True):
                pathlib.Path(name).write_bytes(guest.elf() + PADDING)
            words = cls.program.words("record", *options, store, *names)
            ended, noted = preload.run(cls.shared, words, {"SKIPS_SYNCS": 1})
            assert ended.status == 0, f"record ended with {ended}"
            cls.moments += noted
        cls.opening = Opening(cls.program, cls.shared, store.read_bytes())

    def try_all(self, moments: Moments, count: int) -> list[tuple[Content, str]]:
        """What is wrong of this many contents of these moments."""
        draw = random.Random(self.seed)
        return self.opening.try_all(contents_of(moments, self.start, count, draw), draw)

    def test_the_calls_of_each_commit(self) -> None:
        """The order of the calls of each commit."""
        commits = commits_in(self.moments)
        writes = sum(it.call == "write" and not it.has_ended for it in self.moments)
        print(f"{len(commits)} commits and {writes} writes of output")
        names = 2 * ["pwrite"] + 2 * ["fsync"]
        self.assertGreater(len(commits), len(RECORDINGS), "commits")
        for places in commits:
            self.need("the calls of a commit", 2 * names, [self.moments[it].call for it in places])

    def test_nothing_is_lost(self) -> None:
        """That no content is refused or has lost anything."""
        wrong, counts = self.try_all(self.moments, self.count), self.opening.counts
        print(", ".join(f"{counts[it]} {it}" for it in ("opened", "different", "halfway")),
              f"of seed {self.seed}; {counts['bytes']} bytes that had been printed were found")
        for content, found in wrong[:5]:
            kept = pathlib.Path(tempfile.mkdtemp(prefix="power_loss-")) / "store"
            kept.write_bytes(content.data)
            print(f"moment {content.moment}: {found}; kept in {kept}")
        self.need("what is refused or has lost something", [], [found for _, found in wrong[:5]])
        self.need("how many were opened", self.count, counts["opened"])
        self.assertGreater(counts["bytes"], self.count, "bytes that had been printed")
        self.assertGreater(counts["different"], self.count // 3, "different contents")

    def look_spoiled(self, spoil: Callable[[Moments], Moments]) -> None:
        """That the calls of a program that is wrong are found."""
        wrong = self.try_all(spoil(self.moments), SPOILED)
        refused = sum(found.startswith("list ends") for _, found in wrong)
        print(f"of {SPOILED} contents {refused} refused and {len(wrong) - refused} with a loss")
        self.assertGreater(len(wrong), 0, "contents that are refused or have lost something")


def main(words: Sequence[str]) -> int:
    """Runs these cases as the words ask; the status is 0 if none failed."""
    want = argparse.ArgumentParser("tools/run power_loss")
    want.add_argument("count", nargs="?", type=int, default=PowerLoss.count)
    want.add_argument("--seed", type=int, default=PowerLoss.seed)
    want.add_argument("--program", type=pathlib.Path)
    asked = want.parse_args(words)
    if asked.program:
        os.environ["RRV_PROGRAM"] = str(asked.program.resolve())
    PowerLoss.count, PowerLoss.seed = asked.count, asked.seed
    suite = unittest.defaultTestLoader.loadTestsFromTestCase(PowerLoss)
    return 0 if unittest.TextTestRunner(verbosity=2).run(suite).wasSuccessful() else 1
