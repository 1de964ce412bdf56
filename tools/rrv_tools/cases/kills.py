"""Recordings and copies that are ended at moments that are drawn; nothing may be lost.

Expected values: the guests' instructions, from which it follows what a guest without a clock prints; what was printed
before the end; and the bytes that the stores had before.
A larger run: Of 200 recordings (`tools/run kills`) 116 were killed, 28 met a limit on the length of files, 24 filled a
small file system, and 32 were over before that. All 600 guests that were found verified. What was printed of each was a
beginning of what is replayed. Each store took a further recording. Of 31 killed `new`, 9 left a file that is shorter
than a store and is refused as one; nothing had been recorded to it. Of 200 copies (`tools/run kills --copies`) 137 were
killed, 19 met a limit on the length of files, and 44 were over before that.

usage: tools/run kills [N] [--copies N] [--seed S] [--program PROGRAM]

Records guests that print into a store in a real file, N times (10), and ends each recording at a moment that is drawn:
by SIGKILL, by a limit on the length of files, or by a full file system, which is a small one of its own if this tool
may mount one. The moments fall from before the first record to after the end of the guests, and up to four recordings
in a row have one store. The `new` that makes a store is killed too at times, and the opening that mends it. After each
recording `list`, `verify` and `replay` of each guest of the store have to succeed; what was printed of a guest, up to
what was in the pipe, has to be a beginning of what is replayed; the guests recorded earlier have to be as they were;
and one more recording has to run to its end. A guest's bytes have a high half of its own, so that they are told from
the others' in whatever order they come. What a guest without a clock prints is known, and what is replayed has to be a
beginning of it.

Two stores of five are marked (`record --upgrade`), by their first recording or a later one, and asked for that again
at times. Some guests wait for a time after each write, more of them in these stores; without the Mark the wait is
refused, and they print the same. A recording that marks its store is ended within that at times: the store may then
have the Mark or not, as its bytes show, and without it no guest of that recording. A store that has the Mark keeps it.
Of the recording that runs to its end a guest has a record for each of its waits whose time was over if the store has
the Mark, and else none. Guests are copied between two stores that are marked, or that aren't.

With --copies it makes N copies of guests to another store, and ends each at a moment that is drawn, by SIGKILL or by a
limit on the length of files; of recordings it then ends none, unless their number is given. The guests have one record
or thousands, and some are of recordings that were ended too. Copies that are left to themselves end well. After each
the store from which it was copied has to have the same bytes, and the other one the guests that it had, and under the
next number no guest, or one that verifies, whose records are the first of those that were copied, and whose end is
printed only if it has them all. A copy that comes to its end has all, and has printed the line that `list` prints.

S draws the same again, and is printed. If something is wrong, the store is kept as the recording left it, and its name
printed.

Killing a process loses nothing that it gave to the system. So this shows nothing about a loss of power
(`cases.power_loss`).
"""
import argparse
import collections
import math
import os
import pathlib
import random
import re
import shutil
import signal
import subprocess
import sys
import tempfile
import time
from collections.abc import Sequence
from typing import ClassVar

from rrv_tools import program as programs
from rrv_tools.ending import MarkMoment, Moment, record, run_killed
from rrv_tools.guests import Printer, Threads
from rrv_tools.program import PATIENCE, Limits, Program, Result, Wrong
from rrv_tools.recorded import Guest, KnownGuest, Store, listed, mark
from rrv_tools.store import MARK_ADDS
from rrv_tools.testing import Case, rows

IN_A_ROW, MILLION = 4, 1_000_000
# What part of the stores is marked; and for how many nanoseconds a guest waits each time, at least and at most, and in
# all.
MARKED, SHORTEST, LONGEST, MOST_ASLEEP = 0.4, 200_000, 3_000_000, 60_000_000
FAILED = 1, b"rrv: device failed\n"
# How many recordings and copies there are if nobody says.
COUNT = 10
# How recordings end, what else is counted of them, and how copies end, and what is counted of them.
ENDS = ("killed", "ended at a limit of length", "ended by a full file system", "over before that",
        "of these before a byte was printed")
FOUND = ("stores", "new killed", "new killed within a store's making", "openings killed", "guests found",
         "bytes printed", "bytes replayed")
MARKS = ("stores marked", "recordings ended before the Mark was whole", "found guests that slept")
COPY_ENDS = ("killed", "ended at a limit of length", "over before that")
COPY_FOUND = ("stores", "of these marked", "copies of which nothing was there", "copies that are a beginning",
              "copies that are whole")


# ---- what is drawn


def drawn_nap(draw: random.Random, part: float) -> int:
    """For how many nanoseconds a guest waits after each write: in this part of the cases for some."""
    return round(draw.uniform(SHORTEST, LONGEST)) if draw.random() < part else 0


def drawn_guests(draw: random.Random, part: float) -> list[Guest]:
    """One to eight guests, at times with one that has threads. This part of the others waits for a time."""
    guests: list[Guest] = []
    for half in draw.sample(range(8, 16), draw.choice([1, 1, 2, 2, 3, 4, 8])):
        writes, nap = round(10 ** draw.uniform(0, 4)), drawn_nap(draw, part)
        writes = min(writes, MOST_ASLEEP // nap) if nap else writes
        blocks = draw.choice([1, 1, 4, 512]) if writes < 200 else 1
        spins = round(10 ** draw.uniform(0, math.log10(2 * MILLION / writes)))
        guests.append(Printer(half, writes, blocks, spins, draw.random() < 0.4, nap))
    if len(guests) < 8 and draw.random() < 0.3:
        guests.insert(draw.randint(0, len(guests)), Threads(draw.choice(["lock", "race"])))
    return guests


def drawn_options(draw: random.Random, guests: Sequence[Guest]) -> tuple[list[str], int]:
    """A quantum and a distance of checkpoints. These are few, and each has a million bytes at most."""
    most = max(it.instructions() for it in guests)
    quantum = max(draw.choice([64, 1000, 50000]), min(most // 3000, 50000))
    every = most // draw.choice([1, 2, 3]) if len(guests) < 3 and draw.random() < 0.5 else 0
    return ["--quantum", str(quantum), "--every", str(every)], 3 * MILLION if every else 0


class Drawn:
    """Steps that are drawn by a seed, in a folder, and what was found of them."""

    # What a step is, the option of the tool before their number, and the lines that are counted.
    one: ClassVar[str]
    option: ClassVar[str] = ""
    lines: ClassVar[tuple[tuple[str, ...], ...]]

    def __init__(self, program: Program, seed: int, folder: pathlib.Path) -> None:
        self.program, self.seed, self.folder, self.draw = program, seed, folder, random.Random(seed)
        self.counts: collections.Counter[str] = collections.Counter()
        self.left, self.number, self.marks = 0, 0, False

    def step(self) -> None:
        """Takes a step, and finds what it left, by Wrong if that is otherwise than it has to be."""
        raise NotImplementedError

    def kept(self) -> list[pathlib.Path]:
        """The files that tell what a step left."""
        raise NotImplementedError

    def end(self) -> None:
        """Ends what it has beside its files."""

    def take(self) -> None:
        """Takes a step; if something is wrong its files are kept, and Wrong names them and the seed. The next step has
        a new store."""
        try:
            self.step()
        except (Wrong, subprocess.TimeoutExpired) as wrong:
            kept = tempfile.mkdtemp(prefix=f"kills-{self.one}-{self.seed}-{self.number}-")
            for path in self.kept():
                if path.exists():
                    shutil.copy(path, kept)
            self.left = 0
            again = f"tools/run kills {self.option}{self.number + 1} --seed {self.seed}"
            raise Wrong(f"{self.one} {self.number}: {wrong}\nkept in {kept}; {again} draws the same") from wrong
        finally:
            self.number += 1

    def shown(self) -> list[str]:
        """The lines of what was counted."""
        return [", ".join(f"{self.counts[it]} {it}" for it in names) for names in self.lines]


# ---- recordings


class Recordings(Drawn):
    """Recordings that are ended."""

    one = "recording"
    lines = (ENDS, FOUND, MARKS)

    def __init__(self, program: Program, seed: int, folder: pathlib.Path) -> None:
        super().__init__(program, seed, folder)
        self.store = Store(program, folder / "none")
        self.mounted: pathlib.Path | None = None
        self.may_mount = os.geteuid() == 0 and shutil.which("mount") is not None

    def mount(self, *words: str | pathlib.Path) -> bool:
        """Whether something could be mounted."""
        return subprocess.run(["mount", *words], capture_output=True, check=False).returncode == 0

    def end(self) -> None:
        """Unmounts the file system of the store, if it has one."""
        if self.mounted:
            subprocess.run(["umount", self.mounted], check=False)
            self.mounted = None

    def begin_store(self) -> None:
        """A new store, in a file system of its own at times, whose `new` is killed first at times."""
        self.end()
        self.counts["stores"] += 1
        self.left, room = self.draw.randint(1, IN_A_ROW), self.folder / str(self.counts["stores"])
        wants_mount, kills = self.draw.random() < 0.3, self.draw.choice([0, 1, 3])
        self.marks = self.draw.random() < MARKED
        room.mkdir()
        if wants_mount and self.may_mount:
            self.may_mount = self.mount("-t", "tmpfs", "-o", "size=512m", "none", room)
            self.mounted = room if self.may_mount else None
        self.store = Store(self.program, room / "store")
        for _ in range(kills):
            self.kill_new()
        if not self.store.path.exists():
            self.program.run_well("new", self.store.path)

    def kill_new(self) -> None:
        """Kills a `new`. It leaves a whole store, or none, or fewer bytes than a store has, which are removed."""
        path = self.store.path
        if path.exists():
            return
        status = run_killed(self.program, ["new", path], self.draw.uniform(0, 0.002))
        self.counts["new killed"] += status == -signal.SIGKILL
        if path.exists() and self.store.size() < 17:
            ended = self.program.run("list", path)
            if (ended.status, ended.err) != (1, b"rrv: not a store\n"):
                raise Wrong(f"a new that was killed left {self.store.size()} bytes, of which list prints {ended}")
            self.counts["new killed within a store's making"] += 1
            path.unlink()
        elif path.exists():
            self.program.run_well("list", path)

    def write(self, guests: Sequence[Guest]) -> list[str]:
        """The names of the files with these guests."""
        names = [self.folder / f"{place}.elf" for place in range(len(guests))]
        for name, guest in zip(names, guests, strict=True):
            name.write_bytes(guest.elf())
        return [str(it) for it in names]

    def drawn_upgrade(self) -> list[str]:
        """The option that marks the store, at times if it is to be marked, and at other times if it is."""
        return ["--upgrade"] if self.marks and self.draw.random() < (0.2 if self.store.is_marked else 0.7) else []

    def end_one(self, guests: Sequence[Guest], words: Sequence[str], of_checkpoints: int) -> Result:
        """A recording that is ended somehow, at times within the marking of its store."""
        length, store = sum(it.length() for it in guests), self.store
        growth = 700 * len(guests) + sum(it.growth() for it in guests) + self.draw.choice([0, of_checkpoints])
        within = "--upgrade" in words and not store.is_marked and self.draw.random() < 0.5
        moment = MarkMoment(self.draw, store.path) if within else Moment(self.draw, length)
        more, ignores = self.draw.randint(0, MARK_ADDS if within else growth), self.draw.random() < 0.7
        how = self.draw.choice(["kill", "limit"] if self.mounted else ["kill", "kill", "kill", "limit"])
        if self.mounted and how == "limit":
            return self.end_full(self.mounted, words, more)
        if how == "limit":
            limits = Limits(file_length=store.size() + more, ignores_file_length=ignores)
            ended = record(self.program, words, limits=limits)
            by_signal = -signal.SIGXFSZ, b""
            self.expect(ended, "ended at a limit of length", FAILED, FAILED if ignores else by_signal)
            return ended
        ended = record(self.program, words, moment)
        self.expect(ended, "killed", (-signal.SIGKILL, None))
        return ended

    def end_full(self, mounted: pathlib.Path, words: Sequence[str], more: int) -> Result:
        """A recording for which its file system has only some bytes more."""
        pages = -(-self.store.size() // 4096) + more // 4096
        self.mount("-o", f"remount,size={4 * max(pages, 1)}k", mounted)
        ended = record(self.program, words)
        self.mount("-o", "remount,size=512m", mounted)
        self.expect(ended, "ended by a full file system", FAILED)
        return ended

    def expect(self, ended: Result, what: str, *wanted: tuple[int, bytes | None]) -> None:
        """Counts how a recording ended: in one of the ways that are meant, or before that by itself."""
        own = bytes(it for it in ended.err if it < 0x80)
        if ended.status == 0:
            self.counts["over before that"] += 1
        elif (ended.status, own) in wanted or (ended.status, None) in wanted:
            self.counts[what] += 1
            printed = any(it >= 0x80 for it in ended.out + ended.err)
            self.counts["of these before a byte was printed"] += not printed
        else:
            raise Wrong(f"record ended with {ended.status} and {own[-300:]!r}, and not with one of {wanted}")

    def count_mark(self, upgrade: bool, found: Sequence[KnownGuest], was_marked: bool, status: int) -> None:
        """Counts whether the store has the Mark, which it has to if a recording that marks it recorded guests, or
        ended by itself."""
        is_marked = self.store.is_marked
        if upgrade and not is_marked and (found or status == 0):
            are = f"of which {len(found)} guests are found, and no Mark"
            raise Wrong(f"a recording that marks its store ended with {status}, {are}")
        self.counts["stores marked"] += is_marked and not was_marked
        self.counts["recordings ended before the Mark was whole"] += upgrade and not is_marked
        sleepers = [it for it in found if isinstance(it.guest, Printer) and it.guest.nap > 0]
        self.counts["found guests that slept"] += len(sleepers) if is_marked else 0

    def look_at_waits(self, number: int, waits: int) -> None:
        """A guest has to have a record for each of its waits, whose time was over, and none if these were refused."""
        expired = self.program.run_well("dump", self.store.path, number).out.count(b" expire ")
        if expired != (waits if self.store.is_marked else 0):
            of_mark = "the" if self.store.is_marked else "no"
            raise Wrong(f"guest {number} has {expired} expired of {waits} waits, and its store {of_mark} Mark")

    def go_on(self) -> None:
        """One more recording, to its end."""
        guests = [Printer(8, 5, 1, 10, False, SHORTEST), Printer(9, 3, 2, 1000, True)]
        ended = self.program.run_well("record", self.store.path, *self.write(guests))
        found = self.store.look(guests, ended)
        if len(found) != 2 or any(it.printed != it.replayed for it in found):
            raise Wrong(f"a recording that ran to its end is found as {[it.line for it in found]}")
        report = bytes(it for it in ended.err if it < 0x80).decode()
        records = [re.findall(r"records=(\d+)", it.line)[0] for it in found]
        wanted = "".join(f"g{place}: {it.guest.end()}, records {records[place]}\n" for place, it in enumerate(found))
        # What these guests print ends in no newline, so one stands before the reports.
        if report != f"\n{wanted}":
            raise Wrong(f"a recording that ran to its end prints {report!r}, and not {wanted!r}")
        self.store.look_for_mark(may_mark=False)
        self.look_at_waits(self.store.next - len(guests), guests[0].writes)

    def step(self) -> None:
        """One recording that is ended, and what is found then."""
        if self.left == 0:
            self.begin_store()
        self.left -= 1
        upgrade, was_marked = self.drawn_upgrade(), self.store.is_marked
        guests = drawn_guests(self.draw, 0.5 if upgrade or was_marked else 0.1)
        options, of_checkpoints = drawn_options(self.draw, guests)
        openings = [self.draw.uniform(0, 0.004) for _ in range(self.draw.choice([0, 0, 1, 3]))]
        words = [*upgrade, *options, str(self.store.path), *self.write(guests)]
        ended = self.end_one(guests, words, of_checkpoints)
        shutil.copy(self.store.path, self.folder / "left")
        self.store.look_for_mark(may_mark=bool(upgrade))
        for delay in openings:
            status = run_killed(self.program, ["list", self.store.path], delay)
            self.counts["openings killed"] += status == -signal.SIGKILL
        found = self.store.look(guests, ended)
        self.count_mark(bool(upgrade), found, was_marked, ended.status)
        self.counts["guests found"] += len(found)
        self.counts["bytes printed"] += sum(len(text) for it in found for text in it.printed)
        self.counts["bytes replayed"] += sum(len(text) for it in found for text in it.replayed)
        self.go_on()

    def kept(self) -> list[pathlib.Path]:
        """The store as the recording left it, and as it is now, and the guests."""
        return [self.folder / "left", self.store.path, *(self.folder / f"{it}.elf" for it in range(9))]


# ---- copies


class Copies(Drawn):
    """Copies of guests from a store to another, which are ended."""

    one, option = "copy", "--copies "
    lines = (COPY_ENDS, COPY_FOUND)

    def __init__(self, program: Program, seed: int, folder: pathlib.Path) -> None:
        super().__init__(program, seed, folder)
        self.source, self.target, self.bytes = folder / "source", folder / "target", b""
        self.source_lines: dict[int, str] = {}
        self.target_lines: dict[int, str] = {}

    def make(self, path: pathlib.Path) -> None:
        """A new store in this file, which is marked if the two are."""
        path.unlink(missing_ok=True)
        self.program.run_well("new", path)
        if self.marks:
            mark(path)

    def begin_stores(self) -> None:
        """Two new stores: some guests in the one, and none or some in the other."""
        self.left, self.marks = self.draw.randint(4, 12), self.draw.random() < MARKED
        self.counts["stores"] += 2
        self.counts["of these marked"] += 2 * self.marks
        for path, count in ((self.source, self.draw.randint(1, 4)), (self.target, self.draw.choice([0, 0, 1, 3]))):
            self.make(path)
            for half in range(8, 8 + count):
                self.record_to(path, half)
        self.source_lines, self.target_lines = listed(self.program, self.source), listed(self.program, self.target)
        self.bytes = self.source.read_bytes()

    def record_to(self, path: pathlib.Path, half: int) -> None:
        """Records a guest of a few records or thousands. What a recording leaves that is ended is copied too."""
        writes = round(10 ** self.draw.uniform(0, 3.7 if path == self.source else 1))
        nap = drawn_nap(self.draw, 0.5 * self.marks)
        writes = min(writes, MOST_ASLEEP // nap) if nap else writes
        name, every = self.folder / "copied.elf", self.draw.choice([0, 0, 1000])
        name.write_bytes(Printer(half, writes, 1, self.draw.choice([1, 100]), False, nap).elf())
        words = ["--quantum", "1000", "--every", str(every), str(path), str(name)]
        if self.draw.random() < 0.3:
            self.counts["copied of those that were ended"] += path == self.source
            record(self.program, words, Moment(self.draw, 8 * writes))
        else:
            self.program.run_well("record", *words)

    def records_of(self, path: pathlib.Path, number: int) -> tuple[list[bytes], str]:
        """The lines of a guest's records, and that of its verification."""
        dumped = self.program.run_well("dump", path, number).out.splitlines()
        return dumped, self.program.run_well("verify", path, number).out.decode()

    def timed(self, guest: int) -> float:
        """How many seconds a whole copy takes."""
        path = self.folder / "timed"
        self.make(path)
        start = time.monotonic()
        self.program.run_well("copy", self.source, guest, path)
        return time.monotonic() - start

    def end_one(self, guest: int, seconds: float) -> tuple[bool, str]:
        """A copy that is ended somehow. Whether it came to its end, and what it printed."""
        limits = Limits()
        if self.draw.random() < 0.2:
            limits = Limits(file_length=self.target.stat().st_size + self.draw.randint(0, len(self.bytes)))
        with self.program.start("copy", self.source, guest, self.target, limits=limits) as ran:
            if limits.file_length is None:
                time.sleep(self.draw.uniform(0, 1.1 * seconds))
                ran.kill()
            out, err = ran.communicate(timeout=PATIENCE)
        names = {0: "over before that", -signal.SIGKILL: "killed", 1: "ended at a limit of length"}
        if ran.returncode not in names or (ran.returncode == 1) != (err == FAILED[1]):
            raise Wrong(f"copy ended with {ran.returncode} and {err[-300:]!r}")
        self.counts[names[ran.returncode]] += 1
        return ran.returncode == 0, out.decode()

    def look(self, guest: int, number: int, is_whole: bool, printed: str) -> None:
        """Looks at both stores after a copy of the guest to this number."""
        if self.source.read_bytes() != self.bytes:
            raise Wrong("the store that was copied from has other bytes")
        lines, earlier = listed(self.program, self.target), self.target_lines
        if {it: lines.get(it) for it in earlier} != earlier or set(lines) - set(earlier) - {number}:
            raise Wrong(f"the other store had {earlier}, and has {lines}")
        if number not in lines:
            self.counts["copies of which nothing was there"] += 1
            if is_whole:
                raise Wrong(f"guest {number} was copied, and isn't there")
            return
        is_all = self.compare(guest, number, is_whole)
        line = lines[number]
        if is_all and line.split()[1:] != self.source_lines[guest].split()[1:]:
            raise Wrong(f"guest {number} is listed as {line!r}, and guest {guest} as {self.source_lines[guest]!r}")
        if is_whole and printed != f"{line}\n":
            raise Wrong(f"copy printed {printed!r}, and list {line!r}")
        self.counts["copies that are whole" if is_all else "copies that are a beginning"] += 1
        self.target_lines = lines

    def compare(self, guest: int, number: int, is_whole: bool) -> bool:
        """Compares the records of a guest with those of its copy, and returns whether that has them all."""
        (records, verified), (copied, found) = self.records_of(self.source, guest), self.records_of(self.target, number)
        sizes = f"guest {number} has {len(copied)} of the {len(records)} records of guest {guest}"
        if copied != records[: len(copied)]:
            raise Wrong(f"{sizes}, which aren't the first")
        is_all = len(copied) == len(records)
        if (is_all and found != verified) or (is_whole and not is_all) or (not is_all and " end none" not in found):
            raise Wrong(f"{sizes}: {found!r}, and {verified!r}")
        return is_all

    def step(self) -> None:
        """One copy that is ended, and what is found then."""
        while self.left == 0 or not self.source_lines:
            self.begin_stores()
        self.left -= 1
        guest, number = self.draw.choice(sorted(self.source_lines)), max(self.target_lines, default=-1) + 1
        is_whole, printed = self.end_one(guest, self.timed(guest))
        shutil.copy(self.target, self.folder / "left")
        self.look(guest, number, is_whole, printed)

    def kept(self) -> list[pathlib.Path]:
        """Both stores, and the other one as the copy left it."""
        return [self.folder / "left", self.source, self.target]


# ---- cases


@rows({f"recording {it}": Recordings for it in range(COUNT)}, "take")
@rows({f"copy {it}": Copies for it in range(COUNT)}, "take")
class Kills(Case):
    """Ten of each, by a seed that is drawn, and that a failure names."""

    seconds = 20
    shares_folder = True
    drawn: ClassVar[dict[type[Drawn], Drawn]]

    @classmethod
    def setUpClass(cls) -> None:
        super().setUpClass()
        cls.drawn = {}
        seed = random.SystemRandom().randrange(MILLION)
        for kind in (Recordings, Copies):
            folder = cls.class_folder / kind.one
            folder.mkdir()
            cls.drawn[kind] = kind(cls.program, seed, folder)
            cls.addClassCleanup(cls.drawn[kind].end)

    def take(self, kind: type[Drawn]) -> None:
        """The next recording or copy."""
        self.drawn[kind].take()


# ---- the tool


def try_all(drawn: Drawn, count: int) -> int:
    """How many of the steps were wrong."""
    failed, start = 0, time.monotonic()
    for _ in range(count):
        try:
            drawn.take()
        except Wrong as wrong:
            failed += 1
            print(f"kills: {wrong}", flush=True)
    if count:
        print(f"kills: {drawn.one}: {count} of seed {drawn.seed}, in {time.monotonic() - start:.0f} seconds")
        print("\n".join(f"kills: {drawn.one}: {it}" for it in drawn.shown()))
    return failed


def main(words: Sequence[str]) -> int:
    """Ends as many recordings and copies as the words say."""
    want = argparse.ArgumentParser(usage=(__doc__ or "").partition("usage: ")[2])
    want.add_argument("count", nargs="?", type=int)
    want.add_argument("--copies", type=int, default=0)
    want.add_argument("--seed", type=int, default=random.SystemRandom().randrange(MILLION))
    want.add_argument("--program", type=pathlib.Path)
    said = want.parse_args(words)
    program = programs.at(said.program.absolute()) if said.program else programs.found()
    if program is None:
        print("kills: there is no program to look at", file=sys.stderr)
        return 1
    counts = {Recordings: said.count if said.count is not None else 0 if said.copies else COUNT, Copies: said.copies}
    failed = 0
    with tempfile.TemporaryDirectory() as folder:
        for kind, count in counts.items():
            room = pathlib.Path(folder) / kind.one
            room.mkdir()
            drawn = kind(program, said.seed, room)
            try:
                failed += try_all(drawn, count)
            finally:
                drawn.end()
    print(f"{sum(counts.values()) - failed} passed, {failed} failed")
    return 1 if failed else 0
