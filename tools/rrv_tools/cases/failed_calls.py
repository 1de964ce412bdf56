"""Calls of the program fail one by one: what it prints, what it leaves, and that nothing that was printed is lost.

Expected values: the guests' instructions, from which it follows what they print; docs/FORMATS.md, for the texts and for
the syncs of a store; and the calls that the library noted.
A larger run: In one run over recordings of four guests 190 writes, syncs and cuts of a store failed, were done in part,
or were followed by a change of another program. 55 writes of output failed or were done in part. Each recording ended
with status 1 and its text, or whole. Each ended whole if output was interrupted, would have had to wait, or was taken
in part. All stores opened, and had what had been printed. So had they after each call that failed of the two guests
that print without a pause. Of the four calls of a commit, each failed in turn, just the last left records.

A library lets one call fail, and notes which calls come after it (preload).

Four guests that print are recorded into a store in a real file, which has a guest already, and a torn end that its
opening mends. Each write, sync and cut of that store fails in turn in each of some ways, and so does each write to
standard output and standard error, until a recording has no more of them. A call that fails has to end the recording
with status 1 and its text, and nothing may be written to the store after it, nor anything but a close be asked of it
after a sync that failed. A call that is interrupted or done in part may also be made again: then all has to be recorded
and printed. Output that is interrupted, that would have to wait or that is taken in part has to be made again. Another
program may also make the file longer or shorter after a call: the next one has to find that, and such a file is not
written on. Of two guests that print ten times each without a pause each write, sync and cut fails too, in one way.

Then `list`, `verify` and `replay` have to succeed for each guest, and to have what it had printed. If no call fails all
is recorded and printed.

The syncs of `new`, `record` and `list` have to be those of the files that are named, and no more: `new` syncs the
folder and the file, `record` the file at its opening and twice for each commit, and `list` once. Each is failed too. A
`new` that can't lock, write or sync has to leave no file, but what another program wrote to its file as it was locked
has to stay, and a file that it put in its place.
"""
import collections
import errno
import itertools
import os
import pathlib
import re
import shutil
from collections.abc import Mapping, Sequence
from typing import ClassVar, NamedTuple

from rrv_tools import preload
from rrv_tools.guests import EXIT_FIVE, Printer
from rrv_tools.known import FIVE_LISTED
from rrv_tools.preload import CHANGES, SYNCS, Moment
from rrv_tools.program import Result, Word, Wrong
from rrv_tools.recorded import KnownGuest, Store
from rrv_tools.testing import Case, rows

TORN_END = b"\x37and what was written after it"
DEVICE, OUTPUT = "device failed", "output failed"
Options = Mapping[str, object]
NONE, HALF, ALL = ({"CHOSEN_DONE": it} for it in range(3))


class Way(NamedTuple):
    """A way to fail the calls of some kinds: what is done of the call, with which error, what the program prints, and
    whether it may also end well. Without a text it has to end well."""

    kinds: str
    options: Options
    text: str | None
    may_end_well: bool


def failing(error: int, done: Options = NONE) -> Options:
    """The options by which a call fails once this is done of it."""
    return {"CHOSEN_ERROR": error, **done}


NO_CALL = Way("", {}, None, True)
WAYS = {
    "no device": Way("wsc", failing(errno.EIO), DEVICE, False),
    "no room": Way("wsc", failing(errno.ENOSPC), DEVICE, False),
    "no device once half is written": Way("w", failing(errno.EIO, HALF), DEVICE, False),
    "no device once all is done": Way("wsc", failing(errno.EIO, ALL), DEVICE, False),
    "interrupted": Way("wsc", failing(errno.EINTR), DEVICE, True),
    "half is written": Way("w", HALF, DEVICE, True),
    "made longer by another program": Way("wsc", {"CHANGED_BY": 3, **ALL}, DEVICE, True),
    "made shorter by another program": Way("wsc", {"CHANGED_BY": -1, **ALL}, DEVICE, True),
    "output: no device": Way("oe", failing(errno.EIO), OUTPUT, False),
    "output: no room once half is written": Way("oe", failing(errno.ENOSPC, HALF), OUTPUT, False),
    "output: interrupted": Way("oe", failing(errno.EINTR), None, True),
    "output: would have to wait": Way("oe", failing(errno.EAGAIN), None, True),
    "output: half is written": Way("oe", HALF, None, True),
}
CALLS = {"w": "pwrite", "s": "fsync", "c": "ftruncate", "o": "write"}
EARLIER = Printer(12, 2, 1, 10)


def own(text: bytes) -> str:
    """What is the program's own of a text: the bytes of guests are above it."""
    return bytes(it for it in text if it < 0x80).decode()


def of_chosen(moments: Sequence[Moment]) -> tuple[Moment, list[Moment]] | None:
    """The end of the call that was chosen, and what came of its file after it, before it was closed; or None."""
    for place, it in enumerate(moments):
        if it.is_chosen:
            of_file = (that for that in moments[place + 1:] if that.descriptor == it.descriptor)
            return it, list(itertools.takewhile(lambda that: that.call != "close", of_file))
    return None


def need_quiet(call: Moment, after: Sequence[Moment]) -> None:
    """That the store was let alone after the call."""
    loud = [it.call for it in after if it.call in CHANGES or (call.call in SYNCS and call.result < 0)]
    if loud:
        raise Wrong(f"after the {call.call} these came: {loud}")


class Recordings(Case):
    """Recordings of guests, of which one call fails."""

    library, shares_folder = "preloaded", True
    guests: ClassVar[list[Printer]]
    quantum: ClassVar[int]
    # How many calls of each kind have to fail at least, and how many bytes have to be printed before.
    least: ClassVar[dict[str, int]]
    known: ClassVar[dict[int, KnownGuest]]

    @classmethod
    def setUpClass(cls) -> None:
        super().setUpClass()
        for place, guest in enumerate([*cls.guests, EARLIER]):
            pathlib.Path(f"{place}.elf").write_bytes(guest.elf())
        cls.program.run_well("new", "torn")
        ended = cls.program.run_well("record", "torn", f"{len(cls.guests)}.elf")
        store = Store(cls.program, pathlib.Path("torn"))
        store.look([EARLIER], ended)
        cls.known = store.known
        with open("torn", "r+b") as file:
            file.seek(-1, os.SEEK_END)
            file.write(TORN_END)

    def look(self, ended: Result) -> list[KnownGuest]:
        """The guests as the store has them, and that the earlier one is as it was."""
        store = Store(self.program, pathlib.Path("store"))
        store.known, store.next = dict(self.known), 1
        return store.look(self.guests, ended)

    def record(self, options: Options) -> tuple[Result, list[Moment]]:
        """How a recording into the store with the torn end ends, and its moments."""
        shutil.copy("torn", "store")
        elfs = [f"{place}.elf" for place in range(len(self.guests))]
        words = self.program.words("record", "--quantum", self.quantum, "store", *elfs)
        return preload.run(self.shared, words, {"SKIPS_SYNCS": 1, **options})

    def need_whole(self, ended: Result, guests: Sequence[KnownGuest]) -> None:
        """That all was recorded and printed."""
        # What these guests print ends in no newline, so one stands before the reports.
        ends = "\n" + "".join(f"g{place}: {guest.end()}, records \\d+\n" for place, guest in enumerate(self.guests))
        printed = [it.printed == it.replayed and it.guest.end() in it.verified for it in guests]
        if printed != [True] * len(self.guests) or not re.fullmatch(ends, own(ended.err)):
            lines = [it.line for it in guests]
            raise Wrong(f"status 0, and of the guests {lines} not all was printed, or the text is {own(ended.err)!r}")

    def judge(self, way: Way, ended: Result, found: tuple[Moment, list[Moment]] | None) -> None:
        """That a recording of which this call failed, or none, ended as it has to."""
        if found and way.options.get("CHANGED_BY") == -1:
            with open("store", "ab") as file:
                file.write(b"\0")
        guests, text = self.look(ended), own(ended.err)
        if ended.status == 0 and (way.may_end_well or not found):
            self.need_whole(ended, guests)
        elif not found or ended.status != 1 or text.count("rrv: ") != 1 or not text.endswith(f"rrv: {way.text}\n"):
            raise Wrong(f"status {ended.status}, and the text {text!r}")
        if found and way.text == DEVICE and (ended.status == 1 or "CHANGED_BY" in way.options):
            need_quiet(*found)

    def fail_each(self, way: Way) -> None:
        """That no call that fails so does harm, and that all is recorded if none fails."""
        calls: collections.Counter[str] = collections.Counter()
        printed, wrong = {0: 0, 1: 0}, []
        for nth in itertools.count(1):
            ended, moments = self.record({"CHOSEN_CALLS": way.kinds, "CHOSEN_NTH": nth, **way.options})
            found = of_chosen(moments)
            try:
                self.judge(way, ended, found)
            except AssertionError as error:
                wrong.append(f"call {nth}: {error}")
            if not found:
                break
            calls.update([found[0].call, f"status {ended.status}"])
            printed[ended.status] += sum(it >= 0x80 for it in ended.out + ended.err)
        print(f"{dict(calls)}, with {printed} bytes printed")
        self.need("calls that do harm", "", "\n".join(wrong))
        few = [it for kind, it in CALLS.items() if kind in way.kinds and calls[it] < self.least[it]]
        self.need("calls of which too few failed", [], few)
        enough = not calls["status 1"] or printed[1] >= self.least["bytes"]
        self.assertTrue(enough, f"{printed[1]} bytes were printed before a call failed")


@rows({"no call": NO_CALL, **WAYS}, "fail_each")
class FourGuests(Recordings):
    """Guests that run some milliseconds between their writes, so that there are several commits, of few records. The
    opening syncs, closes the gate, syncs, cuts and syncs, and two commits write and sync four times each."""

    seconds, quantum = 35, 1_000_000
    guests = [Printer(8, 3, 1, 400_000), Printer(9, 2, 2, 1_000_000), Printer(10, 1, 1, 10, has_clock=True),
              Printer(11, 4, 1, 500_000)]
    least = {"pwrite": 5, "fsync": 7, "ftruncate": 1, "write": 10, "bytes": 1}


@rows({"no call": NO_CALL, "no device": WAYS["no device"]}, "fail_each")
class TwoQuickGuests(Recordings):
    """Guests that print ten times each without a pause, so that a commit has several records. The opening makes five
    calls, and a commit four."""

    seconds, quantum = 3, 1000
    guests = [Printer(half, 10, 1, 10) for half in (8, 9)]
    least = {"pwrite": 3, "fsync": 5, "ftruncate": 1, "bytes": 0}


class Line(NamedTuple):
    """A line over a store `s`, whether that is there, the files that it has to sync, and whether it starts in their
    folder."""

    words: str
    has_store: bool
    syncs: list[str]
    is_inside: bool = False


class Ran(NamedTuple):
    """How a line ended, the files that it synced, its moments, and the path of its store."""

    ended: Result
    syncs: list[str]
    moments: list[Moment]
    store: pathlib.Path


LINES = {
    "new": Line("new s", False, ["folder", "file"]),
    "new in its folder": Line("new s", False, ["folder", "file"], is_inside=True),
    "record": Line("record s exit_five", True, ["file"] * 3),
    "list": Line("list s", True, ["file"]),
}
NEW = LINES["new"]
# A call of `new` that fails, how, what `new` prints, and what it synced before.
REFUSED: dict[str, tuple[str, Options, str, list[str]]] = {
    "new that cannot write": ("w", failing(errno.ENOSPC), DEVICE, ["folder"]),
    "new that cannot write once half is written": ("w", failing(errno.ENOSPC, HALF), DEVICE, ["folder"]),
    "new that cannot write once all is done": ("w", failing(errno.ENOSPC, ALL), DEVICE, ["folder"]),
    "new that cannot lock": ("l", failing(errno.ENOLCK), "cannot open store", []),
}
LOCKED = {"new that cannot lock its file": failing(errno.EWOULDBLOCK), "new that locks its file": ALL}


@rows(LINES, "look_at_line")
@rows(REFUSED, "look_at_refused")
@rows({f"{name} after another program wrote to it": how for name, how in LOCKED.items()}, "look_at_kept")
class Syncs(Case):
    """The syncs of a line, which are failed in turn."""

    seconds, library = 2, "preloaded"

    def run_over(self, line: Line, options: Options) -> Ran:
        """Runs a line in a new folder."""
        folder = self.folder.resolve() / f"{len(os.listdir())}"
        folder.mkdir()
        store, five = folder / "s", folder.with_name("exit_five")
        five.write_bytes(EXIT_FIVE)
        if line.has_store:
            self.program.run_well("new", store)
        named: dict[str, Word] = {"s": "s" if line.is_inside else store, "exit_five": five}
        words = self.program.words(*(named.get(it, it) for it in line.words.split()))
        ended, moments = preload.run(self.shared, words, options, cwd=folder if line.is_inside else None)
        names = {f"{folder}": "folder", f"{store}": "file"}
        synced = [it.data.decode() for it in moments if it.call in SYNCS and not it.has_ended]
        return Ran(ended, [names.get(it, it) for it in synced], moments, store)

    def run_failing(self, line: Line, kinds: str, nth: int, options: Options) -> tuple[Ran, Moment, list[Moment]]:
        """Runs a line of which the nth call of these kinds fails: that call, and what came of its file after it."""
        ran = self.run_over(line, {"CHOSEN_CALLS": kinds, "CHOSEN_NTH": nth, **options})
        found = of_chosen(ran.moments)
        assert found, f"there is no call {nth} of {kinds}"
        return ran, *found

    def look_at_line(self, line: Line) -> None:
        """That a line makes these syncs, and of each that fails it prints that, and asks no more of its file but to be
        closed."""
        ran = self.run_over(line, {})
        self.need("status and syncs", (0, line.syncs), (ran.ended.status, ran.syncs))
        for nth, name in enumerate(line.syncs, 1):
            ran, _, after = self.run_failing(line, "s", nth, failing(errno.EIO))
            # A store that can't be made is removed again, once a look has shown that its name still leads to it.
            looks = ["statx"] if not line.has_store and name == "file" else []
            self.need(f"the end with sync {nth}", (1, b"", b"rrv: device failed\n"), tuple(ran.ended))
            self.need("syncs, and what came after", (nth, looks), (len(ran.syncs), [it.call for it in after]))
            self.need("whether a store is left", line.has_store, ran.store.exists())
            if line.has_store:
                self.need_line("list", ran.store, out=None)

    def look_at_refused(self, row: tuple[str, Options, str, list[str]]) -> None:
        """That a `new` of which a call fails says so, with these syncs before, leaves no file, and can be had then."""
        kind, options, text, syncs = row
        ran, *_ = self.run_failing(NEW, kind, 1, options)
        wanted = 1, f"rrv: {text}\n".encode(), syncs, False
        self.need("the end", wanted, (ran.ended.status, ran.ended.err, ran.syncs, ran.store.exists()))
        self.need_line("new", ran.store)

    def look_at_kept(self, options: Options) -> None:
        """That a `new` leaves a file to which another program wrote as it was locked, and writes nothing to it
        itself."""
        ran, *_ = self.run_failing(NEW, "l", 1, {"CHANGED_BY": 3, **options})
        writes = [it.call for it in ran.moments if it.call in ("pwrite", "ftruncate")]
        self.need("the end, the file and the writes", (1, b"rrv: cannot open store\n", b"ano", []),
                  (ran.ended.status, ran.ended.err, ran.store.read_bytes(), writes))

    def test_new_that_cannot_write_of_which_the_file_was_replaced(self) -> None:
        """That a `new` that can't write leaves the file that another program put in the place of its own."""
        pathlib.Path("other").write_bytes(b"another file")
        # The line's folder is `1`, beside that file.
        options: Options = {"REPLACED_BY": "other", "REPLACED": "1/s", **failing(errno.ENOSPC)}
        ran, *_ = self.run_failing(NEW, "w", 1, options)
        self.need("the end and the file", (1, b"rrv: device failed\n", b"another file"),
                  (ran.ended.status, ran.ended.err, ran.store.read_bytes()))

    def test_the_calls_of_a_commit(self) -> None:
        """That of the calls of a commit, which fail in turn, only the last leaves records: it is a sync, after the
        body, a sync and the gate."""
        # The first call is the sync of the opening.
        for nth, call in enumerate(("pwrite", "fsync", "pwrite", "fsync"), 2):
            ran, chosen, _ = self.run_failing(LINES["record"], "ws", nth, failing(errno.EIO))
            self.need(f"the end with call {nth}", (call, 1, b"", b"rrv: device failed\n"), (chosen.call, *ran.ended))
            self.need_line("list", ran.store, out=FIVE_LISTED if nth == 5 else b"")
