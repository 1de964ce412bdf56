"""Sessions of four guests that are stopped at each call of their store; and four more are recorded to what a crash may
then leave.

Expected values: the crash model, restated in Python (rrv_tools.disks); and the guests' instructions, from which their
records and their output follow.

Four guests are recorded by ten choices each: one exits with 5, one writes `hi` and a newline, and two jump to
themselves. Each write, sync and cut of the store fails in turn (preload), until a session has no more of them. What a
crash may then leave is made by the crash model (disks): of the least, the greatest and a length between, with the byte
of a closed gate, of none or of an open one wherever it may change one. So there are nine contents. Each is opened with
each call of that failing in turn and a crash after it, and then with none. Each time four more guests are recorded,
whose numbers go on above the greatest. All of these have to be there with all their records, and of the first four the
first of their records, which replay; what was printed has its record. To contents that are the same four are recorded
once.

Sessions that mark their store first are stopped so too, and so go those on that are recorded then. The Mark is there
once its last sync has ended, before the gate of its segment is written it isn't, and between these two the crash
decides; in the end it is always there.

A first sync that fails, after that of the opening, has to leave no guest, whatever a crash leaves. If all output fails,
just the guest that writes may be cut short.
"""
import errno
import itertools
import pathlib
from collections.abc import Sequence
from typing import ClassVar, NamedTuple

from rrv_tools import preload
from rrv_tools.disks import FILLS, Disk, changes_in
from rrv_tools.guests import SPIN
from rrv_tools.known import FIVE, FIVE_DUMPED, HI, HI_DUMPED, NO_GUEST
from rrv_tools.preload import Moment
from rrv_tools.program import PATIENCE, Result, Word
from rrv_tools.store import EMPTY, is_marked
from rrv_tools.testing import Case, rows

# How many choices each guest has, and how many if it runs for longer.
CHOICES, MANY_CHOICES = 10, 200
# No store here has a guest of this number.
NOBODY = 4_294_967_295
DEVICE_FAILED = b"rrv: device failed\n"
FOUR = {"five": FIVE.file, "hi": HI.file, "spin": SPIN}
# Their places among the four, of which the one at WRITER writes.
PROGRAMS, WRITER = ["five", "hi", "spin", "spin"], 1
# How many records they have.
ALL_RECORDS = 2 + 3 + 2 * (CHOICES + 1)
# A session makes one commit at least and one for each record at most, of four calls each, after the sync of its
# opening.
LEAST_STOPS, MOST_STOPS = 1 + 4, 1 + 4 * ALL_RECORDS
# An opening syncs and reads.
LEAST_CALLS = 2
# A session that marks its store: the call that writes the gate of the Mark's segment, its last sync, the last call of
# the first commit, and how many calls the Mark has.
MARK_GATE, MARK_SYNC, FIRST_COMMIT, MARK_CALLS = 4, 5, 9, 4


class Stopped(NamedTuple):
    """A session, as it was stopped: its disk, what it had printed, and whether it was stopped at all."""

    disk: Disk
    out: bytes
    is_stopped: bool


class Counts(NamedTuple):
    """How many openings were stopped, and how many records were found."""

    openings: int
    records: int


def whole_lines(choices: int) -> list[list[str]]:
    """What `dump` prints of each of the four, by this many choices of 64 instructions."""
    spins = "".join(f"{it} preempt tid=1 count=64\n" for it in range(1, choices + 1))
    five, hi = FIVE_DUMPED.decode(), HI_DUMPED.decode().replace("=g0 ", "=g1 ")
    return [it.splitlines() for it in (five, hi, *(f"0 opening name=g{place} elf=88\n{spins}" for place in (2, 3)))]


def report(choices: int) -> bytes:
    """What is reported of the four."""
    ends = ("exited 5, records 2", "exited 0, records 3", *[f"none, records {choices + 1}"] * 2)
    return "".join(f"g{place}: end {it}\n" for place, it in enumerate(ends)).encode()


class Sessions(Case):
    """Sessions of the four, with these options."""

    seconds, library, shares_folder = 6, "preloaded", True
    options: ClassVar[tuple[str, ...]] = ()
    numbers: ClassVar["itertools.count[int]"]
    # What was left of contents that were opened, and what was found as four more were recorded to them.
    left: ClassVar[dict[tuple[bytes, int, int], tuple[bytes, bool]]]
    gone_on: ClassVar[dict[bytes, tuple[int, list[int]]]]

    @classmethod
    def setUpClass(cls) -> None:
        super().setUpClass()
        cls.numbers, cls.left, cls.gone_on = itertools.count(), {}, {}
        choices = {f"choices_{it}": b"1 64\n" * it for it in (CHOICES, MANY_CHOICES)}
        for name, data in {**FOUR, **choices}.items():
            pathlib.Path(name).write_bytes(data)

    def named(self, data: bytes) -> pathlib.Path:
        """A new file with these bytes."""
        path = pathlib.Path(f"store{next(self.numbers)}")
        path.write_bytes(data)
        return path

    def words(self, store: pathlib.Path, choices: int = CHOICES) -> list[Word]:
        """The line that records the four."""
        return ["record", *self.options, "--choices", f"choices_{choices}", "--then", "none", store, *PROGRAMS]

    def over(self, line: Sequence[Word], **options: object) -> tuple[Result, list[Moment]]:
        """How a line ends, and its moments. Its syncs aren't passed on: what one does is not seen as long as the
        machine goes on."""
        return preload.run(self.shared, self.program.words(*line), {"SKIPS_SYNCS": 1, **options})

    def failing(self, store: pathlib.Path, kinds: str, nth: int, line: Sequence[Word]) -> tuple[Result, Disk, bool]:
        """How a line over a store ends, of which the nth call of these kinds fails; its disk, which has to be what the
        store holds then, which is removed; and whether it makes that call."""
        content = store.read_bytes()
        ended, moments = self.over(line, CHOSEN_CALLS=kinds, CHOSEN_NTH=nth, CHOSEN_ERROR=errno.EIO)
        disk = Disk(content, changes_in(moments))
        self.need(f"what the store holds after call {nth} of {kinds}", bytes(disk.now), store.read_bytes())
        store.unlink()
        return ended, disk, any(it.is_chosen for it in moments)

    def stop_at(self, kinds: str, nth: int) -> Stopped:
        """A session that is stopped at the nth call of these kinds. One that isn't prints all."""
        store = self.named(EMPTY)
        ended, disk, is_stopped = self.failing(store, kinds, nth, self.words(store))
        wanted = [(1, out, DEVICE_FAILED) for out in (b"", b"hi\n")] if is_stopped else [(0, b"hi\n", report(CHOICES))]
        self.assertIn(ended, wanted, f"a session that is stopped at call {nth} of {kinds}")
        return Stopped(disk, ended.out, is_stopped)

    def opened(self, content: bytes, nth: int, fill: int) -> tuple[bytes, bool]:
        """What is left of a content once it is opened, of which the nth call fails, and a crash comes; and whether it
        makes that call. Several crashes leave the same content, which is opened so once."""
        if (content, nth, fill) not in self.left:
            store = self.named(content)
            # Of a guest that isn't there nothing is read after the opening.
            ended, disk, is_stopped = self.failing(store, "wscr", nth, ["dump", store, NOBODY])
            wanted = (1, b"", DEVICE_FAILED if is_stopped else NO_GUEST)
            self.need(f"the end of an opening of which call {nth} fails", wanted, tuple(ended))
            self.left[content, nth, fill] = disk.crashed(disk.greatest, fill) if is_stopped else content, is_stopped
        return self.left[content, nth, fill]

    def listed(self, store: pathlib.Path) -> dict[int, int]:
        """The guests that `list` prints, each with how many records it has."""
        lines = self.need_line("list", store, out=None).out.decode().splitlines()
        return {int(it.split()[0]): int(it.split("records=")[1].split()[0]) for it in lines}

    def lines_of(self, store: pathlib.Path, number: int) -> list[str]:
        """What is dumped of a guest, which also has to replay with just the output of its frames."""
        dumped = self.need_line("dump", store, number, out=None).out.decode().splitlines()
        has_written = len(dumped) > 1 and " elf=128" in dumped[0]
        self.need_line("replay", store, number, out=b"hi\n" if has_written else b"")
        return dumped

    def need_whole(self, store: pathlib.Path, first: int, choices: int, places: Sequence[int]) -> None:
        """That those of the four that are at these places, and have their numbers from this one on, have all their
        records."""
        for place in places:
            self.need(f"guest {first + place}", whole_lines(choices)[place], self.lines_of(store, first + place))

    def begins(self, store: pathlib.Path, listed: dict[int, int], place: int, choices: int = CHOICES) -> int:
        """How many records of the guest at a place there are, which have to be the first that it makes."""
        if place not in listed:
            return 0
        lines = self.lines_of(store, place)
        wanted = listed[place], whole_lines(choices)[place][: len(lines)]
        self.need(f"guest {place}", wanted, (len(lines), lines))
        return len(lines)

    def go_on(self, left: bytes) -> tuple[int, list[int]]:
        """Records four more to what is left. The number of the first, and how many records each of the four before
        them has."""
        store, copy = self.named(left), self.named(left)
        before = self.listed(copy)
        first = max(before, default=-1) + 1
        ended, _ = self.over(self.words(store))
        self.need(f"the Mark after four more by {self.options}", bool(self.options), is_marked(store.read_bytes()))
        self.need("the end of four more", (0, b"hi\n", report(CHOICES)), tuple(ended))
        self.need("the guests then", [*sorted(before), *range(first, first + 4)], sorted(self.listed(store)))
        self.need_whole(store, first, CHOICES, range(4))
        found = [self.begins(store, before, place) for place in range(min(first, 4))]
        store.unlink()
        copy.unlink()
        return first, found

    def records_of(self, left: bytes, out: bytes) -> int:
        """How many records were found as four more were recorded; what was printed before has its record."""
        if left not in self.gone_on:
            self.gone_on[left] = self.go_on(left)
        first, found = self.gone_on[left]
        has_record = first > WRITER and found[WRITER] >= 2
        self.assertTrue(has_record or not out, f"what was printed has no record: {found}")
        return sum(found)

    def go_on_from(self, content: bytes, fill: int, out: bytes) -> Counts:
        """Openings of a content that are stopped, and what is found after these and the last."""
        records = 0
        for nth in range(1, 100):
            left, is_stopped = self.opened(content, nth, fill)
            records += self.records_of(left, out)
            if not is_stopped:
                return Counts(nth - 1, records)
        raise self.failureException("each opening failed")

    def go_on_from_all(self, session: Stopped) -> list[Counts]:
        """The same of each crash of a session."""
        return [self.go_on_from(content, fill, session.out) for content, fill in session.disk.crashes()]

    def look_at_each_stop(self) -> None:
        """That each call of a session may be its last, whatever a crash then leaves. That leaves all records of one
        that ended by itself."""
        found: list[Counts] = []
        for stops in itertools.count():
            session = self.stop_at("wsc", stops + 1)
            more = self.go_on_from_all(session)
            found += more
            if not session.is_stopped:
                break
        self.need("the records after a session that ended by itself", [(it.openings + 1) * ALL_RECORDS for it in more],
                  [it.records for it in more])
        openings = sum(it.openings for it in found)
        print(f"{stops} stops, {len(found)} contents, {openings} openings stopped, "
              f"{len(self.gone_on)} contents gone on from, {sum(it.records for it in found)} records found")
        self.assertIn(stops, range(LEAST_STOPS, MOST_STOPS + MARK_CALLS * len(self.options) + 1), "stops")
        self.assertGreaterEqual(openings, LEAST_CALLS * len(found), "openings stopped")


@rows({f"full output with {it} choices": it for it in (CHOICES, MANY_CHOICES)}, "look_at_full_output")
class Plain(Sessions):
    """Sessions that don't mark their store."""

    def test_each_stop(self) -> None:
        """Each call of a session."""
        self.look_at_each_stop()

    def test_first_sync(self) -> None:
        """That the first sync of a session leaves no guest if it fails. The opening syncs before."""
        session = self.stop_at("s", 2)
        self.need("whether it fails, and what was printed", (True, b""), (session.is_stopped, session.out))
        for content in (bytes(session.disk.now), *(content for content, _ in session.disk.crashes())):
            self.need_line("list", self.named(content))

    def look_at_full_output(self, choices: int) -> None:
        """That of four whose output is full just the one that writes stops, and has its write at least. The others are
        reported that end."""
        store = self.named(EMPTY)
        with (open("/dev/full", "wb") as full,
              self.program.start(*self.words(store, choices), out=full.fileno()) as ran):
            _, err = ran.communicate(timeout=PATIENCE)
        self.need("the end", (1, b"g0: end exited 5, records 2\nrrv: output failed\n"), (ran.returncode, err))
        self.need_whole(store, 0, choices, (0, 2, 3))
        self.assertGreaterEqual(self.begins(store, self.listed(store), WRITER, choices), 2, "records of the writer")


class Marking(Sessions):
    """Sessions that mark their store."""

    options = ("--upgrade",)

    def test_each_stop(self) -> None:
        """Each call of a session."""
        self.look_at_each_stop()

    def test_first_stops(self) -> None:
        """That each of the first calls may be the last, whatever a crash then leaves: before one of them no crash
        leaves the Mark, at one those of a length do, and then all."""
        for nth in range(1, FIRST_COMMIT + 1):
            session = self.stop_at("wsc", nth)
            self.need(f"whether there is a call {nth}", True, session.is_stopped)
            contents = [content for content, _ in session.disk.crashes()]
            wanted = 0 if nth <= MARK_GATE else len(contents) // len(FILLS) if nth == MARK_SYNC else len(contents)
            self.need(f"how many have the Mark after call {nth}", wanted, sum(map(is_marked, contents)))
            self.go_on_from_all(session)
