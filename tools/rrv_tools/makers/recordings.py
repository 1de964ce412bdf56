"""Writes the recordings of crates/replay_cases/data, and its stdin, which has what has to be found of them.

usage: tools/run recordings

The guests run by the restatement of a guest's rules (threads.py), which shares nothing with rrv. Records and the lines
of states are written by docs/FORMATS.md (records.py).
"""
import hashlib
import random
import struct
from collections.abc import Collection, Iterator, Mapping, Sequence

from rrv_tools import elf, guests
from rrv_tools.elf import PAGE, changed
from rrv_tools.guests import EXIT_FIVE
from rrv_tools.program import ROOT
from rrv_tools.records import (
    Call, Expire, Item, Opening, OpeningTwo, Page, Part, Preempt, Record, Rest, Stuck, Thread,
)  # fmt: skip
from rrv_tools.riscv import (
    A0, A1, A2, A3, A4, SP, X5, X6, X7, ZERO, add, addi, bne, call, jal, lui, sw,
)  # fmt: skip
from rrv_tools.states import Guest

CRATE = ROOT / "crates" / "replay_cases"
FOUR_THREADS = ROOT / "crates" / "slice_cases" / "data" / "four_threads.elf"
MAX_PAGES, STACK_PAGES, MAX_PART_PAGES = 16384, 256, 1024
# Where the kind of a record stands, and how long it is before its payload.
KIND_AT, HEAD = 8, 13
PART_KIND, LINE = Part.kind, 64
Texts = list[bytes]


def file_of(words: Sequence[int], memory: int = 0, flags: int = elf.READ | elf.EXECUTE) -> bytes:
    """A program of these instructions: one segment, the whole file; zeros after it fill memory of this size."""
    start = elf.headers_size(1)
    segment = elf.Segment(elf.START, struct.pack(f"<{len(words)}I", *words), flags, memory, has_headers=True)
    return elf.file_of([segment], elf.START + start)


def page_of(number: int, permissions: int, page: bytes, base: bytes | None) -> Page:
    """A page of a part: its lines that differ from the base's, or all of them if there is no base."""
    lines = {at // LINE: bytes(page[at: at + LINE]) for at in range(0, PAGE, LINE)}
    is_named = {it: base is None or line != base[LINE * it: LINE * it + LINE] for it, line in lines.items()}
    return Page(number, permissions, {it: line for it, line in lines.items() if is_named[it]})


def rest_of(guest: Guest) -> Rest:
    """What the last part of a checkpoint has of a guest beside pages."""
    threads = [Thread(tid, t.pc, t.x[1:], t.waits, t.clear, t.timeout) for tid, t in sorted(guest.threads.items())]
    return Rest(guest.end_of_data, guest.next_tid, threads, guest.waiting)


class Recording:
    """The records of a guest, and the lines of its state at each count of instructions, or only at these places."""

    def __init__(self, file: bytes, name: bytes = b"a", places: Collection[int] | None = None,
                 version: int = 1) -> None:
        self.guest, self.total, self.places = Guest(file, name, version), 0, places
        self.states: list[list[str]] = []
        self.texts: Texts = []
        self.add((Opening if version == 1 else OpeningTwo)(file, name, bytes(16)))
        self.base = self.pages()
        self.keep_state()

    def pages(self) -> dict[int, bytes]:
        """A copy of the pages."""
        return {number: bytes(page) for number, page in self.guest.pages.items()}

    def keep_state(self) -> None:
        """Keeps the state there, in place of one between the same two instructions."""
        is_kept = self.places is None or self.total in self.places
        self.states[self.total:] = [self.guest.lines() if is_kept else []]

    def add(self, item: Item) -> None:
        """Adds a record."""
        self.texts.append(Record(0, len(self.texts), item).text())

    def slice(self, tid: int, quantum: int) -> None:
        """Records a slice."""
        guest, item = self.guest, None
        for count in range(1, quantum + 1):
            is_call = guest.step(guest.threads[tid])
            self.total += 1
            if is_call:
                result, _ = guest.call(tid)
                item = Call(tid, count, result, guest.ranges.copy())
                break
            self.keep_state()
        self.add(item or Preempt(tid, quantum))
        guest.reservation = None
        self.keep_state()

    def expire(self, tid: int) -> None:
        """Records that the time of a thread's wait is over."""
        self.guest.expire(tid)
        self.add(Expire(tid))
        self.keep_state()

    def changed_pages(self, is_whole: bool = False) -> list[Page]:
        """The lines that changed since the last checkpoint, or all pages."""
        pages = sorted(self.guest.pages.items())
        return [page_of(number, self.guest.permissions[number], page, None if is_whole else self.base[number])
                for number, page in pages if is_whole or page != self.base[number]]

    def add_parts(self, parts: Sequence[list[Page]]) -> None:
        """Records a checkpoint: a part for each list of pages."""
        for place, pages in enumerate(parts, 1):
            self.add(Part(pages, rest_of(self.guest) if place == len(parts) else None))
        self.base = self.pages()

    def checkpoint(self, is_whole: bool = False, parts: int = 1) -> None:
        """Records a checkpoint: all pages, or the lines that changed since the last one."""
        pages = self.changed_pages(is_whole)
        share = -(-len(pages) // parts)
        self.add_parts([pages[share * place: share * place + share] for place in range(parts)])

    def lines(self, place: int) -> list[str]:
        """The lines of the state at a place."""
        return [f"at {place} of {self.total}", *self.states[place]]

    def digest(self, place: int) -> str:
        """SHA-256 over the lines of the state at a place."""
        return hashlib.sha256("".join(f"{line}\n" for line in self.lines(place)).encode()).hexdigest()


# ---- lists of records


def numbered(texts: Texts) -> Texts:
    """The records with their indexes anew."""
    return [changed(text, 4, struct.pack("<I", index)) for index, text in enumerate(texts)]


def of_guest_1(texts: Texts) -> Texts:
    """The records as those of guest 1."""
    return [changed(text, 0, struct.pack("<I", 1)) for text in texts]


def with_bytes(texts: Texts, index: int, place: int, data: bytes) -> Texts:
    """The records with other bytes in one of them."""
    return [*texts[:index], changed(texts[index], place, data), *texts[index + 1:]]


def hex_words(text: bytes) -> list[str]:
    """Bytes as words of hexadecimal digits, a run of one byte as `00*64`."""
    words, plain, at = [], b"", 0
    while at < len(text):
        run = len(text[at:]) - len(text[at:].lstrip(text[at: at + 1]))
        if run >= 8:
            words += [plain.hex()] * bool(plain) + [f"{text[at]:02x}*{run}"]
            plain, at = b"", at + run
        else:
            plain, at = plain + text[at: at + 1], at + 1
    return words + [plain.hex()] * bool(plain)


def write_list(name: str, texts: Texts) -> None:
    """Writes a list of records."""
    text = "".join(" ".join(hex_words(it)) + "\n" for it in texts)
    (CRATE / "data" / f"{name}.records").write_text(text, encoding="ascii")


def taken(name: str, texts: Texts, recording: Recording) -> str:
    """Writes a list that is a recording; its row."""
    write_list(name, texts)
    return f"records {name} = {len(texts)} records, {recording.total} instructions\n"


def refused(name: str, texts: Texts, why: str) -> str:
    """Writes a list that is refused; its row."""
    write_list(name, texts)
    return f"records {name} = {why}\n"


# ---- guests

# It writes `hi` and a newline, and exits with 0.
WRITES_HI = [
    addi(A1, SP, -16), lui(A0, 0xA7), addi(A0, A0, -0x698), sw(A0, A1, 0), addi(A0, ZERO, 1), addi(A2, ZERO, 3),
    *call(guests.WRITE), addi(A0, ZERO, 0), *call(guests.EXIT),
]  # fmt: skip
JUMPS_TO_ITSELF = [jal(ZERO, 0)]
# It stores a word to each page from 0x11000 to 0x416000.
FILLS_PAGES = [
    lui(X5, 0x11), lui(X6, 1), lui(X7, 0x417), sw(X6, X5, 0), add(X5, X5, X6), bne(X5, X7, -8), *JUMPS_TO_ITSELF,
]  # fmt: skip
CLONES = [
    lui(A0, 0x7D1), addi(A0, A0, -256), addi(A1, ZERO, 0), addi(A2, SP, -16), addi(A3, ZERO, 0), addi(A4, SP, -12),
    *call(guests.CLONE), addi(A0, ZERO, 7), *call(guests.EXIT),
]  # fmt: skip


def recorded(file: bytes, choices: Sequence[tuple[int, int] | None], name: bytes = b"a") -> Recording:
    """A recording by slices; a None among the choices is a checkpoint of all pages in two parts."""
    recording = Recording(file, name)
    for choice in choices:
        if choice:
            recording.slice(*choice)
        else:
            recording.checkpoint(is_whole=True, parts=2)
    return recording


def four_threads(file: bytes, seed: int) -> Recording:
    """A recording by choices of a seed, with a checkpoint of what changed after each sixth frame."""
    recording, draw, frames = Recording(file), random.Random(seed), 0
    while recording.guest.ended is None:
        recording.slice(draw.choice(recording.guest.runnable()), draw.randrange(64, 129))
        frames += 1
        if frames % 6 == 0 and recording.guest.ended is None:
            recording.checkpoint(parts=1 + frames // 6 % 2)
    return recording


# ---- rows


def about(text: str) -> str:
    """The line above some rows."""
    return f"\n# {text}\n"


def rows_of_jumps() -> Iterator[str]:
    """A jump to itself, and checkpoints that are right and wrong."""
    jumps = recorded(file_of(JUMPS_TO_ITSELF), [(1, 64), (1, 64), None, (1, 64), (1, 64)])
    (CRATE / "data" / "jumps.elf").write_bytes(file_of(JUMPS_TO_ITSELF))
    texts, digests = jumps.texts, {place: jumps.digest(place) for place in (127, 200)}
    at_200 = f"digest = {digests[200]}\n"
    places = f"seek 200 {at_200}seek 127 digest = {digests[127]}\nstate 200 {at_200}forward 200 {at_200}"
    parts = [index for index, text in enumerate(texts) if text[KIND_AT] == PART_KIND]
    last = parts[-1]
    head = HEAD + 5 + 13  # of the record, the part and its first page
    yield "# Four slices of 64 instructions, and a checkpoint behind the second: two parts, which name all pages.\n"
    yield taken("jumps", texts, jumps)
    yield f"seek 200 within 72 = yes\nseek 127 within 127 = yes\n{places}"
    yield about("Without its last part it is no checkpoint.")
    yield taken("jumps_no_last_part", numbered(texts[:last] + texts[last + 1:]), jumps)
    yield f"seek 200 within 200 = yes\n{places}"
    yield about("The same records, made here.")
    yield f"record jumps.elf 64 64 + 64 64 = 6 records, 256 instructions\nseek 200 within 72 = yes\n{places}"
    yield about("One wrong byte: of a page, its permissions, and a register.")
    wrong = f"checkpoint {last} is wrong"
    yield refused("jumps_wrong_byte", with_bytes(texts, parts[0], head + 100, b"\1"), wrong)
    yield refused("jumps_wrong_permissions", with_bytes(texts, parts[0], head - 9, b"\7"), wrong)
    yield refused("jumps_wrong_register", with_bytes(texts, last, len(texts[last]) - 4 - 4 - 1 - 4, b"\1"), wrong)


def rows_of_many_pages() -> Iterator[str]:
    """More pages than a part may name."""
    file = file_of(FILLS_PAGES, 0x407000, 7)
    (CRATE / "data" / "many_pages.elf").write_bytes(file)
    many = Recording(file, places=(4000, 4030))
    many.slice(1, 4000)
    many.slice(1, 64)
    yield about("1,030 pages that change: more than a part may name, so that a checkpoint made here has "
                "two parts. The next has one.")
    yield "record many_pages.elf 4000 + 64 + = 6 records, 4064 instructions\nseek 4030 within 30 = yes\n"
    yield "".join(f"seek {place} digest = {many.digest(place)}\n" for place in (4000, 4030))


def rows_of_filled_parts() -> Iterator[str]:
    """As many pages as a part may name."""
    def filled(count: int, *parts_of: slice) -> Recording:
        recording = Recording(file_of(FILLS_PAGES, 0x407000, 7), places=(count,))
        recording.slice(1, count)
        pages = list(recording.changed_pages())
        assert len(pages) == MAX_PART_PAGES
        recording.add_parts([pages[it] for it in parts_of])
        return recording

    # Three instructions, then three a page, of which the first stores.
    count = 3 + 3 * (MAX_PART_PAGES - 1) + 1
    one, two = filled(count, slice(None)), filled(count, slice(None), slice(0))
    at_end = f"seek {count} within 0 = yes\nseek {count} digest = {one.digest(count)}\n"
    yield about(f"{MAX_PART_PAGES:,} pages that change are one part, and a page more makes it two.")
    yield f"record many_pages.elf {count} + = 3 records, {count} instructions\n{at_end}"
    yield f"record many_pages.elf {count + 2} + = 3 records, {count + 2} instructions\n"
    yield f"record many_pages.elf {count + 3} + = 4 records, {count + 3} instructions\n"
    yield about("The same checkpoint as one part, and as one and an empty last part: both describe the "
                "state, and are taken.")
    yield taken("filled_part", one.texts, one) + at_end
    yield taken("filled_part_and_empty", two.texts, two) + at_end


def rows_of_full_guest() -> Iterator[str]:
    """As many pages as a guest may have."""
    file = file_of(JUMPS_TO_ITSELF, (MAX_PAGES - STACK_PAGES) * 4096)
    full = Recording(file, places=(128,))
    full.slice(1, 64)
    full.slice(1, 64)
    permissions = dict(full.guest.permissions)
    assert len(permissions) == MAX_PAGES

    def checkpoint(pages: Mapping[int, int]) -> Texts:
        """The records with a checkpoint that names these pages, and no line of them."""
        named = [Page(number, flags, {}) for number, flags in sorted(pages.items())]
        full.texts = full.texts[:3]
        full.add_parts([named[at: at + MAX_PART_PAGES] for at in range(0, len(named), MAX_PART_PAGES)])
        return full.texts

    yield about(f"A guest with as many pages as it may have. A checkpoint that names all {MAX_PAGES:,} of "
                "them, and one that maps another.")
    yield taken("full_guest", checkpoint(permissions), full)
    yield "seek 128 within 0 = yes\n"
    more = checkpoint({**permissions, max(it for it in permissions if it < 0x70000) + 1: 6})
    yield refused("full_guest_and_a_page", more, f"checkpoint {len(more) - 1} is wrong")


def rows_of_exit_five() -> Iterator[str]:
    """A guest that exits with 5."""
    five = recorded(EXIT_FIVE, [(1, 64)], b"g0")
    yield about("It exits with 5.")
    yield taken("exit_five", five.texts, five)
    yield f"seek 2 lines = {' | '.join(five.lines(2))}\n"
    yield f"seek 3 back 1 lines = {' | '.join(five.lines(2))}\n"
    yield "back 1 place = before the start, at 0\n"
    yield "seek 4 place = past the end, at 0\nforward 4 place = past the end, at 0\n"
    yield about("Its call comes an instruction too soon. No list.")
    yield refused("exit_five_short", with_bytes(five.texts, 1, 17, b"\2"), "record 1 does not replay")
    yield refused("empty", [], "bad opening")
    yield refused("no_opening", numbered(five.texts[1:]), "bad opening")
    yield from rows_of_lists_that_do_not_follow(five.texts)
    five.checkpoint(is_whole=True)
    yield about("A checkpoint behind its end.")
    yield refused("exit_five_checkpoint", five.texts, "checkpoint 2 is wrong")


def rows_of_lists_that_do_not_follow(texts: Texts) -> Iterator[str]:
    """Lists of records, made of these, that are no recording."""
    opening, frame = texts
    yield about("Its file is no program, and its opening has another index.")
    yield refused("exit_five_no_file", with_bytes(texts, 0, 13 + 4, b"\x7e"), "bad opening")
    yield refused("exit_five_other_first_index", with_bytes(texts, 0, 4, b"\1"), "bad opening")
    yield about("A record of another guest, of another index, of another thread; a second opening; a frame "
                "behind the end.")
    for other, place in (("guest", 0), ("index", 4), ("thread", 13)):
        yield refused(f"exit_five_other_{other}", with_bytes(texts, 1, place, b"\2"), "record 1 does not replay")
    yield refused("exit_five_opened_twice", numbered([opening, opening, frame]), "record 1 does not replay")
    yield refused("exit_five_ended_twice", numbered([opening, frame, frame]), "record 2 does not replay")


def rows_of_writes_hi() -> Iterator[str]:
    """A guest that stores and writes."""
    hi = recorded(file_of(WRITES_HI), [(1, 64), (1, 64)])
    yield about("It stores a word whose highest byte is 0, and writes it.")
    yield taken("writes_hi", hi.texts, hi)
    yield "seek 11 change 7fffff93 place = unchanged, at 11\nseek 11 change 7fffff90 place = 3, at 3\n"
    yield "seek 3 change 7fffff90 place = unchanged, at 3\n"
    yield "".join(f"seek {place} digest = {hi.digest(place)}\n" for place in range(12))
    late = recorded(file_of(WRITES_HI), [(1, 64), None, (1, 64)])
    yield about("A checkpoint behind its first slice, and the same before it.")
    yield taken("writes_hi_checkpoint", late.texts, late)
    yield f"seek 9 within 1 = yes\nseek 9 digest = {hi.digest(9)}\nseek 11 change 7fffff90 place = 3, at 3\n"
    early = numbered(late.texts[:1] + late.texts[2:4] + late.texts[1:2] + late.texts[4:])
    yield refused("writes_hi_early", early, "checkpoint 2 is wrong")
    yield about("Of two faults the first is named: the checkpoint's, and then a frame's; a frame's, and "
                "then the checkpoint's.")
    yield refused("writes_hi_early_and_no_frame", with_bytes(early, 4, 13, b"\2"), "checkpoint 2 is wrong")
    yield refused("writes_hi_no_frame_and_early", with_bytes(late.texts, 1, 13, b"\2"), "record 1 does not replay")
    yield about("Parts that no last one completes count for nothing, whatever they say.")
    alone = with_bytes(numbered(late.texts[:3] + late.texts[4:]), 2, HEAD + 5 + 13 + 100, b"\1")
    yield taken("writes_hi_wrong_part_alone", alone, late)


def rows_of_clones() -> Iterator[str]:
    """A guest that makes a thread."""
    clones = recorded(file_of(CLONES), [(1, 64), (2, 64), (1, 64)])
    yield about("It makes a thread. Before the call there is none, and no word of its tid.")
    yield taken("clones", clones.texts, clones)
    for moves, place in (("seek 8 back 1", 7), ("seek 8", 8), ("seek 11", 11)):
        yield f"{moves} lines = {' | '.join(clones.lines(place))}\n"
    yield "seek 14 change 7fffff90 place = 7, at 7\nseek 14 change 7fffff94 place = unchanged, at 14\n"


def rows_of_four_threads() -> Iterator[str]:
    """Four threads under a lock."""
    file = FOUR_THREADS.read_bytes()
    one, two = four_threads(file, 1), four_threads(file, 2)
    yield about("Four threads under a lock, with a checkpoint of the changed lines behind each sixth slice.")
    yield taken("four_threads", one.texts, one)
    for place in sorted({*range(0, one.total, one.total // 12), one.total}):
        yield f"seek {place} digest = {one.digest(place)}\n"
    yield taken("four_threads_otherwise", two.texts, two)
    yield taken("four_threads_of_guest_1", of_guest_1(two.texts), two)


def timed_recording(words: Sequence[int], said: str, version: int = 2) -> Recording:
    """A recording of a guest that waits for a time: slices of the thread of a tid, `!` and a tid for the end of its
    wait, or `+` for a checkpoint."""
    recording = Recording(file_of(words), version=version)
    for word in said.split():
        if word == "+":
            recording.checkpoint()
        elif word.startswith("!"):
            recording.expire(int(word[1:]))
        else:
            recording.slice(int(word), 64)
    return recording


def rows_of_timed_waits() -> Iterator[str]:
    """Guests that wait for a time."""
    twice = timed_recording(guests.TWO_WAITS, "1 !1 1 + !1 1")
    yield about("It waits for a time, twice: the second wait is over behind a checkpoint at the same "
                "count. The state at a count is behind that.")
    yield taken("timed_waits", twice.texts, twice)
    for place in (10, 13):
        yield f"state {place} lines = {' | '.join(twice.lines(place))}\n"
    for place in range(16):
        digest = f"digest = {twice.digest(place)}\n"
        yield f"state {place} {digest}seek {place} {digest}seek 15 back {15 - place} {digest}forward {place} {digest}"
    yield "seek 13 within 0 = yes\nseek 14 within 1 = yes\nseek 15 change 7fffff84 place = 10, at 10\n"
    yield "seek 10 change 7fffff84 place = unchanged, at 10\n"
    yield from rows_of_waits_that_lie(twice.texts)
    tids = " ".join(map(str, range(1, 65)))
    many = timed_recording(guests.AS_MANY_AS_LIVE, f"{'1 ' * 64}{tids} + !64 !1 64 1")
    yield about("Sixty-four threads that wait for a time, and a checkpoint of them.")
    yield taken("sixty_four_timed_waits", many.texts, many)
    for place in (many.total - 4, many.total):
        yield f"seek {place} digest = {many.digest(place)}\n"
    yield from rows_of_waits_made_here(twice, many)


def rows_of_waits_made_here(twice: Recording, many: Recording) -> Iterator[str]:
    """The same two recordings, of which the program makes the checkpoints."""
    (CRATE / "data" / "timed_waits.elf").write_bytes(file_of(guests.TWO_WAITS))
    (CRATE / "data" / "sixty_four_timed_waits.elf").write_bytes(file_of(guests.AS_MANY_AS_LIVE))
    yield about("The same two, made here with their checkpoints, which are of threads that wait for a time.")
    yield f"record two timed_waits.elf 64 !1 64 + !1 64 = {len(twice.texts)} records, {twice.total} instructions\n"
    for place in (0, 10, 13, twice.total):
        yield f"seek {place} digest = {twice.digest(place)}\n"
    waits = " ".join(f"{tid}:64" for tid in range(1, 65))
    made = f"{len(many.texts)} records, {many.total} instructions"
    yield f"record two sixty_four_timed_waits.elf {'64 ' * 64}{waits} + !64 !1 64:64 64 = {made}\n"
    for place in (many.total - 4, many.total):
        yield f"seek {place} digest = {many.digest(place)}\n"


def rows_of_waits_that_lie(texts: Texts) -> Iterator[str]:
    """The texts are those of two waits of version 2."""
    nowhere = "record 2 does not replay"
    expiry, stuck = texts[2], Record(0, 2, Stuck()).text()
    yield about("In version 1 no wait ends so, and no checkpoint has a timeout.")
    one = timed_recording(guests.TWO_WAITS, "1 1", version=1)
    yield refused("timed_wait_of_version_1", [*one.texts[:2], expiry], nowhere)
    one.guest.threads[1].waits, one.guest.threads[1].timeout = 0x7FFFFF80, (0, 5000000)
    one.guest.waiting.append(1)
    one.checkpoint()
    yield refused("timeout_of_version_1", one.texts, "checkpoint 3 is wrong")
    yield about("A thread that waits without a timeout, one that runs, one that isn't there; and one with "
                "a timed wait, which goes on.")
    without = timed_recording(guests.WITHOUT_TIMEOUT, "1")
    yield refused("expiry_of_an_untimed_wait", [*without.texts, expiry], nowhere)
    runs = timed_recording(JUMPS_TO_ITSELF, "1")
    yield refused("expiry_of_a_running_thread", [*runs.texts, expiry], nowhere)
    yield refused("expiry_of_no_thread", [*texts[:2], with_bytes(texts, 2, 13, b"\2")[2]], nowhere)
    yield refused("stuck_beside_a_timed_wait", [*texts[:2], stuck], nowhere)
    yield about("A checkpoint with as many nanoseconds as a second has, and one with seconds from 2^63 on.")
    for name, timeout in (("nanoseconds", (0, 10**9)), ("seconds", (1 << 63, 0))):
        wrong = timed_recording(guests.TWO_WAITS, "1")
        wrong.guest.threads[1].timeout = timeout
        wrong.checkpoint()
        yield refused(f"too_many_{name}", wrong.texts, "checkpoint 2 is wrong")


FOLLOWED = """
# A wrong second record, a wrong checkpoint, and a first record that is no opening.
follow exit_five_short = 0, record 1 does not replay
follow exit_five_other_index = 0, record 1 does not replay
follow exit_five_ended_twice = 0 3, record 2 does not replay
follow jumps_wrong_byte = 0 64 128 128, checkpoint 4 is wrong
follow no_opening = bad opening
"""

MUTANTS = """
# Ten thousand lists with changed bits, cut, or mixed with the other's records: each is refused by name, and the records
# before the one that is named are a recording; or it is taken, and has the states to which its frames alone lead.
mutate four_threads four_threads_otherwise 10000 1 = 10000 pass
met 100 Short = yes
met 100 BadKind = yes
met 100 BadPayload = yes
met 10 BadOpening = yes
met 100 Mismatch = yes
met 100 BadCheckpoint = yes
met 100 Taken = yes

# So where the other is another guest.
mutate four_threads four_threads_of_guest_1 1000 2 = 1000 pass
met 100 Mismatch = yes
met 1 Taken = yes
"""


def rows_of_followed() -> Iterator[str]:
    """Recordings that are followed record by record."""
    hi = recorded(file_of(WRITES_HI), [(1, 64), (1, 64)])
    yield about("Followed record by record. The checkpoint counts no instruction, and what is followed "
                "ends in the state of the list.")
    yield f"follow writes_hi digest = 0 8 11, {hi.digest(11)}\n"
    yield f"follow writes_hi_checkpoint digest = 0 8 8 8 11, {hi.digest(11)}\n"
    yield "follow jumps = 0 64 128 128 128 192 256\nfollow exit_five place = 0 3, at 3\n"
    yield FOLLOWED


ROWS = (
    rows_of_jumps, rows_of_many_pages, rows_of_filled_parts, rows_of_full_guest, rows_of_exit_five, rows_of_writes_hi,
    rows_of_clones, rows_of_four_threads, rows_of_followed, rows_of_timed_waits,
)  # fmt: skip


def main(words: Sequence[str]) -> int | None:
    """Writes the recordings and the rows."""
    if words:
        return None
    text = "".join(line for rows in ROWS for line in rows())
    (CRATE / "stdin").write_text(text + MUTANTS, encoding="ascii")
    return 0
