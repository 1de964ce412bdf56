"""Rows of storage_cases: records and stores.

Expected values: the rows of crates/storage_cases, with the bytes of stores that Python writes (`tools/run
storage_cases`).

Files that are made as rows say are listed and dumped, and left as the rows say. Of a row that changes a store in many
ways some are tried, the first and the last among them. What a disk has after some calls is a file, if it follows from
docs/FORMATS.md; each row of it comes after those before it.
"""
import contextlib
import pathlib
import re
import struct
from collections.abc import Iterable, Sequence

from rrv_tools import store
from rrv_tools.elf import changed
from rrv_tools.guests import EXIT_FIVE
from rrv_tools.program import Program
from rrv_tools.records import TIMED_OUT, Call, Item, Opening, Preempt, Record, records_of
from rrv_tools.rows import Check, Row, RowCase, Rows, bytes_of, texts, write
from rrv_tools.testing import rows

ROWS = Rows("storage_cases")
OPENING = Opening(EXIT_FIVE, b"a", bytes(16))
RECORDS = {"opening": Record(0, 0, OPENING).text(), "call": Record(0, 1, Call(1, 3, 0, [])).text()}
# So many records may stand before one that is looked at, and this many changes of a row are tried.
MOST_BEFORE, VARIANTS = 70_000, 12


def dumped_line(row: str) -> str:
    """The line that `dump` prints of a record, of which a row says this after its guest."""
    index, kind, *words = row.split()
    if kind == "opening":
        fields = dict(zip(words[-6::2], words[-5::2], strict=True))
        return f"{index} opening name={fields['name']} elf={len(fields['elf']) // 2}"
    if kind == "part":
        return f"{index} part pages={words.count('page')} last={'yes' if 'break' in words else 'no'}"
    pairs = [it for it in zip(words[::2], words[1::2], strict=False) if it[0] in ("tid", "count", "result")]
    found = [f"{name}={int(value):08x}" if name == "result" else f"{name}={value}" for name, value in pairs]
    if kind == "call":
        written = sum(len(digits) // 2 for word, digits in zip(words, words[2:], strict=False) if word == "wrote")
        found.append(f"written={written}")
    return " ".join([index, kind, *found, *([f"result={TIMED_OUT:08x}"] if kind == "expire" else [])])


# ---- records and stores


def before(guest: int, count: int) -> bytes:
    """A body of this many records of a guest, the first of which is its opening."""
    items: list[Item] = [OPENING, *[Preempt(1, 64)] * (count - 1)]
    return b"".join(it.text() for it in records_of(guest, items[:count]))


def record_row(row: Row, words: list[str]) -> Check | None:
    """A record in a store after those that have to stand before it: it is dumped, or its segment refused."""
    text, is_read = bytes_of(words), row.wanted.startswith("guest ")
    guest, index = struct.unpack_from("<II", text)
    if is_read and index > MOST_BEFORE:
        ROWS.leave("of a record after too many others")
        return None

    def check(program: Program) -> tuple[object, object]:
        first = before(guest, index if index <= MOST_BEFORE else 1) if guest < 0xFFFFFFFF else b""
        bodies = [store.MARK, *([first] if first else [])]
        write("record", store.store_of([*bodies, text]))
        if not is_read:
            return (1, "", f"rrv: damaged segment {len(bodies)}\n"), texts(program.run("list", "record"))
        status, out, err = texts(program.run("dump", "record", guest))
        line = dumped_line(row.wanted.partition(" index ")[2])
        return (0, line), (status, out.splitlines()[-1] if out else err)

    return check


def beginnings_row(words: list[str]) -> Check:
    """Each beginning of a record as a body is refused."""
    text = bytes_of(words)
    first = before(*struct.unpack_from("<II", text))

    def check(program: Program) -> tuple[object, object]:
        found = set()
        for length in range(1, len(text)):
            write("record", store.store_of([first, text[:length]]))
            found.add(texts(program.run("list", "record")))
        return {(1, "", "rrv: damaged segment 1\n")}, found

    return check


def changes_of(data: bytes, words: list[str]) -> list[bytes]:
    """A store with the changes that a row says; of many some, the first and the last among them."""
    if not words:
        return [data]
    kind, numbers = words[0], [int(it) for it in words[1:]]
    places = range(numbers[-2], numbers[-1] + 1)
    some = sorted({*places[:: max(1, (len(places) - 1) // VARIANTS)], places[-1]})
    if kind == "cut":
        return [data[:it] for it in some]
    if kind == "put":
        return [changed(data, numbers[0], bytes([it])) for it in some]
    return [changed(data, it, bytes([data[it] ^ (0x01, 0x80, 0xFF)[at % 3]])) for at, it in enumerate(some)]


def refusal_of(text: str) -> str:
    """What a refusal's name says, as the program prints it."""
    damaged = re.fullmatch(r"Damaged \{ segment: (\d+) \}", text)
    words = " ".join(it.lower() for it in re.findall(r"[A-Z][a-z]*", text))
    return f"rrv: damaged segment {damaged[1]}\n" if damaged else f"rrv: {words}\n"


def opened(program: Program, data: bytes) -> str:
    """What is found of a store's bytes once it was listed: as a row says it, or the refusal, by which they stay."""
    status, out, err = texts(program.run("list", write("store", data)))
    left = pathlib.Path("store").read_bytes()
    if status:
        return err if left == data else f"{err}, and other bytes are left"
    of_0 = re.search(r"^0 \S+ records=(\d+) ", out, re.M)
    return f"guests {len(out.splitlines())} records {of_0[1] if of_0 else 0} bytes {len(left)} last {left[-1]}"


def store_row(row: Row, words: list[str]) -> Check:
    """A store that is changed and opened."""
    wanted = row.wanted if row.wanted.startswith("guests ") else refusal_of(row.wanted)
    some = changes_of(ROWS.data(words[0]), words[1:])
    return lambda program: ({wanted}, {opened(program, it) for it in some})


# ---- disks


class Unseen(Exception):
    """A part of a row asks what no line shows."""


class Disk:
    """The disk that rows write, as a file. Each opening is a line of the program, and what is asked then is what it
    printed. Without a program it is found out which rows are cases."""

    # These change no byte; what the second ones find is no line's.
    PASSED_OVER, FINDS = ("sync", "close", "reads-within"), ("next-guest", "failures", "longest")

    def __init__(self, program: Program | None = None) -> None:
        self.program, self.disk, self.body, self.listed = program, b"", b"", ""
        self.is_known, self.has_looked = False, False

    def take(self, row: Row) -> tuple[list[str], list[str]]:
        """Takes a row, and returns what it wants and what came. If it asks what no line shows, the disk is not known
        from there on, by Unseen."""
        wants = [] if row.wanted == "done" else row.wanted.split(", ")
        came: list[str] = []
        self.has_looked = False
        try:
            for part in row.asked.split(" ; "):
                wanted = wants[len(came)] if len(came) < len(wants) else ""
                came += self.part(part.split(), wanted)
        except Unseen:
            self.is_known = False
            raise
        return wants, came

    def part(self, words: list[str], wanted: str) -> list[str]:
        """Takes a part of a row, and returns what it finds, if it finds something."""
        first, *rest = words
        if first in ("disk", "load"):
            self.disk = ROWS.data(rest[0]) if rest[:1] and first == "load" else b""
            self.body, self.is_known = b"", True
            return []
        if not self.is_known:
            raise Unseen
        if first in self.FINDS:
            return [wanted]
        if first in self.PASSED_OVER:
            return []
        if first in ("open", "open-in", "read"):
            return self.open()
        found = self.found(first, rest, wanted)
        if found is None:
            self.change(first, rest)
        return [] if found is None else [found]

    def open(self) -> list[str]:
        """Has the program list the file, and returns its refusal, if it has one."""
        self.has_looked = True
        if not self.program:
            return []
        _, self.listed, err = texts(self.program.run("list", write("machine", self.disk)))
        self.disk = pathlib.Path("machine").read_bytes()
        return [err.removeprefix("rrv: ").removesuffix("\n")] if err else []

    def dumped(self, guest: str) -> list[str]:
        """The lines of a guest's records."""
        return texts(self.program.run("dump", "machine", guest))[1].splitlines() if self.program else []

    def found(self, first: str, rest: list[str], wanted: str) -> str | None:
        """What a part finds that asks; None of one that doesn't."""
        match first:
            case "len":
                return f"{len(self.disk)}"
            case "bytes":
                return self.disk[int(rest[0]): int(rest[0]) + int(rest[1])].hex()
            case "guests":
                return " ".join(it.split()[0] for it in self.listed.splitlines())
            case "records":
                of = re.search(rf"^{rest[0]} \S+ records=(\d+) ", self.listed, re.M)
                return of[1] if of else "0"
            case "record-at":
                self.has_looked = True
                line = "".join(self.dumped(rest[0])[int(rest[1]): int(rest[1]) + 1])
                is_it = wanted.startswith(f"guest {rest[0]} ") and line == dumped_line(wanted.partition(" index ")[2])
                return wanted if is_it else line
            case "reads":
                return self.reads(range(int(rest[1]), int(rest[2])), self.dumped(rest[0]), rest[3:])
        return None

    @staticmethod
    def reads(places: range, lines: list[str], words: list[str]) -> str:
        """How many lines of records print what words say."""
        kind, *pairs = words
        text = " ".join([kind, *(f"{name}={value}" for name, value in zip(pairs[::2], pairs[1::2], strict=True))])
        return f"{sum(lines[it: it + 1] == [f'{it} {text}'] for it in places)}"

    def change(self, first: str, rest: list[str]) -> None:
        """Does what a part does."""
        match first:
            case "create" if not self.disk:
                self.disk = store.EMPTY
            case "append":
                self.disk += bytes_of(rest)
            case "cut-through":
                self.disk = self.disk[: int(rest[0])]
            case "write-through":
                self.disk = changed(self.disk, int(rest[0]), bytes_of(rest[1:]))
            case "body":
                self.body += said_bytes(rest)
            case "numbered":
                start, end, place = map(int, rest[:3])
                text = said_bytes(rest[3:])
                some = (numbered(text, it, place) for it in range(start, end))
                self.body += b"".join(some) if self.program else text * (end - start)
            case "commit" | "commit-each":
                size, body, self.body = int(rest[0]) if rest else len(self.body), self.body, b""
                for at in range(0, len(body) or 1, size or 1):
                    self.commit(body[at: at + size])
            case _:
                raise Unseen

    def commit(self, body: bytes) -> None:
        """Adds a segment, as docs/FORMATS.md has it."""
        if not 1 <= len(body) <= store.MAX_BODY:
            raise Unseen
        self.disk = self.disk[:-1] + store.OPEN + store.segment(self.segments(), body)

    def segments(self) -> int:
        """How many segments the disk has."""
        count, at = 0, len(store.HEADER)
        while self.disk[at: at + 1] == store.OPEN:
            count, at = count + 1, at + store.BEFORE_BODY + int.from_bytes(self.disk[at + 1: at + 5], "little")
        return count


def said_bytes(words: Iterable[str]) -> bytes:
    """The bytes of words, of which two name records."""
    return b"".join(RECORDS[it] if it in RECORDS else bytes_of([it]) for it in words)


def numbered(text: bytes, number: int, place: int) -> bytes:
    """A record with a number as its index, and at a place."""
    word = struct.pack("<I", number)
    return changed(changed(text, 4, word), place, word)


def disk_row(some: Sequence[Row]) -> Check:
    """What the last of some rows finds."""
    def check(program: Program) -> tuple[object, object]:
        disk = Disk(program)
        for it in some[:-1]:
            with contextlib.suppress(Unseen):
                disk.take(it)
        return disk.take(some[-1])

    return check


def plan() -> None:
    """Takes all rows; those of a disk go on from the one before."""
    disk, some = Disk(), list[Row]()
    for row in ROWS.asking():
        first, *words = row.asked.split()
        check: Check | None = None
        match first:
            case "record":
                check = record_row(row, words)
            case "beginnings":
                check = beginnings_row(words)
            case "store":
                check = store_row(row, words)
            case "refusals" | "no-memory" | "file" | "look" | "others":
                ROWS.leave(f"of `{first}`")
            case _:
                some = [row] if first in ("disk", "load") else [*some, row]
                check = row_of_disk(disk, some)
        if check:
            ROWS.checks[row] = check


def row_of_disk(disk: Disk, some: Sequence[Row]) -> Check | None:
    """What looks at the last of some rows, if a line shows it."""
    with contextlib.suppress(Unseen):
        disk.take(some[-1])
        if disk.has_looked:
            return disk_row(some)
    ROWS.leave("of calls of disks and logs, and of crashes")
    return None


plan()


@rows(ROWS.table(), "look")
class Storage(RowCase):
    """Records and stores."""

    seconds = 5
