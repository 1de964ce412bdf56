"""Records, by docs/FORMATS.md alone ("Records"): their kinds as dataclasses, read from bytes and written, whatever
they say.

usage: tools/run records STORE

prints the records of a store as `rrv dump` prints them, each after the number of its segment and its guest; for the
Mark its segment and `mark`.
"""
import dataclasses
import pathlib
import struct
from collections.abc import Sequence
from typing import ClassVar, Self

from rrv_tools import store

# The result of a wait that expired: ETIMEDOUT.
TIMED_OUT = 0xFFFFFF92
# The permissions of a page of a part that is not mapped, and the most records of a body that the program writes.
NOT_MAPPED, BATCH = 0x80, 64


class Reader:
    """Bytes that are read from the front, by an AssertionError past their end."""

    def __init__(self, data: bytes) -> None:
        self.data, self.at = data, 0

    def take(self, count: int) -> bytes:
        """The next bytes."""
        assert self.at + count <= len(self.data), "the bytes end too soon"
        self.at += count
        return self.data[self.at - count: self.at]

    def byte(self) -> int:
        """A u8."""
        return self.take(1)[0]

    def words(self, count: int) -> list[int]:
        """Numbers of 32 bits."""
        return list(struct.unpack(f"<{count}I", self.take(4 * count)))

    def word(self) -> int:
        """A u32."""
        return self.words(1)[0]

    def is_empty(self) -> bool:
        """Whether all was read."""
        return self.at == len(self.data)


@dataclasses.dataclass
class Item:
    """What a record has beside its guest and index: its kind and its payload. That of most kinds is its fields, in the
    form that `struct` takes; and `printed` is the line that `dump` prints of them, without its number."""

    kind: ClassVar[int]
    form: ClassVar[str] = "<"
    printed: ClassVar[str]

    @classmethod
    def read(cls, data: Reader) -> Self:
        """Reads a payload of this kind."""
        return cls(*struct.unpack(cls.form, data.take(struct.calcsize(cls.form))))

    def text(self) -> bytes:
        """The payload."""
        return struct.pack(self.form, *dataclasses.astuple(self))

    def line(self) -> str:
        """The line that `dump` prints, without its number."""
        return self.printed.format(**vars(self))


@dataclasses.dataclass
class Opening(Item):
    """The first record of a guest of version 1."""

    elf: bytes
    name: bytes
    random: bytes

    kind = 0

    @classmethod
    def read(cls, data: Reader) -> Self:
        return cls(data.take(data.word()), data.take(data.byte()), data.take(16))

    def text(self) -> bytes:
        return struct.pack("<I", len(self.elf)) + self.elf + bytes([len(self.name)]) + self.name + self.random

    def line(self) -> str:
        return f"opening name={self.name.decode()} elf={len(self.elf)}"


@dataclasses.dataclass
class OpeningTwo(Opening):
    """The first record of a guest of version 2."""

    kind = 8


@dataclasses.dataclass
class Preempt(Item):
    """A turn that ended by its quantum: its thread and how many instructions it ran."""

    tid: int
    count: int

    kind, form, printed = 1, "<II", "preempt tid={tid} count={count}"


@dataclasses.dataclass
class Call(Item):
    """A turn that ended by a call; `ranges` has the address and the bytes of each range that it wrote."""

    tid: int
    count: int
    result: int
    ranges: list[tuple[int, bytes]]

    kind = 2

    @classmethod
    def read(cls, data: Reader) -> Self:
        tid, count, result, range_count = data.words(4)
        heads = (data.words(2) for _ in range(range_count))
        return cls(tid, count, result, [(address, data.take(length)) for address, length in heads])

    def text(self) -> bytes:
        written = b"".join(struct.pack("<II", address, len(data)) + data for address, data in self.ranges)
        return struct.pack("<IIII", self.tid, self.count, self.result, len(self.ranges)) + written

    def line(self) -> str:
        written = sum(len(data) for _, data in self.ranges)
        return f"call tid={self.tid} count={self.count} result={self.result:08x} written={written}"


@dataclasses.dataclass
class Fault(Item):
    """A turn that ended by a fault, of a kind from 1 to 7."""

    tid: int
    count: int
    fault: int

    kind, form, printed = 3, "<IIB", "fault tid={tid} count={count} kind={fault}"


@dataclasses.dataclass
class Stuck(Item):
    """The guest's end, since all its threads wait."""

    kind, printed = 4, "stuck"


@dataclasses.dataclass
class Expire(Item):
    """The time of a thread's wait is over."""

    tid: int

    kind, printed = 6, f"expire tid={{tid}} result={TIMED_OUT:08x}"

    @classmethod
    def read(cls, data: Reader) -> Self:
        tid, result = data.words(2)
        assert result == TIMED_OUT, "an expire has one result"
        return cls(tid)

    def text(self) -> bytes:
        return struct.pack("<II", self.tid, TIMED_OUT)


@dataclasses.dataclass
class Page:
    """A page of a part; `lines` has 64 bytes each by their place in the page, from 0 to 63."""

    number: int
    permissions: int
    lines: dict[int, bytes]

    @classmethod
    def read(cls, data: Reader) -> Self:
        """Reads a page."""
        number, permissions, mask = struct.unpack("<IBQ", data.take(13))
        return cls(number, permissions, {place: data.take(64) for place in range(64) if mask >> place & 1})

    def text(self) -> bytes:
        """The page's bytes."""
        mask = sum(1 << place for place in self.lines)
        lines = b"".join(self.lines[it] for it in sorted(self.lines))
        return struct.pack("<IBQ", self.number, self.permissions, mask) + lines


@dataclasses.dataclass
class Thread:
    """A thread of a checkpoint: x1 to x31, the address at which it waits, or None if it runs, and the seconds and
    nanoseconds of its wait, or None if that has no timeout."""

    tid: int
    pc: int
    registers: list[int]
    waits_at: int | None
    clear: int
    timeout: tuple[int, int] | None = None

    @classmethod
    def read(cls, data: Reader) -> Self:
        """Reads a thread."""
        tid, pc, *registers = data.words(33)
        state = data.byte()
        waits_at = data.word() if state else None
        timeout = struct.unpack("<QI", data.take(12)) if state == 2 else None
        return cls(tid, pc, registers, waits_at, data.word(), (timeout[0], timeout[1]) if timeout else None)

    def text(self) -> bytes:
        """The thread's bytes."""
        state = b"\0" if self.waits_at is None else struct.pack("<BI", 2 if self.timeout else 1, self.waits_at)
        if self.timeout:
            state += struct.pack("<QI", *self.timeout)
        return struct.pack("<33I", self.tid, self.pc, *self.registers) + state + struct.pack("<I", self.clear)


@dataclasses.dataclass
class Rest:
    """What the last part of a checkpoint has beside pages."""

    program_break: int
    next_tid: int
    threads: list[Thread]
    waiting: list[int]

    @classmethod
    def read(cls, data: Reader) -> Self:
        """Reads the rest."""
        program_break, next_tid, count = data.words(3)
        return cls(program_break, next_tid, [Thread.read(data) for _ in range(count)], data.words(data.word()))

    def text(self) -> bytes:
        """The rest's bytes."""
        text = struct.pack("<III", self.program_break, self.next_tid, len(self.threads))
        text += b"".join(it.text() for it in self.threads)
        return text + struct.pack(f"<I{len(self.waiting)}I", len(self.waiting), *self.waiting)


@dataclasses.dataclass
class Part(Item):
    """A part of a checkpoint; the last one alone has the rest."""

    pages: list[Page]
    rest: Rest | None

    kind = 5

    @classmethod
    def read(cls, data: Reader) -> Self:
        is_last, count = data.byte(), data.word()
        return cls([Page.read(data) for _ in range(count)], Rest.read(data) if is_last else None)

    def text(self) -> bytes:
        head = struct.pack("<BI", self.rest is not None, len(self.pages))
        return head + b"".join(it.text() for it in self.pages) + (self.rest.text() if self.rest else b"")

    def line(self) -> str:
        return f"part pages={len(self.pages)} last={'yes' if self.rest else 'no'}"


ITEMS: tuple[type[Item], ...] = (Opening, Preempt, Call, Fault, Stuck, Part, Expire, OpeningTwo)
KINDS = {it.kind: it for it in ITEMS}
# Those of frames that have no thread, and no payload.
THREADLESS = (Stuck,)


@dataclasses.dataclass
class Record:
    """A record: its guest's number, its index in that guest's recording, and the rest."""

    guest: int
    index: int
    item: Item

    @classmethod
    def read(cls, data: Reader) -> Self:
        """Reads a record, by an AssertionError or a KeyError if there is none."""
        guest, index = data.words(2)
        kind = data.byte()
        payload = Reader(data.take(data.word()))
        record = cls(guest, index, KINDS[kind].read(payload))
        assert payload.is_empty(), "bytes are left over"
        return record

    def text(self) -> bytes:
        """The record's bytes."""
        payload = self.item.text()
        return struct.pack("<IIBI", self.guest, self.index, self.item.kind, len(payload)) + payload

    def line(self) -> str:
        """The line that `dump` prints."""
        return f"{self.index} {self.item.line()}"


def records_of(guest: int, items: Sequence[Item]) -> list[Record]:
    """The records of a guest, by its items in their order."""
    return [Record(guest, index, item) for index, item in enumerate(items)]


def records_in(body: bytes) -> list[Record]:
    """The records of a body. The Mark has none."""
    data, found = Reader(b"" if body == store.MARK else body), []
    while not data.is_empty():
        found.append(Record.read(data))
    return found


def bodies_of(records: Sequence[Record], most: int = BATCH) -> list[bytes]:
    """The bodies of records, with at most this number of them each."""
    return [b"".join(it.text() for it in records[at: at + most]) for at in range(0, len(records), most)]


def main(words: Sequence[str]) -> int | None:
    """Prints the records of the store that the word names."""
    if len(words) != 1:
        return None
    for number, body in enumerate(store.bodies_in(pathlib.Path(words[0]).read_bytes())):
        if body == store.MARK:
            print(f"{number} mark")
        for record in records_in(body):
            print(f"{number} {record.guest} {record.line()}")
    return 0
