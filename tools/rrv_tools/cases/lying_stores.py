"""Stores that lie: what the program prints of each follows from where the lie was put.

Expected values: the place that the lie was put into, and the rules of records and recordings (docs/FORMATS.md,
docs/GUEST.md).

The program records guests. Their stores are written again with a lie in each, with right digests, lengths and numbers:
one that the rules of records allow, so that the store opens, or one that they don't. Of the first kind `verify` has to
name the record by which the list is no recording, from the record that the lie was put into and from the rules of
recordings alone: the first record that does not replay, or the last part of the first checkpoint that is wrong. Seven
changes are no lies, and have to verify. There are 77 lies, and 44 breaches of the rules of records and of the Mark's.
`list` and `dump` have to print what is there, `dump --places` and `dump --trace-events` what is before that record,
`list --long` that just this guest is refused, and a guest beside it has to verify. Of the second kind each line has to
name the segment, or a newer version if the Mark is one's. The bytes and the time of change of every store stay.

The guests make calls of which the state alone decides the result, and none of their instructions jumps to itself.
"""
import dataclasses
import hashlib
import itertools
import operator
import os
import pathlib
import re
import struct
from collections.abc import Callable, Mapping, Sequence
from typing import Any, ClassVar, Generic, NamedTuple, TypeVar

from rrv_tools import elf, guests, records, store
from rrv_tools.program import ROOT
from rrv_tools.records import (
    BATCH, KINDS, NOT_MAPPED, THREADLESS, Call, Expire, Fault, Item, Opening, OpeningTwo, Page, Part, Preempt, Record,
    Rest, records_of,
)  # fmt: skip
from rrv_tools.riscv import A0, A2, addi, call, lui
from rrv_tools.steps import Step, done, holds, play, refused
from rrv_tools.store import MARK, mark_of, store_of
from rrv_tools.testing import Case, rows

NO_THREAD, NO_PAGE, UNTOUCHED = 77, 0x100, 0x7FF00
READ_WRITE, READ, LINE, MARK_KIND = 6, 4, bytes(range(64)), 7
BYSTANDER = "ok records=2 instructions=3 end exited 5\n"
# What the long list has more of the guest beside the one that lies.
SUMMED = f" end=exited:5 threads=1 turns=0 input=0 elf=96:{hashlib.sha256(guests.EXIT_FIVE).hexdigest()[:8]}\n"
# Its only thread waits: the word at 0x10000 is 7F 45 4C 46.
WAITS = elf.executable([lui(A0, 0x10), lui(A2, 0x464C4), addi(A2, A2, 0x57F), *call(guests.FUTEX)])
BAD_OPENING, NEWER, DAMAGED = "bad opening", "newer version", "damaged segment {}"

Items = list[Item]
Kind = TypeVar("Kind", bound=Item)


class Changed(NamedTuple):
    """The items of a guest with a change, and how `verify` refuses them; or None if it is no lie, and how the guest
    then ends."""

    items: Items
    refusal: str | None
    end: str = ""

    def well(self, end: str) -> "Changed":
        """The same, as no lie."""
        return self._replace(refusal=None, end=end)


@dataclasses.dataclass(frozen=True)
class At(Generic[Kind]):
    """A place of a list, and its item."""

    items: Items
    place: int
    item: Kind

    def by(self, *others: Item, after: int = 0, over: int = 1) -> Changed:
        """The list with others in place of the item, or of this many. It is refused there, or this much after it."""
        text = "checkpoint {} is wrong" if isinstance(self.item, Part) else "record {} does not replay"
        items = [*self.items[: self.place], *others, *self.items[self.place + over:]]
        return Changed(items, text.format(self.place + after))

    def replaced(self, **fields: Any) -> Changed:
        """The list with other fields of the item."""
        return self.by(dataclasses.replace(self.item, **fields))


class Checkpoint(At[Part]):
    """The last part of a checkpoint, whose threads are numbered by their places: `runs` and `waits` are the first that
    runs and waits; and `page` is the first page that may be written and has lines."""

    def __init__(self, at: At[Part]) -> None:
        super().__init__(at.items, at.place, at.item)

    @property
    def rest(self) -> Rest:
        """What it has beside its pages."""
        assert self.item.rest
        return self.item.rest

    runs = property(lambda at: [it.waits_at is None for it in at.rest.threads].index(True))
    waits = property(lambda at: [it.waits_at is None for it in at.rest.threads].index(False))
    page = property(lambda at: [it.permissions == READ_WRITE and it.lines != {} for it in at.item.pages].index(True))

    def with_rest(self, **fields: Any) -> Changed:
        """The list with other fields of the rest."""
        return self.replaced(rest=dataclasses.replace(self.rest, **fields))

    def with_thread(self, number: int, **fields: Callable[[Any], object]) -> Changed:
        """The list with other fields of a thread, each made of what it was."""
        return self.with_rest(threads=changed(self.rest.threads, number, fields))

    def with_page(self, **fields: Callable[[Any], object]) -> Changed:
        """The list with other fields of the page."""
        return self.replaced(pages=changed(self.item.pages, self.page, fields))

    def with_more(self, *more: Page) -> Changed:
        """The list with more pages."""
        return self.replaced(pages=sorted([*self.item.pages, *more], key=operator.attrgetter("number")))


def changed(those: Sequence[Any], number: int, fields: Mapping[str, Callable[[Any], object]]) -> list[Any]:
    """Threads or pages, of which one has other fields, each made of what it was."""
    made: dict[str, Any] = {name: make(getattr(those[number], name)) for name, make in fields.items()}
    return [*those[:number], dataclasses.replace(those[number], **made), *those[number + 1:]]


def flipped(data: bytes) -> bytes:
    """Bytes with the lowest bit of the first one changed."""
    return bytes([data[0] ^ 1]) + data[1:]


def is_frame(item: Item) -> bool:
    """Whether an item is a frame."""
    return not isinstance(item, Opening | Part)


def count_of(item: Item) -> int:
    """How many instructions an item ran."""
    return int(getattr(item, "count", 0))


def list_line(guest: int, items: Items, more: str = "\n") -> str:
    """The line that `list` prints of a guest."""
    (opening,) = (it.name.decode() for it in items[:1] if isinstance(it, Opening))
    frames, count = sum(map(is_frame, items)), sum(map(count_of, items))
    return f"{guest} {opening} records={len(items)} frames={frames} instructions={count}{more}"


class Recorded:
    """The items of a guest that was recorded, those of the small one beside it, and how the guest ends."""

    def __init__(self, items: Items, others: Items, end: str) -> None:
        self.items, self.others, self.end = items, others, end
        self.openings, self.calls, self.preempts = self.all_at(Opening), self.all_at(Call), self.all_at(Preempt)
        self.checkpoints = [Checkpoint(it) for it in self.all_at(Part) if it.item.rest]

    def all_at(self, kind: type[Kind]) -> list[At[Kind]]:
        """The places of a kind."""
        return [At(self.items, place, it) for place, it in enumerate(self.items) if isinstance(it, kind)]

    def at(self, place: int) -> At[Item]:
        """A place."""
        return At(self.items, place % len(self.items), self.items[place])

    def second(self) -> At[Item]:
        """The item after the opening, which ran more than the guest beside it does before its exit."""
        assert count_of(self.items[1]) > count_of(self.others[1])
        return self.at(1)

    def after_end(self, item: Item) -> Changed:
        """The list with one item more."""
        return dataclasses.replace(self.at(-1), item=item, place=len(self.items)).by(item)

    def first_of_two(self, differ: Callable[[int, int], bool]) -> At[Call]:
        """The first of two calls of a thread, one after the other, whose counts differ so. The first of them is the
        ECALL at its own count, and no other count's."""
        pairs = (it for it in zip(self.calls, self.calls[1:], strict=False) if it[1].place == it[0].place + 1)
        same = (it for it in pairs if it[0].item.tid == it[1].item.tid)
        return next(one for one, other in same if differ(one.item.count, other.item.count))

    def preempt_before_call(self) -> At[Preempt]:
        """The preempt before the first call. Within it there is no call, so none at the call's count from its start."""
        at = next(it for it in self.preempts if it.place == self.calls[0].place - 1)
        assert self.calls[0].item.count <= at.item.count
        return at

    def crowded(self) -> Checkpoint:
        """A checkpoint at which two threads wait at least and one runs."""
        found = (it for it in self.checkpoints if len(it.rest.waiting) > 1)
        at = next(it for it in found if any(thread.waits_at is None for thread in it.rest.threads))
        assert all(it.number not in (NO_PAGE, UNTOUCHED) for it in at.item.pages)
        return at

    def frame_after(self) -> At[Item]:
        """The frame after that checkpoint."""
        at = self.at(self.crowded().place + 1)
        assert is_frame(at.item) and getattr(at.item, "tid", 0) not in self.crowded().rest.waiting
        return at

    def lost(self) -> Changed:
        """The list without a checkpoint of one part, of which lines are as it says at the next one, which neither names
        them nor unmaps their page: that one stands against an earlier base."""
        def lines(at: Checkpoint) -> set[tuple[int, int]]:
            return {(page.number, line) for page in at.item.pages for line in page.lines}

        for at, after in zip(self.checkpoints, self.checkpoints[1:], strict=False):
            unmapped = {it.number for it in after.item.pages if it.permissions == NOT_MAPPED}
            if any(it[0] not in unmapped for it in lines(at) - lines(after)):
                return at.by(after=after.place - 1 - at.place)
        raise AssertionError("no checkpoint is the base of another")

    def first_part(self) -> At[Part]:
        """The first part of the first checkpoint, which has two."""
        at, after = self.all_at(Part)[:2]
        assert after.place == at.place + 1 == self.checkpoints[0].place
        return at


# ---- lies, and changes that are none

Changes = dict[str, Callable[[Recorded], Changed]]
CALL: dict[str, Callable[[At[Call]], Changed]] = {
    "a call an instruction too soon": lambda at: at.replaced(count=at.item.count - 1),
    "a call an instruction too late": lambda at: at.replaced(count=at.item.count + 1),
    "another result of a call": lambda at: at.replaced(result=at.item.result ^ 1),
    "a call of a thread that isn't there": lambda at: at.replaced(tid=NO_THREAD),
    "a range that no call wrote": lambda at: at.replaced(ranges=[*at.item.ranges, (at.item.result, b"x")]),
    "a call reported as a preempt": lambda at: at.by(Preempt(at.item.tid, at.item.count)),
    "a call reported as a fault": lambda at: at.by(Fault(at.item.tid, at.item.count, 2)),
}
PICKS: dict[str, Callable[[int], int]] = {
    "the second call": lambda count: 1, "the middle call": lambda count: count // 2, "the last call": lambda count: -1,
}
# The first range that a call wrote.
WRITTEN: dict[str, Callable[[int, bytes], list[tuple[int, bytes]]]] = {
    "a written range moved by a byte": lambda address, data: [(address + 1, data)],
    "a written range a byte too long": lambda address, data: [(address, data + b"\0")],
    "a written byte changed": lambda address, data: [(address, flipped(data))],
    "a written range left out": lambda address, data: [],
}


def before_preempt(kind: type[Item]) -> Callable[[Recorded], Changed]:
    """Puts a frame without a thread before the first preempt."""
    return lambda it: it.preempts[0].by(kind(), it.preempts[0].item)


FRAMES: Changes = {
    "a frame left out": lambda it: it.first_of_two(operator.gt).by(),
    "a frame doubled": lambda it: it.first_of_two(operator.ne).by(*2 * [it.first_of_two(operator.ne).item], after=1),
    "a preempt reported as a call":
        lambda it: it.preempts[0].by(Call(it.preempts[0].item.tid, it.preempts[0].item.count, 0, [])),
    "a preempt of a thread that isn't there": lambda it: it.preempts[0].replaced(tid=NO_THREAD),
    **{f"{kind().line()} where a thread runs": before_preempt(kind) for kind in THREADLESS},
    "another guest's record between, as this guest's": lambda it: it.second().by(it.others[1], it.items[1]),
    "a frame after the end": lambda it: it.after_end(it.items[1]),
}
OPENINGS: Changes = {
    "an opening of another file": lambda it: Changed([it.others[0], *it.items[1:]], it.second().by().refusal),
    "an opening of no file": lambda it: it.openings[0].replaced(elf=b"")._replace(refusal=BAD_OPENING),
    "an opening of a file of another class":
        lambda it: it.openings[0].replaced(elf=elf.changed(it.openings[0].item.elf, 4, b"\2"))._replace(
            refusal=BAD_OPENING),
}
# A part after the end that no last one completes counts for nothing.
ENDS: Changes = {
    "a checkpoint after the end": lambda it: it.after_end(it.checkpoints[-1].item),
    "a part without its last after the end":
        lambda it: it.after_end(dataclasses.replace(it.checkpoints[-1].item, rest=None)).well(it.end),
    "the last frame left out": lambda it: it.at(-1).by().well("end none"),
    "a checkpoint left out": Recorded.lost,
    "the last checkpoint left out": lambda it: it.checkpoints[-1].by().well(it.end),
    "all checkpoints left out":
        lambda it: Changed([item for item in it.items if not (isinstance(item, Part) and item.rest)], None, it.end),
    "a page that did not change, without a line":
        lambda it: it.checkpoints[-1].with_more(Page(UNTOUCHED, READ_WRITE, {})).well(it.end),
    "a frame of a thread that waits": lambda it: it.frame_after().replaced(tid=it.crowded().rest.waiting[0]),
}


def off_by_one(register: int) -> Callable[[Checkpoint], Changed]:
    """Adds one to a register of the thread that runs."""
    def added(registers: list[int]) -> list[int]:
        return [it + (number == register) & 0xFFFFFFFF for number, it in enumerate(registers, 1)]

    return lambda at: at.with_thread(at.runs, registers=added)


# `make` names just the lines of a page that changed.
CHECKPOINT: dict[str, Callable[[Checkpoint], Changed]] = {
    **{f"x{it} off by one": off_by_one(it) for it in (1, 10, 31)},
    "the next instruction": lambda at: at.with_thread(at.runs, pc=lambda it: it + 4),
    "another clear address": lambda at: at.with_thread(at.runs, clear=lambda it: it ^ 4),
    "another tid": lambda at: at.with_thread(len(at.rest.threads) - 1, tid=lambda it: at.rest.next_tid),
    "a wait elsewhere": lambda at: at.with_thread(at.waits, waits_at=lambda it: it + 4),
    "a thread that runs reported as one that waits": lambda at: at.with_rest(
        threads=changed(at.rest.threads, at.runs, {"waits_at": lambda it: at.rest.threads[at.runs].pc & ~3}),
        waiting=[*at.rest.waiting, at.rest.threads[at.runs].tid]),
    "a wait with a timeout": lambda at: at.with_thread(at.waits, timeout=lambda it: (0, 1)),
    "17 threads": lambda at: at.with_rest(
        threads=[dataclasses.replace(at.rest.threads[at.runs], tid=it) for it in range(1, 18)], next_tid=18,
        waiting=[]),
    "a thread that waits left out of the order": lambda at: at.with_rest(waiting=at.rest.waiting[1:]),
    "a thread left out": lambda at: at.with_rest(
        threads=[it for it in at.rest.threads if it is not at.rest.threads[at.runs]]),
    "the waiting order exchanged": lambda at: at.with_rest(waiting=[*at.rest.waiting[1::-1], *at.rest.waiting[2:]]),
    "the break a page further": lambda at: at.with_rest(program_break=at.rest.program_break + 4096),
    "the next tid one further": lambda at: at.with_rest(next_tid=at.rest.next_tid + 1),
    "a bit of a page": lambda at: at.with_page(lines=lambda it: {**it, min(it): flipped(it[min(it)])}),
    "a line left out": lambda at: at.with_page(lines=lambda it: {line: it[line] for line in it if line != min(it)}),
    "a page left out": lambda at: at.replaced(
        pages=[it for it in at.item.pages if it is not at.item.pages[at.page]]),
    "other permissions of a page": lambda at: at.with_page(permissions=lambda it: READ),
    "a page reported as not mapped": lambda at: at.with_page(permissions=lambda it: NOT_MAPPED, lines=lambda it: {}),
    "a page that isn't mapped": lambda at: at.with_more(Page(NO_PAGE, READ_WRITE, {})),
    "a page that did not change, with a line": lambda at: at.with_more(Page(UNTOUCHED, READ_WRITE, {5: LINE})),
}
# Counts of the one thread of a guest without checkpoints, whose preempts lie before its first call.
COUNTS: dict[str, Callable[[At[Preempt]], Changed]] = {
    "a count one too small": lambda at: at.by(dataclasses.replace(at.item, count=at.item.count - 1), after=1),
    "a count one too large": lambda at: at.by(dataclasses.replace(at.item, count=at.item.count + 1), after=1),
    "a preempt left out": lambda at: at.by(),
    "a preempt doubled": lambda at: at.by(at.item, at.item, after=1),
    "a call before its preempt": lambda at: at.by(at.items[at.place + 1], at.item, over=2),
}
PARTS: Changes = {
    "a part left out": lambda it: it.first_part().by(),
    "the parts exchanged": lambda it: it.first_part().by(it.checkpoints[0].item, it.first_part().item, over=2),
    "the first part flagged too": lambda it: it.first_part().replaced(rest=it.checkpoints[0].rest),
    "a page in both parts": lambda it: it.checkpoints[0].with_more(it.first_part().item.pages[-1]),
    "the last part left out": lambda it: it.checkpoints[0].by().well("end none"),
}
FAULTS: dict[str, Callable[[At[Fault]], Changed]] = {
    "another fault": lambda at: at.replaced(fault=6),
    "a fault an instruction too soon": lambda at: at.replaced(count=at.item.count - 1),
    "a fault of a thread that isn't there": lambda at: at.replaced(tid=NO_THREAD),
    "a fault reported as a preempt": lambda at: at.by(Preempt(at.item.tid, at.item.count)),
    "a fault reported as a call": lambda at: at.by(Call(at.item.tid, at.item.count, 0, [])),
    "a frame after a fault": lambda at: at.by(at.item, Preempt(1, 1), after=1),
}
# The last frame, which has no thread, of a guest whose thread waits.
THREADLESS_END: Changes = {
    "the frame without a thread twice": lambda it: it.after_end(it.items[-1]),
    "a frame of the thread that waits": lambda it: it.at(-1).by(Preempt(1, 1)),
    "the frame without a thread left out": lambda it: it.at(-1).by().well("end none"),
}


# ---- records that are refused


def text_with(record: Record, payload: bytes, kind: int) -> bytes:
    """The text of a record with another payload."""
    return struct.pack("<IIBI", record.guest, record.index, kind, len(payload)) + payload


# The texts of all records, and the place of the one that is refused.
Broken = tuple[list[bytes], int]


class Whole:
    """Records of which one is to be refused: `frame` is the place of the last preempt with two records after it, and
    `last` of a last part with pages and threads."""

    def __init__(self, those: Sequence[Record]) -> None:
        self.records, self.texts, items = those, [it.text() for it in those], [it.item for it in those]
        frames = [(place, it) for place, it in enumerate(items[:-2]) if isinstance(it, Preempt)]
        parts = [(place, it, it.rest) for place, it in enumerate(items) if isinstance(it, Part) and it.rest]
        (self.frame, self.preempt), self.opening = frames[-1], items[0]
        self.last, self.part, self.rest = [it for it in parts if it[1].pages and len(it[2].threads) > 1][-1]
        self.page, self.falling = self.part.pages[0], sorted(self.rest.threads, key=lambda it: -it.tid)

    def by(self, place: int, *others: bytes, after: int = 0) -> Broken:
        """The texts with others in place of one; the refused one comes this much after it."""
        return [*self.texts[:place], *others, *self.texts[place + 1:]], place + after

    def with_payload(self, place: int, payload: bytes, kind: int) -> Broken:
        """The texts with another payload of a record."""
        return self.by(place, text_with(self.records[place], payload, kind))

    def with_item(self, place: int, item: Item, **fields: Any) -> Broken:
        """The texts with another item of a record, or other fields of it."""
        item = dataclasses.replace(item, **fields)
        return self.with_payload(place, item.text(), item.kind)

    def with_pages(self, *pages: Page) -> Broken:
        """The texts with other pages of the part."""
        return self.with_item(self.last, self.part, pages=list(pages))

    def with_threads(self, threads: Sequence[records.Thread]) -> Broken:
        """The texts with other threads of the part."""
        return self.with_item(self.last, self.part, rest=dataclasses.replace(self.rest, threads=list(threads)))


# Records that stand where they may not.
Breaches = dict[str, Callable[[Whole], Broken]]
ORDERS: Breaches = {
    "another guest's record between": lambda it: it.by(it.frame, Record(9, 0, it.preempt).text(), it.texts[it.frame]),
    "a record left out": lambda it: it.by(it.frame),
    "a record doubled": lambda it: it.by(it.frame, *2 * [it.texts[it.frame]], after=1),
    "an opening later": lambda it: it.with_item(it.frame, it.opening),
    "a first record that is no opening": lambda it: it.with_item(0, it.preempt),
}
# Frames, and openings, that have a value out of its range, or a byte too many or too few.
VALUES: Breaches = {
    "a kind that isn't there": lambda it: it.with_payload(it.frame, it.preempt.text(), max(KINDS) + 1),
    "the Mark's kind within a body": lambda it: it.with_payload(it.frame + (it.frame % BATCH == 0), b"", MARK_KIND),
    "a byte left over": lambda it: it.with_payload(it.frame, it.preempt.text() + b"\0", Preempt.kind),
    "a byte too few": lambda it: it.with_payload(it.frame, it.preempt.text()[:-1], Preempt.kind),
    "no tid": lambda it: it.with_item(it.frame, Preempt(0, it.preempt.count)),
    "no count": lambda it: it.with_item(it.frame, Preempt(it.preempt.tid, 0)),
    "a count past the limit": lambda it: it.with_item(it.frame, Preempt(it.preempt.tid, 1_048_577)),
    "a range of no bytes": lambda it: it.with_item(it.frame, Call(it.preempt.tid, 1, 0, [(0, b"")])),
    "three ranges": lambda it: it.with_item(it.frame, Call(it.preempt.tid, 1, 0, [(0, b"x")] * 3)),
    "a fault of no kind": lambda it: it.with_item(it.frame, Fault(it.preempt.tid, 1, 8)),
    "a blank in a name": lambda it: it.with_item(0, it.opening, name=b"a b"),
    "a name of 33 bytes": lambda it: it.with_item(0, it.opening, name=b"a" * 33),
}
# Parts of a checkpoint with pages or threads that no part may have.
PARTS_REFUSED: Breaches = {
    "a flag of 2": lambda it: it.with_payload(it.last, b"\2" + it.part.text()[1:], Part.kind),
    "a page twice": lambda it: it.with_pages(it.page, it.page),
    "a page past the last": lambda it: it.with_pages(Page(0x80000, READ_WRITE, {})),
    "1,025 pages": lambda it: it.with_pages(*(Page(number, READ_WRITE, {}) for number in range(1, 1026))),
    "other bits of permissions": lambda it: it.with_pages(Page(it.page.number, 8, {})),
    "lines of a page that isn't mapped": lambda it: it.with_pages(Page(it.page.number, NOT_MAPPED, {0: LINE})),
    "threads that fall": lambda it: it.with_threads(it.falling),
    "65 threads": lambda it: it.with_threads([dataclasses.replace(it.falling[0], tid=tid) for tid in range(1, 66)]),
}
FIELDS = guests.EXIT_FIVE, b"g0", bytes(16)
ONE, TWO = (Record(0, 0, it(*FIELDS)).text() for it in (Opening, OpeningTwo))
EXPIRE = Record(0, 1, Expire(1)).text()
# Bodies in which the Mark is missing or wrong, and how a store of them is refused.
MARKS: dict[str, tuple[list[bytes], str]] = {
    "the Mark of a newer version": ([ONE, mark_of(3)], NEWER),
    "the Mark of the greatest version": ([ONE, mark_of(0xFFFFFFFF)], NEWER),
    "the Mark of a newer version with a record after it": ([mark_of(3) + ONE], NEWER),
    "the Mark of a newer version after the Mark": ([MARK, mark_of(3)], NEWER),
    "the Mark of a newer version after what is damaged": ([EXPIRE, mark_of(3)], DAMAGED.format(0)),
    **{f"the Mark of version {it}": ([ONE, mark_of(it)], DAMAGED.format(1)) for it in (0, 1)},
    "the Mark twice": ([MARK, ONE, MARK], DAMAGED.format(2)),
    "the Mark twice in one body": ([MARK + MARK], DAMAGED.format(0)),
    "the Mark with a record after it": ([MARK + ONE], DAMAGED.format(0)),
    "the Mark after a record in one body": ([ONE + MARK], DAMAGED.format(0)),
    "the Mark cut short": ([ONE, MARK[:-1]], DAMAGED.format(1)),
    "the Mark of another guest": ([ONE, bytes(4) + MARK[4:]], DAMAGED.format(1)),
    "the Mark with another index": ([ONE, elf.changed(MARK, 4, b"\1")], DAMAGED.format(1)),
    "a guest of version 2 and no Mark": ([TWO], DAMAGED.format(0)),
    "a guest of version 2 before the Mark": ([TWO, MARK], DAMAGED.format(0)),
    "an expire of a guest of version 1 and no Mark": ([ONE + EXPIRE], DAMAGED.format(0)),
    "an expire before the Mark": ([ONE, EXPIRE, MARK], DAMAGED.format(1)),
}


# ---- the cases


class Stores(Case):
    """Lines over a store that is written here, whose bytes and time of change stay."""

    def try_store(self, data: bytes, *lines: Step) -> None:
        """Runs lines over a store of these bytes."""
        pathlib.Path("store").write_bytes(data)
        os.utime("store", (1_000_000_000, 1_000_000_000))
        play(self, [*lines, holds("store", data)])
        self.need("the time of change", 1_000_000_000, os.stat("store").st_mtime)

    def try_refused(self, data: bytes, refusal: str) -> None:
        """Runs lines over a store that is refused."""
        lines = ("list store", "dump store 0", "verify store 1")
        self.try_store(data, *(refused(it, f"rrv: {refusal}\n") for it in lines))


class Recording(Stores):
    """Lists of a guest that the program recorded by these options, with a change, beside a small guest."""

    seconds = 2
    file: ClassVar[bytes]
    # How `verify` prints its end.
    end: ClassVar[str] = "end none"
    options: ClassVar[tuple[str, ...]] = ()
    recorded: ClassVar[Recorded]

    @classmethod
    def setUpClass(cls) -> None:
        super().setUpClass()
        files = {"guest": cls.file, "exit_five": guests.EXIT_FIVE, "preempts": b"1 4000\n1 64\n", "turns": b"1 64\n"}
        for name, data in files.items():
            pathlib.Path(name).write_bytes(data)
        cls.program.run_well("new", "store")
        cls.program.run_well("record", *cls.options, "store", "guest", "exit_five")
        bodies = store.bodies_in(pathlib.Path("store").read_bytes())
        found = [record for body in bodies for record in records.records_in(body)]
        items, others = ([it.item for it in found if it.guest == guest] for guest in (0, 1))
        cls.recorded = Recorded(items, others, cls.end)

    def records(self, items: Items) -> list[Record]:
        """The records of these items as guest 0, with those of the guest beside it between the first of them."""
        those, others = records_of(0, items), records_of(1, self.recorded.others)
        return [it for pair in zip(those, others, strict=False) for it in pair] + those[len(others):]

    def try_change(self, change: Callable[[Recorded], Changed]) -> None:
        """That a change is found at its place, or verifies if it is no lie."""
        self.try_changed(*change(self.recorded))

    def try_changed(self, items: Items, refusal: str | None, end: str) -> None:
        """That a list with a change is refused as it has to be, or verifies if it is no lie."""
        others, count = self.recorded.others, sum(map(count_of, items))
        lines = [
            done("verify store 0", f"ok records={len(items)} instructions={count} {end}\n"),
            done("list store", list_line(0, items) + list_line(1, others)),
            done("dump store 0", "".join(f"{index} {item.line()}\n" for index, item in enumerate(items))),
            done("verify store 1", BYSTANDER),
        ]
        if refusal is not None:
            long = list_line(0, items, " refused\n") + list_line(1, others, SUMMED)
            lines = [refused("verify store 0", f"rrv: {refusal}\n"), *lines[1:], done("list --long store", long)]
        self.try_store(store_of(records.bodies_of(self.records(items))), *lines)
        if refusal is not None:
            self.need_listed_until(items, refusal)

    def need_listed_until(self, items: Items, refusal: str) -> None:
        """The places and the events of a list end at the record that is refused, or before its first."""
        place = int(re.sub(r"\D", "", refusal) or 0)
        starts = [*itertools.accumulate(map(count_of, items), initial=0)]
        text = f"rrv: {refusal}\n"
        placed = self.need_line("dump", "--places", "store", 0, status=1, out=None, err=text).out.decode()
        wanted = [f"{index} {it.line()}{f' from={starts[index]} to={starts[index + 1]}' * is_frame(it)}"
                  for index, it in enumerate(items[:place])]
        self.need("records with their places", wanted, re.sub(r"(?m) pc=\w+$", "", placed).splitlines())
        events = self.need_line("dump", "--trace-events", "store", 0, status=1, out=None, err=text).out
        found = [int(it) for it in re.findall(rb'"ts":(\d+)', events)]
        self.need("places of events", [starts[at] for at, it in enumerate(items[:place]) if is_frame(it)], found)


def end_of(name: str) -> str:
    """How `verify` prints the end of a guest of tools/guests, as these files have it."""
    return f"end {guests.path_of(name, 'records').read_text(encoding='ascii').rpartition(' end ')[2].rstrip()}"


@rows({**FRAMES, **OPENINGS, **ENDS}, "try_change")
@rows({f"{name}, {which}": (pick, make) for name, make in CALL.items() for which, pick in PICKS.items()}, "try_call")
@rows(WRITTEN, "try_written")
@rows(CHECKPOINT, "try_checkpoint")
@rows({**ORDERS, **VALUES, **PARTS_REFUSED}, "try_broken")
class Locks(Recording):
    """Threads under a lock, with checkpoints."""

    seconds = 10
    file, end = guests.file_of("lock"), end_of("lock")
    options = ("--quantum", "300", "--every", "3000")

    def try_call(self, row: tuple[Callable[[int], int], Callable[[At[Call]], Changed]]) -> None:
        """That a lie is found in one of the calls that ran more than an instruction."""
        calls = [it for it in self.recorded.calls if it.item.count > 1]
        at = calls[row[0](len(calls))]
        assert len(at.item.ranges) < 2
        self.try_changed(*row[1](at))

    def try_written(self, make: Callable[[int, bytes], list[tuple[int, bytes]]]) -> None:
        """That another range of the first call that wrote one is found."""
        at = next(it for it in self.recorded.calls if it.item.ranges)
        first, *others = at.item.ranges
        self.try_changed(*at.replaced(ranges=[*make(*first), *others]))

    def try_checkpoint(self, make: Callable[[Checkpoint], Changed]) -> None:
        """That a lie is found in a checkpoint."""
        self.try_changed(*make(self.recorded.crowded()))

    def try_broken(self, breach: Callable[[Whole], Broken]) -> None:
        """That a record that breaks a rule is refused by its segment."""
        texts, place = breach(Whole(self.records(self.recorded.items)))
        bodies = [b"".join(texts[at: at + BATCH]) for at in range(0, len(texts), BATCH)]
        self.try_refused(store_of(bodies), DAMAGED.format(place // BATCH))

    def test_a_record_of_the_marks_kind(self) -> None:
        """A body of a record that has the Mark's kind."""
        those = self.records(self.recorded.items)
        bodies = [*records.bodies_of(those[:BATCH]), text_with(those[BATCH], b"", MARK_KIND)]
        self.try_refused(store_of(bodies), DAMAGED.format(1))


@rows(COUNTS, "look")
class Primes(Recording):
    """One thread without checkpoints."""

    file, end = guests.file_of("primes"), end_of("primes")

    def look(self, make: Callable[[At[Preempt]], Changed]) -> None:
        """That a lie is found in the preempt before the first call, or after it."""
        self.try_changed(*make(self.recorded.preempt_before_call()))


@rows(PARTS, "try_change")
class ManyPages(Recording):
    """A checkpoint of two parts."""

    file = (ROOT / "crates" / "replay_cases" / "data" / "many_pages.elf").read_bytes()
    options = ("--every", "3200", "--choices", "preempts", "--choices", "turns", "--then", "none")


@rows(FAULTS, "look")
class Breakpoint(Recording):
    """A guest that ends by a fault."""

    file = guests.file_of("breakpoint")

    def look(self, make: Callable[[At[Fault]], Changed]) -> None:
        """That a lie is found in the fault, or after it."""
        fault = self.recorded.all_at(Fault)[-1]
        self.assertIs(fault.item, self.recorded.items[-1])
        self.try_changed(*make(fault))


@rows(THREADLESS_END, "try_change")
class Waits(Recording):
    """A guest whose only thread waits."""

    file = WAITS

    @classmethod
    def setUpClass(cls) -> None:
        super().setUpClass()
        assert type(cls.recorded.items[-1]) in THREADLESS


@rows(MARKS, "look")
class Marks(Stores):
    """Bodies in which the Mark is missing or wrong."""

    def look(self, row: tuple[list[bytes], str]) -> None:
        """That a store of them is refused."""
        self.try_refused(store_of(row[0]), row[1])
