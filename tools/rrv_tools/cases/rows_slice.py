"""Rows of slice_cases: slices.

Expected values: the rows of crates/slice_cases, of which a restatement in Python gives those of lists of choices and of
waits (`tools/run slice_rows`).

A guest is recorded by the choices of its rows. If waits end by their time, records that are made of the rows verify.
What is dumped, listed and replayed of the guest is compared with what each row says.
"""
import dataclasses
import re
from collections.abc import Callable, Iterator
from typing import NamedTuple

from rrv_tools import elf
from rrv_tools.program import Program
from rrv_tools.records import Call, Expire, Item, Preempt, Stuck
from rrv_tools.rows import LATIN, Check, Row, RowCase, Rows, made_guest, texts, write
from rrv_tools.testing import rows

ROWS = Rows("slice_cases")
# The frames that have no thread, by their lines.
THREADLESS: dict[str, Item] = {Stuck().line(): Stuck()}


class Looked(NamedTuple):
    """What is printed of a guest, by lines: its frames, those with their places, its events, its counts, its outputs,
    and how it ended; and why it couldn't be recorded or verified."""

    frames: list[str]
    places: list[str]
    events: list[str]
    counts: dict[str, str]
    outputs: tuple[str, str]
    ended: str
    refusal: str


def frame_of(wanted: str) -> Item:
    """The record that a printed frame says, if it says all of it."""
    kind, *words = wanted.split()
    fields = {name: value for name, _, value in (it.partition("=") for it in words)}
    match kind:
        case "call" if fields["written"] == "0":
            return Call(int(fields["tid"]), int(fields["count"]), int(fields["result"], 16), [])
        case "preempt":
            return Preempt(int(fields["tid"]), int(fields["count"]))
        case "expire":
            return Expire(int(fields["tid"]))
    return THREADLESS[kind]


def is_frame(row: Row) -> bool:
    """Whether a row makes a frame, which it wants so."""
    is_printed = row.wanted.partition(" ")[2].startswith("tid=") or row.wanted in THREADLESS
    return row.asked.split()[0] in ("choose", "expire") and is_printed


@dataclasses.dataclass
class Guest:
    """A guest of rows: its file, whether it is of version 2, and its rows."""

    elf: bytes
    is_two: bool
    rows: list[Row] = dataclasses.field(default_factory=list)
    looked: Looked | None = None

    def asked(self, first: str) -> list[str]:
        """What follows this word in rows that begin with it."""
        return [it.asked.removeprefix(first) for it in self.rows if it.asked.startswith(first)]

    def frames(self) -> list[Row]:
        """The rows that make a frame."""
        return [it for it in self.rows if is_frame(it)]

    def made(self, program: Program) -> str:
        """Makes a store of the rows, and returns why it doesn't verify."""
        write("s", made_guest(self.elf, [frame_of(it.wanted) for it in self.frames()], is_two=True))
        return texts(program.run("verify", "s", 0))[2]

    def recorded(self, program: Program) -> str:
        """Records the guest as the rows say, and returns why that is refused."""
        turns, chosen = self.asked("turns "), [it.asked.removeprefix("choose ") for it in self.frames()]
        options = ["--quantum", *turns] if turns else ["--choices", "-", "--then", "none"]
        program.run_well("new", "s")
        read = "" if turns else "".join(f"{it}\n" for it in chosen)
        err = texts(program.run("record", *options, "s", write("guest.elf", self.elf), stdin=read.encode()))[2]
        return "" if re.search(r"^g0: end ", err, re.M) else err

    def look(self, program: Program) -> Looked:
        """Makes or records the guest and looks at it, once."""
        if self.looked is None:
            refusal = self.made(program) if self.is_two else self.recorded(program)

            def dumped(*words: str) -> list[str]:
                return texts(program.run("dump", *words, "s", 0))[1].splitlines()

            events = [it.removesuffix(",") for it in dumped("--trace-events")[2:-1]]
            counts = dict(re.findall(r"(\w+)=(\d+)", texts(program.run("list", "s"))[1]))
            outputs, ended = texts(program.run("replay", "s", 0))[1:], texts(program.run("verify", "s", 0))[1].strip()
            self.looked = Looked(dumped()[1:], dumped("--places")[1:], events, counts, outputs, ended, refusal)
        return self.looked

    def plan(self) -> None:
        """Takes the rows."""
        if self.asked("lists ") and not self.asked("turns "):
            ROWS.leave("of lists that the crate draws", len(self.rows))
            return
        frames, starts = 0, [0, 0]
        last = max((place for place, it in enumerate(self.rows) if is_frame(it)), default=-1)
        for place, row in enumerate(self.rows):
            found = self.put(row, starts) if row.asked == "put" else self.finds(row, frames, place > last)
            frames += is_frame(row)
            if found:
                ROWS.checks[row] = self.check(row, found)
            else:
                ROWS.leave("of refused choices and of ends within")

    def check(self, row: Row, find: Callable[[Looked], str]) -> Check:
        """Whether a row finds what it wants."""
        return lambda program: (row.wanted, find(self.look(program)))

    @staticmethod
    def finds(row: Row, frames: int, is_last: bool) -> Callable[[Looked], str] | None:
        """What finds what a row asks, after this many frames; None if no line shows it."""
        first = row.asked.split()[0]
        if is_frame(row):
            return lambda it: it.refusal or it.frames[frames].partition(" ")[2]
        match first:
            case "places":
                return lambda it: it.places[frames - 1]
            case "event":
                return lambda it: it.events[frames - 1]
            case "frames" | "instructions":
                return lambda it: it.counts[first]
            case "turns":
                return lambda it: row.wanted if not it.refusal and it.ended.startswith("ok ") else it.refusal + it.ended
            case "end" if is_last:
                return lambda it: it.refusal or it.ended.partition(" end ")[2]
        return None

    @staticmethod
    def put(row: Row, starts: list[int]) -> Callable[[Looked], str]:
        """What finds what is output next; nothing may be left if it wants nothing."""
        if row.wanted == "nothing":
            ends = tuple(starts)
            return lambda it: row.wanted if tuple(map(len, it.outputs)) == ends else f"{it.outputs}"
        descriptor, digits = row.wanted.split()
        at = int(descriptor) - 1
        start, end = starts[at], starts[at] + len(digits) // 2
        starts[at] = end
        return lambda it: f"{descriptor} {it.outputs[at][start: end].encode(LATIN).hex()}"


def guests() -> Iterator[Guest]:
    """The guests, with their rows."""
    guest: Guest | None = None
    for row in ROWS.asking():
        first, *words = row.asked.split()
        if first == "guest":
            if guest:
                yield guest
            is_two = words[0] == "two"
            code = [int(it, 16) for it in words[1 + is_two:]] if "code" in words[:2] else []
            guest = Guest(elf.executable(code) if code else ROWS.data(words[0]), is_two)
        elif guest:
            guest.rows.append(row)
    if guest:
        yield guest


for one in guests():
    one.plan()


@rows(ROWS.table(), "look")
class Slices(RowCase):
    """Slices of guests."""

    seconds = 5
