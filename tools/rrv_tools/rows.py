"""Rows of the crates of cases, crates/NAME/stdin, as far as a line of the program shows them.

A row asks something and has what is wanted. The crates are programs of their own, which the gate builds; here what a
row asks is asked of the program under test, and is a case. Instructions are guests. ELF files go to `check`. Calls are
guests whose records are made of the rows' results. Slices are recorded by their choices, or made of the rows. Stores
and records are files that this package makes. Lists of records are verified, and asked for states. Other rows ask what
no line shows, as pages, decoded words, and calls of disks and logs: these are left out.

usage: tools/run rows

prints of each crate how many rows are cases, and how many are left out, with the reason.
"""
import collections
import dataclasses
import importlib
import pathlib
import re
from collections.abc import Callable, Iterable, Iterator, Sequence
from typing import NamedTuple

from rrv_tools import store
from rrv_tools.program import ROOT, Program, Result
from rrv_tools.records import Item, Opening, OpeningTwo, bodies_of, records_of
from rrv_tools.testing import Case, Table

CRATES = ("machine", "guest", "slice", "storage", "replay")
LATIN = "latin-1"


class Row(NamedTuple):
    """A row: the number of its line, all of it, what it asks and what it wants."""

    number: int
    text: str
    asked: str
    wanted: str


# Asks the program, in the case's folder, and returns what is wanted and what came.
Check = Callable[[Program], tuple[object, object]]


class Rows:
    """The rows of a crate: those that are cases, and how many are left out, by the reason."""

    def __init__(self, crate: str) -> None:
        self.crate, self.left, self.checks = crate, collections.Counter[str](), dict[Row, Check]()

    def lines(self) -> Iterator[Row]:
        """All lines, comments and empty ones too."""
        text = (ROOT / "crates" / self.crate / "stdin").read_text(encoding="utf-8")
        for number, line in enumerate(text.splitlines(), 1):
            asked, _, wanted = line.partition(" = ")
            yield Row(number, line, asked, wanted)

    def asking(self) -> Iterator[Row]:
        """Those that ask."""
        return (it for it in self.lines() if it.text and not it.text.startswith("#"))

    def data(self, name: str) -> bytes:
        """A file that rows name."""
        return (ROOT / "crates" / self.crate / "data" / name).read_bytes()

    def leave(self, reason: str, count: int = 1) -> None:
        """Leaves a row out."""
        self.left[reason] += count

    def table(self) -> Table:
        """The rows that are cases, by the numbers of their lines and the first words."""
        return [(f"{row.number:03} {row.asked[:40]}", it) for it in self.checks.items() for row in it[:1]]


class RowCase(Case):
    """Cases that are rows."""

    def look(self, it: tuple[Row, Check]) -> None:
        """Looks at a row."""
        row, check = it
        self.need(row.text[:200], *check(self.program))


def number(word: str) -> int:
    """A number as code writes it."""
    return int(word, 16 if word.startswith("0x") else 10)


def bytes_of(words: Iterable[str]) -> bytes:
    """The bytes of words of hex digits, each with how often it comes."""
    parts = (it.partition("*") for it in words)
    return b"".join(bytes.fromhex(digits) * int(times or 1) for digits, _, times in parts)


def write(name: str, data: bytes) -> str:
    """Writes a file, and returns its name."""
    pathlib.Path(name).write_bytes(data)
    return name


def texts(result: Result) -> tuple[int, str, str]:
    """An end with texts, which have a character for each byte."""
    return result.status, result.out.decode(LATIN), result.err.decode(LATIN)


def made_guest(elf: bytes, items: Sequence[Item], random: int = 0, is_two: bool = False) -> bytes:
    """A store of a guest of this file, with these records after its opening. One of version 2 stands after the Mark."""
    opening = (OpeningTwo if is_two else Opening)(elf, b"a", bytes([random] * 16))
    return store.store_of([*([store.MARK] if is_two else []), *bodies_of(records_of(0, [opening, *items]))])


# ---- states as they are printed


@dataclasses.dataclass
class Thread:
    """A thread of a state, with all its registers."""

    tid: int
    waits_at: int | None
    has_timeout: bool
    pc: int
    clear: int
    registers: list[int]


@dataclasses.dataclass
class State:
    """A state; `memory` has digits of bytes, or dashes, by their addresses."""

    end: str
    data_end: int
    reserved: int | None
    pages: int
    threads: dict[int, Thread]
    memory: dict[int, str]

    def bytes_at(self, address: int, count: int) -> int | None:
        """The number whose bytes stand there, the low one first; None if one isn't mapped."""
        found = [self.memory.get(address + it, "--") for it in range(count)]
        return None if "--" in found else int("".join(reversed(found)), 16)


def thread_of(match: re.Match[str]) -> Thread:
    """A printed thread."""
    tid, how, pc, clear, table = match.groups()
    words, has_timeout = how.split(), "timed" in how
    waits_at = int(words[-2 if has_timeout else -1], 16) if len(words) > 1 else None
    registers = [int(it, 16) for it in re.findall(r"x\d+ (\w+)", table)]
    return Thread(int(tid), waits_at, has_timeout, int(pc, 16), int(clear, 16), registers)


def state_of(text: str) -> State:
    """The state that lines print, with those of memory after it."""
    heads = re.match(r"at \d+ of \d+\nend (.*)\nbreak (\w+)\nreservation (\w+)\n", text)
    pages = re.search(r"^pages (\d+) digest \w+\n", text, re.M)
    assert heads and pages, text
    threads = map(thread_of, re.finditer(r"^thread (\d+) (.*) pc (\w+) clear (\w+)\n((?:  x.*\n){8})", text, re.M))
    memory = {int(line[:8], 16) + at: byte for line in text[pages.end():].splitlines()
              for at, byte in enumerate(line[10:58].split())}
    reserved = None if heads[3] == "none" else int(heads[3], 16)
    return State(heads[1], int(heads[2], 16), reserved, int(pages[1]), {it.tid: it for it in threads}, memory)


def state_at(program: Program, data: bytes, place: object, *memory: tuple[int, int]) -> State | str:
    """The state of the first guest of a store at a place, with some memory, or why there is none."""
    ranges = [word for at, count in memory for word in ("--memory", f"{at:x}:{count}")]
    status, out, err = texts(program.run("replay", "--at", f"{place}", *ranges, write("guest", data), 0))
    return state_of(out) if status == 0 else err


def main(words: Sequence[str]) -> int | None:
    """Prints of each crate how many rows are cases, and how many are left out."""
    if words:
        return None
    for it in CRATES:
        found: Rows = importlib.import_module(f"rrv_tools.cases.rows_{it}").ROWS
        left = ", ".join(f"{count} {reason}" for reason, count in found.left.most_common())
        print(f"{found.crate}: {len(found.checks)} rows are cases; left out: {left or 'none'}")
    return 0
