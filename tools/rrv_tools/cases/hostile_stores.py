"""Stores that were made to be slow to open: `list` and `verify` take no more than in proportion to their length.

Expected values: the guests and the records that Python writes into the store.

usage: tools/run hostile_stores --times    prints what `list` and `verify` of each store take

The stores have records that are allowed, in an order or of a size that the program never writes. `list` has to print
what is there, and `verify` of the first guest how it ends or what is refused, in at most 40 milliseconds of processor
time a megabyte and 100 megabytes of memory. Other work may slow this down, so a case fails only at three times that
time. Of parts of a checkpoint, and of the most records, just the time of `verify` is compared: it takes more memory.
"""
import contextlib
import itertools
import multiprocessing
import os
import pathlib
import random
import struct
import subprocess
import tempfile
from collections.abc import Callable, Iterable, Sequence
from typing import NamedTuple

from rrv_tools import program as programs
from rrv_tools.guests import EXIT_FIVE
from rrv_tools.program import Program
from rrv_tools.records import THREADLESS, Call, Opening, Page, Part, Record
from rrv_tools.store import MAX_BODY, store_of
from rrv_tools.testing import Case, rows

MILLISECONDS, BUSY, MEGABYTES, START = 40, 3, 100, 0.05
GUESTS, STORE, TRANSFER, LAST = 100_000, 100_000_000, 65_536, 4_294_967_294
SMALLEST = Opening(b"", b"a", bytes(16))
# The opening of a guest whose first instruction is no call, and how its next record is refused if it is one.
FIRST, REFUSED = Record(0, 0, Opening(EXIT_FIVE, b"a", bytes(16))).text(), "rrv: record 1 does not replay\n"
NO_FILE = "rrv: bad opening\n"
# A record's fields before its payload: guest, index, kind and the payload's length.
HEAD = struct.Struct("<IIBI")
# A store, what `list` has to print of it, and `verify` of its first guest.
Made = tuple[bytes, str, str]


def list_of(numbers: Iterable[int]) -> str:
    """What `list` prints of guests that have their openings alone."""
    return "".join(f"{guest} a records=1 frames=0 instructions=0\n" for guest in sorted(numbers))


def of_guests(numbers: Sequence[int]) -> Made:
    """Guests of these numbers in this order, each with its opening alone, in one body."""
    return store_of([b"".join(Record(guest, 0, SMALLEST).text() for guest in numbers)]), list_of(numbers), NO_FILE


def of_calls() -> Made:
    """Bodies of exactly 8 MiB, of calls that write as much as a call can."""
    bodies: list[bytes] = []
    index = 1
    while len(bodies) * MAX_BODY < STORE:
        body = bytearray(b"" if bodies else FIRST)
        while left := MAX_BODY - len(body):
            # What is left before the two ranges of a call, of which the last one fills the body.
            ranges = [(0, bytes(min((left - 45 + it) // 2, TRANSFER))) for it in (0, 1)]
            body += Record(0, index, Call(1, 1, 0, ranges)).text()
            index += 1
        bodies.append(bytes(body))
    return store_of(bodies), f"0 a records={index} frames={index - 1} instructions={index - 1}\n", REFUSED


def of_openings() -> Made:
    """Guests of falling numbers, with the largest file that there may be, three in a body."""
    file = bytes(2_097_152)
    numbers = range(STORE // len(file), 0, -1)
    texts = [Record(guest, 0, Opening(file, b"a", bytes(16))).text() for guest in numbers]
    return store_of(b"".join(texts[at: at + 3]) for at in range(0, len(texts), 3)), list_of(numbers), NO_FILE


def of_parts(lines: int, count: int) -> Made:
    """Parts of a checkpoint that none completes, each of 1,024 pages with this number of lines."""
    part = Part([Page(number, 6, {line: bytes(64) for line in range(lines)}) for number in range(1, 1025)], None).text()
    texts = [FIRST, *(HEAD.pack(0, it, Part.kind, len(part)) + part for it in range(1, count + 1))]
    each = MAX_BODY // len(texts[-1])
    bodies = [b"".join(texts[at: at + each]) for at in range(0, len(texts), each)]
    records = f"records={count + 1}"
    return store_of(bodies), f"0 a {records} frames=0 instructions=0\n", f"ok {records} instructions=0 end none\n"


def of_smallest(size: int) -> Made:
    """Records of 13 bytes, in bodies that have as many as fit, up to this size."""
    bodies: list[bytes] = []
    index = 1
    while len(bodies) * MAX_BODY < size:
        front = b"" if bodies else FIRST
        first, index = index, index + (MAX_BODY - len(front)) // HEAD.size
        bodies.append(front + b"".join(HEAD.pack(0, it, THREADLESS[0].kind, 0) for it in range(first, index)))
    return store_of(bodies), f"0 a records={index} frames={index - 1} instructions=0\n", REFUSED


STORES: dict[str, Callable[[], Made]] = {
    "100,000 guests of falling numbers": lambda: of_guests(range(GUESTS, 0, -1)),
    "100,000 guests of numbers that fall from the greatest": lambda: of_guests(range(LAST, LAST - GUESTS, -1)),
    "100,000 guests of shuffled numbers": lambda: of_guests(random.Random(1).sample(range(GUESTS), GUESTS)),
    "100,000 guests of rising numbers": lambda: of_guests(range(GUESTS)),
    "bodies of 8 MiB, of calls that write 128 KiB": of_calls,
    "openings of 2 MiB, of falling numbers": of_openings,
    "parts of 1,024 whole pages": lambda: of_parts(64, STORE // 4_208_640),
    "parts of 1,024 pages without a line": lambda: of_parts(0, STORE // 13_330),
    "a body of 8 MiB, of the smallest records": lambda: of_smallest(MAX_BODY),
    "bodies of 8 MiB, of the smallest records": lambda: of_smallest(STORE),
}
# Those of which `verify` has no limit of memory.
UNLIMITED = ("parts of 1,024 whole pages", "parts of 1,024 pages without a line",
             "bodies of 8 MiB, of the smallest records")


class Ran(NamedTuple):
    """How a line over a store ended, what it printed, its seconds of processor time, the milliseconds of them a
    megabyte of the store without those of a start, and its megabytes of memory."""

    status: int
    printed: str
    seconds: float
    each: float
    megabytes: float


def write(make: Callable[[], Made]) -> None:
    """Writes a store, its list and how it verifies into this folder."""
    store, *texts = make()
    pathlib.Path("store").write_bytes(store)
    for name, text in zip(("list", "verify"), texts, strict=True):
        pathlib.Path(name).write_text(text, encoding="ascii")


def run_over(program: Program, make: Callable[[], Made]) -> dict[str, Ran]:
    """Lists a store in this folder, and verifies its first guest. It is made by a process of its own: what this one
    takes would count as the program's."""
    maker = multiprocessing.get_context("fork").Process(target=write, args=(make,))
    maker.start()
    maker.join()
    assert maker.exitcode == 0, "the store could not be made"
    guest = pathlib.Path("list").read_text(encoding="ascii").partition(" ")[0]
    return {"list": measured(program, "list", "store"), "verify": measured(program, "verify", "store", guest)}


def measured(program: Program, *words: str) -> Ran:
    """Runs a line over the store in this folder."""
    with (open("printed", "wb") as out,
          subprocess.Popen(program.words(*words), stdin=subprocess.DEVNULL, stdout=out, stderr=out) as ran):
        _, status, usage = os.wait4(ran.pid, 0)
        ran.returncode = os.waitstatus_to_exitcode(status)
    seconds, megabytes = usage.ru_utime + usage.ru_stime, os.path.getsize("store") / 1_000_000
    printed = pathlib.Path("printed").read_text(encoding="latin-1")
    return Ran(ran.returncode, printed, seconds, 1000 * max(seconds - START, 0) / megabytes, usage.ru_maxrss / 1000)


@rows({name: (name, make) for name, make in STORES.items()}, "look")
class HostileStores(Case):
    """Lists of these stores, and how they verify."""

    seconds = 30

    def look(self, row: tuple[str, Callable[[], Made]]) -> None:
        """That a store is listed and verified as it has to be, by its time and memory too."""
        name, make = row
        for command, found in run_over(self.program, make).items():
            text = pathlib.Path(command).read_text(encoding="ascii")
            lines = itertools.zip_longest(*(it.splitlines(keepends=True) for it in (text, found.printed)))
            for number, (wanted, came) in enumerate(lines, 1):
                self.need(f"line {number} of {command}", wanted, came)
            self.need(f"status of {command}", 1 if text.startswith("rrv: ") else 0, found.status)
            self.assertLessEqual(found.each, BUSY * MILLISECONDS, f"milliseconds a megabyte of {command}")
            if command == "list" or name not in UNLIMITED:
                self.assertLessEqual(found.megabytes, MEGABYTES, f"megabytes of memory of {command}")


def main(words: Sequence[str]) -> int | None:
    """Prints what `list` and `verify` of each store take."""
    if list(words) != ["--times"]:
        return None
    with tempfile.TemporaryDirectory() as folder, contextlib.chdir(folder):
        for name, make in STORES.items():
            for command, it in run_over(programs.needed(), make).items():
                print(f"{command}, {name}: {it.seconds:.2f} seconds, {it.each:.0f} milliseconds a megabyte, "
                      f"{it.megabytes:.0f} MB of memory", flush=True)
    return 0
