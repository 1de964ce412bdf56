"""Writes the stores of crates/storage_cases/data, and prints what rows of that crate's `stdin` have from outside.

usage: tools/run storage_cases

The stores' records are those of a guest that exits with 5, its opening and its call; and an opening with 299 calls,
each a body. Printed are the lengths of bodies and their digests, the lengths of stores, and the opening of a guest that
jumps to where it stands.
"""
import hashlib
from collections.abc import Sequence

from rrv_tools import guests
from rrv_tools.program import ROOT
from rrv_tools.records import Call, Opening, Preempt, Record, bodies_of, records_of
from rrv_tools.store import mark_of, store_of

DATA = ROOT / "crates" / "storage_cases" / "data"


def opening(elf: bytes, guest: int = 0) -> bytes:
    """The opening record of a guest of this file."""
    return Record(guest, 0, Opening(elf, b"a", bytes(16))).text()


def call(index: int, count: int) -> bytes:
    """The record of a call that returned 0."""
    return Record(0, index, Call(1, count, 0, [])).text()


def longest(last: int) -> bytes:
    """The opening records of eight guests, of which the last one has a file of this many bytes."""
    sizes = [1_048_576] * 7 + [last]
    return b"".join(opening(b"\xE1" * size, guest) for guest, size in enumerate(sizes))


def print_all(exits: bytes, calls: Sequence[bytes], spins: Sequence[bytes]) -> None:
    """Prints what the rows have: of the guest that exits, of calls, and of bodies of the guest that spins."""
    bodies = {
        "both records": exits + call(1, 3),
        "opening": exits,
        "call": call(1, 3),
        "call 299": calls[298],
        "call 300": calls[299],
        "the Mark": mark_of(2),
        "opening and 65,537 calls": exits + b"".join(calls),
        "fourth body of the one that spins": spins[3],
        "the longest body": longest(1_048_296),
        "one byte more": longest(1_048_297),
    }
    for name, body in bodies.items():
        print(name, len(body), hashlib.sha256(body).hexdigest())
    stores = {
        "300 segments": [exits, *calls[:299]],
        "301 segments": [exits, *calls[:300]],
        "65,538 records": [exits + b"".join(calls)],
        "the one that spins": spins,
        "the longest body": [longest(1_048_296)],
    }
    for name, several in stores.items():
        print(name, len(store_of(several)))


def main(words: Sequence[str]) -> int | None:
    """Writes the stores, and prints what the rows have."""
    if words:
        return None
    exits, calls = opening(guests.EXIT_FIVE), [call(index, index) for index in range(1, 65538)]
    stores = {
        "one_body": [exits + call(1, 3)],
        "two_bodies": [exits, call(1, 3)],
        "many_bodies": [exits, *calls[:299]],
        "marked": [exits + call(1, 3), mark_of(2)],
    }
    for name, bodies in stores.items():
        (DATA / f"{name}.store").write_bytes(store_of(bodies))
    print("opening", exits.hex())
    print("call", call(1, 3).hex())
    print("spins", opening(guests.SPIN).hex())
    spins = [Opening(guests.SPIN, b"a", bytes(16)), *[Preempt(1, 64)] * 255]
    print_all(exits, calls, bodies_of(records_of(0, spins)))
    return 0
