"""Stores and records beside the bytes of crates/storage_cases, and beside the example of docs/FORMATS.md."""
import re
import unittest

from rrv_tools import records, store
from rrv_tools.program import ROOT
from rrv_tools.testing import rows

CASES = ROOT / "crates" / "storage_cases"
STORES = {it.stem: it.read_bytes() for it in sorted((CASES / "data").glob("*.store"))}
PREEMPT = bytes.fromhex("02000000 07000000 01 08000000 01000000 40000000")


def bytes_of(text: str) -> bytes:
    """Bytes in hexadecimal digits, of which `61*33` is one that comes 33 times."""
    parts = (it.partition("*") for it in text.split())
    return b"".join(bytes.fromhex(digits) * int(times or 1) for digits, _, times in parts)


def rows_of_records() -> dict[str, tuple[bytes, str]]:
    """The rows that have a record's bytes and what it is."""
    lines = (CASES / "stdin").read_text(encoding="utf-8").splitlines()
    found = [re.fullmatch(r"record (.+?) = (.+)", it) for it in lines]
    whole = [(number, it[1], it[2]) for number, it in enumerate(found, 1) if it and it[2].startswith("guest ")]
    return {f"{number} {told[:40]}": (bytes_of(text), told) for number, text, told in whole}


@rows(rows_of_records(), "read_and_write")
class Records(unittest.TestCase):
    """Each record of the rows."""

    def read_and_write(self, row: tuple[bytes, str]) -> None:
        """It is read as the guest and the index that the row has, and written as it was."""
        text, told = row
        data = records.Reader(text)
        record = records.Record.read(data)
        self.assertTrue(data.is_empty())
        self.assertTrue(told.startswith(f"guest {record.guest} index {record.index} "))
        self.assertEqual(record.text(), text)

    def test_there_are_many(self) -> None:
        """Rows of all kinds have been found but of faults, of which one is worked by hand, after the table of
        docs/FORMATS.md."""
        kinds = {text[8] for text, _ in rows_of_records().values()}
        self.assertEqual(kinds, set(records.KINDS) - {records.Fault.kind})
        fault = bytes.fromhex("00000000 01000000 03 09000000 01000000 05000000 02")
        self.assertEqual(records.Record(0, 1, records.Fault(1, 5, 2)).text(), fault)
        self.assertEqual(records.Record.read(records.Reader(fault)).line(), "1 fault tid=1 count=5 kind=2")

    def test_the_example(self) -> None:
        """A preempt of thread 1 after 64 instructions."""
        record = records.Record(2, 7, records.Preempt(1, 64))
        self.assertEqual(record.text(), PREEMPT)
        self.assertEqual(record.line(), "7 preempt tid=1 count=64")

    def test_what_is_no_record(self) -> None:
        """One that is cut, one with a byte more, and one of no kind."""
        longer, of_no_kind = PREEMPT[:8] + b"\x01\x09\0\0\0" + PREEMPT[13:] + b"\0", PREEMPT[:8] + b"\x07" + PREEMPT[9:]
        for text, error in ((PREEMPT[:-1], AssertionError), (longer, AssertionError), (of_no_kind, KeyError)):
            with self.assertRaises(error):
                records.Record.read(records.Reader(text))


@rows(STORES, "take_apart")
class Stores(unittest.TestCase):
    """Each store of crates/storage_cases/data, whose writer shares nothing with the package."""

    def take_apart(self, data: bytes) -> None:
        """It is written again of its bodies, and of its records."""
        bodies = store.bodies_in(data)
        self.assertEqual(store.store_of(bodies), data)
        again = [records.bodies_of(records.records_in(it), 1 << 20) if it != store.MARK else [it] for it in bodies]
        self.assertEqual([it for one in again for it in one], bodies)

    def test_their_bodies(self) -> None:
        """What their names say."""
        self.assertEqual({name: len(store.bodies_in(it)) for name, it in STORES.items()},
                         {"one_body": 1, "two_bodies": 2, "many_bodies": 300, "marked": 2})

    def test_the_mark(self) -> None:
        """It has 17 bytes, and makes a store 58 bytes longer."""
        self.assertEqual(store.MARK, bytes.fromhex("FFFFFFFF 00000000 07 04000000 02000000"))
        self.assertEqual(store.MARK_ADDS, 58)
        self.assertEqual(len(STORES["marked"]), len(STORES["one_body"]) + 58)
        self.assertEqual([it for it in STORES if store.is_marked(STORES[it])], ["marked"])

    def test_what_is_damaged(self) -> None:
        """A store that is cut, whose digest is wrong, or that is none; and a gate that isn't open ends one."""
        data = STORES["one_body"]
        for wrong in (data[:100], data[:-1], data[:57] + bytes([data[57] ^ 1]) + data[58:], b"text" + data):
            with self.assertRaises(AssertionError):
                store.bodies_in(wrong)
        torn = data[:-1] + b"\x37torn"
        self.assertEqual(store.scanned(torn), (store.bodies_in(data), b"\x37", False))
