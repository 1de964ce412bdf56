"""Core files that are laid out by hand, after docs/FORMATS.md ("Core files") and the System V ABI: one that is whole,
and one for each field that is wrong."""
import hashlib
import struct
import unittest
from collections.abc import Sequence

from rrv_tools import core_file
from rrv_tools.testing import rows

# The ELF header: type, machine, version, entry, tables, flags, sizes and counts; then the headers of the notes and of
# two loads.
NOTES, PAGES = 52 + 3 * 32, 4096
FIELDS = 4, 243, 1, 0, 52, 0, 0, 52, 32, 3, 0, 0, 0
HEADER = bytes.fromhex("7f454c46 01 01 01") + bytes(9) + struct.pack("<2H5I6H", *FIELDS)
HEADERS = [
    (4, NOTES, 0, 0, 224, 0, 0, 4),
    (1, PAGES, 0x10000, 0, 4096, 8192, 5, 4096),
    (1, PAGES + 4096, 0x12000, 0, 0, 4096, 6, 4096),
]
# A note of thread 7, whose pc is 0x10054 and whose x1 is 1, and so on.
STATUS = bytes(24) + struct.pack("<I", 7) + bytes(44) + struct.pack("<32I", 0x10054, *range(1, 32)) + bytes(4)
NOTE = struct.pack("<3I", 5, 204, 1) + b"CORE\0\0\0\0" + STATUS
PAGE = b"\x13" * 4096


def core_of(headers: Sequence[tuple[int, ...]], header: bytes = HEADER, note: bytes = NOTE,
            page: bytes = PAGE) -> bytes:
    """A core file of these parts."""
    front = header + b"".join(struct.pack("<8I", *it) for it in headers) + note
    return front.ljust(PAGES, b"\0") + page


def with_field(place: int, field: int, value: int) -> bytes:
    """One whose program header at a place has another field."""
    headers = [list(it) for it in HEADERS]
    headers[place][field] = value
    return core_of([tuple(it) for it in headers])


BROKEN = {
    "no file": b"",
    "a class": core_of(HEADERS, HEADER[:4] + b"\2" + HEADER[5:]),
    "a type": core_of(HEADERS, HEADER[:16] + b"\2" + HEADER[17:]),
    "an entry": core_of(HEADERS, HEADER[:24] + b"\1" + HEADER[25:]),
    "too many headers": core_of(HEADERS, HEADER[:44] + b"\xff\xff" + HEADER[46:]),
    "a physical address": with_field(1, 3, 0x10000),
    "notes elsewhere": with_field(0, 1, NOTES + 4),
    "notes of another size": with_field(0, 4, 223),
    "a note of another type": core_of(HEADERS, note=NOTE[:8] + b"\2" + NOTE[9:]),
    "a note with a signal": core_of(HEADERS, note=NOTE[:20] + b"\1" + NOTE[21:]),
    "a load elsewhere": with_field(1, 1, PAGES + 4096),
    "a load of half a page": with_field(1, 5, 6144),
    "a load that is too short": with_field(1, 5, 0),
    "permissions that are none": with_field(1, 6, 8),
    "a load below the one before": with_field(2, 2, 0x11000),
    "two loads that are one": with_field(2, 6, 5),
    "a blank page at the end of a load": core_of(HEADERS, page=bytes(4096)),
    "bytes after the pages": core_of(HEADERS) + b"\0",
    "bytes between notes and pages": core_of(HEADERS, note=NOTE + b"\1"),
    "a page that is cut": core_of(HEADERS)[:-1],
}


@rows(BROKEN, "refuse")
class Broken(unittest.TestCase):
    """Files of which a part is wrong."""

    def refuse(self, core: bytes) -> None:
        """It is refused."""
        with self.assertRaises(core_file.Broken):
            core_file.lines_of(core)

    def test_one_that_is_whole(self) -> None:
        """Its thread and its registers, its loads, and the digest of its three pages, of which two are zeros."""
        pages = ((0x10, 5, PAGE), (0x11, 5, bytes(4096)), (0x12, 6, bytes(4096)))
        text = b"".join(struct.pack("<IB", number, permissions) + page for number, permissions, page in pages)
        lines = core_file.lines_of(core_of(HEADERS), with_loads=True)
        self.assertEqual(lines[:2], ["thread 7 pc 00010054", "  x0 00000000 x1 00000001 x2 00000002 x3 00000003"])
        self.assertEqual(lines[8], "  x28 0000001c x29 0000001d x30 0000001e x31 0000001f")
        self.assertEqual(lines[9:], ["load 00010000 00012000 5 filled 4096", "load 00012000 00013000 6 filled 0",
                                     f"pages 3 digest {hashlib.sha256(text).hexdigest()}"])
        self.assertEqual(core_file.headers_of(core_of(HEADERS)), HEADERS)
