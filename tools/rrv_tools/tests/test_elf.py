"""ELF files beside the bytes that crates/machine_cases/stdin has of one, which are those of the System V ABI, and
beside a compiler's."""
import dataclasses
import struct
import unittest

from rrv_tools import elf, guests
from rrv_tools.program import GUESTS, ROOT


def bytes_of_rows() -> bytes:
    """The file that the rows after `file` make: of bytes, and of words."""
    text = (ROOT / "crates" / "machine_cases" / "stdin").read_text(encoding="utf-8")
    found = b""
    for line in text.partition("\nfile\n")[2].partition("\nimage")[0].splitlines():
        kind, *values = line.partition("#")[0].split()
        numbers = [int(it, 0) for it in values]
        found += bytes(numbers) if kind == "bytes" else struct.pack(f"<{len(numbers)}I", *numbers)
    return found


class Files(unittest.TestCase):
    """Files that are written and read."""

    def test_a_program(self) -> None:
        """It has the bytes of the rows, and their alignment."""
        self.assertEqual(elf.executable(guests.exits(5), alignment=0x1000), bytes_of_rows())

    def test_headers(self) -> None:
        """The rows' fields, by their places in the row."""
        file = bytes_of_rows()
        self.assertEqual(elf.header(file), (2, 243, 1, 0x10054, 52, 0, 0, 52, 32, 1, 0, 0, 0))
        self.assertEqual(elf.program_headers(file), [(1, 0, 0x10000, 0x10000, 96, 96, 5, 0x1000)])

    def test_what_a_compiler_made(self) -> None:
        """The two loads of race.elf: its code with the headers at 0x10000, and data after it."""
        code, data = elf.loads((GUESTS / "race.elf").read_bytes())
        self.assertEqual((code.offset, code.address, code.permissions), (0, 0x10000, elf.READ | elf.EXECUTE))
        self.assertEqual(data.permissions, elf.READ | elf.WRITE)
        self.assertGreater(data.address, code.address + code.memory_size)

    def test_segments(self) -> None:
        """Bytes stand one after another; what has none stands nowhere; with pages as alignment each begins at one."""
        zeros, data = elf.Segment(0x20000, size=100, permissions=6), elf.Segment(0x30000, b"data", 6, 8)
        for alignment, offset in ((4, 52 + 3 * 32 + 4), (4096, 4096)):
            file = elf.executable([0x73], zeros, data, alignment=alignment)
            head, *others = elf.program_headers(file)
            self.assertEqual((head.file_size, head.memory_size), (152, 152))
            wanted = [(0, 0x20000, 0x20000, 0, 100, 6), (offset, 0x30000, 0x30000, 4, 8, 6)]
            self.assertEqual([it[1:7] for it in others], wanted)
            self.assertEqual((file[148:152], file[offset:]), (b"\x73\0\0\0", b"data"))

    def test_without_headers_in_memory(self) -> None:
        """A segment that hasn't the headers begins after them in the file."""
        segment = elf.Segment(0x10000, b"code", 5)
        self.assertEqual(elf.program_headers(elf.file_of([segment], 0x10000))[0][:5], (1, 84, 0x10000, 0x10000, 4))
        with_headers = elf.file_of([dataclasses.replace(segment, has_headers=True)], 0x10054)
        self.assertEqual(elf.program_headers(with_headers)[0][:5], (1, 0, 0x10000, 0x10000, 88))
