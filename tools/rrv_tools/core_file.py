"""Reads a core file: its threads with their registers, and its pages (docs/FORMATS.md, "Core files"; System V ABI,
class ELF32).

usage: tools/run core_file [--loads] CORE

prints the lines of the state, but for what no core file has: `thread TID pc PC`, eight lines of registers, and `pages
N digest HEX`. The digest is SHA-256 over all pages by rising number: each as its number in four bytes, its permissions
in one (X 1, W 2, R 4) and its 4,096 bytes. With --loads the loads come too, before the pages: `load FIRST END FLAGS
filled BYTES`.

It ends with 1 if the file is not as a core file of rrv has to be: a header field has another value, a part reaches
past the end, lies over another or out of order, adjacent loads have the same flags, or a note is no NT_PRSTATUS of 204
bytes.
"""
import dataclasses
import hashlib
import pathlib
import struct
import sys
from collections.abc import Iterator, Sequence

from rrv_tools import elf
from rrv_tools.elf import PAGE, ProgramHeader

NOTE_SIZE, STATUS_SIZE, STATUS_TYPE = 224, 204, 1
NOTE_HEAD = struct.pack("<III", 5, STATUS_SIZE, STATUS_TYPE) + b"CORE\0\0\0\0"


class Broken(ValueError):
    """A file is not as a core file of rrv has to be."""


def need(holds: object, what: str) -> None:
    """Refuses a file in which something doesn't hold."""
    if not holds:
        raise Broken(what)


@dataclasses.dataclass(frozen=True)
class Thread:
    """A thread: x0 to x31."""

    tid: int
    pc: int
    registers: tuple[int, ...]

    def lines(self) -> list[str]:
        """Its lines."""
        rows = (range(first, first + 4) for first in range(0, 32, 4))
        registers = (" " + "".join(f" x{it} {self.registers[it]:08x}" for it in row) for row in rows)
        return [f"thread {self.tid} pc {self.pc:08x}", *registers]


def headers_of(core: bytes) -> list[ProgramHeader]:
    """The program headers, the notes' first; a file whose headers are others than a core file's is Broken."""
    need(len(core) >= elf.HEADER_SIZE and core[:16] == elf.IDENTIFICATION, "no ELF32 file, little-endian")
    head = elf.header(core)
    kinds = (head.kind, head.machine, head.version, head.entry, head.section_headers, head.flags)
    need(kinds == (elf.CORE, elf.RISCV, 1, 0, 0, 0), "no core file of RISC-V")
    tables = (head.program_headers, head.size, head.program_header_size)
    need(tables == (elf.HEADER_SIZE, elf.HEADER_SIZE, elf.PROGRAM_HEADER_SIZE), "the tables stand elsewhere")
    need((head.section_header_size, head.section_header_count, head.names) == (0, 0, 0), "the tables stand elsewhere")
    count = head.program_header_count
    need(count >= 1 and elf.headers_size(count) <= len(core), "the program headers reach past the end")
    found = elf.program_headers(core)
    need(all(it.physical == 0 for it in found), "a physical address is given")
    return found


def threads_of(core: bytes, header: ProgramHeader, end_of_headers: int) -> Iterator[Thread]:
    """The threads of the notes, in their order."""
    wanted = ProgramHeader(elf.NOTE, end_of_headers, 0, 0, header.file_size, 0, 0, 4)
    need(header == wanted, "no notes after the headers")
    need(header.file_size % NOTE_SIZE == 0 and header.offset + header.file_size <= len(core), "the notes are cut")
    for at in range(header.offset, header.offset + header.file_size, NOTE_SIZE):
        need(core[at: at + len(NOTE_HEAD)] == NOTE_HEAD, "a note is no prstatus")
        status = core[at + len(NOTE_HEAD): at + NOTE_SIZE]
        need(not any(status[:24] + status[28:72] + status[200:]), "a prstatus has more than registers")
        (tid,), (pc, *registers) = struct.unpack_from("<I", status, 24), struct.unpack_from("<32I", status, 72)
        yield Thread(tid, pc, (0, *registers))


def pages_of(core: bytes, header: ProgramHeader, at: int) -> bytes:
    """The pages of a load, whose bytes stand at this place of the file."""
    is_here = (header.kind, header.offset, header.alignment) == (elf.LOAD, at, PAGE)
    need(is_here and header.permissions <= 7, "a load stands elsewhere")
    sizes = header.file_size, header.memory_size
    is_whole = header.memory_size and not (header.address | sizes[0] | sizes[1]) % PAGE and sizes[0] <= sizes[1]
    need(is_whole and at + header.file_size <= len(core), "a load's sizes are wrong")
    filled = core[at: at + header.file_size]
    need(not filled or any(filled[-PAGE:]), "a blank page ends what a load has in the file")
    return filled.ljust(header.memory_size, b"\0")


def page_lines(core: bytes, loads: Sequence[ProgramHeader], at: int, with_loads: bool) -> list[str]:
    """The lines of the pages of the loads, whose first bytes stand after this place."""
    digest, count, before, lines = hashlib.sha256(), 0, (0, -1), []
    need(not any(core[at: at + -at % PAGE]), "bytes stand between the notes and the pages")
    at += -at % PAGE
    for it in loads:
        is_next = before[0] <= it.address and before != (it.address, it.permissions)
        need(is_next, "the loads are out of order, or two of them one")
        pages = pages_of(core, it, at)
        for place in range(0, it.memory_size, PAGE):
            digest.update(struct.pack("<IB", (it.address + place) // PAGE, it.permissions) + pages[place: place + PAGE])
        end = it.address + it.memory_size
        lines += [f"load {it.address:08x} {end:08x} {it.permissions} filled {it.file_size}"] * with_loads
        count, at, before = count + it.memory_size // PAGE, at + it.file_size, (end, it.permissions)
    need(at == len(core), "the file goes on after its pages")
    return [*lines, f"pages {count} digest {digest.hexdigest()}"]


def lines_of(core: bytes, with_loads: bool = False) -> list[str]:
    """The lines of a core file, by Broken if it is none of rrv's."""
    notes, *loads = headers_of(core)
    threads = [line for it in threads_of(core, notes, elf.headers_size(1 + len(loads))) for line in it.lines()]
    return [*threads, *page_lines(core, loads, notes.offset + notes.file_size, with_loads)]


def main(words: Sequence[str]) -> int | None:
    """Prints the lines of the core file that the last word names."""
    with_loads = list(words[:1]) == ["--loads"]
    if len(words) != 1 + with_loads:
        return None
    try:
        print("\n".join(lines_of(pathlib.Path(words[-1]).read_bytes(), with_loads)))
    except Broken as broken:
        print(f"core_file: {broken}", file=sys.stderr)
        return 1
    return 0
