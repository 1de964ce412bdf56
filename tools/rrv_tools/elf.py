"""Writes and reads ELF files of 32 bits, little-endian, of RISC-V (System V ABI, ELF32)."""
import dataclasses
import struct
from collections.abc import Sequence
from typing import NamedTuple

from rrv_tools import riscv

# p_flags
EXECUTE, WRITE, READ = 1, 2, 4
# e_type, e_machine and p_type
EXECUTABLE, CORE, RISCV, LOAD, NOTE = 2, 4, 243, 1, 4
HEADER_SIZE, PROGRAM_HEADER_SIZE, PAGE = 52, 32, 4096
# Class ELF32, little-endian, version 1.
IDENTIFICATION = b"\x7fELF\x01\x01\x01" + bytes(9)
# Where a program that is made here begins, with its file's headers.
START = 0x10000


class Header(NamedTuple):
    """The header's fields after its identification."""

    kind: int
    machine: int
    version: int
    entry: int
    program_headers: int
    section_headers: int
    flags: int
    size: int
    program_header_size: int
    program_header_count: int
    section_header_size: int
    section_header_count: int
    names: int


class ProgramHeader(NamedTuple):
    """A program header: places and sizes in bytes."""

    kind: int
    offset: int
    address: int
    physical: int
    file_size: int
    memory_size: int
    permissions: int
    alignment: int


@dataclasses.dataclass(frozen=True)
class Segment:
    """A LOAD: its bytes in the file, at an address, and its size in memory, which is at least theirs. The file's
    headers stand before the bytes of one that has the headers."""

    address: int
    data: bytes = b""
    permissions: int = READ | EXECUTE
    size: int = 0
    has_headers: bool = False


def headers_size(count: int) -> int:
    """The size in bytes of a file's header and its program headers."""
    return HEADER_SIZE + PROGRAM_HEADER_SIZE * count


def file_of(segments: Sequence[Segment], entry: int, alignment: int = 4) -> bytes:
    """An executable file of segments, the first of which may have the headers. Their bytes stand one after another;
    with an alignment of a page or more those of each begin at a multiple of it."""
    count = len(segments)
    head = Header(EXECUTABLE, RISCV, 1, entry, HEADER_SIZE, 0, 0, HEADER_SIZE, PROGRAM_HEADER_SIZE, count, 0, 0, 0)
    table, body, front = b"", b"", headers_size(count)
    for segment in segments:
        if alignment >= PAGE and segment.data and not segment.has_headers:
            body += bytes(-(front + len(body)) % alignment)
        offset = 0 if segment.has_headers or not segment.data else front + len(body)
        length = len(segment.data) + front * segment.has_headers
        sizes = length, max(length, segment.size)
        place = ProgramHeader(LOAD, offset, segment.address, segment.address, *sizes, segment.permissions, alignment)
        table += struct.pack("<8I", *place)
        body += segment.data
    return IDENTIFICATION + struct.pack("<HHIIIIIHHHHHH", *head) + table + body


def executable(words: Sequence[int], *others: Segment, permissions: int = READ | EXECUTE, alignment: int = 4) -> bytes:
    """A program of these words, of which the first runs first, after its file's headers at START; and of other
    segments."""
    first = Segment(START, riscv.code(words), permissions, has_headers=True)
    return file_of([first, *others], START + headers_size(1 + len(others)), alignment)


def header(file: bytes) -> Header:
    """A file's header."""
    return Header(*struct.unpack_from("<HHIIIIIHHHHHH", file, len(IDENTIFICATION)))


def program_headers(file: bytes) -> list[ProgramHeader]:
    """A file's program headers."""
    found = header(file)
    places = (found.program_headers + PROGRAM_HEADER_SIZE * it for it in range(found.program_header_count))
    return [ProgramHeader(*struct.unpack_from("<8I", file, it)) for it in places]


def loads(file: bytes) -> list[ProgramHeader]:
    """The program headers of what a file has in memory."""
    return [it for it in program_headers(file) if it.kind == LOAD and it.memory_size]


def changed(data: bytes, place: int, other: bytes) -> bytes:
    """Bytes with others at a place."""
    return data[:place] + other + data[place + len(other):]
