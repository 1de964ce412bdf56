"""Guests that are measured, in words, and how many instructions they have."""
import struct
from typing import NamedTuple

from rrv_tools import elf
from rrv_tools.guests import CLOCK, EXIT, exits, writes
from rrv_tools.riscv import A0, A1, S0, S1, SP, X5, X6, ZERO, add, addi, call, counted_down, li, lui, sb, sw

MILLION, YIELD, REAL = 1_000_000, 124, 0
# Where zeros stand that a guest writes over.
ZEROS = 0x100000
# The address of the byte that `stores_byte` stores: 16 below the stack pointer of a guest with a name of two bytes.
BYTE = "7FFFFF90"
# What `tells_time` writes: seconds and nanoseconds.
TIME = struct.Struct("<QQ")


class Counted(NamedTuple):
    """A guest's file, and how many instructions it has up to its end."""

    file: bytes
    instructions: int


def file_of(words: list[int], zeros: int = 0) -> bytes:
    """A program of these words, with so many bytes of zeros."""
    segments = [elf.Segment(ZEROS, permissions=elf.READ | elf.WRITE, size=zeros)] if zeros else []
    return elf.executable(words, *segments, alignment=elf.PAGE)


def _countdown(instructions: int) -> tuple[list[int], int]:
    """Words that count down for about so many instructions, and how many these are."""
    number = max(1, instructions // 2 // 4096)
    return [lui(X5, number), *counted_down(X5, [])], 1 + 2 * number * 4096


def counts_down(millions: int) -> Counted:
    """It counts down for about so many million instructions, and exits."""
    words, count = _countdown(millions * MILLION)
    return Counted(file_of([*words, *call(EXIT)]), count + 2)


def stores_byte(millions: int) -> tuple[bytes, int, int]:
    """It counts down, stores a byte, counts down once more and exits: its file, how many instructions that are, about
    so many millions, and how many come before it stores the byte."""
    words, half = _countdown(millions * MILLION // 2)
    file = file_of([*words, addi(X6, ZERO, 1), sb(X6, SP, -16), *words, *call(EXIT)])
    return file, 2 * half + 4, half + 1


def yields(calls: int) -> bytes:
    """It makes so many calls of sched_yield, each a record, and exits."""
    return file_of([*li(X5, calls), *counted_down(X5, call(YIELD)), *exits(0)])


def computes(turns: int) -> Counted:
    """It counts so many down, and exits."""
    ends = exits(0)
    return Counted(file_of([*li(X5, turns), *counted_down(X5, []), *ends]), 2 + 2 * turns + len(ends))


def stores_words(size: int, apart: int, rounds: int) -> Counted:
    """It stores a word each so many bytes of this many, so many times round."""
    places, ends = size // apart, exits(0)
    inner = counted_down(X6, [sw(S0, X5, 0), add(X5, X5, S1)])
    begins, sets = [*li(X5, ZEROS), *li(X6, places)], [*li(S0, rounds), *li(S1, apart)]
    count = len(sets) + rounds * (len(begins) + places * len(inner) + 2) + len(ends)
    return Counted(file_of([*sets, *counted_down(S0, [*begins, *inner]), *ends], size), count)


def tells_time(times: int, apart: int) -> bytes:
    """It asks for the time and writes it, so many times, and counts down for so many instructions between two."""
    told = [addi(A0, ZERO, REAL), addi(A1, S1, 0), *call(CLOCK), *writes(1, S1, TIME.size)]
    if apart:
        told += [*li(X5, apart // 2), *counted_down(X5, [])]
    return file_of([*li(S0, times), addi(S1, SP, -64), *counted_down(S0, told), *exits(0)])


def has_memory(size: int) -> bytes:
    """It has so many bytes of zeros, and exits."""
    return file_of(call(EXIT), size)
