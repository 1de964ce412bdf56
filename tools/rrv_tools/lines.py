"""Lines that are run one after another in one folder, with what is wanted of each, and the files that stand there.

A line is a case, whose name has its words; run alone, it comes after those before it that change something.
"""
import pathlib
import re
import shlex
import struct
from collections.abc import Callable, Sequence
from typing import ClassVar, NamedTuple, TypeVar

from rrv_tools import elf
from rrv_tools.elf import changed
from rrv_tools.guests import EXIT, EXIT_FIVE, READ, SPIN, WAITS, exits, path_of
from rrv_tools.riscv import A0, A1, A2, ZERO, addi, call, lui, sb, sw
from rrv_tools.testing import Case, Text, add_rows, bad_text

# The usages of commands.
USAGES = {
    "record": "record [OPTIONS] <STORE> <ELF>...",
    "list": "list [OPTIONS] <STORE>",
    "elf": "elf <STORE> <GUEST>",
    "copy": "copy <STORE> <GUEST> <TO>",
    "dump": "dump [OPTIONS] <STORE> <GUEST>",
    "verify": "verify [OPTIONS] <STORE> <GUEST>",
    "replay": "replay [OPTIONS] <STORE> <GUEST>",
    "back": "back [OPTIONS] <STORE> <GUEST> <FROM> <N>",
    "last": "last [OPTIONS] <STORE> <GUEST> <FROM> <ADDR>",
    "core": "core [OPTIONS] <STORE> <GUEST> <AT> <FILE>",
    "ask": "ask [OPTIONS] <STORE> <GUEST>",
    "help": "help [COMMAND]",
}
# Commands that leave something behind.
CHANGING = ("new", "record", "copy", "core", "ask")
Class = TypeVar("Class", bound="type[Lines]")


class Line(NamedTuple):
    """A line, as a shell takes it, its end, and what it reads. A pattern may stand for its errors."""

    words: str
    status: int
    out: Text = ""
    err: Text | re.Pattern[str] = ""
    stdin: bytes = b""


def done(words: str, out: Text = "", err: Text | re.Pattern[str] = "", stdin: bytes = b"") -> Line:
    """A line that is done."""
    return Line(words, 0, out, err, stdin)


def refused(words: str, why: str, stdin: bytes = b"") -> Line:
    """A line that is refused."""
    return Line(words, 1, "", f"rrv: {why}\n", stdin)


def bad(words: str, message: str, usage: str = "") -> Line:
    """A line that is none, with the usage of its command, or another."""
    return Line(words, 2, "", bad_text(message, usage or USAGES.get(words.split()[0], "<COMMAND>")))


def missing(words: str, value: str, usage: str) -> Line:
    """A line that lacks a value."""
    return bad(words, f"the following required arguments were not provided:\n  <{value}>", usage)


def ungiven(words: str, option: str) -> Line:
    """A line that ends with an option that needs a value."""
    text = f"error: a value is required for '{option}' but none was supplied\n\nFor more information, try '--help'.\n"
    return Line(words, 2, "", text)


# ---- programs, and files that are none

# It reads up to nine bytes of its input to its own start, and exits with their number.
READS = elf.executable([lui(A1, 0x10), addi(A2, ZERO, 9), *call(READ), *call(EXIT)], permissions=7)
# It writes to its own start, where the word is 464C457F, asks for a page more, and exits.
SAVES = [sw(A2, A1, 0), sb(A2, A1, 1), sw(A2, A1, 0), sw(A2, A1, 0), sb(A2, A1, 3)]
WRITES = elf.executable(
    [lui(A1, 0x10), addi(A2, ZERO, 0x123), *SAVES, lui(A0, 0x12), *call(214), *exits(0)], permissions=7)


def five(places: dict[int, bytes]) -> bytes:
    """The program that exits with five, with other bytes at some places."""
    data = EXIT_FIVE
    for place, other in places.items():
        data = changed(data, place, other)
    return data


# Files that are no programs, and why: the fields of the headers are those of the System V ABI, and the numbers of
# machines those of its registry.
NO_PROGRAMS = {
    "cut": (EXIT_FIVE[:51], "shorter than an ELF header (refusal 1): is it whole?"),
    "script": (b"#!/bin/sh\n" * 6, "no ELF file (refusal 2): name the file that the linker wrote"),
    "x86_64": (five({4: b"\2", 18: b"\x3e"}), "for another machine (refusal 3): 64 bits, x86-64"),
    "rv64": (five({4: b"\2"}), "for another machine (refusal 3): 64 bits, RISC-V"),
    "powerpc": (five({5: b"\2", 18: b"\0\x14"}), "for another machine (refusal 4): 32 bits, high byte first, PowerPC"),
    "object": (five({16: b"\1"}), "not of type EXEC (refusal 5): an object file; link it"),
    "pie": (five({16: b"\3"}), "not of type EXEC (refusal 5): a position-independent file; link with -static -no-pie"),
    "arm": (five({18: b"\x28"}), "for another machine (refusal 6): 32 bits, ARM"),
    "strange": (five({18: b"\xff\x7f"}), "for another machine (refusal 6): 32 bits, machine 32767"),
    "compressed": (five({36: b"\1"}), "may have compressed instructions (refusal 7): build with -march=rv32ima"),
    "table": (five({42: b"\x21"}), "its table of program headers is wrong (refusal 8): is it whole?"),
    "dynamic": (five({52: b"\3"}), "asks for an interpreter (refusal 9): link with -static"),
    "outside": (five({68: b"\x61"}), "a segment lies outside the file (refusal 10): is it whole?"),
    "crossed": (five({72: b"\x5f"}), "a segment has more bytes in the file than in memory (refusal 11)"),
    "low": (five({60: bytes(4)}),
            "a segment is not within 0x1000 to 0x6fffffff (refusal 12): link with -Wl,-Ttext-segment=0x10000"),
    "shared": (five({28: b"\x60", 44: b"\2"}) + 2 * EXIT_FIVE[52:84], "two segments share a byte (refusal 13)"),
    "wide": (five({72: struct.pack("<I", 4096 * 16129)}),
             "its segments touch more than 16128 pages (refusal 14): take less static memory"),
    "empty": (five({68: b"\0", 72: b"\0"}), "no segment is loaded (refusal 15)"),
    "large": (EXIT_FIVE.ljust(2097153, b"\0"), "longer than 2097152 bytes: strip --strip-debug"),
}
# The files of each class's folder: programs, some of choices, and five bytes of input.
FILES = {
    "exit_five": EXIT_FIVE, "waits": WAITS, "reads": READS, "spins": SPIN, "writes": WRITES, "five": b"12345",
    "turns": b"# all of it\n\n\t1   64 # and its end\r\n", "unfit": b"2 64\n1 64", "small": b"1 64\n\n1 63\n",
    "signed": b"+1 64\n", "more": b"1 64 1\n", **{name: data for name, (data, _) in NO_PROGRAMS.items()},
    **{f"{it}.elf": path_of(it).read_bytes() for it in ("primes", "breakpoint")},
}  # fmt: skip


# ---- cases


class Lines(Case):
    """Lines in one folder. `before` are run first, to make what the others look at."""

    shares_folder = True
    before: ClassVar[Sequence[str]] = ()
    lines: ClassVar[Sequence[Line]] = ()
    # How many of the lines were run.
    run_lines: ClassVar[int] = 0

    @classmethod
    def setUpClass(cls) -> None:
        super().setUpClass()
        write_files(FILES)
        for it in cls.before:
            cls.program.run_well(*it.split())

    def take(self, place: int) -> None:
        """Runs a line, after those before it that change something and weren't run yet."""
        self.run_until(place)
        type(self).run_lines = place + 1
        words, status, out, err, stdin = self.lines[place]
        pattern = err if isinstance(err, re.Pattern) else None
        ran = self.need_line(*shlex.split(words), status=status, out=out, stdin=stdin,
                             err=None if isinstance(err, re.Pattern) else err)
        if pattern and not pattern.fullmatch(ran.err.decode()):
            self.need("errors, by a pattern", pattern.pattern, ran.err)

    def run_until(self, place: int) -> None:
        """Runs the lines up to a place that change something and weren't run yet."""
        for it in self.lines[self.run_lines: place]:
            if it.words.startswith(CHANGING):
                self.run_line(*shlex.split(it.words), stdin=it.stdin)


def write_files(files: dict[str, bytes]) -> None:
    """Writes files into this folder."""
    for name, data in files.items():
        pathlib.Path(name).write_bytes(data)


def in_order(*lines: Line) -> Callable[[Class], Class]:
    """A class decorator: gives a class a case for each of these lines."""
    def decorate(to: Class) -> Class:
        to.lines = lines
        words = (re.sub(r"[^!-}]+", " ", it.words)[:72] for it in lines)
        add_rows(to, ((f"{place:03} {it or 'no words'}", place) for place, it in enumerate(words)), Lines.take)
        return to

    return decorate
