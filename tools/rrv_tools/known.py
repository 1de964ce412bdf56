"""Guests of which the output, the records and the states are known, and the texts of refusals. What is known follows
from the guests' instructions and from docs/FORMATS.md."""
import dataclasses

from rrv_tools import elf
from rrv_tools.guests import EXIT_FIVE, exits, writes
from rrv_tools.riscv import A0, A1, EBREAK, SP, addi, li, sw


@dataclasses.dataclass(frozen=True)
class Known:
    """A program, and what its recording prints to standard output and to standard error, if it is recorded alone."""

    file: bytes
    out: bytes
    report: bytes


def prints_hi(descriptor: int) -> bytes:
    """A program that stores `hi` and a newline below the stack pointer by its fourth instruction, writes these three
    bytes by its eighth, and exits with 0 by its eleventh."""
    text = [addi(A1, SP, -16), *li(A0, int.from_bytes(b"hi\n", "little")), sw(A0, A1, 0)]
    write = writes(descriptor, A1, 3)
    # Its buffer is in a1 already.
    return elf.executable([*text, write[0], *write[2:], *exits(0)])


FIVE = Known(EXIT_FIVE, b"", b"g0: end exited 5, records 2\n")
FIVE_LISTED = b"0 g0 records=2 frames=1 instructions=3\n"
FIVE_DUMPED = b"0 opening name=g0 elf=96\n1 call tid=1 count=3 result=00000000 written=0\n"
FIVE_VERIFIED = b"ok records=2 instructions=3 end exited 5\n"

HI = Known(prints_hi(1), b"hi\n", b"g0: end exited 0, records 3\n")
HI_TO_ERRORS = Known(prints_hi(2), b"", b"hi\ng0: end exited 0, records 3\n")
HI_DUMPED = b"""\
0 opening name=g0 elf=128
1 call tid=1 count=8 result=00000003 written=0
2 call tid=1 count=3 result=00000000 written=0
"""
HI_LISTED, HI_VERIFIED = b"0 g0 records=3 frames=2 instructions=11\n", b"ok records=3 instructions=11 end exited 0\n"

# EBREAK, at the entry 0x10054.
BREAKS = Known(
    elf.executable([EBREAK]), b"",
    b"g0: end faulted 2, records 2\nfault breakpoint at 1 thread 1 pc 00010054 word 00100073\n",
)  # fmt: skip

# The digests are those of a script that lays the pages out as the ELF file and the opening state have them: for a file
# of these words and the name `g0`, the file's page, then those of the stack with the 16 random bytes, the name and the
# 18 words. The first is that of the program that exits with 5: it stores nothing. The second is that of the program
# that writes `hi`, before it stores these bytes.
FIVE_DIGEST = "264b47cf315dfe4dd83a8600fba4e21c0a7584e6274d426b4cfe0acbc0a34d52"
HI_DIGEST = "a8a1e2b56b2fabb81c015ea4866289720e09d6f1edd74c5d0d0a9d5540f0a843"
# The state at the end of the program that exits with 5.
EXITED = f"at 3 of 3\nend exited 5\nbreak 00011000\nreservation none\npages 257 digest {FIVE_DIGEST}\n".encode()

NOT_A_STORE, CANNOT_OPEN, DAMAGED = b"rrv: not a store\n", b"rrv: cannot open store\n", b"rrv: damaged segment 0\n"
NO_GUEST, CANNOT_READ = b"rrv: no such guest\n", b"rrv: cannot read file\n"
SAME_STORE, TOO_MANY_GUESTS = b"rrv: same store\n", b"rrv: too many guests\n"
BEFORE_START, PAST_END = b"rrv: before the start\n", b"rrv: past the end\n"
NEEDS_MARK = b"rrv: store needs the mark\n"
