"""Small programs that several cases run, as words and as ELF files. What each does stands above it."""
import dataclasses
import pathlib

from rrv_tools import elf
from rrv_tools.program import GUESTS
from rrv_tools.riscv import (
    A0, A1, A2, A3, ECALL, S0, S1, S2, S3, SP, X5, X6, X7, X28, X29, ZERO, add, addi, andi, beq, bge, call,
    counted_down, li, lui, lw, or_, sb, srli, sw,
)  # fmt: skip

# The numbers of calls, as Linux has them.
READ, WRITE, EXIT, EXIT_GROUP, FUTEX, CLONE, RANDOM, CLOCK = 63, 64, 93, 94, 98, 220, 278, 403


def exits(status: int) -> list[int]:
    """The words that exit with a status from 0 to 2,047."""
    return [addi(A0, ZERO, status), *call(EXIT)]


def writes(descriptor: int, buffer: int, count: int) -> list[int]:
    """The words that write bytes, from 0 to 2,047 of them, which a register has the address of."""
    return [addi(A0, ZERO, descriptor), addi(A1, buffer, 0), addi(A2, ZERO, count), *call(WRITE)]


# It exits with 5.
EXIT_FIVE = elf.executable(exits(5))
# It jumps to itself: `j .`.
SPIN = elf.executable([0x0000006F])
# Its only thread waits at the file's first word, as long as that is 464C457F, which it stays.
WAITS = elf.executable([lui(A0, 0x10), lui(A2, 0x464C4), addi(A2, A2, 0x57F), *call(FUTEX)])


# ---- guests of version 2, which wait for a time

# A timeout of 5,000,000 nanoseconds at the stack pointer, which is 64 lower then. The word 32 above it is 0.
WITH_TIMEOUT = [addi(SP, SP, -64), lui(X5, 0x4C5), addi(X5, X5, -1216), sw(X5, SP, 8)]
WAIT = [addi(A0, SP, 32), addi(A1, ZERO, 0), addi(A2, ZERO, 0), addi(A3, SP, 0), *call(FUTEX)]
WAIT_WITHOUT = [addi(A0, SP, 32), addi(A1, ZERO, 0), addi(A2, ZERO, 0), addi(A3, ZERO, 0), *call(FUTEX)]
WAKE_ONE = [addi(A0, SP, 32), addi(A1, ZERO, 1), addi(A2, ZERO, 1), *call(FUTEX)]
MAKE_THREAD = [lui(A0, 0x11), addi(A0, A0, -256), addi(A1, ZERO, 0), *call(CLONE)]

# It waits for a time, and exits with the low byte of what it finds in a0.
ONE_WAIT = [*WITH_TIMEOUT, *WAIT, *call(EXIT)]
# It waits without a timeout.
WITHOUT_TIMEOUT = [*WITH_TIMEOUT, *WAIT_WITHOUT, *call(EXIT)]
# It waits for a time, stores what it finds 36 above the stack pointer, waits once more, and exits with what it finds.
TWO_WAITS = [*WITH_TIMEOUT, *WAIT, sw(A0, SP, 36), addi(A0, SP, 32), ECALL, *call(EXIT)]


def with_child(parent: list[int], child: list[int]) -> list[int]:
    """A guest that makes a thread, which does one thing, and does another itself."""
    return [*WITH_TIMEOUT, *MAKE_THREAD, beq(A0, ZERO, 4 * len(parent) + 4), *parent, *child]


# The first thread waits for a time and leaves; the second one waits without a timeout.
ONE_OF_TWO = with_child([*WAIT, *call(EXIT)], [*WAIT_WITHOUT, *call(EXIT)])
# The second thread waits for a time, until the first one wakes it; then each leaves with what it finds.
WOKEN = with_child([*WAKE_ONE, *call(EXIT)], [*WAIT, *call(EXIT)])
# The second thread waits for a time; the first one ends the guest.
LEFT = with_child([addi(A0, ZERO, 7), *call(EXIT_GROUP)], [*WAIT, *call(EXIT)])
# It makes threads until no more are made; then each of them waits for a time.
AS_MANY_AS_LIVE = [
    *WITH_TIMEOUT, *MAKE_THREAD, beq(A0, ZERO, 8), bge(A0, ZERO, -4 * len(MAKE_THREAD) - 4), *WAIT, *call(EXIT),
]  # fmt: skip


def timed_wait(buffer: int, word: int, timeout: int) -> list[int]:
    """The words of a wait at a word of zeros, with a timeout; they stand at these distances from the address that a
    register has."""
    return [addi(A0, buffer, word), addi(A1, ZERO, 0), addi(A2, ZERO, 0), addi(A3, buffer, timeout), *call(FUTEX)]


# ---- guests that print

# The registers of a Printer: where it prints to, what counts its loops, and what it prints.
PLACE, BLOCKS, REST, BUFFER, COUNT, WRITES, HALF, TURNS, DIGIT = X5, X6, X7, S0, S1, S2, S3, X28, X29


@dataclasses.dataclass(frozen=True)
class Printer:
    """A guest that prints a count, `blocks` times eight hexadecimal digits at a write, to descriptors 1 and 2 in turn.

    Each digit is a byte with this high half, from 8 to 15, the lowest digit first; so several guests' are told apart
    in whatever order they come. Between the writes it counts `spins` down. With a clock, some nanoseconds are added to
    the count before each write. With a nap, it waits for this many nanoseconds after each write, at a word that nobody
    wakes. It exits with the high half.
    """

    half: int
    writes: int
    blocks: int
    spins: int
    has_clock: bool = False
    nap: int = 0

    def _fill(self) -> list[int]:
        """Puts the digits of the next counts into the buffer."""
        digit = [andi(DIGIT, REST, 15), or_(DIGIT, DIGIT, HALF), sb(DIGIT, PLACE, 0), addi(PLACE, PLACE, 1)]
        digit.append(srli(REST, REST, 4))
        block = [addi(COUNT, COUNT, 1), addi(REST, COUNT, 0), addi(TURNS, ZERO, 8), *counted_down(TURNS, digit)]
        return [addi(PLACE, BUFFER, 0), *li(BLOCKS, self.blocks), *counted_down(BLOCKS, block)]

    def _clock(self) -> list[int]:
        """Adds the low four bits of the monotonic clock's nanoseconds, which come below the stack pointer."""
        call_it = [addi(A0, ZERO, 1), addi(A1, SP, -16), *call(CLOCK)]
        return [*call_it, lw(DIGIT, SP, -8), andi(DIGIT, DIGIT, 15), add(COUNT, COUNT, DIGIT)] if self.has_clock else []

    def words(self) -> list[int]:
        """Its instructions."""
        spin = [*li(TURNS, self.spins), *counted_down(TURNS, [])]
        write = [andi(A0, WRITES, 1), addi(A0, A0, 1), addi(A1, BUFFER, 0), *li(A2, 8 * self.blocks), *call(WRITE)]
        start = [*li(WRITES, self.writes), addi(HALF, ZERO, self.half << 4)]
        start += [*li(BUFFER, -8 * self.blocks - 16), add(BUFFER, BUFFER, SP)]
        # The timeout below the buffer: its seconds are 0, and their low half is the word at which it waits.
        start += [*li(TURNS, self.nap), sw(TURNS, BUFFER, -8)] if self.nap else []
        sleep = timed_wait(BUFFER, -16, -16) if self.nap else []
        turn = [*self._clock(), *self._fill(), *spin, *write, *sleep]
        return [*start, *counted_down(WRITES, turn), *exits(self.half)]

    def elf(self) -> bytes:
        """Its file."""
        return elf.executable(self.words())

    def of(self, text: bytes) -> bytes:
        """What is this guest's of a text of several."""
        return bytes(it for it in text if it >> 4 == self.half)

    def whole(self) -> tuple[bytes, bytes] | None:
        """All that it prints, by descriptor; None if that is not known."""
        return None if self.has_clock else (self.printed(1), self.printed(2))

    def printed(self, descriptor: int) -> bytes:
        """All that it prints to a descriptor, if it has no clock."""
        text = bytearray()
        for at in range(self.writes):
            if (self.writes - at & 1) + 1 == descriptor:
                for count in range(at * self.blocks + 1, (at + 1) * self.blocks + 1):
                    text += bytes(self.half << 4 | count >> 4 * it & 15 for it in range(8))
        return bytes(text)

    def length(self) -> int:
        """How many bytes it prints."""
        return 8 * self.blocks * self.writes

    def growth(self) -> int:
        """About how many bytes a store gets by its calls. What it printed leaves before it sleeps, so there are more
        segments then."""
        return (120 if self.nap else 40) * self.writes

    def instructions(self) -> int:
        """About how many it runs."""
        return self.writes * (60 * self.blocks + 2 * self.spins)

    def end(self) -> str:
        """How `verify` prints its end."""
        return f"end exited {self.half}"


@dataclasses.dataclass(frozen=True)
class Threads:
    """A guest of tools/guests with threads, by its name. It prints letters and digits to descriptor 1, which are not
    known."""

    name: str

    def elf(self) -> bytes:
        """Its file."""
        return file_of(self.name)

    def of(self, text: bytes) -> bytes:
        """What is this guest's of a text of several."""
        return bytes(it for it in text if it < 0x80)

    def whole(self) -> None:
        """All that it prints is not known."""

    def length(self) -> int:
        """It isn't waited for what it prints."""
        return 0

    def growth(self) -> int:
        """Its calls are few."""
        return 0

    def instructions(self) -> int:
        """About how many it runs."""
        return 400_000

    def end(self) -> str:
        """How `verify` prints its end, up to its status."""
        return "end exited "


# Those of tools/guests that are recorded, some more often than once. A race goes the same way each time.
RECORDED = ("primes", "every_instruction", "breakpoint", "lock", "race", "race", "race",
            *(f"changing_{it}" for it in (1, 14, 18, 20, 33, 43, 55, 59)))


def path_of(name: str, suffix: str = "elf") -> pathlib.Path:
    """The path of a guest of tools/guests; with a suffix `out` or `records` of what it prints and of its records."""
    return GUESTS / f"{name}.{suffix}"


def file_of(name: str) -> bytes:
    """The file of a guest of tools/guests."""
    return path_of(name).read_bytes()
