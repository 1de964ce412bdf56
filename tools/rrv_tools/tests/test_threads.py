"""The restatement of a guest's rules, beside what qemu-riscv32 printed of the guests of tools/guests, and beside their
records; and its instructions, beside the rows of crates/machine_cases, of which qemu-riscv32 and the manual are the
source."""
import re
import unittest

from rrv_tools import elf, guests, threads
from rrv_tools.program import ROOT
from rrv_tools.riscv import ECALL
from rrv_tools.testing import rows

ROW = re.compile(r"word (0x[0-9A-F]{8})((?: \w+=\w+)*) gives((?: [\w-]+=[\w-]+)*)(?: #.*)?")
CODE, DATA, RD = 0x10000, 0x11000, 12


def rows_of_instructions() -> dict[str, tuple[int, dict[str, int], dict[str, str]]]:
    """The rows of instructions that neither fault nor call, at CODE and at DATA: the word, what it takes, and what it
    gives."""
    lines = (ROOT / "crates" / "machine_cases" / "stdin").read_text(encoding="utf-8").splitlines()
    found = {}
    for number, it in enumerate(map(ROW.fullmatch, lines), 1):
        if it:
            given = {key: value for key, value in (pair.split("=") for pair in it[2].split())}
            gives = dict(pair.split("=") for pair in it[3].split())
            is_plain = set(given) <= {"a0", "a1", "a2", "data", "reserved"} and "none" not in given.values()
            if is_plain and "end" not in gives:
                found[f"{number} {it[1]}"] = int(it[1], 16), {key: int(value, 0) for key, value in given.items()}, gives
    return found


@rows(rows_of_instructions(), "run_row")
class Instructions(unittest.TestCase):
    """Each row."""

    def run_row(self, row: tuple[int, dict[str, int], dict[str, str]]) -> None:
        """An instruction at CODE leaves the registers, the word at DATA, the pc and the reservation that the row
        has."""
        word, given, gives = row
        code = elf.Segment(CODE, word.to_bytes(4, "little"), 7, 8192)
        guest = threads.Guest(elf.file_of([code], CODE), b"a")
        guest.put(DATA, given.get("data", 0).to_bytes(4, "little"))
        thread = guest.threads[1]
        thread.x[10:13] = (given.get(it, 0) for it in ("a0", "a1", "a2"))
        guest.reservation = given.get("reserved")
        guest.step(thread)
        found = {"pc": thread.pc, "data": guest.word(DATA), **{f"a{it}": thread.x[10 + it] for it in range(3)}}
        for key, value in gives.items():
            if key == "reserved":
                self.assertEqual(guest.reservation, None if value == "none" else int(value, 0))
            elif key in found:
                self.assertEqual(f"{key}={found[key]:08x}", f"{key}={int(value, 0):08x}")

    def test_there_are_many(self) -> None:
        """The rows have been found."""
        self.assertGreater(len(rows_of_instructions()), 250)


@rows({it: it for it in ("primes", "lock", "race")}, "run_guest")
class Guests(unittest.TestCase):
    """Guests of tools/guests."""

    seconds = 20

    def run_guest(self, name: str) -> None:
        """It prints what it printed under qemu-riscv32, and has the records that stand beside it."""
        file = guests.file_of(name)
        guest = threads.Guest(file, b"g0")
        lines, total = guest.run(threads.round_robin())
        end = f"ok records={len(lines) + 1} instructions={total} end exited {guest.ended}"
        records = [f"0 opening name=g0 elf={len(file)}", *lines, end]
        self.assertEqual(guest.output, guests.path_of(name, "out").read_bytes())
        self.assertEqual(records, guests.path_of(name, "records").read_text(encoding="utf-8").splitlines())


class Waits(unittest.TestCase):
    """Waits for a time, as docs/GUEST.md has them."""

    def guest(self, words: list[int], version: int = 2) -> threads.Guest:
        """A guest of these words."""
        return threads.Guest(elf.executable(words), b"a", version)

    def test_a_wait_expires(self) -> None:
        """It is woken by nobody, finds ETIMEDOUT in a0, -110, and exits with the low byte of that, 146."""
        guest = self.guest(guests.ONE_WAIT)
        self.assertEqual(guest.slice(1, 64), ("call tid=1 count=10 result=00000000 written=0", 10))
        self.assertEqual(guest.threads[1].timeout, (0, 5_000_000))
        self.assertEqual(guest.expire(1), "expire tid=1 result=ffffff92")
        guest.slice(1, 64)
        self.assertEqual(guest.ended, 146)

    def test_version_1_has_no_such_wait(self) -> None:
        """The call returns ENOSYS, -38, and the guest exits with 218."""
        guest = self.guest(guests.ONE_WAIT, 1)
        lines, _ = guest.run(threads.round_robin())
        self.assertEqual((lines[0], guest.ended), ("1 call tid=1 count=10 result=ffffffda written=0", 218))

    def test_as_many_threads_as_live(self) -> None:
        """Sixteen in version 1, and sixty-four in version 2."""
        for version, live in ((1, 16), (2, 64)):
            guest = self.guest(guests.AS_MANY_AS_LIVE, version)
            while guest.slice(1, 64)[0].split()[3] != "result=fffffff5":
                pass
            self.assertEqual(len(guest.threads), live)

    def test_what_is_no_guest(self) -> None:
        """A word of no instruction stops it, and so does a call that it doesn't know."""
        for words in ([0xFFFFFFFF], [ECALL]):
            with self.assertRaises(AssertionError):
                self.guest(words).slice(1, 1)
