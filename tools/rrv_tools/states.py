"""Guests of the restatement (threads.py) whose states are printed, by docs/FORMATS.md alone ("Printed lines"), and of
which it is known what their calls write. None of them maps pages or moves the break."""
import hashlib
import struct

from rrv_tools import elf, threads
from rrv_tools.elf import PAGE, READ, WRITE
from rrv_tools.riscv import MASK

RANDOM_AT = threads.STACK_TOP
# The random bytes that a guest begins with, if it is the first that is recorded at once, by the seed of zeros.
RANDOM_OF_ZEROS = hashlib.sha256(bytes(16) + struct.pack("<2I", 0, MASK)).digest()[:16]


class Guest(threads.Guest):
    """A guest whose pages have permissions, by the flags of ELF segments."""

    def __init__(self, file: bytes, name: bytes, version: int = 1, random: bytes = bytes(16)) -> None:
        # The digest of the pages, if none has changed since; and what is stored, until a call begins anew.
        self.digested: str | None = None
        self.ranges: list[tuple[int, bytes]] = []
        super().__init__(file, name, version)
        self.put(RANDOM_AT, random)
        self.permissions, self.end_of_data = dict.fromkeys(threads.STACK_PAGES, READ | WRITE), 0
        for it in elf.loads(file):
            end = it.address + it.memory_size + PAGE - 1 & -PAGE
            # A page that may be written may be read.
            flags = it.permissions | (READ if it.permissions & WRITE else 0)
            for page in range(it.address // PAGE, end // PAGE):
                self.permissions[page] = self.permissions.get(page, 0) | flags
            self.end_of_data = max(self.end_of_data, end)

    def put(self, address: int, data: bytes) -> None:
        super().put(address, data)
        self.digested = None
        self.ranges.append((address, bytes(data)))

    def step(self, t: threads.Thread) -> bool:
        self.ranges.clear()
        return super().step(t)

    def runnable(self) -> list[int]:
        """The tids of the threads that run, in rising order."""
        return [tid for tid, t in sorted(self.threads.items()) if t.waits is None]

    def digest(self) -> str:
        """SHA-256 over all pages."""
        if self.digested is None:
            digest = hashlib.sha256()
            for number, page in sorted(self.pages.items()):
                digest.update(struct.pack("<IB", number, self.permissions[number]) + page)
            self.digested = digest.hexdigest()
        return self.digested

    def lines(self) -> list[str]:
        """The lines of its state but for the first, which has the place."""
        end = "none" if self.ended is None else f"exited {self.ended}"
        reservation = "none" if self.reservation is None else f"{self.reservation:08x}"
        lines = [f"end {end}", f"break {self.end_of_data:08x}", f"reservation {reservation}"]
        for tid, t in sorted(self.threads.items()):
            wait = "running" if t.waits is None else f"waiting {t.waits:08x}{' timed' * bool(t.timeout)}"
            rows = (range(first, first + 4) for first in range(0, 32, 4))
            registers = ("  " + " ".join(f"x{it} {t.x[it]:08x}" for it in row) for row in rows)
            lines += [f"thread {tid} {wait} pc {t.pc:08x} clear {t.clear:08x}", *registers]
        return [*lines, f"pages {len(self.pages)} digest {self.digest()}"]
