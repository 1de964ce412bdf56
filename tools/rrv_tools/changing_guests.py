"""A restatement of guests whose code changes while they run: that of states.py, with faults, a read, and the calls that
change pages. Each word is decoded where it stands, when its turn comes."""
import signal
import struct
from collections.abc import Container

from rrv_tools import states
from rrv_tools.elf import EXECUTE, PAGE, READ, WRITE
from rrv_tools.threads import MMAP, MUNMAP, Thread

# The numbers of calls, and the flags of a mapping at a given place.
READ_CALL, MPROTECT = 63, 226
PRIVATE, FIXED, ANONYMOUS = 2, 0x10, 0x20
# The kinds of faults, and the signals by which qemu-riscv32 ends a process then.
BAD_INSTRUCTION, BREAKPOINT, FETCH, LOAD, STORE = 1, 2, 5, 6, 7
SIGNALS = {BAD_INSTRUCTION: signal.SIGILL, BREAKPOINT: signal.SIGTRAP,
           FETCH: signal.SIGSEGV, LOAD: signal.SIGSEGV, STORE: signal.SIGSEGV}
OPCODES = {0x37, 0x17, 0x6F, 0x67, 0x63, 0x03, 0x23, 0x13, 0x33, 0x2F, 0x0F, 0x73}
EBREAK, ATOMIC, LOAD_RESERVED = 0x00100073, 0x2F, 2


class Fault(Exception):
    """A fault, with its kind."""

    def __init__(self, kind: int) -> None:
        super().__init__(kind)
        self.kind = kind


def flags_of(allowed: int) -> int:
    """The permissions of mmap and mprotect, by the flags of ELF segments. A page that may be written may be read."""
    return (READ if allowed & 3 else 0) | (WRITE if allowed & 2 else 0) | (EXECUTE if allowed & 4 else 0)


class Guest(states.Guest):
    """A guest that may end with a fault; `ended` is the number of its signal then, negative. It reads what is given.
    `at` counts instructions, and `states` gets the lines of its state at places."""

    def __init__(self, file: bytes, name: bytes = b"g0", given: bytes = b"", places: Container[int] = ()) -> None:
        self.given, self.places, self.at = given, places, 0
        self.states: dict[int, list[str]] = {}
        self.fault: int | None = None
        # The instruction of a step, until that has asked for it; and whether the guest runs, since its opening needs
        # no permissions.
        self.fetched: int | None = None
        self.is_open = False
        super().__init__(file, name, random=states.RANDOM_OF_ZEROS)
        self.is_open = True

    def need(self, permission: int, address: int, count: int, kind: int) -> None:
        """Raises a fault of this kind if a byte lies in a page without the permission."""
        for page in range(address // PAGE, (address + count - 1) // PAGE + 1) if self.is_open else ():
            if not self.permissions.get(page, 0) & permission:
                raise Fault(kind)

    def get(self, address: int, count: int) -> bytes:
        self.need(READ, address, count, LOAD)
        return super().get(address, count)

    def put(self, address: int, data: bytes) -> None:
        self.need(WRITE, address, len(data), STORE)
        super().put(address, data)

    def word(self, address: int) -> int:
        if self.fetched is None:
            return super().word(address)
        word, self.fetched = self.fetched, None
        return word

    def fetch(self, t: Thread) -> int:
        """The instruction that a thread runs next, which may be a fault by itself."""
        self.need(EXECUTE, t.pc, 4, FETCH)
        word: int = struct.unpack_from("<I", self.pages[t.pc // PAGE], t.pc % PAGE)[0]
        if word & 127 not in OPCODES:
            raise Fault(BAD_INSTRUCTION)
        if word == EBREAK:
            raise Fault(BREAKPOINT)
        if word & 127 == ATOMIC and word >> 27 != LOAD_RESERVED:
            # An SC and the other atomics need write, whatever they do.
            self.need(WRITE, t.x[word >> 15 & 31], 4, STORE)
        return word

    def step(self, t: Thread) -> bool:
        if self.at in self.places:
            self.states[self.at] = self.lines()
        self.at += 1
        self.fetched = None
        self.fetched = self.fetch(t)
        return super().step(t)

    def change_pages(self, number: int, address: int, size: int, allowed: int) -> int:
        """The result of munmap, mmap or mprotect."""
        self.digested = None
        for page in range(address // PAGE, address // PAGE - (-size // PAGE)):
            if number == MUNMAP:
                self.pages.pop(page, None)
                self.permissions.pop(page, None)
                continue
            if number == MMAP:
                self.pages[page] = bytearray(PAGE)
            assert page in self.pages
            self.permissions[page] = flags_of(allowed)
        return address if number == MMAP else 0

    def read(self, address: int, size: int) -> int:
        """The result of a read."""
        data, self.given = self.given[:size], self.given[size:]
        self.put(address, data)
        return len(data)

    def call(self, tid: int) -> tuple[int, int]:
        t = self.threads[tid]
        a, number = t.x[10:14], t.x[17]
        if number == READ_CALL:
            t.x[10] = self.read(a[1], a[2])
            return t.x[10], t.x[10]
        if number not in (MUNMAP, MMAP, MPROTECT):
            return super().call(tid)
        assert number != MMAP or a[3] == PRIVATE | FIXED | ANONYMOUS
        t.x[10] = self.change_pages(number, *a[:3])
        return t.x[10], 0

    def slice(self, tid: int, quantum: int) -> tuple[str, int]:
        begin = self.at
        try:
            return super().slice(tid, quantum)
        except Fault as fault:
            self.fault, self.ended, self.reservation = fault.kind, -SIGNALS[fault.kind], None
            return f"fault tid={tid} count={self.at - begin} kind={fault.kind}", self.at - begin

    def end(self) -> str:
        """How `verify` prints its end."""
        return f"exited {self.ended}" if self.fault is None else f"faulted {self.fault}"
