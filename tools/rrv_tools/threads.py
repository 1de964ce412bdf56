"""A restatement of a guest's rules (docs/GUEST.md) that shares nothing with rrv: its instructions, its threads and its
calls. It covers guests that commit no fault; of one that would, Python stops."""
import dataclasses
import struct
from collections.abc import Callable, Sequence

from rrv_tools import elf
from rrv_tools.riscv import A0, MASK, SP, TP

# A slice has this many instructions, if nobody chooses.
QUANTUM = 50_000
PAGE_SIZE, PAGE_BITS = 4096, 12
STACK_PAGES, STACK_TOP = range(0x7FF00, 0x80000), 0x7FFFFFF0
# The flags that a clone has to have, and those that it may have.
BASIC, ALLOWED = 0x10F00, 0x17D0F00
SET_TLS, PARENT_SET, CHILD_SET, CHILD_CLEAR = 0x80000, 0x100000, 0x1000000, 0x200000
WRITE, EXIT, FUTEX, EXIT_GROUP, YIELD, MUNMAP, CLONE, MMAP, FUTEX_64 = 64, 93, 98, 94, 124, 215, 220, 222, 422
EAGAIN, EFAULT, EINVAL, ENOSYS, ETIMEDOUT = (-it & MASK for it in (11, 14, 22, 38, 110))
# Which threads may run goes in, and a thread with its quantum comes out.
Choose = Callable[[list[int]], tuple[int, int]]


def signed(word: int) -> int:
    """A word as a signed number."""
    return word - (1 << 32) if word >> 31 else word


def field(word: int, low: int, count: int) -> int:
    """Some bits of a word, from this one on."""
    return word >> low & (1 << count) - 1


def extended(value: int, bits: int) -> int:
    """A number of this many bits, extended by its sign."""
    return value - (1 << bits) if value >> bits - 1 else value


def branch_offset(word: int) -> int:
    """The offset of a branch."""
    bits = field(word, 31, 1) << 12 | field(word, 7, 1) << 11 | field(word, 25, 6) << 5 | field(word, 8, 4) << 1
    return extended(bits, 13)


def jump_offset(word: int) -> int:
    """The offset of a JAL."""
    bits = field(word, 31, 1) << 20 | field(word, 12, 8) << 12 | field(word, 20, 1) << 11 | field(word, 21, 10) << 1
    return extended(bits, 21)


def divided(funct3: int, a: int, b: int) -> int:
    """What DIV, DIVU, REM and REMU give."""
    x, y = (a, b) if funct3 & 1 else (signed(a), signed(b))
    if y == 0:
        return a if funct3 & 2 else MASK
    quotient = abs(x) // abs(y) * (1 if (x < 0) == (y < 0) else -1)
    return (x - quotient * y if funct3 & 2 else quotient) & MASK


def multiplied(funct3: int, a: int, b: int) -> int:
    """What MUL, MULH, MULHSU and MULHU give."""
    x = a if funct3 == 3 else signed(a)
    y = b if funct3 >= 2 else signed(b)
    return x * y >> (32 if funct3 else 0) & MASK


def computed(funct3: int, a: int, b: int, is_other: bool) -> int:
    """What OP and OP-IMM give; `is_other` is the funct7 0100000."""
    match funct3:
        case 0:
            return (a - b if is_other else a + b) & MASK
        case 1:
            return a << (b & 31) & MASK
        case 2:
            return int(signed(a) < signed(b))
        case 3:
            return int(a < b)
        case 4:
            return a ^ b
        case 5:
            return (signed(a) if is_other else a) >> (b & 31) & MASK
    return a | b if funct3 == 6 else a & b


def of_registers(word: int, a: int, b: int) -> int:
    """What an instruction between registers gives."""
    funct3, funct7 = field(word, 12, 3), word >> 25
    if funct7 == 1:
        return (divided if funct3 >= 4 else multiplied)(funct3, a, b)
    return computed(funct3, a, b, funct7 == 0x20)


def is_taken(funct3: int, a: int, b: int) -> bool:
    """Whether a branch jumps."""
    holds = (a == b, a == b, False, False, signed(a) < signed(b), signed(a) < signed(b), a < b, a < b)[funct3]
    return holds != bool(funct3 & 1)


def swapped(funct5: int, old: int, b: int) -> int:
    """What an atomic instruction stores."""
    least, greatest = (old, b) if signed(old) < signed(b) else (b, old)
    results = {0: old + b & MASK, 1: b, 4: old ^ b, 8: old | b, 12: old & b, 16: least, 20: greatest}
    return {**results, 24: min(old, b), 28: max(old, b)}[funct5]


@dataclasses.dataclass
class Thread:
    """A thread: x0 to x31, the address that its end clears, and of a wait the address and the timeout."""

    pc: int
    x: list[int]
    clear: int = 0
    waits: int | None = None
    timeout: tuple[int, int] | None = None


class Guest:
    """A guest that commits no fault."""

    def __init__(self, file: bytes, name: bytes, version: int = 1) -> None:
        self.version, self.output = version, b""
        self.pages: dict[int, bytearray] = {}
        self.waiting: list[int] = []
        self.reservation: int | None = None
        self.ended: int | None = None
        self.next_tid = 2
        for it in elf.loads(file):
            for page in range(it.address >> PAGE_BITS, (it.address + it.memory_size + PAGE_SIZE - 1) >> PAGE_BITS):
                self.pages.setdefault(page, bytearray(PAGE_SIZE))
            self.put(it.address, file[it.offset: it.offset + it.file_size])
        self.threads = {1: Thread(elf.header(file).entry, self.first_registers(file, name))}

    def first_registers(self, file: bytes, name: bytes) -> list[int]:
        """Lays out the stack as docs/GUEST.md has it, and returns the registers of the first thread."""
        for page in STACK_PAGES:
            self.pages[page] = bytearray(PAGE_SIZE)
        name_at = STACK_TOP - len(name) - 1
        self.put(name_at, name)
        x = [0] * 32
        x[SP] = (name_at - 72) & ~15
        head = elf.header(file)
        auxiliary = [3, 0x10034, 4, 32, 5, head.program_header_count, 6, PAGE_SIZE, 9, head.entry, 25, STACK_TOP, 0, 0]
        self.put(x[SP], struct.pack("<18I", 1, name_at, 0, 0, *auxiliary))
        return x

    # ---- memory

    def put(self, address: int, data: bytes) -> None:
        """Stores bytes."""
        for place, byte in enumerate(data, address):
            self.pages[place >> PAGE_BITS][place & PAGE_SIZE - 1] = byte

    def get(self, address: int, count: int) -> bytes:
        """Loads bytes."""
        return bytes(self.pages[it >> PAGE_BITS][it & PAGE_SIZE - 1] for it in range(address, address + count))

    def word(self, address: int) -> int:
        """Loads a word."""
        return int.from_bytes(self.get(address, 4), "little")

    def is_there(self, address: int, count: int) -> bool:
        """Whether bytes are mapped."""
        return all(it >> PAGE_BITS in self.pages for it in range(address, address + count))

    # ---- instructions

    def step(self, t: Thread) -> bool:
        """Runs one instruction, and returns whether it is a call."""
        word = self.word(t.pc)
        opcode, rd, next_pc = word & 127, field(word, 7, 5), t.pc + 4
        value, to = self.moved(t, word) if opcode in (0x63, 0x67, 0x6F) else (self.value(t, word), next_pc)
        if value is not None and rd:
            t.x[rd] = value & MASK
        t.pc = to & MASK
        return word == 0x73

    def moved(self, t: Thread, word: int) -> tuple[int | None, int]:
        """What a jump or a branch puts into its register, and where it leads."""
        opcode, funct3 = word & 127, field(word, 12, 3)
        a, b = t.x[field(word, 15, 5)], t.x[field(word, 20, 5)]
        if opcode == 0x6F:
            return t.pc + 4, t.pc + jump_offset(word)
        if opcode == 0x67:
            return t.pc + 4, a + extended(word >> 20, 12) & ~1
        return None, t.pc + (branch_offset(word) if is_taken(funct3, a, b) else 4)

    def value(self, t: Thread, word: int) -> int | None:
        """What another instruction puts into its register, and stores."""
        opcode, funct3 = word & 127, field(word, 12, 3)
        a, b, immediate = t.x[field(word, 15, 5)], t.x[field(word, 20, 5)], extended(word >> 20, 12)
        match opcode:
            case 0x37:
                return word & ~4095
            case 0x17:
                return t.pc + (word & ~4095)
            case 0x03:
                data = int.from_bytes(self.get(a + immediate & MASK, 1 << (funct3 & 3)), "little")
                return data if funct3 & 4 else extended(data, 8 << funct3)
            case 0x23:
                offset = extended(word >> 25 << 5 | field(word, 7, 5), 12)
                self.put(a + offset & MASK, struct.pack("<I", b)[: 1 << funct3])
            case 0x13:
                return computed(funct3, a, immediate & MASK, funct3 == 5 and word >> 25 == 0x20)
            case 0x33:
                return of_registers(word, a, b)
            case 0x2F:
                return self.atomic(word >> 27, a, b)
            case _:
                assert opcode == 0x0F or word == 0x73, f"{word:08x} at {t.pc:08x}"
        return None

    def atomic(self, funct5: int, address: int, b: int) -> int:
        """What an atomic instruction puts into its register, and stores."""
        if funct5 == 2:
            self.reservation = address
            return self.word(address)
        if funct5 == 3:
            is_reserved, self.reservation = self.reservation == address, None
            if is_reserved:
                self.put(address, struct.pack("<I", b))
            return int(not is_reserved)
        old = self.word(address)
        self.put(address, struct.pack("<I", swapped(funct5, old, b)))
        return old

    # ---- waits

    def resume(self, tid: int) -> None:
        """A thread waits no more."""
        self.threads[tid].waits = self.threads[tid].timeout = None
        self.waiting.remove(tid)

    def wake(self, address: int, count: int) -> int:
        """Wakes threads at a word, at most this many, and returns their number."""
        woken = [tid for tid in self.waiting if self.threads[tid].waits == address][:count]
        for tid in woken:
            self.resume(tid)
        return len(woken)

    def expire(self, tid: int) -> str:
        """The time of a wait is over; returns the line of the frame."""
        assert self.threads[tid].timeout
        self.resume(tid)
        self.threads[tid].x[A0], self.reservation = ETIMEDOUT, None
        return f"expire tid={tid} result={ETIMEDOUT:08x}"

    def wait(self, tid: int, address: int, expected: int, at: int) -> int:
        """A wait at a word, with a timeout at an address, 0 for none."""
        timeout = None
        if at and self.version == 1:
            return ENOSYS
        if at:
            if not self.is_there(at, 16):
                return EFAULT
            timeout = struct.unpack("<QQ", self.get(at, 16))
            if timeout[0] >= 1 << 63 or timeout[1] >= 10**9:
                return EINVAL
        if not self.is_there(address, 4):
            return EFAULT
        if self.word(address) != expected:
            return EAGAIN
        self.threads[tid].waits, self.threads[tid].timeout = address, (timeout[0], timeout[1]) if timeout else None
        self.waiting.append(tid)
        return 0

    # ---- calls

    def call(self, tid: int) -> tuple[int, int]:
        """Makes a thread's call; returns its result and how many bytes it wrote."""
        t = self.threads[tid]
        a, number = t.x[10:16], t.x[17]
        if number == EXIT:
            return 0, self.exit(tid)
        if number == EXIT_GROUP:
            self.ended = a[0] & 255
            return 0, 0
        result, written = self.clone(t, a) if number == CLONE else (self.result(tid, number, a), 0)
        t.x[A0] = result
        return result, written

    def exit(self, tid: int) -> int:
        """A thread's end; returns how many bytes it wrote."""
        t = self.threads.pop(tid)
        if t.clear:
            self.put(t.clear, bytes(4))
            self.wake(t.clear, 1)
        if not self.threads:
            self.ended = t.x[A0] & 255
        return 4 if t.clear else 0

    def result(self, tid: int, number: int, a: Sequence[int]) -> int:
        """The result of a call that writes nothing."""
        match number:
            case 64:
                assert a[0] == 1
                self.output += self.get(a[1], a[2])
                return a[2]
            case 124:
                return 0
            case 215:
                for page in range(a[0] >> PAGE_BITS, (a[0] + a[1] + PAGE_SIZE - 1) >> PAGE_BITS):
                    self.pages.pop(page, None)
                return 0
            case 222:
                return self.map(a[1])
            case 98 | 422 if a[1] & ~128 == 0:
                return self.wait(tid, a[0], a[2], a[3])
        assert number in (FUTEX, FUTEX_64) and a[1] & ~128 == 1, number
        return self.wake(a[0], a[2])

    def map(self, length: int) -> int:
        """Maps pages of zeros at the highest place, and returns its address."""
        count = (length + PAGE_SIZE - 1) >> PAGE_BITS
        free = (it for it in range(0x70000 - count, 0, -1) if not any(it + page in self.pages for page in range(count)))
        first = next(free)
        for page in range(first, first + count):
            self.pages[page] = bytearray(PAGE_SIZE)
        return first << PAGE_BITS

    def clone(self, t: Thread, a: Sequence[int]) -> tuple[int, int]:
        """Makes a thread; returns the result and how many bytes it wrote."""
        assert a[0] & BASIC == BASIC and not a[0] & ~ALLOWED
        if len(self.threads) == (16 if self.version == 1 else 64):
            return EAGAIN, 0
        result, self.next_tid, written = self.next_tid, self.next_tid + 1, 0
        for flag, address in ((PARENT_SET, a[2]), (CHILD_SET, a[4])):
            if a[0] & flag:
                self.put(address, struct.pack("<I", result))
                written += 4
        child = Thread(t.pc, t.x.copy(), a[4] if a[0] & CHILD_CLEAR else 0)
        child.x[A0], child.x[SP] = 0, a[1] or t.x[SP]
        if a[0] & SET_TLS:
            child.x[TP] = a[3]
        self.threads[result] = child
        return result, written

    # ---- slices

    def slice(self, tid: int, quantum: int) -> tuple[str, int]:
        """Runs a slice; returns the line of its frame, and how many instructions it has."""
        t = self.threads[tid]
        for count in range(1, quantum + 1):
            if self.step(t):
                result, written = self.call(tid)
                line = f"call tid={tid} count={count} result={result:08x} written={written}"
                break
        else:
            line = f"preempt tid={tid} count={count}"
        self.reservation = None
        return line, count

    def run(self, choose: Choose) -> tuple[list[str], int]:
        """Runs slices to the end; returns the frames' lines, and how many instructions there are."""
        lines: list[str] = []
        total = 0
        while self.ended is None:
            runnable = [tid for tid, t in sorted(self.threads.items()) if t.waits is None]
            line, count = self.slice(*choose(runnable))
            lines.append(f"{len(lines) + 1} {line}")
            total += count
        return lines, total


def round_robin(quantum: int = QUANTUM) -> Choose:
    """Each runnable thread in turn, by rising tid."""
    last = 0

    def chosen(runnable: list[int]) -> tuple[int, int]:
        nonlocal last
        last = next((tid for tid in runnable if tid > last), runnable[0])
        return last, quantum

    return chosen
