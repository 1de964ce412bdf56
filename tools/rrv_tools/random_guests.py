"""Guests that are drawn.

Each has 2 to 4 threads that compute, load and store, branch, loop, change words by LR, SC and other atomics, and make
calls: to yield, wait, wake, read, write, map pages and get random bytes. Most end by an exit, some by a fault, and some
when all threads wait. None waits for a time.
"""
import itertools
import random
from collections.abc import Callable, Iterable

from rrv_tools import elf, riscv
from rrv_tools.elf import EXECUTE, PAGE, READ, START, WRITE, Segment
from rrv_tools.guests import CLONE, EXIT, EXIT_GROUP, FUTEX, RANDOM
from rrv_tools.guests import READ as READ_CALL
from rrv_tools.guests import WRITE as WRITE_CALL
from rrv_tools.riscv import A0, A1, A2, A7, EBREAK, RA, S0, S1, S2, SP, ZERO, addi, beq, bne, call, jal, li, lw

YIELD, TID, BREAK, UNMAP, MAP, PROTECT, NO_CALL = 124, 178, 214, 215, 222, 226, 1000
# VM, FS, FILES, SIGHAND, THREAD, SYSVSEM, SETTLS, PARENT_SETTID and CHILD_CLEARTID
SHARE = 0x7D0F00
# The middle of the data page, and the counters of the outer and the inner loop. The other registers hold what comes,
# and a call without arguments keeps all of them but two.
MIDDLE, OUTER, INNER = S0, S1, S2
FREE = sorted(set(range(1, 32)) - {SP, MIDDLE, OUTER, INNER})
KEPT = sorted(set(FREE) - {A0, A7})
COMPUTED = (
    riscv.add, riscv.sll, riscv.slt, riscv.sltu, riscv.xor, riscv.srl, riscv.or_, riscv.and_, riscv.mul, riscv.mulh,
    riscv.mulhsu, riscv.mulhu, riscv.div, riscv.divu, riscv.rem, riscv.remu, riscv.sub, riscv.sra,
)  # fmt: skip
IMMEDIATE = riscv.addi, riscv.slti, riscv.sltiu, riscv.xori, riscv.ori, riscv.andi
SHIFTS, UPPER = (riscv.slli, riscv.srli, riscv.srai), (riscv.lui, riscv.auipc)
LOADS, STORES = (riscv.lb, riscv.lh, riscv.lw, riscv.lbu, riscv.lhu), (riscv.sb, riscv.sh, riscv.sw)
BRANCHES = riscv.beq, riscv.bne, riscv.blt, riscv.bge, riscv.bltu, riscv.bgeu
# The codes of atomics, and the words that threads wait at, by their distance from the middle of the data page.
ATOMICS, WORDS = (0, 1, 4, 8, 12, 16, 20, 24, 28), (-8, 0, 8)
# A FENCE of nothing.
NO_FENCE = 0x0F
Words = list[int]


def looped(register: int, count: int, body: Words) -> Words:
    """A body that runs this many times."""
    assert len(body) < 1000
    return [addi(register, ZERO, count), *riscv.counted_down(register, body)]


class Guest:
    """A guest that is drawn: `words` are its code, `data` is where its data starts."""

    def __init__(self, draw: random.Random) -> None:
        self.draw, self.data, self.pages = draw, START + 0x10000 * draw.randint(1, 5), draw.randint(2, 6)
        self.scratch = self.data + 0x10000
        faults, waits = draw.random() < 0.15, draw.random() < 0.25
        shares: list[tuple[int, Callable[[], Words]]] = [
            (6, self.computed), (4, self.moved), (2, self.swapped), (2, self.reserved), (3, self.called),
            (1, self.mapped), (int(faults), self.fault), (int(waits), self.wait),
        ]  # fmt: skip
        self.makes = [make for share, make in shares for _ in range(share)]
        self.words = li(MIDDLE, self.data + PAGE // 2)
        children = range(1, draw.randint(1, 3) + 1)
        for child in children:
            self.words += self.blocks(1) + self.clone(child)
        self.words += self.blocks(3) + self.end(children)

    def free(self) -> int:
        """A register that holds what comes."""
        return self.draw.choice(FREE)

    def target(self) -> int:
        """One that may be zero."""
        return self.draw.choice([ZERO, *FREE])

    def one(self) -> int:
        """A register that is read."""
        return self.draw.choice([ZERO, *FREE, *FREE, MIDDLE, OUTER, INNER, SP])

    # Items

    def computed(self) -> Words:
        """A computation."""
        draw, to = self.draw, self.target()
        between, shift = draw.choice(COMPUTED), draw.choice(SHIFTS)
        return [draw.choice([
            between(to, self.one(), self.one()),
            draw.choice(IMMEDIATE)(to, self.one(), draw.randrange(PAGE)),
            shift(to, self.one(), draw.randrange(32)),
            self.upper(to),
        ])]

    def upper(self, to: int) -> int:
        """An LUI or AUIPC."""
        number = self.draw.getrandbits(20)
        return self.draw.choice(UPPER)(to, number)

    def moved(self) -> Words:
        """A load or a store in the data page, and for its last bytes in the next, or below the stack pointer."""
        draw = self.draw
        base, offset = draw.choice([(MIDDLE, draw.randrange(-2048, 2048)), (SP, draw.randrange(-256, -3))])
        load = draw.choice(LOADS)(self.target(), base, offset)
        return [draw.choice([load, draw.choice(STORES)(self.one(), base, offset)])]

    def near(self, register: int, step: int = 1) -> Words:
        """An address of the data page."""
        other = step * self.draw.randrange(-2048 // step, 2048 // step)
        return [addi(register, MIDDLE, self.draw.choice([*WORDS, other]))]

    def swapped(self) -> Words:
        """An atomic."""
        place, draw = self.free(), self.draw
        address, code = self.near(place, 4), draw.choice(ATOMICS)
        return [*address, riscv.atomic(code, self.free(), place, self.one(), draw.randrange(4))]

    def reserved(self) -> Words:
        """An LR and its SC: until it succeeds, or once with something between them."""
        place, value, done = self.draw.sample(KEPT, 3)
        begin, end = [*self.near(place, 4), riscv.lr_w(value, place)], riscv.sc_w(done, value, place)
        if self.draw.random() < 0.5:
            return [*begin, addi(value, value, 1), end, bne(done, ZERO, -12)]
        between = self.draw.choice([[addi(value, value, 3)], call(YIELD), self.near(place, 4), [NO_FENCE] * 20])
        return [*begin, *between, end]

    def buffer(self, register: int) -> Words:
        """A place of the data page, or of the pages that are mapped and unmapped."""
        is_near = self.draw.random() < 0.7
        return self.near(register) if is_near else li(register, self.scratch + self.draw.randrange(4 * PAGE))

    def called(self) -> Words:
        """A call."""
        draw = self.draw
        return draw.choice([
            call(YIELD),
            call(draw.choice([TID, NO_CALL])),
            call(WRITE_CALL, draw.choice([1, 1, 2, 3]), self.buffer(A1), draw.randrange(10)),
            call(READ_CALL, draw.choice([0, 0, 0, 1]), self.buffer(A1), draw.randrange(20)),
            call(RANDOM, self.buffer(A0), draw.randrange(40), draw.choice([0, 0, 0, 8])),
            call(FUTEX, [addi(A0, MIDDLE, draw.choice(WORDS))], draw.choice([1, 129]), draw.randrange(4)),
        ])

    def mapped(self) -> Words:
        """A call that changes pages."""
        draw = self.draw
        place, size, allowed = self.scratch + PAGE * draw.randrange(4), draw.randint(1, 3 * PAGE), draw.randrange(8)
        return draw.choice([
            call(MAP, place, size, allowed, 0x32), call(MAP, place, size, 3, 0x32), call(MAP, 0, size, allowed, 0x22),
            call(PROTECT, place, size, allowed), call(UNMAP, place, size),
            call(BREAK, self.data + PAGE * draw.randint(2, 12) - draw.randrange(9)),
        ])

    def wait(self) -> Words:
        """A wait at a word as long as that has the value that it has."""
        place = [addi(A0, MIDDLE, self.draw.choice(WORDS))]
        return call(FUTEX, place, self.draw.choice([0, 128]), [lw(A2, A0, 0)], 0)

    def fault(self) -> Words:
        """Words of which one in eight faults, by the low bits of some register."""
        place, kind = self.free(), self.draw.randrange(7)
        faulting = [
            [EBREAK], [self.draw.choice([0, riscv.MASK])], [lw(place, ZERO, 8)], [riscv.sw(place, ZERO, 8)],
            [addi(place, MIDDLE, 2), riscv.lr_w(place, place)], [riscv.jalr(RA, MIDDLE, 2)],
            [riscv.jalr(RA, MIDDLE, 4)],
        ][kind]  # fmt: skip
        return [riscv.andi(place, self.free(), 7), bne(place, ZERO, 4 * len(faulting) + 4), *faulting]

    # Parts

    def item(self) -> Words:
        """One of these, which is perhaps jumped over."""
        draw, made = self.draw, self.draw.choice(self.makes)()
        over = 4 * len(made) + 4
        skipping = [draw.choice(BRANCHES)(self.one(), self.one(), over), jal(self.target(), over)]
        return [skipping[draw.random() < 0.1], *made] if draw.random() < 0.25 else made

    def items(self, most: int) -> Words:
        """Some of them."""
        return list(itertools.chain(*(self.item() for _ in range(self.draw.randint(1, most)))))

    def blocks(self, most: int) -> Words:
        """Loops, some with a loop in them."""
        draw, made = self.draw, []
        for _ in range(draw.randint(1, most)):
            inner = looped(INNER, draw.randint(1, 30), self.items(12)) if draw.random() < 0.6 else []
            made += looped(OUTER, draw.randint(1, 12), self.items(8) + inner + self.items(4))
        return made

    def word_of(self, child: int) -> int:
        """The address of the word that the end of a thread clears."""
        return self.data + PAGE + 64 + 4 * child

    def clone(self, child: int) -> Words:
        """Starts a thread, which runs the words after the jump that the other one takes."""
        runs = self.blocks(3) + call(EXIT, self.draw.randrange(256))
        word, stack = self.word_of(child), self.data + PAGE + 1024 * (child + 1)
        made = call(CLONE, SHARE, stack, word, self.draw.getrandbits(32), word)
        return [*made, beq(A0, ZERO, 8), jal(ZERO, 4 * len(runs) + 4), *runs]

    def end(self, children: Iterable[int]) -> Words:
        """Ends the first thread: after the others or before, alone or for all; or by a wait."""
        made = []
        for child in children if self.draw.random() < 0.5 else []:
            waits = call(FUTEX, li(A0, self.word_of(child)), 0, [lw(A2, A0, 0)], 0)
            over = [*waits[:5], beq(A2, ZERO, 4 * (len(waits) - 5) + 8), *waits[5:]]
            made += [*over, jal(ZERO, -4 * len(over))]
        made += self.wait() if self.draw.random() < 0.15 else []
        return made + call(self.draw.choice([EXIT, EXIT_GROUP]), self.draw.randrange(300))

    def elf(self) -> bytes:
        """The file: its code, its data, and some more, each with bytes and perhaps with zeros after those."""
        draw, end = self.draw, self.data + self.pages * PAGE
        assert elf.headers_size(3) + 4 * len(self.words) < self.data - START
        filled, more = draw.randrange(self.pages * PAGE), draw.randrange(2 * PAGE)
        permissions = draw.choice([READ | EXECUTE, READ | EXECUTE, READ | WRITE | EXECUTE])
        size, others = more + draw.choice([0, 3 * PAGE]), draw.randrange(8)
        data = Segment(self.data, draw.randbytes(filled), READ | WRITE, self.pages * PAGE)
        return elf.executable(self.words, data, Segment(end, draw.randbytes(more), others, size),
                              permissions=permissions)
