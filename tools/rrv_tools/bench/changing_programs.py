"""Random guests whose code changes while they run: `Program` writes one.

Each is a straight line of code that writes functions into pages, calls them, changes them and calls them again.
`Program` keeps what the pages may be used for and where functions stand at each point of it, so that each call finds
its function where it may be run. a0 of each call goes into a sum, and each sum into a log, which is printed at the end.
"""
import dataclasses
import random
from collections.abc import Callable, Sequence

from rrv_tools import elf, riscv, threads
from rrv_tools.changing_guests import ANONYMOUS, FIXED, MPROTECT, PRIVATE, READ_CALL
from rrv_tools.elf import PAGE
from rrv_tools.riscv import (
    A0, A1, A2, A3, A7, EBREAK, ECALL, FENCE, FENCE_I, NOP, RA, RET, S0, S1, S5, S6, S8, X5, X6, X7, X28, X29, X30, X31,
    ZERO, add, addi, amoswap_w, auipc, beq, bne, jal, jalr, lb, lh, li, lr_w, lw, mul, sb, sc_w, sh, slli, sub, sw, xor,
    xori,
)  # fmt: skip

# Permissions, as mmap and mprotect have them.
READ, WRITE, EXECUTE = 1, 2, 4
START = elf.START + elf.headers_size(3)
# Its data: words and logs, and what is copied.
DATA, BLOBS = 0x60000, 0x69000
# Words of the data: whose turn it is, the function to call, whether a function has been entered, the second thread's
# tid, and its log's end.
TURN, TARGET, INSIDE, TID, LOG_END = range(DATA, DATA + 20, 4)
LOGS = DATA + 0x1000, DATA + 0x5000
# Pages that are 4 MiB apart are kept decoded in one slot.
AREAS, AREA_PAGES = (0x20000000, 0x20400000, 0x20801000), 4
# VM, FS, FILES, SIGHAND, THREAD, SYSVSEM, SETTLS, PARENT_SETTID and CHILD_CLEARTID.
THREAD_FLAGS, WAIT, BAD_WORD = 0x3D0F00, 0, 0
# The loads and stores of 1, 2 and 4 bytes.
UNITS = {1: (lb, sb), 2: (lh, sh), 4: (lw, sw)}


def pages_of(address: int, size: int) -> range:
    """The numbers of the pages that have some of these bytes."""
    return range(address // PAGE, -(-(address + size) // PAGE))


@dataclasses.dataclass(eq=False)
class Function:
    """Code at an address. It is called where its pages may be executed, and written if it says so. s5 keeps its a0 and
    s6 its caller's address."""

    address: int
    words: Sequence[int]
    # Whether it writes into its own pages without asking for them; whether it asks, so that they may be read and
    # executed after it; whether it changes what runs next.
    writes: bool = False
    protects: bool = False
    within_block: bool = False
    # Another function that it calls, and the place of a jump back without end.
    calls: "Function | None" = None
    turn_back: int | None = None

    def end(self) -> int:
        """The address after it."""
        return self.address + 4 * len(self.words)

    def pages(self) -> range:
        """The pages that it lies in."""
        return pages_of(self.address, 4 * len(self.words))

    def meets(self, first: int, end: int) -> bool:
        """Whether some of it lies there."""
        return self.address < end and first < self.end()

    def with_callee(self) -> "list[Function]":
        """Itself, and the function that it calls."""
        return [self, self.calls] if self.calls else [self]


class Pages:
    """Code so far, and what its pages may be used for at this point of it."""

    def __init__(self, draw: random.Random, has_threads: bool, is_small: bool) -> None:
        self.draw, self.has_threads, self.is_small = draw, has_threads, is_small
        self.code: list[int] = []
        self.data, self.given = bytearray(4), bytearray()
        self.permissions: dict[int, int] = {}
        self.functions: list[Function] = []
        self.turn, self.within_block, self.yields = 1, False, is_small or draw.random() < 0.7
        self.own = READ | EXECUTE | (WRITE if draw.random() < 0.4 else 0)

    def here(self) -> int:
        """The address of the next word."""
        return START + 4 * len(self.code)

    def emit(self, *words: int) -> None:
        """Adds words."""
        self.code += words

    def call(self, number: int, *arguments: int) -> None:
        """Adds a call of the system."""
        self.emit(*riscv.call(number, *arguments))

    def either(self, *ways: list[int]) -> list[int]:
        """The words of one of some ways."""
        return self.draw.choice(ways)

    def note(self) -> None:
        """a0 goes into the sum, and the sum into the log."""
        self.emit(slli(X5, S0, 5), add(S0, S0, X5), xor(S0, S0, A0), sw(S0, S1, 0), addi(S1, S1, 4))

    def maybe_fence(self) -> None:
        """Adds fences, or none."""
        self.emit(*self.either([], [], [FENCE_I], [FENCE, FENCE_I]))

    def protect(self, pages: Sequence[int], allowed: int) -> None:
        """Changes the permissions of pages."""
        self.call(MPROTECT, pages[0] * PAGE, len(pages) * PAGE, allowed)
        self.note()
        self.permissions.update(dict.fromkeys(pages, allowed))

    def map(self, pages: Sequence[int], allowed: int) -> None:
        """Maps pages of zeros, over what stood there."""
        flags = PRIVATE | FIXED | ANONYMOUS
        self.call(threads.MMAP, pages[0] * PAGE, len(pages) * PAGE, allowed, flags, 0xFFFFFFFF, 0)
        self.note()
        self.permissions.update(dict.fromkeys(pages, allowed))
        self.forget(pages[0] * PAGE, (pages[-1] + 1) * PAGE)

    def unmap(self, pages: Sequence[int]) -> None:
        """Takes pages away."""
        self.call(threads.MUNMAP, pages[0] * PAGE, len(pages) * PAGE)
        self.note()
        for page in pages:
            self.permissions.pop(page, None)
        self.forget(pages[0] * PAGE, (pages[-1] + 1) * PAGE)

    def forget(self, first: int, end: int) -> None:
        """What stood there is no function any more, nor is what calls it."""
        gone = [it for it in self.functions if it.meets(first, end)]
        self.functions = [it for it in self.functions if it not in gone and it.calls not in gone]

    def make_writable(self, pages: Sequence[int]) -> None:
        """Has pages that may be written."""
        for page in pages:
            if page not in self.permissions:
                self.map([page], self.draw.choice([3, 7]))
        # qemu-riscv32 reads no page that may only be written.
        if any(self.permissions[page] & 3 != READ | WRITE for page in pages):
            self.protect(pages, self.draw.choice([3, 7]))

    def make_executable(self, pages: Sequence[int], is_writable: bool = False) -> None:
        """Has pages that may be executed, and written too."""
        needed = READ | WRITE | EXECUTE if is_writable else EXECUTE
        if any(self.permissions[page] & needed != needed for page in pages):
            self.protect(pages, needed if is_writable else self.draw.choice([4, 5, 5, 5, 7]))
        elif not is_writable and self.draw.random() < 0.4:
            self.protect(pages, self.draw.choice([4, 5, 5]))

    def some_pages(self) -> range:
        """Pages of an area."""
        first = self.draw.randrange(AREA_PAGES)
        area = self.draw.choice(AREAS) // PAGE
        return range(area + first, area + self.draw.randint(first + 1, AREA_PAGES))


class Functions(Pages):
    """Makes functions."""

    def some_address(self, count: int) -> int:
        """Where so many words go: often across the end of a page."""
        area = self.draw.choice(AREAS)
        last = AREA_PAGES * PAGE // 4 - count
        end = PAGE // 4 * self.draw.randint(1, AREA_PAGES - 1)
        near = end - self.draw.randint(0, count)
        return area + 4 * min(max(near if self.draw.random() < 0.6 else self.draw.randint(0, last), 0), last)

    def adding(self) -> int:
        """An instruction that adds a number to a0."""
        return addi(A0, A0, self.draw.randint(-2048, 2047))

    def computing(self, count: int) -> list[int]:
        """So many instructions that change a0."""
        number = self.draw.randint(-2048, 2047)
        rows = [self.adding(), xori(A0, A0, number), add(A0, A0, A1), xor(A0, A0, A1)]
        rows += [sub(A0, A0, A1), mul(A0, A0, A1), slli(A0, A0, 1), self.adding()]
        return [self.draw.choice(rows) if self.draw.random() < 0.7 else self.adding() for _ in range(count)]

    def plain(self) -> Function:
        """Computes."""
        words = [*self.computing(self.draw.randint(1, 16)), RET]
        return Function(self.some_address(len(words)), words)

    def long(self) -> Function:
        """Computes for a page or more."""
        words = [*self.computing(self.draw.randint(900, 2300)), RET]
        return Function(self.some_address(len(words)), words)

    def looping(self) -> Function:
        """Computes in a loop."""
        body = self.computing(self.draw.randint(1, 8))
        words = [*li(X28, self.draw.randint(1, 400)), *riscv.counted_down(X28, body), RET]
        return Function(self.some_address(len(words)), words)

    def changing(self, count: int) -> list[int]:
        """Changes the word so many after the first of these: adds 1 to its immediate, or changes some of its bits."""
        way = self.draw.choice([add(X29, X29, X30), xor(X29, X29, X30)])
        mask = li(X30, self.draw.choice([1, 2, 0x81, 0xFFF]) << 20)
        return [auipc(X28, 0), lw(X29, X28, 4 * count), *mask, way, sw(X29, X28, 4 * count)]

    def changes_itself(self) -> Function:
        """Changes an instruction that it comes to."""
        between = self.either([], [], [FENCE_I], [jal(ZERO, 4)])
        pads = self.computing(self.draw.choice([0, 0, 1, 3, 20, 300]))
        change = self.changing(6 + len(between) + len(pads))
        words = [*change, *between, *pads, self.adding(), *self.computing(2), RET]
        return Function(self.some_address(len(words)), words, writes=True, within_block=not between)

    def changes_what_it_did(self) -> Function:
        """Changes an instruction of a loop, which has run and runs again."""
        head = [*li(X31, self.draw.randint(2, 300)), auipc(X28, 0)]
        pads = self.computing(self.draw.choice([0, 1, 5, 40]))
        number = self.draw.choice([1, 3, 0x101]) << 20
        change = [lw(X29, X28, 4), *li(X30, number), add(X29, X29, X30), sw(X29, X28, 4)]
        body = [self.adding(), *pads, *change, *self.either([], [FENCE_I])]
        words = [*head, *riscv.counted_down(X31, body), RET]
        return Function(self.some_address(len(words)), words, writes=True)

    def protects_itself(self) -> Function:
        """Has its own pages made writable, changes itself, and has them made executable alone again."""
        count = 40
        address = self.some_address(count)
        pages = pages_of(address, 4 * count)
        first, size = pages.start * PAGE, len(pages) * PAGE
        locked = riscv.call(MPROTECT, first, size, READ | EXECUTE)
        words = [addi(S5, A0, 0), *riscv.call(MPROTECT, first, size, READ | WRITE | EXECUTE)]
        words += [*self.changing(6 + len(locked) + 1), *locked, addi(A0, S5, 0), self.adding()]
        return Function(address, [*words, *self.computing(count - len(words) - 1), RET], protects=True)

    def calling(self) -> Function:
        """Calls another function."""
        callees = [it for it in self.functions if it.calls is None and it.turn_back is None]
        if not callees:
            return self.plain()
        callee = self.draw.choice(callees)
        words = [addi(S6, RA, 0), *self.computing(2), *li(X28, callee.address), jalr(RA, X28, 0), *self.computing(2)]
        words.append(jalr(ZERO, S6, 0))
        function = Function(self.some_address(len(words)), words, calls=callee)
        return self.plain() if callee.meets(function.address, function.end()) else function

    def turning(self) -> Function:
        """Says that it has been entered, and then goes round and round until the jump back is changed."""
        words = [*li(X28, INSIDE), addi(X29, ZERO, 1), sw(X29, X28, 0), *[NOP] * self.draw.choice([0, 1, 30])]
        back = len(words)
        words += [jal(ZERO, 0), *li(A0, self.draw.getrandbits(32)), RET]
        words[back] = jal(ZERO, -4 * self.draw.randint(0, back - 4))
        return Function(self.some_address(len(words)), words, turn_back=back)

    def put_function(self, function: Function) -> None:
        """Writes a function into its pages."""
        self.make_writable(function.pages())
        self.forget(function.address, function.end())
        self.put_words(function.address, function.words)
        self.functions.append(function)
        self.maybe_fence()

    def new_function(self) -> None:
        """Writes a function of some kind."""
        kinds = [self.plain, self.plain, self.plain, self.looping, self.changes_itself, self.changes_what_it_did]
        kinds += [self.protects_itself, self.calling, self.plain if self.is_small else self.long]
        if self.has_threads:
            kinds += [self.turning, self.turning]
        self.put_function(self.draw.choice(kinds)())

    def put_words(self, address: int, words: Sequence[int]) -> None:
        """Writes words, in some way."""
        blob = riscv.code(words)
        ways = ["stores", "stores", "words", "halves", "bytes", "atomics", *([] if self.is_small else ["read"])]
        way = self.draw.choice(ways)
        if way == "stores" and len(words) <= 20:
            stores = ([*li(X6, word), sw(X6, X5, 4 * place)] for place, word in enumerate(words))
            self.emit(*li(X5, address), *(it for store in stores for it in store))
        elif way == "read":
            self.given += blob
            self.call(READ_CALL, 0, address, len(blob))
            self.note()
        else:
            self.copy(address, blob, way)

    def copy(self, address: int, blob: bytes, way: str) -> None:
        """Copies bytes that are kept in the data, by loads and stores of 1, 2 or 4, or by atomics."""
        self.emit(*li(X5, BLOBS + len(self.data)), *li(X6, address), *li(X7, address + len(blob)))
        self.data += blob
        unit = {"halves": 2, "bytes": 1}.get(way, 4)
        load, store = UNITS[unit]
        put = [store(X28, X6, 0)]
        if way == "atomics":
            put = self.either([amoswap_w(X29, X28, X6)], [lr_w(X29, X6), sc_w(X29, X28, X6), bne(X29, ZERO, -8)])
        body = [load(X28, X5, 0), *put, addi(X5, X5, unit), addi(X6, X6, unit)]
        self.emit(*body, bne(X6, X7, -4 * len(body)))


class Calls(Functions):
    """Calls functions, by either thread."""

    def make_ready(self, function: Function) -> None:
        """Its pages may be executed, and those of the function that it calls; written too, if it needs that."""
        for it in sorted(function.with_callee(), key=lambda it: it.writes):
            self.make_executable(it.pages(), it.writes)

    def has_run(self, function: Function) -> None:
        """Keeps what a function has done."""
        for it in function.with_callee():
            self.within_block |= it.within_block
            if it.protects:
                self.permissions.update(dict.fromkeys(it.pages(), READ | EXECUTE))

    def call_function(self, function: Function) -> None:
        """Calls a function, often more than once."""
        if function.turn_back is not None:
            self.make_ready(function)
            self.run_turning(function, function.turn_back)
            return
        for _ in range(self.draw.randint(1, 3)):
            self.make_ready(function)
            if self.has_threads and self.draw.random() < 0.6:
                self.start_other(function.address)
                self.wait_for_other()
            else:
                number = self.draw.getrandbits(32)
                self.emit(addi(A0, S0, 0), *li(A1, number), *li(X5, function.address), jalr(RA, X5, 0))
                self.note()
            self.has_run(function)

    def wait_words(self, register: int, address: int) -> list[int]:
        """Waits until the word at an address is what a register has."""
        pause = riscv.call(threads.YIELD) if self.yields else []
        skip, back = 4 * len(pause) + 8, -4 * len(pause) - 8
        return [*li(X5, address), lw(X6, X5, 0), beq(X6, register, skip), *pause, jal(ZERO, back)]

    def start_other(self, address: int) -> None:
        """Has the second thread call the function at an address, or leave if that is 0."""
        self.emit(*li(X5, TARGET), *li(X6, address), sw(X6, X5, 0))
        self.emit(FENCE, *li(X5, TURN), *li(X6, self.turn), sw(X6, X5, 0))
        self.turn += 2

    def wait_for_other(self) -> None:
        """Waits until the second thread has called it."""
        self.emit(*li(X7, self.turn - 1), *self.wait_words(X7, TURN))

    def run_turning(self, function: Function, back: int) -> None:
        """The second thread goes round in the function until this one changes its jump back."""
        at = function.address + 4 * back
        page = at // PAGE
        self.emit(*li(X5, INSIDE), sw(ZERO, X5, 0))
        self.start_other(function.address)
        self.emit(addi(X7, ZERO, 1), *self.wait_words(X7, INSIDE))
        before = self.permissions[page]
        if not before & WRITE:
            self.protect([page], READ | WRITE | EXECUTE)
        self.store_at(at, self.draw.choice([NOP, jal(ZERO, 4), addi(A0, ZERO, 1)]))
        if not before & WRITE:
            self.protect([page], before)
        self.maybe_fence()
        self.wait_for_other()
        if self.draw.random() < 0.5:
            # The jump back comes back.
            self.make_writable([page])
            self.store_at(at, function.words[back])
        else:
            function.turn_back = None

    def store_at(self, address: int, word: int) -> None:
        """Stores a word."""
        self.emit(*li(X5, address), *li(X6, word), sw(X6, X5, 0))

    def other_thread(self) -> None:
        """The second thread: calls the function of TARGET at each of its turns, which s8 has, until there is none."""
        self.emit(addi(S0, ZERO, 0), *li(S1, LOGS[1]), addi(S8, ZERO, 1))
        again = self.here()
        self.emit(*self.wait_words(S8, TURN))
        end = [*li(X5, LOG_END), sw(S1, X5, 0), *riscv.call(threads.EXIT)]
        self.emit(FENCE, *li(X5, TARGET), lw(X6, X5, 0), bne(X6, ZERO, 4 * len(end) + 4), *end)
        self.emit(*self.either([], [FENCE_I]))
        self.emit(addi(A0, S0, 0), *li(A1, 0x12345678), jalr(RA, X6, 0))
        self.note()
        self.emit(FENCE, addi(S8, S8, 1), *li(X5, TURN), sw(S8, X5, 0), addi(S8, S8, 1))
        self.emit(jal(ZERO, again - self.here()))

    def make_thread(self, entry: int) -> None:
        """Makes the second thread, which begins at an address."""
        self.call(threads.CLONE, THREAD_FLAGS, LOGS[0], TID, TID, TID)
        self.emit(bne(A0, ZERO, 8), jal(ZERO, entry - self.here() - 4))

    def end_other(self) -> None:
        """Waits until the second thread has left, and prints its log."""
        self.start_other(0)
        self.emit(*li(X5, TID), lw(A2, X5, 0))
        wait = [addi(A0, X5, 0), addi(A1, ZERO, WAIT), addi(A3, ZERO, 0), *riscv.call(threads.FUTEX_64)]
        self.emit(beq(A2, ZERO, 4 * len(wait) + 8), *wait, jal(ZERO, -4 * len(wait) - 8))
        self.emit(*li(X5, LOG_END), lw(X6, X5, 0))
        self.print_log(LOGS[1], X6)

    def print_log(self, log: int, end: int) -> None:
        """Prints a log up to the address that a register has."""
        self.emit(addi(A0, ZERO, 1), *li(A1, log), sub(A2, end, A1), addi(A7, ZERO, threads.WRITE), ECALL)


class Program(Calls):
    """A random guest: its code, its data and its input."""

    def change_function(self) -> None:
        """One instruction of a function becomes another, by a store of 1, 2 or 4 bytes."""
        plain = [it for it in self.functions if it.with_callee() == [it] and it.turn_back is None]
        plain = [it for it in plain if not (it.writes or it.protects)]
        adding = addi(A0, A0, 0)
        places = [(it, at) for it in plain for at, word in enumerate(it.words) if word & 0xFFFFF == adding]
        if not places:
            return
        function, at = self.draw.choice(places)
        word, address = self.adding(), function.address + 4 * at
        if self.draw.random() < 0.3:
            self.call_function(function)
        self.make_writable([address // PAGE])
        size, skip = self.draw.choice([(4, 0), (2, 2), (1, 3)])
        _, store = UNITS[size]
        self.emit(*li(X5, address), *li(X6, word >> 8 * skip), store(X6, X5, skip))
        self.maybe_fence()
        self.call_function(function)

    def change_permissions(self) -> None:
        """Pages get other permissions."""
        pages = [it for it in self.some_pages() if it in self.permissions]
        if pages and len(pages) == pages[-1] - pages[0] + 1:
            # Not 6: qemu-riscv32 fetches no instruction from a page that may be executed and written, if it isn't said
            # to be readable.
            self.protect(pages, self.draw.choice([0, 1, 2, 3, 4, 5, 7]))

    def replace_pages(self) -> None:
        """Pages of zeros take the place of others."""
        self.map(self.some_pages(), self.draw.choice([3, 5, 7]))

    def take_pages(self) -> None:
        """Pages are taken away, and perhaps mapped again."""
        pages = self.some_pages()
        self.unmap(pages)
        if self.draw.random() < 0.5:
            self.map(pages, self.draw.choice([3, 7]))

    def renew_pages(self) -> None:
        """A function runs, its pages are replaced, and another one stands there, with no change of permissions
        between."""
        function = self.draw.choice(self.functions)
        self.call_function(function)
        pages = function.pages()
        if self.draw.random() < 0.4:
            self.unmap(pages)
        self.map(pages, READ | WRITE | EXECUTE)
        words = [*self.computing(len(function.words) - 1), RET]
        self.put_function(Function(function.address, words))
        self.call_function(self.functions[-1])

    def change_own_code(self) -> None:
        """Changes an instruction of the program itself, a little further on."""
        locked = not self.own & WRITE
        between = self.either([], [FENCE_I], [jal(ZERO, 4)])
        pads = [addi(A0, S0, 0), *self.computing(self.draw.randint(0, 4))]
        size = len(riscv.call(MPROTECT, 0, 0, 0))
        target = self.here() + 4 * (5 + len(between) + len(pads) + (2 * size if locked else 0))
        page = target // PAGE * PAGE
        if locked:
            self.call(MPROTECT, page, PAGE, READ | WRITE | EXECUTE)
        self.store_at(target, self.adding())
        self.emit(*between)
        if locked:
            self.call(MPROTECT, page, PAGE, READ | EXECUTE)
        self.emit(*pads)
        assert self.here() == target
        self.emit(self.adding())
        self.within_block |= not between and not locked
        self.note()

    def step(self) -> None:
        """Does something."""
        callable_ones = list(self.functions)
        steps: list[Callable[[], None]] = [self.new_function] * 3 + [self.change_function] * 4
        steps += [self.change_permissions, self.replace_pages, self.take_pages]
        if callable_ones:
            def call_one() -> None:
                self.call_function(self.draw.choice(callable_ones))

            steps += [self.renew_pages, self.change_own_code, call_one] * 2
        self.draw.choice(steps)()

    def end_with_fault(self) -> None:
        """Calls a function, and then once more when some of it is no longer there."""
        function = self.plain()
        self.put_function(function)
        self.call_function(function)
        page = self.draw.choice(function.pages())
        at = function.address + 4 * self.draw.randrange(len(function.words) - 1)
        way = self.draw.choice(["data", "unmapped", "zeros", "word", "word"])
        if way == "data":
            self.protect([page], self.draw.choice([0, 1, 3]))
        elif way == "unmapped":
            self.unmap([page])
        elif way == "zeros":
            self.map([page], READ | EXECUTE)
        else:
            self.make_writable([at // PAGE])
            self.store_at(at, self.draw.choice([BAD_WORD, EBREAK]))
            self.make_executable(function.pages())
        self.print_log(LOGS[0], S1)
        self.emit(*li(X5, function.address), jalr(RA, X5, 0))

    def end(self) -> None:
        """Ends, by a fault or by an exit."""
        if self.draw.random() < 0.25:
            self.end_with_fault()
        if self.has_threads:
            self.end_other()
        self.print_log(LOGS[0], S1)
        self.emit(addi(A0, S0, 0), *riscv.call(threads.EXIT_GROUP))

    def write(self) -> None:
        """Writes the code."""
        entry = START + 4
        if self.has_threads:
            self.emit(NOP)
            self.other_thread()
            self.code[0] = jal(ZERO, self.here() - START)
        self.emit(addi(S0, ZERO, 1), *li(S1, LOGS[0]))
        if self.has_threads:
            self.make_thread(entry)
        for _ in range(self.draw.randint(4, 10 if self.is_small else 30)):
            self.step()
        self.end()
        assert self.here() < DATA

    def elf(self) -> bytes:
        """A file of three segments: its headers with the code; the words and logs, which are zeros; and what is
        copied."""
        own = elf.READ | elf.EXECUTE | (elf.WRITE if self.own & WRITE else 0)
        code = elf.Segment(elf.START, riscv.code(self.code), own, has_headers=True)
        zeros = elf.Segment(DATA, permissions=elf.READ | elf.WRITE, size=BLOBS - DATA)
        blobs = elf.Segment(BLOBS, bytes(self.data), elf.READ | elf.WRITE)
        # Section headers have 40 bytes, though there are none: so a guest's file is what it has always been.
        return elf.changed(elf.file_of([code, zeros, blobs], START, elf.PAGE), 46, b"\x28")
