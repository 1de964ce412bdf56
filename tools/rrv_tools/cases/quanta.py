"""A guest that jumps at each place of a page, recorded with each quantum, and its single steps.

Expected values: single steps of a restatement in Python (rrv_tools.threads).

usage: tools/run quanta [--first Q] [--last Q] [--places N] [--seed S] [--keep FILE]

A page of the guest has a jump in each of its 1,024 words, and these lead in an order that SEED (1) scrambles from one
place to the next, through all of them. Some lead by straight code of other pages, which comes back; of that some runs
over a page's end, some into the first word of the page of jumps, and the page's last word is a branch that now jumps
and now runs on into the page after it. Now and then the straight code makes a call, further apart than the longest
quantum.

What each instruction does is restated in Python (threads.py), one step after another. The guest is recorded with each
quantum from the first (64) to the last (2048), every other one with checkpoints. For each, the guest's output and every
slice that `dump --places` prints have to be those: its count, its places, and the address of the next instruction at
its end. So each slice ends at the instruction at which as many single steps end. At N places at random (1) `replay
--at` has to print the state that the steps have there: registers, and the digest of the memory. With --keep the guest
is written into a file, and nothing is recorded.
"""
import argparse
import functools
import itertools
import pathlib
import random
from collections.abc import Callable, Collection, Iterator, Sequence
from typing import NamedTuple

from rrv_tools import by_hand, elf, riscv
from rrv_tools.elf import PAGE, READ, START, WRITE, Segment
from rrv_tools.guests import EXIT
from rrv_tools.guests import WRITE as WRITE_CALL
from rrv_tools.printed import text_of
from rrv_tools.riscv import (
    RA, S0, S1, S2, S3, S4, X5, X6, X7, X28, X29, X30, X31, ZERO, addi, beq, bge, bgeu, blt, bltu, bne, call, jal, jalr,
    li, lw, sw, xori,
)  # fmt: skip
from rrv_tools.states import RANDOM_OF_ZEROS, Guest
from rrv_tools.store import EMPTY
from rrv_tools.testing import Case, difference, rows
from rrv_tools.threads import Thread

FEWEST, MOST, SEED, PLACES = 64, 2048, 1, 1
HEADERS, DATA = elf.headers_size(2), 0x60000
# The page of jumps, and the straight code after it.
JUMPS, STRAIGHT, WORDS = START + PAGE, START + 2 * PAGE, PAGE // 4
MIDDLE, TURNS, ODD, TESTS, TABLE = S0, S1, S2, S3, S4
FREE = (X5, X6, X7, X28, X29, X30, X31)
BASIC = riscv.add, riscv.sll, riscv.slt, riscv.sltu, riscv.xor, riscv.srl, riscv.or_, riscv.and_
MULTIPLIED = riscv.mul, riscv.mulh, riscv.mulhsu, riscv.mulhu, riscv.div, riscv.divu, riscv.rem, riscv.remu
BRANCHES = beq, bne, blt, bge, bltu, bgeu
# Each of these makes its branch jump.
TAKEN = (
    (beq, ZERO, ZERO), (bne, ZERO, MIDDLE), (blt, ZERO, MIDDLE), (bge, MIDDLE, ZERO), (bltu, ZERO, TABLE),
    (bgeu, TABLE, MIDDLE),
)  # fmt: skip
# How often it goes round the page, how many jumps of a round lead by straight code, how many of these may call, and how
# often such a one runs for each of its calls.
ROUNDS, DETOURS, CALLING, APART = 12, 96, 24, 29
YIELD, STATUS = 124, 5
# How far apart checkpoints are.
EVERY = 4_000


# ---- the guest


class Jumps:
    """The guest's words by address. Each round goes through all places of the page, in a scrambled order."""

    def __init__(self, seed: int) -> None:
        self.draw, self.here = random.Random(seed), STRAIGHT
        self.words: dict[int, int] = {}
        # It goes round, and begins with the last.
        self.order = [WORDS - 1, *self.draw.sample(range(WORDS - 1), WORDS - 1)]
        # Of some places by their numbers in the order: these lead by straight code, and of these some may call.
        self.detours = self.draw.sample(range(2, WORDS - 1), DETOURS)
        self.write_last()
        for at, place in enumerate(self.order[1:], 1):
            self.words[JUMPS + 4 * place] = self.jump(JUMPS + 4 * place, self.next_of(at))
        self.put(START + HEADERS, self.start())

    def next_of(self, at: int) -> int:
        """Where the jump of this number in the order leads."""
        following = self.address(at + 1)
        if at == WORDS - 1:
            return self.written(self.end_of_round)
        if following == JUMPS:
            return self.before_page()
        return self.detour(at in self.detours[:CALLING], following) if at in self.detours else following

    def address(self, at: int) -> int:
        """Where the place of this number in the order stands."""
        return JUMPS + 4 * self.order[at % WORDS]

    def put(self, address: int, words: Sequence[int]) -> None:
        """Puts words at an address that has none."""
        for at, word in enumerate(words):
            assert address + 4 * at not in self.words
            self.words[address + 4 * at] = word

    def written(self, words: Callable[[int], list[int]]) -> int:
        """Puts words after all straight code so far; their address, on which their jumps depend."""
        address = self.here
        self.put(address, words(address))
        self.here = max(self.words) + 4
        return address

    def start(self) -> list[int]:
        """The words that run first."""
        words = li(MIDDLE, JUMPS + PAGE // 2) + li(TABLE, DATA + PAGE // 2)
        words += [addi(TURNS, ZERO, ROUNDS), addi(ODD, ZERO, 1), addi(TESTS, ZERO, APART)]
        return [*words, jal(ZERO, self.address(0) - (START + HEADERS + 4 * len(words)))]

    def jump(self, here: int, to: int) -> int:
        """One of the jumps that lead there."""
        kinds = [jal(self.draw.choice([ZERO, RA]), to - here)]
        if JUMPS <= to < JUMPS + PAGE:
            branch, one, other = self.draw.choice(TAKEN)
            kinds += [branch(one, other, to - here)]
            kinds += [jalr(self.draw.choice([ZERO, RA]), MIDDLE, to - (JUMPS + PAGE // 2))]
        return self.draw.choice(kinds)

    def write_last(self) -> None:
        """The page's last word: each second round it jumps, and else it runs on into the page after it."""
        following = self.address(1)
        self.words[JUMPS + PAGE - 4] = bne(ODD, ZERO, following - (JUMPS + PAGE - 4))
        self.written(lambda here: [jal(ZERO, following - here)])

    def computed(self) -> int:
        """An instruction that runs straight on."""
        draw = self.draw
        to, one, other = (draw.choice(FREE) for _ in range(3))
        near = 4 * draw.randrange(-64, 64)
        return draw.choice([
            draw.choice([BASIC, BASIC, MULTIPLIED])[draw.randrange(8)](to, one, other),
            addi(to, one, draw.randrange(-2048, 2048)),
            addi(ZERO, one, 1),
            self.upper(to),
            lw(to, TABLE, near),
        ])

    def upper(self, to: int) -> int:
        """An LUI or AUIPC."""
        number = self.draw.getrandbits(20)
        return self.draw.choice([riscv.lui, riscv.auipc])(to, number)

    def straight(self, most: int) -> list[int]:
        """Some of them, and perhaps a branch that jumps over a part, by what a register has."""
        words = [self.computed() for _ in range(self.draw.randint(1, most))]
        if self.draw.random() < 0.5:
            over = self.draw.randint(1, len(words))
            branch = self.draw.choice(BRANCHES)(self.draw.choice(FREE), ODD, 4 * over + 4)
            words.insert(len(words) - over, branch)
        return words

    def called(self) -> list[int]:
        """A call each so many times that this runs: of a byte that is written, or to yield. It is after a store."""
        made = self.draw.choice([call(WRITE_CALL, 1, DATA, 1), call(YIELD)])
        words = [sw(X5, TABLE, 4 * self.draw.randrange(-64, 64)), *made, addi(TESTS, ZERO, APART)]
        return [addi(TESTS, TESTS, -1), bne(TESTS, ZERO, 4 * len(words) + 4), *words]

    def detour(self, calls: bool, to: int) -> int:
        """Straight code that leads there; its address."""
        words = self.straight(44) + (self.called() if calls else []) + self.straight(4)
        return self.written(lambda here: [*words, jal(ZERO, to - (here + 4 * len(words)))])

    def before_page(self) -> int:
        """Straight code that ends where the page of jumps begins; its address."""
        words = self.straight(20)
        address = JUMPS - 4 * len(words)
        self.put(address, words)
        return address

    def end_of_round(self, here: int) -> list[int]:
        """Turns over which way the last word goes, and ends the guest in the last round."""
        words = [xori(ODD, ODD, 1), addi(TURNS, TURNS, -1), beq(TURNS, ZERO, 8)]
        return [*words, jal(ZERO, self.address(0) - (here + 4 * len(words))), *call(EXIT, STATUS)]

    def elf(self) -> bytes:
        """The file."""
        words = [self.words.get(it, 0) for it in range(START + HEADERS, max(self.words) + 4, 4)]
        data = Segment(DATA, permissions=READ | WRITE, size=PAGE)
        return elf.executable(words, data, alignment=PAGE)


# ---- its single steps


class Steps(Guest):
    """The guest by single steps: where its instructions stand, and its states at places."""

    def __init__(self, file: bytes, places: Collection[int]) -> None:
        super().__init__(file, b"g0", random=RANDOM_OF_ZEROS)
        self.places, self.addresses = places, list[int]()
        self.states: dict[int, list[str]] = {}

    def step(self, t: Thread) -> bool:
        if len(self.addresses) in self.places:
            self.states[len(self.addresses)] = self.lines()
        self.addresses.append(t.pc)
        return super().step(t)


class Reference:
    """What has to be printed of the guest."""

    def __init__(self, file: bytes, places: Collection[int] = ()) -> None:
        guest = Steps(file, places)
        # A quantum that ends no slice.
        lines, self.total = guest.run(lambda runnable: (runnable[0], 1 << 62))
        found = [it.split(maxsplit=4) for it in lines]
        # How many instructions lead to each call, itself among them, and what its frame has after these.
        self.calls = [(int(count.removeprefix("count=")), more) for _, _, _, count, more in found]
        self.output, self.states, self.addresses = guest.output, guest.states, guest.addresses
        visited = {it for it in self.addresses if JUMPS <= it < JUMPS + PAGE}
        assert len(visited) == WORDS and guest.ended == STATUS and max(self.calls)[0] > MOST

    def frames(self, quantum: int) -> Iterator[str]:
        """The lines of all slices, without their numbers."""
        at = 0
        for count, more in self.calls:
            for left in range(count, 0, -quantum):
                begin, at = at, at + min(left, quantum)
                kind, fields = ("preempt", "") if left > quantum else ("call", f" {more}")
                address = f"{self.addresses[at]:08x}" if at < self.total else "none"
                yield f"{kind} tid=1 count={at - begin}{fields} from={begin} to={at} pc={address}"

    def state(self, place: int) -> str:
        """The state at a place."""
        return "\n".join([f"at {place} of {self.total}", *self.states[place], ""])


class Asked(NamedTuple):
    """Which quanta of a guest are recorded, and at how many places states are compared."""

    seed: int = SEED
    first: int = FEWEST
    last: int = MOST
    places: int = PLACES

    def quanta(self) -> range:
        """The quanta."""
        return range(self.first, self.last + 1)

    def places_of(self, quantum: int, total: int) -> list[int]:
        """The places that are looked at with a quantum."""
        draw = random.Random(f"{self.seed} {quantum}")
        return [draw.randrange(total) for _ in range(self.places)]


@functools.cache
def file_of(seed: int) -> bytes:
    """The guest of a seed."""
    return Jumps(seed).elf()


@functools.cache
def reference_of(asked: Asked) -> Reference:
    """The reference, with the states at all places."""
    file = file_of(asked.seed)
    total = Reference(file).total
    return Reference(file, {place for it in asked.quanta() for place in asked.places_of(it, total)})


# ---- the recordings


class Recordings(Case):
    """Recordings of the guest. A store has one guest: each command opens all of it."""

    def record(self, row: tuple[Asked, int]) -> None:
        """Records the guest with a quantum."""
        asked, quantum = row
        reference, every = reference_of(asked), EVERY if quantum % 2 else 0
        pathlib.Path("guest").write_bytes(file_of(asked.seed))
        pathlib.Path("store").write_bytes(EMPTY)
        options = "--quantum", quantum, "--every", every
        self.need_line("record", *options, "store", "guest", out=reference.output, err=None)
        self.need_frames(reference, quantum, every > 0)
        for place in asked.places_of(quantum, reference.total):
            self.need_line("replay", "--at", place, "store", 0, out=reference.state(place))

    def need_frames(self, reference: Reference, quantum: int, has_checkpoints: bool) -> None:
        """Compares the lines of the records; the parts of checkpoints stand between them."""
        dumped = text_of(self.program, "dump", "--places", "store", 0)
        lines = [it.partition(" ")[2] for it in dumped.splitlines()]
        came = [it for it in lines if not it.startswith("part ")]
        wanted = [f"opening name=g0 elf={pathlib.Path('guest').stat().st_size}", *reference.frames(quantum)]
        if came != wanted:
            pairs = itertools.zip_longest(wanted, came, fillvalue="nothing")
            raise self.failureException(difference("a frame", *next(it for it in pairs if it[0] != it[1])))
        self.need("whether there are checkpoints", has_checkpoints, len(came) < len(lines))


def rows_of(asked: Asked) -> dict[str, tuple[Asked, int]]:
    """A row for each quantum."""
    return {f"quantum {it:04}": (asked, it) for it in asked.quanta()}


@rows(rows_of(Asked()), "record")
class Quanta(Recordings):
    """Each quantum from 64 to 2,048."""

    seconds = 90


def main(words: Sequence[str]) -> int:
    """Records with the quanta that the words say."""
    parser = argparse.ArgumentParser(prog="tools/run quanta", description=__doc__,
                                     formatter_class=argparse.RawDescriptionHelpFormatter)
    for name, number in (("first", FEWEST), ("last", MOST), ("places", PLACES), ("seed", SEED)):
        parser.add_argument(f"--{name}", type=int, default=number)
    parser.add_argument("--keep", type=pathlib.Path)
    said = parser.parse_args(words)
    if said.keep:
        said.keep.write_bytes(file_of(said.seed))
        return 0
    asked = Asked(said.seed, said.first, said.last, said.places)
    return by_hand.run(rows(rows_of(asked), "record")(type("Quanta", (Recordings,), {})))
