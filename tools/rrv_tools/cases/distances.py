"""How far apart the checkpoints of `record --every auto` are.

Expected values: the rule of docs/rrv.1, computed here from the pages and lines of the parts in the store's bytes.

Guests that write to memory at different steps are recorded. A checkpoint has to stand after each frame that is as far
from the last one as the rule says, or farther, and after no other. A page counts as 550 instructions, a line as 280,
and a page that is mapped as 11; ten times their sum has to run, and 1,048,576 instructions at the least.
"""
from typing import NamedTuple

from rrv_tools import elf, records, store
from rrv_tools.guests import exits
from rrv_tools.riscv import A0, A1, S0, add, counted_down, li, sw
from rrv_tools.testing import Case, rows

PAGE = 4096
# The megabyte of the stack, and the page of the instructions.
STACK_PAGES, CODE_PAGES = 256, 1
DATA = 0x100000


class Writer(NamedTuple):
    """A guest that stores its count to a word at each so many bytes of so many pages, all of them so many times."""

    step: int
    pages: int
    times: int

    def elf(self) -> bytes:
        """Its file."""
        turn = [*li(A0, DATA), *li(A1, self.pages * PAGE // self.step)]
        turn += counted_down(A1, [sw(S0, A0, 0), *li(28, self.step), add(A0, A0, 28)])
        words = [*li(S0, self.times), *counted_down(S0, turn), *exits(0)]
        data = elf.Segment(DATA, permissions=elf.READ | elf.WRITE, size=self.pages * PAGE)
        return elf.executable(words, data)

    def mapped(self) -> int:
        """How many pages are mapped."""
        return STACK_PAGES + CODE_PAGES + self.pages


def gap_after(parts: list[records.Part], mapped: int) -> int:
    """How many instructions lie between a checkpoint and the next one at the least."""
    pages = [page for part in parts for page in part.pages]
    cost = sum(550 + 280 * len(page.lines) for page in pages) + 11 * mapped
    return min(max(1_048_576, 10 * cost), 4_294_967_295)


WRITERS = {
    "a word of one page": Writer(PAGE, 1, 1_500_000),
    "each line of sixteen pages": Writer(64, 16, 3_000),
    "a word in each of two thousand pages": Writer(PAGE, 2_000, 3_000),
    "each line of two thousand pages": Writer(64, 2_000, 30),
}


@rows(WRITERS, "need_distances")
class Distances(Case):
    """Checkpoints as far apart as what they cost says."""

    seconds = 4

    def items(self, name: str, guest: Writer, *options: str) -> list[records.Item]:
        """What is recorded of a guest into a store of this name."""
        (self.folder / "guest.elf").write_bytes(guest.elf())
        self.program.run_well("new", name)
        self.program.run_well("record", *options, name, "guest.elf")
        bodies = store.bodies_in((self.folder / name).read_bytes())
        return [record.item for body in bodies for record in records.records_in(body)]

    def need_distances(self, guest: Writer) -> None:
        """Each checkpoint of a guest stands where the rule has it. The frames are those without checkpoints, and a
        second recording has the same records."""
        items = self.items("auto", guest, "--every", "auto")
        frames = [it for it in items if not isinstance(it, records.Part)]
        self.need("frames without checkpoints", self.items("none", guest, "--every", "0"), frames)
        self.need("records of a second recording", self.items("again", guest, "--every", "auto"), items)
        self.need("places of checkpoints", self.wanted_places(items, guest.mapped()), places_of(items))
        self.need_line("verify", "auto", "0", out=None)

    def wanted_places(self, items: list[records.Item], mapped: int) -> list[int]:
        """The places at which checkpoints have to be, by the distances and what stands there."""
        place, last, gap, wanted = 0, 0, 1_048_576, []
        for index, item in enumerate(items):
            if isinstance(item, records.Preempt | records.Call):
                place += item.count
                if place - last >= gap and index + 1 < len(items):
                    wanted.append(place)
                    last, gap = place, gap_after(parts_from(items, index + 1), mapped)
        return wanted


def parts_from(items: list[records.Item], index: int) -> list[records.Part]:
    """The parts of a checkpoint, of which the first is at an index; none if no part is there."""
    found = []
    for item in items[index:]:
        if not isinstance(item, records.Part):
            break
        found.append(item)
    return found


def places_of(items: list[records.Item]) -> list[int]:
    """The places at which complete checkpoints are."""
    place, found = 0, []
    for item in items:
        if isinstance(item, records.Preempt | records.Call):
            place += item.count
        if isinstance(item, records.Part) and item.rest:
            found.append(place)
    return found
