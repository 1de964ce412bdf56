"""Guests that are recorded again by the choices that are printed of them.

Expected values: the records of the guest, from which its choices follow by docs/FORMATS.md.
"""
import pathlib
from collections.abc import Callable
from typing import NamedTuple

from rrv_tools import elf, printed
from rrv_tools.guests import MAKE_THREAD, WAIT, exits, path_of
from rrv_tools.program import Program
from rrv_tools.riscv import A0, SP, X5, ZERO, addi, beq, counted_down, li
from rrv_tools.testing import Case, add_rows, rows

# Instructions of a slice, and between two checkpoints.
RECORDINGS = ((64, 0), (1000, 20_000), (50_000, 0))


class Done(NamedTuple):
    """A recording: its report, its output, and its records as lines."""

    report: bytes
    out: bytes
    records: list[str]


def part_of(records: list[str], count: int) -> list[str]:
    """The lines up to the frame of this number, from 1; up to the opening for 0."""
    kept: list[str] = []
    for line in records:
        is_frame = line.split()[1] not in printed.NO_FRAMES
        if is_frame and count == 0:
            break
        count -= is_frame
        kept.append(line)
    return kept


class Recorder:
    """Records a guest into one store, again and again."""

    def __init__(self, program: Program, guest: str, quantum: int, every: int) -> None:
        self.program, self.count, self.guest = program, 0, path_of(guest)
        self.store = f"{guest}.{quantum}"
        self.options = ["--quantum", str(quantum), "--every", str(every)]
        self.program.run_well("new", self.store)
        self.whole = self.record()
        self.choices = printed.text_of(self.program, "choices", self.store, 0)
        self.lines = self.choices.splitlines(keepends=True)

    def record(self, *options: str, stdin: str = "") -> Done:
        """One more recording."""
        words = [*self.options, *options]
        result = self.program.run_well("record", *words, self.store, self.guest, stdin=stdin.encode())
        records = printed.text_of(self.program, "dump", self.store, self.count).splitlines()
        self.count += 1
        return Done(result.err, result.out, records)

    def part(self, share: Callable[[int], int]) -> int:
        """How many of the choices are taken, and writes these into a file."""
        count = share(len(self.lines))
        text = f"# the first {count}\n\n{''.join(self.lines[:count])}"
        pathlib.Path("first").write_text(text, encoding="ascii")
        return count


class Choices(Case):
    """Recordings by choices. A guest is recorded once for all cases of it."""

    seconds, shares_folder = 20, True

    def need_choices(self, of: Recorder) -> None:
        """The choices that are printed are those of the records."""
        wanted = printed.choices_of(printed.frames_in("\n".join(of.whole.records)))
        self.need("choices", wanted, of.choices)
        self.assertTrue(wanted)

    def need_again(self, of: Recorder) -> None:
        """By all choices, and nothing after them."""
        self.need("recording", of.whole, of.record("--choices", "-", "--then", "none", stdin=of.choices))

    def need_turns(self, of: Recorder, share: Callable[[int], int]) -> None:
        """By the first of the choices, and turns after them."""
        of.part(share)
        self.need("recording", of.whole, of.record("--choices", "first"))

    def need_cut(self, of: Recorder, share: Callable[[int], int]) -> None:
        """By the first of the choices, and nothing after them."""
        count = of.part(share)
        came = of.record("--choices", "first", "--then", "none")
        records = part_of(of.whole.records, count)
        report = f"g0: end none, records {len(records)}\n".encode()
        self.need("recording", Done(report, of.whole.out[: len(came.out)], records), came)


SHARES: dict[str, Callable[[int], int]] = {
    "a third": lambda count: count // 3, "half": lambda count: count // 2, "all but one": lambda count: count - 1,
}
LOOKS: dict[str, Callable[[Choices, Recorder], None]] = {"choices": Choices.need_choices, "again": Choices.need_again}


def add_looks(share_name: str, share: Callable[[int], int]) -> None:
    """The looks at a share of the choices."""
    LOOKS[f"{share_name} and turns"] = lambda case, of: case.need_turns(of, share)
    LOOKS[f"{share_name} alone"] = lambda case, of: case.need_cut(of, share)


for share_and_name in SHARES.items():
    add_looks(*share_and_name)
ROWS = {f"{guest} by {recording[0]} {look}": (guest, recording, look)
        for guest in printed.NAMES for recording in RECORDINGS for look in LOOKS}
add_rows(Choices, ROWS, lambda case, row: LOOKS[row[2]](case, case.once(Recorder, case.program, row[0], *row[1])))


# Its second thread waits for no time at all, again and again, at a word that nobody wakes; the first one counts.
COUNTS = [*li(X5, 100_000), *counted_down(X5, []), *exits(0)]
NAPS = [*WAIT, beq(ZERO, ZERO, -4 * len(WAIT))]
NAPPING = [addi(SP, SP, -64), *MAKE_THREAD, beq(A0, ZERO, 4 * len(COUNTS) + 4), *COUNTS, *NAPS]
# Choices of its threads. After each of the second one, whose slice ends in its wait, the wait ends in the next frame.
LISTS = {
    "one wait": "1 64\n2 64\n1 64\n1 100\n1 64\n",
    "several waits": "1 64\n2 64\n1 64\n2 64\n1 70\n1 64\n2 64\n1 64\n",
}


@rows({f"a list with {it}": it for it in LISTS}, "need_list")
class Waits(Case):
    """Choices of a guest of which waits end because their time is over, which takes none of them."""

    seconds = 1

    def need_list(self, name: str) -> None:
        """Each choice of the list is a slice, and they are those that are printed."""
        pathlib.Path("napping.elf").write_bytes(elf.executable(NAPPING))
        pathlib.Path("list").write_text(LISTS[name], encoding="ascii")
        self.program.run_well("new", "s")
        self.program.run_well("record", "--upgrade", "--choices", "list", "--then", "none", "s", "napping.elf")
        ends = printed.text_of(self.program, "dump", "s", 0).count(" expire tid=2 ")
        self.need("ends of waits", LISTS[name].count("2 64"), ends)
        self.need_line("choices", "s", 0, out=LISTS[name])
