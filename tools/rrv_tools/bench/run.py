"""Guest instructions a second, side by side in one run: rrv's step, recording, following and `rrv verify`, the same
interpreter in plain Rust, and qemu-riscv32.

usage: tools/run bench run [--rounds N]

Each runs each program of bench/guests up to its exit, in N rounds (20), and always on the same processor; the best time
counts, which is the processor's and has the start of the process in it. The programs are short and the rounds many,
since a short run finds a moment without noise sooner than a long one. A row is a guest, a column a program; the second
number of a cell is the part of the step's rate.

`changing` stores instructions into a page that may be run and written, and runs them; `mapping` maps and unmaps a page
in its loop: it makes calls, so that the step and plain Rust, which stop at a call, don't run it. `plain Rust` decodes
pages once and has a table of counted pages, as rrv; `plain, old` decodes each time and has an ordered map of pages.
Recording is by slices of 50,000, whose frames are kept in memory. Following is of the same frames: they are recorded
and then followed twice in one process, and what recording alone takes is taken off. `rrv verify` is the command, of a
store in a file that `rrv record` made, on that processor alone: side by side each is slower. From `opened` what `rrv
list` of that store takes is taken off: to start, and to compute SHA-256 of all its checkpoints, which are more or fewer
by guest.

The last row is the seconds of `rrv record` on guests of so many calls, each call a record: ten times the records should
take no more than twelve times as long. What isn't installed (rustc, qemu-riscv32) is left out. The programs' ELF files
stand beside their sources, and were made by riscv64-unknown-elf-gcc with the flags in programs.py.
"""
import functools
import pathlib
import tempfile
from collections.abc import Mapping, Sequence

from rrv_tools.bench import guests, programs
from rrv_tools.bench.measuring import (
    MILLION, PROCESSORS, best_commands, best_of, parser, print_machine, processor, recorded, written,
)  # fmt: skip
from rrv_tools.program import Word

WITHOUT_CALLS = ["arithmetic", "memory", "mixed", "changing"]
NAMES = [*WITHOUT_CALLS, "mapping"]
CALLS = [16_000, 160_000]
FOLLOWED = 2
STEP, RECORDING, FOLLOWING, VERIFY = "rrv, step", "rrv, recording", "rrv, following", "rrv verify"
LIST, OPENED = "rrv list", "opened"
PLAIN, OLD, QEMU = "plain Rust", "plain, old", "qemu-riscv32"
STOP_AT_CALLS = [STEP, PLAIN, OLD]
# The seconds of a program on a guest, by both names.
Seconds = dict[tuple[str, str], float]


def print_calls(rounds: int, rrv: list[str]) -> None:
    """Prints what guests take that make many calls."""
    with tempfile.TemporaryDirectory() as name:
        folder = pathlib.Path(name)
        files = [written(folder / f"{it}.elf", guests.yields(it)) for it in CALLS]
        runs = {it: functools.partial(recorded, rrv, it.with_suffix(".store"), it) for it in files}
        few, many = (it.processor for it in best_of(rounds, runs, processor).values())
    print(f"rrv record: {CALLS[0]} calls {few:.3f} s, {CALLS[1]} calls {many:.3f} s, {many / few:.1f} times as long")


def commands(rrv: list[str], folder: pathlib.Path) -> dict[tuple[str, str], list[Word]]:
    """What runs each program on each guest that it is for; one that isn't installed is left out."""
    rates = programs.build("rates")
    runs = {
        STEP: [*rates, "step"],
        RECORDING: [*rates, "slice", "0"],
        FOLLOWING: [*rates, "slice", str(FOLLOWED)],
        PLAIN: programs.build_plain("decoded"),
        OLD: programs.build_plain("main"),
        QEMU: programs.qemu(),
    }
    alone = ["taskset", "--cpu-list", str(PROCESSORS[-1])]
    found: dict[tuple[str, str], list[Word]] = {}
    for name, words in runs.items():
        for guest in (WITHOUT_CALLS if name in STOP_AT_CALLS else NAMES) if words else ():
            found[name, guest] = [*alone, *(words or ()), programs.GUESTS / f"{guest}.elf"]
    for guest in NAMES:
        store = folder / f"{guest}.store"
        recorded(rrv, store, programs.GUESTS / f"{guest}.elf")
        found[VERIFY, guest] = [*alone, *rrv, "verify", store, 0]
        found[LIST, guest] = [*alone, *rrv, "list", store]
    return found


def cell(best: Seconds, counts: Mapping[str, int], name: str, guest: str) -> str:
    """The rate of a program on a guest, and its part of the step's."""
    if (name, guest) not in best:
        return "-"
    taken, step = best[name, guest], best.get((STEP, guest))
    return f"{counts[guest] / taken / MILLION:.0f} M/s " + (f"{step / taken:6.2f}" if step else " " * 6)


def print_guests(rounds: int, rrv: list[str]) -> None:
    """Prints the row of each guest."""
    with tempfile.TemporaryDirectory() as folder:
        found = best_commands(rounds, commands(rrv, pathlib.Path(folder)))
    counts = {guest: int(found[RECORDING, guest].text.split()[0]) for guest in NAMES}
    best = {key: ran.processor for key, ran in found.items()}
    # The best times are subtracted, and not the times of one round: there a slow recording would pass for fast
    # following.
    for guest in NAMES:
        best[FOLLOWING, guest] = (best[FOLLOWING, guest] - best[RECORDING, guest]) / FOLLOWED
        best[OPENED, guest] = best[VERIFY, guest] - best.pop((LIST, guest))
    columns = list(dict.fromkeys(name for name, _ in best))
    print(f"{'':12}" + "".join(f"{name:>18}" for name in columns))
    for guest in NAMES:
        print(f"{guest:12}" + "".join(f"{cell(best, counts, name, guest):>18}" for name in columns))


def main(words: Sequence[str]) -> int:
    """Measures, and prints."""
    said = parser("run", __doc__, rounds=20).parse_args(words)
    rrv = programs.build("rrv")
    print_guests(said.rounds, rrv)
    print_calls(said.rounds, rrv)
    print_machine()
    return 0
