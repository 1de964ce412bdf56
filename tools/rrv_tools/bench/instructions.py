"""Host instructions for one of the guest's, by callgrind: rrv's step, and the same interpreter in plain Rust. They
don't change with the machine's load, as times do.

usage: tools/run bench instructions [--arithmetic N] [--memory N] [--mixed N] [--old FILE]

Each guest of bench/guests is built with few turns and with more (riscv64-unknown-elf-gcc, with the flags in programs.py
and -DTURNS=N); each program runs both, and what the few take is taken off: the start of the process, the opening of the
guest, and the decoding of its pages. It fails if rrv's step takes more than N for a guest's instruction (21, 30 and
25).

The last rows are of `rrv record --quantum 64`, a slice and a record for each 64 instructions, by all threads of the
process: of the program that stands, and with --old of another rrv, as one that was built before. Threads that wait for
each other or for a disk only add, so the stores are kept in memory (/dev/shm), and the least of 3 counts. It fails if
that which stands takes more than 114, 96 and 92, or more than the one that is given.
"""
import pathlib
import re
import subprocess
import sys
import tempfile
from collections.abc import Callable, Iterator, Mapping, Sequence

from rrv_tools.bench.measuring import MEMORY, parser, print_failures, print_machine, run
from rrv_tools.bench.programs import build, build_guest, build_plain
from rrv_tools.program import Word

# A guest, its few turns, its more turns, and the bound.
GUESTS = [("arithmetic", 1_000, 51_000, 21), ("memory", 1_000, 51_000, 30), ("mixed", 1, 2, 25)]
# The bounds with slices of 64, in that order.
MOST_64, RUNS_64 = [114, 96, 92], 3
STEP, SLICES, OLD = "rrv, step", "rrv, 64", "old rrv, 64"
# How many instructions of the host and of the guest a program takes on a guest.
Count = Callable[[Sequence[str], pathlib.Path], tuple[int, int]]


def called(command: Sequence[Word]) -> tuple[str, int]:
    """What a command prints, and how many instructions of the host it takes."""
    words = ["valgrind", "--tool=callgrind", "--callgrind-out-file=/dev/null", *(str(it) for it in command)]
    done = subprocess.run(words, capture_output=True, text=True, check=False)
    found = re.search(r"Collected : (\d+)", done.stderr)
    if done.returncode != 0 or not found:
        sys.exit(f"{command}: status {done.returncode}\n{done.stdout}{done.stderr}")
    return done.stdout, int(found.group(1))


def counted(program: Sequence[str], guest: pathlib.Path) -> tuple[int, int]:
    """How many instructions of the host and of the guest a program takes that prints the guest's."""
    text, host = called([*program, guest])
    return host, int(text.split()[0])


def counted_slices(rrv: Sequence[str], guest: pathlib.Path) -> tuple[int, int]:
    """The same of recording it with slices of 64, by the run of a few whose threads waited least."""
    store = guest.with_suffix(".store")
    hosts = []
    for _ in range(RUNS_64):
        store.unlink(missing_ok=True)
        run(*rrv, "new", store)
        hosts.append(called([*rrv, "record", "--quantum", 64, "--every", 0, store, guest])[1])
    return min(hosts), int(run(*rrv, "list", store).text.partition(" instructions=")[2])


def for_one(count: Count, program: Sequence[str], few: pathlib.Path, more: pathlib.Path) -> float:
    """The instructions of the host for one of the guest's."""
    (host_few, guest_few), (host_more, guest_more) = count(program, few), count(program, more)
    return (host_more - host_few) / (guest_more - guest_few)


def failures(table: Mapping[str, list[float]], bounds: Sequence[float]) -> Iterator[str]:
    """What takes more than it may."""
    rows = [(STEP, bounds, "its bound"), (SLICES, MOST_64, "its bound"), (SLICES, table.get(OLD, MOST_64), OLD)]
    for row, most, whose in rows:
        for (name, *_), number, bound in zip(GUESTS, table[row], most, strict=True):
            if bound < number:
                yield f"{row}, {name}: above {bound:.4g}, {whose}"


def main(words: Sequence[str]) -> int:
    """Counts, and prints."""
    bounds = {name: float(bound) for name, _, _, bound in GUESTS}
    said = parser("instructions", __doc__, old=None, **bounds).parse_args(words)
    plain = {"plain Rust": build_plain("decoded"), "plain, old": build_plain("main")}
    rows: dict[str, tuple[Count, list[str]]] = {STEP: (counted, [*build("rates"), "step"])}
    rows.update({name: (counted, it) for name, it in plain.items() if it})
    rows[SLICES] = counted_slices, build("rrv")
    if said.old:
        rows[OLD] = counted_slices, [str(said.old.resolve())]
    print(f"{'':12}" + "".join(f"{name:>12}" for name, *_ in GUESTS))
    table = {}
    with tempfile.TemporaryDirectory(dir=MEMORY) as folder:
        at = pathlib.Path(folder)
        pairs = [(build_guest(name, few, at), build_guest(name, more, at)) for name, few, more, _ in GUESTS]
        for name, (count, program) in rows.items():
            table[name] = [for_one(count, program, *pair) for pair in pairs]
            print(f"{name:12}" + "".join(f"{number:12.1f}" for number in table[name]))
    print_machine()
    return print_failures(list(dict.fromkeys(failures(table, [vars(said)[name] for name in bounds]))))
