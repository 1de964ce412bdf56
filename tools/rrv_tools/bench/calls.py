"""What a guest's calls cost: opening a store of their small records, SHA-256, and recording them, in memory and on a
disk.

usage: tools/run bench calls [--calls N] [--rounds N] [--folder FOLDER]

The guest makes N calls of sched_yield (160000), each a record. Its store is made in memory (/dev/shm) and on a disk (in
FOLDER, or else among temporary files). The best of N rounds (5) counts: of the processor's seconds, and on the disk of
the clock's. Rows:

- `list` of the store, which makes no record of what it counts, beside `sha256sum` of it. It fails if `list` takes more
  than 35 milliseconds a megabyte.
- SHA-256 by rrv, beside `sha256sum`: `replay --at end` prints a digest of the guest's memory. One that has 60 megabytes
  of it is asked, and what `verify` of it takes is taken off.
- `record` of a call in memory, beside qemu-riscv32, which records nothing, if it is installed.
- `record` of a call on the disk, beside as many bare syncs of that disk as it made, two a body.
"""
import functools
import pathlib
import tempfile
from collections.abc import Sequence

from rrv_tools.bench import guests, programs
from rrv_tools.bench.measuring import (
    MEGABYTE, MEMORY, MILLION, bare_syncs, best_commands, best_of, bodies, clock, parser, print_failures, print_machine,
    processor, recorded, run, written,
)  # fmt: skip

MOST_MILLISECONDS = 35
DIGESTED = 60 * MEGABYTE


def print_opening(rrv: list[str], kept: pathlib.Path, rounds: int) -> float:
    """Returns the milliseconds a megabyte of `list`."""
    best = best_commands(rounds, {"list": [*rrv, "list", kept], "sha256sum": ["sha256sum", kept]})
    megabytes = kept.stat().st_size / MEGABYTE
    found = {name: 1000 * ran.processor / megabytes for name, ran in best.items()}
    for name, each in found.items():
        print(f"{name:34}{each:10.2f} ms a megabyte, of {megabytes:.2f}")
    return found["list"]


def print_digests(rrv: list[str], folder: pathlib.Path, rounds: int) -> None:
    """Prints the rows of SHA-256."""
    program = written(folder / "large.elf", guests.has_memory(DIGESTED))
    kept, zeros = folder / "large", folder / "zeros"
    zeros.write_bytes(bytes(DIGESTED))
    recorded(rrv, kept, program)
    best = best_commands(rounds, {
        "verify": [*rrv, "verify", kept, 0],
        "at": [*rrv, "replay", "--at", "end", kept, 0],
        "sum": ["sha256sum", zeros],
    })
    by_rrv, other = best["at"].processor - best["verify"].processor, best["sum"].processor
    for name, taken in [("SHA-256 by rrv", by_rrv), ("SHA-256 by sha256sum", other)]:
        print(f"{name:34}{DIGESTED / max(taken, 1e-9) / MILLION:10.1f} million bytes a second")


def print_recording(rrv: list[str], program: pathlib.Path, memory: pathlib.Path, calls: int, rounds: int) -> None:
    """Prints the rows of recording in memory."""
    runs = {"record in memory": functools.partial(recorded, rrv, memory / "store", program)}
    qemu = programs.qemu()
    if qemu:
        runs["qemu-riscv32"] = functools.partial(run, *qemu, program)
    for name, ran in best_of(rounds, runs, processor).items():
        print(f"{name:34}{MILLION * ran.processor / calls:10.2f} us of the processor a call", end="")
        print(f"{MILLION * ran.clock / calls:10.2f} by the clock")


def print_disk(rrv: list[str], program: pathlib.Path, disk: pathlib.Path, calls: int, rounds: int) -> None:
    """Prints the rows of recording on the disk."""
    kept = disk / "store"
    best = best_of(rounds, {"disk": functools.partial(recorded, rrv, kept, program)}, clock)["disk"]
    many = len(bodies(kept.read_bytes()))
    bare = min(sum(bare_syncs(disk, many)) for _ in range(rounds))
    print(f"{'record on the disk':34}{MILLION * best.clock / calls:10.2f} us by the clock a call, {many} bodies")
    each = 1000 * bare / 2 / many
    print(f"{'as many bare syncs':34}{MILLION * bare / calls:10.2f} us by the clock a call, {each:.3f} ms each")


def main(words: Sequence[str]) -> int:
    """Measures, and prints."""
    said = parser("calls", __doc__, calls=160_000, rounds=5, folder=None).parse_args(words)
    rrv = programs.build("rrv")
    with tempfile.TemporaryDirectory(dir=MEMORY) as of_memory, tempfile.TemporaryDirectory(dir=said.folder) as of_disk:
        memory, disk = pathlib.Path(of_memory), pathlib.Path(of_disk)
        program = written(disk / "guest.elf", guests.yields(said.calls))
        recorded(rrv, memory / "store", program)
        each = print_opening(rrv, memory / "store", said.rounds)
        print_digests(rrv, memory, said.rounds)
        print_recording(rrv, program, memory, said.calls, said.rounds)
        print_disk(rrv, program, disk, said.calls, said.rounds)
    print_machine()
    return print_failures([f"list: more than {MOST_MILLISECONDS} ms a megabyte"] if each > MOST_MILLISECONDS else [])
