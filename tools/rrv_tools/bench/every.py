"""What checkpoints cost a recording, by how much the guest writes between two and by `--every`.

usage: tools/run bench every [--rounds N] [--every N,auto,N..] [--svg FILE] [GUEST..]

Guests: `computes` counts down, 320 million instructions. `pages` stores a word in each page of 60 megabytes, 100 times,
and `lines` one in each 64 bytes of them, 10 times. Each is recorded in memory (/dev/shm) without checkpoints and with
those of some `--every` (1048576, 10000000, 100000000, auto), for N rounds (3), and the best of the processor's seconds
counts. A row has these, how many times as long as without checkpoints that is, the megabytes of the store, and those
for a million instructions. After it is what `sha256sum` of the store takes. The first rows of a guest are `rates step`
and qemu-riscv32, which record nothing, if they are installed. `rates` is left out if RRV_PROGRAM names the program that
is measured.

With --svg FILE the processor's seconds of each guest's recordings are drawn by `--every`, as docs/every.svg is.
"""
import functools
import pathlib
import tempfile
from collections.abc import Callable, Mapping, Sequence

from rrv_tools.bench import guests, programs
from rrv_tools.bench.guests import Counted
from rrv_tools.bench.measuring import (
    MEGABYTE, MEMORY, MILLION, Ran, best_commands, best_of, circumstances, needed, parser, print_machine, processor,
    recorded, run, written,
)  # fmt: skip
from rrv_tools.bench.plots import Plot, svg
from rrv_tools.elf import PAGE

WRITTEN, LINE = 60 * MEGABYTE, 64
EVERY = "1048576,10000000,100000000,auto"
GUESTS: dict[str, Callable[[], Counted]] = {
    "computes": lambda: guests.computes(160 * MILLION),
    "pages": lambda: guests.stores_words(WRITTEN, PAGE, 100),
    "lines": lambda: guests.stores_words(WRITTEN, LINE, 10),
}


def peers(program: pathlib.Path) -> dict[str, Callable[[], Ran]]:
    """What runs the guest and records nothing."""
    found = {"rates step": programs.build_beside("rates", "step"), "qemu-riscv32": programs.qemu()}
    return {name: functools.partial(run, *words, program) for name, words in found.items() if words}


def print_guest(rrv: list[str], name: str, folder: pathlib.Path, every: list[str], rounds: int) -> list[float]:
    """Prints the rows of a guest, and returns the processor's seconds of its recordings."""
    content, count = GUESTS[name]()
    program = written(folder / f"{name}.elf", content)
    kept = {it: folder / f"{name}.{it}" for it in every}
    beside = peers(program)
    take = functools.partial(recorded, rrv)
    recordings = {f"--every {it}": functools.partial(take, kept[it], program, "--every", it) for it in every}
    best = best_of(rounds, {**beside, **recordings}, processor)
    [line] = run(*rrv, "list", kept["0"]).text.splitlines()
    needed(f"{name}: {line}", line.rpartition(" ")[2], f"instructions={count}")
    print(f"{name}: {count} instructions")
    bare = best["--every 0"].processor
    for it in beside:
        print(f"  {it:20}{best[it].processor:9.3f} s{best[it].processor / bare:8.2f}")
    for number in every:
        print_row(f"--every {number}", best[f"--every {number}"].processor, bare, kept[number], count)
        kept[number].unlink()
    return [best[f"--every {it}"].processor for it in every]


def print_row(name: str, taken: float, bare: float, kept: pathlib.Path, count: int) -> None:
    """Prints the row of a recording."""
    megabytes, summed = kept.stat().st_size / MEGABYTE, best_commands(1, {0: ["sha256sum", kept]})[0].processor
    print(f"  {name:20}{taken:9.3f} s{taken / bare:8.2f}", end="")
    print(f"{megabytes:10.2f} MB{megabytes / count * MILLION:9.3f} a million{summed:9.3f} s sha256sum")


def setting(every: str) -> tuple[int, int, str]:
    """The place of an `--every` on the axis, and its name there: none, then from the fewest checkpoints to the most,
    then auto."""
    if every == "auto":
        return 2, 0, every
    return (1, -int(every), f"{int(every):,}") if int(every) else (0, 0, "none")


def plot_of(seconds: Mapping[str, list[float]], every: list[str]) -> Plot:
    """The seconds of each guest's recordings, by `--every`."""
    order = sorted(range(len(every)), key=lambda place: setting(every[place]))
    settings = [setting(every[it])[2] for it in order]
    lines = {name: [taken[it] for it in order] for name, taken in seconds.items()}
    title = "Seconds of the processor, of a recording, by --every"
    axis = "instructions between checkpoints (--every)"
    return Plot(title, "s", axis, settings, lines, circumstances(), is_log=True)


def main(words: Sequence[str]) -> int:
    """Measures, prints, and draws if that is asked for."""
    asked = parser("every", __doc__, rounds=3, every=EVERY, svg=None)
    asked.add_argument("guests", nargs="*", metavar="GUEST", default=list(GUESTS))
    said = asked.parse_args(words)
    if unknown := set(said.guests) - set(GUESTS):
        asked.error(f"no such guest: {', '.join(sorted(unknown))}")
    every, rrv = ["0", *said.every.split(",")], programs.build("rrv")
    with tempfile.TemporaryDirectory(dir=MEMORY) as folder:
        at = pathlib.Path(folder)
        seconds = {name: print_guest(rrv, name, at, every, said.rounds) for name in said.guests}
    print_machine()
    if said.svg:
        said.svg.write_text(svg(plot_of(seconds, every)), encoding="utf-8")
    return 0
