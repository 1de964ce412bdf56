"""Seconds of what is asked of a long recording, on one processor and on several: `verify`, `replay --at`, `back` and
`last`.

usage: tools/run bench answers [--millions N] [--rounds N] [--every N] [--svg FILE]

The guest counts down, stores a byte, counts down once more and exits: N million instructions (1000), recorded with
checkpoints so many apart (1048576). `replay --at` asks for the place after 7/8 of them, `back` for that half of them
before the end, and `last` for the change of the byte, which is half of them before the end too. Each is asked on 1, 2
and 4 processors, as far as there are as many (taskset), beside one process of the interpreter in plain Rust and of
qemu-riscv32, as far as they are installed, and as many processes of `rates step` as there are processors, one on each.
They take turns for N rounds (3), and the best time of each by the clock counts, with the start of the process.

A cell has the seconds, the million instructions a second, of all that the guest ran, and how many times the rate of one
processor that is. Of several processes of `rates step` it has the seconds for each of their guests: so its last number
is how many processors' worth of work the machine does at once. It fails on four processors if `verify` or `replay --at`
has less than 0.8 of that: of four full processors 3.2 times the rate of one. It fails too if `last` takes more than
twice as long as `verify`. `rates` is left out if RRV_PROGRAM names the program that is measured, and with it what is
compared with it.

With --svg FILE the seconds of `verify`, `replay --at` and `last` are drawn by the number of processors, as
docs/verify.svg is.
"""
import argparse
import functools
import pathlib
import subprocess
import sys
import tempfile
import time
from collections.abc import Callable, Iterator, Sequence

from rrv_tools.bench import guests, programs
from rrv_tools.bench.measuring import (
    MILLION, PROCESSORS, Ran, best_of, circumstances, clock, parser, print_failures, print_machine, recorded, run,
    written,
)  # fmt: skip
from rrv_tools.bench.plots import Plot, svg
from rrv_tools.program import Word

COUNTS, MOST = [1, 2, 4], 4
STEP = "rates step"
LEAST_PART, MOST_OF_VERIFY = 0.8, 2
DRAWN = ("verify", "replay --at", "last")
# The seconds of what runs, by its name and by how many processors it has.
Seconds = dict[tuple[str, int], float]


def questions(rrv: list[str], kept: pathlib.Path, count: int, stores_at: int) -> dict[str, tuple[list[Word], str]]:
    """What is asked, by its words, and how the answer begins."""
    place, half = count * 7 // 8, count // 2
    return {
        "verify": ([*rrv, "verify", kept, 0], "ok "),
        "replay --at": ([*rrv, "replay", "--at", place, kept, 0], f"at {place} of {count}\n"),
        "back": ([*rrv, "back", kept, 0, "end", half], f"at {count - half} of {count}\n"),
        "last": ([*rrv, "last", kept, 0, "end", guests.BYTE], f"at {stores_at} of {count}\n"),
    }


def asked(command: list[Word], begins: str, processors: int) -> Ran:
    """What a question took, once it is answered as it has to be."""
    ran = run(*command, on=PROCESSORS[:processors])
    if not ran.text.startswith(begins):
        sys.exit(f"{command}: found {ran.text[:80]!r}, and not {begins!r}")
    return ran


def at_once(command: list[Word], processes: int) -> Ran:
    """The seconds of a command by the clock, for each of so many processes of it, one on each processor, which run at
    once."""
    start = time.monotonic()
    words = [["taskset", "--cpu-list", str(it), *map(str, command)] for it in PROCESSORS[:processes]]
    started = [subprocess.Popen(it, stdin=subprocess.DEVNULL, stdout=subprocess.DEVNULL) for it in words]
    if any([it.wait() for it in started]):
        sys.exit(f"{command}: {[it.returncode for it in started]}")
    return Ran("", (time.monotonic() - start) / processes, 0)


def failures(seconds: Seconds) -> Iterator[str]:
    """What is slower than it has to be on four processors."""
    together = seconds[STEP, 1] / seconds[STEP, MOST] if (STEP, MOST) in seconds else None
    for name in ("verify", "replay --at") if together else ():
        times = seconds[name, 1] / seconds[name, MOST]
        if together and times < LEAST_PART * min(together, MOST):
            yield f"{name}: {times:.2f} times the rate of one processor; {STEP} has {together:.2f} times that"
    times = seconds["last", MOST] / seconds["verify", MOST]
    if times > MOST_OF_VERIFY:
        yield f"last: {times:.2f} times as long as verify, and not {MOST_OF_VERIFY}"


def print_rows(seconds: Seconds, count: int, counts: list[int]) -> None:
    """Prints a row for each that runs, with a cell for each number of processors."""
    print(f"{count} instructions" + "".join(f"{many:>12} of {len(PROCESSORS)} processors" for many in counts))
    for name in dict.fromkeys(it for it, _ in seconds):
        cells = ((seconds[name, many], seconds[name, 1]) for many in counts if (name, many) in seconds)
        texts = (f"{taken:10.3f} s{count / taken / MILLION:9.1f} M/s{one / taken:6.2f}" for taken, one in cells)
        print(f"{name:14}{''.join(texts)}")


def plot_of(seconds: Seconds, count: int, counts: list[int]) -> Plot:
    """The seconds of what is asked, by the number of processors."""
    title = f"Seconds by the clock, of a recording of {round(count / MILLION)} million instructions"
    lines = {name: [seconds[name, many] for many in counts] for name in DRAWN}
    axis, settings = f"processors, of {len(PROCESSORS)}", [str(it) for it in counts]
    return Plot(title, "s", axis, settings, lines, circumstances())


def measured(said: argparse.Namespace, folder: pathlib.Path, counts: list[int]) -> tuple[Seconds, int]:
    """The best seconds of each, and how many instructions the guest has."""
    rrv, step = programs.build("rrv"), programs.build_beside("rates", "step")
    content, count, stores_at = guests.stores_byte(said.millions)
    program, kept = written(folder / "guest.elf", content), folder / "store"
    recorded(rrv, kept, program, "--every", said.every)
    runs: dict[tuple[str, int], Callable[[], Ran]] = {}
    for many in counts if step else ():
        runs[STEP, many] = functools.partial(at_once, [*(step or ()), program], many)
    for name, peer in (("plain Rust", programs.build_plain("decoded")), ("qemu-riscv32", programs.qemu())):
        if peer:
            runs[name, 1] = functools.partial(run, *peer, program, on=PROCESSORS[:1])
    for name, (words, begins) in questions(rrv, kept, count, stores_at).items():
        runs.update({(name, many): functools.partial(asked, words, begins, many) for many in counts})
    return {key: ran.clock for key, ran in best_of(said.rounds, runs, clock).items()}, count


def main(words: Sequence[str]) -> int:
    """Measures, prints, and draws if that is asked for."""
    said = parser("answers", __doc__, millions=1000, rounds=3, every=1_048_576, svg=None).parse_args(words)
    counts = [it for it in COUNTS if it <= len(PROCESSORS)]
    with tempfile.TemporaryDirectory() as folder:
        seconds, count = measured(said, pathlib.Path(folder), counts)
    print_rows(seconds, count, counts)
    print_machine()
    if said.svg:
        said.svg.write_text(svg(plot_of(seconds, count, counts)), encoding="utf-8")
    return print_failures(list(failures(seconds)) if MOST in counts else [])
