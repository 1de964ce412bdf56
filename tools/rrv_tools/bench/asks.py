"""Milliseconds until `rrv ask` answers, by the clock.

usage: tools/run bench asks [--millions N] [--rounds N] [--every N]

The guest counts down, stores a byte, counts down once more and exits, as in `answers`: N million instructions (100),
recorded with checkpoints so many apart (1048576). One `ask` is asked for N rounds (100) in turn for a place at random,
for where that is, for the end, and from there for the last change of the byte, which is half of all instructions back.
Then a second one, `ask --short`, is asked for the place, for the end and for the change. A row has the first tenth, the
median and the last tenth of the times from a line to the end of its answer. It fails if the median of a place is 20
milliseconds or more, with `--short` 10, or that of a change 300.
"""
import pathlib
import random
import subprocess
import sys
import tempfile
import time
from collections.abc import Sequence

from rrv_tools.bench import guests, programs
from rrv_tools.bench.measuring import parser, print_failures, print_machine, recorded, tenths, written

NAMES = ("at", "where", "at end", "last", "at, short", "at end, short", "last, short")
# The medians in milliseconds below which they lie.
MOST = {"at": 20, "last": 300, "at, short": 10, "last, short": 300}


def asked(ask: "subprocess.Popen[str]", line: str, begins: str) -> float:
    """How many milliseconds an answer took, which has to begin so."""
    assert ask.stdin and ask.stdout
    start, answer = time.monotonic(), [""]
    ask.stdin.write(f"{line}\n")
    ask.stdin.flush()
    while answer[-1] != ".\n":
        answer.append(ask.stdout.readline())
        if not answer[-1]:
            sys.exit(f"{line}: ask ended")
    taken = 1000 * (time.monotonic() - start)
    if not answer[1].startswith(begins):
        sys.exit(f"{line}: found {answer[1]!r}, and not {begins!r}")
    return taken


def opened(rrv: list[str], kept: pathlib.Path, *options: str) -> "subprocess.Popen[str]":
    """An `ask` about the guest."""
    words = [*rrv, "ask", *options, str(kept), "0"]
    return subprocess.Popen(words, stdin=subprocess.PIPE, stdout=subprocess.PIPE, text=True)


def measured(rrv: list[str], folder: pathlib.Path, millions: int, rounds: int, every: int) -> dict[str, list[float]]:
    """The milliseconds of each question, in turn."""
    content, count, stores_at = guests.stores_byte(millions)
    program, kept, draw = written(folder / "guest.elf", content), folder / "store", random.Random(1)
    recorded(rrv, kept, program, "--every", every)
    taken: dict[str, list[float]] = {name: [] for name in NAMES}
    last = f"last {guests.BYTE}"
    with opened(rrv, kept) as ask, opened(rrv, kept, "--short") as short:
        for _ in range(rounds):
            place = draw.randrange(count)
            taken["at"].append(asked(ask, f"at {place}", f"at {place} of {count}\n"))
            taken["where"].append(asked(ask, "where", f"at {place} of {count} thread "))
            taken["at end"].append(asked(ask, "at end", f"at {count} of {count}\n"))
            taken["last"].append(asked(ask, last, f"at {stores_at} of {count}\n"))
            taken["at, short"].append(asked(short, f"at {place}", f"at {place} of {count} thread "))
            taken["at end, short"].append(asked(short, "at end", f"at {count} of {count}\n"))
            taken["last, short"].append(asked(short, last, f"at {stores_at} of {count} thread "))
        for it in (ask, short):
            assert it.stdin
            it.stdin.close()
    return taken


def main(words: Sequence[str]) -> int:
    """Measures, and prints."""
    said = parser("asks", __doc__, millions=100, rounds=100, every=1_048_576).parse_args(words)
    with tempfile.TemporaryDirectory() as folder:
        taken = measured(programs.build("rrv"), pathlib.Path(folder), said.millions, said.rounds, said.every)
    found = {name: tenths(times) for name, times in taken.items()}
    count = guests.stores_byte(said.millions)[1]
    print(f"{f'{count} instructions, milliseconds':28}{'first tenth':>14}{'median':>10}{'last tenth':>12}")
    for name, (first, median, last) in found.items():
        print(f"{name:28}{first:14.2f}{median:10.2f}{last:12.2f}")
    print_machine()
    medians = {name: found[name][1] for name in MOST}
    return print_failures([f"{name}: a median of {medians[name]:.1f} milliseconds, and not below {most}"
                           for name, most in MOST.items() if medians[name] >= most])
