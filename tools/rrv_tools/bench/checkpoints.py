"""Milliseconds of a snapshot, of what changed since one, and of a checkpoint against one, of a guest that has 16,384
pages that lie close together, and the bytes of a checkpoint.

usage: tools/run bench checkpoints [--rounds N] [--runs N]

A round of `snapshot` takes one and drops it; between the two `changed` makes one store and lists the pages that
changed, and `make` stores into 10 pages and makes a checkpoint. What 10 rounds of a process of `rates checkpoint` take
is taken off what N take (1000), by the best processor time of N runs each (5). It fails if a row isn't below its bound.
"""
import functools
from collections.abc import Sequence

from rrv_tools.bench.measuring import Ran, best_of, needed, parser, print_machine, run
from rrv_tools.bench.programs import build

PAGES, FEW = 16_384, 10
# What is done, the milliseconds below which a round lies, and what a round finds.
ROUNDS = [("snapshot", 1, 1), ("changed", 1, 1), ("make", 5, 10)]
# How many stores there are, and the bytes below which the records lie.
STORES = [(1, 500), (1_000_000, None)]


def found_in(program: list[str], kind: str, count: int, each: int | None = None) -> tuple[int, Ran]:
    """What a process found, which is so many each time if that is known, and what it took."""
    ran = run(*program, kind, PAGES, count)
    pages, often, found = (int(it.partition("=")[2]) for it in ran.text.split())
    wanted = found if each is None else each * count
    needed(f"{kind} {count}", (pages, often, found), (PAGES, count, wanted))
    return found, ran


def seconds(found: tuple[int, Ran]) -> float:
    """The processor's seconds of a process that found something."""
    return found[1].processor


def milliseconds(program: list[str], kind: str, each: int, rounds: int, runs: int) -> float:
    """The milliseconds of a round, in which so many are found."""
    takes = {count: functools.partial(found_in, program, kind, count, each) for count in (FEW, rounds)}
    best = best_of(runs, takes, seconds)
    return 1000 * (seconds(best[rounds]) - seconds(best[FEW])) / (rounds - FEW)


def is_held(name: str, number: float, text: str, bound: int | None) -> bool:
    """Prints a row, and returns whether its bound is held."""
    print(f"{name:24}{text:>14}{'' if bound is None else f'   below {bound}'}")
    return bound is None or number < bound


def main(words: Sequence[str]) -> int:
    """Measures, and prints."""
    asked = parser("checkpoints", __doc__, rounds=1000, runs=5)
    said = asked.parse_args(words)
    if said.rounds <= FEW or said.runs < 1:
        asked.error(f"more than {FEW} rounds are needed, and a run")
    program = [*build("rates"), "checkpoint"]
    held = []
    for kind, most, each in ROUNDS:
        taken = milliseconds(program, kind, each, said.rounds, said.runs)
        held.append(is_held(kind, taken, f"{taken:.3f} ms", most))
    for stores, bound in STORES:
        found, _ = found_in(program, "bytes", stores)
        held.append(is_held(f"bytes, stores: {stores}", found, f"{found} bytes", bound))
    print_machine()
    return 0 if all(held) else 1
