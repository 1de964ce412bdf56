"""Guest instructions a second of verifying and of going to a place, beside one guest's bare step.

usage: tools/run bench replay [--rounds N] [--millions N] [--every N]

The guest counts down, stores a byte, counts down once more, and exits: N million instructions (100). Each row is a
process of `rates replay` that records it by slices of 50,000 instructions and then verifies it or goes to places of it;
what a process takes that does all but the last of this is taken off. The bare step is a process of `rates step`. They
take turns for N rounds (5), and the best time of each counts, which is the processor's.

`verify` and `seek` are without checkpoints: each goes through all instructions from the start. Then come checkpoints at
least so many instructions apart (1048576): what they add to `verify`, 50 places at random from the last checkpoint
before each, and the last change of the byte that the guest stored, sought from its end. A row has the instructions that
were gone through, its seconds, the instructions a second, and what part of the bare step's rate that is. That of the
change goes back checkpoint by checkpoint, and through each span an instruction at a time.
"""
import pathlib
import tempfile
from collections.abc import Sequence

from rrv_tools.bench import guests
from rrv_tools.bench.measuring import MILLION, Ran, best_commands, needed, parser, print_machine, written
from rrv_tools.bench.programs import build
from rrv_tools.program import Word

SLICE, TIMES, PLACES = 50_000, 3, 50


def commands(rates: list[str], path: pathlib.Path, count: int, every: int) -> dict[str, list[Word]]:
    """The commands by their names."""
    replay: list[Word] = [*rates, "replay", path]
    return {
        "bare": [*rates, "step", path],
        "record": [*replay, 0, 0],
        "verify": [*replay, 0, 1],
        "verify often": [*replay, 0, TIMES],
        "seek": [*replay, 0, 1, "seek", count, TIMES],
        "record with": [*replay, every, 0],
        "verify with": [*replay, every, 1],
        "places": [*replay, every, 1, "places", 1, PLACES],
        "change": [*replay, every, 1, "change", guests.BYTE.lower()],
    }


def found_by(ran: Ran) -> int:
    """What a process found."""
    return int(ran.text.split(", ")[2].split()[0])


def main(words: Sequence[str]) -> int:
    """Measures, and prints."""
    said = parser("replay", __doc__, rounds=5, millions=100, every=1_048_576).parse_args(words)
    program, count, stores_at = guests.stores_byte(said.millions)
    with tempfile.TemporaryDirectory() as folder:
        path = written(pathlib.Path(folder, "guest.elf"), program)
        ran = best_commands(said.rounds, commands(build("rates"), path, count, said.every))
    best = {name: it.processor for name, it in ran.items()}
    needed("the byte changes", found_by(ran["change"]), stores_at)
    last = -(-said.every // SLICE) * SLICE
    rows = (
        ("bare step", count, best["bare"]),
        ("verify", (TIMES - 1) * count, best["verify often"] - best["verify"]),
        ("seek from the start", found_by(ran["seek"]), best["seek"] - best["verify"]),
        ("record with checkpoints", count, best["record with"]),
        ("verify with checkpoints", count, best["verify with"] - best["record with"]),
        (f"seek to {PLACES} places", found_by(ran["places"]), best["places"] - best["verify with"]),
        ("last change", count - stores_at // last * last, best["change"] - best["verify with"]),
    )
    for name, executed, taken in rows:
        rate = executed / max(taken, 1e-9)
        print(f"{name:34}{executed:14}{taken:9.2f} s{rate / MILLION:9.1f} M/s{rate * best['bare'] / count:8.2f}")
    print(f"the byte changes at {stores_at} of {count}; checkpoints are {last} instructions apart")
    print_machine()
    return 0
