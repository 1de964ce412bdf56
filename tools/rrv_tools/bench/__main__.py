"""The words of `tools/run bench`: the name of a measurement, and the words that it takes."""
import sys
from collections.abc import Sequence

from rrv_tools import __main__ as tools

LINE = "tools/run bench"
# The modules with `main`, and what each measures or makes.
MEASUREMENTS = {
    "answers": "seconds of verify, replay --at, back and last, by processors",
    "asks": "milliseconds until ask answers",
    "calls": "what a guest's calls cost",
    "changing_code": "random guests whose code changes, compared with two other machines",
    "checkpoints": "milliseconds of a snapshot and of a checkpoint",
    "every": "what checkpoints cost a recording, by --every",
    "instructions": "host instructions for one of the guest's, by callgrind",
    "latency": "milliseconds until what a guest writes leaves",
    "replay": "instructions a second of verifying and of going to a place",
    "run": "instructions a second, beside plain Rust and qemu-riscv32",
    "sessions": "instructions a second of guests that are recorded at once",
    "store": "seconds and memory of opening a large store",
    "yields": "makes guests of so many calls",
}


def main(words: Sequence[str]) -> int:
    """Measures; the status is the measurement's, or 2 if there is none of that name."""
    return tools.main(words, {name: (f"rrv_tools.bench.{name}", it) for name, it in MEASUREMENTS.items()}, LINE)


if __name__ == "__main__":
    try:
        sys.exit(main(sys.argv[1:]))
    except KeyboardInterrupt:
        sys.exit(130)
