"""Seconds and memory of opening a large store, and of verifying a guest of it, beside the seconds of sha256sum of the
same file.

usage: tools/run bench store [--megabytes N] [--guest ELF] [--every N] [--quantum N] [--rounds N] [--at FILE]

`rrv record` records two endless guests until the store has N megabytes (1024), and is then killed: the store is as a
crash leaves it. The guests (bench/guests/filling) change all of 64 pages between two checkpoints, so most of the store
are checkpoints' parts; others may be given, as examples/endless/primes.elf with small slices, whose records are small:
there the bound on memory can't hold for a gigabyte. `rrv list` opens the store and `rrv verify` replays its first
guest. The best processor time of each in N rounds (3) counts, and the most memory that it had at once, which GNU time
prints (`time` has to be installed). It fails if opening takes more than 1.5 times as long as sha256sum, or if one takes
64 megabytes or more. The store is kept if FILE is given.
"""
import dataclasses
import pathlib
import subprocess
import sys
import tempfile
import time
from collections.abc import Sequence

from rrv_tools.bench import programs
from rrv_tools.bench.measuring import MEGABYTE, parser, print_failures, print_machine, run
from rrv_tools.program import Word

GUEST, GUESTS = programs.GUESTS / "filling.elf", 2
MOST_TIMES, MOST_MEGABYTES = 1.5, 64
# A store that grows no more within so many seconds isn't waited for.
PATIENCE = 60


@dataclasses.dataclass
class Taken:
    """What a command printed last, the best of its processor's seconds, and the most kilobytes that it had."""

    text: str = ""
    seconds: float = float("inf")
    kilobytes: int = 0

    def take(self, command: Sequence[Word]) -> None:
        """Runs it once more."""
        # Another process than this one is asked, whose own memory would count.
        with tempfile.NamedTemporaryFile("r") as report:
            ran = run("time", "--format=%U %S %M", f"--output={report.name}", *command)
            user, system, kilobytes = report.read().split()
        self.text, self.seconds = ran.text, min(self.seconds, float(user) + float(system))
        self.kilobytes = max(self.kilobytes, int(kilobytes))


def record(file: pathlib.Path, megabytes: int, words: Sequence[Word]) -> None:
    """Records endless guests until the store is so large."""
    with subprocess.Popen([str(it) for it in words], stdout=subprocess.DEVNULL, stderr=subprocess.DEVNULL) as recording:
        size, grown = 0, time.monotonic()
        while size < megabytes * MEGABYTE:
            time.sleep(0.1)
            now = file.stat().st_size
            if now != size:
                size, grown = now, time.monotonic()
            if recording.poll() is not None or time.monotonic() - grown > PATIENCE:
                recording.kill()
                sys.exit(f"the recording stopped, or its store stayed as it is, at {size} bytes")
        recording.kill()


def measure(rrv: list[str], file: pathlib.Path, rounds: int) -> list[str]:
    """Measures in turns; returns what is too much."""
    commands: dict[str, list[Word]] = {
        "sha256sum": ["sha256sum", file], "list": [*rrv, "list", file], "verify": [*rrv, "verify", file, 0]}
    taken = {name: Taken() for name in commands}
    for _ in range(rounds):
        for name, command in commands.items():
            taken[name].take(command)
    megabytes = file.stat().st_size / MEGABYTE
    print(f"{megabytes:.1f} megabytes, of which verify prints: {taken['verify'].text.strip()}")
    for name, it in taken.items():
        print(f"{name:10}{it.seconds:9.3f} s{1000 * it.seconds / megabytes:9.2f} ms a megabyte", end="")
        print(f"{it.kilobytes / 1024:9.1f} megabytes of memory")
    large = [it for it in ("list", "verify") if taken[it].kilobytes >= MOST_MEGABYTES * 1024]
    failed = [f"{name}: {MOST_MEGABYTES} megabytes or more" for name in large]
    if MOST_TIMES * taken["sha256sum"].seconds < taken["list"].seconds:
        failed.append(f"list: more than {MOST_TIMES} times as long as sha256sum")
    return failed


def main(words: Sequence[str]) -> int:
    """Measures, and prints."""
    said = parser("store", __doc__, megabytes=1024, every=250_000, quantum=50_000, rounds=3, guest=None,
                  at=None).parse_args(words)
    rrv = programs.build("rrv")
    with tempfile.TemporaryDirectory() as folder:
        file: pathlib.Path = said.at or pathlib.Path(folder, "store")
        run(*rrv, "new", file)
        options = ["--quantum", said.quantum, "--every", said.every]
        record(file, said.megabytes, [*rrv, "record", *options, file, *[said.guest or GUEST] * GUESTS])
        failed = measure(rrv, file, said.rounds)
    print_machine()
    return print_failures(failed)
