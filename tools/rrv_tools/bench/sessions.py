"""Guest instructions a second of a session, beside one guest's bare step.

usage: tools/run bench sessions [--rounds N] [--millions N] [GUESTS..]

The guest only computes: it counts down, and exits. For each number of guests (1, 2, 4 and 16, or those that are given)
`rates session` records so many of them at once to a disk in memory, by slices of 50,000 instructions, and as many
processes of `rates step` run one each, at once, and record nothing. One process of `rates step` alone is the bare step.
They take turns for N rounds (5), so that a change in the machine's load meets all of them, and the best time of each
counts. A time is the clock's, and has the start of the processes in it; a guest runs N million instructions (200), and
of more than four guests a part of it, so that this is small.

A row has the instructions of all guests a second; what part of the bare step's rate that is; the same for each
processor that the guests can use; what part it is of the rate of as many bare steps at once, which says what recording
costs where processors share their speed or are not free; the guests' rate for each processor second of their own
threads, as a part of the bare step's; the part of a processor that the flusher used; and how many bytes of the store a
million instructions took, in the least and the most of the runs: fewer if more records were committed together.
"""
import contextlib
import pathlib
import subprocess
import sys
import tempfile
import time
from collections.abc import Sequence

from rrv_tools.bench import guests
from rrv_tools.bench.measuring import MILLION, PROCESSORS, parser, print_machine
from rrv_tools.bench.programs import build

SLICE = 50_000


def run(command: Sequence[str]) -> tuple[str, float, float, float]:
    """What a command prints, its seconds by the clock, and the processor seconds of its first thread and of all others,
    as last seen."""
    threads: dict[int, float] = {}
    start = time.monotonic()
    with subprocess.Popen(command, stdout=subprocess.PIPE, stderr=subprocess.PIPE, text=True) as ran:
        while ran.poll() is None:
            for task in pathlib.Path(f"/proc/{ran.pid}/task").glob("*/schedstat"):
                with contextlib.suppress(OSError, IndexError):
                    threads[int(task.parent.name)] = int(task.read_text(encoding="utf-8").split()[0]) / 1e9
            time.sleep(0.005)
        taken = time.monotonic() - start
        text, errors = ran.communicate()
    if ran.returncode != 0:
        sys.exit(f"{command}: status {ran.returncode}\n{errors}")
    first = threads.pop(ran.pid, 0.0)
    return text, taken, first, sum(threads.values())


def run_at_once(command: Sequence[str], processes: int) -> tuple[list[str], float]:
    """What each of so many processes prints, and their seconds by the clock."""
    start = time.monotonic()
    started = [subprocess.Popen(command, stdout=subprocess.PIPE, text=True) for _ in range(processes)]
    texts = [it.communicate()[0] for it in started]
    return texts, time.monotonic() - start


def bytes_of(text: str, many: int, count: int) -> int:
    """The bytes that a session prints. Each guest has an opening, and a record for each slice begun."""
    wanted = f"{many} guests, {many * (1 + -(-count // SLICE))} records, "
    if not text.startswith(wanted):
        sys.exit(f"rates session printed {text!r}, and not {wanted!r}")
    return int(text.removeprefix(wanted).split()[0])


class Row:
    """So many guests, or the bare step if there are none: the program, and what its runs took."""

    def __init__(self, folder: str, many: int, millions: int) -> None:
        self.guests = many
        self.seconds: list[float] = []
        self.own: list[float] = []
        self.flusher: list[float] = []
        self.bytes: list[float] = []
        self.at_once: list[float] = []
        self.path = f"{folder}/{many}.elf"
        program, self.count = guests.counts_down(millions * 4 // max(many, 4))
        pathlib.Path(self.path).write_bytes(program)
        self.all = max(many, 1) * self.count

    def take(self, rates: Sequence[str]) -> None:
        """Runs it once more."""
        step = [*rates, "step", self.path]
        session = [*rates, "session", str(self.guests), self.path]
        text, seconds, first, others = run(session if self.guests else step)
        self.seconds.append(seconds)
        self.own.append(others if self.guests else first)
        self.flusher.append(first / seconds)
        texts = [text]
        if self.guests:
            self.bytes.append(bytes_of(text, self.guests, self.count) / (self.all / MILLION))
            texts, seconds = run_at_once(step, self.guests)
            self.at_once.append(seconds)
        if any(it != f"{self.count} instructions, then call\n" for it in texts):
            sys.exit(f"rates step printed {texts!r}")

    def rate(self) -> float:
        """The instructions a second."""
        return self.all / min(self.seconds)

    def own_rate(self) -> float:
        """The instructions a processor second of the guests' own threads."""
        return self.all / max(min(self.own), 1e-9)

    def print(self, bare: "Row") -> None:
        """Prints it, beside the bare step."""
        part, own = self.rate() / bare.rate(), self.own_rate() / bare.own_rate()
        name = f"{self.guests} guests" if self.guests else "bare step"
        line = f"{name:10}{self.rate() / MILLION:9.1f} M/s{part:8.2f}"
        if self.guests:
            at_once = min(self.at_once) / min(self.seconds)
            parts = part / min(self.guests, len(PROCESSORS)), at_once, own, min(self.flusher)
            line += "".join(f"{it:8.2f}" for it in parts) + f"{min(self.bytes):8.0f}{max(self.bytes):8.0f}"
        print(line)


def main(words: Sequence[str]) -> int:
    """Measures, and prints."""
    asked = parser("sessions", __doc__, rounds=5, millions=200)
    asked.add_argument("guests", nargs="*", type=int, default=[1, 2, 4, 16], metavar="GUESTS")
    said = asked.parse_args(words)
    rates = build("rates")
    with tempfile.TemporaryDirectory() as folder:
        rows = [Row(folder, it, said.millions) for it in [0, *said.guests]]
        for _ in range(said.rounds):
            for row in rows:
                row.take(rates)
    names = ("part", "each", "at once", "own", "flusher", "bytes", "to")
    print(f"{'':10}{'rate':>13}" + "".join(f"{it:>8}" for it in names))
    for row in rows:
        row.print(rows[0])
    print_machine()
    return 0
