"""What the program prints of a guest, read: its frames, its states, and what follows from these (docs/FORMATS.md,
"Printed lines")."""
import bisect
import dataclasses
import itertools
import re
from collections.abc import Sequence
from typing import NamedTuple

from rrv_tools.program import GUESTS, Program, Word

# The names of the guests of tools/guests.
NAMES = tuple(sorted(it.stem for it in GUESTS.glob("*.elf")))
THREAD = re.compile(r"(?m)^thread (\d+) (running|waiting \w+(?: timed)?) pc (\w+) .*\n((?:  x.*\n){8})")
# Records that are no frames.
NO_FRAMES = ("opening", "part")
FEWEST = 64


def text_of(program: Program, *words: Word) -> str:
    """The output of a line that has to succeed, a character for each byte."""
    return program.run_well(*words).out.decode("latin-1")


# ---- frames


@dataclasses.dataclass(frozen=True)
class Frame:
    """A frame's line of `dump`, and how many instructions are before it."""

    line: str
    start: int

    @property
    def index(self) -> int:
        """Its index."""
        return int(self.line.split()[0])

    @property
    def kind(self) -> str:
        """The name of its kind."""
        return self.line.split()[1]

    @property
    def fields(self) -> dict[str, str]:
        """Its fields, by their names."""
        pairs = (it.partition("=") for it in self.line.split()[2:])
        return {name: value for name, _, value in pairs}

    @property
    def tid(self) -> int:
        """Its thread, 0 if it has none."""
        return int(self.fields.get("tid", 0))

    @property
    def runs_thread(self) -> bool:
        """Whether it has instructions."""
        return "count" in self.fields

    @property
    def count(self) -> int:
        """How many it has."""
        return int(self.fields.get("count", 0))

    @property
    def end(self) -> int:
        """How many instructions there are up to its end."""
        return self.start + self.count


def records_in(dumped: str) -> list[str | Frame]:
    """The frames of a guest, and of each other record its line."""
    found: list[str | Frame] = []
    start = 0
    for line in dumped.splitlines():
        frame = Frame(line, start)
        start = frame.end
        found.append(line if frame.kind in NO_FRAMES else frame)
    return found


def frames_in(dumped: str) -> list[Frame]:
    """The frames of a guest."""
    return [it for it in records_in(dumped) if isinstance(it, Frame)]


def choices_of(frames: Sequence[Frame]) -> str:
    """The choices that have to be printed of frames: a line for each call or fault, and for each preempt."""
    return "".join(f"{it.tid} {max(it.count, FEWEST)}\n" for it in frames if it.runs_thread)


def ends_of(frames: Sequence[Frame]) -> list[int]:
    """The places at which slices end."""
    return list(itertools.accumulate(it.count for it in frames if it.runs_thread))


def first_at(frames: Sequence[Frame], place: int) -> int:
    """The thread whose instruction comes next, or at the end that of the last."""
    ends = ends_of(frames)
    slices = [it for it in frames if it.runs_thread]
    return slices[bisect.bisect_right(ends, min(place, ends[-1] - 1))].tid


# ---- states


class Thread(NamedTuple):
    """A thread of a state: how it runs or waits, its program counter, and its lines of registers."""

    how: str
    pc: str
    rows: str

    def registers(self) -> list[int]:
        """x0 to x31."""
        return [int(it, 16) for it in re.findall(r"x\d+ (\w+)", self.rows)]


def threads_in(state: str) -> dict[int, Thread]:
    """The threads of a state, by their tids."""
    return {int(tid): Thread(*rest) for tid, *rest in THREAD.findall(state)}


def place_in(text: str) -> int | None:
    """The place that a state or an answer begins with."""
    found = re.match(r"at (\d+) of ", text)
    return int(found[1]) if found else None


def in_core(state: str, first: int) -> list[tuple[int, Thread]]:
    """The threads in the order of a core file, in which one comes first."""
    return sorted(threads_in(state).items(), key=lambda it: (it[0] != first, it[0]))


def core_lines(state: str, first: int) -> list[str]:
    """What `core_file` has to read of the core file of a state."""
    threads = ([f"thread {tid} pc {it.pc}", *it.rows.splitlines()] for tid, it in in_core(state, first))
    return [*(line for lines in threads for line in lines), *re.findall(r"(?m)^pages .*$", state)]
