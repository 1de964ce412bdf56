"""Prints rows of crates/slice_cases/stdin, and makes a guest of them.

usage: tools/run slice_rows increments|lists|waits

increments: makes data/increments.elf of tools/increments.S, below crates/slice_cases, and prints how it ends under
qemu-riscv32. Needs that and riscv64-unknown-elf-gcc.
lists: what data/four_threads.elf does under lists of choices, by the restatement of a guest's rules (threads.py).
waits: what guests that wait for a time do, by the same restatement.
"""
import json
import re
from collections.abc import Callable, Iterator, Sequence

from rrv_tools import elf, guests, toolchain
from rrv_tools.program import ROOT
from rrv_tools.riscv import MASK
from rrv_tools.states import Guest
from rrv_tools.threads import Choose

CRATE = ROOT / "crates" / "slice_cases"
SEEDS = range(1, 201)
WAITING = "all threads wait, and a wait has a timeout"
NOT_TIMED, ENDED = "the thread has no timed wait", "the guest has ended"
NOT_RUNNABLE, BAD_QUANTUM = "the thread is not runnable", "the quantum is outside the limits"


def of_increments() -> Iterator[str]:
    """Makes the guest; what it does under qemu."""
    file = toolchain.compiled(CRATE / "tools" / "increments.S", toolchain.LAYOUT)
    (CRATE / "data" / "increments.elf").write_bytes(file)
    ran = toolchain.run(file)
    yield f"{len(file)} bytes; status {ran.status}, {toolchain.instructions(file)} instructions"
    yield f"descriptor 1: {ran.out[:16].hex()} .. {ran.out[-8:].hex()}, {len(ran.out)} bytes"
    yield f"descriptor 2: {ran.err.hex()}"


# ---- lists of choices


def seeded(seed: int) -> Choose:
    """Marsaglia's xorshift of 32 bits: a thread that runs, for 64 to 127 instructions."""
    state = seed * 0x9E3779B9 & MASK

    def chosen(runnable: list[int]) -> tuple[int, int]:
        nonlocal state
        state ^= state << 13 & MASK
        state ^= state >> 17
        state ^= state << 5 & MASK
        return runnable[(state >> 8) % len(runnable)], 64 + state % 64

    return chosen


class Run:
    """A guest under the list of a seed: the choices, its frames without their numbers, and its instructions."""

    def __init__(self, file: bytes, seed: int) -> None:
        self.guest, self.choose = Guest(file, b"a"), seeded(seed)
        self.choices: list[tuple[int, int]] = []
        lines, self.instructions = self.guest.run(self.chosen)
        self.frames = [it.partition(" ")[2] for it in lines]

    def chosen(self, runnable: list[int]) -> tuple[int, int]:
        """The next choice, which is kept."""
        self.choices.append(self.choose(runnable))
        return self.choices[-1]


def of_lists() -> Iterator[str]:
    """The rows of the first list, and sums over all of them."""
    file = (CRATE / "data" / "four_threads.elf").read_bytes()
    runs = [Run(file, seed) for seed in SEEDS]
    first, output = runs[0], runs[0].guest.output
    for (tid, quantum), frame in zip(first.choices, first.frames, strict=True):
        yield f"choose {tid} {quantum} = {frame}"
    yield f"end = exited {first.guest.ended}\ninstructions = {first.instructions}"
    yield from (f"put = 1 {letter:02x}" for letter in output[:8])
    yield f"put = 1 {output[8:].hex()}\n"
    assert all(it.guest.ended == 4 for it in runs)
    frames = [frame for it in runs for frame in it.frames]
    yield f"sum preempts = {sum('preempt' in it for it in frames)}\nsum frames = {len(frames)}"
    yield f"sum instructions = {sum(it.instructions for it in runs)}\noutputs = {len({it.guest.output for it in runs})}"


# ---- guests that wait for a time

FRAME = re.compile(r"(?:preempt|call|expire) tid=(\d+)(?: count=(\d+))?|stuck")


class Script:
    """The rows of a guest, one after another."""

    def __init__(self, words: Sequence[int], version: int = 2) -> None:
        self.guest, self.is_stuck = Guest(elf.executable(words), b"a", version), False
        self.frames: list[str] = []
        self.begin = self.ran = 0
        code = " ".join(f"{it:08x}" for it in words)
        self.rows = [f"guest {'two ' if version == 2 else ''}code {code}"]

    def note(self, asked: str, found: str) -> None:
        """Adds a row of what was found, and keeps a frame."""
        self.rows.append(f"{asked} = {found}")
        if frame := FRAME.match(found):
            self.begin, self.ran = self.ran, self.ran + int(frame[2] or 0)
            self.frames.append(found)

    def last(self) -> re.Match[str]:
        """The last frame."""
        found = FRAME.match(self.frames[-1])
        assert found
        return found

    def places(self) -> None:
        """The last frame with its places; it is not that of a thread's end."""
        last = self.last()
        pc = f" pc={self.guest.threads[int(last[1])].pc:08x}" if last[2] else ""
        self.rows.append(f"places = {len(self.frames)} {self.frames[-1]} from={self.begin} to={self.ran}{pc}")

    def event(self) -> None:
        """The last frame, which is an expire, as an event of Chrome's trace-event format."""
        event = {"name": "expire", "ph": "i", "ts": self.ran, "pid": 0, "tid": int(self.last()[1]), "s": "p"}
        text = json.dumps({**event, "args": {"record": len(self.frames)}}, separators=(",", ":"))
        self.rows.append(f"event = {text}")

    def choose(self, *tids: int, quantum: int = 64) -> None:
        """Chooses threads, one after another."""
        for tid in tids:
            self.note(f"choose {tid} {quantum}", self._chosen(tid, quantum))

    def _chosen(self, tid: int, quantum: int) -> str:
        threads = self.guest.threads
        if self.guest.ended is not None or self.is_stuck:
            return ENDED
        if not self.guest.runnable():
            if any(thread.timeout for thread in threads.values()):
                return WAITING
            self.is_stuck = True
            return "stuck"
        if not 64 <= quantum <= 1048576:
            return BAD_QUANTUM
        return self.guest.slice(tid, quantum)[0] if tid in self.guest.runnable() else NOT_RUNNABLE

    def expire(self, tid: int) -> None:
        """Ends a thread's wait."""
        self.note(f"expire {tid}", self._expired(tid))

    def _expired(self, tid: int) -> str:
        if self.guest.ended is not None or self.is_stuck:
            return ENDED
        thread = self.guest.threads.get(tid)
        return NOT_TIMED if thread is None or thread.timeout is None else self.guest.expire(tid)

    def end(self) -> list[str]:
        """All rows, the last of which has the end."""
        ended = "none" if self.guest.ended is None else f"exited {self.guest.ended}"
        return [*self.rows, f"end = {'stuck' if self.is_stuck else ended}"]


def of_one_wait() -> Iterator[str]:
    """One thread that waits."""
    yield ("\n# It waits for a time. Until that is over, no thread runs and the guest isn't stuck; "
           "then it finds ETIMEDOUT in a0, and exits with that.")
    script = Script(guests.ONE_WAIT)
    script.expire(1)
    script.choose(1, 1, 2)
    script.choose(1, quantum=0)
    script.rows.append(script.end().pop())
    script.places()
    script.expire(2)
    script.expire(1)
    script.places()
    script.event()
    script.expire(1)
    script.choose(1)
    yield from script.end()
    yield "\n# In version 1 its call fails."
    script = Script(guests.ONE_WAIT, version=1)
    script.choose(1)
    script.expire(1)
    script.choose(1)
    yield from script.end()


def of_two_threads() -> Iterator[str]:
    """Two threads, of which one waits for a time."""
    yield ("\n# One thread waits for a time, and the other one without a timeout: "
           "it is stuck only when the first has gone.")
    script = Script(guests.ONE_OF_TWO)
    script.choose(1, 1, 2, 1, 2)
    script.expire(2)
    script.expire(1)
    script.choose(2, 1, 1, 1)
    script.expire(1)
    yield from script.end()
    yield "\n# A thread that is woken has no timeout any more."
    script = Script(guests.WOKEN)
    script.choose(1, 2, 1)
    script.expire(2)
    script.choose(2, 1)
    yield from script.end()
    yield "\n# A guest that ends while a thread waits for a time."
    script = Script(guests.LEFT)
    script.choose(1, 2, 1, 1)
    script.expire(2)
    yield from script.end()


def of_many() -> Iterator[str]:
    """As many threads as may live."""
    yield "\n# As many threads as may live, by version: sixteen, and sixty-four."
    for version, live in ((1, 16), (2, 64)):
        script = Script(guests.AS_MANY_AS_LIVE, version)
        script.choose(*[1] * live)
        if version == 2:
            script.choose(*range(1, live + 1), 1)
            script.expire(64)
            script.choose(64)
        yield from script.end()


def of_waits() -> Iterator[str]:
    """The rows of guests that wait for a time."""
    for rows in (of_one_wait, of_two_threads, of_many):
        yield from rows()


ROWS: dict[str, Callable[[], Iterator[str]]] = {"increments": of_increments, "lists": of_lists, "waits": of_waits}


def main(words: Sequence[str]) -> int | None:
    """Prints the rows that the word names."""
    if len(words) != 1 or words[0] not in ROWS:
        return None
    print("\n".join(ROWS[words[0]]()))
    return 0
