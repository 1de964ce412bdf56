"""Milliseconds until what a guest writes leaves, in syncs of that disk, and how many frames share a batch while a
commit runs.

usage: tools/run bench latency [--writes N] [--apart N] [--busy N] [--folder FOLDER] [--slower MS] [--quantum QUANTUM]

The guest asks for the time of the real clock and writes it to descriptor 1, N times (100); between two it counts down
for N instructions (6000000), so that all that it did has left by then. The time is noted at which each arrives. `rrv
record` records it on a disk (in FOLDER, or else among temporary files) through its own commits; qemu-riscv32 runs the
same if it is installed; and bare pairs of syncs are made in that folder before and after: some bytes are written and
synced, and then one byte, as a commit does. bench/plain/commits.rs does these between two threads of plain Rust: one
asks for the time and hands it to the other, which syncs twice, and writes it. So it has what threads and the pipe take
on this machine. A row has the first tenth, the median and the last tenth, and the median in bare syncs. The guest asks
for the time before its write, so both calls are in it.

The threads and the pipe take some tenths of a millisecond, which is more than a fast disk takes for a sync. So the same
is then done with syncs that take MS milliseconds (4) more, rrv's and the bare ones, as those of a slow disk, and with
slices of QUANTUM instructions (262144): of much shorter ones, a guest that counts down makes more records than such a
disk commits, and its output waits for all that are before it; of longer ones, its output waits for the end of the slice
that the guest is in.

Then a guest does the same N times (20000) without counting down. A line has how many records the bodies of its store
have: those that were made while a commit ran share the next one.

It fails if half of the writes of a slow disk take more than 2.5 bare syncs: two, and a half for the threads and the
pipe; if half of those of this disk take ten milliseconds, or 0.4 milliseconds more than those of plain Rust, since a
guest's output also waits for the end of its slice (0.5 more than two bare syncs, if rustc isn't installed); or if less
than 8 records share a body of the busy guest.
"""
import dataclasses
import os
import pathlib
import statistics
import subprocess
import sys
import tempfile
import time
from collections.abc import Iterator, Sequence

from rrv_tools.bench import guests, programs
from rrv_tools.bench.guests import TIME
from rrv_tools.bench.measuring import bare_syncs, bodies, parser, print_failures, print_machine, run, tenths, written
from rrv_tools.program import Word

SECOND, PAIRS = 10**9, 200
# For how many microseconds plain Rust computes between two writes.
PLAIN_APART = 20_000
MOST_SYNCS, MOST_MILLISECONDS, MOST_BESIDE_PLAIN, MOST_BESIDE_SYNCS, LEAST_SHARED = 2.5, 10, 0.4, 0.5, 8


def slow_syncs(folder: pathlib.Path, seconds: float) -> pathlib.Path:
    """Makes a library that has each sync of a program take so many seconds more, and returns its path."""
    made, source = folder / "slow_syncs.so", pathlib.Path(__file__).with_name("slow_syncs.c")
    flags = ["-shared", "-fPIC", "-O1", f"-DLATER={round(SECOND * seconds)}L"]
    subprocess.run([os.environ.get("CC", "cc"), *flags, "-o", made, source, "-ldl"], check=True)
    return made


def latencies(command: Sequence[Word], writes: int, library: pathlib.Path | None = None) -> list[float]:
    """The seconds between each time that was written, and its arrival. The library stands before the C library."""
    found: list[float] = []
    rest = b""
    preload = {"LD_PRELOAD": str(library)} if library else {}
    with subprocess.Popen([str(it) for it in command], env={**os.environ, **preload}, stdin=subprocess.DEVNULL,
                          stdout=subprocess.PIPE, stderr=subprocess.PIPE) as ran:
        assert ran.stdout and ran.stderr
        while data := os.read(ran.stdout.fileno(), 65536):
            now, rest = time.clock_gettime_ns(time.CLOCK_REALTIME), rest + data
            whole = len(rest) - len(rest) % TIME.size
            times = TIME.iter_unpack(rest[:whole])
            found += [(now - seconds * SECOND - nanoseconds) / SECOND for seconds, nanoseconds in times]
            rest = rest[whole:]
        errors = ran.stderr.read().decode(errors="replace")
    if ran.returncode != 0 or len(found) != writes or min(found) < 0:
        sys.exit(f"{command}: status {ran.returncode}, {len(found)} of {writes} times\n{errors}")
    return found


@dataclasses.dataclass(frozen=True)
class Place:
    """The folder where guests are recorded, and what is run there: plain Rust isn't if rustc isn't installed."""

    folder: pathlib.Path
    rrv: list[str]
    commits: list[str] | None

    def recording(self, name: str, times: int, apart: int, *options: Word,
                  library: pathlib.Path | None = None) -> list[float]:
        """The latencies of a guest that is recorded with these options, in a store of this name."""
        program, kept = written(self.folder / f"{name}.elf", guests.tells_time(times, apart)), self.folder / name
        run(*self.rrv, "new", kept)
        return latencies([*self.rrv, "record", *options, kept, program], times, library)

    def plain(self, times: int, library: pathlib.Path | None = None) -> list[float] | None:
        """The latencies of plain Rust."""
        words: list[Word] = [*(self.commits or ()), self.folder / "plain", times, PLAIN_APART]
        return latencies(words, times, library) if self.commits else None


@dataclasses.dataclass(frozen=True)
class Disk:
    """What was measured on a disk: bare pairs of syncs, rrv, and plain Rust."""

    bare: list[float]
    waited: list[float]
    plain: list[float] | None

    def sync(self) -> float:
        """The median of a bare sync, in seconds."""
        return statistics.median(self.bare) / 2


def print_rows(rows: dict[str, list[float] | None], sync: float) -> None:
    """A row for each that could be measured, in the bare syncs of its disk."""
    for name, seconds in rows.items():
        if seconds:
            least, median, most = (1000 * it for it in tenths(seconds))
            print(f"{name:28}{least:9.3f}{median:9.3f}{most:9.3f} ms{median / 1000 / sync:8.2f} bare syncs")


def failures(disk: Disk, slow: Disk, shared: float) -> Iterator[str]:
    """What takes longer than it may."""
    if MOST_SYNCS * slow.sync() < statistics.median(slow.waited):
        yield f"a write leaves after more than {MOST_SYNCS} bare syncs of a slow disk"
    milliseconds = 1000 * statistics.median(disk.waited)
    if disk.plain and milliseconds - 1000 * statistics.median(disk.plain) > MOST_BESIDE_PLAIN:
        yield f"a write leaves more than {MOST_BESIDE_PLAIN} milliseconds after that of plain Rust"
    if not disk.plain and milliseconds - 2000 * disk.sync() > MOST_BESIDE_SYNCS:
        yield f"a write leaves after more than two bare syncs and {MOST_BESIDE_SYNCS} milliseconds"
    if milliseconds >= MOST_MILLISECONDS:
        yield f"a write leaves after {MOST_MILLISECONDS} milliseconds or more"
    if shared < LEAST_SHARED:
        yield f"fewer than {LEAST_SHARED} records share a body"


def main(words: Sequence[str]) -> int:
    """Measures, and prints."""
    said = parser("latency", __doc__, writes=100, apart=6_000_000, busy=20_000, quantum=262_144, folder=None,
                  slower=4.0).parse_args(words)
    rrv, commits = programs.build("rrv"), programs.build_plain("commits")
    qemu, slower = programs.qemu(), said.slower / 1000
    with tempfile.TemporaryDirectory(dir=said.folder) as folder:
        at = Place(pathlib.Path(folder), rrv, commits)
        bare = bare_syncs(at.folder, PAIRS)
        waited, plain = at.recording("quiet", said.writes, said.apart), at.plain(said.writes)
        disk = Disk(bare + bare_syncs(at.folder, PAIRS), waited, plain)
        by_qemu = latencies([*qemu, at.folder / "quiet.elf"], said.writes) if qemu else None
        bare_slow, library = bare_syncs(at.folder, PAIRS, slower), slow_syncs(at.folder, slower)
        waited = at.recording("slow", said.writes, said.apart, "--quantum", said.quantum, library=library)
        slow = Disk(bare_slow, waited, at.plain(said.writes, library))
        busy = at.recording("busy", said.busy, 0)
        many = bodies((at.folder / "busy").read_bytes())
    print(f"{'':28}{'tenth':>9}{'median':>9}{'tenth':>9}")
    print_rows({"two bare syncs": disk.bare, "from a write to its byte": disk.waited,
                "the same, plain Rust": disk.plain, "the same, qemu-riscv32": by_qemu,
                "of a guest that only writes": busy}, disk.sync())
    print_rows({"two bare syncs, slowed": slow.bare, "from a write, syncs slowed": slow.waited,
                "the same, plain Rust": slow.plain}, slow.sync())
    shared = sum(many) / len(many)
    print(f"its {sum(many)} records are in {len(many)} bodies, {shared:.1f} each, {max(many)} at the most")
    print_machine()
    return print_failures(list(failures(disk, slow, shared)))
