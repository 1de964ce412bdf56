"""Stores that are in use or can't be written: what was committed is shown, and no byte is changed.

Expected values: what is shown once the recording was killed and the store, or a copy of it, was repaired.

Four guests that print are recorded without end into a store in a real file. Meanwhile `list`, and `dump`, `verify` and
`replay` of each guest, have to succeed, and what each shows has to be a beginning of what it shows once that recording
was killed and the store repaired. They are done a hundred times over. Each has to show all that the guests had printed
before.

`storage_cases` has the moments of such a look by rows: a gate that is opened after the file was, and after the look was
ended, half a segment, a torn gate.
"""
import fcntl
import hashlib
import itertools
import os
import pathlib
import re
import shutil
import subprocess
import threading
import time
from collections.abc import Callable, Mapping
from typing import Any, ClassVar, NamedTuple

from rrv_tools import preload
from rrv_tools.guests import Printer
from rrv_tools.known import CANNOT_OPEN
from rrv_tools.program import PATIENCE, Program, Result
from rrv_tools.store import BEFORE_BODY, CLOSED, EMPTY, HEADER, OPEN
from rrv_tools.testing import Case, rows

# Guests that print without end, told apart by the high half of their bytes. Who reads their output holds them back:
# this many bytes at a time. Past MANY bytes he takes his time, so that looks at what grows take no longer and longer.
PRINTERS = [Printer(half, 1_000_000, 8, 200) for half in (8, 9, 10, 11)]
PIPE, SOME, PAUSE, LONG_PAUSE, MANY, QUANTUM = 4096, 512, 0.008, 0.2, 1 << 20, 5_000
# How often all is looked at, and how many segments a store has that is torn.
ROUNDS, SEGMENTS = 100, 20
# A user that owns nothing.
NOBODY: Mapping[str, Any] = {"user": 65534, "group": 65534, "extra_groups": []}
# Why a record that was there isn't printed.
REFUSED = re.compile(rb"rrv: (device failed|record \d+ unreadable)\n")
Ends = dict[str, Result]


def looks(run: Callable[..., Result], store: str) -> Ends:
    """How each command that looks at a store ends, by its name and guest."""
    lines = ["list", *(f"{name} {guest}" for guest in range(len(PRINTERS)) for name in ("dump", "verify", "replay"))]
    split = {it: it.split() for it in lines}
    return {it: run(name, store, *guest) for it, (name, *guest) in split.items()}


def small_pipe() -> tuple[int, int]:
    """A pipe that takes little."""
    reader, writer = os.pipe()
    fcntl.fcntl(writer, fcntl.F_SETPIPE_SZ, PIPE)
    return reader, writer


def write(name: str, data: bytes) -> pathlib.Path:
    """Writes a file, and returns its path."""
    path = pathlib.Path(name)
    path.write_bytes(data)
    return path


def last_gates(store: bytes) -> tuple[int, int, int]:
    """The place of the last gate that is open, that of the gate after its segment, and how many segments there are."""
    before = last = len(HEADER)
    for count in itertools.count():
        if store[last: last + 1] != OPEN:
            return before, last, count
        before, last = last, last + BEFORE_BODY + int.from_bytes(store[last + 1: last + 5], "little")
    raise AssertionError("gates have no end")


# ---- a store that is recorded


class Recording:
    """The four guests without end, whose output is read slowly, into a new store `used`."""

    def __init__(self, program: Program) -> None:
        program.run_well("new", "used")
        files = [write(f"{it.half}.elf", it.elf()) for it in PRINTERS]
        self.reader, writer = small_pipe()
        words = ["record", "--quantum", f"{QUANTUM}", "used", *map(str, files)]
        self.ran = program.start(*words, out=writer, err=subprocess.DEVNULL)
        os.close(writer)
        self.printed = bytearray()
        self.thread = threading.Thread(target=self.read, daemon=True)
        self.thread.start()

    def read(self) -> None:
        """Reads what is printed, up to its end."""
        while some := os.read(self.reader, SOME):
            self.printed += some
            time.sleep(PAUSE if len(self.printed) < MANY else LONG_PAUSE)

    def of_each(self) -> list[bytes]:
        """What was printed of each guest so far."""
        others = (bytes(byte for byte in range(256) if byte >> 4 != it.half) for it in PRINTERS)
        printed = bytes(self.printed)
        return [printed.translate(None, it) for it in others]

    def wait(self, segments: int) -> None:
        """Waits until each guest has printed something, and the store has this many segments."""
        limit = time.monotonic() + PATIENCE
        while time.monotonic() < limit:
            if all(self.of_each()) and last_gates(pathlib.Path("used").read_bytes())[2] >= segments:
                break
            time.sleep(0.01)

    def kill(self) -> bool:
        """Ends it, and returns whether it went on until now."""
        went_on = self.ran.poll() is None
        self.ran.kill()
        self.ran.wait()
        self.thread.join()
        os.close(self.reader)
        return went_on


def kept_of(name: str, out: bytes) -> tuple[int, bytes]:
    """What is kept of what a command showed: of long texts the length and the digest."""
    return len(out), hashlib.sha256(out).digest() if name.startswith(("dump", "replay")) else out


def counts(line: bytes) -> list[int]:
    """The numbers of a line."""
    return [int(it.partition(b"=")[2]) for it in line.split() if b"=" in it]


def is_beginning(name: str, kept: tuple[int, bytes], last: bytes) -> bool:
    """Whether what a command showed is a beginning of what it shows at last."""
    if name.startswith(("dump", "replay")):
        return kept_of(name, last[: kept[0]]) == kept
    lines, wholes = kept[1].splitlines(), last.splitlines()
    pairs = list(zip(lines, wholes, strict=False))
    rise = all(one <= other for it in pairs for one, other in zip(*map(counts, it), strict=False))
    same = all(re.sub(rb"=\d+", b"=", line) == re.sub(rb"=\d+", b"=", whole) for line, whole in pairs)
    return rise and same and len(pairs) == (len(PRINTERS) if name == "list" else 1)


class Recorded(Case):
    """A store that is looked at while it is recorded."""

    seconds = 35
    shares_folder = True
    failed: ClassVar[list[tuple[str, Result]]]
    lost: ClassVar[list[tuple[str, int]]]
    seen: ClassVar[list[tuple[str, tuple[int, bytes]]]]
    refused: ClassVar[list[Result]]
    went_on: ClassVar[bool]
    printed: ClassVar[list[bytes]]
    last: ClassVar[Ends]

    @classmethod
    def setUpClass(cls) -> None:
        super().setUpClass()
        cls.failed, cls.lost, cls.seen, recording = [], [], [], Recording(cls.program)
        recording.wait(0)
        try:
            for _ in range(ROUNDS):
                cls.look(recording.of_each())
            cls.refused = [cls.program.run("record", "used", "8.elf"), cls.program.run("new", "used")]
        finally:
            cls.went_on = recording.kill()
        cls.printed, cls.last = recording.of_each(), looks(cls.program.run, "used")

    @classmethod
    def look(cls, printed: list[bytes]) -> None:
        """Looks at all, after these texts had been printed."""
        for name, end in looks(cls.program.run, "used").items():
            is_replay = name.startswith("replay")
            # A guest prints to both streams.
            if end.status or (end.err and not is_replay):
                cls.failed.append((name, end))
            if is_replay and not end.out.startswith(printed[int(name.split()[1])]):
                cls.lost.append((name, len(end.out)))
            cls.seen.append((name, kept_of(name, end.out)))

    def test_each_look_succeeds(self) -> None:
        """And the recording goes on as long."""
        self.need("looks", ROUNDS * (1 + 3 * len(PRINTERS)), len(self.seen))
        self.need("those that failed", [], self.failed[:3])
        self.need("whether it was recorded until then", True, self.went_on)

    def test_all_that_had_been_printed_is_shown(self) -> None:
        """Each replay shows what had been printed before."""
        self.need("those that lack some", [], self.lost[:3])

    def test_it_cannot_be_recorded_to(self) -> None:
        """As long as it is recorded, nothing else may write to it."""
        self.need("their ends", 2 * [(1, b"", CANNOT_OPEN)], self.refused)

    def test_each_look_shows_a_beginning(self) -> None:
        """Of what there is at last."""
        wrong = [(name, it) for name, it in self.seen if not is_beginning(name, it, self.last[name].out)]
        self.need("those that show something else", [], wrong[:3])

    def test_lists_differ(self) -> None:
        """The store grew while it was looked at."""
        lists = {it for name, it in self.seen if name == "list"}
        self.need("whether enough lists differ", True, len(lists) > ROUNDS // 5)

    def test_what_had_been_printed_is_replayed(self) -> None:
        """Once the recording was killed."""
        starts = [self.last[f"replay {place}"].out[: len(it)] for place, it in enumerate(self.printed)]
        self.need("what is replayed", self.printed, starts)


# ---- stores that can't be written, or are locked


class Parts(NamedTuple):
    """A store up to its last open gate and that gate's segment, with the places of the gates before and after it."""

    whole: bytes
    before: int
    last: int

    def segment(self) -> bytes:
        """The last segment."""
        return self.whole[self.before + 1: self.last]


# Copies of a store, by what they are, with the refusal of those that are refused, in which braces stand for the last
# segment's number.
DAMAGED = "damaged segment {}"
TORN: dict[str, tuple[Callable[[Parts], bytes], str]] = {
    "that is whole": (lambda it: it.whole, ""),
    "with a torn gate": (lambda it: it.whole[:-1] + b"\x37", ""),
    "with a torn gate and a segment after it": (lambda it: it.whole[:-1] + b"\x37" + it.segment() + CLOSED, ""),
    "with half a segment after its gate": (lambda it: it.whole + it.segment()[: len(it.segment()) // 2], ""),
    "that is cut within a segment": (lambda it: it.whole[: (it.before + it.last) // 2], DAMAGED),
    "that is cut after a segment": (lambda it: it.whole[: it.last], DAMAGED),
    "that is cut after an open gate": (lambda it: it.whole[: it.before + 1], DAMAGED),
    "with a wrong byte": (lambda it: it.whole[:-2] + bytes([it.whole[-2] ^ 1]) + it.whole[-1:], DAMAGED),
    "of no segments": (lambda _: EMPTY, ""),
    "of a header alone": (lambda _: HEADER, "not a store"),
    "that is none": (lambda _: b"something else, of more than sixteen bytes", "not a store"),
}


@rows({f"{it} which can't be written": it for it in TORN}, "look_at_read_only")
@rows({f"{it} which is locked": it for it in TORN}, "look_at_locked")
class Torn(Case):
    """Stores that can't be written or are locked, torn ones among them, are shown as one that may be repaired."""

    seconds = 15
    parts: ClassVar[Parts]
    number: ClassVar[int]

    @classmethod
    def setUpClass(cls) -> None:
        super().setUpClass()
        recording = Recording(cls.program)
        recording.wait(SEGMENTS)
        recording.kill()
        data = pathlib.Path("used").read_bytes()
        before, last, count = last_gates(data)
        cls.parts, cls.number = Parts(data[:last] + CLOSED, before, last), count - 1

    def need_as_repaired(self, name: str, data: bytes, shown: Ends) -> None:
        """Whether this is what is shown of a copy that may be repaired, and refused so, if it is."""
        refusal = TORN[name][1].format(self.number)
        self.need("list", (1, f"rrv: {refusal}\n".encode()) if refusal else (0, b""), shown["list"][::2])
        write("repaired", data)
        self.need("all that is shown", looks(self.program.run, "repaired"), shown)

    def look_at_read_only(self, name: str) -> None:
        """A store that can't be written, by a program that who looks may run."""
        data = TORN[name][0](self.parts)
        os.mkdir("kept")
        path, program = write("kept/store", data), shutil.copy(self.program.path, "kept/rrv")
        how = NOBODY if os.getuid() == 0 else {}
        for it, mode in ((program, 0o555), (path, 0o444), ("kept", 0o555)):
            os.chmod(it, mode)
        self.addCleanup(os.chmod, "kept", 0o755)

        def run(*words: str) -> Result:
            ran = subprocess.run([f"{self.folder}/{program}", *words], stdin=subprocess.DEVNULL, capture_output=True,
                                 timeout=PATIENCE, check=False, **how)
            return Result(ran.returncode, ran.stdout, ran.stderr)

        before = path.stat()
        shown = looks(run, str(path))
        after = path.stat()
        self.need("its bytes", data, path.read_bytes())
        self.need("its times", (before.st_mtime_ns, before.st_ctime_ns), (after.st_mtime_ns, after.st_ctime_ns))
        self.need_as_repaired(name, data, shown)

    def look_at_locked(self, name: str) -> None:
        """A store that something else has locked."""
        data = TORN[name][0](self.parts)
        path = write("locked", data)
        with open(path, "rb") as file:
            fcntl.flock(file, fcntl.LOCK_EX)
            shown = looks(self.program.run, "locked")
        self.need("its bytes", data, path.read_bytes())
        self.need_as_repaired(name, data, shown)


# ---- a store that is changed while it is read


def make_longer(data: bytes) -> None:
    """Appends to the file."""
    with open("changed", "ab") as file:
        file.write(data)


def overwrite(data: bytes) -> None:
    """Writes zeros over it."""
    with open("changed", "r+b") as file:
        file.write(bytes(len(data)))


# What is done to the file of these bytes, and whether it is refused then.
CHANGES: dict[str, tuple[Callable[[bytes], object], bool]] = {
    "that is cut": (lambda data: os.truncate("changed", len(data) // 2), True),
    "that is made longer": (make_longer, False),
    "that is replaced": (lambda data: write("other", data[:17]).replace("changed"), False),
    "that is overwritten": (overwrite, True),
}


@rows(CHANGES, "dump_changed")
class Changed(Case):
    """A store that is changed while it is read. What is printed of it doesn't fit into a pipe by far."""

    seconds = 3
    data: ClassVar[bytes]
    whole: ClassVar[bytes]

    @classmethod
    def setUpClass(cls) -> None:
        super().setUpClass()
        path = write("long.elf", Printer(9, 20_000, 1, 1).elf())
        cls.program.run_well("new", "long")
        cls.program.run_well("record", "long", path)
        cls.data, cls.whole = pathlib.Path("long").read_bytes(), cls.program.run_well("dump", "long", 0).out
        assert len(cls.whole) > 100 * PIPE

    def dump(self, change: Callable[[bytes], object]) -> Result:
        """Dumps the store, which is changed once something was printed."""
        reader, writer = small_pipe()
        with open(write("changed", self.data), "rb") as locked:
            fcntl.flock(locked, fcntl.LOCK_EX)
            with self.program.start("dump", "changed", 0, out=writer) as ran, open(reader, "rb") as pipe:
                os.close(writer)
                begun = pipe.read(1)
                change(self.data)
                out, err = begun + pipe.read(), ran.stderr.read() if ran.stderr else b""
                return Result(ran.wait(PATIENCE), out, err)

    def dump_changed(self, row: tuple[Callable[[bytes], object], bool]) -> None:
        """What is printed is a beginning of what the store held, and all of it unless it is refused by name."""
        change, is_refused = row
        status, out, err = self.dump(change)
        if not is_refused:
            self.need("its end", (0, b"", self.whole), (status, err, out))
            return
        self.need("its status", 1, status)
        self.need("whether it is refused by name", True, REFUSED.fullmatch(err) is not None)
        self.need("what is printed", self.whole[: len(out)], out)


# ---- a store to which a body is committed at each moment of a look


@rows({it: f"{it} moments {'' if it == 'list' else 0}".split() for it in ("list", "dump", "verify", "replay")}, "look")
class Committed(Case):
    """A store to which a body is committed before each read of a look in turn is shown without it or with it."""

    seconds, library = 8, "preloaded"

    @classmethod
    def setUpClass(cls) -> None:
        super().setUpClass()
        write("short.elf", Printer(9, 20, 1, 1).elf())
        # Beside other work all records, or all that the guest prints, may be committed at once, in one body.
        assert any(cls.is_longer(f"short.{it}") for it in range(50)), "there is no store of two bodies"

    @classmethod
    def is_longer(cls, name: str) -> bool:
        """Records a store, and returns whether its last body adds to what is replayed. `before` lacks that."""
        cls.program.run_well("new", name)
        cls.program.run_well("record", name, "short.elf")
        data = pathlib.Path(name).read_bytes()
        before, _, count = last_gates(data)
        files = write("before", data[:before] + CLOSED), write("after", data)
        return count > 1 and len({cls.program.run("replay", it, 0) for it in files}) == 2

    def shown(self, name: str, words: list[str]) -> Result:
        """What is shown of a store."""
        shutil.copy(self.class_folder / name, "moments")
        return self.program.run_well(*words)

    def look(self, words: list[str]) -> None:
        """A body is committed before each read."""
        wanted = [self.shown(it, words) for it in ("before", "after")]
        self.need("whether the body changes it", True, wanted[0] != wanted[1])
        by = {"OVERWRITTEN": "moments", "OVERWRITTEN_BY": self.class_folder / "after"}
        wrong = []
        with open("moments", "rb") as locked:
            fcntl.flock(locked, fcntl.LOCK_EX)
            for reads in itertools.count(1):
                write("moments", (self.class_folder / "before").read_bytes())
                options = {"CHOSEN_CALLS": "r", "CHOSEN_NTH": reads, **by}
                ended, moments = preload.run(self.shared, self.program.words(*words), options)
                if ended not in wanted:
                    wrong.append((reads, ended))
                if not any(it.is_chosen for it in moments):
                    break
        self.need("reads by which something else is shown", [], wrong[:3])
        self.need("whether there are some reads", True, reads > 4)
