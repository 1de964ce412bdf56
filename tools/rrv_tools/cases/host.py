"""Streams that are closed, full or take parts, files whose reads fail, sixteen programs, stores that go, and clocks.

Expected values: the guests' instructions, from which it follows what they print, their clocks and their sleep; of lines
docs/FORMATS.md and docs/GUEST.md.
"""
import contextlib
import errno
import itertools
import os
import pathlib
import struct
import subprocess
import time
import unittest
from collections.abc import Callable, Mapping, Sequence
from typing import IO, Any

from rrv_tools import elf, guests, preload, store
from rrv_tools.guests import CLOCK, EXIT, Printer, exits, timed_wait, writes
from rrv_tools.known import EXITED, FIVE, FIVE_DUMPED, FIVE_LISTED, HI, HI_DUMPED, HI_LISTED, HI_VERIFIED
from rrv_tools.program import ROOT, Result
from rrv_tools.riscv import A0, A1, A2, S0, SP, X5, ZERO, addi, call, counted_down, li, sw
from rrv_tools.testing import Case, rows

Words = Sequence[str]
ENDLESS = str(ROOT / "examples" / "endless" / "primes.elf")
# A store has this many bytes only once something was committed to it after the guest's file.
FEW_BYTES = 100_000
NEAR, BILLION = 60, 10**9
# This many bytes fill a pipe, in less than this many seconds.
FULL, FILLS = 65_536, 0.3
# For this many seconds a guest sleeps, and this many of processor time its recording may take, at one of some tries.
SLEEPS, SLEEPS_COST, TRIES = 2, 0.03, 3
OUTPUT_FAILED, CANNOT_READ = b"rrv: output failed\n", b"rrv: cannot read file\n"


def write(name: str, data: bytes) -> None:
    """Makes a file."""
    pathlib.Path(name).write_bytes(data)


def read(name: str) -> bytes:
    """The bytes of a file."""
    return pathlib.Path(name).read_bytes()


class Host(Case):
    """The folder of each case has a program that exits with 5, one that prints to both streams, and one that faults;
    and a store `s`, in which the one that prints is recorded."""

    def setUp(self) -> None:
        super().setUp()
        for name, file in (("exit_five", FIVE.file), ("printing.elf", Printer(9, 4, 2, 100).elf()),
                           ("faulting.elf", elf.executable([0])), ("to", store.EMPTY)):
            write(name, file)
        self.record("s", "printing.elf")

    def record(self, name: str, *words: str) -> Result:
        """Records to a new store."""
        self.need_line("new", name)
        return self.need_line("record", name, *words, out=None, err=None)

    def run_with(self, *words: str, **how: Any) -> Result:
        """Runs a line without standard input, but as `how` says to subprocess.run. SIGPIPE stays ignored: else a write
        that nobody reads would end the program, and not fail."""
        streams: dict[str, Any] = {"input": b"", "stdout": subprocess.PIPE, "stderr": subprocess.PIPE, **how}
        done = subprocess.run(self.program.words(*words), timeout=NEAR, check=False, restore_signals=False, **streams)
        return Result(done.returncode, done.stdout or b"", done.stderr or b"")

    def run_full(self, *words: str) -> Result:
        """Runs a line whose output is full."""
        with open("/dev/full", "wb") as full:
            return self.run_with(*words, stdout=full)


def unread_pipe(case: unittest.TestCase) -> IO[bytes]:
    """A pipe whose reader went away."""
    reader, writer = os.pipe()
    os.close(reader)
    return case.enterContext(open(writer, "wb"))


# ---- closed streams

STREAMS = {"input": "<&-", "output": ">&-", "error": "2>&-"}
OUTPUT, ERROR = {"output": OUTPUT_FAILED}, {"error": OUTPUT_FAILED}
INPUT = {"input": CANNOT_READ}
# Lines, and the streams that each needs: if one is closed, the status is 1, and this the text.
NEEDED: tuple[tuple[str, Mapping[str, bytes]], ...] = (
    ("new fresh", {}), ("list s", OUTPUT), ("list --long s", OUTPUT), ("elf s 0", OUTPUT),
    ("check exit_five", OUTPUT), ("verify s 0", OUTPUT), ("dump s 0", OUTPUT), ("replay s 0", OUTPUT | ERROR),
    ("replay --at end s 0", OUTPUT), ("core s 0 end core", {}), ("copy s 0 to", OUTPUT), ("ask s 0", INPUT),
    ("record s exit_five", ERROR), ("record s printing.elf", OUTPUT | ERROR),
    ("record s printing.elf exit_five printing.elf", OUTPUT | ERROR),
    ("record --choices - s exit_five", INPUT | ERROR), ("--help", OUTPUT), ("--version", OUTPUT),
    ("record --help", OUTPUT),
)  # fmt: skip
SETS = (("input",), ("output",), ("error",), ("input", "output", "error"), ("output", "error"))
CLOSED = {f"{line} without {' '.join(closed)}": (line.split(), needed, closed)
          for line, needed in NEEDED for closed in SETS}


@rows(CLOSED, "need_closed")
class Closed(Host):
    """Lines with closed streams, so that a file that is opened next may get the number of a stream."""

    seconds = 12

    def need_closed(self, row: tuple[Words, Mapping[str, bytes], Words]) -> None:
        """Runs a line with these streams closed."""
        words, needed, closed = row
        before, whole = read("s"), self.run_line(*words).out if words[0] in ("list", "verify", "dump") else b""
        line = " ".join(['exec "$0" "$@"', *(STREAMS[it] for it in closed)])
        done = subprocess.run(["sh", "-c", line, *self.program.words(*words)], stdin=subprocess.DEVNULL,
                              capture_output=True, timeout=NEAR, check=False)
        missed = [text for it, text in needed.items() if it in closed]
        self.need("status", 1 if missed else 0, done.returncode)
        if missed and "error" not in closed:
            said = bytes(it for it in done.stderr if it < 0x80)
            self.need("errors", missed[0], said[-len(missed[0]):])
        if whole and list(closed) == ["input"]:
            self.need("output and errors", (whole, b""), (done.stdout, done.stderr))
        self.need_sound(before, words[0] == "record")
        self.need_made(words[0])

    def need_sound(self, before: bytes, is_longer: bool) -> None:
        """The store has what it had, and each of its guests verifies."""
        now = read("s")
        self.need("the store", before[:-1] if is_longer else before, now[: len(before) - 1] if is_longer else now)
        lines = self.need_line("list", "s", out=None).out.splitlines()
        self.assertTrue(lines)
        for line in lines:
            for command in ("verify", "replay"):
                self.need_line(command, "s", line.split()[0].decode(), out=None, err=None)

    def need_made(self, command: str) -> None:
        """What a command makes is whole."""
        if command == "new":
            self.need_line("list", "fresh")
        elif command == "core":
            self.need_line("core", "s", 0, "end", "core.open")
            self.need("the core file", read("core.open"), read("core"))
        elif command == "copy":
            for it in ("dump", "replay"):
                self.need(it, self.run_line(it, "s", 0), self.run_line(it, "to", 0))


# ---- streams that are full, don't wait, or that nobody reads

QUIET = ("list s", "list --long s", "elf s 0", "dump s 0", "dump --places s 0", "replay s 0", "replay --at end s 0",
         "ask s 0")
SAID = ("verify s 0", "choices s 0", "check exit_five", "copy s 0 to")
LEFT = {f"{it} whose reader went away": (it, text)
        for some, text in ((QUIET, b""), (SAID, OUTPUT_FAILED)) for it in some}
# The byte at 7fffff80 is the lowest digit of a count that the guest prints, and changes before each of its writes.
FULL_LINES = ("--help", "--version", "list s", "last --short --times 9 s 0 end 7fffff80", "back s 0 end 1",
              "verify --long s 0", "dump --trace-events s 0", "dump --places s 0")
SLOW = {f"{command} whose {stream} doesn't wait": (command, stream)
        for stream in ("stdout", "stderr") for command in ("record", "replay")}


@rows({f"{it} into a full output": it for it in FULL_LINES}, "need_full")
@rows(SLOW, "need_all")
@rows(LEFT, "need_left")
@rows({f"{it} whose errors can't be written": (it, status) for it, status in (("list missing", 1), ("list", 2))},
      "need_unsaid")
class Streams(Host):
    """Streams into which little or nothing goes."""

    seconds = 6

    def need_full(self, line: str) -> None:
        """A line says that its output was full."""
        self.need(line, (1, b"", OUTPUT_FAILED), self.run_full(*line.split()))

    def need_all(self, row: tuple[str, str]) -> None:
        """A line waits for a pipe that doesn't wait by itself: all of the guest's output is read once the pipe is
        full."""
        command, stream = row
        write("loud.elf", Printer(9, 40, 1_000, 10).elf())
        self.need_line("new", "slow")
        if command == "replay":
            self.need_line("record", "slow", "loud.elf", out=None, err=None)
        reader, writer = os.pipe()
        os.set_blocking(writer, False)
        words = self.program.words(command, "slow", "loud.elf" if command == "record" else "0")
        with open("other", "w+b") as other, open(reader, "rb") as pipe:
            streams: dict[str, Any] = {"stdout": other, "stderr": other, stream: writer}
            with subprocess.Popen(words, stdin=subprocess.DEVNULL, **streams) as started:
                os.close(writer)
                time.sleep(FILLS)
                read_late = pipe.read()
                status = started.wait(NEAR)
        guest = self.run_line("replay", "slow", 0)
        wanted = guest.out if stream == "stdout" else guest.err
        self.assertGreater(len(wanted), FULL)
        self.need("status and output", (0, wanted), (status, read_late[: len(wanted)]))

    def need_unsaid(self, row: tuple[str, int]) -> None:
        """A line ends with its status if nobody reads its errors, or they are full, and outputs nothing."""
        with open("/dev/full", "wb") as full:
            for errors in (unread_pipe(self), full):
                self.need(row[0], (row[1], b"", b""), self.run_with(*row[0].split(), stderr=errors))

    def need_left(self, row: tuple[str, bytes]) -> None:
        """A line ends with status 1 and a text if the reader of its output went away."""
        line, text = row
        given = {"input": b"at end\n" * 3} if line.startswith("ask") else {}
        self.need(line, (1, b"", text), self.run_with(*line.split(), stdout=unread_pipe(self), **given))

    def test_ask(self) -> None:
        """It prints a state before the next line comes, lets its store be recorded to meanwhile, and ends with status 1
        and no text once the reader went away."""
        state, parts = self.run_line("replay", "--at", "end", "s", 0).out.splitlines(keepends=True), []
        with subprocess.Popen(self.program.words("ask", "s", 0), stdin=subprocess.PIPE, stdout=subprocess.PIPE,
                              stderr=subprocess.PIPE, restore_signals=False) as ask:
            assert ask.stdin and ask.stdout and ask.stderr
            for line in (b"where\n", b"at end\n"):
                ask.stdin.write(line)
                ask.stdin.flush()
                read_on = iter(ask.stdout.readline, None)
                parts.append([*itertools.takewhile(lambda it: it not in (b".\n", b""), read_on)])
            recorded = self.run_line("record", "s", "exit_five")
            ask.stdout.close()
            ask.stdin.write(b"where\n" * 2)
            ask.stdin.close()
            ended = ask.wait(NEAR), ask.stderr.read()
        self.need("what is recorded meanwhile", (0, FIVE.out, FIVE.report), recorded)
        self.need("the place", [b"at 0 of "], [it[:8] for it in parts[0]])
        self.need("the state", state, parts[1])
        self.need("status and errors", (1, b""), ended)


class Waited(Host):
    """A program that is a pipe, for which a recording waits."""

    def opened(self, name: str) -> int:
        """A pipe that is written to, once someone has it open to read it."""
        limit = time.monotonic() + NEAR
        while time.monotonic() < limit:
            with contextlib.suppress(OSError):
                return os.open(name, os.O_WRONLY | os.O_NONBLOCK)
            time.sleep(0.01)
        raise self.failureException(f"nobody reads {name}")

    def test_another_records_meanwhile(self) -> None:
        """The store is opened once the program was read, so until then another recording may open it."""
        os.mkfifo("pipe")
        with self.program.start("record", "to", "pipe") as waits:
            with open(self.opened("pipe"), "wb") as pipe:
                self.need_line("record", "to", "exit_five", err=FIVE.report)
                pipe.write(FIVE.file)
            said = waits.communicate(timeout=NEAR)
        self.need("how the one that waited ended", (0, (FIVE.out, FIVE.report)), (waits.returncode, said))
        self.need_line("list", "to", out=FIVE_LISTED + FIVE_LISTED.replace(b"0 g0", b"1 g0", 1))


# ---- guests beside one whose output is full


class Beside(Host):
    """A recording that one guest's output stopped reports just the others that ended, by their numbers."""

    def setUp(self) -> None:
        super().setUp()
        write("spin.elf", guests.SPIN)
        write("few", b"1 64\n1 64\n")
        write("many", b"1 100000\n" * 2000)
        self.fault = self.record("alone", "faulting.elf").err
        self.record("stopped", "exit_five")

    def run_faulting(self) -> Result:
        """Records one whose output is full, which is not reported though it ended too; one without end; and two."""
        return self.run_full("record", "stopped", "printing.elf", ENDLESS, "faulting.elf", "exit_five")

    def run_choices(self) -> Result:
        """Records three guests by choices, of which the last one's run out, so that it does not end."""
        choices = [word for it in ("few", "many", "few") for word in ("--choices", it)]
        return self.run_full("record", *choices, "--then", "none", "stopped", "exit_five", ENDLESS, "spin.elf")

    def test_guests_that_ended(self) -> None:
        """They are reported, with the place of a fault."""
        self.assertTrue(self.fault.startswith(b"g0: "), self.fault)
        text = self.fault.replace(b"g0:", b"g2:", 1) + b"g3: end exited 5, records 2\n" + OUTPUT_FAILED
        self.need("the recording", (1, b"", text), self.run_faulting())

    def test_guest_whose_choices_ran_out(self) -> None:
        """It is not reported."""
        text = b"g0: end exited 5, records 2\n" + OUTPUT_FAILED
        self.need("the recording", (1, b"", text), self.run_choices())

    def test_guests_verify(self) -> None:
        """Those that ended verify."""
        self.run_faulting()
        self.run_choices()
        for it in (0, 3, 4, 5):
            self.need_line("verify", "stopped", it, out=None)


class Folders(Host):
    """Stores that few files may be opened for, that have sixteen guests, or that go."""

    seconds = 3

    def test_new_with_few_files(self) -> None:
        """A `new` that may not open enough files leaves none, and one that may leaves a store."""
        for limit in range(4, 20):
            words = ["sh", "-c", f'ulimit -n {limit}; exec "$0" new few', str(self.program.path)]
            done = subprocess.run(words, capture_output=True, stdin=subprocess.DEVNULL, timeout=NEAR, check=False)
            if done.returncode == 0:
                break
            found = done.returncode, done.stderr, os.path.exists("few")
            self.need(f"with {limit} files", (1, b"rrv: cannot open store\n", False), found)
        self.assertGreater(limit, 4)
        self.need_line("list", "few")

    def test_sixteen_programs(self) -> None:
        """Each of sixteen programs that exit with their place is the one at its place."""
        names = [f"exit{it}" for it in range(16)]
        for status, name in enumerate(names):
            write(name, elf.executable(exits(status)))
        self.need_line("new", "many")
        report = "".join(f"g{it}: end exited {it}, records 2\n" for it in range(16))
        self.need_line("record", "many", *names, err=report)
        for it in range(16):
            self.need_line("verify", "many", it, out=f"ok records=2 instructions=3 end exited {it}\n")
        lines = "".join(f"{it} g{it} records=2 frames=1 instructions=3\n" for it in range(16))
        self.need_line("list", "many", out=lines)

    def need_gone(self, take_away: Callable[[], None]) -> None:
        """A recording without end is ended by the next write, once its store was taken away."""
        self.need_line("new", "gone")
        with open("printed", "wb") as printed, self.program.start("record", "gone", ENDLESS,
                                                                  out=printed.fileno()) as recording:
            limit = time.monotonic() + NEAR
            while os.path.getsize("gone") < FEW_BYTES and time.monotonic() < limit:
                time.sleep(0.01)
            take_away()
            try:
                _, err = recording.communicate(timeout=NEAR)
            except subprocess.TimeoutExpired:
                recording.kill()
                raise
        text = b"rrv: device failed\n"
        self.need("status and errors", (1, text), (recording.returncode, err[-len(text):]))

    def test_store_that_is_removed(self) -> None:
        """The store was removed."""
        self.need_gone(lambda: os.remove("gone"))

    def test_store_that_is_replaced(self) -> None:
        """Another file was put in its place."""
        write("other", b"another file")
        self.need_gone(lambda: os.replace("other", "gone"))


class Sleeps(Host):
    """A guest that prints a line, waits at a word that nobody wakes, and exits with the low byte of the result."""

    seconds = 3

    @staticmethod
    def guest() -> list[int]:
        """Its words. That at which it waits is the low half of the nanoseconds, of which there are none."""
        words = [addi(S0, SP, -64), *li(X5, SLEEPS), sw(X5, S0, 0), *li(X5, int.from_bytes(b"hi\n", "little"))]
        words += [sw(X5, S0, 16), addi(A0, ZERO, 1), addi(A1, S0, 16), addi(A2, ZERO, 3), *call(guests.WRITE)]
        return [*words, *timed_wait(S0, 8, 0), *call(EXIT)]

    def recorded(self) -> tuple[float, float, float]:
        """Records it to a new marked store, and returns after how many seconds its line came and it ended, and how
        many of processor time that took."""
        if os.path.exists("asleep"):
            os.remove("asleep")
        self.need_line("new", "asleep")
        with self.program.start("record", "--upgrade", "asleep", "sleeps.elf") as ran:
            assert ran.stdout and ran.stderr
            begun = time.monotonic()
            line, came = ran.stdout.read(3), time.monotonic() - begun
            rest, err = ran.stdout.read(), ran.stderr.read()
            _, status, usage = os.wait4(ran.pid, 0)
            took, ran.returncode = time.monotonic() - begun, os.waitstatus_to_exitcode(status)
        wanted = (0, b"hi\n", b"", b"g0: end exited 146, records 5\n")
        self.need("the recording", wanted, (ran.returncode, line, rest, err))
        self.need_line("verify", "asleep", 0, out=f"ok records=5 instructions={len(self.guest())} end exited 146\n")
        return came, took, usage.ru_utime + usage.ru_stime

    def test_line_and_cost(self) -> None:
        """Its line leaves before it sleeps, and the recording sleeps too. Other work may take its caches, and so some
        of the processor time that it may have."""
        write("sleeps.elf", elf.executable(self.guest()))
        found = []
        for _ in range(TRIES):
            came, took, cost = self.recorded()
            if SLEEPS <= took < NEAR and came < took - SLEEPS / 2 and cost < SLEEPS_COST:
                return
            found.append(f"its line after {came:.3f} seconds, the end after {took:.3f}, {1000 * cost:.1f} milliseconds")
        self.fail("\n".join(found))


# ---- over a library before the C library


class Preloaded(Host):
    """The program runs over that library."""

    library = "preloaded"

    def run_over(self, *words: str, options: Mapping[str, object] | None = None,
                 **how: Any) -> tuple[Result, list[preload.Moment]]:
        """Runs a line over the library."""
        return preload.run(self.shared, self.program.words(*words), options, **how)


# Lines, all that each outputs, of which None has no known bytes; how many bytes of a write the output takes and how
# many in all; and the status and the errors.
Taken = tuple[str, bytes | None, tuple[int, int], int, bytes]
WHOLE: list[Taken] = [
    *(("dump s 0", HI_DUMPED, (most, len(HI_DUMPED)), 0, b"") for most in (1, 2, 7)),
    ("dump s 0", HI_DUMPED, (1000, 1000), 0, b""),
    *(("replay s 0", b"hi\n", it, 0, b"") for it in ((1, 3), (2, 1000), (1000, 3))),
]
ROOMS: tuple[tuple[str, bytes | None, tuple[tuple[int, int], ...]], ...] = (
    ("dump s 0", HI_DUMPED, ((1, 0), (1, 1), (1000, 0), (1000, 3), (1, 29), (1000, 100))),
    ("replay s 0", b"hi\n", ((1, 0), (1, 2), (1000, 0), (1000, 2))),
    ("list s", HI_LISTED, ((1, 0), (1000, 39))),
    ("verify s 0", HI_VERIFIED, ((1, 0), (1000, 41))),
    ("last s 0 0 0", b"unchanged\n", ((1, 0), (1000, 9))),
    ("record s hello", b"hi\n", ((1, 0), (1, 1), (1000, 2))),
    ("--help", None, ((1000, 0), (1000, 3))),
    ("--version", None, ((1000, 0), (1000, 3))),
)
FULL_ROWS: list[Taken] = [(line, whole, it, 1, OUTPUT_FAILED) for line, whole, some in ROOMS for it in some]


@rows({f"{it[0]} takes {it[2][0]} up to {it[2][1]}": it for it in (*WHOLE, *FULL_ROWS)}, "need_taken")
class Parts(Preloaded):
    """Output that takes parts of writes, and has room for a number of bytes."""

    seconds = 3

    def need_taken(self, row: Taken) -> None:
        """A line outputs what is taken, and ends as it has to."""
        line, whole, (most, room), *ended = row
        os.remove("s")
        write("hello", HI.file)
        self.record("s", "hello")
        done, _ = self.run_over(*line.split(), options={"OUTPUT_MOST": most, "OUTPUT_ROOM": room})
        self.need("status and errors", ended, [done.status, done.err])
        self.need("output", room if whole is None else whole[:room], len(done.out) if whole is None else done.out)


# Which read of 20 bytes fails, by what error, and how that is reported. The file has 96 bytes: none is read, 60 are, or
# all.
READS = {f"read {nth} fails with {errno.errorcode[error]}": (nth, error, text) for nth in (1, 4, 6)
         for error, text in ((errno.ETIMEDOUT, CANNOT_READ), (errno.ENOMEM, b"rrv: out of memory\n"))}
# Refused lines, bad ones and help, with their status.
SINGLE = {"list missing": 1, "verify s 99": 1, "record s bad.txt": 1, "record --choices bad.txt s exit_five": 1,
          "list": 2, "verify s x": 2, "--help": 0, "--version": 0}


@rows(READS, "need_refused_read")
@rows({f"{line} in one write": it for it in SINGLE.items() for line in it[:1]}, "need_one_write")
class Reads(Preloaded):
    """Files of which a read fails, and texts that leave in one write."""

    seconds = 3

    def need_refused_read(self, row: tuple[int, int, bytes]) -> None:
        """A program's file of which a read fails is refused by a text, and nothing is recorded."""
        nth, error, text = row
        self.need_line("new", "read")
        options = {"READ_MOST": 20, "CHOSEN_CALLS": "i", "CHOSEN_NTH": nth, "CHOSEN_ERROR": error}
        self.need("the recording", (1, b"", text), self.run_over("record", "read", "exit_five", options=options)[0])
        self.need_line("list", "read")

    def test_file_in_parts(self) -> None:
        """It is read whole by such reads: its records have its length, and the digest of its state its bytes."""
        self.need_line("new", "read")
        done, _ = self.run_over("record", "read", "exit_five", options={"READ_MOST": 20})
        self.need("the recording", (0, FIVE.out, FIVE.report), done)
        self.need_line("dump", "read", 0, out=FIVE_DUMPED)
        self.need_line("replay", "--at", "end", "read", 0, out=EXITED)

    def need_one_write(self, row: tuple[str, int]) -> None:
        """A line writes once: its output if its status is 0, and else its errors."""
        line, status = row
        write("bad.txt", b"1 64\n1\n")
        done, moments = self.run_over(*line.split())
        written = [(it.descriptor, it.data) for it in moments if it.call == "write" and not it.has_ended]
        whole = (1, done.out) if status == 0 else (2, done.err)
        self.need("status and writes", (status, [whole]), (done.status, written))
        self.assertTrue(whole[1].endswith(b"\n"), whole)

    def test_guest_that_cannot_be_read_again(self) -> None:
        """A recording that one guest's output stopped reports another though the one after it can't be read again: its
        records are overwritten before the last but one of its reads."""
        fault = self.record("alone", "faulting.elf").err.replace(b"g0:", b"g1:", 1)
        words, found = ("record", "unread", "printing.elf", "faulting.elf", "exit_five"), []
        options: dict[str, object] = {}
        with open("/dev/full", "wb") as full:
            for _ in range(2):
                self.need_line("new", "unread")
                streams = {"capture_output": False, "stdout": full, "stderr": subprocess.PIPE}
                done, moments = self.run_over(*words, options=options, **streams)
                found.append((done.status, done.err))
                write("zeros", bytes(os.path.getsize("unread")))
                os.remove("unread")
                nth = sum(it.call == "pread" for it in moments) - 1
                options = {"CHOSEN_CALLS": "r", "CHOSEN_NTH": nth, "OVERWRITTEN": "unread", "OVERWRITTEN_BY": "zeros"}
        wanted = [(1, fault + more + OUTPUT_FAILED) for more in (b"g2: end exited 5, records 2\n", b"")]
        self.need("whole, and overwritten", wanted, found)


def asks_clock(clock: int, at: int) -> list[int]:
    """The words that read a clock to a place of the buffer."""
    return [addi(A0, ZERO, clock), addi(A1, S0, at), *call(CLOCK)]


# It reads the monotonic clock, runs a while, reads it again, then the real one, and prints the three.
CLOCKS = elf.executable([
    addi(S0, SP, -64), *asks_clock(1, 0), *li(X5, 1_000_000), *counted_down(X5, []), *asks_clock(1, 16),
    *asks_clock(0, 32), *writes(1, S0, 48), *exits(0),
])  # fmt: skip


@rows({"the clocks of the host": {}, "real past 2^31": {"REAL_LATER": 2**31}, "real past 2^32": {"REAL_LATER": 2**32},
       "monotonic past 2^31": {"MONOTONIC_LATER": 2**31}}, "need_clocks")  # fmt: skip
class Clocks(Preloaded):
    """Clocks that are seconds later than the host's."""

    def need_clocks(self, later: Mapping[str, int]) -> None:
        """The monotonic clock begins near 0 and goes on, and the real one isn't cut."""
        write("clocks.elf", CLOCKS)
        self.need_line("new", "clocks")
        before = time.time_ns()
        done, _ = self.run_over("record", "clocks", "clocks.elf", options=later)
        after = time.time_ns()
        self.need("status and length of the output", (0, 48), (done.status, len(done.out)))
        first, second, real = (seconds * BILLION + nanos for seconds, nanos in struct.iter_unpack("<qq", done.out))
        shift = later.get("REAL_LATER", 0) * BILLION
        self.assertTrue(0 <= first < second < NEAR * BILLION, f"monotonic {first}, then {second} nanoseconds")
        self.assertTrue(before + shift <= real <= after + shift, f"real {real} nanoseconds, after {before + shift}")
        self.need_line("replay", "clocks", 0, out=done.out)
        self.need_line("verify", "clocks", 0, out=None)
