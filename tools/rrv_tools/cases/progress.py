"""The line that shows how far the program is.

Expected values: the guests' instructions, from which the numbers of each line were worked out beforehand.

It comes with --progress, or if standard error is a terminal: at most four times a second, rising each time, and cleared
before anything else is written. Else there is not a byte of it. Over a C library whose clock is a second later at each
reading the line comes at each record, however fast the machine is; what it counts then follows from the guest, a loop
of two instructions. So it is for each command that shows the line, and at each stretch of a search by `ask`. Around the
writes of a guest that prints, to both streams in turn, it is cleared on a terminal, and nothing of it goes into a pipe
or a file. `ask` has its prompt if it reads from a terminal and writes to one.
"""
import contextlib
import itertools
import os
import pathlib
import pty
import re
import shutil
import subprocess
import termios
import time
from collections.abc import Sequence
from typing import IO, NamedTuple

from rrv_tools import elf, preload
from rrv_tools.guests import Printer, exits
from rrv_tools.riscv import X5, counted_down, lui
from rrv_tools.testing import Case, rows

PATIENCE = 120
# One that prints eight letters to standard output, and eight to standard error, and runs for some tenths of a second
# before each.
PRINTING = Printer(4, 2, 1, 100_000_000)
# How many times a guest goes round its loop.
ROUNDS, FEW_ROUNDS = 0x10000 << 12, 1 << 12
# The shorter guest's records have this many instructions, and a checkpoint comes after every other.
QUANTUM, EVERY = 1024, 2048
# A search for the next change looks at this many instructions at once at most, and at the last of a frame by itself.
STRETCH = 4096
CLEAR = "\r\x1b[K"
REPORT = r"g0: end exited 0, records (\d+)\n"
RECORDING, VERIFYING = r"(\d+) records, (\d+) instructions", r"(\d+) of (\d+) records, (\d+) of (\d+) instructions"
Numbers = list[list[int]]


def guest(rounds: int) -> bytes:
    """A guest that goes round a multiple of 4,096 times, and exits with 0."""
    return elf.executable([lui(X5, rounds >> 12), *counted_down(X5, []), *exits(0)])


def instructions_of(rounds: int) -> int:
    """How many instructions that guest runs."""
    return 2 * rounds + 4


INSTRUCTIONS = instructions_of(ROUNDS)
VERIFIED = rf"ok records=\d+ instructions={INSTRUCTIONS} end exited 0\n"


class Shown(NamedTuple):
    """How a line ended, and how long it took."""

    status: int
    out: str
    err: str
    seconds: float


class Line(NamedTuple):
    """A line by its words; what matches its output, and its errors after the lines of progress; what these match; and
    which of "out" and "err" lead to a terminal."""

    words: str
    out: str
    err: str
    progress: str = ""
    terminal: tuple[str, ...] = ()
    into_file: bool = False


def read_to_end(terminal: int) -> bytes:
    """What is written to a terminal until nobody holds its other end."""
    shown = b""
    with contextlib.suppress(OSError):
        while part := os.read(terminal, 4096):
            shown += part
    return shown.replace(b"\r\n", b"\n")


def shown_in(errors: str, pattern: str, after: str) -> Numbers | None:
    """The numbers of each line that was shown, if each is cleared and only this comes after; else None."""
    *lines, last = errors.split(CLEAR)
    found = [[int(it) for it in match.groups()] for line in lines if (match := re.fullmatch(pattern, line))]
    return found if found and len(found) == len(lines) and re.fullmatch(after, last) else None


def rises(numbers: Numbers) -> bool:
    """Whether the counts of these rows, without how much there is in all, rise from each to the next."""
    done = [row if len(row) == 2 else row[::2] for row in numbers]
    return all(a < b for row, after in itertools.pairwise(done) for a, b in zip(row, after, strict=True))


class Shows(Case):
    """The folder of each case has copies of the files that the class made."""

    def setUp(self) -> None:
        super().setUp()
        for it in self.class_folder.iterdir():
            if it.is_file():
                shutil.copy(it, self.folder)

    @classmethod
    def make(cls, guests: dict[str, bytes], *lines: str) -> None:
        """Makes these guests in the class's folder, and runs these lines over them."""
        for name, file in guests.items():
            pathlib.Path(name).write_bytes(file)
        for line in lines:
            cls.program.run_well(*line.split())

    def run_on(self, words: Sequence[str], terminal: Sequence[str] = (),
               into: int | IO[bytes] = subprocess.PIPE) -> Shown:
        """Runs a line with one or both of its streams on a terminal. If both are, all is in the errors."""
        start, (reader, writer) = time.monotonic(), pty.openpty()
        stdout, stderr = (writer if it in terminal else into for it in ("out", "err"))
        line = self.program.words(*words)
        with subprocess.Popen(line, stdin=subprocess.DEVNULL, stdout=stdout, stderr=stderr) as ran:
            os.close(writer)
            shown = read_to_end(reader)
            out, err = ran.communicate(timeout=PATIENCE)
        os.close(reader)
        if "err" in terminal:
            err = shown
        elif terminal:
            out = shown
        return Shown(ran.returncode, (out or b"").decode(), (err or b"").decode(), time.monotonic() - start)

    def need_ended(self, ran: Shown, out: str) -> None:
        """Needs a line to have succeeded with an output."""
        self.need(f"status, with errors {ran.err!r}", 0, ran.status)
        self.assertRegex(ran.out, rf"\A(?:{out})\Z")


RECORD = "record --quantum 1000000 --every 0 s long.elf"
LONG = {
    "record --progress": Line(f"{RECORD} --progress", "", REPORT, RECORDING),
    "record on a terminal": Line(RECORD, "", REPORT, RECORDING, ("err",)),
    "record without it": Line(RECORD, "", REPORT),
    "verify --progress": Line("verify --progress s 0", VERIFIED, "", VERIFYING),
    "verify on a terminal": Line("verify s 0", VERIFIED, "", VERIFYING, ("err",)),
    "verify without it": Line("verify s 0", VERIFIED, ""),
    "replay --progress": Line("replay --progress s 0", "", "", VERIFYING),
    "back --progress": Line("back --progress s 0 0 0", rf"at 0 of {INSTRUCTIONS}\n(?:.*\n)+", "", VERIFYING),
    "last --progress": Line("last --progress s 0 0 0", r"unchanged\n", "", VERIFYING),
    "core --progress": Line("core --progress s 0 0 core", "", "", VERIFYING),
    "choices --progress": Line("choices --progress s 0", r"(?:1 1000000\n)+1 \d+\n", "", VERIFYING),
}


@rows(LONG, "need_shown")
class Long(Shows):
    """A guest that runs for some seconds."""

    seconds = 36

    @classmethod
    def setUpClass(cls) -> None:
        super().setUpClass()
        cls.make({"long.elf": guest(ROUNDS)}, "new s", RECORD)

    def need_shown(self, line: Line) -> None:
        """A line shows how far it is, at most four times a second, or nothing of that."""
        ran = self.run_on(line.words.split(), line.terminal)
        self.need_ended(ran, line.out)
        if not line.progress:
            self.assertRegex(ran.err, rf"\A{line.err}\Z")
            return
        numbers = shown_in(ran.err, line.progress, line.err)
        self.assertTrue(numbers and rises(numbers) and len(numbers) <= 4 * ran.seconds + 1, ran)
        if line.progress == VERIFYING:
            self.assertTrue(all(row[0] <= row[1] and row[2] <= row[3] == INSTRUCTIONS for row in numbers or ()), ran)

    def test_two_guests(self) -> None:
        """The line counts both."""
        ran = self.run_on([*RECORD.split(), "long.elf", "--progress"])
        numbers = shown_in(ran.err, RECORDING, REPORT + REPORT.replace("g0", "g1"))
        self.assertTrue(numbers and INSTRUCTIONS < numbers[-1][1] <= 2 * INSTRUCTIONS, ran)


# ---- at each record


def counts(every: int) -> list[int]:
    """How many instructions come before the end of each record of the shorter guest: its opening, its frames and, if
    they are asked for, its checkpoints."""
    found, of = [0], instructions_of(FEW_ROUNDS)
    while found[-1] < of:
        found.append(min(found[-1] + QUANTUM, of))
        if every and found[-1] % every == 0 and found[-1] < of:
            found.append(found[-1])
    return found


def searched(ends: Sequence[int]) -> list[int]:
    """The places that a search for a change after place 0 comes to, if frames end at these."""
    found = [1]
    while found[-1] < ends[-1]:
        ahead = next(it for it in ends if found[-1] < it) - 1 - found[-1]
        found.append(found[-1] + (min(ahead, STRETCH) or 1))
    return found[1:]


def searched_back(checkpoints: Sequence[int], of: int) -> list[int]:
    """The places that a search for a change before the end comes to, with these checkpoints: the spans of some
    workers, and then each time of twice as many, up to 64."""
    found, count = [of], min(len(os.sched_getaffinity(0)), 16)
    while found[-1] > 0:
        begins = [0, *(it for it in checkpoints if it < found[-1])]
        found.append(begins[max(len(begins) - count, 0)])
        count = min(2 * count, 64)
    return found[1:]


# A line by its words, the numbers that it shows, its output, and its errors after them.
Each = tuple[str, Numbers, str, str]
# A line by its words, what it reads, its output, the instructions before the end of each record after the opening, and
# the places to which its search comes.
Search = tuple[str, bytes, str, list[int], list[int]]
RECORD_SHORT = f"record --quantum {QUANTUM} short short.elf --every"
BARE, MARKED, OF = counts(0), counts(EVERY), instructions_of(FEW_ROUNDS)
CHECKPOINTS = [count for before, count in itertools.pairwise(MARKED) if before == count]
OF_BARE, OF_MARKED = ([[index, len(it), count, OF] for index, count in enumerate(it, 1)][1:] for it in (BARE, MARKED))
# The long list goes on from guest to guest, and counts all of both.
OF_BOTH = [[before + index, len(MARKED) + len(BARE), more + count, 2 * OF]
           for before, more, some in ((0, 0, MARKED), (len(MARKED), OF, BARE))
           for index, count in enumerate(some, 1) if index > 1]
ENDED = rf"ok records={{}} instructions={OF} end exited 0\n"
EACH: dict[str, Each] = {
    "record": (f"{RECORD_SHORT} 0", [[index, count] for index, count in enumerate(BARE, 1)], "", REPORT),
    "verify": ("verify short 1", OF_BARE, ENDED.format(len(BARE)), ""),
    "verify with checkpoints": ("verify short 0", OF_MARKED, ENDED.format(len(MARKED)), ""),
    "replay": ("replay short 1", OF_BARE, "", ""),
    "replay with checkpoints": ("replay short 0", OF_MARKED, "", ""),
    "back": ("back short 1 end 0", OF_BARE, rf"at {OF} of {OF}\n(?:.*\n)+", ""),
    "core": ("core short 1 end short.core", OF_BARE, "", ""),
    "dump --places": ("dump --places short 1", OF_BARE, r"(?:\d+ .* from=.*\n|0 opening .*\n)+", ""),
    "dump --trace-events": ("dump --trace-events short 0", OF_MARKED, r"(?:.*\n)+", ""),
    "list --long": ("list --long short", OF_BOTH, r"(?:\d g0 .*\n){2}", ""),
    "choices": ("choices short 1", OF_BARE, rf"(?:1 {QUANTUM}\n)+1 \d+\n", ""),
}
NEXT, LAST = (b"next 0\n", "unchanged\n.\n"), (b"", "unchanged\n")
SEARCHES: dict[str, Search] = {
    "next": ("ask short 1", *NEXT, BARE[1:], searched(BARE[1:])),
    "next within a frame": ("ask whole 0", *NEXT, [OF], searched([OF])),
    "last": ("last short 1 end 0", *LAST, BARE[1:], [0]),
    "last with checkpoints": ("last short 0 end 0", *LAST, MARKED[1:], searched_back(CHECKPOINTS, OF)),
}


@rows({f"each record of {name}": it for name, it in EACH.items()}, "need_each")
@rows({f"each stretch of {name}": it for name, it in SEARCHES.items()}, "need_search")
class EachRecord(Shows):
    """A shorter guest, with checkpoints and without, over a clock that lets the line come at each record."""

    seconds, library = 2, "preloaded"

    @classmethod
    def setUpClass(cls) -> None:
        super().setUpClass()
        cls.make({"short.elf": guest(FEW_ROUNDS)}, "new short", f"{RECORD_SHORT} {EVERY}", f"{RECORD_SHORT} 0",
                 "new whole", "record --quantum 1048576 --every 0 whole short.elf")

    def run_each(self, words: str, given: bytes = b"") -> Shown:
        """Runs a line over that clock."""
        line = self.program.words(*words.split(), "--progress")
        done, _ = preload.run(self.shared, line, {"MONOTONIC_STEP": 1}, stdin=None, input=given)
        return Shown(done.status, done.out.decode(), done.err.decode(), 0)

    def need_each(self, line: Each) -> None:
        """A line shows just these numbers, in order."""
        words, numbers, out, err = line
        ran = self.run_each(words)
        self.need_ended(ran, out)
        found = shown_in(ran.err, VERIFYING if len(numbers[0]) == 4 else RECORDING, err)
        self.need(f"what is shown, by errors {ran.err!r}", numbers, found)

    def need_search(self, line: Search) -> None:
        """A line shows how far its verification is, and then each place to which its search comes."""
        words, given, out, counted, places = line
        of, total = counted[-1], len(counted) + 1
        lines = [f"{index} of {total} records, {count} of {of} instructions" for index, count in enumerate(counted, 2)]
        lines += [f"{it} of {of} instructions" for it in places]
        ran = self.run_each(words, given)
        self.need("status and output", (0, out), (ran.status, ran.out))
        self.need("what is shown", "".join(f"{it}{CLEAR}" for it in lines), ran.err)


# ---- a guest that prints

OUT, ERR = (PRINTING.printed(it).decode() for it in (1, 2))
# Its text has no newline at the end.
REPORTED = r"\ng0: end exited 4, records \d+\n"
COUNTS, VERIFIES = (rf"(?:{it}{re.escape(CLEAR)})" for it in (RECORDING, VERIFYING))
RECORD_PRINTING, REPLAY, DUMP = "record --every 0 p printing.elf", "replay p 0", "dump --places p 0"
BOTH, TO_OUT, TO_ERR = ("out", "err"), ("out",), ("err",)
LINES = r"(?:\d+ .*\n)+"
PRINTED = {
    "record into pipes": Line(RECORD_PRINTING, OUT, ERR + REPORTED),
    "record on a terminal":
        Line(RECORD_PRINTING, "", f"{COUNTS}+{OUT}{COUNTS}+{ERR}{COUNTS}*{REPORTED}", terminal=BOTH),
    "record with output into a file":
        Line(RECORD_PRINTING, OUT, f"{COUNTS}+{ERR}{COUNTS}*{REPORTED}", terminal=TO_ERR, into_file=True),
    "record with errors into a pipe": Line(RECORD_PRINTING, OUT, ERR + REPORTED, terminal=TO_OUT),
    "replay on a terminal": Line(REPLAY, "", f"{VERIFIES}+{OUT}{ERR}", terminal=BOTH),
    "replay with output into a pipe": Line(REPLAY, OUT, f"{VERIFIES}+{ERR}", terminal=TO_ERR),
    "replay with errors into a pipe": Line(REPLAY, OUT, ERR, terminal=TO_OUT),
    "dump --places on a terminal": Line(DUMP, "", f"{VERIFIES}*{LINES}", terminal=BOTH),
    "dump --places --progress": Line(f"{DUMP} --progress", LINES, f"{VERIFIES}+"),
    "replay --progress": Line(f"{REPLAY} --progress", OUT, f"{VERIFIES}+{ERR}"),
}


@rows(PRINTED, "need_printed")
class Printing(Shows):
    """A guest that prints to both streams in turn."""

    seconds = 12

    @classmethod
    def setUpClass(cls) -> None:
        super().setUpClass()
        cls.make({"printing.elf": PRINTING.elf()}, "new p", RECORD_PRINTING)

    def need_printed(self, line: Line) -> None:
        """A line prints what these patterns have."""
        with open("taken", "w+b") as taken:
            ran = self.run_on(line.words.split(), line.terminal, taken if line.into_file else subprocess.PIPE)
            taken.seek(0)
            self.need_ended(ran._replace(out=ran.out + taken.read().decode()), line.out)
        self.assertRegex(ran.err, rf"\A(?:{line.err})\Z")


# ---- lines that are read and refused on a terminal

PROMPTS = {"on a terminal": (("in", "out"), "rrv> "), "of a terminal into a pipe": (("in",), ""),
           "of a pipe on a terminal": (("out",), "")}


@rows({f"ask {name}": it for name, it in PROMPTS.items()}, "need_prompt")
class Terminal(Shows):
    """Prompts, and what is said of a second file."""

    @classmethod
    def setUpClass(cls) -> None:
        super().setUpClass()
        cls.make({"short.elf": guest(FEW_ROUNDS), "none.elf": b"no program"}, "new short", f"{RECORD_SHORT} 0")

    def need_prompt(self, row: tuple[Sequence[str], str]) -> None:
        """`ask` prints its prompt before each line that it reads, with those of its streams on one terminal, which
        doesn't show what is typed."""
        terminal, prompt = row
        reader, writer = pty.openpty()
        shows = termios.tcgetattr(writer)
        shows[3] &= ~termios.ECHO
        termios.tcsetattr(writer, termios.TCSANOW, shows)
        stdin, stdout = (writer if it in terminal else subprocess.PIPE for it in ("in", "out"))
        with subprocess.Popen(self.program.words("ask", "short", 0), stdin=stdin, stdout=stdout,
                              stderr=subprocess.PIPE) as ran:
            if "in" in terminal:
                # After the last newline this ends the input of a terminal.
                os.write(reader, b"threads 1\n\n\4")
            out, err = ran.communicate(b"" if "in" in terminal else b"threads 1\n\n", timeout=PATIENCE)
        os.close(writer)
        out = read_to_end(reader) if "out" in terminal else out
        os.close(reader)
        texts = ("rrv: unexpected value '1' for 'threads'\n.\n", "rrv: no question '': help lists them\n.\n")
        wanted = "".join(f"{prompt}{it}" for it in texts) + (f"{prompt}\n" if prompt else "")
        self.need("the end", (0, wanted, b""), (ran.returncode, out.decode(), err))

    def test_second_file_that_is_no_program(self) -> None:
        """`record` prints on a terminal what `check` does of it, after the line that it prints elsewhere too."""
        words = ["record", "short", "short.elf", "none.elf"]
        refused, checked = "rrv: guest 1: elf refusal 1\n", self.run_on(["check", "none.elf"]).err.removeprefix("rrv: ")
        self.assertTrue(checked.startswith("none.elf: "), checked)
        self.need("into a pipe", (1, "", refused), self.run_on(words)[:3])
        self.need("on a terminal", (1, "", refused + checked), self.run_on(words, ("err",))[:3])
