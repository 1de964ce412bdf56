"""Core files beside the states that they are of.

Expected values: the states that `replay --at` prints. The core files are read by `tools/run core_file`, which is in
Python, and by gdb-multiarch.
"""
import errno
import os
import pathlib
import re
import signal
import stat
import subprocess
from collections.abc import Callable, Mapping, Sequence

from rrv_tools import core_file, known, preload, printed
from rrv_tools.guests import path_of
from rrv_tools.printed import Frame
from rrv_tools.program import ROOT, Limits, Program
from rrv_tools.riscv import A0, SP
from rrv_tools.testing import Case, add_rows, rows

GDB = "gdb-multiarch"
SHOW = ["-nx", "-q", "-batch", "-ex", r'thread apply all -ascending printf "%x %x %x\n", $pc, $sp, $a0']
GUESTS = {"counter": ROOT / "examples" / "lost_update" / "counter.elf", **{it: path_of(it) for it in printed.NAMES}}
# Those whose core files the debugger reads too.
SHOWN = ("counter", "race")
# Places, by the places at which slices end: the start, the end, within a slice, and at and beside the ends of two.
PLACES: dict[str, Callable[[Sequence[int]], int]] = {
    "the start": lambda ends: 0, "the first instruction": lambda ends: 1,
    "before the end of a slice": lambda ends: ends[len(ends) // 3] - 1,
    "the end of a slice": lambda ends: ends[len(ends) // 3],
    "the end of a later slice": lambda ends: ends[len(ends) // 2],
    "after the end of a later slice": lambda ends: ends[len(ends) // 2] + 1,
    "the middle": lambda ends: ends[-1] // 2, "before the end": lambda ends: ends[-1] - 1,
    "the end": lambda ends: ends[-1],
}  # fmt: skip


# How a line ends whose core file can't be written, and one whose name is taken.
NOT_WRITTEN, NOT_MADE = ((1, b"", f"rrv: cannot {it} core file\n".encode()) for it in ("write", "make"))
DONE = 0, b"", b""
# The same of `ask`.
ASKED = {NOT_WRITTEN: NOT_WRITTEN[2], NOT_MADE: NOT_MADE[2], DONE: b""}
# What another program puts where the core file is to stand, or where its part stands.
PRECIOUS = b"of another program\n"
PART = "rrv-0.part"
ALL_DONE = 2


def recorded(program: Program, guest: str) -> list[Frame]:
    """Records a guest, and returns its frames."""
    program.run_well("new", guest)
    program.run_well("record", "--quantum", 1000, guest, GUESTS[guest])
    return printed.frames_in(printed.text_of(program, "dump", guest, 0))


class Looked(Case):
    """Recordings of guests, each made once for all cases of it."""

    shares_folder = True

    def core_at(self, guest: str, name: str) -> tuple[str, int, pathlib.Path]:
        """The state at a place of a guest, the thread that comes first, and a core file of it."""
        frames = self.once(recorded, self.program, guest)
        ends = printed.ends_of(frames)
        place = min(PLACES[name](ends), ends[-1])
        core = self.folder / f"{guest}.{name}"
        core.unlink(missing_ok=True)
        self.need_line("core", guest, 0, place, core)
        state = printed.text_of(self.program, "replay", "--at", place, guest, 0)
        return state, printed.first_at(frames, place), core


class Cores(Looked):
    """What `core_file` reads of core files."""

    seconds = 8

    def read(self, row: tuple[str, str]) -> None:
        """It has the threads and the pages of the state."""
        state, first, core = self.core_at(*row)
        try:
            came = core_file.lines_of(core.read_bytes())
        except core_file.Broken as broken:
            came = [f"no core file: {broken}"]
        self.need("core file", "\n".join(printed.core_lines(state, first)), "\n".join(came))


class Shown(Looked):
    """What the debugger shows of core files."""

    seconds = 8
    needs = (GDB,)

    def show(self, row: tuple[str, str]) -> None:
        """It shows the threads with three registers; there are none to show if all have ended."""
        state, first, core = self.core_at(*row)
        wanted = []
        for tid, thread in printed.in_core(state, first):
            registers = thread.registers()
            numbers = int(thread.pc, 16), registers[SP], registers[A0]
            wanted.append((str(tid), *(f"{it:x}" for it in numbers)))
        if wanted:
            words = [GDB, *SHOW, str(GUESTS[row[0]]), str(core)]
            done = subprocess.run(words, stdin=subprocess.DEVNULL, capture_output=True, text=True, check=False)
            came = re.findall(r"(?m)^Thread \d+ \(LWP (\d+)\).*\n(\w+) (\w+) (\w+)$", done.stdout)
            self.need("threads", wanted, came)


# ---- names

# What a library does with a call, how the line then ends, and the name at which another file is put, if it is.
Meanwhile = tuple[Mapping[str, object], tuple[int, bytes, bytes], str]
FULL, WRITTEN = {"CHOSEN_CALLS": "f", "CHOSEN_ERROR": errno.ENOSPC}, {"CHOSEN_CALLS": "f", "CHOSEN_DONE": ALL_DONE}
NO_LINKS = {"CHOSEN_CALLS": "n", "CHOSEN_ERROR": errno.EPERM}
MEANWHILE: dict[str, Meanwhile] = {
    "a disk is full": (FULL, NOT_WRITTEN, ""),
    "a disk is full and another file stands there": (FULL, NOT_WRITTEN, "c"),
    "a disk is full and another file stands for the part": (FULL, NOT_WRITTEN, PART),
    "another file stands there": (WRITTEN, NOT_MADE, "c"),
    "another file stands for the part": (WRITTEN, NOT_MADE, PART),
    "a name can't be given": ({"CHOSEN_CALLS": "n", "CHOSEN_ERROR": errno.ENOSPC}, NOT_MADE, ""),
    "a file system has no links": (NO_LINKS, DONE, ""),
    "a file system knows no links": ({"CHOSEN_CALLS": "n", "CHOSEN_ERROR": errno.EOPNOTSUPP}, DONE, ""),
    "a file system has no links and another file stands there": (NO_LINKS, NOT_MADE, "c"),
    "a file system has no links and another file stands for the part": (NO_LINKS, NOT_MADE, PART),
}  # fmt: skip


@rows(MEANWHILE, "need_kept")
class Named(Case):
    """A core file gets its name at the end, if that is free then."""

    seconds, library = 1, "preloaded"

    def setUp(self) -> None:
        super().setUp()
        (self.folder / "f").write_bytes(known.FIVE.file)
        self.need_line("new", "s")
        self.need_line("record", "s", "f", err=known.FIVE.report)
        self.need_line("core", "s", 0, 0, "whole")

    def need_files(self, *names: str) -> None:
        """The folder has these files beside the store and the program."""
        self.need("files", {"s", "f", *names}, set(os.listdir()))

    def need_kept(self, row: Meanwhile) -> None:
        """What another program put there is kept, and nothing else stays but a whole core file; also of `ask`."""
        options, ends, put = row
        options = {"CHOSEN_NTH": 1, **options, **({"REPLACED_BY": "precious", "REPLACED": put} if put else {})}
        asked = 0, ASKED[ends] + b".\n", b""
        for line, given, wanted in (("core s 0 0 c", b"", ends), ("ask s 0", b"core c\n", asked)):
            for it in ("c", PART):
                pathlib.Path(it).unlink(missing_ok=True)
            pathlib.Path("precious").write_bytes(PRECIOUS)
            words = self.program.words(*line.split())
            ended, _ = preload.run(self.shared, words, options, stdin=None, input=given)
            self.need("its end", wanted, tuple(ended))
            self.need_files("whole", *([put] if put else ["precious", "c"] if ends == DONE else ["precious"]))
            if put:
                self.need("the other file", PRECIOUS, pathlib.Path(put).read_bytes())
            elif ends == DONE:
                self.need("the core file", pathlib.Path("whole").read_bytes(), pathlib.Path("c").read_bytes())

    def test_its_owner_alone_may_read_it(self) -> None:
        """As one that the kernel writes; and no other name is left."""
        self.need("mode", "-rw-------", stat.filemode(os.stat("whole").st_mode))
        self.need("names of it", 1, os.stat("whole").st_nlink)
        self.need_files("whole")

    def test_a_signal_leaves_a_part(self) -> None:
        """At a limit on the length of files the program is ended. Nothing has the name then, and the part that is left
        keeps no core file from its name."""
        limits = Limits(file_length=2048, ignores_file_length=False)
        for number in range(2):
            ended = self.run_line("core", "s", 0, 0, "c", limits=limits)
            self.need("its end", (-signal.SIGXFSZ, b"", b""), tuple(ended))
            self.need_files("whole", *(f"rrv-{it}.part" for it in range(number + 1)))
        self.need_line("core", "s", 0, 0, "c")
        self.need("the core file", pathlib.Path("whole").read_bytes(), pathlib.Path("c").read_bytes())
        self.need_files("whole", "c", "rrv-0.part", "rrv-1.part")
        self.need("lengths of the parts", [2048, 2048], [os.stat(f"rrv-{it}.part").st_size for it in range(2)])

    def test_what_is_there_is_refused(self) -> None:
        """Files, folders and links, also those that lead nowhere."""
        pathlib.Path("folder").mkdir()
        os.symlink("nowhere", "link")
        for name in ("whole", "folder", "link", "folder/", "", "folder/missing/c"):
            self.need_refused("core", "s", 0, 0, name, err=NOT_MADE[2])
        self.need_files("whole", "folder", "link")
        self.need("what the folder has", [], os.listdir("folder"))

    def test_the_name_of_a_part(self) -> None:
        """A core file may be named as a part is, also by another path."""
        pathlib.Path("folder").mkdir()
        for name, path in ((PART, PART), ("rrv-1.part", "./rrv-1.part"), ("rrv-2.part", "folder/../rrv-2.part")):
            self.need_line("core", "s", 0, 0, path)
            self.need("the core file", pathlib.Path("whole").read_bytes(), pathlib.Path(name).read_bytes())
        self.need_files("whole", "folder", PART, "rrv-1.part", "rrv-2.part")

    def test_a_long_name(self) -> None:
        """A name of 255 bytes is given, and one of 256 refused."""
        self.need_line("core", "s", 0, 0, "c" * 255)
        self.need_refused("core", "s", 0, 0, "c" * 256, err=NOT_MADE[2])
        self.need_files("whole", "c" * 255)


add_rows(Cores, {f"{guest} at {place}": (guest, place) for guest in GUESTS for place in PLACES}, Cores.read)
add_rows(Shown, {f"{guest} at {place}": (guest, place) for guest in SHOWN for place in PLACES}, Shown.show)
