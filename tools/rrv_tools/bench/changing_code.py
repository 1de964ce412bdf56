"""Random guests whose code changes while they run, recorded and replayed by rrv, and compared with two other machines.

Expected values: what qemu-riscv32 gives, and what a restatement in Python gives that decodes each word where it stands
(rrv_tools.changing_guests).
A larger run: Of 300 guests each gave the output and the status that qemu-riscv32 gives, and the records, the end and
the states at two places that the restatement gives. 219 of them were also run by qemu-riscv32 as it is. The others
change what runs next without a jump or FENCE.I, which qemu sees only when it runs one instruction at a time.

usage: tools/run bench changing_code [--guests N] [--seed S] [--first K] [--keep FOLDER] [--without-rrv]
                                     [--cases FOLDER]

Guest K of a seed is always the same program: N of them are made (300), from guest K on (0). Each writes functions into
pages, calls them, changes them and calls them again: by stores of each size, atomics and read, with and without
FENCE.I; in pages that may be written and executed, and in pages whose permissions are changed for it by mprotect; over
pages that mmap FIXED replaces and munmap takes away. Functions lie across pages, change themselves before and after
where they run, and change their own page's permissions. Every third guest has a second thread that runs what the first
one changes. Most guests exit with a sum over all results; the others end with a fault, in code that was there.

Of each guest these are compared with a restatement in Python, which decodes each word where it stands: the output of
`rrv record` and of `rrv replay`, all lines of `rrv dump` and `rrv verify`, and the state at two places (`rrv replay
--at`). The output and the status are compared with qemu-riscv32 too, if it is installed: run with one instruction in
each of its blocks, since it sees no change within a block, and once more as it runs by itself if a guest makes no such
change. The status is 0 only if nothing differs.

--keep FOLDER: guests that differ stay in the folder, as K.elf and K.input. --without-rrv: the restatement is compared
with qemu-riscv32 alone. --cases FOLDER: the guests are small, read nothing and are recorded with the program's own
quantum, and those that don't differ go into the folder as those that `cases.lines` records. Seed 7 made the eight of
tools/guests.
"""
import functools
import os
import pathlib
import random
import resource
import shutil
import subprocess
import tempfile
from collections.abc import Collection, Iterator, Sequence

from rrv_tools import program as programs
from rrv_tools.bench.changing_programs import Program
from rrv_tools.bench.measuring import circumstances, parser, written
from rrv_tools.changing_guests import Guest
from rrv_tools.threads import QUANTUM, round_robin
from rrv_tools.toolchain import QEMU

PATIENCE = 120
# What a process printed, and its status, which is None if it didn't end.
Ended = tuple[bytes, int | None]


def on_one_processor() -> None:
    """Has this process run on one processor: on several, qemu-riscv32 7.2 sometimes ends a guest that changes the code
    of a running thread by SIGSEGV."""
    os.sched_setaffinity(0, {min(os.sched_getaffinity(0))})


def by_qemu(*words: programs.Word, given: pathlib.Path) -> Ended:
    """How a guest ended by qemu-riscv32."""
    with given.open("rb") as file:
        try:
            done = subprocess.run([QEMU, *map(str, words)], stdin=file, stdout=subprocess.PIPE, timeout=PATIENCE,
                                  stderr=subprocess.DEVNULL, check=False, preexec_fn=on_one_processor)
        except subprocess.TimeoutExpired:
            return b"", None
    return done.stdout, done.returncode


def by_rrv(rrv: programs.Program, *words: programs.Word) -> Ended:
    """How a line of rrv ended."""
    try:
        result = rrv.run(*words, timeout=PATIENCE)
    except subprocess.TimeoutExpired:
        return b"", None
    return result.out, result.status


class Example:
    """A guest of a seed, whose files stand in a folder, and how it is recorded."""

    def __init__(self, seed: int, number: int, folder: pathlib.Path, is_small: bool) -> None:
        draw = random.Random(f"{seed} {number}")
        program = Program(draw, number % 3 == 2, is_small)
        program.write()
        self.number, self.within_block = number, program.within_block
        self.file, self.given = program.elf(), bytes(program.given)
        self.elf, self.input, self.store = (folder / f"{number}.{it}" for it in ("elf", "input", "store"))
        written(self.elf, self.file)
        self.input.write_bytes(self.given)
        # A thread that waits without yielding uses its whole quantum.
        quanta = [64, 1000, 50000, 1048576] if program.yields else [64, 100, 1000]
        self.quantum = QUANTUM if is_small else draw.choice(quanta)
        guest = self.guest()
        lines, _ = guest.run(round_robin(self.quantum))
        self.lines = [f"0 opening name=g0 elf={len(self.file)}", *lines]
        self.count, self.output, self.end, self.status = guest.at, bytes(guest.output), guest.end(), guest.ended
        self.is_fault = guest.fault is not None
        self.every = draw.choice([0, self.count // 3 + 1, self.count // 8 + 1])
        self.places = sorted(draw.randrange(self.count) for _ in range(2))

    def guest(self, places: Collection[int] = ()) -> Guest:
        """The restatement."""
        return Guest(self.file, given=self.given, places=places)

    def keep_as_case(self, folder: pathlib.Path) -> None:
        """Writes it into a folder, with its output and its records."""
        end = f"ok records={len(self.lines)} instructions={self.count} end {self.end}"
        lines = "".join(f"{it}\n" for it in [*self.lines, end])
        shutil.copyfile(self.elf, folder / f"changing_{self.number}.elf")
        (folder / f"changing_{self.number}.out").write_bytes(self.output)
        (folder / f"changing_{self.number}.records").write_text(lines, encoding="utf-8")

    def of_rrv(self, rrv: programs.Program) -> Iterator[str]:
        """What differs of what rrv prints."""
        ran = functools.partial(by_rrv, rrv)
        self.store.unlink(missing_ok=True)
        ran("new", self.store)
        options = "--quantum", self.quantum, "--every", self.every, "--input", self.input
        if ran("record", *options, self.store, self.elf) != (self.output, 0):
            yield "record"
        if ran("replay", self.store, 0) != (self.output, 0):
            yield "replay"
        dumped = ran("dump", self.store, 0)[0].decode().splitlines()
        # The parts of checkpoints have numbers too.
        found = [it.partition(" ")[2] for it in dumped if " part " not in it]
        if found != [it.partition(" ")[2] for it in self.lines]:
            yield "dump"
        end = f"ok records={len(dumped)} instructions={self.count} end {self.end}\n"
        if ran("verify", self.store, 0) != (end.encode(), 0):
            yield "verify"
        guest = self.guest(self.places)
        guest.run(round_robin(self.quantum))
        for at in self.places:
            state = "\n".join([f"at {at} of {self.count}", *guest.states[at], ""]).encode()
            if ran("replay", "--at", at, self.store, 0) != (state, 0):
                yield f"replay --at {at}"
        self.store.unlink()

    def of_qemu(self) -> Iterator[str]:
        """What differs of what qemu-riscv32 gives."""
        if by_qemu("-singlestep", self.elf, given=self.input) != (self.output, self.status):
            yield f"{QEMU} -singlestep"
        if not self.within_block and by_qemu(self.elf, given=self.input) != (self.output, self.status):
            yield QEMU

    def remove(self, keep: pathlib.Path | None) -> None:
        """Removes its files, which are kept in a folder if there is one."""
        for file in (self.elf, self.input):
            if keep:
                keep.mkdir(exist_ok=True)
                shutil.copy(file, keep)
            file.unlink()


def main(words: Sequence[str]) -> int:
    """Compares, and prints what differs."""
    asked = parser("changing_code", __doc__, guests=300, seed=1, first=0, keep=None, cases=None)
    asked.add_argument("--without-rrv", action="store_true")
    said = asked.parse_args(words)
    has_qemu, rrv = shutil.which(QEMU) is not None, None if said.without_rrv else programs.needed()
    resource.setrlimit(resource.RLIMIT_CORE, (0, 0))
    failed, by_itself, faulted, instructions = 0, 0, 0, 0
    with tempfile.TemporaryDirectory() as folder:
        for number in range(said.first, said.first + said.guests):
            example = Example(said.seed, number, pathlib.Path(folder), said.cases is not None)
            found = [*(example.of_rrv(rrv) if rrv else ()), *(example.of_qemu() if has_qemu else ())]
            by_itself += not example.within_block
            faulted += example.is_fault
            instructions += example.count
            if found:
                failed += 1
                print(f"guest {number} of seed {said.seed} differs: {', '.join(found)}", flush=True)
            elif said.cases:
                example.keep_as_case(said.cases)
            example.remove(said.keep if found else None)
    compared = f"compared with {QEMU}, {by_itself} of them as it runs by itself too"
    compared = compared if has_qemu else f"{QEMU} isn't there"
    print(f"{said.guests} guests, {instructions} instructions, {faulted} that end with a fault; {compared}")
    print(circumstances())
    print(f"{said.guests - failed} passed, {failed} failed")
    return 1 if failed else 0
