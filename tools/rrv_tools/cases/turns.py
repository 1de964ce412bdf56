"""The places and the trace events that are printed of guests beside their records and their states, field by field.

Expected values: the sums of the counts that `dump` prints, and the states there; the names of calls are those of Linux;
the address of a fault is computed from the instruction's word and the registers.
"""
import json
import pathlib
import random
from collections.abc import Callable
from typing import Any, NamedTuple

from rrv_tools import printed
from rrv_tools.guests import path_of
from rrv_tools.printed import Frame, text_of, threads_in
from rrv_tools.program import ROOT, Program
from rrv_tools.riscv import MASK
from rrv_tools.testing import Case, add_rows
from rrv_tools.threads import extended

HUNTS = ROOT / "examples" / "hunt"
# Frames of a guest whose states are looked at.
LOOKED_AT = 12
FAULTS = {
    1: "bad instruction", 2: "breakpoint", 3: "misaligned target", 4: "misaligned atomic", 5: "fetch", 6: "load",
    7: "store",
}  # fmt: skip
# Linux, include/uapi/asm-generic/unistd.h.
CALLS = {
    63: "read", 64: "write", 66: "writev", 93: "exit", 94: "exit_group", 96: "set_tid_address", 98: "futex",
    124: "sched_yield", 172: "getpid", 178: "gettid", 214: "brk", 215: "munmap", 220: "clone", 222: "mmap",
    226: "mprotect", 278: "getrandom", 403: "clock_gettime64", 422: "futex_time64",
}  # fmt: skip
# Choices by which programs of examples/hunt fail, as hunt finds them: a load fault, and a wakeup that is lost.
CHOICES = {
    "use_after_free": (
        "1 100, 1 100, 1 200, 1 100, 1 100, 1 300, 1 300, 1 300, 1 300, 1 300, 1 300, 1 300, 1 300, 1 100, 1 100, "
        "1 200, 1 100, 1 100, 2 100"
    ),
    "lost_wakeup": "1 100, 1 100, 1 200, 1 100, 1 100, 1 200, 1 100, 1 100, 2 500",
}


class Guest(NamedTuple):
    """A guest's file, and how it is recorded: with a quantum, or by choices."""

    path: pathlib.Path
    quantum: int = 0
    choices: str = ""

    def options(self) -> list[str]:
        """The options of its recording; it writes the file of its choices."""
        if not self.choices:
            return ["--quantum", str(self.quantum)]
        pathlib.Path("choices").write_text(self.choices.replace(", ", "\n"), encoding="ascii")
        return ["--choices", "choices"]


GUESTS = {it: Guest(path_of(it), 1000) for it in printed.NAMES}
GUESTS |= {f"{it} by {quantum}": Guest(HUNTS / f"{it}.elf", quantum)
           for it in ("deadlock", "philosophers", "use_after_free") for quantum in (300, 5000)}
GUESTS |= {f"{it} by choices": Guest(HUNTS / f"{it}.elf", choices=text) for it, text in CHOICES.items()}


def address_of(kind: int, pc: int, word: int, registers: list[int]) -> int | None:
    """The address that a fault is at, by the formats of the manual's instructions (RV32I, chapter 2; A, chapter 8)."""
    base = registers[word >> 15 & 31]
    if kind == 5:
        return pc
    if kind not in (4, 6, 7):
        return None
    match word & 0x7F:
        case 0x03:
            return base + extended(word >> 20, 12) & MASK
        case 0x23:
            return base + extended((word >> 25) << 5 | word >> 7 & 31, 12) & MASK
    return base


def event_of(frame: Frame, pc: str | None, name: str) -> dict[str, Any]:
    """The event of a frame, in Chrome's trace-event format."""
    fields, more = frame.fields, {"record": frame.index}
    if not frame.runs_thread:
        tid = frame.tid if frame.kind == "expire" else 0
        return {"name": name, "ph": "i", "ts": frame.start, "pid": 0, "tid": tid, "s": "p", "args": more}
    args: dict[str, Any] = {**more, "pc": pc}
    if frame.kind == "call":
        args |= {"result": fields["result"], "written": int(fields["written"])}
    if frame.kind == "fault":
        args |= {"kind": int(fields["kind"])}
    return {"name": name, "ph": "X", "ts": frame.start, "dur": frame.count, "pid": 0, "tid": frame.tid, "args": args}


class Recorded:
    """A guest that is recorded into a store of its own, and what is printed of it."""

    def __init__(self, program: Program, name: str) -> None:
        self.program, self.store, guest = program, f"store of {name}", GUESTS[name]
        self.program.run_well("new", self.store)
        result = self.program.run_well("record", *guest.options(), self.store, guest.path)
        self.report = result.err.decode("latin-1")
        self.records = printed.records_in(self.text("dump"))
        self.frames = [it for it in self.records if isinstance(it, Frame)]
        self.placed = self.text("dump", "--places").splitlines()
        pcs = (it.rpartition(" pc=")[2] if " pc=" in it else "none" for it in self.placed)
        # The address after each record, in the order of records.
        self.pcs = [None if it == "none" else it for it in pcs]
        self.head, *self.events = json.loads(self.text("dump", "--trace-events"))

    def text(self, command: str, *options: str) -> str:
        """What a command prints of the guest."""
        return text_of(self.program, command, *options, self.store, 0)

    def state(self, place: int | str, *options: str) -> str:
        """The state at a place."""
        return self.text("replay", "--at", str(place), *options)

    def pc_after(self, frame: Frame) -> str | None:
        """The address that is printed after a frame."""
        return self.pcs[frame.index]

    def word_at(self, pc: str) -> str | None:
        """The word at an address at the end, None if it is not mapped."""
        digits = self.state("end", "--memory", f"{pc}:4").splitlines()[-1].split()[4:0:-1]
        return None if "--" in digits else "".join(digits)

    def end(self) -> str:
        """What `verify --long` has to print after its line, by the state at the end."""
        last, threads = self.frames[-1], threads_in(self.state("end"))
        if not last.runs_thread:
            return "".join(f"thread {tid} waits at {it.how.split()[1]}\n" for tid, it in sorted(threads.items()))
        if last.kind != "fault":
            return f"exit at {last.end} thread {last.tid}\n"
        thread, kind = threads[last.tid], int(last.fields["kind"])
        word = self.word_at(thread.pc)
        address = address_of(kind, int(thread.pc, 16), int(word or "0", 16), thread.registers())
        text = f"fault {FAULTS[kind]} at {last.end} thread {last.tid} pc {thread.pc} word {word or 'none'}"
        return text + ("" if address is None else f" address {address:08x}") + "\n"


class Turns(Case):
    """Places, events, states and ends of guests. A guest is recorded once for all cases of it."""

    seconds, shares_folder = 15, True

    def need_all(self, what: str, wanted: list[Any], came: list[Any]) -> None:
        """Compares as many as there are on either side."""
        self.need(f"how many {what}", len(wanted), len(came))
        wrong = [f"{what}: wanted {it}\n{' ' * len(what)}    came {that}"
                 for it, that in zip(wanted, came, strict=True) if it != that]
        if wrong:
            raise self.failureException("\n".join(wrong))
        self.compared = max(len(wanted), 1)

    def need_places(self, of: Recorded) -> None:
        """Each line of `dump --places`."""
        self.need("how many lines", len(of.records), len(of.placed))
        wanted = []
        for record, pc in zip(of.records, of.pcs, strict=True):
            line = record
            if isinstance(record, Frame):
                tail = f" pc={pc or 'none'}" if record.runs_thread else ""
                line = f"{record.line} from={record.start} to={record.end}{tail}"
            wanted.append(line)
        self.need_all("line", wanted, of.placed)

    def need_events(self, of: Recorded) -> None:
        """Each trace event, but for the name of a call."""
        self.need("head", {"name": "process_name", "ph": "M", "pid": 0, "args": {"name": "g0"}}, of.head)
        self.need("how many events", len(of.frames), len(of.events))
        wanted = []
        for frame, event in zip(of.frames, of.events, strict=True):
            fault = FAULTS.get(int(frame.fields.get("kind", 0)))
            name = event["name"] if frame.kind == "call" else f"fault {fault}" if fault else frame.kind
            wanted.append(event_of(frame, of.pc_after(frame), name))
        self.need_all("event", wanted, of.events)

    def need_states(self, of: Recorded) -> None:
        """The addresses after some frames are in the states there, and the names of calls are those of the numbers in
        a7 before them."""
        pairs = list(zip(of.frames, of.events, strict=True))
        some = random.Random(of.store).sample(pairs, min(LOOKED_AT, len(pairs)))
        wanted, came = [], []
        for frame, event in some:
            after = threads_in(of.state(frame.end)).get(frame.tid) if frame.runs_thread else None
            number = threads_in(of.state(frame.end - 1))[frame.tid].registers()[17] if frame.kind == "call" else 0
            name = CALLS.get(number, f"call {number}") if frame.kind == "call" else event["name"]
            wanted.append((frame.line, after and after.pc, name))
            came.append((frame.line, of.pc_after(frame) if frame.runs_thread else None, event["name"]))
        self.need_all("pc and name", wanted, came)

    def need_end(self, of: Recorded) -> None:
        """What `verify --long` prints of the end."""
        self.need("end", of.end(), of.text("verify", "--long").partition("\n")[2])

    def need_report(self, of: Recorded) -> None:
        """What `record` printed last. Of a guest whose last thread exited, that is the report's own line."""
        has_left = of.frames[-1].kind == "call" and not threads_in(of.state("end"))
        wanted = f"records {len(of.records)}\n{'' if has_left else of.end()}"
        self.need("end of the report", wanted, of.report[-len(wanted):])


LOOKS: dict[str, Callable[[Turns, Recorded], None]] = {
    "places": Turns.need_places, "events": Turns.need_events, "states": Turns.need_states, "end": Turns.need_end,
    "report": Turns.need_report,
}  # fmt: skip
add_rows(Turns, {f"{guest} {look}": (guest, look) for guest in GUESTS for look in LOOKS},
         lambda case, row: LOOKS[row[1]](case, case.once(Recorded, case.program, row[0])))
