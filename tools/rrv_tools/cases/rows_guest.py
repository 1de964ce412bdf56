"""Rows of guest_cases: calls.

Expected values: the rows of crates/guest_cases.

Each case of rows is a guest that makes its calls. Its records are made of what the rows say; so what the outside
returns is in them. They have to verify, and the states between them to be as the rows say.

The refusals of a call are asked for in the order of their tests.
"""
import re
import struct
from typing import NamedTuple

from rrv_tools import elf, guests
from rrv_tools.program import ROOT, Program
from rrv_tools.records import Call, Expire, Item
from rrv_tools.riscv import A0, A7, ECALL, NOP, X5, X6, ZERO, addi, bne, jal, li, sw
from rrv_tools.rows import LATIN, Row, RowCase, Rows, State, made_guest, number, state_at, texts, write
from rrv_tools.testing import rows

ROWS = Rows("guest_cases")
SET_CLEAR = 96
# What the outside of the cases has: its input, its random bytes, and its two clocks.
INPUT, RANDOM_BYTE = bytes([1, 2, 3, 4]), 0x5A
CLOCKS = struct.pack("<QQ", 0x0807060504030201, 0x0D0C0B0A), struct.pack("<QQ", 1, 999_999_999)
PARENT_SET, CHILD_SET, CHILD_CLEAR, NO_RESULT = 0x100000, 0x1000000, 0x200000, 0x80000000
# The byte that the guests' opening has sixteen times.
OPENING_BYTE = 7
# The numbers that rows name.
NAMES = {name: number(digits.replace("_", "")) for name, digits in re.findall(
    r'\("(\w+)", (\w+)\)', (ROOT / "crates" / "guest_cases" / "src" / "names.rt").read_text(encoding="utf-8"))}
# What rows ask that a state shows.
SHOWN = ("word byte register clear waits_at timed runs live running waiting has_running break pages reservation exited "
         "has_ended").split()


class Verified(NamedTuple):
    """What is printed of a guest as it is verified and replayed; `wrong` is the record that doesn't replay."""

    err: str
    wrong: int | None
    outputs: tuple[str, str]


def value(word: str) -> int:
    """A number, or one that has a name."""
    return NAMES[word] if word in NAMES else number(word)


def sets(register: int, number_: int) -> list[int]:
    """The words that set a register."""
    return [addi(register, ZERO, number_)] if number_ < 2048 else li(register, number_)


class Guest:
    """A guest that makes the calls of a case of rows. `items` are its records so far."""

    def __init__(self) -> None:
        self.elf, self.is_two, self.is_over, self.ran = b"", False, False, 0
        self.code: dict[int, list[int]] = {1: []}
        self.since, self.clear = {1: 0}, {1: 0}
        self.clones: list[tuple[int, int, int]] = []
        self.items: list[Item] = []
        self.puts: list[int] = []
        self.left_input, self.last_ranges = INPUT, list[tuple[int, bytes]]()
        # The descriptor and the length of what each call outputs.
        self.output: list[tuple[int, int]] = []
        self.verified: Verified | None = None

    # ---- rows

    def take(self, row: Row) -> None:
        """Takes a row of the case."""
        first, *words = row.asked.split()
        wanted, is_call = row.wanted, first in ("call", "answer")
        if self.is_over:
            ROWS.leave("after what no guest does")
        elif first == "elf":
            self.elf = ROWS.data(words[0])
        elif row.text == "version two":
            self.is_two = True
        elif first == "put" and not wanted:
            self.puts += map(value, words)
        elif first == "run" and wanted != "none":
            self.ran = value(wanted)
            self.replays(row, len(self.items) + 1)
        elif is_call and wanted != "none" and int(words[0]) in self.code:
            self.call(row, [value(it) for it in words], [value(it) for it in wanted.split()])
        elif first == "expire" and not wanted:
            self.items.append(Expire(int(words[0])))
            self.replays(row, len(self.items), is_call=True)
        elif is_call or first in ("call_under", "expire"):
            self.is_over = first == "call_under"
            ROWS.leave("of calls and ends that no guest has")
        else:
            self.ask(row, first, words)

    def ask(self, row: Row, first: str, words: list[str]) -> None:
        """Takes a row that asks."""
        if first in ("range", "length", "written"):
            address, data = self.last_ranges[int(words[0])]
            found = {"range": [address], "length": [len(data)], "written": list(data)}[first]
            if found == [value(it) for it in row.wanted.split()]:
                # The range is in the record, which has to replay.
                self.replays(row, len(self.items))
            else:
                ROWS.checks[row] = lambda _: (row.wanted, found)
        elif first == "out":
            self.out(row, [] if row.wanted == "none" else [value(it) for it in row.wanted.split()])
        elif first in SHOWN:
            self.shows(row, len(self.items))
        else:
            ROWS.leave("of what no state shows")

    def out(self, row: Row, wanted: list[int]) -> None:
        """A row of what the last call output."""
        if not wanted and self.output[-1][1] == 0:
            self.replays(row, len(self.items))
        else:
            place = len(self.output) - 1
            self.output[-1] = wanted[0], self.output[-1][1]
            ROWS.checks[row] = lambda program: (bytes(wanted[1:]), self.put_by(program, place))

    # ---- what is looked at

    def replays(self, row: Row, count: int, is_call: bool = False) -> None:
        """A row that holds if this many records replay; of a call all the output has to have its length too."""
        def check(program: Program) -> tuple[object, object]:
            err, wrong, outputs = self.look(program)
            lengths = sum(length for _, length in self.output), sum(map(len, outputs))
            good = wrong is not None and count < wrong or not err and (not is_call or lengths[0] == lengths[1])
            return "replayed", "replayed" if good else (err, *lengths)

        ROWS.checks[row] = check

    def shows(self, row: Row, count: int) -> None:
        """A row of the state after this many records."""
        first, *words = row.asked.split()
        memory = [(number(words[0]), 4 if first == "word" else 1)] if first in ("word", "byte") else []

        def check(program: Program) -> tuple[object, object]:
            data = made_guest(self.file(), self.items[:count], OPENING_BYTE, self.is_two)
            state = state_at(program, data, "end", *memory)
            if isinstance(state, str):
                return row.wanted, state
            found = found_in(state, first, [number(it) for it in words])
            return wanted_of(row.wanted, isinstance(found, list)), found

        ROWS.checks[row] = check

    def look(self, program: Program) -> Verified:
        """Verifies and replays the guest, once."""
        if self.verified is None:
            name = write("guest", made_guest(self.file(), self.items, OPENING_BYTE, self.is_two))
            err = texts(program.run("verify", name, 0))[2]
            wrong = re.match(r"rrv: record (\d+) does not replay", err)
            outputs = texts(program.run("replay", name, 0))[1:] if any(it for _, it in self.output) else ("", "")
            self.verified = Verified(err, int(wrong[1]) if wrong else None, outputs)
        return self.verified

    def put_by(self, program: Program, place: int) -> bytes:
        """What the call at a place output, after those before it to the same descriptor."""
        descriptor, length = self.output[place]
        start = sum(it for at, it in self.output[:place] if at == descriptor)
        return self.look(program).outputs[descriptor - 1][start: start + length].encode(LATIN)

    # ---- code and records

    def call(self, row: Row, values: list[int], wanted: list[int]) -> None:
        """Adds a call and its record."""
        tid, arguments = values[0], [*values[2:], *[0] * 5][:5]
        called = guests.WRITE if self.elf else values[1]
        count = self.ran if self.elf else self.add_code(tid, called, arguments)
        result, has_ranges, length = [*wanted, 0, 0][:3]
        self.last_ranges = self.written(tid, called, arguments, result) if has_ranges else []
        if called == SET_CLEAR:
            self.clear[tid] = arguments[0]
        if called == guests.CLONE:
            self.begin(tid, arguments, result)
        self.items.append(Call(tid, count, result, self.last_ranges))
        self.output.append((arguments[0], length))
        self.replays(row, len(self.items), is_call=True)

    def add_code(self, tid: int, called: int, arguments: list[int]) -> int:
        """Adds the instructions of a call to a thread's code, and returns how many it runs up to it."""
        words = []
        for address, stored in zip(self.puts[::2], self.puts[1::2], strict=True):
            words += [*sets(X5, address), *sets(X6, stored), sw(X6, X5, 0)]
        self.puts = []
        words += [word for it, argument in enumerate(arguments) for word in sets(A0 + it, argument)]
        words += [*sets(A7, called), ECALL]
        self.code[tid] += words
        count, self.since[tid] = self.since[tid] + len(words), 0
        return count

    def begin(self, tid: int, arguments: list[int], result: int) -> None:
        """What follows a clone: its caller goes on, and the thread that it made jumps to its own code."""
        if result < NO_RESULT:
            self.clones.append((tid, len(self.code[tid]), result))
            self.code[result], self.since[result] = [], 2
            self.clear[result] = arguments[4] if arguments[0] & CHILD_CLEAR else 0
        self.code[tid] += [bne(A0, ZERO, 8), NOP]
        self.since[tid] = 1

    def written(self, tid: int, called: int, arguments: list[int], result: int) -> list[tuple[int, bytes]]:
        """The ranges that a call writes."""
        word = struct.pack("<I", result)
        match called:
            case guests.READ:
                taken, self.left_input = self.left_input[:result], self.left_input[result:]
                return [(arguments[1], taken)]
            case guests.CLONE:
                return [(arguments[at], word) for flag, at in ((PARENT_SET, 2), (CHILD_SET, 4)) if arguments[0] & flag]
            case guests.EXIT:
                return [(self.clear[tid], bytes(4))]
            case guests.RANDOM:
                return [(arguments[0], bytes([RANDOM_BYTE]) * result)]
        return [(arguments[1], CLOCKS[arguments[0]])]

    def file(self) -> bytes:
        """The file of all threads' code, one after the other."""
        if self.elf:
            return self.elf
        starts, words = {}, list[int]()
        for tid, code in self.code.items():
            starts[tid] = len(words)
            words += code
        for tid, at, child in self.clones:
            place = starts[tid] + at + 1
            words[place] = jal(ZERO, 4 * (starts[child] - place))
        return elf.executable(words or [0, 0])


def found_in(state: State, first: str, values: list[int]) -> object:
    """What a state has of what a row asks; None if it has none of it."""
    thread = state.threads.get(values[0]) if values else None
    running = sorted(it.tid for it in state.threads.values() if it.waits_at is None)
    exited = re.fullmatch(r"exited (\d+)", state.end)
    match first:
        case "word" | "byte":
            return state.bytes_at(values[0], 4 if first == "word" else 1)
        case "register":
            return thread and thread.registers[values[1]]
        case "clear" | "waits_at":
            return thread and getattr(thread, first)
        case "timed":
            return None if not thread or thread.waits_at is None else int(thread.has_timeout)
        case "runs":
            return int(values[0] in running)
        case "exited":
            return int(exited[1]) if exited else None
        case "waiting":
            return sorted(set(state.threads) - set(running))
    return {"live": len(state.threads), "running": running, "has_running": int(bool(running)), "break": state.data_end,
            "pages": state.pages, "reservation": state.reserved, "has_ended": int(state.end != "none")}[first]


def wanted_of(wanted: str, is_list: bool) -> object:
    """What a row wants. A state doesn't show the order of those that wait."""
    if wanted in ("none", ""):
        return None
    numbers = [] if wanted == "nothing" else [value(it) for it in wanted.split()]
    return sorted(numbers) if is_list else numbers[0] if numbers else None


def plan() -> None:
    """Takes all rows; a line that names a case begins another guest."""
    guest = Guest()
    for row in ROWS.lines():
        if row.text.startswith("#"):
            guest = Guest()
        elif row.text:
            guest.take(row)


plan()


@rows(ROWS.table(), "look")
class Calls(RowCase):
    """Calls of guests."""

    seconds = 6
