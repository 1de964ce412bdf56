"""Rows of machine_cases: instructions, and ELF files.

Expected values: the rows of crates/machine_cases: worked examples of the manual, words with operands and results that
an assembler and qemu-riscv32 gave (`tools/run vectors`), and files with their refusals.

A guest comes to the row's instruction; the state after it is compared, or the fault that it ends in. A file is made as
the rows say, and `check` refuses it by their number, or prints its entry and break.
"""
import dataclasses
import re
import struct
from collections.abc import Iterable

from rrv_tools.elf import HEADER_SIZE, PAGE, Segment, changed, file_of
from rrv_tools.program import Program
from rrv_tools.records import Fault, Item, Preempt
from rrv_tools.riscv import A0, NOP, SP, X5, ZERO, addi, code, jal, li, lr_w
from rrv_tools.rows import Check, Row, RowCase, Rows, State, made_guest, number, state_at, texts, write
from rrv_tools.testing import rows

ROWS = Rows("machine_cases")

# ---- instructions

CODE, DATA, SETTING = 0x10000, 0x11000, 0x20000
# What stands before an instruction, unless a row says it.
BEFORE = {"pc": f"{CODE}", "at": f"{DATA}", "data": "0", "reserved": "none", **{f"a{it}": "0" for it in range(4)}}
FAULTS = ("", "bad-instruction", "breakpoint", "misaligned-target", "misaligned-atomic", "fetch", "load", "store")


def named_values(words: Iterable[str]) -> dict[str, str]:
    """Values by their names."""
    return {name: value for name, _, value in (it.partition("=") for it in words)}


def sets(register: int, value: int) -> list[int]:
    """The words that set a register."""
    return [addi(register, ZERO, value)] if value < 2048 else li(register, value)


@dataclasses.dataclass
class Instruction:
    """A row of an instruction: its word, the values before it and those after it, by their names."""

    word: int
    before: dict[str, str]
    after: dict[str, str]

    @staticmethod
    def of(row: str) -> "Instruction":
        """Reads a row."""
        front, _, end = row.partition(" # ")[0].partition(" gives")
        _, word, *values = front.split()
        before = {**BEFORE, **named_values(values)}
        after = {**before, "end": "next", "pc": f"{number(before['pc']) + 4}", **named_values(end.split())}
        return Instruction(number(word), before, after)

    def left_out(self) -> str:
        """Why no guest shows it, if none does."""
        if self.after["end"] == "call":
            return "of instructions that end before a call is made"
        return "of instructions that begin where no jump leads" if number(self.before["pc"]) % 4 else ""

    def setting(self) -> list[int]:
        """The words that reserve, set the registers and jump to the instruction."""
        words = []
        if self.before["reserved"] != "none":
            words += [*sets(X5, number(self.before["reserved"])), lr_w(X5, X5)]
        words += [word for it in range(4) for word in sets(A0 + it, number(self.before[f"a{it}"]))]
        words += [addi(SP, ZERO, 0), addi(X5, ZERO, 0)]
        return [*words, jal(ZERO, number(self.before["pc"]) - SETTING - 4 * len(words))]

    def elf(self) -> bytes:
        """A file of the row's two pages and one before them, and of what comes first. After the row's own instruction
        one more may run."""
        pieces = {number(self.before["at"]): number(self.before["data"]), CODE: self.word}
        if self.after["end"] == "next":
            pieces.setdefault(number(self.after["pc"]), NOP)
        empty = [it for it in (CODE - PAGE, CODE, DATA) if all(place // PAGE != it // PAGE for place in pieces)]
        pieces |= {it + PAGE // 2: 0 for it in empty}
        loads = [Segment(place, code([word]), 7) for place, word in sorted(pieces.items())]
        return file_of([*loads, Segment(SETTING, code(self.setting()))], SETTING)

    def records(self, count: int) -> list[Item]:
        """The frame that the row's instruction is in, after this many others: one of an instruction more, or of a
        fault."""
        is_next = self.after["end"] == "next"
        return [Preempt(1, count + 2) if is_next else Fault(1, count + 1, FAULTS.index(self.after["end"]))]

    def wanted(self) -> list[object]:
        """What a state after the row has. A fault ends the slice, and with it the reservation."""
        registers = {A0 + it: number(self.after[f"a{it}"]) for it in range(4)}
        is_next, reserved = self.after["end"] == "next", self.after["reserved"]
        ended = "none" if is_next else f"faulted {FAULTS.index(self.after['end'])}"
        of_thread = [[registers.get(it, 0) for it in range(32)], number(self.after["pc"])]
        left = None if reserved == "none" or not is_next else number(reserved)
        return [*of_thread, ended, number(self.after["data"]), left]

    def came(self, state: State | str) -> object:
        """The same of a state."""
        if isinstance(state, str) or 1 not in state.threads:
            return state
        reserved = state.reserved if self.after["end"] == "next" else None
        thread, data = state.threads[1], state.bytes_at(number(self.after["at"]), 4)
        return [thread.registers, thread.pc, state.end, data, reserved]

    def check(self, program: Program) -> tuple[object, object]:
        """Compares the state after the row."""
        count = len(self.setting())
        data = made_guest(self.elf(), self.records(count))
        return self.wanted(), self.came(state_at(program, data, count + 1, (number(self.before["at"]), 4)))


# ---- ELF files


def printed(program: Program, data: bytes) -> str:
    """The number by which `check` refuses a file, or its entry and its break; what is printed of one that is too long
    to be read."""
    _, out, err = texts(program.run("check", write("file.elf", data)))
    refused = re.search(r" \(refusal (\d+)\)", err)
    taken = re.match(r"ok entry=(\w+) pages=\d+ break=(\w+)\n", out)
    return refused[1] if refused else f"{int(taken[1], 16):#x} {int(taken[2], 16):#x}" if taken else f"{out}{err}"


def refusals(files: Iterable[bytes], wanted: str) -> Check:
    """Whether each file is refused by this number, or by none."""
    some = list(files)

    def check(program: Program) -> tuple[object, object]:
        found = [printed(program, it) for it in some]
        return [wanted] * len(some), ["none" if wanted == "none" and it.startswith("0x") else it for it in found]

    return check


class ElfFile:
    """The file that rows make."""

    # Where it is counted how many headers there are; in how many parts a range of lengths is cut; and how long a file
    # is that is read.
    COUNT, PARTS, LONGEST = 44, 3, 2_097_152

    def __init__(self) -> None:
        self.elf, self.kept = b"", b""

    def made(self, first: str, values: list[int]) -> bytes | None:
        """The file after a row that makes it; None if a row is another."""
        match first:
            case "file":
                return b""
            case "bytes":
                return self.elf + bytes(values)
            case "words":
                return self.elf + code(values)
            case "length":
                return self.elf[: values[0]].ljust(values[0], b"\0")
            case "put":
                return changed(self.elf, values[0], bytes(values[1:]))
            case "again":
                return self.kept
            case "header":
                count = self.elf[self.COUNT]
                with_header = changed(self.elf, HEADER_SIZE + 32 * count, struct.pack("<8I", *values))
                return changed(with_header, self.COUNT, bytes([count + 1]))
            case "series":
                count, place, *words = values
                each = ([*words[:place], words[place] - it, *words[place + 1:]] for it in range(count))
                return self.elf + b"".join(map(code, each))
        return None

    def take(self, row: Row) -> None:
        """Takes a row."""
        first, *words = row.text.partition(" # ")[0].split()
        asked, _, wanted = " ".join(words).partition("refusal ")
        match first:
            case "keep":
                self.kept = self.elf
            case "refusal" if len(self.elf) > self.LONGEST:
                ROWS.leave("of files that are too long to be read")
            case "refusal":
                ROWS.checks[row] = refusals([self.elf], words[0])
            case "patch":
                place, *values = map(number, asked.split())
                ROWS.checks[row] = refusals([changed(self.elf, place, bytes(values))], wanted)
            case "cut":
                start, end = map(number, asked.split())
                lengths = sorted({start + (end - start) * it // self.PARTS for it in range(self.PARTS + 1)})
                ROWS.checks[row] = refusals((self.elf[:it] for it in lengths), wanted)
            case "image":
                data, entry, data_end = self.elf, number(words[0]), number(words[3])
                ROWS.checks[row] = lambda program: (f"{entry:#x} {data_end:#x}", printed(program, data))
            case _:
                self.make(first, words)

    def make(self, first: str, words: list[str]) -> None:
        """Takes a row that makes the file, or none that a line shows."""
        made = self.made(first, [number(it) for it in words])
        if made is None:
            ROWS.leave(f"of `{first}`")
        else:
            self.elf = made


def plan() -> None:
    """Takes all rows."""
    file = ElfFile()
    for row in ROWS.asking():
        first = row.text.split()[0]
        if first in ("decodes", "space", "code", "threads", "lanes", "refusals"):
            ROWS.leave(f"of `{first}`")
        elif first != "word":
            file.take(row)
        elif reason := Instruction.of(row.text).left_out():
            ROWS.leave(reason)
        else:
            ROWS.checks[row] = Instruction.of(row.text).check


plan()


@rows(ROWS.table(), "look")
class Machine(RowCase):
    """Instructions, and ELF files."""

    seconds = 8
