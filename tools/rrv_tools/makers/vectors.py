"""Writes the last rows of crates/machine_cases/stdin: instructions, and what qemu-riscv32 makes of them.

usage: tools/run vectors

GNU as makes the words. A driver stores each at CODE, with FENCE.I, and jumps there with rs1 = a0, rs2 = a1 and rd = a2,
which holds 9. All other words of the two pages below DATA are jumps to the driver, which link in t6, so that t6 shows
where the hart went on. EBREAK comes back by a handler of SIGTRAP. The driver writes a2, the word at DATA, where the
hart went on, the signal, and whether DATA was still reserved.

A row has before `gives` what the instruction takes, and after it what it is about; the rest is tested here to be as
before. What stands above HEAD, and after the next empty line, is kept. Needs riscv64-unknown-elf-gcc and qemu-riscv32.
"""
import pathlib
import struct
import tempfile
from collections.abc import Callable, Iterator, Sequence
from typing import NamedTuple

from rrv_tools import toolchain
from rrv_tools.program import ROOT

STDIN = ROOT / "crates" / "machine_cases" / "stdin"
CODE, DATA = 0x10000, 0x11000
M, S, F = 0x7FFFFFFF, 0x80000000, 0xFFFFFFFF
MARK = 0x11111111
FLAGS = [it.replace("rv32ima", "rv32ima_zifencei") for it in toolchain.STATIC if it != "-s"]
FLAGS.append("-Wl,--no-warn-rwx-segments")

DRIVER = """
    .option norelax
    .section .landing, "awx"
    .rept 2048
    jal t6, landed
    .endr
    .section .cell, "aw"
    .word 0, 0
    .section .text
    .globl _start
_start:
    li a0, 5
    la a1, action
    li a2, 0
    li a3, 8
    li a7, 134
    ecall
    la s0, rows
    la s1, words
    la s2, results
    la s3, results_end
next:
    li s4, 0
    li s5, {code}
    li s6, {data}
    lw t0, 0(s1)
    sw t0, 0(s5)
    fence.i
    la t0, scratch
    sc.w t1, zero, (t0)
    lw t0, 8(s0)
    sw t0, 0(s6)
    sw zero, 4(s6)
    lw t0, 12(s0)
    beqz t0, 1f
    lr.w zero, (t0)
1:  lw a0, 0(s0)
    lw a1, 4(s0)
    li a2, 9
    li a7, 172
    jr s5
landed:
    lw t0, 0(s6)
    addi t6, t6, -4
    sw a2, 0(s2)
    sw t0, 4(s2)
    sw t6, 8(s2)
    sw s4, 12(s2)
    sc.w t0, zero, (s6)
    sw t0, 16(s2)
    addi s0, s0, 16
    addi s1, s1, 4
    addi s2, s2, 20
    bltu s2, s3, next
    li a0, 1
    la a1, words
    la a2, results_end
    sub a2, a2, a1
    li a7, 64
    ecall
    li a0, 0
    li a7, 93
    ecall
    /* the registers of the interrupted hart stand from 160 on, pc first */
trapped:
    mv s4, a0
    lw t6, 160(a2)
    addi t6, t6, 4
    lw a2, 208(a2)
    j landed
    .section .rodata
    .balign 8
    /* with SA_SIGINFO and SA_NODEFER */
action: .word trapped, 0x40000004, 0, 0
rows:
{rows}
    .section .data
scratch: .word 0
words:
{words}
results: .zero {size}
results_end:
"""

LAYOUT = f"""
SECTIONS {{
  . = {CODE - 0x1000};
  .landing : {{ *(.landing) }}
  . = {DATA};
  .cell : {{ *(.cell) }}
  . = 0x20000;
  .text : {{ *(.text) }}
  .rodata : {{ *(.rodata) }}
  .data : {{ *(.data) }}
}}
"""


class Row(NamedTuple):
    """An instruction, two registers, the word at DATA, and the address that is reserved, 0 for none."""

    text: str
    a0: int = 0
    a1: int = 0
    data: int = MARK
    reserved: int = 0


class Wrote(NamedTuple):
    """What the driver writes of a row."""

    a2: int
    data: int
    pc: int
    signal: int
    # 0 if DATA was still reserved.
    freed: int


# ---- instructions


def immediates() -> Iterator[Row]:
    """With immediates."""
    for op in ("lui", "auipc"):
        for value in (0, 1, 0x7FFFF, 0x80000, 0xFFFFF):
            yield Row(f"{op} a2, {value}")
    pairs = [(M, 1), (S, -1), (F, 1), (0, -2048), (1, 2047), (F, -1)]
    for op in ("addi", "slti", "sltiu", "xori", "ori", "andi"):
        for a0, value in pairs:
            yield Row(f"{op} a2, a0, {value}", a0)
    for op in ("slli", "srli", "srai"):
        for a0, amount in [(1, 31), (F, 1), (S, 31), (M, 4), (F, 0)]:
            yield Row(f"{op} a2, a0, {amount}", a0)
    yield Row("addi zero, a0, 1", F)


def registers() -> Iterator[Row]:
    """Between registers."""
    pairs = [(S, F), (S, 0), (F, F), (M, S), (1, F), (F, 1), (0, S), (M, M)]
    ops = "add sub sll slt sltu xor srl sra or and mul mulh mulhsu mulhu div divu rem remu".split()
    for op in ops:
        for a0, a1 in pairs:
            yield Row(f"{op} a2, a0, a1", a0, a1)


def jumps() -> Iterator[Row]:
    """Jumps."""
    for rd, offset in (("a2", 8), ("a2", -8), ("a2", 2048), ("zero", -4096)):
        yield Row(f"jal {rd}, . + {offset}")
    for text, a0 in (("a2, 0(a0)", CODE + 16), ("a2, 0(a0)", CODE + 17), ("a2, -2048(a0)", CODE + 4)):
        yield Row(f"jalr {text}", a0)
    yield Row("jalr a2, 2047(a0)", CODE + 9 - 2047)
    yield Row("jalr zero, 4(a0)", CODE + 0x7FD)


def branches() -> Iterator[Row]:
    """Branches."""
    pairs = [(0, 0), (1, F), (F, 1), (S, M), (M, S), (F, F)]
    offsets = [8, -8, 2048, -4096, 1024, -2044]
    for op in ("beq", "bne", "blt", "bge", "bltu", "bgeu"):
        for (a0, a1), offset in zip(pairs, offsets, strict=True):
            yield Row(f"{op} a0, a1, . + {offset}", a0, a1)


def loads() -> Iterator[Row]:
    """Loads."""
    for op in ("lb", "lbu", "lh", "lhu", "lw"):
        for offset, data in [(0, F), (0, M), (1, S), (0, 0x8081), (2, S + 1), (3, S)]:
            yield Row(f"{op} a2, {offset - 1}(a0)", DATA + 1, 0, data)
    yield Row("lw zero, 0(a0)", DATA, 0, F)


def reserving_loads() -> Iterator[Row]:
    """LR."""
    for suffix, data in (("", F), (".aq", S), (".aqrl", 1), (".rl", 0)):
        yield Row(f"lr.w{suffix} a2, (a0)", DATA, 0, data)


def stores() -> Iterator[Row]:
    """Stores."""
    for op in ("sb", "sh", "sw"):
        for offset, a1 in [(0, F), (1, 0), (2, S), (0, M), (3, 1)]:
            yield Row(f"{op} a1, {offset + 2}(a0)", DATA - 2, a1)


def conditionals() -> Iterator[Row]:
    """SC."""
    for suffix, reserved, a1 in (
        ("", DATA, F), ("", 0, F), ("", DATA + 4, F), (".aqrl", DATA, S), (".aq", 0, 1), (".rl", DATA, 0),
    ):
        yield Row(f"sc.w{suffix} a2, a1, (a0)", DATA, a1, MARK, reserved)


def atomics() -> Iterator[Row]:
    """Other atomics."""
    pairs = [(F, 1, ""), (S, M, ".aq"), (M, S, ".rl"), (1, F, ".aqrl"), (0, S, "")]
    for op in "amoswap amoadd amoxor amoand amoor amomin amomax amominu amomaxu".split():
        for data, a1, suffix in pairs:
            yield Row(f"{op}.w{suffix} a2, a1, (a0)", DATA, a1, data)


def others() -> Iterator[Row]:
    """Fences, a call and a breakpoint."""
    for text in ("fence", "fence rw, w", "fence.i", "ecall", "ebreak"):
        for a0 in (0, F):
            yield Row(text, a0)


def run(rows: Sequence[Row]) -> Iterator[tuple[int, Wrote]]:
    """The word of each row, and what the driver wrote."""
    words = "\n".join(f"    {it.text}" for it in rows)
    values = "\n".join(f"    .word {', '.join(map(hex, it[1:]))}" for it in rows)
    text = DRIVER.format(code=CODE, data=DATA, rows=values, words=words, size=20 * len(rows))
    with tempfile.TemporaryDirectory() as folder:
        source = pathlib.Path(folder, "driver.S")
        source.write_text(text, encoding="ascii")
        ran = toolchain.run(toolchain.compiled(source, LAYOUT, FLAGS))
    count = 4 * len(rows)
    assert ran.status == 0 and len(ran.out) == 6 * count
    wrote = (Wrote(*it) for it in struct.iter_unpack("<5I", ran.out[count:]))
    return zip((it for it, in struct.iter_unpack("<I", ran.out[:count])), wrote, strict=True)


# Rows, and what their lines have before `gives` beside a0, a1 and a2, and after it.
TABLES: list[tuple[Callable[[], Iterator[Row]], tuple[str, ...], tuple[str, ...]]] = [
    (immediates, (), ("a2",)),
    (registers, (), ("a2",)),
    (jumps, (), ("pc", "a2")),
    (branches, (), ("pc",)),
    (loads, ("data",), ("a2",)),
    (reserving_loads, ("data",), ("a2", "reserved")),
    (stores, ("data",), ("data",)),
    (conditionals, ("data", "reserved"), ("a2", "data", "reserved")),
    (atomics, ("data",), ("a2", "data")),
    (others, (), ("end", "pc")),
]

HEAD = """\
# The rows of this part are written by `tools/run vectors`: what qemu-riscv32 7.2.22 makes of instructions; GNU as 2.40
# made the words. The instruction's rs1 is a0, its rs2 is a1, and its rd is a2, which holds 9 before, or x0.

"""

SIGTRAP = 5
# How a step ends that doesn't go on.
ENDS = {"ebreak": "breakpoint", "ecall": "call"}


def number(value: int | None) -> str:
    """A number of a row."""
    if value is None:
        return "none"
    return str(value) if value < 10 else f"0x{value:08X}"


def check(row: Row, before: Sequence[str], after: Sequence[str], wrote: Wrote) -> None:
    """What a row doesn't show has to be as before."""
    assert wrote.signal == (SIGTRAP if row.text == "ebreak" else 0), row
    assert "pc" in after or wrote.pc == CODE + 4, row
    assert "a2" in after or wrote.a2 == 9, row
    assert "data" in after or wrote.data == row.data, row
    assert "reserved" not in after or wrote.freed == ("reserved" in before), row


def line(row: Row, before: Sequence[str], after: Sequence[str], word: int, wrote: Wrote) -> str:
    """The line of a row, of which this word was made, and this written."""
    check(row, before, after, wrote)
    taken = {"a0": row.a0, "a1": row.a1, "a2": 9, **{it: getattr(row, it) for it in before}}
    reserved = None if wrote.freed else DATA
    given = {"pc": wrote.pc, "a2": wrote.a2, "data": wrote.data, "reserved": reserved}
    # What is 0, or not reserved, needs no word.
    parts = [f"word 0x{word:08X}", *(f"{name}={number(value)}" for name, value in taken.items() if value), "gives"]
    if "end" in after and row.text in ENDS:
        parts.append(f"end={ENDS[row.text]}")
    parts += [f"{name}={number(value)}" for name, value in given.items() if name in after]
    # A FENCE comes back without what is ignored of it.
    if row.text.split()[0] == "fence":
        parts.append(f"again={number(0xF)}")
    return " ".join([*parts, "#", row.text])


def main(words: Sequence[str]) -> int | None:
    """Writes the rows."""
    if words:
        return None
    above, head, rest = STDIN.read_text(encoding="utf-8").partition(HEAD)
    assert head
    lines = []
    for made, before, after in TABLES:
        rows = list(made())
        lines += [line(it, before, after, *ran) for it, ran in zip(rows, run(rows), strict=True)]
    below = "".join(rest.partition("\n\n")[1:])
    STDIN.write_text(above + head + "\n".join(lines) + (below or "\n"), encoding="utf-8")
    return 0
