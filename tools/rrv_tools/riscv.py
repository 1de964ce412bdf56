"""An assembler of RV32IMA: a function for each mnemonic of the ISA manual (20191213, volume I) gives the instruction's
word.

Operands stand in the order of the assembler's: the destination first, of a store and a branch the sources; an address
is its base register and then the offset. Registers are numbers, by their ABI names; the temporary ones by X and their
number. Of an immediate and an offset the low bits are taken, as many as the format has; branches and jumps refuse what
they can't reach by a ValueError.
"""
import struct
from collections.abc import Callable, Sequence

ZERO, RA, SP, GP, TP, X5, X6, X7, S0, S1 = range(10)
A0, A1, A2, A3, A4, A5, A6, A7 = range(10, 18)
S2, S3, S4, S5, S6, S7, S8, S9, S10, S11 = range(18, 28)
X28, X29, X30, X31 = range(28, 32)

# An instruction of three operands; one of two.
Three = Callable[[int, int, int], int]
Two = Callable[[int, int], int]
MASK = 0xFFFFFFFF


# ---- formats, section 2.2 of the manual


def r_type(opcode: int, funct3: int, funct7: int, rd: int, rs1: int, rs2: int) -> int:
    """The word of an instruction between registers."""
    return funct7 << 25 | rs2 << 20 | rs1 << 15 | funct3 << 12 | rd << 7 | opcode


def i_type(opcode: int, funct3: int, rd: int, rs1: int, immediate: int) -> int:
    """The word of an instruction with an immediate of 12 bits."""
    return (immediate & 0xFFF) << 20 | rs1 << 15 | funct3 << 12 | rd << 7 | opcode


def s_type(funct3: int, source: int, base: int, offset: int) -> int:
    """The word of a store, whose offset has 12 bits."""
    return r_type(0x23, funct3, offset >> 5 & 0x7F, offset & 0x1F, base, source)


def b_type(funct3: int, rs1: int, rs2: int, offset: int) -> int:
    """The word of a branch, whose offset is even and has 13 bits."""
    _need_reach(offset, 13)
    high, low = (offset >> 12 & 1) << 6 | offset >> 5 & 0x3F, offset & 0x1E | offset >> 11 & 1
    return r_type(0x63, funct3, high, low, rs1, rs2)


def u_type(opcode: int, rd: int, upper: int) -> int:
    """The word of an instruction with an immediate of the upper 20 bits, which is given as a number of 20 bits."""
    return (upper & 0xFFFFF) << 12 | rd << 7 | opcode


def jal(rd: int, offset: int) -> int:
    """The word of a jump, whose offset is even and has 21 bits."""
    _need_reach(offset, 21)
    bits = (offset >> 20 & 1) << 19 | (offset >> 1 & 0x3FF) << 9 | (offset >> 11 & 1) << 8 | offset >> 12 & 0xFF
    return bits << 12 | rd << 7 | 0x6F


def atomic(funct5: int, rd: int, base: int, source: int, ordering: int = 0) -> int:
    """The word of an instruction of the extension A, of words. `ordering` has aq as 2 and rl as 1."""
    return r_type(0x2F, 2, funct5 << 2 | ordering, rd, base, source)


def _need_reach(offset: int, bits: int) -> None:
    if offset & 1 or not -1 << bits - 1 <= offset < 1 << bits - 1:
        raise ValueError(f"no branch or jump reaches so far: {offset}")


def _register(funct3: int, funct7: int) -> Three:
    return lambda rd, rs1, rs2: r_type(0x33, funct3, funct7, rd, rs1, rs2)


def _immediate(opcode: int, funct3: int, high: int = 0) -> Three:
    return lambda rd, rs1, immediate: i_type(opcode, funct3, rd, rs1, immediate | high << 5)


def _store(funct3: int) -> Three:
    return lambda source, base, offset: s_type(funct3, source, base, offset)


def _branch(funct3: int) -> Three:
    return lambda rs1, rs2, offset: b_type(funct3, rs1, rs2, offset)


def _atomic(funct5: int) -> Three:
    return lambda rd, source, base: atomic(funct5, rd, base, source)


# ---- instructions

lui: Two = lambda rd, upper: u_type(0x37, rd, upper)  # noqa: E731
auipc: Two = lambda rd, upper: u_type(0x17, rd, upper)  # noqa: E731
jalr = _immediate(0x67, 0)
beq, bne, blt, bge, bltu, bgeu = map(_branch, (0, 1, 4, 5, 6, 7))
# rd, base, offset
lb, lh, lw, lbu, lhu = (_immediate(0x03, it) for it in (0, 1, 2, 4, 5))
# source, base, offset
sb, sh, sw = map(_store, (0, 1, 2))
addi, slti, sltiu, xori, ori, andi = (_immediate(0x13, it) for it in (0, 2, 3, 4, 6, 7))
slli, srli, srai = _immediate(0x13, 1), _immediate(0x13, 5), _immediate(0x13, 5, 0x20)
add, sll, slt, sltu, xor, srl, or_, and_ = (_register(it, 0) for it in range(8))
sub, sra = _register(0, 0x20), _register(5, 0x20)
mul, mulh, mulhsu, mulhu, div, divu, rem, remu = (_register(it, 1) for it in range(8))
# rd, source, base
amoadd_w, amoswap_w, sc_w, amoxor_w, amoor_w, amoand_w = map(_atomic, (0, 1, 3, 4, 8, 12))
amomin_w, amomax_w, amominu_w, amomaxu_w = map(_atomic, (16, 20, 24, 28))
lr_w: Two = lambda rd, base: atomic(2, rd, base, ZERO)  # noqa: E731
NOP, FENCE, FENCE_I, ECALL, EBREAK = 0x13, 0x0FF0000F, 0x100F, 0x73, 0x00100073
RET = jalr(ZERO, RA, 0)


# ---- several instructions


def li(rd: int, number: int) -> list[int]:
    """Two words always, LUI and ADDI, that set a register to a number of 32 bits; so the length of code doesn't depend
    on it."""
    return [lui(rd, (number & MASK) + 0x800 >> 12), addi(rd, rd, number)]


def call(number: int, *arguments: int | Sequence[int]) -> list[int]:
    """A call of the system: its arguments from a0 on, each a number, or the words that set its register, and its
    number in a7."""
    sets = (li(A0 + place, it) if isinstance(it, int) else it for place, it in enumerate(arguments))
    return [*(word for words in sets for word in words), addi(A7, ZERO, number), ECALL]


def counted_down(register: int, body: Sequence[int]) -> list[int]:
    """A body that runs until it has counted a register down to zero; it may have 1,022 words."""
    return [*body, addi(register, register, -1), bne(register, ZERO, -4 * len(body) - 4)]


def code(words: Sequence[int]) -> bytes:
    """The bytes of words."""
    return struct.pack(f"<{len(words)}I", *words)
