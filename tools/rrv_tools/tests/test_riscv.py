"""The assembler beside words that others made: GNU as 2.40, which made those of crates/machine_cases/stdin, and the
ISA manual, by whose tables others of that file were taken apart by hand."""
import re
import unittest

from rrv_tools import riscv
from rrv_tools.program import ROOT
from rrv_tools.testing import rows

NAMES = ["zero", "ra", "sp", "gp", "tp", "t0", "t1", "t2", "s0", "s1"]
NAMES += [*(f"a{it}" for it in range(8)), *(f"s{it}" for it in range(2, 12)), *(f"t{it}" for it in range(3, 7))]
REGISTERS = {**{name: number for number, name in enumerate(NAMES)}, **{f"x{it}": it for it in range(32)}}
ORDERINGS = {"": 0, "rl": 1, "aq": 2, "aqrl": 3}
ROW = re.compile(r"(?:word|decodes) (0x[0-9A-F]{8}) .*# ([a-z.]+)(?: (\S.*))?")


def rows_of_words() -> dict[str, tuple[int, str, str]]:
    """The rows that have a word and its text: the word, the mnemonic and the operands."""
    found = {}
    for line in (ROOT / "crates" / "machine_cases" / "stdin").read_text(encoding="utf-8").splitlines():
        it = ROW.fullmatch(line)
        if it and has_function(it[2]):
            found[f"{it[2]} {it[1]}"] = int(it[1], 16), it[2], it[3] or ""
    return found


def has_function(mnemonic: str) -> bool:
    """Whether the assembler has this mnemonic. What a FENCE orders isn't told by its word alone."""
    return mnemonic != "fence" and name_of(mnemonic)[0] in (*vars(riscv), "fence_i", "ecall", "ebreak")


def name_of(mnemonic: str) -> tuple[str, str]:
    """The function of a mnemonic, and its ordering."""
    name, dot, ordering = mnemonic.partition(".w.")
    name = (name + dot.removesuffix(".")).replace(".", "_")
    return {"and": "and_", "or": "or_"}.get(name, name), ordering


def operands_of(text: str) -> list[int]:
    """The operands in the order of the assembler's: registers, and numbers; an address is its base and then its
    offset. What has a blank is a remark."""
    found = []
    for it in (word.removeprefix(". + ") for word in text.split(", ")):
        address = re.fullmatch(r"(-?\w*)\((\w+)\)", it)
        if address:
            found += [REGISTERS[address[2]], *([int(address[1], 0)] if address[1] else [])]
        elif it and " " not in it:
            found.append(REGISTERS[it] if it in REGISTERS else int(it, 0))
    return found


@rows(rows_of_words(), "assemble")
class Words(unittest.TestCase):
    """Each word of the rows."""

    def assemble(self, row: tuple[int, str, str]) -> None:
        """A row's text has its word."""
        word, mnemonic, text = row
        name, ordering = name_of(mnemonic)
        made = getattr(riscv, name.upper() if not text else name)
        found = made if isinstance(made, int) else made(*operands_of(text))
        self.assertEqual(f"{found | ORDERINGS[ordering] << 25:08x}", f"{word:08x}")

    def test_there_are_many(self) -> None:
        """The rows have been found: more than two hundred, of sixty mnemonics."""
        found = rows_of_words()
        self.assertGreater(len(found), 200)
        self.assertGreater(len({mnemonic for _, mnemonic, _ in found.values()}), 60)


class Sequences(unittest.TestCase):
    """Several words."""

    def test_li(self) -> None:
        """LUI takes one more if ADDI subtracts: `lui a0, 0xa7; addi a0, a0, -1688` is 0xa6968, and `lui a0, 0; addi
        a0, a0, 5` is 5."""
        self.assertEqual(riscv.li(riscv.A0, 0xA6968), [0x000A7537, 0x96850513])
        self.assertEqual(riscv.li(riscv.A0, 5), [0x00000537, 0x00550513])
        self.assertEqual(riscv.li(riscv.A0, -1), riscv.li(riscv.A0, 0xFFFFFFFF))

    def test_call(self) -> None:
        """`li a7, 93; ecall`, after an argument that a list sets."""
        self.assertEqual(riscv.call(93, [0x00500513]), [0x00500513, 0x05D00893, 0x00000073])

    def test_counted_down(self) -> None:
        """`addi a0, a0, -1; bne a0, zero, -4`."""
        self.assertEqual(riscv.counted_down(riscv.A0, []), [0xFFF50513, 0xFE051EE3])

    def test_a_branch_reaches_4_kib(self) -> None:
        """Past that, or to an odd place, there is none."""
        self.assertEqual(riscv.bne(riscv.A0, riscv.ZERO, -4096) >> 31, 1)
        for offset in (-4098, 4096, 3):
            with self.assertRaises(ValueError):
                riscv.bne(riscv.A0, riscv.ZERO, offset)
