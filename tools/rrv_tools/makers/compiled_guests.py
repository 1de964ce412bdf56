"""Makes the guests of tools/guests that a compiler makes.

usage: tools/run compiled_guests

writes each into tools/guests, with what it prints, and with its records as `rrv dump` and `rrv verify` have to print
them. Those of one thread that sieves and sorts, and of several threads, are worked out by a restatement (threads.py).
What every_instruction.S prints, and how many instructions it runs, is what qemu-riscv32 gives; breakpoint.elf is the
same with a breakpoint in place of its last call. Needs riscv64-unknown-elf-gcc and qemu-riscv32.
"""
import signal
from collections.abc import Sequence

from rrv_tools import elf, toolchain
from rrv_tools.guests import path_of
from rrv_tools.program import GUESTS
from rrv_tools.records import Call, Fault
from rrv_tools.riscv import EBREAK, ECALL, code
from rrv_tools.threads import Guest, round_robin

ASSEMBLED = "-march=rv32ima -mabi=ilp32 -nostdlib -static -s -Wl,-z,max-page-size=4096 -Wl,--build-id=none".split()
COMPILED = [*ASSEMBLED, "-ffreestanding", "-Os"]
WITH_SYMBOLS = [it for it in ASSEMBLED if it != "-s"] + ["-ffreestanding", "-O1"]
WITH_FENCES = [it.replace("rv32ima", "rv32ima_zifencei") for it in toolchain.STATIC]


def keep(name: str, file: bytes, output: bytes, frames: Sequence[str], count: int, end: str) -> None:
    """Writes a guest, its output, and the lines of its frames and of its end."""
    lines = [f"0 opening name=g0 elf={len(file)}", *frames]
    lines.append(f"ok records={len(lines)} instructions={count} end {end}")
    texts = {"elf": file, "out": output, "records": "".join(f"{it}\n" for it in lines).encode()}
    for suffix, text in texts.items():
        path_of(name, suffix).write_bytes(text)


def keep_by_steps(source: str, flags: Sequence[str], is_steady: bool = True) -> None:
    """A guest by its restatement. A steady one prints the same each time; qemu runs it twenty times."""
    path = GUESTS / source
    file = toolchain.compiled(path, flags=flags)
    guest = Guest(file, b"g0")
    frames, count = guest.run(round_robin())
    printed = {toolchain.run(file).out for _ in range(20)}
    assert printed == {guest.output} or not is_steady
    keep(path.stem, file, guest.output, frames, count, f"exited {guest.ended}")


def keep_every_instruction() -> None:
    """The guest of every_instruction.S: one write, and three instructions after it."""
    file = toolchain.compiled(GUESTS / "every_instruction.S", toolchain.LAYOUT, WITH_FENCES)
    ran, count = toolchain.run(file), toolchain.instructions(file)
    assert ran.status == 0 and len(ran.out) == 248
    # The last word of the first segment.
    last = elf.loads(file)[0].file_size - 4
    assert file[last: last + 4] == code([ECALL])
    broken = elf.changed(file, last, code([EBREAK]))
    assert toolchain.run(broken)[:2] == (-signal.SIGTRAP, ran.out) and toolchain.instructions(broken) == count
    print(f"{len(file)} bytes, {count} instructions, the last at {last}")
    write = f"1 {Call(1, count - 3, len(ran.out), []).line()}"
    keep("every_instruction", file, ran.out, [write, f"2 {Call(1, 3, 0, []).line()}"], count, "exited 0")
    keep("breakpoint", broken, ran.out, [write, f"2 {Fault(1, 3, 2).line()}"], count, "faulted 2")


def main(words: Sequence[str]) -> int | None:
    """Makes the guests."""
    if words:
        return None
    keep_by_steps("primes.c", WITH_SYMBOLS)
    keep_by_steps("lock.c", COMPILED)
    keep_by_steps("race.S", ASSEMBLED, is_steady=False)
    keep_every_instruction()
    return 0
