"""Makes guests by a cross compiler, and runs them under qemu-riscv32. What stands in the repository was made by GCC
12.2.0 with GNU as and ld 2.40, and run by qemu 7.2.22."""
import pathlib
import subprocess
import tempfile
from collections.abc import Sequence

from rrv_tools.program import Result

COMPILER, QEMU = "riscv64-unknown-elf-gcc", "qemu-riscv32"
STATIC = "-march=rv32ima -mabi=ilp32 -nostdlib -static -s -Wl,--build-id=none,-z,max-page-size=4096".split()
# Code after the headers of its file, and zeros in the page after it.
LAYOUT = """
PHDRS { code PT_LOAD FILEHDR PHDRS FLAGS(5); data PT_LOAD FLAGS(6); }
SECTIONS {
  . = 0x10000 + SIZEOF_HEADERS;
  .text : { *(.text) } :code
  . = 0x11000;
  .bss : { *(.bss) } :data
  /DISCARD/ : { *(.riscv.attributes) }
}
"""


def compiled(source: pathlib.Path, layout: str = "", flags: Sequence[str] = STATIC) -> bytes:
    """The file of a guest of this source, by a linker script if one is given."""
    with tempfile.TemporaryDirectory() as folder:
        made, script = pathlib.Path(folder, "made"), pathlib.Path(folder, "layout")
        script.write_text(layout, encoding="ascii")
        laid_out = ["-T", str(script)] if layout else []
        subprocess.run([COMPILER, *flags, source.name, *laid_out, "-o", made], cwd=source.parent, check=True)
        return made.read_bytes()


def _under_qemu(file: bytes, *options: str) -> Result:
    with tempfile.TemporaryDirectory() as folder:
        guest = pathlib.Path(folder, "guest")
        guest.write_bytes(file)
        guest.chmod(0o755)
        ran = subprocess.run([QEMU, *options, guest], capture_output=True, check=False)
        return Result(ran.returncode, ran.stdout, ran.stderr)


def run(file: bytes) -> Result:
    """Runs a guest."""
    return _under_qemu(file)


def instructions(file: bytes) -> int:
    """How many instructions a guest runs."""
    return _under_qemu(file, "-singlestep", "-d", "nochain,exec").err.count(b"Trace ")
