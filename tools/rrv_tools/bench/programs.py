"""The programs that are measured, and the guests of bench/guests.

If the environment variable RRV_PROGRAM names a program, that one is measured as rrv, and no program is built: what
needs `rates` is left out, or ends by saying so.
"""
import os
import pathlib
import shutil
import subprocess
import sys

from rrv_tools.program import ROOT
from rrv_tools.toolchain import COMPILER, QEMU

GUESTS = ROOT / "bench" / "guests"
# How the ELF files beside the sources were made.
FLAGS = ("-march=rv32ima -mabi=ilp32 -O2 -fno-tree-loop-distribute-patterns -nostdlib -static "
         "-Wl,-z,max-page-size=4096 -Wl,--build-id=none -s").split()
PLAIN_FLAGS = "--edition 2024 -O -C target-cpu=x86-64-v2".split()
GIVEN = os.environ.get("RRV_PROGRAM")


def build(name: str) -> list[str]:
    """The words that run a program of crates/, built by `rt run`; or, of rrv, the program that RRV_PROGRAM names."""
    if GIVEN:
        return [GIVEN] if name == "rrv" else sys.exit(f"RRV_PROGRAM is set, so {name} isn't built")
    crate = ROOT / "crates" / name
    done = subprocess.run(["rt", "run"], cwd=crate, capture_output=True, text=True, check=False)
    if done.returncode != 0:
        sys.exit(done.stdout + done.stderr)
    return [str(crate / "out" / name)]


def build_beside(name: str, *words: str) -> list[str] | None:
    """The words that run another program of crates/; None if RRV_PROGRAM is set, since then none is built."""
    return None if GIVEN else [*build(name), *words]


def build_plain(name: str) -> list[str] | None:
    """The words that run a program of bench/plain; None if rustc isn't installed."""
    if not shutil.which("rustc"):
        return None
    out = ROOT / "crates" / "rates" / "out" / f"plain_{name}"
    out.parent.mkdir(exist_ok=True)
    subprocess.run(["rustc", *PLAIN_FLAGS, "-o", out, ROOT / "bench" / "plain" / f"{name}.rs"], check=True)
    return [str(out)]


def qemu() -> list[str] | None:
    """The words that run a guest by qemu-riscv32; None if that isn't installed."""
    found = shutil.which(QEMU)
    return [found] if found else None


def build_guest(name: str, turns: int, folder: pathlib.Path) -> pathlib.Path:
    """A guest of bench/guests with this many turns, as an ELF file in a folder."""
    source = next(it for it in (GUESTS / f"{name}.S", GUESTS / f"{name}.c") if it.exists())
    made = folder / f"{name}_{turns}.elf"
    subprocess.run([COMPILER, *FLAGS, f"-DTURNS={turns}", "-o", made, source], check=True)
    return made
