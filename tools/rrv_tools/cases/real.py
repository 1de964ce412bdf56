"""Real programs of Debian, built over musl: what they print as guests is what they print on the machine.

Expected values: what the same source prints on the same input, built by the machine's own compiler.

`examples/real/try` fetches a source, builds it twice, runs it, records it, verifies and replays it. Only `./check
--real` does. Without the source, or a program that a recipe needs, a case is left out.
"""
import os
import re

from rrv_tools.musl import ABSENT, BUILD_SECONDS, REAL, MuslCase, need_cxx, ran
from rrv_tools.testing import rows

SECONDS = r"\d+\.\d\d"
RECIPES = {it.stem: it.stem for it in sorted(REAL.glob("*.recipe"))}


@rows(RECIPES, "try_recipe")
class Recipes(MuslCase):
    """The recipes of examples/real."""

    seconds = 1500

    def try_recipe(self, name: str) -> None:
        """The program prints the same as a guest."""
        if "is_cxx=1" in (REAL / f"{name}.recipe").read_text(encoding="utf-8"):
            need_cxx()
        done = ran([REAL / "try", name, "built"], BUILD_SECONDS, {"RRV": str(self.program.path)})
        text = done.stderr.decode(errors="replace").strip()
        if done.returncode != 0 and any(it in text for it in ABSENT):
            self.skipTest(text.rpartition("\n")[2])
        self.need(f"{text}\nstatus", 0, done.returncode)
        if not re.fullmatch(rf"{name}: \d+ bytes in, [1-9]\d* out, "
                            r"calls=\d+ records=\d+ instructions=\d+ end exited 0, "
                            rf"{SECONDS} s to record, {SECONDS} to verify(, {SECONDS} under qemu-riscv32)?\n",
                            done.stdout.decode()):
            raise self.failureException(f"{name} prints {done.stdout!r} in {os.getcwd()}")
